# build_library makes target/staticlib/libhost.a, unless the archive there is that of the sources as they stand. For scripts that link or
# install it, sourced from the top of the clone. rt makes the archive by checking crate host itself once more each time; what host stands on is not
# proved again where it has not changed. So a key beside the archive tells what it was made of.
. build/proving.sh

archive=target/staticlib/libhost.a

# All that goes into an archive. The sources of every crate count, also of those that host does not stand on: then a key can miss none.
sources_key() {
    {
        "$rt" version
        uname -m
        cat crates.txt
        find crates/*/src crates/*/specs crates/*/proofs -type f -exec sha256sum {} + | sort
    } | sha256sum
}

# The archive itself counts too: a build by hand, of other sources, may have taken its place.
archive_key() { # SOURCES
    echo "$1"
    sha256sum "$archive"
}

library_stands() {
    archive_key "$(sources_key)" 2>/dev/null | cmp -s - "$archive.key"
}

# rt leaves the archive in the crate's own folder.
prove_and_archive() { # LOG
    run_rt "$1" "$(crates_under host | wc -l)" host lib && cp crates/host/out/libhost.a "$archive"
}

# The old key goes before the build and the new one comes after it, so a build that is broken off leaves none.
make_library() {
    ! library_stands || return 0 # another command may have made it meanwhile
    log=target/staticlib/libhost.log
    sources=$(sources_key)
    mkdir -p target/staticlib || return
    rm -f "$archive.key" "$archive" "$log"
    echo "the library is proved first: from nothing that takes four to eight minutes on two cores" >&2
    if ! prove_and_archive "$log"; then
        tail -n 20 "$log" >&2
        echo "the library could not be built; all that rt said is in $log" >&2
        return 1
    fi
    if [ "$(sources_key)" != "$sources" ]; then
        echo "a source changed while the library was built: build it again" >&2
        return 1
    fi
    archive_key "$sources" >"$archive.key.new" && mv "$archive.key.new" "$archive.key"
}

build_library() {
    if [ ! -x "$rt" ]; then
        echo "there is no rt on the path to build the library with" >&2
        return 1
    fi
    library_stands || alone make_library
}
