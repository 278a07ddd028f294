# build_for TARGET makes the library's archive for a machine, x86_64, aarch64 or cortex-m4, and sets `built` to its path. That for x86-64 is rt's
# own. For another machine the kit's compiler gets the module of the proved build once more, with the machine's words in the place of x86-64's.
# Sourced from the top of the clone.
. build/library.sh

module=target/module/host.bc

# The folder of the kit, as rt finds it.
kit_folder() {
    printf '%s\n' "${RATTLE_HOME:-$(dirname "$(dirname "$(readlink -f "$rt")")")}"
}

kit_compiler() {
    printf '%s\n' "$(kit_folder)/toolchain/bin/clang"
}

# ---- The module

# Links to all that stands in a folder, but for one thing.
link_all_but() { # FOLDER THING TO
    mkdir -p "$3" || return
    for thing in "$1"/*; do
        [ "$(basename "$thing")" = "$2" ] || ln -s "$thing" "$3" || return
    done
}

# The kit, with a compiler that keeps a copy of the module that it is handed, and of the words, and then does its work. A program of the kit finds the kit by
# where it stands itself, so the programs are no symbolic links.
kit_that_keeps() { # FOLDER
    home=$(kit_folder)
    rm -rf "$1"
    mkdir -p "$1" || return
    for thing in "$home"/*; do
        case $(basename "$thing") in bin | toolchain) ;; *) ln -s "$thing" "$1" || return ;; esac
    done
    cp -rl "$home/bin" "$1" 2>/dev/null || { rm -rf "$1/bin" && cp -r "$home/bin" "$1"; } || return
    link_all_but "$home/toolchain" bin "$1/toolchain" &&
        link_all_but "$home/toolchain/bin" clang "$1/toolchain/bin" || return
    cat >"$1/toolchain/bin/clang" <<END_OF_FILE
#!/bin/sh
[ ! -e '$PWD/$module' ] || { echo "more than one module is handed over" >&2; exit 1; }
for word; do
    case \$word in *.bc) cp "\$word" '$PWD/$module' || exit ;; esac
done
printf '%s\n' "\$@" >'$PWD/$module.words' || exit
exec '$home/toolchain/bin/clang' "\$@"
END_OF_FILE
    chmod +x "$1/toolchain/bin/clang"
}

module_key() {
    cat "$archive.key" && sha256sum "$module" "$module.words"
}

module_stands() {
    library_stands && module_key 2>/dev/null | cmp -s - "$module.key"
}

# rt proves crate host once more and makes its archive once more. That it is the archive that stands, byte for byte, shows that the module is
# the one that was proved and that x86-64 has.
make_module() {
    ! module_stands || return 0
    echo "the module of the proved library is made: some 50 s" >&2
    mkdir -p target/module || return
    log=target/module/host.log
    rm -rf "$module" "$module".* "$log" target/module/kit
    before=$(sha256sum <"$archive")
    # The links stand outside the clone: rt ci takes no repository with a link in it.
    links=$(mktemp -d) || return
    made=true
    { kit_that_keeps "$links/kit" && (rt=$links/kit/bin/rt && run_rt "$log" 1 host lib && cp crates/host/out/libhost.a "$archive"); } || made=false
    rm -rf "$links"
    if ! $made; then
        [ ! -e "$log" ] || tail -n 20 "$log" >&2
        echo "the module could not be made; all that rt said is in $log" >&2
        return 1
    fi
    if [ ! -s "$module" ] || [ "$(sha256sum <"$archive")" != "$before" ]; then
        echo "the kit did not make the archive of these sources again: its module is not taken" >&2
        return 1
    fi
    module_key >"$module.key.new" && mv "$module.key.new" "$module.key"
}

# ---- The machines

# What the kit's compiler is told of a machine. A Cortex-M4 may trap accesses that are not aligned, so there are none.
machine_words() { # TARGET
    case $1 in
    aarch64) echo --target=aarch64-unknown-linux-gnu -fPIC ;;
    cortex-m4) echo --target=thumbv7em-none-eabi -mcpu=cortex-m4 -mfloat-abi=soft -mno-unaligned-access ;;
    esac
}

is_target() { # TARGET
    case $1 in x86_64 | aarch64 | cortex-m4) ;; *) return 1 ;; esac
}

# The triple and the data layout of a machine, as the kit's compiler has them. Fails where it does not have the machine.
machine_layout() { # TARGET
    # shellcheck disable=SC2046
    echo | "$(kit_compiler)" $(machine_words "$1") -x c - -S -emit-llvm -o - 2>/dev/null | grep '^target '
}

# Whether the kit's compiler has a machine, so that nothing is built in vain. Where there is no kit at all, building tells.
has_target() { # TARGET
    [ "$1" = x86_64 ] || [ ! -x "$rt" ] || machine_layout "$1" >/dev/null
}

compiler_name() {
    "$(kit_compiler)" --version 2>/dev/null | head -n 1
}

# In the module an address is a number of 64 bits, and a pointer behind a byte lies 8 bytes behind it. Where addresses have 32 bits, the word that takes
# one as a number is ptrtoint, which fills it up with zeros; and such a pair is read from memory part by part, since a whole one would be read as
# that machine lays it out, with the pointer 4 bytes behind the byte.
narrow_address='s/= ptrtoaddr ptr \(%[^ ]*\) to i64$/= ptrtoint ptr \1 to i64/'
narrow_pair='s/^  \(%[^ ]*\) = load { i8, ptr }, ptr \(%[^ ,]*\), align 8.*$/  \1.tag = load i8, ptr \2, align 8\n  \1.place = getelementptr i8, ptr \2, i64 8\n  \1.pointer = load ptr, ptr \1.place, align 8\n  \1.half = insertvalue { i8, ptr } poison, i8 \1.tag, 0\n  \1 = insertvalue { i8, ptr } \1.half, ptr \1.pointer, 1/'

# The module for a machine, as text. It names x86-64 in three ways: its triple, its data layout and its processor. A length has 64 bits in it; where
# size_t has 32 its calls get other names, and build/face is between them and the header's.
module_for() { # TARGET LAYOUT FOLDER
    text=$3/module.ll layout=$(echo "$2" | sed -n '/^target datalayout/p') triple=$(echo "$2" | sed -n '/^target triple/p')
    set -- "$1" -e "s|^target datalayout = .*|$layout|" -e "s|^target triple = .*|$triple|" -e '/^attributes /s/ "target-cpu"="[^"]*"//'
    # Attribute 28 is how numbers of floating point are handed over. None are: 3 suits every program.
    [ "$1" != cortex-m4 ] || set -- "$@" -e 's/@\(hz_[a-z_]*\)(/@\1_64(/' -e '/^target triple/a module asm ".eabi_attribute 28, 3"' \
        -e "$narrow_address" -e "$narrow_pair"
    shift
    "$(kit_compiler)" -x ir "$module" -S -emit-llvm -Xclang -disable-llvm-passes -o "$text.x86_64" && sed "$@" "$text.x86_64" >"$text"
}

# Whether all that the module keeps in memory lies alike on a machine with pointers of 4 bytes: pointers, numbers and bytes, each by itself, and pairs
# whose second part is 8 bytes behind the first, or a byte behind a byte. Places are told in bytes, and constants are bytes.
is_laid_out_alike() { # TEXT
    [ -s "$1" ] || return
    ! grep -E '(^@|[ (](load|store|alloca|getelementptr|sret|byval)[ (])' "$1" |
        grep -qvE -e ' (load|store|alloca) (ptr|i8|i16|i32|i64|[[][0-9]+ x i8[]]|[{] (ptr, i64|i64, ptr|i(8|64), i(8|64)) [}])[ ,]' \
            -e ' getelementptr (inbounds nuw )?i8, ' -e '^@[^ ]* = .* constant [[][0-9]+ x i8[]] ' || return
    ! grep getelementptr "$1" | grep -qvE ' getelementptr (inbounds nuw )?i8, '
}

# Compiles it by the kit's own words for x86-64, but for those that name the machine.
compile_for() { # TARGET FOLDER
    # shellcheck disable=SC2046
    set -- "$2" $(machine_words "$1")
    while IFS= read -r word; do
        case $word in
        --target=* | -march=* | --sysroot=* | -fPIC) ;;
        *.bc) set -- "$@" "$1/module.ll" ;;
        *.o) set -- "$@" "$1/hostozaro.o" ;;
        *) set -- "$@" "$word" ;;
        esac
    done <"$module.words"
    shift
    "$(kit_compiler)" "$@"
}

target_key() { # TARGET FOLDER
    cat "$module.key" && sha256sum build/target.sh build/face/* include/hostozaro.h "$2/libhostozaro.a"
}

make_target() { # TARGET FOLDER
    ! target_key "$1" "$2" 2>/dev/null | cmp -s - "$2/key" || return 0
    tools=$(dirname "$(kit_compiler)")
    if ! layout=$(machine_layout "$1"); then
        echo "the kit's compiler ($(compiler_name)) does not have $1" >&2
        return 1
    fi
    rm -rf "$2"
    mkdir -p "$2" && module_for "$1" "$layout" "$2" || return
    if [ "$1" = cortex-m4 ] && ! is_laid_out_alike "$2/module.ll"; then
        echo "a value in the module would lie otherwise where pointers have 4 bytes: build/target.sh knows of no way to read it" >&2
        return 1
    fi
    compile_for "$1" "$2" && set -- "$1" "$2" "$2/hostozaro.o" || return
    if [ "$1" = cortex-m4 ]; then
        # shellcheck disable=SC2046
        "$tools/clang" $(machine_words "$1") -O3 -Wall -Wextra -Werror -ffreestanding -ffunction-sections -nostdinc -Ibuild/face -Iinclude -c build/face/face.c \
            -o "$2/face.o" && set -- "$@" "$2/face.o" || return
    fi
    folder=$2 name=$1
    shift 2
    "$tools/llvm-ar" rcs "$folder/libhostozaro.a" "$@" && target_key "$name" "$folder" >"$folder/key.new" && mv "$folder/key.new" "$folder/key"
}

build_for() { # TARGET
    build_library || return
    built=$archive
    [ "$1" != x86_64 ] || return 0
    built=target/$1/libhostozaro.a
    { module_stands || alone make_module; } && alone make_target "$1" "target/$1"
}
