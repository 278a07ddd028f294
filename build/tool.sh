# For the commands that hand what a person typed to a program of tool/: ./solve and ./exchange. Sourced by its full path, since the words are
# looked at in the caller's folder. Before that the command sets `here`, the top of the clone, `command`, its own name, and `use`, its words.

say() { printf '%s: %s\n' "$command" "$*" >&2; }

usage() { # WHY
    say "$1: $use (./$command --help tells all)"
    exit 2
}

# Opens the input as 3, before anything is built: FILE, or standard input where it is -. `name` is what messages call it.
open_input() { # FILE
    file=$1
    if [ -z "$file" ]; then
        usage "FILE is blank"
    elif [ "$file" = - ]; then
        name='standard input'
        { : 3<&0; } 2>/dev/null || { say "$name is closed"; exit 2; }
        exec 3<&0
    else
        name=$file
        [ ! -d "$file" ] || { say "$file is a folder"; exit 2; }
        reason=$({ : <"$file"; } 2>&1) || { say "$file can't be read: ${reason##*: }"; exit 2; }
        exec 3<"$file"
    fi
}

# Compiles the program, unless it is that of its parts as they stand.
compile() {
    local out=target/tool sources=("tool/$command.c" tool/typed.c) key
    key=$("$CC" --version && sha256sum "${sources[@]}" tool/typed.h include/hostozaro.h "$archive") || return
    if [ -x "$out/$command" ] && [ "$key" = "$(cat "$out/$command.key" 2>/dev/null)" ]; then return; fi
    mkdir -p "$out" && rm -f "$out/$command.key" || return
    "$CC" -std=c11 -O2 -Wall -Wextra -static -Iinclude "${sources[@]}" "$archive" -o "$out/$command.$$" &&
        mv "$out/$command.$$" "$out/$command" && printf '%s\n' "$key" >"$out/$command.key"
}

# Builds the program, and the library before it where its sources have changed, and runs it on the input. HINT is for one who types it in.
run_program() { # HINT WORDS..
    local hint=$1
    shift
    cd "$here" || exit 3
    without_package=3
    . build/machine.sh </dev/null
    . build/library.sh
    if ! { build_library && compile; } </dev/null >&2; then # the record or the answer alone goes to standard output
        say "the program could not be built"
        exit 3
    fi
    if [ "$file" = - ] && [ -t 3 ]; then say "$hint, and end it with Ctrl-D"; fi
    # shellcheck disable=SC2086
    exec $RUN "$here/target/tool/$command" "$@" <&3 3<&-
}
