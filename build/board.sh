# Builds programs for a board with a Cortex-M4 and no operating system, and runs them on QEMU's model of one, the mps2-an386. What a program
# needs of the board is in host_example/board. Sourced from the top of the clone, after build/machine.sh.
cross cortex-m4
board_compiler=$CROSS
have qemu-system-arm || install_packages qemu-system-arm

board=host_example/board
board_words='-mcpu=cortex-m4 -mthumb -mfloat-abi=soft -mno-unaligned-access -std=c11 -O2 -Wall -Wextra -ffunction-sections -fdata-sections'

# Compiles one file for the board. Without -fno-tree-loop-distribute-patterns a compiler makes memcpy's loop a call of memcpy.
board_compile() { # FROM TO WORDS..
    source=$1 object=$2
    shift 2
    # shellcheck disable=SC2086
    $board_compiler $board_words -fno-tree-loop-distribute-patterns "$@" -I$board -Iinclude -c "$source" -o "$object"
}

# Links objects with the start-up, the functions on memory and the archive; -lgcc has the division of 64 bits that the archive calls.
board_link() { # ARCHIVE TO OBJECTS AND WORDS..
    library=$1 linked=$2
    shift 2
    board_compile $board/start.c "$linked.start.o" && board_compile $board/memory.c "$linked.memory.o" || return
    # shellcheck disable=SC2086
    $board_compiler $board_words -nostdlib -T $board/board.ld -Wl,--gc-sections -z noexecstack \
        "$linked.start.o" "$linked.memory.o" "$@" "$library" -lgcc -o "$linked"
}

# Runs a program; the words are what it finds on its command line. Ends with the program's own status.
board_run() { # PROGRAM WORDS..
    program=$1 config=enable=on,target=native,chardev=said,arg=$(basename "$1")
    shift
    for word; do config=$config,arg=$word; done
    qemu-system-arm -M mps2-an386 -display none -monitor none -serial none -chardev stdio,id=said -semihosting-config "$config" \
        -kernel "$program" </dev/null
}
