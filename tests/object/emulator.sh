# After build/machine.sh. For tests and benches that emulate single functions: the emulator library Unicorn, installed if missing, and how
# such programs are built.
have cc || install_packages gcc libc6-dev
[ -e /usr/include/unicorn/unicorn.h ] || install_packages libunicorn-dev

# emulate TARGET: sets CC, CFLAGS and AFTER, for C that is emulated on that machine. It is for the same plain processor as the library is, without
# what some compilers add of themselves. A Cortex-M4 has its memcpy and its division of the board's C library.
emulate() {
    CFLAGS='-std=c11 -O3 -fno-pie -fno-stack-protector' AFTER=''
    case $1 in
    x86_64) CFLAGS="$CFLAGS -fcf-protection=none" ;;
    aarch64) CFLAGS="$CFLAGS -mno-outline-atomics" ;;
    cortex-m4)
        CFLAGS="$CFLAGS -mcpu=cortex-m4 -mthumb -mfloat-abi=soft"
        AFTER='-Wl,-Ttext-segment=0x400000 -Wl,-z,noexecstack -Wl,--no-whole-archive -lc -lgcc'
        ;;
    esac
    [ "$1" = x86_64 ] || { cross "$1" && CC=$CROSS; }
}
emulate x86_64

# link OUT FILES..: a program for tests/object/emulator.h
link() {
    into=$1
    shift
    $CC $CFLAGS -no-pie -static -nostdlib -Wl,-e,0 -Wl,--whole-archive "$@" tests/object/memory.c $AFTER -o "$into"
}

# native OUT FILES..: a program of this machine
native() {
    into=$1
    shift
    cc -std=gnu11 -O2 -Wall -Wextra -Iinclude -Itests/host -Itests/object "$@" tests/object/emulator.c -lunicorn -o "$into"
}
