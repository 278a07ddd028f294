# Sets CC, a C compiler for x86-64, and RUN, what runs an x86-64 program here
# (nothing on x86-64). The library's archive links only into x86-64 programs, so
# another machine takes a cross compiler and an emulator, installed if missing.
# Programs are linked with -static: the emulator then needs no x86-64 libraries.
# Sourced from the top of the clone.

# Where a package can't be had this ends the script with 77, which the gate takes
# for 'left out' and not for a failure; or with the number in without_package,
# where the script has one of its own.
install_packages() {
    if [ "$(id -u)" -eq 0 ]; then as_root=''; else as_root=sudo; fi
    mkdir -p target
    echo "installing from Debian: $*" >&2
    $as_root apt-get update >target/apt.log 2>&1 || true # the lists may be there already
    if ! $as_root env DEBIAN_FRONTEND=noninteractive \
        apt-get install -y --no-install-recommends "$@" >>target/apt.log 2>&1; then
        echo "needs from Debian, and can't install: $* (target/apt.log says why)" >&2
        exit "${without_package:-77}"
    fi
}

have() {
    command -v "$1" >/dev/null 2>&1
}

# cross TARGET: sets CROSS, a C compiler for AArch64 or for a Cortex-M4, with its C library. On an AArch64 machine gcc has that name too.
cross() {
    case $1 in
    aarch64)
        CROSS=aarch64-linux-gnu-gcc
        have $CROSS || install_packages gcc-aarch64-linux-gnu libc6-dev-arm64-cross
        ;;
    cortex-m4)
        CROSS=arm-none-eabi-gcc
        have $CROSS && [ -e /usr/include/newlib/stdint.h ] || install_packages gcc-arm-none-eabi libnewlib-arm-none-eabi
        ;;
    esac
}

if [ "$(uname -m)" = x86_64 ]; then
    have gcc || install_packages gcc libc6-dev
    CC=gcc
    RUN=''
else
    have x86_64-linux-gnu-gcc || install_packages gcc-x86-64-linux-gnu libc6-dev-amd64-cross
    have qemu-x86_64 || have qemu-x86_64-static || install_packages qemu-user
    CC=x86_64-linux-gnu-gcc
    RUN=qemu-x86_64
    have qemu-x86_64 || RUN=qemu-x86_64-static
fi
