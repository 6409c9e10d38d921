# toolchain.sh: sourced by host/run and bench/run; finds what builds and runs a program for the processor of an archive.
# use_archive FILE sets: machine (the archive's), compile (C compiler), link (its link options), emulator (empty where none is
# needed) and rust_target (an option for rustc).
#
# What is missing is installed from Debian's packages, where that may be done. Where it may not, a script fails with the packages'
# names if CI is set, and says 'skipped: ..' if it is not. What the machine's own processor rules out is always skipped.

flags='-std=c11 -O2 -Wall -Wextra -Wpedantic -Werror'

# Says what is skipped, and goes on.
skipped() {
    echo "skipped: $*"
}

# Says what is skipped, and ends the script well.
skip() {
    skipped "$@"
    exit 0
}

has() {
    command -v "$1" >/dev/null 2>&1
}

as_root() {
    if [ "$(id -u)" = 0 ]; then "$@"; else sudo -n "$@"; fi
}

install_packages() {
    has apt-get || return 0
    echo "installing $*"
    set -- env DEBIAN_FRONTEND=noninteractive apt-get install -y "$@"
    as_root "$@" >/dev/null 2>&1 || { as_root apt-get update && as_root "$@"; } >/dev/null 2>&1 || true
}

# Whether a command is there, once its packages are installed where they may be. With CI set it must be.
need() { # COMMAND PACKAGE..
    needed=$1
    shift
    has "$needed" || install_packages "$@"
    has "$needed" && return 0
    [ -n "${CI:-}" ] || return 1
    echo "no $needed, and it could not be installed: install $*" >&2
    exit 1
}

# The processor of an archive's first object, by the machine number in its ELF header: the library is x86-64, and an archive
# made for measuring may be Arm's.
archive_machine() {
    case $(ar p "$1" 2>/dev/null | od -An -tx1 -j18 -N2 2>/dev/null) in
    *"b7 00"*) echo aarch64 ;;
    *) echo x86_64 ;;
    esac
}

use_archive() {
    [ -f "$1" ] || { echo "no archive at $1: tools/archive makes it" >&2; exit 2; }
    need ar binutils || skip "everything: no ar (install binutils)"
    machine=$(archive_machine "$1") emulator='' link='' rust_target=''
    if [ "$machine" = "$(uname -m)" ]; then
        compile=${CC:-cc}
        need "$compile" gcc libc6-dev || skip "everything: no C compiler (install gcc and libc6-dev)"
        return
    fi
    [ "$machine" = x86_64 ] || skip "everything: the archive is for '$machine', and this machine is $(uname -m)"
    compile=x86_64-linux-gnu-gcc emulator=qemu-x86_64 link=-static rust_target='--target x86_64-unknown-linux-gnu'
    need "$compile" gcc-x86-64-linux-gnu libc6-dev-amd64-cross || skip "everything: no $compile (install gcc-x86-64-linux-gnu)"
    need "$emulator" qemu-user || skip "everything: no $emulator (install qemu-user)"
}

# Whether rustc can build a whole program for the archive's processor.
has_rust() {
    has rustc || return 1
    [ -n "$rust_target" ] || return 0
    std=$(rustc --print target-libdir $rust_target 2>/dev/null) && ls "$std"/libstd-*.rlib >/dev/null 2>&1
}
