#!/bin/sh
# Usage: ./install.sh PREFIX [ARCHIVE]: puts include/sauskinna.h, lib/libsauskinna.a and lib/pkgconfig/sauskinna.pc below PREFIX, in
# the tree DESTDIR if that is set. The archive is ARCHIVE, or target/staticlib/libsauskinna.a, which is built if it is not there.
set -eu
[ $# = 1 ] || [ $# = 2 ] || { echo "usage: ./install.sh PREFIX [ARCHIVE]" >&2; exit 2; }

whole() { # PATH: as seen from any folder
    case $1 in
    '' | /*) echo "$1" ;;
    *) echo "$PWD/$1" ;;
    esac
}

# SAUSKINNA_VERSION is 1000 times the first number, and the second.
version() {
    number=$(sed -n 's/^#define SAUSKINNA_VERSION \([0-9]*\).*/\1/p' include/sauskinna.h)
    number=${number:-1000}
    echo "$((number / 1000)).$((number % 1000))"
}

pkg_config_file() {
    cat <<END
prefix=$prefix
includedir=\${prefix}/include
libdir=\${prefix}/lib

Name: sauskinna
Description: Compiles station rules (IMP tables) to ASM, lists ASM, and runs it under a budget
Version: $(version)
Cflags: -I"\${includedir}"
Libs: -L"\${libdir}" -lsauskinna
END
}

put() { # FILE PLACE: below the prefix
    install -d "$(dirname "$tree/$2")"
    install -m 644 "$1" "$tree/$2"
    echo "installed $tree/$2"
}

prefix=$(whole "$1")
archive=$(whole "${2:-}")
tree=$(whole "${DESTDIR:-}")$prefix
cd "$(dirname "$0")"
if [ -z "$archive" ]; then
    archive=target/staticlib/libsauskinna.a
    [ -f "$archive" ] || tools/archive
fi
mkdir -p target
pkg_config_file >target/sauskinna.pc
put "$archive" lib/libsauskinna.a
put include/sauskinna.h include/sauskinna.h
put target/sauskinna.pc lib/pkgconfig/sauskinna.pc
