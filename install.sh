#!/bin/sh
# Installs the static library for x86-64, the headers and ombradiec.pc below a prefix; the library is made first.
# Usage: install.sh [PREFIX], /usr/local where none is named. DESTDIR in the environment stands before every path that is written to,
# and not in ombradiec.pc. ARCHIVE in the environment names a library that is made already, as for another processor by tools/native.
set -eu
[ $# -le 1 ] || { echo 'usage: install.sh [PREFIX]' >&2; exit 2; }
prefix=${1:-/usr/local}
case $prefix in
/*) ;;
-*) echo 'usage: install.sh [PREFIX]' >&2; exit 2 ;;
*) prefix=$PWD/$prefix ;;
esac
archive=${ARCHIVE:+$(realpath "$ARCHIVE")}
cd "$(dirname "$0")"
archive=${archive:-$(tools/archive)}
version=$(sed -n 's/^#define OMBRADIEC_VERSION "\(.*\)"$/\1/p' include/ombradiec.h)

into=${DESTDIR:-}$prefix
put() { # FILE FOLDER
    mkdir -p "$into/$2"
    cp "$1" "$into/$2/"
    chmod 644 "$into/$2/$(basename "$1")"
    echo "$into/$2/$(basename "$1")"
}
put "$archive" lib
put include/ombradiec.h include
put include/ombradiec_field.h include
put LICENSE share/doc/ombradiec
put NOTICE share/doc/ombradiec
mkdir -p "$into/lib/pkgconfig"
sed -e "s|@PREFIX@|$prefix|" -e "s|@VERSION@|$version|" ombradiec.pc.in >"$into/lib/pkgconfig/ombradiec.pc"
chmod 644 "$into/lib/pkgconfig/ombradiec.pc"
echo "$into/lib/pkgconfig/ombradiec.pc"
