#!/bin/sh
# Copies what is beside this file below PREFIX, by default /usr/local: ./install.sh [PREFIX]. ./install.sh --remove [PREFIX]
# removes it again.
set -eu

refuse() {
    echo "install.sh: $1" >&2
    exit 1
}

here=$(cd "$(dirname "$0")" && pwd)
remove=
case "${1-}" in
    --remove)
        remove=yes
        shift
        ;;
    -*) refuse "$1: no such option; pass PREFIX, or --remove PREFIX" ;;
esac
[ $# -le 1 ] || refuse "more than one PREFIX"
prefix=${1:-/usr/local}
cd "$here"
list=$(find bin lib include share -type f -o -type l | sort)
if [ "$remove" ]; then
    echo "$list" | while read -r file; do rm -f "$prefix/$file"; done
    rmdir "$prefix/share/doc/kaftanclay" 2> /dev/null || true
    echo "install.sh: removed from $prefix"
    exit 0
fi
bin/distinct --version > /dev/null 2>&1 || refuse "bin/distinct doesn't run here: it needs Linux on an x86-64 processor, and the GNU C library @GLIBC@ or later"
mkdir -p "$prefix" || refuse "$prefix: can't be made; name another PREFIX"
[ -w "$prefix" ] || refuse "$prefix: can't be written; name another PREFIX, or be root"
echo "$list" | while read -r file; do
    mkdir -p "$prefix/$(dirname "$file")"
    # A program that runs keeps the file that it began with.
    rm -f "$prefix/$file"
    cp -P "$file" "$prefix/$file"
done
echo "install.sh: $prefix/bin/distinct is $("$prefix/bin/distinct" --version)"
echo "install.sh: for C: PKG_CONFIG_PATH=$prefix/lib/pkgconfig LD_LIBRARY_PATH=$prefix/lib"
