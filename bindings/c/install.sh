#!/usr/bin/env bash
# Installs liblinkcap.a, liblinkcap.so, linkcap.h, linkcap_golden.h, linkcap.pc, linkcap-static.pc, and linkcap(3) under the name
# of each call.
#
#     bindings/c/install.sh PREFIX
#
# They go to lib, include, lib/pkgconfig and share/man/man3 under PREFIX. DESTDIR may precede PREFIX, as packagers use it.
set -euo pipefail
here=$(cd "$(dirname "$0")" && pwd)
[ $# -eq 1 ] || { echo "usage: bindings/c/install.sh PREFIX" >&2; exit 2; }
case $1 in /*) prefix=$1 ;; *) prefix=$PWD/$1 ;; esac
to=${DESTDIR:-}$prefix

work=$(mktemp -d)
trap 'rm -rf "$work"' EXIT
"$here/build.sh" "$work"

install -d "$to/lib/pkgconfig" "$to/include" "$to/share/man/man3"
install -m 644 "$work/liblinkcap.a" "$to/lib"
install -m 755 "$work"/liblinkcap.so.* "$to/lib"
cp -P "$work/liblinkcap.so" "$to/lib"
install -m 644 "$work/linkcap.h" "$work/linkcap_golden.h" "$to/include"
install -m 644 "$here/../../man/linkcap.3" "$to/share/man/man3"
for call in $(grep -oE '\blinkcap_[a-z_]+\(' "$here/linkcap.h" | tr -d '(' | sort -u); do
    ln -sf linkcap.3 "$to/share/man/man3/$call.3"
done
version=$(sed -nE 's/^## ([0-9.]+) .*/\1/p' "$here/../../CHANGELOG.md" | head -n 1)
for name in linkcap linkcap-static; do
    sed -e "s|@PREFIX@|$prefix|" -e "s|@VERSION@|$version|" "$here/$name.pc.in" > "$to/lib/pkgconfig/$name.pc"
done
