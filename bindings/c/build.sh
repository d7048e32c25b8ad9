#!/usr/bin/env bash
# Builds liblinkcap.a and liblinkcap.so in a folder, with linkcap.h and linkcap_golden.h.
#
#     bindings/c/build.sh FOLDER
#
# tools/build.py proves, builds and caches the static library of the crate linkcap_c. Both libraries contain the small layer
# between that library and malloc, which is in the kit of the command rt. They export only linkcap_*. The kit compiles for
# x86-64-v2, and a library has no start at which it could test the processor; so the shared one is marked, and the loader of
# glibc 2.33 or later refuses it elsewhere. CC names the compiler (cc).
set -euo pipefail
here=$(cd "$(dirname "$0")" && pwd)
[ $# -eq 1 ] || { echo "usage: bindings/c/build.sh FOLDER" >&2; exit 2; }
mkdir -p "$1"
folder=$(cd "$1" && pwd)

layer=$(dirname "$(rt doc)")/c/liblibc_c.a
version=$(sed -n 's/^#define LINKCAP_VERSION //p' "$here/linkcap.h")

work=$(mktemp -d)
trap 'rm -rf "$work"' EXIT
"$here/../../tools/build.py" "$work" linkcap_c
ld -r -o "$work/linkcap.o" --whole-archive "$work/liblinkcap_c.a" --no-whole-archive "$layer"
objcopy --wildcard --keep-global-symbol='linkcap_*' "$work/linkcap.o"
rm -f "$folder/liblinkcap.a"
ar rcsD "$folder/liblinkcap.a" "$work/linkcap.o"
"${CC:-cc}" -shared -o "$folder/liblinkcap.so.$version" "$work/linkcap.o" -Wl,--version-script="$here/linkcap.map" \
    -Wl,-soname,"liblinkcap.so.$version" -Wl,--no-undefined -Wl,-z,relro,-z,now -Wl,-z,noexecstack -Wl,-z,x86-64-v2
ln -sf "liblinkcap.so.$version" "$folder/liblinkcap.so"
cp "$here/linkcap.h" "$here/linkcap_golden.h" "$folder"
