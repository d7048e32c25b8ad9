#!/bin/sh
# Installs the programs, the library and the manuals that are in the folder of this script.
#
#     ./install.sh PREFIX
#
# It copies bin, include, lib and share to PREFIX. DESTDIR may precede PREFIX, as packagers use it.
set -eu
[ $# -eq 1 ] && [ "${1#-}" = "$1" ] || { echo "usage: ./install.sh PREFIX" >&2; exit 2; }
[ "$(uname -sm)" = "Linux x86_64" ] || { echo "install.sh: these programs are for Linux on x86-64" >&2; exit 1; }
case $1 in /*) prefix=$1 ;; *) prefix=$PWD/$1 ;; esac
from=$(cd "$(dirname "$0")" && pwd)
umask 022
mkdir -p "${DESTDIR:-}$prefix"
for part in bin include lib share; do
    cp -RP --remove-destination "$from/$part" "${DESTDIR:-}$prefix"
done
command -v python3 > /dev/null || echo "install.sh: linkdiff, linkrec, linkgold and linkjson need Python 3.8 or later"
command -v strace > /dev/null || echo "install.sh: linkrec and linkgold need strace to record a command"
case :$PATH: in *:"$prefix/bin":*) ;; *) echo "install.sh: put $prefix/bin on your PATH" ;; esac
