#!/usr/bin/env bash
# Fuzzes liblinkcap by laws that need no second implementation, from the samples and the vectors.
#
#     bench/fuzz.sh SECONDS [FOLDER]
#
# It needs clang++ with libFuzzer and its sanitizers of addresses and of undefined behaviour, under which the caller runs (the
# library itself isn't instrumented), and Python. It takes the library of the folder LINKCAP_LIB_DIR, or builds it with
# bindings/c/build.sh. Inputs of new coverage go to FOLDER/found, or are dropped at the end if FOLDER isn't given. The status
# is 0 if no law was broken; an input that broke one goes to FOLDER, or to the current folder. CXX names another clang++.
# No gate runs it.
set -euo pipefail
[ $# -ge 1 ] && [ $# -le 2 ] || { echo "usage: bench/fuzz.sh SECONDS [FOLDER]" >&2; exit 2; }
top=$(cd "$(dirname "$0")/.." && pwd)
cxx=${CXX:-clang++}
work=$(mktemp -d)
trap 'rm -rf "$work"' EXIT
folder=$work
broken=$PWD
if [ $# -eq 2 ]; then
    mkdir -p "$2"
    folder=$(cd "$2" && pwd)
    broken=$folder
fi

lib=${LINKCAP_LIB_DIR:-$work/lib}
[ -n "${LINKCAP_LIB_DIR:-}" ] || "$top/bindings/c/build.sh" "$lib"
"$top/bench/fuzz/seeds.py" "$work"
"$cxx" -std=c++17 -O2 -Wall -Wextra -Werror -g -fsanitize=fuzzer,address,undefined \
    -fno-sanitize-recover=undefined -I "$lib" -o "$work/fuzz" "$top"/bench/fuzz/*.cc "$lib/liblinkcap.a"
mkdir -p "$folder/found"
"$work/fuzz" -max_total_time="$1" -timeout=20 -rss_limit_mb=4096 -max_len=65536 -print_final_stats=1 \
    -dict="$work/netlink.dict" -artifact_prefix="$broken/" "$folder/found" "$work/seeds"
