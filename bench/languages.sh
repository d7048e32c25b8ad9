#!/usr/bin/env bash
# Compares the results of C, Python, Rust, Go and the programs for 5,000 mutated captures.
#
#     bench/languages.sh [SEED]
#
# bench/languages.py makes the captures, the same ones for the same SEED (1), and the program vectors their results. The tests of
# the four packages read them in place of the stored vectors, in a copy of the repository, and the programs linkcap and linkshow
# are run on each capture. It takes the programs in crates/*/out, and the library of the folder LINKCAP_LIB_DIR, or else of
# bindings/c/build.sh; it needs cc, python3, cargo, go and pkg-config. No gate runs it. The status is 1 if results differ.
set -euo pipefail
cd "$(dirname "$0")/.."
seed=${1:-1}
programs=$PWD/crates
for name in vectors linkcap linkshow; do
    [ -x "$programs/$name/out/$name" ] || { echo "no program crates/$name/out/$name: build it first" >&2; exit 1; }
done
work=$(mktemp -d)
trap 'rm -rf "$work"' EXIT

export LINKCAP_LIB_DIR=${LINKCAP_LIB_DIR:-$work/lib}
[ -e "$LINKCAP_LIB_DIR/liblinkcap.a" ] || bindings/c/build.sh "$LINKCAP_LIB_DIR"
mkdir -p "$work/copy" "$work/pkgconfig"
python3 bench/languages.py cases "$seed" > "$work/stdin"
git ls-files -z | xargs -0 cp --parents -t "$work/copy"
printf 'Name: linkcap\nDescription: linkcap\nVersion: 1\nCflags: -I%s\nLibs: %s/liblinkcap.a\n' \
    "$LINKCAP_LIB_DIR" "$LINKCAP_LIB_DIR" > "$work/pkgconfig/linkcap-static.pc"

cd "$work/copy"
export CARGO_TARGET_DIR=$work/target PYTHONDONTWRITEBYTECODE=1 PYTHONPATH=$work/copy/bindings/python
export PKG_CONFIG_PATH=$work/pkgconfig GOPROXY=off
cp "$work/stdin" crates/vectors/stdin
"$programs/vectors/out/vectors" < crates/vectors/stdin > crates/vectors/stdout
failed=0

# compare NAME COMMAND..: prints whether a command succeeds, and what it wrote if it doesn't
compare() {
    if "${@:2}" > "$work/log" 2>&1; then
        echo "the same: $1"
    else
        tail -n 20 "$work/log" | cut -c 1-1000
        echo "DIFFERENT: $1"
        failed=1
    fi
}

# in_c CALL KIND: whether the call in C has the results of a kind
in_c() {
    python3 bench/languages.py cut "$2" "$work/cases" "$work/results"
    "$work/c" "$1" < "$work/cases" | cmp - "$work/results"
}

cc -std=c11 -D_GNU_SOURCE -O2 -I "$LINKCAP_LIB_DIR" -o "$work/c" bindings/c/tests/results.c "$LINKCAP_LIB_DIR/liblinkcap.a"
for call in norm pieces:norm same show show-pieces:show quirks:spelling why:refusal; do
    compare "C, ${call%:*}" in_c "${call%:*}" "${call#*:}"
done
compare Python env -C bindings/python/tests python3 -m unittest -q test_linkcap.Vectors
compare Rust cargo test -q --offline --manifest-path bindings/rust/Cargo.toml --test vectors -- --exact \
    norm same show show_in_pieces quirks refusal
compare Go env -C bindings/go go test -count=1 -run 'Vectors$' .
compare "the programs" python3 bench/languages.py programs "$programs"
exit $failed
