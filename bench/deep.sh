#!/usr/bin/env bash
# Runs the programs on captures whose lists are as deep as 65 kB allow (tools/oracle/deep.py), each with a stack of 256 KiB:
# the lines have to be those of the independent implementation, and at most 46 times as long as the capture.
#
#     bench/deep.sh
#
# The programs are those that `rt ci` built. It prints what is wrong, and the status is then 1.
set -uo pipefail
cd "$(dirname "$0")/.."
work=$(mktemp -d)
trap 'rm -rf "$work"' EXIT
export PATH=$PWD/crates/linkcap/out:$PWD/crates/linkshow/out:$PWD/scripts:$PATH
failed=0

wrong() {
    echo "WRONG   $*"
    failed=1
}

# shallow COMMAND..: runs a command with a small stack
shallow() {
    (ulimit -s 256 && exec "$@")
}

mkdir "$work/captures"
python3 tools/oracle/deep.py "$work/captures" || exit
for capture in "$work"/captures/*.bin; do
    name=$(basename "$capture")
    python3 tools/oracle/linkshow.py < "$capture" > "$work/expected" || wrong "$name: no lines of the independent implementation"
    shallow linkshow "$capture" > "$work/lines" || wrong "$name: linkshow ends with $?"
    cmp -s "$work/expected" "$work/lines" || wrong "$name: other lines"
    [ "$(wc -c < "$work/lines")" -le $((46 * $(wc -c < "$capture"))) ] || wrong "$name: more than 46 times as long"
    shallow linkshow --json "$capture" > "$work/json" || wrong "$name: linkshow --json ends with $?"
    linkjson "$work/lines" > "$work/linkjson" || wrong "$name: linkjson ends with $?"
    shallow linkcap norm < "$capture" > "$work/text" || wrong "$name: linkcap norm ends with $?"
    shallow linkcap same "$capture" "$work/text" > "$work/same" || wrong "$name: linkcap same ends with $?"
    linkdiff "$capture" "$work/text" > "$work/diff" || wrong "$name: linkdiff ends with $?"
done
[ "$failed" -eq 0 ] && echo "deep: $(ls "$work/captures" | wc -l) captures are shown with a stack of 256 KiB"
exit "$failed"
