#!/usr/bin/env bash
# Runs the programs, and compares their statuses, output and standard error with what is expected: the stored runs of
# tools/runs, then bench/show_arguments.sh with each kind of arguments, files and captures, and bench/devices.sh on devices
# that fail and with little memory. `rt ci` runs each program once, and doesn't compare standard error.
#
#     tools/programs.sh
#
# A stored run is a directory PROGRAM-NAME: `args` has an argument a line, `stdin` the input, `stdout` the output and `status`
# the status. Input or output without a file is empty. It runs in `data`, if there is one.
# The programs are those that `rt ci` built, or `rt run` in crates/linkcap and crates/linkshow. It prints the runs that
# differ, and its status is 1 if there is one.
set -uo pipefail
cd "$(dirname "$0")/.."
top=$PWD
work=$(mktemp -d)
trap 'rm -rf "$work"' EXIT
failed=0

# repeat DIRECTORY: runs the program of a stored run, and compares its output and status
repeat() {
    local name program status arguments stdin=/dev/null stdout=/dev/null directory=$work
    name=$(basename "$1")
    program=${name%%-*}
    mapfile -t arguments < "$1/args"
    [ ! -e "$1/stdin" ] || stdin=$top/$1/stdin
    [ ! -e "$1/stdout" ] || stdout=$top/$1/stdout
    [ ! -d "$1/data" ] || directory=$top/$1/data
    (cd "$directory" && "$top/crates/$program/out/$program" "${arguments[@]}" < "$stdin" > "$work/output" 2> /dev/null)
    status=$?
    if [ "$status" != "$(cat "$1/status")" ] || ! cmp -s "$work/output" "$stdout"; then
        echo "WRONG   $1: status $status, expected $(cat "$1/status"), or the output differs"
        failed=1
    fi
}

for stored in tools/runs/*; do
    repeat "$stored"
done
for script in bench/show_arguments.sh bench/devices.sh; do
    if ! report=$("$script" 2>&1); then
        printf '%s\n' "$report" | grep -v '^ok '
        failed=1
    fi
done
[ "$failed" -eq 0 ] && echo "programs: statuses, output and standard error are as expected"
exit "$failed"
