#!/usr/bin/env bash
# Runs `linkcap norm`, `linkcap same` and `linkshow` on devices that fail, under a program name that isn't UTF-8, and with
# little memory; and compares status, output and standard error with what docs/statuses.md says.
#
#     bench/devices.sh [PROGRAM [SHOW]]
#
# PROGRAM is crates/linkcap/out/linkcap by default, and SHOW crates/linkshow/out/linkshow. It builds nothing. ./check runs it
# by tools/programs.sh, since `rt ci` compares no standard error and has no devices that fail.
set -uo pipefail
cd "$(dirname "$0")/.."

program=$(realpath "${1:-crates/linkcap/out/linkcap}")
show=$(realpath "${2:-crates/linkshow/out/linkshow}")
for built in "$program" "$show"; do
    [ -x "$built" ] || { echo "no program at $built: build it first" >&2; exit 1; }
done
work=$(mktemp -d)
trap 'rm -rf "$work"' EXIT
request=samples/lo-request.bin
usage='usage: linkcap norm [LIMIT] or linkcap same FILE FILE [LIMIT]'
failed=0

# huge_frame N: the first N bytes of a frame whose header has the length 4294967295
huge_frame() {
    printf '\xff\xff\xff\xff\x10\0\0\0\1\0\0\0\0\0\0\0'
    head -c $(($1 - 16)) /dev/zero
}

# expect NAME STATUS REPORT SIZE: compares the last run with these. REPORT is the line on standard error, SIZE the size of the
# output. The status of the run is in `status`, its output in $work/text and its standard error in $work/report.
expect() {
    local report size
    report=$(cat "$work/report")
    size=$(stat -c %s "$work/text")
    if [ "$status" = "$2" ] && [ "$report" = "$3" ] && [ "$size" = "$4" ]; then
        echo "ok      $1"
    else
        echo "WRONG   $1: status $status, expected $2; '$report', expected '$3'; $size bytes, expected $4"
        failed=1
    fi
}

# run ARGUMENT..: runs the program with these arguments and the given standard input
run() {
    : > "$work/text"
    "$program" "$@" > "$work/text" 2> "$work/report"
    status=$?
}

run norm < "$request"
expect "a legal capture" 0 "" 48
run norm 47 < "$request"
expect "a fault is reported with its offset" 2 "frame over the limit at 0" 0
cat "$request" <(head -c 20 "$request") > "$work/cut"
run norm < "$work/cut"
expect "the texts before a fault are written" 2 "cut frame at 48" 48
for ((i = 0; i < 1400; i++)); do cat "$request"; done > "$work/long"
head -c 10 "$request" >> "$work/long"
run norm < "$work/long"
expect "a fault after the first piece" 2 "cut frame at 67200" 67200
for arguments in "" "norm 15" "norm +48" "norm 48 48" "norm 4294967296" "Norm" "same a" "same a b 15" "same a b 48 48"; do
    # shellcheck disable=SC2086
    run $arguments < "$request"
    expect "usage error: '$arguments'" 3 "$usage" 0
done
run norm $'\xff' < "$request"
expect "an argument that isn't UTF-8" 3 "$usage" 0

# The program's name needn't be UTF-8.
name=$work/$'link\xffcap'
cp "$program" "$name"
: > "$work/text"
"$name" norm 48 < "$request" > "$work/text" 2> "$work/report"
status=$?
expect "a program name that isn't UTF-8" 0 "" 48

# Devices that fail.
run norm < "$work"
expect "a directory can't be read" 2 "read failed at 0" 0
: > "$work/text"
"$program" norm < "$request" > /dev/full 2> "$work/report"
status=$?
expect "a full device" 2 "write failed at 0" 0
{ "$program" norm < "$work/long" 2> "$work/report"; echo $? > "$work/status"; } | true
status=$(cat "$work/status")
case $status:$(cat "$work/report") in
    "2:write failed at "*) echo "ok      a reader that has gone" ;;
    *) echo "WRONG   a reader that has gone: status $status, '$(cat "$work/report")'"; failed=1 ;;
esac
: > "$work/report"
"$program" norm 47 < "$request" > "$work/text" 2> /dev/full
status=$?
expect "a full device for standard error" 2 "" 0

# Closed ones.
: > "$work/text"
"$program" norm <&- > "$work/text" 2> "$work/report"
status=$?
expect "a closed input" 2 "read failed at 0" 0
: > "$work/text"
"$program" norm < "$request" >&- 2> "$work/report"
status=$?
expect "a closed output" 2 "write failed at 0" 0
: > "$work/text"
: > "$work/report"
"$program" norm 47 < "$request" > "$work/text" 2>&-
status=$?
expect "a closed standard error" 2 "" 0
: > "$work/text"
"$program" same "$request" "$request" <&- > "$work/text" 2> "$work/report"
status=$?
expect "a closed input of same" 0 "" 5
: > "$work/text"
"$program" same "$request" "$request" >&- 2> "$work/report"
status=$?
expect "a closed output of same" 2 "write failed at 0" 0
: > "$work/text"
: > "$work/report"
"$program" same "$request" "$work/missing" > "$work/text" 2>&-
status=$?
expect "a closed standard error of same" 2 "" 0

# Two files.
"$program" norm < "$request" > "$work/normal"
run same "$request" "$work/normal"
expect "files that mean the same" 0 "" 5
run same "$work/normal" "$work/normal" 48
expect "equal files" 0 "" 5
cat "$request" "$request" > "$work/twice"
run same "$request" "$work/twice"
expect "files that don't mean the same" 1 "" 10
run same "$work/cut" "$request"
expect "a fault of the first" 2 "first: cut frame at 48" 0
run same "$request" "$work/cut"
expect "a fault of the second" 2 "second: cut frame at 48" 0
run same "$work/missing" "$request"
expect "a missing first file" 2 "first: read failed at 0" 0
run same "$work/cut" "$work/missing"
expect "a missing second file is reported before a fault" 2 "second: read failed at 0" 0
run same "$request" "$work"
expect "a directory as the second" 2 "second: read failed at 0" 0
run same "$request" ""
expect "no name" 2 "second: read failed at 0" 0
run same "$request" /dev/stdin < "$work/normal"
expect "standard input by its name" 0 "" 5
: > "$work/text"
"$program" same "$request" "$request" > /dev/full 2> "$work/report"
status=$?
expect "a result that can't be printed" 2 "write failed at 0" 0
run same "$request" $'\xff'
expect "a file name that isn't UTF-8" 3 "$usage" 0

{ sleep 0.2; "$program" same "$request" "$request" 2> "$work/report"; echo $? > "$work/status"; } | true
: > "$work/text"
status=$(cat "$work/status")
expect "a result whose reader has gone" 2 "write failed at 0" 0

# Memory.
huge_frame 100 > "$work/huge"
run same "$work/huge" "$request" 4294967295
expect "a frame of 4 GiB in a file" 2 "first: cut frame at 0" 0
: > "$work/text"
(ulimit -v 65536 && exec "$program" norm 4294967295) < "$work/huge" > "$work/text" 2> "$work/report"
status=$?
expect "a frame of 4 GiB takes memory for the bytes that have come" 2 "cut frame at 0" 0
: > "$work/text"
huge_frame 300000000 2> /dev/null | (ulimit -v 65536 && exec "$program" norm 4294967295) > "$work/text" 2> "$work/report"
status=$?
expect "a frame that is larger than memory" 2 "no memory at 0" 0
: > "$work/text"
huge_frame 300000000 2> /dev/null | (ulimit -v 65536 && exec "$program" same "$request" /dev/stdin 4294967295) > "$work/text" 2> "$work/report"
status=$?
expect "a frame in a file that is larger than memory" 2 "second: no memory at 0" 0

# The same of linkshow.
program=$show
lines=$(stat -c %s samples/lo-request.lines)
run < "$request"
expect "lines of a legal capture" 0 "" "$lines"
run --limit 47 < "$request"
expect "lines: a fault is reported with its offset" 2 "frame over the limit at 0" 0
run < "$work/cut"
expect "lines before a fault are written" 2 "cut frame at 48" "$lines"
run < "$work/long"
expect "lines: a fault after the first piece" 2 "cut frame at 67200" $((1400 * lines))
run --limit 15 < "$request"
expect "lines: a limit that is none" 3 "linkshow: --limit: not a number from 16 to 4294967295: 15" 0
for arguments in "48 48" "--limit"; do
    # shellcheck disable=SC2086
    run $arguments < "$request"
    expect "lines: usage error: '$arguments'" 3 "usage: linkshow [--only TYPE,..] [--link WORD] [--without NAME,..] [--without-numbers] [--offsets] [--keep-going] [--json] [--kernels] [--limit N] [FILE]; linkshow --help says more" 0
done
run $'\xff' < "$request"
expect "lines: an argument that isn't UTF-8" 3 "usage: linkshow [--only TYPE,..] [--link WORD] [--without NAME,..] [--without-numbers] [--offsets] [--keep-going] [--json] [--kernels] [--limit N] [FILE]; linkshow --help says more" 0
run < "$work"
expect "lines: a directory can't be read" 2 "read failed at 0" 0
: > "$work/text"
"$program" < "$request" > /dev/full 2> "$work/report"
status=$?
expect "lines: a full device" 2 "write failed at 0" 0
: > "$work/text"
"$program" <&- > "$work/text" 2> "$work/report"
status=$?
expect "lines: a closed input" 2 "read failed at 0" 0
: > "$work/text"
(ulimit -v 65536 && exec "$program" --limit 4294967295) < "$work/huge" > "$work/text" 2> "$work/report"
status=$?
expect "lines: a frame of 4 GiB takes memory for the bytes that have come" 2 "cut frame at 0" 0
exit $failed
