#!/usr/bin/env bash
# Runs `linkshow` with each kind of arguments, files and captures, and compares status, output and standard error.
#
#     bench/show_arguments.sh [PROGRAM]
#
# PROGRAM is crates/linkshow/out/linkshow by default. It builds nothing. ./check runs it by tools/programs.sh.
set -uo pipefail
cd "$(dirname "$0")/.."

program=$(realpath "${1:-crates/linkshow/out/linkshow}")
[ -x "$program" ] || { echo "no program at $program: build it first" >&2; exit 1; }
work=$(mktemp -d)
trap 'rm -rf "$work"' EXIT
request=samples/lo-request.bin
lines=samples/lo-request.lines
usage='usage: linkshow [--only TYPE,..] [--link WORD] [--without NAME,..] [--without-numbers] [--offsets] [--keep-going] [--json] [--kernels] [--limit N] [FILE]; linkshow --help says more'
failed=0
: > "$work/nothing"

# run ARGUMENT..: runs the program with these arguments and the given standard input
run() {
    "$program" "$@" > "$work/text" 2> "$work/report"
    status=$?
}

# expect NAME STATUS REPORT FILE: compares the last run with these. REPORT is the text on standard error, FILE has the output.
expect() {
    local report
    report=$(cat "$work/report")
    if [ "$status" = "$2" ] && [ "$report" = "$3" ] && cmp -s "$work/text" "$4"; then
        echo "ok      $1"
    else
        echo "WRONG   $1: status $status, expected $2; or '$report', expected '$3'; or the output differs from $4"
        failed=1
    fi
}

# Options and files.
run < "$request"
expect "standard input" 0 "" "$lines"
run - < "$request"
expect "standard input by -" 0 "" "$lines"
run "$request" < "$work/nothing"
expect "a file" 0 "" "$lines"
run --limit 48 "$request"
expect "a file under a limit" 0 "" "$lines"
run --limit 4294967295 --kernels samples/notify-vrf.bin
expect "options, and a file" 0 "note: IFLA_PROTINFO with the nested bit at 84" samples/notify-vrf.lines
run --kernels --limit 4096 - < samples/notify-vrf.bin
expect "options in another order" 0 "note: IFLA_PROTINFO with the nested bit at 84" samples/notify-vrf.lines
run --limit 16 --limit 48 "$request"
expect "the last limit counts" 0 "" "$lines"
sed 's/ seq 1526271540 port 0$//' "$lines" > "$work/unnumbered"
run --without-numbers "$request"
expect "without numbers" 0 "" "$work/unnumbered"
run --kernels --without-numbers --limit 48 - --without-numbers < "$request"
expect "an option after -" 3 "$usage" "$work/nothing"
# An NLMSG_ERROR of code -17 that repeats the header of a request for a link.
{ printf '\x24\0\0\0\2\0\0\0\7\0\0\0\x09\0\0\0\xef\xff\xff\xff'; head -c 16 "$request"; } > "$work/refusal"
printf '%s\n' 'NLMSG_ERROR flags 0x0' '  code -17 (EEXIST)' '  request length 48 RTM_GETLINK flags 0x301 (REQUEST | ROOT | MATCH)' > "$work/refused"
run --without-numbers --kernels "$work/refusal"
expect "a refused request without numbers" 0 "" "$work/refused"
cat "$request" "$work/refusal" > "$work/both"
for types in error 2 00002 newlink,error,77 error,error 65535,2 Error NLMSG_ERROR rtm_newtunnel,nlmsg_error; do
    run --without-numbers --only "$types" "$work/both"
    expect "only $types" 0 "" "$work/refused"
done
run --only newlink --only getlink "$work/both"
expect "the last types count" 0 "" "$lines"
run --only newlink "$work/both"
expect "types of which there is none" 0 "no messages" "$work/nothing"
cat "$request" <(head -c 20 "$request") > "$work/cut"
run --only newlink "$work/cut"
expect "a fault of the whole capture" 2 "cut frame at 48" "$work/nothing"
# Links, attributes and offsets.
for link in lo 0; do
    run --link eth0 --link $link "$request"
    expect "the link $link" 0 "" "$lines"
done
run --link eth0 "$request"
expect "a link of which there is none" 0 "no messages" "$work/nothing"
run --without IFLA_MTU --without ifla_ext_mask,INDEXES,numbers "$request"
sed 's/ seq .*//; s/ index 0//; /IFLA_EXT_MASK/d' "$lines" > "$work/fewer"
expect "without an attribute and groups" 0 "" "$work/fewer"
run --without counters --without-numbers "$request"
expect "without a group, and without numbers" 0 "" "$work/unnumbered"
run --offsets "$request"
sed '1s/$/ offset 0/' "$lines" > "$work/placed"
expect "offsets" 0 "" "$work/placed"
# An RTM_NEWLINK with an attribute whose length is 3, and another message.
{ printf '\x24\0\0\0\x10\0\0\0\7\0\0\0\x09\0\0\0\0\0\0\0\1\0\0\0\0\0\0\0\0\0\0\0\3\0\4\0'; cat "$request"; } > "$work/faulty"
reason="no attribute: 4 bytes are left, and its length is 3"
{ printf '%s\n' "RTM_NEWLINK flags 0x0 offset 0" "  refused: $reason" "  body 0000000001000000000000000000000003000400"
    sed '1s/ seq .*/ offset 36/' "$lines"; } > "$work/gone-on"
run --keep-going --offsets --without-numbers "$work/faulty"
expect "messages after a refused body" 2 "refused body at 0: $reason at 32" "$work/gone-on"
run "$lines"
expect "a file of lines" 2 "frame over the limit at 0
linkshow: these are lines of linkshow already: linkdiff and linkjson read them" "$work/nothing"
run --limit=48 --only=getlink --without=IFLA_MTU --link=lo "$request"
expect "values behind =" 0 "" "$lines"
run --link= "$request"
expect "an empty value behind =" 0 "no messages" "$work/nothing"
cp "$request" "$work/--json"
(cd "$work" && "$program" -- --json > text 2> report)
status=$?
expect "a file whose name is an option" 0 "" "$lines"
run -- - < "$request"
expect "standard input by - after --" 0 "" "$lines"
run --kernels -- < "$request"
expect "nothing after --" 0 "" "$lines"
cp "$request" "$work/48"
(cd "$work" && "$program" 48 > text 2> report)
status=$?
expect "a file with a number for a name" 0 "" "$lines"

# Version and help.
run --version
grep -oE 'linkshow [0-9]+\.[0-9.]+, lines [0-9]+' docs/showing.md | head -n 1 > "$work/version"
expect "the version is that of the page" 0 "" "$work/version"
run --help
status=$status:$(head -n 1 "$work/text"):$(grep -cE -- '^  (-h, )?--' "$work/text")
expect "help" "0:usage: linkshow [--only TYPE,..] [--link WORD] [--without NAME,..]:11" "" "$work/text"
cp "$work/text" "$work/help"
run -h
expect "help by -h" 0 "" "$work/help"
# The limits are those of the header for C.
default=$(sed -n 's/^#define LINKCAP_DEFAULT_LIMIT //p' bindings/c/linkcap.h)
lowest=$(sed -n 's/^#define LINKCAP_MIN_LIMIT //p' bindings/c/linkcap.h)
run --help
status=$status:$(tr -s ' \n' ' ' < "$work/text" | grep -oE 'N the greatest [^;]*; without it, [0-9]+')
expect "the limits in the help" "0:N the greatest length of a message in bytes, from $lowest to 4294967295; without it, $default" "" "$work/text"
: > "$work/text"
"$program" --help > /dev/full 2> "$work/report"
status=$?
expect "help that can't be printed" 2 "write failed at 0" "$work/nothing"

# Usage errors.
for arguments in "--limit" "--limit 48 --limit" "--only" "--link" "--without" "--kernels --unknown" "-x" "-x=y" "--json=on" "--limits=48" \
    "a b" "- a" "a --kernels" "--help a" "-h -h" "--version --kernels" "-- a b" "-- - -" "--kernels -- a --json"; do
    # shellcheck disable=SC2086
    run $arguments < "$request"
    expect "usage error: '$arguments'" 3 "$usage" "$work/nothing"
done
run "" < "$request"
expect "usage error: an empty argument" 3 "$usage" "$work/nothing"
run -- "" < "$request"
expect "usage error: an empty argument after --" 3 "$usage" "$work/nothing"
for limit in 15 +48 4294967296 48x ""; do
    run --limit "$limit" --unknown < "$request"
    expect "no limit: '$limit'" 3 "linkshow: --limit: not a number from 16 to 4294967295: $limit" "$work/nothing"
    run --limit="$limit" --unknown < "$request"
    expect "no limit behind =: '$limit'" 3 "linkshow: --limit: not a number from 16 to 4294967295: $limit" "$work/nothing"
done
run --without=IFLA_MTU=1 < "$request"
expect "a value with =" 3 "linkshow: --without: no attribute or group is called IFLA_MTU=1" "$work/nothing"
run $'\xff' < "$request"
expect "usage error: an argument that isn't UTF-8" 3 "$usage" "$work/nothing"

# too_many WORD: the word 33 times, with commas between
too_many() {
    printf "$1,%.0s" {1..32}
    printf '%s' "$1"
}
run --only "$(too_many 2)" < "$request"
expect "usage error: more than 32 types" 3 "$usage" "$work/nothing"
run --without "$(too_many IFLA_MTU)" < "$request"
expect "usage error: more than 32 names" 3 "$usage" "$work/nothing"
# unknown OPTION WORDS WORD: an argument, and the first word in it that has no meaning
unknown() {
    run "--$1" "$2" --unknown < "$request"
    case $1 in
        only) expect "unknown type: '$2'" 3 "linkshow: --only: no type of messages is called $3" "$work/nothing" ;;
        *) expect "unknown name: '$2'" 3 "linkshow: --without: no attribute or group is called $3" "$work/nothing" ;;
    esac
}
for word in newlinks RTM_ERROR 65536 000002 +2 ""; do
    unknown only "newlink,$word,77,x" "$word"
done
for word in IFLA_STAT MTU counter "" '[]' IFLA_MTU=1; do
    unknown without "ifla_mtu,counters,$word,INDEXES,x" "$word"
done

# Files that can't be opened or read.
run "$work/missing" < "$request"
expect "a missing file" 2 "linkshow: $work/missing: no such file" "$work/nothing"
run "$request/x"
expect "a path through a file" 2 "linkshow: $request/x: a part of the path is not a directory" "$work/nothing"
ln -s loop "$work/loop"
run "$work/loop"
expect "a link to itself" 2 "linkshow: $work/loop: too many symbolic links" "$work/nothing"
long=$(printf '%0300d' 0)
run "$long"
expect "a name that is too long" 2 "linkshow: $long: not a valid file name" "$work/nothing"
run "$work"
expect "a directory" 2 "linkshow: $work: read failed at 0" "$work/nothing"
run --kernels "$work"
expect "a directory, with notes" 2 "linkshow: $work: read failed at 0" "$work/nothing"
run - < "$work"
expect "a directory on standard input" 2 "read failed at 0" "$work/nothing"
cp "$request" "$work/denied"
chmod 0 "$work/denied"
chmod 755 "$work"
if [ "$(id -u)" != 0 ]; then
    run "$work/denied"
    expect "a file without permission" 2 "linkshow: $work/denied: permission denied" "$work/nothing"
elif command -v setpriv > /dev/null; then
    cp "$program" "$work/linkshow"
    setpriv --reuid 65534 --clear-groups "$work/linkshow" "$work/denied" > "$work/text" 2> "$work/report"
    status=$?
    expect "a file without permission" 2 "linkshow: $work/denied: permission denied" "$work/nothing"
else
    echo "skipped a file without permission: no setpriv"
fi

# Captures.
run "$work/nothing"
expect "a file without messages" 0 "no messages" "$work/nothing"
run --kernels < "$work/nothing"
expect "no messages, with notes" 0 "no messages" "$work/nothing"
cat "$request" <(head -c 20 "$request") > "$work/cut"
run "$work/cut"
expect "lines before a fault are written" 2 "cut frame at 48" "$lines"
# A link whose IFLA_MTU has 3 bytes, first alone, then after 1,365 requests, so that it is in two pieces of 65,536 bytes; and
# an NLMSG_DONE of 2 bytes.
{ printf '\x28\0\0\0\x10\0\0\0'; head -c 24 /dev/zero; printf '\7\0\4\0\1\2\3\0'; } > "$work/odd"
run "$work/odd"
expect "the reason of a refused body" 2 "refused body at 0: IFLA_MTU: a payload of 3 bytes at 32" "$work/nothing"
run --kernels --only error < "$work/odd"
expect "the reason of a refused body, with notes" 2 "refused body at 0: IFLA_MTU: a payload of 3 bytes at 32" "$work/nothing"
{ for _ in $(seq 1365); do cat "$request"; done; cat "$work/odd"; } > "$work/pieces"
for _ in $(seq 1365); do cat "$lines"; done > "$work/all"
run "$work/pieces"
expect "the reason of a refused body in two pieces" 2 "refused body at 65520: IFLA_MTU: a payload of 3 bytes at 65552" "$work/all"
(head -c 65530 "$work/pieces"; sleep 0.2; tail -c +65531 "$work/pieces") | "$program" > "$work/text" 2> "$work/report"
status=${PIPESTATUS[1]}
expect "the same from a pipe that waits" 2 "refused body at 65520: IFLA_MTU: a payload of 3 bytes at 65552" "$work/all"
printf '\x12\0\0\0\3\0\0\0\0\0\0\0\0\0\0\0\0\0' > "$work/done"
run "$work/done"
expect "a refused body without an offset" 2 "refused body at 0: a body of 2 bytes" "$work/nothing"
{ echo '# linkcap lines, format 4'; cat "$lines"; } > "$work/golden"
run "$work/golden"
expect "a golden file" 2 "frame over the limit at 0
linkshow: these are lines of linkshow already: linkdiff and linkjson read them" "$work/nothing"
run --json "$request"
cp "$work/text" "$work/json"
run "$work/json"
expect "a file of JSON" 2 "frame over the limit at 0
linkshow: this is JSON of linkshow already" "$work/nothing"
gzip -c "$request" > "$work/named.gz"
gzip -n < "$request" > "$work/nameless.gz"
printf '\xfd7zXZ\0\0\4%032d' 0 > "$work/xz"
printf '\x28\xb5\x2f\xfd%032d' 0 > "$work/zst"
for file in named.gz nameless.gz xz zst; do
    run "$work/$file"
    sed 1d "$work/report" > "$work/hint"
    status=$status:$(cat "$work/hint")
    expect "a compressed file: $file" "2:linkshow: this is a compressed file: decompress it first" "$(cat "$work/report")" "$work/nothing"
done
run "$program"
status=$status:$(sed 1d "$work/report")
expect "a program" "2:linkshow: this is a program: linkrec run records what it asks for" "$(cat "$work/report")" "$work/nothing"
pcap="linkshow: this is a pcap file: linkrec pcap FILE makes a capture of it"
for magic in a1b2c3d4 d4c3b2a1 a1b23c4d 4d3cb2a1; do
    { printf "\\x${magic:0:2}\\x${magic:2:2}\\x${magic:4:2}\\x${magic:6:2}"; head -c 20 /dev/zero; } > "$work/pcap"
    run "$work/pcap"
    expect "a pcap file that begins with $magic" 2 "frame over the limit at 0"$'\n'"$pcap" "$work/nothing"
done
run --kernels < "$work/pcap"
expect "a pcap file on standard input, with notes" 2 "frame over the limit at 0"$'\n'"$pcap" "$work/nothing"
run --limit 4294967295 "$work/pcap"
expect "a pcap file under the greatest limit" 2 "cut frame at 0"$'\n'"$pcap" "$work/nothing"
{ printf '\n\r\r\n'; head -c 24 /dev/zero; } > "$work/pcapng"
run "$work/pcapng"
expect "a pcapng file" 2 "frame over the limit at 0"$'\n'"linkshow: this is a pcapng file: linkrec pcap FILE makes a capture of it" "$work/nothing"
exit $failed
