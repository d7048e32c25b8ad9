#!/usr/bin/env bash
# Runs linkrec, linkdiff, linkgold and linkjson, and compares what they print and report, and their status.
#
#     scripts/check.sh [FOLDER]
#
# The programs linkshow and linkcap are those of FOLDER, or else those that `rt ci` built in crates/*/out. It skips checks
# that need strace, unshare or permission to make a network namespace if that is missing, and prints a line about it. It
# builds nothing. The last line is `N passed, M failed, K skipped`.
set -uo pipefail
cd "$(dirname "$0")/.."

program() { if [ -n "${folder:-}" ]; then realpath "$folder/$1"; else realpath "crates/$1/out/$1"; fi; }
folder=${1:-}
LINKSHOW=$(program linkshow) LINKCAP=$(program linkcap)
export LINKSHOW LINKCAP NO_COLOR=1 PATH=${LINKSHOW%/*}:$PATH
for built in "$LINKSHOW" "$LINKCAP"; do
    [ -x "$built" ] || { echo "scripts: no program at $built: build it first" >&2; exit 1; }
done
top=$PWD linkrec=$PWD/scripts/linkrec linkdiff=$PWD/scripts/linkdiff linkgold=$PWD/scripts/linkgold linkjson=$PWD/scripts/linkjson
work=$(mktemp -d)
trap 'rm -rf "$work"' EXIT
passed=0 failed=0 skipped=0

# expect NAME STATUS REPORT COMMAND..: runs a command in the work folder, and compares its status, its standard error with
# REPORT, and its output with standard input.
expect() {
    local name=$1 expected_status=$2 expected_report=$3 status
    shift 3
    cat > "$work/expected"
    (cd "$work" && "$@") > "$work/printed" 2> "$work/errors" < /dev/null
    status=$?
    if [ "$status" = "$expected_status" ] && [ "$(cat "$work/errors")" = "$expected_report" ] && cmp -s "$work/printed" "$work/expected"; then
        passed=$((passed + 1))
    else
        echo "scripts: FAILED: $name: status $status, expected $expected_status; or reported '$(cat "$work/errors")', expected '$expected_report'; or printed:"
        diff "$work/expected" "$work/printed"
        failed=$((failed + 1))
    fi
}

# succeeds NAME COMMAND..: runs a command in the work folder, which has to succeed
succeeds() {
    local name=$1
    shift
    if (cd "$work" && "$@") > "$work/printed" 2>&1 < /dev/null; then
        passed=$((passed + 1))
    else
        echo "scripts: FAILED: $name: $(tail -n 5 "$work/printed")"
        failed=$((failed + 1))
    fi
}

skip() { echo "scripts: skipped: $1: $2"; skipped=$((skipped + 1)); }

# ---- linkdiff

cp samples/lo-request.bin "$work/a"
cp samples/notify-vrf.bin "$work/v"
cp samples/lo-request.lines "$work/a.lines"
# another name of the link
{ head -c 44 "$work/a"; printf 'l1\0\0'; } > "$work/b"
# an equivalent capture: without the flag bit and the padding
{ head -c 40 "$work/a"; printf '\x07\0\x03\0lo\0\0'; } > "$work/same"
# another order of attributes
{ head -c 32 "$work/a"; tail -c +41 "$work/a"; tail -c +33 "$work/a" | head -c 8; } > "$work/reordered"
cat "$work/a" <(head -c 20 "$work/a") > "$work/cut"
: > "$work/none"
cp "$work/a" "$work/-a"

expect "equal captures" 0 "" "$linkdiff" a a < /dev/null
expect "equivalent captures" 0 "" "$linkdiff" a same < /dev/null
expect "captures that differ" 1 "" "$linkdiff" a b << 'END'
--- a
+++ b
@@ -1,4 +1,4 @@ RTM_GETLINK lo
 RTM_GETLINK flags 0x301 (REQUEST | ROOT | MATCH) seq 1526271540 port 0
   ifinfomsg family 0 (AF_UNSPEC) type 0 index 0 flags 0x0 change 0x0
   IFLA_EXT_MASK 0x9 (Vf | SkipStats)
-  IFLA_IFNAME "lo"
+  IFLA_IFNAME "l1"
END
# another sequence number
{ head -c 8 "$work/a"; printf '\1\2\3\4'; tail -c +13 "$work/a"; } > "$work/later"
expect "another sequence number" 1 "" "$linkdiff" a later << 'END'
--- a
+++ later
@@ -1,4 +1,4 @@ RTM_GETLINK lo
-RTM_GETLINK flags 0x301 (REQUEST | ROOT | MATCH) seq 1526271540 port 0
+RTM_GETLINK flags 0x301 (REQUEST | ROOT | MATCH) seq 67305985 port 0
   ifinfomsg family 0 (AF_UNSPEC) type 0 index 0 flags 0x0 change 0x0
   IFLA_EXT_MASK 0x9 (Vf | SkipStats)
   IFLA_IFNAME "lo"
END
expect "another sequence number, without numbers" 0 "" "$linkdiff" --without-numbers a later < /dev/null
expect "messages of another type alone" 0 "" "$linkdiff" --empty --only newlink a b < /dev/null
expect "a name that begins with -" 0 "" "$linkdiff" ./-a a < /dev/null
expect "a fault of the second" 2 "linkdiff: cut: cut frame at 48" "$linkdiff" a cut < /dev/null
expect "faults of both" 2 $'linkdiff: cut: cut frame at 48\nlinkdiff: cut: cut frame at 48' "$linkdiff" cut cut < /dev/null
expect "a limit" 2 $'linkdiff: a: frame over the limit at 0\nlinkdiff: a: frame over the limit at 0' "$linkdiff" --limit 47 a a < /dev/null
expect "a missing file" 2 "linkdiff: missing: no such file or directory" "$linkdiff" missing a < /dev/null
expect "no messages" 2 "linkdiff: none: no messages" "$linkdiff" a none < /dev/null
expect "no messages, which is allowed" 1 "" "$linkdiff" --empty none a << 'END'
--- none
+++ a
@@ -0,0 +1,4 @@ RTM_GETLINK lo
+RTM_GETLINK flags 0x301 (REQUEST | ROOT | MATCH) seq 1526271540 port 0
+  ifinfomsg family 0 (AF_UNSPEC) type 0 index 0 flags 0x0 change 0x0
+  IFLA_EXT_MASK 0x9 (Vf | SkipStats)
+  IFLA_IFNAME "lo"
END
expect "no messages in both" 0 "" "$linkdiff" --empty none none < /dev/null
note="linkdiff: v: note: IFLA_PROTINFO with the nested bit at 84"
expect "notes" 0 "$note"$'\n'"$note" "$linkdiff" --kernels v v < /dev/null
expect "one type alone, of which there is none" 2 $'linkdiff: a: no messages\nlinkdiff: b: no messages' "$linkdiff" --only newlink a b < /dev/null
expect "quiet" 1 "" "$linkdiff" -q a b < /dev/null
expect "a file of lines" 0 "" "$linkdiff" a.lines a < /dev/null
sed 's/ seq .*//' "$work/a.lines" > "$work/a.golden"
expect "a file of lines without numbers" 0 "" "$linkdiff" a.golden later < /dev/null
expect "one type alone of a file of lines" 0 "" "$linkdiff" --only getlink a.lines a < /dev/null
ignored="linkdiff: the order of attributes is ignored, although kernels read some lists in their order"
expect "another order, ignored" 0 "$ignored" "$linkdiff" --ignore-order a reordered < /dev/null
expect "without an attribute" 0 "" "$linkdiff" --without ifla_ifname a b < /dev/null
expect "without numbers and an attribute" 0 "" "$linkdiff" --without numbers,IFLA_IFNAME b later < /dev/null
expect "a link alone" 0 "" "$linkdiff" --link lo a a < /dev/null
expect "a link that one side doesn't have" 2 "linkdiff: b: no messages" "$linkdiff" --link lo a b < /dev/null
expect "names of the sides" 1 "" "$linkdiff" --label golden --label made a b << 'END'
--- golden
+++ made
@@ -1,4 +1,4 @@ RTM_GETLINK lo
 RTM_GETLINK flags 0x301 (REQUEST | ROOT | MATCH) seq 1526271540 port 0
   ifinfomsg family 0 (AF_UNSPEC) type 0 index 0 flags 0x0 change 0x0
   IFLA_EXT_MASK 0x9 (Vf | SkipStats)
-  IFLA_IFNAME "lo"
+  IFLA_IFNAME "l1"
END
{ echo "# linkcap lines, format 4"; cat "$work/a.golden"; } > "$work/headed.lines"
expect "a golden file with its format version" 0 "" "$linkdiff" headed.lines a < /dev/null
expect "a golden file's line numbers" 1 "" "$linkdiff" --without numbers headed.lines b << 'END'
--- headed.lines
+++ b
@@ -2,4 +1,4 @@ RTM_GETLINK lo
 RTM_GETLINK flags 0x301 (REQUEST | ROOT | MATCH)
   ifinfomsg family 0 (AF_UNSPEC) type 0 index 0 flags 0x0 change 0x0
   IFLA_EXT_MASK 0x9 (Vf | SkipStats)
-  IFLA_IFNAME "lo"
+  IFLA_IFNAME "l1"
END
# as an editor of another system ends lines
sed 's/$/\r/' "$work/headed.lines" > "$work/crlf.lines"
expect "a golden file with other line ends" 0 "" "$linkdiff" crlf.lines a < /dev/null
cp "$work/a" "$work/a b"
expect "a file whose name has a space" 2 "linkdiff: no such: no such file or directory" "$linkdiff" "a b" "no such" < /dev/null
succeeds "colours" bash -c '"$0" --color=always a b | grep -q "^.\[31m-"' "$linkdiff"
succeeds "a closed pipe" bash -c '"$0" a b | { exec 0<&-; sleep 1; }; [ ${PIPESTATUS[0]} -eq 141 ]' "$linkdiff"
# a link with an index and no name, under two masks
for mask in 1 2; do
    { printf '\x28\0\0\0\x12\0\1\0'; head -c 12 /dev/zero; printf '\7\0\0\0'; head -c 8 /dev/zero; printf "\\x8\\0\\x1d\\0\\$mask\\0\\0\\0"; } > "$work/mask$mask"
done
succeeds "a link by its index" bash -c '"$0" mask1 mask2 | grep -qx "@@ .* @@ RTM_GETLINK index 7"' "$linkdiff"
succeeds "another order counts" bash -c '! "$0" -q a reordered' "$linkdiff"
succeeds "help" bash -c '"$0" --help | grep -q "linkdiff \[OPTION\]"' "$linkdiff"
succeeds "standard input" bash -c '"$0" - a < b | grep -x -- "--- -" > /dev/null; [ ${PIPESTATUS[0]} -eq 1 ]' "$linkdiff"
succeeds "no program" bash -c 'LINKSHOW=/nowhere/linkshow "$0" a a 2>&1 | grep -q "no program"' "$linkdiff"
expect "a link by its index alone" 0 "" "$linkdiff" --link 7 --without IFLA_EXT_MASK mask1 mask2 < /dev/null
# an address with another prefix length, and a route whose second next hop has another weight
cp samples/req-routes.bin "$work/routes"
cp samples/req-routes.lines "$work/routes.lines"
{ head -c 65 "$work/routes"; printf '\x19'; tail -c +67 "$work/routes"; } > "$work/prefix"
{ head -c 235 "$work/routes"; printf '\x1'; tail -c +237 "$work/routes"; } > "$work/weight"
expect "an address" 1 "" "$linkdiff" --without numbers routes prefix << 'END'
--- routes
+++ prefix
@@ -3,7 +3,7 @@ RTM_NEWADDR index 3
   IFLA_EXT_MASK 0x9 (Vf | SkipStats)
   IFLA_IFNAME "v0"
 RTM_NEWADDR flags 0x605 (REQUEST | ACK | EXCL | CREATE)
-  ifaddrmsg family 2 (AF_INET) prefixlen 24 flags 0x0 scope 0 (universe) index 3
+  ifaddrmsg family 2 (AF_INET) prefixlen 25 flags 0x0 scope 0 (universe) index 3
   IFA_LOCAL 192.0.2.1
   IFA_ADDRESS 192.0.2.1
 RTM_GETLINK flags 0x301 (REQUEST | ROOT | MATCH)
END
expect "a next hop in a file of lines" 1 "" "$linkdiff" --without-numbers --only NEWROUTE routes.lines weight << 'END'
--- routes.lines
+++ weight
@@ -4,5 +4,5 @@ RTM_NEWROUTE
   RTA_MULTIPATH
     rtnexthop flags 0x0 hops 0 (weight 1) ifindex 0
       RTA_GATEWAY 192.0.2.2
-    rtnexthop flags 0x0 hops 9 (weight 10) ifindex 0
+    rtnexthop flags 0x0 hops 1 (weight 2) ifindex 0
       RTA_GATEWAY 192.0.2.3
END
expect "no next hops" 0 "" "$linkdiff" --without numbers,RTA_MULTIPATH routes.lines weight < /dev/null
# a request for all links as glibc's getifaddrs sends it: its body has 4 bytes and not 16
printf '\x14\0\0\0\x12\0\1\3\1\0\0\0\0\0\0\0\0\0\0\0' > "$work/short"
cat "$work/a" "$work/short" "$work/b" > "$work/mixed"
cat "$work/mixed" <(head -c 20 "$work/a") > "$work/mixed-cut"
refused="refused body at 48: a header of 4 bytes at 64"
expect "invalid messages" 2 "linkdiff: mixed: $refused" "$linkdiff" a mixed < /dev/null
expect "equal invalid messages" 0 "linkdiff: mixed: $refused"$'\n'"linkdiff: mixed: $refused" "$linkdiff" --keep-going mixed mixed < /dev/null
expect "invalid messages that differ" 1 "linkdiff: mixed: $refused" "$linkdiff" --keep-going --offsets mixed <(cat "$work/a" "$work/b") \
    --label mixed --label valid << 'END'
--- mixed
+++ valid
@@ -2,9 +2,6 @@ RTM_GETLINK at 48 of mixed
   ifinfomsg family 0 (AF_UNSPEC) type 0 index 0 flags 0x0 change 0x0
   IFLA_EXT_MASK 0x9 (Vf | SkipStats)
   IFLA_IFNAME "lo"
-RTM_GETLINK flags 0x301 (REQUEST | ROOT | MATCH) seq 1 port 0
-  refused: a header of 4 bytes
-  body 00000000
 RTM_GETLINK flags 0x301 (REQUEST | ROOT | MATCH) seq 1526271540 port 0
   ifinfomsg family 0 (AF_UNSPEC) type 0 index 0 flags 0x0 change 0x0
   IFLA_EXT_MASK 0x9 (Vf | SkipStats)
END
expect "a cut frame after invalid messages" 2 "linkdiff: mixed-cut: $refused"$'\n'"linkdiff: mixed-cut: no whole message at 116" \
    "$linkdiff" --keep-going a mixed-cut < /dev/null
"$LINKSHOW" --offsets --keep-going "$work/mixed" > "$work/mixed.lines" 2> /dev/null
expect "offsets don't count" 0 "linkdiff: mixed: $refused" "$linkdiff" --keep-going mixed.lines mixed < /dev/null
expect "a file of lines with offsets and without numbers" 0 "linkdiff: mixed: $refused" \
    "$linkdiff" --keep-going --without numbers mixed.lines mixed < /dev/null
succeeds "an index in a heading" bash -c '"$0" --without indexes routes prefix | grep -qx "@@ .* @@ RTM_NEWADDR index 3"' "$linkdiff"
succeeds "an offset in a heading" bash -c '"$0" --offsets routes prefix | grep -qx "@@ .* @@ RTM_NEWADDR index 3 at 48 of routes"' "$linkdiff"
"$LINKSHOW" "$work/prefix" > "$work/prefix.lines"
succeeds "an offset of the other side in a heading" bash -c '"$0" --offsets prefix.lines routes |
    grep -qx "@@ .* @@ RTM_NEWADDR index 3 at 48 of routes"' "$linkdiff"
sed '1s/.*/RTM_GETADDR flags 0x1 (REQUEST) seq 5 port 0/' "$work/prefix.lines" > "$work/other-type.lines"
sed 's/flags 0x605 (REQUEST | ACK | EXCL | CREATE)/flags 0x5 (REQUEST | ACK)/' "$work/prefix.lines" > "$work/other-flags.lines"
succeeds "an offset of the other side if the flags differ" bash -c '"$0" --offsets other-flags.lines routes |
    grep -qx "@@ .* @@ RTM_NEWADDR index 3 at 48 of routes"' "$linkdiff"
succeeds "no offset of another message in a heading" bash -c '"$0" --offsets other-type.lines routes |
    grep -qx "@@ .* @@ RTM_GETADDR v0"' "$linkdiff"
expect "without diff" 2 "linkdiff: there is no program diff, which Debian has in the package diffutils" \
    env PATH=/nonexistent "$(python3 -c 'import sys; print(sys.executable)')" "$linkdiff" routes prefix < /dev/null
for arguments in a "a a a" "--unknown a a" "- -" "--without IFLA_NAM a a" "--label a --label b --label c a a"; do
    succeeds "usage: $arguments" bash -c '"$0" $1 2> usage; [ $? -eq 2 ] && grep -q "^usage: linkdiff" usage' "$linkdiff" "$arguments"
done

# ---- linkjson

cat "$work/a" "$work/b" "$work/a" > "$work/three"
json='{"type": "RTM_GETLINK", "flags": {"value": 769, "flags": ["REQUEST", "ROOT", "MATCH"]}, "seq": 1526271540, "port": 0, '
json+='"header": {"struct": "ifinfomsg", "family": {"value": 0, "text": "AF_UNSPEC"}, "type": {"value": 0}, "index": 0, '
json+='"flags": {"value": 0, "flags": []}, "change": {"value": 0, "flags": []}}, '
json+='"attributes": [{"name": "IFLA_EXT_MASK", "value": 9, "flags": ["Vf", "SkipStats"]}, {"name": "IFLA_IFNAME", "value": "lo", "quoted": true}]}'
succeeds "stored lines as JSON" "$top/scripts/tests/lines.py"
succeeds "lines with what a record knows" "$top/scripts/tests/record.py"
expect "a capture as JSON" 0 "" "$linkjson" a <<< "$json"
expect "JSON of linkshow" 0 "" "$LINKSHOW" --json a <<< "$json"
# an RTM_NEWLINK whose IFLA_IFNAME has control characters, a quotation mark and a backslash
{
    printf '\x30\0\0\0\x10\0\5\0\1\0\0\0\0\0\0\0'
    head -c 16 /dev/zero
    printf '\x0d\0\3\0\b\t\n\f\r\1"\\n\0\0\0'
} > "$work/control"
control=$'s/"seq.*port": 0/"seq": 1, "port": 0/; s/GETLINK/NEWLINK/; s/769, "flags": [^]]*/5, "flags": ["REQUEST", "ACK"/'
control+='; s/{"name": "IFLA_EXT_MASK[^}]*}, //; s/"lo"/"\\u0008\\u0009\\u000a\\u000c\\u000d\\u0001\\"\\\\n"/'
expect "JSON of control characters" 0 "" "$linkjson" control < <(sed "$control" <<< "$json")
expect "JSON of control characters, of linkshow" 0 "" "$LINKSHOW" --json control < <(sed "$control" <<< "$json")
expect "lines as JSON" 0 "" "$linkjson" a.lines <<< "$json"
expect "a golden file as JSON" 0 "" "$linkjson" headed.lines <<< "${json/\"seq\": 1526271540, \"port\": 0, /}"
expect "JSON without numbers and an attribute" 0 "" "$linkjson" --without-numbers --without IFLA_IFNAME a \
    <<< "$(sed 's/"seq.*0, "header/"header/; s/, {"name": "IFLA_IFNAME[^}]*}//' <<< "$json")"
expect "JSON of a type" 0 "no messages" "$linkjson" --only newlink a < /dev/null
expect "JSON of a link" 0 "no messages" "$linkjson" --link lo b < /dev/null
expect "JSON of a route" 0 "" "$linkjson" --without-numbers --only newroute routes << 'END'
{"type": "RTM_NEWROUTE", "flags": {"value": 1541, "flags": ["REQUEST", "ACK", "EXCL", "CREATE"]}, "header": {"struct": "rtmsg", "family": {"value": 2, "text": "AF_INET"}, "dst_len": 24, "src_len": 0, "tos": 0, "table": {"value": 254, "text": "main"}, "protocol": {"value": 3, "text": "boot"}, "scope": {"value": 0, "text": "universe"}, "type": {"value": 1, "text": "unicast"}, "flags": {"value": 0, "flags": []}}, "attributes": [{"name": "RTA_DST", "value": "198.51.100.0"}, {"name": "RTA_MULTIPATH", "nested": [{"struct": "rtnexthop", "fields": {"flags": {"value": 0, "flags": []}, "hops": {"value": 0, "text": "weight 1"}, "ifindex": 0}, "nested": [{"name": "RTA_GATEWAY", "value": "192.0.2.2"}]}, {"struct": "rtnexthop", "fields": {"flags": {"value": 0, "flags": []}, "hops": {"value": 9, "text": "weight 10"}, "ifindex": 0}, "nested": [{"name": "RTA_GATEWAY", "value": "192.0.2.3"}]}]}]}
END
succeeds "JSON of headers without names, of linkshow" bash -c '"$0" --json "$2.bin" > json && "$1" "$2.lines" | cmp - json && "$0" "$2.bin" | cmp - "$2.lines"' \
    "$LINKSHOW" "$linkjson" "$top/scripts/tests/header_fields"
expect "JSON of a cut capture" 2 "cut frame at 48" "$linkjson" cut <<< "$json"
expect "JSON under a limit" 2 "frame over the limit at 0" "$linkjson" --limit 47 a < /dev/null
expect "JSON of an odd limit" 2 "$("$LINKSHOW" --limit 15 2>&1)" "$linkjson" --limit 15 a < /dev/null
succeeds "JSON of a fault in a later piece" bash -c '{ cat a; sleep 1; cat mixed; } | "$0" 2> report > made; [ ${PIPESTATUS[1]} -eq 2 ] && [ "$(wc -l < made)" -eq 2 ] &&
    grep -qx "refused body at 96: a header of 4 bytes at 112" report' "$linkjson"
expect "JSON of nothing" 0 "no messages" "$linkjson" none < /dev/null
expect "JSON of a missing file" 2 "linkjson: missing: no such file or directory" "$linkjson" missing < /dev/null
for option in "--only newlink" --limit=48 --offsets --keep-going; do
    expect "JSON of an option for captures: $option" 2 "linkjson: --only, --limit, --offsets and --keep-going are for captures: give them to linkshow" \
        bash -c '"$0" $1 a.lines' "$linkjson" "$option" < /dev/null
done
at() { sed "s/\"port\": 0, /&\"offset\": $1, /" <<< "${2:-$json}"; }
invalid='{"type": "RTM_GETLINK", "flags": {"value": 769, "flags": ["REQUEST", "ROOT", "MATCH"]}, "seq": 1, "port": 0, '
invalid+='"refused": "a header of 4 bytes", "body": "00000000", "attributes": []}'
expect "JSON with offsets" 0 "" "$linkjson" --offsets three < <(at 0; at 48 "${json/lo/l1}"; at 96)
expect "JSON with offsets and without numbers" 0 "" "$linkjson" --offsets --without numbers three \
    < <({ at 0; at 48 "${json/lo/l1}"; at 96; } | sed 's/"seq.*"offset/"offset/')
expect "JSON up to an invalid message" 2 "$refused" "$linkjson" mixed <<< "$json"
expect "JSON of an invalid message" 2 "$refused" "$linkjson" --keep-going mixed < <(echo "$json"; echo "$invalid"; echo "${json/lo/l1}")
expect "JSON of an invalid message with its offset" 2 "$refused" "$linkjson" --keep-going --offsets mixed < <(at 0; at 48 "$invalid"; at 68 "${json/lo/l1}")
expect "JSON of invalid messages and a cut frame" 2 "$refused"$'\n'"cut frame at 116" "$linkjson" --keep-going mixed-cut \
    < <(echo "$json"; echo "$invalid"; echo "${json/lo/l1}")
expect "JSON of a file of lines with offsets" 0 "" "$linkjson" mixed.lines < <(at 0; at 48 "$invalid"; at 68 "${json/lo/l1}")
succeeds "JSON of invalid messages in later pieces" bash -c '{ cat a; sleep 1; cat mixed; sleep 1; cat mixed; } | "$0" --keep-going --offsets 2> report > made
    [ ${PIPESTATUS[1]} -eq 2 ] && [ "$(cat report)" = "refused body at 96: a header of 4 bytes at 112" ] &&
    [ "$(grep -o "\"offset\": [0-9]*" made | cut -d " " -f 2 | paste -sd " ")" = "0 48 96 116 164 212 232" ]' "$linkjson"
{ head -n 2 "$work/a.lines"; echo "   IFLA_IFNAME"; } > "$work/odd.lines"
expect "JSON of other lines" 2 "linkjson: no line of linkshow:    IFLA_IFNAME" "$linkjson" odd.lines < /dev/null
succeeds "JSON of standard input" bash -c '[ "$("$0" < a)" = "$1" ] && [ "$("$0" - < a.lines)" = "$1" ]' "$linkjson" "$json"
succeeds "JSON of each message as it comes" bash -c '{ cat a; sleep 2; cat a; } | "$0" | { read -r -t 1.5 line && [ "$line" = "$1" ]; }' "$linkjson" "$json"
succeeds "JSON of a long capture" bash -c 'for i in {1..3000}; do cat a v; done | "$0" --without-numbers | sort | uniq -c | awk "{ print \$1 }" | sort -n | paste -sd " " > counts
    [ "$(cat counts)" = "$({ cat a v | "$0" --without-numbers | sort | uniq -c; } | awk "{ print \$1 * 3000 }" | sort -n | paste -sd " ")" ]' "$linkjson"
succeeds "JSON to a closed pipe" bash -c '"$0" a | { exec 0<&-; sleep 1; }; [ ${PIPESTATUS[0]} -eq 141 ]' "$linkjson"
succeeds "JSON: Ctrl-C" bash -c 'sleep 7 | timeout --preserve-status -s INT 5 env --default-signal=INT "$0" 2> report; [ ${PIPESTATUS[1]} -eq 130 ] && [ ! -s report ]' "$linkjson"
succeeds "JSON: no program" bash -c 'LINKSHOW=/nowhere/linkshow "$0" a 2>&1 | grep -q "no program"' "$linkjson"
succeeds "JSON: an unknown attribute" bash -c '"$0" --without IFLA_NAM a 2> usage; [ $? -eq 2 ] && grep -q "no attribute or group is called IFLA_NAM" usage' "$linkjson"
succeeds "JSON: help" bash -c '"$0" --help | grep -q "linkjson \[OPTION\]"' "$linkjson"

succeeds "the options of showing.md are those of linkshow and linkdiff" "$top/scripts/tests/page_options.py" "$LINKSHOW"

# ---- samples

succeeds "samples: bytes, texts and lines" "$top/tools/oracle/samples.py" "$LINKCAP" "$LINKSHOW"

# ---- linkrec: files

# A pcap file of one packet: a header of the nlmon device, then a's message and four bytes after it.
packet() { printf '\0\4\3\x38\0\0\0\0\0\0\0\0\0\0\0\0'; cat "$work/a"; printf '\0\0\0\1'; }
packet > "$work/packet"
{ printf '\xd4\xc3\xb2\xa1\2\0\4\0\0\0\0\0\0\0\0\0\0\0\4\0\xfd\0\0\0'; printf '\0\0\0\0\0\0\0\0\x44\0\0\0\x44\0\0\0'; cat "$work/packet"; } > "$work/pcap"
{
    printf '\n\r\r\n\x1c\0\0\0\x4d\x3c\x2b\x1a\1\0\0\0\xff\xff\xff\xff\xff\xff\xff\xff\x1c\0\0\0'
    printf '\1\0\0\0\x14\0\0\0\xfd\0\0\0\0\0\4\0\x14\0\0\0'
    printf '\6\0\0\0\x64\0\0\0\0\0\0\0\0\0\0\0\0\0\0\0\x44\0\0\0\x44\0\0\0'; cat "$work/packet"; printf '\x64\0\0\0'
} > "$work/pcapng"
rest="linkrec: left out 4 bytes that followed the messages of a packet"
expect "a pcap file" 0 "$rest" "$linkrec" pcap pcap < "$work/a"
expect "a pcapng file" 0 "$rest" "$linkrec" pcap pcapng < "$work/a"
head -c -1 "$work/pcap" > "$work/zeros" && printf '\0' >> "$work/zeros"
expect "a packet that ends with zeros" 0 "" "$linkrec" pcap zeros < "$work/a"
head -c 60 "$work/pcap" > "$work/broken"
expect "a pcap file that ends early" 1 "linkrec: the file ends inside a packet" "$linkrec" pcap broken < /dev/null
expect "a pcapng file that ends early" 1 "linkrec: the file ends inside a block" "$linkrec" pcap <(head -c 100 "$work/pcapng") < /dev/null
# nanoseconds, big-endian, and cooked packets of the second kind: a header of 20 bytes
cooked() { printf '\0\0\0\0\0\0\0\1\3\x38\0\0\0\0\0\0\0\0\0\0'; cat "$work/a"; }
{
    printf '\xa1\xb2\x3c\x4d\0\2\0\4\0\0\0\0\0\0\0\0\0\4\0\0\0\0\1\x14'
    printf '\0\0\0\0\0\0\0\0\0\0\0\x44\0\0\0\x44'; cooked
} > "$work/cooked"
expect "a pcap file of cooked packets" 0 "" "$linkrec" pcap cooked < "$work/a"
succeeds "a pcap file from standard input" bash -c '"$0" pcap - < cooked | cmp - a' "$linkrec"
sed 's/\x3\x38/\x3\x39/' "$work/cooked" > "$work/others"
expect "a pcap file of other packets" 1 "linkrec: no route message in the file: capture on an nlmon device" "$linkrec" pcap others < /dev/null
expect "an empty pcap file" 1 "linkrec: no pcap or pcapng file" "$linkrec" pcap none < /dev/null
expect "no pcap file" 1 "linkrec: no pcap or pcapng file" "$linkrec" pcap a < /dev/null
expect "a missing file" 1 "linkrec: missing: No such file or directory" "$linkrec" pcap missing < /dev/null
expect "cut by offset" 0 "" "$linkrec" cut --at 48 three < <(cat "$work/a" "$work/a")
expect "cut by type" 0 "" "$linkrec" cut --type getlink three < /dev/null
succeeds "cut by each type that linkshow names" bash -c 'for word in $(python3 -c "$1" "$2"); do
    "$0" cut --type "$word" none && "$LINKSHOW" --only "$word" none 2> /dev/null || exit; done' "$linkrec" \
    'import sys; sys.path.append(sys.argv[1]); from tables import TYPES; print(*(name.split("_")[1].lower() for name in TYPES.values()))' \
    "$top/tools/oracle"
expect "cut at no message" 1 "linkrec: no message starts at 4" "$linkrec" cut --at 4 a < /dev/null
expect "no offset" 2 "linkrec: no offset: x" "$linkrec" cut --at 4,x a < /dev/null
expect "an unknown type" 2 "linkrec: no type of messages: link" "$linkrec" cut --type link a < /dev/null
expect "without invalid messages" 0 "linkrec: left out the message at 48: refused body" "$linkrec" cut --legal mixed < <(cat "$work/a" "$work/b")
expect "cut of nothing" 0 "" "$linkrec" cut --legal none < /dev/null
succeeds "cut from standard input" bash -c '"$0" cut --type newlink < three | cmp - three && "$0" cut --at 0 - < a | cmp - none' "$linkrec"
succeeds "cut without linkcap" bash -c 'LINKCAP=/nowhere/linkcap "$0" cut --legal a 2> report; [ $? -eq 1 ] && grep -q "needs the program" report' "$linkrec"
succeeds "cut to a closed pipe" bash -c '"$0" cut three | { exec 0<&-; sleep 1; }; [ ${PIPESTATUS[0]} -eq 141 ]' "$linkrec"
succeeds "a size of nothing" bash -c '"$0" split three 0 zero 2> report; [ $? -eq 2 ] && grep -q "SIZE is a number" report' "$linkrec"
expect "split" 0 "" "$linkrec" split three 60 pieces < <(printf '0\tpieces/piece-000000.bin\n96\tpieces/piece-000001.bin\n')
succeeds "the pieces are the capture" bash -c 'cat pieces/* | cmp - three'
expect "a folder that is there" 1 "linkrec: pieces: File exists" "$linkrec" split three 60 pieces < /dev/null

. scripts/tests/linkrec_checks.sh

# ---- linkrec: traces

hex='60 bytes'
trace() { cat > "$work/trace"; }
call='[{nlmsg_len=48, nlmsg_type=RTM_GETLINK}, ..], 48, 0, NULL, 0) = 48'
bytes=$(xxd -g 1 -c 16 "$work/a" | sed -E 's/^([0-9a-f]+): (([0-9a-f]{2} ){8})(.*)  .*/ | \100  \2 \4  ................ |/; s/^ \| 000/ | /')
trace << END
7  socket(AF_NETLINK, SOCK_RAW, NETLINK_ROUTE) = 3
7  sendto(3, $call
$bytes
7  socket(AF_NETLINK, SOCK_RAW, NETLINK_GENERIC) = 4
7  sendto(4, $call
$bytes
7  dup(3) = 5
7  close(3) = 0
7  socket(AF_NETLINK, SOCK_RAW, NETLINK_GENERIC) = 3
7  sendto(3, $call
$bytes
7  write(5, ".."..., 48) = 48
$bytes
END
expect "sockets by descriptor" 0 "" "$linkrec" strace trace < <(cat "$work/a" "$work/a")
trace << END
7  sendto(3<NETLINK:[ROUTE:7]>, $call
$bytes
7  sendto(4<NETLINK:[GENERIC:7]>, $call
$bytes
7  sendto(5, $call
$bytes
END
unknown="linkrec: left out 1 calls on netlink sockets whose family the trace doesn't show: trace with -yy, or with socket, dup and clone"
succeeds "received messages of a trace" bash -c '{ cat trace; sed "s/sendto/recvfrom/" trace; } > both; "$0" strace --answers received -o sent both; cmp sent a && cmp received a' "$linkrec"
expect "sockets by name" 0 "$unknown" "$linkrec" strace trace < "$work/a"
trace << END
7  socket(AF_NETLINK, SOCK_RAW, NETLINK_ROUTE) = 3<socket:[99]>
7  clone(child_stack=NULL, flags=SIGCHLD) = 8
8  sendto(3<socket:[99]>, [{nlmsg_len=48, nlmsg_type=RTM_GETLINK}, ..], 48, 0, NULL, 0 <unfinished ...>
7  close(3<socket:[99]>) = 0
8  <... sendto resumed>) = 48
$bytes
END
expect "sockets by inode, of another process" 0 "" "$linkrec" strace trace < "$work/a"
trace << END
7  sendto(3<NETLINK:[ROUTE:7]>, $call
END
expect "a trace from standard input, without a call" 1 "linkrec: no route message in the trace" "$linkrec" strace - < /dev/null
trace << END
7  sendto(3<NETLINK:[ROUTE:7]>, $call
END
expect "a trace without bytes" 1 $'linkrec: left out 1 calls without their bytes: trace with -e write=all\nlinkrec: no route message in the trace' "$linkrec" strace trace < /dev/null

. scripts/tests/golden_checks.sh

# ---- linkrec run and effect, linkgold

for arguments in run effect "run --attach 1 ip"; do
    succeeds "usage: $arguments" bash -c '"$0" $1 2> report; [ $? -eq 125 ] && grep -q "takes a COMMAND" report' "$linkrec" "$arguments"
done
succeeds "no process to attach to" bash -c '"$0" run --attach 99999999 2> report; [ $? -eq 125 ] && grep -q "process 99999999: No such file" report' "$linkrec"
for arguments in "" "a.lines" "a.lines a b" "a.lines a -- ip" "--effect a.lines a" "--effect --here a.lines -- ip" "--without IFLA_NAM a.lines a"; do
    succeeds "usage of linkgold: $arguments" bash -c '"$0" $1 2> usage; [ $? -eq 2 ] && grep -q "^usage: linkgold" usage' "$linkgold" "$arguments"
done

expect "a golden file and a capture" 0 "" "$linkgold" a.lines a < /dev/null
expect "a golden file and a capture with another number" 0 "" "$linkgold" a.lines later < /dev/null
expect "a golden file and another number, which counts" 1 "" "$linkgold" --numbers --counters a.lines later << 'END'
--- a.lines
+++ later
@@ -1,4 +1,4 @@ RTM_GETLINK lo
-RTM_GETLINK flags 0x301 (REQUEST | ROOT | MATCH) seq 1526271540 port 0
+RTM_GETLINK flags 0x301 (REQUEST | ROOT | MATCH) seq 67305985 port 0
   ifinfomsg family 0 (AF_UNSPEC) type 0 index 0 flags 0x0 change 0x0
   IFLA_EXT_MASK 0x9 (Vf | SkipStats)
   IFLA_IFNAME "lo"
END
expect "a golden file and another name" 1 "" "$linkgold" a.lines b << 'END'
--- a.lines
+++ b
@@ -1,4 +1,4 @@ RTM_GETLINK lo
 RTM_GETLINK flags 0x301 (REQUEST | ROOT | MATCH)
   ifinfomsg family 0 (AF_UNSPEC) type 0 index 0 flags 0x0 change 0x0
   IFLA_EXT_MASK 0x9 (Vf | SkipStats)
-  IFLA_IFNAME "lo"
+  IFLA_IFNAME "l1"
END
expect "a golden file without an attribute" 0 "" "$linkgold" --without IFLA_IFNAME a.lines b < /dev/null
expect "a golden file and another link" 2 "linkgold: b: no messages" "$linkgold" --link lo a.lines b < /dev/null
expect "a golden file and a type" 2 "linkgold: a: no messages" "$linkgold" --only newlink a.lines a < /dev/null
expect "a golden file and another order" 0 "$ignored" "$linkgold" --ignore-order a.lines reordered < /dev/null
expect "a golden file of nothing" 2 "linkgold: none: no messages" "$linkgold" --update none.lines none < /dev/null
expect "no golden file" 2 "linkgold: missing.lines: no such file; --update writes it" "$linkgold" missing.lines a < /dev/null
expect "a golden file and an invalid message" 2 \
    "linkgold: mixed: refused body at 48: a header of 4 bytes at 64; --keep-going compares such messages by their bytes" "$linkgold" a.lines mixed < /dev/null
expect "a golden file without invalid messages" 0 "linkrec: left out the message at 48: refused body" \
    "$linkgold" --legal --update "with space.lines" mixed < /dev/null
expect "the lines without invalid messages" 0 "" "$linkdiff" --without numbers,indexes,counters "with space.lines" <(cat "$work/a" "$work/b") < /dev/null
sed 's/format 4/format 3/; s/"lo"/"l2"/' "$work/headed.lines" > "$work/older.lines"
succeeds "a golden file of another format version" bash -c '"$0" older.lines a 2> report > diff; [ $? -eq 1 ] &&
    [ "$(cat report)" = "linkgold: older.lines has lines of format 3, and linkshow writes format 4: --update writes it anew" ]' "$linkgold"
succeeds "no linkshow" bash -c 'LINKSHOW=/nowhere/linkshow "$0" a.lines a 2>&1 | grep -q "no program linkshow"' "$linkgold"

# Recording is skipped if it isn't possible here.
if ! command -v strace > /dev/null || ! command -v unshare > /dev/null || ! command -v ip > /dev/null; then
    skip "recording" "no strace, unshare or ip"
elif ! unshare --map-root-user --net strace -qq -o /dev/null true 2> /dev/null; then
    skip "recording" "no permission to trace in a network namespace"
else
    succeeds "a command is recorded" bash -c '"$0" run --netns -o made -- ip link show dev lo && "$LINKSHOW" made | grep -q "IFLA_IFNAME \"lo\""' "$linkrec"
    succeeds "its replies too" bash -c '"$0" run --netns -o made --answers replies -- ip link show dev lo && "$LINKSHOW" replies | grep -q ^RTM_NEWLINK' "$linkrec"
    succeeds "a capture on standard output" bash -c '"$0" run --netns -- ip link show dev lo > piped 2> output && "$LINKSHOW" piped | grep -q "IFLA_IFNAME \"lo\"" &&
        grep -q "lo:" output' "$linkrec"
    succeeds "a setup isn't recorded" bash -c '"$0" run --setup "ip link set lo up" -o made -- ip link show up && ! "$LINKSHOW" made | grep -q "index 1 "' "$linkrec"
    succeeds "a setup that fails" bash -c '"$0" run --setup "exit 3" --setup "(exit 3)" -o made -- ip link; [ $? -eq 3 ] &&
        "$0" run --setup "(exit 3)" -o made -- ip link 2> report; [ $? -eq 125 ] && [ "$(cat report)" = "linkrec: the setup failed: (exit 3)" ]' "$linkrec"
    succeeds "a failing command's status" bash -c '"$0" run -o made -- sh -c "exit 7" 2> /dev/null; [ $? -eq 7 ]' "$linkrec"
    succeeds "a command that a signal ends" bash -c '"$0" run -o made -- sh -c "kill -9 \$\$" 2> /dev/null; [ $? -eq 137 ]' "$linkrec"
    succeeds "no route message" bash -c '"$0" run -o made -- true 2> report && grep -qx "linkrec: no route message was sent" report' "$linkrec"
    succeeds "a refused request" bash -c '"$0" run --netns -o made -- ip link add v0 type no_such_kind 2>&1 | grep -q "^linkrec: refused: RTM_NEWLINK: EOPNOTSUPP (Operation not supported): Unknown device type"' "$linkrec"
    succeeds "a refused request, quietly" bash -c '! "$0" run -q --netns -o made -- ip link add v0 type no_such_kind 2>&1 | grep refused:' "$linkrec"
    succeeds "no such command" bash -c '"$0" run -- no-such-command 2> /dev/null; [ $? -eq 127 ]' "$linkrec"
    succeeds "no permission to write" bash -c '"$0" run -o /nowhere/made -- true 2> report; [ $? -eq 125 ] && grep -qx "linkrec: /nowhere/made: No such file or directory" report' "$linkrec"
    succeeds "a name with a space" bash -c 'mkdir -p "a b c" && "$0" run --netns -o "a b c/made" -- ip link && [ -s "a b c/made" ]' "$linkrec"
    if "${CC:-cc}" -w -pthread -static -o "$work/sends" scripts/tests/sends.c 2> /dev/null; then
        expect "all ways to send" 0 "" bash -c '"$0" run -q --netns -o sent -- ./sends; "$LINKSHOW" sent | grep -o "seq .*" | sort' "$linkrec" \
            < <(printf 'seq %s port 0\n' 1 2 3 4 5 6 7)
    else
        skip "all ways to send" "no C compiler with a static library"
    fi
    succeeds "when messages are sent" bash -c '"$0" run --netns --time -o made -- ip link show dev lo 2> times &&
        grep -qx "20.*T.* 32 RTM_GETLINK process [0-9]* namespace 1" times' "$linkrec"
    succeeds "a process that is attached to" "$top/scripts/tests/attach.sh" "$linkrec"
    succeeds "the links after a command" bash -c '"$0" effect --setup "ip link set lo mtu 5000" -- ip link set lo up > made && "$LINKSHOW" made | grep -q "IFLA_MTU 5000" &&
        "$LINKSHOW" made | grep -q "flags 0x.*Up"' "$linkrec"
    succeeds "the links after a command that fails" bash -c '"$0" effect -o made -- sh -c "exit 7"; [ $? -eq 7 ] && [ ! -s made ]' "$linkrec"
    succeeds "no namespace for a comparison" bash -c 'mkdir -p bin; printf "#!/bin/sh\nexit 1\n" > bin/unshare; chmod +x bin/unshare
        PATH=$PWD/bin:$PATH "$0" a.lines -- ip link 2> report; [ $? -eq 2 ] && grep -qx "linkgold: nothing was recorded" report' "$linkgold"
    succeeds "no permission to write a golden file" bash -c '"$0" --update /proc/none/a.lines -- ip link show dev lo 2> report; [ $? -eq 2 ] &&
        grep -q "^linkgold: /proc/none: no such file" report' "$linkgold"
    succeeds "no namespace" bash -c 'mkdir -p bin; printf "#!/bin/sh\necho unshare: not permitted >&2\nexit 1\n" > bin/unshare; chmod +x bin/unshare
        PATH=$PWD/bin:$PATH "$0" run --netns -- ip link 2> report; [ $? -eq 125 ] && grep -q "^linkrec: no network namespace: unshare: not permitted" report' "$linkrec"
    succeeds "a golden file is written" bash -c '"$0" --update golden/lo.lines -- ip link show dev lo && head -n 1 golden/lo.lines | grep -qx "# linkcap lines, format 4"' "$linkgold"
    succeeds "the same command is equal" bash -c '"$0" golden/lo.lines -- ip link show dev lo && "$0" golden/lo.lines -- ip link show dev lo' "$linkgold"
    succeeds "another command differs" bash -c '"$0" golden/lo.lines -- ip link show > diff; [ $? -eq 1 ] && grep -q "^@@.*RTM_GETLINK" diff' "$linkgold"
    succeeds "a capture is compared" bash -c '"$1" run --netns -o made -- ip link show dev lo && "$0" golden/lo.lines made' "$linkgold" "$linkrec"
    succeeds "here" bash -c '"$0" --here golden/lo.lines -- ip link show dev lo' "$linkgold"
    succeeds "a golden file after a setup" bash -c '"$0" --setup "ip link set lo up" --update golden/up.lines -- ip link set lo mtu 5000 &&
        "$0" golden/up.lines -- ip link set lo mtu 5000 && grep -q "IFLA_MTU 5000" golden/up.lines' "$linkgold"
    succeeds "a command that fails" bash -c '"$0" golden/lo.lines -- ip link show dev none 2> report; [ $? -eq 2 ] && grep -q "^linkgold: ip: ended with status 1; --may-fail" report' "$linkgold"
    succeeds "a command that may fail" bash -c '"$0" --may-fail --update golden/fails.lines -- ip link show dev none; "$0" --may-fail golden/fails.lines -- ip link show dev none' "$linkgold"
    succeeds "no such command to compare" bash -c '"$0" golden/lo.lines -- no-such-command 2> report; [ $? -eq 2 ] && grep -q "no-such-command: no such command" report &&
        grep -qx "linkgold: no-such-command: ended with status 127" report' "$linkgold"
    succeeds "an effect" bash -c '"$0" --effect --update golden/effect.lines -- ip link set lo up && "$0" --effect golden/effect.lines -- ip link set dev lo up' "$linkgold"
    succeeds "another effect" bash -c '"$0" --effect golden/effect.lines -- ip link set lo up mtu 5000 > diff; [ $? -eq 1 ] && grep -q "^@@.*RTM_NEWLINK lo" diff && grep -qx "+  IFLA_MTU 5000" diff' "$linkgold"
    if unshare --map-root-user --net ip link add v0 type veth 2> /dev/null; then
        # the kernel draws addresses at random
        succeeds "an effect with random addresses" bash -c '"$0" --effect --update golden/veth.lines -- ip link add v0 type veth peer name v1 2> report &&
            grep -qx "linkgold: left out what two runs differ in: IFLA_ADDRESS" report && ! grep IFLA_ADDRESS.*:.[1-9a-f] golden/veth.lines &&
            "$0" --effect golden/veth.lines -- ip link add v0 type veth peer name v1' "$linkgold"
        succeeds "an effect with another address" bash -c '"$0" --effect golden/veth.lines -- ip link add v0 address 02:00:00:00:00:05 type veth peer name v1 > diff
            [ $? -eq 1 ] && grep -qx "+  IFLA_ADDRESS 02:00:00:00:00:05" diff' "$linkgold"
    else
        skip "effects with random addresses" "no veth"
    fi
    . scripts/tests/names.sh
    succeeds "a dump" bash -c '"$0" dump > dumped && "$LINKSHOW" dumped | grep -q "^NLMSG_DONE"' "$linkrec"
    succeeds "a dump from a port" bash -c '"$0" dump --port 7777 > dumped && "$LINKSHOW" dumped | grep -q "^RTM_NEWLINK.* port 7777$"' "$linkrec"
    succeeds "all tables" bash -c '"$0" dump --all > dumped && "$LINKSHOW" dumped > shown &&
        grep -q "^RTM_NEWADDR" shown && grep -q "^RTM_NEWNETCONF" shown' "$linkrec"
    succeeds "a dump to a closed pipe" bash -c '"$0" dump | { exec 0<&-; sleep 1; }; [ ${PIPESTATUS[0]} -eq 141 ]' "$linkrec"
    succeeds "a watch ends" "$linkrec" watch 0.1
    succeeds "a watch" unshare --map-root-user --net bash -c '"$0" watch 2 --all --time > seen 2> times & sleep 1; ip link set lo up; wait
        "$LINKSHOW" seen | grep -q "^RTM_NEWLINK" && grep -q "T.* 0 RTM_NEWLINK$" times' "$linkrec"
    # A shell that runs this in the background has its children ignore Ctrl-C, unless env says otherwise.
    succeeds "Ctrl-C ends a command" bash -c 'timeout --preserve-status -s INT 5 env --default-signal=INT "$0" run --netns -o made -- sh -c "ip link show dev lo; sleep 60" 2> report
        [ $? -eq 130 ] && "$LINKSHOW" made | grep -q "IFLA_IFNAME \"lo\""' "$linkrec"
    succeeds "Ctrl-C ends a comparison" bash -c 'timeout --preserve-status -s INT 5 env --default-signal=INT "$0" golden/lo.lines -- sleep 60 2> report; [ $? -eq 130 ] && ! grep Traceback report' "$linkgold"
    # The watch has begun when it has a socket.
    succeeds "Ctrl-C ends a watch" bash -c 'env --default-signal=INT "$0" watch > seen 2> report & watch=$!
        for _ in {1..300}; do ls -l "/proc/$watch/fd" | grep -q socket: && break; sleep 0.1; done; sleep 1
        kill -INT "$watch"; wait "$watch"; status=$?; cat report; [ "$status" -eq 0 ] && [ ! -s report ]' "$linkrec"
fi

echo "$passed passed, $failed failed, $skipped skipped"
[ "$failed" -eq 0 ]
