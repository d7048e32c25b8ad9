# Checks of golden files that scripts/check.sh sources: --replace, what a golden file leaves out, and effects.

# ---- --replace

cat > "$work/names.lines" << 'END_OF_LINES'
RTM_NEWLINK flags 0x605 (REQUEST | ACK | EXCL | CREATE)
  ifinfomsg family 0 (AF_UNSPEC) type 0 index "veth1a2b3c4d" flags 0x0 change 0x0
  IFLA_IFNAME "veth1a2b3c4d"
  IFLA_IFALIAS "veth1a2b3c4d"
  IFLA_ADDRESS 06:f7:f0:f3:df:39
  IFLA_PHYS_SWITCH_ID 06:f7:f0:f3:df:39
  IFLA_MASTER "veth00000001"
  IFLA_LINKINFO
    IFLA_INFO_KIND "veth00000001"
    IFLA_INFO_DATA
      IFLA_BR_BRIDGE_ID 8000.06f7f0f3df39
      IFLA_BR_ROOT_ID 8000.0000f0f3df39
RTM_NEWADDR flags 0x605 (REQUEST | ACK | EXCL | CREATE)
  ifaddrmsg family 2 (AF_INET) prefixlen 24 flags 0x0 scope 0 (universe) index 3
  IFA_LABEL "veth1a2b3c4d:1"
RTM_NEWNEIGH flags 0x605 (REQUEST | ACK | EXCL | CREATE)
  ndmsg family 10 (AF_INET6) ifindex "veth00000001" state 0x80 (PERMANENT) flags 0x0 type 0 (unspec)
  NDA_DST 20:11:22:33:44:55:66:77
  NDA_LLADDR 20:11:22:33:44:55
  NDA_MASTER "br0"
END_OF_LINES
replace=(--replace 'veth[0-9a-f]{8}=vethN' --replace '(?!20)..(:..){5}=mac')
# Only names of links and hardware addresses change: no alias, no kind, no identifier, no IPv6 address, no part of a label.
sed -E '/IFALIAS|INFO_KIND|IFA_LABEL|SWITCH_ID/! { s/veth1a2b3c4d/vethN/; s/veth00000001/vethN#2/; s/06:f7.*/mac/; s/06f7f0f3df39/mac/
    s/0000f0f3df39/mac#2/ }' "$work/names.lines" > "$work/replaced.lines"
succeeds "the replaced lines differ" bash -c '[ "$(diff names.lines replaced.lines | grep -c "^>")" -eq 7 ]'
expect "names that are replaced" 0 "" "$linkdiff" "${replace[@]}" names.lines replaced.lines < /dev/null
# The names and the address of another run.
sed 's/veth1a2b3c4d/vethffffffff/; s/06:f7:f0/0a:00:00/; s/06f7f0/0a0000/; /IFALIAS/s/vethf*/veth1a2b3c4d/; /IFA_LABEL/s/vethf*/veth1a2b3c4d/
    /SWITCH_ID/s/0a:00:00/06:f7:f0/' "$work/names.lines" > "$work/other_names.lines"
expect "other names, which are replaced" 0 "" "$linkdiff" "${replace[@]}" names.lines other_names.lines < /dev/null
succeeds "other names differ" bash -c '"$0" -q names.lines other_names.lines; [ $? -eq 1 ]' "$linkdiff"
sed '/IFLA_MASTER/s/veth00000001/vethffffffff/' "$work/other_names.lines" > "$work/other_master.lines"
succeeds "another master differs" bash -c '"$0" "${@:2}" "$1" other_master.lines > diff; [ $? -eq 1 ] && grep -qx -- "+  IFLA_MASTER \"vethN\"" diff &&
    grep -qx -- "-  IFLA_MASTER \"vethN#2\"" diff' "$linkdiff" names.lines "${replace[@]}"
succeeds "JSON of names that are replaced" bash -c '"$0" "$@" names.lines > made && "$0" replaced.lines | cmp - made' "$linkjson" "${replace[@]}"
succeeds "a link by its new name" bash -c '[ "$("$0" --link vethN "$@" names.lines | grep -o "RTM_[A-Z]*")" = RTM_NEWLINK ]' "$linkjson" "${replace[@]}"
succeeds "a golden file of names that are replaced" bash -c '"$0" --replace l.=X --update made.lines a && grep -qx "  IFLA_IFNAME \"X\"" made.lines &&
    "$0" --replace l.=X made.lines b && { "$0" made.lines b > diff; [ $? -eq 1 ]; }' "$linkgold"
for word in lo =lo lo= lo=X=1 'lo[=X' 'lo=X Y' lo=1; do
    for script in "$linkdiff" "$linkgold" "$linkjson"; do
        succeeds "usage of ${script##*/} --replace $word" bash -c '"$0" --replace "$1" a a 2> usage; [ $? -eq 2 ] && grep -qF -- "argument --replace: $1: " usage' \
            "$script" "$word"
    done
done

# ---- what a golden file leaves out

succeeds "a golden file says what it leaves out" bash -c '"$0" --update --without IFLA_EXT_MASK headed.made a && [ "$(head -n 3 headed.made)" = "# linkcap lines, format 4
# leaves out: numbers, counters, padding, IFLA_EXT_MASK, probes
RTM_GETLINK flags 0x301 (REQUEST | ROOT | MATCH)" ]' "$linkgold"
# An RTM_NEWROUTE to 10.7.0.0/16 with RTA_ENCAP_TYPE 2, as ip 6.1 sends it: what its memory held is the padding of 2 bytes.
route() {
    printf '\x2c\0\0\0\x18\0\x05\x06\x01\0\0\0\0\0\0\0\x02\x10\0\0\xfe\x03\0\x01\0\0\0\0'
    printf '\x08\0\x01\0\x0a\x07\0\0\x06\0\x15\0\x02\0'"$1"
}
route '\x01\0' > "$work/padded.bin"
route '\x15\x7f' > "$work/padded_otherwise.bin"
expect "padding is shown" 0 "" bash -c '"$0" padded.bin | tail -n 2' "$LINKSHOW" << 'END_OF_LINES'
  RTA_ENCAP_TYPE 2 (ip)
    padding 0100
END_OF_LINES
succeeds "padding as JSON" bash -c '"$0" --json padded.bin > json && "$1" padded.bin | cmp - json && grep -qF "{\"name\": \"padding\", \"value\": \"0100\"}" json' "$LINKSHOW" "$linkjson"
succeeds "padding isn't compared" bash -c '"$0" --update padded.lines padded.bin && "$0" padded.lines padded_otherwise.bin' "$linkgold"
succeeds "padding is compared with --padding" bash -c '"$0" --padding --update padded.lines padded.bin && { "$0" --padding padded.lines padded_otherwise.bin > diff; [ $? -eq 1 ] && grep -qx -- "+    padding 157f" diff; }' "$linkgold"
expect "a golden file and its own capture" 0 "" "$linkdiff" headed.made a < /dev/null
expect "a capture and its own golden file" 0 "" "$linkdiff" a headed.made < /dev/null
expect "a golden file's selection is that of its update" 0 "" "$linkgold" headed.made a < /dev/null
expect "a golden file with counters and its own capture" 0 "" bash -c '"$0" --update counters.made v && "$1" counters.made v' "$linkgold" "$linkdiff" < /dev/null
# what iproute2 sends before it changes a link
{ printf '\x20\0\0\0\x10\0\5\0'; head -c 24 /dev/zero; cat "$work/a"; } > "$work/probed"
expect "a golden file without a probe, and its own capture" 0 "" "$linkdiff" headed.made probed < /dev/null
expect "a golden file and another capture" 1 "" "$linkdiff" headed.made b << 'END_OF_DIFF'
--- headed.made
+++ b
@@ -3,3 +1,3 @@ RTM_GETLINK lo
 RTM_GETLINK flags 0x301 (REQUEST | ROOT | MATCH)
   ifinfomsg family 0 (AF_UNSPEC) type 0 index 0 flags 0x0 change 0x0
-  IFLA_IFNAME "lo"
+  IFLA_IFNAME "l1"
END_OF_DIFF
succeeds "JSON of a golden file with a head" bash -c '[ "$("$0" headed.made | grep -c RTM_GETLINK)" -eq 1 ]' "$linkjson"
sed 's/EXT_MASK/EXT_MAS/' "$work/headed.made" > "$work/unknown.made"
expect "an unknown name in a head" 2 "linkdiff: unknown.made: no attribute or group is called IFLA_EXT_MAS" "$linkdiff" unknown.made a < /dev/null
expect "an unknown name in the head of a golden file" 2 "linkgold: unknown.made: no attribute or group is called IFLA_EXT_MAS" "$linkgold" unknown.made a < /dev/null
{
    printf '%s\n' "# linkcap lines, format 4" "# leaves out: numbers" '# leaves out what varies: RTM_GETLINK "lo" > IFLA_EXT_MASK' \
        '# leaves out what varies: RTM_NEWADDR "v0" ifaddrmsg family 2 (AF_INET) prefixlen 24 flags 0x0 scope 0 (universe)'
    grep -v EXT_MASK "$work/a.golden"
} > "$work/positions.made"
expect "positions in a head" 0 "" "$linkdiff" positions.made a < /dev/null
sed -i 's/"lo" >/"l1" >/' "$work/positions.made"
succeeds "a position of another link" bash -c '"$0" positions.made a > diff; [ $? -eq 1 ] && grep -qx -- "+  IFLA_EXT_MASK 0x9 (Vf | SkipStats)" diff' "$linkdiff"
succeeds "a comparison to a closed pipe" bash -c '"$0" headed.made b 2> report | { exec 0<&-; sleep 1; }; [ ${PIPESTATUS[0]} -eq 141 ] && [ ! -s report ]' "$linkgold"
expect "a golden file and a pipe" 0 "" bash -c '"$0" headed.made <(cat a) && "$0" headed.made - < a && "$0" <(cat headed.made) a' "$linkgold" < /dev/null
# linkshow knows what some files are, and the scripts pass on what it says. Of others they say what they look like.
fault="frame over the limit at 0"
declare -A known=(
    [a.gz]="this is a compressed file: decompress it first"
    [a.xz]="this is a compressed file: decompress it first"
    [elf]="this is a program: linkrec run records what it asks for"
    [a.json]="this is JSON of linkshow already"
)
for name in "${!known[@]}"; do
    report="$fault"$'\n'"linkshow: ${known[$name]}"
    expect "linkdiff of $name" 2 "linkdiff: $name: $report" "$linkdiff" a "$name" < /dev/null
    expect "linkgold of $name" 2 "linkgold: $name: $report" "$linkgold" a.lines "$name" < /dev/null
    expect "linkjson of $name" 2 "$report" "$linkjson" "$name" < /dev/null
done
expect "linkdiff of a.hex" 2 "linkdiff: a.hex: $fault"$'\n'"linkdiff: a.hex: it looks like ${looks[a.hex]}" "$linkdiff" a a.hex < /dev/null
expect "linkgold of a.hex" 2 "linkgold: a.hex: $fault; it looks like ${looks[a.hex]}" "$linkgold" a.lines a.hex < /dev/null
expect "linkjson of a.hex" 2 "$fault"$'\n'"linkjson: it looks like ${looks[a.hex]}" "$linkjson" a.hex < /dev/null
expect "packets of gzip" 1 "linkrec: no pcap or pcapng file: it looks like ${looks[a.gz]}" "$linkrec" pcap a.gz < /dev/null

# ---- what the manuals show

# an acknowledgement, and a refusal with EEXIST (17)
reply() { printf '\x24\0\0\0\2\0\0\1\1\0\0\0\0\0\0\0%b\x28\0\0\0\x10\0\5\6\1\0\0\0\0\0\0\0' "$1"; }
{ reply '\0\0\0\0'; reply '\xef\xff\xff\xff'; cat "$work/a"; } > "$work/replies.bin"
filter=$(sed -n "s/^linkjson replies.bin | jq -c '\(.*\)'\$/\1/p" man/linkjson.1)
if command -v jq > /dev/null; then
    expect "the manual's filter of refusals" 0 "" bash -c '"$0" replies.bin | jq -c "$1"' "$linkjson" "$filter" <<< '["EEXIST","RTM_NEWLINK"]'
else
    skip "the manual's filter of refusals" "no jq"
fi
succeeds "linkshow knows the types that completion offers" bash -c '. "$0"; for type in $_linkshow_types; do "$LINKSHOW" --only "$type" a > /dev/null 2>&1 || exit; done' \
    "$top/man/linkcap.bash"

# ---- effects

succeeds "effects" "$top/scripts/tests/effects_test.py"
succeeds "usage of linkgold: --all" bash -c '"$0" --all a.lines -- ip link 2> usage; [ $? -eq 2 ] && grep -q "error: --all is for --effect" usage' "$linkgold"
if unshare --map-root-user --net ip link add v0 type veth 2> /dev/null; then
    ports='ip link add br0 type bridge; ip link add v0 type veth peer name v1; ip link set v0 master br0 up; ip link set v1 up; ip link set br0 up; ip addr add 192.0.2.1/24 dev br0'
    succeeds "an effect of all tables" bash -c '"$0" --effect --all --update all.made -- sh -c "$1" 2> report && grep -q "^RTM_NEWROUTE" all.made &&
        grep -qx "linkgold: left out what two runs differ in: IFA_ADDRESS, IFLA_ADDRESS,.* RTA_DST" report &&
        grep -qx "# leaves out what varies: RTM_NEWLINK \"br0\" > IFLA_LINKINFO > IFLA_INFO_DATA > IFLA_BR_BRIDGE_ID" all.made &&
        grep -q "IFA_ADDRESS 192.0.2.1" all.made && ! grep -q "^ .*fe80::[0-9a-f]" all.made' "$linkgold" "$ports"
    succeeds "the same effect" "$linkgold" --effect --all all.made -- sh -c "$ports"
    lost='ip link add br0 type bridge; ip link add v0 type veth peer name v1; ip link set v0 master br0; for link in br0 v0 v1; do ip link set $link up; done; sleep 0.1; ip link del v0'
    succeeds "the effect of a bridge that loses its port" bash -c 'for run in {1..3}; do
        "$0" effect --all -o lost.made -- sh -c "$2" && "$1" --only newaddr lost.made > lost.lines && grep -q "ifaddrmsg family 10 " lost.lines && ! grep TENTATIVE lost.lines || exit; done' "$linkrec" "$LINKSHOW" "$lost"
    succeeds "another route" bash -c '"$0" --effect --all all.made -- sh -c "$1; ip route add 198.51.100.0/24 via 192.0.2.9" > diff; [ $? -eq 1 ] &&
        grep -qx -- "+  RTA_DST 198.51.100.0" diff' "$linkgold" "$ports"
    near="$ports; ip neigh add 192.0.2.7 lladdr 02:00:00:00:00:09 dev br0 nud permanent; ip neigh add 192.0.2.8 lladdr 02:00:00:00:00:08 dev br0 nud permanent"
    succeeds "an effect without what the golden file leaves out" bash -c '"$0" --effect --all --without NDA_DST --update near.made -- sh -c "$1" 2> report &&
        "$0" --effect --all near.made -- sh -c "$1"' "$linkgold" "$near"
    succeeds "links of random names" bash -c '"$0" --effect --update random.made -- sh -c "ip link add veth\$(od -An -N4 -tx4 /dev/urandom | tr -d \" \") type veth peer name p" 2> report
        [ $? -eq 2 ] && grep -q "^linkgold: the links of two runs have other names (\"veth.*\"): --replace gives them fixed ones" report' "$linkgold"
    succeeds "links of random names, which are replaced" bash -c 'for option in --update ""; do
            "$0" --effect --replace "veth[0-9a-f]{8}=vethN" $option random.made -- sh -c "ip link add veth\$(od -An -N4 -tx4 /dev/urandom | tr -d \" \") type veth peer name p" || exit
        done; grep -qx "  IFLA_IFNAME \"vethN\"" random.made' "$linkgold"
else
    skip "effects of all tables" "no veth"
fi
