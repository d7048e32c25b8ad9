# Tests of recordings: the names of links, namespaces, and what the kernel refused. scripts/check.sh sources this file, if it can
# record here; it has the functions and variables.

# A script of many requests, and single changes of it.
network="$top/scripts/tests/network.sh"
succeeds "a network" bash -c '"$0" --may-fail --update network.lines -- sh "$1" && "$0" --may-fail network.lines -- sh "$1"' "$linkgold" "$network"
succeeds "changes of a network are tried" bash -c '"$0" "$@" > tried && [ "$(grep -vc "^#" "${0%.py}.tsv")" -eq "$(wc -l < tried)" ]' \
    "$top/scripts/tests/changes.py" "$linkgold" "$network" network.lines
while IFS=$'\t' read -r name fault; do
    succeeds "a network with a change of $name" bash -c 'echo "$0"; [ -z "$0" ]' "$fault"
done < "$work/tried"
succeeds "the links of a route, a next hop and a rule head their hunks" bash -c 'sed "s/RTAX_MTU 1300/RTAX_MTU 1200/; s/NHA_ID 7/NHA_ID 8/; s/FRA_PRIORITY 60/FRA_PRIORITY 61/" network.lines > changed.lines
    "$0" network.lines changed.lines > difference; [ $? -eq 1 ] && [ "$(sed -n "s/^@@ .* @@ //p" difference | paste -sd ,)" = "RTM_NEWROUTE vb,RTM_NEWNEXTHOP vb,RTM_NEWRULE vb" ]' "$linkdiff"

# Links that are made, renamed, deleted and made anew: each message has the names of its moment.
cat > "$work/batch" << 'END'
link add name va type veth peer name vp
link set dev va name vb
link set dev vb up
link set dev vb down
link set dev vb name va
link set dev va up
link del dev va
link add name vb type veth peer name vp
link add name br0 type bridge
link add name br1 type bridge
link set dev vb master br0
END
sed 's/master br0/master br1/' "$work/batch" > "$work/other_batch"
renamed='ip -batch batch && for run in 1 2 3 4 5; do ip link set vb down; ip link set vb name vc; ip link set vc up; ip link set vc down; ip link set vc name vb; done'
succeeds "names of renamed links" bash -c '"$0" run -q --netns -o made -- ip -batch batch && "$1" made made > /dev/null && "$2" --only newlink,dellink made |
    grep -o "\"index\": {\"value\": \"[a-z0-9]*\"" | cut -d \" -f 6 > shown && [ "$(paste -sd " " shown)" = "va vb vb vb va va vb" ]' "$linkrec" "$linkdiff" "$linkjson"
succeeds "the same names twenty times" bash -c '"$0" --update batch.lines -- sh -c "$1" && for run in {1..20}; do "$0" batch.lines -- sh -c "$1" || exit; done' "$linkgold" "$renamed"
succeeds "a wrong master in a batch" bash -c '"$0" --update batch.lines -- ip -batch batch && { "$0" batch.lines -- ip -batch other_batch > difference; [ $? -eq 1 ]; } &&
    grep -qx -- "-  IFLA_MASTER \"br0\"" difference && grep -qx -- "+  IFLA_MASTER \"br1\"" difference' "$linkgold"
if "${CC:-cc}" -o "$work/by_name" "$top/scripts/tests/by_name.c" 2> /dev/null; then
    succeeds "a wrong master from a program in C" bash -c 'setup="ip -batch batch; ip link set vb nomaster"
        "$0" --setup "$setup" --update c.lines -- ./by_name vb br0 && "$0" --setup "$setup" c.lines -- ./by_name vb br0 &&
        { "$0" --setup "$setup" c.lines -- ./by_name vb br1 > difference; [ $? -eq 1 ]; } && grep -qx -- "-  IFLA_MASTER \"br0\"" difference &&
        { "$0" --setup "$setup" c.lines -- ./by_name vp br0 > difference; [ $? -eq 1 ]; } && grep -qx -- "+  ifinfomsg .* index \"vp\" .*" difference' "$linkgold"
else
    skip "a wrong master from a program in C" "no C compiler"
fi
if "${CC:-cc}" -static -o "$work/renames" "$top/scripts/tests/renames.c" 2> /dev/null; then
    # Half of the renamings are requests, which have the name before.
    expected=$(for number in {0..19}; do echo "n$number"; [ $((number % 2)) -eq 1 ] || [ "$number" -eq 19 ] || echo "n$number"; done | paste -sd ' ')
    succeeds "names of a link that is renamed fast" bash -c 'for run in {1..10}; do
        "$0" run -q --netns --setup "ip link add v0 type veth peer name v1" -o renamed -- ./renames || exit
        "$1" --only newlink renamed | grep -o "\"index\": {\"value\": \"[a-z0-9]*\"" | cut -d \" -f 6 | paste -sd " " > shown
        [ "$(cat shown)" = "$2" ] || { cat shown; exit 1; }; done' "$linkrec" "$linkjson" "$expected"
else
    skip "names of a link that is renamed fast" "no C compiler with a static library"
fi
succeeds "an index that is chosen, and one of no link" bash -c '"$0" --may-fail --update chosen.lines -- sh -c "ip link add index 77 name v0 type veth peer name v1; ip route add 10.0.0.0/8 dev if99" &&
    grep -q "ifinfomsg .* index 77 " chosen.lines' "$linkgold"

cat > "$work/odd.sh" << 'END'
ip link add 'a"b\c' type veth peer name v1
ip link set 'a"b\c' up
END
succeeds "a name with a quote and a backslash" bash -c '"$0" run -q --netns -o odd -- sh odd.sh && "$1" odd | tail -n 1 | grep -qF "\"index\": {\"value\": \"a\\\"b\\\\c\", \"quoted\": true}"' "$linkrec" "$linkjson"

# Namespaces.
cat > "$work/namespaces.sh" << 'END'
ip link add v0 type veth peer name v1
unshare -n sh -c 'echo $$ > namespace; exec sleep 60' &
until [ -s namespace ]; do sleep 0.1; done
process=$(cat namespace)
rm namespace
ip link set v1 netns "$process"
nsenter -t "$process" -n ip link set v1 up
nsenter -t "$process" -n ip addr add 10.0.0.2/24 dev v1
ip link set v0 up
kill "$process"
END
succeeds "namespaces" bash -c '"$0" --update namespaces.lines -- sh namespaces.sh && for run in {1..5}; do "$0" namespaces.lines -- sh namespaces.sh || exit; done' "$linkgold"
expect "the lines of namespaces" 0 "" grep -e '^# ' -e '^RTM_NEWADDR' -e ifaddrmsg -e NET_NS -e 'change 0x1' "$work/namespaces.lines" << 'END'
# linkcap lines, format 4
# leaves out: numbers, counters, padding, probes
  IFLA_NET_NS_PID netns 2
# namespace 2
  ifinfomsg family 0 (AF_UNSPEC) type 0 index "v1" flags 0x1 (Up) change 0x1 (Up)
RTM_NEWADDR flags 0x605 (REQUEST | ACK | EXCL | CREATE)
  ifaddrmsg family 2 (AF_INET) prefixlen 24 flags 0x0 scope 0 (universe) index "v1"
# namespace 1
  ifinfomsg family 0 (AF_UNSPEC) type 0 index "v0" flags 0x1 (Up) change 0x1 (Up)
END
succeeds "an address in another namespace" bash -c 'sed "s/^nsenter.* ip addr add 10.0.0.2.24 dev v1/ip addr add 10.0.0.2\/24 dev v0/" namespaces.sh > changed.sh
    "$0" namespaces.lines -- sh changed.sh > difference; [ $? -eq 1 ] && grep -q "^+# namespace 1" difference' "$linkgold"
succeeds "a golden file with namespaces as JSON" bash -c '"$0" namespaces.lines | grep -q "^{\"type\": \"RTM_NEWADDR\".*\"namespace\": 2"' "$linkjson"

# Kernels may give the inode of the second namespace, which is removed, to the third one.
fresh='unshare -n ip link set lo up; sleep 0.1; unshare -n ip link set lo up'
succeeds "namespaces one after the other" bash -c '"$0" --update fresh.lines -- sh -c "$1" && [ "$(grep "^# n" fresh.lines | paste -sd " ")" = "# namespace 2 # namespace 3" ] &&
    for run in {1..10}; do "$0" fresh.lines -- sh -c "$1" || exit; done' "$linkgold" "$fresh"
succeeds "sockets of two namespaces in one process" bash -c '"$0" run -q --netns -o sockets -- python3 "$1"' "$linkrec" "$top/scripts/tests/sockets.py"
: > "$work/nothing.lines"
expect "a namespace is that in which the socket was made" 0 "" bash -c '"$0" --empty --without numbers --only newlink nothing.lines sockets |
    sed -n "s/^+//; s/ flags 0x0 change 0x0$//; /^# /p; / index [^0]/p; /MASTER/p; /NET_NS/p; /\"w0\"$/p"' "$linkdiff" << 'END'
# namespace 2
  ifinfomsg family 0 (AF_UNSPEC) type 0 index 2
# namespace 1
  ifinfomsg family 0 (AF_UNSPEC) type 0 index "v1"
  IFLA_NET_NS_FD netns 2
  ifinfomsg family 0 (AF_UNSPEC) type 0 index "v0"
  IFLA_MASTER "br0"
# namespace 2
  ifinfomsg family 0 (AF_UNSPEC) type 0 index "v1"
  IFLA_MASTER "br1"
# namespace 1
  ifinfomsg family 0 (AF_UNSPEC) type 0 index "v0"
  IFLA_IFNAME "w0"
  ifinfomsg family 0 (AF_UNSPEC) type 0 index "w0" flags 0x1 (Up) change 0x1 (Up)
# namespace 2
  ifinfomsg family 0 (AF_UNSPEC) type 0 index "v1"
  IFLA_NET_NS_FD netns 1
# namespace 1
  ifinfomsg family 0 (AF_UNSPEC) type 0 index "br0" flags 0x1 (Up) change 0x1 (Up)
END
succeeds "without order, with namespaces" bash -c '"$0" --ignore-order namespaces.lines -- sh namespaces.sh 2> /dev/null && "$1" -q --ignore-order namespaces.lines namespaces.lines 2> /dev/null' "$linkgold" "$linkdiff"

# Refused requests.
succeeds "a golden file isn't written with a refused request" bash -c 'rm -f refused.lines; "$0" --update refused.lines -- sh -c "ip link add v0 type no_such_kind; true" 2> report
    [ $? -eq 2 ] && [ ! -e refused.lines ] && grep -qx "linkgold: RTM_NEWLINK .v0.: refused: EOPNOTSUPP" report' "$linkgold"
succeeds "a golden file with a refused request" bash -c '"$0" --may-fail --update refused.lines -- sh -c "ip link add v0 type no_such_kind; true" &&
    [ "$(tail -n 1 refused.lines)" = "  refused: EOPNOTSUPP" ] && "$0" refused.lines -- sh -c "ip link add v0 type no_such_kind; true" 2> /dev/null' "$linkgold"
succeeds "the reason of a refused request" bash -c '"$0" --may-fail --reasons --update reasons.lines -- ip link add v0 type no_such_kind &&
    tail -n 1 reasons.lines | grep -q "^  refused: EOPNOTSUPP (Unknown device type"' "$linkgold"
succeeds "a refused request as JSON" bash -c '"$1" refused.lines | grep -q "\"reply\": {\"error\": \"EOPNOTSUPP\"}"' "$linkgold" "$linkjson"
succeeds "a port's option" bash -c 'setup="ip -batch batch"; "$0" --setup "$setup" --keep-going --update port.lines -- ip link set vb type bridge_slave cost 10 &&
    "$0" --setup "$setup" --keep-going port.lines -- ip link set vb type bridge_slave cost 10 2> /dev/null &&
    { "$0" --setup "$setup" --keep-going port.lines -- ip link set vb type bridge_slave cost 11 > /dev/null 2>&1; [ $? -eq 1 ]; }' "$linkgold"

# The record beside a capture.
succeeds "a golden file and its own capture" bash -c '"$0" --update own.lines -- ip -batch batch 2> /dev/null && "$1" run -q --netns -o own -- ip -batch batch && "$2" own.lines own' "$linkgold" "$linkrec" "$linkdiff"
"$linkrec" run -q --netns -o "$work/recorded" -- ip -batch "$work/batch" 2> /dev/null
succeeds "a record of another capture" bash -c 'cp a other; cp recorded.record other.record; "$0" other other 2> report; [ $? -eq 2 ] &&
    grep -qx "linkdiff: other.record: a record of another capture, without the message at 0: remove it" report; status=$?; rm other.record; exit $status' "$linkdiff"
succeeds "a record that is cut" bash -c 'cp recorded cut-off; head -c 300 recorded.record > cut-off.record; "$0" cut-off 2> report; [ $? -eq 2 ] && grep -q "cut-off.record: line 3 isn.t of a record" report' "$linkjson"
succeeds "a capture without its record" bash -c '"$0" --no-record recorded | grep -q "\"index\": 3," && "$0" recorded | grep -q "\"index\": {\"value\": \"va\""' "$linkjson"
succeeds "a capture with a record and one without" bash -c 'cp recorded copied; "$0" --without-numbers --only dellink recorded copied > difference 2> report; [ $? -eq 1 ] &&
    grep -q "^-.* index \"va\"" difference && grep -q "^+.* index 3 " difference && "$0" --no-record recorded copied &&
    grep -qx "linkdiff: copied has no record, so it has indexes where the other capture has names; --no-record shows indexes of both" report' "$linkdiff"
succeeds "another user namespace" bash -c '"$0" run -q -o inner -- unshare --map-root-user --net ip link set lo up && grep -q "\"names\": {\"1\": \"lo\"}" inner.record' "$linkrec"
succeeds "a part of a capture has its record" bash -c '"$0" cut --type getlink -o part recorded && "$1" --only newlink part > shown && "$1" --only newlink recorded | cmp - shown' "$linkrec" "$linkjson"
succeeds "pieces of a capture have their records" bash -c 'rm -rf pieces; "$0" split recorded 300 pieces > names && [ "$(wc -l < names)" -gt 2 ] &&
    for name in pieces/*.bin; do "$1" "$name" || exit; done > shown; "$1" recorded | cmp - shown' "$linkrec" "$linkjson"
