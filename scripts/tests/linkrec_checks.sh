# Checks of linkrec that scripts/check.sh sources: output to a file, files that are no captures, SIGINT, and systems that refuse
# to trace or to make namespaces.

# ---- files that are no captures

gzip -c "$work/a" > "$work/a.gz"
printf '\xfd7zXZ\0\0\4%24s' > "$work/a.xz"
printf '\x7fELF\2\1\1\0%24s' > "$work/elf"
echo '{"type": "RTM_GETLINK"}' > "$work/a.json"
xxd "$work/a" > "$work/a.hex"
declare -A looks=(
    [a.gz]="a gzip file: decompress it first, by gzip -dc"
    [a.xz]="an xz file: decompress it first, by xz -dc"
    [elf]="an ELF file, a program or a library"
    [a.json]="JSON, which can't be made a capture"
    [a.hex]="text: xxd -r reads a hex dump, linkrec strace a trace by strace"
    [pcap]="packets of tcpdump or tshark: linkrec pcap makes a capture of them"
    [a.lines]="lines of linkshow, or a golden file: linkdiff, linkgold and linkjson read them"
)
for name in "${!looks[@]}"; do
    expect "cut of $name" 1 "linkrec: $name: no capture: it looks like ${looks[$name]}" "$linkrec" cut --legal -o cut_of "$name" < /dev/null
    succeeds "cut of $name writes nothing" test ! -e "$work/cut_of"
done
expect "cut of text from standard input" 1 "linkrec: -: no capture: it looks like ${looks[a.gz]}" bash -c '"$0" cut < a.gz' "$linkrec" < /dev/null
# A capture that is broken at its start is a capture all the same.
expect "cut of a broken capture" 0 "" "$linkrec" cut --at 0 <(head -c 20 "$work/a") < /dev/null
expect "cut at no message writes nothing" 1 "linkrec: no message starts at 4, 7" "$linkrec" cut --at 0,7,4 a < /dev/null

# ---- output to a file

expect "cut into a file" 0 "" "$linkrec" cut --at 48 -o cut_three three < /dev/null
succeeds "the file has what is left" bash -c 'cat a a | cmp - cut_three'
expect "cut in place" 0 "" "$linkrec" cut --at 0 -o cut_three cut_three < /dev/null
succeeds "the file is cut" cmp "$work/cut_three" "$work/a"
expect "packets into a file" 0 "" "$linkrec" pcap -o from_cooked cooked < /dev/null
succeeds "the file has the packets" cmp "$work/from_cooked" "$work/a"
succeeds "a dump into a file" bash -c '"$0" dump -o dumped && "$LINKSHOW" dumped | grep -q "^NLMSG_DONE"' "$linkrec"
succeeds "a watch into a file" bash -c 'rm -f seen; "$0" watch 0.1 -o seen > printed && [ -e seen ] && [ ! -s printed ]' "$linkrec"

succeeds "split to a closed pipe" bash -c 'for i in {1..50}; do cat three; done > many; "$0" split many 16 split_pieces 2> report | { exec 0<&-; sleep 1; }
    [ ${PIPESTATUS[0]} -eq 141 ] && [ ! -s report ]' "$linkrec"

# ---- SIGINT

# A shell without job control has the jobs that it runs in the background ignore SIGINT.
succeeds "SIGINT ends a watch in the background" timeout 60 bash -c 'sh -c "\"\$0\" watch -o seen & watch=\$!
    while ! ls -l /proc/\$watch/fd | grep -q socket:; do sleep 0.1; done; kill -INT \$watch; wait \$watch" "$0"' "$linkrec"

# ---- systems that refuse to trace, or to make namespaces

refuse=$top/scripts/tests/refuse_calls.py
if ! command -v strace > /dev/null || ! unshare --map-root-user --net true 2> /dev/null; then
    skip "systems that refuse calls" "no strace, or no permission to make a network namespace"
elif "$refuse" ptrace true; [ $? -eq 125 ]; then
    skip "systems that refuse calls" "the number of the system call ptrace isn't known"
else
    succeeds "no permission to trace" bash -c '"$0" ptrace "$1" run --netns -o made -- ip link 2> report; [ $? -eq 125 ] && [ "$(wc -l < report)" -eq 1 ] &&
        grep -q "^linkrec: strace may not trace here (.*Operation not permitted): allow ptrace, as by --cap-add SYS_PTRACE .* linkgold --effect$" report' "$refuse" "$linkrec"
    succeeds "a comparison without permission to trace" bash -c '"$0" ptrace "$1" a.lines -- ip link 2> report; [ $? -eq 2 ] &&
        grep -q "SYS_PTRACE" report && grep -qx "linkgold: nothing was recorded" report' "$refuse" "$linkgold"
    succeeds "SIGINT ends the recording of a running program in the background" timeout 60 sh -c '
        sh -c "while :; do ip link show dev lo; sleep 0.1; done" > /dev/null & program=$!
        "$0" run --attach $program -o attached & linkrec=$!
        while [ ! -s attached ]; do sleep 0.1; done
        kill -INT $linkrec; wait $linkrec; status=$?
        kill $program; exit $status' "$linkrec"
    # lo changes for longer than linkrec waits
    succeeds "an effect that doesn't settle" bash -c 'timeout 60 "$0" effect -o made -- sh -c "for i in \$(seq 45); do ip link set lo up; sleep 0.15; ip link set lo down
            sleep 0.15; done > /dev/null 2>&1 &" 2> report && [ "$(cat report)" = "linkrec: links or addresses still change after 10 s: another dump may differ" ] &&
        "$LINKSHOW" made | grep -q "^RTM_NEWLINK"' "$linkrec"
    expect "an effect that can't be written" 125 "linkrec: No space left on device" "$linkrec" effect -o /dev/full -- true < /dev/null
    succeeds "an effect without permission to trace" bash -c '"$0" ptrace "$1" effect -o made -- ip link set lo up &&
        "$LINKSHOW" --link lo made | grep -q "flags 0x.*Up"' "$refuse" "$linkrec"
    succeeds "no permission to make a namespace" bash -c '"$0" unshare "$1" run --netns -o made -- ip link 2> report; [ $? -eq 125 ] &&
        grep -q "^linkrec: no network namespace: unshare: .*Operation not permitted" report' "$refuse" "$linkrec"
    # nobody may read neither $work nor this repository, so the programs are copied
    if [ "$(id -u)" -eq 0 ] && command -v setpriv > /dev/null; then
        shared=$(mktemp -d)
        chmod 777 "$shared"
        cp "$top"/scripts/linkrec "$top"/scripts/*.py "$top"/bindings/python/linkcap/lines_*.py "$refuse" "$shared"
        nobody() { (cd "$shared" && setpriv --reuid 65534 --regid 65534 --clear-groups "$@"); }
        if nobody unshare --map-root-user --net true 2> /dev/null; then
            succeeds "as nobody, with user namespaces" nobody ./linkrec run --netns -o made -- ip link set lo up
            succeeds "as nobody, the requests" bash -c '"$LINKSHOW" "$0" | grep -q "^RTM_NEWLINK"' "$shared/made"
            succeeds "as nobody, the effect" nobody ./linkrec effect -o made -- ip link set lo up
        else
            skip "as nobody, with user namespaces" "the system doesn't allow them"
        fi
        nobody ./refuse_calls.py unshare ./linkrec run --netns -o made -- ip link 2> "$work/report" < /dev/null
        succeeds "as nobody, without user namespaces" [ $? -eq 125 ]
        succeeds "as nobody, what is missing" grep -q "^linkrec: no network namespace: unshare: .*; user namespaces are forbidden here: run as root, or allow them" report
        rm -rf "$shared"
    else
        skip "as nobody" "not root, or no setpriv"
    fi
fi
