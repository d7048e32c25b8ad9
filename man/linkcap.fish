# Completion in fish for linkcap, linkshow, linkdiff, linkrec, linkgold and linkjson. Each of them loads it, under its own name.

for program in linkcap linkshow linkdiff linkrec linkgold linkjson
    complete -c $program -e
end

# __linkcap_is COMMAND..: whether the command of linkrec is one of these; without one, whether there is none yet
function __linkcap_is
    set -l words (commandline -opc)
    if set -q argv[1]
        set -q words[2]; and contains -- $words[2] $argv
    else
        not set -q words[2]
    end
end

# __linkcap_list WORD..: words for a list with commas between them, each after what the list has already
function __linkcap_list
    set -l token (commandline -ct)
    set -l before (string replace -r '[^,]*$' '' -- "$token")
    printf '%s\n' $before$argv
end

function __linkcap_types
    __linkcap_list $__linkcap_type_names
end

function __linkcap_groups
    __linkcap_list numbers counters indexes padding tables
end

# What completes the command after --
function __linkcap_command
    set -l words (commandline -opc)
    set -l token (commandline -ct)
    set -l at (contains -i -- -- $words)
    complete -C (string join -- ' ' (string escape -- $words[(math $at + 1)..-1]) "$token")
end

# ---- lists, by tools/completion.py
complete -c linkshow -l only -x -a '(__linkcap_types)' -d "show only messages of these types, by name or number"
complete -c linkshow -l link -x -d "show only messages about this link, by its index, its name or an alternative name"
complete -c linkshow -l without -x -a '(__linkcap_groups)' -d "leave out these attributes, by name, and these groups"
complete -c linkshow -l without-numbers -d "leave out sequence numbers and netlink port IDs, which change from run to run"
complete -c linkshow -l offsets -d "show each message's offset in bytes"
complete -c linkshow -l keep-going -d "show messages with an invalid body too, in hex and with the reason, and the messages after them"
complete -c linkshow -l json -d "write an object of JSON for each message, a line each"
complete -c linkshow -l limit -x -d "the greatest length of a message in bytes, from 16 to 4294967295"
complete -c linkshow -l kernels -d "first note on standard error each encoding that kernels treat differently from its normal text"
complete -c linkshow -s h -l help -d "this text"
complete -c linkshow -l version -d "the version of linkshow, and the format version of its lines"
complete -c linkdiff -s h -l help -d "show this help message and exit"
complete -c linkdiff -s q -l quiet -d "prints no diff"
complete -c linkdiff -l without-numbers -d "ignores sequence numbers and netlink port IDs"
complete -c linkdiff -l without -x -a '(__linkcap_groups)' -d "ignores these attributes, or groups"
complete -c linkdiff -l replace -x -d "replaces names of links and hardware addresses"
complete -c linkdiff -l link -x -d "compares only messages about this link"
complete -c linkdiff -l only -x -a '(__linkcap_types)' -d "compares only messages of these types"
complete -c linkdiff -l ignore-order -d "compares the attributes of each list without their order"
complete -c linkdiff -l empty -d "accepts a side without messages"
complete -c linkdiff -l offsets -d "adds the offset of the message to the heading of each hunk"
complete -c linkdiff -l keep-going -d "compares the bytes of messages that linkcap finds invalid"
complete -c linkdiff -l limit -x -d "sets the greatest length of a message in bytes, from 16 to 4294967295"
complete -c linkdiff -l kernels -d "notes on standard error each encoding that kernels treat differently from its canonical form"
complete -c linkdiff -l no-record -d "shows indexes of links, even if a capture has a record with names beside it"
complete -c linkdiff -l label -x -d "names a side in the diff"
complete -c linkdiff -l color -x -a 'always auto never' -d "colours the diff"
complete -c linkrec -s h -l help -d "show this help message and exit"
complete -c linkrec -n "__linkcap_is run" -s h -l help -d "show this help message and exit"
complete -c linkrec -n "__linkcap_is run" -s o -l output -r -d "writes the messages that were sent to this file, and not to standard output"
complete -c linkrec -n "__linkcap_is run" -l answers -r -d "also writes the messages that were received, to this file"
complete -c linkrec -n "__linkcap_is run" -l netns -d "runs the command in a new network namespace"
complete -c linkrec -n "__linkcap_is run" -l setup -x -d "runs this shell command in the new namespace first, without recording it"
complete -c linkrec -n "__linkcap_is run" -s q -l quiet -d "doesn't report the requests that the kernel refused"
complete -c linkrec -n "__linkcap_is run" -l time -d "reports on standard error when each message was sent, its offset and type, by which process, and in which namespace"
complete -c linkrec -n "__linkcap_is run" -l attach -x -d "records a running program, until it ends or until Ctrl-C"
complete -c linkrec -n "__linkcap_is effect" -s h -l help -d "show this help message and exit"
complete -c linkrec -n "__linkcap_is effect" -s o -l output -r -d "writes the capture to this file, and not to standard output"
complete -c linkrec -n "__linkcap_is effect" -l setup -x -d "runs this shell command in the new namespace first, without recording it"
complete -c linkrec -n "__linkcap_is effect" -l all -d "also writes addresses, routes, neighbours, rules and all other tables"
complete -c linkrec -n "__linkcap_is dump" -s h -l help -d "show this help message and exit"
complete -c linkrec -n "__linkcap_is dump" -s o -l output -r -d "writes the capture to this file, and not to standard output"
complete -c linkrec -n "__linkcap_is dump" -l all -d "also writes addresses, routes, neighbours, rules and all other tables"
complete -c linkrec -n "__linkcap_is dump" -l settled -d "first waits until the links don't change by themselves, for at most 10 s"
complete -c linkrec -n "__linkcap_is dump" -l port -x -d "gives the socket this netlink port ID, which replies carry"
complete -c linkrec -n "__linkcap_is watch" -s h -l help -d "show this help message and exit"
complete -c linkrec -n "__linkcap_is watch" -s o -l output -r -d "writes the capture to this file, and not to standard output"
complete -c linkrec -n "__linkcap_is watch" -l all -d "also writes addresses, routes, neighbours, rules and all other tables"
complete -c linkrec -n "__linkcap_is watch" -l time -d "reports on standard error when each message came, its offset and its type"
complete -c linkrec -n "__linkcap_is watch" -l port -x -d "gives the socket this netlink port ID, which replies carry"
complete -c linkrec -n "__linkcap_is pcap" -s h -l help -d "show this help message and exit"
complete -c linkrec -n "__linkcap_is pcap" -s o -l output -r -d "writes the capture to this file, and not to standard output"
complete -c linkrec -n "__linkcap_is strace" -s h -l help -d "show this help message and exit"
complete -c linkrec -n "__linkcap_is strace" -s o -l output -r -d "writes the messages that were sent to this file, and not to standard output"
complete -c linkrec -n "__linkcap_is strace" -l answers -r -d "also writes the messages that were received, to this file"
complete -c linkrec -n "__linkcap_is cut" -s h -l help -d "show this help message and exit"
complete -c linkrec -n "__linkcap_is cut" -s o -l output -r -d "writes the capture to this file, and not to standard output"
complete -c linkrec -n "__linkcap_is cut" -l at -x -d "leaves out the messages that start at these offsets, in bytes"
complete -c linkrec -n "__linkcap_is cut" -l type -x -a '(__linkcap_types)' -d "leaves out messages of these types, by name or number"
complete -c linkrec -n "__linkcap_is cut" -l legal -d "leaves out messages that linkcap finds invalid, and reports them"
complete -c linkrec -n "__linkcap_is split" -s h -l help -d "show this help message and exit"
complete -c linkgold -s h -l help -d "show this help message and exit"
complete -c linkgold -l update -d "writes the golden file"
complete -c linkgold -l effect -d "compares the links that exist after the command, and not its requests"
complete -c linkgold -l all -d "compares more tables than links, with --effect"
complete -c linkgold -l setup -x -d "runs this shell command in the namespace first, without recording it"
complete -c linkgold -l here -d "runs the command in the caller's network namespace, whose links it really changes"
complete -c linkgold -l may-fail -d "accepts a command that ends with another status than 0"
complete -c linkgold -l legal -d "leaves out messages that linkcap finds invalid, and reports them"
complete -c linkgold -l keep-going -d "compares the bytes of messages that linkcap finds invalid"
complete -c linkgold -l reasons -d "shows the kernel's messages about requests that it refused"
complete -c linkgold -l numbers -d "keeps sequence numbers and netlink port IDs"
complete -c linkgold -l counters -d "keeps counters, that is, statistics and timers"
complete -c linkgold -l padding -d "keeps padding that isn't zero"
complete -c linkgold -l without -x -a '(__linkcap_groups)' -d "leaves out these attributes too, or the group indexes"
complete -c linkgold -l replace -x -d "replaces names of links and hardware addresses"
complete -c linkgold -l only -x -a '(__linkcap_types)' -d "compares only messages of these types"
complete -c linkgold -l link -x -d "compares only messages about this link"
complete -c linkgold -l ignore-order -d "compares the attributes of each list without their order"
complete -c linkjson -s h -l help -d "show this help message and exit"
complete -c linkjson -l without -x -a '(__linkcap_groups)' -d "leaves out these attributes, or groups"
complete -c linkjson -l without-numbers -d "does the same as --without numbers"
complete -c linkjson -l replace -x -d "replaces names of links and hardware addresses"
complete -c linkjson -l link -x -d "writes only messages about this link"
complete -c linkjson -l only -x -a '(__linkcap_types)' -d "writes only messages of these types"
complete -c linkjson -l offsets -d "adds the offset of each message in bytes"
complete -c linkjson -l keep-going -d "also writes messages that linkcap finds invalid, with the reason, and the messages after them"
complete -c linkjson -l limit -x -d "sets the greatest length of a message in bytes, from 16 to 4294967295"
complete -c linkjson -l no-record -d "writes indexes of links, even if FILE has a record with names beside it"
complete -c linkrec -n "__linkcap_is" -a run -d "Records the rtnetlink messages that a command sends"
complete -c linkrec -n "__linkcap_is" -a effect -d "Runs a command in a new network namespace, and writes the links that exist there afterwards"
complete -c linkrec -n "__linkcap_is" -a dump -d "Writes the links that the kernel has now"
complete -c linkrec -n "__linkcap_is" -a watch -d "Writes the kernel's notifications about links as they come, for SECONDS or until Ctrl-C"
complete -c linkrec -n "__linkcap_is" -a pcap -d "Writes the rtnetlink messages in a pcap or pcapng file, which was captured on an nlmon device or has the link type LINUX_SLL"
complete -c linkrec -n "__linkcap_is" -a strace -d "Writes the rtnetlink messages that a program sent, from a trace that strace wrote"
complete -c linkrec -n "__linkcap_is" -a cut -d "Copies a capture without some of its messages"
complete -c linkrec -n "__linkcap_is" -a split -d "Cuts a long capture between messages into files of about SIZE bytes, and prints the offset and name of each"
set -g __linkcap_type_names noop error done overrun tstamp newlink dellink getlink setlink newaddr deladdr getaddr newroute delroute getroute newneigh delneigh getneigh newrule delrule getrule newqdisc delqdisc getqdisc newtclass deltclass gettclass newtfilter deltfilter gettfilter newaction delaction getaction newprefix newmulticast delmulticast getmulticast newanycast delanycast getanycast newneightbl getneightbl setneightbl newnduseropt newaddrlabel deladdrlabel getaddrlabel getdcb setdcb newnetconf delnetconf getnetconf newmdb delmdb getmdb newnsid delnsid getnsid newstats getstats setstats newcachereport newchain delchain getchain newnexthop delnexthop getnexthop newlinkprop dellinkprop getlinkprop newvlan delvlan getvlan newnexthopbucket delnexthopbucket getnexthopbucket newtunnel deltunnel gettunnel
# ---- end of lists

complete -c linkcap -n "test (count (commandline -opc)) = 1" -f -a "norm\t'write the normal text of standard input' same\t'report whether two captures mean the same'"
complete -c linkcap -n "not contains -- same (commandline -opc)" -f
complete -c linkrec -n __linkcap_is -f
complete -c linkrec -n "__linkcap_is dump watch" -f
complete -c linkrec -n "__linkcap_is run effect; and contains -- -- (commandline -opc)" -x -a "(__linkcap_command)"
complete -c linkgold -n "contains -- -- (commandline -opc)" -x -a "(__linkcap_command)"
