#compdef linkcap linkshow linkdiff linkrec linkgold linkjson
# Completion in zsh for linkcap, linkshow, linkdiff, linkrec, linkgold and linkjson. It is installed as _linkcap.

# ---- lists, by tools/completion.py
local -a _linkcap_options_linkshow=(
    --only"[show only messages of these types, by name or number]:only:_linkcap_types"
    --link"[show only messages about this link, by its index, its name or an alternative name]:link:"
    --without"[leave out these attributes, by name, and these groups]:without:_linkcap_groups"
    --without-numbers"[leave out sequence numbers and netlink port IDs, which change from run to run]"
    --offsets"[show each message's offset in bytes]"
    --keep-going"[show messages with an invalid body too, in hex and with the reason, and the messages after them]"
    --json"[write an object of JSON for each message, a line each]"
    --limit"[the greatest length of a message in bytes, from 16 to 4294967295]:limit:"
    --kernels"[first note on standard error each encoding that kernels treat differently from its normal text]"
    '(-h --help)'{-h,--help}"[this text]"
    --version"[the version of linkshow, and the format version of its lines]"
)
local -a _linkcap_options_linkdiff=(
    '(-h --help)'{-h,--help}"[show this help message and exit]"
    '(-q --quiet)'{-q,--quiet}"[prints no diff]"
    --without-numbers"[ignores sequence numbers and netlink port IDs]"
    --without"[ignores these attributes, or groups]:without:_linkcap_groups"
    --replace"[replaces names of links and hardware addresses]:replace:"
    --link"[compares only messages about this link]:link:"
    --only"[compares only messages of these types]:only:_linkcap_types"
    --ignore-order"[compares the attributes of each list without their order]"
    --empty"[accepts a side without messages]"
    --offsets"[adds the offset of the message to the heading of each hunk]"
    --keep-going"[compares the bytes of messages that linkcap finds invalid]"
    --limit"[sets the greatest length of a message in bytes, from 16 to 4294967295]:limit:"
    --kernels"[notes on standard error each encoding that kernels treat differently from its canonical form]"
    --no-record"[shows indexes of links, even if a capture has a record with names beside it]"
    --label"[names a side in the diff]:label:"
    --color"[colours the diff]::color:(always auto never)"
)
local -a _linkcap_options_linkrec=(
    '(-h --help)'{-h,--help}"[show this help message and exit]"
)
local -a _linkcap_options_linkrec_run=(
    '(-h --help)'{-h,--help}"[show this help message and exit]"
    '(-o --output)'{-o,--output}"[writes the messages that were sent to this file, and not to standard output]:output:_linkcap_files"
    --answers"[also writes the messages that were received, to this file]:answers:_linkcap_files"
    --netns"[runs the command in a new network namespace]"
    --setup"[runs this shell command in the new namespace first, without recording it]:setup:"
    '(-q --quiet)'{-q,--quiet}"[doesn't report the requests that the kernel refused]"
    --time"[reports on standard error when each message was sent, its offset and type, by which process, and in which namespace]"
    --attach"[records a running program, until it ends or until Ctrl-C]:attach:"
)
local -a _linkcap_options_linkrec_effect=(
    '(-h --help)'{-h,--help}"[show this help message and exit]"
    '(-o --output)'{-o,--output}"[writes the capture to this file, and not to standard output]:output:_linkcap_files"
    --setup"[runs this shell command in the new namespace first, without recording it]:setup:"
    --all"[also writes addresses, routes, neighbours, rules and all other tables]"
)
local -a _linkcap_options_linkrec_dump=(
    '(-h --help)'{-h,--help}"[show this help message and exit]"
    '(-o --output)'{-o,--output}"[writes the capture to this file, and not to standard output]:output:_linkcap_files"
    --all"[also writes addresses, routes, neighbours, rules and all other tables]"
    --settled"[first waits until the links don't change by themselves, for at most 10 s]"
    --port"[gives the socket this netlink port ID, which replies carry]:port:"
)
local -a _linkcap_options_linkrec_watch=(
    '(-h --help)'{-h,--help}"[show this help message and exit]"
    '(-o --output)'{-o,--output}"[writes the capture to this file, and not to standard output]:output:_linkcap_files"
    --all"[also writes addresses, routes, neighbours, rules and all other tables]"
    --time"[reports on standard error when each message came, its offset and its type]"
    --port"[gives the socket this netlink port ID, which replies carry]:port:"
)
local -a _linkcap_options_linkrec_pcap=(
    '(-h --help)'{-h,--help}"[show this help message and exit]"
    '(-o --output)'{-o,--output}"[writes the capture to this file, and not to standard output]:output:_linkcap_files"
)
local -a _linkcap_options_linkrec_strace=(
    '(-h --help)'{-h,--help}"[show this help message and exit]"
    '(-o --output)'{-o,--output}"[writes the messages that were sent to this file, and not to standard output]:output:_linkcap_files"
    --answers"[also writes the messages that were received, to this file]:answers:_linkcap_files"
)
local -a _linkcap_options_linkrec_cut=(
    '(-h --help)'{-h,--help}"[show this help message and exit]"
    '(-o --output)'{-o,--output}"[writes the capture to this file, and not to standard output]:output:_linkcap_files"
    --at"[leaves out the messages that start at these offsets, in bytes]:at:"
    --type"[leaves out messages of these types, by name or number]:type:_linkcap_types"
    --legal"[leaves out messages that linkcap finds invalid, and reports them]"
)
local -a _linkcap_options_linkrec_split=(
    '(-h --help)'{-h,--help}"[show this help message and exit]"
)
local -a _linkcap_options_linkgold=(
    '(-h --help)'{-h,--help}"[show this help message and exit]"
    --update"[writes the golden file]"
    --effect"[compares the links that exist after the command, and not its requests]"
    --all"[compares more tables than links, with --effect]"
    --setup"[runs this shell command in the namespace first, without recording it]:setup:"
    --here"[runs the command in the caller's network namespace, whose links it really changes]"
    --may-fail"[accepts a command that ends with another status than 0]"
    --legal"[leaves out messages that linkcap finds invalid, and reports them]"
    --keep-going"[compares the bytes of messages that linkcap finds invalid]"
    --reasons"[shows the kernel's messages about requests that it refused]"
    --numbers"[keeps sequence numbers and netlink port IDs]"
    --counters"[keeps counters, that is, statistics and timers]"
    --padding"[keeps padding that isn't zero]"
    --without"[leaves out these attributes too, or the group indexes]:without:_linkcap_groups"
    --replace"[replaces names of links and hardware addresses]:replace:"
    --only"[compares only messages of these types]:only:_linkcap_types"
    --link"[compares only messages about this link]:link:"
    --ignore-order"[compares the attributes of each list without their order]"
)
local -a _linkcap_options_linkjson=(
    '(-h --help)'{-h,--help}"[show this help message and exit]"
    --without"[leaves out these attributes, or groups]:without:_linkcap_groups"
    --without-numbers"[does the same as --without numbers]"
    --replace"[replaces names of links and hardware addresses]:replace:"
    --link"[writes only messages about this link]:link:"
    --only"[writes only messages of these types]:only:_linkcap_types"
    --offsets"[adds the offset of each message in bytes]"
    --keep-going"[also writes messages that linkcap finds invalid, with the reason, and the messages after them]"
    --limit"[sets the greatest length of a message in bytes, from 16 to 4294967295]:limit:"
    --no-record"[writes indexes of links, even if FILE has a record with names beside it]"
)
local -a _linkcap_commands=(
    "run:Records the rtnetlink messages that a command sends"
    "effect:Runs a command in a new network namespace, and writes the links that exist there afterwards"
    "dump:Writes the links that the kernel has now"
    "watch:Writes the kernel's notifications about links as they come, for SECONDS or until Ctrl-C"
    "pcap:Writes the rtnetlink messages in a pcap or pcapng file, which was captured on an nlmon device or has the link type LINUX_SLL"
    "strace:Writes the rtnetlink messages that a program sent, from a trace that strace wrote"
    "cut:Copies a capture without some of its messages"
    "split:Cuts a long capture between messages into files of about SIZE bytes, and prints the offset and name of each"
)
local -a _linkcap_types=(noop error done overrun tstamp newlink dellink getlink setlink newaddr deladdr getaddr newroute delroute getroute newneigh delneigh getneigh newrule delrule getrule newqdisc delqdisc getqdisc newtclass deltclass gettclass newtfilter deltfilter gettfilter newaction delaction getaction newprefix newmulticast delmulticast getmulticast newanycast delanycast getanycast newneightbl getneightbl setneightbl newnduseropt newaddrlabel deladdrlabel getaddrlabel getdcb setdcb newnetconf delnetconf getnetconf newmdb delmdb getmdb newnsid delnsid getnsid newstats getstats setstats newcachereport newchain delchain getchain newnexthop delnexthop getnexthop newlinkprop dellinkprop getlinkprop newvlan delvlan getvlan newnexthopbucket delnexthopbucket getnexthopbucket newtunnel deltunnel gettunnel)
# ---- end of lists

# Words for a list with commas between them. Words that are none of them may precede them.
_linkcap_types() { _sequence compadd - $_linkcap_types }
_linkcap_groups() { _sequence compadd - numbers counters indexes padding tables }
_linkcap_files() { _files }

# Completes the command after --. The status is 1 if -- isn't before the word.
_linkcap_command() {
    local at=${words[(i)--]}
    (( at < CURRENT )) || return 1
    shift $at words
    (( CURRENT -= at ))
    _normal
    return 0
}

_linkcap_program() {
    local curcontext=$curcontext state state_descr line
    typeset -A opt_args
    _arguments '1:command:((norm\:"write the normal text of standard input" same\:"report whether two captures mean the same"))' \
        '*:: :->operands'
    if [[ $state = operands && $words[1] = same ]]; then
        _arguments '1:capture:_files' '2:capture:_files'
    fi
}

_linkcap_recorder() {
    if (( CURRENT == 2 )) && [[ $PREFIX = -* ]]; then
        _arguments $_linkcap_options_linkrec
    elif (( CURRENT == 2 )); then
        _describe command _linkcap_commands
    else
        local command=$words[2] operands='*:file:_files'
        shift words
        (( CURRENT -= 1 ))
        case $command in
            run|effect) operands='*::command:_normal' ;;
            dump|watch) operands='*: :' ;;
        esac
        _arguments ${(P)${:-_linkcap_options_linkrec_$command}} $operands
    fi
}

case $service in
    linkcap) _linkcap_program ;;
    linkrec) _linkcap_command || _linkcap_recorder ;;
    linkgold) _linkcap_command || _arguments $_linkcap_options_linkgold '1:golden file:_files -g "*.lines"' '2:capture:_files' ;;
    *) _arguments ${(P)${:-_linkcap_options_$service}} '*:capture:_files' ;;
esac
