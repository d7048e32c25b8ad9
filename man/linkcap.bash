# Completion in bash for linkcap, linkshow, linkdiff, linkrec, linkgold and linkjson.

# ---- lists, by tools/completion.py
declare -gA _linkcap_options=(
    ["linkshow"]="--only --link --without --without-numbers --offsets --keep-going --json --limit --kernels --help --version"
    ["linkdiff"]="--help --quiet --without-numbers --without --replace --link --only --ignore-order --empty --offsets --keep-going --limit --kernels --no-record --label --color"
    ["linkrec"]="--help"
    ["linkrec run"]="--help --output --answers --netns --setup --quiet --time --attach"
    ["linkrec effect"]="--help --output --setup --all"
    ["linkrec dump"]="--help --output --all --settled --port"
    ["linkrec watch"]="--help --output --all --time --port"
    ["linkrec pcap"]="--help --output"
    ["linkrec strace"]="--help --output --answers"
    ["linkrec cut"]="--help --output --at --type --legal"
    ["linkrec split"]="--help"
    ["linkgold"]="--help --update --effect --all --setup --here --may-fail --legal --keep-going --reasons --numbers --counters --padding --without --replace --only --link --ignore-order"
    ["linkjson"]="--help --without --without-numbers --replace --link --only --offsets --keep-going --limit --no-record"
)
declare -gA _linkcap_values=(
    ["--answers"]="files"
    ["--at"]=""
    ["--attach"]=""
    ["--color"]="always auto never"
    ["--label"]=""
    ["--limit"]=""
    ["--link"]=""
    ["--only"]="types"
    ["--output"]="files"
    ["--port"]=""
    ["--replace"]=""
    ["--setup"]=""
    ["--type"]="types"
    ["--without"]="groups"
    ["-o"]="files"
)
_linkcap_commands="run effect dump watch pcap strace cut split"
_linkcap_types="noop error done overrun tstamp newlink dellink getlink setlink newaddr deladdr getaddr newroute delroute getroute newneigh delneigh getneigh newrule delrule getrule newqdisc delqdisc getqdisc newtclass deltclass gettclass newtfilter deltfilter gettfilter newaction delaction getaction newprefix newmulticast delmulticast getmulticast newanycast delanycast getanycast newneightbl getneightbl setneightbl newnduseropt newaddrlabel deladdrlabel getaddrlabel getdcb setdcb newnetconf delnetconf getnetconf newmdb delmdb getmdb newnsid delnsid getnsid newstats getstats setstats newcachereport newchain delchain getchain newnexthop delnexthop getnexthop newlinkprop dellinkprop getlinkprop newvlan delvlan getvlan newnexthopbucket delnexthopbucket getnexthopbucket newtunnel deltunnel gettunnel"
# ---- end of lists

# _linkcap_words WORDS: offers those of some words with which the word begins
_linkcap_words() {
    mapfile -t COMPREPLY < <(compgen -W "$1" -- "${COMP_WORDS[COMP_CWORD]}")
}

_linkcap_files() {
    mapfile -t COMPREPLY < <(compgen -f -- "${COMP_WORDS[COMP_CWORD]}")
}

# _linkcap_list WORDS: offers them for what follows the word's last comma. No space follows, since a comma may.
_linkcap_list() {
    local word=${COMP_WORDS[COMP_CWORD]} before=
    [[ $word != *,* ]] || before=${word%,*},
    mapfile -t COMPREPLY < <(compgen -P "$before" -W "$1" -- "${word##*,}")
    compopt -o nospace 2> /dev/null
}

# Offers what completes the value of the option before the word. The status is 1 if there is no such option.
_linkcap_value() {
    local option=${COMP_WORDS[COMP_CWORD - 1]}
    [ -n "${_linkcap_values[$option]+set}" ] || return 1
    COMPREPLY=()
    case ${_linkcap_values[$option]} in
        types) _linkcap_list "$_linkcap_types" ;;
        groups) _linkcap_list "numbers counters indexes padding tables" ;;
        files) _linkcap_files ;;
        ?*) _linkcap_words "${_linkcap_values[$option]}" ;;
    esac
    return 0
}

# Offers what completes the command after --. The status is 1 if -- isn't before the word.
_linkcap_command() {
    local at=1
    while [ "$at" -lt "$COMP_CWORD" ] && [ "${COMP_WORDS[at]}" != -- ]; do at=$((at + 1)); done
    [ "$at" -lt "$COMP_CWORD" ] || return 1
    if declare -F _command_offset > /dev/null; then
        _command_offset $((at + 1))
    elif [ $((at + 1)) -eq "$COMP_CWORD" ]; then
        mapfile -t COMPREPLY < <(compgen -c -- "${COMP_WORDS[COMP_CWORD]}")
    else
        _linkcap_files
    fi
}

# _linkcap_options_of PROGRAM: offers what may follow the options of a program, or of a command as `linkrec run`
_linkcap_options_of() {
    if _linkcap_value; then
        return
    elif [[ ${COMP_WORDS[COMP_CWORD]} == -* ]]; then
        _linkcap_words "${_linkcap_options[$1]}"
    else
        _linkcap_files
    fi
}

_linkcap() {
    if [ "$COMP_CWORD" -eq 1 ]; then
        _linkcap_words "norm same"
    elif [ "${COMP_WORDS[1]}" = same ] && [ "$COMP_CWORD" -le 3 ]; then
        _linkcap_files
    fi
}

_linkrec() {
    if [ "$COMP_CWORD" -eq 1 ]; then
        _linkcap_words "$_linkcap_commands ${_linkcap_options[linkrec]}"
    elif ! _linkcap_command; then
        _linkcap_options_of "linkrec ${COMP_WORDS[1]}"
    fi
}

_linkshow() { _linkcap_options_of linkshow; }
_linkdiff() { _linkcap_options_of linkdiff; }
_linkgold() { _linkcap_command || _linkcap_options_of linkgold; }
_linkjson() { _linkcap_options_of linkjson; }

complete -o filenames -F _linkcap linkcap
complete -o filenames -F _linkshow linkshow
complete -o filenames -F _linkdiff linkdiff
complete -o filenames -F _linkrec linkrec
complete -o filenames -F _linkgold linkgold
complete -o filenames -F _linkjson linkjson
