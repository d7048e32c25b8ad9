#!/usr/bin/env bash
# Checks completion for the programs: that its lists are those of --help (tools/completion.py), and what bash, zsh and fish offer
# for some words; it skips a shell that isn't installed, and prints a line about it.
#
#     tools/completion.sh
#
# The status is 1 if something is wrong.
set -uo pipefail
cd "$(dirname "$0")/.."
work=$(mktemp -d)
trap 'rm -rf "$work"' EXIT
failed=0
fault() {
    echo "completion: $1"
    failed=1
}

# offered_by_SHELL WORD..: the words that completion offers for the last word of a command; by zsh only the line that it becomes
offered_by_bash() {
    bash -c '. man/linkcap.bash; COMP_WORDS=("$@"); COMP_CWORD=$(($# - 1)); "_$1"; printf "%s\n" "${COMPREPLY[@]}"' - "$@"
}
offered_by_fish() {
    HOME=$work XDG_DATA_HOME=$work PATH=$work/bin:$PATH fish -c 'complete -C "$argv"' "$*" | cut -f 1
}
# An interactive zsh, in which the line is typed. It is killed if its line doesn't become the pattern.
line_in_zsh() {
    timeout 20 zsh -fc 'zmodload zsh/zpty
        zpty shell TERM=dumb zsh -fi
        zpty -w shell "fpath=($1 \$fpath); autoload -Uz compinit; compinit -uD; PS1="
        zpty -w -n shell "$2"$'"'\t'"'
        zpty -r -m shell screen "*$3*"
        zpty -d shell' - "$work/zsh" "$1" "$2"
}

# expect SHELL OFFERED WORD..: compares what bash or fish offers, sorted and with spaces between, with what has to be offered
expect() {
    local shell=$1 expected=$2 offered
    offered=$("offered_by_$shell" "${@:3}" | LC_ALL=C sort | paste -sd ' ')
    [ "$offered" = "$expected" ] || fault "$shell offers '$offered' for '${*:3}', and not '$expected'"
}

# Each of these checks has the same lines in each shell.
check_shell() {
    expect "$1" "norm same" linkcap ""
    expect "$1" "README.md" linkcap same READ
    expect "$1" "--keep-going --kernels" linkshow --ke
    expect "$1" "newroute newrule" linkshow --only newr
    expect "$1" "newlink,newroute" linkjson --only newlink,newro
    expect "$1" "error" linkrec cut --type err
    expect "$1" "counters" linkdiff --without c
    expect "$1" "IFLA_MTU,numbers" linkgold --without IFLA_MTU,n
    expect "$1" "always auto never" linkdiff --color ""
    expect "$1" "cut" linkrec c
    expect "$1" "--setup" linkrec effect --s
    expect "$1" "README.md" linkrec run -o READ
    expect "$1" "README.md" linkgold golden.lines -- cat READ
    expect "$1" "README.md" linkdiff -- READ
}
check_zsh() {
    local line
    while IFS='|' read -r line expected; do
        line_in_zsh "$line" "$expected" || fault "zsh doesn't complete '$line' to '$expected'"
    done << 'END'
linkcap sa|linkcap same
linkcap same READ|linkcap same README.md
linkshow --only newro|linkshow --only newroute
linkjson --only newlink,newro|linkjson --only newlink,newroute
linkrec cut --type err|linkrec cut --type error
linkgold --without IFLA_MTU,n|linkgold --without IFLA_MTU,numbers
linkdiff --color nev|linkdiff --color never
linkrec cu|linkrec cut
linkrec effect --s|linkrec effect --setup
linkrec run -o READ|linkrec run -o README.md
linkgold golden.lines -- cat READ|linkgold golden.lines -- cat README.md
linkdiff -- READ|linkdiff -- README.md
END
}

tools/completion.py --check || failed=1
check_shell bash
if command -v fish > /dev/null; then
    # fish completes only commands that it finds.
    mkdir -p "$work/fish/vendor_completions.d" "$work/bin"
    for program in linkcap linkshow linkdiff linkrec linkgold linkjson; do
        cp man/linkcap.fish "$work/fish/vendor_completions.d/$program.fish"
        ln -s "$(type -P true)" "$work/bin/$program"
    done
    check_shell fish
else
    echo "completion: skipped: no fish"
fi
if zsh -fc 'zmodload zsh/zpty && zpty shell true' 2> /dev/null; then
    mkdir "$work/zsh" && cp man/linkcap.zsh "$work/zsh/_linkcap"
    check_zsh
else
    echo "completion: skipped: no zsh, or no terminal for it"
fi
[ "$failed" -eq 0 ] && echo "completion: no faults"
exit "$failed"
