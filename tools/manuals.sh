#!/usr/bin/env bash
# Checks the manuals in man/: that man prints no warning for a page, that its synopsis is the usage line of the program's source
# or that it has each option of --help, and that linkcap(3) has each call, type and constant of linkcap.h.
#
#     tools/manuals.sh
#
# The status is 1 if something is wrong. It needs man.
set -uo pipefail
cd "$(dirname "$0")/.."
export LC_ALL=C.UTF-8 MANWIDTH=200
failed=0
fault() {
    echo "manuals: $1"
    failed=1
}

# The synopsis of a page as a usage line, in lower case.
synopsis() {
    man -l "man/$1.1" | col -bx | awk '/^SYNOPSIS/ { inside = 1; next } /^[A-Z]/ { inside = 0 } inside && NF' \
        | sed -E 's/^ +//; s/ +$//' | paste -sd '|' | sed 's/|/ or /g' | tr '[:upper:]' '[:lower:]'
}

# The usage line of a program's source, a constant USAGE, without what follows a semicolon.
usage() {
    cat crates/*/src/*.rt | sed -z 's/\\\n *//g' | grep -ozE "USAGE: &str =[[:space:]]+\"usage: $1 [^\";\\\\]*" \
        | tr '\0' '\n' | sed -nE 's/ +$//; s/^.*usage: //p' | sort -u | tr '[:upper:]' '[:lower:]'
}

for program in linkcap linkshow; do
    warnings=$(man --warnings -E UTF-8 -l -Tutf8 -Z "man/$program.1" 2>&1 > /dev/null)
    [ -z "$warnings" ] || fault "man/$program.1: $warnings"
    [ "$(synopsis $program)" = "$(usage $program)" ] \
        || fault "man/$program.1 has '$(synopsis $program)', the source '$(usage $program)'"
done
for program in linkdiff linkrec linkgold linkjson; do
    warnings=$(man --warnings -E UTF-8 -l -Tutf8 -Z "man/$program.1" 2>&1 > /dev/null)
    [ -z "$warnings" ] || fault "man/$program.1: $warnings"
done
# options COMMAND..: the long options that a script's --help lists
options() { "$@" --help | grep -oE -- '--[a-z][a-z-]+' | sort -u; }
# is_documented OPTION PROGRAM: whether the manual has an option
is_documented() { man -l "man/$2.1" | col -bx | grep -- "$1" > /dev/null; }
for program in linkdiff linkgold linkjson; do
    for option in $(options "scripts/$program"); do
        [ "$option" = --help ] || is_documented "$option" "$program" || fault "man/$program.1: no $option"
    done
done
for command in run effect dump watch pcap strace cut split; do
    for option in $(options scripts/linkrec "$command"); do
        [ "$option" = --help ] || is_documented "$option" linkrec || fault "man/linkrec.1: no $option"
    done
done
# calls: the prototypes in the input, without white space
calls() {
    tr -d ' \n' | sed 's/LINKCAP_STATUS/enumlinkcap_status/g' \
        | grep -oE '(uint32_t|enumlinkcap_status)linkcap_[a-z_]+\([^;]*\);' | sort
}
warnings=$(man --warnings -E UTF-8 -l -Tutf8 -Z man/linkcap.3 2>&1 > /dev/null)
[ -z "$warnings" ] || fault "man/linkcap.3: $warnings"
page=$(man -l man/linkcap.3 | col -bx)
header=$(sed -E ':a;N;$!ba;s#/\*[^*]*\*+([^/*][^*]*\*+)*/##g' bindings/c/linkcap.h)
synopsis=$(awk '/^SYNOPSIS/ { inside = 1; next } /^[A-Z]/ { inside = 0 } inside' <<< "$page")
differ=$(comm -3 <(calls <<< "$header") <(calls <<< "$synopsis"))
[ -z "$differ" ] || fault "man/linkcap.3 and linkcap.h differ: $differ"
names=$(grep -oE '\bLINKCAP_[A-Z_]+[A-Z]\b|\bstruct linkcap_[a-z]+ \{' <<< "$header" | sed -E 's/^struct | \{$//g; /^LINKCAP_(H|STATUS)$/d')
for name in $(sort -u <<< "$names"); do
    grep -qw -- "$name" <<< "$page" || fault "man/linkcap.3: no $name"
done
[ "$failed" -eq 0 ] && echo "manuals: no faults"
exit "$failed"
