#!/bin/sh
# Normalises one file, and writes one line about it: the status, the file and the fault, separated by tabs.
#
#     samples/norm_one.sh FILE [LIMIT]
#
# The normal text goes to FILE.text, which exists afterwards only if the capture is legal. The status is that of the program
# `linkcap`, or of the one that LINKCAP names, and 4 if the file can't be read.
[ "${1:-}" != --help ] || { sed -n '2,/^[^#]/s/^# \{0,1\}//p' "$0"; exit 0; }
[ $# -eq 1 ] || [ $# -eq 2 ] || { echo "usage: $0 FILE [LIMIT]" >&2; exit 3; }
file=$1
part=$file.part.$$

if [ -f "$file" ] && [ -r "$file" ]; then
    fault=$("${LINKCAP:-linkcap}" norm ${2:+"$2"} < "$file" 2>&1 > "$part")
    status=$?
else
    fault="no file that can be read"
    status=4
fi

if [ $status -eq 0 ]; then mv "$part" "$file.text"; else rm -f "$part" "$file.text"; fi
printf '%s\t%s\t%s\n' "$status" "$file" "$fault"
exit $status
