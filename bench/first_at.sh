#!/usr/bin/env bash
# Counts the instructions that the program spends for each line of an agenda, by valgrind's callgrind: for a
# rule at its start, in its middle and near 2199, with and without COUNT. A line costs one question of the rule
# and one line of text; what the program spends without any line is taken off.
# Run after `rt run` in crates/agenda, from any folder.
set -eu
cd "$(dirname "$0")/.."
program=crates/agenda/out/agenda
printed=$(mktemp)
trap 'rm -f "$printed"' EXIT
count() { # the instructions of one run
    valgrind --tool=callgrind --callgrind-out-file=/dev/null "$program" "$@" 2>&1 >"$printed" |
        sed -n 's/.*Collected : //p'
}
lines() { grep -c , "$printed" || true; }
printf '%-42s %14s %14s %14s\n' 'rule (instructions a line)' start middle 'near 2199'
row() { # rule, start, then the first and last day of four windows: none, start, middle, end
    rule=$1 start=$2
    shift 2
    none=$(count e "$start" "$rule" 45 E "$1" "$2")
    shift 2
    printf '%-42s' "$rule"
    while [ $# -gt 0 ]; do
        spent=$(count e "$start" "$rule" 45 E "$1" "$2")
        many=$(lines)
        if [ "$many" -gt 0 ]; then printf ' %14s' $(((spent - none) / many)); else printf ' %14s' none; fi
        shift 2
    done
    printf '\n'
}
long='19000101 19000131 19500101 19571231 20720101 20791231 21920101 21991231'
row 'FREQ=DAILY' 19500101T090000 $long
row 'FREQ=DAILY;COUNT=10000' 21730101T090000 19000101 19000131 21730101 21801231 21860101 21891231 21920101 21991231
row 'FREQ=WEEKLY;INTERVAL=2;BYDAY=TU,SU' 19500101T090000 $long
row 'FREQ=WEEKLY;INTERVAL=2;COUNT=10000;BYDAY=TU,SU' 20100103T090000 19000101 19000131 20100101 20171231 20920101 20991231 21920101 21991231
row 'FREQ=MONTHLY;BYDAY=-1FR' 19500127T090000 $long
row 'FREQ=MONTHLY;COUNT=10000;BYDAY=-1FR' 19500127T090000 $long
row 'FREQ=YEARLY' 19520229T090000 $long
row 'FREQ=YEARLY;COUNT=10000' 19520229T090000 $long
