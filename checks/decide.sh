#!/bin/sh
# What the built program answers to `decide`. On the drawings of checks/decide and on the examples: verdicts that were
# worked out by hand, that `judge` finds a break in each run that it writes, and that none of 2,000 drawn runs has one
# where all is refuted. Then random drawings are tried against checks/model: each run that shows a fault is a run of the
# case, whose inputs keep their assertions, and breaks the constraint of this fault; and no run that `run` draws breaks
# what is refuted. 500 drawings are to be tried by hand, in some minutes; --short tries the first 20 of them, and 5 drawn
# runs, which ./check does. It ends with how many faults were shown, refuted
# and left open there, and the time that it took.
# Usage: checks/decide.sh [--short] [PROGRAM [COUNT [FIRST]]], COUNT random drawings from number FIRST on. If no program
# is named and none is built it says so and ends with 0. Needs python3.
# If a verdict is wrong the text is kept in the folder KEPT, or else in the temporary one.
. "$(dirname -- "$0")/common.sh"
count=500
seeds=2000
if [ "${1-}" = --short ]; then
    count=20
    seeds=5
    shift
fi
begin "${1-}"
count=${2:-$count}
begun=$(date +%s)

trying decide
python3 "$top/checks/decide.py" "$program" "$top" "$seeds" || failure "decide: see above"

PYTHONPATH=$top/checks python3 -B -m model.try_decide "$program" "$count" "${3:-1}" >"$work/answers"
cut -d ' ' -f 1 "$work/answers" >>"$work/tried"
grep ' FAILED ' "$work/answers" >"$work/wrong"
while read -r number _ why; do
    failure "drawing $number: $why"
done <"$work/wrong"
[ "$(lines "$work/answers")" -eq "$count" ] || failure "only $(lines "$work/answers") of $count drawings were tried"
ended ": $(awk '$2 == "SHOWN" { shown += $3; refuted += $5; open += $7 }
    END { print shown + 0 " shown, " refuted + 0 " refuted, " open + 0 " open" }' "$work/answers"), $(($(date +%s) - begun)) seconds"
