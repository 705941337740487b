#!/bin/sh
# Tries `run` and `judge` of the built program. Of each example and each of its cases 200 runs are drawn and judged from
# the printed tick on: each is a run whose inputs keep their assertions, and nothing breaks that the report does not list;
# nothing at all if the report is CLEAN. Then random drawings are tried against checks/model, which judges every run
# and spoilt traces of it too: 500 drawings. --short tries 10 runs of each case and 60 drawings, which ./check does.
# Usage: checks/runs.sh [--short] [PROGRAM [COUNT [FIRST]]], COUNT random drawings from number FIRST on. Needs python3.
# If a verdict is wrong the text is kept in the folder KEPT, or else in the temporary one.
. "$(dirname -- "$0")/common.sh"
seeds=200
count=500
if [ "${1-}" = --short ]; then
    seeds=10
    count=60
    shift
fi
begin "${1-}"
count=${2:-$count}
begun=$(date +%s)

# ticks T PERIOD NETS: how many ticks are drawn: three periods past the printed tick, if there is room for them
ticks() {
    awk -v tick="$1" -v period="$2" -v nets="$3" 'BEGIN {
        most = int(4000000 / nets); if (most > 4096) most = 4096
        wanted = tick + 3 * period; print wanted < most ? wanted : most }'
}

# try_case NAME CASE TICK TICKS SEED: draws a run of $drawing and judges it
try_case() {
    trying "$1"
    word=
    [ "$2" -eq 0 ] || word=case=$2
    "$program" run "$4" "$5" $word <"$drawing" >"$work/trace" 2>"$work/said"
    status=$?
    if [ "$status" -ne 0 ]; then
        failure "$1: case $2, seed $5: no run, but status $status"
        return
    fi
    cat "$work/trace" "$drawing" | "$program" judge "$3" >"$work/verdict"
    status=$?
    { echo RUN && echo INTERFACE; } >"$work/want"
    if ! head -n 2 "$work/verdict" | cmp -s - "$work/want"; then
        failure "$1: case $2, seed $5: $(tr '\n' ' ' <"$work/verdict")"
    elif [ "$status" -ne 0 ]; then
        broken=$(sed -n 's/^BREAK \(.*\) TICK [0-9]*$/\1/p' "$work/verdict")
        grep -qxF "$2 $broken" "$work/faults" || failure "$1: case $2, seed $5: $broken breaks, and has no fault"
    elif [ "$(tail -n 1 "$work/verdict")" != "NO BREAK" ]; then
        failure "$1: case $2, seed $5: status 0 and a break"
    fi
}

for drawing in "$top"/examples/*.scald; do
    name=$(basename -- "$drawing" .scald)
    report=${drawing%.scald}.report
    case $(tail -n 1 "$report") in
    CLEAN | FAULTS*) ;;
    *) continue ;;
    esac
    # each fault by the number of its case and its element
    awk '$1 == "CASE" { number = $2 } $1 == "FAULT" { print number, $3 }' "$report" >"$work/faults"
    period=$(awk '$1 == "SCALD" { print $4 }' "$report")
    nets=$(awk '$1 == "NETS" { print $2 }' "$report")
    awk '$1 == "CASE" { print $2, $8 }' "$report" >"$work/cases"
    while read -r number tick; do
        [ "$tick" -le 4096 ] || continue
        long=$(ticks "$tick" "$period" "$nets")
        for seed in $(seq 1 "$seeds"); do
            try_case "$name" "$number" "$tick" "$long" "$seed"
        done
    done <"$work/cases"
done

PYTHONPATH=$top/checks python3 -B -m model.try_runs "$program" "$count" "${3:-1}" >"$work/answers" ||
    failure "the model came to no end"
cut -d ' ' -f 1 "$work/answers" >>"$work/tried"
grep ' FAILED ' "$work/answers" >"$work/wrong"
while read -r number _ why; do
    failure "drawing $number: $why"
done <"$work/wrong"
[ "$(lines "$work/answers")" -eq "$count" ] || failure "only $(lines "$work/answers") of $count drawings were tried"
grep -v ' FAILED ' "$work/answers" | cut -d ' ' -f 2- | sort | uniq -c | sort -rn

ended ", in $(($(date +%s) - begun)) seconds"
