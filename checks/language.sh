#!/bin/sh
# Runs the texts of docs/LANGUAGE.md: each drawing, trace and netlist that it shows has the answer that stands below it,
# each line of its table of faults comes of the drawing beside it, and each refusal of its example, at the place that it
# names (language.py). Usage: checks/language.sh [PROGRAM]. If none is named and none is built it says so and ends with
# 0. Needs python3.
. "$(dirname -- "$0")/common.sh"
begin "${1-}"
python3 -B "$top/checks/language.py" "$program" "$top" "$work/tried" "$work/said" ||
    failure 'language.py did not come to its end'
while IFS= read -r why; do
    failure "$why"
done <"$work/said"
ended
