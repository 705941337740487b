#!/bin/sh
# Compares the margins of imported netlists with the slacks that OpenSTA finds in the same netlists: those of
# examples/yosys, generated data paths, and the DES cipher that Debian's package iverilog has as an example (opensta.py
# says how). Each margin counts as one that is tried, each difference as a failure.
# Usage: checks/opensta.sh [PROGRAM]. If yosys or OpenSTA is not installed it says so, and ends with 77: skipped. By
# hand: `./check` does not try it, since no line of it begins with `begin`.
. "$(dirname -- "$0")/common.sh"
if ! command -v yosys >/dev/null 2>&1 || ! command -v sta >/dev/null 2>&1; then
    echo "$check: yosys or OpenSTA (sta) is not installed: skipped, nothing is tried"
    exit 77
else
    begin "${1-}"
fi
python3 -B "$top/checks/opensta.py" "$program" >"$work/said" || failure 'opensta.py did not come to its end'
grep '^tried ' "$work/said" >>"$work/tried"
grep '^FAILED ' "$work/said" | while IFS= read -r line; do failure "${line#FAILED }"; done
grep -v '^tried \|^FAILED ' "$work/said"
ended
