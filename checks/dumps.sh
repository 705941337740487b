#!/bin/sh
# Tries `vcd` of the built program: each run of an example and its cases that is drawn is read back by a reader of value
# change dumps (dumps.py), and has every bit of the trace that `run` writes of the same words; 3 seeds of each. If
# vcd2fst, a wave viewer's, is installed, it reads each dump too; if not, the check says of how many it skipped that.
# Usage: checks/dumps.sh [PROGRAM]. If none is named and none is built it says so and ends with 0. Needs python3.
. "$(dirname -- "$0")/common.sh"
begin "${1-}"
skipped=0
command -v vcd2fst >/dev/null 2>&1 || echo "$check: no command vcd2fst: no wave viewer reads the dumps"

# try_run NAME DRAWING TICKS WORDS: the dump of a run is its trace
try_run() {
    trying "$1: $4"
    # shellcheck disable=SC2086
    "$program" run "$3" $4 <"$2" >"$work/trace" 2>/dev/null || failure "$1: run $3 $4: no trace"
    # shellcheck disable=SC2086
    "$program" vcd "$3" $4 <"$2" >"$work/dump.vcd" 2>/dev/null || failure "$1: vcd $3 $4: no dump"
    python3 -B "$top/checks/dumps.py" "$work/trace" "$work/dump.vcd" 2>"$work/said" ||
        failure "$1: vcd $3 $4: $(tail -n 1 "$work/said")"
    if command -v vcd2fst >/dev/null 2>&1; then
        vcd2fst "$work/dump.vcd" "$work/dump.fst" >/dev/null 2>&1 || failure "$1: vcd $3 $4: vcd2fst refuses it"
    else
        skipped=$((skipped + 1))
    fi
}

for drawing in "$top"/examples/*.scald; do
    name=$(basename -- "$drawing" .scald)
    cases=$(grep -c '^CASE [1-9]' "${drawing%.scald}.report")
    for seed in 1 2 3; do
        try_run "$name" "$drawing" 200 "$seed"
        [ "$cases" -eq 0 ] || try_run "$name" "$drawing" 200 "$seed case=$cases"
    done
done

# names that need a backslash, scopes in scopes, globals, and gaps in a vector, one of them where the name is taken
cat >"$work/names.scald" <<'END'
SCALD 2;
CLOCK 4 x 1;
MACRO M ("A B") -> ("Y");
  b : BUF [0:0] ("A B") -> ("W X");
  n : M2 ("W X") -> ("Y");
END;
MACRO M2 ("A") -> ("Y");
  b : AND [0:0] ("A", "/CK A") -> ("V");
  c : BUF [0:0] ("V") -> ("Y");
END;
DRAWING NAMES;
  FOR i = 1 TO 2 DO
    u : M ("D"<i>) -> ("Q"<i>);
  END;
  c1 : BUF [1:1] ("D"<4>) -> ("Q"<4>);
  c2 : BUF [1:1] ("D"<6>) -> ("Q"<6>);
  c3 : BUF [1:1] ("D_4"<7>) -> ("D_4"<8>);
  c4 : BUF [1:1] ("D#$ x"<0>) -> ("1 D"<3>);
END;
END
for seed in 1 2 3; do
    try_run names "$work/names.scald" 50 "$seed"
done

[ "$skipped" -eq 0 ] || ended ", $skipped not read by vcd2fst, which is not here"
ended
