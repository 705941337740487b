# What every check of the built program begins and ends with, for the checks to source; and the texts that several
# of them make. Sourced, it sets $top, the top of the repository.

set -u
check=checks/$(basename -- "$0")
top=$(CDPATH='' cd -- "$(dirname -- "$0")/.." && pwd) || exit 2

# begin [PROGRAM]: sets $program, the one to be tried, and $work, an empty folder that is gone when the check ends.
# If a program is named and is not there, the check fails. If none is named and none is built, it says so and
# ends with 0.
begin() {
    program=${1:-$top/crates/scald/out/scald}
    if [ ! -x "$program" ]; then
        echo "$check: no program at $program (./scald builds it): nothing is tried"
        [ -z "${1-}" ]
        exit
    fi
    work=$(mktemp -d) || exit 2
    trap 'rm -rf "$work"' EXIT
    # A line for each text that is tried, and for each failure: many are tried at the end of a pipe, in a shell of
    # their own, whose variables go with it.
    : >"$work/tried"
    : >"$work/failed"
}

# trying NAME: counts one that is tried
trying() {
    printf '%s\n' "$1" >>"$work/tried"
}

# failure WHY: says and counts a failure
failure() {
    printf 'FAILED %s\n' "$1"
    printf '%s\n' "$1" >>"$work/failed"
}

# lines FILE: how many lines it has
lines() {
    echo $(($(wc -l <"$1")))
}

# ended [MORE]: says how many were tried and how many failed, and then MORE; ends the check with 0 if some were
# tried and none failed
ended() {
    echo "$check: $(lines "$work/tried") tried, $(lines "$work/failed") failed${1-}"
    [ -s "$work/tried" ] && [ ! -s "$work/failed" ]
    exit
}

# clocked LINE ..: a text of these lines from line 3 on, in a period of 8 units of 50 ticks
clocked() {
    printf 'SCALD 1;\nCLOCK 8 x 50;\n'
    printf '%s\n' "$@"
}

# drawing_of LINE ..: such a text with a drawing whose own lines begin on line 4
drawing_of() {
    clocked 'DRAWING ROW;' "$@" 'END;'
}

# many COUNT TEXT: so many times the text
many() {
    awk -v count="$1" -v text="$2" 'BEGIN { for (i = 0; i < count; i++) printf "%s", text }'
}

# numbered COUNT BEFORE AFTER: the numbers from 1 on, each between BEFORE and AFTER
numbered() {
    awk -v count="$1" -v before="$2" -v after="$3" 'BEGIN { for (i = 1; i <= count; i++) printf "%s%d%s", before, i, after }'
}

# ranges COUNT BEFORE AFTER: statements labelled l0, l1 .., each with the next 256 bits between BEFORE and AFTER
ranges() {
    awk -v count="$1" -v before="$2" -v after="$3" 'BEGIN {
        for (i = 0; i < count; i++) printf "l%d : %s<%d:%d>%s\n", i, before, 256 * i, 256 * i + 255, after }'
}
