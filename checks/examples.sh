#!/bin/sh
# Compares the report, the margins and, if they stand beside it, the notes, the chains and the explanations of each
# drawing of examples/ with those that stand beside it, and the status with the last line; and in examples/sections/ the
# reports, and that of all sections together. A drawing of examples/ whose report has faults has chains and explanations,
# and one without notes beside it has none. Beside the report standard error says how many nets nothing determines and
# how many notes need no waves, if there are some, and beside the other answers nothing. And what README.md shows of the
# first of them is so.
# Usage: checks/examples.sh [PROGRAM]. If none is named and none is built it says so and ends with 0.
. "$(dirname -- "$0")/common.sh"
begin "${1-}"

# The status that goes with the last line of a report.
status_of() {
    case $(tail -n 1 "$1") in
    CLEAN | MARGINS* | MET*) echo 0 ;;
    FAULTS* | NOTES* | BROKEN*) echo 1 ;;
    REFUSED*) echo 2 ;;
    UNSETTLED*) echo 3 ;;
    *) echo none ;;
    esac
}

# silent WORD: nothing was said on standard error, unless the waves do not settle
silent() {
    [ "$status" -eq 3 ] || [ ! -s "$work/said" ] || failure "$name: $1: this is said: $(head -n 1 "$work/said")"
}

# counted: verify says how many nets nothing determines, in the one example that has such a net, and how many notes need
# no waves, in the one example that has such a note, and else nothing
counted() {
    case $name in
    mistyped_clock)
        line='scald: 1 net has neither a driver nor an assertion, and no case sets it: it is STABLE in the report'
        ;;
    shut_clock) line='scald: 1 note: scald notes' ;;
    *)
        silent verify
        return
        ;;
    esac
    echo "$line" | cmp -s - "$work/said" || failure "$name: verify: this is said: $(head -n 1 "$work/said")"
}

for drawing in "$top"/examples/*.scald "$top"/examples/sections/*.scald; do
    name=$(basename -- "$drawing" .scald)
    report=${drawing%.scald}.report
    trying "$name"
    if [ ! -f "$report" ]; then
        failure "$name: no report beside it"
        continue
    fi
    "$program" verify <"$drawing" >"$work/report" 2>"$work/said"
    status=$?
    counted
    wanted=$(status_of "$report")
    [ "$status" = "$wanted" ] || failure "$name: status $status in place of $wanted"
    cmp -s "$work/report" "$report" || failure "$name: another report"

    # The notes, if there are any.
    notes=${drawing%.scald}.notes
    "$program" notes <"$drawing" >"$work/notes" 2>"$work/said"
    status=$?
    silent notes
    if [ -f "$notes" ]; then
        wanted=$(status_of "$notes")
        [ "$status" = "$wanted" ] || failure "$name: notes with status $status in place of $wanted"
        cmp -s "$work/notes" "$notes" || failure "$name: other notes"
    else
        [ "$status" = 0 ] || failure "$name: notes with status $status, and none beside it"
    fi

    # The margins, and the chains if there are faults.
    margins=${drawing%.scald}.margins
    if [ -f "$margins" ]; then
        "$program" margins <"$drawing" >"$work/margins" 2>"$work/said"
        status=$?
        silent margins
        wanted=$(status_of "$margins")
        [ "$status" = "$wanted" ] || failure "$name: margins with status $status in place of $wanted"
        cmp -s "$work/margins" "$margins" || failure "$name: other margins"
    else
        failure "$name: no margins beside it"
    fi
    chains=${drawing%.scald}.chains
    if [ -f "$chains" ]; then
        "$program" chains <"$drawing" >"$work/chains" 2>"$work/said"
        status=$?
        silent chains
        wanted=$(status_of "$chains")
        [ "$status" = "$wanted" ] || failure "$name: chains with status $status in place of $wanted"
        cmp -s "$work/chains" "$chains" || failure "$name: other chains"
    elif grep -q '^FAULTS' "$report"; then
        failure "$name: no chains beside it"
    fi
    explained=${drawing%.scald}.explained
    if [ -f "$explained" ]; then
        "$program" explain <"$drawing" >"$work/explained" 2>"$work/said"
        status=$?
        silent explain
        wanted=$(status_of "$explained")
        [ "$status" = "$wanted" ] || failure "$name: explanations with status $status in place of $wanted"
        cmp -s "$work/explained" "$explained" || failure "$name: other explanations"
    elif grep -q '^FAULTS' "$report"; then
        failure "$name: no explanations beside it"
    fi

    # The canonical text draws the same, and is canonical.
    "$program" format <"$drawing" >"$work/text" || failure "$name: no canonical text"
    "$program" verify <"$work/text" >"$work/report" 2>/dev/null
    cmp -s "$work/report" "$report" || failure "$name: another report of its canonical text"
    "$program" format <"$work/text" | cmp -s - "$work/text" || failure "$name: another canonical text"
done

# Its sections joined: the text is that of the three drawings, one after the other.
processor=$top/examples/sections/processor
trying processor
for section in control store datapath; do
    [ "$section" = control ] || echo =====
    cat "$top/examples/sections/$section.scald"
done | cmp -s - "$processor.sections" || failure "processor: other sections than the drawings beside it"
"$program" sections <"$processor.sections" >"$work/report" 2>"$work/said"
status=$?
[ "$status" = "$(status_of "$processor.report")" ] || failure "processor: another status: $status"
cmp -s "$work/report" "$processor.report" || failure "processor: another report"
cmp -s "$work/said" "$processor.crossings" || failure "processor: other nets that cross"

# README.md shows the first drawing, its report, the fault that it has with another digit, how that is explained, and
# its picture.
trying README.md
awk -v folder="$work" '
    /^## / { on = $0 == "## A drawing and its report" }
    !on { next }
    /^    / { print substr($0, 5) >(folder "/shown" (inside ? count : ++count)); inside = 1; next }
    { inside = 0 }' "$top/README.md"
"$program" verify <"$work/shown1" | cmp -s - "$work/shown2" || failure 'README.md: another report'
grep -v '^--' "$top/examples/first.scald" | cmp -s - "$work/shown1" || failure 'README.md: another drawing than first.scald'
sed 's/"D .S1-4"/"D .S2-4"/' "$work/shown1" >"$work/text"
"$program" verify <"$work/text" | tail -n 2 | cmp -s - "$work/shown3" || failure 'README.md: another fault'
"$program" explain <"$work/text" | sed -n '/^1[.] /,/^$/p' | sed '/^$/,$d' | cmp -s - "$work/shown4" ||
    failure 'README.md: another explanation'
"$program" draw 1 <"$work/text" | cmp -s - "$top/examples/first.limit.svg" || failure 'README.md: another picture'

for report in "$top"/examples/*.report "$top"/examples/*.notes "$top"/examples/*.margins "$top"/examples/*.chains "$top"/examples/*.explained "$top"/examples/*.svg \
    "$top"/examples/sections/*.report "$top"/examples/sections/*.margins "$top"/examples/sections/*.crossings; do
    drawing=${report%.*}
    [ -f "${drawing%.limit}.scald" ] || [ -f "$drawing.sections" ] ||
        failure "$(basename -- "$report"): no drawing beside it"
done

ended
