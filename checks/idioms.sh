#!/bin/sh
# Runs each drawing of docs/IDIOMS.md and compares its report with the one below it, or its last line if one line
# stands there. Nothing is said on standard error, and each idiom has a drawing. Usage: checks/idioms.sh [PROGRAM].
# If none is named and none is built it says so and ends with 0.
. "$(dirname -- "$0")/common.sh"
begin "${1-}"

# The drawings in files 1.scald, 2.scald .. of a folder, each with what is to come in 1.answer ..: the indented lines
# after it. A drawing is an indented part of the page with a line SCALD.
mkdir "$work/page"
awk -v folder="$work/page" '
    function finished() {
        if (part ~ /(^|\n)SCALD [0-9]+;\n/) {
            printf "%s", part >(folder "/" ++count ".scald")
            heads[count] = head
            wants = 1
        } else if (part != "" && wants) {
            printf "%s", part >(folder "/" count ".answer")
            wants = 0
        }
        part = ""
    }
    /^    / { part = part substr($0, 5) "\n"; next }
    { finished() }
    /^## / { head = substr($0, 4); all[head] = 1 }
    END {
        finished()
        for (i = 1; i <= count; i++) { print heads[i] >(folder "/" i ".head"); delete all[heads[i]] }
        for (head in all) print head >(folder "/bare")
    }' "$top/docs/IDIOMS.md"

if [ -f "$work/page/bare" ]; then
    failure "$(head -n 1 "$work/page/bare"): no drawing"
fi
for drawing in "$work"/page/*.scald; do
    [ -f "$drawing" ] || continue
    name=$(cat "${drawing%.scald}.head")
    answer=${drawing%.scald}.answer
    trying "$name"
    if [ ! -f "$answer" ]; then
        failure "$name: no report below it"
        continue
    fi
    "$program" verify <"$drawing" >"$work/report" 2>"$work/said"
    [ ! -s "$work/said" ] || failure "$name: this is said: $(head -n 1 "$work/said")"
    if [ "$(lines "$answer")" -eq 1 ]; then
        tail -n 1 "$work/report" >"$work/last"
        mv "$work/last" "$work/report"
    fi
    cmp -s "$work/report" "$answer" || failure "$name: another report"
done

ended
