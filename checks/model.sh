#!/bin/sh
# Compares the built program with checks/model, a model that is written from the documents, over random drawings, and
# then over a tenth as many random lists of sections: of the report, the notes, the margins, the chains and the slacks
# of drawings, and of the report on sections, bytes and status must be the same, and beside a report how many notes
# standard error counts. 20000 drawings are to be tried by hand, in some minutes; --short tries the first 2000 of them,
# in about half a minute, which ./check does. It ends with the answers that came, and the time that it took.
# Usage: checks/model.sh [--short] [PROGRAM [COUNT [FIRST]]], COUNT drawings from number FIRST on; each number has
# always the same drawing. Needs python3.
# If an answer is wrong the text and both answers are kept in the folder KEPT, or else in the temporary one.
. "$(dirname -- "$0")/common.sh"
count=20000
if [ "${1-}" = --short ]; then
    count=2000
    shift
fi
begin "${1-}"
count=${2:-$count}
begun=$(date +%s)

first=${3:-1}
lists=$(((count + 9) / 10))

# try_texts COUNT [sections]
try_texts() {
    PYTHONPATH=$top/checks python3 -B -m model "$program" "$1" "$first" "${2-}" >>"$work/answers" ||
        failure "the model came to no end"
}
try_texts "$count"
try_texts "$lists" sections

# Each line of the answers has a drawing's number and then what came of the drawing.
cut -d ' ' -f 1 "$work/answers" >"$work/tried"
grep ' FAILED ' "$work/answers" >"$work/wrong"
while read -r number _ why; do
    failure "drawing $number: $why"
done <"$work/wrong"
[ "$(lines "$work/tried")" -eq $((count + lists)) ] ||
    failure "only $(lines "$work/tried") of $((count + lists)) texts were tried"
grep -v ' FAILED ' "$work/answers" | cut -d ' ' -f 2- | sort | uniq -c | sort -rn

ended ", in $(($(date +%s) - begun)) seconds"
