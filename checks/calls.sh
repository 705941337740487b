#!/bin/sh
# What the built program answers to the texts of checks/calls/, worked out by hand: standard output byte by byte, the
# status, and that the whole text is read, or nothing of it. Each file there has the rows of one topic, below a comment:
#
#     #### the name of a row
#     words: verify faults
#     drawing:
#     c1 : SETUP_HOLD_CHK {SETUP=20, HOLD=10} ("CK .P2-3", "D .S2-4");
#     status: 1
#     SCALD 1 PERIOD 400
#     ...
#
# Words on both sides of a | are calls with the same answer. Below `drawing:` stand the statements of a drawing in a
# period of 8 units of 50 ticks, the first of them on line 4 of its text; below `drawing in version 2:` those of one in
# version 2 of the language; and below `text:` a whole text. Drawings that are sections have a line ===== between them.
# A line of a text that ends in \r ends in the bytes 13 and 10, and one that ends in \ has no end of line. After the
# status stands `unread` if nothing is read, and below it standard output. Beside the report on each drawing that has
# notes here, standard error says how many of them need no waves.
# Usage: checks/calls.sh [PROGRAM]. If none is named and none is built it says so and ends with 0.
. "$(dirname -- "$0")/common.sh"
begin "${1-}"

# rows_of FILE: the name, the words, the text, the status and the wanted answer of each row, in files of $work/rows
rows_of() {
    rm -rf "$work/rows"
    mkdir "$work/rows"
    awk -v rows="$work/rows" '
        function put(what, part) { print what >(row part); close(row part) }
        function head() { print "SCALD " version ";\nCLOCK 8 x 50;\nDRAWING ROW;" >text }
        /^#### / {
            close(text)
            close(want)
            row = sprintf("%s/%03d.", rows, ++count)
            text = row "text"
            want = row "want"
            printf "" >text
            printf "" >want
            put(substr($0, 6), "name")
            part = "head"
            next
        }
        part == "head" && sub(/^words: ?/, "") { gsub(/ [|] /, "\n"); put($0, "words"); next }
        part == "head" {
            version = /version 2/ ? 2 : 1
            is_framed = /^drawing/
            if (is_framed) head()
            part = "text"
            next
        }
        part == "text" && sub(/^status: /, "") { if (is_framed) print "END;" >text; put($0, "status"); part = "want"; next }
        part == "text" && is_framed && $0 == "=====" { print "END;\n=====" >text; head(); next }
        part == "text" && sub(/\\$/, "") { printf "%s", $0 >text; next }
        part == "text" { sub(/\\r$/, "\r"); print >text; next }
        part == "want" { print >want }' "$1"
}

# calls NAME ROW WORDS: the program answers the words as the row wants it
calls() {
    trying "$1"
    read -r wanted unread <"$2.status"
    {
        # shellcheck disable=SC2086
        "$program" $3 >"$work/out" 2>/dev/null
        status=$?
        cat >"$work/left"
    } <"$2.text"
    [ "$status" -eq "$wanted" ] || failure "$1: status $status in place of $wanted"
    cmp -s "$work/out" "$2.want" || {
        failure "$1: another answer:"
        diff "$2.want" "$work/out" | head -n 20
    }
    if [ -n "$unread" ]; then
        cmp -s "$work/left" "$2.text" || failure "$1: something is read"
    else
        [ ! -s "$work/left" ] || failure "$1: something is not read"
    fi
}

# counts NAME ROW: `verify` of the text of a row of notes says on standard error how many of them are PART, NEAR, EMPTY
# and CASES, and nothing of them if it has no verdict
counts() {
    trying "$1: counted"
    count=$(grep -Ec '^NOTE (PART|NEAR|EMPTY|CASES) ' "$2.want")
    case $count in
    0) : ;;
    1) echo 'scald: 1 note: scald notes' ;;
    *) echo "scald: $count notes: scald notes" ;;
    esac >"$work/count"
    "$program" verify <"$2.text" 2>&1 >/dev/null | grep ' scald notes$' | cmp -s - "$work/count" ||
        failure "$1: another count of notes"
}

for topic in "$top"/checks/calls/*.txt; do
    rows_of "$topic"
    for row in "$work"/rows/*.words; do
        row=${row%.words}
        name="$(basename -- "$topic" .txt): $(cat "$row.name")"
        while IFS= read -r words; do
            calls "$name" "$row" "$words"
            [ "$words" != notes ] || counts "$name" "$row"
        done <"$row.words"
    done
done

ended
