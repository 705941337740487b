#!/bin/sh
# Tries `draw` of the built program: the pictures of the drawings of checks/draw byte for byte, as they were worked out
# by hand, and those that stand beside examples; a limit that is broken; the page and a picture of each case of each
# example; of names with every byte that a name may have, and of 300 random drawings, the page and the first case.
# checks/draw.py reads all pages and these pictures as XML and compares them with the report. Also a case that is not
# there; pages of the nets below a path; that a text without waves gets its answer from `verify`; and both limits. The
# picture of the ALU, whose bits join, has at most 12,000 bytes, and one of 500 rows 260,000. If xmllint (libxml2-utils)
# and chromium are installed, the one reads every picture and page and the other renders five pages; if not, the check
# says of how many it skipped that.
# --short tries 60 random drawings, which ./check does.
# Usage: checks/draw.sh [--short] [PROGRAM]. If none is named and none is built it says so and ends with 0. Needs
# python3.
. "$(dirname -- "$0")/common.sh"
count=300
if [ "${1-}" = --short ]; then
    count=60
    shift
fi
begin "${1-}"
mkdir "$work/drawings" "$work/reports" "$work/pictures"
: >"$work/list"

# draws NAME DRAWING CASE STATUS: the picture of a case, which stands in the list to be compared with $work/reports/NAME
draws() {
    picture=$work/pictures/$1.$3.svg
    trying "$1: draw case=$3"
    "$program" draw "case=$3" <"$2" >"$picture" 2>/dev/null
    status=$?
    [ "$status" -eq "$4" ] || failure "$1: draw case=$3: status $status in place of $4"
    echo "$picture $work/reports/$1 $3" >>"$work/list"
}

# page NAME DRAWING STATUS: the page of a drawing, which stands in the list to be compared with $work/reports/NAME
page() {
    picture=$work/pictures/$1.xhtml
    trying "$1: draw"
    "$program" draw <"$2" >"$picture" 2>/dev/null
    status=$?
    [ "$status" -eq "$3" ] || failure "$1: draw: status $status in place of $3"
    echo "$picture $work/reports/$1 page" >>"$work/list"
}

# below NAME DRAWING STATUS: the page of the nets whose names begin as that of the last one does, which stands in the list
below() {
    path=$(sed -n 's/^WAVE \(.\{1,3\}\).* SKEW .*/\1/p' "$work/reports/$1" | tail -n 1)
    [ -n "$path" ] || return
    picture=$work/pictures/$1.below.xhtml
    trying "$1: draw waves under=$path"
    "$program" draw waves "under=$path" <"$2" >"$picture" 2>/dev/null
    status=$?
    [ "$status" -eq "$3" ] || failure "$1: draw waves under=$path: status $status in place of $3"
    echo "$picture $work/reports/$1 waves $path" >>"$work/list"
}

# has_none NAME DRAWING COUNT: there is no case of the highest number, and standard error says how many are listed
has_none() {
    "$program" draw case=256 <"$2" >"$work/out" 2>"$work/said"
    status=$?
    [ "$status" -eq 10 ] || failure "$1: draw case=256: status $status in place of 10"
    [ ! -s "$work/out" ] || failure "$1: draw case=256 writes something"
    grep -qx "scald: the drawing has no such case: it has $3" "$work/said" ||
        failure "$1: draw case=256: it does not say that there are $3"
}

# is_stored NAME PICTURE: the picture that was drawn last is this one
is_stored() {
    cmp -s "$picture" "$2" || failure "$1: another picture than $(basename -- "$2")"
}

# worst NAME DRAWING: the worst limit of a drawing with faults is drawn as it stands beside the drawing
worst() {
    picture=$work/pictures/$1.limit.svg
    trying "$1: draw 1"
    "$program" draw 1 <"$2" >"$picture" 2>/dev/null
    status=$?
    [ "$status" -eq 1 ] || failure "$1: draw 1: status $status in place of 1"
    is_stored "$1" "${2%.scald}.limit.svg"
}

# try_text NAME DRAWING [all]: a text is answered as by `verify`, but for the pictures of its first case, or of all
try_text() {
    "$program" verify <"$2" >"$work/reports/$1" 2>/dev/null
    wanted=$?
    cases=$(awk '$1 == "CASE" { print $2 }' "$work/reports/$1")
    if [ "$wanted" -gt 1 ]; then
        trying "$1: draw case=0"
        "$program" draw case=0 <"$2" >"$work/out" 2>/dev/null
        status=$?
        [ "$status" -eq "$wanted" ] || failure "$1: draw case=0: status $status in place of $wanted"
        cmp -s "$work/out" "$work/reports/$1" || failure "$1: draw case=0: another answer than that of verify"
        return
    fi
    listed=0
    [ "$cases" = 0 ] || listed=$(echo "$cases" | wc -l | tr -d ' ')
    [ "${3-}" = all ] || cases=${cases%%
*}
    for number in $cases; do
        draws "$1" "$2" "$number" "$wanted"
        [ ! -f "${2%.scald}.svg" ] || [ "$number" -gt 1 ] || is_stored "$1" "${2%.scald}.svg"
    done
    [ "$wanted" -eq 0 ] || [ ! -f "${2%.scald}.limit.svg" ] || worst "$1" "$2"
    page "$1" "$2" "$wanted"
    below "$1" "$2" "$wanted"
    has_none "$1" "$2" "$listed"
}

for drawing in "$top"/checks/draw/*.scald "$top"/examples/*.scald; do
    try_text "$(basename -- "$drawing" .scald)" "$drawing" all
done

# A limit that is broken, by its number among the broken ones and among all; there is no second one.
fault=$top/checks/draw/fault.scald
limit() {
    trying "fault: draw $1"
    # shellcheck disable=SC2086
    "$program" draw $1 <"$fault" >"$work/out" 2>/dev/null
    status=$?
    [ "$status" -eq "$2" ] || failure "fault: draw $1: status $status in place of $2"
}
for words in 1 worst=1; do
    limit "$words" 1
    cmp -s "$work/out" "${fault%.scald}.limit.svg" || failure "fault: draw $words: another picture than fault.limit.svg"
done
limit 2 10
[ ! -s "$work/out" ] || failure 'fault: draw 2 writes something'

# Pages of it have that limit, or the waves of its case.
for words in faults waves; do
    limit "$words" 1
    limits=$(grep -c '^<section id="f' "$work/out")
    cases=$(grep -c '^<section id="k' "$work/out")
    links=$(grep -c '<a ' "$work/out")
    case $words:$limits:$cases:$links in
    faults:1:0:1 | waves:0:1:0) ;;
    *) failure "fault: draw $words: $limits limits, $cases cases, and links in $links lines" ;;
    esac
done

# Where a net is hidden, so are its marks, and edges that come to it or from it.
marks() {
    limit "waves $1" 1
    flags=$(grep -c '>fault ' "$work/out")
    windows=$(grep -c 'class="win"' "$work/out")
    edges=$(grep -c 'class="edge"' "$work/out")
    [ "$flags:$windows:$edges" = "$2" ] || failure "fault: draw waves $1: flags, windows and edges are $flags:$windows:$edges"
}
marks '' 1:1:1
marks under= 1:1:1
marks under=D 1:1:0
marks under='D<0>' 1:1:0
marks under=CK 0:0:0
limit 'waves under=E' 10
[ ! -s "$work/out" ] || failure 'fault: draw waves under=E writes something'

# rows NAME PATH ROWS: which rows of this text in $work are drawn below a path
rows() {
    trying "$1: draw waves under=$2"
    "$program" draw waves "under=$2" <"$work/$1" >"$work/out" 2>/dev/null
    labels=$(sed -n 's/.*<title>\([^ ]*\) SKEW .*/\1/p' "$work/out" | tr '\n' ' ' | sed 's/&lt;/</g; s/&gt;/>/g')
    [ "$labels" = "$3" ] || failure "$1: draw waves under=$2: the rows are $labels"
}

# Of bits that adjoin in a row, those below the path remain side by side.
cat >"$work/bits.scald" <<'TEXT'
SCALD 2;
CLOCK 4 x 2;
DRAWING BITS;
  c : MIN_PULSE_CHK ("D"<0:12>);
  b : BUF [0:0] ("D"<0>) -> ("E");
END;
TEXT
rows bits.scald 'D<1' 'D<1> D<10:12> '

# With its slash a path is that of one use, and of the uses in it.
cat >"$work/uses.scald" <<'TEXT'
SCALD 2;
CLOCK 4 x 2;
MACRO INNER ("A") -> ("X");
  b : BUF [0:0] ("A") -> ("T");
  c : BUF [0:0] ("T") -> ("X");
END;
MACRO OUTER ("A") -> ("X");
  b : BUF [0:0] ("A") -> ("T");
  v : INNER ("T") -> ("X");
END;
DRAWING USES;
  u1 : OUTER ("A") -> ("X");
  u10 : INNER ("A") -> ("Y");
END;
TEXT
rows uses.scald u1/ 'u1/T<0> u1/v/T<0> '
rows uses.scald u1/v/ 'u1/v/T<0> '
rows uses.scald u1 'u1/T<0> u1/v/T<0> u10/T<0> '
rows uses.scald '' 'A<0> X<0> Y<0> u1/T<0> u1/v/T<0> u10/T<0> '

alu=$work/pictures/alu.0.svg
[ "$(wc -c <"$alu")" -le 12000 ] || failure "alu: a picture of $(wc -c <"$alu") bytes"

cat >"$work/drawings/names.scald" <<'TEXT'
SCALD 2;
CLOCK 4 x 1;
DRAWING NAMES;
  b : BUF [0:0] ("A_#$ 09 zZ") -> ("/G");
END;
TEXT
PYTHONPATH=$top/checks python3 -B -m model.random_files "$work/drawings" "$count" || failure 'no random drawings'
for drawing in "$work"/drawings/*.scald; do
    try_text "$(basename -- "$drawing" .scald)" "$drawing"
done

# Clocks come first, each list in name order: by an assertion (Z), on an enable (Y), and on a pin whose pulses are
# measured (A<1>, which is so in no row with A<0>, though both have one wave).
cat >"$work/drawings/order.scald" <<'TEXT'
SCALD 2;
CLOCK 4 x 2;
DRAWING ORDER;
  g : AND [0:0] ("Z .P1-3", "E .S0-4") -> ("Y");
  l : LATCH [0:1] ("Y", "A .S3-2"<0:1>) -> ("Q"<0:1>);
  c : MIN_PULSE_CHK ("A"<1>);
END;
TEXT
try_text order "$work/drawings/order.scald"
order=$(sed -n 's/.*<g transform="translate(0 [0-9]*)"><title>\([^ ]*\) SKEW .*/\1/p' "$work/pictures/order.0.svg" |
    tr '\n' ' ')
[ "$order" = 'A&lt;1&gt; Y&lt;0&gt; Z&lt;0&gt; A&lt;0&gt; E&lt;0&gt; Q&lt;0:1&gt; ' ] ||
    failure "order: the rows are $order"

# The limits: 8,192 rows, here of one net each, whose names differ in their paths; and 262,144 runs, here of bits that
# do not adjoin and may change at every second tick of a period of 4,096.
rows() {
    printf 'SCALD 2;\nCLOCK 4 x 1;\nMACRO M ();\n  b : BUF [0:0] (ZERO) -> ("X");\nEND;\nDRAWING ROWS;\n'
    printf '  FOR I = 1 TO %d DO\n    u : M ();\n  END;\nEND;\n' "$1"
}
runs() {
    units=$(awk 'BEGIN { for (i = 0; i < 2048; i++) printf "%s%d-%d", i ? "," : "", i, i + 1 }')
    printf 'SCALD 2;\nCLOCK 2048 x 2;\nDRAWING RUNS;\n'
    printf '  FOR I = 1 TO %d DO\n    c : MIN_PULSE_CHK ("D .S%s"<2 * I>);\n  END;\nEND;\n' "$1" "$units"
}
# and those of one net more, which has one
more() {
    runs "$1" | sed '$d'
    printf '  w : MIN_PULSE_CHK ("E");\nEND;\n'
}
for words in 'rows 500 0' 'rows 8192 0' 'rows 8193 11' 'runs 32 0' 'more 32 11'; do
    # shellcheck disable=SC2086
    set -- $words
    trying "$1: $2"
    "$1" "$2" >"$work/text"
    "$program" draw case=0 <"$work/text" >"$work/out" 2>"$work/said"
    status=$?
    [ "$status" -eq "$3" ] || failure "$2 $1: status $status in place of $3"
    [ "$status" -ne 11 ] || [ ! -s "$work/out" ] || failure "$2 $1: something is written"
    [ "$status" -ne 11 ] || grep -q '^scald: there are more than 8192 rows or 262144 runs to draw$' "$work/said" ||
        failure "$2 $1: nothing is said"
    [ "$2" -ne 500 ] || [ "$(wc -c <"$work/out")" -le 260000 ] || failure "$2 $1: $(wc -c <"$work/out") bytes"
done

python3 -B "$top/checks/draw.py" <"$work/list" >"$work/wrong" || [ -s "$work/wrong" ] || failure 'no picture was read'
while IFS= read -r line; do
    failure "$line"
done <"$work/wrong"

skipped=
if command -v xmllint >/dev/null 2>&1; then
    cut -d ' ' -f 1 "$work/list" | xargs xmllint --noout 2>"$work/said" || failure "xmllint: $(head -n 1 "$work/said")"
else
    skipped=", $(lines "$work/list") not read by xmllint, which is not here"
fi
if command -v chromium >/dev/null 2>&1; then
    trying chromium
    for name in skew_hold one_bit gated_hazard case_register machine; do
        echo "$work/pictures/$name.xhtml"
    done | xargs python3 -B "$top/checks/render.py" chromium "$work" "$work/pictures/skew_hold.0.svg" >"$work/said" 2>&1 ||
        failure "chromium: $(tail -n 1 "$work/said")"
else
    skipped="$skipped, 5 not rendered by chromium, which is not here"
fi
ended "$skipped"
