#!/bin/sh
# What standard error says beside an answer: to sections that are joined, which global nets cross, which no section
# drives and which no other takes; to one drawing, how many nets nothing determines, and how many notes need no waves.
# Usage: checks/asides.sh [PROGRAM]. If none is named and none is built it says so and ends with 0.
. "$(dirname -- "$0")/common.sh"
begin "${1-}"

# said NAME LINE ..: standard error says these lines, and no other
said() {
    name=$1
    shift
    trying "$name"
    [ $# -eq 0 ] || printf '%s\n' "$@" >"$work/want"
    [ $# -gt 0 ] || : >"$work/want"
    cmp -s "$work/want" "$work/said" || {
        failure "$name: this is said:"
        cat "$work/said"
    }
}

# --- sections
# sections STATUS FIRST ..: sections with these lines each, in one period, end with this status
sections() {
    wanted=$1
    shift
    between=
    : >"$work/text"
    for lines in "$@"; do
        printf '%s' "$between" >>"$work/text"
        between='=====
'
        printf 'SCALD %s;\nCLOCK 8 x 50;\nDRAWING D;\n%s\nEND;\n' "${version-2}" "$lines" >>"$work/text"
    done
    "$program" sections <"$work/text" >"$work/out" 2>"$work/said"
    status=$?
    [ "$status" -eq "$wanted" ] || failure "status $status in place of $wanted: $1"
}
cross='scald: global nets that cross, from the section that drives each to those that take it:'
none='scald: no net crosses: sections share only nets whose names begin with /'
undriven='scald: global nets that no section drives, so that all that is known of each is what it asserts:'
untaken='scald: global nets that stand only in the section that drives each:'
# drive NAME BITS, take NAME BITS: a buffer that drives these bits, or takes them
drive() {
    echo "d : BUF [1:2] (\"D .S1-8\"$2) -> (\"$1 .S2-8\"$2);"
}
take() {
    echo "t : BUF [1:2] (\"$1 .S2-8\"$2) -> (\"X\"$2);"
}
op=$(drive /OP '<0:3>')

sections 0 "$op" "$(take /OP '<0:3>')"
said 'a vector' "$cross" '    /OP<0:3> from section 1 to 2'
sections 0 "$(take /OP '<3:0>')" "$op"
said 'from the second section' "$cross" '    /OP<0:3> from section 2 to 1'
version=1
sections 0 "$op" "$(take /OP '<0:3>')"
said 'version 1' "$cross" '    /OP<0:3> from section 1 to 2'
unset version
sections 0 "$op" "$(take /OPP '<0:3>')"
said 'a letter too many' "$none" "$undriven" '    /OPP<0:3> in section 2' \
    "$untaken" '    /OP<0:3> from section 1'
sections 0 "$op" "$(take /OP '<0:4>')"
said 'a bit too many' "$cross" '    /OP<0:3> from section 1 to 2' \
    "$undriven" '    /OP<4> in section 2'
sections 0 "$op" "$(take OP '<0:3>')"
said 'no slash' "$none" "$untaken" '    /OP<0:3> from section 1'
sections 0 "$op" "$(take /OP '<0:3>')" "$(take /OP '<0:1>')"
said 'three sections' "$cross" '    /OP<0:1> from section 1 to 2, 3' '    /OP<2:3> from section 1 to 2'
sections 0 "$op" "$(take /OP '<0>')
u : BUF [1:2] (\"/OP\"<2>) -> (\"Y\");"
said 'every second bit' "$cross" '    /OP<0> from section 1 to 2' '    /OP<2> from section 1 to 2' \
    "$untaken" '    /OP<1> from section 1' '    /OP<3> from section 1'
sections 0 "$op
e : BUF [1:2] (\"D\"<0>) -> (\"/GO .S2-8\");
f : BUF [1:2] (\"/ACK .S3-8\") -> (\"Z\");" "$(take /OP '<0:3>')
u : BUF [1:2] (\"/GO .S2-8\") -> (\"/ACK .S3-8\");"
said 'both ways' "$cross" '    /GO<0> from section 1 to 2' '    /OP<0:3> from section 1 to 2' \
    '    /ACK<0> from section 2 to 1'
sections 0 "$op" "$(take /OP '<2:5>')"
said 'bits past its end' "$cross" '    /OP<2:3> from section 1 to 2' \
    "$undriven" '    /OP<4:5> in section 2' "$untaken" '    /OP<0:1> from section 1'
input='i : BUF [1:2] ("/IN .P2-3") -> ("X");'
sections 0 "$input" "$op" "$input"
said 'an input of two sections' "$none" "$undriven" '    /IN<0> in section 1, 3' "$untaken" '    /OP<0:3> from section 2'
sections 0 'i : BUF [1:2] ("A") -> ("B");' "$op"
said 'a net that no other section takes' "$none" "$untaken" '    /OP<0:3> from section 2'
sections 1 'd : BUF [60:70] ("D .S1-8") -> ("/OP .S2-8");' "$(take /OP '<0>')"
said 'a fault' "$cross" '    /OP<0> from section 1 to 2'
# inputs COUNT: so many global nets that nothing drives, each on a line of its own
inputs() {
    awk -v count="$1" 'BEGIN { for (i = 0; i < count; i++) printf "l%d : BUF [1:2] (\"/I%02d\") -> (\"X%d\");\n", i, i, i }'
}
# listed COUNT: the lines of the list on the first so many of them
listed() {
    awk -v count="$1" 'BEGIN { for (i = 0; i < count; i++) printf "    /I%02d<0> in section 1\n", i }'
}
for count in 32 33 100; do
    sections 0 "$(inputs "$count")" "$op"
    more=
    [ "$count" -eq 32 ] || more="
    and $((count - 32)) more"
    said "$count inputs" "$none" "$undriven" "$(listed 32)$more" "$untaken" '    /OP<0:3> from section 2'
done

# --- one drawing
# answers WORD LINE ..: a drawing with these lines, and then with the lines $cases, is verified or asked for something else
answers() {
    word=$1
    shift
    {
        printf 'SCALD 2;\nCLOCK 8 x 50;\nDRAWING D;\n'
        printf '%s\n' "$@" 'END;'
        printf '%s' "${cases-}"
    } >"$work/text"
    "$program" "$word" <"$work/text" >"$work/out" 2>"$work/said"
}
one='scald: 1 net has neither a driver nor an assertion, and no case sets it: it is STABLE in the report'
two='scald: 2 nets have neither a driver nor an assertion, and no case sets them: they are STABLE in the report'
answers verify 'b : BUF [1:2] ("A") -> ("B");'
said 'a net that nothing determines' "$one"
answers verify 'b : AND [1:2] ("A", "C") -> ("B");'
said 'two of them' "$two"
answers verify 'b : BUF [1:2] ("A"<0:1>) -> ("B"<0:1>);'
said 'two bits' "$two"
answers verify 'b : BUF [1:2] ("A .S1-8") -> ("B");'
said 'an assertion'
answers verify 'a : BUF [1:2] ("D .S1-8") -> ("A");' 'b : BUF [1:2] ("A") -> ("B");'
said 'a driver'
cases='CASE "A"=0;
CASE "A"=1;
'
answers verify 'b : BUF [1:2] ("A") -> ("B");'
said 'a net of a case'
answers verify 'b : AND [1:2] ("A", "C") -> ("B");'
said 'another net' "$one"
unset cases
answers verify 'c1 : SETUP_HOLD_CHK {SETUP=60} ("CK .P2-3", "D");' 'c2 : SETUP_HOLD_CHK {SETUP=60} ("CK", "E .S2-4");'
said 'beside a fault' "$one"
answers notes 'b : BUF [1:2] ("A") -> ("B");'
said 'of notes'
answers format 'b : BUF [1:2] ("A") -> ("B");'
said 'of a text that is printed'
answers verify 'b : BUF [2:1] ("A") -> ("B");'
! grep -q STABLE "$work/said" || failure 'a refused text: STABLE'

# how many notes there are, of each kind and of several: just some, and just none
note='scald: 1 note: scald notes'
notes='scald: 2 notes: scald notes'
driven='b1 : BUF [1:1] ("D .S1-4"<0:1>) -> ("X"<0:1>);'
answers verify "$driven" 'b2 : BUF [1:1] ("X"<0:2>) -> ("Y .S2-6"<0:2>);'
said 'a bit that is not driven' "$one" "$note"
answers verify "$driven" 'b2 : BUF [1:1] ("X"<0:3>) -> ("Y .S2-6"<0:3>);'
said 'two of them' "$two" "$notes"
answers verify "$driven" 'b2 : BUF [1:1] ("X"<0:1>) -> ("Y .S2-6"<0:1>);'
said 'all bits are driven'
answers verify "$driven" 'WIRE "X"<2> 0:1;'
said 'a bit that no pin is on' "$one"
answers verify 'b1 : BUF [1:1] ("DATO") -> ("A .S");' 'b2 : BUF [1:1] ("DAT0 .S1-4") -> ("B .S2-6");'
said 'a name one slip apart' "$one" "$note"
answers verify 'b1 : BUF [1:1] ("DATo") -> ("A .S");' 'b2 : BUF [1:1] ("DAT0 .S1-4") -> ("B .S2-6");'
said 'a name two slips apart' "$one"
answers verify 'FOR I = 1 TO 0 DO END;'
said 'a FOR without a turn' "$note"
answers verify 'FOR I = 1 TO 0 DO END;' 'FOR I = 1 TO 0 DO END;'
said 'two of them' "$notes"
answers verify 'FOR I = 1 TO 1 DO END;'
said 'a FOR with one'
answers verify 'IF 0 THEN FOR I = 1 TO 0 DO END; END;'
said 'a FOR that is not reached'
both='b : AND [1:1] ("S", "D .S1-4") -> ("A .S");'
cases='CASE "S"=0;
CASE "S"=1;
CASE "S"=0;
'
answers verify "$both"
said 'a case again' "$note"
cases='CASE "S"=0;
'
answers verify "$both"
said 'a bit that no case has' "$note"
answers verify "$both" 'FOR I = 1 TO 0 DO END;'
said 'two kinds' "$notes"
cases='CASE "S"=0;
CASE "S"=0;
'
answers verify "$both"
said 'one case twice' "$notes"
answers verify "$both" "$driven" 'b2 : BUF [1:1] ("X"<0:2>) -> ("Y .S2-6"<0:2>);' \
    'b3 : BUF [1:1] ("DATO") -> ("P .S");' 'b4 : BUF [1:1] ("DAT0 .S1-4") -> ("Q .S2-6");' 'FOR I = 1 TO 0 DO END;'
said 'all kinds' "$two" 'scald: 5 notes: scald notes'
cases='CASE "S"=0;
CASE "S"=1;
'
answers verify "$both"
said 'each case once'
unset cases
answers verify 'c : SETUP_HOLD_CHK {SETUP=60} ("CK .P2-3", "D .S2-4");' 'FOR I = 1 TO 0 DO END;'
said 'a note beside a fault' "$note"
answers verify 'l : BUF [1:1] ("L") -> ("L");' 'b : BUF [1:1] ("D .S1-4"<0:1>) -> ("E"<0:1>);'
said 'kinds that are not counted'
for word in format upgrade margins chains slack explain notes; do
    answers "$word" "$both" 'FOR I = 1 TO 0 DO END;'
    said "of $word"
done
answers verify 'b : BUF [2:1] ("A") -> ("B");' 'FOR I = 1 TO 0 DO END;'
! grep -q 'scald notes' "$work/said" || failure 'a refused text: notes'
answers verify 'a : BUF [1:1] (ZERO) -> ("B");' 'b : BUF [1:1] (ONE) -> ("B");' 'FOR I = 1 TO 0 DO END;'
! grep -q 'scald notes' "$work/said" || failure 'a text that is refused once it is expanded: notes'
answers verify "$driven" 'b2 : BUF [1:1] ("X"<0:1>) -> ("Y .S2-6"<0:1>);' 'FOR I = 1 TO 0 DO END;'
said 'a text that settles' "$note"
"$program" verify rounds=1 <"$work/text" >"$work/out" 2>"$work/said"
[ $? -eq 3 ] || failure 'rounds=1: another status'
! grep -q 'scald notes' "$work/said" || failure 'a text that does not settle: notes'
ended
