#!/bin/sh
# What the built program answers to the same lines in version 1 and in version 2 of the language, side by side, worked
# out by hand: the order of selects, constants and FOR; and that the upgraded text of a drawing has the same circuit.
# Usage: checks/versions.sh [PROGRAM]. If none is named and none is built it says so and ends with 0.
. "$(dirname -- "$0")/common.sh"
begin "${1-}"

# A text in this version: a period of 8 units of 50 ticks, and the lines from line 3 on; if none of them begins a
# drawing, they are those of one.
text() {
    printf 'SCALD %s;\nCLOCK 8 x 50;\n' "$1"
    if grep -qxF 'DRAWING ROW;' "$work/lines"; then
        cat "$work/lines"
    else
        echo 'DRAWING ROW;'
        cat "$work/lines"
        echo 'END;'
    fi
}

# answered NAME VERSION: the answer of `verify` has the lines of $work/want, in this order
answered() {
    text "$2" | "$program" verify >"$work/out" 2>/dev/null
    trying "$1, version $2"
    awk 'BEGIN { at = 0 } NR == FNR { want[count++] = $0; next } at < count && $0 == want[at] { at++ } END { exit (at < count) }' \
        "$work/want" "$work/out" || failure "$1, version $2: a line is missing"
}

# sides NAME LINE .. -- WANT .. -- WANT ..: what the lines give in version 1, and what in version 2
sides() {
    name=$1
    shift
    : >"$work/lines"
    while [ "$1" != -- ]; do
        printf '%s\n' "$1" >>"$work/lines"
        shift
    done
    shift
    for version in 1 2; do
        : >"$work/want"
        while [ $# -gt 0 ] && [ "$1" != -- ]; do
            printf '%s\n' "$1" >>"$work/want"
            shift
        done
        if [ $# -gt 0 ]; then shift; fi
        answered "$name" "$version"
    done
}

clock='WAVE Y<0> SKEW 0 0:100 R:1 1:49 F:1 0:249'
one='WAVE Y<0> SKEW 0 1:400'

# --- selects: the first is the most significant in version 1, and the least in version 2
sides 'a select of MUX2' 'm : MUX2 [0:0] (ONE, ZERO, "CK .P2-3") -> ("Y");' -- "$clock" -- "$clock"
sides 'selects of MUX4' 'm : MUX4 [0:0] (ONE, ZERO, ZERO, ONE, "CK .P2-3", ZERO) -> ("Y");' -- "$clock" -- "$one"
sides 'selects of MUX8' \
    'm : MUX8 [0:0] (ONE, ZERO, ZERO, ZERO, ONE, ZERO, ZERO, "CK .P2-3", ZERO, ZERO, ZERO) -> ("Y");' -- "$clock" -- "$one"
# 110 is 6, or 3
sides 'all selects of MUX8' \
    'm : MUX8 [0:0] (ONE, ONE, ZERO, ZERO, ZERO, ZERO, ONE, ZERO, ZERO, "CK .P2-3", ZERO) -> ("Y");' -- "$clock" -- "$one"
sides 'named selects in cases' 'DRAWING ROW;' 'm : MUX4 [0:0] ("S1", "S0", ZERO, ONE, "CK .P2-3", ZERO) -> ("Y");' 'END;' \
    'CASE "S1"=1, "S0"=0;' 'CASE "S1"=0, "S0"=1;' -- \
    'CASE 1 BASE 1 ROUNDS 1 T 3' "$clock" 'CASE 2 BASE 1 ROUNDS 1 T 3' "$one" -- \
    'CASE 1 BASE 1 ROUNDS 1 T 3' "$one" 'CASE 2 BASE 1 ROUNDS 1 T 3' "$clock"
# a wrong number of connections is refused as before
sides 'a select too few' 'm : MUX4 [0:0] (ONE, ZERO, ZERO, ZERO, ZERO) -> ("Y");' -- \
    'REFUSED 13 PinCount 4:1' -- 'REFUSED 13 PinCount 4:1'
# the connections are looked at in the order of the text: the first that is too wide, whichever pin it is
sides 'refused at the first connection' 'm : MUX4 [0:0] ("A"<0:256>, "B .P2-3" & "B .P3-4", ZERO, ZERO, ZERO, ZERO) -> ("Y");' -- \
    'REFUSED 11 BadRange 4:1' -- 'REFUSED 11 BadRange 4:1'

# --- words: FOR, TO, DO and CONST are words like others
sides 'a use with the label FOR' 'FOR : BUF [0:0] ("A") -> ("Y");' -- 'NETS 2 INSTANCES 1 CHECKS 0' -- \
    'NETS 2 INSTANCES 1 CHECKS 0'
sides 'a label CONST' 'CONST : BUF [0:0] ("A") -> ("Y");' -- 'NETS 2 INSTANCES 1 CHECKS 0' -- 'NETS 2 INSTANCES 1 CHECKS 0'

# --- constants
sides 'a constant' 'CONST N = 4;' 'DRAWING ROW;' 'b : BUF [0:0] ("A") -> ("X"<N>);' 'END;' -- 'REFUSED 3 Syntax 3:1' -- \
    'SCALD 2 PERIOD 400' 'WAVE X<4> SKEW 0 S:400'
sides 'a constant from constants' 'CONST N = 2;' 'CONST M = N * N + 1;' 'DRAWING ROW;' 'b : BUF [0:0] ("A") -> ("X"<M>);' \
    'END;' -- 'REFUSED 3 Syntax 3:1' -- 'WAVE X<5> SKEW 0 S:400'
sides 'a constant that names a later one' 'CONST N = 1;' 'CONST M = K;' 'CONST K = 1;' 'DRAWING ROW;' 'END;' -- \
    'REFUSED 3 Syntax 3:1' -- 'REFUSED 22 UnknownName 4:1'
sides 'a constant that names itself' 'CONST N = N;' 'DRAWING ROW;' 'END;' -- 'REFUSED 3 Syntax 3:1' -- \
    'REFUSED 22 UnknownName 3:1'
sides 'constants before any statement' 'CONST N = 1 / 0;' 'DRAWING ROW;' 'b : BUFF ("A");' 'END;' -- \
    'REFUSED 3 Syntax 3:1' -- 'REFUSED 21 ZeroDivisor 3:1'
sides 'a constant past 64 bits' 'CONST N = 9223372036854775807 + 1;' 'DRAWING ROW;' 'END;' -- 'REFUSED 3 Syntax 3:1' -- \
    'REFUSED 10 Overflow 3:1'
sides 'a constant in a default and in a formal' 'CONST N = 3;' 'MACRO M {K=N-1} ("A"<0:N-1>, "B"<K>);' 'END;' 'DRAWING ROW;' \
    'u : M ("X"<0:2>, "Y");' 'END;' -- 'REFUSED 3 Syntax 3:1' -- 'NETS 4 INSTANCES 0 CHECKS 0'
sides 'a constant in a macro' 'CONST N = 3;' 'MACRO M ();' 'b : BUF [0:0] ("A") -> ("X"<N>);' 'END;' 'DRAWING ROW;' 'u : M ();' \
    'END;' -- 'REFUSED 3 Syntax 3:1' -- 'WAVE u/X<3> SKEW 0 S:400'
sides 'a constant after a macro' 'MACRO M ();' 'END;' 'CONST N = 3;' 'DRAWING ROW;' 'END;' -- 'REFUSED 3 Syntax 5:1' -- \
    'REFUSED 3 Syntax 5:1'

# --- FOR
# loops NAME LINE WANT ..: a line that begins with FOR, which is none of version 1, and what it gives in version 2
loops() {
    loop_name=$1
    line=$2
    shift 2
    sides "$loop_name" "$line" -- 'REFUSED 3 Syntax 4:5' -- "$@"
}

# a pulse of 50 ticks, held against 51
short='c : MIN_PULSE_CHK {HIGH=51} ("CK .P2-3");'

loops 'each value' 'FOR I = 1 TO 4 DO b : BUF [1:2] ("D"<I-1>) -> ("D"<I>); END;' 'SCALD 2 PERIOD 400' \
    'NETS 5 INSTANCES 4 CHECKS 0' 'STABLE D<0>' 'CASE 0 BASE 4 ROUNDS 0 T 15' 'CLEAN'
loops 'the value in an expression' \
    'FOR I = 0 TO 1 DO c : SETUP_HOLD_CHK {SETUP=I, HOLD=10} ("CK .P2-3", "D .S2-4"<I>); END;' \
    'FAULT SETUP c#1<0> EDGE 100 SLOT 100 VALUE C' 'FAULTS 1'
loops 'one value' "FOR I = 3 TO 3 DO $short END;" 'FAULT WIDTH c#3<0> HIGH FROM 100 WIDTH 50' 'FAULTS 1'
loops 'no value' "FOR I = 1 TO 0 DO $short END;" 'NETS 0 INSTANCES 0 CHECKS 0' 'CLEAN'
loops 'nothing of a body without values' 'FOR I = 1 TO 0 DO b : BUFF ("A"); END;' 'CLEAN'
loops 'values below 0' "FOR I = -1 TO 0 DO $short END;" 'FAULT WIDTH c#-1<0> HIGH FROM 100 WIDTH 50' \
    'FAULT WIDTH c#0<0> HIGH FROM 100 WIDTH 50' 'FAULTS 2'
loops 'one in another' "FOR I = 1 TO 2 DO FOR J = 5 TO I + 4 DO $short END; END;" \
    'FAULT WIDTH c#1#5<0> HIGH FROM 100 WIDTH 50' 'FAULT WIDTH c#2#5<0> HIGH FROM 100 WIDTH 50' \
    'FAULT WIDTH c#2#6<0> HIGH FROM 100 WIDTH 50' 'FAULTS 3'
loops 'the ends are those outside' "FOR I = 0 TO 1 DO FOR I = I TO I + 1 DO $short END; END;" \
    'FAULT WIDTH c#0#0<0> HIGH FROM 100 WIDTH 50' 'FAULT WIDTH c#0#1<0> HIGH FROM 100 WIDTH 50' \
    'FAULT WIDTH c#1#1<0> HIGH FROM 100 WIDTH 50' 'FAULT WIDTH c#1#2<0> HIGH FROM 100 WIDTH 50' 'FAULTS 4'
loops 'over an IF' "FOR I = 0 TO 2 DO IF I = 1 THEN $short END; END;" 'FAULT WIDTH c#1<0> HIGH FROM 100 WIDTH 50' 'FAULTS 1'
loops 'no scope of nets' 'FOR I = 0 TO 1 DO b : BUF [0:0] ("A") -> ("X"<I>); END;' 'NETS 3 INSTANCES 2 CHECKS 0' \
    'STABLE A<0>' 'WAVE X<0> SKEW 0 S:400' 'WAVE X<1> SKEW 0 S:400'
loops 'the ends are refused at FOR' 'FOR I = 0 TO 1 / 0 DO END;' 'REFUSED 21 ZeroDivisor 4:1'
loops 'the first before the last' 'FOR I = J TO 1 / 0 DO END;' 'REFUSED 22 UnknownName 4:1'
loops 'its own variable in an end' 'FOR I = 0 TO I DO END;' 'REFUSED 22 UnknownName 4:1'
loops 'a variable after its FOR' 'FOR I = 0 TO 0 DO END; IF I THEN END;' 'REFUSED 22 UnknownName 4:24'
# each value counts by itself, and the FOR too: 262144 in all may be
loops 'as many values as may be' 'FOR I = 1 TO 262143 DO END;' 'NETS 0 INSTANCES 0 CHECKS 0' 'CLEAN'
loops 'one value too many' 'FOR I = 1 TO 262144 DO END;' 'REFUSED 16 TooMany 4:1'
loops 'values without end' 'FOR I = -9223372036854775807 TO 9223372036854775807 DO END;' 'REFUSED 16 TooMany 4:1'
loops 'the last number of all' "FOR I = 9223372036854775806 TO 9223372036854775807 DO $short END;" \
    'FAULT WIDTH c#9223372036854775806<0> HIGH FROM 100 WIDTH 50' \
    'FAULT WIDTH c#9223372036854775807<0> HIGH FROM 100 WIDTH 50' 'FAULTS 2'
# value by value, each with its count and then its body: 131072 statements and as many values, and the FOR
loops 'a value, then its body' 'FOR I = 1 TO 131072 DO WIRE "A" 0:0; END;' 'REFUSED 16 TooMany 4:24'
loops 'two drivers' 'FOR I = 0 TO 1 DO b : BUF [0:0] ("A") -> ("X"); END;' 'REFUSED 17 TwoDrivers 4:19'

sides 'in a macro, and over its uses' 'MACRO M {N=1} ("A");' \
    'FOR I = 0 TO N DO IF I = N THEN c : MIN_PULSE_CHK {HIGH=51} ("A"); END; END;' 'END;' 'DRAWING ROW;' \
    'FOR I = 7 TO 8 DO u : M {N=I-6} ("CK .P2-3"); END;' 'END;' -- 'REFUSED 3 Syntax 4:5' -- \
    'FAULT WIDTH u#7/c#1<0> HIGH FROM 100 WIDTH 50' 'FAULT WIDTH u#8/c#2<0> HIGH FROM 100 WIDTH 50' 'FAULTS 2'
sides 'nets of macros in turns' 'MACRO M ();' 'b : BUF [0:0] ("A") -> ("X");' 'END;' 'DRAWING ROW;' \
    'FOR I = 0 TO 1 DO u : M (); END;' 'END;' -- 'REFUSED 3 Syntax 7:5' -- 'STABLE u#0/A<0>' 'STABLE u#1/A<0>' \
    'WAVE u#0/X<0> SKEW 0 S:400' 'WAVE u#1/X<0> SKEW 0 S:400'
# the innermost of a variable, a parameter and a constant counts
sides 'hidden names' 'CONST N = 1;' 'MACRO M {N=2} ();' 'b : BUF [0:0] ("A") -> ("X"<N>);' \
    'FOR N = 3 TO 3 DO b3 : BUF [0:0] ("A") -> ("X"<N>); END;' 'b4 : BUF [0:0] ("A") -> ("Z"<N>);' 'END;' 'DRAWING ROW;' \
    'b : BUF [0:0] ("A") -> ("X"<N>);' 'u : M ();' 'FOR N = 7 TO 7 DO b2 : BUF [0:0] ("A") -> ("X"<N>); END;' 'END;' -- \
    'REFUSED 3 Syntax 3:1' -- 'WAVE X<1> SKEW 0 S:400' 'WAVE X<7> SKEW 0 S:400' 'WAVE u/X<2> SKEW 0 S:400' \
    'WAVE u/X<3> SKEW 0 S:400' 'WAVE u/Z<2> SKEW 0 S:400'
# a variable is none of a macro that is used in its turns
sides 'a variable around a use' 'MACRO M ();' 'b : BUF [0:0] ("A") -> ("X"<I>);' 'END;' 'DRAWING ROW;' \
    'FOR I = 0 TO 0 DO u : M (); END;' 'END;' -- 'REFUSED 3 Syntax 7:5' -- 'REFUSED 22 UnknownName 4:1'

# --- upgrade

# same_report NAME: the report on $work/new is that on $work/old but for the version, if that one is not refused
same_report() {
    "$program" verify <"$work/old" >"$work/out" 2>/dev/null
    status=$?
    sed '1s/^SCALD 1 /SCALD 2 /' "$work/out" >"$work/want"
    "$program" verify <"$work/new" >"$work/out" 2>/dev/null
    again=$?
    [ "$status" -eq "$again" ] || failure "$1: status $again in place of $status"
    [ "$status" -ge 2 ] || cmp -s "$work/out" "$work/want" || failure "$1: another report"
}

# upgrades NAME LINE .. -- WANT ..: the upgraded text of these lines in version 1 has the lines, is its own upgraded text,
# and has a report that differs in the version alone
upgrades() {
    name=$1
    shift
    : >"$work/lines"
    : >"$work/want"
    while [ "$1" != -- ]; do
        printf '%s\n' "$1" >>"$work/lines"
        shift
    done
    shift
    printf '%s\n' "$@" >"$work/want"
    trying "$name"
    text 1 >"$work/old"
    "$program" upgrade <"$work/old" >"$work/new" || failure "$name: no upgraded text"
    while IFS= read -r line; do
        grep -qxF -- "$line" "$work/new" || failure "$name: not $line"
    done <"$work/want"
    "$program" upgrade <"$work/new" | cmp -s - "$work/new" || failure "$name: upgraded again it is another text"
    same_report "$name"
}

upgrades 'selects of MUX4' 'm:MUX4[1:2]("S1","S0","A","B","C","D")->("Y");' -- 'SCALD 2;' \
    '  m : MUX4 [1:2] ("S0", "S1", "A", "B", "C", "D") -> ("Y");'
upgrades 'selects of MUX8' 'm : MUX8 [0:0] ("S2", "S1", "S0", "A", "B", "C", "D", "E", "F", "G", "H") -> ("Y");' -- \
    '  m : MUX8 [0:0] ("S0", "S1", "S2", "A", "B", "C", "D", "E", "F", "G", "H") -> ("Y");'
upgrades 'MUX2 as it is' 'm : MUX2 [0:0] ("S", "A", "B") -> ("Y");' -- '  m : MUX2 [0:0] ("S", "A", "B") -> ("Y");'
upgrades 'in macros and IFs' 'MACRO M ("S1", "S0") -> ("Y");' 'IF 1 THEN' 'ELSE' \
    'm : MUX4 [0:0] ("S1", "S0", ZERO, ONE, ZERO, ONE) -> ("Y");' 'END;' 'IF 1 THEN' \
    'm2 : MUX4 [0:0] ("S1", -"S0", ZERO, ONE, ZERO, ONE) -> ("Y");' 'END;' 'END;' 'DRAWING ROW;' \
    'u : M ("CK .P2-3", "D .S1-4") -> ("Y");' 'END;' -- \
    '    m : MUX4 [0:0] ("S0", "S1", ZERO, ONE, ZERO, ONE) -> ("Y");' \
    '    m2 : MUX4 [0:0] (-"S0", "S1", ZERO, ONE, ZERO, ONE) -> ("Y");'
# a use with another number of connections is refused as before, and is not turned
upgrades 'another number of connections' 'm : MUX4 [0:0] ("S1", "S0", "A", "B", "C") -> ("Y");' -- \
    '  m : MUX4 [0:0] ("S1", "S0", "A", "B", "C") -> ("Y");'
# a drawing of version 2 has its selects in order
: >"$work/lines"
printf '%s\n' 'm : MUX4 [1:2] ("S0", "S1", "A", "B", "C", "D") -> ("Y");' >"$work/lines"
trying 'upgraded from version 2'
text 2 | "$program" upgrade >"$work/new"
text 2 | "$program" format | cmp -s - "$work/new" || failure 'upgraded from version 2: not its canonical text'

# each example says the same, but for the version
for example in "$top"/examples/*.scald; do
    trying "$example"
    cp "$example" "$work/old"
    "$program" upgrade <"$work/old" >"$work/new" || failure "$example: no upgraded text"
    same_report "$example"
done

ended
