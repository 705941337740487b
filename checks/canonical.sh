#!/bin/sh
# Small texts, each with the canonical text of what it draws, one for each way to write a part of a drawing: what
# `format` answers, and that it answers the canonical text with that text itself.
# Usage: checks/canonical.sh [PROGRAM]. If none is named and none is built it says so and ends with 0.
. "$(dirname -- "$0")/common.sh"
begin "${1-}"

# formats NAME TEXT: the text's canonical text is the one in $work/want
formats() {
    trying "$1"
    printf '%s' "$2" | "$program" format >"$work/out" 2>/dev/null
    status=$?
    if [ "$status" -ne 0 ] || ! cmp -s "$work/out" "$work/want"; then
        failure "$1: status $status, and this canonical text:"
        sed 's/^/    /' "$work/out"
    elif ! "$program" format <"$work/want" | cmp -s - "$work/want"; then
        failure "$1: its canonical text has another one"
    fi
}

# the version of the language in which drawn and statement write
version=1

# drawn NAME TEXT LINE ..: the lines of a text after a header of two statements
drawn() {
    name=$1
    text=$2
    shift 2
    {
        printf 'SCALD %s;\nCLOCK 8 x 50;\nWIRE 0:0;\nPSKEW 0:0;\nCSKEW 0:0;\n' "$version"
        printf '%s\n' "$@"
    } >"$work/want"
    formats "$name" "SCALD $version;CLOCK 8 x 50;$text"
}

# statement NAME TEXT LINE ..: the lines of a statement in a drawing, without the two spaces that begin each
statement() {
    name=$1
    text=$2
    shift 2
    {
        printf 'SCALD %s;\nCLOCK 8 x 50;\nWIRE 0:0;\nPSKEW 0:0;\nCSKEW 0:0;\nDRAWING D;\n' "$version"
        printf '  %s\n' "$@"
        printf 'END;\n'
    } >"$work/want"
    formats "$name" "SCALD $version;CLOCK 8 x 50;DRAWING D;${text}END;"
}

# --- expressions
statement 'a number' 'WIRE"W"0:7;' 'WIRE "W" 0:7;'
statement 'zeros before a number' 'WIRE"W"007:0010;' 'WIRE "W" 7:10;'
statement 'a parameter' 'WIRE"W"A:B_2;' 'WIRE "W" A:B_2;'
statement 'a minus' 'WIRE"W"-A:- 1;' 'WIRE "W" -A:-1;'
statement 'parentheses' 'WIRE"W"(1):2*(A+3);' 'WIRE "W" 1:2 * (A + 3);'
statement 'products' 'WIRE"W"A*B/C:1;' 'WIRE "W" A * B / C:1;'
statement 'sums' 'WIRE"W"A-B+C:1;' 'WIRE "W" A - B + C:1;'
statement 'sums inside' 'WIRE"W"(1+2)*3-(-(4)):-(A+1);' 'WIRE "W" (1 + 2) * 3 - -4:-(A + 1);'
statement 'products inside' 'WIRE"W"A/(B*2):-(A*B);' 'WIRE "W" A / (B * 2):-(A * B);'
statement 'a minus of a minus' 'WIRE"W"- -A:1;' 'WIRE "W" -(-A):1;'
statement 'comparisons inside' 'IF (A=1)=(B<2) THEN END;' 'IF (A = 1) = (B < 2) THEN' 'END;'
statement 'a comparison as a bound' 'WIRE"W"(A=1):1;' 'WIRE "W" (A = 1):1;'
statement 'equal' 'IF A=1 THEN END;' 'IF A = 1 THEN' 'END;'
statement 'not equal' 'IF A!=1 THEN END;' 'IF A != 1 THEN' 'END;'
statement 'less' 'IF A<1 THEN END;' 'IF A < 1 THEN' 'END;'
statement 'at most' 'IF A< =1 THEN END;' 'IF A <= 1 THEN' 'END;'
statement 'greater' 'IF A>1 THEN END;' 'IF A > 1 THEN' 'END;'
statement 'at least' 'IF A>=1 THEN END;' 'IF A >= 1 THEN' 'END;'

# --- statements
statement 'one bit' 'WIRE"W"<3>0:1;' 'WIRE "W"<3> 0:1;'
statement 'a range' 'WIRE"W"<3:N-1>0:1;' 'WIRE "W"<3:N - 1> 0:1;'
statement 'a use' 'a:B();' 'a : B ();'
statement 'a delay' 'a:B[1:2]();' 'a : B [1:2] ();'
statement 'two delays' 'a:B[1:2,3:4]();' 'a : B [1:2, 3:4] ();'
statement 'expressions in two delays' 'a:B[A:B+1,-A:(A<(B))]{X=1}();' 'a : B [A:B + 1, -A:(A < B)] {X=1} ();'
statement 'a parameter of a use' 'a:B{X=1}();' 'a : B {X=1} ();'
statement 'two parameters of a use' 'a:B[0:9]{X=1,Y=X}();' 'a : B [0:9] {X=1, Y=X} ();'
statement 'a complement' 'a:B(-"X"<1>);' 'a : B (-"X"<1>);'
statement 'constants' 'a:B(ZERO,ONE);' 'a : B (ZERO, ONE);'
statement 'complements of constants' 'a:B(-ZERO,-ONE);' 'a : B (-ZERO, -ONE);'
statement 'a global name with an assertion' 'a:B("/X .S1-4");' 'a : B ("/X .S1-4");'
statement 'bits one after the other' 'a:B("X"&ONE);' 'a : B ("X" & ONE);'
statement 'a mark' 'a:B("X"!H,"Y");' 'a : B ("X" !H, "Y");'
statement 'a mark after joined bits' 'a:B("X"&-"Y"<2:0>!H);' 'a : B ("X" & -"Y"<2:0> !H);'
statement 'outputs' 'a:B()->("Y","Z");' 'a : B () -> ("Y", "Z");'
statement 'an IF within an IF' 'IF A THEN IF B THEN a:B();END;END;' 'IF A THEN' '  IF B THEN' '    a : B ();' '  END;' 'END;'
statement 'an IF of nothing' 'IF A THEN ELSE END;' 'IF A THEN' 'ELSE' 'END;'
statement 'an ELSE' 'IF A THEN a:B();ELSE b:B();END;' 'IF A THEN' '  a : B ();' 'ELSE' '  b : B ();' 'END;'

statement 'parameters without a delay' 't:T{N=(1+2)*3-(-(4))}("A")->("Z");' 't : T {N=(1 + 2) * 3 - -4} ("A") -> ("Z");'
statement 'all parts of a use' 't:T[0:1]{N=(1+2)*3-(-(4))}(-"A")->("Z");' 't : T [0:1] {N=(1 + 2) * 3 - -4} (-"A") -> ("Z");'
statement 'all parts of a use with two delays' 't:T[0:(1),002:3*(N-1)]{N=1}(-"A")->("Z");' 't : T [0:1, 2:3 * (N - 1)] {N=1} (-"A") -> ("Z");'

# --- what surrounds statements
drawn 'the shortest drawing' 'DRAWING D;END;' 'DRAWING D;' 'END;'
drawn 'a macro' 'MACRO M();END;DRAWING D;END;' 'MACRO M ();' 'END;' 'DRAWING D;' 'END;'
drawn 'parameters' 'MACRO M{A=1,B=A}();END;DRAWING D;END;' 'MACRO M {A=1, B=A} ();' 'END;' 'DRAWING D;' 'END;'
drawn 'formals' 'MACRO M("I"<0:A>,"J")->("O"<1>,"P");END;DRAWING D;END;' \
    'MACRO M ("I"<0:A>, "J") -> ("O"<1>, "P");' 'END;' 'DRAWING D;' 'END;'
drawn 'outputs alone' 'MACRO M()->("O");END;DRAWING D;END;' 'MACRO M () -> ("O");' 'END;' 'DRAWING D;' 'END;'
drawn 'two macros' 'MACRO M();a:B();END;MACRO N();a:B();END;DRAWING D;a:B();END;' \
    'MACRO M ();' '  a : B ();' 'END;' 'MACRO N ();' '  a : B ();' 'END;' 'DRAWING D;' '  a : B ();' 'END;'
drawn 'cases' 'DRAWING D;END;CASE"X"=1,"Y"<2>=0;CASE"X"=0;' \
    'DRAWING D;' 'END;' 'CASE "X"<0>=1, "Y"<2>=0;' 'CASE "X"<0>=0;'
drawn 'numbers past 32 bits' 'DRAWING D;END;CASE"X"<4294967296>=4294967296;' 'DRAWING D;' 'END;' 'CASE "X"<4294967295>=4294967295;'
printf '%s\n' 'SCALD 1;' 'CLOCK 10 x 5;' 'WIRE 1:2;' 'PSKEW 3:4;' 'CSKEW 5:6;' 'DRAWING D;' 'END;' >"$work/want"
formats 'all statements of a header' 'SCALD 1;CLOCK 10 x 5;WIRE 1:2;PSKEW 3:4;CSKEW 5:6;DRAWING D;END;'
printf '%s\n' 'SCALD 1;' 'CLOCK 8 x 50;' 'WIRE 0:0;' 'PSKEW 0:0;' 'CSKEW 0:0;' 'DRAWING T;' '  b1 : BUF [0:0] (-"A") -> ("B");' 'END;' >"$work/want"
formats 'a drawing on one line' 'SCALD 1; CLOCK 8 x 50; DRAWING T; b1:BUF[0:0](-"A")->("B"); END;'

# --- version 2, and its words in version 1
statement 'words of version 2 in version 1' 'FOR:TO{DO=CONST}("X"<FOR>);' 'FOR : TO {DO=CONST} ("X"<FOR>);'
drawn 'names of version 2 in version 1' 'MACRO FOR{TO=DO}();END;DRAWING CONST;END;' 'MACRO FOR {TO=DO} ();' 'END;' 'DRAWING CONST;' 'END;'
version=2
drawn 'a drawing of version 2' 'DRAWING D;END;' 'DRAWING D;' 'END;'
drawn 'a constant' 'CONST N=4;DRAWING D;END;' 'CONST N = 4;' 'DRAWING D;' 'END;'
drawn 'constants before macros' 'CONST A=1;CONST TO=-(A)+2*(A)-(1<A);MACRO M();END;DRAWING D;END;' \
    'CONST A = 1;' 'CONST TO = -A + 2 * A - (1 < A);' 'MACRO M ();' 'END;' 'DRAWING D;' 'END;'
drawn 'a FOR in a macro' 'MACRO M{N=1}();FOR I=1 TO N DO a:B();END;END;DRAWING D;END;' \
    'MACRO M {N=1} ();' '  FOR I = 1 TO N DO' '    a : B ();' '  END;' 'END;' 'DRAWING D;' 'END;'
drawn 'names in version 2' 'CONST CONST=1;MACRO FOR{TO=DO}();END;DRAWING CONST;END;' \
    'CONST CONST = 1;' 'MACRO FOR {TO=DO} ();' 'END;' 'DRAWING CONST;' 'END;'
statement 'a FOR' 'FOR I=1 TO N DO a:B("X"<I>);END;' 'FOR I = 1 TO N DO' '  a : B ("X"<I>);' 'END;'
statement 'a FOR of nothing' 'FOR I=(0)TO-1 DO END;' 'FOR I = 0 TO -1 DO' 'END;'
statement 'a comparison as the last value' 'FOR I=A-(B-1)TO(A=1)DO END;' 'FOR I = A - (B - 1) TO (A = 1) DO' 'END;'
statement 'a FOR within a FOR' 'FOR I=0 TO 1 DO FOR J=I TO 2*I DO a:B();END;b:B();END;' \
    'FOR I = 0 TO 1 DO' '  FOR J = I TO 2 * I DO' '    a : B ();' '  END;' '  b : B ();' 'END;'
statement 'FORs within an IF' 'IF A THEN FOR I=0 TO 1 DO END;ELSE FOR I=0 TO 1 DO IF I THEN END;END;END;' \
    'IF A THEN' '  FOR I = 0 TO 1 DO' '  END;' 'ELSE' '  FOR I = 0 TO 1 DO' '    IF I THEN' '    END;' '  END;' 'END;'
statement 'a use with the label FOR' 'FOR:BUF();' 'FOR : BUF ();'
statement 'words of a FOR as names' 'FOR FOR=DO TO DO DO FOR:TO{CONST=FOR}();END;FOR TO=TO TO TO DO END;' \
    'FOR FOR = DO TO DO DO' '  FOR : TO {CONST=FOR} ();' 'END;' 'FOR TO = TO TO TO DO' 'END;'
awk 'BEGIN {
    print "SCALD 2;\nCLOCK 8 x 50;\nWIRE 0:0;\nPSKEW 0:0;\nCSKEW 0:0;\nDRAWING D;"
    for (i = 0; i < 64; i++) { margin = margin "  "; print margin "FOR I = 0 TO 0 DO" }
    print margin "  FOR : BUF ();"
    for (; i > 0; i--) print substr(margin, 1, 2 * i) "END;"
    print "END;"
}' >"$work/want"
formats 'the label FOR in 64 FORs' \
    "SCALD 2;CLOCK 8 x 50;DRAWING D;$(many 64 'FOR I=0 TO 0 DO ')FOR:BUF();$(many 64 'END;')END;"
printf '%s\n' 'SCALD 2;' 'CLOCK 8 x 50;' 'WIRE 0:0;' 'PSKEW 0:0;' 'CSKEW 0:0;' 'DRAWING D;' 'END;' >"$work/want"
formats 'zeros before a version' 'SCALD 002;CLOCK 8 x 50;DRAWING D;END;'

ended
