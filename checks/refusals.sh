#!/bin/sh
# Every refusal of docs/LANGUAGE.md with a small text that gets it: what `verify` answers, that `format` and `upgrade`
# answer the same if the refusal comes before the expansion, and else print the text, and what standard error says.
# Usage: checks/refusals.sh [PROGRAM]. If none is named and none is built it says so and ends with 0.
. "$(dirname -- "$0")/common.sh"
begin "${1-}"

# answers WORD STATUS WANT: the program's answer to $work/text, and in $work/said what standard error says: nothing but
# printable bytes, so no colours, and with status 0 at most how many nets nothing determines and how many notes there are
answers() {
    "$program" "$1" <"$work/text" >"$work/out" 2>"$work/said"
    status=$?
    ! LC_ALL=C grep -q '[^ -~]' "$work/said" || failure "$1: bytes that are not printable on standard error"
    [ "$2" -ne 0 ] || ! grep -Eqv ' neither a driver nor an assertion, | notes?: scald notes$' "$work/said" ||
        failure "$1: status 0, and this is said: $(head -n 1 "$work/said")"
    if [ "$status" -ne "$2" ] || { [ -n "$3" ] && ! printf '%s\n' "$3" | cmp -s - "$work/out"; }; then
        failure "$1: status $status in place of $2, '$(head -n 1 "$work/out")' in place of '$3':"
        head -c 400 "$work/text" | sed 's/^/    /'
    fi
}

# sentence KIND: what is said of each refusal of this kind
sentence() {
    case $1 in
    BadByte) echo 'a byte that is neither printable ASCII nor a tab nor the end of a line' ;;
    BadToken) echo 'no word, number, name or symbol stands here' ;;
    Syntax) echo 'no drawing continues like this' ;;
    BadHeader) echo 'a number of the header is out of its bounds' ;;
    DoubleName) echo 'this name is already taken' ;;
    UnknownKind) echo 'there is no such kind and no such macro' ;;
    BadName) echo 'this is not how a signal is named' ;;
    AssertionClash) echo 'a signal has another assertion here than before, or a formal has one' ;;
    BadParameter) echo 'a parameter is unknown, or is given twice' ;;
    Overflow) echo 'a value does not fit 64 bits' ;;
    BadRange) echo "a bit's number is not 0 to 65535 or not the formal's, or a range has more than 256 bits" ;;
    Width) echo 'two widths differ here, or one is more than 256 bits' ;;
    PinCount) echo 'too many connections, or too few, or a mark !H where none may be' ;;
    Bounds) echo 'a delay or a limit is out of its bounds, or is missing, or may not be here' ;;
    TooDeep) echo 'more than 64 are nested here' ;;
    TooMany) echo 'this is one more than a drawing may have' ;;
    TwoDrivers) echo 'this output is a constant, or is driven before' ;;
    ZeroLoop) echo 'a loop whose least delay is 0 leads here' ;;
    CaseNet) echo 'a case may not set this net so' ;;
    EdgesOverlap) echo 'two edges of this clock may come in one slot' ;;
    ZeroDivisor) echo 'a division by zero' ;;
    UnknownName) echo 'an expression has a name that means nothing here' ;;
    esac
}

# marked WANT: standard error says the place and a sentence, and then has the line of the text with a mark under the
# place. Of what stands past column 72 the mark alone is looked at.
marked() {
    refusal=${1#* }
    LC_ALL=C awk -v place="${1##* }" -v sentence="$(sentence "${refusal%% *}")" '
        function blanks(count) { return sprintf("%" count "s", "") }
        FILENAME == ARGV[1] { text[FNR] = $0; next }
        { said[FNR] = $0 }
        END {
            split(place, at, ":")
            line = text[at[1]]
            gsub(/[\t\r]/, " ", line)
            gsub(/[^ -~]/, "?", line)
            before = at[2] > 72 ? 39 : at[2] - 1
            exit !(said[1] == "scald: " place ": " sentence &&
                (at[2] > 72 || said[2] == "    " substr(line, 1, 100)) &&
                said[3] == "    " blanks(before) "^")
        }' "$work/text" "$work/said" || {
        failure "$1: this is said:"
        head -c 1000 "$work/said"
    }
}

# refused WANT: the text on standard input is refused so by all forms of words that read
refused() {
    cat >"$work/text"
    trying "$1"
    for word in upgrade format verify; do
        answers "$word" 2 "REFUSED $1"
        marked "$1"
    done
}

# unexpanded WANT: the text on standard input is refused so by `verify`, and the others print it
unexpanded() {
    cat >"$work/text"
    trying "$1"
    answers upgrade 0 ''
    answers format 0 ''
    answers verify 2 "REFUSED $1"
    marked "$1"
}

# helps LINE ..: what is said of the last text after the mark is these lines, each four columns to the right
helps() {
    trying "help: $1"
    tail -n +4 "$work/said" >"$work/help"
    printf '    %s\n' "$@" | cmp -s - "$work/help" || {
        failure "this is said in place of '$1':"
        cat "$work/help"
    }
}

# text, early, second WANT LINE ..: refused before the expansion, a text of these lines, a drawing of these lines, or a
# text of version 2 that has them from line 3 on
text() { want=$1; shift; printf '%s\n' "$@" | refused "$want"; }
early() { want=$1; shift; drawing_of "$@" | refused "$want"; }
second() { want=$1; shift; printf '%s\n' 'SCALD 2;' 'CLOCK 8 x 50;' "$@" | refused "$want"; }

# drawing, expanded WANT LINE ..: the same, refused by the expansion or for its circuit
drawing() { want=$1; shift; drawing_of "$@" | unexpanded "$want"; }
expanded() { want=$1; shift; printf '%s\n' 'SCALD 2;' 'CLOCK 8 x 50;' "$@" | unexpanded "$want"; }

# macro refused|unexpanded WANT HEAD LINE ..: a macro with this head and body from line 3 on, refused where it is used,
# or before
macro() { how=$1; want=$2; shift 2; clocked "$@" | "$how" "$want"; }

# --- bytes and tokens
printf -- '-- caf\351\nSCALD 1;\n' | refused '1 BadByte 1:7'
helps 'it is byte 233'
# a byte order mark before the text, and the same bytes further on
printf '\357\273\277SCALD 1;\n' | refused '1 BadByte 1:1'
helps 'it begins a byte order mark: save the text without it'
printf ' \357\273\277SCALD 1;\n' | refused '1 BadByte 1:2'
printf 'SCALD 1;\n\001' | refused '1 BadByte 2:1'
printf 'SCALD 1;\nCLOCK 8 x 50;\nDRAWING ROW;\nb1 : BUF [0:0] ("CK' | refused '2 BadToken 4:17'
helps 'a name ends on its own line, with a second ", and has no tab in it'
early '2 BadToken 4:17' 'b1 : BUF [0:0] ("C	K") -> ("X");'
# a quote is missing further to the left: of the quotes from the place on one has no second
early '2 BadToken 4:35' 'b1 : AND [0:0] ("A<0>, "B") -> ("X");'
early '2 BadToken 4:27' 'b1 : BUF [0:0] (A") -> ("X");'
drawing_of 'b1 : BUF [0:0] ("CK' '") -> ("X");' | refused '2 BadToken 4:17'
printf 'SCALD 1;\nCLOCK 8 x 50;\nDRAWING ROW;\nb1 : BUF [0:0] ("C\rK") -> ("X");\nEND;\n' | refused '2 BadToken 4:17'
early '2 BadToken 4:1' "$(many 65 a) : BUF [0:0] (\"A\") -> (\"X\");"
helps 'a word has at most 64 letters, digits and underscores'
early '2 BadToken 4:13' 'b1 : BUF [0:9223372036854775808] ("A") -> ("X");'
helps 'a number is at most 9223372036854775807'
early '2 BadToken 4:28' 'b1 : BUF [0:0] ("A) -> ("X .S1-8");'
helps 'an assertion stands in the quotes of its name, after a space, as in "A .S1-8"'
# (a comment may have any quotes)
early '2 BadToken 4:35' 'b1 : BUF [0:0] ("A") -> ("X" !H); ? -- 5" wide'
helps 'symbols are ; : , ( ) < > [ ] { } = + - * / & ! and ->, and a comment begins with --'
early '2 BadToken 4:12' 'b1 : BUF [0.5:1] ("A") -> ("X");'
helps 'numbers are whole: a delay is so many ticks'
early '2 BadToken 4:21' 'b1 : BUF [0:0] ("A" .S1-8) -> ("X");'
second '2 BadToken 4:11' 'DRAWING ROW;' 'FOR I = 0 .. 3 DO' 'END;' 'END;'
helps 'from 0 to 3 is written 0 TO 3 in a FOR, and 0:3 in a range'
early '2 BadToken 4:17' 'b1 : BUF [0:0] (~"A") -> ("X");'
helps 'a - before a name inverts it'
early '2 BadToken 4:6' 'IF 1 || 0 THEN' 'END;'
helps 'conditions are joined by + for "or", and nets by an element of the kind OR'
early '2 BadToken 4:4' 'b1 _: BUF [0:1] ("A") -> ("X");'
helps "a word begins with a letter, and a net's name stands in double quotes"

# --- grammar
uses_deep='at most 64 uses of macros are nested, and at most 64 IFs and FORs;'
expression_deep='an expression has at most 64 operators, and 64 parentheses and minus signs open'
printf '' | refused '3 Syntax 1:1'
helps 'the end of the text cannot come first: a text begins with SCALD 2;'
text '3 Syntax 2:1' 'SCALD 1;' 'clock 8 x 50;'
helps "'clock' cannot stand here, after ';'" 'is CLOCK meant?'
text '3 Syntax 2:9' 'SCALD 1;' 'CLOCK 8 x50;'
helps "'x50' cannot stand here, after '8'"
text '3 Syntax 2:8' 'SCALD 1;' 'CLOCK 8x50ns;'
text '3 Syntax 3:1' 'SCALD 1;' 'CLOCK 8 x 50;'
text '3 Syntax 1:9' 'SCALD 1;;'
helps "';' cannot stand here, after ';'"
early '3 Syntax 4:9' 'a:B()->();'
early '3 Syntax 4:4' 'IF : BUF [0:0] ("A") -> ("X");'
helps "':' cannot stand here, after 'IF'" \
    'IF is reserved: it cannot be a label, a macro, a parameter, a constant or a drawing'
early '3 Syntax 4:4' 'if 1 THEN' 'END;'
early '3 Syntax 4:22' 'b1 : BUF [0:0] ("A") ("X");'
helps "'(' cannot stand here, after ')'" "is -> missing after ')'?"
early '3 Syntax 5:1' 'b1 : BUF [0:0] ("A") -> ("X")' 'b2 : BUF [0:0] ("X") -> ("Y");'
helps "'b2' cannot stand here, after ')'" "is ; missing after ')'?"
early '3 Syntax 5:1' 'b1 : AND [0:0] ("A"' '"B") -> ("X");'
helps "'\"B\"' cannot stand here, after '\"A\"'" 'is , or & missing between the names?'
early '3 Syntax 5:1' 'b1 : BUF [0:0] ("A"' '-> ("X");'
helps "'->' cannot stand here, after '\"A\"'" 'the ( at 4:16 is not closed before this'
early '3 Syntax 4:16' 'b1 : BUF [0:10 ("A") -> ("X");'
early '3 Syntax 5:1' 'IF 2 > 1' 'b1 : BUF [0:0] ("A") -> ("X");' 'END;'
helps "'b1' cannot stand here, after '1'" "is THEN missing after '1'?"
early '3 Syntax 4:4' 'b1 BUF [0:0] ("A") -> ("X");'
helps "'BUF' cannot stand here, after 'b1'" \
    'a label and a colon come first, as in b1 : BUF [0:5] ("A") -> ("X");'
early '3 Syntax 4:31' 'b1 : BUF [0:0] ("A") -> ("X");;'
# (with a > the statement would not go on: a parenthesis is missing further to the left)
early '3 Syntax 4:33' 'b1 : BUF [0:0] ("A") -> ("Y"<1-1)*2:3>);'
early '3 Syntax 4:36' 'b1 : BUF [0:0] ("A") -> ("Y"<(1-1*2:3>);'
early '3 Syntax 4:7' 'IF 1 == 1 THEN' 'END;'
helps "'=' cannot stand here, after '='" 'equal is written ='
# (with a < or a > in place of the : the condition would be another)
second '3 Syntax 4:6' 'DRAWING ROW;' 'IF 1 := 1 THEN' 'END;' 'END;'
# (without the : the range would be one bit)
early '3 Syntax 4:21' 'b1 : BUF [0:0] ("A"<:3>) -> ("X"<0:3>);'
helps "':' cannot stand here, after '<'"
# (with an arrow in its place, or without it, the statement would say something else)
early '3 Syntax 4:26' 'a : AND [1:2] ("CK", "D" -> "Q");'
early '3 Syntax 4:5' 'END ELSE;'
helps "'ELSE' cannot stand here, after 'END'" 'END stands alone: IF, FOR, MACRO and DRAWING end with END;'
# (two mistakes: with neither token the statement goes on)
early '3 Syntax 5:1' 'b1 : BUF [0:0] ("A") -> ("X")' 'b2 BUF [0:0] ("X") -> ("Y");'
early '3 Syntax 4:11' 'b1 : BUF [ONE:1] ("A") -> ("X");'
helps "'ONE' cannot stand here, after '['" \
    'ONE is reserved: it cannot be a label, a macro, a parameter, a constant or a drawing'
early '15 TooDeep 4:75' "b1 : BUF [$(many 65 '(')0$(many 65 ')'):0] (\"A\") -> (\"X\");"
helps "$uses_deep" "$expression_deep"
early '15 TooDeep 4:75' "b1 : BUF [$(many 33 '-(')0$(many 33 ')'):0] (\"A\") -> (\"X\");"
early '15 TooDeep 4:139' "b1 : BUF [$(many 65 '- ')0:0] (\"A\") -> (\"X\");"
early '15 TooDeep 4:140' "b1 : BUF [0$(many 65 '+1'):70] (\"A\") -> (\"X\");"
early '15 TooDeep 4:140' "b1 : BUF [0$(many 65 '-1'):70] (\"A\") -> (\"X\");"
early '3 Syntax 4:9' 'a:B[1:2,]();'
early '3 Syntax 4:10' 'a:B[1:2,3]();'
helps "']' cannot stand here, after '3'" 'a delay has a least and a greatest: is [0:3] or [3:3] meant?'
early '3 Syntax 4:10' 'a:B[1:2,3=4]();'
early '3 Syntax 4:12' 'a:B[1:2,3:4,5:6]();'
early '3 Syntax 4:5' 'a:B[,3:4]();'
early '3 Syntax 4:6' 'a:B[1,3:4]();'
early '3 Syntax 4:9' 'a:B[1:2][3:4]();'
helps "'[' cannot stand here, after ']'" 'connections stand in ( )'
early '15 TooDeep 4:82' "b1 : BUF [0:0, 0:$(many 65 '(')0$(many 65 ')')] (\"A\") -> (\"X\");"
early '15 TooDeep 4:401' "b1 : BUF [0$(many 64 '+1'):0$(many 64 '+1'), 0$(many 65 '+1'):0] (\"A\") -> (\"X\");"
early '15 TooDeep 4:641' "$(many 65 'IF 1 THEN ')b1 : BUF [0:0] (\"A\") -> (\"X\"); $(many 65 'END; ')"
helps "$uses_deep" "$expression_deep"

second '3 Syntax 7:1' 'MACRO M ("A") -> ("Z");' 'IF 1 THEN' 'b1 : BUF [0:0] ("A") -> ("Z");' 'END;' 'DRAWING ROW;' 'END;'
helps "'DRAWING' cannot stand here, after ';'" 'the MACRO at 3:1 has no END before this'
second '3 Syntax 6:1' 'MACRO M ();' 'IF 1 THEN' 'ELSE' 'DRAWING ROW;' 'END;'
second '3 Syntax 7:1' 'DRAWING ROW;' 'FOR I = 0 TO 1 DO' 'b1 : BUF [0:0] ("A"<I>) -> ("X"<I>);' 'END;'
# an IF without END takes that of the macro, also if a second IF is in it
second '3 Syntax 7:1' 'MACRO M ("A") -> ("Z");' 'IF 1 THEN' 'b1 : BUF [0:0] ("A") -> ("Z");' 'END;' 'MACRO N ();' 'END;' 'DRAWING ROW;' 'END;'
helps "'MACRO' cannot stand here, after ';'" 'the MACRO at 3:1 has no END before this'
second '3 Syntax 9:1' 'DRAWING ROW;' 'IF 1 THEN' 'b1 : BUF [0:0] ("A") -> ("X");' 'IF 0 THEN' 'END;' 'END;'
second '3 Syntax 7:1' 'DRAWING ROW;' 'IF 1 THEN' 'ELSE' 'END;' 'CASE "SEL"=1;' 'END;'
helps "'CASE' cannot stand here, after ';'" 'the DRAWING at 3:1 has no END before this' 'a CASE stands after the END of the DRAWING'
second '3 Syntax 6:1' 'DRAWING ROW;' 'b1 : BUF [0:0] ("A") -> ("X");' 'END;' 'END;'
second '3 Syntax 6:1' 'DRAWING ROW;' 'b1 : BUF [0:0] ("A") -> ("X");' 'END;' 'b2 : BUF [0:0] ("X") -> ("Y");' 'END;'

second '3 Syntax 9:1' 'DRAWING ROW;' '  FOR I = 0 TO 1 DO' '    IF I THEN' '      b1 : BUF [0:0] ("A"<I>) -> ("X"<I>);' '  END;' 'END;'
second '3 Syntax 9:1' 'DRAWING ROW;' '  FOR I = 0 TO 1 DO' '    IF I THEN' '      b1 : BUF [0:0] ("A"<I>) -> ("X"<I>);' '    END;' 'END;'
# one too many, which ends the drawing
second '3 Syntax 7:1' 'DRAWING ROW;' '  IF 1 THEN' '  END;' '  END;' 'END;'
# an END after a statement without its ; may well be that of the macro
second '3 Syntax 5:1' 'MACRO M ("A") -> ("Z");' 'b1 : BUF [0:0] ("A") -> ("Z")' 'END;' 'DRAWING ROW;' 'END;'

# --- words and symbols of other languages, and words that are nearly right
# (a label that is nearly one, where none may stand)
for word in and or 'do' end 'case'; do
    early '3 Syntax 5:1' 'b1 : BUF [0:0] ("A") -> ("X")' "$word : BUF [0:0] (\"X\") -> (\"Y\");"
done
for word in ELSIF ELSEIF elif; do
    second "3 Syntax 5:$((${#word} + 2))" 'DRAWING ROW;' 'IF 1 THEN' "$word 0 THEN" 'END;' 'END;'
done
for word in EndIf ENDFOR endmacro Next EndModule; do
    second "3 Syntax 5:$((${#word} + 1))" 'DRAWING ROW;' 'IF 1 THEN' "$word;" 'END;'
done
second '3 Syntax 4:10' 'DRAWING ROW;' 'IF 1 = 1 & 2 = 2 THEN' 'END;' 'END;'
helps "'&' cannot stand here, after '1'" \
    'conditions are joined by * for "and" and by + for "or", each in parentheses'
early '3 Syntax 4:32' 'b1 : BUF [0:0] ("A") -> ("X"); // late'
helps "'/' cannot stand here, after ';'" 'a comment begins with --'
early '3 Syntax 4:22' 'a1 : AND [0:0] ("A", !"EN") -> ("X");'
helps "'!' cannot stand here, after ','" \
    'a - before a name inverts it; a ! stands only after a connection, in the mark !H'

# signs and words of other languages: in conditions
second '3 Syntax 4:7' 'DRAWING ROW;' 'IF 1 <> 2 THEN' 'END;' 'END;'
helps "'>' cannot stand here, after '<'" 'not equal is written !='
second '3 Syntax 4:7' 'DRAWING ROW;' 'IF 1 =< 2 THEN' 'END;' 'END;'
helps "'<' cannot stand here, after '='" 'at most is written <='
second '3 Syntax 4:7' 'DRAWING ROW;' 'IF 1 => 2 THEN' 'END;' 'END;'
helps "'>' cannot stand here, after '='" 'at least is written >='
second '3 Syntax 4:4' 'DRAWING ROW;' 'IF !(1 = 2) THEN' 'END;' 'END;'
helps "'!' cannot stand here, after 'IF'"
# and elsewhere
second '3 Syntax 4:11' 'DRAWING ROW;' 'FOR I = 3 DOWNTO 0 DO' 'END;' 'END;'
helps "'DOWNTO' cannot stand here, after '3'" "is TO missing after '3'?"
# (in a range they stand for its colon)
early '3 Syntax 4:23' 'b1 : BUF [0:0] ("A"<3 downto 0>) -> ("X");'
helps "'downto' cannot stand here, after '3'"
early '3 Syntax 4:15' 'b1 : BUF [0:2**3] ("A") -> ("X");'
helps "'*' cannot stand here, after '*'"
# a - that stands elsewhere than before a name
second '3 Syntax 5:6' 'DRAWING ROW;' 'END;' 'CASE -"SEL"=1;'
helps "'-' cannot stand here, after 'CASE'"

# --- words of other languages that a statement begins with
second '3 Syntax 4:5' 'DRAWING ROW;' 'reg Q;' 'END;'
helps "'Q' cannot stand here, after 'reg'" 'a net needs no declaration: its name in double quotes is enough'
# (a WIRE has a name)
second '3 Syntax 5:1' 'DRAWING ROW;' 'BEGIN' 'b1 : BUF [0:0] ("A") -> ("X");' 'END;'
helps "'b1' cannot stand here, after 'BEGIN'" 'IF, FOR, MACRO and DRAWING have no BEGIN, and end with END;'
second '3 Syntax 4:8' 'DRAWING ROW;' 'module M;' 'END;'
helps "'M' cannot stand here, after 'module'" 'a module is a MACRO here, and the top one is the DRAWING'
second '3 Syntax 4:6' 'DRAWING ROW;' 'WHEN 1 < 2 THEN' 'END;' 'END;'
helps "'1' cannot stand here, after 'WHEN'" \
    'a condition is written IF A = 1 THEN, and a case is written CASE "A"=1;'
# a comment that begins where an arrow or a - is meant, and hides the rest of its line
early '3 Syntax 5:1' 'b1 : BUF [0:0] ("A") --> ("X");'
helps "'END' cannot stand here, after ')'" '-- begins a comment: is -> or a single - meant?'
early '3 Syntax 5:1' 'b1 : BUF [0:0] (--"A") -> ("X");'
helps "'END' cannot stand here, after '('" '-- begins a comment: is -> or a single - meant?'

# --- brackets of another kind
early '3 Syntax 4:20' 'b1 : BUF [0:0] ("A"[0]) -> ("X");'
helps "'[' cannot stand here, after '\"A\"'" \
    'a range stands in < > after the name, as in "A"<3:0>: is < meant?'
early '3 Syntax 4:10' 'WIRE "X" [3:8];'
helps "'[' cannot stand here, after '\"X\"'" 'the delay of a WIRE has no brackets, as in WIRE "A" 3:8;'
early '3 Syntax 4:11' 'b1 : BUF (0:5) ("A") -> ("X");'
helps "'0' cannot stand here, after '('" 'a delay stands in [ ], the least and the greatest, as in [20:60]'
early '3 Syntax 4:14' 'b1 : BUF [min=20, max=60] ("A") -> ("X");'
helps "'=' cannot stand here, after 'min'"
early '3 Syntax 4:20' 'w : MIN_PULSE_CHK (HIGH=70, LOW=120) ("A");'
helps "'HIGH' cannot stand here, after '('" 'parameters stand in { }, as in {N=8}'
# (a name without a value, or a value without a name)
early '3 Syntax 4:24' 'c : SETUP_HOLD_CHK {TSU, TH} ("CK", "D");'
helps "',' cannot stand here, after 'TSU'" 'a parameter has a name and a value, as in {SETUP=20, HOLD=5}'
early '3 Syntax 4:17' 'a1 : AND [1:2] ({"A", "B"}) -> ("X");'
helps "'{' cannot stand here, after '('" 'the ( at 4:16 is not closed before this'

# --- where one thing alone may stand
early '3 Syntax 4:22' 'a1 : AND [0:0] ("A" !h, "B") -> ("X");'
helps "'h' cannot stand here, after '!'" 'the mark is !H'
early '3 Syntax 4:17' 'b1 : BUF [0:0] (A) -> ("X");'
helps "'A' cannot stand here, after '('" "a net's name stands in double quotes"
early '3 Syntax 4:17' 'b1 : BUF [0:0] (VCC) -> ("X");'
helps "'VCC' cannot stand here, after '('" 'a constant bit is ZERO or ONE'
# (the DRAWING has no END before CASE, but what it lacks is its name)
second '3 Syntax 3:9' 'DRAWING CASE;' 'END;'
helps "'CASE' cannot stand here, after 'DRAWING'" \
    'CASE is reserved: it cannot be a label, a macro, a parameter, a constant or a drawing'

# --- a statement that belongs elsewhere
second '3 Syntax 5:1' 'DRAWING ROW;' 'END;' 'MACRO M ();' 'END;'
helps "'MACRO' cannot stand here, after ';'" 'a MACRO stands before the DRAWING, and in no other MACRO'
second '3 Syntax 5:1' 'DRAWING ROW;' 'END;' 'DRAWING ROW;' 'END;'
helps "'DRAWING' cannot stand here, after ';'" \
    'a text has one DRAWING, after its MACROs'
text '3 Syntax 4:1' 'SCALD 2;' 'CLOCK 8 x 50;' 'PSKEW 1:1;' 'WIRE 0:5;' 'DRAWING ROW;' 'END;'
helps "'WIRE' cannot stand here, after ';'" \
    'a WIRE without a name stands in the header, and one with a name in the body of a MACRO or of the DRAWING'
text '3 Syntax 2:1' 'SCALD 2;' 'PSKEW 1:1;' 'CLOCK 8 x 50;' 'DRAWING ROW;' 'END;'
helps "'PSKEW' cannot stand here, after ';'" \
    'a text begins with SCALD, CLOCK, WIRE, PSKEW and CSKEW, in this order; the last three may be left out'
second '3 Syntax 3:1' 'IF 1 THEN END;' 'DRAWING ROW;' 'END;'
helps "'IF' cannot stand here, after ';'"
second '3 Syntax 3:1' 'FOR I = 0 TO 1 DO END;' 'DRAWING ROW;' 'END;'
helps "'FOR' cannot stand here, after ';'"
second '3 Syntax 5:1' 'DRAWING ROW;' 'IF 1 THEN ELSE' 'ELSE END;' 'END;'
helps "'ELSE' cannot stand here, after 'ELSE'"

# --- header
text '3 Syntax 2:13' 'SCALD 2;' 'CLOCK 8 x 0;;'
text '4 BadHeader 1:1' 'SCALD 3;' 'CLOCK 8 x 50;' 'DRAWING ROW;' 'END;'
helps 'the version is 1 or 2'
text '4 BadHeader 1:1' 'SCALD 0;' 'CLOCK 8 x 50;' 'DRAWING ROW;' 'END;'
text '4 BadHeader 1:1' 'SCALD 21;' 'CLOCK 8 x 50;' 'DRAWING ROW;' 'END;'
text '4 BadHeader 2:1' 'SCALD 2;' 'CLOCK 8 x 0;' 'DRAWING ROW;' 'END;'
helps 'CLOCK u x k has u and k of at least 1, and a period of u times k ticks, from 2 to 4096' \
    '8 x 0 is 0 ticks'
text '4 BadHeader 2:1' 'SCALD 1;' 'CLOCK 8 x 0;' 'DRAWING ROW;' 'END;'
text '4 BadHeader 2:1' 'SCALD 1;' 'CLOCK 1 x 1;' 'DRAWING ROW;' 'END;'
text '4 BadHeader 2:1' 'SCALD 1;' 'CLOCK 4097 x 1;' 'DRAWING ROW;' 'END;'
text '4 BadHeader 2:1' 'SCALD 1;' 'CLOCK 1 x 4098;' 'DRAWING ROW;' 'END;'
text '4 BadHeader 2:1' 'SCALD 1;' 'CLOCK 8 x 600;' 'DRAWING ROW;' 'END;'
text '4 BadHeader 2:1' 'SCALD 1;' 'CLOCK 8 x 5000;' 'DRAWING ROW;' 'END;'
text '4 BadHeader 2:1' 'SCALD 1;' 'CLOCK 5000 x 8;' 'DRAWING ROW;' 'END;'
text '4 BadHeader 2:1' 'SCALD 1;' 'CLOCK 3 x 9223372036854775807;' 'DRAWING ROW;' 'END;'
text '4 BadHeader 3:1' 'SCALD 1;' 'CLOCK 8 x 50;' 'WIRE 2:1;' 'DRAWING ROW;' 'END;'
helps 'the least, 2, is more than the greatest, 1: is 1:2 meant?'
text '4 BadHeader 3:1' 'SCALD 1;' 'CLOCK 8 x 50;' 'WIRE 0:4096;' 'DRAWING ROW;' 'END;'
helps '4096 is more than 4095'
text '4 BadHeader 3:1' 'SCALD 1;' 'CLOCK 8 x 50;' 'PSKEW 4096:0;' 'DRAWING ROW;' 'END;'
text '4 BadHeader 3:1' 'SCALD 1;' 'CLOCK 8 x 50;' 'CSKEW 0:4096;' 'DRAWING ROW;' 'END;'
text '4 BadHeader 2:1' 'SCALD 1;' 'CLOCK 8 x 0;' 'DRAWING ROW;' 'WIRE "" 0:1;' 'END;'

# --- names
# named NAME [LINE]: the name is refused, and this is said
named() {
    early '7 BadName 4:17' "b1 : BUF [0:0] (\"$1\") -> (\"X\");"
    shift
    [ $# -eq 0 ] || helps "$@"
}
form='an assertion is .S alone, or .S, .P or .C and intervals of the units 0 to 8, as in 2-3,5-6, none of them empty;'
skew='after .P and .C there may be a skew of at most 4095 ticks, as in (2,3), and then an L'
for name in 'CK .P2-17' 'CK .P8-3' 'CK .P3-3' 'CK .P02-3' 'CK .P2-3(4096,0)' 'A .S0-2L' 'CK .P' 'CK .P2' 'CK .P2-' \
    'CK .P2-3(' 'CK .P2-3(1)' 'CK .P2-3(1,L)' 'CK .P2-3LL' 'CK .X2-3'; do
    named "$name" "$form" "$skew"
done
named 'CK .P2-9'
named 'CK .P20000-3'
named 'A .S0-2(1,1)'
named ' A' "it cannot begin with ' ': a name neither begins nor ends with a space, and has no two in a row"
named '-CK' "it cannot begin with '-': a - that inverts stands before the quote"
named 'A ' "after 'A ' the name cannot end: a name neither begins nor ends with a space, and has no two in a row"
named 'A  B' "after 'A ' there cannot be ' ': a name neither begins nor ends with a space, and has no two in a row"
named '' 'a name has a letter, a digit, _, # or $ before its assertion'
named '/'
named 'A-B' "after 'A' there cannot be '-': a - that inverts stands before the quote"
named 'A.B' "after 'A' there cannot be '.': a . stands only after a space, before the S, the P or the C of an assertion"
named 'A .SX' "after 'A .S' there cannot be 'X': it is in no assertion" "$form" "$skew"
named 'CK .P2-3(-5,5)'
named 'CK .P2-3(1,2L'
named 'CK .P2-3(1,1)X' "after 'CK .P2-3(1,1)' there cannot be 'X': it is in no assertion" "$form" "$skew"
named "$(many 65 A)" 'a name has at most 64 bytes before its assertion'
named 'g/HELD' "after 'g' there cannot be '/': a / stands only before a whole name: a net in a macro has no name outside it"
named '//A'
{
    drawing_of 'b1 : BUF [0:0] ("A") -> ("X");'
    echo 'CASE "g/HELD"=0;'
} | refused '7 BadName 6:6'
early '20 EdgesOverlap 4:17' 'b1 : BUF [0:0] ("CK .C2-3(25,25)") -> ("X");'
helps 'a skew (a,b) of a .C clock has a + b ticks, fewer than between two edges; a .P clock moves as a whole'
early '20 EdgesOverlap 4:17' 'b1 : BUF [0:0] ("CK .C2-3(400,0)") -> ("X");'
early '20 EdgesOverlap 4:17' 'b1 : BUF [0:0] ("CK .C7-1(60,60)L") -> ("X");'
text '20 EdgesOverlap 5:17' 'SCALD 1;' 'CLOCK 8 x 50;' 'CSKEW 100:0;' 'DRAWING ROW;' 'b1 : BUF [0:0] ("CK .C0-4,5-7") -> ("X");' 'END;'
macro refused '7 BadName 3:10' 'MACRO M ("/A") -> ("Z");' 'END;' 'DRAWING ROW;' 'END;'
helps 'a formal of a macro has no assertion, and no / before it'
macro refused '7 BadName 3:10' 'MACRO M ("A .S") -> ("Z");' 'END;' 'DRAWING ROW;' 'END;'
macro refused '7 BadName 3:10' 'MACRO M ("A .C2-3(25,25)") -> ("Z");' 'END;' 'DRAWING ROW;' 'END;'
early '7 BadName 4:11' 'a:B();a:B("X .P2-9");'

# --- double names
early '5 DoubleName 5:1' 'b1 : BUF [0:0] ("A") -> ("X");' 'b1 : BUF [0:0] ("B") -> ("Y");'
helps "'b1' is declared first at 4:1"
early '5 DoubleName 5:21' 'b1 : BUF [0:0] ("A") -> ("X");' 'IF 0 THEN IF 1 THEN b1 : BUF [0:0] ("B") -> ("Y"); END; END;'
macro refused '5 DoubleName 5:7' 'MACRO M ();' 'END;' 'MACRO M ();' 'END;' 'DRAWING ROW;' 'END;'
macro refused '5 DoubleName 3:7' 'MACRO BUF ();' 'END;' 'DRAWING ROW;' 'END;'
helps "'BUF' is the name of a kind"
macro refused '5 DoubleName 3:15' 'MACRO M {N=1, N=2} ();' 'END;' 'DRAWING ROW;' 'END;'
macro refused '5 DoubleName 3:19' 'MACRO M ("A") -> ("A");' 'END;' 'DRAWING ROW;' 'END;'
# a word before a colon is no label in a delay or a range, nor one before an = a parameter in a default
second '5 DoubleName 7:1' 'CONST a = 1;' 'DRAWING ROW;' 'g : BUF [a:a, a:a] ("A"<a:0>) -> ("X");' 'a : BUF [0:0] ("A") -> ("Y");' \
    'a : BUF [0:0] ("B") -> ("Z");' 'END;'
early '5 DoubleName 4:61' 'IF 1 THEN a : BUF [0:0] ("A") -> ("X"); END; IF 1 THEN ELSE a : BUF [0:0] ("B") -> ("Y"); END;'
macro refused '5 DoubleName 3:24' 'MACRO M {b=(a=1), a=1, a=2} ();' 'END;' 'DRAWING ROW;' 'END;'

# --- version 2
early '3 Syntax 4:5' 'FOR I = 0 TO 1 DO' 'END;'
helps "'I' cannot stand here, after 'FOR'" 'FOR and CONST are of version 2, in texts that begin with SCALD 2'
text '3 Syntax 3:1' 'SCALD 1;' 'CLOCK 8 x 50;' 'CONST N = 4;' 'DRAWING ROW;' 'END;'
text '3 Syntax 3:1' 'SCALD 3;' 'CLOCK 8 x 50;' 'CONST N = 4;' 'DRAWING ROW;' 'END;'
text '3 Syntax 4:5' 'SCALD 0;' 'CLOCK 8 x 50;' 'DRAWING ROW;' 'FOR I = 0 TO 1 DO' 'END;' 'END;'
text '3 Syntax 1:9' 'SCALD 3;;'
text '3 Syntax 1:1' 'CLOCK 8 x 50;'
helps "'CLOCK' cannot come first: a text begins with SCALD 2;"
second '3 Syntax 5:1' 'MACRO M ();' 'END;' 'CONST N = 4;' 'DRAWING ROW;' 'END;'
helps "'CONST' cannot stand here, after ';'" \
    'a CONST stands after the header, before the first MACRO and the DRAWING'
second '3 Syntax 4:7' 'DRAWING ROW;' 'CONST N = 4;' 'END;'
early '3 Syntax 4:7' 'CONST N = 4;'
second '3 Syntax 3:7' 'CONST IF = 4;' 'DRAWING ROW;' 'END;'
second '3 Syntax 3:9' 'CONST N : 4;' 'DRAWING ROW;' 'END;'
second '3 Syntax 3:13' 'CONST N = 4 = 4;' 'DRAWING ROW;' 'END;'
second '15 TooDeep 3:140' "CONST N = 0$(many 65 '+1');" 'DRAWING ROW;' 'END;'
second '3 Syntax 4:4' 'DRAWING ROW;' 'FOR;' 'END;'
second '3 Syntax 4:5' 'DRAWING ROW;' 'FOR IF = 0 TO 1 DO' 'END;' 'END;'
second '3 Syntax 4:7' 'DRAWING ROW;' 'FOR I : BUF [0:0] ("A") -> ("X");' 'END;'
second '3 Syntax 4:11' 'DRAWING ROW;' 'FOR : FOR = 0 TO 1 DO' 'END;' 'END;'
second '3 Syntax 4:11' 'DRAWING ROW;' 'FOR I = 0 = 1 TO 1 DO' 'END;' 'END;'
second '3 Syntax 4:11' 'DRAWING ROW;' 'FOR I = 0 1 DO' 'END;' 'END;'
# (what is missing is offered, and not what would take the place of something)
second '3 Syntax 4:11' 'DRAWING ROW;' 'FOR I = 0 N-1 DO' 'END;' 'END;'
second '3 Syntax 4:7' 'DRAWING ROW;' 'FOR I IN 0 TO 1 DO' 'END;' 'END;'
second '3 Syntax 4:11' 'DRAWING ROW;' 'FOR I = 0 UPTO 1 DO' 'END;' 'END;'
second '3 Syntax 4:16' 'DRAWING ROW;' 'FOR I = 0 TO 1 IF I THEN' 'END;' 'END;' 'END;'
second '3 Syntax 4:10' 'DRAWING ROW;' 'IF 2 > 1 DO b1 : BUF [0:0] ("A") -> ("X");' 'END;' 'END;'
second '3 Syntax 4:11' 'DRAWING ROW;' 'FOR I = 0 DO' 'END;' 'END;'
second '3 Syntax 4:16' 'DRAWING ROW;' 'FOR I = 0 TO 1 THEN' 'END;' 'END;'
second '3 Syntax 4:19' 'DRAWING ROW;' 'FOR I = 0 TO 1 DO ELSE' 'END;' 'END;'
second '15 TooDeep 4:271' 'DRAWING ROW;' "FOR I = 0$(many 64 '+1') TO 0$(many 65 '+1') DO" 'END;' 'END;'
second '15 TooDeep 4:1153' 'DRAWING ROW;' "$(many 65 'FOR I = 0 TO 0 DO ')$(many 65 'END;')" 'END;'
second '15 TooDeep 4:897' 'DRAWING ROW;' "$(many 33 'IF 1 THEN FOR I = 0 TO 0 DO ')$(many 66 'END;')" 'END;'
second '15 TooDeep 4:897' 'DRAWING ROW;' "$(many 33 'FOR I = 0 TO 0 DO IF 1 THEN ')$(many 66 'END;')" 'END;'
second '15 TooDeep 4:1153' 'DRAWING ROW;' "$(many 64 'FOR I = 0 TO 0 DO ')FOR;$(many 64 'END;')" 'END;'
second '3 Syntax 4:1159' 'DRAWING ROW;' "$(many 64 'FOR I = 0 TO 0 DO ')FOR : IF;$(many 64 'END;')" 'END;'
second '4 BadHeader 3:1' 'PSKEW 4096:0;' 'CONST N = 1;' 'CONST N = 2;' 'DRAWING ROW;' 'END;'
second '7 BadName 4:34' 'DRAWING ROW;' 'FOR I = 0 TO 1 DO a : BUF [0:0] ("CK .P2-9") -> ("X"); END;' 'END;'
second '5 DoubleName 4:7' 'CONST N = 1;' 'CONST N = 2;' 'MACRO BUF ();' 'END;' 'DRAWING ROW;' 'END;'
second '5 DoubleName 5:19' 'DRAWING ROW;' 'a : BUF [0:0] ("A") -> ("X");' 'FOR I = 0 TO 1 DO a : BUF [0:0] ("B") -> ("Y"); END;' 'END;'
second '5 DoubleName 4:47' 'DRAWING ROW;' 'FOR I = 0 TO 1 DO a : M (); FOR J = 0 TO 1 DO a : M (); END; END;' 'END;'

# --- the expansion, in the order in which one statement is looked at
macro unexpanded '16 TooMany 6:1' 'MACRO E {N=1} ();' 'IF N > 0 THEN' 'a : E {N=N-1} ();' 'b : E {N=N-1} ();' 'END;' 'END;' \
    'DRAWING ROW;' 't : E {N=20} ();' 'END;'
helps 'at most 65536 bits each of nets, elements and checkers, 1048576 pins and 262144 statements are reached' \
    "uses of 'E': 3, the first at 5:1:" 'a : E {N=N-1} ();' '^'
# (E reaches 262142 statements with N=16, so the third of the second use is one too many)
macro unexpanded '16 TooMany 5:1' 'MACRO E {N=1} ();' 'IF N > 0 THEN' 'a : E {N=N-1} ();' 'b : E {N=N-1} ();' 'END;' 'END;' \
    'DRAWING ROW;' 't : E {N=16} ();' 'u : E {N=16} ();' 'v : E {N=0} ();' 'END;'
# after COUNT: the same with so many uses before it that reach two statements each
after() {
    {
        clocked 'MACRO E {N=1} ();' 'IF N > 0 THEN' 'a : E {N=N-1} ();' 'b : E {N=N-1} ();' 'END;' 'END;' 'DRAWING ROW;'
        awk -v count="$1" 'BEGIN { for (i = 0; i < count; i++) printf "l%d : E {N=0} ();\n", i }'
        printf 't : E {N=20} ();\nEND;\n'
    } | unexpanded '16 TooMany 6:1'
}
after 63
after 64
expanded '16 TooMany 4:1' 'DRAWING ROW;' 'FOR I = 0 TO 262143 DO END;' 'END;'
drawing '6 UnknownKind 4:1' 'b1 : BUFF [0:0] ("A") -> ("X");'
helps "is BUF meant in place of 'BUFF'?"
drawing '6 UnknownKind 4:1' "g1 : NOR [0:0] (\"A\", \"B\") -> (\"X\");"
helps "'NOR' is drawn as OR with a - before its output"
drawing '6 UnknownKind 4:1' 'u1 : ADDER ("A") -> ("X");'
helps 'kinds: BUF, AND, OR, XOR, MUX2, MUX4, MUX8, CHG, REG, REG_RS, LATCH, LATCH_RS, and checkers *_CHK'
macro unexpanded '6 UnknownKind 6:1' 'MACRO ADDER ();' 'END;' 'DRAWING ROW;' 'u : ADER ();' 'END;'
# a kind or a macro with other letters, also if the word is nearly another kind, or has a meaning elsewhere
drawing '6 UnknownKind 4:1' 'm1 : mux4 [0:0] ("S"<0>, "S"<1>, "A", "B", "C", "D") -> ("X");'
macro unexpanded '6 UnknownKind 6:1' 'MACRO FF ("CK", "D") -> ("Q");' 'END;' 'DRAWING ROW;' 'flag : ff ("CK", "A") -> ("X");' 'END;'
macro unexpanded '6 UnknownKind 6:1' 'MACRO AND3 ("A") -> ("Z");' 'END;' 'DRAWING ROW;' 'u : and3 ("A") -> ("X");' 'END;'
# a macro that the word nearly is comes before what has the name elsewhere
macro unexpanded '6 UnknownKind 6:1' 'MACRO DFFR ("CK", "D") -> ("Q");' 'END;' 'DRAWING ROW;' 'u : DFF ("CK", "A") -> ("X");' 'END;'
macro unexpanded '6 UnknownKind 6:1' 'MACRO SYNC ("CK", "D") -> ("Q");' 'END;' 'DRAWING ROW;' 'u : DFF ("CK", "A") -> ("X");' 'END;'
helps "'DFF' is drawn as REG"
drawing '6 UnknownKind 4:1' 'a1 : ADN [0:0] ("A", "B") -> ("X");'
drawing '14 Bounds 4:1' 'b1 : BUF ("A") -> ("X");'
helps 'BUF takes a delay [a:b], 0 <= a <= b <= 4095, or two, [r:R, f:F], each at most 255' \
    'here it has none: it stands after the kind, as in BUF [20:60]'
drawing '14 Bounds 4:1' 'c1 : MIN_PULSE_CHK [0:0] ("A");'
helps 'MIN_PULSE_CHK takes no delay'
macro unexpanded '14 Bounds 6:1' 'MACRO M ();' 'END;' 'DRAWING ROW;' 'u : M [0:0] ();' 'END;'
helps 'a macro takes no delay'
macro unexpanded '14 Bounds 6:1' 'MACRO M ();' 'END;' 'DRAWING ROW;' 'u : M [0:0, 0:0] ();' 'END;'
for kind in CHG REG LATCH; do
    drawing '14 Bounds 4:1' "r1 : $kind [1:2, 1:2] (\"CK\", \"D\") -> (\"Q\");"
done
for kind in REG_RS LATCH_RS; do
    drawing '14 Bounds 4:1' "r1 : $kind [1:2, 1:2] (\"CK\", \"D\", \"S\", \"R\") -> (\"Q\");"
done
for kind in SETUP_HOLD_CHK SETUP_RISE_HOLD_FALL_CHK; do
    drawing '14 Bounds 4:1' "c1 : $kind [0:0, 0:0] (\"CK\", \"D\");"
done
drawing '14 Bounds 4:1' 'c1 : MIN_PULSE_CHK [0:0, 0:0] ("A");'
drawing '9 BadParameter 4:1' 'b1 : BUF [0:0] {N=1} ("A") -> ("X");'
helps "'N' is no parameter of 'BUF'" 'it takes no parameters'
drawing '9 BadParameter 4:1' 'c1 : MIN_PULSE_CHK {HIGH=1, HIGH=1} ("A");'
helps "'HIGH' is given twice"
macro unexpanded '9 BadParameter 6:1' 'MACRO M {N=1} ();' 'END;' 'DRAWING ROW;' 'u : M {P=1} ();' 'END;'
helps "'P' is no parameter of 'M'" 'its parameters are N'
macro unexpanded '9 BadParameter 6:1' 'MACRO M ("A"<0:3>) -> ("Z");' 'END;' 'DRAWING ROW;' 'u : M {K=1} ("B"<0:3>) -> ("X");' 'END;'
nine='A=1, B=1, C=1, D=1, E=1, F=1, G=1, H=1, I=1'
for given in "$nine, A=2" "$nine, K=2"; do
    macro unexpanded '9 BadParameter 6:1' "MACRO M {$nine} ();" 'END;' 'DRAWING ROW;' "u : M {$given} ();" 'END;'
done
drawing '10 Overflow 4:1' 'b1 : BUF [0:9223372036854775807+1] ("A") -> ("X");'
helps 'values are whole, from -9223372036854775808 to 9223372036854775807'
drawing '21 ZeroDivisor 4:1' 'b1 : BUF [0:1/0] ("A") -> ("X");'
helps 'what stands after a / has the value 0 here'
drawing '22 UnknownName 4:1' 'b1 : BUF [0:N] ("A") -> ("X");'
helps "'N' is no constant declared before, no parameter of the macro and no variable of a FOR around it"
drawing '22 UnknownName 4:1' 'IF N THEN END;'
drawing '22 UnknownName 4:1' 'a1 : AND [0:0] ("A" !H, ONE & "B"<0:W>) -> ("X"<0:2>);'
drawing '22 UnknownName 4:1' 'c1 : SETUP_HOLD_CHK {SETUP=1, HOLD=SETUP} ("CK", "D");'
macro unexpanded '22 UnknownName 4:1' 'MACRO M {N=1} ("A") -> ("Z");' 'b1 : BUF [N:N+K] ("A") -> ("Z");' 'END;' 'DRAWING ROW;' \
    'u : M ("A") -> ("X");' 'END;'
expanded '22 UnknownName 3:1' 'CONST N = M;' 'CONST M = 1;' 'DRAWING ROW;' 'END;'
helps "'M' is no constant declared before, no parameter of the macro and no variable of a FOR around it"
# the head of a macro: of its defaults those that the use does not give, and then its ranges
expanded '22 UnknownName 7:1' 'CONST W = 2;' 'MACRO M {N=W, D=N*5} ("A"<0:N-1>) -> ("Z");' 'END;' 'DRAWING ROW;' \
    'u : M {N=3} ("A"<0:2>) -> ("X");' 'END;'
helps 'in the head of a macro a default may name constants alone, and the range of a formal parameters too'
expanded '22 UnknownName 6:1' 'MACRO M {N=4, D=N*5} ("A"<0:K-N>) -> ("Z");' 'END;' 'DRAWING ROW;' \
    'u : M {D=3} ("A"<0:2>) -> ("X");' 'END;'
expanded '22 UnknownName 6:1' 'MACRO M {N=P} ("A") -> ("Z");' 'END;' 'DRAWING ROW;' 'u : M {N=Q} ("A") -> ("X");' 'END;'
for delay in 3:2 0:4096 0-1:0; do
    drawing '14 Bounds 4:1' "b1 : BUF [$delay] (\"A\") -> (\"X\");"
done
for delay in 3:2 0:256 256:256 0-1:0 0-1:0-1 0:4095; do
    drawing '14 Bounds 4:1' "b1 : BUF [$delay, 0:0] (\"A\") -> (\"X\");"
    drawing '14 Bounds 4:1' "b1 : BUF [0:0, $delay] (\"A\") -> (\"X\");"
done
drawing '10 Overflow 4:1' 'b1 : BUF [0:0, 9223372036854775807+1:0] ("A") -> ("X");'
drawing '21 ZeroDivisor 4:1' 'b1 : BUF [0:0, 0:1/0] ("A") -> ("X");'
drawing '14 Bounds 4:1' 'b1 : BUF [3:2] ("A") -> ("X");'
helps 'BUF takes a delay [a:b], 0 <= a <= b <= 4095, or two, [r:R, f:F], each at most 255' \
    'the least, 3, is more than the greatest, 2: is 2:3 meant?'
macro unexpanded '14 Bounds 4:1' 'MACRO M {N=1} ("A") -> ("Z");' 'b1 : BUF [N:3] ("A") -> ("Z");' 'END;' 'DRAWING ROW;' \
    'u1 : M {N=5} ("A") -> ("X");' 'END;'
macro unexpanded '14 Bounds 4:1' 'MACRO M {N=1} ("A") -> ("Z");' 'b1 : BUF [N:3] ("A") -> ("Z");' 'END;' 'DRAWING ROW;' \
    'u1 : M {N=1} ("A") -> ("X");' 'u2 : M {N=5} ("A") -> ("Y");' 'u3 : M {N=6} ("A") -> ("V");' 'END;'
macro unexpanded '14 Bounds 4:1' 'MACRO M {N=1} ("A") -> ("Z");' 'b1 : BUF [N:3] ("A") -> ("Z");' 'END;' 'DRAWING ROW;' \
    'u1 : M {N=1} ("A") -> ("X");' 'IF 1 THEN' 'u2 : M {N=5} ("A") -> ("Y");' 'ELSE' 'END;' 'WIRE "A" 0:1;' 'END;'
drawing '14 Bounds 4:1' 'b1 : BUF [0:0, 1:256] ("A") -> ("X");'
drawing '14 Bounds 4:1' 'c1 : SETUP_HOLD_CHK {SETUP=391, HOLD=10} ("CK", "D");'
helps 'SETUP and HOLD are 0 or more, and together at most the period' \
    'SETUP and HOLD together are 401, and the period has 400 ticks'
drawing '14 Bounds 4:1' 'c1 : MIN_PULSE_CHK {HIGH=401} ("K");'
helps 'HIGH and LOW are 0 or more, and each is at most the period' 'HIGH is 401, and the period has 400 ticks'
drawing '14 Bounds 4:1' 'c1 : MIN_PULSE_CHK {LOW=401} ("K");'
helps 'HIGH and LOW are 0 or more, and each is at most the period' 'LOW is 401, and the period has 400 ticks'
drawing '14 Bounds 4:1' 'WIRE "A" 2:1;'
helps 'WIRE "A" a:b has 0 <= a <= b <= 4095' 'the least, 2, is more than the greatest, 1: is 1:2 meant?'
drawing '13 PinCount 4:1' 'b1 : BUF [0:0] ("A", "B") -> ("X");'
helps 'BUF takes 1 input and 1 output; none may have the mark !H' 'here it has 2 inputs and 1 output'
drawing '13 PinCount 4:1' 'b1 : BUF [0:0] () -> ("X");'
drawing '13 PinCount 4:1' 'b1 : BUF [0:0] ("A");'
drawing '13 PinCount 4:1' 'm1 : MUX4 [0:0] ("S", "A", "B", "C", "D") -> ("X");'
drawing '13 PinCount 4:1' "a1 : AND [0:0] (\"A\"$(many 16 ', "A"')) -> (\"X\");"
drawing '13 PinCount 4:1' 'c1 : MIN_PULSE_CHK ("A") -> ("X");'
drawing '13 PinCount 4:1' 'b1 : BUF [0:0] ("A" !H) -> ("X");'
macro unexpanded '15 TooDeep 4:1' 'MACRO M ("A") -> ("Z");' 'x : M ("A") -> ("Z");' 'END;' 'DRAWING ROW;' 'u : M ("A") -> ("X");' 'END;'
helps "$uses_deep" "$expression_deep" \
    "uses of 'M': 2, the first at 4:1:" 'x : M ("A") -> ("Z");' '^'
macro unexpanded '11 BadRange 6:1' 'MACRO M {N=1} ("A"<0:N>);' 'END;' 'DRAWING ROW;' 'u : M {N=256} ("A");' 'END;'
helps 'a bit is numbered 0 to 65535, a range has at most 256 bits, and a formal has those of its head'
drawing '11 BadRange 4:1' 'b1 : BUF [0:0] ("A"<65536>) -> ("X");'
drawing '11 BadRange 4:1' 'b1 : BUF [0:0] ("A"<0-1>) -> ("X");'
drawing '11 BadRange 4:1' 'b1 : BUF [0:0] ("A"<0:256>) -> ("X");'
drawing '11 BadRange 4:1' 'WIRE "A"<65536> 0:0;'
macro unexpanded '11 BadRange 4:1' 'MACRO M ("A"<1:2>) -> ("Z");' 'b1 : BUF [0:0] ("A"<0>) -> ("Z");' 'END;' 'DRAWING ROW;' \
    'u : M ("A") -> ("X");' 'END;'
helps 'the formal "A" has the bits 1 to 2, by its head at 3:10' "uses of 'M': 1, the first at 7:1:" \
    'u : M ("A") -> ("X");' '^'
drawing '8 AssertionClash 4:1' 'a1 : AND [0:0] ("A .S0-4", "A .S0-5") -> ("X");'
helps '"A .S0-4" here, and "A .S0-5" at 4:28' 'give the assertion once, or spell it the same each time'
drawing '8 AssertionClash 4:1' 'a1 : AND [0:0] ("A .S0-2,4-6", "A .S4-6,0-2"<1>) -> ("X");'
drawing '8 AssertionClash 5:1' 'b1 : BUF [0:0] ("A .S0-4") -> ("X");' 'b2 : AND [0:0] ("B .S", "A"<1>, "A .S0-5"<2>) -> ("Y");'
# one that stands in an IF that has ended may not be read
drawing '8 AssertionClash 8:1' 'IF 0 THEN' 'b0 : BUF [0:0] ("A .S1-5") -> ("V");' 'END;' 'b1 : BUF [0:0] ("A .S1-2") -> ("X");' \
    'b2 : BUF [0:0] ("A .S1-3") -> ("Y");'
drawing '8 AssertionClash 7:1' 'IF 1 THEN' 'b0 : BUF [0:0] ("A .S1-5") -> ("V");' 'END;' 'b1 : BUF [0:0] ("A .S1-3") -> ("X");'
# a global is one net in all macros
macro unexpanded '8 AssertionClash 8:1' 'MACRO M ("A") -> ("Z");' 'r1 : REG [0:0] ("/CK .P0-4", "A") -> ("Z");' 'END;' \
    'DRAWING ROW;' 'u : M ("A") -> ("X");' 'r2 : REG [0:0] ("/CK .P0-5", "B") -> ("Y");' 'END;'
macro unexpanded '8 AssertionClash 4:1' 'MACRO M ("A") -> ("Z");' 'b1 : BUF [0:0] ("/G .S1-2") -> ("Z");' 'END;' \
    'MACRO N ("A") -> ("Z");' 'b1 : BUF [0:0] ("/G .S1-4") -> ("Z");' 'END;' 'DRAWING ROW;' 'u : N ("A") -> ("X");' \
    'v : M ("A") -> ("Y");' 'END;'
macro unexpanded '8 AssertionClash 4:1' 'MACRO M ("A") -> ("Z");' 'b1 : BUF [0:0] ("A .S") -> ("Z");' 'END;' 'DRAWING ROW;' \
    'u : M ("A") -> ("X");' 'END;'
helps 'a formal has the assertion of the net that is connected to it: give none in the macro' \
    "uses of 'M': 1, the first at 7:1:" 'u : M ("A") -> ("X");' '^'
bits='a name without a range is its bit 0 alone, and a formal without one is all of its bits'
drawing '12 Width 4:1' 'c1 : MIN_PULSE_CHK ("A"<0:255> & "B");'
helps 'bits of the connections: 257' 'each connection is as wide as the widest, or an input has one bit for all' \
    "$bits"
drawing '12 Width 4:1' 'b1 : BUF [0:0] ("A"<0:2>) -> ("X"<0:3>);'
helps 'bits of the connections: 3 -> 4' 'each connection is as wide as the widest, or an input has one bit for all' \
    "$bits"
drawing '12 Width 4:1' 'c1 : SETUP_HOLD_CHK ("CK"<0:1>, "D"<0:2>);'
drawing '12 Width 4:1' 'a1 : AND [0:0] ("A"<7:4> & ZERO, "D", "E"<0:3-1>) -> (-"X"<0:3>);'
drawing '12 Width 4:1' 'c1 : CHG [0:0] ("A"<0:255> & "B"<0:3>) -> ("Z");'
helps 'bits of the connections: 260 -> 1' \
    'the inputs of a CHG have any widths, and a connection has at most 256 bits' \
    "$bits"
macro unexpanded '12 Width 6:1' 'MACRO M ("A") -> ("Z"<0:1>);' 'END;' 'DRAWING ROW;' 'u : M ("A") -> ("X");' 'END;'
helps 'bits of the connections: 1 -> 1' 'bits of the formals: 1 -> 2' \
    'each connection is as wide as its formal; an input may have one bit for all instead' \
    "$bits"
macro unexpanded '12 Width 6:1' 'MACRO M ("A"<0:2>);' 'END;' 'DRAWING ROW;' 'u : M ("A"<0:1>);' 'END;'
macro unexpanded '12 Width 6:1' 'MACRO M {N=8} ("A"<0:N-1>, "B"<0:3>) -> ("Z");' 'END;' 'DRAWING ROW;' \
    'u : M ("A"<0:7>, "B"<0>) -> ("X"<0:7>);' 'END;'
macro unexpanded '12 Width 4:1' 'MACRO M ("A"<0:2>) -> ("Z");' 'b1 : BUF [0:0] ("A") -> ("Z");' 'END;' 'DRAWING ROW;' \
    'u : M ("A"<0:2>) -> ("X");' 'END;'

# in a macro that uses itself N is 1 at the use that is refused, and 0 in the head of what it uses
expanded '11 BadRange 4:1' 'MACRO M {N=1} ("A"<0:N-1>);' 'u : M {N=N/2} ("A"<0:N/2-1>);' 'END;' 'DRAWING ROW;' 'u1 : M {N=2} ("X"<0:1>);' 'END;'
helps 'a / rounds towards zero, so parts of a size that does not divide are not as wide as it' \
    'a bit is numbered 0 to 65535, a range has at most 256 bits, and a formal has those of its head' \
    "uses of 'M': 2, the first at 4:1:" 'u : M {N=N/2} ("A"<0:N/2-1>);' '^'

# --- two refusals in one statement: the first of the order is answered
drawing '6 UnknownKind 4:1' 'b1 : BUFF {N=1/0} ("A", "B") -> ("X");'
drawing '14 Bounds 4:1' 'b1 : BUF {N=1} ("A") -> ("X");'
drawing '9 BadParameter 4:1' 'b1 : BUF [0:1/0] {N=1} ("A") -> ("X");'
drawing '22 UnknownName 4:1' 'b1 : BUF [N:1/0] ("A") -> ("X");'
drawing '21 ZeroDivisor 4:1' 'b1 : BUF [0:1/0, 0:N] ("A") -> ("X");'
drawing '22 UnknownName 4:1' 'b1 : BUF [0:0, N:1/0] ("A") -> ("X");'
drawing '21 ZeroDivisor 4:1' 'b1 : BUF [0:256, 0:1/0] ("A") -> ("X");'
drawing '22 UnknownName 4:1' 'b1 : BUF [3:2, N:0] ("A") -> ("X");'
drawing '14 Bounds 4:1' 'r1 : REG [1:2, 1:1/0] ("CK", "D") -> ("Q");'
helps 'REG takes one delay [a:b], 0 <= a <= b <= 4095'
drawing '14 Bounds 4:1' 'r1 : REG [1:2, 1:2] {N=1} ("CK", "D") -> ("Q");'
drawing '9 BadParameter 4:1' 'b1 : BUF [0:256, 0:1/0] {N=1} ("A") -> ("X");'
macro unexpanded '14 Bounds 6:1' 'MACRO M {N=1} ();' 'END;' 'DRAWING ROW;' 'u : M [0:0, 0:1/0] {P=1} ();' 'END;'
drawing '21 ZeroDivisor 4:1' 'c1 : SETUP_HOLD_CHK {SETUP=391, HOLD=10+1/0} ("CK", "D");'
drawing '14 Bounds 4:1' 'b1 : BUF [3:2] ("A", "B") -> ("X");'
drawing '14 Bounds 4:1' 'b1 : BUF [0:0, 3:2] ("A", "B") -> ("X");'
drawing '13 PinCount 4:1' 'b1 : BUF [2:4, 6:8] ("A", "B") -> ("X");'
drawing '13 PinCount 4:1' 'b1 : BUF [0:0] ("A"<65536>, "B") -> ("X");'
drawing '8 AssertionClash 4:1' 'a1 : AND [0:0] ("A .S", "A .S0-4", "B"<65536>) -> ("X");'
drawing '11 BadRange 4:1' 'a1 : AND [0:0] ("A .S", "A .S0-4"<65536>) -> ("X");'
drawing '12 Width 4:1' 'a1 : AND [0:0] ("A"<0:255> & "B", "B"<65536>) -> ("X");'
drawing '11 BadRange 4:1' 'a1 : AND [0:0] ("A"<0:1>, "B"<0:2>) -> ("X"<65536>);'
drawing '21 ZeroDivisor 4:1' 'WIRE "A"<65536> 0:1/0;'
drawing '11 BadRange 4:1' 'WIRE "A"<65536> 2:1;'
macro unexpanded '13 PinCount 6:1' 'MACRO M ("A"<65536>) -> ("Z");' 'END;' 'DRAWING ROW;' 'u : M ("A", "B") -> ("X");' 'END;'
macro unexpanded '13 PinCount 6:1' 'MACRO SYNC ("CK", "A") -> ("Z");' 'END;' 'DRAWING ROW;' 'u : SYNC ("CK" !H, "B") -> ("X");' 'END;'
macro unexpanded '13 PinCount 6:1' 'MACRO M ("A");' 'END;' 'DRAWING ROW;' 'u : M () -> ("X", "Y");' 'END;'
macro unexpanded '21 ZeroDivisor 6:1' 'MACRO M {N=1/0} ("A"<65536>) -> ("Z");' 'END;' 'DRAWING ROW;' 'u : M ("A"<65536>) -> ("X");' 'END;'
macro unexpanded '22 UnknownName 7:1' 'MACRO M {N=P} ();' 'b : BUF [0:N] ("A") -> ("X");' 'END;' 'MACRO O {P=7} ();' 'u : M ();' 'END;' \
    'DRAWING ROW;' 'o : O ();' 'END;'

# --- limits of the expansion
{
    printf 'SCALD 1;\nCLOCK 8 x 50;\nDRAWING ROW;\n'
    ranges 256 'MIN_PULSE_CHK ("A"' ');'
    printf 'WIRE "B" 0:0;\nEND;\n'
} | unexpanded '16 TooMany 260:1'
{
    printf 'SCALD 1;\nCLOCK 8 x 50;\nDRAWING ROW;\n'
    ranges 256 'BUF [0:0] (ZERO) -> ("A"' ');'
    printf 'b1 : BUF [0:0] (ZERO) -> ("A");\nEND;\n'
} | unexpanded '16 TooMany 260:1'
{
    printf 'SCALD 1;\nCLOCK 8 x 50;\nDRAWING ROW;\n'
    ranges 256 'MIN_PULSE_CHK ("A"' ');'
    printf 'c1 : MIN_PULSE_CHK ("A");\nEND;\n'
} | unexpanded '16 TooMany 260:1'
{
    printf 'SCALD 1;\nCLOCK 8 x 50;\nDRAWING ROW;\n'
    awk -v inputs="$(many 15 '"A"<0:255>, ')" 'BEGIN {
        for (i = 0; i < 256; i++) printf "l%d : CHG [0:0] (%s\"A\"<0:255>) -> (\"X\"<%d>);\n", i, inputs, i }'
    printf 'b1 : BUF [0:0] (ZERO) -> ("Y");\nEND;\n'
} | unexpanded '16 TooMany 260:1'

# --- the circuit
joined='give each its own net, or join them by a MUX2, an AND or an OR'
drawing '17 TwoDrivers 5:1' 'b1 : BUF [0:0] ("A") -> ("X");' 'b2 : BUF [0:0] ("B") -> ("X");'
helps "\"X\" is an output of 'b1' at 4:1 too:" 'b1 : BUF [0:0] ("A") -> ("X");' '^' "$joined"
drawing '17 TwoDrivers 4:1' 'b1 : BUF [0:0] ("A") -> (ZERO);'
helps 'an output cannot be ZERO or ONE'
drawing '17 TwoDrivers 5:1' 'b1 : BUF [0:0] ("A"<0:3>) -> ("X"<0:3>);' 'b2 : BUF [0:0] ("B"<0:1>) -> ("Y" & -"X"<2>);'
macro unexpanded '17 TwoDrivers 5:1' 'MACRO M ("A") -> ("Z");' 'b1 : BUF [0:0] ("A") -> ("Z");' 'b2 : BUF [0:0] ("A") -> ("Z");' 'END;' \
    'DRAWING ROW;' 'u1 : M ("A") -> ("X");' 'END;'
macro unexpanded '17 TwoDrivers 4:1' 'MACRO M ("A") -> ("Z");' 'b1 : BUF [0:0] ("A") -> ("Z");' 'END;' 'DRAWING ROW;' \
    'u1 : M ("A") -> ("X");' 'u2 : M ("B") -> ("X");' 'END;'
expanded '17 TwoDrivers 5:1' 'DRAWING ROW;' 'FOR I = 0 TO 1 DO' 'b1 : BUF [0:0] ("A") -> ("X");' 'END;' 'END;'
# shellcheck disable=SC2046
for last in 9 10; do
    drawing '17 TwoDrivers 5:1' $(i=1; while [ "$i" -le "$last" ]; do echo "b$i:BUF[0:0](\"A\")->(\"X\");"; i=$((i + 1)); done)
done
# (a loop without delay elsewhere does not count, nor a case that is refused)
drawing '18 ZeroLoop 4:1' 'b1 : BUF [0:0] ("Y") -> ("X");' 'a1 : AND [0:0] ("CK .P2-3", "X") -> ("Y");'
helps 'give an element of the loop, or the wire of a net of it, a least delay of 1'
# (of two loops the one that leads there)
drawing '18 ZeroLoop 4:1' 'a1 : OR [0:3] ("B", "C") -> ("A");' 'b1 : BUF [0:2] ("A") -> ("B");' 'b2 : BUF [0:2] ("R") -> ("R");'
# (a loop of eight nets is listed whole, and one of nine is not)
drawing '18 ZeroLoop 4:1' 'b1 : BUF [0:0] ("H") -> ("A");' 'b2 : BUF [0:0] ("A") -> ("B");' 'b3 : BUF [0:0] ("B") -> ("C");' \
    'b4 : BUF [0:0] ("C") -> ("D");' 'b5 : BUF [0:0] ("D") -> ("E");' 'b6 : BUF [0:0] ("E") -> ("F");' \
    'b7 : BUF [0:0] ("F") -> ("G");' 'b8 : BUF [0:0] ("G") -> ("H");'
drawing '18 ZeroLoop 4:1' 'b1 : BUF [0:0] ("I") -> ("A");' 'b2 : BUF [0:0] ("A") -> ("B");' 'b3 : BUF [0:0] ("B") -> ("C");' \
    'b4 : BUF [0:0] ("C") -> ("D");' 'b5 : BUF [0:0] ("D") -> ("E");' 'b6 : BUF [0:0] ("E") -> ("F");' \
    'b7 : BUF [0:0] ("F") -> ("G");' 'b8 : BUF [0:0] ("G") -> ("H");' 'b9 : BUF [0:0] ("H") -> ("I");'
# (an element on its own output)
drawing '18 ZeroLoop 4:1' 'r1 : REG [0:0] ("CK .P2-3", "Q") -> ("Q");'

# --- the cases, which begin on line 6
# cases WANT LINE ..: these lines after a drawing of one multiplexer
cases() {
    want=$1
    shift
    {
        drawing_of 'm1 : MUX2 [0:0] ("SEL", "CK .P2-3", "PH .C2-3") -> ("X");'
        printf '%s\n' "$@"
    } | unexpanded "$want"
}
only='a case sets a net once, to 0 or to 1, and only one that nothing drives and that asserts'
also='.S or nothing; inside macros only global ones'
cases '19 CaseNet 6:6' 'CASE "X"=0;'
helps 'it is an output, at 4:53' "$only" "$also"
cases '19 CaseNet 6:6' 'CASE "NONE"=0;'
helps "no statement of the drawing names 'NONE'" "$only" "$also"
cases '19 CaseNet 6:6' 'CASE "SELL"=0;'
helps "no statement of the drawing names 'SELL': is SEL meant?" "$only" "$also"
cases '19 CaseNet 6:6' 'CASE "SEL"<1>=0;'
cases '19 CaseNet 6:6' 'CASE "CK"=0;'
helps 'it is a clock, at 4:25' "$only" "$also"
cases '19 CaseNet 6:6' 'CASE "PH"=0;'
cases '19 CaseNet 6:6' 'CASE "SEL .S"=0;'
helps 'in a CASE a name stands without its assertion' "$only" "$also"
cases '19 CaseNet 6:6' 'CASE "SEL"=2;'
helps "$only" "$also"
cases '19 CaseNet 6:15' 'CASE "SEL"=0, "SEL"=1;'
helps "$only" "$also"
cases '19 CaseNet 7:6' 'CASE "SEL"=0;' 'CASE "SEL"=2;'
# shellcheck disable=SC2046
cases '16 TooMany 262:1' $(many 257 'CASE"SEL"=0; ')
helps 'a drawing has at most 256 cases, and this is one more'
# shellcheck disable=SC2046
cases '16 TooMany 262:1' 'CASE"NONE"=0;' $(many 256 'CASE"SEL"=0; ')
{
    drawing_of 'b1 : BUF [0:0] ("A") -> ("X");'
    echo 'CASE "X"=0;'
} | unexpanded '19 CaseNet 6:6'

# choices WANT LINE: this line, which is line 10, after a drawing of two choices by one net
choices() {
    want=$1
    shift
    {
        drawing_of 'b1 : BUF [50:50] ("IN .S1-8") -> ("SLOW1");' 'm1 : MUX2 [0:0] ("SEL", "IN", "SLOW1") -> ("MID");' \
            'b2 : BUF [50:50] ("MID") -> ("SLOW2");' 'm2 : MUX2 [0:0] ("SEL", "SLOW2", "MID") -> ("OUT");' \
            'c1 : SETUP_HOLD_CHK {SETUP=20, HOLD=5} ("CK .P3-4", "OUT");'
        printf '%s\n' "$@"
    } | unexpanded "$want"
}
choices '19 CaseNet 10:6' 'CASE "SEL"=2;'
choices '19 CaseNet 10:15' 'CASE "SEL"=0, "SEL"=0;'

# --- mistakes that are often made: each gets a line that names what to change
drawing '14 Bounds 4:1' 'b1 : BUF [60:20] ("A") -> ("X");'
helps 'BUF takes a delay [a:b], 0 <= a <= b <= 4095, or two, [r:R, f:F], each at most 255' \
    'the least, 60, is more than the greatest, 20: is 20:60 meant?'
early '3 Syntax 5:1' 'b1 : BUF [2:3] ("A") -> ("X")' 'b2 : BUF [2:3] ("A") -> ("Y");'
helps "'b2' cannot stand here, after ')'" "is ; missing after ')'?"
drawing '9 BadParameter 4:1' 'c : SETUP_HOLD_CHK {SETP=20, HOLD=3} ("CK", "D");'
helps "'SETP' is no parameter of 'SETUP_HOLD_CHK': is SETUP meant?" 'its parameters are SETUP, HOLD'
macro unexpanded '9 BadParameter 7:1' 'MACRO M {LO=1, HI=2} ("A") -> ("Z");' 'b : BUF [LO:HI] ("A") -> ("Z");' 'END;' \
    'DRAWING ROW;' 'u : M {L0=3} ("A") -> ("B");' 'END;'
helps "'L0' is no parameter of 'M': is LO meant?" 'its parameters are LO, HI'
macro unexpanded '12 Width 7:1' 'MACRO T {N=8} ("A"<0:N-1>) -> ("Z");' 'IF N > 6 THEN' 'l : T {N=N/2} ("A"<0:N/2-1>) -> ("L");' \
    'END;' 'r : T {N=N/2} ("A"<N/2:N-1>) -> ("R");' 'END;' 'DRAWING ROW;' 'u : T {N=7} ("A"<0:6>) -> ("B");' 'END;'
helps 'bits of the connections: ? -> 1' 'bits of the formals: ? -> 1' \
    'each connection is as wide as its formal; an input may have one bit for all instead' \
    'a / rounds towards zero, so parts of a size that does not divide are not as wide as it' \
    "$bits" \
    "uses of 'T': 3, the first at 5:1:" 'l : T {N=N/2} ("A"<0:N/2-1>) -> ("L");' '^'
drawing '13 PinCount 4:1' 'b1 : BUF [0:1] ("A", "B") -> ("X");'
helps 'BUF takes 1 input and 1 output; none may have the mark !H' 'here it has 2 inputs and 1 output'
early '3 Syntax 4:22' 'b1 : BUF [0:1] ("A") => ("X");'
helps "'=' cannot stand here, after ')'" 'an arrow is written ->: is -> meant?'
named 'A .S1_3' "after 'A .S1' there cannot be '_': it is in no assertion" "$form" "$skew"
named 'A_.S1-3' "after 'A_' there cannot be '.': a . stands only after a space, before the S, the P or the C of an assertion"
second '3 Syntax 5:1' 'MACRO M ("A") -> ("Z");' 'b1 : BUF [0:1] ("A") -> ("Z");' 'DRAWING ROW;' 'END;'
helps "'DRAWING' cannot stand here, after ';'" 'the MACRO at 3:1 has no END before this'
early '3 Syntax 4:12' 'b1 : BUF [5ns:10] ("A") -> ("X");'
helps "'ns' cannot stand here, after '5'" 'a number has no unit: delays and limits are so many ticks'
early '3 Syntax 4:21' 'b1 : BUF [5:10] ("A">0:3>) -> ("X"<0:3>);'
helps "'>' cannot stand here, after '\"A\"'" \
    'a range stands in < > after the name, as in "A"<3:0>: is < meant?'
second '3 Syntax 5:1' 'DRAWING ROW;' 'FOR I = 0 TO 3' 'b1 : BUF [5:10] ("A") -> ("X"<I>);' 'END;' 'END;'
helps "'b1' cannot stand here, after '3'" "is DO missing after '3'?"
drawing '17 TwoDrivers 5:1' 'b1 : BUF [5:10] ("A") -> ("X");' 'b2 : BUF [5:10] ("B") -> ("X");'
helps "\"X\" is an output of 'b1' at 4:1 too:" 'b1 : BUF [5:10] ("A") -> ("X");' '^' "$joined"
macro unexpanded '22 UnknownName 4:1' 'MACRO M {LO=1, HI=2} ("A") -> ("Z");' 'b : BUF [L0:HI] ("A") -> ("Z");' 'END;' \
    'DRAWING ROW;' 'u : M ("A") -> ("B");' 'END;'
helps "'L0' is no constant declared before, no parameter of the macro and no variable of a FOR around it" \
    'is LO meant?' "uses of 'M': 1, the first at 7:1:" 'u : M ("A") -> ("B");' '^'
early '3 Syntax 4:14' 'b1 : BUF [300] ("A") -> ("X");'
helps "']' cannot stand here, after '300'" \
    'a delay has a least and a greatest: is [0:300] or [300:300] meant?'

# --- sections: what standard error says of their rules, of a section that is refused, and of lines between them
# sections STATUS FIRST SECOND [BETWEEN]: two sections, whose drawings have these lines from line 4 on, end with this
# status; the line between them is line 6 of the text
sections() {
    {
        printf 'SCALD 2;\nCLOCK 8 x 50;\nDRAWING A;\n%s\nEND;\n' "$2"
        printf '%s\n' "${4-=====}"
        printf 'SCALD 2;\n%s\nDRAWING B;\n%s\n' "${clock-CLOCK 8 x 50;}" "$3"
    } >"$work/text"
    answers sections "$1" ''
}
# said LINE ..: standard error says these lines, and no other
said() {
    trying "said: $1"
    printf '%s\n' "$@" | cmp -s - "$work/said" || {
        failure "this is said in place of '$1':"
        cat "$work/said"
    }
}
# of SECTION LINE WHY: the first line on a section that begins on this line of the text
of() {
    echo "scald: section $1, which begins at line $2 of the text: $3"
}
first='b1 : BUF [1:2] ("D .S1-8") -> ("/Q .S2-8");'
second='b2 : BUF [1:2] ("/Q .S2-8") -> ("X");'
end='
END;'
sections 10 "$first" "b2 : AND [1:2] (\"/Q .S2-8\", \"S\") -> (\"X\");$end
CASE \"S\"=0;"
said "$(of 2 7 'it lists a case, and sections list none')" \
    '    its first CASE stands at line 12 of the text:' '    CASE "S"=0;' '    ^' \
    '    verify this section with its cases by itself, and leave them out here'
clock='CLOCK 8 x 40; PSKEW 1:2;'
sections 10 "$first" "$second$end"
said "$(of 2 7 'its clock or its skews are not those of section 1')" \
    '    its first CLOCK stands at line 8 of the text:' '    CLOCK 8 x 40; PSKEW 1:2;' '    ^' \
    '    write CLOCK, PSKEW and CSKEW alike in all sections'
unset clock
sections 10 "$first" "b2 : BUF [1:2] (\"/Q\") -> (\"X\");$end"
said "$(of 2 7 'the net /Q<0> does not assert here what it asserts in section 1')" \
    '    here it stands at line 10 of the text:' '    b2 : BUF [1:2] ("/Q") -> ("X");' '                    ^' \
    '    in section 1 it stands at line 4 of the text:' "    $first" '                                   ^' \
    '    give it the same assertion in each section where it stands'
sections 10 "$first" "b2 : BUF [1:2] (\"E .S1-8\") -> (\"/Q .S2-8\");$end"
said "$(of 2 7 'the net /Q<0> is driven here, and in section 1')" \
    '    here it stands at line 10 of the text:' '    b2 : BUF [1:2] ("E .S1-8") -> ("/Q .S2-8");' \
    '                                   ^' \
    '    in section 1 it stands at line 4 of the text:' "    $first" '                                   ^' \
    '    one section drives it, and the others take it as it asserts'
sections 10 'b1 : BUF [1:2] ("D .S1-8") -> ("/Q");' "b2 : BUF [1:2] (\"/Q\") -> (\"X\");$end"
said "$(of 1 1 'the net /Q<0> asserts nothing, and goes to section 2')" \
    '    here it stands at line 4 of the text:' '    b1 : BUF [1:2] ("D .S1-8") -> ("/Q");' \
    '                                   ^' \
    '    in section 2 it stands at line 10 of the text:' '    b2 : BUF [1:2] ("/Q") -> ("X");' '                    ^' \
    '    nothing else is known of it there: give it one assertion in each section where it stands'
sections 10 'b1 : BUF [0:2] ("D .S1-8") -> ("/Q .S2-8");' "$second$end"
said "$(of 1 1 'the net /Q<0> has a driver that may take no time, and goes to section 2')" \
    '    here it stands at line 4 of the text:' '    b1 : BUF [0:2] ("D .S1-8") -> ("/Q .S2-8");' \
    '                                   ^' \
    '    in section 2 it stands at line 10 of the text:' "    $second" '                    ^' \
    '    give its driver a least delay of 1 or more'
sections 2 "$first" "b2 : BUFF [1:2] (\"/Q .S2-8\") -> (\"X\");$end"
said "$(of 2 7 'places count from there')" "scald: 4:1: $(sentence UnknownKind)" \
    '    b2 : BUFF [1:2] ("/Q .S2-8") -> ("X");' '    ^' "    is BUF meant in place of 'BUFF'?"
sections 9 "$first" "$second$end" '=='
said 'scald: there should be 2 to 64 sections, with a line ===== between them'
sections 2 "$first" "$second$end
====="
sed -i '3,$d' "$work/said"
said "$(of 3 13 'places count from there')" \
    '    nothing stands in it: a line ===== stands between two sections, and not before or after all'

ended
