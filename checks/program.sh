#!/bin/sh
# Tries the built program over real streams: what each of them must answer, and with which status.
# Usage: checks/program.sh [PROGRAM]. If none is named and none is built it says so and ends with 0.
. "$(dirname -- "$0")/common.sh"
begin "${1-}"
first=$top/examples/first.scald
report=$top/examples/first.report

# expect NAME STATUS GOT: compares the last command's status GOT, and its output in $work/out with $work/want.
expect() {
    trying "$1"
    if [ "$3" -ne "$2" ]; then
        failure "$1: status $3 in place of $2"
    elif ! cmp -s "$work/out" "$work/want"; then
        failure "$1: other output than wanted"
    fi
}

cp "$report" "$work/want"
"$program" verify <"$first" >"$work/out"
expect "a file" 0 $?

# one byte at a time, and then the end
dd if="$first" bs=1 2>/dev/null | "$program" verify >"$work/out"
expect "a pipe" 0 $?

: >"$work/want"
"$program" verify <&- >"$work/out" 2>/dev/null
expect "a closed input" 6 $?

echo "REFUSED 1 BadByte 1:1" >"$work/want"
head -c 4194304 /dev/zero | "$program" verify >"$work/out" 2>/dev/null
expect "the most bytes" 2 $?

echo "REFUSED 3 Syntax 1:1" >"$work/want"
"$program" verify </dev/null >"$work/out" 2>/dev/null
expect "no bytes" 2 $?

cat >"$work/want" <<'END'
SCALD 1 PERIOD 400
NETS 115 INSTANCES 73 CHECKS 37
CASE 0 BASE 3 ROUNDS 0 T 564
CLEAN
END
"$program" verify faults <"$top/examples/alu.scald" >"$work/out"
expect "a data path" 0 $?

cat >"$work/want" <<'END'
WAVE ACC<0> SKEW 59 S:264 C:1 S:135
WAVE u1/GCK<0> SKEW 24 0:254 R:1 S:49 F:1 0:95
WAVE u1/SUM<0> SKEW 0 C:91 S:233 C:76
END
"$program" verify waves <"$top/examples/alu.scald" >"$work/all"
status=$?
grep '^WAVE \(ACC\|u1/GCK\|u1/SUM\)<0> ' "$work/all" >"$work/out"
expect "its waves" 0 "$status"

# a text that is cut short anywhere is refused for its tokens or its grammar
cut=0
grep -v '^--' "$top/examples/alu.scald" >"$work/text"
for length in $(seq 0 $(($(wc -c <"$work/text") - 2))); do
    head -c "$length" "$work/text" | "$program" verify >"$work/out" 2>/dev/null
    [ $? -eq 2 ] && grep -q '^REFUSED [23] ' "$work/out" || cut=$((cut + 1))
done
: >"$work/want"
: >"$work/out"
expect "texts cut short" 0 "$cut"

loop() {
    drawing_of 'b : BUF [0:0] ("X"<0:39>) -> ("X"<1:40>);' 'a : AND [1:1] ("CK .P2-3", "X"<40>) -> ("X"<0>);'
}
echo "UNSETTLED X<17> ROUND 1657" >"$work/want"
loop | "$program" verify >"$work/out" 2>/dev/null
expect "a loop past its limit" 3 $?
echo "UNSETTLED X<40> ROUND 2131" >"$work/want"
loop | "$program" verify rounds=2131 >"$work/out" 2>/dev/null
expect "a loop one round short" 3 $?
printf 'SCALD 1 PERIOD 400\nNETS 42 INSTANCES 41 CHECKS 0\nCASE 0 BASE 2132 ROUNDS 0 T 4266\nCLEAN\n' >"$work/want"
loop | "$program" verify faults rounds=2132 >"$work/out"
expect "a loop that settles" 0 $?
echo 41 >"$work/want"
loop | "$program" verify waves rounds=2132 | grep -c '^WAVE X<[0-9]*> SKEW 0 0:400$' >"$work/out"
expect "its settled waves" 0 $?

nested() {
    clocked 'MACRO D {N=1} ("A") -> ("Z");' 'IF N > 1 THEN x : D {N=N-1} ("A") -> ("Z");' \
        'ELSE b : BUF [1:1] ("A") -> ("Z"); END;' 'END;' 'DRAWING ROW;' "t : D {N=$1} (\"IN\") -> (\"OUT\");" 'END;'
}
printf 'SCALD 1 PERIOD 400\nNETS 2 INSTANCES 1 CHECKS 0\nSTABLE IN<0>\nCASE 0 BASE 1 ROUNDS 0 T 4\nCLEAN\n' >"$work/want"
nested 64 | "$program" verify faults >"$work/out"
expect "64 uses inside one another" 0 $?
echo "REFUSED 15 TooDeep 4:15" >"$work/want"
nested 65 | "$program" verify >"$work/out" 2>/dev/null
expect "65 uses inside one another" 2 $?

echo "REFUSED 16 TooMany 6:1" >"$work/want"
clocked 'MACRO E {N=1} ();' 'IF N > 0 THEN' 'a : E {N=N-1} ();' 'b : E {N=N-1} ();' 'END;' 'END;' \
    'DRAWING ROW;' 't : E {N=20} ();' 'END;' | "$program" verify >"$work/out" 2>/dev/null
expect "too many statements" 2 $?

{
    printf 'SCALD 2;\nCLOCK 8 x 50;\nWIRE 0:0;\nPSKEW 0:0;\nCSKEW 0:0;\nDRAWING ROW;\n'
    printf '  c1 : SETUP_HOLD_CHK {SETUP=20, HOLD=10} ("CK .P2-3", "D .S1-4");\nEND;\n'
} >"$work/want"
"$program" format <"$first" >"$work/out"
expect "a drawing in its canonical form" 0 $?
cp "$work/want" "$work/again"
"$program" format <"$work/again" >"$work/out"
expect "a canonical text" 0 $?

echo "REFUSED 3 Syntax 1:4194305" >"$work/want"
head -c 4194304 /dev/zero | tr '\0' ' ' | "$program" format >"$work/out" 2>/dev/null
expect "spaces alone" 2 $?
head -c 4194304 /dev/zero | tr '\0' ' ' | "$program" verify >"$work/out" 2>/dev/null
expect "spaces alone, to be verified" 2 $?

# cases count from 1 to the most
{
    printf 'SCALD 1 PERIOD 400\nNETS 1 INSTANCES 0 CHECKS 0\nSTABLE SEL<0>\n'
    seq 1 256 | sed 's/.*/CASE & BASE 0 ROUNDS 0 T 1/'
    echo CLEAN
} >"$work/want"
{
    drawing_of 'WIRE "SEL" 0:0;'
    many 256 'CASE "SEL"=0; '
} | "$program" verify faults >"$work/out"
expect "the most cases" 0 $?

# nothing nests so deep that the stack would feel it
echo "REFUSED 15 TooDeep 4:74" >"$work/want"
deep='SCALD 1;\nCLOCK 8 x 50;\nDRAWING T;\nWIRE "X" '
{
    printf "$deep"
    head -c 4194200 /dev/zero | tr '\0' '('
} | "$program" format >"$work/out"
expect "parentheses alone" 2 $?
echo "REFUSED 15 TooDeep 4:138" >"$work/want"
{
    printf "$deep"
    head -c 4194200 /dev/zero | tr '\0' '-' | sed 's/--/- /g'
} | "$program" format >"$work/out"
expect "minus signs alone" 2 $?
echo "REFUSED 15 TooDeep 4:641" >"$work/want"
{
    printf 'SCALD 1;\nCLOCK 8 x 50;\nDRAWING T;\n'
    yes 'IF 1 THEN ' | head -n 400000 | tr -d '\n'
} | "$program" format >"$work/out"
expect "nested IFs alone" 2 $?

# --- what is said on standard error, beside an empty standard output

# says NAME STATUS LINES GOT: the last command's status GOT, its output in $work/out, and in $work/said exactly these
# lines, or nothing if they are empty
says() {
    trying "$1"
    : >"$work/lines"
    [ -z "$3" ] || printf '%s\n' "$3" >"$work/lines"
    if [ "$4" -ne "$2" ]; then
        failure "$1: status $4 in place of $2"
    elif [ -s "$work/out" ]; then
        failure "$1: something is written"
    elif ! cmp -s "$work/said" "$work/lines"; then
        failure "$1: this is said in place of '$3':"
        head -c 1000 "$work/said"
    fi
}

forms='usage:
    scald verify [waves|faults] [rounds=N] <DRAWING    whether the drawing keeps its constraints, with its waves and faults
    scald notes <DRAWING                               likely omissions
    scald format <DRAWING                              the drawing in its canonical form
    scald upgrade <DRAWING                             the drawing in version 2 of the language
    scald slack [worst=N] [rounds=N] <DRAWING          by how many ticks each limit is met or missed, the worst first
    scald explain [worst=N] [rounds=N] <DRAWING        the changes that come to the worst of them, and their sums
    scald margins <DRAWING                             by how much more each checker may ask for
    scald chains <DRAWING                              where each fault comes from
    scald sections <DRAWINGS                           verify of drawings with a line ===== between them, each by itself and joined
    scald decide [effort=N] [trace=I] <DRAWING         each fault shown by a run, or refuted; the run of the I-th as a trace
    scald run T SEED [case=K] [long] <DRAWING          a run of T ticks that a seed draws, 1 to 4096, or with long 1048576, as a trace
    scald vcd T SEED [case=K] [tick=1ns] <DRAWING      the same run as a value change dump, for a wave viewer
    scald judge F [long] <TRACE-AND-DRAWING            whether the trace is a run, and what breaks in it from tick F on
    scald draw [faults|waves] [rounds=N] <DRAWING      a page of the broken limits and of the waves of all cases, or of one of both
    scald draw waves under=PATH [rounds=N] <DRAWING    a page of the waves of the nets whose names begin with PATH
    scald draw case=K [rounds=N] <DRAWING              the waves of a case as a picture; K is 0 if no case is listed
    scald draw N|worst=N [rounds=N] <DRAWING           the N-th limit that is broken, or the N-th of all, as a picture
    scald import [cells] <NETLIST                      macros of a netlist that yosys wrote as JSON, or of its kinds of cells, to fill in
    scald bench N                                      what is found in a made drawing of N sections, 1 to 200'

# none LINE WORD ..: no form has these words, the line says which is wrong, if one is, and nothing is read for them:
# the next command still finds the first line
none() {
    line=$1
    shift
    {
        "$program" "$@" >"$work/out" 2>"$work/said"
        echo $? >"$work/status"
        IFS= read -r read
        [ "$read" = "$(head -n 1 "$first")" ] || echo 99 >"$work/status"
    } <"$first"
    says "$# words:$(printf " '%s'" "$@")" 4 "${line:+scald: $line
}$forms" "$(cat "$work/status")"
}

none ''
none "unknown command 'check'" check
none "'twice' cannot come after 'verify'" verify twice
none "'faults' cannot come after 'rounds=5'" verify rounds=5 faults
none "'waves' cannot come after 'waves'" verify waves waves
none "'waves' cannot come after 'format'" format waves
none "'format' cannot come after 'format'" format format
none "'waves' cannot come after 'upgrade'" upgrade waves
none "'upgrade' cannot come after 'upgrade'" upgrade upgrade
# words that are nearly one of a form
none "unknown command 'verfy': is verify meant?" verfy
none "unknown command 'bnech': is bench meant?" bnech 3
none "'wave' cannot come after 'verify': is waves meant?" verify wave
none "'Faults' cannot come after 'verify': is faults meant?" verify Faults rounds=5
none "'round=5' cannot come after 'waves': is rounds=N meant?" verify waves round=5
none "'Faults' cannot come after 'waves'" verify waves Faults
none "'rounds=0' cannot come after 'faults': N is 1 to 10000000, without zeros in front" verify faults rounds=0
none "'faults' cannot come after 'waves'" verify waves faults
# words of other forms, and files
none "unknown command 'waves'" waves
none "unknown command 'rounds=5'" rounds=5 verify
none "unknown command 'worst=5'" worst=5
none "unknown command 'case=2'" case=2
none "'rounds=5' cannot come after 'chains'" chains rounds=5
none "'faults' cannot come after '0'" run 6 0 faults
none "'case=2' cannot come after 'verify'" verify case=2
none "'case=2' cannot come after 'waves'" verify waves case=2
none "'case=2' cannot come after 'rounds=5'" verify rounds=5 case=2
input=': a drawing is read from standard input, as in scald verify <FILE'
none "unknown command 'first.scald'$input" first.scald
none "unknown command 'examples/first'$input" examples/first
none "'first.scald' cannot come after 'verify'$input" verify first.scald
none "'first.scald' cannot come after 'faults'$input" verify faults first.scald
none "'./first' cannot come after 'rounds=5'$input" verify rounds=5 ./first
none "'first.scald' cannot come after 'format'$input" format first.scald
none "'first.scald' cannot come after 'sections'$input" sections first.scald
none "'first.scald' cannot come after '0'$input" run 6 0 first.scald
none "'first.scald' cannot come after 'case=1'$input" run 6 0 case=1 first.scald
none "'first.scald' cannot come after '1'$input" judge 1 first.scald
none "'first.scald' cannot come after '3'$input" bench 3 first.scald
none "'first.scald' cannot come after 'bench': N is 1 to 200, without zeros in front" bench first.scald
# no word is trimmed, dropped or joined to another
none "unknown command ''" ''
none "'' cannot come after 'verify'" verify ''
none "unknown command ''" '' verify
none "'' cannot come after 'format'" format ''
none "'' cannot come after 'upgrade'" upgrade ''
none "'' cannot come after 'bench': N is 1 to 200, without zeros in front" bench ''
none "'' cannot come after 'bench': N is 1 to 200, without zeros in front" bench '' 3
none "unknown command ' verify': is verify meant?" ' verify'
none "unknown command 'verify ': is verify meant?" 'verify '
none "unknown command 'verify waves'" 'verify waves'
none "' waves' cannot come after 'verify': is waves meant?" verify ' waves'
none "'rounds=5 ' cannot come after 'verify': N is 1 to 10000000, without zeros in front" verify 'rounds=5 '
none "' 3' cannot come after 'bench': N is 1 to 200, without zeros in front" bench ' 3'
none "'3 ' cannot come after 'bench': N is 1 to 200, without zeros in front" bench '3 '
none "unknown command 'VERIFY': is verify meant?" VERIFY
none "unknown command 'Upgrade': is upgrade meant?" Upgrade
# no word stands beside these
none "'notes' cannot come after 'notes'" notes notes
none "'faults' cannot come after 'notes'" notes faults
none "'' cannot come after 'notes'" notes ''
none "unknown command 'note': is notes meant?" note
none "'margins' cannot come after 'margins'" margins margins
none "'waves' cannot come after 'margins'" margins waves
none "'' cannot come after 'margins'" margins ''
none "unknown command 'Margins': is margins meant?" Margins
none "unknown command 'margin': is margins meant?" margin
none "'chains' cannot come after 'chains'" chains chains
none "'faults' cannot come after 'chains'" chains faults
none "'' cannot come after 'chains'" chains ''
none "unknown command 'chain': is chains meant?" chain
none "'explain' cannot come after 'explain'" explain explain
none "'worst=0' cannot come after 'explain': N is 1 to 65536, without zeros in front" explain worst=0
none "'worst=65537' cannot come after 'slack': N is 1 to 65536, without zeros in front" slack worst=65537
none "'worst=01' cannot come after 'slack': N is 1 to 65536, without zeros in front" slack worst=01
none "'rounds=0' cannot come after 'worst=2': N is 1 to 10000000, without zeros in front" slack worst=2 rounds=0
none "'worst=2' cannot come after 'rounds=5'" explain rounds=5 worst=2
none "'more' cannot come after 'rounds=5'" slack worst=2 rounds=5 more
none "'5' cannot come after 'slack'" slack 5
none "'faults' cannot come after 'explain'" explain faults
none "'' cannot come after 'explain'" explain ''
none "unknown command 'explian': is explain meant?" explian
none "'sections' cannot come after 'sections'" sections sections
none "'waves' cannot come after 'sections'" sections waves
none "'' cannot come after 'sections'" sections ''
none "'3' cannot come after 'sections'" sections 3
none "unknown command 'Sections': is sections meant?" Sections
none "unknown command 'section': is sections meant?" section
none "'decide' cannot come after 'decide'" decide decide
none "'faults' cannot come after 'decide'" decide faults
none "'' cannot come after 'decide'" decide ''
none "'effort=0' cannot come after 'decide': N is 1 to 1000, without zeros in front" decide effort=0
none "'effort=1001' cannot come after 'decide': N is 1 to 1000, without zeros in front" decide effort=1001
none "'trace=01' cannot come after 'decide': I is 1 to 4294967295, without zeros in front" decide trace=01
none "'trace=4294967296' cannot come after 'effort=2': I is 1 to 4294967295, without zeros in front" \
    decide effort=2 trace=4294967296
none "'effort=2' cannot come after 'trace=1'" decide trace=1 effort=2
none "'x' cannot come after 'trace=1'" decide effort=2 trace=1 x
none "unknown command 'Decide': is decide meant?" Decide
none "a word is missing after 'run'" run
none "a word is missing after '6'" run 6
none "a word is missing after 'judge'" judge
none "'case=0' cannot come after '0': K is 1 to 256, without zeros in front" run 6 0 case=0
none "'case=257' cannot come after '0': K is 1 to 256, without zeros in front" run 6 0 case=257
none "'cases=2' cannot come after '0': is case=K meant?" run 6 0 cases=2
none "'x' cannot come after 'case=1'" run 6 0 case=1 x
none "'case=257' cannot come after 'draw': K is 0 to 256, without zeros in front" draw case=257
none "'case=00' cannot come after 'draw': K is 0 to 256, without zeros in front" draw case=00
none "'cases=0' cannot come after 'draw': is case=K meant?" draw cases=0
none "'case=0' cannot come after 'waves'" draw waves case=0
none "'unde=A' cannot come after 'waves': is under=PATH meant?" draw waves unde=A
none "'under=A' cannot come after 'faults'" draw faults under=A
none "'under=A' cannot come after 'under=B'" draw waves under=B under=A
none "'rounds=0' cannot come after 'under=B': N is 1 to 10000000, without zeros in front" draw waves under=B rounds=0
none "'wave' cannot come after 'draw': is waves meant?" draw wave
none "'fault' cannot come after 'draw': is faults meant?" draw fault
none "'0' cannot come after 'draw'" draw 0
none "'worst=0' cannot come after 'draw': N is 1 to 65536, without zeros in front" draw worst=0
none "'rounds=0' cannot come after 'draw': N is 1 to 10000000, without zeros in front" draw rounds=0
none "'rounds=0' cannot come after 'case=0': N is 1 to 10000000, without zeros in front" draw case=0 rounds=0
none "'x' cannot come after 'case=0'" draw case=0 x
none "'x' cannot come after 'rounds=1'" draw case=0 rounds=1 x
none "unknown command 'drwa': is draw meant?" drwa
none "a word is missing after 'vcd'" vcd
none "a word is missing after '6'" vcd 6
none "'0' cannot come after 'vcd': T is 1 to 4096, without zeros in front" vcd 0 7
none "'x' cannot come after '6': SEED is 0 to 18446744073709551615, without zeros in front" vcd 6 x
none "'case=0' cannot come after '7': K is 1 to 256, without zeros in front" vcd 6 7 case=0
ticks=': a tick is 1, 10 or 100 s, ms, us, ns, ps or fs, as in tick=10us'
none "'tick=2ns' cannot come after '7'$ticks" vcd 6 7 tick=2ns
none "'tick=1' cannot come after 'case=1'$ticks" vcd 6 7 case=1 tick=1
none "'Tick=1ns' cannot come after '7': is tick=1ns meant?" vcd 6 7 Tick=1ns
none "'case=1' cannot come after 'tick=1ns'" vcd 6 7 tick=1ns case=1
none "'tick=2ns' cannot come after 'tick=1ns'" vcd 6 7 tick=1ns tick=2ns
none "'tick=1ns' cannot come after '7'" run 6 7 tick=1ns
none "'x' cannot come after 'tick=10us'" vcd 6 7 case=1 tick=10us x
none "unknown command 'vdc': is vcd meant?" vdc
none "'x' cannot come after '1'" judge 1 x
none "unknown command 'Judge': is judge meant?" Judge
none "'design' cannot come after 'import'" import design
none "'cells' cannot come after 'cells'" import cells cells
none "'cpu.json' cannot come after 'import'$input" import cpu.json
ticks='1 to 4096, or with long last to 1048576, without zeros in front'
for number in '' 0 01 +1 4097 65537 4294967297; do
    none "'$number' cannot come after 'run': T is $ticks" run "$number" 0
done
for number in '' 0 01 1048577 4294967297; do
    none "'$number' cannot come after 'run': T is $ticks" run "$number" 0 long
done
none "'4097' cannot come after 'run': T is $ticks" run 4097 0 long case=1
none "'4097' cannot come after 'vcd': T is 1 to 4096, without zeros in front" vcd 4097 0 long
none "'long' cannot come after '7'" vcd 6 7 long
none "'Long' cannot come after '7': is long meant?" run 6 7 Long
none "'long' cannot come after 'long'" run 6 7 long long
none "'case=1' cannot come after 'long'" run 6 7 long case=1
none "'lon' cannot come after 'case=1': is long meant?" run 6 7 case=1 lon
none "'lang' cannot come after '1': is long meant?" judge 1 lang
none "'1' cannot come after 'long'" judge 1 long 1
for number in '' 00 -1 18446744073709551616 340282366920938463463374607431768211456; do
    none "'$number' cannot come after '6': SEED is 0 to 18446744073709551615, without zeros in front" run 6 "$number"
done
ticks="0 ${ticks#1 }"
for number in '' 00 -1 4097 65536; do
    none "'$number' cannot come after 'judge': F is $ticks" judge "$number"
done
none "'1048577' cannot come after 'judge': F is $ticks" judge 1048577 long
# three words at most, and two for bench
none "'faults' cannot come after 'rounds=5'" verify waves rounds=5 faults
none "'rounds=5' cannot come after 'rounds=5'" verify waves rounds=5 rounds=5
none "'rounds=6' cannot come after 'rounds=5'" verify rounds=5 rounds=6
none "'' cannot come after 'rounds=5'" verify waves rounds=5 ''
none "'3' cannot come after '3'" bench 3 3
# numbers without a sign or zeros in front, within their bounds and not cut
for number in '' 0 05 +5 5x; do
    none "'rounds=$number' cannot come after 'verify': N is 1 to 10000000, without zeros in front" verify "rounds=$number"
done
for number in 10000001 100000009 4294967297 18446744073709551617 1000000000000000000000; do
    none "'rounds=$number' cannot come after 'verify': N is 1 to 10000000, without zeros in front" verify "rounds=$number"
done
none "a word is missing after 'bench'" bench
for number in 0 01 +3 201 65539 4294967299 18446744073709551619; do
    none "'$number' cannot come after 'bench': N is 1 to 200, without zeros in front" bench "$number"
done

# the greatest numbers
cp "$report" "$work/want"
"$program" verify rounds=10000000 <"$first" >"$work/out" 2>"$work/said"
expect "ten million rounds" 0 $?

: >"$work/said"
"$program" check <"$first" >"$work/out" 2>/dev/full
says "a full device for standard error" 4 '' $?
"$program" check <"$first" >"$work/out" 2>&-
says "no standard error" 4 '' $?

head -c 4194305 /dev/zero | "$program" verify >"$work/out" 2>"$work/said"
says "one byte too many" 5 'scald: the drawing has more than 4194304 bytes' $?
head -c 4194305 /dev/zero | tr '\0' ' ' | "$program" format >"$work/out" 2>"$work/said"
says "one space too many, to be printed" 5 'scald: the drawing has more than 4194304 bytes' $?
"$program" verify <"$work" >"$work/out" 2>"$work/said"
says "a directory as input" 6 'scald: standard input could not be read' $?
"$program" verify <"$first" 2>"$work/said" >/dev/full
status=$?
: >"$work/out"
says "a full device" 7 'scald: standard output could not be written' "$status"
# A token takes more than a byte, so the most tokens take more than 64 MB.
head -c 4194304 /dev/zero | tr '\0' ';' >"$work/text"
(
    ulimit -v 65536
    exec "$program" verify <"$work/text" >"$work/out" 2>"$work/said"
)
says "little memory" 8 'scald: there is not enough memory' $?
"$program" "$(printf 'verify\351')" <"$first" >"$work/out" 2>"$work/said"
says "a word that is no text" 20 'scald: arguments unavailable or not text' $?

# sections: how many there are, and where one is refused
for count in 0 64; do
    yes ===== | head -n "$count" | "$program" sections >"$work/out" 2>"$work/said"
    says "$((count + 1)) sections" 9 'scald: there should be 2 to 64 sections, with a line ===== between them' $?
done
printf 'SECTIONS 64 T 1\nCLEAN\n' >"$work/want"
{
    drawing_of
    for _ in $(seq 63); do echo ===== && drawing_of; done
} | "$program" sections >"$work/all" 2>/dev/null
status=$?
tail -n 2 "$work/all" >"$work/out"
expect "64 sections" 0 "$status"
{
    cat "$first"
    printf '=====\nSCALD 1;\nCLOCK 8 x 50;\nDRAWING T;\nb1 : BUFF [0:0] ("A") -> ("X");\nEND;\n'
} | "$program" sections >"$work/answer" 2>"$work/said"
status=$?
: >"$work/out"
says "a section that is refused" 2 "scald: section 2, which begins at line 11 of the text: places count from there
scald: 4:1: there is no such kind and no such macro
    b1 : BUFF [0:0] (\"A\") -> (\"X\");
    ^
    is BUF meant in place of 'BUFF'?" "$status"
cp "$work/answer" "$work/out"
printf 'SECTION 2\nREFUSED 6 UnknownKind 4:1\n' >"$work/want"
expect "the lines of a section that is refused" 2 "$status"
head -c 4194305 /dev/zero | "$program" sections >"$work/out" 2>"$work/said"
says "one byte too many in sections" 5 'scald: the drawing has more than 4194304 bytes' $?
"$program" sections <"$work" >"$work/out" 2>"$work/said"
says "a directory as sections" 6 'scald: standard input could not be read' $?
"$program" sections <"$top/examples/sections/processor.sections" 2>"$work/said" >/dev/full
status=$?
: >"$work/out"
says "a full device for sections" 7 'scald: standard output could not be written' "$status"

# If there is an answer nothing is said.
for text in "$first" "$top/examples/skew_hold.scald"; do
    "$program" verify <"$text" >/dev/null 2>"$work/said"
    trying "$text"
    [ ! -s "$work/said" ] || failure "something is said beside the answer to $text"
done

"$program" verify <"$top/examples/loop_unsettled.scald" >"$work/answer" 2>"$work/said"
status=$?
: >"$work/out"
says "a loop that does not settle" 3 \
    'scald: the net that is named still changes after the last round: a loop leads to it
    rounds=N with a greater N, of at most 10000000, allows more rounds' "$status"

drawing_of 'late : BUF [1:1] ("X") -> ("A");' 'loop : AND [1:1] ("CK .P2-3", "X") -> ("X");' |
    "$program" verify rounds=20 >"$work/answer" 2>"$work/said"
status=$?
says "a net after a loop that does not settle" 3 \
    'scald: the net that is named still changes after the rounds that rounds=N allows
    a greater N, of at most 10000000, allows more rounds' "$status"

drawing_of 'b1 : BUF [1:1] ("CK .P2-3") -> ("X");' 'b2 : BUF [1:1] ("X") -> ("Y");' |
    "$program" verify faults rounds=1 >"$work/answer" 2>"$work/said"
says "too few rounds, and no loop" 3 \
    'scald: the net that is named still changes after the rounds that rounds=N allows
    a greater N, of at most 10000000, allows more rounds' $?

# --- runs

short() {
    printf 'SCALD 1;\nCLOCK 4 x 1;\nDRAWING ROW;\n'
    printf '%s\n' "$@" 'END;'
}
pulse='c1 : MIN_PULSE_CHK {HIGH=1} ("CK .P1-2");'
printf 'TRACE 6\nc1<0> - : 0\nCK<0> 010001\nEND TRACE\n' >"$work/want"
short "$pulse" | "$program" run 6 0 >"$work/out"
expect "a run of a clock" 0 $?
cp "$work/want" "$work/trace"
printf 'RUN\nINTERFACE\nBREAK c1<0> TICK 2\n' >"$work/want"
short 'c1 : MIN_PULSE_CHK {HIGH=2} ("CK .P1-2");' | cat "$work/trace" - | "$program" judge 1 >"$work/out"
expect "a break" 1 $?
printf 'RUN\nINTERFACE\nNO BREAK\n' >"$work/want"
short "$pulse" | cat "$work/trace" - | "$program" judge 0 >"$work/out"
expect "no break" 0 $?

# long runs: CK rises at tick 1 of every 4
short "$pulse" | "$program" run 4097 0 long >"$work/trace"
short "$pulse" | cat "$work/trace" - | "$program" judge 4096 long >"$work/out"
expect "a run of 4,097 ticks" 0 $?
short "$pulse" | cat "$work/trace" - | "$program" judge 4096 >"$work/out" 2>"$work/said"
says "4,097 ticks without long" 9 'scald: line 1 is not a valid line of a trace of the drawing' $?
short "$pulse" | "$program" run 1048576 0 long >"$work/trace"
short "$pulse" | cat "$work/trace" - | "$program" judge 0 long >"$work/out"
expect "a run of 1,048,576 ticks" 0 $?
printf 'RUN\nINTERFACE\nBREAK c1<0> TICK 1048574\n' >"$work/want"
short 'c1 : MIN_PULSE_CHK {HIGH=2} ("CK .P1-2");' | cat "$work/trace" - | "$program" judge 1048570 long >"$work/out"
expect "a late break" 1 $?
printf 'RUN\nINTERFACE\nNO BREAK\n' >"$work/want"
short 'c1 : MIN_PULSE_CHK {HIGH=2} ("CK .P1-2");' | cat "$work/trace" - | "$program" judge 1048576 long >"$work/out"
expect "no break from the last tick on" 0 $?
sed '1s/1048576/1048577/; s/^\(CK<0> .*\)/\10/' "$work/trace" >"$work/more"
short "$pulse" | cat "$work/more" - | "$program" judge 0 long >"$work/out" 2>"$work/said"
says "1,048,577 ticks" 9 'scald: line 1 is not a valid line of a trace of the drawing' $?

# the greatest number of bits, and one net bit more
short 'b : BUF [1:1] ("A"<0:249>) -> ("X"<0:249>);' 'c : BUF [1:1] ("B"<0:249>) -> ("Y"<0:249>);' >"$work/text"
short 'b : BUF [1:1] ("A"<0:249>) -> ("X"<0:249>);' 'c : BUF [1:1] ("B"<0:249>) -> ("Y"<0:249>);' \
    'w : MIN_PULSE_CHK {HIGH=1} ("Z");' >"$work/more"
"$program" run 4000 1 <"$work/text" >"$work/trace"
status=$?
tr -d '\n' <"$work/trace" | grep -o '[01]\{4000\}' | wc -l >"$work/out"
echo 1000 >"$work/want"
expect "a trace of 4,000,000 bits" 0 "$status"
printf 'RUN\nINTERFACE\nNO BREAK\n' >"$work/want"
cat "$work/trace" "$work/text" | "$program" judge 0 >"$work/out"
expect "its verdict" 0 $?
"$program" run 4000 1 <"$work/more" >"$work/out" 2>"$work/said"
says "a trace of more bits" 11 'scald: the run would have more than 4000000 bits' $?
"$program" run 4001 1 long <"$work/text" >"$work/out" 2>"$work/said"
says "a long trace of more bits" 11 'scald: the run would have more than 4000000 bits' $?
"$program" run 6 0 case=2 <"$first" >"$work/out" 2>"$work/said"
says "no such case" 10 'scald: the drawing has no such case: it has 0' $?
"$program" judge 0 <"$first" >"$work/out" 2>"$work/said"
says "no trace" 9 'scald: no line END TRACE ends the trace' $?
printf 'TRACE 6\nc1<0> - : 1\nCK<0> 010001\nEND TRACE\n' >"$work/trace"
short "$pulse" | cat "$work/trace" - | "$program" judge 0 >"$work/out" 2>"$work/said"
says "a wire past its bounds" 9 'scald: line 2 is not a valid line of a trace of the drawing' $?
head -c 4194305 /dev/zero | "$program" run 6 0 >"$work/out" 2>"$work/said"
says "one byte too many for a run" 5 'scald: the drawing has more than 4194304 bytes, or with a trace more than 16777216' $?
head -c 16777217 /dev/zero | "$program" judge 0 >"$work/out" 2>"$work/said"
says "one byte too many for a verdict" 5 'scald: the drawing has more than 4194304 bytes, or with a trace more than 16777216' $?
head -c 16777216 /dev/zero | "$program" judge 0 >"$work/out" 2>"$work/said"
says "the most bytes for a verdict" 9 'scald: no line END TRACE ends the trace' $?
short 'b1 : BUFF [0:0] ("A") -> ("X");' | cat "$work/trace" - >"$work/text"
echo "REFUSED 6 UnknownKind 4:1" >"$work/want"
"$program" judge 0 <"$work/text" >"$work/out" 2>"$work/said"
expect "a drawing that is refused, after a trace" 2 $?
trying "its place"
grep -qx "    b1 : BUFF \[0:0\] (\"A\") -> (\"X\");" "$work/said" || failure "its place: another line is shown"

# generated drawings: nothing is read for them, and the next command still finds the first line
bench() {
    {
        "$program" bench "$1" >"$work/out" 2>"$work/said"
        echo $? >"$work/status"
        IFS= read -r line
        [ "$line" = "$(head -n 1 "$first")" ] || echo 99 >"$work/status"
    } <"$first"
}
echo "BENCH 1 NETS 25 INSTANCES 16 CHECKS 8 ROUNDS 1 T 126 FAULTS 0" >"$work/want"
bench 1
expect "one section" 0 "$(cat "$work/status")"
echo "BENCH 3 NETS 57 INSTANCES 48 CHECKS 24 ROUNDS 2 T 189 FAULTS 0" >"$work/want"
bench 3
expect "three sections" 0 "$(cat "$work/status")"
echo "BENCH 200 NETS 3209 INSTANCES 3200 CHECKS 1600 ROUNDS 2 T 189 FAULTS 0" >"$work/want"
bench 200
expect "two hundred sections" 0 "$(cat "$work/status")"

ended
