#!/bin/sh
# Tries the built program over hostile texts and with too little memory. All of it is to be run by hand, since it
# takes long, mostly for the random texts; --short is the part that ./check tries. It ends with the time that it took.
# Usage: checks/hostile.sh [--short] [PROGRAM [COUNT]], COUNT random texts in place of 20000, or of 400.
# Needs python3; cc if allocations are to be refused one by one; and GNU time if it is not short.
# A random text whose answer is wrong is kept in the folder KEPT, or else in the temporary one.
. "$(dirname -- "$0")/common.sh"
short=no
if [ "${1-}" = --short ]; then
    short=yes
    shift
fi
begin "${1-}"
count=${2:-20000}
[ $short = no ] || count=${2:-400}
begun=$(date +%s)

# frame [CLOCK]: a drawing of the lines on standard input, from line 4 on
frame() {
    printf 'SCALD 1;\nCLOCK %s;\nDRAWING ROW;\n' "${1:-8 x 50}"
    cat
    printf 'END;\n'
}

# --- random and mutated texts, in four streams
for seed in 1 2 3 4; do
    python3 "$top/checks/hostile_texts.py" "$program" $((count / 4)) "$seed" "$top"/examples/*.scald >"$work/random$seed" &
done
wait
for seed in 1 2 3 4; do
    trying "random texts from seed $seed"
    cat "$work/random$seed"
    grep -q ' tried, 0 failed' "$work/random$seed" || failure "random texts from seed $seed"
done

# --- each allocation refused in turn: the answer is NoMemory with nothing written, or the drawing's own
cat >"$work/refuse.c" <<'END'
#include <stdio.h>
#include <stdlib.h>
void *__libc_malloc(size_t);
void *__libc_realloc(void *, size_t);
static long calls;
/* Whether this call for memory is the one that REFUSE names, from 1. */
static int is_refused(void) {
    const char *refuse = getenv("REFUSE");
    return ++calls == (refuse ? atol(refuse) : 0);
}
void *malloc(size_t size) { return is_refused() ? NULL : __libc_malloc(size); }
void *realloc(void *block, size_t size) { return is_refused() ? NULL : __libc_realloc(block, size); }
__attribute__((destructor)) static void tell(void) {
    char line[32];
    const char *told = getenv("CALLS");
    FILE *file = told ? fopen(told, "w") : NULL;
    if (file && sprintf(line, "%ld\n", calls) > 0) { fputs(line, file); fclose(file); }
}
END

# refused_in_turn NAME WORD STATUS LINE: the text on standard input, whose answer has this status and last line
refused_in_turn() {
    trying "$1"
    cat >"$work/text"
    CALLS=$work/calls LD_PRELOAD=$work/refuse.so "$program" "$2" <"$work/text" >"$work/own"
    [ $? -eq "$3" ] && [ "$(tail -n 1 "$work/own")" = "$4" ] || failure "$1 with all its memory"
    calls=$(cat "$work/calls")
    none=0
    wrong=0
    for refused in $(seq 1 "$calls"); do
        REFUSE=$refused LD_PRELOAD=$work/refuse.so "$program" "$2" <"$work/text" >"$work/out" 2>/dev/null
        status=$?
        if [ "$status" -eq 8 ] && [ ! -s "$work/out" ]; then
            none=$((none + 1))
        elif [ "$status" -ne "$3" ] || ! cmp -s "$work/out" "$work/own"; then
            wrong=$((wrong + 1))
        fi
    done
    # Most allocations matter, so that most answers must be NoMemory.
    [ "$wrong" -eq 0 ] && [ "$none" -gt $((calls / 2)) ] || failure "$1 with one allocation refused"
    echo "allocations of $1: $calls, each refused in turn: $none times no memory, $wrong failed"
}

if command -v cc >/dev/null 2>&1 && cc -shared -fPIC -o "$work/refuse.so" "$work/refuse.c"; then
    echo 'c1 : SETUP_HOLD_CHK {SETUP=20, HOLD=10} ("CK .P2-3", "D .S1-4");' | frame | refused_in_turn 'a checker' verify 0 CLEAN
    echo 'SCALD 1; CLOCK 8 x 50; DRAWING T; b1:BUF[0:0](-"A")->("B"); END;' | refused_in_turn 'a text to be formatted' format 0 'END;'
    if [ $short = no ]; then
        {
            frame <<'END'
b1 : BUF [50:50] ("IN .S1-8") -> ("SLOW1");
m1 : MUX2 [0:0] ("SEL", "IN", "SLOW1") -> ("MID");
b2 : BUF [50:50] ("MID") -> ("SLOW2");
m2 : MUX2 [0:0] ("SEL", "SLOW2", "MID") -> ("OUT");
c1 : SETUP_HOLD_CHK {SETUP=20, HOLD=5} ("CK .P3-4", "OUT");
END
            printf 'CASE "SEL"=0;\nCASE "SEL"=1;\n'
        } | refused_in_turn 'two cases' verify 0 CLEAN
        printf '%s\n' 'a1 : AND [2:4, 6:8] ("CK .P2-3", "EN .S1-5") -> ("X");' 'w1 : MIN_PULSE_CHK {HIGH=45} ("X");' | frame |
            refused_in_turn 'a gate with two delays' verify 0 CLEAN
        refused_in_turn 'a macro that halves itself' verify 0 CLEAN <<'TEXT'
SCALD 1;
CLOCK 8 x 50;
MACRO TREE {SIZE=8} ("A"<0:SIZE-1>) -> ("Z");
IF SIZE = 1 THEN leaf : BUF [1:2] ("A"<0>) -> ("Z");
ELSE left : TREE {SIZE=SIZE/2} ("A"<0:SIZE/2-1>) -> ("L");
right : TREE {SIZE=SIZE/2} ("A"<SIZE/2:SIZE-1>) -> ("R");
top : OR [1:2] ("L", "R") -> ("Z"); END;
END;
DRAWING ROW;
t : TREE ("IN"<0:7>) -> ("OUT");
END;
TEXT
    fi
else
    echo "no C compiler: no allocation is refused"
fi

# --- memory: the answer is the drawing's own, or nothing at all with status 8
# starts KB: whether the program starts at all within so much memory. Without words it asks for none.
starts() {
    (
        ulimit -v "$1"
        exec "$program" >"$work/out" 2>"$work/said"
    ) 2>/dev/null
    [ $? -eq 4 ]
}
least=1024
while ! starts "$least"; do
    least=$((least + 16))
    [ "$least" -lt 1000000 ] || break
done
names='first alu or_tree'
[ $short = no ] || names=first
for name in $names; do
    trying "$name.scald with little memory"
    none=0
    own=0
    wrong=0
    memory=$least
    while [ "$own" -lt 20 ] && [ "$memory" -lt $((least + 65536)) ]; do
        (
            ulimit -v "$memory"
            exec "$program" verify <"$top/examples/$name.scald" >"$work/out" 2>"$work/said"
        ) 2>/dev/null
        status=$?
        if [ "$status" -eq 8 ] && [ ! -s "$work/out" ]; then
            none=$((none + 1))
        elif [ "$status" -eq 0 ] && cmp -s "$work/out" "$top/examples/$name.report"; then
            own=$((own + 1))
        else
            wrong=$((wrong + 1))
        fi
        memory=$((memory + 4))
    done
    [ "$wrong" -eq 0 ] && [ "$own" -gt 0 ] || failure "$name.scald with little memory"
    echo "memory for $name.scald from $least KB on: $none times too little, $own times its own report, $wrong failed"
done

[ $short = no ] || ended ", in $(($(date +%s) - begun)) seconds"

# --- a text that is cut short anywhere is refused for its tokens or its grammar, with one line
alu=$top/examples/alu.scald
bytes=$(wc -c <"$alu")
wrong=0
trying "cuts of alu.scald"
for length in $(seq 0 $((bytes - 2))); do
    head -c "$length" "$alu" | "$program" verify >"$work/out" 2>/dev/null
    [ $? -eq 2 ] && grep -q '^REFUSED [23] ' "$work/out" && [ "$(wc -l <"$work/out")" -eq 1 ] || wrong=$((wrong + 1))
done
[ "$wrong" -eq 0 ] || failure "$wrong cuts of alu.scald"
head -c $((bytes - 1)) "$alu" | "$program" verify | cmp -s - "$top/examples/alu.report" || failure "alu.scald without its last byte"
echo "cuts of alu.scald: $bytes tried, $wrong failed"

# --- each limit, met and passed by one; and the texts that cost most
# tries NAME STATUS LINE [WORD ..]: the text on standard input, verified with these further words; the last line of the
# answer must be LINE, or none be there if LINE is empty. A row may set how many seconds and KB it takes at most.
tries() {
    name=$1
    wanted=$2
    line=$3
    shift 3
    trying "$name"
    cat >"$work/text"
    (
        ulimit -t "${seconds_at_most:-120}"
        ulimit -v "${kb_at_most:-unlimited}"
        exec /usr/bin/time -q -f '%U %M' -o "$work/time" "$program" verify "$@" <"$work/text" >"$work/out"
    ) 2>/dev/null
    status=$?
    seconds=$(cut -d ' ' -f 1 "$work/time" | tail -n 1)
    memory=$(($(cut -d ' ' -f 2 "$work/time" | tail -n 1) / 1024))
    last=$(tail -n 1 "$work/out")
    printf '%-44s %9d %8s %7d  %d %s\n' "$name" "$(wc -c <"$work/text")" "$seconds" "$memory" "$status" "$last"
    if [ "$status" -ne "$wanted" ] || [ "$last" != "$line" ]; then
        failure "$name: status $wanted and '$line' are wanted"
    fi
}

printf '%-44s %9s %8s %7s  %s\n' text bytes seconds MB answer
head -c 4194304 /dev/zero | tr '\0' ' ' | tries 'the most bytes, all spaces' 2 'REFUSED 3 Syntax 1:4194305'
head -c 4194305 /dev/zero | tr '\0' ' ' | tries 'one byte more' 5 ''
head -c 4194304 /dev/zero | tr '\0' ';' | tries 'the most tokens' 2 'REFUSED 3 Syntax 1:1'
head -c 4194304 /dev/zero | tr '\0' '"' | tries 'the most quotes' 2 'REFUSED 3 Syntax 1:1'
head -c 4194304 /dev/zero | tr '\0' 'a' | tries 'the longest word' 2 'REFUSED 2 BadToken 1:1'
head -c 4194304 /dev/zero | tr '\0' '9' | tries 'the longest number' 2 'REFUSED 2 BadToken 1:1'
many 262144 'WIRE "A" 0:0;' | frame | tries 'the most statements' 0 CLEAN
many 262145 'WIRE "A" 0:0;' | frame | tries 'one statement more' 2 'REFUSED 16 TooMany 4:3407873'
awk 'BEGIN { for (i = 0; i < 130000; i++) printf "u%06d:BUF[0:0](ZERO)->(\"A\");\n", i }' | frame |
    tries 'the most labels' 2 'REFUSED 16 TooMany 65540:1'
awk 'BEGIN { print "SCALD 1;\nCLOCK 8 x 50;"
    for (i = 0; i < 100000; i++) printf "MACRO m%06d();END;\n", i
    print "DRAWING ROW;"
    for (i = 0; i < 90000; i++) printf "u%06d:m%06d();\n", i, 99999 - i
    print "END;" }' | tries 'many macros, and a use of each' 0 CLEAN
awk 'BEGIN { print "SCALD 1;\nCLOCK 8 x 50;"
    for (i = 0; i < 8000; i++) list = list sprintf("%sp%d=1", i ? "," : "", i)
    printf "MACRO M{%s}();END;\nDRAWING ROW;\nu:M{%s}();\nEND;\n", list, list }' | tries '8000 parameters, and each given' 0 CLEAN
awk 'BEGIN { print "SCALD 1;\nCLOCK 8 x 50;"
    printf "MACRO M("
    for (i = 0; i < 150000; i++) printf "%s\"f%d\"", i ? "," : "", i
    printf ");END;\nDRAWING ROW;\nu:M("
    for (i = 0; i < 150000; i++) printf "%s\"A\"", i ? "," : ""
    print ");\nEND;" }' | tries '150000 formals' 0 CLEAN
ranges 256 'MIN_PULSE_CHK ("A"' ');' | frame | tries 'the most nets and checker bits' 0 CLEAN faults
{ ranges 256 'MIN_PULSE_CHK ("A"' ');' && echo 'WIRE "B" 0:0;'; } | frame | tries 'one net more' 2 'REFUSED 16 TooMany 260:1'
{ ranges 256 'MIN_PULSE_CHK ("A"' ');' && echo 'c : MIN_PULSE_CHK ("A");'; } | frame |
    tries 'one checker bit more' 2 'REFUSED 16 TooMany 260:1'
ranges 256 'BUF [0:0] (ZERO) -> ("A"' ');' | frame | tries 'the most elements' 0 CLEAN faults
{ ranges 256 'BUF [0:0] (ZERO) -> ("A"' ');' && echo 'b : BUF [0:0] (ONE) -> ("A");'; } | frame |
    tries 'one element more' 2 'REFUSED 16 TooMany 260:1'
bus=$(many 15 '"A"<0:255>, ')'"A"<0:255>'
awk -v bus="$bus" 'BEGIN { for (i = 0; i < 256; i++) printf "l%d : CHG [0:0] (%s) -> (\"X\"<%d>);\n", i, bus, i }' | frame '2 x 1' |
    tries 'the most pins' 0 CLEAN faults
awk -v bus="$bus" 'BEGIN { for (i = 0; i < 256; i++) printf "l%d : CHG [0:0] (%s) -> (\"X\"<%d>);\n", i, bus, i
    print "b : BUF [0:0] (ZERO) -> (\"Y\");" }' | frame '2 x 1' | tries 'one pin more' 2 'REFUSED 16 TooMany 260:1'
for depth in 64 65; do
    if [ "$depth" -eq 64 ]; then status=0 line=CLEAN; else status=2 line='REFUSED 15 TooDeep 4:645'; fi
    {
        printf 'SCALD 1;\nCLOCK 8 x 50;\nMACRO D {N=1} ("A") -> ("Z");\n%s' "$(many 63 'IF 1 THEN ')"
        printf 'IF N > 1 THEN x : D {N=N-1} ("A") -> ("Z"); ELSE b : BUF [1:1] ("A") -> ("Z"); END; %s' "$(many 63 'END; ')"
        printf 'END;\nDRAWING ROW;\nt : D {N=%d} ("A") -> ("Z");\nEND;\n' "$depth"
    } | tries "$depth uses with 64 nested IFs in each" "$status" "$line" faults
done
many 65 'IF 1 THEN ' | frame | tries '65 nested IFs' 2 'REFUSED 15 TooDeep 4:641'
for open in '(' '- '; do
    close=''
    [ "$open" = '(' ] && close=')'
    echo "WIRE \"A\" 0:$(many 64 "$open")0$(many 64 "$close");" | frame | tries "64 times '$open'" 0 CLEAN faults
    place=$((12 + 64 * ${#open}))
    echo "WIRE \"A\" 0:$(many 65 "$open")0$(many 65 "$close");" | frame | tries "65 times '$open'" 2 "REFUSED 15 TooDeep 4:$place"
done
awk -v tail="$(many 64 '+0')" 'BEGIN { for (i = 0; i < 29000; i++) printf "WIRE \"A\" 0:0%s;\n", tail }' | frame |
    tries '29000 expressions of 64 operators' 0 CLEAN faults
echo "WIRE \"A\" 0:0$(many 65 '+0');" | frame | tries '65 operators' 2 'REFUSED 15 TooDeep 4:141'
echo 'b : BUF [4095:4095] ("CK .P2-3(4095,4095)") -> ("X");' | frame | tries 'the greatest delay and skew' 0 CLEAN faults
echo 'b : BUF [0:4096] ("A") -> ("X");' | frame | tries 'a greater delay' 2 'REFUSED 14 Bounds 4:1'
echo 'b : BUF [255:255, 255:255] ("CK .P2-3(4095,4095)") -> ("X");' | frame | tries 'the greatest two delays' 0 CLEAN faults
echo 'b : BUF [0:256, 0:0] ("A") -> ("X");' | frame | tries 'a greater rise delay' 2 'REFUSED 14 Bounds 4:1'
echo 'b : BUF [0:0, 0:256] ("A") -> ("X");' | frame | tries 'a greater fall delay' 2 'REFUSED 14 Bounds 4:1'
echo 'b : BUF [0:0] ("CK .P2-3(4096,0)") -> ("X");' | frame | tries 'a greater skew' 2 'REFUSED 7 BadName 4:16'
echo 'c : MIN_PULSE_CHK {HIGH=400, LOW=400} ("K");' | frame | tries 'the longest pulses' 0 CLEAN faults
echo 'c : MIN_PULSE_CHK {LOW=401} ("K");' | frame | tries 'a longer pulse' 2 'REFUSED 14 Bounds 4:1'
echo 'c : SETUP_HOLD_CHK {SETUP=390, HOLD=10} ("CK .P2-3", "D .S");' | frame | tries 'the longest setup and hold' 0 CLEAN faults
echo 'c : SETUP_HOLD_CHK {SETUP=391, HOLD=10} ("CK .P2-3", "D .S");' | frame | tries 'a longer setup' 2 'REFUSED 14 Bounds 4:1'
for bound in WIRE PSKEW CSKEW; do
    printf 'SCALD 1;\nCLOCK 8 x 50;\n%s 4095:4095;\nDRAWING ROW;\nEND;\n' "$bound" | tries "the greatest $bound of a header" 0 CLEAN faults
done
# cases COUNT: a drawing with so many cases from line 6 on
cases() {
    echo 'b : BUF [0:0] ("A") -> ("X");' | frame
    many "$1" 'CASE "A"=0;\n'
}
cases 256 | tries 'the most cases' 0 CLEAN faults
cases 257 | tries 'one case more' 2 'REFUSED 16 TooMany 262:1'
# each case names the same 781 of 65,536 inputs
{
    ranges 256 'MIN_PULSE_CHK ("A"' ');' | frame
    awk 'BEGIN { for (i = 0; i < 781; i++) list = list sprintf("%s\"A\"<%d>=%d", i ? "," : "CASE ", i, i % 2)
        for (i = 0; i < 256; i++) print list ";" }'
} | tries '256 cases with 199936 entries' 0 CLEAN faults
echo 'WIRE "A" 4095:4095;' | frame | tries 'the longest wire' 0 CLEAN faults
echo 'WIRE "A" 0:4096;' | frame | tries 'a longer wire' 2 'REFUSED 14 Bounds 4:1'
echo 'c : MIN_PULSE_CHK ("A"<0:255>);' | frame | tries 'the widest connection' 0 CLEAN faults
echo 'c : MIN_PULSE_CHK ("A"<0:255> & "B");' | frame | tries 'one bit more' 2 'REFUSED 12 Width 4:1'
awk 'BEGIN { printf "c : MIN_PULSE_CHK (\"A\"<0:255>"; for (i = 1; i < 300000; i++) printf "&\"A\"<0:255>"; print ");" }' | frame |
    kb_at_most=1000000 tries '300000 terms of 256 bits' 2 'REFUSED 12 Width 4:1' faults
echo 'WIRE "A"<65535> 0:0;' | frame | tries 'the greatest bit number' 0 CLEAN faults
echo 'WIRE "A"<65536> 0:0;' | frame | tries 'a greater bit number' 2 'REFUSED 11 BadRange 4:1'
echo "WIRE \"$(many 64 A)\" 0:0;" | frame | tries 'the longest base name' 0 CLEAN faults
echo "WIRE \"$(many 65 A)\" 0:0;" | frame | tries 'a longer base name' 2 'REFUSED 7 BadName 4:6'
echo "$(many 64 b) : BUF [0:0] (\"A\") -> (\"X\");" | frame | tries 'the longest word of a label' 0 CLEAN faults
echo "$(many 65 b) : BUF [0:0] (\"A\") -> (\"X\");" | frame | tries 'a longer word' 2 'REFUSED 2 BadToken 4:1'
echo 'WIRE "A" 0:9223372036854775807-9223372036854775807;' | frame | tries 'the greatest number' 0 CLEAN faults
echo 'WIRE "A" 0:9223372036854775808;' | frame | tries 'a greater number' 2 'REFUSED 2 BadToken 4:12'
frame '4096 x 1' </dev/null | tries 'the longest period' 0 CLEAN faults
frame '4097 x 1' </dev/null | tries 'a longer period' 2 'REFUSED 4 BadHeader 2:1'
ring() {
    printf '%s\n' 'g : AND [1:1] ("CK .P0-7", "X"<4>) -> ("X"<0>);' 'p : BUF [0:0] ("X"<0:3>) -> ("X"<1:4>);' | frame
}
ring | tries 'the greatest limit of rounds' 0 CLEAN faults rounds=10000000
ring | tries 'a greater limit' 4 '' faults rounds=10000001
# the costliest waves and rounds
awk 'BEGIN { printf "WIRE \"A .S0-1"; for (i = 1; i < 1000000; i++) printf ",0-1"; print "\" 0:0;" }' | frame |
    tries 'a name of 1000000 intervals' 0 CLEAN faults
awk 'BEGIN { printf "WIRE \"CK .C0-1"; for (i = 1; i < 1000000; i++) printf ",0-1"; print ",0-4095(1,0)\" 0:0;" }' | frame '4096 x 1' |
    seconds_at_most=5 tries 'a clock of 1000001 intervals' 2 'REFUSED 20 EdgesOverlap 4:6'
awk 'BEGIN { printf "WIRE \"A .S0-1"; for (i = 2; i < 4096; i += 2) printf ",%d-%d", i, i + 1; print "\"<0:63> 0:0;" }' | frame '4096 x 1' |
    tries '64 nets of 2048 intervals' 0 CLEAN faults
printf '%s\n' 'p : BUF [0:0] ("X"<0:254>) -> ("X"<1:255>);' 'q : BUF [0:0] ("X"<255:509>) -> ("X"<256:510>);' | frame |
    tries 'a chain of 510 elements' 0 CLEAN faults
echo 'a : AND [1:1] ("CK .P0-7", "X"<0:15>) -> ("X"<0:15>);' | frame '8 x 512' | tries '16 loops in the longest period' 0 CLEAN faults rounds=10000
ranges 40 'BUF [0:9] ("CK .P2-3") -> ("X"' ');' | frame '8 x 512' | tries '10240 elements in the longest period' 0 CLEAN faults
# two delays: the longest in a long chain, in which a pulse shrinks or the edges spread; on waves that change in each slot;
# and in loops
for delays in '255:255, 254:254' '0:255, 0:255' '255:255, 0:0'; do
    printf '%s\n' 'h : BUF [0:0] ("CK .P2-3") -> ("X"<0>);' "p : BUF [$delays] (\"X\"<0:254>) -> (\"X\"<1:255>);" \
        "q : BUF [$delays] (\"X\"<255:509>) -> (\"X\"<256:510>);" | frame '8 x 512' |
        tries "a chain of 510 elements with [$delays]" 0 CLEAN faults
done
awk 'BEGIN { ticks = "0-1"; for (i = 2; i < 4096; i += 2) ticks = ticks sprintf(",%d-%d", i, i + 1)
    for (i = 0; i < 64; i++)
        printf "b%d : XOR [%d:255, 0:%d] (\"CK%s\", \"EN .S\") -> (\"X%d\");\n", i, 4 * i, 255 - 4 * i, i ? "" : " .P" ticks, i }' |
    frame '4096 x 1' | tries '64 elements with two delays and 4096 edges' 0 CLEAN faults
for delays in '1:1, 255:255' '255:255, 1:1'; do
    echo "a : AND [$delays] (\"CK .P0-7\", \"X\"<0:15>) -> (\"X\"<0:15>);" | frame '8 x 512' |
        tries "16 loops with [$delays] in the longest period" 0 CLEAN faults rounds=10000
done
# 31,000 waves of some 2,000 runs, one after another, of which the nets need 250 at a time: what is not needed is forgotten
awk 'BEGIN { printf "c : BUF [0:0] (\"CK .P0-2"; for (i = 4; i < 4096; i += 4) printf ",%d-%d", i, i + 2; print "\") -> (\"C\");"
    for (i = 1; i <= 250; i++) printf "t%d : OR [0:0] (\"C\", \"P%d .P%d-%d\") -> (\"T%d\");\n", i, i, 16 * i, 16 * i + 3, i
    for (i = 1; i <= 250; i++) printf "s%d : OR [0:0] (\"S%d\", \"T%d\") -> (\"S%d\");\n", i, i - 1, i, i }' |
    frame '4096 x 1' | kb_at_most=100000 tries '31000 dense waves, 250 at a time' 0 CLEAN faults
# evaluations that are all different and make one wave: they are forgotten too
awk 'BEGIN { print "x : AND [40:40] (\"CK .P0-7\", \"X\") -> (\"X\");"
    for (i = 0; i < 20000; i++) printf "a%d : AND [%d:%d] (ZERO, \"X\") -> (\"Y%d\");\n", i, i / 100, i / 100 + i % 100, i }' | frame '8 x 512' |
    kb_at_most=200000 tries '20000 gates that make one wave' 0 CLEAN faults

ended ", in $(($(date +%s) - begun)) seconds"
