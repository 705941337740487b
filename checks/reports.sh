#!/bin/sh
# What the built program reports on small drawings of each kind, worked out by hand: gates, storage, loops, clocks,
# checkers, macros and cases, with the status of each; and the margins, the chains and the slacks of some.
# Usage: checks/reports.sh [PROGRAM]. If none is named and none is built it says so and ends with 0.
. "$(dirname -- "$0")/common.sh"
begin "${1-}"

# A period of 8 units of 50 ticks, and the lines from line 3 on; if none of them begins a drawing, they are those
# of one.
text() {
    printf 'SCALD 1;\nCLOCK 8 x 50;\n'
    if grep -qxF 'DRAWING ROW;' "$work/lines"; then
        cat "$work/lines"
    else
        echo 'DRAWING ROW;'
        cat "$work/lines"
        echo 'END;'
    fi
}

# answered NAME WORDS STATUS LINE .. -- WANT ..: the text of the lines gets the status; $work/want has what is wanted
answered() {
    name=$1
    words=$2
    wanted=$3
    shift 3
    : >"$work/lines"
    : >"$work/want"
    while [ "$1" != -- ]; do
        printf '%s\n' "$1" >>"$work/lines"
        shift
    done
    shift
    printf '%s\n' "$@" >"$work/want"
    # shellcheck disable=SC2086
    text | "$program" $words >"$work/out" 2>/dev/null
    status=$?
    trying "$name"
    [ "$status" -eq "$wanted" ] || failure "$name: status $status in place of $wanted"
}

# whole NAME WORDS STATUS LINE .. -- WANT ..: the answer is these lines, and no other
whole() {
    answered "$@"
    cmp -s "$work/out" "$work/want" || failure "$1: another report"
}

# row NAME WORDS STATUS LINE .. -- WANT ..: the answer has these lines, in this order
row() {
    answered "$@"
    awk 'BEGIN { at = 0 } NR == FNR { want[count++] = $0; next } at < count && $0 == want[at] { at++ } END { exit (at < count) }' \
        "$work/want" "$work/out" || failure "$1: a line is missing"
}

# two choices by one net: what is late in the first is not late in the second
choice='b1 : BUF [50:50] ("IN .S1-8") -> ("SLOW1");
m1 : MUX2 [0:0] ("SEL", "IN", "SLOW1") -> ("MID");
b2 : BUF [50:50] ("MID") -> ("SLOW2");
m2 : MUX2 [0:0] ("SEL", "SLOW2", "MID") -> ("OUT");'

# --- whole reports
whole 'the first drawing' verify 0 \
    'c1 : SETUP_HOLD_CHK {SETUP=20, HOLD=10} ("CK .P2-3", "D .S1-4");' \
    -- 'SCALD 1 PERIOD 400' 'NETS 2 INSTANCES 0 CHECKS 1' 'CASE 0 BASE 0 ROUNDS 0 T 1' 'WAVE CK<0> SKEW 0 0:100 R:1 1:49 F:1 0:249' \
    'WAVE D<0> SKEW 0 C:51 S:149 C:200' 'CLEAN'
whole 'a change up to the edge' verify 1 \
    'c1 : SETUP_HOLD_CHK {SETUP=20, HOLD=10} ("CK .P2-3", "D .S2-4");' \
    -- 'SCALD 1 PERIOD 400' 'NETS 2 INSTANCES 0 CHECKS 1' 'CASE 0 BASE 0 ROUNDS 0 T 1' 'WAVE CK<0> SKEW 0 0:100 R:1 1:49 F:1 0:249' \
    'WAVE D<0> SKEW 0 C:101 S:99 C:200' 'FAULT SETUP c1<0> EDGE 100 SLOT 81 VALUE C' 'FAULTS 1'
whole 'a window that is open at its front' verify 0 \
    'c1 : SETUP_HOLD_CHK {SETUP=0, HOLD=10} ("CK .P2-3", "D .S2-4");' \
    -- 'SCALD 1 PERIOD 400' 'NETS 2 INSTANCES 0 CHECKS 1' 'CASE 0 BASE 0 ROUNDS 0 T 1' 'WAVE CK<0> SKEW 0 0:100 R:1 1:49 F:1 0:249' \
    'WAVE D<0> SKEW 0 C:101 S:99 C:200' 'CLEAN'
whole 'a window over the end of the period' verify 0 \
    'c1 : SETUP_HOLD_CHK {SETUP=50, HOLD=10} ("CK .P0-1", "D .S7-2");' \
    -- 'SCALD 1 PERIOD 400' 'NETS 2 INSTANCES 0 CHECKS 1' 'CASE 0 BASE 0 ROUNDS 0 T 1' 'WAVE CK<0> SKEW 0 R:1 1:49 F:1 0:349' \
    'WAVE D<0> SKEW 0 S:100 C:251 S:49' 'CLEAN'
whole 'a setup of one tick more over the end of the period' verify 1 \
    'c1 : SETUP_HOLD_CHK {SETUP=51, HOLD=10} ("CK .P0-1", "D .S7-2");' \
    -- 'SCALD 1 PERIOD 400' 'NETS 2 INSTANCES 0 CHECKS 1' 'CASE 0 BASE 0 ROUNDS 0 T 1' 'WAVE CK<0> SKEW 0 R:1 1:49 F:1 0:349' \
    'WAVE D<0> SKEW 0 S:100 C:251 S:49' 'FAULT SETUP c1<0> EDGE 0 SLOT 350 VALUE C' 'FAULTS 1'
whole 'a change after the edge, and nets in the order of their names' verify 1 \
    'c1 : SETUP_HOLD_CHK {SETUP=0, HOLD=10} ("Z .P2-3", "D .S1-2");' \
    -- 'SCALD 1 PERIOD 400' 'NETS 2 INSTANCES 0 CHECKS 1' 'CASE 0 BASE 0 ROUNDS 0 T 1' 'WAVE D<0> SKEW 0 C:51 S:49 C:300' \
    'WAVE Z<0> SKEW 0 0:100 R:1 1:49 F:1 0:249' 'FAULT HOLD c1<0> EDGE 100 SLOT 101 VALUE C' 'FAULTS 1'
whole 'the widest pulse that may be asked for' verify 0 \
    'w1 : MIN_PULSE_CHK {HIGH=400} ("K");' \
    -- 'SCALD 1 PERIOD 400' 'NETS 1 INSTANCES 0 CHECKS 1' 'STABLE K<0>' 'CASE 0 BASE 0 ROUNDS 0 T 1' 'WAVE K<0> SKEW 0 S:400' 'CLEAN'
whole 'nothing at all' verify 0 \
    -- 'SCALD 1 PERIOD 400' 'NETS 0 INSTANCES 0 CHECKS 0' 'CASE 0 BASE 0 ROUNDS 0 T 1' 'CLEAN'
whole 'a choice in its two cases' verify 0 \
    'DRAWING ROW;' "$choice" 'c1 : SETUP_HOLD_CHK {SETUP=20, HOLD=5} ("CK .P3-4", "OUT");' 'END;' 'CASE "SEL"=0;' 'CASE "SEL"=1;' \
    -- 'SCALD 1 PERIOD 400' 'NETS 7 INSTANCES 4 CHECKS 1' 'STABLE SEL<0>' 'CASE 1 BASE 4 ROUNDS 3 T 408' \
    'WAVE CK<0> SKEW 0 0:150 R:1 1:49 F:1 0:199' 'WAVE IN<0> SKEW 0 C:51 S:349' 'WAVE MID<0> SKEW 0 C:51 S:349' \
    'WAVE OUT<0> SKEW 0 S:50 C:51 S:299' 'WAVE SEL<0> SKEW 0 0:400' 'WAVE SLOW1<0> SKEW 0 S:50 C:51 S:299' \
    'WAVE SLOW2<0> SKEW 0 S:50 C:51 S:299' 'CASE 2 BASE 4 ROUNDS 3 T 408' 'WAVE CK<0> SKEW 0 0:150 R:1 1:49 F:1 0:199' \
    'WAVE IN<0> SKEW 0 C:51 S:349' 'WAVE MID<0> SKEW 0 S:50 C:51 S:299' 'WAVE OUT<0> SKEW 0 S:50 C:51 S:299' 'WAVE SEL<0> SKEW 0 1:400' \
    'WAVE SLOW1<0> SKEW 0 S:50 C:51 S:299' 'WAVE SLOW2<0> SKEW 0 S:100 C:51 S:249' 'CLEAN'

# --- lines of reports
row 'the greatest number of a bit' verify 0 \
    'b1 : BUF [0:0] ("A"<65535>) -> ("X");' \
    -- 'STABLE A<65535>' 'CASE 0 BASE 1 ROUNDS 0 T 2'
row 'the deepest nesting' verify 0 \
    'b1 : BUF ['"$(many 64 '(')0$(many 64 ')')"':0] ("A") -> ("X");' \
    -- 'CASE 0 BASE 1 ROUNDS 0 T 2'
row 'a skew keeps the pulse, which a fold would narrow to 30' verify 0 \
    'b1 : BUF [10:30] ("CK .P2-3") -> ("X");' 'w1 : MIN_PULSE_CHK {HIGH=50} ("X");' \
    -- 'CASE 0 BASE 1 ROUNDS 0 T 62' 'WAVE X<0> SKEW 20 0:110 R:1 1:49 F:1 0:239'
row 'a pulse that is one tick short' verify 1 \
    'b1 : BUF [10:30] ("CK .P2-3") -> ("X");' 'w1 : MIN_PULSE_CHK {HIGH=51} ("X");' \
    -- 'FAULT WIDTH w1<0> HIGH FROM 110 WIDTH 50' 'FAULTS 1'
row 'two pins that move' verify 0 \
    'b1 : BUF [10:30] ("CK .P2-3") -> ("X");' 'b2 : BUF [10:30] ("CK") -> ("Y");' 'a1 : AND [0:0] ("X", "Y") -> ("Z");' \
    -- 'CASE 0 BASE 2 ROUNDS 0 T 93' 'WAVE Z<0> SKEW 0 0:110 R:21 1:29 F:21 0:219'
row 'a loop through a register' verify 0 \
    'r1 : REG [5:15] ("CK .P2-3", "D") -> ("Q");' 'b1 : BUF [2:4] (-"Q") -> ("D");' 'c1 : SETUP_HOLD_CHK {SETUP=20, HOLD=5} ("CK", "D");' \
    -- 'NETS 3 INSTANCES 2 CHECKS 1' 'CASE 0 BASE 2 ROUNDS 0 T 48' 'WAVE D<0> SKEW 12 S:107 C:1 S:292' \
    'WAVE Q<0> SKEW 10 S:105 C:1 S:294'
row 'a loop that stays unknown' verify 1 \
    'x1 : XOR [1:1] ("CK .P2-3", "X") -> ("X");' 'c1 : SETUP_HOLD_CHK {SETUP=20, HOLD=5} ("CK", "X");' \
    -- 'CASE 0 BASE 0 ROUNDS 0 T 2' 'WAVE X<0> SKEW 0 U:400' 'FAULT SETUP c1<0> EDGE 100 SLOT 81 VALUE U'
row 'a loop that its clock clears' verify 0 \
    'x1 : AND [1:1] ("CK .P2-3", "X") -> ("X");' 'c1 : SETUP_HOLD_CHK {SETUP=20, HOLD=5} ("CK", "X");' \
    -- 'CASE 0 BASE 52 ROUNDS 0 T 106' 'WAVE X<0> SKEW 0 0:400'
row 'a loop of one buffer' verify 0 \
    'b1 : BUF [1:1] ("X") -> ("X");' \
    -- 'NETS 1 INSTANCES 1 CHECKS 0' 'CASE 0 BASE 0 ROUNDS 0 T 2' 'WAVE X<0> SKEW 0 U:400' 'CLEAN'
row 'two latches of two phases' verify 0 \
    'l1 : LATCH [1:3] ("PH1 .P0-3", "B") -> ("A");' 'l2 : LATCH [1:3] ("PH2 .P4-7", "A") -> ("B");' \
    -- 'CASE 0 BASE 2 ROUNDS 0 T 12' 'WAVE A<0> SKEW 2 S:1 C:1 S:398' 'WAVE B<0> SKEW 2 S:201 C:1 S:198'
row 'a choice whose two sides are never chosen together' verify 1 \
    "$choice" 'c1 : SETUP_HOLD_CHK {SETUP=20, HOLD=5} ("CK .P3-4", "OUT");' \
    -- 'STABLE SEL<0>' 'CASE 0 BASE 4 ROUNDS 0 T 255' 'WAVE OUT<0> SKEW 0 C:151 S:249' 'FAULT SETUP c1<0> EDGE 150 SLOT 131 VALUE C'
row 'a skew past the period' verify 0 \
    'b1 : BUF [0:4095] ("CK .P2-3") -> ("A");' 'b2 : BUF [0:4095] ("A") -> ("B");' \
    -- 'CASE 0 BASE 2 ROUNDS 0 T 12288' 'WAVE A<0> SKEW 399 0:100 R:1 1:49 F:1 0:249' 'WAVE B<0> SKEW 399 0:100 R:1 1:49 F:1 0:249'
row 'folds of skews past the period' 'verify faults' 1 \
    'b1 : BUF [0:4095] ("CK .P2-3") -> ("A");' 'b2 : BUF [0:4095] ("A") -> ("B");' \
    'c1 : SETUP_HOLD_CHK {SETUP=400, HOLD=0} ("A", "B");' 'c2 : SETUP_HOLD_CHK {SETUP=1} ("B", "A");' \
    -- 'FAULT SETUP c1<0> EDGE 0 SLOT 1 VALUE C' 'FAULT SETUP c2<0> EDGE 0 SLOT 0 VALUE C' 'FAULTS 2'
row 'a hazard' verify 1 \
    'a1 : AND [0:0] ("CK .P2-3" !H, "E .S1-2") -> ("G");' \
    -- 'WAVE G<0> SKEW 0 0:100 C:51 0:249' 'FAULT HAZARD a1<0> SLOT 100 PIN 1'
row 'a marked clock that is not gated while it is high' verify 0 \
    'a1 : AND [0:0] ("CK .P2-3" !H, "E .S1-4") -> ("G");' \
    -- 'WAVE G<0> SKEW 0 0:100 R:1 S:49 F:1 0:249'
row 'a clock whose edges move by themselves' verify 0 \
    'c1 : SETUP_HOLD_CHK {SETUP=20, HOLD=10} ("CK .C2-3(5,5)", "D .S1-4");' \
    -- 'WAVE CK<0> SKEW 0 0:95 R:11 1:39 F:11 0:244'
row 'edges that move further' verify 1 \
    'c1 : SETUP_HOLD_CHK {SETUP=30, HOLD=10} ("CK .C2-3(25,24)", "D .S1-4");' \
    -- 'FAULT SETUP c1<0> EDGE 75 SLOT 46 VALUE C'
row 'regions of edges that touch' verify 0 \
    'c1 : MIN_PULSE_CHK {HIGH=1} ("CK .C2-3(25,24)");' \
    -- 'CLEAN'
row 'a clock that is low in its units' verify 0 \
    'c1 : SETUP_HOLD_CHK {SETUP=20, HOLD=10} ("CK .P2-3L", "D .S1-4");' \
    -- 'WAVE CK<0> SKEW 0 1:100 F:1 0:49 R:1 1:249'
row 'a clock of which only changes are known' verify 1 \
    'k1 : CHG [0:0] ("CK .P2-3") -> ("K");' 'c1 : SETUP_HOLD_CHK {SETUP=20, HOLD=10} ("K", "D .S2-4");' \
    -- 'FAULT SETUP c1<0> EDGE 100 SLOT 81 VALUE C'
row 'an input that stays while the clock is high' verify 0 \
    'c1 : SETUP_RISE_HOLD_FALL_CHK {SETUP=10, HOLD=5} ("CK .P2-3", "D .S1-4");' \
    -- 'CLEAN'
row 'an input that moves while the clock is high' verify 1 \
    'c1 : SETUP_RISE_HOLD_FALL_CHK {SETUP=10, HOLD=5} ("CK .P2-3", "D .S1-3");' \
    -- 'FAULT HIGH c1<0> EDGE 100 SLOT 150 VALUE C'
row 'a driven net that keeps its assertion' verify 0 \
    'r1 : REG [5:15] ("CK .P2-3", "D .S1-4") -> ("Q .S3-2");' \
    -- 'CASE 0 BASE 1 ROUNDS 0 T 32'
row 'a driven net that breaks its assertion' verify 1 \
    'r1 : REG [5:15] ("CK .P2-3", "D .S1-4") -> ("Q .S2-1");' \
    -- 'FAULT ASSERT Q<0> SLOT 105 VALUE C'
row 'set and reset at once' verify 0 \
    'r1 : REG_RS [1:1] (ZERO, "D", ONE, ONE) -> ("Q");' \
    -- 'STABLE D<0>' 'CASE 0 BASE 1 ROUNDS 0 T 4' 'WAVE Q<0> SKEW 0 C:400'
row 'set alone' verify 0 \
    'r1 : REG_RS [1:1] (ZERO, "D", ONE, ZERO) -> ("Q");' \
    -- 'WAVE Q<0> SKEW 0 1:400'
row 'a chain of two' verify 0 \
    'b1 : BUF [1:1] ("CK .P2-3") -> ("X");' 'b2 : BUF [1:1] ("X") -> ("Y");' \
    -- 'CASE 0 BASE 2 ROUNDS 0 T 6' 'WAVE Y<0> SKEW 0 0:102 R:1 1:49 F:1 0:247'
row 'spaces, comments and leading zeros' verify 0 \
    'c1:SETUP_HOLD_CHK -- a checker' '{SETUP = 020,HOLD=10}("CK .P2-3","D .S1-4") ; -- its end' \
    -- 'SCALD 1 PERIOD 400' 'NETS 2 INSTANCES 0 CHECKS 1' 'CASE 0 BASE 0 ROUNDS 0 T 1' 'WAVE CK<0> SKEW 0 0:100 R:1 1:49 F:1 0:249' \
    'WAVE D<0> SKEW 0 C:51 S:149 C:200' 'CLEAN'
whole 'a chain of two and one round' 'verify rounds=1' 3 \
    'b1 : BUF [1:1] ("CK .P2-3") -> ("X");' 'b2 : BUF [1:1] ("X") -> ("Y");' \
    -- 'UNSETTLED Y<0> ROUND 1'

# --- two delays
row 'each edge by its own delay' verify 0 \
    'b1 : BUF [2:4, 6:8] ("CK .P2-3") -> ("X");' 'w1 : MIN_PULSE_CHK {HIGH=52} ("X");' \
    -- 'CASE 0 BASE 1 ROUNDS 0 T 18' 'WAVE X<0> SKEW 0 0:102 R:3 1:51 F:3 0:241' 'CLEAN'
row 'a pulse that is one tick short, from its latest rise to its earliest fall' verify 1 \
    'b1 : BUF [2:4, 6:8] ("CK .P2-3") -> ("X");' 'w1 : MIN_PULSE_CHK {HIGH=53} ("X");' \
    -- 'FAULT WIDTH w1<0> HIGH FROM 104 WIDTH 52' 'FAULTS 1'
row 'rises that take longer narrow a pulse' verify 0 \
    'b1 : BUF [6:8, 2:4] ("CK .P2-3") -> ("X");' 'w1 : MIN_PULSE_CHK {HIGH=44} ("X");' \
    -- 'CASE 0 BASE 1 ROUNDS 0 T 18' 'WAVE X<0> SKEW 0 0:106 R:3 1:43 F:3 0:245' 'CLEAN'
row 'a pulse that they narrow too much' verify 1 \
    'b1 : BUF [6:8, 2:4] ("CK .P2-3") -> ("X");' 'w1 : MIN_PULSE_CHK {HIGH=45} ("X");' \
    -- 'FAULT WIDTH w1<0> HIGH FROM 108 WIDTH 44' 'FAULTS 1'
row 'a pulse that is swallowed' verify 0 \
    'b1 : BUF [61:61, 10:10] ("CK .P2-3") -> ("X");' \
    -- 'CASE 0 BASE 1 ROUNDS 0 T 124' 'WAVE X<0> SKEW 0 0:400'
row 'a pulse of which one tick is left' verify 0 \
    'b1 : BUF [59:59, 10:10] ("CK .P2-3") -> ("X");' \
    -- 'CASE 0 BASE 1 ROUNDS 0 T 120' 'WAVE X<0> SKEW 0 0:159 R:1 F:1 0:239'
row 'a complemented output of two delays' verify 0 \
    'b1 : BUF [2:4, 6:8] ("CK .P2-3") -> (-"X");' \
    -- 'WAVE X<0> SKEW 0 1:102 F:3 0:51 R:3 1:241'
row 'the longest two delays' verify 0 \
    'b1 : BUF [0:255, 0:255] ("CK .P2-3") -> ("X");' \
    -- 'CASE 0 BASE 1 ROUNDS 0 T 512' 'WAVE X<0> SKEW 0 F:6 0:94 R:50 C:206 F:44'
row 'two delays by the parameter of a macro' verify 0 \
    'MACRO SLOW {N=1} ("A") -> ("Z");' 'b : BUF [N:2*N, 3*N:4*N] ("A") -> ("Z");' 'END;' 'DRAWING ROW;' \
    'u1 : SLOW {N=2} ("CK .P2-3") -> ("X");' 'END;' \
    -- 'CASE 0 BASE 1 ROUNDS 0 T 18' 'WAVE X<0> SKEW 0 0:102 R:3 1:51 F:3 0:241'
row 'a loop of two delays, neither of which may be 0' verify 0 \
    'b1 : BUF [1:5, 3:3] ("X") -> ("X");' \
    -- 'NETS 1 INSTANCES 1 CHECKS 0' 'CASE 0 BASE 0 ROUNDS 0 T 6' 'WAVE X<0> SKEW 0 U:400' 'CLEAN'
row 'a loop of a delay of 0 through a late wire' verify 0 \
    'WIRE 1:1;' 'DRAWING ROW;' 'b1 : BUF [0:5, 3:3] ("X") -> ("X");' 'END;' \
    -- 'CASE 0 BASE 0 ROUNDS 0 T 7' 'WAVE X<0> SKEW 0 U:400' 'CLEAN'

# --- macros and wires
row 'a tree of gates' verify 0 \
    'MACRO TREE {SIZE=8} ("A"<0:SIZE-1>) -> ("Z");' 'IF SIZE = 1 THEN leaf : BUF [1:2] ("A"<0>) -> ("Z");' \
    'ELSE left : TREE {SIZE=SIZE/2} ("A"<0:SIZE/2-1>) -> ("L");' 'right : TREE {SIZE=SIZE/2} ("A"<SIZE/2:SIZE-1>) -> ("R");' \
    'top : OR [1:2] ("L", "R") -> ("Z"); END;' 'END;' 'DRAWING ROW;' 't : TREE ("IN"<0:7>) -> ("OUT");' 'END;' \
    -- 'NETS 23 INSTANCES 15 CHECKS 0' 'STABLE IN<0>' 'STABLE IN<1>' 'STABLE IN<2>' 'STABLE IN<3>' 'STABLE IN<4>' 'STABLE IN<5>' 'STABLE IN<6>' \
    'STABLE IN<7>' 'CASE 0 BASE 4 ROUNDS 0 T 15' 'WAVE OUT<0> SKEW 0 S:400'
row 'a checker of two bits' verify 0 \
    'MACRO CHK2 {N=2} ("CK", "D"<0:N-1>);' 'c : SETUP_HOLD_CHK {SETUP=20, HOLD=10} ("CK", "D"<0:N-1>);' 'END;' 'DRAWING ROW;' \
    'u1 : CHK2 ("CK .P2-3", "D .S1-4"<0:1>);' 'END;' \
    -- 'NETS 3 INSTANCES 0 CHECKS 2' 'CASE 0 BASE 0 ROUNDS 0 T 1'
row 'a checker of two bits that both have a fault' verify 1 \
    'MACRO CHK2 {N=2} ("CK", "D"<0:N-1>);' 'c : SETUP_HOLD_CHK {SETUP=20, HOLD=10} ("CK", "D"<0:N-1>);' 'END;' 'DRAWING ROW;' \
    'u1 : CHK2 ("CK .P2-3", "D .S2-4"<0:1>);' 'END;' \
    -- 'FAULT SETUP u1/c<0> EDGE 100 SLOT 81 VALUE C' 'FAULT SETUP u1/c<1> EDGE 100 SLOT 81 VALUE C' 'FAULTS 2'
row 'late wires' verify 0 \
    'WIRE 0:20;' 'DRAWING ROW;' 'c1 : SETUP_HOLD_CHK {SETUP=20, HOLD=10} ("CK .P2-3", "D .S1-4");' 'END;' \
    -- 'CASE 0 BASE 0 ROUNDS 0 T 21'
row 'the longest setup after late wires' verify 0 \
    'WIRE 0:20;' 'DRAWING ROW;' 'c1 : SETUP_HOLD_CHK {SETUP=30, HOLD=10} ("CK .P2-3", "D .S1-4");' 'END;' \
    -- 'CLEAN'
row 'one tick more after late wires' verify 1 \
    'WIRE 0:20;' 'DRAWING ROW;' 'c1 : SETUP_HOLD_CHK {SETUP=31, HOLD=10} ("CK .P2-3", "D .S1-4");' 'END;' \
    -- 'FAULT SETUP c1<0> EDGE 100 SLOT 70 VALUE C'
row 'waves alone' 'verify waves' 1 \
    'c1 : SETUP_HOLD_CHK {SETUP=20, HOLD=10} ("CK .P2-3", "D .S2-4");' \
    -- 'WAVE D<0> SKEW 0 C:101 S:99 C:200' 'FAULTS 1'

# --- cases
whole 'faults in the last case alone' 'verify faults' 1 \
    'DRAWING ROW;' "$choice" 'c1 : SETUP_HOLD_CHK {SETUP=20, HOLD=5} ("CK .P3-4", "SLOW2");' 'END;' 'CASE "SEL"=0;' 'CASE "SEL"=1;' \
    -- 'SCALD 1 PERIOD 400' 'NETS 7 INSTANCES 4 CHECKS 1' 'STABLE SEL<0>' 'CASE 1 BASE 4 ROUNDS 3 T 408' 'CASE 2 BASE 4 ROUNDS 3 T 408' \
    'FAULT SETUP c1<0> EDGE 150 SLOT 131 VALUE C' 'FAULTS 1'
whole 'faults in the first case alone' 'verify faults' 1 \
    'DRAWING ROW;' "$choice" 'c1 : SETUP_HOLD_CHK {SETUP=20, HOLD=5} ("CK .P3-4", "SLOW2");' 'END;' 'CASE "SEL"=1;' 'CASE "SEL"=0;' \
    -- 'SCALD 1 PERIOD 400' 'NETS 7 INSTANCES 4 CHECKS 1' 'STABLE SEL<0>' 'CASE 1 BASE 4 ROUNDS 3 T 408' \
    'FAULT SETUP c1<0> EDGE 150 SLOT 131 VALUE C' 'CASE 2 BASE 4 ROUNDS 3 T 408' 'FAULTS 1'
whole 'faults in both cases, which may be the same' 'verify faults' 1 \
    'DRAWING ROW;' "$choice" 'c1 : SETUP_HOLD_CHK {SETUP=20, HOLD=5} ("CK .P3-4", "SLOW2");' 'END;' 'CASE "SEL"=1;' 'CASE "SEL"=1;' \
    -- 'SCALD 1 PERIOD 400' 'NETS 7 INSTANCES 4 CHECKS 1' 'STABLE SEL<0>' 'CASE 1 BASE 4 ROUNDS 3 T 408' \
    'FAULT SETUP c1<0> EDGE 150 SLOT 131 VALUE C' 'CASE 2 BASE 4 ROUNDS 3 T 408' 'FAULT SETUP c1<0> EDGE 150 SLOT 131 VALUE C' 'FAULTS 2'
whole 'faults in no case: a late input that stays has no late change' 'verify faults' 0 \
    'DRAWING ROW;' "$choice" 'c1 : SETUP_HOLD_CHK {SETUP=20, HOLD=5} ("CK .P3-4", "SLOW2");' 'END;' 'CASE "SEL"=0;' 'CASE "IN"=1, "SEL"=1;' \
    -- 'SCALD 1 PERIOD 400' 'NETS 7 INSTANCES 4 CHECKS 1' 'STABLE SEL<0>' 'CASE 1 BASE 4 ROUNDS 3 T 408' 'CASE 2 BASE 4 ROUNDS 3 T 408' \
    'CLEAN'
whole 'faults where what one case sets is unset again in the next' 'verify faults' 1 \
    'DRAWING ROW;' "$choice" 'c1 : SETUP_HOLD_CHK {SETUP=20, HOLD=5} ("CK .P3-4", "SLOW2");' 'END;' 'CASE "IN"=1, "SEL"=1;' 'CASE "SEL"=1;' \
    -- 'SCALD 1 PERIOD 400' 'NETS 7 INSTANCES 4 CHECKS 1' 'STABLE SEL<0>' 'CASE 1 BASE 4 ROUNDS 3 T 408' 'CASE 2 BASE 4 ROUNDS 3 T 408' \
    'FAULT SETUP c1<0> EDGE 150 SLOT 131 VALUE C' 'FAULTS 1'
row 'as many cases as may be' 'verify faults' 0 \
    'DRAWING ROW;' 'w1 : MIN_PULSE_CHK {HIGH=400} ("K");' 'END;' "$(many 256 'CASE "K"=0;\n')" \
    -- 'CASE 1 BASE 0 ROUNDS 0 T 1' 'CASE 2 BASE 0 ROUNDS 0 T 1' 'CASE 256 BASE 0 ROUNDS 0 T 1' 'CLEAN'
whole 'a ring that a case clears, rounds=5' 'verify faults rounds=5' 3 \
    'DRAWING ROW;' 'a : AND [1:1] ("A", "X"<9>) -> ("X"<0>);' 'b : BUF [0:0] ("X"<0:8>) -> ("X"<1:9>);' 'END;' 'CASE "A"=1;' \
    'CASE "A"=0;' \
    -- 'UNSETTLED X<5> ROUND 5'
whole 'a ring that a case clears, rounds=9' 'verify faults rounds=9' 3 \
    'DRAWING ROW;' 'a : AND [1:1] ("A", "X"<9>) -> ("X"<0>);' 'b : BUF [0:0] ("X"<0:8>) -> ("X"<1:9>);' 'END;' 'CASE "A"=1;' \
    'CASE "A"=0;' \
    -- 'UNSETTLED X<9> ROUND 9'
whole 'a ring that a case clears, rounds=10' 'verify faults rounds=10' 0 \
    'DRAWING ROW;' 'a : AND [1:1] ("A", "X"<9>) -> ("X"<0>);' 'b : BUF [0:0] ("X"<0:8>) -> ("X"<1:9>);' 'END;' 'CASE "A"=1;' \
    'CASE "A"=0;' \
    -- 'SCALD 1 PERIOD 400' 'NETS 11 INSTANCES 10 CHECKS 0' 'STABLE A<0>' 'CASE 1 BASE 0 ROUNDS 0 T 2' 'CASE 2 BASE 0 ROUNDS 10 T 22' \
    'CLEAN'

# --- kinds of many pins, all faults together, and a case of a global net
row 'a choice of four and of eight, by selects of which the first counts most' verify 0 \
    'm4 : MUX4 [0:0] (ONE, ZERO, ZERO, ZERO, ONE, ZERO) -> ("X");' \
    'm8 : MUX8 [0:0] (ONE, ONE, ZERO, ZERO, ZERO, ZERO, ZERO, ZERO, ZERO, ONE, ZERO) -> ("Y");' \
    -- 'NETS 2 INSTANCES 2 CHECKS 0' 'WAVE X<0> SKEW 0 1:400' 'WAVE Y<0> SKEW 0 1:400'
row 'a latch that is set, one that is reset, and one that is neither' verify 0 \
    'l1 : LATCH_RS [0:0] (ONE, ONE, ZERO, ONE) -> ("L1");' 'l2 : LATCH_RS [0:0] (ONE, ZERO, ONE, ZERO) -> ("L2");' \
    'l3 : LATCH_RS [0:0] ("CK .P2-3", ONE, ZERO, ZERO) -> ("L3");' \
    -- 'CASE 0 BASE 1 ROUNDS 0 T 2' 'WAVE L1<0> SKEW 0 0:400' 'WAVE L2<0> SKEW 0 1:400' 'WAVE L3<0> SKEW 0 S:100 R:1 1:49 S:250'
whole 'faults of each kind, in their order' 'verify faults' 1 \
    'w1 : MIN_PULSE_CHK {HIGH=60, LOW=351} ("CK .P2-3");' 'a1 : AND [0:0] ("CK" !H, "E .S1-2") -> ("G");' \
    'r1 : REG [5:15] ("CK", "D .S1-4") -> ("Q .S2-1");' 'r2 : REG [5:15] ("CK", "D") -> ("P .S2-1");' \
    'c1 : SETUP_HOLD_CHK {SETUP=20, HOLD=10} ("CK", "H .S2-4");' \
    -- 'SCALD 1 PERIOD 400' 'NETS 7 INSTANCES 3 CHECKS 2' 'CASE 0 BASE 1 ROUNDS 0 T 32' 'FAULT HAZARD a1<0> SLOT 100 PIN 1' \
    'FAULT SETUP c1<0> EDGE 100 SLOT 81 VALUE C' 'FAULT ASSERT P<0> SLOT 105 VALUE C' 'FAULT ASSERT Q<0> SLOT 105 VALUE C' \
    'FAULT WIDTH w1<0> HIGH FROM 100 WIDTH 50' 'FAULT WIDTH w1<0> LOW FROM 150 WIDTH 350' 'FAULTS 6'
whole 'a case of a global net, which is named inside of a macro' verify 0 \
    'MACRO M ("A") -> ("Z");' 'm : AND [0:0] ("/SEL", "A") -> ("Z");' 'END;' 'DRAWING ROW;' 'u : M ("IN .S1-8") -> ("OUT");' 'END;' 'CASE "/SEL"=0;' \
    -- 'SCALD 1 PERIOD 400' 'NETS 3 INSTANCES 1 CHECKS 0' 'STABLE /SEL<0>' 'CASE 1 BASE 1 ROUNDS 1 T 3' 'WAVE /SEL<0> SKEW 0 0:400' \
    'WAVE IN<0> SKEW 0 C:51 S:349' 'WAVE OUT<0> SKEW 0 0:400' 'CLEAN'

# --- notes
whole 'notes of each kind, in their order' notes 1 \
    'c1 : SETUP_HOLD_CHK {SETUP=1} ("CLK", "D .S1-4");' 'w1 : MIN_PULSE_CHK {HIGH=1} ("CK .P2-3");' 'r1 : REG [5:10] ("CK", "D") -> ("Q");' \
    'k1 : CHG [20:395] ("Q") -> ("E"<0:1>);' 'b1 : BUF [1:1] ("E") -> ("X .S"<0:1>);' 't1 : BUF [20:40] ("CK") -> ("T");' \
    'r2 : REG [5:10] ("T", "E") -> ("P");' 'c2 : SETUP_HOLD_CHK {SETUP=1} ("T", "P");' 'x1 : XOR [1:1] ("CK", "L") -> ("L");' \
    -- 'SCALD 1 PERIOD 400' 'NOTE UNCLOCKED c1<0> PIN 0 CLK<0>' 'NOTE IDLE w1<0>' 'NOTE UNCHECKED r1<0> D<0>' 'NOTE UNCHECKED r2<0> E<0>' \
    'NOTE UNREAD E<1>' 'NOTE SPREAD 8:17 E WIDTH 2' 'NOTE LATE r2<0> PIN 1 E<0> TICKS 405 FROM r1<0>' 'NOTE LOOP L<0> NETS 1' \
    'NOTE UNKNOWN CASE 0 NETS 1 L<0>' 'NOTE COMMON c2<0> T<0> TICKS 20' 'NOTES 10'
whole 'nothing to note' notes 0 \
    'r1 : REG [5:10] ("CK .P2-3", "D .S1-4") -> ("Q .S3-2");' 'c1 : SETUP_HOLD_CHK {SETUP=20, HOLD=10} ("CK", "D");' \
    -- 'SCALD 1 PERIOD 400' 'CLEAN'

# --- chains and margins
whole 'a late input, latest through its wire' chains 1 \
    'WIRE 0:20;' 'DRAWING ROW;' 'c1 : SETUP_HOLD_CHK {SETUP=31, HOLD=10} ("CK .P2-3", "D .S1-4");' 'END;' \
    -- 'SCALD 1 PERIOD 400' 'CASE 0' 'FAULT SETUP c1<0> EDGE 100 SLOT 70 VALUE C' 'LINK D<0> SLOT 50 VALUE C' 'END UNDRIVEN' 'FAULTS 1'
whole 'a change function, which may change long after' chains 1 \
    'k1 : CHG [20:60] ("D .S1-4") -> ("S");' 'c1 : SETUP_HOLD_CHK {SETUP=30, HOLD=10} ("CK .P2-3", "S");' \
    -- 'SCALD 1 PERIOD 400' 'CASE 0' 'FAULT SETUP c1<0> EDGE 100 SLOT 71 VALUE C' 'LINK S<0> SLOT 71 VALUE C' 'LINK D<0> SLOT 50 VALUE C' 'END UNDRIVEN' 'FAULTS 1'
whole 'complements at a pin and at an output' chains 1 \
    'b1 : BUF [5:5] (-"CK .P2-3") -> (-"X");' 'c1 : SETUP_HOLD_CHK {SETUP=1} ("CK2 .P2-3", "X");' 'c2 : SETUP_HOLD_CHK {HOLD=5} ("CK2", -"X");' \
    -- 'SCALD 1 PERIOD 400' 'CASE 0' 'FAULT HOLD c2<0> EDGE 100 SLOT 105 VALUE F' 'LINK X<0> SLOT 105 VALUE R' 'LINK CK<0> SLOT 100 VALUE R' 'END UNDRIVEN' 'FAULTS 1'
whole 'one net on two pins' chains 1 \
    'x1 : XOR [0:0] ("A .S2-8", "A") -> ("X");' 'c1 : SETUP_HOLD_CHK {SETUP=20} ("CK .P2-3", "X");' \
    -- 'SCALD 1 PERIOD 400' 'CASE 0' 'FAULT SETUP c1<0> EDGE 100 SLOT 81 VALUE C' 'LINK X<0> SLOT 81 VALUE C' 'LINK A<0> SLOT 81 VALUE C' 'END UNDRIVEN' 'FAULTS 1'
whole 'the first pin that changes, though a later one changed last' chains 1 \
    'a1 : AND [0:10] ("B .S1-8", "A .S2-8") -> ("X");' 'c1 : SETUP_HOLD_CHK {SETUP=46} ("CK .P2-3", "X");' \
    -- 'SCALD 1 PERIOD 400' 'CASE 0' 'FAULT SETUP c1<0> EDGE 100 SLOT 55 VALUE C' 'LINK X<0> SLOT 55 VALUE C' 'LINK B<0> SLOT 50 VALUE C' 'END UNDRIVEN' 'FAULTS 1'
whole 'inside 64 macros' chains 1 \
    'MACRO D {N=1} ("A") -> ("Z");' 'IF N > 1 THEN x : D {N=N-1} ("A") -> ("Z");' 'ELSE b : BUF [1:1] ("A") -> ("Z"); c : SETUP_HOLD_CHK {SETUP=20} ("/CK .P1-2", "Z"); END;' 'END;' 'DRAWING ROW;' 't : D {N=64} ("IN .S1-8") -> ("OUT");' 'END;' \
    -- 'SCALD 1 PERIOD 400' 'CASE 0' 'FAULT SETUP t/x/x/x/x/x/x/x/x/x/x/x/x/x/x/x/x/x/x/x/x/x/x/x/x/x/x/x/x/x/x/x/x/x/x/x/x/x/x/x/x/x/x/x/x/x/x/x/x/x/x/x/x/x/x/x/x/x/x/x/x/x/x/x/c<0> EDGE 50 SLOT 31 VALUE C' 'LINK OUT<0> SLOT 31 VALUE C' 'LINK IN<0> SLOT 30 VALUE C' 'END UNDRIVEN' 'FAULTS 1'
whole 'a latch, through its enable' chains 1 \
    'l1 : LATCH [1:3] ("EN .P0-2", "D .S1-8") -> ("Q .S0-2");' \
    -- 'SCALD 1 PERIOD 400' 'CASE 0' 'FAULT ASSERT Q<0> SLOT 1 VALUE C' 'LINK Q<0> SLOT 1 VALUE C' 'LINK EN<0> SLOT 0 VALUE R' 'END UNDRIVEN' 'FAULTS 1'
whole 'a gate, late by the wire of its own pin and then by itself' chains 1 \
    'WIRE "A" 5:9;' 'b1 : BUF [10:12] ("A .S1-8") -> ("X");' 'c1 : SETUP_HOLD_CHK {SETUP=20} ("CK .P1-2", "X");' \
    -- 'SCALD 1 PERIOD 400' 'CASE 0' 'FAULT SETUP c1<0> EDGE 50 SLOT 31 VALUE C' 'LINK X<0> SLOT 31 VALUE C' 'LINK A<0> SLOT 16 VALUE C' 'END UNDRIVEN' 'FAULTS 1'
whole 'a marked pin, past one that is quiet there' chains 1 \
    'a1 : AND [2:2] ("E .S1-4", "CK .P2-3" !H) -> ("G");' 'c1 : SETUP_HOLD_CHK {HOLD=2} ("CK", "G");' \
    -- 'SCALD 1 PERIOD 400' 'CASE 0' 'FAULT HOLD c1<0> EDGE 100 SLOT 102 VALUE R' 'LINK G<0> SLOT 102 VALUE R' 'LINK CK<0> SLOT 100 VALUE R' 'END UNDRIVEN' 'FAULTS 1'
whole 'a register through its set, past an input that changes' chains 1 \
    'r1 : REG_RS [2:6] ("CK .P6-7", "D .S1-8", "SET .S1-8", ZERO) -> ("Q");' 'c1 : SETUP_HOLD_CHK {SETUP=20} ("K .P1-2", "Q");' \
    -- 'SCALD 1 PERIOD 400' 'CASE 0' 'FAULT SETUP c1<0> EDGE 50 SLOT 31 VALUE R' 'LINK Q<0> SLOT 31 VALUE R' 'LINK SET<0> SLOT 29 VALUE C' 'END UNDRIVEN' 'FAULTS 1'
whole 'set and reset of a latch at once' chains 1 \
    'l1 : LATCH_RS [1:1] (ZERO, "D", ONE, ONE) -> ("Q");' 'c1 : SETUP_HOLD_CHK {SETUP=1} ("CK .P2-3", "Q");' \
    -- 'SCALD 1 PERIOD 400' 'CASE 0' 'FAULT SETUP c1<0> EDGE 100 SLOT 100 VALUE C' 'LINK Q<0> SLOT 100 VALUE C' 'END BOTH' 'FAULTS 1'
whole 'a loop of two, over the start of the period: one link more than there are nets' chains 1 \
    'b1 : BUF [1:1] ("B") -> ("A");' 'b2 : BUF [1:1] ("A") -> ("B");' 'w1 : MIN_PULSE_CHK {HIGH=2} ("A");' \
    -- 'SCALD 1 PERIOD 400' 'CASE 0' 'FAULT WIDTH w1<0> HIGH FROM 0 WIDTH 1' 'LINK A<0> SLOT 0 VALUE U' 'LINK B<0> SLOT 399 VALUE U' 'LINK A<0> SLOT 398 VALUE U' 'END REPEAT' 'FAULTS 1'
whole 'a change while the clock is high' chains 1 \
    'b1 : BUF [10:10] ("D .S0-2,4-8") -> ("X");' 'c1 : SETUP_RISE_HOLD_FALL_CHK {SETUP=10, HOLD=5} ("CK .P2-3", "X");' \
    -- 'SCALD 1 PERIOD 400' 'CASE 0' 'FAULT HIGH c1<0> EDGE 100 SLOT 110 VALUE C' 'LINK X<0> SLOT 110 VALUE C' 'LINK D<0> SLOT 100 VALUE C' 'END UNDRIVEN' 'FAULTS 1'
whole 'a high and a low pulse, each by its own beginning' chains 1 \
    'w1 : MIN_PULSE_CHK {HIGH=60, LOW=351} ("CK .P2-3");' \
    -- 'SCALD 1 PERIOD 400' 'CASE 0' 'FAULT WIDTH w1<0> HIGH FROM 100 WIDTH 50' 'LINK CK<0> SLOT 100 VALUE R' 'END UNDRIVEN' 'FAULT WIDTH w1<0> LOW FROM 150 WIDTH 350' 'LINK CK<0> SLOT 150 VALUE F' 'END UNDRIVEN' 'FAULTS 2'
whole 'past a net that the case holds' chains 1 \
    'DRAWING ROW;' 'a1 : AND [0:0] ("G .S2-8", "A .S2-8") -> ("X");' 'c1 : SETUP_HOLD_CHK {SETUP=20} ("CK .P2-3", "X");' 'END;' 'CASE "G"=0;' 'CASE "G"=1;' \
    -- 'SCALD 1 PERIOD 400' 'CASE 1' 'CASE 2' 'FAULT SETUP c1<0> EDGE 100 SLOT 81 VALUE C' 'LINK X<0> SLOT 81 VALUE C' 'LINK A<0> SLOT 81 VALUE C' 'END UNDRIVEN' 'FAULTS 1'
whole 'margins inside a macro of two bits' margins 0 \
    'MACRO CHK2 {N=2} ("CK", "D"<0:N-1>);' 'c : SETUP_HOLD_CHK {SETUP=20, HOLD=10} ("CK", "D"<0:N-1>);' 'END;' 'DRAWING ROW;' 'u1 : CHK2 ("CK .P2-3", "D .S1-4"<0:1>);' 'END;' \
    -- 'SCALD 1 PERIOD 400' 'MARGIN u1/c<0> SETUP 30 NEXT CASE 0 SETUP EDGE 100 SLOT 50 VALUE C' 'MARGIN u1/c<0> HOLD 89 NEXT CASE 0 HOLD EDGE 100 SLOT 200 VALUE C' 'MARGIN u1/c<1> SETUP 30 NEXT CASE 0 SETUP EDGE 100 SLOT 50 VALUE C' 'MARGIN u1/c<1> HOLD 89 NEXT CASE 0 HOLD EDGE 100 SLOT 200 VALUE C' 'MARGINS 4'
whole 'margins after late wires' margins 0 \
    'WIRE 0:20;' 'DRAWING ROW;' 'c1 : SETUP_HOLD_CHK {SETUP=20, HOLD=10} ("CK .P2-3", "D .S1-4");' 'END;' \
    -- 'SCALD 1 PERIOD 400' 'MARGIN c1<0> SETUP 10 NEXT CASE 0 SETUP EDGE 100 SLOT 70 VALUE C' 'MARGIN c1<0> HOLD 69 NEXT CASE 0 HOLD EDGE 120 SLOT 200 VALUE C' 'MARGINS 2'
whole 'a margin where the clock is late as a whole' margins 0 \
    'b1 : BUF [10:30] ("CK .P2-3") -> ("X");' 'c1 : SETUP_HOLD_CHK {SETUP=20, HOLD=10} ("X", "D .S1-4");' \
    -- 'SCALD 1 PERIOD 400' 'MARGIN c1<0> SETUP 40 NEXT CASE 0 SETUP EDGE 110 SLOT 50 VALUE C' 'MARGIN c1<0> HOLD 59 NEXT CASE 0 HOLD EDGE 130 SLOT 200 VALUE C' 'MARGINS 2'
whole 'a change that the greatest hold meets, and no smaller one' margins 0 \
    'c1 : SETUP_HOLD_CHK {HOLD=10} ("CK .P0-1", "D .S0-8");' \
    -- 'SCALD 1 PERIOD 400' 'MARGIN c1<0> SETUP 0 NEXT CASE 0 SETUP EDGE 0 SLOT 0 VALUE C' 'MARGIN c1<0> HOLD 389 NEXT CASE 0 HOLD EDGE 0 SLOT 0 VALUE C' 'MARGINS 2'
whole 'a change while the clock is high counts for setup and for hold' margins 0 \
    'b1 : BUF [10:10] ("D .S0-2,4-8") -> ("X");' 'c1 : SETUP_RISE_HOLD_FALL_CHK ("CK .P2-3", "X");' \
    -- 'SCALD 1 PERIOD 400' 'MARGIN c1<0> SETUP FAULT' 'MARGIN c1<0> HOLD FAULT' 'MARGINS 2'
whole 'pulses, each by its own worst case' margins 0 \
    'DRAWING ROW;' 'm1 : MUX2 [0:0] ("G", "CK .P2-3", "CK2 .P2-4") -> ("X");' 'w1 : MIN_PULSE_CHK {HIGH=20, LOW=20} ("X");' 'END;' 'CASE "G"=0;' 'CASE "G"=1;' \
    -- 'SCALD 1 PERIOD 400' 'MARGIN w1<0> HIGH 30 NEXT CASE 1 WIDTH HIGH FROM 100 WIDTH 50' 'MARGIN w1<0> LOW 280 NEXT CASE 2 WIDTH LOW FROM 200 WIDTH 300' 'MARGINS 2'

# --- slacks
whole 'a race at a checker of a high clock' slack 1 \
    'r1 : REG [2:6] ("CK .P2-3", "D .S1-4") -> ("Q");' 'b1 : BUF [2:3] ("CK") -> ("CK2");' \
    'c1 : SETUP_RISE_HOLD_FALL_CHK {SETUP=20, HOLD=4} ("CK2", "Q");' \
    -- 'SLACK PERIOD 400' 'slack  limit     of     line' '  -56  HOLD 4    c1<0>     6' '  376  SETUP 20  c1<0>     6' '' 'BROKEN 1'
row 'a race, shown as early and by its sum' explain 1 \
    'r1 : REG [2:6] ("CK .P2-3", "D .S1-4") -> ("Q");' 'b1 : BUF [2:3] ("CK") -> ("CK2");' \
    'c1 : SETUP_RISE_HOLD_FALL_CHK {SETUP=20, HOLD=4} ("CK2", "Q");' \
    -- '   data, first change:' '         102     +2  Q changes  r1 REG [2:6] line 4' '   clock, latest:' \
    '         153     +3  CK2 falls   b1 BUF [2:3] line 5' \
    '   may change from 153 + 4 + 1 = 158, changes at 102: 56 too early'
row 'a row of registers whose clock is passed on through late wires' explain 1 \
    'WIRE 0:1;' 'DRAWING ROW;' 'r1 : REG [2:6] ("CK .P2-3", "D .S1-4") -> ("Q1");' 'b1 : BUF [2:3] ("CK") -> ("CK2");' \
    'r2 : REG [2:6] ("CK2", "Q1") -> ("Q2");' 'b2 : BUF [2:3] ("CK2") -> ("CK3");' \
    'c2 : SETUP_HOLD_CHK {SETUP=20, HOLD=4} ("CK3", "Q2");' 'END;' \
    -- '1. HOLD 4 of c2<0> (line 9), slack -10' '   data, first change:' '         100         CK rises    "CK .P2-3" line 5' \
    '         102     +2  CK2 rises   b1 BUF [2:3] line 6' '         104     +2  Q2 changes  r2 REG [2:6] line 7' \
    '   clock, latest:' '         100         CK rises    "CK .P2-3" line 5' '         104     +4  CK2 rises   b1 BUF [2:3] line 6, wire 1' \
    '         108     +4  CK3 rises   b2 BUF [2:3] line 8, wire 1' '         109     +1  at the pin, by its wire' \
    '   may change from 109 + 4 + 1 = 114, changes at 104: 10 too early' '   launched by the edge of the check' \
    '   counted twice: 2 ticks (b1 1, the wire to pin 0 of b1 1); this path alone cannot be below slack -8' 'BROKEN 1'
row 'a pulse of what is unknown' explain 1 \
    'b1 : BUF [1:2] ("B") -> ("A");' 'b2 : BUF [1:3] ("A") -> ("B");' 'WIRE "B" 0:4;' 'w1 : MIN_PULSE_CHK {HIGH=2} ("A");' \
    -- '1. HIGH 2 of w1<0> (line 7), slack -1' \
    '   1 wide, 1 - 2 = -1: it may change more than once: look at what drives it first' \
    '   ask scald decide whether a run breaks HIGH 2 of w1<0>' 'BROKEN 1'

# 10240 broken limits of one statement are one row, within 10 seconds and 64 MB of address space
trying '10240 broken limits of one statement'
{
    printf '%s\n' 'SLACK PERIOD 400' '' '1. SETUP 20 of c#1<0:255> and 39 more (line 6), slack -10, path of c#1<0>' \
        '   data, last change:' '          50         IN<0> changes "IN .S1-4" line 4' \
        '          90    +40  D<0> changes  b<0> BUF [10:40] line 4' '   clock, earliest:' \
        '         100         CK rises   "CK .P2-3" line 6' \
        '   may change until 100 - 20 = 80, changes at 90: 10 too late' \
        '   ask scald decide whether a run breaks c#1<0:255> and 39 more' '' 'BROKEN 10240'
} >"$work/want"
printf '%s\n' 'SCALD 2;' 'CLOCK 8 x 50;' 'DRAWING ROW;' 'b : BUF [10:40] ("IN .S1-4"<0:255>) -> ("D"<0:255>);' \
    'FOR I = 1 TO 40 DO' 'c : SETUP_HOLD_CHK {SETUP=20, HOLD=5} ("CK .P2-3", "D"<0:255>);' 'END;' 'END;' >"$work/text"
# shellcheck disable=SC3045
(ulimit -v 65536 && exec timeout 10 "$program" explain <"$work/text" >"$work/out" 2>"$work/said")
status=$?
[ "$status" -eq 1 ] || failure "10240 broken limits of one statement: status $status in place of 1"
cmp -s "$work/out" "$work/want" || failure '10240 broken limits of one statement: other paragraphs'

ended
