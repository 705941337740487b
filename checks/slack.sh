#!/bin/sh
# What the built program answers to `slack` and `explain` on the drawings of checks/slack: of those with a text NAME.out
# the whole table, and the paragraphs after it; of the others lines that were worked out by hand, in their order.
# Usage: checks/slack.sh [PROGRAM]. If none is named and none is built it says so and ends with 0.
. "$(dirname -- "$0")/common.sh"
begin "${1-}"
folder=$top/checks/slack

# answered WORDS NAME STATUS: $work/out is the answer
answered() {
    # shellcheck disable=SC2086
    "$program" $1 <"$folder/$2.scald" >"$work/out" 2>/dev/null
    status=$?
    [ "$status" -eq "$3" ] || failure "$1 of $2: status $status in place of $3"
}

# rows WORDS NAME STATUS LINE ..: the answer has these lines, in this order
rows() {
    words=$1
    name=$2
    answered "$1" "$2" "$3"
    shift 3
    printf '%s\n' "$@" >"$work/want"
    trying "$words of $name"
    awk 'BEGIN { at = 0 } NR == FNR { want[count++] = $0; next } at < count && $0 == want[at] { at++ } END { exit (at < count) }' \
        "$work/want" "$work/out" || failure "$words of $name: a line is missing"
}

# whole NAME STATUS: the table, and then the paragraphs, whose first line and the table's last one stand once
whole() {
    answered slack "$1" "$2"
    head -n -2 "$work/out" >"$work/both"
    answered explain "$1" "$2"
    tail -n +2 "$work/out" >>"$work/both"
    trying "$1"
    cmp -s "$work/both" "$folder/$1.out" || failure "$1: another answer"
}

whole row1 0
# limits that nothing can break have no row, and are counted under the table
whole free 0
whole late 1
whole common 1
# what a rise launches is late for a clock that comes by the fall after it
whole other_edge 1
# the fall of a pulse that is shorter than its skew is a change of its own
whole offset 1
# 15 ticks off a pulse of 10 leave none
whole swallowed 1
# a change after the clock's fall is shown with the fall
whole after_fall 1
# a change right after the clock's rise has a number too
whole clock_early 1

rows slack late 1 '  -20  SETUP 20  c1<0>     6' '   39  HOLD 5    c1<0>     6' 'BROKEN 1'
rows slack marked 0 '   49  GATE BEFORE  g<0>     4' '   49  GATE AFTER   g<0>     4' 'MET 2'
rows slack assert 0 '   20  STABLE FROM  X<0>     4' '   60  STABLE TO    X<0>     4' 'MET 2'
rows slack never 1 '-130*  SETUP 20  c1<0>     6' '  39*  HOLD 5    c1<0>     6' 'BROKEN 2'
# a limit that is broken whatever its number comes before one that is met by less
rows slack broken_first 1 '  39*  HOLD 5    c1<0>     6' '   10  HIGH 190  w1<0>     7' 'BROKEN 2'
rows slack latch 1 '   20  SETUP 20  c2<0>     6' 'BROKEN 1'
rows slack loop 1 ' none  SETUP 20  c1<0>     5' 'BROKEN 1'
rows slack two 1 '  -40  SETUP 40  c1<0>     7' '   19  HOLD 5    c1<0>     7' 'BROKEN 1'
# a region about two edges, the second of them in the next period, is too late for the first and too early after the
# second: one row
rows slack over_end 1 ' -220  SETUP 20  c1<0>     4' 'BROKEN 1'
rows explain over_end 1 \
    '   may change until 300 - 20 = 280, changes at 500: 220 too late' \
    '   the change lies on both sides of the edge: earlier by 220 or later by 211 would do' \
    'BROKEN 1'
# bits with one sum are one row if one register of the drawing launches their data, and not if two do; nor are those of
# two uses of a macro
rows slack registers 0 \
    '    0  HOLD 4    c1<0:1>     9' \
    '    0  HOLD 4    c1<2>       9' \
    '    0  HOLD 4    u/c1<0>     4' \
    '    0  HOLD 4    v/c1<0>     4' \
    '  370  SETUP 20  c1<0:1>     9' \
    '  370  SETUP 20  c1<2>       9' \
    '  370  SETUP 20  u/c1<0>     4' \
    '  370  SETUP 20  v/c1<0>     4' \
    'MET 10'

# the latest change of an open latch is bounded by its enable
rows 'explain worst=2' latch 1 \
    '         160    +10  Q changes   l1 LATCH [5:10] line 4, bounded by pin 0 (IN goes on changing)' \
    '   may change until 200 - 20 = 180, changes at 160: 20 to spare'
# two ways from one launch, of which the longer one is shown
rows explain two 1 \
    '         360   +350  S changes  g1 CHG [150:350] line 5' \
    '         400    +40  D changes  m1 CHG [20:40] line 6' \
    '   launched 400 ticks before the edge of the check'
# data that never settles is shown with its ways
rows explain never 1 \
    '         510   +500  D changes  g1 CHG [40:500] line 5' \
    '   may change until 400 - 20 = 380, changes at 510: 130 too late' \
    '          45    +40  D changes  g1 CHG [40:500] line 5' \
    '   may change from 0 + 5 + 1 = 6, changes at 45: 39 to spare'
# the fall of B at 180 comes through g by 190, before a rise of B at 130 would at 220
rows 'explain worst=2' cut 0 \
    '         180    +30  B falls          b BUF [0:30] line 4' \
    '         190    +10  cut by C falls   g BUF [40:90, 5:10] line 5'

# what decide can be asked stands last in the paragraph of a broken row, whether or not it has a number, and in no other
rows explain loop 1 '1. SETUP 20 of c1<0> (line 5), slack none' '   ask scald decide whether a run breaks c1<0>' 'BROKEN 1'
rows explain never 1 \
    '   * the data may change at any tick: broken, whatever its ways come to' \
    '   ask scald decide whether a run breaks c1<0>' \
    'BROKEN 2'
answered 'explain worst=2' late 1
trying 'a row that is met'
[ "$(grep -c '^   ask scald decide' "$work/out")" -eq 1 ] || failure 'explain worst=2 of late: not one question'

# words
rows 'slack worst=1' row1 0 'MET 2'
rows 'explain worst=1' row1 0 '1. SETUP 20 of c1<0> (line 4), slack 30' 'MET 2'
rows 'slack worst=1 rounds=1' row1 0 'MET 2'
rows 'slack rounds=1' row1 0 'MET 2'
for words in 'slack worst=0' 'slack worst=65537' 'slack worst=01' 'slack rounds=1 worst=1' 'explain more' 'slack worst=1 more'; do
    answered "$words" row1 4
    trying "$words"
done
ended
