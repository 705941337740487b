#!/bin/sh
# What `import` makes of netlists, worked out by hand: macros, names, refusals with their places, and words; that each
# macro of examples/yosys/cells.scald does what the cell of yosys does (cells.py); that the netlists of examples/yosys
# are CLEAN; and, where yosys is installed, that the commands of its README come to that, word for word.
# Usage: checks/import.sh [PROGRAM]. Where none is named and none is built it says so and ends with 0.
. "$(dirname -- "$0")/common.sh"
begin "${1-}"
examples=$top/examples/yosys

# gives NAME WORDS JSON LINE ..: `import` with these words answers these lines to the text, with status 0
gives() {
    name=$1
    words=$2
    printf '%s' "$3" >"$work/json"
    shift 3
    trying "$name"
    printf '%s\n' "$@" >"$work/want"
    "$program" import $words <"$work/json" >"$work/out" 2>"$work/said"
    status=$?
    [ $status -eq 0 ] || failure "$name: status $status: $(head -n 1 "$work/out")"
    cmp -s "$work/want" "$work/out" || failure "$name: $(diff "$work/want" "$work/out" | head -n 4 | tr '\n' ' ')"
}

# refuses NAME LINE JSON: the text is refused with this line
refuses() {
    trying "$1"
    printf '%s' "$3" | "$program" import >"$work/out" 2>"$work/said"
    status=$?
    [ $status -eq 2 ] || failure "$1: status $status"
    [ "$(cat "$work/out")" = "$2" ] || failure "$1: $(head -n 1 "$work/out")"
}

# module PORTS CELLS [NETS]: a netlist of one module m
module() {
    printf '{"modules": {"m": {"ports": {%s}, "cells": {%s}, "netnames": {%s}}}}' "$1" "$2" "${3-}"
}

# port NAME DIRECTION BITS
port() {
    printf '"%s": {"direction": "%s", "bits": [%s]}' "$1" "$2" "$3"
}

# cell NAME A Y: a cell of the type T with an input and an output
cell() {
    printf '"%s": {"type": "T", "port_directions": {"A": "input", "Y": "output"}, "connections": {"A": [%s], "Y": [%s]}}' \
        "$1" "$2" "$3"
}

# hidden NAME A Y: the same with a hidden name
hidden() {
    cell "$1" "$2" "$3" | sed 's/{"type"/{"hide_name": 1, "type"/'
}

# net NAME HIDDEN BITS
net() {
    printf '"%s": {"hide_name": %s, "bits": [%s]}' "$1" "$2" "$3"
}

# --- macros
one='{"modules": {"top": {"ports": {"a": {"direction": "input", "bits": [2]}, "y": {"direction": "output", "bits": [3]}}, "cells": {"$1": {"type": "$_NOT_", "port_directions": {"A": "input", "Y": "output"}, "connections": {"A": [2], "Y": [3]}}}, "netnames": {}}}}'
gives 'one cell' '' "$one" 'MACRO top ("a") -> ("y");' '  n_1 : n__NOT_ ("a") -> ("y");' 'END;'
gives 'its kind' cells "$one" 'MACRO n__NOT_ ("A") -> ("Y");' 'END;'
y=$(port y output 9)
gives 'four bits' '' "$(module "$(port p input '5, 4, 3, 2'), $y" "$(cell u '5, 4, 3, 2' 9)")" \
    'MACRO m ("p"<3:0>) -> ("y");' '  u : T ("p"<3:0>) -> ("y");' 'END;'
gives 'four bits, two exchanged' '' "$(module "$(port p input '5, 4, 3, 2'), $y" "$(cell u '2, 4, 3, 5' 9)")" \
    'MACRO m ("p"<3:0>) -> ("y");' '  u : T ("p"<0> & "p"<2:1> & "p"<3>) -> ("y");' 'END;'
gives 'an output that is an input' '' "$(module "$(port y output 2), $(port a input 2)" '')" \
    'MACRO m ("a") -> ("y");' '  thru0 : BUF [0:0] ("a") -> ("y");' 'END;'
gives 'outputs that are constants' '' "$(module "$(port y output '"0", "1", "x", 7, 7'), $(port z output 7)" '')" \
    'MACRO m () -> ("y"<4:0>, "z");' '  thru0 : BUF [0:0] (ZERO) -> ("y"<0>);' \
    '  thru1 : BUF [0:0] (ONE) -> ("y"<1>);' '  thru2 : BUF [0:0] ("y"<3>) -> ("y"<4>);' \
    '  thru3 : BUF [0:0] ("y"<3>) -> ("z");' 'END;'
gives 'bits that nothing drives' '' "$(module "$y" "$(cell u '"x"' 9), $(cell v '"z", "1", "0"' 8)")" \
    'MACRO m () -> ("y");' '  u : T ("x0") -> ("y");' '  v : T_0 (ZERO & ONE & "x1") -> ("b");' 'END;'
gives 'a module as a cell' '' '{"modules": {
    "ff": {"ports": {"d": {"direction": "input", "bits": [2]}, "ck": {"direction": "input", "bits": [3]},
        "q": {"direction": "output", "bits": [4]}}, "cells": {}},
    "top": {"ports": {"in": {"direction": "input", "bits": [2]}, "clk": {"direction": "input", "bits": [3]},
        "out": {"direction": "output", "bits": [4]}},
        "cells": {"u": {"type": "ff", "connections": {"ck": [3], "d": [2], "q": [4]}}}}}}' \
    'MACRO ff ("d", "ck") -> ("q");' 'END;' \
    'MACRO top ("in", "clk") -> ("out");' '  u : ff ("in", "clk") -> ("out");' 'END;'
gives 'the name of a primitive' '' '{"modules": {"AND": {"ports": {}, "cells": {}}}}' 'MACRO nAND ();' 'END;'

# --- connections that are left out
three='"port_directions": {"A": "input", "B": "input", "Y": "output"}'
gives 'a port that some cells leave empty' '' "$(module "$(port a input 2), $(port y output '7, 8')" \
    '"u": {"type": "T", '"$three"', "connections": {"A": [2], "B": [2, 2], "Y": [7]}},
     "v": {"type": "T", '"$three"', "connections": {"A": [2], "B": [], "Y": [8]}},
     "w": {"type": "T", '"$three"', "connections": {"Y": []}}')" \
    'MACRO m ("a") -> ("y"<1:0>);' '  u : T ("a", "a" & "a") -> ("y"<0>);' '  v : T ("a", "x0"<1:0>) -> ("y"<1>);' \
    '  w : T ("x1", "x2"<1:0>) -> ("x3");' 'END;'
gives 'a port that all cells leave empty' cells "$(module "$(port a input 2)" \
    '"u": {"type": "T", '"$three"', "connections": {"A": [2], "B": [], "Y": [7]}}')" 'MACRO T ("A") -> ("Y");' 'END;'
gives 'kinds of one type' cells "$(module "$(port a input 2)" \
    "$(cell u 2 3), $(cell v '2, 2' 4), $(cell w 2 5),"'
     "p": {"type": "T", "parameters": {"N": "1"}, "port_directions": {"A": "input"}, "connections": {"A": [2]}}')" \
    'MACRO T ("A") -> ("Y");' 'END;' 'MACRO T_0 ("A"<1:0>) -> ("Y");' 'END;' 'MACRO T_1 ("A");' 'END;'

# --- more ports than are compared one by one
gives 'ten ports of a kind' cells "$(module '' '"u": {"type": "T",
    "port_directions": {"J": "input", "I": "input", "H": "input", "G": "input", "F": "input", "E": "input", "D": "output", "C": "input", "B": "input", "A": "input"},
    "connections": {"A": [2], "B": [3], "C": [4], "D": [5], "E": [6], "F": [7], "G": [8], "H": [9], "I": [10], "J": [11]}}')" \
    'MACRO T ("A", "B", "C", "E", "F", "G", "H", "I", "J") -> ("D");' 'END;'
ten='"A": {"direction": "input", "bits": [2]}, "B": {"direction": "input", "bits": [3]}, "C": {"direction": "input", "bits": [4]}, "D": {"direction": "input", "bits": [5]}, "E": {"direction": "input", "bits": [6]}, "F": {"direction": "input", "bits": [7]}, "G": {"direction": "input", "bits": [8]}, "H": {"direction": "input", "bits": [9]}, "I": {"direction": "input", "bits": [10]}, "J": {"direction": "input", "bits": [11]}'
gives 'ten ports of a module' '' '{"modules": {"T": {"ports": {'"$ten"'}, "cells": {}},
    "top": {"ports": {'"$(port p input '2, 3, 4, 5, 6, 7, 8, 9, 10, 11')"'},
        "cells": {"u": {"type": "T", "connections": {"J": [11], "I": [10], "H": [9], "G": [8], "F": [7], "E": [6], "D": [5], "C": [4], "B": [3], "A": [2]}}}}}}' \
    'MACRO T ("A", "B", "C", "D", "E", "F", "G", "H", "I", "J");' 'END;' 'MACRO top ("p"<9:0>);' \
    '  u : T ("p"<0>, "p"<1>, "p"<2>, "p"<3>, "p"<4>, "p"<5>, "p"<6>, "p"<7>, "p"<8>, "p"<9>);' 'END;'

# --- which name a bit has
gives 'the first net that is not hidden' '' "$(module '' "$(cell u 2 3), $(cell v 4 5)" \
    "$(net '$a' 1 '2, 3'), $(net x.y 0 3), $(net z 0 '3, 4'), $(net '$b' 1 '5, 4')")" \
    'MACRO m ();' '  u : T ("n0"<0>) -> ("x$y");' '  v : T ("z"<1>) -> ("n1"<0>);' 'END;'
gives 'an input before an output' '' "$(module "$(port y output '2, 3'), $(port a input 3)" "$(cell u 3 2)")" \
    'MACRO m ("a") -> ("y"<1:0>);' '  u : T ("a") -> ("y"<0>);' '  thru0 : BUF [0:0] ("a") -> ("y"<1>);' 'END;'

# --- names
long=$(many 70 a)
short=$(many 62 a)
gives 'cells' '' "$(module '' "$(cell '\\a b' 2 3), $(cell 'a\"b' 3 4), $(cell END 4 5), $(cell 3 5 6), $(cell AND 6 7), $(hidden k 7 8), $(hidden c0 8 9), $(cell c1 9 10)" "$(net w 0 '2, 3, 4, 5, 6, 7, 8, 9, 10')")" \
    'MACRO m ();' '  a_b : T ("w"<0>) -> ("w"<1>);' '  a_b_0 : T ("w"<1>) -> ("w"<2>);' '  nEND : T ("w"<2>) -> ("w"<3>);' \
    '  n3 : T ("w"<3>) -> ("w"<4>);' '  AND : T ("w"<4>) -> ("w"<5>);' '  c0 : T ("w"<5>) -> ("w"<6>);' \
    '  c1 : T ("w"<6>) -> ("w"<7>);' '  c1_0 : T ("w"<7>) -> ("w"<8>);' 'END;'
gives 'long names' '' "$(module "$(port "$long" input 2), $(port "${long}b" output 3), $(port "${short}_0" output 4)" '')" \
    "MACRO m (\"${short}_0\") -> (\"${short}_1\", \"${short}_2\");" 'END;'
gives 'nets' '' "$(module '' "$(cell u 2 3), $(cell v 4 5)" "$(net '\\a[1].b#$' 0 2), $(net b 0 3), $(net ONE 0 5)")" \
    'MACRO m ();' '  u : T ("a_1_$b#$") -> ("b");' '  v : T ("b_0") -> ("nONE");' 'END;'
gives 'ports' '' "$(module "$(port a.b input 2), $(port 'a$b' output 3), $(port 'c#' input 4)" "$(cell u 2 3), $(cell v 5 6)" "$(net a.b 0 5), $(net a_b 0 6)")" \
    'MACRO m ("a_b", "c_") -> ("a_b_0");' '  u : T ("a_b") -> ("a_b_0");' '  v : T ("a$b") -> ("a_b_1");' 'END;'
gives 'ports of a kind' cells "$(module '' '"u": {"type": "T", "port_directions": {"c.d": "input", "c$d": "input", "9": "output", "END": "output"},
    "connections": {"c.d": [2], "c$d": [3, 4], "9": [5], "END": [6]}}')" \
    'MACRO T ("c_d", "c_d_0"<1:0>) -> ("n9", "nEND");' 'END;'

# --- black boxes
box='{"modules": {"ram": {"attributes": {"blackbox": "0001"}, "ports": {"d": {"direction": "input", "bits": [0, 1]}, "q": {"direction": "output", "bits": [2]}}},
    "rom": {"attributes": {"blackbox": 1}, "ports": 7}, "top": {"ports": {}, "cells": {"u": {"type": "ram", "connections": {"q": [5]}}}}}}'
gives 'a black box' '' "$box" 'MACRO top ();' '  u : ram ("x0"<1:0>) -> ("b");' 'END;'
gives 'a black box to fill in' cells "$box" 'MACRO ram ("d"<1:0>) -> ("q");' 'END;'

# --- refusals
refuses 'no JSON' 'REFUSED 30 Json 1:16' '{"modules": [1,,2]}'
refuses 'an end too early' 'REFUSED 30 Json 1:15' '{"modules": {}'
refuses 'no text' 'REFUSED 30 Json 1:1' ''
refuses 'two values' 'REFUSED 30 Json 2:1' '{}
{}'
refuses 'a byte that is no text' 'REFUSED 30 Json 1:3' "$(printf '["\377"]')"
refuses 'a name twice' 'REFUSED 30 Json 2:2' '{"modules": {},
 "modules": {}}'
refuses 'a name twice, spelled otherwise' 'REFUSED 30 Json 1:10' '{"a": 1, "\u0061": 2}'
refuses 'nested too deep' 'REFUSED 30 Json 1:65' "$(many 65 '[')$(many 65 ']')"
refuses 'nested as deep as may be' 'REFUSED 31 NoNetlist 1:1' "$(many 64 '[')$(many 64 ']')"
refuses 'no modules' 'REFUSED 31 NoNetlist 1:1' '{"creator": "yosys"}'
refuses 'modules of another type' 'REFUSED 31 NoNetlist 1:13' '{"modules": []}'
refuses 'no cells' 'REFUSED 31 NoNetlist 1:19' '{"modules": {"m": {"ports": {}}}}'
refuses 'no bits' 'REFUSED 31 NoNetlist 1:35' '{"modules": {"m": {"ports": {"a": {"direction": "input"}}, "cells": {}}}}'
refuses 'a bit too great' 'REFUSED 31 NoNetlist 1:68' "$(module "$(port y output 4294967296)" '')"
refuses 'a bit that is none' 'REFUSED 31 NoNetlist 1:68' "$(module "$(port y output '"w"')" '')"
refuses 'an index too great' 'REFUSED 31 NoNetlist 1:196698' "$(module '' '' "$(net w 0 "$(many 65536 '2, ')2")")"
gives 'the greatest index' '' "$(module '' "$(cell u 3 4)" "$(net w 0 "$(many 65535 '2, ')3"), $(net v 0 4)")" \
    'MACRO m ();' '  u : T ("w"<65535>) -> ("v");' 'END;'
refuses 'half a bit' 'REFUSED 31 NoNetlist 1:68' "$(module "$(port y output 2.5)" '')"
refuses 'both directions' 'REFUSED 32 BadDirection 1:49' "$(module "$(port y inout 2)" '')"
refuses 'no direction' 'REFUSED 32 BadDirection 1:35' '{"modules": {"m": {"ports": {"a": {"bits": [2]}}, "cells": {}}}}'
refuses 'no direction of a cell' 'REFUSED 32 BadDirection 1:106' \
    '{"modules": {"m": {"ports": {}, "cells": {"u": {"type": "T", "port_directions": {}, "connections": {"A": [2]}}}}}}'
refuses 'too wide' 'REFUSED 33 TooWide 1:67' "$(module "$(port y output "2$(many 256 ', 2')")" '')"
refuses 'no port of the module' 'REFUSED 34 UnlikeCells 2:77' '{"modules": {"ff": {"ports": {"d": {"direction": "input", "bits": [2]}}, "cells": {}},
    "top": {"ports": {}, "cells": {"u": {"type": "ff", "connections": {"e": [2]}}}}}}'
refuses 'another width' 'REFUSED 34 UnlikeCells 2:77' '{"modules": {"ff": {"ports": {"d": {"direction": "input", "bits": [2]}}, "cells": {}},
    "top": {"ports": {}, "cells": {"u": {"type": "ff", "connections": {"d": [2, 3]}}}}}}'
refuses 'another width of ten ports' 'REFUSED 34 UnlikeCells 3:6' '{"modules": {"T": {"ports": {'"$ten"'}, "cells": {}},
    "top": {"ports": {}, "cells": {"u": {"type": "T", "connections": {"I": [2],
"J": [2, 3]}}}}}}'
refuses 'none of ten ports' 'REFUSED 34 UnlikeCells 3:6' '{"modules": {"T": {"ports": {'"$ten"'}, "cells": {}},
    "top": {"ports": {}, "cells": {"u": {"type": "T", "connections": {"I": [2],
"K": [2]}}}}}}'
refuses 'no direction of the last of ten' 'REFUSED 32 BadDirection 3:6' '{"modules": {"m": {"ports": {}, "cells": {"u": {"type": "T",
    "port_directions": {"I": "input", "H": "input", "G": "input", "F": "input", "E": "input", "D": "input", "C": "input", "B": "input", "A": "input"}, "connections": {"A": [2], "B": [3], "C": [4], "D": [5], "E": [6], "F": [7], "G": [8], "H": [9], "I": [10],
"J": [2]}}}}}}'
refuses 'the first of several' 'REFUSED 32 BadDirection 1:49' "$(module "$(port y inout 4294967296)" '"u": 3')"

# --- words, and texts that are too long

# ends NAME STATUS WORD ..: the call with these words ends so, and writes nothing
ends() {
    trying "$1"
    want=$2
    name=$1
    shift 2
    "$program" "$@" </dev/null >"$work/out" 2>"$work/said"
    status=$?
    [ $status -eq "$want" ] || failure "$name: status $status"
    [ ! -s "$work/out" ] || failure "$name: something is written"
}
ends 'another word' 4 import design
ends 'a word too many' 4 import cells all
trying 'a text too long'
head -c 67108865 /dev/zero | "$program" import >"$work/out" 2>"$work/said"
status=$?
[ $status -eq 5 ] || failure "a text too long: status $status"
trying 'a text as long as may be'
head -c 67108864 /dev/zero | "$program" import >"$work/out" 2>"$work/said"
status=$?
[ $status -eq 2 ] || failure "a text as long as may be: status $status"

# --- random netlists, compared with a model
python3 -B "$top/checks/netlists.py" "$program" >"$work/netlists" || failure 'the random netlists were not tried'
grep '^tried ' "$work/netlists" >>"$work/tried"
grep '^FAILED ' "$work/netlists" | cut -c 8-300 | while IFS= read -r line; do failure "$line"; done

# --- the library, and the examples
python3 -B "$top/checks/cells.py" "$program" >"$work/cells" || failure 'the cells were not tried'
grep '^tried ' "$work/cells" >>"$work/tried"
grep '^FAILED ' "$work/cells" | while IFS= read -r line; do failure "${line#FAILED }"; done

for design in counter fifo; do
    trying "$design"
    "$program" import <"$examples/$design.json" >"$work/macros" || failure "$design: status $?"
    cat "$examples/header.scald" "$examples/cells.scald" "$work/macros" "$examples/$design.top" >"$work/drawing"
    "$program" verify faults <"$work/drawing" >"$work/out" 2>"$work/said"
    [ "$(tail -n 1 "$work/out")" = CLEAN ] || failure "$design: $(tail -n 1 "$work/out")"
    "$program" import cells <"$examples/$design.json" | grep '^MACRO ' >"$work/kinds"
    [ -s "$work/kinds" ] || failure "$design: no kinds"
    while IFS= read -r line; do
        grep -qxF -- "$line" "$examples/cells.scald" || failure "$design: the library has no $line"
    done <"$work/kinds"
done

# the commands of the page: its indented lines that begin with yosys, scald or cat
if command -v yosys >/dev/null 2>&1; then
    trying 'the commands of the page'
    cp -r "$examples" "$work/yosys"
    mkdir "$work/bin"
    ln -s "$program" "$work/bin/scald"
    sed -n 's/^    \(\(yosys\|scald\|cat\) .*\)/\1/p' "$examples/README.md" >"$work/commands"
    (cd "$work/yosys" && PATH=$work/bin:$PATH sh -e "$work/commands" >"$work/out" 2>"$work/said")
    status=$?
    [ $status -eq 0 ] || failure "the commands of the page: status $status"
    [ "$(tail -n 1 "$work/out")" = CLEAN ] || failure "the commands of the page: $(tail -n 1 "$work/out")"
    more=
else
    more='; yosys is not installed, so the commands of the page are not tried'
fi

ended "$more"
