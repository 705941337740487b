#!/usr/bin/env python3
"""Compares the margins of imported netlists with OpenSTA's slacks (checks/opensta.sh calls it, with the program).

Prints a line `tried NAME` for each margin, a line `FAILED WHY` for each difference, and a line for each design. A
setup margin has to be the slack, and a hold margin one less, since a change exactly HOLD ticks after the edge is a
break here. OpenSTA has the delays and limits of examples/yosys/header.scald, and of a flip-flop with an enable or a
reset what cells.scald has: gates of no delay before a flip-flop. In each drawing the clock is high from 0 to 4, and
the inputs change between 1 and 2.
"""
import itertools
import json
import pathlib
import random
import re
import subprocess
import sys
import tempfile

EXAMPLES = pathlib.Path(__file__).resolve().parent.parent / "examples" / "yosys"
CONSTANTS = dict(re.findall(r"CONST (\w+) = (\d+);", (EXAMPLES / "header.scald").read_text()))
DES = pathlib.Path("/usr/share/doc/iverilog/examples/des.v")

# The cells of OpenSTA: inputs, function, and what the constants of their delays begin with, if they have any.
GATES = {
    "NOT": ("A", "!A", "GATE"),
    "AND": ("AB", "A B", "GATE"),
    "OR": ("AB", "A+B", "GATE"),
    "XOR": ("AB", "A^B", "WIDE"),
    "MUX": ("ABS", "(A !S)+(B S)", "WIDE"),
    "ENABLE": ("QDE", "(Q !E)+(D E)", ""),
    "RESET": ("DR", "D !R", ""),
}
FLOPS = [
    ("$_%sDFF%s_%s%s%s_" % ("S" * reset, "E" * enable, edge, "P0" * reset, "P" * enable), edge, enable, reset)
    for edge, enable, reset in itertools.product("PN", (False, True), (False, True))
]


def renaming():
    """What yosys makes these cells by, as a library of modules."""
    for name, (pins, _, delays) in GATES.items():
        if delays:
            joined = ", ".join(".%s(%s)" % (pin, pin) for pin in pins + "Y")
            yield "module \\$_%s_ (input %s, output Y);" % (name, ", ".join(pins))
            yield "%s _TECHMAP_REPLACE_ (%s); endmodule" % (name, joined)
    for name, edge, enable, reset in FLOPS:
        yield "module \\%s (input C, D%s%s, output Q); wire N, M;" % (name, ", E" * enable, ", R" * reset)
        yield "ENABLE e (.Q(Q), .D(D), .E(E), .Y(N));" if enable else "assign N = D;"
        yield "RESET r (.D(N), .R(R), .Y(M));" if reset else "assign M = N;"
        yield "FLOP%s _TECHMAP_REPLACE_ (.C(C), .D(M), .Q(Q)); endmodule" % edge


def timing(pin, kind, rise, fall):
    form = 'timing () { related_pin : "%s"; timing_type : %s; intrinsic_rise : %s; intrinsic_fall : %s; }'
    return form % (pin, kind, rise, fall)


def liberty(is_slow):
    """The cells with their greatest delays, or with their least."""
    yield "library (cells_%d) { delay_model : generic_cmos;" % is_slow
    levels = {"input": 50, "output": 50, "slew_lower": 20, "slew_upper": 80}
    for level, edge in itertools.product(levels, ("rise", "fall")):
        yield "%s_threshold_pct_%s : %d;" % (level, edge, levels[level])
    pin = "pin (%s) { direction : input; capacitance : 0; %s }"
    for name, (pins, function, delays) in GATES.items():
        ends = ("_RISE", "_FALL") if is_slow else ("_LEAST", "_LEAST")
        rise, fall = (CONSTANTS[delays + end] if delays else 0 for end in ends)
        yield "cell (%s) { %s" % (name, " ".join(pin % (each, "") for each in pins))
        yield 'pin (Y) { direction : output; function : "%s";' % function
        yield " ".join(timing(each, "combinational", rise, fall) for each in pins) + " } }"
    delay, setup, hold = (CONSTANTS["FLOP_" + end] for end in ("MOST" if is_slow else "LEAST", "SETUP", "HOLD"))
    for edge, word, clock in (("P", "rising", "C"), ("N", "falling", "!C")):
        yield 'cell (FLOP%s) { ff (IQ, IQN) { clocked_on : "%s"; next_state : "D"; }' % (edge, clock)
        limits = timing("C", "setup_" + word, setup, setup) + timing("C", "hold_" + word, hold, hold)
        yield pin % ("C", "") + pin % ("D", limits) + 'pin (Q) { direction : output; function : "IQ";'
        yield timing("C", word + "_edge", delay, delay) + " } }"
    yield "}"


def write(folder, name, lines):
    pathlib.Path(folder, name).write_text("\n".join(lines) + "\n")


def call(folder, *command, text=""):
    return subprocess.run(command, input=text, cwd=folder, check=True, capture_output=True, text=True).stdout


def slacks(folder, top, module, unit):
    """The slacks of setup and of hold, by the labels that import gives to the flip-flops."""
    number = itertools.count()
    cells = {"c%d" % next(number) if cell["hide_name"] else name: cell for name, cell in module["cells"].items()}
    write(folder, "net.json", [json.dumps({"modules": {top: {**module, "cells": cells}}})])
    write(folder, "cells.v", renaming())
    yosys = "read_json net.json; techmap -map cells.v; opt_clean; write_verilog -noattr -noexpr -simple-lhs net.v"
    call(folder, "yosys", "-q", "-p", yosys)
    write(folder, "slow.lib", liberty(True))
    write(folder, "fast.lib", liberty(False))
    lines = ["define_corners slow fast", "read_liberty -corner slow slow.lib", "read_liberty -corner fast fast.lib"]
    lines += ["read_verilog net.v", "link_design " + top, "create_clock -name clk -period %d clk" % (8 * unit)]
    inputs = " ".join(name for name, port in module["ports"].items() if port["direction"] == "input" and name != "clk")
    report = "report_checks -format end -group_count 99999 -path_delay %s -corner %s > %s"
    for limit, corner, delay, name in (("max", "slow", 2 * unit, "SETUP"), ("min", "fast", unit, "HOLD")):
        lines.append("set_input_delay -clock clk -%s %d [get_ports {%s}]" % (limit, delay, inputs))
        lines.append(report % (limit, corner, name))
    write(folder, "run.tcl", lines)
    call(folder, "sta", "-exit", "run.tcl")
    row = re.compile(r"(?m)^(\S+)/D \(FLOP.\) +\S+ +\S+ +(-?[\d.]+) ")
    found = {limit: row.findall(pathlib.Path(folder, limit).read_text()) for limit in ("SETUP", "HOLD")}
    return {(flop, limit): float(slack) for limit in found for flop, slack in found[limit]}


def margins(program, netlist, drawn, unit):
    """The margins of setup and of hold, by the labels of flip-flops; those that nothing limits are left out."""
    header, cells = ((EXAMPLES / name).read_text() for name in ("header.scald", "cells.scald"))
    header = re.sub(r"(?m)^CLOCK .*", "CLOCK 8 x %d;" % unit, header)
    macros = call(".", program, "import", text=netlist)
    rows = call(".", program, "margins", text=header + cells + macros + drawn)
    found = re.findall(r"(?m)^MARGIN u/(\w+)/s<0> (SETUP|HOLD) (\S+) NEXT ", rows)
    return {(flop, limit): int(margin) for flop, limit, margin in found}


def compare(program, name, netlist, unit, drawn):
    (top, module), = json.loads(netlist)["modules"].items()
    with tempfile.TemporaryDirectory() as folder:
        slack = slacks(folder, top, module, unit)
    margin = margins(program, netlist, drawn, unit)
    for flop, limit in sorted({*slack, *margin}):
        print("tried %s: %s of %s" % (name, limit, flop))
        one, other = slack.get((flop, limit)), margin.get((flop, limit))
        if one is None or other is None or other != one - (limit == "HOLD"):
            print("FAILED %s: %s of %s: slack %s, margin %s" % (name, limit, flop, one, other))
    print("%s: %d cells, %d margins" % (name, len(module["cells"]), len(margin)), flush=True)


TRIED = "DRAWING TRIED; u : %s; END;\n"
DATAPATH = 'm ("CLK .P0-4", "RESET .S2-1", "ENABLE .S2-1", "A .S2-1"<{0}:0>, "B .S2-1"<{0}:0>) -> ("Y"<{0}:0>)'
CIPHER = 'des ("PT .S2-1"<63:0>, "KEY .S2-1"<63:0>, "CLK .P0-4") -> ("CT"<63:0>)'
STEPS = ["({0} + {1})", "({0} - {1})", "({0} & {1} | {2})", "({0} ^ {1})", "({1} < {2} ? {0} : {1})", "(~{0} | {1})"]
TAKES = ["{0} <= {1}", "if (enable) {0} <= {1}", "if (reset) {0} <= 0; else {0} <= {1}",
         "if (reset) {0} <= 0; else if (enable) {0} <= {1}"]


def datapath(source, width, depth):
    """Verilog of four registers of this width, each of which takes something made in so many steps of all of them."""
    names = ["a", "b", "r0", "r1", "r2", "r3"]
    bits = "[%d:0]" % (width - 1)
    yield "module m(input clk, input reset, input enable, input %s a, input %s b, output %s y);" % (bits, bits, bits)
    for name in names[2:]:
        value = name
        for _ in range(depth):
            value = source.choice(STEPS).format(value, *source.sample(names, 2))
        edge = source.choice(("posedge", "posedge", "negedge"))
        yield "reg %s %s; always @(%s clk) %s;" % (bits, name, edge, source.choice(TAKES).format(name, value))
    yield "assign y = r0 ^ r1 ^ r2 ^ r3; endmodule"


def mapped(lines, top):
    """The netlist that yosys makes of the Verilog, flat and of these cells, as JSON."""
    flops = " ".join("-cell %s x" % name for name, *_ in FLOPS)
    yosys = "read_verilog m.v; synth -flatten -top %s; dfflegalize %s; abc -g AND,OR,XOR,MUX; opt_clean; write_json out"
    with tempfile.TemporaryDirectory() as folder:
        write(folder, "m.v", lines)
        call(folder, "yosys", "-q", "-p", yosys % (top, flops))
        return pathlib.Path(folder, "out").read_text()


def main():
    for name in ("counter", "fifo"):
        netlist, drawn = ((EXAMPLES / (name + end)).read_text() for end in (".json", ".top"))
        compare(sys.argv[1], name, netlist, 25, drawn)
    for number, (width, depth) in enumerate(itertools.product((1, 4, 8, 16), (1, 2, 4, 8))):
        netlist = mapped(datapath(random.Random(number), width, depth), "m")
        compare(sys.argv[1], "width %d, depth %d" % (width, depth), netlist, 200, TRIED % DATAPATH.format(width - 1))
    if DES.exists():
        compare(sys.argv[1], "des", mapped([DES.read_text()], "des"), 100, TRIED % CIPHER)
    else:
        print("des: skipped, there is no %s" % DES)


if __name__ == "__main__":
    main()
