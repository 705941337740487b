"""The texts that bench/run measures. Each function gives one of a size, as text or as bytes."""

import json
import random
import re
from pathlib import Path

MOST_BYTES = 4194304
YOSYS = Path(__file__).resolve().parent.parent / "examples" / "yosys"


def drawing(lines, clock="8 x 50", macros=(), after=(), header=(), version=1):
    """A drawing of these lines, with macros before it and cases after it."""
    head = [f"SCALD {version};", f"CLOCK {clock};", *header]
    return "\n".join([*head, *macros, "DRAWING MEASURED;", *lines, "END;", *after]) + "\n"


def datapath(sections):
    """What the crate design_gen makes: sections of eight bits, each a change function, a checker and a register."""
    lines = []
    for i in range(1, sections + 1):
        before = "Q0 .S4-3" if i == 1 else f"Q{i - 1}"
        lines.append(f'g{i} : CHG [20:60] ("{before}"<0:7>) -> ("D{i}"<0:7>);')
        lines.append(f'c{i} : SETUP_HOLD_CHK {{SETUP=20, HOLD=5}} ("CK .P2-3", "D{i}"<0:7>);')
        lines.append(f'r{i} : REG [5:10] ("CK .P2-3", "D{i}"<0:7>) -> ("Q{i}"<0:7>);')
    return drawing(lines, header=["WIRE 0:2;"])


def late_paths(sections):
    """A datapath of eight bits in which six sections have a path that is late by up to 14 ticks: 48 faults."""
    lines = []
    for i in range(1, sections + 1):
        before = "Q0 .S4-3" if i == 1 else f"Q{i - 1}"
        longest, setup = (200, 200) if i % (sections // 6) == 0 and i <= sections // 6 * 6 else (60, 20)
        lines.append(f'g{i} : CHG [20:{longest}] ("{before}"<0:7>) -> ("D{i}"<0:7>);')
        lines.append(f'c{i} : SETUP_HOLD_CHK {{SETUP={setup}, HOLD=5}} ("CK .P2-3", "D{i}"<0:7>);')
        lines.append(f'r{i} : REG [5:10] ("CK .P2-3", "D{i}"<0:7>) -> ("Q{i}"<0:7>);')
    return drawing(lines, header=["WIRE 0:2;"])


def clock_buffer(stages):
    """Registers in a row behind one clock buffer, whose spread counts twice at the checkers of four of them."""
    lines = ['t : BUF [20:40] ("CK .P2-3") -> ("CT");']
    for i in range(1, stages + 1):
        before = "Q0 .S1-4" if i == 1 else f"Q{i - 1}"
        lines.append(f'r{i} : REG [5:10] ("CT", "{before}") -> ("Q{i}");')
        if i % (stages // 4) == 0:
            lines.append(f'c{i} : SETUP_HOLD_CHK {{SETUP=10, HOLD=3}} ("CT", "Q{i}");')
    return drawing(lines)


SLICE = """MACRO SLICE {SIZE=256} ("CK", "PH", "EN", "SEL", "A"<0:SIZE-1>) -> ("L"<0:SIZE-1>);
gate : AND [4:8] ("CK" !H, "EN") -> ("GCK");
sum : XOR [10:30] ("A", "L") -> ("X"<0:SIZE-1>);
way : MUX2 [5:12] ("SEL", "X"<0:SIZE-1>, "A") -> ("M"<0:SIZE-1>);
reg : REG [10:25] ("GCK", "M"<0:SIZE-1>) -> ("Q"<0:SIZE-1>);
hold : LATCH [5:10] ("PH", "Q"<0:SIZE-1>) -> ("L");
chk : SETUP_HOLD_CHK {SETUP=20, HOLD=10} ("GCK", "M"<0:SIZE-1>);
pulse : MIN_PULSE_CHK {HIGH=30, LOW=30} ("GCK");
END;""".split("\n")


def wide(uses, clock="8 x 50"):
    """Uses of a slice of 256 bits with a gated clock, XOR, MUX2, REG, LATCH and checkers, one after another."""
    lines = []
    for i in range(uses):
        before = "A .S7-5" if i == 0 else f"L{i - 1}"
        lines.append(
            f'u{i} : SLICE ("CK .P5-6(5,5)", "PH .P7-8", "EN .S4-7", "SEL .S7-5", "{before}"<0:255>) -> ("L{i}"<0:255>);'
        )
    return drawing(lines, clock=clock, macros=SLICE)


def wide_long_period(uses):
    """The same in the longest period."""
    return wide(uses, clock="8 x 512")


TREE = """MACRO TREE {SIZE=1} ("CK") -> ("Z");
IF SIZE = 1 THEN leaf : BUF [1:2] ("CK") -> ("Z");
ELSE left : TREE {SIZE=SIZE/2} ("CK") -> ("L");
right : TREE {SIZE=SIZE/2} ("CK") -> ("R");
top : OR [1:2] ("L", "R") -> ("Z"); END;
END;""".split("\n")


def tree(leaves, after=()):
    """A macro that halves its inputs until one is left: so many buffers, and an OR for each two halves."""
    return drawing([f't : TREE {{SIZE={leaves}}} ("CK .P2-3") -> ("OUT");'], macros=TREE, after=after)


# a case of a net that does not exist: the drawing is refused as soon as its circuit is built
REFUSED = ['CASE "NO SUCH NET"=0;']


def expanded_tree(leaves):
    """The same tree, refused as soon as it is expanded."""
    return tree(leaves, after=REFUSED)


def expanded_uses(count):
    """Registers one after another, refused as soon as they are expanded."""
    return drawing(
        (f'register_{i} : REG [5:10] ("MAIN CLK .P2-3", "QUEUE {i - 1}") -> ("QUEUE {i}");' for i in range(1, count + 1)),
        after=REFUSED,
    )


def chain(buffers):
    """Buffers one after another."""
    lines = []
    for i in range(1, buffers + 1):
        before = "CK .P2-3" if i == 1 else f"X{i - 1}"
        lines.append(f'b{i} : BUF [1:1] ("{before}") -> ("X{i}");')
    return drawing(lines)


def loops(count):
    """Loops of forty buffers without delay and an AND with a clock, side by side, which settle after 2132 rounds."""
    lines = []
    for i in range(1, count + 1):
        lines.append(f'b{i} : BUF [0:0] ("X{i}"<0:39>) -> ("X{i}"<1:40>);')
        lines.append(f'a{i} : AND [1:1] ("CK .P2-3", "X{i}"<40>) -> ("X{i}"<0>);')
    return drawing(lines)


CASE_STAGE = """MACRO STAGE {SIZE=32} ("SEL", "IN"<0:SIZE-1>) -> ("OUT"<0:SIZE-1>);
slow : BUF [5:9] ("IN") -> ("S"<0:SIZE-1>);
one : MUX2 [1:2] ("SEL", "IN", "S"<0:SIZE-1>) -> ("M"<0:SIZE-1>);
slower : BUF [5:9] ("M"<0:SIZE-1>) -> ("T"<0:SIZE-1>);
two : MUX2 [1:2] ("SEL", "T"<0:SIZE-1>, "M"<0:SIZE-1>) -> ("OUT");
END;""".split("\n")


def cases(count):
    """Six stages of 32 bits, each with a fast and a slow way by a select of its own, looked at in so many cases."""
    lines = []
    for i in range(6):
        before = "IN .S1-8" if i == 0 else f"W{i - 1}"
        lines.append(f's{i} : STAGE ("SEL{i}", "{before}"<0:31>) -> ("W{i}"<0:31>);')
    lines.append('c : SETUP_HOLD_CHK {SETUP=20, HOLD=5} ("CK .P6-7", "W5"<0:31>);')
    after = ["CASE " + ", ".join(f'"SEL{i}"={number >> i & 1}' for i in range(6)) + ";" for number in range(count)]
    return drawing(lines, macros=CASE_STAGE, after=after)


def small_cones(count):
    """A checker on each of 256 bits of 16 buses, beside one such stage, looked at in so many cases of the stage alone."""
    lines = [f'c{i} : SETUP_HOLD_CHK {{SETUP=20, HOLD=10}} ("CK .P2-3", "D{i} .S1-4"<0:255>);' for i in range(1, 17)]
    lines.append('s : STAGE ("SEL", "IN .S1-8"<0:31>) -> ("W"<0:31>);')
    lines.append('c : SETUP_HOLD_CHK {SETUP=20, HOLD=5} ("K .P6-7", "W"<0:31>);')
    return drawing(lines, macros=CASE_STAGE, after=[f'CASE "SEL"={number & 1};' for number in range(count)])


def for_values(count):
    """Buffers on an input, drawn by one FOR: one statement, and a value for each of them."""
    body = ["FOR I = 1 TO N DO", 'b : BUF [1:2] ("IN .S1-4") -> ("D"<I>);', "END;"]
    return f"SCALD 2;\nCLOCK 8 x 50;\nCONST N = {count};\nDRAWING ROW;\n" + "\n".join(body) + "\nEND;\n"


def two_delays(sections):
    """Sections of four gates with two delays each, that are other ones in each section, and a checker of their pulses."""
    lines = []
    for i in range(1, sections + 1):
        rise, fall = f"{i % 50}:{i % 50 + i // 50 % 50}", f"{i % 50 + 3}:{i % 50 + 7}"
        lines.append(f'g{i} : AND [{rise}, {fall}] ("CK .P2-4" !H, "EN .S1-5") -> ("G{i}");')
        lines.append(f'n{i} : BUF [{fall}, {rise}] (-"G{i}") -> ("N{i}");')
        lines.append(f'm{i} : MUX2 [{rise}, {fall}] ("SEL .S", "G{i}", "N{i}") -> ("M{i}");')
        lines.append(f'x{i} : XOR [{fall}, {rise}] ("M{i}", "D .S1-8") -> ("X{i}");')
        lines.append(f'w{i} : MIN_PULSE_CHK {{HIGH=30, LOW=30}} ("G{i}");')
    return drawing(lines)


def chains(count):
    """Chains of 250 buffers, side by side."""
    lines = []
    for i in range(1, count + 1):
        lines.append(f'h{i} : BUF [1:1] ("CK .P2-3") -> ("X{i}"<0>);')
        lines.append(f'b{i} : BUF [1:1] ("X{i}"<0:248>) -> ("X{i}"<1:249>);')
    return drawing(lines)


def flat(count):
    """Gates that are drawn one by one, whose delays differ, so that no two nets are in one class."""
    return drawing(
        f'inst_number_{i} : AND [1:{2 + i % 5}] ("signal {i // 2}", "CK .P2-3") -> ("signal {i + 1}");' for i in range(count)
    )


def random_gates(gates):
    """512 registers, and gates of two inputs, each of which reads two of the nets before it, drawn at random."""
    draw = random.Random(1)
    registers = 512
    lines = [
        f'r{i} : REG [2:5] ("CK .P2-3", "N{registers + draw.randrange(gates)}") -> ("N{i}");' for i in range(registers)
    ]
    for i in range(registers, registers + gates):
        kind, one, other = draw.choice(("AND", "OR", "XOR")), draw.randrange(i), draw.randrange(i)
        lines.append(f'g{i} : {kind} [1:3] ("N{one}", "N{other}") -> ("N{i}");')
    return drawing(lines)


def mapped(cells):
    """512 flip-flops and gates of two inputs, drawn as in random_gates: the kind, inputs and output of each."""
    draw = random.Random(1)
    flops = 512
    for i in range(flops):
        yield "$_DFF_P_", {"C": "clk", "D": f"N{draw.randrange(flops, cells)}"}, {"Q": f"N{i}"}
    for i in range(flops, cells):
        kind = draw.choice(("$_AND_", "$_OR_", "$_XOR_"))
        yield kind, {"A": f"N{draw.randrange(i)}", "B": f"N{draw.randrange(i)}"}, {"Y": f"N{i}"}


def netlist(cells):
    """The netlist of so many cells, as yosys writes it: JSON, for import."""
    bits = {"clk": 2, **{f"N{i}": 3 + i for i in range(cells)}}
    module = {
        "attributes": {"top": "00000000000000000000000000000001", "src": "mapped.v:1.1-9.10"},
        "ports": {"clk": {"direction": "input", "bits": [2]}},
        "cells": {
            f"$abc$1$auto$blifparse.cc:377:parse_blif${i}": {
                "hide_name": 1,
                "type": kind,
                "parameters": {},
                "attributes": {},
                "port_directions": {**{port: "input" for port in ins}, **{port: "output" for port in outs}},
                "connections": {port: [bits[net]] for port, net in {**ins, **outs}.items()},
            }
            for i, (kind, ins, outs) in enumerate(mapped(cells))
        },
        "netnames": {net: {"hide_name": 0, "bits": [bit], "attributes": {}} for net, bit in bits.items()},
    }
    text = json.dumps({"creator": "Yosys 0.23", "modules": {"top": module}}, indent=2)
    return re.sub(r"\[\s+(\d+)\s+\]", r"[ \1 ]", text)


def one_module(cells):
    """The JSON of a netlist of one module with these cells."""
    return json.dumps({"modules": {"top": {"ports": {}, "cells": cells}}})


def netlist_kinds(cells):
    """A netlist of so many cells, each of a kind of its own: every other one by its type, and else by its parameters."""
    return one_module(
        {
            f"u{i}": {
                "type": f"T{i}" if i % 2 else "T",
                "parameters": {"INIT": f"{i:016b}"},
                "port_directions": {"A": "input", "Y": "output"},
                "connections": {"A": [i + 2], "Y": [i + 3]},
            }
            for i in range(cells)
        }
    )


def netlist_ports(ports):
    """A netlist of one cell with so many ports, whose directions stand in another order than its connections."""
    return one_module(
        {
            "u": {
                "type": "T",
                "port_directions": {f"P{i}": "input" for i in reversed(range(ports))},
                "connections": {f"P{i}": [i + 2] for i in range(ports)},
            }
        }
    )


def netlist_box(ports):
    """The same with a cell whose type is a black box."""
    box = {
        "attributes": {"blackbox": 1},
        "ports": {f"P{i}": {"direction": "input", "bits": [i + 2]} for i in range(ports)},
    }
    cell = {"type": "T", "connections": {f"P{i}": [i + 2] for i in reversed(range(ports))}}
    return json.dumps({"modules": {"T": box, "top": {"ports": {}, "cells": {"u": cell}}}})


def imported(cells):
    """What import makes of that netlist, with the macros of examples/yosys and a drawing."""
    lines = ['MACRO top ("clk");']
    for i, (kind, ins, outs) in enumerate(mapped(cells)):
        given, taken = (", ".join(f'"{net}"' for net in nets.values()) for nets in (ins, outs))
        lines.append(f"  c{i} : n_{kind[1:]} ({given}) -> ({taken});")
    lines += ["END;", "DRAWING MEASURED;", '  u : top ("CK .P2-3");', "END;"]
    parts = [(YOSYS / name).read_text(encoding="ascii") for name in ("header.scald", "cells.scald")]
    return "".join(parts).replace("CLOCK 8 x 25;", "CLOCK 8 x 50;") + "\n".join(lines) + "\n"


def undriven(names):
    """Buffers, each of a net of its own that nothing drives."""
    return drawing(f'b{i} : BUF [1:2] ("IN {i}") -> ("OUT {i}");' for i in range(names))


def wave_loops(gates):
    """Gates of four kinds and of many delays on seven clocks and on each other, with loops: many different waves."""
    draw = random.Random(5)
    lines = []
    for i in range(gates):
        least = draw.randint(1, 9)
        kind, greatest = draw.choice(["AND", "OR", "XOR", "AND"]), least + draw.randint(0, 3)
        other = draw.randrange(gates) if i % 3 else (7 * i + 1) % gates
        clock = f"CK{i % 7} .P{i % 7}-{i % 7 + 1}"
        lines.append(f'g{i} : {kind} [{least}:{greatest}] ("{clock}", "Y{other}") -> ("Y{i}");')
    return drawing(lines, header=["PSKEW 2:3;"])


def long_chain(buffers):
    """Buffers one after another over the bits of one bus: in each round one of them is due."""
    lines = ['b0 : BUF [1:2] ("CK .P2-3") -> ("X"<0>);']
    for first in range(0, buffers, 255):
        end = min(first + 255, buffers)
        lines.append(f'b{first + 1} : BUF [1:2] ("X"<{first}:{end - 1}>) -> ("X"<{first + 1}:{end}>);')
    return drawing(lines)


def slow_loops(count):
    """Loops of 39 buffers without delay and an AND with a clock, each 256 bits wide, which settle after some 2,080 rounds."""
    lines = []
    for loop in range(count):
        for i in range(39):
            lines.append(f'b{loop}_{i} : BUF [0:0] ("X{loop}_{i}"<0:255>) -> ("X{loop}_{i + 1}"<0:255>);')
        lines.append(f'a{loop} : AND [1:1] ("CK .P2-3", "X{loop}_39"<0:255>) -> ("X{loop}_0"<0:255>);')
    return drawing(lines)


WIDE_STAGE = """MACRO STAGE {SIZE=256} ("SEL", "CK", "A"<0:SIZE-1>) -> ("Q"<0:SIZE-1>);
slow : BUF [30:40] ("A") -> ("S"<0:SIZE-1>);
way : MUX2 [0:3] ("SEL", "A", "S"<0:SIZE-1>) -> ("M"<0:SIZE-1>);
reg : REG [4:11] ("CK", "M"<0:SIZE-1>) -> ("R"<0:SIZE-1>);
sum : XOR [2:3] ("R"<0:SIZE-1>, "M"<0:SIZE-1>) -> ("Q");
chk : SETUP_HOLD_CHK {SETUP=10, HOLD=4} ("CK", "M"<0:SIZE-1>);
END;""".split("\n")


def many_cases(stages):
    """All 256 cases of eight selects, over so many stages of 256 bits."""
    lines = []
    for i in range(stages):
        before = "IN .S1-8" if i == 0 else f"N{i - 1}"
        lines.append(f'u{i} : STAGE ("SEL{i % 8}", "CK .P3-5", "{before}"<0:255>) -> ("N{i}"<0:255>);')
    after = ["CASE " + ", ".join(f'"SEL{j}"={number >> j & 1}' for j in range(8)) + ";" for number in range(256)]
    return drawing(lines, macros=WIDE_STAGE, after=after, header=["WIRE 0:2;"])


def dense(gates):
    """Gates on clocks that change in each slot or in two of three, in the longest period: waves of up to 4,096 runs."""
    clocks = [",".join(f"{i}-{i + 1}" for i in range(0, 4096, step)) for step in (2, 3)]
    lines = [f'c0 : BUF [0:0] ("CK .P{clocks[0]}") -> ("A0");', f'c1 : BUF [0:0] ("CL .P{clocks[1]}") -> ("B0");']
    for i in range(1, gates + 1):
        kind, other = ("XOR", "AND", "OR")[i % 3], i // 2 if i % 7 else 0
        lines.append(f'x{i} : {kind} [1:{1 + i % 2}] ("A{i - 1}", "B{other}") -> ("A{i}");')
        lines.append(f'y{i} : BUF [{i % 5}:{i % 5}] ("B{i - 1}") -> ("B{i}");')
        lines.append(f'k{i} : SETUP_HOLD_CHK {{SETUP=1, HOLD=1}} ("CK", "B{i}");')
    return drawing(lines, clock="4096 x 1")


def checkers(buses):
    """A checker on each of 256 bits of so many buses."""
    return drawing(
        f'c{i} : SETUP_HOLD_CHK {{SETUP=20, HOLD=10}} ("CK .P2-3", "D{i} .S1-4"<0:255>);' for i in range(1, buses + 1)
    )


def margins(buses):
    """A checker on each of 256 bits of so many buses, each bus late by its own delay, with the margins of each."""
    lines = []
    for i in range(buses):
        lines.append(f'b{i} : BUF [{i}:{i + 20}] ("A{i} .S1-4"<0:255>) -> ("B{i}"<0:255>);')
        lines.append(f'c{i} : SETUP_HOLD_CHK {{SETUP=20, HOLD=5}} ("CK .P2-3", "B{i}"<0:255>);')
    return drawing(lines)


def fault_chains(buses):
    """A fault on each of 256 bits of so many buses, all of one cause, ten buffers away."""
    lines = ['s0 : BUF [1:2] ("IN .S4-5") -> ("S1");']
    lines += [f's{i} : BUF [1:2] ("S{i}") -> ("S{i + 1}");' for i in range(1, 10)]
    for i in range(buses):
        lines.append(f'b{i} : BUF [1:2] ("S10") -> ("B{i}"<0:255>);')
        lines.append(f'c{i} : SETUP_HOLD_CHK {{SETUP=20, HOLD=5}} ("CK .P2-3", "B{i}"<0:255>);')
    return drawing(lines)


def broken_rows(buses):
    """256 bits of each of so many buses whose setup is broken, each bit in a statement and a row of its own."""
    lines = []
    for i in range(buses):
        for bit in range(256):
            most = 31 + bit % 24
            lines.append(f'b{i}x{bit} : BUF [{most - 20}:{most}] ("A{i} .S1-4"<{bit}>) -> ("B{i}"<{bit}>);')
            lines.append(f'c{i}x{bit} : SETUP_HOLD_CHK {{SETUP=20, HOLD=5}} ("CK .P2-3", "B{i}"<{bit}>);')
    return drawing(lines)


def one_cause(uses):
    """256 faults at each of so many uses that a FOR makes, all of one cause."""
    lines = ['b : BUF [10:40] ("IN .S1-4"<0:255>) -> ("D"<0:255>);', f"FOR I = 1 TO {uses} DO"]
    lines += ['c : SETUP_HOLD_CHK {SETUP=20, HOLD=5} ("CK .P2-3", "D"<0:255>);', "END;"]
    return drawing(lines, version=2)


def trace(count):
    """A trace of so many buffers of one clock, and the drawing of them."""
    ticks, late = 1000, 1
    clock = "".join(str(int(tick % 400 in range(100, 150))) for tick in range(ticks))
    lines = [f"TRACE {ticks}"]
    lines += [f"b{i}<0> {late} : 0" for i in range(count)]
    lines.append(f"CK<0> {clock}")
    lines += [f"X{i}<0> {'0' * late}{clock[:-late]}" for i in sorted(range(count), key=str)]
    lines.append("END TRACE")
    buffers = drawing(f'b{i} : BUF [1:2] ("CK .P2-3") -> ("X{i}");' for i in range(count))
    return "".join(line + "\n" for line in lines) + buffers


def statements(count):
    """The shortest statements, and a comment that fills the text up to the most bytes a text of all of them may have."""
    text = drawing(['WIRE "A" 0:0;'] * count)
    return "--" + "-" * (MOST_BYTES * count // 262144 - len(text) - 3) + "\n" + text


def operators(count):
    """Expressions of 64 operators each."""
    return drawing([f'WIRE "A" 0:0{"+0" * 64};'] * count)


def uses(count):
    """Registers of eight bits."""
    return drawing(f'  r{i} : REG [5:10] ("CK .P2-3", "D{i}"<0:7>) -> ("Q{i}"<0:7>);' for i in range(count))


def sums(count, one, between):
    """Statements with two expressions of 59 operators, of fifteen sums like `one`, in which % stands for a number."""
    sum_of_all = between.join(one.replace("%", str(k)) for k in range(1, 16))
    return drawing(f'  WIRE "W{i}"<{sum_of_all}> 0:{sum_of_all};' for i in range(count))


def written_sums(count):
    """Long expressions as they are written, with names of several letters and spaces around the operators."""
    return sums(count, "(ADDRESS * % - CONTROL / 3)", " + ")


def shortest_sums(count):
    """Long expressions in the shortest tokens, of which there is one in nearly each byte."""
    return sums(count, "(A*%-B/3)", "+")


def long_text(size, lines=(), after=(), clock="8 x 50"):
    """A text of at most `size` bytes: gates that are drawn one by one, and then these lines, with cases after them."""
    left = size - len(drawing(lines, clock=clock, after=after))
    gates = []
    while True:
        i = len(gates)
        gate = f'inst_number_{i} : AND [1:2] ("signal {i // 2}", "CK .P2-3") -> ("signal {i + 1}"); -- gate {i}'
        left -= len(gate) + 1
        if left < 0:
            return drawing([*gates, *lines], clock=clock, after=after)
        gates.append(gate)


def accepted(size):
    """Gates that are drawn one by one, in a text of so many bytes."""
    return long_text(size)


# Of each kind of refusal a mistake that stands at the end of a drawing, as its last lines or after it; or in the
# header, if nothing else can be refused so.
MISTAKES = {
    "BadByte": {"lines": ["-- caf\xe9"]},
    "BadToken": {"lines": ['last : BUF [0:0] ("A) -> ("X");']},
    "Syntax": {"lines": ['last : BUF [0:0] ("A") ("X");']},
    "BadHeader": {"clock": "8 x 0"},
    "DoubleName": {"lines": ['inst_number_1 : BUF [0:0] ("A") -> ("X");']},
    "UnknownKind": {"lines": ['last : BUFF [0:0] ("A") -> ("X");']},
    "BadName": {"lines": ['last : BUF [0:0] ("A .S2-9") -> ("X");']},
    "AssertionClash": {"lines": ['last : BUF [0:0] ("CK .P2-4") -> ("X");']},
    "BadParameter": {"lines": ['last : BUF [0:0] {N=1} ("A") -> ("X");']},
    "Overflow": {"lines": ['last : BUF [0:9223372036854775807+1] ("A") -> ("X");']},
    "BadRange": {"lines": ['last : BUF [0:0] ("A"<65536>) -> ("X");']},
    "Width": {"lines": ['last : BUF [0:0] ("A"<0:2>) -> ("X"<0:3>);']},
    "PinCount": {"lines": ['last : BUF [0:0] ("A", "B") -> ("X");']},
    "Bounds": {"lines": ['last : BUF [3:2] ("A") -> ("X");']},
    "TooDeep": {"lines": [f'last : BUF [0:{"(" * 65}1{")" * 65}] ("A") -> ("X");']},
    "TooMany": {"lines": [f'last{i} : MIN_PULSE_CHK ("A"<{256 * i}:{256 * i + 255}>);' for i in range(256)] + ['WIRE "B" 0:0;']},
    "TwoDrivers": {"lines": ['last : BUF [0:0] ("A") -> ("signal 1");']},
    "ZeroLoop": {"lines": ['last : BUF [0:0] ("X") -> ("X");']},
    "CaseNet": {"after": ['CASE "signal 1"=0;']},
    "EdgesOverlap": {"lines": ['last : BUF [0:0] ("A .C2-3(25,25)") -> ("X");']},
    "ZeroDivisor": {"lines": ['last : BUF [0:1/0] ("A") -> ("X");']},
    "UnknownName": {"lines": ['last : BUF [0:N] ("A") -> ("X");']},
}


def refused(kind):
    """Gives the text of a size that is refused for its one mistake."""

    def text(size):
        return long_text(size, **MISTAKES[kind])

    text.__doc__ = f"The same with one mistake, which is refused as {kind}."
    return text


def nothing(_size):
    """No text at all: what is measured makes its own."""
    return ""
