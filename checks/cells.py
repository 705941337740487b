#!/usr/bin/env python3
"""Whether each macro of examples/yosys/cells.scald does what the cell of yosys does: draws a run of it by
`scald run` and compares its output with a table of the cell, written down here.

Usage: checks/cells.py PROGRAM. Prints a line `tried NAME` for each macro, and a line `FAILED WHY` for each
failure. In the run every delay is one tick, and every input changes at random, but for the time around the
edges of the clock.
"""
import itertools
import os
import re
import subprocess
import sys

TOP = os.path.dirname(os.path.dirname(os.path.abspath(__file__)))
FOLDER = os.path.join(TOP, "examples", "yosys")
TICKS = 4096

# --- what each gate makes of its inputs

GATES = {
    "BUF": ("A", lambda a: a),
    "NOT": ("A", lambda a: not a),
    "AND": ("AB", lambda a, b: a and b),
    "NAND": ("AB", lambda a, b: not (a and b)),
    "OR": ("AB", lambda a, b: a or b),
    "NOR": ("AB", lambda a, b: not (a or b)),
    "XOR": ("AB", lambda a, b: a != b),
    "XNOR": ("AB", lambda a, b: a == b),
    "ANDNOT": ("AB", lambda a, b: a and not b),
    "ORNOT": ("AB", lambda a, b: a or not b),
    "MUX": ("ABS", lambda a, b, s: b if s else a),
    "NMUX": ("ABS", lambda a, b, s: not (b if s else a)),
    "MUX4": ("ABCDST", lambda *x: x[x[4] + 2 * x[5]]),
    "MUX8": ("ABCDEFGHSTU", lambda *x: x[x[8] + 2 * x[9] + 4 * x[10]]),
    "MUX16": ("ABCDEFGHIJKLMNOPSTUV", lambda *x: x[x[16] + 2 * x[17] + 4 * x[18] + 8 * x[19]]),
    "AOI3": ("ABC", lambda a, b, c: not ((a and b) or c)),
    "OAI3": ("ABC", lambda a, b, c: not ((a or b) and c)),
    "AOI4": ("ABCD", lambda a, b, c, d: not ((a and b) or (c and d))),
    "OAI4": ("ABCD", lambda a, b, c, d: not ((a or b) and (c or d))),
}

# --- flip-flops and latches: what each letter of a name says, as yosys describes its cells

POLARITY = {"P": 1, "N": 0}
# the letters after the name, in their order: C the edge of the clock (of a latch, the level of its enable), E, L, R
# and S the levels of those inputs, and V the value of the reset
FORMS = {
    "DFF": ["C", "CRV"],
    "DFFE": ["CE", "CRVE"],
    "ALDFF": ["CL"],
    "ALDFFE": ["CLE"],
    "DFFSR": ["CSR"],
    "DFFSRE": ["CSRE"],
    "SDFF": ["CRV"],
    "SDFFE": ["CRVE"],
    "SDFFCE": ["CRVE"],
    "DLATCH": ["E", "ERV"],
    "DLATCHSR": ["ESR"],
    "SR": ["SR"],
}


def inputs_of(kind, form):
    ports = set(form) - {"V"}
    if kind != "SR":
        ports.add("D")
    if "L" in form:
        ports.add("AD")
    return sorted(ports)


def next_state(kind, levels, before, now, state):
    """The state after the inputs went from `before` to `now`."""

    def on(port):
        return port in levels and now[port] == levels[port]

    reset_value = levels.get("V", 0)
    clocked = "C" in levels
    synchronous = kind.startswith("SDFF")
    if not synchronous:
        if on("R"):
            return reset_value
        if on("S"):
            return 1
        if on("L"):
            return now["AD"]
    if kind == "SR":
        return state
    if not clocked:
        return now["D"] if on("E") else state
    if not (now["C"] == levels["C"] and before["C"] != levels["C"]):
        return state
    enabled = "E" not in levels or on("E")
    if kind == "SDFFCE":
        if not enabled:
            return state
        return reset_value if on("R") else now["D"]
    if synchronous and on("R"):
        return reset_value
    return now["D"] if enabled else state


# --- runs


def header():
    with open(os.path.join(FOLDER, "header.scald")) as file:
        text = file.read()
    text = re.sub(r"(?m)^(CONST \w+ =).*", r"\1 1;", text)
    return re.sub(r"(?m)^CLOCK .*", "CLOCK 8 x 16;", text)


def run(program, macro, ports, assertions, output):
    """The bits of each port, tick by tick, in a run of one use of the macro."""
    connections = ", ".join('"%s %s"' % (port, assertions(port)) for port in ports)
    drawing = 'DRAWING TRIED;\n  u : %s (%s) -> ("%s");\nEND;\n' % (macro, connections, output)
    with open(os.path.join(FOLDER, "cells.scald")) as file:
        text = header() + file.read() + drawing
    said = subprocess.run([program, "run", str(TICKS), "7"], input=text, capture_output=True, text=True)
    if said.returncode != 0:
        return None
    bits = {}
    for line in said.stdout.splitlines():
        found = re.match(r"(\w+)<0> ([01]+)$", line)
        if found and len(found.group(2)) == TICKS:
            bits[found.group(1)] = [int(bit) for bit in found.group(2)]
    return bits


def try_gate(program, name):
    ports, table = GATES[name]
    bits = run(program, "n__%s_" % name, ports, lambda port: ".S0-1", "Y")
    if bits is None:
        return "no run"
    seen = set()
    for tick in range(1, TICKS):
        values = tuple(bits[port][tick - 1] for port in ports)
        seen.add(values)
        if bits["Y"][tick] != int(bool(table(*values))):
            return "%s gives %d" % (values, bits["Y"][tick])
    if len(ports) <= 6 and len(seen) < 2 ** len(ports):
        return "only %d combinations were seen" % len(seen)
    return None


def assertion(port, clock):
    return ".P2-5" if port == clock else ".S1-3,4-6"


def try_storage(program, kind, form, letters):
    levels = {}
    for port, letter in zip(form, letters):
        levels[port] = int(letter) if port == "V" else POLARITY[letter]
    ports = inputs_of(kind, form)
    clock = "C" if "C" in form else ("E" if kind.startswith("DLATCH") else None)
    macro = "n__%s_%s_" % (kind, letters)
    bits = run(program, macro, ports, lambda port: assertion(port, clock), "Q")
    if bits is None:
        return "no run"
    state = None
    quiet = 0
    compared = {0: 0, 1: 0}
    before = None
    for tick in range(TICKS):
        now = {port: bits[port][tick] for port in ports}
        if before is not None:
            quiet = quiet + 1 if now == before else 0
            state = next_state(kind, levels, before, now, state)
        before = now
        if quiet >= 3 and state is not None:
            compared[state] += 1
            if bits["Q"][tick] != state:
                return "at tick %d it holds %d" % (tick, bits["Q"][tick])
    if min(compared.values()) < 10:
        return "only %s were compared" % compared
    return None


def storage_cells():
    for kind, forms in FORMS.items():
        for form in forms:
            choices = ["01" if port == "V" else "NP" for port in form]
            for letters in itertools.product(*choices):
                yield kind, form, "".join(letters)


def main():
    program = sys.argv[1]
    tried = set()

    def outcome(macro, why):
        tried.add(macro)
        print("tried", macro)
        if why:
            print("FAILED %s: %s" % (macro, why))

    for name in GATES:
        outcome("n__%s_" % name, try_gate(program, name))
    for kind, form, letters in storage_cells():
        outcome("n__%s_%s_" % (kind, letters), try_storage(program, kind, form, letters))
    with open(os.path.join(FOLDER, "cells.scald")) as file:
        macros = set(re.findall(r"(?m)^MACRO (\w+)", file.read()))
    for macro in sorted(macros ^ tried):
        print("FAILED %s: it is in one of the library and the tables alone" % macro)


if __name__ == "__main__":
    main()
