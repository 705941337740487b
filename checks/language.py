"""Runs the texts of docs/LANGUAGE.md over a program, for checks/language.sh.

Usage: python3 checks/language.py PROGRAM TOP TRIED FAILED
It writes a line for each text that it tries into the file TRIED, and one for each that has another answer into FAILED.
A row of a table that this does not know how to read is such a line too.
"""
import json
import re
import subprocess
import sys

PROGRAM, TOP, TRIED, FAILED = sys.argv[1:]
HEAD = "SCALD 2;\nCLOCK 8 x 50;\n"


def answer(words, text):
    """Status and standard output."""
    data = text if isinstance(text, bytes) else text.encode()
    ended = subprocess.run([PROGRAM, *words.split()], input=data, capture_output=True, timeout=60)
    return ended.returncode, ended.stdout.decode()


def row(*statements):
    """A text whose drawing has these statements from line 4 on."""
    return HEAD + "DRAWING ROW;\n" + "".join(line + "\n" for line in statements) + "END;\n"


class Section:
    """A part of the page: its indented texts, the rows of its tables, and what it says between them."""

    def __init__(self, lines):
        self.texts, self.rows, said, text = [], [], [], []
        for line in [*lines, ""]:
            if line.startswith("    "):
                text.append(line[4:] + "\n")
            elif line or not text:
                said.append(line)
            if not line.startswith("    ") and text:
                self.texts.append("".join(text))
                text = []
            if line.startswith("| ") and not line.startswith("|---"):
                self.rows.append([cell.strip() for cell in line.strip("|").split(" | ")])
        self.said = "\n".join(said)


def page():
    """The sections of the page by their heads; what stands before the first one has none."""
    with open(f"{TOP}/docs/LANGUAGE.md", encoding="ascii") as file:
        parts = file.read().split("\n## ")
    named = [("", parts[0])] + [tuple(part.split("\n", 1)) for part in parts[1:]]
    return {head: Section(body.split("\n")) for head, body in named}


PAGE = page()
tried, failed = open(TRIED, "a", encoding="ascii"), open(FAILED, "a", encoding="ascii")


def expect(name, got, wanted):
    print(name, file=tried)
    if got != wanted:
        print(f"{name}: {got!r} in place of {wanted!r}", file=failed)


def codes(cell):
    return re.findall(r"`([^`]+)`", cell)


def example(name):
    with open(f"{TOP}/examples/{name}.scald", encoding="ascii") as file:
        return file.read()


# ---- drawings and their answers

def shows(head, place, words, text, status):
    """The text of this place in a section is the whole answer."""
    expect(f"{head}: {words}", answer(words, text), (status, PAGE[head].texts[place]))


def drawings():
    slice_of_alu = PAGE[""].texts[0]
    expect("the first drawing", answer("verify faults", slice_of_alu)[1].splitlines()[-1:], ["CLEAN"])
    head = "Canonical text"
    spelled = next(code for code in codes(PAGE[head].said) if code.startswith("t:T"))
    written = "SCALD 2;\nCLOCK 8 x 50;\nWIRE 0:0;\nPSKEW 0:0;\nCSKEW 0:0;\nDRAWING ROW;\n"
    expect(head, answer("format", row(spelled)), (0, written + PAGE[head].texts[0] + "END;\n"))
    tree = HEAD + PAGE["Macros"].texts[0] + 'DRAWING ROW;\nt : TREE ("A"<0:7>) -> ("Z");\nEND;\n'
    expect("Macros", answer("verify faults", tree)[0], 0)
    head = "Constants and FOR"
    buffers = HEAD + PAGE[head].texts[0]
    labels = [line.split("<")[0] for line in answer("run 1 0", buffers)[1].splitlines() if line.startswith("b#")]
    expect(head, labels, [f"b#{i}" for i in (1, 2, 3, 4)])
    head = "Primitives"
    fault = next(code for code in codes(PAGE[head].said) if code.startswith("FAULT"))
    expect(head, faults_of(PAGE[head].texts[0]), [fault])
    shows("Notes", 0, "notes", example("mistyped_clock"), 1)
    head = "Margins"
    status, margins = answer("margins", example("first"))
    expect(head, (status, margins.split("\n", 1)[1]), (0, PAGE[head].texts[0]))
    asserted = next(cells[2] for cells in PAGE["The report"].rows if "ASSERT" in cells[0])
    shows("Chains", 0, "chains", row(*codes(asserted)), 1)
    late = row(
        'r1 : REG [5:10] ("CK .P0-4", "IN .S7-2") -> ("Q");',
        'g1 : CHG [40:390] ("Q") -> ("D");',
        'c1 : SETUP_HOLD_CHK {SETUP=20, HOLD=5} ("CK", "D");',
    )
    expect("Slack", answer("slack", late), (1, "\n".join(PAGE["Slack"].texts)))
    explained = answer("explain", late)[1]
    expect("Explanations", PAGE["Explanations"].texts[0] in explained, True)
    shows("Runs", 1, "run 6 7", PAGE["Runs"].texts[0], 0)


def netlist():
    bits = {"a": ("input", 2), "y": ("output", 3)}
    cell = {
        "type": "$_NOT_",
        "port_directions": {"A": "input", "Y": "output"},
        "connections": {"A": [2], "Y": [3]},
    }
    ports = {name: {"direction": way, "bits": [bit]} for name, (way, bit) in bits.items()}
    module = {"ports": ports, "cells": {"$1": cell}, "netnames": {}}
    text = json.dumps({"modules": {"top": module}})
    expect("Netlists of other tools", answer("import", text)[1], PAGE["Netlists of other tools"].texts[0])


# ---- names

def names():
    head = "Signal names"
    refused = next(line for line in PAGE[head].said.split("\n") if "are refused" in line)
    for name in codes(refused):
        got = answer("verify", row(f"b1 : BUF [0:0] ({name}) -> (\"X\");"))[1]
        expect(f"{head}: {name}", got, "REFUSED 7 BadName 4:17\n")
    specs = [code for code in codes(PAGE[head].said) if code.startswith(".C2-3")]
    for spec, status in zip(specs, (2, 0), strict=True):
        expect(f"{head}: {spec}", answer("verify", row(f'b1 : BUF [0:0] ("CK {spec}") -> ("X");'))[0], status)


# ---- faults

def faults_of(statements):
    return [line for line in answer("verify faults", row(statements))[1].splitlines() if line.startswith("FAULT ")]


def fault_table():
    before = ""
    for line, _, drawing in PAGE["The report"].rows[1:]:
        statements = codes(drawing)
        if drawing.startswith("the same with"):
            limit, name = statements
            kind = limit.split("=")[0]
            changed = re.sub(rf"{kind}=\d+", limit, before)
            statements = [re.sub(r'"D [^"]*"', name, changed)]
        before = "\n".join(statements)
        expect(f"The report: {line}", faults_of(before), codes(line))


# ---- refusals

def at_line(number, line):
    """A drawing of one buffer, with another line of this number."""
    lines = row('b1 : BUF [0:0] ("A") -> ("X");').splitlines()
    return "\n".join(lines[: number - 1] + [line] + lines[number:]) + "\n"


def vectors(line, *more):
    """256 lines like this one, each with the next label and the next 256 bits; and more."""
    lines = [line.replace("l0 ", f"l{i} ").replace("<0:255>", f"<{256 * i}:{256 * i + 255}>") for i in range(256)]
    return row(*lines, *more)


# how the example of a refusal is made into texts, if it is not the statements of a drawing
MADE = {
    ("1 BadByte", 0): lambda code: [code[0].encode() + b"\xe9\n" + row().encode()],
    ("2 BadToken", 0): lambda code: [HEAD + "DRAWING ROW;\n" + code[0]],
    ("3 Syntax", 0): lambda code: [at_line(2, code[0])],
    ("15 TooDeep", 0): lambda code: [row(code[0] + 65 * code[1] + "0" + 65 * ")" + ':0] ("A") -> ("X");')],
    ("4 BadHeader", 0): lambda code: [at_line(2, code[0])],
    ("5 DoubleName", 0): lambda code: [row(*(f'{code[0]} : BUF [0:0] ("A") -> ("{net}");' for net in "XY"))],
    ("10 Overflow", 0): lambda code: [row(code[0].replace("D", code[1]))],
    ("21 ZeroDivisor", 0): lambda code: [row(code[0].replace("D", code[2]))],
    ("22 UnknownName", 0): lambda code: [row(code[0].replace("D", code[3])), row(code[0].replace("[0:D]", code[4]))],
    ("14 Bounds", 1): lambda code: [row(line) for line in code],
    ("15 TooDeep", 1): lambda code: [HEAD + "MACRO M ();\nu : M ();\nEND;\nDRAWING ROW;\nu : M ();\nEND;\n"],
    ("16 TooMany", 1): lambda code: [vectors(*code)],
    ("16 TooMany", 2): lambda code: [vectors(*code)],
    ("17 TwoDrivers", 0): lambda code: [row(*(f'{label} : {code[0]} [0:0] ("A") -> ({code[1]});' for label in "ab"))],
    ("16 TooMany", 3): lambda code: [row('w1 : MIN_PULSE_CHK ("SEL");') + 257 * (code[0] + "\n")],
    ("19 CaseNet", 0): lambda code: [row(code[0]) + code[1] + "\n"],
}


def refusals():
    count = {}
    for cells in PAGE["Refusals"].rows:
        kinds, shown = re.findall(r"\d+ \w+", cells[0]), cells[-1]
        place = re.search(r": (\d+:\d+)$", shown)
        for kind in kinds:
            number = count[kind] = count.get(kind, -1) + 1
            made = MADE.get((kind, number), lambda code: [row(*code)])
            for text in made(codes(shown)):
                got = answer("verify", text)
                expect(f"Refusals: {kind}", got, (2, f"REFUSED {kind} {place.group(1) if place else '4:1'}\n"))


drawings()
netlist()
names()
fault_table()
refusals()
