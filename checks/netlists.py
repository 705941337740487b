#!/usr/bin/env python3
"""Compares what `import` answers to random netlists with a model of it, written from the rules and not from the
program.

Usage: checks/netlists.py PROGRAM [COUNT [SEED]]
       checks/netlists.py --yosys PROGRAM [COUNT [SEED]]    netlists of random Verilog designs, which yosys maps

Prints a line `tried NAME` for each text, and a line `FAILED WHY` for each difference.
"""
import json
import random
import re
import subprocess
import sys
import tempfile

# --- JSON with places


class Refusal(Exception):
    def __init__(self, number, name, at):
        self.number, self.name, self.at = number, name, at

    def line(self, text):
        front = text[: self.at]
        row = front.count("\n") + 1
        column = len(front) - (front.rfind("\n") + 1) + 1
        return "REFUSED %d %s %d:%d\n" % (self.number, self.name, row, column)


def wrong(at):
    return Refusal(30, "Json", at)


class Value:
    """A part of the text: its kind, what it holds, and its first byte."""

    def __init__(self, kind, held, at):
        self.kind, self.held, self.at = kind, held, at

    def field(self, name):
        return dict(self.held).get(name) if self.kind == "object" else None


STRING = re.compile(r'"(?:[^"\\\x00-\x1f]|\\(?:["\\/bfnrt]|u[0-9a-fA-F]{4}))*"')
NUMBER = re.compile(r"-?(?:0|[1-9][0-9]*)(?:\.[0-9]+)?(?:[eE][-+]?[0-9]+)?(?=[\s,:\[\]{}]|$)")


class Parser:
    def __init__(self, text):
        self.text, self.at = text, 0

    def blank(self):
        while self.at < len(self.text) and self.text[self.at] in " \t\r\n":
            self.at += 1

    def peek(self):
        self.blank()
        return self.text[self.at] if self.at < len(self.text) else ""

    def take(self, byte):
        if self.peek() != byte:
            raise wrong(self.at)
        self.at += 1

    def whole(self):
        value = self.value(0)
        if self.peek():
            raise wrong(self.at)
        return value

    def string(self):
        found = STRING.match(self.text, self.at)
        if not found:
            raise wrong(self.at)
        self.at = found.end()
        return json.loads(found.group().encode("latin-1").decode()).encode().decode("latin-1")

    def value(self, depth):
        first = self.peek()
        at = self.at
        if first in ("{", "[") and first and depth == 64:
            raise wrong(at)
        if first == "{":
            return Value("object", self.members(depth), at)
        if first == "[":
            return Value("array", self.items(depth), at)
        if first == '"':
            held = self.string()
            # (a text with a colon after it is a name, and stands only in an object)
            if self.peek() == ":":
                raise wrong(at)
            return Value("text", held, at)
        for word in ("true", "false", "null"):
            if re.compile(word + r"(?=[\s,:\[\]{}]|$)").match(self.text, at):
                self.at += len(word)
                return Value(word, None, at)
        found = NUMBER.match(self.text, at)
        if not found:
            raise wrong(at)
        self.at = found.end()
        return Value("number", found.group(), at)

    def members(self, depth):
        self.at += 1
        members = []
        if self.peek() == "}":
            self.at += 1
            return members
        while True:
            if self.peek() != '"':
                raise wrong(self.at)
            at = self.at
            name = self.string()
            self.peek()
            # (a text without a colon after it is no name)
            if self.peek() != ":":
                raise wrong(at)
            if name in dict(members):
                raise wrong(at)
            self.take(":")
            members.append((name, self.value(depth + 1)))
            if self.peek() == "}":
                self.at += 1
                return members
            self.take(",")

    def items(self, depth):
        self.at += 1
        items = []
        if self.peek() == "]":
            self.at += 1
            return items
        while True:
            items.append(self.value(depth + 1))
            if self.peek() == "]":
                self.at += 1
                return items
            self.take(",")


# --- what is refused


def fault(number, value, found):
    names = {31: "NoNetlist", 32: "BadDirection", 33: "TooWide", 34: "UnlikeCells"}
    found.append((value.at, number, names[number]))


def bit_of(value):
    """A number, one of the texts, or None where the value is no bit."""
    if value.kind == "number" and value.held.isdigit() and int(value.held) < 2**32:
        return int(value.held)
    if value.kind == "text" and value.held in ("0", "1", "x", "z"):
        return value.held
    return None


def check_bits(value, found, most_index=None):
    for index, bit in enumerate(value.held):
        if bit_of(bit) is None or (most_index is not None and index > most_index):
            fault(31, bit, found)


def needed(whole, name, kind, found):
    value = whole.field(name)
    if value is None:
        fault(31, whole, found)
    elif value.kind != kind:
        fault(31, value, found)
        value = None
    return value


def optional(whole, name, kind, found):
    value = whole.field(name)
    if value is not None and value.kind != kind:
        fault(31, value, found)
        value = None
    return value


def check_direction(value, found):
    if value.kind != "text":
        fault(31, value, found)
    elif value.held not in ("input", "output"):
        fault(32, value, found)


def check_ports(module, found):
    ports = needed(module, "ports", "object", found)
    for _, port in ports.held if ports else []:
        if port.kind != "object":
            fault(31, port, found)
            continue
        direction = port.field("direction")
        if direction is None:
            fault(32, port, found)
        else:
            check_direction(direction, found)
        bits = needed(port, "bits", "array", found)
        if bits and len(bits.held) > 256:
            fault(33, bits, found)
        elif bits:
            check_bits(bits, found)


def check_cell(cell, modules, found):
    if cell.kind != "object":
        fault(31, cell, found)
        return
    optional(cell, "hide_name", "number", found)
    optional(cell, "parameters", "object", found)
    kind = needed(cell, "type", "text", found)
    module = modules.get(kind.held if kind else "")
    directions = cell.field("port_directions")
    if module is None:
        directions = needed(cell, "port_directions", "object", found)
        for _, direction in directions.held if directions else []:
            check_direction(direction, found)
    connections = needed(cell, "connections", "object", found)
    for name, value in connections.held if connections else []:
        if value.kind != "array":
            fault(31, value, found)
        elif module is None and (directions is None or directions.field(name) is None):
            fault(32, value, found)
        elif len(value.held) > 256:
            fault(33, value, found)
        elif module is not None and not fits(module, name, len(value.held)):
            fault(34, value, found)
        else:
            check_bits(value, found)


def fits(module, name, width):
    ports = module.field("ports")
    port = ports.field(name) if ports else None
    if port is None:
        return False
    bits = port.field("bits")
    return width == 0 or width == (len(bits.held) if bits and bits.kind == "array" else 0)


def is_black_box(module):
    attributes = module.field("attributes")
    mark = attributes.field("blackbox") if attributes else None
    if mark is None:
        return False
    if mark.kind == "number":
        return mark.held == "1"
    return mark.kind == "text" and re.fullmatch("0*1", mark.held) is not None


def check(whole):
    """Raises the first refusal of a value, if there is one, and else gives its modules."""
    found = []
    modules = None
    if whole.kind != "object":
        fault(31, whole, found)
    else:
        modules = needed(whole, "modules", "object", found)
    listed = modules.held if modules else []
    named = dict(listed)
    used = set()
    for _, module in listed:
        if not is_black_box(module):
            cells = module.field("cells")
            for _, cell in cells.held if cells and cells.kind == "object" else []:
                kind = cell.field("type")
                used.add(kind.held if kind and kind.kind == "text" else "")
    for name, module in listed:
        if module.kind != "object":
            fault(31, module, found)
        elif is_black_box(module):
            if name in used:
                check_ports(module, found)
        else:
            optional(module, "attributes", "object", found)
            check_ports(module, found)
            cells = needed(module, "cells", "object", found)
            for _, cell in cells.held if cells else []:
                check_cell(cell, named, found)
            nets = optional(module, "netnames", "object", found)
            for _, net in nets.held if nets else []:
                if net.kind != "object":
                    fault(31, net, found)
                    continue
                optional(net, "hide_name", "number", found)
                bits = needed(net, "bits", "array", found)
                if bits:
                    check_bits(bits, found, 65535)
    if found:
        at, number, name = min(found)
        raise Refusal(number, name, at)
    return listed, used


# --- names

RESERVED = set("SCALD CLOCK WIRE PSKEW CSKEW MACRO DRAWING CASE IF THEN ELSE END ZERO ONE".split())
PRIMITIVES = set(
    "BUF AND OR XOR MUX2 MUX4 MUX8 CHG REG LATCH REG_RS LATCH_RS "
    "SETUP_HOLD_CHK SETUP_RISE_HOLD_FALL_CHK MIN_PULSE_CHK".split()
)


def spelled(name, keep, taboo):
    if name.startswith("\\"):
        name = name[1:]
    out = ""
    for letter in name:
        if letter in keep:
            out += keep[letter]
        else:
            out += letter if re.fullmatch("[A-Za-z0-9_]", letter) else "_"
    return out if re.match("[A-Za-z]", out) and out not in taboo else "n" + out


def word(name):
    return spelled(name, {}, RESERVED)


def macro_word(name):
    return spelled(name, {}, RESERVED | PRIMITIVES)


def base(name):
    return spelled(name, {"$": "$", "#": "#", ".": "$"}, RESERVED)


class Place:
    def __init__(self):
        self.taken = set()

    def name(self, wanted):
        name, number = wanted, 0
        while len(name) > 64 or name in self.taken:
            tail = "_%d" % number
            name = wanted[: 64 - len(tail)] + tail
            number += 1
        self.taken.add(name)
        return name


# --- macros


def bits_of(value):
    return [bit_of(bit) for bit in value.held]


def ports_of(module):
    return [(name, p.field("direction").held, bits_of(p.field("bits"))) for name, p in module.field("ports").held]


def plain(value):
    """The value without places, to compare parameters by."""
    if value.kind == "object":
        return ("object", tuple((name, plain(part)) for name, part in value.held))
    if value.kind == "array":
        return ("array", tuple(plain(part) for part in value.held))
    return (value.kind, value.held)


class Kinds:
    """The kinds of cells of no module, by their types and parameters, in order."""

    def __init__(self):
        self.all = []

    def join(self, kind, parameters, connections):
        for number, (other, same, ports) in enumerate(self.all):
            if (other, same) == (kind, parameters) and all(
                name not in ports or ports[name] == port for name, port in connections
            ):
                ports.update(connections)
                return number
        self.all.append((kind, parameters, dict(connections)))
        return len(self.all) - 1


def is_hidden(value):
    hidden = value.field("hide_name")
    return hidden is not None and hidden.held != "0"


def connections_of(cell, module):
    """Name, direction and bits of each connection."""
    directions = cell.field("port_directions")
    known = dict((name, way) for name, way, _ in ports_of(module)) if module else None
    return [
        (name, known[name] if known else directions.field(name).held, bits_of(bits))
        for name, bits in cell.field("connections").held
    ]


class Macro:
    def __init__(self, module, name):
        self.lines = []
        self.name = name
        self.ports = [port for port in ports_of(module) if port[2]]
        self.nets = Place()
        self.labels = Place()
        self.bits = {}
        self.width = {}
        self.hidden = self.unknown = self.thrus = 0
        self.called = [self.nets.name(word(port)) for port, _, _ in self.ports]
        for way in ("input", "output"):
            for called, (_, direction, bits) in zip(self.called, self.ports):
                if direction == way:
                    self.claim(called, bits)
        for called, (_, _, bits) in zip(self.called, self.ports):
            self.width[called] = len(bits)
        named = module.field("netnames")
        nets = [(n, is_hidden(v), bits_of(v.field("bits"))) for n, v in (named.held if named else [])]
        owners = {}
        for way in (False, True):
            for number, (_, hidden, bits) in enumerate(nets):
                if hidden == way:
                    for index, bit in enumerate(bits):
                        if isinstance(bit, int) and bit not in self.bits and bit not in owners:
                            owners[bit] = (number, index)
        count = 0
        calls = {}
        for number, (net, hidden, bits) in enumerate(nets):
            if any(owner == number for owner, _ in owners.values()):
                calls[number] = self.nets.name("n%d" % count if hidden else base(net))
                count += hidden
                self.width[calls[number]] = len(bits)
        for bit, (number, index) in owners.items():
            self.bits[bit] = (calls[number], index)

    def claim(self, called, bits):
        for index, bit in enumerate(bits):
            if isinstance(bit, int):
                self.bits.setdefault(bit, (called, index))

    def undriven(self, width):
        called = self.nets.name("x%d" % self.unknown)
        self.unknown += 1
        self.width[called] = width
        return called

    def wire(self, bit):
        if bit == "0":
            return "ZERO"
        if bit == "1":
            return "ONE"
        if bit in ("x", "z"):
            return (self.undriven(1), 0)
        if bit not in self.bits:
            called = self.nets.name("b")
            self.width[called] = 1
            self.bits[bit] = (called, 0)
        return self.bits[bit]

    def connection(self, wires):
        terms = []
        for wire in wires:
            last = terms[-1] if terms else None
            if last and isinstance(last, list) and not isinstance(wire, str) and last[0] == wire[0] and last[2] == wire[1] + 1:
                last[2] = wire[1]
            else:
                terms.append(wire if isinstance(wire, str) else [wire[0], wire[1], wire[1]])
        return " & ".join(self.term(term) for term in terms)

    def term(self, term):
        if isinstance(term, str):
            return term
        called, first, last = term
        if self.width[called] == 1:
            return '"%s"' % called
        return '"%s"<%s>' % (called, first if first == last else "%d:%d" % (first, last))

    def use(self, label, kind, ins, outs, delay=""):
        arrow = " -> (%s)" % ", ".join(outs) if outs else ""
        self.lines.append("  %s : %s%s (%s)%s;" % (label, kind, delay, ", ".join(ins), arrow))

    def cell(self, name, hidden, kind, ports, connections):
        if hidden:
            label = self.labels.name("c%d" % self.hidden)
            self.hidden += 1
        else:
            label = self.labels.name(word(name))
        given = {port: bits for port, _, bits in connections if bits}
        written = {"input": [], "output": []}
        for way in ("input", "output"):
            for port, direction, width in ports:
                if direction == way:
                    if port in given:
                        wires = [self.wire(bit) for bit in reversed(given[port])]
                    else:
                        called = self.undriven(width)
                        wires = [(called, index) for index in reversed(range(width))]
                    written[way].append(self.connection(wires))
        self.use(label, kind, written["input"], written["output"])

    def buffers(self):
        for called, (_, direction, bits) in zip(self.called, self.ports):
            for index, bit in enumerate(bits):
                if direction == "output" and bit not in ("x", "z") and self.wire(bit) != (called, index):
                    label = self.labels.name("thru%d" % self.thrus)
                    self.thrus += 1
                    source, target = self.connection([self.wire(bit)]), self.connection([(called, index)])
                    self.use(label, "BUF", [source], [target], " [0:0]")

    def text(self):
        ports = [(called, way, len(bits)) for called, (_, way, bits) in zip(self.called, self.ports)]
        return "\n".join([head(self.name, ports)] + self.lines + ["END;"]) + "\n"


def head(name, ports):
    def listed(way):
        return ", ".join('"%s"%s' % (called, "<%d:0>" % (width - 1) if width > 1 else "") for called, d, width in ports if d == way)

    outs = listed("output")
    return "MACRO %s (%s)%s;" % (name, listed("input"), " -> (%s)" % outs if outs else "")


def empty(name, ports):
    place = Place()
    return head(name, [(place.name(word(port)), way, width) for port, way, width in ports]) + "\nEND;\n"


def model(text, only_cells):
    """The status and the answer to a text, of whose bytes each is a letter here."""
    try:
        listed, used = check(Parser(text).whole())
    except Refusal as refusal:
        return 2, refusal.line(text)
    modules = dict(listed)
    boxes = {name for name, module in listed if is_black_box(module)}
    kinds = Kinds()
    targets = {}
    for name, module in listed:
        if name in boxes:
            continue
        for label, cell in module.field("cells").held:
            kind = cell.field("type").held
            if kind not in modules:
                parameters = cell.field("parameters")
                key = plain(parameters) if parameters else ("object", ())
                connections = [(p, (way, len(bits))) for p, way, bits in connections_of(cell, None) if bits]
                targets[name, label] = kinds.join(kind, key, connections)
    place = Place()
    called = {name: place.name(macro_word(name)) for name, _ in listed}
    shapes = [
        (place.name(macro_word(kind)), [(port, way, width) for port, (way, width) in ports.items()])
        for kind, _, ports in kinds.all
    ]
    of_modules = {name: [(p, w, len(b)) for p, w, b in ports_of(m) if b] for name, m in listed if name not in boxes or name in used}
    out = ""
    if only_cells:
        for name, ports in shapes:
            out += empty(name, ports)
        for name, _ in listed:
            if name in boxes and name in used:
                out += empty(called[name], of_modules[name])
        return 0, out
    for name, module in listed:
        if name in boxes:
            continue
        macro = Macro(module, called[name])
        for label, cell in module.field("cells").held:
            kind = cell.field("type").held
            if kind in modules:
                macro.cell(label, is_hidden(cell), called[kind], of_modules[kind], connections_of(cell, modules[kind]))
            else:
                shape = shapes[targets[name, label]]
                macro.cell(label, is_hidden(cell), shape[0], shape[1], connections_of(cell, None))
        macro.buffers()
        out += macro.text()
    return 0, out


# --- random netlists

ODD_NAMES = ["a", "a b", "\\\\a", "a.b", "a$b", "a_b", "a#b", "$x", "END", "AND", "b", "b_0", "c0", "n0", "x0", "x1", "thru0", "9", "", "é", "a" * 64, "a" * 70, "a" * 62 + "_0", "A"]


class Netlists:
    def __init__(self, source):
        self.random = source

    def name(self):
        return self.random.choice(ODD_NAMES + ["k%d" % self.random.randrange(6)])

    def names(self, count):
        return list(dict.fromkeys(self.name() for _ in range(count)))

    def bit(self):
        return self.random.choice(["0", "1", "x", "z"]) if self.random.random() < 0.15 else self.random.randrange(2, 14)

    def bits(self, width=None):
        width = self.random.choice([0, 1, 1, 1, 2, 3, 5]) if width is None else width
        if self.random.random() < 0.3:
            start = self.random.randrange(2, 8)
            return list(range(start, start + width))
        return [self.bit() for _ in range(width)]

    def ports(self):
        return {
            name: {"direction": self.random.choice(["input", "output"]), "bits": self.bits()}
            for name in self.names(self.random.randrange(5))
        }

    def cell(self, modules):
        ports = {}
        if modules and self.random.random() < 0.4:
            kind = self.random.choice(list(modules))
            ports = modules[kind]["ports"]
            connections = {name: self.bits(len(port["bits"])) if self.random.random() < 0.8 else [] for name, port in ports.items()}
        else:
            kind = self.random.choice(["T", "$_AND_", "AND", "U"])
            connections = {name: self.bits() for name in self.random.sample(["A", "B", "Q", "Y", "a"], 3)}
        if self.random.random() < 0.2 and connections:
            connections.pop(next(iter(connections)))
        cell = {"type": kind, "connections": connections}
        cell["port_directions"] = {name: "output" if name in "QY" else "input" for name in connections}
        if self.random.random() < 0.5:
            cell["hide_name"] = self.random.randrange(2)
        if self.random.random() < 0.4:
            cell["parameters"] = self.random.choice([{}, {"N": "1"}, {"N": 1}, {"N": [1, True, None]}])
        return cell

    def netlist(self):
        modules = {name: {"ports": self.ports()} for name in self.names(self.random.randrange(4))}
        for module in modules.values():
            if self.random.random() < 0.2:
                module["attributes"] = {"blackbox": self.random.choice(["0001", 1, "0", "1", 0])}
            module["cells"] = {name: self.cell(modules) for name in self.names(self.random.randrange(6))}
            if self.random.random() < 0.8:
                module["netnames"] = {
                    name: {"hide_name": self.random.randrange(2), "bits": self.bits()} for name in self.names(self.random.randrange(6))
                }
        return {"modules": modules}

    def spoiled(self, text):
        """The text with one thing wrong, mostly."""
        way = self.random.randrange(6)
        if way == 0:
            at = self.random.randrange(len(text) + 1)
            return text[:at] + self.random.choice('{}[],:"x1 ') + text[at:]
        if way == 1:
            at = self.random.randrange(len(text))
            return text[:at] + text[at + 1 :]
        words = ["direction", "bits", "type", "cells", "ports", "input", "output", "connections", "hide_name", '"modules"']
        found = [m for w in words for m in re.finditer(re.escape(w), text)]
        numbers = list(re.finditer(r"\d+", text))
        if way <= 3 and found:
            match = self.random.choice(found)
            return text[: match.start()] + "other" + text[match.end() :]
        if numbers:
            match = self.random.choice(numbers)
            other = self.random.choice(["4294967295", "4294967296", '"w"', "1.5", "[]", "{}", "null", "-1", "[" + ", ".join(["2"] * 257) + "]"])
            return text[: match.start()] + other + text[match.end() :]
        return text

    def text(self):
        text = json.dumps(self.netlist(), indent=self.random.choice([None, 1, 2]), ensure_ascii=self.random.random() < 0.5)
        return self.spoiled(text) if self.random.random() < 0.5 else text


# --- random designs in Verilog


class Designs:
    def __init__(self, source):
        self.random = source

    def expression(self, names, depth):
        if depth == 0 or self.random.random() < 0.2:
            return self.random.choice(names + ["8'd%d" % self.random.randrange(256)])
        a, b, c = (self.expression(names, depth - 1) for _ in range(3))
        return self.random.choice(
            ["(%s & %s)" % (a, b), "(%s | %s)" % (a, b), "(%s ^ %s)" % (a, b), "(~%s)" % a, "(%s + %s)" % (a, b),
             "(%s < %s ? %s : %s)" % (a, b, c, a), "{%s, 4'd3}" % a, "(%s >> 2)" % a]
        )

    def design(self, count):
        modules = []
        for number in range(count):
            names = ["a", "b", "r", "s"]
            below = ""
            if number:
                below = "  wire [7:0] w;\n  m%d below(.clk(clk), .rst(rst), .a(a), .b(r), .y(w), .z());\n" % (number - 1)
                names.append("w")
            flop = self.random.choice(
                ["always @(posedge clk) r <= %s;", "always @(posedge clk) if (rst) r <= 3; else r <= %s;",
                 "always @(posedge clk or posedge rst) if (rst) r <= 0; else r <= %s;",
                 "always @(negedge clk) if (a[0]) r <= %s;", "always @* if (rst) r = %s;"]
            ) % self.expression(names, 2)
            modules.append(
                "module m%d(input clk, input rst, input [7:0] a, input [7:0] b, output [7:0] y, output [1:0] z);\n"
                "  reg [7:0] r;\n  wire [7:0] s = %s;\n%s  %s\n  assign y = %s;\n  assign z = {a[0], 1'b1};\nendmodule\n"
                % (number, self.expression(["a", "b"], 2), below, flop, self.expression(names, 2))
            )
        return "\n".join(modules), "m%d" % (count - 1)


def mapped(verilog, top, script):
    with tempfile.TemporaryDirectory() as folder:
        with open(folder + "/design.v", "w") as file:
            file.write(verilog)
        commands = "read_verilog %s/design.v; %s; write_json %s/design.json" % (folder, script % top, folder)
        subprocess.run(["yosys", "-q", "-p", commands], check=True, capture_output=True)
        with open(folder + "/design.json") as file:
            return file.read()


SCRIPTS = ["synth -top %s; abc -g AND,OR,XOR,MUX", "synth -flatten -top %s; abc -g gates", "hierarchy -top %s; proc; opt",
           "synth -top %s -lut 4", "synth -top %s; flatten; opt_clean; abc -g AND,OR,XOR,MUX"]


# --- comparing


def compare(program, name, text):
    print("tried", name)
    for words in ([], ["cells"]):
        want = model(text.encode().decode("latin-1"), bool(words))
        said = subprocess.run([program, "import"] + words, input=text.encode(), capture_output=True)
        got = (said.returncode, said.stdout.decode())
        if got != want:
            print("FAILED %s %s: %r in place of %r" % (name, words, got, want))
            return


def accepts(program, name, text):
    """Its macros stand in a drawing that is not refused by the grammar."""
    macros = subprocess.run([program, "import"], input=text.encode(), capture_output=True).stdout.decode()
    drawing = "SCALD 2;\nCLOCK 8 x 50;\n" + macros + "DRAWING ROW;\nEND;\n"
    said = subprocess.run([program, "format"], input=drawing, capture_output=True, text=True)
    if said.returncode != 0:
        print("FAILED %s: %s" % (name, said.stdout.strip()))


def main():
    words = sys.argv[1:]
    by_yosys = words[0] == "--yosys"
    words = words[by_yosys:]
    program = words[0]
    count = int(words[1]) if len(words) > 1 else (20 if by_yosys else 300)
    seed = int(words[2]) if len(words) > 2 else 1
    for number in range(seed, seed + count):
        source = random.Random(number)
        if by_yosys:
            verilog, top = Designs(source).design(source.randrange(1, 4))
            text = mapped(verilog, top, SCRIPTS[number % len(SCRIPTS)])
        else:
            text = Netlists(source).text()
        name = "netlist %d" % number
        compare(program, name, text)
        if model(text.encode().decode("latin-1"), False)[0] == 0:
            accepts(program, name, text)


if __name__ == "__main__":
    main()
