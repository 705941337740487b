"""Reads value change dumps by the rules of IEEE 1364, and compares each with the trace of the same run: every net at
every tick, no variable more, no code and no reference twice. Usage: dumps.py TRACE DUMP, which says what differs first."""
import re
import sys


def nets_of(trace):
    """The bits of each net of a trace, by its name and bit."""
    nets = {}
    for line in trace.split("\n"):
        match = re.fullmatch(r"(.*)<(\d+)> ([01]+)", line)
        if match:
            nets[match[1], int(match[2])] = match[3]
    return nets


def base_of(word):
    """A reference without its backslash, and with spaces where tildes stand."""
    return word.removeprefix("\\").replace("~", " ")


class Variable:
    def __init__(self, path, reference, bits):
        self.path, self.reference, self.bits, self.value = path, reference, bits, None
        self.rows = [[] for _ in bits]


def declared(tokens):
    """The variables by their codes, and what follows the declarations."""
    variables, path, names = {}, [], set()
    while True:
        word = next(tokens)
        if word == "$enddefinitions":
            assert next(tokens) == "$end" and not path
            return variables
        rest = []
        while (token := next(tokens)) != "$end":
            rest.append(token)
        if word == "$scope":
            assert rest[0] == "module" and len(rest) == 2
            path.append(base_of(rest[1]))
        elif word == "$upscope":
            path.pop()
        elif word == "$var":
            kind, width, code, reference, *ranges = rest
            assert kind == "wire" and code not in variables and len(ranges) < 2
            bits = [None] * int(width)
            if ranges:
                high, _, low = ranges[0][1:-1].partition(":")
                bits = list(range(int(high), int(low or high) - 1, -1))
                assert len(bits) == int(width)
            name = (tuple(path), reference, tuple(ranges))
            assert name not in names
            names.add(name)
            variables[code] = Variable(path[1:], base_of(reference), bits)
        else:
            assert word == "$timescale" and re.fullmatch(r"(1|10|100) ([munpf]?s)", " ".join(rest))


def keep(variables, ticks):
    for variable in variables.values():
        for row, bit in zip(variable.rows, variable.value):
            row.extend(bit * ticks)


def read(text):
    """The variables of a dump, each with the bits of its ticks."""
    tokens = iter(text.split())
    variables = declared(tokens)
    at, is_start = 0, False
    for token in tokens:
        if token[0] == "#":
            if (time := int(token[1:])) > at:
                keep(variables, time - at)
            at = time
        elif token in ("$dumpvars", "$end"):
            is_start = token == "$dumpvars"
        elif token[0] == "b":
            variable = variables[next(tokens)]
            assert len(token) - 1 == len(variable.bits) and variable.value != token[1:]
            variable.value = token[1:]
        else:
            variable = variables[token[1:]]
            assert len(variable.bits) == 1 and variable.value != token[0]
            variable.value = token[0]
    assert not is_start
    return variables.values()


def named(variable, nets):
    """The net of each bit of a variable."""
    front = "".join(label + "/" for label in variable.path)
    base = variable.reference
    if variable.bits == [None]:
        if (front + base, 0) in nets:
            return [(front + base, 0)]
        match = re.fullmatch(r"(.*)(?:_(\d+)|<(\d+)>)", base)
        return [(front + match[1], int(match[2] or match[3]))]
    if (front + base, variable.bits[-1]) in nets:
        return [(front + base, bit) for bit in variable.bits]
    base = re.fullmatch(r"(.*)(?:_\d+|<\d+>)", base)[1]
    return [(front + base, bit) for bit in variable.bits]


def main(trace, dump):
    nets = nets_of(trace)
    seen = {}
    for variable in read(dump):
        for net, row in zip(named(variable, nets), variable.rows):
            assert net not in seen, net
            seen[net] = "".join(row)
    for net, row in nets.items():
        if seen.pop(net, None) != row:
            sys.exit(f"{net[0]}<{net[1]}> differs")
    if seen:
        sys.exit(f"{next(iter(seen))} is no net")


main(*(open(name, encoding="ascii").read() for name in sys.argv[1:]))
