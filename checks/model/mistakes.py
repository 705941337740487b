"""Mistakes of a designer, planted in random drawings: a name mistyped, a range one bit too far, a FOR without a turn, a case
that stands twice or too many nets in cases.
"""
from copy import deepcopy

from .drawing import Binary, Case, Connection, Delay, Entry, For, Name, Number, Range, Term, Use, bodies, statements
from .names import names

LETTERS = "ABDEOIl0158_"


def slipped(base, random):
    """A base with one letter more, less, changed or exchanged, or in another case; all of them if one might be none."""
    slash, base = ("/", base[1:]) if base.startswith("/") else ("", base)
    place = random.randrange(len(base))
    letter = random.choice(LETTERS)
    ways = [
        base[:place] + letter + base[place:],
        base[:place] + base[place + 1 :],
        base[:place] + letter + base[place + 1 :],
        base[:place] + base[place : place + 2][::-1] + base[place + 2 :],
        base.swapcase(),
        base.replace("O", "0").replace("I", "1"),
        base.replace("0", "O").replace("1", random.choice("Il")),
    ]
    return slash + (random.choice(ways).strip() or base)


def longer_names(drawing, random):
    """Gives signals names that are long enough for slips, all their uses alike."""
    new = {}
    for name, _ in names(drawing):
        slash, base = ("/", name.base[1:]) if name.base.startswith("/") else ("", name.base)
        if name.base not in new:
            new[name.base] = slash + base[:1] + random.choice(["LOAD", "CO1L", "DATA", "IN0", "xx"]) + base[1:]
        name.base = new[name.base]


def mistype(drawing, random):
    """Mistypes one use of a name as an input, mostly without its assertion."""
    found = [
        term.what
        for body in bodies(drawing)
        for use in statements(body)
        if isinstance(use, Use)
        for connection in use.inputs
        for term in connection.terms
        if isinstance(term.what, Name)
    ]
    if found:
        name = random.choice(found)
        name.base = slipped(name.base, random)
        if random.random() < 0.9:
            name.assertion = None


def reach_too_far(drawing, random):
    """Makes a range a bit longer."""
    found = [
        term
        for body in bodies(drawing)
        for use in statements(body)
        if isinstance(use, Use)
        for connection in use.inputs
        for term in connection.terms
        if isinstance(term.what, Name) and term.range is not None and term.range.last is not None
    ]
    if found:
        term = random.choice(found)
        term.range = Range(term.range.first, Binary("+", term.range.last, Number(1)))


def read_a_bit(drawing, random):
    """Reads a bit of a vector that is driven at another bit."""
    outputs = [
        term.what.base
        for body in [drawing.body]
        for use in statements(body)
        if isinstance(use, Use)
        for connection in use.outputs
        for term in connection.terms
        if isinstance(term.what, Name)
    ]
    if outputs:
        term = Term(Name(random.choice(outputs)), Range(Number(random.choice([1, 2, 3]))))
        drawing.body.append(
            Use("far", "BUF", [Connection([term])], [Connection([Term(Name("FAR"))])], Delay(Number(1), Number(1)))
        )


def idle_loop(drawing, random):
    """A FOR that has a turn in no expansion, or in some."""
    if drawing.version == 2:
        body = random.choice(bodies(drawing))
        body.insert(random.randrange(len(body) + 1), For("Z", Number(1), Number(random.choice([0, 0, 1])), []))


def more_cases(drawing, random):
    """Cases again, in another order, with other bits, or of more nets."""
    for _ in range(random.choice([1, 2, 4])):
        if drawing.cases:
            case = deepcopy(random.choice(drawing.cases))
            random.shuffle(case.entries)
            if random.random() < 0.4:
                entry = random.choice(case.entries)
                entry.level = 1 - min(entry.level, 1)
            drawing.cases.append(case)


def many_cases(drawing, random):
    """Cases over some nets or many, which cover all of their bits or not."""
    count = random.choice([1, 2, 3, 12, 13, 14])
    drawing.cases = []
    front = []
    for number in range(count):
        pin = Connection([Term(Name(f"S{number}"))])
        drawing.body.append(
            Use(f"s{number}", "BUF", [pin], [Connection([Term(Name(f"T{number}"))])], Delay(Number(1), Number(1)))
        )
    for number in range(count):
        drawing.cases.append(Case([*front, Entry(Name(f"S{number}"), 0, 0)]))
        front = [*deepcopy(front), Entry(Name(f"S{number}"), 0, 1)]
    if random.random() < 0.6:
        drawing.cases.append(Case(front))
    random.shuffle(drawing.cases)
    drawing.cases = deepcopy(drawing.cases)


MISTAKES = [mistype, mistype, mistype, reach_too_far, read_a_bit, idle_loop, more_cases, many_cases]


def blunder(drawing, random):
    """Some mistakes."""
    if random.random() < 0.8:
        longer_names(drawing, random)
    for _ in range(random.choice([1, 1, 2, 3])):
        random.choice(MISTAKES)(drawing, random)
