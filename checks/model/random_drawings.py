"""Random drawings of two kinds: most with a small period, and others with a large one and names of many intervals.

They have macros with parameters, vectors, spread bits, complements, constants, WIRE and IF statements, marks, loops,
delays past the period, two delays, and cases. Half are of version 2, with CONST and FOR. Many would be refused, so `mending` makes most of them good again.
"""
from typing import NamedTuple

from .assertions import edges_overlap
from .drawing import (
    CHECKERS, ELEMENTS, MARKED_KINDS, SPLIT_KINDS, Assign, Binary, Case, Clock, Connection, Const, Constant, Delay, Drawing, Entry,
    For, Formal, Header, If, Interval, Macro, Minus, Name, Number, Parameter, Range, Still, Term, Use, WireStatement,
)
from .expansion import numbers_of, value_of
from .patterns import clock_tree, haze, islet, ring, signal, tree_macro
from .waves import Bounds

CLOCKS = ["CK", "PH"]
SIGNALS = ["D", "E", "SEL", "/X"]
NETS = ["A", "B", "C1", "Q", "W1", "/Y", "Z_#$ 1"]

# how often each kind of element is drawn
KINDS = "BUF BUF AND AND OR OR XOR MUX2 MUX2 MUX4 MUX8 CHG CHG REG REG LATCH LATCH REG_RS LATCH_RS".split()
COMPARISONS = ["=", "!=", "<", "<=", ">", ">="]


class Sizes(NamedTuple):
    """What is drawn by lot: the ticks of a unit, the units of a period, and how many intervals a name has."""

    ticks: list
    units: list
    intervals: list


SMALL = Sizes([1, 2, 3, 4, 5], [2, 3, 4, 5, 8], [1, 1, 1, 2])
LARGE = Sizes([1, 1, 2, 3], [30, 40, 64, 100], [1, 2, 12, 20])


class Room(NamedTuple):
    """Where statements are drawn: in the drawing itself or inside of a macro, with its formals and parameters."""

    is_inner: bool
    inputs: list
    outputs: list
    formals: dict  # of each, the numbers of its bits, or None if it has no range
    parameters: dict  # and constants, with their values, and variables, each with its first value


def widths_of(formals, parameters):
    """How many bits each of these formals has."""
    return [len(numbers_of(formal.range, parameters, None) or [0]) for formal in formals]


class Maker:
    """Makes one drawing by lot. All shares and numbers in it are chosen so that much of what may be comes often."""

    def __init__(self, random, sizes):
        self.random = random
        self.sizes = sizes
        self.header = self.make_header()
        self.version = random.choice([1, 2])
        self.constants = []
        self.values = {}  # of the constants
        self.macros = []
        self.width = random.choice([1, 1, 2, 3])
        self.labels = 0
        self.asserted = {name: self.make_assertion("PPCS") for name in CLOCKS}
        for name in SIGNALS:
            if self.chance(0.6):
                self.asserted[name] = self.make_assertion("PCSSS")

    def chance(self, share):
        return self.random.random() < share

    def make_bounds(self, most):
        least = self.random.randrange(most + 1)
        return Bounds(least, least + self.random.randrange(most + 1))

    def make_header(self):
        none = Bounds(0, 0)
        choice = self.random.choice
        units, ticks = choice(self.sizes.units), choice(self.sizes.ticks)
        early, late = choice([(0, 0), (0, 0), (0, 1), (1, 0), (1, 1)])
        return Header(
            units,
            ticks,
            choice([none, none, Bounds(0, 2), self.make_bounds(3)]),
            choice([none, none, self.make_bounds(2)]),
            Bounds(early, late),
        )

    # --- names

    def make_intervals(self):
        intervals = []
        for _ in range(self.random.choice(self.sizes.intervals)):
            first, end = self.random.randrange(self.header.units), self.random.randrange(self.header.units + 1)
            if first == end:
                end = (end + 1) % (self.header.units + 1)
            intervals.append(Interval(first, end))
        return tuple(intervals)

    def make_clock(self, letter):
        most = self.random.choice([2, 4, self.header.ticks_per_unit, 30])
        skew = Bounds(self.random.randrange(most), self.random.randrange(most)) if self.chance(0.33) else None
        return Clock(letter, self.make_intervals(), skew, self.chance(0.2))

    def make_still(self):
        """A signal that never changes, changes in one unit alone, or in any."""
        if self.chance(0.25):
            return Still(())
        if self.chance(0.3):
            first = self.random.randrange(1, self.header.units)
            return Still((Interval(first, self.random.choice([first - 1, self.header.units])),))
        if self.chance(0.1):
            return Still((Interval(0, self.header.units),))
        return Still(self.make_intervals())

    def make_assertion(self, letters):
        """An assertion of one of these letters."""
        letter = self.random.choice(letters)
        if letter == "S":
            return self.make_still()
        while True:
            clock = self.make_clock(letter)
            if letter == "P" or not edges_overlap(clock, self.header):
                return clock

    def make_net_name(self, room, is_output):
        """A name of a net that is no formal; now and then with its assertion, or with another that clashes."""
        base = self.random.choice(NETS if is_output or self.chance(0.5) else CLOCKS + SIGNALS)
        if is_output and not room.is_inner and base not in self.asserted and self.chance(0.12):
            self.asserted[base] = self.make_assertion("PCSSS")
        assertion = self.asserted.get(base)
        if not room.is_inner and self.chance(0.3):
            assertion = None
        return Name(base, Still(()) if self.chance(0.003) else assertion)

    # --- expressions

    def make_number(self, value, parameters):
        """An expression with this value, if the parameters have these."""
        if parameters and self.chance(0.4):
            word = self.random.choice(list(parameters))
            more = value - parameters[word]
            return Binary("+" if more >= 0 else "-", Parameter(word), Number(abs(more)))
        if value < 0:
            return Minus(Number(-value))
        ways = [
            Binary("-", Number(value + 3), Number(3)),
            Binary("+", Binary("*", Number(2), Number(value // 2)), Number(value % 2)),
            Binary("/", Number(2 * value + 1), Number(2)),
            Binary("/", Minus(Number(3 * value + 2)), Minus(Number(3))),
            Binary("+", Number(value), Binary("/", Minus(Number(1)), Number(2))),
        ]
        return Number(value) if self.chance(0.8) else self.random.choice(ways)

    def make_test(self, parameters):
        value = self.random.randrange(3)
        if self.chance(0.2):
            return Number(value)
        return Binary(self.random.choice(COMPARISONS), self.make_number(value, parameters), Number(1))

    def make_range(self, numbers, parameters):
        """These numbers, in this order or in the other."""
        first, last = numbers[0], numbers[-1]
        if self.chance(0.3):
            first, last = last, first
        if first == last and self.chance(0.7):
            return Range(self.make_number(first, parameters))
        return Range(self.make_number(first, parameters), self.make_number(last, parameters))

    def make_delay(self, parameters):
        """Short ones, some past the period, and few that are not allowed."""
        lot = self.random.random()
        period = self.header.period
        if lot < 0.25:
            least, more = 0, self.random.choice([0, 0, 1, 3])
        elif lot < 0.9:
            least, more = self.random.randrange(1, 6), self.random.choice([0, 0, 1, 2, 5])
        else:
            least, more = self.random.randrange(2 * period), self.random.choice([0, period, 3 * period])
        if self.chance(0.01):
            least, more = least + 1, -1
        return self.written_delay(Bounds(least, least + more), parameters)

    def written_delay(self, bounds, parameters):
        return Delay(self.make_number(bounds.least, parameters), self.make_number(bounds.greatest, parameters))

    def make_split(self):
        """The bounds of two delays: the one above the other, or not, or equal; some of 0, and some past the period."""
        choice = self.random.choice
        lot = self.random.random()
        first = self.make_bounds(choice([0, 1, 2, 4]))
        apart = choice([0, 0, 1, 1, 2, 4, 7, self.header.ticks_per_unit])
        second = Bounds(first.greatest + apart, first.greatest + apart + choice([0, 0, 1, 2, 5]))
        if lot < 0.4:
            second = self.make_bounds(choice([0, 2, 5]))
        elif lot < 0.5:
            second = first
        elif lot < 0.65:
            least = self.random.randrange(min(256, 2 * self.header.period))
            second = Bounds(least, choice([least, min(255, least + self.random.randrange(40)), 255]))
        return (first, second) if self.chance(0.5) else (second, first)

    def written_split(self, parameters):
        return [self.written_delay(bounds, parameters) for bounds in self.make_split()]

    def make_delays(self, kind, parameters):
        """One delay, or now and then two if the kind may have them."""
        if kind in SPLIT_KINDS and self.chance(0.4):
            return self.written_split(parameters)
        return self.make_delay(parameters), None

    # --- connections

    def formal_term(self, room, base, width):
        """So many bits of a formal, if it has so many."""
        numbers = room.formals[base]
        if numbers is None:
            return Term(Name(base), Range(Number(0)) if self.chance(0.2) else None)
        if len(numbers) < width or (len(numbers) == width and self.chance(0.5)):
            return Term(Name(base))
        begin = self.random.randrange(len(numbers) - width + 1)
        taken = numbers[begin : begin + width]
        if self.chance(0.02):
            taken = [number + 1 for number in taken]
        return Term(Name(base), self.make_range(taken, room.parameters))

    def net_term(self, room, width, is_output):
        name = self.make_net_name(room, is_output)
        begin = self.random.choice([0, 0, 0, 0, 0, 0, 1, 1, 2, 9])
        if width == 1 and begin == 0 and self.chance(0.6):
            return Term(name)
        return Term(name, self.make_range(range(begin, begin + width), room.parameters))

    def make_terms(self, room, width, is_output):
        if width > 1 and self.chance(0.15):
            front = self.random.randrange(1, width)
            return self.make_terms(room, front, is_output) + self.make_terms(room, width - front, is_output)
        formals = room.outputs if is_output else room.inputs
        if width == 1 and not is_output and self.chance(0.06):
            term = Term(self.random.choice(list(Constant)))
        elif formals and self.chance(0.6):
            term = self.formal_term(room, self.random.choice(formals), width)
        else:
            term = self.net_term(room, width, is_output)
        term.is_complemented = self.chance(0.2)
        return [term]

    def make_connection(self, room, width, is_output=False):
        return Connection(self.make_terms(room, width, is_output))

    def make_input(self, room, width):
        """An input of this width, or of one bit that is spread."""
        return self.make_connection(room, self.random.choice([width, width, 1]))

    # --- statements

    def make_element(self, room, label):
        width = self.random.choice([1, 1, 1, self.width])
        kind = self.random.choice(KINDS)
        fewest, most = ELEMENTS[kind]
        count = self.random.randint(fewest, max(fewest, min(most, 4)))
        inputs = [
            self.make_connection(room, self.random.randrange(1, 4)) if kind == "CHG" else self.make_input(room, width)
            for _ in range(count)
        ]
        if kind in MARKED_KINDS and self.chance(0.5):
            self.random.choice(inputs).is_marked = True
        output = self.make_connection(room, width, is_output=True)
        delay, fall = self.make_delays(kind, room.parameters)
        return Use(label, kind, inputs, [output], delay, fall=fall)

    def make_checker(self, room, label):
        """Mostly with short limits, and with some as long as may be."""
        period = self.header.period
        kind = self.random.choice(list(CHECKERS))
        first, second = (self.random.choice([0, 1, 2, self.random.randrange(period + 1)]) for _ in range(2))
        if kind != "MIN_PULSE_CHK" and self.chance(0.97):
            second = min(second, period - first)
        parameters = [
            Assign(word, self.make_number(value, room.parameters))
            for word, value in zip(CHECKERS[kind].parameters, (first, second))
            if self.chance(0.9)
        ]
        self.random.shuffle(parameters)
        width = self.random.choice([1, 1, 1, self.width])
        inputs = [self.make_input(room, width) for _ in range(CHECKERS[kind].inputs)]
        for number, bases in enumerate([CLOCKS + SIGNALS, SIGNALS][: len(inputs)]):
            if self.chance(0.5):
                inputs[number] = self.make_interface_input(bases)
        return Use(label, kind, inputs, [], None, parameters)

    def make_interface_input(self, bases):
        """One of these names, with what it asserts."""
        base = self.random.choice(bases)
        connection = signal(base, assertion=self.asserted.get(base))
        connection.terms[0].is_complemented = self.chance(0.2)
        return connection

    def make_macro_use(self, room, label):
        """Some of the parameters are given; connections mostly have the widths that come of them."""
        macro = self.random.choice(self.macros)
        values = {
            parameter.word: value_of(parameter.value, self.values, None) for parameter in macro.parameters
        }
        parameters = []
        for word in values:
            if self.chance(0.5):
                values[word] = self.random.choice([1, 2, 4] if macro.word == "TREE" else [1, 2, 3])
                parameters.append(Assign(word, self.make_number(values[word], room.parameters)))
        values = {**self.values, **values}
        widths = widths_of(macro.inputs, values)
        inputs = [self.make_connection(room, width if self.chance(0.9) else 1) for width in widths]
        outputs = [self.make_connection(room, width, is_output=True) for width in widths_of(macro.outputs, values)]
        return Use(label, macro.word, inputs, outputs, None, parameters)

    def make_use(self, room):
        self.labels += 1
        label = f"u{self.labels}"
        if self.macros and self.chance(0.2 if room.is_inner else 0.3):
            return self.make_macro_use(room, label)
        return self.make_element(room, label) if self.chance(0.75) else self.make_checker(room, label)

    def make_wire(self, room):
        least = self.random.choice([0, 0, 1, 2])
        greatest = least + self.random.choice([0, 1, 3])
        delay = Delay(self.make_number(least, room.parameters), self.make_number(greatest, room.parameters))
        bits = self.random.choice([None, None, Range(Number(0)), Range(Number(0), Number(1))])
        return WireStatement(Name(self.random.choice(NETS + CLOCKS + SIGNALS + room.inputs)), delay, bits)

    def make_if(self, room, depth):
        then = self.make_body(room, self.random.randrange(3), depth + 1)
        otherwise = self.make_body(room, self.random.randrange(3), depth + 1) if self.chance(0.6) else None
        return If(self.make_test(room.parameters), then, otherwise)

    def make_for(self, room, depth):
        """Few values, none now and then, and some below 0. Names may be those of parameters and constants."""
        word = self.random.choice(["I", "J", "N", "K1"])
        first = self.random.choice([0, 0, 0, 1, 2, -1, -2])
        last = first + self.random.choice([-1, 0, 1, 1, 2, 3])
        ends = self.make_number(first, room.parameters), self.make_number(last, room.parameters)
        inner = room._replace(parameters={**room.parameters, word: first})
        return For(word, *ends, self.make_body(inner, self.random.randrange(3), depth + 1))

    def make_body(self, room, count, depth=0):
        body = []
        for _ in range(count):
            lot = self.random.random()
            if lot < 0.1 and depth < 3:
                body.append(self.make_if(room, depth))
            elif self.version == 2 and lot > 0.85 and depth < 3:
                body.append(self.make_for(room, depth))
            else:
                body.append(self.make_wire(room) if 0.1 <= lot < 0.2 else self.make_use(room))
        return body

    # --- macros and cases

    def make_formals(self, words, parameters):
        """Formals without a range, with one that a parameter gives, up or down, and with another."""
        formals = []
        for word in words:
            lot = self.random.random()
            if lot < 0.4:
                bits = None
            elif lot < 0.8 and parameters:
                ends = [Number(0), Binary("-", Parameter(self.random.choice(list(parameters))), Number(1))]
                bits = Range(*self.random.sample(ends, 2))
            else:
                bits = self.random.choice([Range(Number(2), Number(1)), Range(Number(5))])
            formals.append(Formal(Name(word), bits))
        return formals

    def make_macro(self, word):
        parameters = {name: self.random.randrange(1, 4) for name in ["N", "M_2"][: self.random.choice([0, 1, 1, 2])]}
        known = {**self.values, **parameters}
        inputs = self.make_formals(["I1", "I2", "D"][: self.random.choice([1, 2, 3])], known)
        outputs = self.make_formals(["O1", "O2"][: self.random.choice([0, 1, 1, 2])], known)
        formals = {formal.name.base: numbers_of(formal.range, known, None) for formal in inputs + outputs}
        bases = [formal.name.base for formal in inputs], [formal.name.base for formal in outputs]
        room = Room(True, *bases, formals, {**self.values, **parameters})
        body = self.make_body(room, self.random.randrange(1, 4))
        defaults = [Assign(name, self.make_number(parameters[name], self.values)) for name in parameters]
        return Macro(word, defaults, inputs, outputs, body)

    def make_constants(self):
        """Some, each with the help of those before it; one may have the name of a parameter or of a variable."""
        for word in self.random.sample(["K1", "K2", "N", "I"], self.random.choice([0, 1, 2, 3])):
            value = self.random.randrange(1, 4)
            self.constants.append(Const(word, self.make_number(value, self.values)))
            self.values[word] = value

    def make_cases(self):
        """Levels for nets that are not driven mostly; some entries are not allowed."""
        cases = []
        for _ in range(self.random.choice([1, 2, 2, 3, 4])):
            entries = []
            for _ in range(self.random.choice([1, 1, 2])):
                name = Name(self.random.choice(SIGNALS + SIGNALS + NETS))
                level = self.random.choice([0, 1]) if self.chance(0.98) else 2
                entries.append(Entry(name, self.random.choice([0, 0, 0, 1]), level))
            cases.append(Case(entries))
        return cases

    def make_drawing(self):
        if self.version == 2:
            self.make_constants()
        outermost = Room(False, [], [], {}, self.values)
        if self.chance(0.1):
            kind = self.random.choice(["AND", "OR", "XOR"])
            self.macros.append(tree_macro(kind, *self.make_delays(kind, {})))
        for number in range(self.random.choice([0, 0, 1, 2])):
            self.macros.append(self.make_macro(f"MACRO_{number}"))
        body = self.make_body(outermost, self.random.choice([1, 2, 4, 6, 9, 12]))
        if self.header.period <= 16 and self.chance(0.08):
            body += ring(self.random.randrange(1, 14), self.random.choice(["AND", "OR"]), self.header)
        if self.chance(0.04):
            delays = self.written_delay(Bounds(1, 1), {}), *self.written_split({})
            body += haze(self.random.choice([self.make_intervals(), (Interval(0, 1),)]), *delays)
        if self.header.units == 8 and self.chance(0.1):
            body += islet(self.header.ticks_per_unit, *self.written_split({}))
        if self.chance(0.1):
            way = self.random.choice([None, "AND", "XOR", "CHG"])
            body += clock_tree(self.random.choice([0, 1, 2]), way, self.written_delay(Bounds(1, 2), {}))
        cases = self.make_cases() if self.chance(0.4) else []
        return Drawing(self.header, self.macros, body, cases, self.version, self.constants)


def make_drawing(random, is_large):
    return Maker(random, LARGE if is_large else SMALL).make_drawing()
