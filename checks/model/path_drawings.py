"""Random drawings whose limits have paths of several elements: a clock with a tree, registers, latches, gates, change
functions and loops behind them, and checkers of all kinds at the nets. Delays are short against the period."""
from .drawing import (
    Assign, Case, Clock, Connection, Constant, Delay, Drawing, Entry, Header, Interval, Name, Number, Range, Still, Term, Use,
    WireStatement,
)
from .waves import Bounds

KINDS = "BUF BUF AND OR XOR XOR CHG CHG REG REG LATCH LATCH MUX2 MUX4 REG_RS LATCH_RS MARK MARK SPLIT SPLIT".split()


class Paths:
    """Makes one drawing by lot."""

    def __init__(self, random):
        self.random = random
        ticks, units = random.choice([(5, 8), (10, 8), (12, 4), (1, 50), (20, 6)])
        self.period = ticks * units
        self.units = units
        skew = random.choice([Bounds(0, 0)] * 3 + [Bounds(0, 1), Bounds(2, 1)])
        wire = random.choice([Bounds(0, 0)] * 3 + [Bounds(0, 2), Bounds(1, 1)])
        self.header = Header(units, ticks, wire, skew, random.choice([Bounds(0, 0), Bounds(1, 1)]))
        self.clocks = ["CK"] if random.random() < 0.6 else ["CK", "PH"]
        self.asserted = {}
        for clock in self.clocks:
            first = random.randrange(units)
            end = (first + random.randrange(1, max(2, units - 1))) % units or units
            if end == first:
                end = first + 1
            intervals = [Interval(first, end)]
            skew = random.choice([None, None, Bounds(random.randrange(3), random.randrange(4))])
            self.asserted[clock] = Clock(random.choice("PPPC"), tuple(intervals), skew, random.random() < 0.1)
        for name in ("IN", "EN"):
            first = random.randrange(units)
            self.asserted[name] = Still((Interval(first, (first + random.randrange(1, units)) % units or units),))
        for name, assertion in self.asserted.items():
            spans = assertion.intervals
            if any(span.first == span.end for span in spans):
                span = spans[0]
                fixed = (Interval(span.first % units, (span.first + 1) if span.first + 1 <= units else 1),)
                self.asserted[name] = (Still(fixed) if isinstance(assertion, Still)
                                       else Clock(assertion.letter, fixed, assertion.skew, assertion.is_low))
        self.edges = list(self.clocks)
        self.nets = ["IN", "EN", "QUIET"]
        self.count = 0

    def chance(self, share):
        return self.random.random() < share

    def pin(self, name, is_marked=False):
        term = Term(Name(name, self.asserted.get(name)), None, self.chance(0.15))
        if self.chance(0.03) and not is_marked:
            term = Term(self.random.choice(list(Constant)))
        return Connection([term], is_marked)

    def bounds(self, most):
        least = self.random.randrange(most)
        return Bounds(least, least + self.random.choice([0, 0, 1, 2, self.random.randrange(most)]))

    def delay(self, bounds):
        return Delay(Number(bounds.least), Number(bounds.greatest))

    def any_net(self):
        return self.random.choice(self.nets[-5:] + self.nets)

    def element(self, target):
        kind = self.random.choice(KINDS)
        most = max(3, self.period // self.random.choice([4, 8, 12]))
        fall, delay = None, self.delay(self.bounds(most))
        if kind == "SPLIT":
            kind = self.random.choice(["BUF", "AND", "OR", "XOR", "MUX2"])
            fall = self.delay(self.bounds(most))
        edge, data = self.random.choice(self.edges), self.any_net
        if kind == "MARK":
            pins = [self.pin(edge, True), *(self.pin(data()) for _ in range(self.random.choice([1, 1, 2])))]
            if self.chance(0.3):
                pins.reverse()
            return Use(f"u{self.count}", self.random.choice(["AND", "OR"]), pins, [self.pin_out(target)], delay)
        counts = {"BUF": 1, "MUX2": 3, "MUX4": 6, "REG": 2, "LATCH": 2, "REG_RS": 4, "LATCH_RS": 4}
        count = counts.get(kind) or self.random.choice([1, 2, 2, 3])
        names = [data() if self.chance(0.85) else edge for _ in range(count)]
        if kind in ("REG", "LATCH", "REG_RS", "LATCH_RS"):
            names[0] = edge
        if kind == "CHG" and self.chance(0.1):
            delay = self.delay(Bounds(1, self.period + 3))
        return Use(f"u{self.count}", kind, [self.pin(name) for name in names], [self.pin_out(target)], delay, fall=fall)

    def pin_out(self, name):
        return Connection([Term(Name(name, self.asserted.get(name)), None, self.chance(0.12))])

    def checker(self, label):
        kind = self.random.choice(["SETUP_HOLD_CHK"] * 4 + ["SETUP_RISE_HOLD_FALL_CHK", "MIN_PULSE_CHK"])
        half = self.period // 4
        first, second = (self.random.choice([0, 0, 1, self.random.randrange(half)]) for _ in range(2))
        words = ("HIGH", "LOW") if kind == "MIN_PULSE_CHK" else ("SETUP", "HOLD")
        edge = self.random.choice(self.edges)
        names = [self.random.choice([edge, self.any_net()])] if kind == "MIN_PULSE_CHK" else [edge, self.any_net()]
        assigns = [Assign(word, Number(value)) for word, value in zip(words, (first, second))]
        return Use(label, kind, [self.pin(name) for name in names], [], None, assigns)

    def make(self):
        body = []
        for _ in range(self.random.choice([0, 1, 1, 2])):
            self.count += 1
            name = f"T{self.count}"
            fall = self.delay(self.bounds(5)) if self.chance(0.4) else None
            body.append(Use(f"t{self.count}", "BUF", [self.pin(self.random.choice(self.edges))], [self.pin_out(name)],
                            self.delay(self.bounds(5)), fall=fall))
            self.edges.append(name)
        for _ in range(self.random.choice([1, 2, 3, 5, 8])):
            self.count += 1
            name = f"N{self.count}"
            if self.chance(0.15):
                first = self.random.randrange(self.units)
                interval = Interval(first, first + 1)
                self.asserted[name] = self.random.choice(
                    [Still((interval,)), Clock("P", (interval,), Bounds(0, 2), False), Still(())])
            body.append(self.element(name))
            if self.chance(0.15):
                self.count += 1
                self.nets.append(f"N{self.count}")  # may be read before it is driven
                body.append(self.element(f"N{self.count}"))
            self.nets.append(name)
            if self.chance(0.1):
                self.edges.append(name)
        if self.chance(0.2):
            loop = Use("loop", self.random.choice(["XOR", "AND", "REG"]),
                       [self.pin(self.random.choice(self.edges)), self.pin("L")], [self.pin_out("L")],
                       self.delay(Bounds(1, 2)))
            body.append(loop)
            self.nets.append("L")
        body += [self.checker(f"c{k}") for k in range(self.random.choice([1, 2, 3, 4]))]
        if self.chance(0.2):
            body.append(WireStatement(Name(self.random.choice(self.nets)), self.delay(self.bounds(3))))
        cases = []
        if self.chance(0.25):
            cases = [Case([Entry(Name("QUIET"), 0, level)]) for level in self.random.choice([(0,), (0, 1)])]
        return Drawing(self.header, [], body, cases, 2, [])


def make_path_drawing(random):
    return Paths(random).make()
