"""Random lists of sections: drawings with one clock, each in a version of its own, and with global nets that one of them
drives and others read.
"""
from .drawing import Case, Delay, Drawing, Entry, Header, Interval, Name, Number, Still, uses
from .mending import mend
from .random_drawings import CLOCKS, NETS, SIGNALS, SMALL, Maker, Room
from .waves import Bounds

GLOBAL_INPUTS = ["/CK", "/X"]
GLOBAL_OUTPUTS = ["/Y", "/P", "/Q", "/R"]
SHARE_WRONG = 0.02  # of each way in which a list may break a rule
LOCAL_NETS = [base for base in NETS if base != "/Y"]
LOCAL_SIGNALS = [base for base in SIGNALS if base != "/X"]


class SectionMaker(Maker):
    """Makes one section: what its global names assert is given, and which of them it may drive."""

    def __init__(self, random, header, asserted, owned):
        super().__init__(random, SMALL)
        self.header = header
        self.owned = owned
        local = {name: self.make_assertion("PPCS") for name in CLOCKS}
        self.asserted = {**local, **asserted}

    def make_net_name(self, room, is_output):
        if is_output:
            base = self.random.choice(LOCAL_NETS + self.owned * 4)
        else:
            inputs = CLOCKS + LOCAL_SIGNALS + (GLOBAL_INPUTS + GLOBAL_OUTPUTS) * 2
            base = self.random.choice(LOCAL_NETS if self.chance(0.4) else inputs)
        if not base.startswith("/") and (room.is_inner or self.chance(0.3)):
            return Name(base)
        return Name(base, None if self.chance(SHARE_WRONG / 4) else self.asserted.get(base))

    def make_drawing(self):
        if self.version == 2:
            self.make_constants()
        macros = self.random.choice([0, 0, 1])
        self.macros = [self.make_macro(f"MACRO_{number}") for number in range(macros)]
        outermost = Room(False, [], [], {}, self.values)
        body = self.make_body(outermost, self.random.choice([1, 2, 4, 6, 9]))
        cases = [Case([Entry(Name(self.random.choice(LOCAL_SIGNALS)), 0, 1)])] if self.chance(SHARE_WRONG) else []
        return Drawing(self.header, self.macros, body, cases, self.version, self.constants)


def slow_outputs(drawing, random):
    """Gives what drives a global net a delay of at least 1, mostly."""
    for macro_body in [drawing.body, *(macro.body for macro in drawing.macros)]:
        for use in uses(macro_body):
            outputs = [term.what for connection in use.outputs for term in connection.terms]
            is_global = any(isinstance(what, Name) and what.base.startswith("/") for what in outputs)
            if is_global and use.delay is not None and random.random() > SHARE_WRONG:
                least = random.choice([1, 1, 2, 5])
                use.delay = Delay(Number(least), Number(least + random.choice([0, 0, 1, 3])))
                if use.fall is not None:
                    use.fall = Delay(Number(least + 1), Number(least + 2))


def copy_header(header, random):
    """The same clock, with wires of its own; now and then another clock."""
    ticks = header.ticks_per_unit + (1 if random.random() < SHARE_WRONG else 0)
    wire = random.choice([Bounds(0, 0), Bounds(0, 0), Bounds(0, 2), Bounds(1, 1)])
    return Header(header.units, ticks, wire, header.skew_of_p, header.skew_of_c)


def make_sections(random):
    """A list of drawings, whose texts are written."""
    first = Maker(random, SMALL)
    count = random.choice([2, 2, 2, 3, 3, 4] if random.random() > SHARE_WRONG else [1, 65])
    asserted = {"/CK": first.make_assertion("PC")}
    if first.chance(0.7):
        asserted["/X"] = first.make_assertion("PSS")
    owned = [[] for _ in range(count)]
    for base in GLOBAL_OUTPUTS:
        if not first.chance(SHARE_WRONG):
            wide = Still((Interval(0, 1),)) if first.chance(0.5) else first.make_assertion("PCSSSSS")
            asserted[base] = wide
        random.choice(owned).append(base)
        if first.chance(SHARE_WRONG):
            random.choice(owned).append(base)
    drawings = []
    for number in range(count):
        if number >= 5:
            drawings.append(drawings[number % 5])
            continue
        drawing = SectionMaker(random, copy_header(first.header, random), asserted, owned[number]).make_drawing()
        slow_outputs(drawing, random)
        mend(drawing, random)
        drawings.append(drawing)
    return drawings
