"""The answer of `notes`: what a drawing does not say, and what its settled waves do not know (docs/LANGUAGE.md, "Notes").

Paths are followed pin by pin, and whether a net leads to another is found by going through all that it reaches; nothing
is kept from one net for the next.
"""
from typing import NamedTuple

from .circuit import Net
from .drawing import Clock, Constant, Refused
from .elements import first_hazard
from .omissions import case_notes, empty, near, part
from .report import Answer, circuit_of
from .rounds import Unsettled, default_limit, pin_wave, settle_all
from .values import RISES, STAYS_HIGH, is_quiet, permits
from .waves import fold

REGISTERS = ("REG", "REG_RS")
LATCHES = ("LATCH", "LATCH_RS")
STORAGE = REGISTERS + LATCHES
EDGE_CHECKERS = ("SETUP_HOLD_CHK", "SETUP_RISE_HOLD_FALL_CHK")
CLOCK, INPUT = 0, 1  # pins of storage and of a checker of setup and hold


def text_of(pin):
    """What a pin is on."""
    return pin.on.name if isinstance(pin.on, Constant) else str(pin.on)


# --- clocks and checkers


def is_clocked(circuit, instance, cases):
    """Whether in some case the clock may rise in some slot, or the enable may be 1."""
    step = STAYS_HIGH if instance.kind in LATCHES else RISES
    folds = (fold(pin_wave(circuit, case.waves, instance.pins[CLOCK])) for case in cases)
    return any(permits(value, step) for slots in folds for value in slots)


def unclocked(circuit, cases):
    for instance in circuit.instances:
        if instance.kind in STORAGE + EDGE_CHECKERS and not is_clocked(circuit, instance, cases):
            yield f"NOTE UNCLOCKED {instance} PIN {CLOCK} {text_of(instance.pins[CLOCK])}"


def asks_nothing(checker):
    """The window of setup and hold is empty; or each pulse is at least as long as the widths ask."""
    limits = checker.limits
    if checker.kind == "SETUP_HOLD_CHK":
        return limits["SETUP"] + limits["HOLD"] == 0
    return checker.kind == "MIN_PULSE_CHK" and limits["HIGH"] <= 1 and limits["LOW"] <= 1


def idle(circuit):
    for checker in circuit.checkers:
        if asks_nothing(checker):
            yield f"NOTE IDLE {checker}"


def sees(checker, element):
    """The checker holds the element's input against the element's own clock net: a register's at the edge that clocks
    it, a latch's at the edge that closes it, or from the one to the other."""
    clock, seen = element.pins[CLOCK], checker.pins[CLOCK]
    if element.kind in REGISTERS:
        at_edge = seen == clock
    elif checker.kind == "SETUP_HOLD_CHK":
        at_edge = seen == clock.complemented_if(True)
    else:
        at_edge = seen.on == clock.on
    return (
        checker.kind in EDGE_CHECKERS
        and checker.pins[INPUT].on == element.pins[INPUT].on
        and at_edge
        and isinstance(clock.on, Net)
    )


def unchecked(circuit):
    for element in circuit.elements:
        if element.kind in STORAGE and isinstance(element.pins[INPUT].on, Net):
            if not any(sees(checker, element) for checker in circuit.checkers):
                yield f"NOTE UNCHECKED {element} {element.pins[INPUT].on}"


# --- clocks through gates


GATES = ("BUF", "AND", "OR", "XOR", "MUX2", "MUX4", "MUX8")
MARKED = ("AND", "OR", "MUX2", "MUX4", "MUX8")  # kinds that a clock passes only with a mark, or not at all


def through_gates(circuit, start):
    """These nets, and those that they reach through gates alone."""
    reached = set(start)
    while True:
        more = {
            net
            for net, driver in circuit.drivers.items()
            if driver.kind in GATES and any(pin.on in reached for pin in driver.pins)
        }
        if more <= reached:
            return reached
        reached |= more


def has_change(circuit, case, pin):
    """Whether what the pin shows may change in some slot of the case."""
    return not all(map(is_quiet, fold(pin_wave(circuit, case.waves, pin))))


def is_timing(circuit, net):
    """Whether the net reaches a clock, an enable or the pin of a pulse checker through gates alone."""
    ends = through_gates(circuit, [net])
    return any(
        instance.pins[CLOCK].on in ends
        for instance in circuit.instances
        if instance.kind in STORAGE or not instance.is_element
    )


def unmarked(circuit, cases):
    clocks = through_gates(circuit, (net for net in circuit.nets if isinstance(circuit.assertion(net), Clock)))
    for gate in circuit.elements:
        if gate.kind not in MARKED or gate.marked is not None or not isinstance(gate.output.on, Net):
            continue
        if not is_timing(circuit, gate.output.on):
            continue
        of_clocks = [pin for pin in gate.pins if pin.on in clocks]
        open_cases = [case for case in cases if any(has_change(circuit, case, pin) for pin in of_clocks)]
        for number, pin in enumerate(gate.pins):
            if pin.on not in clocks and any(has_change(circuit, case, pin) for case in open_cases):
                yield f"NOTE UNMARKED {gate} PIN {number} {pin.on}"
                break


# --- nets


def unread(circuit):
    read = {pin.on for instance in circuit.instances for pin in instance.pins}
    for net in circuit.in_name_order():
        if net in circuit.drivers and circuit.assertion(net) is None and net not in read:
            yield f"NOTE UNREAD {net}"


def spread(circuit):
    for one in circuit.spreads:
        if any(net.name == one.name and net.bit != 0 for net in circuit.nets):
            yield f"NOTE SPREAD {one.place.line}:{one.place.column} {one.name} WIDTH {one.width}"


# --- paths


def feeding(circuit, net):
    """The pins of the gate or change function that drives a net; of storage and of an input none."""
    driver = circuit.drivers.get(net)
    if driver is None or driver.kind in STORAGE:
        return []
    return [pin for pin in driver.pins if isinstance(pin.on, Net)]


def led_from(circuit, net):
    """The nets from which a net is reached through gates and change functions, one or more of them."""
    reached, left = set(), [net]
    while left:
        for pin in feeding(circuit, left.pop()):
            if pin.on not in reached:
                reached.add(pin.on)
                left.append(pin.on)
    return reached


def loops(circuit):
    """The strongly connected parts of the nets, each a set, by the first of their nets in name order."""
    behind = {net: led_from(circuit, net) for net in circuit.nets}
    found = {}
    for net in circuit.in_name_order():
        if net in behind[net] and not any(net in part for part in found.values()):
            found[net] = {other for other in behind[net] if net in behind[other]}
    return found


class Arrival(NamedTuple):
    """How many ticks after its clock storage may still change what it leads to, and its place in the expansion."""

    ticks: int
    storage: int


def latest(arrivals):
    """The greatest sum; of those that have it, the one from the first storage."""
    arrivals = [arrival for arrival in arrivals if arrival is not None]
    return min(arrivals, key=lambda arrival: (-arrival.ticks, arrival.storage), default=None)


SELECTS = {"MUX2": 1, "MUX4": 2, "MUX8": 3}
KEEPING = ("BUF", "AND", "OR", *SELECTS)  # kinds whose output rises with rises of their data


class Paths:
    """The greatest sums of delays along the paths of a case, net by net, to a rise and to a fall."""

    def __init__(self, circuit, case, looping):
        self.circuit = circuit
        self.waves = case.waves
        self.looping = looping
        self.places = {id(instance): place for place, instance in enumerate(circuit.instances)}
        self.known = {}
        self.heard = {}

    def passes(self, net):
        """Nothing passes a net of a loop, or one that never changes."""
        return net not in self.looping and not all(map(is_quiet, fold(self.waves[net])))

    def level(self, pin):
        """The bit that a pin shows in each slot, if there is one."""
        shown = set(fold(pin_wave(self.circuit, self.waves, pin)))
        return {"0": 0, "1": 1}.get(shown.pop()) if len(shown) == 1 else None

    def hearing(self, element):
        """The numbers of the pins that the output may change with: the marked one alone if its rule holds, and of
        data only what the selects that stay at a bit do not exclude."""
        if id(element) not in self.heard:
            self.heard[id(element)] = self.heard_by(element)
        return self.heard[id(element)]

    def heard_by(self, element):
        waves = [pin_wave(self.circuit, self.waves, pin) for pin in element.pins]
        if element.marked is not None and first_hazard(element.kind, waves, element.marked) is None:
            return [element.marked]
        selects = SELECTS.get(element.kind, 0)
        levels = [self.level(pin) for pin in element.pins[:selects]]
        found = list(range(selects))
        for number in range(selects, len(element.pins)):
            bits = f"{number - selects:0{selects}b}" if selects else ""
            if all(level is None or level == int(bit) for level, bit in zip(levels, bits)):
                found.append(number)
        return found

    def changes_of(self, element, number, rises):
        """Which changes of the net at a pin make the net of the output rise, or fall."""
        if element.kind not in KEEPING or number < SELECTS.get(element.kind, 0):
            return (True, False)
        turned = element.pins[number].is_complemented != element.output.is_complemented
        return (rises != turned,)

    def at_net(self, net, rises):
        if (net, rises) not in self.known:
            self.known[net, rises] = self.made_at(net, rises)
        return self.known[net, rises]

    def made_at(self, net, rises):
        driver = self.circuit.drivers.get(net)
        if driver is None or not self.passes(net):
            return None
        if driver.kind in STORAGE:
            return Arrival(driver.delay.greatest, self.places[id(driver)])
        delay = driver.delay
        if driver.split is not None:
            delay = driver.split.rise if rises != driver.output.is_complemented else driver.split.fall
        found = latest(
            self.at_pin(driver.pins[number], change)
            for number in self.hearing(driver)
            for change in self.changes_of(driver, number, rises)
        )
        return found and found._replace(ticks=found.ticks + delay.greatest)

    def at_pin(self, pin, rises):
        """Of a rise or a fall of the pin's net, behind the wire."""
        arrival = self.at_net(pin.on, rises) if isinstance(pin.on, Net) else None
        return arrival and arrival._replace(ticks=arrival.ticks + self.circuit.wire(pin).greatest)

    def launches(self, clock, net):
        """Whether a path leads to a net from storage whose clock or enable is on another."""
        reached, left = set(), [net]
        while left:
            on = left.pop()
            driver = self.circuit.drivers.get(on)
            if on in reached or driver is None or not self.passes(on):
                continue
            reached.add(on)
            if driver.kind in STORAGE:
                if driver.pins[CLOCK].on == clock:
                    return True
            else:
                left += (driver.pins[number].on for number in self.hearing(driver))
        return False


def late(circuit, paths):
    for instance in circuit.instances:
        if instance.is_element and instance.kind not in STORAGE:
            continue
        for number, pin in enumerate(instance.pins):
            arrival = latest(of_case.at_pin(pin, rises) for of_case in paths for rises in (True, False))
            if arrival is not None and arrival.ticks > circuit.period:
                yield (
                    f"NOTE LATE {instance} PIN {number} {pin.on} TICKS {arrival.ticks}"
                    f" FROM {circuit.instances[arrival.storage]}"
                )


def looped(circuit):
    for net, part in loops(circuit).items():
        yield f"NOTE LOOP {net} NETS {len(part)}"


# --- waves


def unknown(circuit, cases):
    for case in cases:
        nets = [net for net in circuit.in_name_order() if "U" in case.waves[net].slots]
        if nets:
            yield f"NOTE UNKNOWN CASE {case.number} NETS {len(nets)} {nets[0]}"


def common(circuit, paths):
    for checker in circuit.checkers:
        if checker.kind not in EDGE_CHECKERS:
            continue
        clock, data = (pin.on for pin in checker.pins)
        if not isinstance(clock, Net) or not isinstance(data, Net):
            continue
        skews = [of_case.waves[clock].skew for of_case in paths if of_case.launches(clock, data)]
        if any(skews):
            yield f"NOTE COMMON {checker} {clock} TICKS {max(skews)}"


# --- the answer


def note_lines(circuit, cases):
    looping = set().union(*loops(circuit).values())
    paths = [Paths(circuit, case, looping) for case in cases]
    return [
        *unclocked(circuit, cases),
        *idle(circuit),
        *unchecked(circuit),
        *unmarked(circuit, cases),
        *unread(circuit),
        *part(circuit),
        *near(circuit),
        *spread(circuit),
        *empty(circuit),
        *case_notes(circuit),
        *late(circuit, paths),
        *looped(circuit),
        *unknown(circuit, cases),
        *common(circuit, paths),
    ]


def notes(drawing):
    """The answer on a drawing whose text is written."""
    try:
        circuit = circuit_of(drawing)
        settled = settle_all(circuit, default_limit(circuit))
    except Refused as refused:
        kind, place = refused.kind, refused.place
        return Answer(2, f"REFUSED {kind.value} {kind.name} {place.line}:{place.column}\n", f"Refused {kind.name}")
    except Unsettled as unsettled:
        return Answer(3, f"UNSETTLED {unsettled.net} ROUND {unsettled.limit}\n", "Unsettled")
    found = note_lines(circuit, settled.cases)
    last = f"NOTES {len(found)}" if found else "CLEAN"
    text = "\n".join([f"SCALD {drawing.version} PERIOD {circuit.period}", *found, last]) + "\n"
    return Answer(1 if found else 0, text, "Faulty" if found else "Clean")
