"""The answers of `slack` and `explain`: by how much each limit is met, and the paths that come to it."""
from dataclasses import dataclass, field
from itertools import product
from typing import NamedTuple, Optional

from .assertions import ideal_step, skew_of, spelling, wide_wave
from .circuit import Net
from .drawing import Clock, Constant, Still
from .elements import first_hazard, gated, met, output_steps
from .rounds import pin_wave
from .values import FALLS, RISES, STAYS_HIGH, STAYS_LOW, STEPS, Step, is_quiet, permits
from .waves import Bounds, fold

RISE, FALL, CHANGE = frozenset({RISES}), frozenset({FALLS}), frozenset({RISES, FALLS})
VERB = {RISE: "rises", FALL: "falls", CHANGE: "changes"}
BEFORE = ("SETUP", "GATE BEFORE", "STABLE FROM")
AFTER = ("HOLD", "GATE AFTER", "STABLE TO")
DATA = "the data may change at any tick"


def flip(change):
    return frozenset({RISES: FALLS, FALLS: RISES}[step] for step in change)


def flip_if(change, is_flipped):
    return flip(change) if is_flipped else change


def events(slots, change):
    return [bool(STEPS[value] & change) for value in slots]


def regions(marks):
    """Maximal cyclic runs of slots, with the first in the first period; none where all slots are marked."""
    period = len(marks)
    found = []
    if not all(marks):
        for low in range(period):
            if marks[low] and not marks[low - 1]:
                high = low
                while marks[(high + 1) % period]:
                    high += 1
                found.append((low, high))
    return found


class View:
    """The settled waves of one case."""

    def __init__(self, circuit, place, case):
        self.circuit = circuit
        self.place = place
        self.number = case.number
        self.waves = case.waves
        self.period = circuit.period
        self.folds = {net: fold(wave) for net, wave in case.waves.items()}
        self.at_pins = {}
        self.known_ways = {}

    def pins(self, instance):
        key = id(instance)
        if key not in self.at_pins:
            waves = [pin_wave(self.circuit, self.waves, pin) for pin in instance.pins]
            self.at_pins[key] = waves, [fold(wave) for wave in waves]
        return self.at_pins[key]

    def held(self, instance):
        """The marked pin that alone counts."""
        if instance.marked is None or first_hazard(instance.kind, self.pins(instance)[0], instance.marked):
            return None
        return instance.marked

    def listening(self, instance):
        held = self.held(instance)
        if held is not None:
            return [held]
        return [k for k in range(len(instance.pins)) if not (instance.kind in ("REG", "REG_RS") and k == 1)]

    def has(self, net, change, tick):
        return bool(STEPS[self.folds[net][tick % self.period]] & change)

    def wire(self, pin):
        return self.circuit.wire(pin)


# --- causes


def selected(select, first, second):
    made = set()
    for step, low, high in product(select, first, second):
        made.add(Step((high if step.before else low).before, (high if step.after else low).after))
    return made


def made_steps(kind, sets):
    """The steps of an output for sets of steps of its pins, two pins at a time."""
    if kind in ("AND", "OR", "XOR"):
        made = sets[0]
        for other in sets[1:]:
            made = set().union(*(output_steps(kind, pair) for pair in product(made, other)))
        return made
    if kind == "MUX4":
        return selected(sets[0], selected(sets[1], *sets[2:4]), selected(sets[1], *sets[4:6]))
    if kind == "MUX8":
        halves = [made_steps("MUX4", [sets[1], sets[2], *sets[k : k + 4]]) for k in (3, 7)]
        return selected(sets[0], *halves)
    if kind in ("REG", "REG_RS"):
        sets = sets[:1] + sets[2:]
    return set().union(*(output_steps(kind, steps) for steps in product(*sets)))


class Cause(NamedTuple):
    rank: int
    pin: int
    change: frozenset


def causes(view, instance, change, tick, late):
    """Causes of a change of an output before its complement, the tightest first."""
    folds = view.pins(instance)[1]
    held = view.held(instance)
    now = [STEPS[slots[tick % view.period]] if held in (None, k) else STEPS["S"] for k, slots in enumerate(folds)]
    past = tick + 1 if late else tick - 1
    found = []
    for pin in view.listening(instance):
        if isinstance(instance.pins[pin].on, Constant):
            continue
        making = set()
        for step in now[pin] & CHANGE:
            sets = [{step} if k == pin else steps for k, steps in enumerate(now)]
            if instance.kind == "CHG" or made_steps(instance.kind, sets) & change:
                making.add(step)
        last = (now[pin] & CHANGE) - STEPS[folds[pin][past % view.period]]
        tight = making & last
        if making and tight == making:
            found.append(Cause(0, pin, frozenset(tight)))
        elif tight:
            found.append(Cause(1, pin, frozenset(tight)))
        else:
            if last:
                found.append(Cause(2, pin, frozenset(last)))
            if making:
                found.append(Cause(3, pin, frozenset(making)))
    found.sort(key=lambda cause: cause[:2])
    # a pin bounds only what another one makes
    return [] if found and found[0].rank == 2 and found[-1].rank == 2 else found


# --- paths


@dataclass
class Link:
    net: Net
    change: frozenset
    tick: int
    instance: object = None
    pin: int = 0
    delay: int = 0
    wire: int = 0
    word: str = ""
    going: Optional[int] = None
    is_cut: bool = False  # it cuts the event that is asked for short


@dataclass
class Path:
    links: list = field(default_factory=list)
    end: str = ""
    ideal: int = 0
    wire: int = 0
    cut: int = 0  # by how much a cut shows it apart from the sum

    @property
    def begin(self):
        return self.ideal if self.end == "EDGE" else self.links[-1].tick


def from_corner(bounds, late, period):
    """The delays of bounds from the corner inward."""
    low, high = bounds
    most = min(high - low, period - 1)
    return [high - k for k in range(most + 1)] if late else [low + k for k in range(most + 1)]


def wire_at(view, pin, change, tick, late):
    wanted = flip_if(change, pin.is_complemented)
    for wire in from_corner(view.wire(pin), late, view.period):
        if view.has(pin.on, wanted, tick - wire):
            return wire, wire == view.wire(pin)[late]
    return view.wire(pin)[late], False


def source_tick(view, net, change, tick, late):
    clock = view.circuit.assertion(net)
    if isinstance(clock, Clock):
        early_by, late_by = skew_of(clock, view.circuit.header)
        edge = tick - late_by if late else tick + early_by
        if ideal_step(clock, view.circuit.header, edge) in change:
            return "EDGE", edge
    return "SOURCE", tick


def one_back(view, instance, change, tick, late):
    """How a change of an output before its complement comes: the causes, the delay, and a word; or the change and the
    tick that cut it short, and "cut"."""
    words = ("", "", "bounded", "loose")
    if instance.split is None:
        for delay in from_corner(instance.delay, late, view.period):
            found = causes(view, instance, change, tick - delay, late)
            if found:
                return found, delay, words[found[0].rank] if delay == instance.delay[late] else "inside"
        return None
    ways = {RISES: instance.split.rise, FALLS: instance.split.fall}

    def at_own_corner(step, at):
        delay = ways[step][late]
        found = causes(view, instance, frozenset({step}), at - delay, late)
        return found and (found, delay, words[found[0].rank])

    at_corner = [way for step in (RISES, FALLS) if step in change for way in [at_own_corner(step, tick)] if way]
    at_corner.sort(key=lambda way: ("", "bounded", "loose").index(way[2]))
    if at_corner and at_corner[0][2] != "loose":
        return at_corner[0]
    for step in (RISES, FALLS):
        if step in change:
            other = flip(frozenset({step}))
            for at in (tick, tick - 1, tick + 1):
                cutter = at_own_corner(next(iter(other)), at)
                seen_there = view.has(instance.output.on, flip_if(other, instance.output.is_complemented), at)
                if seen_there and cutter and cutter[2] == "":
                    return None, (other, at), "cut"
    if at_corner:
        return at_corner[0]
    for step in (RISES, FALLS):
        if step in change:
            for delay in from_corner(ways[step], late, view.period)[1:]:
                found = causes(view, instance, frozenset({step}), tick - delay, late)
                if found:
                    return found, delay, "inside"
    return None


def trace(view, net, change, tick, late):
    path, seen, is_cut = Path(), {}, False
    while True:
        key = net, tick % view.period, change
        if key in seen:
            path.links.append(Link(net, change, tick, is_cut=is_cut))
            path.end, path.ideal = "LOOP", seen[key] - tick
            return path
        seen[key] = tick
        instance = view.circuit.drivers.get(net)
        if instance is None:
            path.links.append(Link(net, change, tick))
            path.end, path.ideal = source_tick(view, net, change, tick, late)
            return path
        is_flipped = instance.output.is_complemented
        back = one_back(view, instance, flip_if(change, is_flipped), tick, late)
        if back is None:
            path.links.append(Link(net, change, tick, is_cut=is_cut))
            path.end = "NOTHING"
            return path
        found, delay, word = back
        if word == "cut":
            (change, tick), is_cut = delay, True
            change = flip_if(change, is_flipped)
            continue
        cause = found[0]
        pin = instance.pins[cause.pin]
        wire, is_corner = wire_at(view, pin, cause.change, tick - delay, late)
        loose = [other.pin for other in found if other.rank == 3]
        path.links.append(
            Link(net, change, tick, instance, cause.pin, delay, wire, word if is_corner else "inside",
                 loose[0] if word == "bounded" else None, is_cut)
        )
        is_cut = False
        net, change, tick = pin.on, flip_if(cause.change, pin.is_complemented), tick - delay - wire


def trace_pin(view, pin, change, tick, late):
    wire, _is_corner = wire_at(view, pin, change, tick, late)
    path = trace(view, pin.on, flip_if(change, pin.is_complemented), tick - wire, late)
    path.wire, path.cut = wire, tick - wire - path.links[0].tick
    return path


def trace_edge(view, pin, change, tick, late):
    """The path of an edge at a pin, where the pin may make it at the tick: a mark may be at another level without one."""
    slots = fold(pin_wave(view.circuit, view.waves, pin))
    return trace_pin(view, pin, change, tick, late) if STEPS[slots[tick % view.period]] & change else None


def launched_ago(view, data, clock):
    """How many ticks before the clock's edge the data is launched, where both come from one clock."""
    if clock is None or data.end != "EDGE" or clock.end != "EDGE" or data.links[-1].net != clock.links[-1].net:
        return None
    return clock.ideal - data.ideal


# --- arrivals


def ways(view, clock, net, change, late, inside=()):
    """{ideal tick of the clock's edge: (tick at the net, links)}, or None where a loop is met."""
    key = clock, net, change, late
    if key in view.known_ways:
        return view.known_ways[key]
    if key in inside:
        return None
    made = {}
    instance = view.circuit.drivers.get(net)
    if instance is None:
        if net == clock:
            for region in regions(events(view.folds[net], change)):
                tick = region[late]
                end, ideal = source_tick(view, net, change, tick, late)
                made[ideal] = tick, [Link(net, change, tick)], end
    else:
        wanted = flip_if(change, instance.output.is_complemented)
        bounds = instance.delay
        if instance.split is not None:
            bounds = {RISE: instance.split.rise, FALL: instance.split.fall, CHANGE: instance.split.either}[wanted]
        listening = [k for k in range(len(instance.pins)) if not (instance.kind in ("REG", "REG_RS") and k == 1)]
        for k in listening:
            pin = instance.pins[k]
            if isinstance(pin.on, Constant):
                continue
            at_pin = CHANGE
            if instance.kind in ("REG", "REG_RS", "LATCH", "LATCH_RS") and k == 0:
                at_pin = RISE
            elif instance.kind in ("BUF", "AND", "OR"):
                at_pin = wanted
            got = ways(view, clock, pin.on, flip_if(at_pin, pin.is_complemented), late, (*inside, key))
            if got is None:
                return None
            for ideal, (earlier, links, end) in got.items():
                wire = view.wire(pin)[late]
                tick = earlier + wire + bounds[late]
                if view.has(net, change, tick):
                    if ideal not in made or (tick > made[ideal][0] if late else tick < made[ideal][0]):
                        made[ideal] = tick, [Link(net, change, tick, instance, k, bounds[late], wire), *links], end
    view.known_ways[key] = made
    return made


def way_path(way, ideal, moved, wire):
    links = [Link(**{**link.__dict__, "tick": link.tick + moved}) for link in way[1]]
    return Path(links, way[2], ideal + moved, wire)


# --- slacks


@dataclass
class Told:
    """A slack: no number where it is None; with what tells it."""

    number: Optional[int]
    is_starred: bool = False
    reason: str = ""
    window: tuple = (0, 0)  # the first and the last tick of its edge
    tick: int = 0
    pin: int = 0
    change: frozenset = CHANGE
    region: Optional[tuple] = None
    is_both: bool = False
    kind: str = "region"
    width: int = 0
    data: Optional[Path] = None
    clock: Optional[Path] = None
    way: Optional[Path] = None
    view: object = None

    @property
    def order(self):
        """Broken ones first, of these without a number first, then by number, a starred one first."""
        return (not is_broken(self), self.number is not None, self.number or 0, not self.is_starred)


def least(found):
    found = [told for told in found if told is not None]
    return min(found, key=lambda told: told.order) if found else None


class Held(NamedTuple):
    place: int
    data: object
    clock: object
    edge: frozenset
    shut: frozenset


def meeting(region, start, end, period):
    """The region in each period in which it meets a window."""
    low, high = region
    for k in range((start - high) // period - 1, (end - low) // period + 2):
        if low + k * period <= end and high + k * period >= start:
            yield low + k * period, high + k * period


def arrival(view, held, region, clock, late):
    got = ways(view, clock.links[-1].net, held.data.on, CHANGE, late)
    if got is None:
        return None
    wire, best = view.wire(held.data)[late], None
    for ideal, way in got.items():
        for k in range((region[0] - way[0] - wire) // view.period - 1, (region[1] - way[0] - wire) // view.period + 2):
            tick = way[0] + wire + k * view.period
            is_before = ideal + k * view.period < clock.ideal
            if region[0] <= tick <= region[1] and is_before == late:
                if best is None or (tick > best[0] if late else tick < best[0]):
                    best = tick, way_path(way, ideal, k * view.period, wire)
    return best


def about(view, held, change, window, found):
    """The slacks before and after a window (t1, t2, from, to), by regions."""
    first, last, start, end = window
    period = view.period
    late, early, met_regions, two = [], [], 0, None
    for region in found:
        for low, high in meeting(region, start, end, period):
            met_regions += 1
            is_both = False
            if low < start and high <= end:
                sides = "late"
            elif low >= start and high > end:
                sides = "early"
            else:
                sides, is_both = "both", True
                if held is not None:
                    clock = trace_edge(view, held.clock, held.edge, first, False)
                    ago_last = launched_ago(view, trace_pin(view, held.data, CHANGE, high, True), clock)
                    ago_first = launched_ago(view, trace_pin(view, held.data, CHANGE, low, False), clock)
                    if ago_last is not None and ago_first is not None:
                        if ago_first > 0 and ago_last > 0:
                            sides, is_both = "late", False
                        elif ago_first <= 0 and ago_last <= 0:
                            sides, is_both = "early", False
                        elif ago_first > 0:
                            two = (low, high), clock
            if sides != "early":
                late.append((low, high, is_both))
            if sides != "late":
                early.append((low, high, is_both))
    if two and met_regions == 1:
        region, clock = two
        one, other = arrival(view, held, region, clock, True), arrival(view, held, region, clock, False)
        if one and other and min(start - 1 - one[0], other[0] - end - 1) < 0:
            return (
                Told(start - 1 - one[0], window=(first, last), tick=one[0], pin=held.place, way=one[1]),
                Told(other[0] - end - 1, window=(first, last), tick=other[0], pin=held.place, way=other[1]),
            )
    if late:
        low, high, is_both = max(late)
    else:
        low, high = max(((low + k * period, high + k * period) for low, high in found
                         for k in [(start - 1 - high) // period]), key=lambda region: region[1])
        is_both = False
    pin = held.place if held else 0
    before = Told(start - 1 - high, window=(first, last), tick=high, pin=pin, change=change, region=(low, high),
                  is_both=is_both)
    if early:
        low, high, is_both = min(early)
    else:
        low, high = min(((low + k * period, high + k * period) for low, high in found
                         for k in [-((low - end - 1) // period)]), key=lambda region: region[0])
        is_both = False
    after = Told(low - end - 1, window=(first, last), tick=low, pin=pin, change=change, region=(low, high),
                 is_both=is_both)
    return before, after


def starred(view, held, windows, late):
    """The worst of all ways of data that may change in every slot."""
    edges = []
    for window in windows:
        path = (trace_edge(view, held.clock, held.edge, window[0], False) if late
                else trace_edge(view, held.clock, held.shut, window[1], True))
        if path and path.end == "EDGE":
            edges.append((window, path.links[-1].net, path.ideal))
    best, reason = None, DATA
    wire = view.wire(held.data)[late]
    for window, clock, edge in edges:
        got = ways(view, clock, held.data.on, CHANGE, late)
        if got is None:
            reason = f"{DATA}, and a way to it comes from a loop"
            continue
        for ideal, way in got.items():
            others = [other + ((ideal - other) // view.period + late) * view.period
                      for _window, net, other in edges if net == clock]
            mine = edge + ((ideal - edge) // view.period + late) * view.period
            if mine != (min(others) if late else max(others)):
                continue
            moved = edge - mine
            tick = way[0] + wire + moved
            number = window[2] - 1 - tick if late else tick - window[3] - 1
            told = Told(number, True, window=window[:2], tick=tick, pin=held.place,
                        way=way_path(way, ideal, moved, wire))
            best = least([best, told])
    return best or Told(None, reason=reason, pin=held.place)


def quiet_slacks(view, edges, marks):
    period = view.period
    clocks = regions(edges)
    if not any(edges):
        return None, None
    if all(edges) or all(marks):
        return Told(0, kind="quiet"), Told(0, kind="quiet")
    before, after = [], []
    for first, last in clocks:
        for slack, far in ((before, -1), (after, 1)):
            number = min(
                next(k for k in range(period + 1) if marks[(tick - k if far < 0 else tick + 1 + k) % period])
                for tick in range(first, last + 1)
            )
            slack.append(Told(number, kind="quiet", window=(first, last)))
    return least(before), least(after)


def rise_fall_windows(view, clock, edges, setup, hold):
    """Windows of neighbouring rises with one last fall; "ever" where the clock may stay high."""
    period = view.period
    if all(permits(value, STAYS_HIGH) for value in clock):
        return "ever" if any(permits(value, FALLS) for value in clock) else []

    def fall(tick):
        if not edges[tick % period]:
            return None
        reach = next(k for k in range(1, period + 1) if not permits(clock[(tick + k) % period], STAYS_HIGH))
        found = [tick + k for k in range(1, reach + 1) if permits(clock[(tick + k) % period], FALLS)]
        return found[-1] if found else None

    windows = []
    for tick in range(period):
        if fall(tick) is not None and fall(tick - 1) != fall(tick):
            windows.append((tick, fall(tick), tick - setup + 1, fall(tick) + hold))
    return windows


def checker_slacks(view, checker):
    clock, data = view.pins(checker)[1]
    edges, marks = events(clock, RISE), events(data, CHANGE)
    setup, hold = checker.limits["SETUP"], checker.limits["HOLD"]
    if not any(marks):
        return None, None
    is_plain = checker.kind == "SETUP_HOLD_CHK"
    if is_plain and setup == hold == 0:
        return quiet_slacks(view, edges, marks)
    if is_plain:
        if all(edges):
            none = Told(None, reason="the clock may rise at any tick", pin=1)
            return none, none
        windows = [(low, high, low - setup + 1, high + hold) for low, high in regions(edges)]
    else:
        windows = rise_fall_windows(view, clock, edges, setup, hold) if any(edges) else []
        if windows == "ever":
            none = Told(None, reason="the clock may stay high for a whole period", pin=1)
            return none, none
    if not windows:
        return None, None
    held = Held(1, checker.pins[1], checker.pins[0], RISE, RISE if is_plain else FALL)
    if all(marks):
        return starred(view, held, windows, True), starred(view, held, windows, False)
    found = [about(view, held, CHANGE, window, regions(marks)) for window in windows]
    return least([before for before, _ in found]), least([after for _, after in found])


def gate_slacks(view, gate):
    """Of the mark, before and after."""
    folds = view.pins(gate)[1]
    rest = "0" if gate.kind == "AND" else "1"
    opens = RISE if gate.kind == "AND" else FALL
    open_slots = [value != rest for value in folds[gate.marked]]
    others = [k for k, pin in enumerate(gate.pins) if k != gate.marked and not isinstance(pin.on, Constant)]
    mark, before, after = None, [], []
    for pin in others:
        marks = events(folds[pin], CHANGE)
        if not any(marks):
            continue
        if all(open_slots):
            mark = mark or Told(None, reason="the mark may let changes through at any tick", pin=pin)
            continue
        windows = [(low, high, low, high) for low, high in regions(open_slots)]
        if windows and all(marks):
            before.append(Told(None, reason=DATA, pin=pin))
            after.append(Told(None, reason=DATA, pin=pin))
            continue
        held = Held(pin, gate.pins[pin], gate.pins[gate.marked], opens, flip(opens))
        for window in windows:
            one, other = about(view, held, CHANGE, window, regions(marks))
            before.append(one)
            after.append(other)
    return mark, least(before), least(after)


def net_slacks(view, net):
    """Of the assertion, from and to."""
    assertion = view.circuit.assertion(net)
    wide, slots = wide_wave(assertion, view.circuit.header), view.folds[net]
    kept, before, after = None, [], []
    over = [STEPS[value] - STEPS[other] for value, other in zip(slots, wide)]
    if not any(steps & CHANGE for steps in over) and any(over):
        tick = next(k for k, steps in enumerate(over) if steps)
        kept = Told(None, reason=f"it may be {int(STAYS_HIGH in over[tick])} at tick {tick}")
    for change in [CHANGE] if isinstance(assertion, Still) else [RISE, FALL]:
        marks = events(slots, change)
        still = [not steps for steps in events(wide, change)]
        if not any(marks):
            continue
        if all(still):
            kept = Told(None, reason="the assertion permits no change")
            continue
        windows = [(low, high, low, high) for low, high in regions(still)]
        if windows and all(marks):
            before.append(Told(None, reason=DATA))
            after.append(Told(None, reason=DATA))
            continue
        for window in windows:
            one, other = about(view, None, change, window, regions(marks))
            before.append(one)
            after.append(other)
    return kept, least(before), least(after)


def narrowest(slots, level):
    """(begin, width) of the least pulse, the first of these."""
    begin, stay, end = (RISES, STAYS_HIGH, FALLS) if level else (FALLS, STAYS_LOW, RISES)
    period, best = len(slots), None
    for first in range(period):
        if permits(slots[first], begin):
            for width in range(1, period if best is None else best[1]):
                value = slots[(first + width) % period]
                if permits(value, end):
                    best = first, width
                    break
                if not permits(value, stay):
                    break
    return best


def width_slack(view, checker, level):
    pin = checker.pins[0]
    limit = checker.limits["HIGH" if level else "LOW"]
    slots = view.pins(checker)[0][0].slots
    period = view.period
    best = narrowest(slots, level)
    if best is None:
        return None
    begin, width = best
    change = RISE if level else FALL
    for tick in range(begin, begin + width):
        value = slots[tick % period]
        if CHANGE <= STEPS[value] and not is_quiet(slots[(tick + 1) % period]):
            return Told(width - limit, kind="repeated", width=width, window=(begin, begin + width))
    driver = None if isinstance(pin.on, Constant) else view.circuit.drivers.get(pin.on)
    if width == 1 < limit and driver is not None and driver.split is not None:
        inner = level != (pin.is_complemented != driver.output.is_complemented)
        waves = view.pins(driver)[0]
        held = view.held(driver)
        made = gated(driver.kind, waves[held]) if held is not None else met(driver.kind, waves)
        inside = narrowest(made.slots, inner)
        if inside is not None:
            up, down = driver.split if inner else driver.split[::-1]
            short = inside[1] + down.least - up.greatest
            if short <= 0:
                first = inside[0] + up.greatest + view.wire(pin).least
                return Told(short - limit, kind="swallowed", width=short, window=(first, first + short), change=change)
    return Told(width - limit, kind="pulse", width=width, window=(begin, begin + width), change=change)


def trace_open(view, net, step, tick, late):
    """The path of an end of a pulse, in waves whose skew is not folded in."""
    path, seen = Path(), {}
    while True:
        instance = view.circuit.drivers.get(net)
        change = frozenset({step})
        if instance is not None and instance.kind == "CHG":
            break
        if (net, step, tick % view.period) in seen:
            path.links.append(Link(net, change, tick))
            path.end, path.ideal = "LOOP", seen[net, step, tick % view.period] - tick
            return path
        seen[net, step, tick % view.period] = tick
        if instance is None:
            path.links.append(Link(net, change, tick))
            clock = view.circuit.assertion(net)
            is_precise = isinstance(clock, Clock) and clock.letter == "P"
            path.end, path.ideal = source_tick(view, net, change, tick, late and not is_precise)
            return path
        waves = view.pins(instance)[0]
        held = view.held(instance)
        moving = [held] if held is not None else [
            k for k in view.listening(instance) if any(not is_quiet(value) for value in waves[k].slots)]
        wanted = next(iter(flip_if(change, instance.output.is_complemented)))
        is_same = instance.split is None
        bounds = Bounds(instance.delay.least, instance.delay.least)
        if not is_same:
            bounds = instance.split.rise if wanted == RISES else instance.split.fall
        if len(moving) != 1:
            delay = bounds[late]
            found = causes(view, instance, frozenset({wanted}), tick - delay, late)
            if not found:
                path.links.append(Link(net, change, tick))
                path.end = "NOTHING"
                return path
            cause = found[0]
            pin = instance.pins[cause.pin]
            wire, is_corner = wire_at(view, pin, cause.change, tick - delay, late)
            word = {2: "bounded", 3: "loose"}.get(cause.rank) or ("same" if is_same else "")
            if not is_corner:
                word = "inside"
            loose = [other.pin for other in found if other.rank == 3]
            going = loose[0] if word == "bounded" else None
            path.links.append(Link(net, change, tick, instance, cause.pin, delay, wire, word, going))
            rest = trace(view, pin.on, flip_if(cause.change, pin.is_complemented), tick - delay - wire, late)
            return Path(path.links + rest.links, rest.end, rest.ideal)
        pin, good = instance.pins[moving[0]], None
        for delay in from_corner(bounds, late, view.period):
            at = tick - delay
            values = [wave.slots[at % view.period] if held in (None, k) else "S" for k, wave in enumerate(waves)]
            now = [STEPS[value] for value in values]
            for candidate in (RISES, FALLS):
                sets = [{candidate} if k == moving[0] else steps for k, steps in enumerate(now)]
                if good is None and candidate in now[moving[0]] and wanted in made_steps(instance.kind, sets):
                    good = candidate, delay
            if good:
                break
        if good is None:
            path.links.append(Link(net, change, tick))
            path.end = "NOTHING"
            return path
        candidate, delay = good
        wire = view.wire(pin).least
        word = "same" if is_same else "" if delay == bounds[late] else "inside"
        path.links.append(Link(net, change, tick, instance, moving[0], delay, wire, word))
        net, tick = pin.on, tick - delay - wire
        step = next(iter(flip_if(frozenset({candidate}), pin.is_complemented)))
    rest = trace(view, net, frozenset({step}), tick, late)
    return Path(path.links + rest.links, rest.end, rest.ideal)


def add_paths(view, subject, word, told):
    """The paths of a slack that has some."""
    if told.number is None or told.kind in ("quiet", "repeated"):
        return
    late = word in BEFORE
    if word in ("HIGH", "LOW"):
        pin = subject.pins[0]
        wire = view.wire(pin).least
        ends = [(told.window[0], told.change, True), (told.window[1], flip(told.change), False)]
        told.data, told.clock = (
            trace_open(view, pin.on, next(iter(flip_if(change, pin.is_complemented))), tick - wire, is_late)
            for tick, change, is_late in ends
        )
        told.data.wire = told.clock.wire = wire
        return
    if isinstance(subject, Net):
        told.data = trace(view, subject, told.change, told.tick, late)
        return
    if word.startswith("GATE"):
        edge = RISE if (subject.kind == "AND") == late else FALL
        clock_pin = subject.pins[subject.marked]
    else:
        edge = FALL if subject.kind == "SETUP_RISE_HOLD_FALL_CHK" and not late else RISE
        clock_pin = subject.pins[0]
    told.clock = trace_edge(view, clock_pin, edge, told.window[0 if late else 1], not late)
    told.data = told.way or trace_pin(view, subject.pins[told.pin], told.change, told.tick, late)


# --- rows over all cases


@dataclass
class Limit:
    subject: object
    word: str
    number: Optional[int]
    least: Optional[Told] = None
    cases: list = field(default_factory=list)
    either: object = None

    @property
    def label(self):
        return self.word if self.number is None else f"{self.word} {self.number}"


def limits_of(circuit):
    """All limits, subject by subject."""
    for instance in circuit.instances:
        if instance.kind == "MIN_PULSE_CHK":
            yield instance, [Limit(instance, word, instance.limits[word]) for word in ("HIGH", "LOW")]
        elif not instance.is_element:
            yield instance, [Limit(instance, word, instance.limits[word]) for word in ("SETUP", "HOLD")]
        elif instance.marked is not None and any(
            k != instance.marked and not isinstance(pin.on, Constant) for k, pin in enumerate(instance.pins)
        ):
            yield instance, [Limit(instance, word, None) for word in ("GATE", "GATE BEFORE", "GATE AFTER")]
    for net in circuit.in_name_order():
        if net in circuit.drivers and circuit.assertion(net) is not None:
            yield net, [Limit(net, word, None) for word in ("ASSERT", "STABLE FROM", "STABLE TO")]


def slacks_of(view, subject):
    if isinstance(subject, Net):
        return net_slacks(view, subject)
    if subject.kind == "MIN_PULSE_CHK":
        return width_slack(view, subject, True), width_slack(view, subject, False)
    return gate_slacks(view, subject) if subject.is_element else checker_slacks(view, subject)


def lower(circuit, cases):
    """All limits with their least slacks."""
    subjects = list(limits_of(circuit))
    for place, case in enumerate(cases):
        view = View(circuit, place, case)
        for subject, limits in subjects:
            for limit, told in zip(limits, slacks_of(view, subject)):
                if told is None:
                    continue
                if limit.least is None or told.order < limit.least.order:
                    told.view = view
                    limit.least, limit.cases = told, [case.number]
                    add_paths(view, subject, limit.word, told)
                elif told.order == limit.least.order:
                    limit.cases.append(case.number)
    return subjects


def is_one_region(before, after):
    """One region of changes, whichever the periods in which it is counted, which is too late for an edge and too early
    after it or after a later one: it would do earlier or later."""
    one, other = before.least, after.least
    if not (is_broken(one) and is_broken(other) and one.view is other.view and one.region and other.region):
        return False
    later = one.region[0] - other.region[0]
    return (
        (one.pin, one.change) == (other.pin, other.change)
        and later % one.view.period == 0 and one.region[1] - other.region[1] == later
        and one.window[0] <= other.window[0] + later
    )


def is_broken(told):
    return told.number is None or told.is_starred or told.number < 0


def rows_of(circuit, subjects):
    """Rows, the worst first, each a list of limits; and how many limits nothing can break."""
    kept, free = [], 0
    for subject, limits in subjects:
        if limits[0].word in ("SETUP", "HIGH"):
            free += sum(limit.least is None for limit in limits)
        elif all(limit.least is None for limit in limits):
            free += 2
        before, after = limits[-2:]
        if before.least is not None and after.least is not None and before.word in BEFORE:
            if before.least.number is None and after.least.number is None:
                limits = limits[:-1]
            elif before.least.number is not None and is_one_region(before, after):
                before.either = after
                limits = limits[:-1]
        kept += [limit for limit in limits if limit.least is not None]
    kept.sort(key=lambda limit: limit.least.order[:3])
    rows = {}
    for limit in kept:
        rows.setdefault(row_key(circuit, limit), []).append(limit)
    return list(rows.values()), free


def scope(name):
    return name[: name.rfind("/") + 1]


def statement(circuit, limit):
    return circuit.drivers[limit.subject] if isinstance(limit.subject, Net) else limit.subject


def path_key(path):
    if path is None:
        return None
    links = tuple(
        (link.net.name, link.change, link.tick,
         link.instance and (scope(link.instance.name), link.instance.place, link.pin, link.delay, link.wire, link.word,
                            link.going), link.is_cut)
        for link in path.links
    )
    return links, path.end, path.ideal, path.wire


def row_key(circuit, limit):
    told, at = limit.least, statement(circuit, limit)
    return (limit.label, told.order, told.reason, told.window, told.pin, limit.either is not None,
            told.kind == "repeated", scope(at.name), at.place, path_key(told.data), path_key(told.clock), tuple(limit.cases))


# --- text


def shown(told):
    return "none" if told.number is None else f"{told.number}{'*' if told.is_starred else ''}"


def full_name(limit):
    return limit.subject.name, limit.subject.bit


def names_of(row):
    groups = {}
    for limit in row:
        name, bit = full_name(limit)
        groups.setdefault(name, []).append(bit)
    texts = []
    for name, bits in groups.items():
        in_turn = len(bits) > 1 and bits == list(range(bits[0], bits[0] + len(bits)))
        texts.append(f"{name}<{bits[0]}:{bits[-1]}>" if in_turn else f"{name}<{','.join(map(str, bits))}>")
    return ", ".join(texts) if len(texts) < 3 else f"{texts[0]} and {len(texts) - 1} more"


class Writer:
    def __init__(self, drawing, circuit, spots):
        self.circuit = circuit
        self.spots = spots
        self.net_counts, self.instance_counts = {}, {}
        for net in circuit.nets:
            self.net_counts[net.name] = self.net_counts.get(net.name, 0) + 1
        for instance in circuit.instances:
            self.instance_counts[instance.name] = self.instance_counts.get(instance.name, 0) + 1

    def net(self, net):
        return net.name if self.net_counts[net.name] == 1 and net.bit == 0 else str(net)

    def instance(self, instance):
        return instance.name if self.instance_counts[instance.name] == 1 and instance.bit == 0 else str(instance)

    def element(self, link):
        instance = link.instance
        bounds = "%d:%d" % instance.delay
        if instance.split is not None:
            bounds = "%d:%d, %d:%d" % (*instance.split.rise, *instance.split.fall)
        text = f"{self.instance(instance)} {instance.kind} [{bounds}] line {instance.place.line}"
        if link.wire:
            text += f", wire {link.wire}"
        if link.word == "bounded":
            text += f", bounded by pin {link.pin}"
            if link.going is not None:
                text += f" ({self.net(instance.pins[link.going].on)} goes on changing)"
        elif link.word == "same":
            text += ", the same at both ends" if instance.delay.least != instance.delay.greatest else ""
        elif link.word in ("loose", "inside"):
            text += f", {link.word}"
        return text

    def begin(self, path, moved, is_pulse):
        link = path.links[-1]
        if path.end == "LOOP":
            return f"as below: a loop of {path.ideal} ticks, {path.ideal // self.circuit.period} periods"
        if path.end == "NOTHING":
            return "with no pin that changes (levels, or set and reset both)"
        assertion = self.circuit.assertion(link.net)
        if assertion is None:
            return "not driven"
        text = self.spots(link.net)
        skew = link.tick - path.ideal
        if skew:
            text += f", {path.ideal + moved} {skew:+d} of its skew"
            if is_pulse and isinstance(assertion, Clock) and assertion.letter == "P":
                text += ", the same at both ends"
        return text

    def path(self, path, moved, is_pulse=False):
        names = [("cut by " if link.is_cut else "") + self.net(link.net) for link in path.links]
        wide = max(map(len, names)) + 8
        lines = []
        for link, name in reversed(list(zip(path.links, names))):
            took = f"+{link.delay + link.wire}" if link.instance else ""
            tail = self.element(link) if link.instance else self.begin(path, moved, is_pulse)
            event = f"{name} {VERB[link.change]}"
            lines.append(f"{link.tick + moved:12d} {took:>6}  {event:<{wide}} {tail}")
        if path.wire:
            shown_at = path.links[0].tick + path.wire + path.cut + moved
            lines.append(f"{shown_at:12d} {f'+{path.wire}':>6}  at the pin, by its wire")
        return lines

    def line(self, limit):
        return statement(self.circuit, limit).place.line

    def table(self, rows, shown_rows, has_cases):
        cells = [("slack", "limit", "of", "line", "case")]
        for row in rows[:shown_rows]:
            first = row[0]
            cells.append((shown(first.least), first.label, names_of(row), str(self.line(first)),
                          ",".join(map(str, first.cases))))
        wide = [max(len(line[k]) for line in cells) for k in range(4)]
        lines = []
        for slack, limit, of, line, case in cells:
            text = f"{slack:>{wide[0]}}  {limit:<{wide[1]}}  {of:<{wide[2]}}  {line:>{wide[3]}}"
            lines.append(text + (f"  {case}" if has_cases else ""))
        return lines

    def verdict(self, number, word):
        return f"{number} to spare" if number >= 0 else f"{-number} too {word}"

    def parts(self, view, path):
        """What is one constant in a run on a path, with its name and by how much its most is above its least."""
        for link in path.links:
            instance = link.instance
            if instance is None or link.word == "inside":
                continue
            name = self.instance(instance)
            own = flip_if(link.change, instance.output.is_complemented)
            if instance.split is not None and len(own) == 1:
                bounds = instance.split.rise if own == RISE else instance.split.fall
                yield ("delay", id(instance), own), name, bounds.greatest - bounds.least
            elif instance.split is None and instance.kind != "CHG":
                yield ("delay", id(instance)), name, instance.delay.greatest - instance.delay.least
            wire = view.wire(instance.pins[link.pin])
            yield ("wire", id(instance), link.pin), f"the wire to pin {link.pin} of {name}", wire.greatest - wire.least
        net = path.links[-1].net
        assertion = self.circuit.assertion(net)
        if path.end in ("EDGE", "SOURCE") and isinstance(assertion, Clock) and assertion.letter == "P":
            yield "offset", f"the offset of {self.net(net)}", sum(skew_of(assertion, self.circuit.header))

    def twice(self, told):
        """What is counted twice, in the order of the data's path."""
        clock = {(key, name) for key, name, _ in self.parts(told.view, told.clock)}
        found = {}
        for key, name, ticks in self.parts(told.view, told.data):
            if ticks > 0 and (key, name) in clock:
                found.setdefault((key, name), (name, ticks))
        return list(found.values())

    def sum_lines(self, limit, told, moved):
        late = limit.word in BEFORE
        edge = told.window[0 if late else 1] + moved
        data = told.tick + moved
        if limit.word == "SETUP":
            front = f"may change until {edge} - {limit.number} = {edge - limit.number}"
        elif limit.word == "HOLD":
            front = f"may change from {edge} + {limit.number} + 1 = {edge + limit.number + 1}"
        else:
            front = {"GATE BEFORE": "lets through from", "GATE AFTER": "lets through to", "STABLE FROM": "stable from",
                     "STABLE TO": "stable to"}[limit.word] + f" {edge}"
        return [f"   {front}, changes at {data}: {self.verdict(told.number, 'late' if late else 'early')}"]

    def question(self, row, has_cases):
        """What `decide` can be asked of a row that is broken."""
        limit = row[0]
        if not is_broken(limit.least):
            return []
        case = f" of case {','.join(map(str, limit.cases))}" if has_cases else ""
        front = {"HIGH": f"{limit.label} of ", "LOW": f"{limit.label} of ", "GATE": "the mark of ",
                 "STABLE": "the assertion of ", "ASSERT": "the assertion of "}.get(limit.word.split()[0], "")
        return [f"   ask scald decide whether a run{case} breaks {front}{names_of(row)}"]

    def paragraph(self, number, row, has_cases):
        return self.account(number, row, has_cases) + self.question(row, has_cases)

    def account(self, number, row, has_cases):
        """The paragraph without what stands last if the row is broken."""
        limit = row[0]
        told = limit.least
        head = f"{number}. {limit.label} of {names_of(row)} (line {self.line(limit)}), slack {shown(told)}"
        if len(row) > 1:
            head += ", path of %s<%d>" % full_name(limit)
        if has_cases:
            head += f", case {','.join(map(str, limit.cases))}"
        lines = [head]
        late = limit.word in BEFORE
        if told.number is None:
            return [*lines, f"     {told.reason}"]
        if told.kind == "quiet":
            where = "up to" if late else "after"
            return [*lines, f"   the data does not change for {told.number} ticks {where} where the clock may rise"]
        if told.kind == "repeated":
            return [*lines, f"   {told.width} wide, {told.width} - {limit.number} = {told.number}: "
                            "it may change more than once: look at what drives it first"]
        first = min(path.begin for path in (told.data, told.clock) if path)
        moved = -(first // self.circuit.period) * self.circuit.period
        if told.kind in ("pulse", "swallowed"):
            lines += ["   begin, latest:", *self.path(told.data, moved, True)]
            lines += ["   end, earliest:", *self.path(told.clock, moved, True)]
            text = (f"   {told.window[1] + moved} - {told.window[0] + moved} = {told.width} wide, "
                    f"{told.width} - {limit.number} = {told.number}")
            return [*lines, text + (": it may be swallowed" if told.kind == "swallowed" else "")]
        lines += ["   data, last change:" if late else "   data, first change:", *self.path(told.data, moved)]
        if told.clock:
            lines += ["   clock, earliest:" if late else "   clock, latest:", *self.path(told.clock, moved)]
        lines += self.sum_lines(limit, told, moved)
        if told.clock:
            ago = launched_ago(told.view, told.data, told.clock)
            if ago is not None:
                edges = {"GATE BEFORE": "that opens the gate", "GATE AFTER": "that shuts the gate"}
                edge = edges.get(limit.word, "of the check")
                when = "by" if ago == 0 else f"{abs(ago)} ticks {'before' if ago > 0 else 'after'}"
                lines.append(f"   launched {when} the edge {edge}")
        if limit.either:
            lines.append(f"   the change lies on both sides of the edge: earlier by {-told.number} or later by "
                         f"{-limit.either.least.number} would do")
        if told.clock:
            twice = self.twice(told)
            if twice:
                total = sum(ticks for _name, ticks in twice)
                parts = ", ".join(f"{name} {ticks}" for name, ticks in twice)
                lines.append(f"   counted twice: {total} ticks ({parts}); this path alone cannot be below slack "
                             f"{told.number + total}")
        if told.is_starred:
            lines.append("   * the data may change at any tick: broken, whatever its ways come to")
        return lines


def told_rows(rows, worst):
    """The rows that have a paragraph."""
    if worst is not None:
        return rows[:worst]
    broken = [row for row in rows if is_broken(row[0].least)]
    if broken:
        return broken[:5]
    met_rows, words = [], set()
    for row in rows:
        word = row[0].word.split()[0].replace("ASSERT", "STABLE")
        if word not in words:
            words.add(word)
            met_rows.append(row)
    return met_rows


def slack_lines(drawing, circuit, settled, spots, wanted, worst):
    """The lines of `slack` or of `explain`, and whether a limit is broken."""
    subjects = lower(circuit, settled.cases)
    rows, free = rows_of(circuit, subjects)
    broken = [row for row in rows if is_broken(row[0].least)]
    has_cases = bool(circuit.cases)
    writer = Writer(drawing, circuit, spots)
    lines = [f"SLACK PERIOD {circuit.period}"]
    if wanted == "slack":
        count = max(12, len(broken), worst or 0)
        lines += writer.table(rows, count, has_cases)
        if len(rows) > count:
            lines.append(f"and {len(rows) - count} rows more, from slack {shown(rows[count][0].least)} on")
        if free:
            lines.append(f"{free} limits that nothing can break")
    else:
        for number, row in enumerate(told_rows(rows, worst), 1):
            lines += ["", *writer.paragraph(number, row, has_cases)]
        if worst is None and len(broken) > 5:
            lines += ["", f"{len(broken) - 5} broken rows more: worst={len(broken)} shows them"]
    if broken:
        lines += ["", f"BROKEN {sum(map(len, broken))}"]
    else:
        lines += ["", f"MET {sum(map(len, rows))}"]
    return lines, bool(broken)
