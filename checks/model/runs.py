"""The answer of `judge`: a trace against its drawing, tick by tick and without any wave but those of assertions
(docs/LANGUAGE.md, "Runs"; docs/MEANING.md, "A run", "Inputs keep their assertions" and "A break").
"""
from typing import NamedTuple

from .assertions import ideal_bit, ideal_step, quiet_slots, skew_of, wide_wave
from .drawing import Clock, Constant, Refused
from .elements import forced_bits, gate_bit
from .expansion import SELECTS
from .values import FALLS, RISES, Step, permits

MOST_TICKS = 4096
LONG_TICKS = 1048576  # with the word long
END = b"END TRACE"


class BadTrace(Exception):
    """The number, from 1, of the first line that is not what stands there in a trace of the circuit."""

    def __init__(self, number):
        super().__init__(number)
        self.number = number


class Trace(NamedTuple):
    """So many ticks; by instance its rise and its fall delay and those of the wires to its pins; and the bits of each
    net."""

    ticks: int
    delays: list
    wires: list
    bits: dict

    def pin(self, instance, number, wire, tick):
        """What a pin shows at a tick."""
        pin = instance.pins[number]
        bit = int(pin.on.value) if isinstance(pin.on, Constant) else self.bits[pin.on][tick - wire]
        return bit != pin.is_complemented


# --- the lines


def number_of(text, bounds):
    """The number within bounds that is written so, without leading zeros; or None."""
    if not text.isdigit() or str(int(text)) != text:
        return None
    number = int(text)
    return number if bounds.least <= number <= bounds.greatest else None


def delay_bounds(instance):
    """The bounds of the delays that the line of an instance shows."""
    if instance.split is not None:
        return [instance.split.rise, instance.split.fall]
    return [instance.delay] if instance.is_element and instance.kind != "CHG" else []


def read_instance(circuit, instance, line):
    """The delays and the wires of the line of an instance, or None."""
    front = f"{instance} "
    if not line.startswith(front):
        return None
    words = line[len(front) :].split(" ")
    bounds = delay_bounds(instance)
    shown = words[: max(len(bounds), 1)]
    colon, wires = words[len(shown) : len(shown) + 1], words[len(shown) + 1 :]
    if colon != [":"] or len(wires) != len(instance.pins) or (not bounds and shown != ["-"]):
        return None
    delays = [number_of(word, bound) for word, bound in zip(shown, bounds)]
    late = [number_of(word, circuit.wire(pin)) for word, pin in zip(wires, instance.pins)]
    if None in delays + late:
        return None
    return (delays * 2)[:2], late


def read_bits(net, ticks, line):
    front = f"{net} "
    bits = line[len(front) :]
    if not line.startswith(front) or len(bits) != ticks or set(bits) - {"0", "1"}:
        return None
    return [int(bit) for bit in bits]


def read_trace(circuit, lines, most=MOST_TICKS):
    """The trace of these lines, the last of which ends it, of at most so many ticks."""
    lines = [line.decode("latin-1") for line in lines]
    count = len(circuit.instances) + len(circuit.nets) + 2

    def line_at(number):
        return lines[number - 1] if number < len(lines) else None

    head = line_at(1)
    ticks = None
    if head is not None and head.startswith("TRACE "):
        word = head[len("TRACE ") :]
        ticks = int(word) if word.isdigit() and str(int(word)) == word and 1 <= int(word) <= most else None
    if ticks is None:
        raise BadTrace(1)
    delays, wires, bits = [], [], {}
    for number, instance in enumerate(circuit.instances, 2):
        line = line_at(number)
        read = None if line is None else read_instance(circuit, instance, line)
        if read is None:
            raise BadTrace(number)
        delays.append(read[0])
        wires.append(read[1])
    for number, net in enumerate(circuit.in_name_order(), len(circuit.instances) + 2):
        line = line_at(number)
        row = None if line is None else read_bits(net, ticks, line)
        if row is None:
            raise BadTrace(number)
        bits[net] = row
    if len(lines) != count:
        raise BadTrace(count)
    return Trace(ticks, delays, wires, bits)


# --- the equations


def made_by_gate(trace, instance, wires, tick):
    """What a gate makes of what its pins show at a tick, without its delay."""
    bits = [int(trace.pin(instance, number, wire, tick)) for number, wire in enumerate(wires)]
    selects = SELECTS.get(instance.kind)
    if selects is None:
        return gate_bit(instance.kind, bits)
    return bits[selects + int("".join(map(str, bits[:selects])), 2)]


def steps_at(trace, instance, wires, tick):
    """The step of each pin at a tick."""
    return [
        Step(*(int(trace.pin(instance, number, wire, tick - back)) for back in (1, 0)))
        for number, wire in enumerate(wires)
    ]


def gate_may_have(trace, instance, delays, wires, tick):
    rise, fall = delays
    asked = [made_by_gate(trace, instance, wires, at) for at in range(tick - max(delays), tick - min(delays) + 1)]
    return {int(all(asked) if rise >= fall else any(asked))}


def change_may_have(trace, instance, wires, tick, old):
    least, greatest = instance.delay
    looks = range(tick - greatest, tick - least + 1)
    is_still = all(step.before == step.after for at in looks for step in steps_at(trace, instance, wires, at))
    return {old} if is_still else {0, 1}


def storage_may_have(trace, instance, wires, tick, old):
    """What a register or a latch may have, by what its pins show its delay before."""
    shown = [int(trace.pin(instance, number, wire, tick)) for number, wire in enumerate(wires)]
    if len(shown) == 4 and forced_bits(*shown[2:]):
        return forced_bits(*shown[2:])
    if instance.kind.startswith("LATCH"):
        return {shown[1]} if shown[0] else {old}
    rises = shown[0] and not trace.pin(instance, 0, wires[0], tick - 1)
    return {shown[1]} if rises else {old}


def is_storage(instance):
    return instance.kind.startswith(("REG", "LATCH"))


def farthest_look(instance, delays, wires):
    """How many ticks back the equation of an instance looks, its own output with it."""
    if instance.kind == "CHG":
        return max(wires) + instance.delay.greatest + 1
    looks = [delays[0] + wire if is_storage(instance) else max(delays) + wire for wire in wires]
    if is_storage(instance):
        looks.append(1)
    if instance.kind.startswith("REG"):
        looks.append(delays[0] + 1 + wires[0])
    return max(looks)


def output_may_have(trace, instance, delays, wires, tick):
    """The bits that the equation of an element leaves its output at a tick."""
    flip = instance.output.is_complemented
    old = trace.bits[instance.output.on][tick - 1] ^ flip
    if instance.kind == "CHG":
        may = change_may_have(trace, instance, wires, tick, old)
    elif is_storage(instance):
        may = storage_may_have(trace, instance, wires, tick - delays[0], old)
    else:
        may = gate_may_have(trace, instance, delays, wires, tick)
    return {bit ^ flip for bit in may}


def first_failure(circuit, trace):
    """The first tick at which an equation fails, with the output net of the first element there; or None."""
    for tick in range(trace.ticks):
        for instance, delays, wires in zip(circuit.instances, trace.delays, trace.wires):
            if not instance.is_element or tick < farthest_look(instance, delays, wires):
                continue
            if trace.bits[instance.output.on][tick] not in output_may_have(trace, instance, delays, wires, tick):
                return tick, instance.output.on
    return None


# --- the inputs


def is_clock_late(clock, header, bits, late):
    return all(bit == ideal_bit(clock, header, tick - late) for tick, bit in enumerate(bits))


def keeps_moving_edges(clock, header, bits):
    """Whether bits are those of a clock each of whose edges moves by itself."""
    skew = skew_of(clock, header)
    near = {}
    for slot in range(header.period):
        if ideal_step(clock, header, slot) in (RISES, FALLS):
            for move in range(-skew.least, skew.greatest + 1):
                near[(slot + move) % header.period] = ideal_step(clock, header, slot)
    for tick in range(1, len(bits)):
        step = Step(bits[tick - 1], bits[tick])
        edge = near.get(tick % header.period)
        if edge is None and step != ideal_step(clock, header, tick):
            return False
        if edge is not None and step == Step(edge.after, edge.before):
            return False
    return True


def keeps_assertion(circuit, net, bits):
    assertion, header = circuit.assertion(net), circuit.header
    if isinstance(assertion, Clock):
        if assertion.letter == "C":
            return keeps_moving_edges(assertion, header, bits)
        skew = skew_of(assertion, header)
        return any(is_clock_late(assertion, header, bits, late) for late in range(-skew.least, skew.greatest + 1))
    quiet = range(header.period)
    if assertion is not None and assertion.intervals:
        quiet = quiet_slots(assertion, header)
    return all(bits[tick - 1] == bits[tick] for tick in range(1, len(bits)) if tick % header.period in quiet)


def first_stray(circuit, trace):
    for net in circuit.in_name_order():
        if net not in circuit.drivers and not keeps_assertion(circuit, net, trace.bits[net]):
            return net
    return None


# --- breaks, each by the greatest tick that it names


def pin_steps(trace, instance, number, wire, start):
    """The steps of a pin that breaks may name, by their ticks."""
    shown = [None] * wire + [int(trace.pin(instance, number, wire, tick)) for tick in range(wire, trace.ticks)]
    return {tick: Step(shown[tick - 1], shown[tick]) for tick in range(max(start, wire + 1), trace.ticks)}


def edge_breaks(trace, instance, wires, start):
    clock, data = (pin_steps(trace, instance, number, wires[number], start) for number in (0, 1))
    changes = [tick for tick, step in data.items() if step.before != step.after]
    setup, hold = instance.limits["SETUP"], instance.limits["HOLD"]
    for edge in [tick for tick, step in clock.items() if step == RISES]:
        end = edge
        if instance.kind == "SETUP_RISE_HOLD_FALL_CHK":
            end = next((tick for tick in range(edge + 1, trace.ticks) if clock[tick] == FALLS), None)
            if end is None:
                continue
        yield from (max(end, change) for change in changes if edge - setup < change <= end + hold)


def width_breaks(trace, instance, wires, start):
    steps = pin_steps(trace, instance, 0, wires[0], start)
    for into, out, limit in ((RISES, FALLS, "HIGH"), (FALLS, RISES, "LOW")):
        for begin in [tick for tick, step in steps.items() if step == into]:
            end = next((tick for tick in range(begin + 1, trace.ticks) if steps[tick] == out), None)
            if end is not None and end - begin < instance.limits.get(limit, 0):
                yield end


def hazard_breaks(trace, instance, wires, start):
    closed = 0 if instance.kind == "AND" else 1
    steps = [pin_steps(trace, instance, number, wire, start) for number, wire in enumerate(wires)]
    for tick, marked in steps[instance.marked].items():
        if marked != Step(closed, closed):
            others = (pin[tick] for number, pin in enumerate(steps) if number != instance.marked and tick in pin)
            if any(step.before != step.after for step in others):
                yield tick


def instance_breaks(trace, instance, wires, start):
    if instance.kind == "MIN_PULSE_CHK":
        return width_breaks(trace, instance, wires, start)
    if not instance.is_element:
        return edge_breaks(trace, instance, wires, start)
    return [] if instance.marked is None else hazard_breaks(trace, instance, wires, start)


def assertion_breaks(circuit, trace, net, start):
    permitted = wide_wave(circuit.assertion(net), circuit.header)
    bits = trace.bits[net]
    for tick in range(max(start, 1), trace.ticks):
        if not permits(permitted[tick % circuit.period], Step(bits[tick - 1], bits[tick])):
            yield tick


def first_break(circuit, trace, start):
    """The least of the greatest ticks of all breaks, and the first element that has one there; or None."""
    found = []
    for instance, wires in zip(circuit.instances, trace.wires):
        found.append((min(instance_breaks(trace, instance, wires, start), default=None), str(instance)))
    for net in circuit.in_name_order():
        if net in circuit.drivers and circuit.assertion(net) is not None:
            found.append((min(assertion_breaks(circuit, trace, net, start), default=None), str(net)))
    breaks = [(tick, name) for tick, name in found if tick is not None]
    return min(breaks, key=lambda one: one[0]) if breaks else None


# --- the verdict


class Verdict(NamedTuple):
    """The status and what is written."""

    status: int
    text: str


def split_trace(text):
    """The lines of the trace with which a text begins, and the drawing after them; or None."""
    at, lines = 0, []
    while (end := text.find(b"\n", at)) >= 0:
        lines.append(text[at:end])
        at = end + 1
        if lines[-1] == END:
            return lines, text[at:]
    return None


def judge(text, circuit_of, start, most=MOST_TICKS):
    """The verdict on a text, with the circuit of the drawing in it; or why that is refused."""
    split = split_trace(text)
    if split is None:
        return Verdict(9, "")
    lines, drawing = split
    try:
        circuit = circuit_of(drawing)
    except Refused as refused:
        return Verdict(2, f"REFUSED {refused.kind.value} {refused.kind.name} {refused.place.line}:{refused.place.column}\n")
    try:
        trace = read_trace(circuit, lines, most)
    except BadTrace:
        return Verdict(9, "")
    failure = first_failure(circuit, trace)
    if failure is not None:
        return Verdict(3, f"NOT A RUN TICK {failure[0]} {failure[1]}\n")
    stray = first_stray(circuit, trace)
    written = "RUN\n" + ("INTERFACE\n" if stray is None else f"INTERFACE NO {stray}\n")
    broken = first_break(circuit, trace, start)
    if broken is None:
        return Verdict(0, written + "NO BREAK\n")
    return Verdict(1, written + f"BREAK {broken[1]} TICK {broken[0]}\n")
