"""The faults that are read off the settled waves (docs/MEANING.md, "A fault")."""
from typing import NamedTuple, Optional, Union

from .assertions import wide_wave
from .circuit import Bit, Instance, Net
from .elements import first_hazard
from .rounds import pin_wave
from .values import FALLS, RISES, STAYS_HIGH, STAYS_LOW, STEPS, is_quiet, permits
from .waves import fold


class Fault(NamedTuple):
    """A fault: what is written of it, the slot at which it was found, and the pin that shows it there, if it is not
    that of a net."""

    kind: str
    element: Union[Instance, Net]
    rest: str
    slot: int
    pin: Optional[Bit]

    def __str__(self):
        return f"FAULT {self.kind} {self.element} {self.rest}"

    @property
    def without_element(self):
        return f"{self.kind} {self.rest}"


def first_change(data, slots):
    """The first of these slots, which may be in the period before or after, in which the input may change."""
    return next((slot for slot in slots if not is_quiet(data[slot % len(data)])), None)


def window_fault(checker, data, edge, high_end, setup, end):
    """The fault at one edge: the input may change in the window from the setup time before to its end. Up to the edge
    it is SETUP, and then HIGH up to a second slot, and HOLD after that."""
    slot = first_change(data, range(edge - setup + 1, end + 1))
    if slot is None:
        return None
    part = "SETUP" if slot <= edge else "HIGH" if slot <= high_end else "HOLD"
    slot %= len(data)
    return Fault(part, checker, f"EDGE {edge} SLOT {slot} VALUE {data[slot]}", slot, checker.pins[1])


def rises(clock):
    return [slot for slot, value in enumerate(clock) if permits(value, RISES)]


def setup_hold_fault(checker, clock, data, limits):
    """SETUP_HOLD_CHK: of the first edge that has one."""
    setup, hold = limits["SETUP"], limits["HOLD"]
    faults = (window_fault(checker, data, edge, edge, setup, edge + hold) for edge in rises(clock))
    return next(filter(None, faults), None)


def last_fall(clock, edge):
    """The last slot in which the clock may fall while it may have been 1 since the edge, or None if none is; and
    whether it may stay at 1 in every slot."""
    period = len(clock)
    after = range(edge + 1, edge + period + 1)
    low = next((slot for slot in after if not permits(clock[slot % period], STAYS_HIGH)), None)
    until = edge + period if low is None else low
    falls = [slot for slot in range(edge + 1, until + 1) if permits(clock[slot % period], FALLS)]
    return (max(falls) if falls else None), low is None


def rise_fall_fault(checker, clock, data, limits):
    """SETUP_RISE_HOLD_FALL_CHK: of the first edge that has one. Without a fall there is no window."""
    for edge in rises(clock):
        fall, may_stay_high = last_fall(clock, edge)
        if fall is None:
            continue
        high_end, end = fall, fall + limits["HOLD"]
        if may_stay_high:
            high_end = end = edge + len(clock)
        fault = window_fault(checker, data, edge, high_end, limits["SETUP"], end)
        if fault is not None:
            return fault
    return None


def edge_fault(circuit, waves, checker, limits):
    """The fault of setup and hold of a checker, with these limits in place of its own."""
    clock, data = (fold(pin_wave(circuit, waves, pin)) for pin in checker.pins)
    find = setup_hold_fault if checker.kind == "SETUP_HOLD_CHK" else rise_fall_fault
    return find(checker, clock, data, limits)


def point_fault(circuit, waves, instance):
    """The fault of setup and hold of a checker, or the hazard of a marked element."""
    if instance.kind in ("SETUP_HOLD_CHK", "SETUP_RISE_HOLD_FALL_CHK"):
        return edge_fault(circuit, waves, instance, instance.limits)
    pins = [pin_wave(circuit, waves, pin) for pin in instance.pins]
    hazard = first_hazard(instance.kind, pins, instance.marked)
    if hazard is None:
        return None
    rest = f"SLOT {hazard.slot} PIN {hazard.pin}"
    return Fault("HAZARD", instance, rest, hazard.slot, instance.pins[hazard.pin])


def assertion_fault(circuit, waves, net):
    """The first slot in which a driven net may do what its assertion nowhere permits."""
    if net not in circuit.drivers or circuit.assertion(net) is None:
        return None
    permitted = wide_wave(circuit.assertion(net), circuit.header)
    for slot, value in enumerate(fold(waves[net])):
        if not STEPS[value] <= STEPS[permitted[slot]]:
            return Fault("ASSERT", net, f"SLOT {slot} VALUE {value}", slot, None)
    return None


def shortest_pulse(wave, begin, step_out, stays, least):
    """How long a pulse that begins in a slot may be, if that is less than the least; else None. The pulse is
    measured on the wave itself, since all of it is late together."""
    for width in range(1, least):
        value = wave.slots[(begin + width) % len(wave.slots)]
        if permits(value, step_out):
            return width
        if not permits(value, stays):
            return None
    return None


def width_fault(circuit, waves, checker, level, limits):
    """The first pulse of a level that may be too short, with these limits in place of the checker's own."""
    wave = pin_wave(circuit, waves, checker.pins[0])
    step_in, stays, step_out = {"HIGH": (RISES, STAYS_HIGH, FALLS), "LOW": (FALLS, STAYS_LOW, RISES)}[level]
    for begin, value in enumerate(wave.slots):
        if permits(value, step_in):
            width = shortest_pulse(wave, begin, step_out, stays, limits[level])
            if width is not None:
                return Fault("WIDTH", checker, f"{level} FROM {begin} WIDTH {width}", begin, checker.pins[0])
    return None


def faults(circuit, waves):
    """All faults: points in the order of expansion, assertions in the order of names, widths in that of expansion."""
    found = [point_fault(circuit, waves, instance) for instance in circuit.instances]
    found += [assertion_fault(circuit, waves, net) for net in circuit.in_name_order()]
    for checker in circuit.checkers:
        if checker.kind == "MIN_PULSE_CHK":
            found += [width_fault(circuit, waves, checker, level, checker.limits) for level in ("HIGH", "LOW")]
    return [fault for fault in found if fault is not None]
