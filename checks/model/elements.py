"""What elements make of the waves at their pins (docs/MEANING.md, "What elements make of waves")."""
from functools import lru_cache
from itertools import product
from typing import NamedTuple, Optional

from .values import FALLS, RISES, STAYS_HIGH, STAYS_LOW, STEPS, Step, cover, is_quiet, permits
from .waves import Wave, delayed, fold, is_steady, normal, windows

BITS = frozenset({0, 1})


# --- one slot: what an element may do if its pins make one step each


def gate_bit(kind, bits):
    """The bit that a gate gives, its delay left aside."""
    if kind == "AND":
        return int(all(bits))
    if kind == "OR":
        return int(any(bits))
    if kind == "XOR":
        return sum(bits) % 2
    if kind == "MUX2":
        select, first, second = bits
        return second if select else first
    assert kind == "BUF"
    return bits[0]


def forced_bits(setting, resetting):
    """What set and reset make of an output: bits that it may have, or none if they leave it alone."""
    if setting and resetting:
        return BITS
    return {1} if setting else {0} if resetting else set()


def register_steps(clock, setting=STAYS_LOW, resetting=STAYS_LOW):
    """The output takes any bit where the clock rises and keeps its own elsewhere."""
    return {
        Step(before, after)
        for before in forced_bits(setting.before, resetting.before) or BITS
        for after in forced_bits(setting.after, resetting.after) or (BITS if clock == RISES else {before})
    }


def latch_steps(enable, data, setting=STAYS_LOW, resetting=STAYS_LOW):
    """The output is the input while it is enabled and keeps its own bit else."""
    return {
        Step(before, after)
        for before in forced_bits(setting.before, resetting.before) or ({data.before} if enable.before else BITS)
        for after in forced_bits(setting.after, resetting.after) or ({data.after} if enable.after else {before})
    }


def output_steps(kind, steps):
    """The steps that an output may make if the pins that it listens to make these."""
    if kind in ("REG", "REG_RS"):
        return register_steps(*steps)
    if kind in ("LATCH", "LATCH_RS"):
        return latch_steps(*steps)
    return {Step(gate_bit(kind, [step.before for step in steps]), gate_bit(kind, [step.after for step in steps]))}


@lru_cache(None)
def image(kind, values):
    """The least value that permits all that an element may do of one permitted step at each pin."""
    made = set()
    for steps in product(*(STEPS[value] for value in values)):
        made |= output_steps(kind, steps)
    return cover(frozenset(made), "U" in values)


@lru_cache(None)
def slot_value(kind, values):
    """The same, with wide gates two pins at a time from the left, and multiplexers from the last select on."""
    if kind in ("AND", "OR", "XOR") and len(values) > 2:
        return slot_value(kind, (image(kind, values[:2]), *values[2:]))
    if kind in ("AND", "OR", "XOR") and len(values) == 1:
        return values[0]
    if kind in ("MUX4", "MUX8"):
        half = {"MUX4": "MUX2", "MUX8": "MUX4"}[kind]
        selects = 2 if kind == "MUX4" else 3
        ways = values[selects:]
        middle = len(ways) // 2
        first = slot_value(half, (*values[1:selects], *ways[:middle]))
        second = slot_value(half, (*values[1:selects], *ways[middle:]))
        return image("MUX2", (values[0], first, second))
    return image(kind, values)


# --- all slots


class Hazard(NamedTuple):
    slot: int
    pin: int


def first_hazard(kind, waves, marked) -> Optional[Hazard]:
    """The first slot where the marked pin of an AND is not 0, or of an OR not 1, and another pin may change; and the
    first such pin."""
    if marked is None:
        return None
    folds = [fold(wave) for wave in waves]
    closed = "0" if kind == "AND" else "1"
    for slot, value in enumerate(folds[marked]):
        for pin, other in enumerate(folds):
            if value != closed and pin != marked and not is_quiet(other[slot]):
                return Hazard(slot, pin)
    return None


def change_wave(waves, delay):
    """The output of a change function: still where all pins were within the bounds of its delay."""
    around = [windows(fold(wave), delay) for wave in waves]
    slots = []
    for seen in zip(*around):
        values = frozenset().union(*seen)
        slots.append("S" if all(map(is_quiet, values)) else "U" if "U" in values else "C")
    return normal(Wave("".join(slots), 0))


def met(kind, waves):
    """The waves meet slot by slot. One that moves alone keeps its skew; if more move each is folded before."""
    moving = [wave for wave in waves if not is_steady(wave)]
    if len(moving) > 1:
        waves, skew = [Wave(fold(wave), 0) for wave in waves], 0
    else:
        skew = moving[0].skew if moving else 0
    slots = zip(*(wave.slots for wave in waves))
    return Wave("".join(slot_value(kind, values) for values in slots), skew)


def gated(kind, clock):
    """A marked pin whose rule holds, seen through pins that are stable wherever it lets them through."""
    return Wave("".join(image(kind, (value, "S")) for value in clock.slots), clock.skew)


# --- two delays


def slots_with(wave, *steps):
    """The slots in which one of these steps is permitted."""
    return {slot for slot, value in enumerate(wave.slots) if any(permits(value, step) for step in steps)}


def slots_before(wave, bounds):
    """For each slot, those that lie so many slots before it."""
    period = len(wave.slots)
    return [
        {(slot - late) % period for late in range(bounds.least, bounds.greatest + 1)} for slot in range(period)
    ]


def may_have(slots, before_rise, before_fall, before_either, is_seen_by_both):
    """For each slot, whether the output may have a level at its end, if these are the slots at whose end the
    inputs may give that level."""
    if is_seen_by_both:
        return [bool(slots & rise) and bool(slots & fall) for rise, fall in zip(before_rise, before_fall)]
    return [bool(slots & either) for either in before_either]


def late_by_two(wave, split):
    """The output of a gate with two delays, of the wave that its pins would give it at once."""
    rise, fall = split
    around = slots_before(wave, rise), slots_before(wave, fall), slots_before(wave, split.either)
    before_rise, before_fall, before_either = around
    high = may_have(slots_with(wave, RISES, STAYS_HIGH), *around, rise.least >= fall.greatest)
    low = may_have(slots_with(wave, FALLS, STAYS_LOW), *around, fall.least >= rise.greatest)
    rising, falling = slots_with(wave, RISES), slots_with(wave, FALLS)
    unknown = {slot for slot, value in enumerate(wave.slots) if value == "U"}
    made = []
    for slot in range(len(wave.slots)):
        may_be = {
            STAYS_HIGH: high[slot],
            STAYS_LOW: low[slot],
            RISES: low[slot - 1] and high[slot] and rising & before_rise[slot],
            FALLS: high[slot - 1] and low[slot] and falling & before_fall[slot],
        }
        steps = frozenset(step for step, is_there in may_be.items() if is_there)
        made.append(cover(steps, bool(unknown & before_either[slot])))
    return normal(Wave("".join(made), wave.skew))


@lru_cache(10_000)
def output_wave(kind, waves, marked, delay, split):
    """What an element makes of the waves at its pins, those that it listens to, before a complement of its output."""
    if kind == "CHG":
        return change_wave(waves, delay)
    is_gating = marked is not None and first_hazard(kind, waves, marked) is None
    made = gated(kind, waves[marked]) if is_gating else met(kind, waves)
    return delayed(made, delay) if split is None else late_by_two(made, split)
