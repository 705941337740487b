"""What signal names assert: their spelling, ideal clocks, and the waves of nets that nothing drives
(docs/LANGUAGE.md, "Signal names"; docs/MEANING.md, "Inputs keep their assertions").
"""
from .drawing import Clock, Still
from .values import RISES, FALLS, STAYS_HIGH, STAYS_LOW, Step
from .waves import Wave, constant, fold, normal, turned

# the value of a slot in which an ideal clock makes this one step
LETTER = {STAYS_LOW: "0", STAYS_HIGH: "1", RISES: "R", FALLS: "F"}


def spelling(assertion):
    """What follows the base name."""
    if assertion is None:
        return ""
    intervals = ",".join("%d-%d" % interval for interval in assertion.intervals)
    if isinstance(assertion, Still):
        return f" .S{intervals}"
    skew = "" if assertion.skew is None else "(%d,%d)" % assertion.skew
    return f" .{assertion.letter}{intervals}{skew}{'L' if assertion.is_low else ''}"


def skew_of(clock, header):
    if clock.skew is not None:
        return clock.skew
    return header.skew_of_p if clock.letter == "P" else header.skew_of_c


def ideal_bit(clock, header, tick):
    """The bit of the ideal clock at a tick of any period."""
    unit = tick % header.period // header.ticks_per_unit
    is_inside = any(
        first <= unit < end if first < end else unit >= first or unit < end for first, end in clock.intervals
    )
    return int(is_inside != clock.is_low)


def ideal_step(clock, header, slot):
    return Step(ideal_bit(clock, header, slot - 1), ideal_bit(clock, header, slot))


def edges_overlap(clock, header):
    """Whether two edges of a clock may come at one tick, if each moves by itself."""
    skew = skew_of(clock, header)
    edges = [slot for slot in range(header.period) if ideal_step(clock, header, slot) in (RISES, FALLS)]
    ticks = [(edge + move) % header.period for edge in edges for move in range(-skew.least, skew.greatest + 1)]
    return len(set(ticks)) < len(ticks)


def clock_wave(clock, header):
    """The ideal clock as early as it may come, with a skew; folded if each edge moves by itself."""
    skew = skew_of(clock, header)
    ideal = "".join(LETTER[ideal_step(clock, header, slot)] for slot in range(header.period))
    wave = normal(Wave(turned(ideal, -skew.least), skew.least + skew.greatest))
    return wave if clock.letter == "P" else normal(Wave(fold(wave), 0))


def quiet_slots(still, header):
    """The slots in which the signal makes no step: those with both of their ticks inside of one interval."""
    slots = set()
    for first, end in still.intervals:
        units = end - first if first < end else end - first + header.units
        begin = first * header.ticks_per_unit
        slots |= {slot % header.period for slot in range(begin + 1, begin + units * header.ticks_per_unit)}
    return slots


def wave_of(assertion, header):
    """The wave of a net that nothing drives."""
    if isinstance(assertion, Clock):
        return clock_wave(assertion, header)
    if assertion is None or not assertion.intervals:
        return constant("S", header.period)
    quiet = quiet_slots(assertion, header)
    return normal(Wave("".join("S" if slot in quiet else "C" for slot in range(header.period)), 0))


def wide_wave(assertion, header):
    """What a driven net with this assertion may show in each slot."""
    return fold(wave_of(assertion, header))
