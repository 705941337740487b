"""The seven values as sets of steps (docs/MEANING.md, "Values and waves").

A value is written by its letter, as in the report: 0, 1, S, R, F, C or U.
"""
from functools import lru_cache
from typing import NamedTuple


class Step(NamedTuple):
    """The bits of a net at two ticks side by side."""

    before: int
    after: int


STAYS_LOW = Step(0, 0)
RISES = Step(0, 1)
FALLS = Step(1, 0)
STAYS_HIGH = Step(1, 1)
ALL_STEPS = frozenset({STAYS_LOW, RISES, FALLS, STAYS_HIGH})

STEPS = {
    "0": frozenset({STAYS_LOW}),
    "1": frozenset({STAYS_HIGH}),
    "S": frozenset({STAYS_LOW, STAYS_HIGH}),
    "R": frozenset({STAYS_LOW, RISES, STAYS_HIGH}),
    "F": frozenset({STAYS_LOW, FALLS, STAYS_HIGH}),
    "C": ALL_STEPS,
    "U": ALL_STEPS,
}


def permits(value, step):
    return step in STEPS[value]


def is_quiet(value):
    """Whether a value permits no change."""
    return not permits(value, RISES) and not permits(value, FALLS)


def complement(values):
    """The values, one letter after the other, of what shows the other bit at each tick."""
    return values.translate(str.maketrans("01RF", "10FR"))


def cover(steps, unknown):
    """The least value that permits these steps: U if all four are there and something unknown went into them."""
    if steps == ALL_STEPS:
        return "U" if unknown else "C"
    return next(value for value in "01SRFC" if steps <= STEPS[value])


@lru_cache(None)
def join(values):
    """The least value that permits what any of a set of values permits."""
    return cover(frozenset().union(*(STEPS[value] for value in values)), "U" in values)
