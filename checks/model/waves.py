"""Waves with a skew: what a net may do in each slot of a period, and by how many ticks all of it may be late
(docs/MEANING.md, "Values and waves"). Slot p is the step from tick p - 1 to tick p; slots go round the period.
"""
from functools import lru_cache
from typing import NamedTuple

from .values import complement, is_quiet, join


class Bounds(NamedTuple):
    """The least and the greatest of a delay in ticks; or how far a clock may come early, and how far late."""

    least: int
    greatest: int


class Wave(NamedTuple):
    """A value for each slot, one letter after the other, and the most ticks by which all of them may be late."""

    slots: str
    skew: int


def is_steady(wave):
    """Whether nothing ever changes."""
    return all(is_quiet(value) for value in wave.slots)


def normal(wave):
    """The one form of a wave: still waves are 0, 1 or S all round, and what is the same all round has no skew."""
    period = len(wave.slots)
    if is_steady(wave):
        return Wave(join(frozenset(wave.slots)) * period, 0)
    if len(set(wave.slots)) == 1:
        return Wave(wave.slots, 0)
    return Wave(wave.slots, min(wave.skew, period - 1))


def constant(value, period):
    return Wave(value * period, 0)


def turned(slots, late):
    """The slots, each so many later round the period."""
    return "".join(slots[(slot - late) % len(slots)] for slot in range(len(slots)))


def delayed(wave, delay):
    """The wave, late by a delay within its bounds: its skew grows by their difference."""
    skew = min(wave.skew + delay.greatest - delay.least, len(wave.slots) - 1)
    return normal(Wave(turned(wave.slots, delay.least), skew))


def flipped(wave):
    """The complement of a wave."""
    return Wave(complement(wave.slots), wave.skew)


def windows(slots, bounds):
    """For each slot, the values that lie so many slots before it, from the least to the greatest number."""
    period = len(slots)
    span = min(bounds.greatest - bounds.least, period - 1)
    twice = turned(slots, bounds.least) * 2
    return [frozenset(twice[slot + period - span : slot + period + 1]) for slot in range(period)]


@lru_cache(10_000)
def fold(wave):
    """What the wave may show in each slot with any delay within its skew."""
    return "".join(join(window) for window in windows(wave.slots, Bounds(0, wave.skew)))
