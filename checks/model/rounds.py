"""Rounds until the waves settle, cases, and the printed tick (docs/MEANING.md, "Rounds", "Cases" and "The printed tick")."""
from typing import NamedTuple

from .assertions import wave_of, wide_wave
from .drawing import Constant
from .elements import output_wave
from .waves import Wave, constant, delayed, flipped, normal


class Unsettled(Exception):
    """Waves that do not settle: the first net in name order that still changes, and the limit of rounds."""

    def __init__(self, net, limit):
        super().__init__(net)
        self.net = net
        self.limit = limit


class Rest(NamedTuple):
    """The settled waves, by net, and the number of the round."""

    waves: dict
    rounds: int


class CaseRest(NamedTuple):
    """A case by its number, its settled waves, and its own rounds."""

    number: int
    waves: dict
    rounds: int


class Settled(NamedTuple):
    """A settled circuit: the rounds before any case, and its cases."""

    base_rounds: int
    cases: list


def pin_wave(circuit, waves, pin):
    """What a pin shows: its net, late by the wire, or a constant."""
    if isinstance(pin.on, Constant):
        wave = constant(pin.on.value, circuit.period)
    else:
        wave = delayed(waves[pin.on], circuit.wire(pin))
    return flipped(wave) if pin.is_complemented else wave


def driven_wave(circuit, waves, element):
    """What an element makes of all waves on its net."""
    pins = tuple(pin_wave(circuit, waves, pin) for pin in element.listening)
    wave = output_wave(element.kind, pins, element.marked, element.delay, element.split)
    return normal(flipped(wave)) if element.output.is_complemented else wave


def next_round(circuit, waves, active):
    """All waves of the next round, in which the active nets are evaluated."""
    made = {net: driven_wave(circuit, waves, circuit.drivers[net]) for net in active}
    return {**waves, **made}


def settle(circuit, start, active, limit):
    """The first round that is as the next."""
    waves = start
    rounds = 0
    while True:
        following = next_round(circuit, waves, active)
        if following == waves:
            return Rest(waves, rounds)
        if rounds == limit:
            raise Unsettled(next(net for net in circuit.in_name_order() if following[net] != waves[net]), limit)
        waves = following
        rounds += 1


def base(circuit, limit, crossing=frozenset()):
    """A circuit settled before any case: it begins with the assertions, and with nothing known of driven nets. A net that
    comes from another section does in each slot what its assertion permits anywhere, and has no skew."""
    start = {}
    for net in circuit.nets:
        if net in circuit.drivers:
            start[net] = constant("U", circuit.period)
        elif net in crossing:
            start[net] = Wave(wide_wave(circuit.assertion(net), circuit.header), 0)
        else:
            start[net] = wave_of(circuit.assertion(net), circuit.header)
    return settle(circuit, start, list(circuit.drivers), limit)


def cone(circuit, levels):
    """The nets that a case may reach: its own, and each whose driver listens to one of them."""
    reached = set(levels)
    while True:
        more = {
            net
            for net, driver in circuit.drivers.items()
            if any(pin.on in reached for pin in driver.listening)
        }
        if more <= reached:
            return reached
        reached |= more


def case_rest(circuit, base_waves, levels, limit):
    """A case settled: its nets hold their levels, the others of its cone begin as unknown, all else is settled."""
    reached = cone(circuit, levels)
    start = {}
    for net in circuit.nets:
        if net in levels:
            start[net] = constant(str(levels[net]), circuit.period)
        elif net in reached:
            start[net] = constant("U", circuit.period)
        else:
            start[net] = base_waves[net]
    active = [net for net in circuit.drivers if net in reached]
    return settle(circuit, start, active, limit)


def default_limit(circuit):
    return len(circuit.elements) + 4 * circuit.period + 16


def settle_all(circuit, limit, crossing=frozenset()):
    """The base and each case settled; the one case 0 if none is listed."""
    at_base = base(circuit, limit, crossing)
    if not circuit.cases:
        return Settled(at_base.rounds, [CaseRest(0, at_base.waves, 0)])
    cases = []
    for number, levels in enumerate(circuit.cases, 1):
        cases.append(CaseRest(number, *case_rest(circuit, at_base.waves, levels, limit)))
    return Settled(at_base.rounds, cases)


def reach(circuit):
    """How many ticks one evaluation looks back at most."""
    looks = [
        instance.delay.greatest + max(circuit.wire(pin).greatest for pin in instance.pins)
        for instance in circuit.instances
    ]
    return 1 + max(looks, default=0)


def printed_tick(circuit, base_rounds, rounds):
    """The tick from which on the waves of a case speak of every run in it."""
    return (base_rounds + rounds + 1) * reach(circuit)
