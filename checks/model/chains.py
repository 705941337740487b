"""The answer of `chains` (docs/LANGUAGE.md, "Chains")."""
from typing import NamedTuple

from .circuit import Net
from .faults import faults
from .values import is_quiet
from .waves import Bounds, fold


class Link(NamedTuple):
    net: Net
    slot: int
    value: str

    def __str__(self):
        return f"LINK {self.net} SLOT {self.slot} VALUE {self.value}"


def link_at(waves, net, slot):
    slots = fold(waves[net])
    return Link(net, slot % len(slots), slots[slot % len(slots)])


def link_through(circuit, waves, pin, slot, delay):
    """The latest change of a pin's net that may show in a slot, through the pin's wire and then a delay; or None."""
    if not isinstance(pin.on, Net):
        return None
    wire = circuit.wire(pin)
    looks = range(delay.least + wire.least, delay.greatest + wire.greatest + 1)
    links = (link_at(waves, pin.on, slot - back) for back in looks)
    return next((link for link in links if not is_quiet(link.value)), None)


def first_link(circuit, waves, fault):
    if fault.pin is None:
        return link_at(waves, fault.element, fault.slot)
    return link_through(circuit, waves, fault.pin, fault.slot, Bounds(0, 0))


def next_link(circuit, waves, link):
    """Through the first pin that the driver listens to and that may have changed; or None."""
    driver = circuit.drivers[link.net]
    links = (link_through(circuit, waves, pin, link.slot, driver.delay) for pin in driver.listening)
    return next(filter(None, links), None)


def chain(circuit, waves, fault):
    """The links of a fault, and the word for their end."""
    links = [first_link(circuit, waves, fault)]
    if is_quiet(links[0].value):
        return links, "LEVEL"
    while True:
        link = links[-1]
        if link.net in [earlier.net for earlier in links[:-1]]:
            return links, "REPEAT"
        if link.net not in circuit.drivers:
            return links, "UNDRIVEN"
        following = next_link(circuit, waves, link)
        if following is None:
            return links, "BOTH"
        links.append(following)


def chain_lines(circuit, version, settled):
    """The lines of all chains, and how many faults there are."""
    lines = [f"SCALD {version} PERIOD {circuit.period}"]
    count = 0
    for case in settled.cases:
        lines.append(f"CASE {case.number}")
        for fault in faults(circuit, case.waves):
            links, end = chain(circuit, case.waves, fault)
            lines += [str(fault), *map(str, links), f"END {end}"]
            count += 1
    lines.append(f"FAULTS {count}" if count else "CLEAN")
    return lines, count
