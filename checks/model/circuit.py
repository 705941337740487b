"""A circuit: nets, and instances between them, each bit by itself (docs/MEANING.md, "The circuit")."""
from dataclasses import dataclass, field
from typing import NamedTuple, Optional, Union

from .drawing import ELEMENTS, Constant, Header, Place
from .waves import Bounds


class Net(NamedTuple):
    """Nets in the order of their names are in the order of these."""

    name: str
    bit: int

    def __str__(self):
        return f"{self.name}<{self.bit}>"


class Bit(NamedTuple):
    """What a pin or an output is on, and whether it is complemented there."""

    on: Union[Net, Constant]
    is_complemented: bool

    def complemented_if(self, is_complemented):
        return Bit(self.on, self.is_complemented != is_complemented)


class Split(NamedTuple):
    """Two delays: that of an output's rises, and that of its falls."""

    rise: Bounds
    fall: Bounds

    @property
    def either(self):
        """From the least to the greatest of both."""
        least, greatest = zip(self.rise, self.fall)
        return Bounds(min(least), max(greatest))


@dataclass
class Instance:
    """One bit of an element or of a checker."""

    name: str  # its path and label
    bit: int
    kind: str
    pins: list
    marked: Optional[int]  # the number of the pin with !H
    output: Optional[Bit]
    delay: Bounds  # if there are two, from the least to the greatest of both
    split: Optional[Split]
    limits: dict  # of a checker, by its parameters
    place: Place

    def __str__(self):
        return f"{self.name}<{self.bit}>"

    @property
    def is_element(self):
        return self.kind in ELEMENTS

    @property
    def listening(self):
        """The pins that the output follows: of a register all but its input, which is anything at a rise."""
        if self.kind in ("REG", "REG_RS"):
            return self.pins[:1] + self.pins[2:]
        return self.pins


class Spread(NamedTuple):
    """A name without a range, on no formal, that one bit of a connection comes from which is spread over so many."""

    place: Place
    name: str  # path and base name
    width: int


@dataclass
class Circuit:
    header: Header
    nets: list = field(default_factory=list)  # in the order of their first use
    assertions: dict = field(default_factory=dict)  # by path and base name
    wires: dict = field(default_factory=dict)  # by net, if a WIRE statement says so
    instances: list = field(default_factory=list)  # in the order of expansion
    drivers: dict = field(default_factory=dict)  # the instance whose output a net is
    cases: list = field(default_factory=list)  # of each, the level of each of its nets
    spreads: list = field(default_factory=list)  # in the order of expansion
    loops: dict = field(default_factory=dict)  # of each FOR that is reached, by its place, whether it has a turn

    @property
    def period(self):
        return self.header.period

    @property
    def elements(self):
        return [instance for instance in self.instances if instance.is_element]

    @property
    def checkers(self):
        return [instance for instance in self.instances if not instance.is_element]

    def in_name_order(self):
        return sorted(self.nets)

    def assertion(self, net):
        return self.assertions.get(net.name)

    def wire(self, bit):
        """The bounds of the wire to a pin; a constant has none."""
        if isinstance(bit.on, Constant):
            return Bounds(0, 0)
        return self.wires.get(bit.on, self.header.wire)
