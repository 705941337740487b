"""The tree of a drawing (docs/LANGUAGE.md, "Grammar"). Places are those of its text, once it is written."""
from dataclasses import dataclass, field
from enum import Enum
from typing import NamedTuple, Optional, Union

from .waves import Bounds


class Place(NamedTuple):
    """A line and a column of a text, both from 1."""

    line: int
    column: int


class RefusalKind(Enum):
    """The refusals that the model knows, by their numbers."""

    BadHeader = 4
    DoubleName = 5
    UnknownKind = 6
    BadName = 7
    AssertionClash = 8
    BadParameter = 9
    Overflow = 10
    BadRange = 11
    Width = 12
    PinCount = 13
    Bounds = 14
    TooDeep = 15
    TwoDrivers = 17
    ZeroLoop = 18
    CaseNet = 19
    EdgesOverlap = 20
    ZeroDivisor = 21
    UnknownName = 22


class Refused(Exception):
    """A drawing that is refused, why and where."""

    def __init__(self, kind, place):
        super().__init__(kind.name)
        self.kind = kind
        self.place = place


# --- what primitives there are


class Inputs(NamedTuple):
    """How many input connections a kind takes."""

    fewest: int
    most: int


# the kinds with an output and a delay
ELEMENTS = {
    "BUF": Inputs(1, 1),
    "AND": Inputs(1, 16),
    "OR": Inputs(1, 16),
    "XOR": Inputs(1, 16),
    "MUX2": Inputs(3, 3),
    "MUX4": Inputs(6, 6),
    "MUX8": Inputs(11, 11),
    "CHG": Inputs(1, 16),
    "REG": Inputs(2, 2),
    "LATCH": Inputs(2, 2),
    "REG_RS": Inputs(4, 4),
    "LATCH_RS": Inputs(4, 4),
}
MARKED_KINDS = ("AND", "OR")
# the kinds that may have two delays
SPLIT_KINDS = ("BUF", "AND", "OR", "XOR", "MUX2", "MUX4", "MUX8")


class Checker(NamedTuple):
    inputs: int
    parameters: tuple


CHECKERS = {
    "SETUP_HOLD_CHK": Checker(2, ("SETUP", "HOLD")),
    "SETUP_RISE_HOLD_FALL_CHK": Checker(2, ("SETUP", "HOLD")),
    "MIN_PULSE_CHK": Checker(1, ("HIGH", "LOW")),
}


# --- signal names


class Interval(NamedTuple):
    """The units from `first` on and before `end`, over the end of the period if `end` is less."""

    first: int
    end: int


class Clock(NamedTuple):
    """A clock, whose letter is P if it moves as a whole and C if each edge moves by itself."""

    letter: str
    intervals: tuple
    skew: Optional[Bounds]
    is_low: bool


class Still(NamedTuple):
    """A signal that does not change inside of the intervals, or never if there is none."""

    intervals: tuple


Assertion = Union[Clock, Still]


@dataclass
class Name:
    """A base name, with its `/` if it is global, and what it asserts."""

    base: str
    assertion: Optional[Assertion] = None
    place: Optional[Place] = None


# --- expressions


class Number(NamedTuple):
    value: int


class Parameter(NamedTuple):
    word: str


class Minus(NamedTuple):
    operand: "Expression"


class Binary(NamedTuple):
    operator: str
    left: "Expression"
    right: "Expression"


Expression = Union[Number, Parameter, Minus, Binary]


class Range(NamedTuple):
    """The bits from the first to the last, or the first alone."""

    first: Expression
    last: Optional[Expression] = None


# --- connections and statements


class Constant(Enum):
    ZERO = "0"
    ONE = "1"


@dataclass
class Term:
    """A constant, or the bits of a name, as they are or complemented."""

    what: Union[Name, Constant]
    range: Optional[Range] = None
    is_complemented: bool = False


@dataclass
class Connection:
    terms: list
    is_marked: bool = False
    place: Optional[Place] = None


class Delay(NamedTuple):
    """A delay as it is written."""

    least: Expression
    greatest: Expression


@dataclass
class Assign:
    """A parameter and what it is: its default in a macro's head, its value in a use."""

    word: str
    value: Expression
    place: Optional[Place] = None


@dataclass
class Const:
    """A constant, with the place of its word CONST and that of its own."""

    word: str
    value: Expression
    place: Optional[Place] = None
    word_place: Optional[Place] = None


@dataclass
class Use:
    label: str
    kind: str
    inputs: list
    outputs: list
    delay: Optional[Delay] = None  # of rises alone, if there is a fall delay beside it
    parameters: list = field(default_factory=list)
    fall: Optional[Delay] = None
    place: Optional[Place] = None


@dataclass
class WireStatement:
    name: Name
    delay: Delay
    range: Optional[Range] = None
    place: Optional[Place] = None


@dataclass
class If:
    test: Expression
    then: list
    otherwise: Optional[list] = None
    place: Optional[Place] = None


@dataclass
class For:
    """Statements once for each value of a variable."""

    word: str
    first: Expression
    last: Expression
    body: list
    place: Optional[Place] = None


@dataclass
class Formal:
    name: Name
    range: Optional[Range] = None


@dataclass
class Macro:
    word: str
    parameters: list
    inputs: list
    outputs: list
    body: list
    place: Optional[Place] = None


@dataclass
class Entry:
    """A net of a case, and the bit that it holds."""

    name: Name
    bit: int
    level: int


@dataclass
class Case:
    entries: list
    place: Optional[Place] = None


@dataclass
class Header:
    units: int
    ticks_per_unit: int
    wire: Bounds = Bounds(0, 0)
    skew_of_p: Bounds = Bounds(0, 0)
    skew_of_c: Bounds = Bounds(0, 0)

    @property
    def period(self):
        return self.units * self.ticks_per_unit


@dataclass
class Drawing:
    """A drawing. Version 1 of the language has no constants and no FOR."""

    header: Header
    macros: list
    body: list
    cases: list
    version: int = 1
    constants: list = field(default_factory=list)


# --- walks through a drawing, in the order of the text


def bodies_in(statement):
    """The lists of statements that a statement has."""
    if isinstance(statement, If):
        return [statement.then, statement.otherwise or []]
    return [statement.body] if isinstance(statement, For) else []


def statements(body):
    """The statements of a body, those under IFs and FORs among them."""
    for statement in body:
        yield statement
        for inner in bodies_in(statement):
            yield from statements(inner)


def uses(body):
    return (statement for statement in statements(body) if isinstance(statement, Use))


def bodies(drawing):
    """All lists of statements that a drawing has outside of IFs and FORs."""
    return [*(macro.body for macro in drawing.macros), drawing.body]
