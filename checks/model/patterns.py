"""Parts of drawings that chance alone would seldom draw: macros that use themselves, a loop that settles slowly, a net that
is unknown in a part of the period, one whose wave is quiet and not the same all round, and a checker whose input is launched
by its own clock."""
from .drawing import (
    Assign, Binary, Clock, Connection, Constant, Delay, Formal, If, Interval, Macro, Name, Number, Parameter, Range, Still,
    Term, Use,
)
from .waves import Bounds


def signal(base, bits=None, assertion=None):
    """A connection of one name."""
    return Connection([Term(Name(base, assertion), bits)])


def less(expression, number):
    return Binary("-", expression, Number(number))


def tree_macro(kind, delay, fall):
    """A macro that halves its inputs until one is left."""
    size = Parameter("SIZE")
    half = Binary("/", size, Number(2))
    all_bits = Range(Number(0), less(size, 1))
    lower_half = Range(Number(0), less(half, 1))
    upper_half = Range(half, less(size, 1))
    leaf = Use("leaf", "BUF", [signal("A", Range(Number(0)))], [signal("Z")], delay, fall=fall)
    halves = [
        Use("left", "TREE", [signal("A", lower_half)], [signal("L")], None, [Assign("SIZE", half)]),
        Use("right", "TREE", [signal("A", upper_half)], [signal("R")], None, [Assign("SIZE", half)]),
        Use("top", kind, [signal("L"), signal("R")], [signal("Z")], delay, fall=fall),
    ]
    body = [If(Binary("=", size, Number(1)), [leaf], halves)]
    return Macro("TREE", [Assign("SIZE", Number(4))], [Formal(Name("A"), all_bits)], [Formal(Name("Z"))], body)


def chain_macro():
    """A macro that uses itself N times inside one another."""
    count = Parameter("N")
    again = Use("x", "CHAIN", [signal("A")], [signal("Z")], None, [Assign("N", less(count, 1))])
    last = Use("b", "BUF", [signal("A")], [signal("Z")], Delay(Number(1), Number(1)))
    body = [If(Binary(">", count, Number(1)), [again], [last])]
    return Macro("CHAIN", [Assign("N", Number(1))], [Formal(Name("A"))], [Formal(Name("Z"))], body)


def ring(count, kind, header):
    """Buffers without delay in a loop with an AND or OR whose clock lets the loop's own wave through in all units but
    one: the waves settle slowly, or not within the limit of rounds."""
    front, back = Range(Number(0), Number(count - 1)), Range(Number(1), Number(count))
    clock = signal("TURN", None, Clock("P", (Interval(0, header.units - 1),), None, kind == "OR"))
    fed_back = signal("RING", Range(Number(count)))
    return [
        Use("ring", "BUF", [signal("RING", front)], [signal("RING", back)], Delay(Number(0), Number(0))),
        Use("gate", kind, [clock, fed_back], [signal("RING")], Delay(Number(1), Number(1))),
    ]


def haze(intervals, late, delay, fall):
    """A net of which nothing is known in the units of some intervals and that may change in all others, and a gate with
    two delays behind it."""

    def changing():  # of its own for each pin, since a name knows its place in the text
        return signal("MIST", None, Still((Interval(0, 1),)))

    still = Delay(Number(0), Number(0))
    clock = signal("LIFT", None, Clock("P", intervals, None, False))
    return [
        Use("fog", "XOR", [signal("FOG"), changing()], [signal("FOG")], late),
        Use("lift", "AND", [clock, signal("FOG")], [signal("BANK")], still),
        Use("rain", "OR", [signal("BANK"), changing()], [signal("HAZE")], still),
        Use("late", "BUF", [signal("HAZE")], [signal("LATE")], delay, fall=fall),
    ]


def islet(ticks, delay, fall):
    """A gate with two delays, in eight units of so many ticks, whose pins make a wave that is quiet in all slots and not
    the same in all: 0, but S in slot `ticks`. So it matters that its normal form comes after the two delays."""

    def clock(base, first, end):
        return signal(base, None, Clock("P", (Interval(first, end),), Bounds(0, 0), False))

    still, zero = Delay(Number(0), Number(0)), Connection([Term(Constant.ZERO)])
    swallowed = Number(ticks)  # as long as the stretch of S in HELD, so that one slot of it is left, without edges
    return [
        Use("clear", "REG_RS", [zero, zero, zero, clock("ISLE1", 1, 8)], [signal("HELD")], still),
        Use("bring", "AND", [clock("ISLE2", 3, 6), signal("FOAM", None, Still((Interval(0, 1),)))], [signal("SURF")], still),
        Use("or", "OR", [signal("HELD"), signal("SURF")], [signal("COAST")], still),
        Use("swallow", "BUF", [signal("COAST")], [signal("ROCK")], Delay(swallowed, swallowed), fall=still),
        Use("islet", "AND", [clock("ISLE3", 0, 2), signal("ROCK")], [signal("ISLET")], delay, fall=fall),
    ]


def clock_tree(spread, way, delay):
    """A clock through a buffer, whose delay is spread over some ticks, to a register and to the checker of what the register
    launches, which comes by a gate of some kind, or straight."""
    clock = signal("ROOT", None, Clock("P", (Interval(1, 2),), None, False))
    launched = signal("SENT") if way is None else signal("COME")
    uses = [
        Use("tree", "BUF", [clock], [signal("TREE")], Delay(Number(1), Number(1 + spread))),
        Use("launch", "REG", [signal("TREE"), signal("CARGO")], [signal("SENT")], Delay(Number(1), Number(2))),
    ]
    if way is not None:
        uses.append(Use("way", way, [signal("SENT"), signal("COME" if spread == 2 else "CARGO")], [signal("COME")], delay))
    return [*uses, Use("arrive", "SETUP_HOLD_CHK", [signal("TREE"), launched], [], None, [Assign("SETUP", Number(1))])]
