"""The expansion of a drawing to a circuit, statement by statement, or its refusal
(docs/LANGUAGE.md, "Nets", "Primitives", "Macros" and "Refusals"). The order of the tests is that of the refusals.
"""
from typing import NamedTuple

from .assertions import spelling
from .circuit import Bit, Circuit, Instance, Net, Split, Spread
from .drawing import (
    CHECKERS, ELEMENTS, MARKED_KINDS, SPLIT_KINDS, Binary, Constant, For, If, Minus, Number, Parameter, RefusalKind, Refused,
    WireStatement,
)
from .names import GREATEST_DELAY
from .waves import Bounds

GREATEST_SPLIT = 255  # of each of two delays
GREATEST_BIT = 65535
WIDEST = 256
DEEPEST = 64
# the selects of a kind that has more than one
SELECTS = {"MUX4": 2, "MUX8": 3}


class Scope(NamedTuple):
    """Where statements are expanded."""

    path: str
    turns: str  # what follows each label, for the FORs around it
    parameters: dict  # and constants and variables: of each name the value that counts here
    formals: dict  # of each, the outer bits by their numbers, in the order of its declaration
    depth: int


# --- expressions


def in_64_bits(value, place):
    if not -(2**63) <= value < 2**63:
        raise Refused(RefusalKind.Overflow, place)
    return value


def divided(left, right, place):
    """The quotient, towards zero."""
    if right == 0:
        raise Refused(RefusalKind.ZeroDivisor, place)
    quotient = abs(left) // abs(right)
    return quotient if (left < 0) == (right < 0) else -quotient


def value_of(expression, parameters, place):
    if isinstance(expression, Number):
        return expression.value
    if isinstance(expression, Parameter):
        if expression.word not in parameters:
            raise Refused(RefusalKind.UnknownName, place)
        return parameters[expression.word]
    if isinstance(expression, Minus):
        return in_64_bits(-value_of(expression.operand, parameters, place), place)
    assert isinstance(expression, Binary)
    left = value_of(expression.left, parameters, place)
    right = value_of(expression.right, parameters, place)
    if expression.operator == "/":
        return in_64_bits(divided(left, right, place), place)
    result = {
        "+": left + right, "-": left - right, "*": left * right,
        "=": left == right, "!=": left != right,
        "<": left < right, "<=": left <= right, ">": left > right, ">=": left >= right,
    }
    return in_64_bits(int(result[expression.operator]), place)


def delay_of(delay, parameters, place):
    return Bounds(value_of(delay.least, parameters, place), value_of(delay.greatest, parameters, place))


def check_delay(delay, place, greatest=GREATEST_DELAY):
    if not 0 <= delay.least <= delay.greatest <= greatest:
        raise Refused(RefusalKind.Bounds, place)


def delays_of(use, parameters):
    """The delay of a use, and both if there are two. All four expressions come before any of the bounds."""
    place = use.place
    if use.delay is None:
        return Bounds(0, 0), None
    delay = delay_of(use.delay, parameters, place)
    if use.fall is None:
        return delay, None
    split = Split(delay, delay_of(use.fall, parameters, place))
    return split.either, split


def check_delays(delay, split, place):
    if split is None:
        check_delay(delay, place)
    else:
        check_delay(split.rise, place, GREATEST_SPLIT)
        check_delay(split.fall, place, GREATEST_SPLIT)


def ends_of(bits, parameters, place):
    """The first and the last number of a range."""
    first = value_of(bits.first, parameters, place)
    return (first, first if bits.last is None else value_of(bits.last, parameters, place))


def numbers_between(ends, place):
    """The numbers from the one to the other, up or down."""
    first, last = ends
    if min(ends) < 0 or max(ends) > GREATEST_BIT or abs(first - last) + 1 > WIDEST:
        raise Refused(RefusalKind.BadRange, place)
    return list(range(first, last + 1)) if first <= last else list(range(first, last - 1, -1))


def numbers_of(bits, parameters, place):
    """The numbers of a range; None if there is none."""
    return None if bits is None else numbers_between(ends_of(bits, parameters, place), place)


# --- names and connections


class Expansion:
    """A circuit in the making."""

    def __init__(self, drawing):
        self.version = drawing.version
        self.constants = constants_of(drawing)
        self.macros = {macro.word: macro for macro in drawing.macros}
        self.circuit = Circuit(drawing.header)

    def net(self, scope, name, number, place):
        """A net by its name in a scope; it is there from its first use on."""
        full = name.base if name.base.startswith("/") else scope.path + name.base
        asserted = self.circuit.assertions
        if name.assertion is not None:
            if full in asserted and spelling(asserted[full]) != spelling(name.assertion):
                raise Refused(RefusalKind.AssertionClash, place)
            asserted[full] = name.assertion
        net = Net(full, number)
        if net not in self.circuit.nets:
            self.circuit.nets.append(net)
        return net

    def formal_bits(self, formal, name, numbers, place):
        """Bits of a formal, which are outer bits."""
        if numbers is not None and not all(number in formal for number in numbers):
            raise Refused(RefusalKind.BadRange, place)
        if name.assertion is not None:
            raise Refused(RefusalKind.AssertionClash, place)
        return list(formal.values()) if numbers is None else [formal[number] for number in numbers]

    def named_bits(self, scope, name, numbers, place):
        """The bits that a name means in a scope, those with these numbers or, without numbers, all."""
        if name.base in scope.formals:
            return self.formal_bits(scope.formals[name.base], name, numbers, place)
        return [Bit(self.net(scope, name, number, place), False) for number in (numbers or [0])]

    def term_bits(self, scope, term, place):
        if isinstance(term.what, Constant):
            bits = [Bit(term.what, False)]
        else:
            bits = self.named_bits(scope, term.what, numbers_of(term.range, scope.parameters, place), place)
        return [bit.complemented_if(term.is_complemented) for bit in bits]

    def connection_bits(self, scope, connection, place):
        bits = [bit for term in connection.terms for bit in self.term_bits(scope, term, place)]
        if len(bits) > WIDEST:
            raise Refused(RefusalKind.Width, place)
        return bits

    def note_spread(self, scope, connection, width):
        """Keeps the name of a connection whose one bit is spread over more, if it is a name alone and no formal."""
        term = connection.terms[0]
        if width == 1 or len(connection.terms) > 1 or isinstance(term.what, Constant) or term.range is not None:
            return
        base = term.what.base
        if base not in scope.formals:
            full = base if base.startswith("/") else scope.path + base
            self.circuit.spreads.append(Spread(connection.place, full, width))

    # --- statements

    def expand_body(self, scope, body):
        for statement in body:
            if isinstance(statement, If):
                self.expand_if(scope, statement)
            elif isinstance(statement, For):
                self.expand_for(scope, statement)
            elif isinstance(statement, WireStatement):
                self.expand_wire(scope, statement)
            else:
                self.expand_use(scope, statement)

    def expand_if(self, scope, choice):
        is_true = value_of(choice.test, scope.parameters, choice.place) != 0
        self.expand_body(scope, choice.then if is_true else choice.otherwise or [])

    def expand_for(self, scope, loop):
        """The body for each value. Its nets are those of the scope around."""
        first = value_of(loop.first, scope.parameters, loop.place)
        last = value_of(loop.last, scope.parameters, loop.place)
        has_turn = self.circuit.loops.get(loop.place, False)
        self.circuit.loops[loop.place] = has_turn or first <= last
        for value in range(first, last + 1):
            inner = scope._replace(
                turns=f"{scope.turns}#{value}", parameters={**scope.parameters, loop.word: value}
            )
            self.expand_body(inner, loop.body)

    def expand_wire(self, scope, wire):
        """All expressions come first, and the bounds last."""
        ends = None if wire.range is None else ends_of(wire.range, scope.parameters, wire.place)
        delay = delay_of(wire.delay, scope.parameters, wire.place)
        numbers = None if ends is None else numbers_between(ends, wire.place)
        bits = self.named_bits(scope, wire.name, numbers, wire.place)
        check_delay(delay, wire.place)
        for bit in bits:
            if isinstance(bit.on, Net):
                self.circuit.wires[bit.on] = delay

    def expand_use(self, scope, use):
        self.check_kind(use)
        delay, split, given = self.values_of_use(scope, use)
        self.check_connections(use)
        if use.kind in self.macros:
            self.expand_macro(scope, use, given)
        else:
            self.expand_primitive(scope, use, delay, split, given)

    def check_kind(self, use):
        """The kind, whether a delay or two may be there, and the parameters."""
        if use.kind not in ELEMENTS and use.kind not in CHECKERS and use.kind not in self.macros:
            raise Refused(RefusalKind.UnknownKind, use.place)
        if (use.delay is not None) != (use.kind in ELEMENTS) or (use.fall is not None and use.kind not in SPLIT_KINDS):
            raise Refused(RefusalKind.Bounds, use.place)
        words = [parameter.word for parameter in use.parameters]
        if len(set(words)) < len(words) or not set(words) <= set(self.parameters_of(use.kind)):
            raise Refused(RefusalKind.BadParameter, use.place)

    def parameters_of(self, kind):
        if kind in CHECKERS:
            return CHECKERS[kind].parameters
        return [parameter.word for parameter in self.macros[kind].parameters] if kind in self.macros else []

    def values_of_use(self, scope, use):
        """The delays and the given parameters, or the limits of a checker, in which what is not given is 0."""
        place = use.place
        delay, split = delays_of(use, scope.parameters)
        given = {parameter.word: value_of(parameter.value, scope.parameters, place) for parameter in use.parameters}
        check_delays(delay, split, place)
        if use.kind in CHECKERS:
            given = {word: given.get(word, 0) for word in CHECKERS[use.kind].parameters}
            asked = max(given.values()) if use.kind == "MIN_PULSE_CHK" else sum(given.values())
            if min(given.values()) < 0 or asked > self.circuit.period:
                raise Refused(RefusalKind.Bounds, place)
        return delay, split, given

    def check_connections(self, use):
        """How many there are, and that at most one input of an AND or OR is marked and nothing else."""
        inputs, outputs = len(use.inputs), len(use.outputs)
        if use.kind in ELEMENTS:
            is_good = ELEMENTS[use.kind].fewest <= inputs <= ELEMENTS[use.kind].most and outputs == 1
        elif use.kind in CHECKERS:
            is_good = inputs == CHECKERS[use.kind].inputs and outputs == 0
        else:
            macro = self.macros[use.kind]
            is_good = inputs == len(macro.inputs) and outputs == len(macro.outputs)
        marks = sum(connection.is_marked for connection in use.inputs)
        is_good &= marks <= (1 if use.kind in MARKED_KINDS else 0)
        is_good &= not any(connection.is_marked for connection in use.outputs)
        if not is_good:
            raise Refused(RefusalKind.PinCount, use.place)

    # --- macros

    def expand_macro(self, scope, use, given):
        macro = self.macros[use.kind]
        if scope.depth == DEEPEST:
            raise Refused(RefusalKind.TooDeep, use.place)
        parameters = {
            parameter.word: given[parameter.word]
            if parameter.word in given
            else value_of(parameter.value, self.constants, use.place)
            for parameter in macro.parameters
        }
        parameters = {**self.constants, **parameters}
        heads = macro.inputs + macro.outputs
        shapes = [numbers_of(formal.range, parameters, use.place) or [0] for formal in heads]
        connections = [self.connection_bits(scope, connection, use.place) for connection in use.inputs + use.outputs]
        formals = {}
        for number, (formal, shape, bits) in enumerate(zip(heads, shapes, connections)):
            is_input = number < len(macro.inputs)
            if is_input and len(bits) == 1:
                self.note_spread(scope, use.inputs[number], len(shape))
                bits = bits * len(shape)
            if len(bits) != len(shape):
                raise Refused(RefusalKind.Width, use.place)
            formals[formal.name.base] = dict(zip(shape, bits))
        path = f"{scope.path}{use.label}{scope.turns}/"
        self.expand_body(Scope(path, "", parameters, formals, scope.depth + 1), macro.body)

    # --- primitives

    def in_order_of_pins(self, kind, inputs):
        """Pins have the most significant select first; version 2 writes the least significant first."""
        count = SELECTS.get(kind, 0) if self.version == 2 else 0
        return inputs[:count][::-1] + inputs[count:]

    def expand_primitive(self, scope, use, delay, split, limits):
        connections = [self.connection_bits(scope, connection, use.place) for connection in use.inputs + use.outputs]
        width = max(len(bits) for bits in (connections[-1:] if use.kind in ELEMENTS else connections))
        inputs = self.in_order_of_pins(use.kind, connections[: len(use.inputs)])
        outputs = connections[len(use.inputs) :]
        if use.kind != "CHG" and any(len(bits) not in (1, width) for bits in connections):
            raise Refused(RefusalKind.Width, use.place)
        if use.kind != "CHG":
            for connection, bits in zip(use.inputs, connections):
                if len(bits) == 1:
                    self.note_spread(scope, connection, width)
        marks = [connection.is_marked for connection in use.inputs]
        for number in range(width):
            if use.kind == "CHG":
                pins = [bit for bits in inputs for bit in bits]
            else:
                pins = [bits[number] if len(bits) > 1 else bits[0] for bits in inputs]
            self.circuit.instances.append(
                Instance(
                    name=scope.path + use.label + scope.turns,
                    bit=number,
                    kind=use.kind,
                    pins=pins,
                    marked=marks.index(True) if True in marks else None,
                    output=outputs[0][number] if outputs else None,
                    delay=delay,
                    split=split,
                    limits=limits,
                    place=use.place,
                )
            )


def constants_of(drawing):
    """The constants with their values, each by those before it."""
    values = {}
    for constant in drawing.constants:
        values[constant.word] = value_of(constant.value, values, constant.place)
    return values


def expand(drawing):
    """The circuit of a drawing, before the circuit's own rules."""
    expansion = Expansion(drawing)
    expansion.expand_body(Scope("", "", expansion.constants, {}, 0), drawing.body)
    return expansion.circuit
