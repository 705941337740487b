"""Spoils drawings: one change for each refusal that random drawings seldom have."""
from copy import deepcopy

from .drawing import (
    ELEMENTS, SPLIT_KINDS, Assign, Binary, Clock, Connection, Const, Delay, For, If, Interval, Minus, Name, Number, Parameter, Range,
    Still, Term, Use, WireStatement, bodies, statements, uses,
)
from .names import names
from .patterns import chain_macro, signal
from .waves import Bounds

GREATEST_NUMBER = 2**63 - 1


def some_use(drawing, random, kinds=None):
    """A use, of one of these kinds if any are named; or None if there is none."""
    found = [use for body in bodies(drawing) for use in uses(body) if kinds is None or use.kind in kinds]
    return random.choice(found) if found else None


# --- header, names and declarations


def bad_header(drawing, random):
    bad = [("ticks_per_unit", 0), ("units", 4097), ("wire", Bounds(2, 1)), ("wire", Bounds(0, 4096))]
    bad += [("skew_of_p", Bounds(0, 4096)), ("skew_of_c", Bounds(4096, 0))]
    setattr(drawing.header, *random.choice(bad))


def bad_name(drawing, random):
    """A base that is not spelled so, an interval that is not within the units, or a skew that is too long."""
    found = [name for name, _ in names(drawing)]
    if found:
        name = random.choice(found)
        units = drawing.header.units
        if random.random() < 0.4:
            name.base = random.choice([" A", "A ", "A  B", "A.B", "//A", "", "A" * 65])
        elif random.random() < 0.2:
            skew = Bounds(*random.choice([(4096, 0), (0, 4096)]))
            name.assertion = Clock("P", (Interval(0, 1),), skew, False)
        else:
            interval = Interval(*random.choice([(0, units + 1), (units, 1), (1, 1)]))
            name.assertion = random.choice([Still((interval,)), Clock(random.choice("PC"), (interval,), None, False)])


def overlapping_edges(drawing, random):
    found = [name for name, _ in names(drawing)]
    if found:
        skew = Bounds(*random.choice([(drawing.header.period, 0), (0, drawing.header.period), (4095, 4095)]))
        random.choice(found).assertion = Clock("C", (Interval(0, 1),), skew, False)


def asserted_formal(drawing, random):
    found = [name for name, is_formal in names(drawing) if is_formal]
    if found:
        name = random.choice(found)
        name.base = random.choice([name.base, "/" + name.base])
        name.assertion = random.choice([None, Clock("P", (Interval(0, 1),), None, False)])


def double_label(drawing, random):
    use = some_use(drawing, random)
    other = some_use(drawing, random)
    if use is not None:
        use.label = other.label


def double_declaration(drawing, random):
    """A macro, a parameter or a formal a second time; or an input as an output too."""
    if drawing.macros:
        macro = random.choice(drawing.macros)
        lists = [(drawing.macros, drawing.macros), (macro.parameters, macro.parameters)]
        lists += [(macro.inputs, macro.inputs), (macro.inputs, macro.outputs)]
        declared, again = random.choice(lists)
        if declared:
            again.append(deepcopy(random.choice(declared)))


def default_of_a_parameter(drawing, random):
    """A default is computed without any parameter, so another's name is not there if the use gives it."""
    found = [macro for macro in drawing.macros if macro.parameters]
    if found:
        macro = random.choice(found)
        other = macro.parameters[0].word
        macro.parameters.append(Assign("M_3", Binary("+", Parameter(other), Number(1))))
        for body in bodies(drawing):
            for use in uses(body):
                if use.kind == macro.word and not any(parameter.word == other for parameter in use.parameters):
                    use.parameters.append(Assign(other, Number(2)))


def bad_constant(drawing, random):
    """A constant that has no value, that names itself or a later one, or that is there twice. Only version 2 has any."""
    if drawing.version == 2:
        place = random.randrange(len(drawing.constants) + 1)
        later = drawing.constants[-1].word if drawing.constants else "K_9"
        value = random.choice([bad_expression(random), Parameter("K_9"), Parameter(later)])
        word = random.choice(["K_9", "K_9", later])
        drawing.constants.insert(place, Const(word, value))


def macro_named_like_a_primitive(drawing, random):
    if drawing.macros:
        random.choice(drawing.macros).word = random.choice(["BUF", "MIN_PULSE_CHK"])


def bad_entry(drawing, random):
    """An entry of a case that is not allowed: its name, its bit or its level, or that it is there twice."""
    if drawing.cases:
        case = random.choice(drawing.cases)
        entry = random.choice(case.entries)
        spoilt = random.randrange(4)
        if spoilt == 0:
            entry.name.assertion = Still(())
        elif spoilt == 1:
            entry.bit = random.choice([9, 65536, 2**32])
        elif spoilt == 2:
            entry.level = random.choice([2, 2**32])
        else:
            case.entries.append(deepcopy(entry))


# --- uses


def unknown_kind(drawing, random):
    use = some_use(drawing, random)
    if use is not None:
        use.kind += "X"


def other_delay(drawing, random):
    use = some_use(drawing, random)
    if use is not None:
        use.delay = None if use.delay is not None else Delay(Number(0), Number(0))
        use.fall = None


def two_delays(drawing, random):
    """Two delays, of a kind that may have two or of another one. The bounds are right at the edge, or those of one are past
    it, or an expression or two have a fault."""
    use = some_use(drawing, random, random.choice([SPLIT_KINDS, SPLIT_KINDS, ELEMENTS.keys() - SPLIT_KINDS, None]))
    if use is not None:
        good = [(0, 0), (0, 255), (255, 255)]
        bad = [(0, 256), (256, 256), (3, 2), (-1, 0), (300, 200)]
        bounds = random.sample([random.choice(good), random.choice(good + bad)], 2)
        written = [Number(end) if end >= 0 else Minus(Number(-end)) for end in bounds[0] + bounds[1]]
        if random.random() < 0.3:
            for number in random.sample(range(4), random.choice([1, 2])):
                written[number] = bad_expression(random)
        use.delay, use.fall = Delay(*written[:2]), Delay(*written[2:])


def bad_parameter(drawing, random):
    use = some_use(drawing, random)
    if use is not None:
        use.parameters.append(Assign("W", Number(1)))
        use.parameters.append(deepcopy(random.choice(use.parameters)))


def bad_expression(random):
    """An expression with a fault in it, or right at the edge of one."""
    low = Binary("-", Minus(Number(GREATEST_NUMBER)), Number(1))
    return random.choice(
        [
            Binary("+", Number(GREATEST_NUMBER), Number(1)),
            Binary("*", Number(2**62), Number(2)),
            Binary("/", low, Minus(Number(1))),
            Binary("-", low, low),
            Minus(low),
            low,
            Binary("/", Number(1), Number(0)),
            Binary("=", Parameter("NO"), Number(0)),
        ]
    )


def spoilt_expression(drawing, random):
    """Puts such an expression in place of one."""
    found = [statement for body in bodies(drawing) for statement in statements(body)]
    if not found:
        return
    statement = random.choice(found)
    expression = bad_expression(random)
    if isinstance(statement, If):
        statement.test = expression
    elif isinstance(statement, For):
        setattr(statement, random.choice(["first", "last"]), random.choice([expression, Parameter(statement.word)]))
    elif isinstance(statement, WireStatement):
        statement.delay = Delay(expression, Number(0))
    elif statement.parameters and random.random() < 0.5:
        random.choice(statement.parameters).value = expression
    elif statement.delay is not None and random.random() < 0.5:
        statement.delay = Delay(Number(0), expression)
    elif statement.inputs:
        term = random.choice(random.choice(statement.inputs).terms)
        term.range = Range(expression) if isinstance(term.what, Name) else None


def bad_range(drawing, random):
    use = some_use(drawing, random)
    if use is not None:
        term = random.choice(random.choice(use.inputs).terms)
        if isinstance(term.what, Name):
            first, last = random.choice([(-1, 0), (65535, 65536), (0, 256), (256, 0), (65280, 65535), (3, 900)])
            term.range = Range(Number(first) if first >= 0 else Minus(Number(-first)), Number(last))


def other_connections(drawing, random):
    """One connection more or fewer, a mark more, or a term more."""
    use = some_use(drawing, random)
    if use is None:
        return
    term = Term(Name("A"))
    spoilt = random.randrange(5)
    if spoilt == 0:
        use.inputs.append(Connection([term]))
    elif spoilt == 1:
        use.inputs.pop()
    elif spoilt == 2:
        random.choice(use.inputs + use.outputs).is_marked = True
    elif spoilt == 3:
        random.choice(use.inputs + use.outputs).terms.append(term)
    else:
        random.choice(use.inputs).terms = [Term(Name("A"), Range(Number(0), Number(255))), term]


def deep_use(drawing, random):
    """A macro that uses itself as deep as may be, or deeper."""
    drawing.macros.append(chain_macro())
    depth = Assign("N", Number(random.choice([3, 63, 64, 64, 65, 65])))
    drawing.body.append(Use("deep", "CHAIN", [signal("E")], [signal("DEEP")], None, [depth]))


def second_driver(drawing, random):
    """A use a second time, with a label of its own."""
    use = some_use(drawing, random)
    if use is not None:
        again = deepcopy(use)
        again.label = "again"
        random.choice(bodies(drawing)).append(again)


SPOILS = [
    bad_header, bad_name, bad_name, overlapping_edges, asserted_formal, double_label, double_declaration,
    default_of_a_parameter, macro_named_like_a_primitive, unknown_kind, other_delay, two_delays, two_delays, two_delays,
    bad_parameter, spoilt_expression, spoilt_expression, bad_range, bad_range, other_connections, other_connections,
    deep_use, second_driver, bad_entry, bad_entry, bad_constant, bad_constant,
]


def spoil(drawing, random):
    """Changes one thing, if the drawing has such a thing."""
    random.choice(SPOILS)(drawing, random)
