"""The refusals that come before the expansion: of the header, of names, and of what is declared twice
(docs/LANGUAGE.md, "Refusals").
"""
import re

from .assertions import edges_overlap
from .drawing import CHECKERS, ELEMENTS, Clock, Name, Place, RefusalKind, Refused, Use, WireStatement
from .drawing import statements, uses

BASE = re.compile(r"/?(?=.{1,64}$)[A-Za-z0-9_#$]+( [A-Za-z0-9_#$]+)*")
GREATEST_DELAY = 4095


def check_header(header):
    """BadHeader at the first word of the first header statement with a number that is not allowed."""
    good = [
        True,
        2 <= header.period <= 4096,
        0 <= header.wire.least <= header.wire.greatest <= GREATEST_DELAY,
        max(header.skew_of_p) <= GREATEST_DELAY,
        max(header.skew_of_c) <= GREATEST_DELAY,
    ]
    if False in good:
        raise Refused(RefusalKind.BadHeader, Place(good.index(False) + 1, 1))


def connection_names(use):
    for connection in use.inputs + use.outputs:
        for term in connection.terms:
            if isinstance(term.what, Name):
                yield term.what


def body_names(body):
    for statement in statements(body):
        if isinstance(statement, WireStatement):
            yield statement.name
        elif isinstance(statement, Use):
            yield from connection_names(statement)


def names(drawing):
    """All names of the text in its order, each with whether it is a formal in the head of a macro."""
    for macro in drawing.macros:
        yield from ((formal.name, True) for formal in macro.inputs + macro.outputs)
        yield from ((name, False) for name in body_names(macro.body))
    yield from ((name, False) for name in body_names(drawing.body))
    yield from ((entry.name, False) for case in drawing.cases for entry in case.entries)


def fits(assertion, header):
    """Whether an assertion speaks of the units that the header has."""
    if assertion is None:
        return True
    if isinstance(assertion, Clock) and assertion.skew is not None and max(assertion.skew) > GREATEST_DELAY:
        return False
    return all(
        first < header.units and end <= header.units and first != end for first, end in assertion.intervals
    )


def check_name(name, is_formal, header):
    is_good = BASE.fullmatch(name.base) is not None and fits(name.assertion, header)
    if is_formal and (name.base.startswith("/") or name.assertion is not None):
        is_good = False
    if not is_good:
        raise Refused(RefusalKind.BadName, name.place)
    if isinstance(name.assertion, Clock) and name.assertion.letter == "C" and edges_overlap(name.assertion, header):
        raise Refused(RefusalKind.EdgesOverlap, name.place)


def check_once(declared, taken=()):
    """DoubleName at the first of these names and places whose name was there before."""
    seen = set(taken)
    for name, place in declared:
        if name in seen:
            raise Refused(RefusalKind.DoubleName, place)
        seen.add(name)


def check_doubles(drawing):
    check_once([(constant.word, constant.word_place) for constant in drawing.constants])
    macros = [(macro.word, macro.place) for macro in drawing.macros]
    for number, macro in enumerate(drawing.macros):
        check_once(macros[: number + 1], [*ELEMENTS, *CHECKERS])
        check_once([(parameter.word, parameter.place) for parameter in macro.parameters])
        check_once([(formal.name.base, formal.name.place) for formal in macro.inputs + macro.outputs])
        check_once([(use.label, use.place) for use in uses(macro.body)])
    check_once([(use.label, use.place) for use in uses(drawing.body)])


def check_before_expansion(drawing):
    """Nothing, or the first of these refusals."""
    check_header(drawing.header)
    for name, is_formal in names(drawing):
        check_name(name, is_formal, drawing.header)
    check_doubles(drawing)
