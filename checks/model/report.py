"""The answers of `verify`, `margins`, `chains`, `slack` and `explain` (docs/LANGUAGE.md, "The report" and "Words and statuses")."""
from enum import Enum
from itertools import groupby
from typing import NamedTuple

from .chains import chain_lines
from .drawing import Refused
from .expansion import expand
from .faults import faults
from .margins import margin_lines
from .names import check_before_expansion
from .rounds import Unsettled, default_limit, printed_tick, settle_all
from .rules import keep_rules
from .slack import slack_lines
from .spots import spots_in


class Mode(Enum):
    """What is shown of a report, by the word that asks for it."""

    WHOLE = ""
    WAVES = "waves"
    FAULTS = "faults"


class Answer(NamedTuple):
    """The status, what is written, and in a word what it is."""

    status: int
    text: str
    outcome: str


def circuit_of(drawing):
    check_before_expansion(drawing)
    circuit = expand(drawing)
    keep_rules(circuit, drawing)
    return circuit


def head_lines(circuit, version):
    nets, elements, checkers = len(circuit.nets), len(circuit.elements), len(circuit.checkers)
    yield f"SCALD {version} PERIOD {circuit.period}"
    yield f"NETS {nets} INSTANCES {elements} CHECKS {checkers}"
    for net in circuit.in_name_order():
        if net not in circuit.drivers and circuit.assertion(net) is None:
            yield f"STABLE {net}"


def wave_line(net, wave):
    stretches = " ".join(f"{value}:{len(list(slots))}" for value, slots in groupby(wave.slots))
    return f"WAVE {net} SKEW {wave.skew} {stretches}"


def lines_of(circuit, version, settled, mode):
    """The lines of a report up to its last, and how many faults there are."""
    lines = list(head_lines(circuit, version))
    count = 0
    for case in settled.cases:
        tick = printed_tick(circuit, settled.base_rounds, case.rounds)
        lines.append(f"CASE {case.number} BASE {settled.base_rounds} ROUNDS {case.rounds} T {tick}")
        if mode != Mode.FAULTS:
            lines += [wave_line(net, case.waves[net]) for net in circuit.in_name_order()]
        found = faults(circuit, case.waves)
        count += len(found)
        if mode != Mode.WAVES:
            lines += map(str, found)
    return lines, count


def last_line(count):
    return f"FAULTS {count}" if count else "CLEAN"


def refusal_line(refused):
    kind, place = refused.kind, refused.place
    return f"REFUSED {kind.value} {kind.name} {place.line}:{place.column}"


def unsettled_line(unsettled):
    return f"UNSETTLED {unsettled.net} ROUND {unsettled.limit}"


def answer_of_lines(status, lines, outcome):
    return Answer(status, "".join(f"{line}\n" for line in lines), outcome)


def report(circuit, version, settled, mode):
    """The lines of a report, and how many faults there are."""
    lines, count = lines_of(circuit, version, settled, mode)
    return [*lines, last_line(count)], count


def answer(drawing, rounds, told):
    """The answer on a drawing whose text is written, with another limit of rounds if one is given: what is told of
    the settled circuit, lines and a number of faults if faults are looked for; or why there is none."""
    try:
        circuit = circuit_of(drawing)
        settled = settle_all(circuit, default_limit(circuit) if rounds is None else rounds)
    except Refused as refused:
        return answer_of_lines(2, [refusal_line(refused)], f"Refused {refused.kind.name}")
    except Unsettled as unsettled:
        return answer_of_lines(3, [unsettled_line(unsettled)], "Unsettled")
    lines, count = told(circuit, settled)
    outcome = "Done" if count is None else "Faulty" if count else "Clean"
    return answer_of_lines(1 if count else 0, lines, outcome)


def verify(drawing, mode=Mode.WHOLE, rounds=None):
    return answer(drawing, rounds, lambda circuit, settled: report(circuit, drawing.version, settled, mode))


def margins(drawing):
    return answer(drawing, None, lambda circuit, settled: (margin_lines(circuit, drawing.version, settled), None))


def chains(drawing):
    return answer(drawing, None, lambda circuit, settled: chain_lines(circuit, drawing.version, settled))


def slacks(drawing, wanted, worst=None, rounds=None):
    """The answer of `slack` or of `explain`."""
    return answer(
        drawing,
        rounds,
        lambda circuit, settled: slack_lines(drawing, circuit, settled, spots_in(drawing, circuit), wanted, worst),
    )
