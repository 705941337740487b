"""What must hold of every margin, of every slack and of every chain, tried in the model alone over random drawings.

Usage: python3 -B -m model.laws COUNT [FIRST], with checks/ as PYTHONPATH. It says how many drawings settled, how many
margins, slacks and chains they have, by their ends, and which drawings break a law.
"""
import sys
from collections import Counter
from random import Random

from .__main__ import drawing_of
from .chains import chain
from .drawing import CHECKERS, Refused
from .faults import faults
from .margins import fits, greatest_value, margin_of
from .report import circuit_of
from .rounds import Unsettled, default_limit, settle_all
from .slack import is_broken, lower
from .values import is_quiet
from .writing import write_drawing


def laws_of_margin(circuit, cases, checker, parameter):
    """Where a value does not fit, no greater one does."""
    written = checker.limits[parameter]
    values = range(written, greatest_value(circuit, checker, parameter) + 1)
    all_fit = [fits(circuit, cases, checker, parameter, value) for value in values]
    if all_fit != sorted(all_fit, reverse=True):
        yield f"fitting of {parameter} of {checker}"


def laws_of_chain(circuit, fault, links, end):
    """Every link but that of LEVEL may change, only storage with set and reset has both, only an assertion fault has a
    level, and there is at most one link more than there are nets."""
    if any(is_quiet(link.value) for link in links) != (end == "LEVEL"):
        yield f"a quiet link of {fault}"
    if end == "LEVEL" and fault.kind != "ASSERT":
        yield f"a level of {fault}"
    if end == "BOTH" and circuit.drivers[links[-1].net].kind not in ("REG_RS", "LATCH_RS"):
        yield f"both of {fault}"
    if len(links) > len(circuit.nets) + 1:
        yield f"too many links of {fault}"


def is_as_margin(margin, least):
    """A slack is the margin if one more is a fault; a fault has one that is broken; and a margin up to the limit has
    no slack, or no smaller one."""
    if margin == "FAULT":
        return True
    if least is None or is_broken(least):
        return least is None and "LIMIT" in margin
    more = int(margin.split()[0])
    return least.number == more if "NEXT" in margin else least.number >= more


def laws_of_slacks(circuit, settled, seen):
    """Slacks are as the margins, and a bit or a net has a broken one exactly if it has a fault."""
    with_fault = {str(fault.element) for case in settled.cases for fault in faults(circuit, case.waves)}
    for subject, limits in lower(circuit, settled.cases):
        leasts = [limit.least for limit in limits]
        seen["slack"] += sum(least is not None for least in leasts)
        if any(least is not None and is_broken(least) for least in leasts) != (str(subject) in with_fault):
            yield f"a broken slack and no fault, or a fault and no broken slack, of {subject}"
        for limit in limits:
            if limit.word in ("SETUP", "HOLD", "HIGH", "LOW"):
                margin = margin_of(circuit, settled.cases, subject, limit.word)
                if not is_as_margin(margin, limit.least):
                    yield f"slack of {limit.word} of {subject}, which has margin {margin}"


def laws(circuit, settled, seen):
    """The laws that a circuit breaks, and in `seen` what was tried."""
    yield from laws_of_slacks(circuit, settled, seen)
    for checker in circuit.checkers:
        for parameter in CHECKERS[checker.kind].parameters:
            margin = margin_of(circuit, settled.cases, checker, parameter)
            seen["margin " + next(word for word in ("FAULT", "LIMIT", "NEXT") if word in margin)] += 1
            yield from laws_of_margin(circuit, settled.cases, checker, parameter)
    for case in settled.cases:
        for fault in faults(circuit, case.waves):
            links, end = chain(circuit, case.waves, fault)
            seen["chain " + end] += 1
            seen["link"] += len(links)
            yield from laws_of_chain(circuit, fault, links, end)


def broken_laws(number, seen):
    drawing = drawing_of(Random(number), number)
    write_drawing(drawing)
    try:
        circuit = circuit_of(drawing)
        settled = settle_all(circuit, default_limit(circuit))
    except (Refused, Unsettled):
        return []
    seen["settled"] += 1
    return list(laws(circuit, settled, seen))


def main():
    count = int(sys.argv[1])
    first = int(sys.argv[2]) if len(sys.argv) > 2 else 1
    seen = Counter()
    wrong = 0
    for number in range(first, first + count):
        for law in broken_laws(number, seen):
            print(f"{number} BROKEN {law}")
            wrong += 1
    print(*(f"{name} {times}" for name, times in sorted(seen.items())), sep="\n")
    sys.exit(1 if wrong else 0)


if __name__ == "__main__":
    main()
