"""Tries `decide` of the program over random drawings, which are numbered.

Usage: python3 -B -m model.try_decide PROGRAM COUNT [FIRST [SEEDS]], with checks/ as PYTHONPATH. Each run that shows a
fault is a run of the case by the model, its inputs keep their assertions, and it breaks the constraint of this fault at
the tick that is told and not only before the printed one. Where a fault is refuted, no run that `run` draws in the case,
for so many seeds, breaks its constraint from the tick on that is told. One line is printed for each drawing: its number,
and how many faults were shown, refuted and left open, or FAILED and why.
"""
import re
import sys
from random import Random

from .__main__ import drawing_of
from .drawing import Refused
from .report import circuit_of
from .runs import (
    LONG_TICKS,
    assertion_breaks,
    edge_breaks,
    first_failure,
    first_stray,
    hazard_breaks,
    pin_steps,
    read_trace,
    split_trace,
)
from .try_runs import Wrong, expect, keep, verdict_of
from .values import FALLS, RISES
from .writing import write_drawing

MOST_BITS = 40_000  # of a drawn run, so that the model is not slow

FAULT = re.compile(r"FAULT (\w+) (.+?) (EDGE \d+ SLOT .*|SLOT \d+ (?:VALUE|PIN) .*|(?:HIGH|LOW) FROM .*)")


def one_width(trace, instance, wires, start, is_high):
    """The breaks of the width of high pulses alone, or of low ones."""
    steps = pin_steps(trace, instance, 0, wires[0], start)
    into, out, limit = (RISES, FALLS, "HIGH") if is_high else (FALLS, RISES, "LOW")
    for begin in [tick for tick, step in steps.items() if step == into]:
        end = next((tick for tick in range(begin + 1, trace.ticks) if steps[tick] == out), None)
        if end is not None and end - begin < instance.limits.get(limit, 0):
            yield end


def breaks_of(circuit, trace, fault, start):
    """The greatest ticks of the breaks of a fault's constraint."""
    word, name, after = FAULT.fullmatch(fault).groups()
    if word == "ASSERT":
        net = next(net for net in circuit.nets if str(net) == name)
        return set(assertion_breaks(circuit, trace, net, start))
    for instance, wires in zip(circuit.instances, trace.wires):
        if str(instance) == name:
            if word == "WIDTH":
                return set(one_width(trace, instance, wires, start, after.startswith("HIGH")))
            if word == "HAZARD":
                return set(hazard_breaks(trace, instance, wires, start))
            return set(edge_breaks(trace, instance, wires, start))
    raise KeyError(fault)


def is_in_case(circuit, trace, number):
    """Whether each net of a case keeps its level."""
    levels = circuit.cases[number - 1] if number else {}
    return all(set(trace.bits[net]) <= {level} for net, level in levels.items())


def check_shown(program, circuit, text, at, case, printed, fault, verdict):
    answer = verdict_of(program, ["decide", f"trace={at}"], text)
    expect(answer.status == 0, f"trace={at}: status {answer.status}", text)
    lines, rest = split_trace(answer.text.encode())
    expect(rest == b"", f"trace={at}: more than a trace", text)
    trace = read_trace(circuit, lines, LONG_TICKS)
    expect(first_failure(circuit, trace) is None, f"trace={at}: no run", text)
    expect(first_stray(circuit, trace) is None, f"trace={at}: an input strays", text)
    expect(is_in_case(circuit, trace, case), f"trace={at}: not in case {case}", text)
    last = int(verdict.split()[2])
    expect(trace.ticks == last + 1, f"trace={at}: {trace.ticks} ticks", text)
    expect(last in breaks_of(circuit, trace, fault, printed), f"{fault}: {verdict}", text)


def check_refuted(program, circuit, text, case, fault, start, seeds):
    most = min(MOST_BITS // max(len(circuit.nets), 1), LONG_TICKS)
    ticks = min(start + 3 * circuit.period, most)
    if ticks <= start:
        return
    for seed in range(seeds):
        words = ["run", ticks, seed, *([f"case={case}"] if case else []), "long"]
        lines, _ = split_trace(verdict_of(program, words, text).text.encode())
        broken = breaks_of(circuit, read_trace(circuit, lines, LONG_TICKS), fault, start)
        expect(not broken, f"{fault}: refuted from {start}, and {' '.join(map(str, words))} breaks it at {broken}", text)


def try_circuit(program, circuit, text, seeds):
    answer = verdict_of(program, ["decide"], text)
    if answer.status > 1:
        return f"status {answer.status}"
    case = printed = at = 0
    fault, counts = None, {"SHOWN": 0, "REFUTED": 0, "OPEN": 0}
    for line in answer.text.splitlines()[:-1]:
        if line.startswith("CASE "):
            words = line.split()
            case, printed = int(words[1]), int(words[-1])
        elif line.startswith("FAULT "):
            fault, at = line, at + 1
        elif fault is not None and not line.startswith("  "):
            counts[line.split()[0]] += 1
            if line.startswith("SHOWN "):
                check_shown(program, circuit, text, at, case, printed, fault, line)
            if line.startswith("REFUTED "):
                start = int(re.match(r"REFUTED FROM (\d+) BY", line)[1])
                expect(start >= printed, f"{fault}: {line}", text)
                check_refuted(program, circuit, text, case, fault, start, seeds)
    return " ".join(f"{word} {count}" for word, count in counts.items())


def main():
    program, count = sys.argv[1], int(sys.argv[2])
    first = int(sys.argv[3]) if len(sys.argv) > 3 else 0
    seeds = int(sys.argv[4]) if len(sys.argv) > 4 else 5
    failed = 0
    for number in range(first, first + count):
        drawing = drawing_of(Random(number), number)
        text = write_drawing(drawing).encode("latin-1")
        try:
            print(number, try_circuit(program, circuit_of(drawing), text, seeds), flush=True)
        except Refused:
            print(number, "refused", flush=True)
        except Wrong as wrong:
            failed += 1
            print(number, "FAILED", wrong.args[0], keep(number, wrong.args[1]), flush=True)
    sys.exit(1 if failed else 0)


if __name__ == "__main__":
    main()
