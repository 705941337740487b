"""Compares `run` and `judge` of the program with the model over random drawings, which are numbered.

Usage: python3 -B -m model.try_runs PROGRAM COUNT [FIRST], with checks/ as PYTHONPATH. Of each drawing a run is drawn and
judged from the printed tick of its case on: it is a run in the case, its inputs keep their assertions, and only what the
report lists in the case may break. Then the trace is spoilt in one place, some times over, and judged again. All verdicts
are those of the model. Every second drawing has the word long. One line is printed for each drawing: its number, and what came of it or FAILED and why.
"""
import multiprocessing
import os
import subprocess
import sys
import tempfile
from random import Random

from .__main__ import MOST_SECONDS, MOST_WRONG, drawing_of
from .drawing import Refused
from .faults import faults
from .report import circuit_of
from .rounds import Unsettled, default_limit, printed_tick, settle_all
from .runs import LONG_TICKS, MOST_TICKS, Verdict, judge
from .writing import write_drawing

SPOILT = 6
MOST_BITS = 40_000  # of a trace, so that the model is not slow


def verdict_of(program, words, text):
    ended = subprocess.run([program, *map(str, words)], input=text, capture_output=True, timeout=MOST_SECONDS)
    return Verdict(ended.returncode, ended.stdout.decode("latin-1"))


# --- one thing that is other than in a trace


def other_bit(lines, random):
    """One bit of a net."""
    at = random.randrange(len(lines))
    bits = len(lines[at].split(b" ")[-1])
    if lines[at].rsplit(b" ", 1)[-1].strip(b"01") == b"" and bits > 0:
        place = len(lines[at]) - 1 - random.randrange(bits)
        lines[at] = lines[at][:place] + (b"1" if lines[at][place : place + 1] == b"0" else b"0") + lines[at][place + 1 :]


def other_number(lines, random):
    """One delay, or another number of a line."""
    at = random.randrange(len(lines))
    words = lines[at].split(b" ")
    numbers = [place for place, word in enumerate(words) if word.isdigit() and len(word) < 6]
    if numbers:
        place = random.choice(numbers)
        words[place] = str(max(int(words[place]) + random.choice([-1, 1, 1, 7]), 0)).encode()
        lines[at] = b" ".join(words)


def other_line(lines, random):
    """A line that is gone, twice there, exchanged with the next one, or other by a byte."""
    at = random.randrange(len(lines))
    spoilt = random.randrange(5)
    if spoilt == 0:
        del lines[at]
    elif spoilt == 1:
        lines.insert(at, lines[at])
    elif spoilt == 2:
        lines[at : at + 2] = lines[at : at + 2][::-1]
    elif spoilt == 3:
        place = random.randrange(len(lines[at]) + 1)
        lines[at] = lines[at][:place] + random.choice([b"0", b" ", b"x", b"\r", b":"]) + lines[at][place:]
    else:
        place = random.randrange(len(lines[at]) + 1)
        lines[at] = lines[at][: max(place - 1, 0)] + lines[at][place:]


def spoil(trace, random):
    lines = trace.split(b"\n")[:-1]
    random.choice([other_bit, other_bit, other_bit, other_number, other_line])(lines, random)
    return b"".join(line + b"\n" for line in lines)


# --- one drawing


def printed(circuit):
    """Of each case its printed tick and what has a fault in it, by number; nothing if the waves do not settle."""
    try:
        settled = settle_all(circuit, default_limit(circuit))
    except Unsettled:
        return {}
    return {
        case.number: (
            printed_tick(circuit, settled.base_rounds, case.rounds),
            {str(fault.element) for fault in faults(circuit, case.waves)},
        )
        for case in settled.cases
    }


class Wrong(Exception):
    """Why an answer is wrong, and the text that was judged."""


def expect(is_so, why, text):
    if not is_so:
        raise Wrong(why, text)


class OtherDrawing(Exception):
    """What follows the trace is not the drawing: a line `END TRACE` came too early, so lines of the trace are left."""


def judged(program, trace, text, circuit, start, long):
    """The verdict of both on a trace and the text of the circuit's drawing."""

    def circuit_of_text(drawing):
        if drawing != text:
            raise OtherDrawing
        return circuit

    given = verdict_of(program, ["judge", start, *(["long"] if long else [])], trace + text)
    try:
        wanted = judge(trace + text, circuit_of_text, start, LONG_TICKS if long else MOST_TICKS)
    except OtherDrawing:
        # (no line of a trace begins a drawing)
        expect(given.status == 2, f"`judge {start}`: {given} in place of a refusal", trace + text)
        return given
    expect(given == wanted, f"`judge {start}`: {given} in place of {wanted}", trace + text)
    return given


def broken_in(verdict):
    """The name of what a verdict says is broken, or None."""
    line = verdict.text.splitlines()[2]
    return None if line == "NO BREAK" else line[len("BREAK ") : line.rindex(" TICK ")]


def try_circuit(program, circuit, text, random, long):
    """Draws a run and judges it, and then spoilt traces of it."""
    told = printed(circuit)
    number = random.choice(sorted(told)) if told else 0
    start, faulty = told.get(number, (0, None))
    longest = LONG_TICKS if long else MOST_TICKS
    most = max(min(MOST_BITS // max(len(circuit.nets), 1), longest), 1)
    ticks = random.choice([min(start + random.randrange(3 * circuit.period + 2), most), random.randint(1, min(most, 64))])
    ticks, seed = max(ticks, 1), random.getrandbits(64)
    words = ["run", ticks, seed, *([f"case={number}"] if number else []), *(["long"] if long else [])]
    drawn = verdict_of(program, words, text)
    asked = " ".join(map(str, words))
    expect(drawn.status == 0, f"`{asked}`: status {drawn.status}", text)
    trace = drawn.text.encode()
    whole = judged(program, trace, text, circuit, min(start, longest), long)
    expect(whole.text.startswith("RUN\nINTERFACE\n"), f"`{asked}`: {whole.text!r}", trace + text)
    levels = circuit.cases[number - 1] if number else {}
    for net, level in levels.items():
        held = f"\n{net} {str(level) * ticks}\n" in drawn.text
        expect(held, f"`{asked}`: {net} does not hold {level}", trace + text)
    broken = broken_in(whole)
    if faulty is not None and start <= longest:
        is_listed = broken is None or broken in faulty
        expect(is_listed, f"`{asked}`: {whole.text!r}, and it has no fault", trace + text)
    verdicts = [whole.status]
    for _ in range(SPOILT):
        spoilt = spoil(trace, random)
        verdicts.append(judged(program, spoilt, text, circuit, random.choice([0, min(start, longest)]), long).status)
    return "judged " + " ".join(map(str, sorted(set(verdicts))))


def try_refused(program, refused, text):
    """A drawing that is refused is refused with and without a trace before it."""
    line = f"REFUSED {refused.kind.value} {refused.kind.name} {refused.place.line}:{refused.place.column}\n"
    for words, given in ((["run", 3, 0], text), (["judge", 0], b"TRACE x\nEND TRACE\n" + text)):
        came = verdict_of(program, words, given)
        expect(came == Verdict(2, line), f"`{words[0]}`: {came}", given)
    return "refused"


def keep(number, text):
    folder = os.environ.get("KEPT", tempfile.gettempdir())
    os.makedirs(folder, exist_ok=True)
    path = os.path.join(folder, f"runs-{number}.text")
    with open(path, "wb") as file:
        file.write(text)
    return path


def try_drawing(program, number):
    random = Random(number)
    drawing = drawing_of(random, number)
    text = write_drawing(drawing).encode("latin-1")
    try:
        try:
            circuit = circuit_of(drawing)
        except Refused as refused:
            return f"{number} {try_refused(program, refused, text)}"
        return f"{number} {try_circuit(program, circuit, text, random, number % 2 == 1)}"
    except Wrong as wrong:
        why, given = wrong.args
        return f"{number} FAILED {why}; {keep(number, given)}"


def try_one(job):
    return try_drawing(*job)


def main():
    program, count = sys.argv[1], int(sys.argv[2])
    first = int(sys.argv[3]) if len(sys.argv) > 3 else 1
    jobs = ((program, number) for number in range(first, first + count))
    wrong = 0
    with multiprocessing.Pool() as pool:
        for line in pool.imap(try_one, jobs, chunksize=5):
            print(line)
            wrong += " FAILED " in line
            if wrong == MOST_WRONG:
                break


if __name__ == "__main__":
    main()
