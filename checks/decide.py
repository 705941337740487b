"""Tries `decide` of a program on the drawings of checks/decide and on the examples.

Usage: python3 checks/decide.py PROGRAM TOP SEEDS [NAME ..]

Where all faults are refuted, nothing breaks in the runs that so many seeds draw in each case.
"""
import re
import subprocess
import sys
from pathlib import Path

PROGRAM, TOP = sys.argv[1:3]
SEEDS = int(sys.argv[3])
PERIOD = 400


def run(words, text):
    answer = subprocess.run([PROGRAM] + words, input=text, capture_output=True, timeout=600)
    return answer.returncode, answer.stdout.decode()


def edge(low, high, at=None):
    """SHOWN CLOCK RISES t INPUT CHANGES u, u of t+low to t+high; t at a tick of the period."""
    def holds(line):
        found = re.fullmatch(r"SHOWN TICK (\d+) CLOCK RISES (\d+) INPUT CHANGES (\d+)", line)
        if not found:
            return False
        g, t, u = map(int, found.groups())
        return g == max(t, u) and low <= u - t <= high and (at is None or t % PERIOD == at)
    return holds


def pulse(width, level="HIGH"):
    def holds(line):
        found = re.fullmatch(rf"SHOWN TICK (\d+) {level} FROM (\d+) TO (\d+)", line)
        return bool(found) and int(found[1]) == int(found[3]) == int(found[2]) + width
    return holds


def text(pattern):
    return lambda line: bool(re.fullmatch(pattern, line))


def step(low, high):
    def holds(line):
        found = re.fullmatch(r"SHOWN TICK (\d+) LEAVES ASSERTION (\d+)", line)
        return bool(found) and found[1] == found[2] and low <= int(found[1]) % PERIOD <= high
    return holds


# what is said of the faults of the examples that have some
EXAMPLES = {
    "case_register": ["REFUTED", "REFUTED"],
    "common_clock": ["REFUTED"],
    "false_path": ["REFUTED"],
    "gated_hazard": ["SHOWN", "SHOWN"],
    "latch_loop_slow": ["SHOWN"],
    "late_path_seen": ["SHOWN"],
    "one_bit": ["SHOWN"] * 6,
    "pulse_shrinks": ["SHOWN"],
    "shut_clock": ["REFUTED"],
    "skew_hold": ["SHOWN"],
}

def late(holds, after):
    """The same of a tick past the last of a run without the word long."""
    return lambda line: holds(line) and int(line.split()[2]) > after


# name, status, the verdict of each of its faults
ROWS = [
    ("setup", 1, edge(-19, 0, 100)),
    ("false_path", 0, text(r"REFUTED FROM \d+ BY SEL<0>=0, SEL<0>=1")),
    ("common_clock", 0, text(r"REFUTED FROM \d+ BY \d+ NARROWINGS")),
    ("skews", 1, edge(-9, 5)),
    # all steps come some 80,000 ticks later
    ("slow", 1, late(edge(-19, 0, 100), 65535)),
    ("width", 1, pulse(50)),
    ("xor_itself", 0, text(r"REFUTED FROM \d+ BY WINDOW")),
    ("select_stable", 0, text(r"REFUTED FROM \d+ BY WINDOW")),
    ("covered_hazard", 0, text(r"REFUTED FROM \d+ BY WINDOW")),
    # nets that no run changes, through each kind of element, to each kind of constraint: each needs its own clauses
    ("never_changes", 0, text(r"REFUTED FROM \d+ BY WINDOW")),
    ("two_constants", 0, text(r"REFUTED FROM \d+ BY [AB]<0>=.*, .*")),
    ("assertion", 1, step(105, 110)),
    ("hazard", 1, text(r"SHOWN TICK (\d+) MARK \1 INPUT CHANGES \1")),
    ("split_delays", 0, text(r"REFUTED FROM \d+ BY \d+ NARROWINGS")),
    ("high", 1, text(r"SHOWN TICK \d+ CLOCK RISES \d+ FALLS \d+ INPUT CHANGES \d+")),
    ("kept", 0, None),
]

failures = 0


def wrong(name, what):
    global failures
    failures += 1
    print(f"{name}: {what}")


def split(report):
    """The lines of `verify faults`, the verdicts, and the last line."""
    lines = report.splitlines()
    plain, verdicts, own = [], [], []
    for line in lines[:-1]:
        if line.startswith("  "):
            own[-1].append(line)
        elif line.startswith(("SHOWN ", "REFUTED ")) or line == "OPEN":
            verdicts.append(line)
            own.append([])
        else:
            plain.append(line)
    return plain, verdicts, own, lines[-1]


def judged(name, drawing, number, printed, verdict, words=("decide",)):
    """The trace of a shown fault is a run whose inputs keep their assertions, with a break."""
    status, trace = run([*words, f"trace={number}"], drawing)
    if not verdict.startswith("SHOWN"):
        if status != 10 or trace:
            wrong(name, f"trace={number}: status {status}")
        return
    if status != 0:
        return wrong(name, f"trace={number}: status {status}")
    ticks = int(trace.split("\n", 1)[0].split()[1])
    last = int(verdict.split()[2])
    if ticks != last + 1:
        wrong(name, f"trace={number}: {ticks} ticks, and the break ends at {last}")
    status, said = run(["judge", str(printed), "long"], trace.encode() + drawing)
    if status != 1 or not said.startswith("RUN\nINTERFACE\nBREAK "):
        wrong(name, f"trace={number}: judge says {said!r}")


def whole(name, drawing):
    """The lines are those of `verify faults`, with one verdict each, and the counts are right."""
    status, report = run(["decide"], drawing)
    plain_status, plain = run(["verify", "faults"], drawing)
    if plain_status > 1:
        if (status, report) != (plain_status, plain):
            wrong(name, "another answer than verify")
        return status, [], report
    lines, verdicts, own, last = split(report)
    if lines != plain.splitlines()[:-1]:
        wrong(name, "other lines than verify faults")
    ticks, printed, place = [], 0, 0
    for line in lines:
        if line.startswith("CASE "):
            printed = int(line.split()[-1])
        if line.startswith("FAULT "):
            ticks.append(printed)
    if len(ticks) != len(verdicts):
        wrong(name, f"{len(ticks)} faults and {len(verdicts)} verdicts")
    counts = [sum(v.startswith(w) for v in verdicts) for w in ("SHOWN", "REFUTED", "OPEN")]
    want = "CLEAN" if not verdicts else "FAULTS %d SHOWN %d REFUTED %d OPEN %d" % (len(verdicts), *counts)
    if last != want:
        wrong(name, f"{last} in place of {want}")
    if status != (1 if counts[0] or counts[2] else 0):
        wrong(name, f"status {status}")
    for at, (tick, verdict) in enumerate(zip(ticks, verdicts)):
        numbers = [int(n) for n in re.findall(r"\d+", verdict)]
        if verdict.startswith("SHOWN") and min(numbers) < tick:
            wrong(name, f"{verdict}: before {tick}")
        if verdict.startswith("REFUTED") and numbers[0] < tick:
            wrong(name, f"{verdict}: before {tick}")
        judged(name, drawing, at + 1, tick, verdict)
    if run(["decide", f"trace={len(verdicts) + 1}"], drawing) != (10, ""):
        wrong(name, "a trace past the last fault")
    if verdicts and status == 0:
        unbroken(name, drawing, report)
    return status, verdicts, report


def unbroken(name, drawing, report):
    """Nothing breaks in a drawn run, in any case, from the greatest tick on that the report tells."""
    start = max(int(tick) for tick in re.findall(r"^(?:CASE .* T|REFUTED FROM) (\d+)", report, re.MULTILINE))
    nets = int(re.search(r"^NETS (\d+)", report, re.MULTILINE)[1])
    ticks = min(start + 3 * PERIOD, 4_000_000 // nets)
    for number in re.findall(r"^CASE (\d+)", report, re.MULTILINE):
        case = [f"case={number}"] if number != "0" else []
        for seed in range(SEEDS):
            words = ["run", str(ticks), str(seed)] + case + ["long"]
            status, trace = run(words, drawing)
            status, said = run(["judge", str(start), "long"], trace.encode() + drawing)
            if (status, said) != (0, "RUN\nINTERFACE\nNO BREAK\n"):
                wrong(name, f"{' '.join(words)}: judge {start} long says {said!r}")


def harder(name, drawing):
    """With more effort the traces are still those of the runs in the report."""
    words = ("decide", "effort=3")
    status, report = run(list(words), drawing)
    if status > 1:
        return
    lines, verdicts = split(report)[:2]
    printed, number = 0, 0
    for line in lines:
        if line.startswith("CASE "):
            printed = int(line.split()[-1])
        if line.startswith("FAULT "):
            number += 1
            judged(name, drawing, number, printed, verdicts[number - 1], words)


def kept(file):
    """What stands beside a drawing is what is written of it: a report in NAME.decided, the first run in NAME.trace."""
    for ending, words in ((".decided", ["decide"]), (".trace", ["decide", "trace=1"])):
        beside = file.with_suffix(ending)
        if beside.exists() and run(words, file.read_bytes())[1] != beside.read_text():
            wrong(file.stem, f"another answer than {beside.name}")


def main():
    names = sys.argv[4:]
    for name, status, holds in ROWS:
        if names and name not in names:
            continue
        with open(f"{TOP}/checks/decide/{name}.scald", "rb") as file:
            drawing = file.read()
        came, verdicts, report = whole(name, drawing)
        harder(name, drawing)
        if came != status:
            wrong(name, f"status {came} in place of {status}")
        if (holds is None) != (not verdicts) or not all(holds(v) for v in verdicts):
            wrong(name, f"verdicts {verdicts}")
    for file in sorted(Path(TOP, "examples").glob("*.scald")):
        if not names or file.stem in names:
            verdicts = [verdict.split()[0] for verdict in whole(file.stem, file.read_bytes())[1]]
            if verdicts != EXAMPLES.get(file.stem, []):
                wrong(file.stem, f"verdicts {verdicts}")
            kept(file)
    for words in (["decide", "x"], ["decide", "effort=0"], ["decide", "effort=1001"], ["decide", "trace=0"],
                  ["decide", "trace=1", "effort=2"], ["decide", "effort=01"], ["decide", "trace=4294967296"]):
        if run(words, b"")[0] != 4:
            wrong(" ".join(words), "accepted")
    if run(["decide", "effort=2", "trace=4294967295"], open(f"{TOP}/checks/decide/setup.scald", "rb").read())[0] != 10:
        wrong("trace=4294967295", "another status than 10")
    print(f"{failures} failures")
    sys.exit(1 if failures else 0)


if __name__ == "__main__":
    main()
