#!/usr/bin/env python3
"""Runs the program over random and mutated texts and judges each answer by its form alone.

Usage: hostile_texts.py PROGRAM COUNT SEED DRAWING ..

A text is judged wrong where the program ends by a signal or takes more than 20 seconds of processor time, where
its status is none of 0 to 3, 5 and 8, where anything is written with a status above 3, or where the lines do not
go with the status. Every third text is formatted too: `format` must refuse what `verify` refuses before the
expansion and nothing else, and its answer must be given back by `format` and judged by `verify` like the text,
places aside.
"""
import os
import random
import re
import resource
import signal
import subprocess
import sys
import tempfile

REFUSED = re.compile(
    rb"REFUSED (1 BadByte|2 BadToken|3 Syntax|4 BadHeader|5 DoubleName|6 UnknownKind|7 BadName|8 AssertionClash"
    rb"|9 BadParameter|10 Overflow|11 BadRange|12 Width|13 PinCount|14 Bounds|15 TooDeep|16 TooMany|17 TwoDrivers"
    rb"|18 ZeroLoop|19 CaseNet|20 EdgesOverlap|21 ZeroDivisor|22 UnknownName) [1-9][0-9]*:[1-9][0-9]*\n"
)
EARLY = (1, 2, 3, 4, 5, 7, 20)
UNSETTLED = re.compile(rb"UNSETTLED [^\n]+<[0-9]+> ROUND [0-9]+\n")
NUMBERS = [b"0", b"1", b"2", b"63", b"64", b"65", b"255", b"256", b"257", b"399", b"400", b"4095", b"4096", b"65535",
           b"65536", b"9223372036854775807", b"9223372036854775808", b"007"]
TOKENS = [b"SCALD", b"CLOCK", b"WIRE", b"PSKEW", b"CSKEW", b"MACRO", b"DRAWING", b"CASE", b"IF", b"THEN",
          b"ELSE", b"FOR", b"TO", b"DO", b"CONST", b"FOR I = 0 TO 3 DO", b"CONST N = 1;", b"END", b"ZERO",
          b"ONE", b"x", b"H", b"BUF", b"AND", b"OR", b"XOR", b"MUX2", b"MUX4", b"MUX8", b"CHG", b"REG",
          b"LATCH", b"REG_RS", b"LATCH_RS", b"SETUP_HOLD_CHK", b"SETUP_RISE_HOLD_FALL_CHK", b"MIN_PULSE_CHK",
          b"SETUP", b"HOLD", b"HIGH", b"LOW", b"SIZE",
          b";", b":", b",", b"(", b")", b"<", b">",
          b"[", b"]", b"{", b"}", b"=", b"+", b"-", b"*", b"/", b"&", b"!", b"!H", b"->", b"--", b"\n", b"\t", b"\r",
          b'"', b'"A"', b'"CK .P2-3"', b'"CK .C2-3(5,5)"', b'"CK .P0-8L"', b'"D .S0-4,4-6"', b'"/G"', b'"Q .S"',
          b"[0:0]", b"[1:4095]", b"[1:2, 0:255]", b"[255:255, 255:255]", b"[0:0, 0:256]", b", 1:2]", b'"A"<0:255>', b'"X"<3:0>', b"!", *NUMBERS]
WORD = re.compile(rb'[A-Za-z0-9_]+|"[^"\n]*"|->|\s+|.', re.S)


def mutated(draw, texts):
    """One text: an example with a few changes, or tokens or bytes alone."""
    kind = draw.randrange(20)
    if kind == 0:
        return bytes(draw.randrange(256) for _ in range(draw.randrange(200)))
    if kind == 1:
        head = b"SCALD %d;\nCLOCK 8 x 50;\nDRAWING T;\n" % draw.choice((1, 2)) if draw.randrange(2) else b""
        return head + b" ".join(draw.choice(TOKENS) for _ in range(draw.randrange(120)))
    parts = WORD.findall(draw.choice(texts))
    for _ in range(draw.choice((1, 1, 1, 2, 3, 8))):
        at = draw.randrange(len(parts) + 1)
        end = min(len(parts), at + draw.choice((1, 1, 2, 5, 30)))
        how = draw.randrange(8)
        if how == 0:
            del parts[at:end]
        elif how == 1:
            parts[at:at] = parts[at:end]
        elif how == 2:
            parts[at:end] = [draw.choice(TOKENS)]
        elif how == 3:
            parts.insert(at, draw.choice(TOKENS))
        elif how == 4:
            other = WORD.findall(draw.choice(texts))
            begin = draw.randrange(len(other))
            parts[at:end] = other[begin : begin + draw.choice((1, 5, 40, 200))]
        elif how == 5:
            digits = [i for i, part in enumerate(parts) if part[:1].isdigit()]
            if digits:
                parts[draw.choice(digits)] = draw.choice(NUMBERS)
        elif how == 6:
            names = [i for i, part in enumerate(parts) if part[:1] == b'"']
            if len(names) > 1:
                one, other = draw.sample(names, 2)
                parts[one] = parts[other]
        else:
            text = bytearray(b"".join(parts))
            if text:
                text[draw.randrange(len(text))] = draw.randrange(256)
            parts = WORD.findall(bytes(text))
    text = b"".join(parts)
    return text[: draw.randrange(len(text) + 1)] if draw.randrange(12) == 0 else text


class Tried:
    def __init__(self, program, folder):
        self.program = program
        self.given = os.path.join(folder, "given")
        self.answer = os.path.join(folder, "answer")
        self.longest = (0.0, b"")

    def run(self, text, *words):
        """The status, or minus the signal, and what was written."""
        with open(self.given, "wb") as given:
            given.write(text)
        limit = lambda: resource.setrlimit(resource.RLIMIT_CPU, (20, 20))
        with open(self.given, "rb") as given, open(self.answer, "wb") as answer:
            child = subprocess.Popen(
                [self.program, *words], stdin=given, stdout=answer, stderr=subprocess.DEVNULL, preexec_fn=limit
            )
            _, status, used = os.wait4(child.pid, 0)
            child.returncode = status
        if used.ru_utime > self.longest[0]:
            self.longest = (used.ru_utime, text)
        with open(self.answer, "rb") as answer:
            return os.waitstatus_to_exitcode(status), answer.read()


def wrong_form(status, said):
    """Why an answer of `verify` is none that there may be, or None."""
    if status < 0:
        return f"ended by {signal.Signals(-status).name}"
    lines = said.split(b"\n")
    if status in (5, 8):
        return "something was written" if said else None
    faults = sum(line.startswith(b"FAULT ") for line in lines)
    if status in (0, 1):
        last = b"CLEAN" if status == 0 else b"FAULTS %d" % faults
        good = lines[0].startswith((b"SCALD 1 PERIOD ", b"SCALD 2 PERIOD ")) and lines[-2:] == [last, b""] and (faults > 0) == (status == 1)
        return None if good else "a report of another form"
    if status == 2:
        return None if REFUSED.fullmatch(said) else "a refusal of another form"
    if status == 3:
        return None if UNSETTLED.fullmatch(said) else "a line of another form"
    return f"status {status}"


def without_place(said):
    return said.rpartition(b" ")[0] if said.startswith(b"REFUSED ") else said


def wrong(tried, text, formatted):
    """Why the program's answers to a text are wrong, or None; and the status of `verify`."""
    status, said = tried.run(text, "verify")
    why = wrong_form(status, said)
    if why or not formatted:
        return why, status
    early = status == 2 and int(said.split()[1]) in EARLY
    form, canonical = tried.run(text, "format")
    if status in (5, 8) or form in (5, 8):
        return None, status
    # An expansion may find TooDeep as well, and then the text is formatted.
    deep = status == 2 and said.startswith(b"REFUSED 15 ")
    if early and (form, canonical) != (status, said):
        return "`format` does not refuse what `verify` refuses before the expansion", status
    if not early and not deep and form != 0:
        return "`format` refuses what `verify` expands", status
    if form == 0:
        form, twice = tried.run(canonical, "format")
        # The parentheses of a canonical text may nest too deep if those of the text do not.
        if form == 2 and twice.startswith(b"REFUSED 15 "):
            return None, status
        if (form, twice) != (0, canonical):
            return "the canonical text is not canonical", status
        again, same = tried.run(canonical, "verify")
        if again != status or without_place(same) != without_place(said):
            return "the canonical text draws something else", status
    return None, status


def main():
    program, count, seed = sys.argv[1], int(sys.argv[2]), int(sys.argv[3])
    texts = [open(name, "rb").read() for name in sys.argv[4:]]
    draw = random.Random(seed)
    seen = {}
    failed = 0
    with tempfile.TemporaryDirectory() as folder:
        tried = Tried(program, folder)
        for number in range(count):
            text = mutated(draw, texts)
            why, status = wrong(tried, text, number % 3 == 0)
            seen[status] = seen.get(status, 0) + 1
            if why:
                failed += 1
                kept = os.path.join(os.environ.get("KEPT", tempfile.gettempdir()), f"hostile-{seed}-{number}")
                with open(kept, "wb") as file:
                    file.write(text)
                print(f"FAILED text {number}: {why}; it is in {kept}", flush=True)
        answers = ", ".join(f"{seen[status]} with status {status}" for status in sorted(seen))
        print(f"random texts from seed {seed}: {count} tried, {failed} failed: {answers}; the slowest took {tried.longest[0]:.2f} s")
        if tried.longest[0] > 5:
            with open(os.path.join(os.environ.get("KEPT", tempfile.gettempdir()), f"slowest-{seed}"), "wb") as file:
                file.write(tried.longest[1])
    sys.exit(failed > 0)


main()
