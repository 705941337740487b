"""Compares the program with the model over random drawings, which are numbered; each number has always the same one.

Usage: python3 -B -m model PROGRAM COUNT [FIRST [sections]], with checks/ as PYTHONPATH. With the last word the texts
are lists of sections. One line is printed for each text: its number and Clean, Faulty, Unsettled, `Refused KIND`, BadCount
or `BadSection RULE`; or, where bytes or status differ, FAILED and the names of the files that its text and both answers
are kept in, in the folder KEPT or else in the temporary one. It stops where many have failed. Of each drawing the report,
the notes, the margins, the chains, and the slacks as a table and as paragraphs are compared, and how many notes standard
error counts beside the report.
"""
import multiprocessing
import os
import subprocess
import sys
import tempfile
from random import Random

from .mending import mend
from .mistakes import blunder
from .notes import notes
from .path_drawings import make_path_drawing
from .random_drawings import make_drawing
from .random_sections import make_sections
from .report import Answer, Mode, chains, margins, slacks, verify
from .sections import joined_text, verify_sections
from .spoiling import spoil
from .writing import write_drawing

SHARE_SPOILT = 0.12
SHARE_MISTAKEN = 0.3
MOST_SECONDS = 60
MOST_WRONG = 20


def drawing_of(random, number):
    if number % 4 == 0:
        return make_path_drawing(random)
    drawing = make_drawing(random, is_large=number % 5 == 0)
    mend(drawing, random)
    if random.random() < SHARE_SPOILT:
        spoil(drawing, random)
    return drawing


def words_of(mode, rounds):
    """The words that ask for a report."""
    return ["verify", *([mode.value] if mode.value else []), *([f"rounds={rounds}"] if rounds else [])]


def answer_of(program, words, text):
    """The program's own answer, whose outcome is left open if there is one, and what standard error says."""
    try:
        ended = subprocess.run([program, *words], input=text.encode(), capture_output=True, timeout=MOST_SECONDS)
    except subprocess.TimeoutExpired:
        return Answer(-1, "", f"no answer in {MOST_SECONDS} seconds"), ""
    return Answer(ended.returncode, ended.stdout.decode("latin-1"), ""), ended.stderr.decode("latin-1")


def count_line(asked):
    """What standard error says of the notes beside a verdict, by those that there should be."""
    kinds = tuple(f"NOTE {kind} " for kind in ("PART", "NEAR", "EMPTY", "CASES"))
    lines = [line for words, wanted in asked if words == ["notes"] for line in wanted.text.splitlines()]
    count = sum(line.startswith(kinds) for line in lines)
    return f"scald: {count} note{'s' if count > 1 else ''}: scald notes\n" if count else ""


def keep(number, text, wanted, given):
    """Writes a text and both answers to files, and says where."""
    folder = os.environ.get("KEPT", tempfile.gettempdir())
    os.makedirs(folder, exist_ok=True)
    front = os.path.join(folder, f"model-{number}")
    for ending, content in ((".scald", text), (".wanted", wanted.text), (".given", given.text)):
        with open(front + ending, "w", encoding="ascii", errors="backslashreplace") as file:
            file.write(content)
    return f"{front}.scald, .wanted and .given"


def ask_drawing(number):
    """A drawing's text, and the words that are tried on it, each with the answer that there should be."""
    random = Random(number)
    drawing = drawing_of(random, number)
    other = Random(f"mistakes {number}")
    if other.random() < SHARE_MISTAKEN:
        blunder(drawing, other)
    text = write_drawing(drawing)
    mode = random.choice([Mode.WHOLE] * 4 + [Mode.WAVES, Mode.FAULTS])
    rounds = random.choice([None] * 6 + [1, 2, 3, 7, 20])
    asked = [(words_of(mode, rounds), verify(drawing, mode, rounds))]
    told = {"notes": notes, "margins": margins, "chains": chains}
    asked += (([word], answer(drawing)) for word, answer in told.items())
    for word in ("slack", "explain"):
        worst = random.choice([None, None, 1, 3, 20])
        words = [word, *([f"worst={worst}"] if worst else []), *([f"rounds={rounds}"] if rounds else [])]
        asked.append((words, slacks(drawing, word, worst, rounds)))
    return text, asked


def ask_sections(number):
    """The same of a list of sections."""
    random = Random(number)
    drawings = make_sections(random)
    return joined_text(drawings, random.random() < 0.5), [(["sections"], verify_sections(drawings))]


def try_text(program, number, ask):
    """The line of one text."""
    text, asked = ask(number)
    for words, wanted in asked:
        given, said = answer_of(program, words, text)
        if (given.status, given.text) != (wanted.status, wanted.text):
            why = "other bytes" if given.status == wanted.status else f"status {given.status} in place of {wanted.status}"
            why = given.outcome or why
            return f"{number} FAILED `{' '.join(words)}`: {why}; {keep(number, text, wanted, given)}"
        counted = "".join(line for line in said.splitlines(True) if line.endswith(": scald notes\n"))
        if words[0] == "verify" and wanted.status in (0, 1) and counted != count_line(asked):
            return f"{number} FAILED `verify`: another count of notes; {keep(number, text, wanted, given)}"
    return f"{number} {asked[0][1].outcome}"


def try_one(job):
    return try_text(*job)


def main():
    program, count = sys.argv[1], int(sys.argv[2])
    first = int(sys.argv[3]) if len(sys.argv) > 3 else 1
    ask = ask_sections if sys.argv[4:] == ["sections"] else ask_drawing
    jobs = ((program, number, ask) for number in range(first, first + count))
    wrong = 0
    with multiprocessing.Pool() as pool:
        for line in pool.imap(try_one, jobs, chunksize=10):
            print(line)
            wrong += " FAILED " in line
            if wrong == MOST_WRONG:
                break


if __name__ == "__main__":
    main()
