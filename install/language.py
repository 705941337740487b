"""What docs/LANGUAGE.md names: words, statuses, kinds, reserved words and the lines of the report. Everything that is
installed is made from this, so that no name stands in two places.
"""
import re
from typing import NamedTuple


class Row(NamedTuple):
    """Two cells of a table, or a name and what is said of it."""

    name: str
    says: str


class Kind(NamedTuple):
    word: str
    parameters: tuple
    is_checker: bool


class Command(NamedTuple):
    """A word that `scald` takes, and what may stand after it."""

    word: str
    numbers: tuple  # what has to come first, each by its letter or name
    optional: tuple  # what may come then, each a word or a choice with `|` between
    takes: str  # FILES, NETLISTS, JOINED for files that are one text, PREFIX or nothing
    says: str

    @property
    def form(self):
        """How it is asked for, without options."""
        parts = [self.word, *self.numbers, *(f"[{part}]" for part in self.optional)]
        named = {"FILES": "[FILE ..]", "NETLISTS": "[NETLIST ..]", "JOINED": "[TRACE DRAWING]"}
        parts += [named.get(self.takes, self.takes)] if self.takes else []
        return " ".join(parts)

    @property
    def choices(self):
        """The words that may come as they are."""
        said = (word for part in self.optional for word in part.split("|"))
        return tuple(word for word in said if word.islower() and "=" not in word)

    @property
    def fronts(self):
        """The fronts `NAME=` of what may come as NAME=N."""
        said = (*self.numbers, *(word for part in self.optional for word in part.split("|")))
        return tuple(word[: word.index("=") + 1] for word in said if "=" in word)


class Language(NamedTuple):
    keywords: tuple  # the reserved words and the others of the grammar, but for the constants
    constants: tuple
    kinds: tuple
    commands: tuple
    options: tuple  # Rows, of which a name may have several spellings with commas between
    statuses: tuple
    run_statuses: tuple  # those of `run`, `vcd` and `judge`
    report_lines: tuple
    report_items: tuple
    fault_lines: tuple
    installed: tuple  # Rows of places under the prefix

    @property
    def parameters(self):
        return tuple(dict.fromkeys(word for kind in self.kinds for word in kind.parameters))


def section(text, title):
    """The lines under a heading, up to the next."""
    found = re.search(rf"^## {re.escape(title)}\n(.*?)(?=^## |\Z)", text, re.M | re.S)
    if found is None:
        raise SystemExit(f"docs/LANGUAGE.md has no section {title}")
    return found[1]


def table(text, first_head):
    """The rows of the table whose first column has this head; a `|` in a cell is written `\\|`."""
    found = re.search(rf"^\| {re.escape(first_head)} \|.*\n\|[-|]+\|\n((?:\|.*\n)+)", text, re.M)
    if found is None:
        raise SystemExit(f"docs/LANGUAGE.md has no table with the head {first_head}")
    rows = (re.split(r"(?<!\\)\|", line.strip()[1:-1]) for line in found[1].splitlines())
    return [[cell.strip().replace("\\|", "|") for cell in row] for row in rows]


def code_block(text):
    """The first indented part that follows a line of another kind."""
    return re.search(r"(?:^    .*\n)+", text, re.M)[0]


def spelled(cell):
    """What a cell has between backquotes."""
    return re.findall(r"`([^`]+)`", cell)


def kinds_of(text):
    kinds = []
    for names, _inputs, parameters, output in table(section(text, "Primitives"), "Kind"):
        for name in names.split(", "):
            kinds.append(Kind(name, tuple(filter(None, parameters.split(", "))), output == "none"))
    return tuple(kinds)


def constants_of(text):
    """The capital words with which a term may stand."""
    term = re.search(r"^    term +=(.*)$", section(text, "Grammar"), re.M)[1]
    return tuple(re.findall(r"\b[A-Z]{2,}\b", term))


def keywords_of(text):
    """The capital words of the grammar, which have to have the reserved words among them, without the constants."""
    grammar = section(text, "Grammar")
    capital = dict.fromkeys(re.findall(r"\b[A-Z]{2,}\b", code_block(grammar)))
    reserved = re.search(r"These words are reserved and [^:]*: ([A-Z, ]+)\.", grammar)[1].split(", ")
    if not set(reserved) <= set(capital):
        raise SystemExit("docs/LANGUAGE.md reserves words that its grammar has not")
    return tuple(word for word in capital if word not in constants_of(text))


def taking_files(words, commands):
    """The words that the names of files may follow, each with how these are taken."""
    alone = spelled(re.search(r"after those of each command but (\S*) it takes file names", words)[1])
    joined = spelled(re.search(r"The files of (\S*), a trace", words)[1])
    apart = {spelled(forms)[0].split()[0] for forms, _ in commands} - set(alone)
    return {word: "FILES" for word in apart} | {"import": "NETLISTS"} | {word: "JOINED" for word in joined}


def command_of(forms, says, with_files):
    form = spelled(forms)[0].split()
    rest = [part for part in form[1:] if not part.startswith("[")]
    return Command(
        word=form[0],
        numbers=tuple(part for part in rest if part != "PREFIX"),
        optional=tuple(part[1:-1] for part in form[1:] if part.startswith("[")),
        takes="PREFIX" if "PREFIX" in rest else with_files.get(form[0], ""),
        says=says,
    )


def read_language(text):
    words = section(text, "Words and statuses")
    report = section(text, "The report")
    own = table(words, "Words of `./scald`")
    programs = table(words, "Words")
    commands = programs + [row for row in own if not row[0].startswith("`-")]
    with_files = taking_files(words, programs)
    bullets = re.findall(r"^- (.*)$", report, re.M)
    blocks = re.findall(r"(?:^    .*\n)+", report, re.M)
    return Language(
        keywords=keywords_of(text),
        constants=constants_of(text),
        kinds=kinds_of(text),
        commands=tuple(command_of(*row, with_files) for row in commands),
        options=tuple(Row(", ".join(spelled(row[0])), row[1]) for row in own if row[0].startswith("`-")),
        statuses=tuple(Row(*row) for row in table(words, "Status")),
        run_statuses=tuple(Row(*row) for row in table(section(text, "Runs"), "Status of `run`, `vcd` and `judge`")),
        report_lines=tuple(next(block for block in blocks if "SCALD v" in block).replace("    ", "").splitlines()),
        report_items=tuple(bullets),
        fault_lines=tuple(Row(spelled(row[0])[0], row[1]) for row in table(report, "Line")),
        installed=tuple(
            Row(spelled(place)[0], says) for place, says in table(section(text, "Installing"), "Under PREFIX")
        ),
    )
