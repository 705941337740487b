"""The page scald(1), for `man`: what the tables of docs/LANGUAGE.md say, and one drawing with its report."""
import re
from datetime import date


def escaped(text):
    """Text as it stands, whatever it has that means something to the formatter."""
    text = text.replace("\\", "\\e").replace("-", "\\-")
    return f"\\&{text}" if text.startswith((".", "'")) else text


def marked(text):
    """A sentence of the documents: what it has between backquotes is bold, and between stars italic."""
    parts = re.split(r"(`[^`]+`|\*[^*]+\*)", text.replace("`./scald", "`scald"))
    fonts = {"`": "\\fB", "*": "\\fI"}
    return "".join(
        f"{fonts[part[0]]}{escaped(part[1:-1])}\\fR" if len(part) > 2 and part[0] in fonts else escaped(part)
        for part in parts
    )


def sentence(text):
    """With a capital and a full stop."""
    text = marked(text if text.startswith("`") else text[0].upper() + text[1:])
    return text if text.endswith(".") else f"{text}."


def items(rows, width=""):
    """A list of names and what is said of each."""
    for name, says in rows:
        yield f".TP{width}"
        yield f".B {escaped(name)}"
        yield sentence(says)


def example(text):
    yield from (".RS 4", ".nf")
    yield from (escaped(line) for line in text.splitlines())
    yield from (".fi", ".RE")


def synopsis(language):
    options = " ".join(f"[{option.name}]" for option in language.options if is_before_words(option))
    for number, command in enumerate(language.commands):
        yield from () if number == 0 else (".br",)
        front = f"{options} " if command.word != "install" else ""
        yield f"\\fBscald\\fR {escaped(front + command.form)}"
    for option in language.options:
        if not is_before_words(option):
            yield from (".br", f"\\fBscald\\fR {escaped(option.name.replace(', ', ' | '))}")


def is_before_words(option):
    """Whether an option stands before other words; the others stand alone."""
    return option.says.startswith("before the others")


def statuses(language):
    yield from items(language.statuses, " 4")
    yield from (".PP", marked("The statuses of `run`, `vcd` and `judge`:"))
    yield from items(language.run_statuses, " 8")


def report(language):
    yield from example("\n".join(language.report_lines))
    for item in language.report_items:
        yield from (".IP \\(bu 2", marked(item))
    yield from (".PP", "The lines of faults, each as an example:")
    yield from items(language.fault_lines)


def sections(language, first, first_report, prefix):
    yield "NAME", ["scald \\- timing verifier for clocked designs"]
    yield "SYNOPSIS", synopsis(language)
    yield "DESCRIPTION", [
        marked(
            "`scald` checks the timing of a drawing: gates, registers, latches and checkers, with their delays and "
            "an assertion on each input. It evaluates one period of the clock, prints the wave of each net, and "
            "reports for each constraint the first place where it may be broken. If it answers `CLEAN`, no run of "
            "the circuit in one of the drawing's cases breaks a constraint from the printed tick on, whatever the "
            "inputs do within their assertions."
        ),
        ".PP",
        marked(
            "Without `FILE` the drawing is read from standard input. Of several files each is read in turn, standard "
            "error has a line `FILE: STATUS` for each, and the exit status is the greatest; those of `sections` and of "
            "`judge` are one text. A file with the name of a word is given as `./NAME`."
        ),
    ]
    yield "WORDS", items([(command.form, command.says) for command in language.commands])
    yield "OPTIONS", items(language.options)
    yield "EXIT STATUS", statuses(language)
    yield "REPORT", report(language)
    yield "FILES", items([(f"{prefix}/{place.name}", place.says) for place in language.installed])
    yield "EXAMPLE", [
        marked("The drawing `examples/first.scald` of the documents:"),
        *example(first),
        ".PP",
        marked("`scald verify examples/first.scald` answers"),
        *example(first_report),
    ]


def manual(language, first, first_report, prefix):
    """The page. The example is a drawing without its comment, and its report."""
    lines = [f'.TH SCALD 1 "{date.today()}" "scald" "User Commands"']
    for title, body in sections(language, first, first_report, prefix):
        lines += [f".SH {title}", *body]
    return "\n".join(lines) + "\n"
