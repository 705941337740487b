"""How the installed highlighting colours drawings. Usage: colours.py textmate|vim PREFIX DRAWING ..

Cuts each drawing into tokens by docs/LANGUAGE.md, and asks what the TextMate grammar, or Vim, makes of each. A line is
printed for each drawing: its name, and what is wrong where a token has another colour, or two, or none.
"""
import json
import os
import re
import subprocess
import sys
import tempfile

TOKEN = re.compile(
    r"""\s+|(?P<comment>--.*)|(?P<name>"[^"]*")|(?P<word>[A-Za-z][A-Za-z0-9_]*)|(?P<number>[0-9]+)"""
    r"""|(?P<operator>->|[=+*/&!<>-])|(?P<symbol>[;:,()\[\]{}])"""
)
KEYWORDS = "SCALD CLOCK WIRE PSKEW CSKEW CONST MACRO DRAWING IF THEN ELSE FOR TO DO END CASE".split()
CONSTANTS = "ZERO ONE".split()
KINDS = (
    "BUF AND OR XOR MUX2 MUX4 MUX8 CHG REG LATCH REG_RS LATCH_RS "
    "SETUP_HOLD_CHK SETUP_RISE_HOLD_FALL_CHK MIN_PULSE_CHK"
).split()
PARAMETERS = "SETUP HOLD HIGH LOW".split()
# what each class of tokens is called in a TextMate grammar, and in Vim, if some have no colour of their own
CALLED = {
    "comment": ("comment.line.double-dash.scald", "scaldComment"),
    "name": ("string.quoted.double.scald", "scaldName"),
    "assertion": ("storage.modifier.assertion.scald", "scaldAssertion"),
    "keyword": ("keyword.control.scald", "scaldKeyword"),
    "constant": ("constant.language.scald", "scaldConstant"),
    "kind": ("support.function.kind.scald", "scaldKind"),
    "parameter": ("support.type.parameter.scald", "scaldParameter"),
    "hazard": ("storage.modifier.hazard.scald", "scaldHazard"),
    "number": ("constant.numeric.scald", "scaldNumber"),
    "word": ("entity.name.scald", ""),
    "operator": ("keyword.operator.scald", "scaldOperator"),
    "symbol": ("punctuation.scald", ""),
}


def class_of(kind, token, is_marked):
    if kind == "word":
        for name, words in (("keyword", KEYWORDS), ("constant", CONSTANTS), ("kind", KINDS), ("parameter", PARAMETERS)):
            if token in words:
                return name
    return "hazard" if is_marked else kind


def wanted(line):
    """Of each byte of a line the class of its token, None for spaces."""
    classes = []
    for match in TOKEN.finditer(line):
        kind, token = match.lastgroup, match.group()
        is_marked = token == "!" and line[match.end() :].lstrip()[:1] == "H"
        is_marked |= token == "H" and line[: match.start()].rstrip()[-1:] == "!"
        classes += [class_of(kind, token, is_marked) if kind else None] * len(token)
        if kind == "name" and " ." in token:
            at = token.index(" .")
            classes[match.start() + at : match.end() - 1] = ["assertion"] * (len(token) - at - 1)
    assert len(classes) == len(line), line
    return classes


def of_textmate(prefix, files):
    """Of each file and line, what each byte is called: the leftmost match counts, and of these the first pattern."""
    with open(os.path.join(prefix, "share/scald/scald.tmLanguage.json"), encoding="ascii") as file:
        patterns = [(re.compile(one["match"]), one) for one in json.load(file)["patterns"]]
    return {name: [called_in_line(patterns, line) for line in lines] for name, lines in files.items()}


def called_in_line(patterns, line):
    called = [""] * len(line)
    at = 0
    while at < len(line):
        found = [(match.start(), number, match) for number, (pattern, _) in enumerate(patterns)
                 if (match := pattern.search(line, at)) and match.group()]
        if not found:
            break
        _, number, match = min(found)
        called[match.start() : match.end()] = [patterns[number][1]["name"]] * len(match.group())
        assertion = patterns[number][1].get("captures", {}).get("2")
        if assertion and match[2]:
            called[match.start(2) : match.end(2)] = [assertion["name"]] * len(match[2])
        at = match.end()
    return called


# Writes a line for each line of each file, of the groups of its bytes, and a line `=` after each file.
VIM_DUMP = """
let rows = []
for name in argv()
  execute 'edit ' . fnameescape(name)
  if &filetype != 'scald' || get(b:, 'current_syntax', '') != 'scald'
    cquit
  endif
  for row in range(1, line('$'))
    call add(rows, join(map(range(1, col([row, '$']) - 1), 'synIDattr(synID(row, v:val, 1), "name")'), ' '))
  endfor
  call add(rows, '=')
endfor
call writefile(rows, $DUMPED)
qall!
"""


def of_vim(prefix, files):
    with tempfile.TemporaryDirectory() as folder:
        script, dumped = os.path.join(folder, "dump.vim"), os.path.join(folder, "dumped")
        with open(script, "w", encoding="ascii") as file:
            file.write(VIM_DUMP)
        subprocess.run(
            ["vim", "-es", "-N", "-u", "NONE", "-i", "NONE",
             "--cmd", f"set runtimepath^={os.path.join(prefix, 'share/vim/vimfiles')}",
             "-c", "filetype on", "-c", "syntax on", "-c", f"source {script}", *files],
            env={**os.environ, "DUMPED": dumped, "TERM": "dumb"}, check=True, timeout=300,
            stdin=subprocess.DEVNULL, stdout=subprocess.DEVNULL,
        )
        with open(dumped, encoding="ascii") as file:
            parts = file.read().split("=\n")
    return {name: [row.split(" ") for row in part.splitlines()] for name, part in zip(files, parts)}


def wrong_in(lines, called, column):
    """The first byte that is called something else, in words."""
    if len(lines) != len(called):
        return f"{len(called)} lines in place of {len(lines)}"
    for number, (line, names) in enumerate(zip(lines, called), 1):
        for at, kind in enumerate(wanted(line)):
            if kind and names[at] != CALLED[kind][column]:
                return f"{number}:{at + 1} is {names[at] or 'without colour'} in place of {CALLED[kind][column]}"
    return None


def main():
    editor, prefix, *names = sys.argv[1:]
    files = {}
    for name in names:
        with open(name, encoding="ascii") as file:
            files[name] = file.read().splitlines()
    called = {"textmate": of_textmate, "vim": of_vim}[editor](prefix, files)
    for name, lines in files.items():
        wrong = wrong_in(lines, called[name], 0 if editor == "textmate" else 1)
        print(f"{os.path.basename(name)} {wrong}" if wrong else os.path.basename(name))


if __name__ == "__main__":
    main()
