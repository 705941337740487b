"""Installs a program that is built, for `./scald install PREFIX`: the program and the script that runs it, and what is
made from the tables of docs/LANGUAGE.md: a page of the manual, completions, and highlighting for editors.

Usage: python3 -B install PROGRAM PREFIX REVISION. It ends with 1, and says why, where PREFIX cannot be written.
"""
import shutil
import sys
from pathlib import Path

from completions import bash, zsh
from highlighting import VIM_DETECTION, textmate, vim
from language import read_language
from manual import manual

TOP = Path(__file__).resolve().parent.parent


def made(language, prefix):
    """What is made, by its place under the prefix."""
    drawing = (TOP / "examples/first.scald").read_text()
    first = "".join(line for line in drawing.splitlines(True) if not line.startswith("--"))
    first_report = (TOP / "examples/first.report").read_text()
    return {
        "share/man/man1/scald.1": manual(language, first, first_report, prefix),
        "share/bash-completion/completions/scald": bash(language),
        "share/zsh/site-functions/_scald": zsh(language),
        "share/vim/vimfiles/syntax/scald.vim": vim(language),
        "share/vim/vimfiles/ftdetect/scald.vim": VIM_DETECTION,
        "share/scald/scald.tmLanguage.json": textmate(language),
    }


def copied(program):
    """What is copied, by its place, with the mode that it gets."""
    documents = {
        f"share/doc/scald/{path.relative_to(TOP)}": (path, 0o644)
        for name in ("docs/LANGUAGE.md", "docs/MEANING.md", "docs/IDIOMS.md", "examples/**/*")
        for path in sorted(TOP.glob(name))
        if path.is_file()
    }
    return {"libexec/scald": (program, 0o755), "bin/scald": (TOP / "scald", 0o755), **documents}


def put(path, content, mode):
    """In place of what is there, even if that is running."""
    path.parent.mkdir(parents=True, exist_ok=True)
    new = path.with_name(f".{path.name}.new")
    new.write_bytes(content)
    new.chmod(mode)
    new.replace(path)


def install(program, prefix, revision):
    for place, (source, mode) in copied(program).items():
        put(prefix / place, source.read_bytes(), mode)
    language = read_language((TOP / "docs/LANGUAGE.md").read_text())
    for place, text in made(language, prefix).items():
        put(prefix / place, text.encode(), 0o644)
    put(prefix / "share/doc/scald/revision", f"{revision}\n".encode(), 0o644)


def main():
    program, prefix, revision = sys.argv[1:]
    try:
        install(Path(program), Path(prefix).absolute(), revision)
    except OSError as error:
        sys.exit(f"scald: {error.filename}: {error.strerror}")


if __name__ == "__main__":
    main()
