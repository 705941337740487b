#!/usr/bin/env python3
"""Lists every definition that the statement of the theorem reaches.

    checks/audit.py          each definition: its file, its first and last line, its name
    checks/audit.py clean    the same, from clauses of this name alone
    checks/audit.py --table  a line for each file, as docs/ASSURANCE.md has it
    checks/audit.py --write  puts these lines into docs/ASSURANCE.md, between its two marker lines
    checks/audit.py --check  compares them with what is there; ends with 1 where they differ

It begins with the names in the two clauses of `answer_to`, the program's call, that are the
theorem, and in all clauses of `tool_main`, with the parameters that these speak of, and follows
each name to its definition in a file of specs/, and from there the names in that definition, to
the end. A type of the source (`declared`) is its lines in src/, with the contract's view of it
(`impl Model`), and is followed through the types of its fields, but of an enum only through those
of the variants that some definition names; a trait is followed through its clauses. A variable
that has the name of a definition counts as that definition, so a line may be listed that is not
needed. A name that is imported and not found ends the script. The kit's library (`Rattle.std`) is
not followed.
"""
import os
import re
import sys

TOP = os.path.dirname(os.path.dirname(os.path.abspath(__file__)))
# the program's call, of which two clauses are the theorem, and the main call that it makes
PROGRAM = ("crates/scald/src/named.rt", "answer_to")
MAIN_CALL = ("crates/scald_tool/src/tool.rt", "tool_main")
THEOREM = ("clean", "faultless")
PAGE = "docs/ASSURANCE.md"
BEGIN, END = "<!-- audit -->", "<!-- end of audit -->"

# what is read first, with the names at which each part begins
STEPS = (
    ("Runs, inputs that keep their assertions, cases, and breaks", (
        ("flat_circuit/specs/Run", "IsRun"),
        ("fixpoint_engine/specs/Interface", "MeetsInterface"),
        ("case_analysis/specs/Case", "IsInCase"),
        ("timing_analysis/specs/Promise", "Breaks"),
    )),
    ("Rounds of waves: that they settle, and the printed tick", (
        ("case_analysis/specs/Base", "base_round"),
        ("timing_analysis/specs/Case", "AreSettled"),
        ("timing_analysis/specs/Case", "printed_tick"),
    )),
    ("From a text to its circuit and its cases", (
        ("timing_analysis/specs/Drawn", "DrawsCircuit"),
    )),
)

# the part with what is left of the theorem
LAST_OF_THEOREM = "The theorem as it stands: words, devices, the record"

WORD = r"[^\W\d][\w']*"
STRING = re.compile(r'"(?:[^"\\]|\\.)*"')
IMPORT = re.compile(r"^(?:pub )?use +(Rattle\.[\w.]+?)(?:\.\{([^}]*)\}| as (\w+))?$")
HEAD = re.compile(r"(?:(?:abbrev|unfoldable|opaque) +)?(?:pub +)?(?:data +|record +)?([^\s:({]+)")
STARTS = ("abbrev ", "unfoldable ", "opaque ", "pub ", "data ", "record ")
NO_STARTS = ("use ", "pub use ", "pub mod ", "mod ", "infix")


def plain(line, comment):
    """The line without its texts and its comment."""
    return STRING.sub('""', line).split(comment)[0].rstrip()


class Block:
    """A definition, or a type of the source: its lines, and the text in which names are found."""

    def __init__(self, module, name, first):
        self.module, self.name, self.lines, self.text = module, name, {first}, []
        # of an enum the text of each variant, which is not in the text of the block
        self.is_enum, self.variants = False, {}


class Module:
    """A file: its imports and its definitions."""

    def __init__(self, path):
        self.path, self.names, self.aliases, self.blocks, self.parts = path, {}, {}, {}, {}

    def import_from(self, target, names, alias):
        if alias:
            self.aliases[alias] = target
        for name in (names or "").split(","):
            if name.strip():
                there, _, here = name.strip().partition(" as ")
                self.names[(here or there).strip()] = (target, there.strip())


MODULES = {}


def read(path):
    with open(os.path.join(TOP, path), encoding="utf-8") as file:
        return file.read().split("\n")


def specs(path):
    """The definitions of a file of specs/."""
    if path in MODULES:
        return MODULES[path]
    module = MODULES[path] = Module(path)
    lines = [plain(line, "--") for line in read(path)]
    for line in lines:
        if found := IMPORT.match(line):
            module.import_from(*found.groups())
    # the declared names first, since the equations of several may stand in any order
    heads, level = {}, {}
    mutual = False
    for number, line in enumerate(lines, 1):
        if line and not line.startswith(" "):
            mutual = line.split()[-1] == "mutual"
        level[number] = line[2:] if mutual and line.startswith("  ") else line
        at = level[number]
        begins = at.startswith(STARTS) or mutual and re.match(rf"{WORD} *:", at)
        if begins and not at.startswith(NO_STARTS) and not line.endswith("mutual"):
            name = HEAD.match(at).group(1)
            heads[number] = name
            module.blocks.setdefault(name, Block(module, name, number))
    current = None
    for number, line in level.items():
        if number in heads:
            current = module.blocks[heads[number]]
        elif line.startswith(NO_STARTS) or line.endswith("mutual"):
            current = None
        elif line and not line.startswith(" "):
            word = re.match(WORD, line)
            if word and word.group() in module.blocks:
                current = module.blocks[word.group()]
        if current and line:
            current.lines.add(number)
            current.text.append(line)
            if part := re.match(r" +(?:pub )?(\w+) *:", line):
                module.parts.setdefault(part.group(1), current.name)
    return module


def source(path):
    """The types of a file of src/, each with the contract's view of it."""
    if path in MODULES:
        return MODULES[path]
    module = MODULES[path] = Module(path)
    lines = [plain(line, "//") for line in read(path)]
    text = "\n".join(lines)
    for found in re.finditer(r"^(?:pub )?use ([\w:]+?)(?:::\{([^}]*)\}|);", text, re.M):
        where, names = found.groups()
        if names is None:
            where, _, names = where.rpartition("::")
        module.import_from("src:" + where, names, None)
    for found in re.finditer(r"^ *ghost use (Rattle\.[\w.]+)\.\{([^}]*)\};", text, re.M):
        module.import_from(*found.groups(), None)
    current = None
    for number, line in enumerate(lines, 1):
        item = re.match(r"^(?:pub(?:\([a-z]+\))? )?(?:struct|enum|type|trait) (\w+)", line)
        view = re.match(r"^impl(?:<[^{]*>)? Model for (\w+)", line)
        if item or view:
            name = (item or view).group(1)
            current = module.blocks.setdefault(name, Block(module, name, number))
            current.is_enum = item is not None and " enum " in f" {line}"
            part = current.text
        if current and line:
            current.lines.add(number)
            variant = re.match(r"    (\w+)(.*)", line) if current.is_enum else None
            if variant:
                part = current.variants[variant.group(1)] = [variant.group(2)]
            elif not line.lstrip().startswith("ghost use"):
                part.append(line)
        if current and (line.startswith("}") or line.endswith(";") and not line.startswith(" ")):
            current = None
    return module


def source_files(crate):
    for folder, _, names in os.walk(os.path.join(TOP, "crates", crate, "src")):
        for name in sorted(names):
            if name.endswith(".rt"):
                yield os.path.relpath(os.path.join(folder, name), TOP)


def source_type(crate, name):
    """The block of the type of this name in a crate's source."""
    for path in source_files(crate):
        if name in source(path).blocks:
            return source(path).blocks[name]
    return None


def resolve(target, name, module):
    """The block that a name means which is imported from there, or none if the kit has it."""
    if target.startswith("src:"):
        crate = target[4:].split("::")[0]
        crate = module.path.split("/")[1] if crate in ("crate", "self", "super") else crate
        ours = os.path.isdir(os.path.join(TOP, "crates", crate))
        return source_type(crate, name) if ours else None
    parts = target.split(".")[1:]
    if parts[0] == "std" or not os.path.isdir(os.path.join(TOP, "crates", parts[0])):
        return None
    crate, rest = parts[0], parts[2:]
    if rest[0] == "declared":
        # the type is the last part that the source has; variants and what is derived belong to it
        for part in [name] + rest[::-1]:
            if part and part[0].isupper() and (block := source_type(crate, part)):
                return block
        sys.exit(f"audit: no type {target}.{name}")
    for length in range(len(rest), 0, -1):
        path = f"crates/{crate}/specs/{'/'.join(rest[:length])}.antt"
        if os.path.isfile(os.path.join(TOP, path)):
            found, inside = specs(path), rest[length:] + [name]
            if inside[0] in found.blocks:
                return found.blocks[inside[0]]
            if inside[0] in found.parts:
                return found.blocks[found.parts[inside[0]]]
            if inside[0] in found.names:
                return resolve(*found.names[inside[0]], found)
    sys.exit(f"audit: {module.path} names {target}.{name}, which is not found")


def with_variants(block, words):
    """A block, and if it is an enum what the variants hold that are among the words."""
    yield block
    for word in words if block else ():
        yield from named_in(block.module, " ".join(block.variants.get(word, ())))


def named_in(module, text):
    """The blocks that a text of a file names."""
    for found in re.finditer(rf"(?<![\w.'])({WORD})((?:\.{WORD})*)", text):
        word, after = found.group(1), found.group(2).split(".")[1:]
        if word in module.aliases and after:
            yield from with_variants(resolve(module.aliases[word], after[0], module), after)
        elif word in module.names:
            target, name = module.names[word]
            yield from with_variants(resolve(target, name, module), [name] + after)
        elif word in module.blocks:
            yield from with_variants(module.blocks[word], after)
    for name, target in module.names.items():
        if "◌" in name and all(part in text for part in name.split("◌") if part):
            yield resolve(*target, module)


def named(block):
    """The blocks that a block names."""
    return named_in(block.module, " ".join(block.text))


def spoken_of(head, clauses):
    """What of a call's head its clauses speak of: types and parameters by their names, and what it gives."""
    words = set(re.findall(WORD, clauses))
    for name, of in re.findall(rf"({WORD}): ([^,>)]+|[^,)]+)[,>)]", head):
        if name in words:
            yield of
    if "result" in words:
        yield head.rpartition("->")[2]


def contract(function, clauses=()):
    """The contract of a function as a block: the clauses of these names, or all, and what they speak of."""
    path, name = function
    module = source(path)
    lines = [plain(line, "//") for line in read(path)]
    first = next(i for i, line in enumerate(lines) if line.startswith(f"pub fn {name}"))
    last = next(i for i in range(first, len(lines)) if lines[i] == "{")
    head, *parts = re.split(r"\n +(?=ensures|requires)", "\n".join(lines[first:last]))
    kept = [part for part in parts if not clauses or part.split()[1] in clauses]
    if not kept:
        sys.exit(f"audit: {name} has no clause {' '.join(clauses)}")
    block = Block(module, name, first + 1)
    block.text = [*spoken_of(head, " ".join(kept)), *kept]
    return block


def reached(starts, seen):
    """The blocks that these reach, themselves among them, but none twice and none seen before."""
    found, waiting = [], list(starts)
    while waiting:
        block = waiting.pop()
        if block and (block.module.path, block.name) not in seen:
            seen.add((block.module.path, block.name))
            found.append(block)
            waiting.extend(named(block))
    return found


def by_clauses(function, clauses, seen):
    return reached(named(contract(function, clauses)), seen)


def by_names(names, seen):
    return reached([specs(f"crates/{path}.antt").blocks[name] for path, name in names], seen)


def crate_order():
    lines = (line.split(":")[0] for line in read("crates.txt") if line and not line.startswith("#"))
    return {crate.split()[0]: place for place, crate in enumerate(lines)}


def sorted_blocks(blocks):
    order = crate_order()
    place = lambda b: (order[b.module.path.split("/")[1]], b.module.path, min(b.lines))
    return sorted(blocks, key=place)


def by_file(blocks):
    files = {}
    for block in sorted_blocks(blocks):
        files.setdefault(block.module.path, set()).update(block.lines)
    return files


def steps():
    """The parts in reading order: a title, and what the part reaches that none before it does."""
    seen = set()
    for title, names in STEPS:
        yield title, by_names(names, seen)
    yield LAST_OF_THEOREM, by_clauses(PROGRAM, THEOREM, seen)
    yield "The other clauses of tool_main: answers, reports", by_clauses(MAIN_CALL, (), seen)


def sum_line(files, what):
    """How many lines and files these are, apart those of definitions and those of types of the source."""
    types = [files[path] for path in files if path.endswith(".rt")]
    specs = [files[path] for path in files if not path.endswith(".rt")]
    return f"{sum(specs):>5}  lines in {len(specs)} files of specs/, and {sum(types)} in {len(types)} of src/: {what}"


def table():
    """For each part its files, with how many lines of them it reaches; and the sums."""
    rows, files = [], {}
    for title, blocks in steps():
        part = {path: len(lines) for path, lines in by_file(blocks).items()}
        rows += ["", f"{sum(part.values()):>5}  {title}"] if rows else [f"{sum(part.values()):>5}  {title}"]
        rows += [f"{part[path]:>9}  {path.removeprefix('crates/')}" for path in part]
        for path in part:
            files[path] = files.get(path, 0) + part[path]
        if title == LAST_OF_THEOREM:
            rows += ["", sum_line(files, "the theorem")]
    return rows + ["", sum_line(files, "all")]


def page_parts():
    text = "\n".join(read(PAGE))
    before, rest = text.split(BEGIN + "\n", 1)
    inside, after = rest.split(END, 1)
    return before, inside, after


def main(words):
    listed = words[:1] and words[0].startswith("--")
    fresh = "```\n" + "\n".join(table()) + "\n```\n" if listed else ""
    if words == ["--table"]:
        print(fresh, end="")
    elif words == ["--write"]:
        before, _, after = page_parts()
        with open(os.path.join(TOP, PAGE), "w", encoding="utf-8") as page:
            page.write(before + BEGIN + "\n" + fresh + END + after)
    elif words[:1] == ["--check"]:
        same = page_parts()[1] == fresh
        print(f"checks/audit.py: {PAGE} has {'the' if same else 'ANOTHER'} list (--write makes it)")
        return 0 if same else 1
    else:
        seen = set()
        blocks = by_clauses(PROGRAM, words or THEOREM, seen)
        for block in sorted_blocks(blocks + ([] if words else by_clauses(MAIN_CALL, (), seen))):
            print(f"{block.module.path}:{min(block.lines)}-{max(block.lines)} {block.name}")
    return 0


if __name__ == "__main__":
    sys.exit(main(sys.argv[1:]))
