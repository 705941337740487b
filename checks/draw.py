#!/usr/bin/env python3
"""Reads pictures of `draw case=K` and pages of `draw` as XML, and compares each with the report of `verify`: each net is
in one row; a row shows its wave run by run, is shaded where its skew lets it step, and has its latest changes where they
may come. A page has the report's head and last line, a picture of each case, and broken limits if there are faults; to
these lead rows of its table and the numbers in pictures. One of the nets below a path has these, and no limits.
Usage: draw.py, with a line `PICTURE REPORT CASE`, `PAGE REPORT page` or `PAGE REPORT waves PATH` on standard input for
each of them. It prints what differs, a line for each that is not as the report has it, and ends with 0 if there is none."""
import itertools
import re
import sys
import xml.etree.ElementTree as ET

SVG = "{http://www.w3.org/2000/svg}"
HTML = "{http://www.w3.org/1999/xhtml}"
BUSY = "RFCU"
WIDEST = 9600


class Case:
    """A case of a report: the period, the printed tick, and of each net its skew and its values, slot by slot."""

    def __init__(self, report, number):
        self.period, self.tick, self.waves, here = 0, 0, {}, False
        for line in report.splitlines():
            words = line.split(" ")
            if words[0] == "SCALD":
                self.period = int(words[3])
            elif words[0] == "CASE":
                here = int(words[1]) == number
                self.tick = int(words[7]) if here else self.tick
            elif words[0] == "WAVE" and here:
                name, rest = line[5:].split("> SKEW ")
                skew, *runs = rest.split(" ")
                self.waves[name + ">"] = (int(skew), "".join(run[0] * int(run[2:]) for run in runs))


def nets_of(label):
    """The nets of a row, by its label."""
    name, low, high = re.fullmatch(r"(.*)<(\d+)(?::(\d+))?>", label).groups()
    return ["%s<%d>" % (name, bit) for bit in range(int(low), int(high or low) + 1)]


def runs_of(cells):
    """Runs: a value, where it begins, and its width."""
    found = []
    for slot, value in enumerate(cells):
        if found and found[-1][0] == value:
            found[-1][2] += 1
        else:
            found.append([value, slot, 1])
    return found


def shape_of(value, x, width, alone):
    """The data of the path of a run."""
    box = "M%d 40h%dv160h-%dz" % (x, width, width)
    up, down = "M%d 200l%d -160" % (x, width), "M%d 40l%d 160" % (x, width)
    return {
        "0": "M%d 200h%d" % (x, width), "1": "M%d 40h%d" % (x, width), "S": box, "U": box,
        "R": up if alone else box + up, "F": down if alone else box + down,
        "C": down + up if alone else box,
    }[value]


def row_faults(name, rest, label, paths, case):
    """What is wrong in the row of these nets: the rest of its title, its label, and its paths by class and data."""
    nets = nets_of(name)
    if label != (name if len(name) <= 40 else ".." + name[-38:]):
        yield "%s: its label is %s" % (name, label)
    if any(net not in case.waves for net in nets):
        yield "%s: no such net" % name
        return
    skew, cells = case.waves[nets[0]]
    if any(case.waves[net] != (skew, cells) for net in nets):
        yield "%s: other waves are in its row" % name
    if rest != "%d %s" % (skew, " ".join("%s:%d" % (v, w) for v, a, w in runs_of(cells))):
        yield "%s: another line than in the report" % name
    period = case.period
    scale = max(1, WIDEST // (2 * period))

    def shapes(values):
        return [(v, shape_of(v, scale * a, scale * w, w == 1)) for v, a, w in runs_of(values)]

    if [p for p in paths if p[0][0] == "v"] != [("v" + v, shape) for v, shape in shapes(cells * 2)]:
        yield "%s: its paths do not spell its wave" % name
    steps = [any(cells[(slot - back) % period] in BUSY for back in range(skew + 1)) for slot in range(2 * period)]
    shaded = "".join("M%d 20h%dv200h-%dz" % (scale * a, scale * w, scale * w) for v, a, w in runs_of(steps) if v)
    later = [cells[(slot - skew) % period] for slot in range(2 * period)]
    late = "".join(shape for v, shape in shapes(later) if v in BUSY)
    for kind, data in (("sm", shaded if skew else ""), ("late", late if skew else "")):
        if "".join(d for c, d in paths if c == kind) != data:
            yield "%s: another path of class %s" % (name, kind)


def faults_of(root, case, number, path=""):
    """What is wrong in a picture of a case, of the nets whose names begin with a path."""
    head = "%d nets, period %d, two periods; holds from tick %d on" % (len(case.waves), case.period, case.tick)
    if root.find(SVG + "title").text != ("case %d: " % number if number else "") + head:
        yield "another heading: %s" % root.find(SVG + "title").text
    seen = []
    for group in root.find(SVG + "g").findall(SVG + "g"):
        name, rest = group.find(SVG + "title").text.split("> SKEW ")
        seen += nets_of(name + ">")
        paths = [(p.get("class"), p.get("d")) for p in group.findall(SVG + "path")]
        yield from row_faults(name + ">", rest, group.find(SVG + "text").text, paths, case)
    below = [net for net in case.waves if net.startswith(path)]
    if sorted(seen) != sorted(below):
        yield "%d nets are in rows, and there are %d" % (len(seen), len(below))


def page_faults(root, report, shows_limits, path=""):
    """What is wrong in a page, of the nets whose names begin with a path."""
    lines = report.splitlines()
    title = root.find(".//" + HTML + "h1").text
    if not title.endswith(": " + lines[-1]):
        yield "another title: %s" % title
    head = list(itertools.takewhile(lambda line: not line.startswith("CASE "), lines))
    if root.find(".//" + HTML + "pre").text.splitlines()[: len(head)] != head:
        yield "another head than in the report"
    sections = list(root.iter(HTML + "section"))
    limits = [section for section in sections if section.get("id").startswith("f")]
    numbers = [int(line.split(" ")[1]) for line in lines if line.startswith("CASE ")]
    names = ["f%d" % (i + 1) for i in range(len(limits))] + ["k%d" % (i + 1) for i in range(len(numbers))]
    if [section.get("id") for section in sections] != names:
        yield "%d sections, %d of them limits, of %d cases" % (len(sections), len(limits), len(numbers))
    links = [link.get("href") for link in root.find(".//" + HTML + "pre").iter(HTML + "a")]
    if links != ["#" + section.get("id") for section in limits]:
        yield "the rows of the table lead to %s" % " ".join(links)
    if not {link.get("href") for link in root.iter(SVG + "a")} <= set(links):
        yield "a fault of a row leads nowhere"
    if bool(limits) != (shows_limits and lines[-1] != "CLEAN"):
        yield "%d limits, and %s" % (len(limits), lines[-1])
    for section, number in zip(sections[len(limits) :], numbers):
        yield from faults_of(section.find(SVG + "svg"), Case(report, number), number, path)


def main():
    wrong = 0
    for line in sys.stdin:
        picture, report, number, *path = line.rstrip("\n").split(" ", 3)
        try:
            root = ET.parse(picture).getroot()
            with open(report, encoding="ascii") as file:
                text = file.read()
            if number in ("page", "waves"):
                faults = list(page_faults(root, text, number == "page", *path))
            else:
                faults = list(faults_of(root, Case(text, int(number)), int(number)))
        except (ET.ParseError, AttributeError, ValueError) as fault:
            faults = ["it cannot be read: %r" % fault]
        if faults:
            wrong += 1
            print("%s: %s" % (picture, "; ".join(faults[:3])))
    sys.exit(1 if wrong else 0)


if __name__ == "__main__":
    main()
