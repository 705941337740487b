"""The answer of `sections`: several drawings, with the nets that cross between them known by their assertions
(docs/LANGUAGE.md, "Sections"; docs/MEANING.md, "Sections").
"""
import re

from .expansion import expand
from .names import check_before_expansion
from .drawing import Refused
from .report import Mode, answer_of_lines, last_line, lines_of, refusal_line, unsettled_line
from .rounds import Unsettled, default_limit, printed_tick, settle_all
from .rules import keep_circuit_rules
from .writing import write_drawing

SEPARATOR = re.compile(r"^=====(?:\n|\Z)", re.MULTILINE)
FEWEST, MOST = 2, 64
RULES = {
    24: "SectionCase",
    25: "SectionClock",
    26: "SectionAssertion",
    27: "SectionDrivers",
    28: "SectionUnasserted",
    29: "SectionDelay",
}


class BadSection(Exception):
    """The section, from 1, that breaks a rule, and the net with which it does, if the rule speaks of nets."""

    def __init__(self, rule, section, net=None):
        super().__init__(RULES[rule])
        self.rule = rule
        self.section = section
        self.net = net


def sections_of(text):
    """The texts between the lines that are exactly `=====`. A line ends at byte 10 or at the end of the text."""
    return SEPARATOR.split(text)


def joined_text(drawings, has_last_byte):
    """The text of these sections, with the last byte 10 or without it."""
    text = "=====\n".join(write_drawing(drawing) for drawing in drawings)
    return text if has_last_byte else text.removesuffix("\n")


def circuit_of(drawing):
    """The circuit of a section, whose cases nobody looks at."""
    check_before_expansion(drawing)
    circuit = expand(drawing)
    keep_circuit_rules(circuit)
    return circuit


def is_global(net):
    return net.name.startswith("/")


def crossing_nets(circuits):
    """The global nets that one section drives and that stand in another."""
    return {
        net
        for circuit in circuits
        for net in circuit.drivers
        if is_global(net) and sum(net in other.nets for other in circuits) > 1
    }


def clocks_of(drawing):
    header = drawing.header
    return header.units, header.ticks_per_unit, header.skew_of_p, header.skew_of_c


def check_headers(drawings):
    for number, drawing in enumerate(drawings, 1):
        if drawing.cases:
            raise BadSection(24, number)
        if clocks_of(drawing) != clocks_of(drawings[0]):
            raise BadSection(25, number)


def globals_in_order(circuit):
    return filter(is_global, circuit.in_name_order())


def check_globals(circuits):
    """Rules of a global net and the sections before: what it asserts, and who drives it."""
    for number, circuit in enumerate(circuits, 1):
        before = circuits[: number - 1]
        for net in globals_in_order(circuit):
            with_it = [other for other in before if net in other.nets]
            if any(other.assertion(net) != circuit.assertion(net) for other in with_it):
                raise BadSection(26, number, net)
            if net in circuit.drivers and any(net in other.drivers for other in with_it):
                raise BadSection(27, number, net)


def check_crossing(circuits, crossing):
    """Rules of the section that drives a net which crosses."""
    for number, circuit in enumerate(circuits, 1):
        for net in globals_in_order(circuit):
            if net in crossing and net in circuit.drivers:
                if circuit.assertion(net) is None:
                    raise BadSection(28, number, net)
                if circuit.drivers[net].delay.least == 0:
                    raise BadSection(29, number, net)


def bad_section_line(bad):
    net = "" if bad.net is None else f" NET {bad.net}"
    return f"REFUSED {bad.rule} {RULES[bad.rule]} SECTION {bad.section}{net}"


def settle_section(circuit, crossing):
    return settle_all(circuit, default_limit(circuit), crossing)


def report(drawings, circuits, settled):
    """The lines of a report on all sections, and how many faults there are."""
    lines, count, ticks = [], 0, []
    for number, (drawing, circuit, rest) in enumerate(zip(drawings, circuits, settled), 1):
        section_lines, faults = lines_of(circuit, drawing.version, rest, Mode.FAULTS)
        lines += [f"SECTION {number}", *section_lines]
        count += faults
        ticks.append(printed_tick(circuit, rest.base_rounds, 0))
    return [*lines, f"SECTIONS {len(circuits)} T {max(ticks)}", last_line(count)], count


def verify_sections(drawings):
    """The answer on a list of drawings whose texts are written."""
    if not FEWEST <= len(drawings) <= MOST:
        return answer_of_lines(9, [], "BadCount")
    circuits, settled = [], []
    try:
        for number, drawing in enumerate(drawings, 1):
            circuits.append(circuit_of(drawing))
        check_headers(drawings)
        check_globals(circuits)
        crossing = crossing_nets(circuits)
        check_crossing(circuits, crossing)
        for number, circuit in enumerate(circuits, 1):
            settled.append(settle_section(circuit, crossing))
    except Refused as refused:
        return answer_of_lines(2, [f"SECTION {number}", refusal_line(refused)], f"Refused {refused.kind.name}")
    except BadSection as bad:
        return answer_of_lines(10, [bad_section_line(bad)], f"BadSection {RULES[bad.rule]}")
    except Unsettled as unsettled:
        return answer_of_lines(3, [f"SECTION {number}", unsettled_line(unsettled)], "Unsettled")
    lines, count = report(drawings, circuits, settled)
    return answer_of_lines(1 if count else 0, lines, "Faulty" if count else "Clean")
