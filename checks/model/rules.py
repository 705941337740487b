"""What is asked of a circuit when all statements are expanded: its drivers, its loops, and its cases
(docs/LANGUAGE.md, "Refusals" and "Cases").
"""
from .circuit import Net
from .drawing import Clock, RefusalKind, Refused


def find_drivers(circuit):
    """TwoDrivers at the first element whose output is a constant or is driven already."""
    for element in circuit.elements:
        net = element.output.on
        if not isinstance(net, Net) or net in circuit.drivers:
            raise Refused(RefusalKind.TwoDrivers, element.place)
        circuit.drivers[net] = element


def followers(circuit):
    """For each element, by its number, those that read its output while it may pass on at once."""
    elements = circuit.elements
    readers = {}
    for number, element in enumerate(elements):
        for pin in element.pins:
            readers.setdefault(pin.on, set()).add(number)
    return [
        readers.get(element.output.on, set())
        if element.delay.least == 0 and circuit.wire(element.output).least == 0
        else set()
        for element in elements
    ]


def reached_from(numbers, followed_by):
    """What can be reached from these in any number of steps, themselves among it."""
    reached = set(numbers)
    while True:
        more = reached.union(*(followed_by[number] for number in reached))
        if more == reached:
            return reached
        reached = more


def check_loops(circuit):
    """ZeroLoop at the first element that can be reached from a loop that passes on at once."""
    followed_by = followers(circuit)
    looping = [
        number for number, next_ones in enumerate(followed_by) if number in reached_from(next_ones, followed_by)
    ]
    if looping:
        first = min(reached_from(looping, followed_by))
        raise Refused(RefusalKind.ZeroLoop, circuit.elements[first].place)


def may_be_set(circuit, entry, net, earlier):
    """Whether a case may give a net this level."""
    return (
        entry.name.assertion is None
        and net in circuit.nets
        and net not in circuit.drivers
        and not isinstance(circuit.assertion(net), Clock)
        and net not in earlier
        and entry.level in (0, 1)
    )


def levels_of(circuit, case):
    """The nets of a case and their levels."""
    levels = {}
    for entry in case.entries:
        net = Net(entry.name.base, entry.bit)
        if not may_be_set(circuit, entry, net, levels):
            raise Refused(RefusalKind.CaseNet, entry.name.place)
        levels[net] = entry.level
    return levels


def keep_circuit_rules(circuit):
    """Gives a circuit its drivers, or refuses it."""
    find_drivers(circuit)
    check_loops(circuit)


def keep_rules(circuit, drawing):
    """Gives a circuit its drivers and its cases, or refuses it."""
    keep_circuit_rules(circuit)
    circuit.cases = [levels_of(circuit, case) for case in drawing.cases]
