"""The answer of `margins` (docs/LANGUAGE.md, "Margins")."""
from .drawing import CHECKERS
from .faults import edge_fault, width_fault


def fault_with(circuit, waves, checker, parameter, value):
    """The fault of a checker with this value of a parameter and the other as it is written. HIGH has the faults of
    high pulses alone, and LOW those of low ones."""
    limits = {**checker.limits, parameter: value}
    if checker.kind == "MIN_PULSE_CHK":
        return width_fault(circuit, waves, checker, parameter, limits)
    return edge_fault(circuit, waves, checker, limits)


def fits(circuit, cases, checker, parameter, value):
    """No case has a fault with this value."""
    return all(fault_with(circuit, case.waves, checker, parameter, value) is None for case in cases)


def greatest_value(circuit, checker, parameter):
    """SETUP and HOLD are together at most the period; HIGH and LOW are each."""
    other = {"SETUP": "HOLD", "HOLD": "SETUP"}.get(parameter)
    return circuit.period - (checker.limits[other] if other else 0)


def margin_of(circuit, cases, checker, parameter):
    """The rest of a line: by how much the value may grow and still fit, and what stops it there."""
    written = checker.limits[parameter]
    if not fits(circuit, cases, checker, parameter, written):
        return "FAULT"
    greatest = greatest_value(circuit, checker, parameter)
    best = max(value for value in range(written, greatest + 1) if fits(circuit, cases, checker, parameter, value))
    if best == greatest:
        return f"{best - written} LIMIT"
    found = ((case.number, fault_with(circuit, case.waves, checker, parameter, best + 1)) for case in cases)
    number, fault = next((number, fault) for number, fault in found if fault is not None)
    return f"{best - written} NEXT CASE {number} {fault.without_element}"


def margin_lines(circuit, version, settled):
    lines = [
        f"MARGIN {checker} {parameter} {margin_of(circuit, settled.cases, checker, parameter)}"
        for checker in circuit.checkers
        for parameter in CHECKERS[checker.kind].parameters
    ]
    return [f"SCALD {version} PERIOD {circuit.period}", *lines, f"MARGINS {len(lines)}"]
