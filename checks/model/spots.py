"""Where in a drawing the names of nets stand."""
from .assertions import spelling
from .drawing import Name, Use, WireStatement, statements, uses


def body_of(drawing, path):
    """The body that a path leads to, through uses of macros from the drawing down. In a body a label stands once."""
    body = drawing.body
    for label in path.split("/")[:-1]:
        use = next(use for use in uses(body) if use.label == label.split("#")[0])
        body = next(macro.body for macro in drawing.macros if macro.word == use.kind)
    return body


def first_place(body, base, assertion):
    """The first connection or WIRE of a body in which a base stands with this assertion."""
    for statement in statements(body):
        if isinstance(statement, WireStatement):
            parts = [(statement.place, [statement.name])]
        elif isinstance(statement, Use):
            parts = [
                (connection.place, [term.what for term in connection.terms if isinstance(term.what, Name)])
                for connection in statement.inputs + statement.outputs
            ]
        else:
            parts = []
        for place, names in parts:
            if any(name.base == base and name.assertion == assertion for name in names):
                return place
    return None


def assertion_place(drawing, net, assertion):
    """Where the net's name stands with its assertion: in its scope, or of a global anywhere, the macros first."""
    if net.name.startswith("/"):
        bodies = [*(macro.body for macro in drawing.macros), drawing.body]
        return next(filter(None, (first_place(body, net.name, assertion) for body in bodies)), None)
    scope, slash, base = net.name.rpartition("/")
    return first_place(body_of(drawing, scope + slash), base, assertion)


def spots_in(drawing, circuit):
    """Of a net its name as the drawing has it, and its line."""

    def spot(net):
        assertion = circuit.assertion(net)
        _scope, slash, base = net.name.rpartition("/")
        slash = slash if net.name.startswith("/") else ""
        return f'"{slash}{base}{spelling(assertion)}" line {assertion_place(drawing, net, assertion).line}'

    return spot
