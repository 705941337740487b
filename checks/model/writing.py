"""The text of a drawing (docs/LANGUAGE.md, "Grammar"). Writing it gives each part of the tree its place."""
from .assertions import spelling
from .drawing import Binary, Constant, For, If, Minus, Number, Parameter, Place, WireStatement


class Writer:
    def __init__(self):
        self.pieces = []
        self.line = 1
        self.column = 1

    def here(self):
        return Place(self.line, self.column)

    def write(self, piece):
        self.pieces.append(piece)
        self.column += len(piece)

    def end_line(self):
        self.pieces.append("\n")
        self.line += 1
        self.column = 1

    def write_line(self, piece):
        self.write(piece)
        self.end_line()

    def write_list(self, parts, write, between=", "):
        for number, part in enumerate(parts):
            if number:
                self.write(between)
            write(part)

    def write_name(self, name):
        name.place = self.here()
        self.write(f'"{name.base}{spelling(name.assertion)}"')

    def write_named(self, part):
        """A formal, or a term that is no constant."""
        self.write_name(part.name)
        self.write(text_of_range(part.range))

    def write_term(self, term):
        if term.is_complemented:
            self.write("-")
        if isinstance(term.what, Constant):
            self.write(term.what.name)
        else:
            self.write_name(term.what)
            self.write(text_of_range(term.range))

    def write_connection(self, connection):
        connection.place = self.here()
        self.write_list(connection.terms, self.write_term, " & ")
        if connection.is_marked:
            self.write(" !H")

    def write_assign(self, assign):
        assign.place = self.here()
        self.write(f"{assign.word}={text_of(assign.value)}")

    def write_sides(self, head, write):
        """The parameters, inputs and outputs of a use or of a macro's head."""
        if head.parameters:
            self.write(" {")
            self.write_list(head.parameters, self.write_assign)
            self.write("}")
        self.write(" (")
        self.write_list(head.inputs, write)
        self.write(")")
        if head.outputs:
            self.write(" -> (")
            self.write_list(head.outputs, write)
            self.write(")")
        self.write_line(";")

    def write_use(self, use):
        self.write(f"{use.label} : {use.kind}")
        delays = [text_of_delay(delay) for delay in (use.delay, use.fall) if delay is not None]
        if delays:
            self.write(f" [{', '.join(delays)}]")
        self.write_sides(use, self.write_connection)

    def write_wire(self, wire):
        self.write("WIRE ")
        self.write_named(wire)
        self.write_line(f" {text_of_delay(wire.delay)};")

    def write_if(self, choice):
        self.write_line(f"IF {text_of(choice.test)} THEN")
        self.write_body(choice.then)
        if choice.otherwise is not None:
            self.write_line("ELSE")
            self.write_body(choice.otherwise)
        self.write_line("END;")

    def write_for(self, loop):
        self.write_line(f"FOR {loop.word} = {text_of(loop.first)} TO {text_of(loop.last)} DO")
        self.write_body(loop.body)
        self.write_line("END;")

    def write_body(self, body):
        for statement in body:
            self.write(" " * 2)
            statement.place = self.here()
            if isinstance(statement, If):
                self.write_if(statement)
            elif isinstance(statement, For):
                self.write_for(statement)
            elif isinstance(statement, WireStatement):
                self.write_wire(statement)
            else:
                self.write_use(statement)

    def write_macro(self, macro):
        self.write("MACRO ")
        macro.place = self.here()
        self.write(macro.word)
        self.write_sides(macro, self.write_named)
        self.write_body(macro.body)
        self.write_line("END;")

    def write_entry(self, entry):
        self.write_name(entry.name)
        self.write(f"<{entry.bit}>={entry.level}")

    def write_case(self, case):
        case.place = self.here()
        self.write("CASE ")
        self.write_list(case.entries, self.write_entry)
        self.write_line(";")

    def write_constant(self, constant):
        constant.place = self.here()
        self.write("CONST ")
        constant.word_place = self.here()
        self.write_line(f"{constant.word} = {text_of(constant.value)};")

    def write_header(self, version, header):
        self.write_line(f"SCALD {version};")
        self.write_line(f"CLOCK {header.units} x {header.ticks_per_unit};")
        self.write_line("WIRE %d:%d;" % header.wire)
        self.write_line("PSKEW %d:%d;" % header.skew_of_p)
        self.write_line("CSKEW %d:%d;" % header.skew_of_c)


def text_of(expression):
    """An expression, with parentheses around everything that is made of parts."""
    if isinstance(expression, Number):
        return str(expression.value)
    if isinstance(expression, Parameter):
        return expression.word
    if isinstance(expression, Minus):
        return f"(-{text_of(expression.operand)})"
    assert isinstance(expression, Binary)
    return f"({text_of(expression.left)}{expression.operator}{text_of(expression.right)})"


def text_of_delay(delay):
    return f"{text_of(delay.least)}:{text_of(delay.greatest)}"


def text_of_range(bits):
    if bits is None:
        return ""
    if bits.last is None:
        return f"<{text_of(bits.first)}>"
    return f"<{text_of(bits.first)}:{text_of(bits.last)}>"


def write_drawing(drawing):
    """The text of a drawing, whose parts then have their places in it."""
    writer = Writer()
    writer.write_header(drawing.version, drawing.header)
    for constant in drawing.constants:
        writer.write_constant(constant)
    for macro in drawing.macros:
        writer.write_macro(macro)
    writer.write_line("DRAWING ROW;")
    writer.write_body(drawing.body)
    writer.write_line("END;")
    for case in drawing.cases:
        writer.write_case(case)
    return "".join(writer.pieces)
