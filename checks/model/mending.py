"""Makes most random drawings good again, so that more of them have waves: what is refused is left out or mended."""
from .drawing import Delay, Number, RefusalKind, Refused, Use, bodies, bodies_in, statements
from .report import circuit_of
from .writing import write_drawing

MOST_TRIES = 40
SHARE_LEFT = 0.06  # of what is refused, as it is


def leave_out(body, place):
    """Takes the statement, or the constant, at this place out of a body, and says whether it was there."""
    for number, statement in enumerate(body):
        if statement.place == place:
            del body[number]
            return True
        if any(leave_out(inner, place) for inner in bodies_in(statement)):
            return True
    return False


def leave_out_entry(drawing, place):
    for case in drawing.cases:
        case.entries = [entry for entry in case.entries if entry.name.place != place]
    drawing.cases = [case for case in drawing.cases if case.entries]


def slow_down(drawing, place):
    """Gives the element at this place a delay, or two, so that its loop does not pass on at once."""
    for body in bodies(drawing):
        for statement in statements(body):
            if statement.place == place and isinstance(statement, Use):
                statement.delay = Delay(Number(1), Number(2))
                if statement.fall is not None:
                    statement.fall = Delay(Number(2), Number(4))
                return


def mend_one(drawing, refused, random):
    """One change for one refusal; whether there was one."""
    if refused.kind == RefusalKind.CaseNet:
        leave_out_entry(drawing, refused.place)
        return True
    if refused.kind == RefusalKind.ZeroLoop and random.random() < 0.7:
        slow_down(drawing, refused.place)
        return True
    return any(leave_out(body, refused.place) for body in [drawing.constants, *bodies(drawing)])


def mend(drawing, random):
    """Changes a drawing until nothing is refused, or until chance keeps a refusal."""
    for _ in range(MOST_TRIES):
        write_drawing(drawing)
        try:
            circuit_of(drawing)
            return
        except Refused as refused:
            if random.random() < SHARE_LEFT or not mend_one(drawing, refused, random):
                return
