"""Model bytes: a partial value for each unknown of a problem. A model is a dict from decided unknowns to constructors."""

from judging import judge
from problems import BYTES_AT_MOST, Refused


def read_model(problem, data):
    if len(data) > BYTES_AT_MOST:
        raise Refused(1, BYTES_AT_MOST)
    model, at = {}, 0
    for k, root in enumerate(problem.roots):
        mark = at
        if bytes(data[at : at + 2]) != b"MD":
            raise Refused(2, mark)
        if at + 2 >= len(data):
            raise Refused(3, mark)
        if data[at + 2] != k:
            raise Refused(6, at + 2)
        at = read_value(problem, data, mark, at + 3, root, model)
    if at < len(data):
        raise Refused(8, at)
    return model


def read_value(problem, data, mark, at, unknown, model):
    """Reads the partial value of an unknown into the model, and answers the place after it."""
    pending = [unknown]
    while pending:
        unknown = pending.pop()
        t = unknown.type
        if at >= len(data):
            raise Refused(3, mark)
        if data[at] == 8:
            at += 1
            continue
        for place, is_lawful in enumerate([lambda b: b == 2, lambda b: b == t, lambda b: b < len(problem.types[t])], at):
            if place >= len(data):
                raise Refused(3, mark)
            if not is_lawful(data[place]):
                raise Refused(6, place)
        c = data[at + 2]
        at += 3
        model[unknown] = c
        pending.extend(reversed(problem.parts(unknown, c)))
    return at


def write_model(problem, model):
    def value(unknown):
        if unknown not in model:
            return b"\x08"
        front = bytes([2, unknown.type, model[unknown]])
        return front + b"".join(value(part) for part in problem.parts(unknown, model[unknown]))

    return b"".join(b"MD" + bytes([k]) + value(root) for k, root in enumerate(problem.roots))


def show(problem, model):
    """The lines that tell of a model."""

    def text(unknown):
        if unknown not in model:
            return "?"
        parts = [text(part) for part in problem.parts(unknown, model[unknown])]
        return str(model[unknown]) + ("(" + ",".join(parts) + ")" if parts else "")

    return [f"unknown {k} = {text(root)}" for k, root in enumerate(problem.roots)]


def depth_filled(problem, model):
    """The least depth to which the open parts of a model can be filled with values."""

    def depth(unknown):
        if unknown not in model:
            return problem.least[unknown.type]
        return 1 + max((depth(part) for part in problem.parts(unknown, model[unknown])), default=0)

    return max((depth(root) for root in problem.roots), default=0)


def replay(problem, data, steps):
    """What each goal comes to under the decision of model bytes."""
    model = read_model(problem, data)
    return [judge(problem, goal, model.get, steps)[0] for goal in range(len(problem.goals))]
