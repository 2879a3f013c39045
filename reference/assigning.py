"""What the rules say of a problem that is so small that all assignments within a depth can be tried."""

import itertools

from judging import FALSE, OUT, judge

ASSIGNMENTS_AT_MOST = 60
STEPS = 1000


def count(problem, t, depth):
    """How many values of a type are within a depth, or more than may be tried."""
    if depth == 0:
        return 0
    total = 0
    for arguments in problem.types[t]:
        ways = 1
        for a in arguments:
            ways = min(ways * count(problem, a, depth - 1), ASSIGNMENTS_AT_MOST + 1)
        total += ways
    return min(total, ASSIGNMENTS_AT_MOST + 1)


def values(problem, t, depth):
    if depth == 0:
        return []
    found = []
    for c, arguments in enumerate(problem.types[t]):
        found += [(c, row) for row in itertools.product(*[values(problem, a, depth - 1) for a in arguments])]
    return found


def choices(problem, row):
    """The constructors in an assignment, each at its unknown."""
    model, pending = {}, list(zip(problem.roots, row))
    while pending:
        unknown, (c, arguments) = pending.pop()
        model[unknown] = c
        pending.extend(zip(problem.parts(unknown, c), arguments))
    return model


def has_model(problem, depth):
    """Whether some assignment within the depth makes every goal true; None where that was not found out.

    A goal that is false with all choices decided comes to true under no part of them. One that is out of steps may.
    """
    ways = 1
    for t in problem.unknowns:
        ways *= count(problem, t, depth)
        if ways > ASSIGNMENTS_AT_MOST:
            return None
    is_sure = True
    for row in itertools.product(*[values(problem, t, depth) for t in problem.unknowns]):
        model = choices(problem, row)
        words = [judge(problem, goal, model.get, STEPS)[0] for goal in range(len(problem.goals))]
        if FALSE in words:
            continue
        if OUT not in words:
            return True
        is_sure = False
    return False if is_sure else None
