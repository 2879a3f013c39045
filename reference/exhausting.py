"""Problems whose searches run out of something, or come close to it: each form answers the bytes and a depth to search to."""

from generating import numeral, part, record

TRUE, FALSE = b"\2\0\1", b"\2\0\0"


def spent_unknowns(rng):
    """A chain that fills the table of unknowns, exactly or with one too many or too few, where the goal asks for ever more."""
    while True:
        extra = rng.randrange(0, 5)
        width = rng.choice([1, 3, 5, 6])
        each = 6 + extra * width  # children that an opening appends
        links = rng.randrange(5, 60)
        first = 512 - links * each + rng.choice([-1, 0, 0, 1])
        if 1 <= first <= 16:
            break
    constructors = [[0], [6, 1, 0, 0, 0, 0, 0]] + [[width] + [0] * width] * extra
    data = record(b"DT", [len(constructors)], *constructors)
    body = b"\4\1\0\0" + FALSE + b"\3\0\0\1" + FALSE * extra
    data += record(b"FN", [1, 1, 0], part(body))
    data += record(b"UK", [1]) * first + b"GL" + part(b"\3\0\1\0") + b"EN"
    return data, links + 2


def spent_chooser(rng):
    """A chain of links with unknowns of many constructors, all of which a goal asks for: entries run out."""
    count = rng.choice([16, 16, 15, 13])
    data = record(b"DT", [count], *([[0]] * count))
    data += record(b"DT", [2], [0], [6, 1, 1, 1, 1, 1, 2])
    asked = b"".join(b"\5" + bytes([7, 1, 0, v, 0, v]) for v in range(1, 6))
    body = b"\4\2\0\0" + FALSE + asked + b"\3\0\0\6"
    data += record(b"FN", [1, 2, 0], part(body))
    first = rng.randrange(1, 5)
    goals = (b"GL" + part(TRUE)) * rng.randrange(4)
    return data + record(b"UK", [2]) * first + goals + b"GL" + part(b"\3\0\1\0") + b"EN", 40


def spent_steps(rng):
    """A function that goes round for ever, met by some branch of a goal or by all."""
    endless = rng.choice([b"\3\0", b"\5\3\0" + TRUE, b"\6\3\0", b"\5" + FALSE + b"\3\0", b"\7\0\3\0\3\0"])
    data = record(b"FN", [0, 0], part(endless)) + record(b"UK", [0]) * 2
    goals = [
        b"\3\0",
        b"\4\0\1\0" + TRUE + b"\3\0",
        b"\5\4\0\1\0\3\0" + TRUE + FALSE,
        b"\5\1\1\3\0",
        b"\5\4\0\1\0" + TRUE + b"\3\0" + b"\1\1",
        b"\7\0\1\0\3\0",
    ]
    for goal in rng.sample(goals, rng.choice([1, 1, 2])):
        data += b"GL" + part(goal)
    return data + b"EN", 3


def many_rounds(rng):
    """A list of naturals, and a goal that holds of one value only: many conflicts before it."""
    depth = rng.choice([3, 4, 5])
    data = record(b"DT", [2], [0], [1, 1]) + record(b"DT", [2], [0], [2, 1, 2])
    value = b"\2\2\1" + numeral(rng.randrange(depth)) + b"\2\2\1" + numeral(rng.randrange(2)) + b"\2\2\0"
    data += record(b"UK", [2]) + b"GL" + part(b"\7\2\1\0" + value)
    return data + b"EN", depth + 2


FORMS = {"unknowns": spent_unknowns, "chooser": spent_chooser, "steps": spent_steps, "rounds": many_rounds}

# What of the answers no way of choosing changes.
BOUND = {"unknowns": "words", "chooser": "lines"}
