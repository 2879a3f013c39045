"""Bytes that are mostly no problem, or one at the edge of a limit."""

from generating import part, record, sound_problem

MARKS = [b"DT", b"FN", b"UK", b"GL", b"EN"]
TRUE, FALSE = b"\2\0\1", b"\2\0\0"


def damage(rng, data, marks=MARKS):
    """One to three small changes of some bytes."""
    data = bytearray(data)
    for _ in range(rng.choice([1, 1, 1, 2, 3])):
        at = rng.randrange(len(data) + 1)
        form = rng.randrange(9)
        if form <= 2 and at < len(data):
            data[at] = rng.choice([rng.randrange(9), rng.randrange(9), rng.randrange(256), data[at] ^ 1])
        elif form == 3:
            data[at:at] = bytes([rng.choice([rng.randrange(9), rng.randrange(256)])])
        elif form == 4:
            del data[at : at + rng.choice([1, 1, 2, 3])]
        elif form == 5:
            del data[at:]
        elif form == 6:
            data += bytes(rng.randrange(9) for _ in range(rng.choice([1, 2, 3])))
        elif form == 7:
            other = rng.randrange(len(data) + 1)
            data[at:at] = data[min(at, other) : max(at, other)]
        else:
            data[at : at + 2] = rng.choice(marks)
    return bytes(data)


def damaged_terms(rng):
    """A problem whose records are whole, with damage in a term or in a type number."""
    sound = sound_problem(rng)
    for _ in range(rng.choice([1, 1, 2])):
        terms = rng.choice([sound.goals, sound.goals, sound.bodies or sound.goals])
        at = rng.randrange(len(terms))
        if rng.random() < 0.8:
            terms[at] = damage(rng, terms[at], [b"\0\0", b"\1\0", b"\2\0", b"\4\1", b"\7\1"])
        else:
            sound.unknowns = [rng.choice([t, t, len(sound.types) - 1, len(sound.types)]) for t in sound.unknowns]
    return sound.bytes()


def lengths(rng):
    """About as many bytes as there may be."""
    length = 16384 + rng.choice([-1, 0, 0, 1, 1, 2, 500])
    nots = length - len(b"GL..") - len(TRUE) - len(b"EN")
    data = b"GL" + part(b"\6" * nots + TRUE) + b"EN"
    return rng.choice([data, data[:-1], data + b"\0", data[: 16380] + data[16381:]])


def many_records(rng):
    """About as many records of a kind as there may be."""
    most = {b"DT": 31, b"FN": 64, b"UK": 16, b"GL": 32, b"EN": 1}
    contents = {b"DT": b"\1\0", b"FN": b"\0\0" + part(TRUE), b"UK": b"\0", b"GL": part(TRUE), b"EN": b""}
    data = b""
    chosen = rng.choice(MARKS)
    for mark in MARKS:
        count = rng.choice([0, 1, 2]) if mark != b"EN" else 1
        if mark == chosen:
            count = most[mark] + rng.choice([-1, 0, 1, 1])
        data += (mark + contents[mark]) * count
    return data if rng.random() < 0.8 else damage(rng, data)


def many_parts(rng):
    """Counts of constructors, arguments and parameters about their limits."""
    constructors = rng.choice([0, 1, 16, 17])
    arity = rng.choice([0, 6, 7])
    parameters = rng.choice([0, 6, 7, 255])
    data = record(b"DT", [constructors], bytes([0]) * constructors)
    data += record(b"DT", [2, 0, arity], [rng.choice([0, 1, 2])] * arity)
    body = bytes([0, rng.randrange(8)]) if rng.random() < 0.5 else b"\2\2\0"
    data += record(b"FN", [parameters], [2] * parameters, [2], part(body))
    return data + record(b"UK", [rng.randrange(4)]) + b"EN"


def deep_types(rng):
    """A row of types, each made of the next, whose least depths go from 1 to about 8, and some that have no value."""
    deepest = rng.choice([7, 8, 8, 9, 10])
    data = b""
    for number in range(1, deepest + 1):
        argument = number + 1 if number < deepest else rng.choice([number, 0, 0, 0])
        data += rng.choice([record(b"DT", [1, 1, argument]), record(b"DT", [2, 1, argument, 2, number, 0])])
    if rng.random() < 0.3:
        data += record(b"DT", [1, 2, 0, rng.randrange(deepest + 2)])
    return data + record(b"UK", [1]) + b"EN"


def wide_scopes(rng):
    """Cases within cases that bind six variables each, up to a branch that sees about 64."""
    data = record(b"DT", [1, 6, 0, 0, 0, 0, 0, 0]) + record(b"DT", [2, 3, 0, 0, 0, 0])
    depth, parameters = rng.choice([(9, 6), (10, 4), (10, 4), (10, 4), (10, 5), (10, 3), (10, 0), (11, 0)])
    body = b"".join(bytes([4, 1, 2, 1, 0]) + TRUE * 6 for _ in range(depth))
    last = rng.choice([TRUE, bytes([0, rng.choice([62, 63, 64])]), bytes([4, 2, 2, 2, 1]) + TRUE + TRUE, b"", b"\x08"])
    function = record(b"FN", [parameters], [0] * parameters, [0], part(body + last))
    return data + function + b"EN"


def deep_terms(rng):
    """A goal of many nested terms, lawful or with a fault at the bottom."""
    depth = rng.choice([100, 1000, 4000])
    form = rng.choice([b"\6", b"\5" + TRUE, b"\7\0" + FALSE, b"\4\0" + TRUE + FALSE])
    bottom = rng.choice([TRUE, TRUE, b"", b"\1\0", b"\2\1\0", b"\2\0\2"])
    goal = (form * depth)[: 16000 // len(form) * len(form)] + bottom
    return b"GL" + part(goal) + b"EN"


def marks_alone(rng):
    """A row of marks and bytes, few of them where they may stand."""
    pieces = MARKS + [b"D", b"dt", b"MD", b"\0", b"\1\0", part(TRUE), b"\0\0" + part(TRUE), b"", b"TD"]
    return b"".join(rng.choice(pieces) for _ in range(rng.randrange(7)))


FORMS = [many_records, many_parts, deep_types, wide_scopes, wide_scopes, deep_terms, marks_alone]


def damaged_problem(rng):
    chance = rng.random()
    if chance < 0.4:
        return damage(rng, sound_problem(rng).bytes())
    if chance < 0.75:
        return damaged_terms(rng)
    if chance < 0.76:
        return lengths(rng)
    return rng.choice(FORMS)(rng)
