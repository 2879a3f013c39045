"""Random model bytes of a problem: whole values, values with open parts, and damaged ones."""

from damaging import damage

MARKS = [b"MD", b"DT", b"\x08\x08", b"\2\1", b"\2\0"]


def random_model(rng, problem):
    openness = rng.choice([0, 0.1, 0.3])

    def value(t, fuel):
        if rng.random() < openness:
            return b"\x08"
        constructors = problem.types[t]
        fitting = [c for c in range(len(constructors)) if fuel > 0 or problem.need(t, c) == problem.least[t]]
        c = rng.choice(fitting)
        return bytes([2, t, c]) + b"".join(value(a, fuel - 1) for a in constructors[c])

    fuel = rng.choice([0, 1, 2, 3, 4])
    return b"".join(b"MD" + bytes([k]) + value(t, fuel) for k, t in enumerate(problem.unknowns))


def damaged_model(rng, problem):
    model = random_model(rng, problem)
    if rng.random() < 0.1:
        return rng.choice([b"", model + b"MD", b"MD", b"MD" + bytes([len(problem.unknowns)]) + b"\x08", model * 2])
    return damage(rng, model, MARKS)


def long_model(rng):
    """Bytes of a problem with an unknown natural, and of a model about as long as one may be."""
    problem = b"DT\2\0\1\1UK\1GL" + bytes([0, 7, 7, 1, 1, 0, 2, 1, 0]) + b"EN"
    end = rng.choice([b"\x08", b"\2\1\0", b"\2\1", b"\2\1\2", b""])
    model = b"MD\0" + b"\2\1\1" * rng.choice([5458, 5459, 5460, 5461]) + end
    return problem, model
