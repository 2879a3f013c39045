"""Random problems as bytes: sound ones, small enough to search, and damaged ones."""

from problems import BOOL, DEEPEST, least_depths

NATURAL = [(), (1,)]
LIST = [(), (0, 2)]


def record(mark, *parts):
    return mark + b"".join(bytes(part) for part in parts)


def part(term):
    return len(term).to_bytes(2, "big") + term


class Sound:
    """A problem in the making: its declarations, and terms of a wanted type written at random."""

    def __init__(self, rng):
        self.rng = rng
        self.types = [[(), ()]]
        self.least = [1]
        self.functions = []  # (parameters, result)
        self.bodies = []
        self.unknowns = []
        self.goals = []

    def bytes(self):
        """The records, with the parts as they stand now."""
        rows = []
        for constructors in self.types[1:]:
            lists = [bytes([len(arguments), *arguments]) for arguments in constructors]
            rows.append(record(b"DT", [len(constructors)], *lists))
        for (parameters, result), body in zip(self.functions, self.bodies):
            rows.append(record(b"FN", [len(parameters), *parameters, result], part(body)))
        rows += [record(b"UK", [t]) for t in self.unknowns]
        rows += [record(b"GL", part(goal)) for goal in self.goals]
        return b"".join(rows) + b"EN"

    # Declarations

    def declare_types(self):
        rng = self.rng
        while True:
            count = rng.choice([0, 1, 1, 1, 2, 2, 3])
            types = [[(), ()]]
            for _ in range(count):
                types.append([self.arguments(count) for _ in range(rng.choice([1, 2, 2, 2, 3, 4]))])
            if count and rng.random() < 0.5:
                types[1] = NATURAL
            least = least_depths(types)
            if max(least) <= DEEPEST:
                self.types, self.least = types, least
                return

    def arguments(self, count):
        arity = self.rng.choices([0, 1, 2, 3, 6], [8, 8, 4, 1, 0.2])[0]
        return tuple(self.rng.randint(0, count) for _ in range(arity))

    def any_type(self):
        return self.rng.randrange(len(self.types))

    def declare_functions(self):
        rng = self.rng
        for _ in range(rng.choice([0, 0, 1, 1, 2, 3])):
            parameters = tuple(self.any_type() for _ in range(rng.choice([0, 1, 1, 2, 2, 3])))
            result = BOOL if rng.random() < 0.4 else self.any_type()
            self.functions.append((parameters, result))
        for number in range(len(self.functions)):
            self.bodies.append(self.body(number))

    def body(self, number):
        """Most often a case on the first parameter, with calls of the function on what the case binds."""
        parameters, result = self.functions[number]
        if not parameters or self.rng.random() < 0.3:
            return self.term(result, parameters, 4)
        subject = self.rng.randrange(len(parameters))
        t = parameters[subject]
        branches = []
        for arguments in self.types[t]:
            scope = parameters + arguments
            bound = [len(parameters) + i for i, a in enumerate(arguments) if a == t]
            branches.append(self.branch(number, subject, scope, bound))
        return bytes([4, t, 0, subject]) + b"".join(branches)

    def branch(self, number, subject, scope, bound):
        parameters, result = self.functions[number]
        if not bound or self.rng.random() < 0.2:
            return self.term(result, scope, 2)
        call = bytes([3, number])
        for i, t in enumerate(parameters):
            call += bytes([0, self.rng.choice(bound)]) if i == subject else self.term(t, scope, 1)
        if result == BOOL:
            other = self.term(BOOL, scope, 2)
            return self.rng.choice([call, b"\5" + other + call, b"\5" + call + other, b"\6" + call])
        fitting = [c for c, arguments in enumerate(self.types[result]) if result in arguments]
        if not fitting or self.rng.random() < 0.2:
            return call
        c = self.rng.choice(fitting)
        hole = self.types[result][c].index(result)
        arguments = [call if i == hole else self.term(a, scope, 1) for i, a in enumerate(self.types[result][c])]
        return bytes([2, result, c]) + b"".join(arguments)

    # Terms

    def term(self, wanted, scope, fuel, are_unknowns_met=False):
        """A term of the wanted type; unknowns stand in it as goals have them, and seldom elsewhere."""
        rng = self.rng
        leaves = [bytes([0, v]) for v, t in enumerate(scope) if t == wanted] * 2
        if are_unknowns_met or rng.random() < 0.05:
            leaves += [bytes([1, k]) for k, t in enumerate(self.unknowns) if t == wanted] * 3
        if fuel <= 0:
            return rng.choice(leaves) if leaves else self.small(wanted)
        options = [(self.constructor, 2), (self.case, 1)]
        options += [(lambda *_: rng.choice(leaves), 3)] if leaves else []
        options += [(self.call, 3)] if any(f[1] == wanted for f in self.functions) else []
        options += [(self.logic, 5)] if wanted == BOOL else []
        form = rng.choices([o[0] for o in options], [o[1] for o in options])[0]
        return form(wanted, scope, fuel - 1, are_unknowns_met)

    def small(self, wanted):
        """A value of the least depth."""
        for c, arguments in enumerate(self.types[wanted]):
            if all(self.least[a] < self.least[wanted] for a in arguments):
                return bytes([2, wanted, c]) + b"".join(self.small(a) for a in arguments)
        raise ValueError("no value")

    def constructor(self, wanted, scope, fuel, met):
        c = self.rng.randrange(len(self.types[wanted]))
        arguments = self.types[wanted][c]
        return bytes([2, wanted, c]) + b"".join(self.term(a, scope, fuel, met) for a in arguments)

    def call(self, wanted, scope, fuel, met):
        f = self.rng.choice([f for f, (_, result) in enumerate(self.functions) if result == wanted])
        return bytes([3, f]) + b"".join(self.term(a, scope, fuel, met) for a in self.functions[f][0])

    def case(self, wanted, scope, fuel, met):
        t = self.any_type()
        if any(len(scope) + len(arguments) > 64 for arguments in self.types[t]):
            return self.small(wanted)
        branches = [self.term(wanted, scope + tuple(arguments), fuel - 1, met) for arguments in self.types[t]]
        return bytes([4, t]) + self.term(t, scope, fuel, met) + b"".join(branches)

    def logic(self, _, scope, fuel, met):
        tag = self.rng.choice([5, 6, 7, 7])
        if tag == 5:
            return b"\5" + self.term(BOOL, scope, fuel, met) + self.term(BOOL, scope, fuel, met)
        if tag == 6:
            return b"\6" + self.term(BOOL, scope, fuel, met)
        t = self.any_type()
        return bytes([7, t]) + self.term(t, scope, fuel, met) + self.term(t, scope, fuel, met)


def random_problem(rng):
    sound = Sound(rng)
    sound.declare_types()
    sound.unknowns = [sound.any_type() for _ in range(rng.choice([1, 1, 1, 2, 2, 3]))]
    sound.declare_functions()
    for _ in range(rng.choice([1, 1, 1, 2, 2, 3])):
        sound.goals.append(sound.term(BOOL, (), rng.choice([3, 4, 5]), True))
    return sound


def numeral(n):
    return bytes([2, 1, 1]) * n + bytes([2, 1, 0])


def calculation(rng):
    """Sums, doubles, lengths and reversals of naturals and lists, with goals that often have few or deep models."""
    sound = Sound(rng)
    sound.types = [[(), ()], NATURAL, LIST]
    sound.least = [1, 1, 1]
    sound.functions = [((1, 1), 1), ((2, 2), 2), ((2,), 2), ((2,), 1), ((1,), 0)]
    sound.bodies = [
        bytes([4, 1, 0, 0, 0, 1, 2, 1, 1, 3, 0, 0, 2, 0, 1]),  # sum
        bytes([4, 2, 0, 0, 0, 1, 2, 2, 1, 0, 2, 3, 1, 0, 3, 0, 1]),  # one list after the other
        bytes([4, 2, 0, 0, 2, 2, 0, 3, 1, 3, 2, 0, 2, 2, 2, 1, 0, 1, 2, 2, 0]),  # reversal
        bytes([4, 2, 0, 0, 2, 1, 0, 2, 1, 1, 3, 3, 0, 2]),  # length
        bytes([4, 1, 0, 0, 2, 0, 1, 6, 3, 4, 0, 1]),  # evenness
    ]
    sound.unknowns = rng.choice([[1], [2], [1, 1], [1, 2], [2, 2], [0, 1], [1, 1, 1]])
    for _ in range(rng.choice([1, 1, 2, 3])):
        t = rng.choice([0, 1, 1, 2, 2])
        left = sound.term(t, (), 2, True)
        right = numeral(rng.randrange(4)) if t == 1 and rng.random() < 0.5 else sound.term(t, (), 2, True)
        goal = bytes([7, t]) + left + right
        sound.goals.append(b"\6" + goal if rng.random() < 0.3 else goal)
    return sound


def sound_problem(rng):
    """Small enough that a search of a few rounds has something to do, and not much."""
    while True:
        sound = random_problem(rng) if rng.random() < 0.6 else calculation(rng)
        if len(sound.bytes()) <= 700:
            return sound
