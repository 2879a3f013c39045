"""Problem bytes: the check, and the problem that lawful bytes encode. Written from docs/FORMAT.md alone."""

TYPE, FUNCTION, UNKNOWN, GOAL, END = range(5)
MARKS = {b"DT": TYPE, b"FN": FUNCTION, b"UK": UNKNOWN, b"GL": GOAL, b"EN": END}
AT_MOST = {TYPE: 31, FUNCTION: 64, UNKNOWN: 16, GOAL: 32, END: 1}
BYTES_AT_MOST = 16384
SCOPE_AT_MOST = 64
DEEPEST = 8
BOOL = 0


class Refused(Exception):
    """The first fault of some bytes: its number and its place."""

    def __init__(self, number, place):
        super().__init__(f"refused {number} at {place}")
        self.number = number
        self.place = place


class Unknown:
    """An unknown of a problem, or a child of one: each stands once, so that it is its own name."""

    __slots__ = ("type", "children")

    def __init__(self, t):
        self.type = t
        self.children = {}


class Problem:
    """types[t] has a list of argument types for each constructor; functions are (parameters, result, body)."""

    def __init__(self):
        self.types = [[(), ()]]
        self.functions = []
        self.unknowns = []
        self.goals = []
        self.least = []
        self.roots = []

    def need(self, t, c):
        arguments = self.types[t][c]
        return 1 + max(self.least[a] for a in arguments) if arguments else 1

    def parts(self, unknown, c):
        """The children of an unknown, if its constructor is c."""
        if c not in unknown.children:
            unknown.children[c] = tuple([Unknown(a) for a in self.types[unknown.type][c]])
        return unknown.children[c]


class Records:
    """A reader of the records layer. It notes the places that the later layers look at."""

    def __init__(self, data):
        self.data = data
        self.at = 0
        self.mark = 0
        self.problem = Problem()
        self.type_marks = []
        self.type_numbers = []  # (place, number), front to back within each kind
        self.bodies = []  # (start, end)
        self.goals = []

    def byte(self):
        if self.at >= len(self.data):
            raise Refused(3, self.mark)
        self.at += 1
        return self.data[self.at - 1]

    def count(self, low, high):
        place = self.at
        number = self.byte()
        if not low <= number <= high:
            raise Refused(4, place)
        return number

    def type_number(self):
        self.type_numbers.append((self.at, self.byte()))
        return self.type_numbers[-1][1]

    def part(self):
        length = self.byte() * 256
        length += self.byte()
        start = self.at
        if start + length > len(self.data):
            raise Refused(3, self.mark)
        self.at += length
        return start, self.at

    def read(self):
        if len(self.data) > BYTES_AT_MOST:
            raise Refused(1, BYTES_AT_MOST)
        last, met = TYPE, dict.fromkeys(AT_MOST, 0)
        while True:
            self.mark = self.at
            kind = MARKS.get(bytes(self.data[self.at : self.at + 2]))
            if kind is None or kind < last:
                raise Refused(2, self.mark)
            if met[kind] == AT_MOST[kind]:
                raise Refused(4, self.mark)
            met[kind] += 1
            last = kind
            self.at += 2
            if kind == END:
                break
            self.record(kind)
        if self.at < len(self.data):
            raise Refused(8, self.at)

    def record(self, kind):
        problem = self.problem
        if kind == TYPE:
            self.type_marks.append(self.mark)
            constructors = []
            for _ in range(self.count(1, 16)):
                constructors.append(tuple([self.type_number() for _ in range(self.count(0, 6))]))
            problem.types.append(constructors)
        elif kind == FUNCTION:
            parameters = tuple([self.type_number() for _ in range(self.count(0, 6))])
            problem.functions.append([parameters, self.type_number(), None])
            self.bodies.append(self.part())
        elif kind == UNKNOWN:
            problem.unknowns.append(self.type_number())
        else:
            self.goals.append(self.part())


def least_depths(types):
    """The least depth of each type's values; none is more than 8 deep, and 9 stands for all that are deeper."""
    least = [DEEPEST + 1] * len(types)
    for depth in range(1, DEEPEST + 1):
        found = [
            any(all(least[a] < depth for a in arguments) for arguments in constructors) for constructors in types
        ]
        for t, is_found in enumerate(found):
            if is_found and least[t] > depth:
                least[t] = depth
    return least


class Terms:
    """The terms layer: reads one term from its bytes, with a row of tasks in place of recursion."""

    def __init__(self, problem, data, start, end):
        self.problem = problem
        self.data = data
        self.at = start
        self.end = end
        self.tasks = []
        self.built = []

    def byte(self, is_lawful):
        """The next byte, which fails where it lacks or is not lawful."""
        if self.at >= self.end or not is_lawful(self.data[self.at]):
            raise Refused(6, self.at)
        self.at += 1
        return self.data[self.at - 1]

    def read(self, wanted, scope):
        self.tasks.append((None, wanted, scope))
        while self.tasks:
            make, wanted, scope = self.tasks.pop()
            if make is None:
                self.term(wanted, scope)
            else:
                make()
        if self.at < self.end:
            raise Refused(6, self.at)
        return self.built.pop()

    def then(self, parts, make):
        """Puts the tasks of a term's parts, (type, scope) each, and then the making of the term from them."""

        def build():
            count = len(parts)
            made = self.built[len(self.built) - count :]
            del self.built[len(self.built) - count :]
            self.built.append(make(made))

        self.tasks.append((build, None, None))
        self.tasks.extend((None, wanted, scope) for wanted, scope in reversed(parts))

    def term(self, wanted, scope):
        types, functions = self.problem.types, self.problem.functions
        if len(scope) > SCOPE_AT_MOST:
            raise Refused(6, self.at)
        tag = self.byte(lambda b: b <= 7 and (b < 5 or wanted == BOOL))
        if tag == 0:
            v = self.byte(lambda b: b < len(scope) and scope[b] == wanted)
            self.built.append(("variable", v))
        elif tag == 1:
            unknowns = self.problem.unknowns
            k = self.byte(lambda b: b < len(unknowns) and unknowns[b] == wanted)
            self.built.append(("unknown", k))
        elif tag == 2:
            self.byte(lambda b: b == wanted)
            c = self.byte(lambda b: b < len(types[wanted]))
            self.then([(a, scope) for a in types[wanted][c]], lambda made: ("constructor", wanted, c, tuple(made)))
        elif tag == 3:
            f = self.byte(lambda b: b < len(functions) and functions[b][1] == wanted)
            self.then([(a, scope) for a in functions[f][0]], lambda made: ("call", f, tuple(made)))
        elif tag == 4:
            t = self.byte(lambda b: b < len(types))
            branches = [(wanted, scope + arguments) for arguments in types[t]]
            self.then([(t, scope)] + branches, lambda made: ("case", made[0], tuple(made[1:])))
        elif tag == 5:
            self.then([(BOOL, scope)] * 2, lambda made: ("conjunction", made[0], made[1]))
        elif tag == 6:
            self.then([(BOOL, scope)], lambda made: ("negation", made[0]))
        else:
            t = self.byte(lambda b: b < len(types))
            self.then([(t, scope)] * 2, lambda made: ("equal", made[0], made[1]))


def read_problem(data):
    """The problem that the bytes encode; raises Refused with their first fault."""
    records = Records(data)
    records.read()
    problem = records.problem
    for place, number in records.type_numbers:
        if number >= len(problem.types):
            raise Refused(5, place)
    problem.least = least_depths(problem.types)
    for mark, least in zip(records.type_marks, problem.least[1:]):
        if least > DEEPEST:
            raise Refused(7, mark)
    for function, (start, end) in zip(problem.functions, records.bodies):
        function[2] = Terms(problem, data, start, end).read(function[1], function[0])
    for start, end in records.goals:
        problem.goals.append(Terms(problem, data, start, end).read(BOOL, ()))
    problem.roots = [Unknown(t) for t in problem.unknowns]
    return problem
