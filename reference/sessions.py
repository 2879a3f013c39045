"""A session: its table of unknowns, its chooser, and the rounds of a search, written from docs/RULES.md alone."""

from choosing import Chooser
from judging import FALSE, OUT, WAITING, judge

UNKNOWNS_AT_MOST = 512
VARIABLES_AT_MOST = 4096
ENTRIES = 32768
DEEPEST_SEARCH = 64
ROUNDS_AT_MOST = 65535
STEPS_AT_MOST = 4096

FINISHED = ("MODEL", "NONE", "NEVER")


class Spent(Exception):
    def __init__(self, word):
        super().__init__(word)
        self.word = word


class Answer:
    def __init__(self, depth):
        self.depth = depth
        self.word = None
        self.rounds = self.opened = self.recorded = 0
        self.is_forced = True

    def line(self):
        counts = f"rounds {self.rounds} opened {self.opened} recorded {self.recorded}"
        return f"depth {self.depth} {self.word} {counts}"


class Session:
    def __init__(self, problem, variables=VARIABLES_AT_MOST, entries=ENTRIES):
        self.problem = problem
        self.chooser = Chooser()
        self.variables_left = variables
        self.entries = entries
        self.force = set()
        self.model = None
        self.is_forced = True  # so far no chooser could have picked another case of an opened unknown
        self.table = [(root, 1) for root in problem.roots]  # unknowns with their levels
        self.first = {}  # the first variable of each opened unknown
        self.refusal = "21: 61" if variables < len(problem.goals) else None
        if self.refusal is None:
            for _ in problem.goals:
                self.new_variable()

    def new_variable(self):
        self.variables_left -= 1
        return self.chooser.new_variable()

    def add(self, clause):
        self.entries -= len(clause) + 1
        self.chooser.add(clause)

    def put(self, goal):
        self.force.add(goal)

    def search_refusal(self, depth, rounds, steps):
        if not 1 <= depth <= DEEPEST_SEARCH:
            return "40"
        if not (1 <= rounds <= ROUNDS_AT_MOST and 1 <= steps <= STEPS_AT_MOST):
            return "41"
        return None

    def search(self, depth, rounds, steps):
        self.model = None
        answer = Answer(depth)
        if any(self.problem.least[t] > depth for t in self.problem.unknowns):
            answer.word = "NONE"
            return answer
        while answer.word is None:
            if answer.rounds == rounds:
                answer.word = "SPENT ROUNDS"
                break
            answer.rounds += 1
            try:
                self.round(answer, steps)
            except Spent as spent:
                answer.word = spent.word
        answer.is_forced = self.is_forced
        return answer

    def round(self, answer, steps):
        switches = [(goal, True) for goal in sorted(self.force)]
        assumptions = switches + self.denials(answer.depth)
        way = self.chooser.ask(assumptions)
        if way is None:
            answer.word = "NEVER" if self.chooser.ask(switches) is None else "NONE"
            return
        model = self.decided(way)
        self.is_forced = self.is_forced and not self.has_other_way(assumptions, model)
        waits = None
        for goal in sorted(self.force):
            found, reason = judge(self.problem, goal, model.get, steps)
            if found == OUT:
                raise Spent("SPENT STEPS")
            if found == FALSE:
                self.record(goal, reason, model)
                answer.recorded += 1
                return
            if found == WAITING and waits is None:
                waits = reason
        if waits is not None:
            self.open(waits)
            answer.opened += 1
            return
        self.model = model
        answer.word = "MODEL"

    def constructors(self, unknown):
        return self.problem.types[unknown.type]

    def denials(self, depth):
        """That no unknown which fits the depth has a case that reaches beyond it."""
        denied = []
        for unknown, level in self.table:
            if unknown not in self.first or level + self.problem.least[unknown.type] - 1 > depth:
                continue
            for c in range(len(self.constructors(unknown))):
                if level + self.problem.need(unknown.type, c) - 1 > depth:
                    denied.append((self.first[unknown] + c, False))
        return denied

    def decided(self, way):
        model = {}
        for unknown, first in self.first.items():
            cases = [c for c in range(len(self.constructors(unknown))) if way[first + c]]
            if len(cases) != 1:
                raise Spent("FOREIGN")
            model[unknown] = cases[0]
        return model

    def has_other_way(self, assumptions, model):
        other = [(self.first[u] + c, False) for u, c in model.items()]
        return self.chooser.ask(assumptions, other) is not None

    def record(self, goal, explanation, model):
        if self.entries < len(explanation) + 2:
            raise Spent("SPENT CHOOSER")
        self.add([(goal, False)] + [(self.first[u] + model[u], False) for u in explanation])

    def open(self, unknown):
        constructors = self.constructors(unknown)
        m = len(constructors)
        if len(self.table) + sum(map(len, constructors)) > UNKNOWNS_AT_MOST:
            raise Spent("SPENT UNKNOWNS")
        if self.variables_left < m or self.entries < m + 1 + 3 * m * (m - 1) // 2:
            raise Spent("SPENT CHOOSER")
        variables = [self.new_variable() for _ in range(m)]
        self.add([(v, True) for v in variables])
        for i in range(m):
            for j in range(i):
                self.add([(variables[j], False), (variables[i], False)])
        self.first[unknown] = variables[0]
        level = next(level for u, level in self.table if u == unknown)
        for c in range(m):
            self.table += [(part, level + 1) for part in self.problem.parts(unknown, c)]
