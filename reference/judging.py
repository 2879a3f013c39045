"""Judging terms under a decision of some unknowns, written from docs/RULES.md alone.

A held term is ("term", term, environment) or ("unknown", unknown). An answer is ("is", c, arguments, explanation) or
("waits", unknown).
"""

import sys

# A judging of 4,096 steps may be as many calls deep, and each may be three Python functions deep.
sys.setrecursionlimit(100000)

NOTHING = frozenset()
FALSE, TRUE, OUT, WAITING = 0, 1, 2, 3
WORDS = ["false", "true", "out", "waiting"]


class OutOfSteps(Exception):
    pass


def truth(value, explanation):
    return ("is", int(value), (), explanation)


class Judging:
    """One judging: `decide` answers an unknown's constructor, or None where it is undecided."""

    def __init__(self, problem, decide, steps):
        self.problem = problem
        self.decide = decide
        self.steps = steps

    def step(self):
        if self.steps == 0:
            raise OutOfSteps
        self.steps -= 1

    def head(self, held):
        self.step()
        if held[0] == "unknown":
            return self.asked(held[1])
        _, term, environment = held
        return getattr(self, term[0])(environment, *term[1:])

    def asked(self, unknown):
        c = self.decide(unknown)
        if c is None:
            return ("waits", unknown)
        parts = tuple([("unknown", part) for part in self.problem.parts(unknown, c)])
        return ("is", c, parts, frozenset([unknown]))

    def unknown(self, _, k):
        return self.asked(self.problem.roots[k])

    def variable(self, environment, v):
        return self.head(environment[v])

    def constructor(self, environment, _, c, arguments):
        return ("is", c, hold(arguments, environment), NOTHING)

    def call(self, environment, f, arguments):
        return self.head(("term", self.problem.functions[f][2], hold(arguments, environment)))

    def case(self, environment, subject, branches):
        found = self.head(("term", subject, environment))
        if found[0] == "waits":
            return found
        _, c, parts, explanation = found
        answer = self.head(("term", branches[c], environment + parts))
        return answer if answer[0] == "waits" else answer[:3] + (explanation | answer[3],)

    def conjunction(self, environment, left, right):
        first = self.head(("term", left, environment))
        if first[0] == "is" and first[1] == 0:
            return truth(False, first[3])
        second = self.head(("term", right, environment))
        if second[0] == "is" and second[1] == 0:
            return truth(False, second[3])
        if first[0] == "waits":
            return first
        return second if second[0] == "waits" else truth(True, first[3] | second[3])

    def negation(self, environment, part):
        answer = self.head(("term", part, environment))
        return answer if answer[0] == "waits" else truth(answer[1] == 0, answer[3])

    def equal(self, environment, left, right):
        found = self.compared(("term", left, environment), ("term", right, environment))
        return found if found[0] == "waits" else truth(found[0] == "same", found[1])

    def compare(self, left, right):
        self.step()
        return self.compared(left, right)

    def compared(self, left, right):
        """("same", explanation), ("differ", explanation) or ("waits", unknown)."""
        first = self.head(left)
        second = self.head(right)
        if first[0] == "waits":
            return first
        if second[0] == "waits":
            return second
        explanation = first[3] | second[3]
        if first[1] != second[1]:
            return ("differ", explanation)
        parts = self.pairs(first[2], second[2])
        return parts if parts[0] == "waits" else (parts[0], explanation | parts[1])

    def pairs(self, lefts, rights):
        waits, joined = None, NOTHING
        for left, right in zip(lefts, rights):
            found = self.compare(left, right)
            if found[0] == "differ":
                return found
            if found[0] == "waits":
                waits = waits or found
            else:
                joined |= found[1]
        return waits or ("same", joined)


def hold(terms, environment):
    return tuple([("term", term, environment) for term in terms])


def judge(problem, goal, decide, steps):
    """(FALSE or TRUE, explanation), (WAITING, unknown) or (OUT, None)."""
    try:
        answer = Judging(problem, decide, steps).head(("term", problem.goals[goal], ()))
    except OutOfSteps:
        return OUT, None
    return (WAITING, answer[1]) if answer[0] == "waits" else (answer[1], answer[3])


def steps_taken(problem, goal, decide, most):
    """How many steps a goal's judging takes, or None if more than the most."""
    judging = Judging(problem, decide, most)
    try:
        judging.head(("term", problem.goals[goal], ()))
    except OutOfSteps:
        return None
    return most - judging.steps
