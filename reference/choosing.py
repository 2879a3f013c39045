"""A chooser: clauses over variables 0, 1, .., and an assignment that meets them and some assumptions, by plain DPLL.

A literal is (variable, value). Of the unmet clauses with a literal that wants true the latest one is taken, and its last open
variable becomes true first. Where all these are met, what is still open may be false: each other clause has, once unit clauses
are followed, a literal that wants false and is not set to true.
"""


class Chooser:
    def __init__(self):
        self.variables = 0
        self.clauses = []  # (the variables that may be true, those that may be false), as sets of bits
        self.wanting = []  # the clauses of which some variable may be true
        self.by_variable = {}

    def new_variable(self):
        self.variables += 1
        return self.variables - 1

    def add(self, clause):
        true = false = 0
        for variable, value in clause:
            if value:
                true |= 1 << variable
            else:
                false |= 1 << variable
        if true & false:
            return  # every assignment meets it
        for variable, _ in clause:
            self.by_variable.setdefault(variable, []).append(len(self.clauses))
        self.clauses.append((true, false))
        if true:
            self.wanting.append((true, false))

    def ask(self, assumptions, clause=None):
        """A list of every variable's value, or None if no assignment will do. A clause holds for this question alone."""
        if clause is not None:
            other = Chooser()
            other.variables = self.variables
            other.clauses = list(self.clauses)
            other.wanting = list(self.wanting)
            other.by_variable = {variable: list(row) for variable, row in self.by_variable.items()}
            other.add(clause)
            return other.ask(assumptions)
        search = Search(self)
        pending = list(assumptions)
        for true, false in self.clauses:
            if (true | false).bit_count() == 1:
                pending.append(((true | false).bit_length() - 1, bool(true)))
            elif not true | false:
                return None
        picks = []
        is_lawful = search.set_all(pending)
        while True:
            if not is_lawful:
                if not picks:
                    return None
                search.true, search.false, variable = picks.pop()
                is_lawful = search.set_all([(variable, False)])
                continue
            variable = search.pick()
            if variable is None:
                return [bool(search.true >> v & 1) for v in range(self.variables)]
            picks.append((search.true, search.false, variable))
            is_lawful = search.set_all([(variable, True)])


class Search:
    """What is set so far, as two sets of bits."""

    def __init__(self, chooser):
        self.clauses = chooser.clauses
        self.wanting = chooser.wanting
        self.by_variable = chooser.by_variable
        self.true = self.false = 0

    def set_all(self, pending):
        """Sets the literals and what follows by unit clauses; False on a clash."""
        while pending:
            variable, value = pending.pop()
            bit = 1 << variable
            if bit & (self.false if value else self.true):
                return False
            if bit & (self.true if value else self.false):
                continue
            if value:
                self.true |= bit
            else:
                self.false |= bit
            for number in self.by_variable.get(variable, ()):
                opened = self.opened(self.clauses[number])
                if opened is None:
                    continue
                if not opened:
                    return False
                if not opened & (opened - 1):
                    pending.append((opened.bit_length() - 1, bool(opened & self.clauses[number][0])))
        return True

    def opened(self, clause):
        """The open variables of a clause, or None if it is met."""
        true, false = clause
        if true & self.true or false & self.false:
            return None
        return (true | false) & ~(self.true | self.false)

    def pick(self):
        for clause in reversed(self.wanting):
            opened = self.opened(clause)
            if opened:
                return opened.bit_length() - 1
        return None
