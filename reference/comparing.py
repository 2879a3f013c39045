"""The comparisons. A label (a seed or an example's name) tells where the bytes came from."""

import finder
from assigning import has_model
from judging import TRUE, judge, steps_taken
from modelling import random_model
from models import depth_filled, read_model, show, write_model
from problems import Refused, read_problem
from programs import Failed
from sessions import FINISHED, STEPS_AT_MOST

MODEL_BYTES_AT_MOST = 1584

# The exit status of the loader in C by the word of the last answer; any other is of a search that a count stopped.
LOADED = {"MODEL": 1, "NONE": 0, "NEVER": 0}
STOPPED = 2
REFUSED = 3


class Comparing:
    def __init__(self, programs, tally):
        self.programs = programs
        self.tally = tally

    def alike(self, kind, label, ours, theirs, **files):
        """Compares lines; `theirs` runs the program."""
        self.tally.count("compared", kind)
        try:
            lines = theirs()
        except Failed as failed:
            self.tally.differ(label, f"{kind}: {failed}", **files)
            return
        if lines != ours:
            self.tally.differ(label, f"{kind}: the program says {lines[:8]} and not {ours[:8]}", **files)

    def check(self, label, data):
        """The problem, or None if the reference refuses it."""
        ours = finder.list_lines(data)
        self.alike("check", label, ours, lambda: self.programs.list(data), problem=data)
        if ours[0].startswith("refused"):
            self.load(label, data, (1, 1, 1, "--plain"), ours, REFUSED)
            self.tally.count("check", "refused", int(ours[0].split()[1]))
            return None
        self.tally.count("check", "accepted")
        return read_problem(data)

    def load(self, label, data, options, lines, status):
        """That the loader in C, if it was built, prints these lines."""
        if self.programs.loader_path is not None:
            self.alike("the loader in C", label, lines, lambda: self.programs.load(data, options, status), problem=data)

    def replay(self, label, data, model, kind="replay"):
        ours = finder.replay_lines(data, model)
        self.alike(kind, label, ours, lambda: self.programs.replay(data, model), problem=data, model=model)
        for line in ours:
            words = line.split()
            if words[0] == "goal":
                self.tally.count(kind, words[2])
            elif words[1] == "50:":
                self.tally.count(kind, f"refused 50: {words[2]}")
            else:
                self.tally.count(kind, "a problem refused")

    def padded_replay(self, label, rng, sound, problem):
        """Seldom: a replay of a goal that takes exactly as many steps as there are, or one less or more, by its many nots."""
        if rng.random() > 0.1:
            return
        data = random_model(rng, problem)
        model = read_model(problem, data)
        goal = rng.randrange(len(problem.goals))
        taken = steps_taken(problem, goal, model.get, STEPS_AT_MOST - 1)
        if taken is None:
            return
        sound.goals[goal] = b"\6" * (STEPS_AT_MOST - taken + rng.choice([-1, 0, 1])) + sound.goals[goal]
        self.replay(label, sound.bytes(), data, "replay at the last step")

    def first_round(self, label, rng, problem, data, chooser):
        """A round before which nothing is opened, with as many steps as some goal takes, and with one less."""
        taken = [steps_taken(problem, goal, {}.get, STEPS_AT_MOST) for goal in range(len(problem.goals))]
        taken = [steps for steps in taken if steps is not None]
        if not taken:
            return
        steps = rng.choice(taken)
        deepest = max(problem.least[t] for t in problem.unknowns) if problem.unknowns else 1
        self.search(label, problem, data, (deepest, 1, steps, chooser), "first round")
        if steps > 1:
            self.search(label, problem, data, (deepest, 1, steps - 1, chooser), "first round")

    def search(self, label, problem, data, options, kind="search", bound=None):
        """A search of both. `bound` says what of the answers no way of choosing changes: "lines", "words", or None."""
        depth, rounds, steps, chooser = options
        self.tally.count("compared", kind)
        tell = Telling(self.tally, label, f"{kind} {options}", data)
        try:
            answers, lines, model = self.programs.seek(data, depth, rounds, steps, chooser)
        except Failed as failed:
            tell.differ(str(failed))
            return
        ours, session = finder.seek(problem, depth, rounds, steps)
        for answer in answers:
            self.tally.count(f"{kind}: the program", answer.word)
        for answer in ours:
            self.tally.count(f"{kind}: the reference", answer.word)
        if tell.row(answers, depth, rounds):
            told = [answer.line for answer in answers] + lines
            self.load(label, data, options, told, LOADED.get(answers[-1].word, STOPPED))
            self.outcomes(tell, problem, answers, ours, bound)
            found = self.model(tell, problem, answers[-1], steps, lines, model)
            self.opened_alone(tell, answers, session, found)
        if session.model is not None:
            self.our_model(tell, problem, data, session.model)

    def outcomes(self, tell, problem, answers, ours, bound):
        """That answers to the same depth agree, as far as the rules bind them."""
        deepest_least = max((problem.least[t] for t in problem.unknowns), default=0)
        for theirs, mine in zip(answers, ours):
            is_bound = mine.is_forced or theirs.depth < deepest_least or bound == "lines"
            if is_bound:
                self.tally.count("compared", "answers that no way of choosing changes")
                if theirs.line != mine.line():
                    tell.differ(f"no other answer than {mine.line()!r} may be, but the program says {theirs.line!r}")
            if theirs.word in FINISHED and mine.word in FINISHED:
                self.tally.count("compared", "outcomes where both finish")
                self.tally.count("outcomes where both finish", f"{theirs.word} {mine.word}")
                if (theirs.word == "MODEL") != (mine.word == "MODEL"):
                    tell.differ(f"to depth {mine.depth} the program says {theirs.word}, the reference {mine.word}")
        words = [[answer.word for answer in row] for row in (answers, ours)]
        if bound is not None and words[0] != words[1]:
            tell.differ(f"no other outcomes than {words[1][-2:]} may be, but the program has {words[0][-2:]}")
        if ("NEVER" in words[0] and "MODEL" in words[1]) or ("NEVER" in words[1] and "MODEL" in words[0]):
            tell.differ(f"one says NEVER and one MODEL: {words}")
        self.assignments(tell, problem, answers)
        self.assignments(tell, problem, ours)

    def assignments(self, tell, problem, answers):
        """That answers agree with all assignments within the depth, where these are few."""
        last = answers[-1]
        if last.word not in FINISHED:
            return
        expected = has_model(problem, last.depth)
        if expected is None:
            return
        self.tally.count("compared", "outcomes with all assignments tried")
        if expected != (last.word == "MODEL"):
            tell.differ(f"to depth {last.depth} an assignment is {expected}, but the answer {last.word}")

    def model(self, tell, problem, answer, steps, lines, data):
        """That a model of the program is one by the reference: it, or None."""
        if answer.word != "MODEL":
            if data is not None or lines:
                tell.differ(f"a model beside {answer.word}: {lines}")
            return None
        self.tally.count("compared", "models of the program")
        if data is None:
            tell.differ("no model bytes beside MODEL")
            return None
        tell.files["model"] = data
        try:
            model = read_model(problem, data)
        except Refused as refused:
            tell.differ(f"the reference refuses the model: {refused}")
            return None
        self.tally.count("models", "with open parts" if b"?" in "".join(lines).encode() else "whole")
        words = [judge(problem, goal, model.get, steps)[0] for goal in range(len(problem.goals))]
        if any(word != TRUE for word in words):
            tell.differ(f"the model makes goals {words}")
        if lines != show(problem, model):
            tell.differ(f"the program shows {lines}, the reference {show(problem, model)}")
        if depth_filled(problem, model) > answer.depth or len(data) > MODEL_BYTES_AT_MOST:
            tell.differ(f"the model has {len(data)} bytes and fills to depth {depth_filled(problem, model)}")
        return model

    def opened_alone(self, tell, answers, session, model):
        """Which unknown is opened first no chooser can change: a model with one opened unknown shows it."""
        if model is None or sum(answer.opened for answer in answers) != 1 or not session.first:
            return
        self.tally.count("compared", "unknowns opened first")
        if list(model) != list(session.first)[:1]:
            tell.differ("another unknown was opened first")

    def our_model(self, tell, problem, data, model):
        """That a model of the reference is one by the program."""
        written = write_model(problem, model)
        ours = [f"goal {goal} true" for goal in range(len(problem.goals))]
        theirs = lambda: self.programs.replay(data, written)
        self.alike("models of the reference", tell.label, ours, theirs, problem=data, model=written)


class Telling:
    """Tells of differences in one search."""

    def __init__(self, tally, label, what, data):
        self.tally = tally
        self.label = label
        self.what = what
        self.files = {"problem": data}

    def differ(self, text):
        self.tally.differ(self.label, f"{self.what}: {text}", **self.files)

    def row(self, answers, deepest, rounds):
        """Whether the program's answers are a row as the rules have it; their counts too."""
        words = [answer.word for answer in answers]
        is_row = [answer.depth for answer in answers] == list(range(1, len(answers) + 1)) and answers
        if not is_row or any(word != "NONE" for word in words[:-1]) or (words[-1] == "NONE") > (len(words) == deepest):
            self.differ(f"no row of answers: {[answer.line for answer in answers]}")
            return False
        for answer in answers:
            closing = int(answer.word != "SPENT ROUNDS" and answer.rounds != 0)
            is_lawful = answer.rounds == answer.opened + answer.recorded + closing and answer.rounds <= rounds
            if answer.word == "SPENT ROUNDS":
                is_lawful = is_lawful and answer.rounds == rounds
            elif answer.rounds == 0:
                is_lawful = is_lawful and answer.word == "NONE"
            self.tally.count("compared", "counts of an answer")
            if not is_lawful or answer.word == "FOREIGN":
                self.differ(f"no lawful counts: {answer.line}")
        return True
