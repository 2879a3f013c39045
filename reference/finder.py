"""The reference finder's commands: python3 finder.py check FILE | list FILE | replay FILE MODEL | seek [OPTIONS] FILE."""

import argparse
import sys

from judging import WORDS
from models import replay, show, write_model
from problems import Refused, read_problem
from sessions import STEPS_AT_MOST, Session


def check(data):
    """None if the bytes are a problem, else the line that refuses them."""
    try:
        read_problem(data)
    except Refused as refused:
        return str(refused)
    return None


def replay_lines(data, model):
    try:
        problem = read_problem(data)
    except Refused as refused:
        return [str(refused)]
    try:
        found = replay(problem, model, STEPS_AT_MOST)
    except Refused as refused:
        return [f"refused 50: {refused.number} at {refused.place}"]
    return [f"goal {goal} {WORDS[word]}" for goal, word in enumerate(found)]


def list_lines(data):
    """What a problem has, or the line that refuses it."""
    try:
        problem = read_problem(data)
    except Refused as refused:
        return [str(refused)]
    counts = [len(problem.types), len(problem.functions), len(problem.unknowns), len(problem.goals)]
    lines = ["types {}, functions {}, unknowns {}, goals {}".format(*counts)]
    for t, constructors in enumerate(problem.types):
        needs = "".join(f" {problem.need(t, c)}" for c in range(len(constructors)))
        lines.append(f"type {t}: least depth {problem.least[t]}, needs{needs}")
    return lines


def seek(problem, deepest, rounds, steps):
    """The answers of searches to rising depths with all goals in force, and the session after them."""
    session = Session(problem)
    for goal in range(len(problem.goals)):
        session.put(goal)
    answers = []
    for depth in range(1, deepest + 1):
        answers.append(session.search(depth, rounds, steps))
        if answers[-1].word != "NONE":
            break
    return answers, session


def seek_lines(problem, options):
    number = Session(problem).search_refusal(options.depth, options.rounds, options.steps)
    if number:
        sys.exit(number)
    answers, session = seek(problem, options.depth, options.rounds, options.steps)
    model = session.model
    lines = [answer.line() for answer in answers]
    if model is None:
        return lines
    if options.kept:
        with open(options.kept, "wb") as file:
            file.write(write_model(problem, model))
    return lines + show(problem, model)


def read(path):
    with open(path, "rb") as file:
        return file.read()


def main():
    parser = argparse.ArgumentParser()
    parser.add_argument("command", choices=["check", "list", "replay", "seek"])
    parser.add_argument("problem")
    parser.add_argument("model", nargs="?")
    parser.add_argument("--depth", type=int, default=8)
    parser.add_argument("--rounds", type=int, default=1000)
    parser.add_argument("--steps", type=int, default=512)
    parser.add_argument("--model", dest="kept")
    options = parser.parse_args()
    data = read(options.problem)
    refusal = check(data)
    if refusal or options.command == "check":
        lines = [refusal or "accepted"]
    elif options.command == "list":
        lines = list_lines(data)
    elif options.command == "replay":
        lines = replay_lines(data, read(options.model))
    else:
        lines = seek_lines(read_problem(data), options)
    for line in lines:
        print(line)


if __name__ == "__main__":
    main()
