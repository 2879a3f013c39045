#!/usr/bin/env python3
"""Searches problems with seek, with either chooser, and asks cvc5 the same: python3 beside_cvc5.py PROBLEMS SEEK REPLAY.

cvc5 runs with --fmf-fun (finite models of recursive functions), and again with --fmf-bound beside it, on the text of smt.py. The two do not ask alike: seek goes through the
depths from 1 on and ends at the first with a model, or after the deepest depth; cvc5 knows no depth. So a NONE to depth N and an unsat agree,
though unsat says more; and a NONE to depth N does not contradict a model of cvc5's that is deeper than N. A model of cvc5's is turned into
model bytes, and replay_model has to find all goals true. Whatever contradicts ends this script.

Each is run REPEATS (3) times, of which the medians are told, and ended after SECONDS_EACH (60) of processor time. Without cvc5, seek runs alone."""
import os
import re
import shutil
import sys
from measuring import Run, runs
from smt import problem

PROBLEMS, SEEK, REPLAY = sys.argv[1:4]
REPEATS, SECONDS = int(os.environ.get("REPEATS", 3)), int(os.environ.get("SECONDS_EACH", 60))
MOST_ROUNDS = 65535
CVC5 = shutil.which("cvc5")
CVC5_OPTIONS = {"cvc5": ["--fmf-fun"], "cvc5 b": ["--fmf-fun", "--fmf-bound"]}
SEARCHES = ([(f"palindrome-{length}-{total}", 8) for length in (2, 4, 6) for total in (2, 3, 8, 12)]
            + [(f"sorted-{length}-{total}", 9) for length, total in ((2, 3), (4, 6), (6, 8))]
            + [("reversal", 8), ("sorting", 6), ("sorting-faulty", 8)])


def path(name, kind="bin"):
    return os.path.join(PROBLEMS, f"{name}.{kind}")


def seek(chooser, name, *options):
    return runs([SEEK, f"--{chooser}", "--steps", "4096", *map(str, options), path(name)], REPEATS, SECONDS)


def told(name, solver, run, says):
    """A line on a search: the rounds of all depths that were answered, and what a round took of the processor."""
    rounds = sum(map(int, re.findall(r" rounds (\d+)", run.out)))
    each = f"{rounds:6} rounds {1000 * run.user / rounds:8.3f} ms each" if rounds else " " * 29
    print(f"{name:17} {solver:8} {run.wall:8.3f} s wall {run.user:8.3f} s user {each}   {says}{' .. ended' if run.ended else ''}", flush=True)
    return rounds


def last_answer(run):
    """Depth and outcome of the last line that tells of a depth."""
    found = re.findall(r"^depth (\d+) ([A-Z ]+) rounds", run.out, re.MULTILINE)
    return (int(found[-1][0]), found[-1][1]) if found else (0, "NONE")


def values(text):
    """The values in what cvc5 writes, ((u0 VALUE) ..), as nested lists of words."""
    stack = [[]]
    for word in re.findall(r"[()]|[^\s()]+", text):
        if word == "(":
            stack.append([])
        elif word == ")":
            whole = stack.pop()
            stack[-1].append(whole)
        else:
            stack[-1].append(word)
    return [value for _, value in stack[0][0]]


def depth(value):
    return 1 if isinstance(value, str) else 1 + max(map(depth, value[1:]))


def value_bytes(value):
    head, *arguments = [value] if isinstance(value, str) else value
    named = re.fullmatch(r"t(\d+)c(\d+)", head)
    t, c = map(int, named.groups()) if named else (0, ("false", "true").index(head))
    return [2, t, c] + sum(map(value_bytes, arguments), [])


def replayed(name, found):
    """Whether replay_model finds every goal true under the values."""
    with open(path(name, "model"), "wb") as f:
        f.write(bytes(sum([[0x4D, 0x44, k] + value_bytes(value) for k, value in enumerate(found)], [])))
    goals = Run([REPLAY, path(name), path(name, "model")], SECONDS).out.splitlines()
    return bool(goals) and all(line.endswith(" true") for line in goals)


def agreement(name, searched, answer, found):
    """How what seek found compares with what cvc5 did."""
    at, outcome = searched
    if answer not in ("sat", "unsat") or outcome.startswith("SPENT"):
        return "nothing to compare"
    if answer == "sat":
        deep = max(map(depth, found))
        if not replayed(name, found):
            sys.exit(f"{name}: the model of cvc5's does not make the goals true")
        if outcome == "MODEL" and deep >= at:
            return f"agree: models of depth {at} and {deep}, and the second replays true"
        if outcome == "NONE" and deep > at:
            return f"no contradiction: a model of depth {deep}, which replays true, is deeper than was searched"
    elif outcome in ("NONE", "NEVER"):
        return f"agree: {outcome} {'to depth ' + str(at) if outcome == 'NONE' else 'at any depth'}, and unsat at every depth"
    sys.exit(f"{name}: seek says {outcome} at depth {at}, and cvc5 {answer}")


def beside(name, deepest):
    searched = set()
    for chooser in ("plain", "learning"):
        run = seek(chooser, name, "--depth", deepest, "--rounds", MOST_ROUNDS)
        told(name, chooser, run, " ".join(map(str, last_answer(run))))
        searched |= set() if run.ended else {last_answer(run)}
    if not CVC5:
        return
    with open(path(name), "rb") as source, open(path(name, "smt2"), "w") as target:
        target.write(problem(list(source.read())))
    for solver, options in CVC5_OPTIONS.items():
        run = runs([CVC5, *options, "--produce-models", "--dag-thresh=0", path(name, "smt2")], REPEATS, SECONDS)
        answer = run.out.split("\n")[0] or "no answer"
        found = values(run.out[len("sat"):]) if answer == "sat" else []
        told(name, solver, run, "; ".join([answer] + sorted({agreement(name, s, answer, found) for s in searched})))


def growth(name, deepest, limits):
    """Searches with one limit of rounds after the other, and tells what a round more takes between each and the next."""
    for chooser in ("plain", "learning"):
        before = None
        for limit in limits:
            run = seek(chooser, name, "--depth", deepest, "--rounds", limit)
            rounds = told(name, chooser, run, " ".join(map(str, last_answer(run))))
            if run.ended:
                break
            if before and rounds > before[0]:
                print(f"{'':26} {1000 * (run.user - before[1]) / (rounds - before[0]):.3f} ms for each round from {before[0]} to {rounds}")
            before = rounds, run.user


def main():
    for name, deepest in SEARCHES:
        beside(name, deepest)
    # Sixteen naturals above 40 fill the table of 512 unknowns at depth 42. The digits need one depth alone.
    growth("unknowns", 64, (100, 250, 500, MOST_ROUNDS))
    growth("digits-2", 1, (MOST_ROUNDS,))
    growth("digits-3", 1, (500, 1000, 2000, MOST_ROUNDS))
    growth("digits-most", 1, (500, 1000, 2000, 4000, MOST_ROUNDS))


if __name__ == "__main__":
    main()
