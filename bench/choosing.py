#!/usr/bin/env python3
"""Writes scripts for chooser_bench into a folder: `v N`, `a L L ..`, `q L L ..`, a call to a line.

Families: random 3-SAT at the ratio 4.26 (r50 .. r200), pigeonhole (php5 .. php8), groups of which exactly one holds with
conflict clauses (groups), and a thousand questions with one clause added between two of them (asks)."""
import os
import random
import sys


def write(folder, name, variables, calls):
    with open(os.path.join(folder, name), "w") as f:
        f.write("v %d\n" % variables)
        for call, literals in calls:
            f.write(" ".join([call] + [str(l) for l in literals]) + "\n")


def clause3(rng, n):
    return [v if rng.random() < 0.5 else -v for v in rng.sample(range(1, n + 1), 3)]


def random3(folder, n, seeds):
    for seed in range(seeds):
        rng = random.Random(1000 * n + seed)
        calls = [("a", clause3(rng, n)) for _ in range(round(4.26 * n))]
        write(folder, "r%d_%02d.txt" % (n, seed), n, calls + [("q", [])])


def pigeons(folder, holes):
    at = lambda p, h: p * holes + h + 1
    calls = [("a", [at(p, h) for h in range(holes)]) for p in range(holes + 1)]
    calls += [("a", [-at(p, h), -at(q, h)]) for h in range(holes) for p in range(holes + 1) for q in range(p)]
    write(folder, "php%d.txt" % holes, (holes + 1) * holes, calls + [("q", [])])


def exactly_one(first, size):
    cases = range(first, first + size)
    return [("a", list(cases))] + [("a", [-a, -b]) for a in cases for b in cases if b < a]


def groups(folder, seed):
    """Groups of 2 to 16 cases; then questions, and after each a conflict of a few of the cases chosen."""
    rng = random.Random(seed)
    calls, sets, variables = [], [], 1
    for _ in range(24):
        size = rng.randint(2, 16)
        sets.append(range(variables, variables + size))
        calls += exactly_one(variables, size)
        variables += size
    for _ in range(150):
        calls.append(("q", []))
        some = rng.sample(sets, rng.randint(1, 4))
        if all(len(s) > 2 or rng.random() < 0.5 for s in some):
            calls.append(("a", [-rng.choice(s) for s in some]))
    write(folder, "groups_%02d.txt" % seed, variables - 1, calls)


def asks(folder, name, seed, count):
    """As sessions ask: switches, groups that are opened as it goes, a conflict or a group between two questions, denials."""
    rng = random.Random(seed)
    switches = list(range(1, 9))
    calls, sets, variables, spent = [], [], 9, 0
    for k in range(count):
        if k % 8 == 0 and len(sets) < 200 and spent < 40000:
            size = rng.randint(2, 12)
            sets.append(range(variables, variables + size))
            new = exactly_one(variables, size)
            spent += sum(len(c[1]) + 1 for c in new)
            calls += [("v", [size])] + new
            variables += size
        else:
            some = rng.sample(sets, min(len(sets), rng.randint(2, 6)))
            clause = [-rng.choice(switches)] + [-rng.choice(s) for s in some]
            if spent + len(clause) + 1 < 60000:
                spent += len(clause) + 1
                calls.append(("a", clause))
        denied = [-rng.choice(s) for s in sets if len(s) > 2 and rng.random() < 0.5]
        calls.append(("q", switches[: rng.randint(1, 8)] + denied))
    write(folder, name, 8, calls)


def main():
    folder = sys.argv[1]
    os.makedirs(folder, exist_ok=True)
    for n in (50, 75, 100, 150, 200):
        random3(folder, n, 20)
    for holes in range(5, 9):
        pigeons(folder, holes)
    for seed in range(20):
        groups(folder, seed)
    for count in (250, 500, 1000):
        for seed in range(4):
            asks(folder, "asks%d_%02d.txt" % (count, seed), seed, count)


main()
