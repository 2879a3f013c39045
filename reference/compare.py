"""Compares the programs with the reference: python3 compare.py [--seed N] [--count N] [--programs DIR] [--loader FILE].

Problem number i of a run has the seed N + i, so that `--seed S --count 1` runs a single one again. It prints how often
each kind of comparison and each outcome came, and every difference with its seed and a file of its bytes. The exit status
is 1 if something differed.
"""

import argparse
import collections
import os
import random
import sys
import tempfile

import damaging
import exhausting
import generating
import modelling
from comparing import Comparing
from programs import Programs


class Tally:
    """What was compared, how often, and what differed."""

    def __init__(self, folder):
        self.counts = collections.Counter()
        self.folder = folder
        self.differences = 0

    def count(self, *words):
        self.counts[words] += 1

    def differ(self, label, what, **files):
        """Tells of a difference, and keeps the bytes by which it came."""
        self.differences += 1
        os.makedirs(self.folder, exist_ok=True)
        kept = []
        for name, data in files.items():
            kept.append(os.path.join(self.folder, f"{label}.{name}"))
            with open(kept[-1], "wb") as file:
                file.write(data)
        print(f"DIFFERS {label}: {what} [{' '.join(kept)}]", flush=True)


def examples(comparing, folder):
    """Every example: its check, its search, and the replay of each model with each problem."""
    names = sorted(os.listdir(folder))
    models = [name for name in names if name.endswith(".model")]
    for name in names:
        if not name.endswith(".bin"):
            continue
        data = read(folder, name)
        problem = comparing.check(name, data)
        if problem is not None:
            for chooser in ("--plain", "--learning"):
                comparing.search(name, problem, data, (4, 80, 512, chooser))
        for model in models:
            comparing.replay(f"{name}-{model}", data, read(folder, model))


def longest(comparing):
    """Problems about as long as one may be: a goal that is negated so often."""
    for length in (16383, 16384, 16385):
        term = [6] * (length - 9) + [2, 0, 1]
        comparing.check(f"longest-{length}", bytes([0x47, 0x4C, len(term) >> 8, len(term) & 255] + term + [0x45, 0x4E]))


def read(folder, name):
    with open(os.path.join(folder, name), "rb") as file:
        return file.read()


def one(comparing, seed):
    """The comparisons of one seed."""
    rng = random.Random(seed)
    chance = rng.random()
    chooser = "--plain" if seed % 2 == 0 else "--learning"
    if chance < 0.35:
        data = damaging.damaged_problem(rng)
        comparing.tally.count("made", "damaged")
        problem = comparing.check(seed, data)
        if problem is None:
            comparing.replay(seed, data, rng.choice([b"", b"MD\0\x08"]))
            return
    elif chance < 0.38:
        form = rng.choices(list(exhausting.FORMS), [4, 1, 2, 2])[0]
        data, depth = exhausting.FORMS[form](rng)
        comparing.tally.count("made", f"exhausting {form}")
        problem = comparing.check(seed, data)
        steps = 4096 if form in exhausting.BOUND else rng.choice([5, 20, 100])
        bound = exhausting.BOUND.get(form)
        comparing.search(seed, problem, data, (depth, 60, steps, chooser), bound=bound)
        return
    elif chance < 0.385:
        comparing.replay(seed, *modelling.long_model(rng))
        return
    else:
        sound = generating.sound_problem(rng)
        data = sound.bytes()
        comparing.tally.count("made", "sound")
        problem = comparing.check(seed, data)
        if problem is None:
            comparing.tally.differ(seed, "the generator made a problem that is refused", problem=data)
            return
        comparing.padded_replay(seed, rng, sound, problem)
    options = (rng.choice([2, 3, 4, 4]), rng.choice([1, 2, 5, 20, 40]), rng.choice([3, 10, 40, 100, 512]), chooser)
    if len(data) <= 1000:
        comparing.search(seed, problem, data, options)
        comparing.first_round(seed, rng, problem, data, chooser)
    for _ in range(2):
        comparing.replay(seed, data, modelling.random_model(rng, problem))
    comparing.replay(seed, data, modelling.damaged_model(rng, problem))


def report(tally):
    last = None
    for words, count in sorted(tally.counts.items()):
        if words[0] != last:
            print(f"{words[0]}:")
            last = words[0]
        print(f"  {count:7d}  {' '.join(str(word) for word in words[1:])}")
    compared = sum(count for words, count in tally.counts.items() if words[0] == "compared")
    print(f"{compared} comparisons, {tally.differences} differences")


def main():
    here = os.path.dirname(os.path.abspath(__file__))
    parser = argparse.ArgumentParser()
    parser.add_argument("--seed", type=int, default=1)
    parser.add_argument("--count", type=int, default=2000)
    parser.add_argument("--programs", default=os.path.join(here, "..", "crates"))
    parser.add_argument("--loader", help="the loader in C, as c/build.sh builds it")
    parser.add_argument("--first", action="store_true", help="ends with the first seed that differs")
    parser.add_argument("--keep", default=os.path.join(tempfile.gettempdir(), "reference-differences"))
    options = parser.parse_args()
    tally = Tally(options.keep)
    with tempfile.TemporaryDirectory() as work:
        comparing = Comparing(Programs(options.programs, work, options.loader), tally)
        examples(comparing, os.path.join(here, "..", "examples"))
        longest(comparing)
        for seed in range(options.seed, options.seed + options.count):
            one(comparing, seed)
            if options.first and tally.differences:
                break
    report(tally)
    sys.exit(1 if tally.differences else 0)


if __name__ == "__main__":
    main()
