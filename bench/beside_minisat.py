#!/usr/bin/env python3
"""Runs the families of choosing.py on the learning chooser and, beside it, on MiniSat and on the plain chooser.

python3 beside_minisat.py SCRIPTS BENCH [MINISAT]: the folder of the scripts, the program chooser_bench, and the program of asks.cc.
REPEATS (5) runs of each are taken in turn, and medians told of their user time. Where COUNT is set, the instructions are counted too."""
import glob
import os
import re
import sys
from statistics import median
from measuring import Run, instructions

REPEATS = int(os.environ.get("REPEATS", 5))
COUNT = "COUNT" in os.environ
# Each family, and what its ratio to MiniSat is wanted to be at most, where something is.
FAMILIES = [("r50", None), ("r75", None), ("r100", None), ("r150", 2), ("r200", 3), ("php5", None), ("php6", None), ("php7", None), ("php8", None),
            ("groups", None), ("asks250", None), ("asks500", None), ("asks1000", 3)]
BESIDE_PLAIN = [("r50", None), ("php5", None), ("php6", None), ("groups", 1.5)]


def answers(run):
    """How often each answer came, script by script."""
    return [tuple(map(int, found)) for found in re.findall(r" yes (\d+) no (\d+) refused 0$", run.out, re.MULTILINE)]


def same_answers(family, scripts, ours, theirs):
    """Ends the run where two solvers differ, and where a random set lacks an answer; gives how many of each there are."""
    if ours.out != theirs.out or len(answers(ours)) != len(scripts):
        sys.exit(f"{family}: the answers differ, or a call was refused")
    yes, no = (sum(pair[side] for pair in answers(ours)) for side in (0, 1))
    if re.match(r"r\d", family) and not (yes and no):
        sys.exit(f"{family}: only one answer comes in this set")
    return yes, no


def worst(ours, theirs):
    """The greatest ratio of a single script, by the medians of the microseconds that chooser_bench tells of each."""
    def medians(all_runs):
        return [median(times) for times in zip(*[[int(line.split()[0]) for line in run.err.splitlines()] for run in all_runs])]
    return max(a / max(b, 1) for a, b in zip(medians(ours), medians(theirs)))


def beside(family, other, ours, theirs, wanted):
    scripts = sorted(glob.glob(os.path.join(sys.argv[1], family + "[._]*")))
    both = [(Run(ours + scripts, 600), Run(theirs + scripts, 600)) for _ in range(REPEATS)]
    yes, no = same_answers(family, scripts, *both[0])
    a, b = median(run.user for run, _ in both), median(run.user for _, run in both)
    line = f"{family:9} {len(scripts):2} scripts, {yes:4} yes {no:4} no   learning {a:7.3f} s   {other:7} {b:7.3f} s   ratio {a / max(b, 0.001):5.2f}"
    if other == "plain":
        line += f"   of one script at most {worst([run for run, _ in both], [run for _, run in both]):.2f}"
    if COUNT:
        line += f"   of instructions {instructions(ours + scripts) / instructions(theirs + scripts):5.2f}"
    print(line + (f"   wanted: at most {wanted}" if wanted else ""), flush=True)


def main():
    bench = sys.argv[2]
    if len(sys.argv) > 3:
        for family, wanted in FAMILIES:
            beside(family, "minisat", [bench, "learning"], [sys.argv[3]], wanted)
    for family, wanted in BESIDE_PLAIN:
        beside(family, "plain", [bench, "learning"], [bench, "plain"], wanted)


if __name__ == "__main__":
    main()
