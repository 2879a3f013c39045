"""Plants bugs in copies of the reference, one at a time, to see that the comparison finds each: python3 planted.py [--seed N]
[--count N] [--programs DIR]. The exit status is 1 if one was not found."""

import argparse
import os
import shutil
import subprocess
import sys
import tempfile

HERE = os.path.dirname(os.path.abspath(__file__))

# What is wrong, the file, the text that stands there once, and what takes its place.
PLANTS = [
    ("a depth too few", "sessions.py", "need(unknown.type, c) - 1 > depth", "need(unknown.type, c) > depth"),
    ("a depth too many", "sessions.py", "need(unknown.type, c) - 1 > depth", "need(unknown.type, c) - 2 > depth"),
    ("a search below the least depth", "sessions.py", "self.problem.least[t] > depth for t", "self.problem.least[t] > depth + 1 for t"),
    ("goals judged from the last", "sessions.py", "for goal in sorted(self.force):\n            found", "for goal in sorted(self.force, reverse=True):\n            found"),
    ("the last goal that waits", "sessions.py", "if found == WAITING and waits is None", "if found == WAITING"),
    ("a goal that waits ends judging", "sessions.py", "                waits = reason\n", "                waits = reason\n                break\n"),
    ("a round too many", "sessions.py", "answer.rounds == rounds", "answer.rounds == rounds + 1"),
    ("a table too small", "sessions.py", "> UNKNOWNS_AT_MOST", ">= UNKNOWNS_AT_MOST"),
    ("an entry less a clause", "sessions.py", "self.entries -= len(clause) + 1", "self.entries -= len(clause)"),
    ("switches left out of the second question", "sessions.py", "self.chooser.ask(switches) is None", "self.chooser.ask([]) is None"),
    ("an explanation too short", "judging.py", "explanation | answer[3]", "answer[3]"),
    ("and waits on its right side", "judging.py", "        if first[0] == \"waits\":\n            return first\n        return second", "        if second[0] == \"waits\":\n            return second\n        return first if first[0] == \"waits\" else second"),
    ("and does not ask behind what waits", "judging.py", "        if first[0] == \"is\" and first[1] == 0:\n            return truth(False, first[3])\n", "        if first[0] == \"waits\" or first[1] == 0:\n            return first\n"),
    ("the right side compared first", "judging.py", "        first = self.head(left)\n        second = self.head(right)\n        if first[0] == \"waits\":\n            return first\n        if second[0] == \"waits\":\n            return second\n", "        first = self.head(left)\n        second = self.head(right)\n        if second[0] == \"waits\":\n            return second\n        if first[0] == \"waits\":\n            return first\n"),
    ("a pair that waits ends comparing", "judging.py", "waits = waits or found", "return found"),
    ("comparing pairs is free", "judging.py", "    def compare(self, left, right):\n        self.step()\n", "    def compare(self, left, right):\n"),
    ("a variable is free", "judging.py", "return self.head(environment[v])", "self.steps += 1\n        return self.head(environment[v])"),
    ("a step too few", "judging.py", "if self.steps == 0", "if self.steps <= 1"),
    ("a branch's variables before the others", "judging.py", "environment + parts", "parts + environment"),
    ("63 variables in scope", "problems.py", "SCOPE_AT_MOST = 64", "SCOPE_AT_MOST = 63"),
    ("least depths to 9", "problems.py", "DEEPEST = 8", "DEEPEST = 9"),
    ("17 constructors", "problems.py", "self.count(1, 16)", "self.count(1, 17)"),
    ("33 goals", "problems.py", "GOAL: 32", "GOAL: 33"),
    ("16,383 bytes", "problems.py", "> BYTES_AT_MOST:\n            raise", ">= BYTES_AT_MOST:\n            raise"),
    ("a short record refused where it ends", "problems.py", "        if start + length > len(self.data):\n            raise Refused(3, self.mark)", "        if start + length > len(self.data):\n            raise Refused(3, len(self.data))"),
    ("equal of the wanted type alone", "problems.py", "            t = self.byte(lambda b: b < len(types))\n            self.then([(t, scope)] * 2", "            t = self.byte(lambda b: b == wanted)\n            self.then([(t, scope)] * 2"),
    ("types of unknowns before those of functions", "problems.py", "for place, number in records.type_numbers:", "for place, number in records.type_numbers[::-1]:"),
    ("a model's short record refused where it ends", "models.py", "            if place >= len(data):\n                raise Refused(3, mark)", "            if place >= len(data):\n                raise Refused(3, place)"),
    ("a model's arguments from the last", "models.py", "reversed(problem.parts(unknown, c))", "problem.parts(unknown, c)"),
    ("bytes after a model are passed over", "models.py", "raise Refused(8, at)", "pass"),
]


def plant(copy, file, old, new):
    path = os.path.join(copy, file)
    with open(path) as opened:
        text = opened.read()
    if text.count(old) != 1:
        sys.exit(f"{file} has {text.count(old)} times {old!r}")
    with open(path, "w") as opened:
        opened.write(text.replace(old, new))


def main():
    parser = argparse.ArgumentParser()
    parser.add_argument("--seed", default="1")
    parser.add_argument("--count", default="1000")
    parser.add_argument("--programs", default=os.path.join(HERE, "..", "crates"))
    options = parser.parse_args()
    missed = 0
    for what, file, old, new in PLANTS:
        with tempfile.TemporaryDirectory() as work:
            copy = os.path.join(work, "reference")
            shutil.copytree(HERE, copy, ignore=shutil.ignore_patterns("__pycache__"))
            shutil.copytree(os.path.join(HERE, "..", "examples"), os.path.join(work, "examples"))
            plant(copy, file, old, new)
            command = [sys.executable, os.path.join(copy, "compare.py"), "--first", "--keep", os.path.join(work, "kept")]
            command += ["--seed", options.seed, "--count", options.count, "--programs", options.programs]
            ended = subprocess.run(command, capture_output=True, text=True)
        differing = [line for line in ended.stdout.splitlines() if line.startswith("DIFFERS")]
        is_found = ended.returncode == 1 and differing
        missed += not is_found
        print(f"{'found' if is_found else 'MISSED'}: {what}: {(differing or [ended.stderr[-200:]])[0][:160]}", flush=True)
    print(f"{len(PLANTS) - missed} of {len(PLANTS)} planted bugs found")
    sys.exit(1 if missed else 0)


if __name__ == "__main__":
    main()
