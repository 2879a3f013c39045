"""The programs that are compared with the reference, run on bytes."""

import os
import re
import subprocess

LINE = re.compile(r"depth (\d+) ([A-Z]+(?: [A-Z]+)?) rounds (\d+) opened (\d+) recorded (\d+)")


class Failed(Exception):
    """A program ended as it should not."""


class Found:
    """A line that a search prints."""

    def __init__(self, line):
        matched = LINE.fullmatch(line)
        if matched is None:
            raise Failed(f"not a line of an answer: {line!r}")
        self.line = line
        self.depth = int(matched[1])
        self.word = matched[2]
        self.rounds, self.opened, self.recorded = (int(matched[i]) for i in (3, 4, 5))


class Programs:
    """`loader` is the loader in C, None where it was not built."""

    def __init__(self, folder, work, loader=None):
        self.seek_path = os.path.join(folder, "seek", "out", "seek")
        self.replay_path = os.path.join(folder, "replay_model", "out", "replay_model")
        self.loader_path = loader
        self.work = work

    def keep(self, name, data):
        path = os.path.join(self.work, name)
        with open(path, "wb") as file:
            file.write(data)
        return path

    @staticmethod
    def run(*arguments, status=0):
        ended = subprocess.run(arguments, capture_output=True, text=True, timeout=120)
        if ended.returncode != status:
            raise Failed(f"{arguments[0]} ended with {ended.returncode}: {(ended.stdout + ended.stderr)[-300:]!r}")
        if ended.stdout and not ended.stdout.endswith("\n"):
            raise Failed(f"no newline at the end of {ended.stdout[-100:]!r}")
        return ended.stdout.splitlines()

    def list(self, data):
        return self.run(self.seek_path, "--list", self.keep("problem", data))

    def seek(self, data, depth, rounds, steps, chooser):
        """The answers' lines, the lines of the model, and the model's bytes if it wrote some."""
        model = os.path.join(self.work, "model")
        if os.path.exists(model):
            os.remove(model)
        options = ["--depth", str(depth), "--rounds", str(rounds), "--steps", str(steps), chooser, "--model", model]
        lines = self.run(self.seek_path, *options, self.keep("problem", data))
        answers = [Found(line) for line in lines if line.startswith("depth ")]
        if not os.path.exists(model):
            return answers, lines[len(answers) :], None
        with open(model, "rb") as file:
            return answers, lines[len(answers) :], file.read()

    def load(self, data, options, status):
        """The lines of the loader in C, which has to end with this status."""
        depth, rounds, steps, chooser = options
        words = ["--depth", str(depth), "--rounds", str(rounds), "--steps", str(steps), chooser]
        return self.run(self.loader_path, *words, self.keep("problem", data), status=status)

    def replay(self, data, model):
        return self.run(self.replay_path, self.keep("problem", data), self.keep("replayed", model))
