"""Running a program and measuring it: wall and processor seconds of several runs, and executed instructions."""
import os
import re
import subprocess
import tempfile
import time
from statistics import median


class Run:
    """What a run wrote, and what it took; `ended` tells of one that a signal ended, as it does at the limit of processor seconds."""

    def __init__(self, command, limit):
        with tempfile.TemporaryFile() as out, tempfile.TemporaryFile() as err:
            start = time.monotonic()
            child = subprocess.Popen(["prlimit", f"--cpu={limit}:{limit + 1}"] + command, stdout=out, stderr=err)
            _, status, usage = os.wait4(child.pid, 0)
            self.wall = time.monotonic() - start
            child.returncode = os.waitstatus_to_exitcode(status)  # it is waited for
            self.ended = child.returncode < 0
            self.user = usage.ru_utime
            out.seek(0)
            err.seek(0)
            self.out, self.err = out.read().decode(), err.read().decode()


def runs(command, times, limit=600):
    """The first run, with the median times of all; one that was ended is not tried again."""
    first = Run(command, limit)
    all_runs = [first] if first.ended else [first] + [Run(command, limit) for _ in range(times - 1)]
    first.wall = median(run.wall for run in all_runs)
    first.user = median(run.user for run in all_runs)
    return first


def instructions(command):
    """How many instructions the program executes, which other work on the machine does not change."""
    counted = Run(["valgrind", "--tool=callgrind", "--callgrind-out-file=/dev/null"] + command, 3600)
    return int(re.search(r"Collected : (\d+)", counted.err).group(1))
