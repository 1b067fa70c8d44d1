"""A program beside another one on the same work: times taken in turn, instructions, and the files that they read.

A work is a pair: the words of a command, and the file that it reads from standard input, or None. The machine's speed may
change while it is measured, so the programs run in turn, and the ratio of each turn is taken before the median is.
"""

import os
import re
import statistics
import subprocess
import sys
import tempfile
import time
from pathlib import Path

sys.path.append(str(Path(__file__).resolve().parent.parent / "crosscheck"))
import common  # noqa: E402


def write_apart(write, path, *more):
    """Writes a file in a process of its own. A program counts the memory of the process that started it as its own up to when
    it begins, so this one has to stay small."""
    child = os.fork()
    if child == 0:
        try:
            write(path, *more)
            os._exit(0)
        except BaseException as error:
            print(f"{common.NAME}: {error}", file=sys.stderr, flush=True)
            os._exit(1)
    if os.waitpid(child, 0)[1] != 0:
        common.fail(f"cannot write {path}")


class Run:
    """Runs a work with its output thrown away: seconds by the clock and of the processors, the peak memory in KiB, and
    what it said."""

    def __init__(self, work):
        words, given = work
        with open(given or os.devnull, "rb") as stdin, tempfile.TemporaryFile() as report:
            began = time.perf_counter()
            child = subprocess.Popen(words, stdin=stdin, stdout=subprocess.DEVNULL, stderr=report)
            _, status, used = os.wait4(child.pid, 0)
            self.clock = time.perf_counter() - began
            child.returncode = os.waitstatus_to_exitcode(status)
            report.seek(0)
            self.said = report.read().decode(errors="replace")
        self.processors, self.peak = used.ru_utime + used.ru_stime, used.ru_maxrss
        if child.returncode != 0:
            common.fail(f"{' '.join(words)} ended with status {child.returncode} and said: {self.said.strip()}")


class Turns:
    """What each picture after the first costs, in seconds: a list of turns for each program. A program is two works, of
    one picture and of so many more."""

    def __init__(self, programs, pictures, runs):
        self.processors, self.clock, self.peaks = ([[] for _ in programs] for _ in range(3))
        for _ in range(runs):
            for number, (one, more) in enumerate(programs):
                first, whole = Run(one), Run(more)
                self.processors[number].append((whole.processors - first.processors) / pictures)
                self.clock[number].append((whole.clock - first.clock) / pictures)
                self.peaks[number].append(whole.peak)

    def of(self, number):
        """The median of a program's processor time."""
        return statistics.median(self.processors[number])

    def ratio(self, by_clock=False):
        """How the first program stands to the second, by processor time or by the clock, as words, if there is a second
        one."""
        times = self.clock if by_clock else self.processors
        if len(times) < 2:
            return ""
        ratios = sorted(own / other for own, other in zip(*times))
        return (f" ({statistics.median(ratios):.2f} of ffmpeg by the median of {len(ratios)} turns, "
                f"{ratios[0]:.2f} to {ratios[-1]:.2f})")


def instructions(one, two):
    """The instructions of the picture that the second work has more than the first, as valgrind counts them."""
    counts = []
    for words, given in (one, two):
        with open(given or os.devnull, "rb") as stdin, tempfile.NamedTemporaryFile() as out:
            tool = ["valgrind", "--tool=cachegrind", "--cache-sim=no", f"--cachegrind-out-file={out.name}"]
            ran = subprocess.run([*tool, *words], stdin=stdin, stdout=subprocess.DEVNULL, stderr=subprocess.PIPE)
        found = re.search(r"I +refs: +([\d,]+)", ran.stderr.decode(errors="replace"))
        if ran.returncode != 0 or not found:
            return None
        counts.append(int(found.group(1).replace(",", "")))
    return counts[1] - counts[0]


def said_instructions(programs):
    """The instructions of the first program's picture, as words, beside those of a second one's, if there is one. A program
    is two works, of one picture and of two."""
    own, *others = (instructions(*program) for program in programs)
    if own is None:
        return "no instructions counted"
    beside = "".join(f" ({own / other:.2f} of ffmpeg)" for other in others if other)
    return f"{own / 1e6:.0f} million instructions a frame{beside}"
