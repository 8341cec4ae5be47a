"""What the benchmarks share: their words, runs of a program that are timed, and the figures that are saved."""

import argparse
import json
import os
import subprocess
import sys
import tempfile
import time

TOP = os.path.dirname(os.path.dirname(os.path.dirname(os.path.realpath(__file__))))
BUILT = {name: os.path.join(TOP, "crates", name, "out", name) for name in ("workbook", "json_only")}
RUNS = 5


def parser_of(doc, is_built=False, json_only=False, runs=RUNS):
    """The words that a benchmark takes: the program, which it may build itself, and how much of it is measured."""
    parser = argparse.ArgumentParser(description=doc, formatter_class=argparse.RawDescriptionHelpFormatter)
    if is_built:
        parser.add_argument("program", nargs="?", help="the one of this checkout, which is built first, if none is named")
    else:
        parser.add_argument("program")
    if json_only:
        parser.add_argument("--json-only", metavar="JSON_ONLY", help="the program that only reads JSON lines and prints them again")
    if runs:
        parser.add_argument("--runs", type=int, default=runs, metavar="R", help="runs or rounds of each (%(default)s)")
    parser.add_argument("--scale", type=float, default=1.0, metavar="S", help="so many times the lines, for a shorter run (%(default)s)")
    parser.add_argument("--save", metavar="FILE", help="the figures, as JSON")
    return parser


def built(name):
    """The program of a crate, built anew."""
    folder = os.path.join(TOP, "crates", name)
    with open(os.path.join(folder, "stdin")) as lines:
        words = ["rt", "run", "--", "run"] if name == "workbook" else ["rt", "run"]
        subprocess.run(words, cwd=folder, stdin=lines, stdout=subprocess.DEVNULL, check=True)
    return BUILT[name]


class Figures:
    """The figures of a benchmark, by name, each a number or more of them, with the load of the machine before and after."""

    def __init__(self, words):
        self.words, self.load, self.of = words, os.getloadavg(), {}

    def scaled(self, count, least=1):
        """So many lines, by the scale that was asked for."""
        return max(least, round(count * self.words.scale))

    def version(self):
        """What the program says that it is."""
        words = [os.path.abspath(self.words.program or BUILT["workbook"]), "--version"]
        return subprocess.run(words, stdin=subprocess.DEVNULL, stdout=subprocess.PIPE, check=True, text=True).stdout.strip()

    def save(self):
        """Writes them to the file that was asked for, if there is one."""
        if not self.words.save:
            return
        told = {"program": self.version(), "script": os.path.relpath(os.path.realpath(sys.argv[0]), TOP), "scale": self.words.scale, "runs": getattr(self.words, "runs", 1),
                "processors": os.cpu_count(), "load": [self.load, os.getloadavg()], "figures": self.of}
        with open(self.words.save, "w", encoding="utf-8") as file:
            json.dump(told, file, indent=1)
            file.write("\n")


# Starts a program from a small process: what the system tells of a process's peak has the pages of the one that it was made of.
LAUNCHER = """
import os, sys, time
began = time.perf_counter()
process = os.posix_spawnp(sys.argv[2], sys.argv[2:], os.environ)
_, status, used = os.wait4(process, 0)
os.write(int(sys.argv[1]), b"%r %d %d" % (time.perf_counter() - began, used.ru_maxrss * 1024, os.waitstatus_to_exitcode(status)))
"""


def run(words, source):
    """A run of these words over a file: its seconds, its peak in bytes (some 10 MB, where it held less), and what it printed."""
    figures, told_to = os.pipe()
    with open(source, "rb") as given, tempfile.TemporaryFile() as told:
        launcher = [sys.executable, "-I", "-S", "-c", LAUNCHER, str(told_to), *words]
        subprocess.run(launcher, stdin=given, stdout=told, pass_fds=[told_to], check=True)
        os.close(told_to)
        with os.fdopen(figures) as source_of_figures:
            seconds, peak, status = source_of_figures.read().split()
        told.seek(0)
        printed = told.read()
    if status != "0":
        sys.exit("%s ended with status %s: %r" % (" ".join(words), status, printed[-300:]))
    return float(seconds), int(peak), printed


def least(words, source, runs=RUNS):
    """The fastest of so many runs: its seconds, the least peak, and what the last one printed."""
    found = [run(words, source) for _ in range(runs)]
    return min(seconds for seconds, _, _ in found), min(peak for _, peak, _ in found), found[-1][2]


def least_in_turn(programs, source, runs=RUNS):
    """The fastest run of each of some programs, which run by turns, so that a machine whose speed drifts is as fast to one as to the
    others: the seconds of each, and what the first one printed last."""
    fastest, told = [None] * len(programs), b""
    for _ in range(runs):
        for at, words in enumerate(programs):
            seconds, _, printed = run(words, source)
            fastest[at] = seconds if fastest[at] is None else min(fastest[at], seconds)
            if at == 0:
                told = printed
    return fastest, told


def write(folder, name, data):
    path = os.path.join(folder, name)
    with open(path, "wb") as file:
        file.write(data)
    return path
