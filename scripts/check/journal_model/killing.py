"""Programs under load that are ended by kill -9, one after the other over the same file."""

import os
import random
import subprocess
import tempfile
import threading
import time
from pathlib import Path

from programs import words
from workbook_model import Machine
from workbook_model.hostile import compact
from workbook_model.requests import BEGINNING, Requests

from .course import HISTORY
from .runs import slowed
from .text import answered, lined, recovered

LINES = 80  # that a program is given at most
LEAST_REPLY = 10  # no reply has fewer bytes
PROGRAMS = 5  # over one file


class Load:
    """The lines that the programs over one file are given, and what the model makes of those that were done."""

    def __init__(self, chance):
        self.chance, self.requests, self.machine = chance, Requests(chance), Machine()
        self.changes, self.first = [], [compact(request).encode() for request in BEGINNING]

    def lines(self):
        """What the next program is given: it is asked for the history first."""
        self.requests.latest = len(self.machine.edits)
        more = (compact(self.requests.request()).encode() for _ in range(LINES))
        given = [HISTORY[:-1], *([] if self.changes else self.first), *more]
        return [line for line in given if b"-0" not in line]

    def fault(self, given, told, file):
        """What is wrong with a file that was left after so much was told; the model goes on to where it is."""
        lines, replies = recovered(file), b""
        if lines is None:
            return "it is no journal"
        for line in given:
            if len(replies) >= len(told) and len(self.changes) >= len(lines):
                break
            reply, made = answered(self.machine, line)
            replies += reply.encode() + b"\n"
            self.changes += made
        if replies[: len(told)] != told:
            return "it told %r" % told[-300:]
        if lines == self.changes:
            return None
        return "it has %d changes, and %d were told of or made, up to %r" % (len(lines), len(self.changes), lines[-1:])


def feed(process, pieces):
    """Writes pieces until the program is gone."""
    try:
        for piece in pieces:
            process.stdin.write(piece)
            process.stdin.flush()
    except OSError:
        pass


def in_pieces(lines, chance):
    while lines:
        count = chance.choice([1, 1, 2, 5, 20, 100])
        yield lined(lines[:count])
        lines = lines[count:]


def until_killed(program, recorder, journal, told, lines, chance):
    """Gives a program lines, and ends it some time after it told so much."""
    least = LEAST_REPLY * len(lines) * chance.random() ** 3
    with open(told, "wb") as replies:
        process = subprocess.Popen(words(program, journal), stdin=subprocess.PIPE, stdout=replies, stderr=subprocess.DEVNULL, env=slowed(recorder))
    feeder = threading.Thread(target=feed, args=(process, in_pieces(lines, chance)))
    feeder.start()
    while os.stat(told).st_size < least and process.poll() is None:
        time.sleep(0.0002)
    time.sleep(chance.choice([0, 0.0001, 0.001, 0.004]) * chance.random())
    process.kill()
    status = process.wait()
    feeder.join()
    try:
        process.stdin.close()
    except OSError:
        pass
    return status


def killed_in_turn(program, recorder, folder, count, seed):
    """Ends so many programs: how many, the changes that they had told of, and what differs."""
    chance, kept, faults = random.Random("kill %s" % seed), 0, []
    with tempfile.TemporaryDirectory(dir=folder) as room:
        told = os.path.join(room, "told")
        for number in range(count):
            if number % PROGRAMS == 0:
                load, journal = Load(chance), os.path.join(room, "plan%d" % number)
            before, lines = len(load.changes), load.lines()
            status = until_killed(program, recorder, journal, told, lines, chance)
            file = Path(journal).read_bytes() if os.path.exists(journal) else b""
            fault = load.fault(lines, Path(told).read_bytes(), file)
            kept += len(load.changes) - before
            if status != -9:
                fault = "it ended by itself with status %d" % status
            if fault:
                faults.append("kill -9, program %d of %s: %s" % (number, seed, fault))
                return number + 1, kept, faults
    return count, kept, faults
