"""A desk of many seats under load that is ended by kill -9, one after the other over the same file.

Each seat sets elements of an array of its own, each element once, and undoes and redoes these sets by their numbers, so that no seat
is refused and each line but a question makes one change.
"""

import json
import os
import random
import selectors
import signal
import socket
import subprocess
import tempfile
import time
from pathlib import Path

from programs import SECONDS, port_of, serving
from workbook_model import Machine

from .course import HISTORY, told
from .runs import slowed
from .text import answered, at_rest, lined, numbered, recovered

SEATS = 16
ELEMENTS = 400
DESKS = 10  # over one file


class Seat:
    """A connection: the changes that it was told of, the lines that wait for their replies, and its edits, in force or not."""

    def __init__(self, number, chance):
        self.number, self.chance, self.sets = number, chance, 0
        self.changes, self.waiting, self.edits = [], [], {}
        self.held, self.connection, self.fault = b"", None, None
        self.question = b'{"d":"D%d","op":"size"}' % number

    def connect(self, port):
        self.held, self.waiting = b"", []
        self.connection = socket.create_connection(("127.0.0.1", port), SECONDS)
        self.connection.setsockopt(socket.IPPROTO_TCP, socket.TCP_NODELAY, 1)

    def first(self):
        """The seat's domain and its array, as far as they are not kept: a desk may have ended between the two."""
        name = self.number
        both = [b'{"d":"D%d","is":"{1..%d}","map":"none","op":"domain"}' % (name, ELEMENTS), b'{"a":"A%d","d":"D%d","op":"array"}' % (name, name)]
        return both[len(self.changes) :]

    def next_set(self):
        self.sets += 1
        return b'{"a":"A%d","i":%d,"op":"set","v":%d}' % (self.number, self.sets, self.chance.randint(1, 99))

    def ask(self):
        """Sends some lines, where none waits."""
        numbers = self.chance.sample(sorted(self.edits), min(len(self.edits), 8))
        lines = self.first()
        for _ in range(self.chance.choice([1, 1, 2, 5, 16])):
            if numbers and self.chance.random() < 0.4:
                k = numbers.pop()
                lines.append(numbered("undo" if self.edits[k] else "redo", k))
            else:
                lines.append(self.next_set() if self.sets < ELEMENTS and self.chance.random() < 0.9 else self.question)
        self.waiting = lines
        self.connection.sendall(lined(lines))

    def hear(self):
        """Takes what came: whether the connection goes on."""
        try:
            more = self.connection.recv(1 << 16)
        except OSError:
            return False
        *replies, self.held = (self.held + more).split(b"\n")
        for reply in replies:
            if not self.waiting:
                self.fault = "seat %d asked nothing, and was answered %r" % (self.number, reply)
                return False
            self.take(self.waiting.pop(0), json.loads(reply))
        return bool(more)

    def leave(self):
        """Takes what was told before the desk ended."""
        while self.connection and self.hear():
            pass
        if self.connection:
            self.connection.close()
        self.connection = None

    def take(self, line, reply):
        """Takes the reply to a line."""
        if "error" in reply:
            self.fault = "%r is answered %r" % (line, reply)
        if "error" in reply or line == self.question:
            return
        self.changes.append(line)
        if "edit" in reply and b'"op":"set"' in line:
            self.edits[reply["edit"]] = True
        elif "undone" in reply or "redone" in reply:
            self.edits[reply.get("undone", reply.get("redone"))] = "redone" in reply

    def go_on(self, shares):
        """What is wrong with the lines that the file has of this seat, None where nothing is; the seat goes on from them."""
        lines, edits = shares.get(self.number, ([], {}))
        possible = self.changes + [line for line in self.waiting if line != self.question]
        fault = self.fault
        if lines != possible[: len(lines)] or len(lines) < len(self.changes):
            fault = "seat %d was told of %d changes, and waited for %r; the file has %r" % (self.number, len(self.changes), self.waiting, lines[-20:])
        elif any(k not in edits for k in self.edits):
            fault = "seat %d was told other numbers" % self.number
        self.changes, self.edits = lines, edits
        return fault


def shares_of(lines):
    """The lines of each seat, and the numbers of its sets, with whether they are in force."""
    shares, owners, count = {}, {}, 0
    for line in lines:
        change = json.loads(line)
        is_edit = change["op"] not in ("undo", "redo")
        count += is_edit
        seat = int(change.get("a", change.get("d", ""))[1:]) if is_edit else owners[change["k"]]
        own, edits = shares.setdefault(seat, ([], {}))
        own.append(line)
        if is_edit:
            owners[count] = seat
        if change["op"] in ("undo", "redo", "set"):
            edits[count if is_edit else change["k"]] = change["op"] != "undo"
    return shares


class Desks:
    """The desks over one file: their seats, and what the model makes of the file's lines."""

    def __init__(self, program, recorder, journal, chance):
        self.recorder, self.words = recorder, serving(program, SEATS, journal)
        self.journal, self.chance, self.machine, self.lines = journal, chance, Machine(), []
        self.seats = [Seat(number, chance) for number in range(SEATS)]

    def killed(self):
        """Starts a desk, and ends it under load: what is wrong with it or its file, None where nothing is."""
        return self.ended() or self.fault()

    def ended(self):
        """Starts a desk, and ends it under load: what is wrong with it, None where nothing is."""
        with subprocess.Popen(self.words, stdin=subprocess.DEVNULL, stdout=subprocess.PIPE, stderr=subprocess.PIPE, env=slowed(self.recorder)) as desk:
            try:
                fault = self.under_load(desk)
            except (OSError, ValueError) as why:
                fault = "it did not serve: %s" % why
            finally:
                desk.kill()
            said = desk.stderr.read()[-300:]
        if desk.returncode != -signal.SIGKILL:
            fault = "it ended by itself with status %d, and said %r" % (desk.returncode, said)
        for seat in self.seats:
            seat.leave()
        return fault

    def under_load(self, desk):
        """Connects all seats to a desk that begins, and has them ask for some time: what is wrong with its history."""
        port = port_of(desk)
        for seat in self.seats:
            seat.connect(port)
        fault = self.history_fault()
        self.load(time.monotonic() + self.chance.choice([0.02, 0.1, 0.5]) * self.chance.random())
        return fault

    def history_fault(self):
        """Whether the desk has another history than its file's lines make."""
        connection = self.seats[0].connection
        connection.sendall(HISTORY)
        with connection.makefile("rb") as replies:
            return None if replies.readline() == told(self.machine) else "the desk has another history than its file's lines make"

    def load(self, end):
        """Has all seats ask until then."""
        with selectors.DefaultSelector() as ready:
            for seat in self.seats:
                ready.register(seat.connection, selectors.EVENT_READ, seat)
                seat.ask()
            while time.monotonic() < end:
                for key, _ in ready.select(0.001):
                    key.data.hear()
                    if not key.data.waiting:
                        key.data.ask()

    def fault(self):
        """What is wrong with the file that was left, None where nothing is."""
        lines = recovered(Path(self.journal).read_bytes() if os.path.exists(self.journal) else b"")
        if lines is None or lines[: len(self.lines)] != self.lines:
            return "the file lost lines from before"
        for line in lines[len(self.lines) :]:
            if answered(self.machine, line)[1] != [line]:
                return "the model does not grant %r" % line
        self.lines, shares = lines, shares_of(lines)
        return next((fault for fault in [seat.go_on(shares) for seat in self.seats] if fault), None)


def notices_a_loss(program, recorder, folder, seed):
    """Whether a file is noticed that lacks the last change which a seat was told of, and all behind it."""
    with tempfile.TemporaryDirectory(dir=folder) as room:
        desks = Desks(program, recorder, os.path.join(room, "plan"), random.Random("loss %s" % seed))
        for _ in range(DESKS):
            fault = desks.ended()
            told_of = [seat for seat in desks.seats if seat.changes]
            if fault or told_of:
                break
            desks.fault()
        if fault or not told_of:
            return False
        lines, seat = recovered(Path(desks.journal).read_bytes()), told_of[0]
        owned = [count for count in range(len(lines)) if shares_of(lines[: count + 1]).get(seat.number, ([],))[0][len(seat.changes) - 1 :]]
        Path(desks.journal).write_bytes(at_rest(lines[: owned[0]]) if owned else b"")
        return desks.fault() is not None


def desks_killed(program, recorder, folder, count, seed):
    """Ends so many desks: how many, the changes that they kept, and what differs."""
    chance, kept = random.Random("desk %s" % seed), 0
    with tempfile.TemporaryDirectory(dir=folder) as room:
        for number in range(count):
            if number % DESKS == 0:
                desks = Desks(program, recorder, os.path.join(room, "plan%d" % number), chance)
            before = len(desks.lines)
            fault = desks.killed()
            kept += len(desks.lines) - before
            if fault:
                return number + 1, kept, ["kill -9, desk %d of %s: %s" % (number, seed, fault)]
    return count, kept, []
