"""A desk, by docs/PROTOCOL.md: lines of several connections, answered one turn after another on one workbook."""

import threading
from collections import deque

from . import kept
from .literals import Refused
from .machine import refusal, text_of
from .reading import LONGEST_LINE, read

PIECE = 65_536
TOGETHER = 256


class Lines:
    """The lines of a source that gives some bytes at a time, none at its end; of a long one its first bytes. `ahead` are those that
    were read and are not taken yet."""

    has_rest = True
    """Whether what stands behind the last line end is a line."""

    def __init__(self, source):
        self.source, self.ahead, self.held, self.has_ended = source, deque(), b"", False

    def __iter__(self):
        return self

    def __next__(self):
        while not self.ahead and not self.has_ended:
            self.read_more()
        if not self.ahead:
            raise StopIteration
        return self.ahead.popleft()

    def read_more(self):
        more = self.source(PIECE)
        *whole, held = (self.held + more).split(b"\n")
        self.held, self.has_ended = held[: LONGEST_LINE + 1], not more
        self.ahead.extend(whole)
        if self.has_ended and self.held and self.has_rest:
            self.ahead.append(self.held)


class Heard(Lines):
    """The lines of a connection that a desk hears: all where the first one begins as an object, else that one. `is_closed` says that it
    was heard no more."""

    def __init__(self, source):
        super().__init__(source)
        self.is_first, self.is_closed = True, False

    def __next__(self):
        line = super().__next__()
        if self.is_first and not line.lstrip(b" \t\r").startswith(b"{"):
            self.ahead.clear()
            self.has_ended = self.is_closed = True
        self.is_first = False
        return line


class Desk:
    """A machine that several seats share, with how many requests it answered. Lines that lie ahead are answered together. With a journal
    file their changes are kept there as one batch before their replies are sent."""

    def __init__(self, machine, journal=None):
        self.machine, self.journal, self.lock, self.entries = machine, journal, threading.Lock(), 0

    def serve(self, lines, send):
        """Answers all lines of a session."""
        for line in lines:
            send(self.turn([line, *taken(lines)], self.answer))

    def turn(self, lines, answer):
        """The replies to lines that are answered together, once their changes are kept."""
        with self.lock:
            told = [answer(line) for line in lines]
            if self.journal is not None:
                self.journal.keep([change for _, changes in told for change in changes])
            return b"".join(text_of(reply).encode() + b"\n" for reply, _ in told)

    def answer(self, line):
        """The reply to a line, and the lines of its changes."""
        try:
            request = read(line)
        except Refused as why:
            return refusal(why), []
        reply = self.machine.do(request)
        self.entries += 1
        return reply, kept.changes_made(request, reply)


def taken(lines):
    """The lines that lie ahead, as far as a turn goes."""
    return [next(lines) for _ in range(min(len(lines.ahead), TOGETHER - 1))]
