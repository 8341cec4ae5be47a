"""What requests that are done one after another make, by the model: their replies, their changes, and the history after each change."""

from collections import defaultdict

from workbook_model import Machine, kept, text_of
from workbook_model.saved import restored

from .text import answered, resume_line

HISTORY = b'{"op":"history"}\n'
OUTPUT, ANEW = 1, "anew"  # connections: a session's standard output, and that the file was made anew


class Course:
    """The course of a journal, perhaps one that begins with the text of a history: its changes, the history after none of them and
    after each, and how many of them there are after none of the requests and after each; of each connection how long its replies are,
    and of how many changes each tells; and the lines that the file was made anew with, each with the number of changes before."""

    def __init__(self, lines=(), opening=None):
        self.machine, self.second = (Machine() if opening is None else restored(opening)), Machine()
        self.changes, self.histories, self.fronts, self.begun = [], [told(self.second)], {0}, [([], 0)]
        self.tells, self.replies = defaultdict(list), []
        if opening is not None:
            self.add([resume_line(opening)])
        for line in lines:
            self.replies.append(self.answer(OUTPUT, line))

    def add(self, changes):
        """Takes the changes of a request."""
        for change in changes:
            self.second = kept.led(self.second, change)
            if self.second is None:
                raise ValueError("the model does not grant %r" % change)
            self.changes.append(change)
            self.histories.append(told(self.second))
        self.fronts.add(len(self.changes))

    def answer(self, connection, line):
        """The reply to a line that a connection asks."""
        reply, changes = answered(self.machine, line)
        reply = reply.encode() + b"\n"
        self.add(changes)
        self.tell(connection, reply)
        return reply

    def tell(self, connection, reply):
        """A connection is told of all changes so far."""
        self.tells[connection].append((len(reply), len(self.changes)))

    def make_anew(self):
        """The file is made anew, and goes on from the text of its history."""
        text = self.machine.do({"op": "history"})["text"]
        self.machine = restored(text)
        self.begun.append(([resume_line(text)], len(self.changes)))
        self.tell(ANEW, b".")

    def lines(self):
        """The lines of the file that has all changes."""
        first, count = self.begun[-1]
        return first + self.changes[count:]

    def acknowledged(self, size, connection=OUTPUT):
        """How many changes a connection was told of by so many bytes of replies; one whose reply has begun is among them."""
        count = 0
        for reply, changes in self.tells[connection]:
            if size <= 0:
                break
            size, count = size - reply, changes
        return count

    def least(self, sizes):
        """How many changes were told of, by the bytes of each connection."""
        return max((self.acknowledged(size, connection) for connection, size in sizes.items()), default=0)

    def stands_for(self, lines):
        """How many changes a file's lines stand for, and how often it was made anew before; None where they are no front of the changes."""
        for times, (first, count) in reversed(list(enumerate(self.begun))):
            later = lines[len(first) :]
            if lines[: len(first)] == first and later == self.changes[count : count + len(later)]:
                return count + len(later), times
        return None

    def fault(self, lines, least, anew=0):
        """What is wrong with the lines that a crash left, where so many changes had been acknowledged, and the file had been made anew so
        often; None where nothing is."""
        if lines is None:
            return "it is no journal"
        found = self.stands_for(lines)
        if found is None:
            return "its lines are no front of the changes: %r" % lines
        count, times = found
        if count < least:
            return "%d changes of %d that were acknowledged" % (count, least)
        if times < anew:
            return "it is the file of before it was made anew"
        return None if count in self.fronts else "a request's changes in part: %d" % count


def told(machine):
    """The reply to `HISTORY`."""
    return text_of(machine.do({"op": "history"})).encode() + b"\n"
