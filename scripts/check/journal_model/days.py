"""The order in which a desk did what its seats asked, by the changes that came to its file.

A change is its seat's next one, and is done by the model when its line comes. A question or a refusal is done as soon as the model
answers it so: it tells of the changes until then, or of more.
"""

import copy
import json
from collections import deque

from workbook_model import read, text_of
from workbook_model.literals import Refused
from workbook_model.machine import refusal
from workbook_model.reading import QUESTIONS

from .runs import Strange
from .text import changes_of


class Day:
    """A day at a desk: what each seat still has to be answered, and the changes that come to the file."""

    def __init__(self, course, number, seats, changes):
        self.course, self.number, self.changes = course, number, changes
        self.waiting = {seat.number: deque(seat.asked) for seat in seats}

    def go(self):
        """Does all of it on the course."""
        self.look()
        while self.changes:
            self.change()
            self.look()
        for seat, waiting in self.waiting.items():
            if waiting:
                raise Strange("no front of the changes explains that seat %d is told %r of %r" % (seat, waiting[0][1], waiting[0][0]))

    def change(self):
        """Does the request that the next changes are of."""
        for seat, waiting in self.waiting.items():
            line, reply = waiting[0] if waiting else (b"", b"{}")
            made = made_by(line, reply)
            if made and self.changes[: len(made)] == made:
                if self.course.answer((self.number, seat), line) != reply + b"\n":
                    raise Strange("seat %d was told %r of %r, and the file has other changes before it" % (seat, reply, line))
                waiting.popleft()
                self.changes = self.changes[len(made) :]
                return
        raise Strange("no seat was told of the change %r where the file has it" % self.changes[0])

    def look(self):
        """Does what changes nothing, as far as it is answered so now."""
        for seat, waiting in self.waiting.items():
            while waiting and not made_by(*waiting[0]) and answers(self.course.machine, waiting[0][0]) == waiting[0][1]:
                _, reply = waiting.popleft()
                self.course.tell((self.number, seat), reply + b"\n")


def made_by(line, reply):
    """The changes that a line made, by its reply."""
    told = json.loads(reply)
    return changes_of(read(line), told) if {"edit", "undone", "redone"} & set(told) else []


def answers(machine, line):
    """The reply to a line, which changes nothing."""
    try:
        request = read(line)
    except Refused as why:
        return text_of(refusal(why)).encode()
    if request["op"] not in QUESTIONS:
        machine = copy.deepcopy(machine)
    return text_of(machine.do(request)).encode()
