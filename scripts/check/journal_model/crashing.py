"""Journals that were recorded, with what their changes lead to; and crashes at each call on one, of which the program opens what they
leave."""

import hashlib
from collections import Counter, defaultdict

from .asking import Asker, Seats
from .course import ANEW, OUTPUT, Course
from .days import Day
from .disk import Disk, fronts
from .runs import Recording, Strange
from .text import is_at_rest, recovered, repaired

EACH_OPENING = EACH_SERVED = 100
SHOWN = 5
COMPACT = "compact"  # in place of a session's pieces


class Recorded:
    """A journal whose commands were recorded: their calls, and the course of its changes."""

    def __init__(self, name, recording, course):
        self.name, self.path, self.phases, self.course = name, recording.journal.encode(), recording.phases, course

    def files(self, phases, chance):
        """Each file that a crash may leave at a call, by the name of the command that makes it, with what is wrong with it, or None."""
        disk, told = Disk(self.path), Counter()
        for phase in phases:
            for left in fronts(disk, phase.calls, told, chance):
                least, anew = self.course.least(told), told[ANEW]
                for image in left:
                    yield phase.name, image, self.course.fault(recovered(image or b""), least, anew)
            if disk.seen() != phase.left:
                raise Strange("%s: the calls that were recorded make another file: %r" % (phase.name, disk.seen()))


def kept_session(name, program, recorder, room, runs, opening=None):
    """Runs one after the other over a new journal, the first perhaps from the text of a history; between them it may be made anew."""
    recording, course = Recording(program, recorder, room), Course(opening=opening)
    for pieces in runs:
        if pieces == COMPACT:
            made_anew(recording, course)
            continue
        wanted = b"".join([course.answer(OUTPUT, line) for piece in pieces for line in piece])
        if recording.session(pieces, opening) != wanted:
            raise Strange("its replies are others than the model's")
        rests(recording, course)
        opening = None
    return Recorded(name, recording, course)


def made_anew(recording, course):
    recording.compact()
    course.make_anew()
    rests(recording, course)


def rests(recording, course):
    """The file that a command left has the lines of the course and is at rest."""
    if not is_at_rest(recording.phases[-1].left, course.lines()):
        raise Strange("%s left the file %r" % (recording.phases[-1].name, recording.phases[-1].left))


def kept_desk(name, program, recorder, room, days, seats, chance):
    """Days at a desk over a new journal, of these seats; between them it may be made anew."""
    recording, course = Recording(program, recorder, room), Course()
    for number, day in enumerate(days):
        if day == COMPACT:
            made_anew(recording, course)
            continue
        printed = recording.desk(seats, number, chance.choice([0, 500, 2000]))
        before, lines = course.lines(), recovered(recording.phases[-1].left)
        if lines is None or lines[: len(before)] != before:
            raise Strange("the desk's file has lost lines of before")
        Day(course, number, seats, lines[len(before) :]).go()
        rests(recording, course)
        text = course.machine.do({"op": "print"})["text"]
        if not printed.startswith(b"settled ") or printed.split(b"\n", 1)[1] != text.encode():
            raise Strange("the desk ended with %r" % printed[:300])
    return Recorded(name, recording, course)


def random_desk(name, program, recorder, room, chance, compacts):
    """A desk of some seats, two days."""
    count = chance.choice([2, 3, 4, 8, 16])
    seats = Seats([Asker(number, count, chance) for number in range(count)], chance.choice([3, 5, 8]) if count > 4 else 12)
    return kept_desk(name, program, recorder, room, ["a day", *([COMPACT] if compacts else []), "a day"], seats, chance)


class Found:
    """What came of a journal: how many files were made by each command, and of crashes in an opening; which were opened; and what
    differs."""

    def __init__(self, name):
        self.name, self.made, self.within, self.opened = name, Counter(), 0, defaultdict(set)
        self.served = self.differing = 0
        self.shown = []

    def count(self):
        return sum(len(opened) for opened in self.opened.values())

    def differs(self, what):
        self.differing += 1
        if self.differing <= SHOWN:
            self.shown.append(("%s: %s" % (self.name, what))[:2000])


class Crash:
    """Crashes of a journal that was recorded."""

    def __init__(self, recorded, opener, recorder, chance, every):
        self.recorded, self.course = recorded, recorded.course
        self.opener, self.recorder, self.chance, self.every = opener, recorder, chance, every
        self.found, self.met = Found(recorded.name), set()

    def each(self):
        """Makes each file and looks at it."""
        for phase, image, fault in self.recorded.files(self.recorded.phases, self.chance):
            self.found.made[phase] += 1
            if self.looked_at(phase, image, fault, self.every) and self.found.count() % EACH_OPENING == 0:
                self.in_an_opening(phase, image)
        return self.found

    def looked_at(self, phase, image, fault, every):
        """Tells what is wrong with a file, and has each so many-th that was not met before opened; whether it was."""
        if fault:
            self.found.differs("%s: %s; the file %r" % (phase, fault, image))
            return False
        key = hashlib.blake2b(image or b"", digest_size=12).digest()
        if key in self.met:
            return False
        self.met.add(key)
        if len(self.met) % every:
            return False
        self.found.opened[phase].add(key)
        self.open(image, recovered(image or b""), self.opener.opened)
        if phase == "serve" and len(self.found.opened[phase]) % EACH_SERVED == 0:
            self.found.served += 1
            self.open(image, recovered(image or b""), self.opener.served)
        return True

    def open(self, image, lines, opened):
        status, told, left = opened(image)
        count, _ = self.course.stands_for(lines)
        if (status, told) != (0, self.course.histories[count]):
            self.found.differs("status %d, and %r is told of the file %r" % (status, told[:300], image))
        elif left != repaired(image or b""):
            self.found.differs("opening the file %r leaves %r" % (image, left))

    def in_an_opening(self, phase, image):
        """Crashes in the opening of a file leave the same lines."""
        calls, number = self.opener.recorded(image, self.recorder)
        lines = recovered(image or b"")
        disk = Disk(self.opener.journal.encode(), None if image is None else number, image)
        for left in fronts(disk, calls, Counter(), self.chance):
            for other in left:
                self.found.within += 1
                same = recovered(other or b"") == lines
                fault = None if same else "a crash in opening the file %r leaves another" % image
                self.looked_at(phase, other, fault, EACH_OPENING * self.every)
