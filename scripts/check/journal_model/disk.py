"""A disk by its calls, and what a crash may leave of one of its files.

What was synced stays. Of a write that was not, a crash may leave in each byte of its place what was there, what was written, or 0, and
any length between; of a cut, any length between; of a name, that it is there or not. These are too many to try: see `torn` for those
that are.
"""

import itertools
from collections import Counter

from .records import BEGUN, CUT, ENDED, FOLDER, NAMED, RENAMED, SYNC, TAKEN_AWAY, TOLD, WRITE

WHOLE = 512  # a longer write is torn in each way at some of its bytes alone; of one with zeros at its end, that is said of each part
SOME = 48
TOGETHER = 5  # of more calls that are not synced, some sets alone


def laid(old, at, data):
    """The bytes with others at a place."""
    return old[:at].ljust(at, b"\0") + data + old[at + len(data) :]


def effect(old, call):
    """The bytes after a call that was done."""
    return laid(old, call.at, call.data) if call.kind == WRITE else old[: call.at]


def torn(old, call, chance):
    """What a crash may leave of a write: torn at each byte, in front of it and behind it, and with each byte alone left out, where what
    is left out is as it was, zeros, or some of each by chance; and cut off where it is torn."""
    at, data, size = call.at, call.data, len(call.data)
    was = old[at : at + size].ljust(size, b"\0")
    either = bytes(chance.choice(two) for two in zip(was, bytes(size)))
    some = bytes(chance.choice(three) for three in zip(was, data, bytes(size)))
    front = len(data.rstrip(b"\0"))
    for other in dict.fromkeys([was, bytes(size), either, some]):
        for k in [*places(range(front + 1), chance), *places(range(front + 1, size + 1), chance)]:
            yield from shorter(old, laid(old, at, data[:k] + other[k:]), at + k)
            yield from shorter(old, laid(old, at, other[:k] + data[k:]), at + k)
            yield laid(old, at, data[:k] + other[k : k + 1] + data[k + 1 :])


def places(all_of, chance):
    """Each of some places, or of many some."""
    return all_of if len(all_of) <= WHOLE else sorted(chance.sample(all_of, SOME))


def shorter(old, new, at):
    """A file that a write has made, and the same cut off at a place, where that makes it no shorter than it was."""
    yield new
    if len(old) <= at < len(new):
        yield new[:at]


def taken(old, call, chance):
    """What a crash may leave of a call."""
    if call.kind == WRITE:
        return torn(old, call, chance)
    return (old[:length] for length in {call.at, len(old), *places(range(min(call.at, len(old)), len(old) + 1), chance)} if length <= len(old))


def outcomes(base, calls, chance):
    """What a crash may leave of calls that are not synced: one of them in each way, each other one done or not."""
    if not calls:
        yield base
    for at, call in enumerate(calls):
        others = itertools.product([False, True], repeat=len(calls) - 1)
        if len(calls) > TOGETHER:
            others = [[chance.random() < 0.5 for _ in calls[1:]] for _ in range(2**TOGETHER)]
        for done in others:
            old = base
            for other, is_done in zip(calls[:at], done):
                old = effect(old, other) if is_done else old
            for new in taken(old, call, chance):
                for other, is_done in zip(calls[at + 1 :], done[at:]):
                    new = effect(new, other) if is_done else new
                yield new


class Disk:
    """Files by their numbers, with what is on the disk of each, the calls on it, and how many of these are there; and the files that a
    path may name."""

    def __init__(self, path, file=None, held=None):
        self.path, self.named = path, [file]
        self.held, self.calls, self.kept = {file: held}, {}, Counter()
        self.under_way, self.begun = {}, {}  # by thread

    def take(self, call):
        """Has a call. A sync keeps the calls that had ended before it began."""
        if call.kind in (WRITE, CUT):
            self.calls.setdefault(call.file, []).append(call)
            self.under_way[call.thread] = call
        elif call.kind == ENDED:
            del self.under_way[call.thread]
        elif call.kind == BEGUN:
            self.begun[call.thread] = self.ended(call.file), len(self.named)
        elif call.kind == SYNC:
            self.sync(call.file, self.begun[call.thread][0])
        elif call.kind == FOLDER:
            self.named = self.named[min(self.begun[call.thread][1], len(self.named)) - 1 :]
        elif call.kind in (NAMED, RENAMED) and call.data == self.path:
            self.named.append(call.file)
        elif call.kind == TAKEN_AWAY and call.data == self.path:
            self.named.append(None)

    def ended(self, file):
        """How many calls on a file have ended, up to the first that has not."""
        calls, going = self.calls.get(file, []), list(self.under_way.values())
        return next((at for at, call in enumerate(calls) if any(call is other for other in going)), len(calls))

    def sync(self, file, count):
        """The first so many calls on a file are on the disk."""
        for call in self.calls.get(file, [])[self.kept[file] : count]:
            self.held[file] = effect(self.held.get(file) or b"", call)
            self.kept[file] += 1

    def waiting(self, file):
        """The calls on a file that no sync has kept."""
        return self.calls.get(file, [])[self.kept[file] :]

    def seen(self):
        """What is read at the path while nothing crashes, None where nothing is there."""
        file = self.named[-1]
        held = self.held.get(file) or b""
        for call in self.waiting(file):
            held = effect(held, call)
        return None if file is None else held

    def left(self, chance):
        """The files that a crash may leave at the path, None for none."""
        for file in set(self.named):
            if file is None:
                yield None
            else:
                yield from outcomes(self.held.get(file) or b"", self.waiting(file), chance)


def fronts(disk, calls, told, chance):
    """What a crash may leave at the path after each front of the calls. The bytes that each connection is told are counted in `told`; of
    fronts that differ in these alone the last is taken."""
    for call, after in zip([None, *calls], [*calls, None]):
        if call is not None:
            disk.take(call)
        if call is not None and call.kind == TOLD:
            told[call.file] += len(call.data)
        if after is None or after.kind not in (TOLD, BEGUN, ENDED):
            yield disk.left(chance)
