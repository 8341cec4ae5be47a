"""Faults that are planted in what was recorded, each of which has to be noticed: as if the program had left out a sync, had begun it
too early, had told too early, or had kept the changes of a desk in another order."""

import random

from .asking import Asker, Seats, Watcher
from .course import HISTORY, Course
from .crashing import COMPACT, kept_desk, kept_session
from .days import Day
from .records import BEGUN, ENDED, FOLDER, NAMED, RENAMED, SYNC, TOLD, WRITE
from .runs import Strange

SEATS = 4
FAR = 2  # so many syncs before


def without_sync(calls):
    """The calls without the last sync before each reply."""
    kept = []
    for at, call in enumerate(calls):
        later = [it.kind for it in calls[at + 1 :] if it.kind in (SYNC, TOLD)]
        if call.kind != SYNC or later[:1] != [TOLD]:
            kept.append(call)
    return kept


def told_early(calls, is_early=lambda call: True, syncs=1):
    """The calls with each reply before so many syncs."""
    moved = []
    for call in calls:
        at = len(moved)
        if call.kind == TOLD and is_early(call):
            before = [place for place, it in enumerate(moved) if it.kind == SYNC]
            at = before[-syncs] if len(before) >= syncs else at
        moved.insert(at, call)
    return moved


def under_way(calls):
    """The calls with the end of each write behind the next call, which a sync has begun with."""
    moved = list(calls)
    for at, (call, end, after) in enumerate(zip(moved, moved[1:], moved[2:])):
        if call.kind == WRITE and (end.kind, after.kind) == (ENDED, BEGUN):
            moved[at + 1 : at + 3] = [after, end]
    return moved


def named_first(calls):
    """The calls with each name before the sync of its file."""
    moved = list(calls)
    for at, call in enumerate(calls):
        if call.kind in (NAMED, RENAMED):
            synced = [place for place in range(at) if moved[place].kind == SYNC and moved[place].file == call.file]
            if synced:
                moved.insert(synced[-1], moved.pop(at))
    return moved


def without_folder(calls):
    """The calls without the sync of a folder."""
    return [call for call in calls if call.kind != FOLDER]


def each(changed, command):
    """What changes the calls of a command."""
    return lambda phases: [phase._replace(calls=changed(phase.calls)) if phase.name == command else phase for phase in phases]


RUN, SERVE = {
    "run, a batch not synced": without_sync,
    "run, a reply before the sync": told_early,
    "run, a batch not written before the sync begins": under_way,
}, {
    "serve, a batch not synced": without_sync,
    "serve, a reply before its batch is kept": told_early,
    "serve, a batch not written before the sync begins": under_way,
    "serve, a seat that asks is told of changes before they are kept": lambda calls: told_early(calls, is_watcher, FAR),
}
BEGUN_WITH = {"run --resume, the history not synced before a reply": without_sync}
ANEW_WITH = {
    "compact, the new file in place before it is synced": named_first,
    "compact, ended before the folder is synced": without_folder,
}


def is_watcher(call):
    return call.file[1] == SEATS


def files_that_differ(recorded, changed, command):
    """How many files differ once the calls of a command are changed so."""
    phases = each(changed, command)(recorded.phases)
    return sum(1 for _, _, fault in recorded.files(phases, random.Random(command)) if fault)


def swapped(changes):
    """The changes with each two that stand side by side in the other order."""
    return (changes[:at] + [changes[at + 1], changes[at]] + changes[at + 2 :] for at in range(len(changes) - 1))


def lost(changes):
    """The changes without each one of them."""
    return (changes[:at] + changes[at + 1 :] for at in range(len(changes)))


def differs(seats, changes):
    """Whether these seats can't have been told what they were at a desk whose file has these changes."""
    try:
        Day(Course(), 0, seats, changes).go()
        return False
    except Strange:
        return True


def planted(program, recorder, room, lines, can):
    """For each fault how many files differ: its name, and their number. `can` names the commands that the program has."""
    runs = [[[line] for line in lines], *([COMPACT] if "compact" in can else [])]
    session = kept_session("planted", program, recorder, room(), runs)
    yield from tried(session, RUN, "run")
    if "compact" in can:
        yield from tried(session, ANEW_WITH, "compact")
    if "run --resume" in can:
        opening = session.course.machine.do({"op": "history"})["text"]
        begun = kept_session("planted", program, recorder, room(), [[[HISTORY[:-1]]]], opening)
        yield from tried(begun, BEGUN_WITH, "run --resume")
    if "serve" in can:
        yield from planted_at_a_desk(program, recorder, room())


def planted_at_a_desk(program, recorder, room):
    chance = random.Random("planted")
    seats = Seats([*(Asker(number, SEATS, chance) for number in range(SEATS)), Watcher(SEATS, SEATS, chance)], 8)
    desk = kept_desk("planted", program, recorder, room, ["a day"], seats, chance)
    yield from tried(desk, SERVE, "serve")
    yield "serve, two changes in another order", sum(differs(seats, changes) for changes in swapped(desk.course.changes))
    missed = [changes for changes in lost(desk.course.changes) if not differs(seats, changes)]
    yield "serve, a change left out, whichever", 0 if missed else len(desk.course.changes)


def tried(recorded, faults, command):
    for what, changed in faults.items():
        yield what, files_that_differ(recorded, changed, command)
