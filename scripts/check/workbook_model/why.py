"""Why an input is refused, in the words of docs/PROTOCOL.md, "Why an input is refused"."""

from . import kept
from .book import CHANGES
from .literals import Refused
from .machine import Edit, Machine, line_of
from .reading import json_of, request_of
from .saved import restored
from .texts import read_book

A_BOOK = "it is the text of a workbook; 'workbook upgrade' makes it that of a history"
A_HISTORY = "it is the text of a history already"
A_JOURNAL = "it begins as a journal; 'workbook run --journal' takes one, or tells which line is not granted"
CUT_SHORT = "it is cut short: the last line is not 'end'"
ALTERED = "it begins and ends as a text of the program, but is not as the program prints one"
OTHER_HEADING = "its edits are granted, and the lines above them are not what these edits make"
NOT_OURS = "it does not begin with 'chapel-workbook'"


def look(data):
    """By how bytes begin and end."""
    if data.startswith(kept.HEADER):
        return A_JOURNAL
    if not data.startswith(b"chapel-workbook "):
        return NOT_OURS
    return ALTERED if data.endswith(b"\nend\n") else CUT_SHORT


def no_text(data):
    """Where any text is wanted: of one that begins and ends as ours, where it is no history's."""
    why = look(data)
    return place(data) if why == ALTERED else why


def place(data):
    """The first line behind the one that counts edits that none goes on with, or the lines above the edits."""
    count = data.find(b"\nhistory ")
    if count < 0:
        return ALTERED
    left, machine = data[data.index(b"\n", count + 1) + 1 :], Machine()
    while b"\n" in left and goes_on(machine, left[: left.index(b"\n")]):
        left = left[left.index(b"\n") + 1 :]
    if left == b"end\n":
        return OTHER_HEADING
    return "line %d of the history is not granted" % (data[: len(data) - len(left)].count(b"\n") + 1)


def goes_on(machine, line):
    """Takes the edit of a line in, and says whether that is granted."""
    try:
        request = request_of(json_of(line[2:]))
        if line[:2] not in (b"+ ", b"- ") or request["op"] not in CHANGES or line_of(request).encode() != line[2:]:
            return False
        if line[:1] == b"+":
            machine.edit(request)
        else:
            machine.edits.append(Edit(request))
        return True
    except Refused:
        return False


def is_book(data):
    try:
        read_book(data.decode())
        return True
    except (Refused, UnicodeDecodeError):
        return False


def is_history(data):
    try:
        return restored(data.decode()) is not None
    except UnicodeDecodeError:
        return False


def no_history(data):
    """Where the text of a history is wanted."""
    return A_BOOK if is_book(data) else no_text(data)


def no_opening(data):
    """Where it is wanted in front of a session."""
    end = data.find(b"\nend\n")
    return look(data) if end < 0 else no_history(data[: end + 5])


def no_book(data):
    """Where the text of a workbook is wanted."""
    return A_HISTORY if is_history(data) else look(data)


def no_journal(held):
    """Of a journal, the first line that is not granted."""
    return "line %d of the journal is not granted" % (kept.first_refused(held) + 2)


def nothing(data):
    """Where any text would do, and a journal too."""
    return no_journal(data) if data.startswith(kept.HEADER) else no_text(data)
