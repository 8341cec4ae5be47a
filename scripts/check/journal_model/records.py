"""What `scripts/check/recorder.c` recorded of a program's calls."""

from typing import NamedTuple

WRITE, CUT, ENDED, BEGUN, SYNC, FOLDER, TOLD, NAMED, RENAMED, TAKEN_AWAY, FAILED = b"W", b"C", b"E", b"B", b"S", b"D", b"T", b"N", b"M", b"U", b"F"


class Call(NamedTuple):
    """A call: its kind, the number of the file or what names the connection, where it writes or cuts, its bytes, and its thread."""

    kind: bytes
    file: object
    at: int
    data: bytes
    thread: int = 0


def read_record(record):
    """The calls of a record, in order."""
    at, calls = 0, []
    while at < len(record):
        end = record.index(b"\n", at)
        kind, file, place, thread, size = record[at:end].split(b" ")
        at = end + 1 + int(size)
        calls.append(Call(kind, int(file), int(place), record[end + 1 : at], int(thread)))
        at += 1
    if any(call.kind == FAILED for call in calls):
        raise ValueError("a call failed while it was recorded")
    return calls
