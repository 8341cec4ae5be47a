"""Text 3: a file's lines, and the lines that an answered request adds to it."""

import re

from workbook_model import kept, read, text_of
from workbook_model.literals import Refused
from workbook_model.machine import line_of, refusal

HEADER = b"chapel-workbook 3\n"


MARKS = [b" ", b"+"]  # of a line that ends a batch, and of one that counts with the next
CLOSED = b"#"
ESCAPED = re.compile(rb"\x01(.?)")  # a byte 0 or 1 of a line, by its digit


def whole(file):
    """The lines of the whole batches behind a file's header, and how many bytes these are with the header."""
    lines, waiting, size, count = [], [], len(HEADER), len(HEADER)
    for line in file[len(HEADER) :].split(b"\n")[:-1]:
        if line[:1] not in MARKS or b"\0" in line:
            break
        size += len(line) + 1
        waiting.append(unstuffed(line[1:]))
        if line[:1] == MARKS[0]:
            lines, waiting, count = lines + waiting, [], size
    return lines, count


def unstuffed(line):
    """A line of a file with the bytes 0 and 1 that the file has in two."""
    return ESCAPED.sub(lambda found: bytes(max(digit - ord("0"), 0) for digit in found[1]), line)


def recovered(file):
    """The lines that a file stands for, or None where it is no journal, nor the beginning of one."""
    head = file[: len(HEADER)]
    return whole(file)[0] if head == HEADER[: len(head)] else None


def repaired(file):
    """The file as the program leaves it once it was opened."""
    return file[: whole(file)[1]] + CLOSED if len(file) >= len(HEADER) else HEADER + CLOSED


def is_at_rest(file, lines):
    """Whether a file stands for these lines, and has nothing else but the mark at its end."""
    return recovered(file) == lines and repaired(file) == file


def at_rest(lines, mark=MARKS[0]):
    """A file that stands for these lines while nobody writes it, each a batch of its own; or, with the other mark, all one batch."""
    marks = [mark] * (len(lines) - 1) + MARKS[:1]
    return b"".join([HEADER, *(mark + line + b"\n" for mark, line in zip(marks, lines)), CLOSED])


START = at_rest([])


def lined(lines):
    """The text of lines."""
    return b"".join(line + b"\n" for line in lines)


def resume_line(text):
    """The line that a history begins with, by its text."""
    return kept.resume_line(text).encode()


def numbered(op, k):
    return text_of({"op": op, "k": k}).encode()


def changes_of(request, reply):
    """The lines of the changes that a request made, which was answered so."""
    if "edit" in reply:
        return [line_of(request).encode()]
    if "redone" in reply:
        return [numbered("redo", reply["redone"])]
    undone = reply.get("undone", [])
    return [numbered("undo", k) for k in (undone if isinstance(undone, list) else [undone])]


def answered(machine, line):
    """The text of the reply to a line, and the lines of the changes that it made."""
    try:
        request = read(line)
    except Refused as why:
        return text_of(refusal(why)), []
    reply = machine.do(request)
    return text_of(reply), changes_of(request, reply)
