"""A workbook kept in a journal file, by docs/PROTOCOL.md: which changes a file stands for, how one more is added, how it
begins with a history, and how it is made anew."""

import fcntl
import os
import stat

from .book import CHANGES
from .literals import Refused
from .machine import Machine, line_of, text_of
from .reading import json_of, request_of
from .saved import restored as of_text

HEADER = b"chapel-workbook 3\n"
START = HEADER + b"#"
ENDS, GOES_ON = b" ", b"+"  # the mark of a line that ends a batch, and of one that counts with the next


class NotOpened(Exception):
    """A file isn't opened: why, in a sentence."""


class Failed(NotOpened):
    """The file failed: what it has is known when it is opened again."""


def is_ours(held):
    """Whether a file begins with the header, or is the front of one that would."""
    front = min(len(held), len(HEADER))
    return held[:front] == HEADER[:front]


def changes_of(held):
    """The lines that a file stands for, whatever a crash made of its end."""
    return batches_of(held)[0]


def batches_of(held):
    """The lines of the whole batches of a file, and where these end."""
    found, waiting, at, end = [], [], len(HEADER), len(HEADER)
    for line in held[len(HEADER) :].split(b"\n")[:-1]:
        if line[:1] not in (ENDS, GOES_ON) or b"\0" in line:
            break
        at += len(line) + 1
        waiting.append(unstuffed(line[1:]))
        if line[:1] == ENDS:
            found, waiting, end = found + waiting, [], at
    return found, end


def unstuffed(line):
    """A line of a file: behind a byte 1 stands the digit of a byte."""
    plain, escaped = bytearray(), False
    for byte in line:
        if byte == 1 and not escaped:
            escaped = True
            continue
        plain.append(max(byte - ord("0"), 0) if escaped else byte)
        escaped = False
    return bytes(plain)


def batch_of(lines):
    """Lines that are kept together, as a file has them. No line of a change has a byte 0 or 1."""
    marks = [GOES_ON] * (len(lines) - 1) + [ENDS]
    return b"".join(mark + line.encode() + b"\n" for mark, line in zip(marks, lines))


def make(machine, line):
    """Makes a change again. Says whether it is granted."""
    try:
        request = request_of(json_of(line))
    except Refused:
        return False
    numbered = request["op"] in ("undo", "redo") and "k" in request
    return (numbered or request["op"] in CHANGES) and "error" not in machine.do(request)


def resume_line(text):
    """The line of a history's text, in place of the changes that led to it."""
    return text_of({"op": "resume", "text": text})


def begun(line):
    """The machine of the history that begins with a line, or None where it is no such line: it is read in one form alone."""
    try:
        given = json_of(line)
    except Refused:
        return None
    text = given.get("text") if isinstance(given, dict) else None
    return of_text(text) if isinstance(text, str) and resume_line(text).encode() == line else None


def led(machine, line):
    """The machine after a change, or None where it isn't granted."""
    if not machine.edits:
        other = begun(line)
        if other is not None:
            return other
    return machine if make(machine, line) else None


def restored(held):
    """The machine of a file's changes, or None where one isn't granted."""
    machine = Machine()
    for line in changes_of(held):
        machine = led(machine, line)
        if machine is None:
            return None
    return machine


def first_refused(held):
    """The first of a file's changes, from 0, that isn't granted, or None."""
    machine = Machine()
    for place, line in enumerate(changes_of(held)):
        machine = led(machine, line)
        if machine is None:
            return place
    return None


def changes_made(request, reply):
    """The lines that keep what a request did: none for a question, nor for a refusal."""
    if "edit" in reply:
        return [line_of(request)]
    if "redone" in reply:
        return [text_of({"op": "redo", "k": reply["redone"]})]
    undone = reply.get("undone", [])
    return [text_of({"op": "undo", "k": k}) for k in (undone if isinstance(undone, list) else [undone])]


class Journal:
    """An open journal file, locked until it is closed. `held` is what it held. One that is not there is made, or refused."""

    def __init__(self, path, makes=True):
        if not makes and not os.path.exists(path):
            raise NotOpened("there is no such journal, and compact makes none")
        try:
            self.file = opened(path)
            self.path = os.path.realpath(path)
            self.held = b"".join(iter(lambda: os.read(self.file, 1 << 16), b""))
        except OSError as fault:
            raise NotOpened("the journal was not opened: " + in_words(fault)) from None
        if not is_ours(self.held):
            raise NotOpened("the file is no journal")

    def repair(self):
        """Puts the end right that a crash may have left."""
        on_disk(self.put_right)

    def begin(self, text):
        """Begins it with the text of a history, where it has no line."""
        if changes_of(self.held):
            raise NotOpened("the journal has lines already, and --resume begins a new one")
        self.repair()
        self.keep([resume_line(text)])

    def compact(self, text):
        """Puts a new file in its place, which has one line alone, with the text of its history."""
        on_disk(lambda: self.replace(HEADER + b" %s\n#" % resume_line(text).encode()))

    def keep(self, lines):
        """Adds lines. They are on the disk when it comes back, and a crash leaves all of them or none."""
        if lines:
            on_disk(lambda: self.append(lines))

    def replace(self, data):
        beside = "%s.%d.new" % (self.path, os.getpid())
        make_whole(beside, data)
        with open(beside, "rb") as new:
            os.chmod(beside, os.fstat(self.file).st_mode & 0o7777)
            fcntl.flock(new, fcntl.LOCK_EX | fcntl.LOCK_NB)
            os.rename(beside, self.path)
            sync_folder(self.path)

    def put_right(self):
        _, end = batches_of(self.held)
        self.mark = end
        if len(self.held) < len(HEADER):
            end = 0
        os.ftruncate(self.file, end)
        write_at(self.file, end, b"#" if end else START)
        os.fdatasync(self.file)

    def append(self, lines):
        block = batch_of(lines)
        write_at(self.file, self.mark, block + b"#")
        os.fdatasync(self.file)
        self.mark += len(block)


def opened(path):
    """The file at a path, made where there is none, and locked."""
    begin(path)
    if not stat.S_ISREG(os.stat(path).st_mode):
        raise NotOpened("the journal is no regular file")
    file = os.open(path, os.O_RDWR)
    try:
        fcntl.flock(file, fcntl.LOCK_EX | fcntl.LOCK_NB)
    except BlockingIOError:
        os.close(file)
        raise NotOpened("the journal is in use") from None
    return file


def on_disk(act):
    """Does something with the file."""
    try:
        act()
    except OSError as fault:
        raise Failed("the journal failed: " + in_words(fault)) from None


def in_words(fault):
    """What the system says of a call that it refused."""
    return "%s (os error %d)" % (os.strerror(fault.errno), fault.errno)


def begin(path):
    """Makes a file that is missing, whole, unless another process is first."""
    if os.path.exists(path):
        return
    beside = "%s.%d.new" % (path, os.getpid())
    make_whole(beside, START)
    try:
        os.link(beside, path)
        sync_folder(path)
    except FileExistsError:
        pass
    finally:
        os.remove(beside)


def make_whole(path, data):
    """Makes a file with these bytes, all of them on the disk. Where that fails, nothing is left of it."""
    try:
        with open(path, "wb") as file:
            file.write(data)
            file.flush()
            os.fsync(file.fileno())
    except OSError:
        os.remove(path)
        raise


def sync_folder(path):
    folder = os.open(os.path.dirname(path) or ".", os.O_RDONLY)
    try:
        os.fsync(folder)
    finally:
        os.close(folder)


def write_at(file, at, data):
    """Writes all of these bytes at a place."""
    while data:
        done = os.pwrite(file, data, at)
        data, at = data[done:], at + done
