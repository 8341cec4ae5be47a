"""A journal file, in which a program keeps each change before it tells of it: why one isn't opened, and how one is made anew."""

import os
import subprocess
from typing import NamedTuple, Optional, Union

from .channel import Program, ProgramChannel, command, last_words, scratch
from .errors import NoProgram, NotOpened, SessionEnded, StrangeReply

Path = Union[str, "os.PathLike[str]"]

KINDS = {
    b"chapel-workbook 1\n": "it is the text of a workbook, as `save` writes it: `load` makes its objects in an empty workbook",
    b"chapel-workbook 2\n": "it is a history, as `keep` writes it: `--resume` goes on from it",
}
"""What another file of ours is, by its first line."""


def place_of(path: Path) -> str:
    """Where a journal file lies."""
    return os.path.abspath(os.path.expanduser(os.fspath(path)))


class KeptChannel(ProgramChannel):
    """A program with a journal file."""

    def __init__(self, program: Optional[Program], place: str):
        super().__init__([*command(program), "--journal", place])
        self.place = place

    def why(self) -> str:
        return f"{super().why()}; what it had answered is kept in {self.place}"


def refused(channel: KeptChannel, no: SessionEnded) -> NotOpened:
    """What is told of a journal file that a session's program did not open."""
    status = channel.status()
    if status is None and isinstance(no, StrangeReply):
        return NotOpened(f"{channel.place} isn't opened: {no}")
    return not_opened(channel.place, status, channel.words())


def not_opened(place: str, status: Optional[int], words: str) -> NotOpened:
    """What is told of a journal file that a program did not open, by its exit status and its last words."""
    if status == 1:
        return NotOpened(f"{place} isn't opened: a line of it is no change that is accepted in its place. It stays as it is.")
    if status == 2:
        return NotOpened("the program takes no journal there: it is older than this client")
    told = words.removeprefix("workbook: ").removeprefix("the journal was not opened: ")
    kind = _kind(place)
    return NotOpened(f"{place} isn't opened: {told or f'the program ended with status {status}'}" + (f"; {kind}" if kind else ""))


def _kind(place: str) -> str:
    """What a file of ours is that is no journal; nothing where that isn't known."""
    try:
        with open(place, "rb") as file:
            return KINDS.get(file.read(18), "")
    except OSError:
        return ""


class Compacted(NamedTuple):
    """A journal that was made anew: where it lies, and its bytes before and after."""

    place: str
    before: int
    after: int


def compact(path: Path, program: Optional[Program] = None) -> Compacted:
    """Makes a journal file anew, by `workbook compact`: the same edits with their numbers, each in force or not as before, in one
    line. Nobody may have the file open. `NotOpened` where it is in use, or no journal, or isn't there; it stays as it is then."""
    place = place_of(path)
    try:
        before = os.path.getsize(place)
    except OSError as none:
        raise NotOpened(f"{place} isn't opened: {none.strerror}") from none
    words = command(program, "compact")
    with scratch() or open(os.devnull, "w+b") as said:
        try:
            status = subprocess.run([*words, place], stdin=subprocess.DEVNULL, stdout=subprocess.DEVNULL, stderr=said).returncode
        except OSError as fault:
            raise NoProgram(f"{words[0]!r} can't be started: {fault}") from fault
        if status == 2:
            raise NotOpened("the program has no `compact`: it is older than this client")
        if status:
            raise not_opened(place, status, last_words(said))
    return Compacted(place, before, os.path.getsize(place))
