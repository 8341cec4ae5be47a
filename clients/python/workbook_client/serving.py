"""A desk that this client started: `workbook serve`, whose seats share one workbook."""

import os
import subprocess
from typing import IO, TYPE_CHECKING, Any, Callable, List, NamedTuple, Optional

from . import journal as journals
from .channel import STATUSES, Program, command, last_words, scratch
from .errors import NoProgram, NotResumed, SessionEnded

if TYPE_CHECKING:
    from .book import Workbook

GRACE = 5.0
"""So many seconds a program has to end after it closed its output."""
LISTENING = b"listening on "
"""What a desk's first line begins with."""
OTHER_FAULTS = ("workbook: input or output failed", "workbook: the port ", "workbook: the socket ")
"""What a program's last words begin with where a desk isn't there, and its journal isn't the cause."""


class Listening(NamedTuple):
    """Where a desk listens, and whether it stays."""

    port: int
    stay: bool
    idle: Optional[int]
    socket: Optional[journals.Path]

    def path(self) -> str:
        """The path of its socket."""
        assert self.socket is not None
        return journals.place_of(self.socket)

    def words(self) -> List[str]:
        """The words that say so."""
        place = ["--port", str(self.port)] if self.socket is None else ["--socket", self.path()]
        idle = [] if self.idle is None else ["--idle", str(self.idle)]
        return [*(["--stay"] if self.stay else []), *place, *idle]


class Served:
    """A desk. It ends by itself once each of its seats was taken and left, or, where it stays, by `settled`; and else by `close`."""

    def __init__(
        self, take: "Callable[..., Workbook]", seats: int, journal: Optional[journals.Path], resume: Optional[str],
        program: Optional[Program], how: Listening,
    ):
        self._take = take
        self.seats = seats
        """How many seats it has. Each is taken once; where it stays, again and again."""
        self.stays = how.stay
        """Whether a seat is free again when its connection has ended."""
        self.journal = None if journal is None else journals.place_of(journal)
        """The file in which each change is kept before its reply comes; None where it is kept nowhere."""
        self._books: "List[Workbook]" = []
        words = [*command(program, "serve"), *how.words(), *_words(seats, self.journal, resume is not None)]
        self._said = scratch()
        self._process = self._started(words)
        assert self._process.stdin and self._process.stdout
        self._told: IO[bytes] = self._process.stdout
        self._input: IO[bytes] = self._process.stdin
        if not self.stays:
            self._gives(resume or "")
        self.host = "127.0.0.1"
        """Where it listens: this machine alone, or the path of its socket."""
        self.port: Optional[int] = None
        """Its port; None where it listens on a socket."""
        if how.socket is None:
            self.port = self._listening()
        else:
            self.host = how.path()
            self._heard(self.host)

    def _started(self, words: List[str]) -> "subprocess.Popen[bytes]":
        try:
            return subprocess.Popen(
                words, stdin=subprocess.PIPE, stdout=subprocess.PIPE, stderr=self._said, start_new_session=True,
            )
        except OSError as fault:
            if self._said is not None:
                self._said.close()
            raise NoProgram(f"{words[0]!r} can't be started: {fault}") from fault

    def _gives(self, text: str) -> None:
        """Hands over its whole input: the text of a history, or the line that ends it. A program that has ended takes none, and why is
        told by what it said."""
        try:
            with self._input:
                self._input.write(text.encode())
        except BrokenPipeError:
            pass

    def _listening(self) -> int:
        """The port that the desk tells of."""
        line = self._told.readline()
        if line.startswith(LISTENING) and line[-6:].split(b":")[-1].strip().isdigit():
            return int(line.rpartition(b":")[2])
        raise self._no_desk(line)

    def _heard(self, path: str) -> None:
        """Waits until the desk tells that it listens on its socket."""
        line = self._told.readline()
        if line.rstrip(b"\n") != LISTENING + os.fsencode(path):
            raise self._no_desk(line)

    def _no_desk(self, line: bytes) -> SessionEnded:
        """Why what was started is no desk, by its first line."""
        if not line or line == b"refused\n":
            return self._not_there()
        self.close()
        return SessionEnded(f"what was started is no desk: it says {line[:200]!r}")

    def _not_there(self) -> SessionEnded:
        """Why the desk isn't there."""
        try:
            status = self._process.wait(GRACE)
        except subprocess.TimeoutExpired:
            status = -1
        words = last_words(self._said)
        self.close()
        if status == 1 and self.journal is None:
            return NotResumed("the program refused the text: it is no history's")
        if self.journal is not None and not words.startswith(OTHER_FAULTS):
            return journals.not_opened(self.journal, status, words)
        return SessionEnded(f"the desk has ended with status {status} ({words or STATUSES.get(status, 'it says nothing')})")

    @property
    def address(self) -> str:
        """Where it listens, as `--connect` takes it."""
        return self.host if self.port is None else f"{self.host}:{self.port}"

    def place(self) -> str:
        """Where the workbook lies, and whether it is kept."""
        at = f"{self.address}, {self.seats} seat{'s' * (self.seats > 1)}"
        if self.journal is None:
            return f"{at}: this workbook is kept nowhere; history_text() of a seat is all of it"
        return f"{at}: each change is kept in {self.journal}, before it is told"

    def connect(self, timeout: Optional[float] = None, name: Optional[str] = None) -> "Workbook":
        """Takes the next seat, and says a name there, as `Workbook.connect` does."""
        book = self._take(self.host, self.port, name=name)
        book.exchange.channel.timeout = timeout
        self._books.append(book)
        return book

    def settled(self) -> str:
        """Leaves the seats that `connect` gave, waits until all are left, and gives the text that the desk ends with: that of the
        workbook, or of the history where it went on from one. A seat that nobody took is waited for too. A desk that stays is told to
        end: it waits for nobody. `SessionEnded` where the desk ended in another way."""
        for book in self._books:
            book.close()
        if self.stays and not self._input.closed:
            self._gives("stop\n")
        first, _, text = self._told.read().decode().partition("\n")
        if self._process.wait() or not first.startswith("settled "):
            raise self._not_there()
        return text

    def close(self) -> None:
        """Ends it, whoever still has a seat. With a journal nothing is lost that was answered."""
        for book in self._books:
            book.close()
        self._process.kill()
        self._process.wait()
        if not self._input.closed:
            self._gives("")
        self._told.close()
        if self._said is not None:
            self._said.close()

    def __enter__(self) -> "Served":
        return self

    def __exit__(self, *_: Any) -> None:
        self.close()

    def __repr__(self) -> str:
        return f"<a desk at {self.place()}>"


def _words(seats: int, journal: Optional[str], resumes: bool) -> List[str]:
    """The words for its seats, and for where its workbook begins."""
    kept = [] if journal is None else ["--journal", journal]
    return ["--seats", str(seats), *kept, *(["--resume"] if resumes else [])]
