"""What the tests stand on: the program, as a session of its own and as a server."""

import json
import os
import pty
import select
import signal
import subprocess
import sys
from pathlib import Path
from typing import Any, Dict, List, Optional

HERE = Path(__file__).resolve()
sys.path.insert(0, str(HERE.parents[1]))  # the package beside the tests, installed or not

from workbook_client import NoProgram, Workbook  # noqa: E402
from workbook_client.channel import BUILT, Channel, command  # noqa: E402


def program() -> str:
    """The program, or where it would be."""
    try:
        return command()[0]
    except NoProgram:
        return str(BUILT)


PROGRAM = program()
PATIENCE = float(os.environ.get("WORKBOOK_PATIENCE", "1"))
"""How many times as long what has to come is waited for: more than once on a machine that does much else."""
LONG = 60 * PATIENCE
"""So many seconds a command may take."""


class Server:
    """`workbook serve` on a free port. It ends once each of its seats was taken and left."""

    def __init__(self, seats: int = 2, port: int = 0, resume: Optional[str] = None):
        self.seats = seats
        words = [PROGRAM, "serve", "--port", str(port), "--seats", str(seats), *(["--resume"] if resume is not None else [])]
        self._process = subprocess.Popen(words, stdin=subprocess.PIPE, stdout=subprocess.PIPE)
        assert self._process.stdin is not None and self._process.stdout is not None
        self._process.stdin.write((resume or "").encode())
        self._process.stdin.close()
        self._told = self._process.stdout
        self.port = int(self._told.readline().rsplit(b":", 1)[1])
        self._taken: List[Workbook] = []

    def connect(self) -> Workbook:
        """Takes a seat."""
        book = Workbook.connect("127.0.0.1", self.port)
        self._taken.append(book)
        return book

    def settled(self) -> "tuple[int, str]":
        """Leaves all seats: how many entries there were, and the text of the workbook."""
        while len(self._taken) < self.seats:
            self.connect()
        for book in self._taken:
            book.close()
        first, _, text = self._told.read().decode().partition("\n")
        return int(first.split()[1]), text

    def kill(self) -> None:
        """Ends the server, whoever still sits there."""
        self._process.kill()
        self._process.wait()

    def close(self) -> None:
        """Ends it all."""
        for book in self._taken:
            book.close()
        self.kill()
        self._told.close()


class Terminal:
    """A module of the client, as it is started at a terminal."""

    def __init__(self, *words: str):
        self._parent, child = pty.openpty()
        self.process = subprocess.Popen(
            [sys.executable, "-m", *words], stdin=child, stdout=child, stderr=child, cwd=HERE.parents[1], start_new_session=True,
            env={**os.environ, "TERM": "dumb", "WORKBOOK_HISTORY": os.devnull},
            preexec_fn=lambda: signal.signal(signal.SIGINT, signal.SIG_DFL),  # a shell's background job has it ignored
        )
        os.close(child)
        self._seen = ""

    def types(self, text: str) -> None:
        """Keys are pressed: `\\n` is Enter, `\\x04` Ctrl-D, `\\t` Tab."""
        os.write(self._parent, text.encode())

    def interrupt(self) -> None:
        """Ctrl-C."""
        self.process.send_signal(signal.SIGINT)

    def waits(self, seconds: float) -> bool:
        """Whether nothing comes for so long."""
        return not select.select([self._parent], [], [], seconds)[0]

    def until(self, words: str) -> str:
        """What is shown up to these words."""
        while words not in self._seen:
            if self.waits(30 * PATIENCE):
                raise AssertionError(f"waited for {words!r}, saw {self._seen!r}")
            try:
                self._seen += os.read(self._parent, 4096).decode()
            except OSError:  # it has ended
                raise AssertionError(f"waited for {words!r}, saw {self._seen!r} and the end") from None
        at = self._seen.index(words) + len(words)
        told, self._seen = self._seen[:at], self._seen[at:]
        return told

    def ends(self) -> int:
        """The exit status of one that ends."""
        return self.process.wait(30 * PATIENCE)

    def close(self) -> None:
        """Ends it."""
        self.process.kill()
        self.process.wait()
        os.close(self._parent)


class Told(Channel):
    """A channel that keeps what is sent and answers what it was told to."""

    def __init__(self, *replies: Dict[str, Any]):
        self.replies = [json.dumps(reply).encode() + b"\n" for reply in replies]
        self.sent: List[Dict[str, Any]] = []
        self.closed = False

    def send(self, line: bytes) -> None:
        self.sent.append(json.loads(line))

    def press(self) -> None:
        pass

    def front(self) -> bytes:
        return self.replies[0]

    def drop(self) -> None:
        del self.replies[0]

    def close(self) -> None:
        self.closed = True


os.environ.setdefault("WORKBOOK_HISTORY", os.devnull)
