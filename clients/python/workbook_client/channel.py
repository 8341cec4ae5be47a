"""Lines out and lines in: to a program that this client started, or over TCP."""

import os
import select
import shutil
import socket
import subprocess
import sys
import tempfile
import time
from pathlib import Path
from typing import IO, List, Optional, Sequence, Union

from .errors import NoAnswer, NoProgram, NoServer, SessionEnded, sentence

PIECE = 65_536
"""So many bytes are asked of the system at once."""

EARLY = 16_384
"""With so many bytes waiting, a send begins to write, so that the other side can begin too."""

IDLE = 60.0
"""Where nothing was sent for so many seconds, that may be why a connection was ended."""

LONGEST_WORDS = 500
"""So much is told of what a program said at its end."""

Program = Union[str, Sequence[str]]
"""A program: its path, or the words that start it."""

STATUSES = {2: "a bad command line", 3: "its input or output failed", 4: "no memory"}
"""What the program's exit statuses say."""


class Channel:
    """Lines go out by `send`, in order; `front` waits for the next line that came in.

    It never waits on one side alone: while a line can't go out, what comes in is read. So neither
    side waits for the other, however much is on its way.

    An interruption, as by Ctrl-C, may come at any place. Nearly all time is spent waiting, where
    it does no harm. Where bytes are between the system and this object, `_torn` is set: then it
    is lost how many they were, and the channel is of no use any more.
    """

    def __init__(self, coming: int, going: int, timeout: Optional[float] = None):
        self._in, self._out = coming, going
        self._coming, self._going = bytearray(), bytearray()
        self._searched = 0  # so far there is no line end in `_coming`
        self._ended = self._deaf = self._torn = False
        self.closed = False
        self.timeout = timeout
        """After so many seconds without a byte a wait is given up; None waits for ever."""
        for end in {coming, going}:
            os.set_blocking(end, False)

    def send(self, line: bytes) -> None:
        """Puts a line on its way. It goes out at the next `front`, or when there are many."""
        self._check()
        if self._deaf:
            raise SessionEnded(self.why())
        self._going += line

    def press(self) -> None:
        """Begins to write where much is to go out."""
        while len(self._going) >= EARLY and not (self._ended or self._deaf):
            self._move()

    def front(self) -> bytes:
        """The next line that came, with its end. It stays in front until `drop`."""
        while True:
            end = self._coming.find(b"\n", self._searched)
            if end >= 0:
                self._searched = end
                return bytes(self._coming[: end + 1])
            self._searched = len(self._coming)
            self._check()
            self._move()

    def drop(self) -> None:
        """The line in front is done with."""
        del self._coming[: self._searched + 1]
        self._searched = 0

    def why(self) -> str:
        """Why nothing comes any more."""
        return "the session has ended"

    def is_gone(self) -> bool:
        """Whether the other side has ended, as far as that is known without waiting."""
        if not (self.closed or self._ended or self._torn):
            waits = select.poll()
            waits.register(self._in, select.POLLIN)
            if waits.poll(0):
                self._read()
        return self.closed or self._ended or self._torn

    def was_idle(self) -> bool:
        """Whether nothing was sent for so long that the other side may have ended the session for that."""
        return False

    def close(self) -> None:
        """Ends the session."""
        self.closed = True

    def _check(self) -> None:
        if self.closed:
            raise SessionEnded("the session is closed")
        if self._torn:
            raise SessionEnded("the session was interrupted in the middle of a line")
        if self._ended:
            raise SessionEnded(self.why())

    def _move(self) -> None:
        """Waits until bytes can go out or come in, and moves what can be moved."""
        writing = bool(self._going) and not self._deaf
        wanted = {self._in: select.POLLIN}
        if writing:
            wanted[self._out] = wanted.get(self._out, 0) | select.POLLOUT
        waits = select.poll()  # made anew each time: an interruption leaves nothing half done
        for end, events in wanted.items():
            waits.register(end, events)
        ready = dict(waits.poll(None if self.timeout is None else self.timeout * 1000))
        if not ready:
            raise NoAnswer(f"no answer for {self.timeout:g} seconds")
        if writing and ready.get(self._out, 0) & ~select.POLLIN:
            self._write()
        if ready.get(self._in, 0) & ~select.POLLOUT:
            self._read()

    def _write(self) -> None:
        self._torn = True
        try:
            del self._going[: os.write(self._out, self._going[:PIECE])]
        except (BlockingIOError, InterruptedError):
            pass
        except OSError:  # it reads no more; replies from before may still come
            self._deaf = True
            self._going.clear()
        self._torn = False

    def _read(self) -> None:
        self._torn = True
        try:
            piece = os.read(self._in, PIECE)
            self._ended = not piece
            self._coming += piece
        except (BlockingIOError, InterruptedError):
            pass
        except OSError:
            self._ended = True
        self._torn = False


class ProgramChannel(Channel):
    """A program of our own, `workbook run`, which ends with this channel."""

    def __init__(self, program: Optional[Program] = None):
        words = command(program)
        self.program = words[0] if words[1:2] == ["run"] else None
        """The program, where it is one that was found."""
        self._said = scratch()
        """What the program writes to standard error, where this client could have it."""
        try:
            # A process group of its own: Ctrl-C at a prompt is for the client, not for the program.
            self._process = subprocess.Popen(
                words, bufsize=0, stdin=subprocess.PIPE, stdout=subprocess.PIPE, stderr=self._said,
                start_new_session=True,
            )
        except OSError as fault:
            if self._said is not None:
                self._said.close()
            raise NoProgram(f"{words[0]!r} can't be started: {fault}") from fault
        assert self._process.stdin and self._process.stdout
        super().__init__(self._process.stdout.fileno(), self._process.stdin.fileno())

    def why(self) -> str:
        status = self.status()
        if status is None:
            return "the program answers no more"
        said = self.words() or STATUSES.get(status)
        return f"the program has ended with status {status}" + (f" ({said})" if said else "")

    def status(self) -> Optional[int]:
        """The exit status of a program that has ended, or ends now."""
        try:
            return self._process.wait(1)
        except subprocess.TimeoutExpired:
            return None

    def words(self) -> str:
        """The last line that the program wrote to standard error."""
        return last_words(self._said)

    def close(self) -> None:
        if self.closed:
            return
        super().close()
        assert self._process.stdin and self._process.stdout
        self._process.stdin.close()
        self._process.stdout.close()
        try:
            self._process.wait(5)
        except subprocess.TimeoutExpired:
            self._process.kill()
            self._process.wait()
        if self._said is not None:
            self._said.close()


def scratch() -> Optional[IO[bytes]]:
    """A file without a name; None where there is no room for one."""
    try:
        return tempfile.TemporaryFile()
    except OSError:
        return None


def last_words(said: Optional[IO[bytes]]) -> str:
    """The last line that a program wrote to a file."""
    if said is None or said.closed:
        return ""
    said.seek(0)
    return said.read().decode(errors="replace").strip().rpartition("\n")[2][:LONGEST_WORDS]


class SocketChannel(Channel):
    """A seat of a served workbook: at a port of a host, or, without a port, at the socket that lies at a path."""

    def __init__(self, host: str, port: Optional[int], wait: Optional[float] = None):
        self.where = host if port is None else f"{host}:{port}"
        self._sent_at = time.monotonic()
        try:
            self._socket = _connected(host, port, wait)
        except (OSError, OverflowError, UnicodeError) as fault:  # the last two: no such port, and no such host
            raise NoServer(f"nobody listens at {self.where}: {sentence(fault)}") from fault
        super().__init__(self._socket.fileno(), self._socket.fileno())

    def send(self, line: bytes) -> None:
        super().send(line)
        self._sent_at = time.monotonic()

    def why(self) -> str:
        quiet = f"; nothing was sent for {time.monotonic() - self._sent_at:.0f} seconds"
        idle = f"{quiet}, and a desk may end a connection that is idle for so long" if self.was_idle() else ""
        return f"{self.where} has closed the connection{idle}"

    def was_idle(self) -> bool:
        return time.monotonic() - self._sent_at >= IDLE

    def close(self) -> None:
        if self.closed:
            return
        super().close()
        self._socket.close()


def _connected(host: str, port: Optional[int], wait: Optional[float]) -> socket.socket:
    """A connection whose lines go out at once."""
    if port is not None:
        over_net = socket.create_connection((host, port), wait)
        over_net.setsockopt(socket.IPPROTO_TCP, socket.TCP_NODELAY, 1)
        return over_net
    local = socket.socket(socket.AF_UNIX, socket.SOCK_STREAM)
    try:
        local.settimeout(wait)
        local.connect(host)
    except BaseException:
        local.close()
        raise
    return local


BUILT = Path(__file__).resolve().parents[3] / "crates" / "workbook" / "out" / "workbook"
"""The program that the repository has built, where this package lies in it."""


def command(program: Optional[Program] = None, word: str = "run") -> List[str]:
    """The words that start a command of the program: as given, where they are a list of words; else the program that is given, or
    that WORKBOOK_PROGRAM names, or `workbook` on the path, or the one that the repository has built, and the command's word."""
    if program is not None and not isinstance(program, str):
        return list(program)
    wanted = program or os.environ.get("WORKBOOK_PROGRAM")
    found = shutil.which(os.path.expanduser(wanted or "workbook"))
    if found is None and not wanted:
        found = shutil.which(str(BUILT))
    if found is None:
        raise NoProgram(
            f"there is no program {wanted or 'workbook'!r}: give its path (--program, or "
            "WORKBOOK_PROGRAM); in the repository it is crates/workbook/out/workbook once `rt ci` has "
            "passed, and until then scripts/model-program stands in, slow and unproved"
        )
    return [found, word]


def called(module: str) -> str:
    """What starts this: a command that was installed, or Python."""
    name = os.path.basename(sys.argv[0])
    return name if name.startswith("workbook-") else f"python3 -m {module}"
