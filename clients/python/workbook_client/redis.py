"""Redis, as far as a log of requests needs it: words out, replies in."""

import re
import select
import socket
from typing import Any, List, NamedTuple, Sequence, Union
from urllib.parse import unquote, urlsplit

from .errors import SessionEnded, sentence

Word = Union[str, bytes, int, float]


class Place(NamedTuple):
    """Where a Redis is, and as whom."""

    host: str
    port: int
    user: str
    password: str
    number: str


def place_of(url: str) -> Place:
    """What `redis://[user:password@]host[:port][/number]` says; ValueError, in a sentence, where a text says something else."""
    try:
        parts = urlsplit(url)
        port = parts.port or 6379
    except ValueError as wrong:
        raise ValueError(f"a log lies at redis://host:port, not at {url!r}: {wrong}") from wrong
    number = parts.path.strip("/")
    if parts.scheme != "redis" or not re.fullmatch("[0-9]*", number):
        raise ValueError(f"a log lies at redis://host:port, or at redis://host:port/number, not at {url!r}")
    return Place(parts.hostname or "127.0.0.1", port, unquote(parts.username or ""), unquote(parts.password or ""), number)


def without_password(url: str) -> str:
    """A URL as it may be shown."""
    return re.sub("//[^/]*@", "//", url)


class RedisRefused(Exception):
    """Redis answered a command by an error."""


class RedisGone(SessionEnded):
    """Redis isn't there, or its connection broke. What was sent without a reply may have been done."""


class Redis:
    """A connection, by `redis://[user:password@]host[:port][/number]`. One thread at a time may use it.

    Whatever exception comes in the middle of a call but `RedisRefused`, the connection has ended: replies could no more be told
    apart.
    """

    def __init__(self, url: str, wait: float = 10.0):
        place = place_of(url)
        self.where = f"{place.host}:{place.port}"
        self._wait = wait
        self._torn = False
        try:
            self._socket = socket.create_connection((place.host, place.port), wait)
        except (OSError, UnicodeError) as fault:  # UnicodeError: no such host
            raise RedisGone(f"no redis at {self.where}: {sentence(fault)}") from fault
        self._socket.setsockopt(socket.IPPROTO_TCP, socket.TCP_NODELAY, 1)
        self._coming = self._socket.makefile("rb")
        if place.password:
            user = [place.user] if place.user else []
            self.call("AUTH", *user, place.password)
        if place.number:
            self.call("SELECT", place.number)

    def call(self, *words: Word, wait: float = 0.0) -> Any:
        """One command. `wait` is how long Redis itself may wait before it answers."""
        (reply,) = self.calls([words], wait)
        if isinstance(reply, RedisRefused):
            raise reply
        return reply

    def calls(self, commands: Sequence[Sequence[Word]], wait: float = 0.0) -> List[Any]:
        """Many commands at once; a `RedisRefused` stands in the place of the reply of one that was refused."""
        if self._torn:
            raise RedisGone(f"the connection to {self.where} has ended")
        self._torn = True
        try:
            self._socket.settimeout(self._wait + wait)
            self._socket.sendall(b"".join(map(_spelled, commands)))
            replies = [self._reply() for _ in commands]
        except OSError as fault:
            self.close()
            raise RedisGone(f"the connection to {self.where} broke: {fault}") from fault
        self._torn = False
        return replies

    def is_gone(self) -> bool:
        """Whether the connection has ended, as far as that is known without waiting."""
        if not self._torn:
            waits = select.poll()
            waits.register(self._socket, select.POLLIN)
            try:
                self._torn = bool(waits.poll(0)) and not self._socket.recv(1, socket.MSG_PEEK)
            except OSError:
                self._torn = True
        return self._torn

    def close(self) -> None:
        self._torn = True
        self._coming.close()
        self._socket.close()

    def _line(self) -> bytes:
        line = self._coming.readline()
        if not line.endswith(b"\r\n"):
            raise OSError("it was closed")
        return line[:-2]

    def _reply(self) -> Any:
        line = self._line()
        kind, rest = line[:1], line[1:]
        if kind == b"+":
            return rest
        if kind == b"-":
            return RedisRefused(rest.decode(errors="replace"))
        if kind == b":":
            return int(rest)
        if kind == b"$":
            return self._bytes(int(rest))
        if kind == b"*":
            return None if rest == b"-1" else [self._reply() for _ in range(int(rest))]
        raise OSError(f"what answers is no redis: {line[:80]!r}")

    def _bytes(self, length: int) -> Any:
        if length < 0:
            return None
        data = self._coming.read(length + 2)
        if len(data) != length + 2:
            raise OSError("it was closed")
        return data[:-2]


def _spelled(words: Sequence[Word]) -> bytes:
    parts = [b"*%d\r\n" % len(words)]
    for word in words:
        data = word if isinstance(word, bytes) else str(word).encode()
        parts.append(b"$%d\r\n%s\r\n" % (len(data), data))
    return b"".join(parts)
