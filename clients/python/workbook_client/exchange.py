"""Requests out and replies in: each reply is that of the oldest request without one."""

import json
from collections import deque
from typing import Any, Callable, Deque, Dict, List, Optional, Tuple, Type, TypeVar

from .channel import Channel
from .errors import NoSeat, SessionEnded, StrangeReply
from .refusals import LineTooLong, Refusal, refusal
from .requests import Request, is_change

LONGEST = 65_536
"""So many bytes a request may have before its line end."""

UNANSWERED = 131_072
"""With so many bytes of requests without a reply, replies are read until half of them are left."""

NO_OP = b"{}\n"
"""A line that asks for nothing: E01, and at a desk no entry."""


Member = TypeVar("Member")


class Reply(Dict[str, Any]):
    """The members of a reply. One that isn't there says that this is no reply to the request."""

    def __missing__(self, key: str) -> Any:
        raise StrangeReply(f"a reply without {key!r}, where one was wanted: {dict(self)!r:.200}")

    def number(self, key: str) -> int:
        """A member that is a whole number."""
        return self._of(int, key)

    def text(self, key: str) -> str:
        """A member that is a text."""
        return self._of(str, key)

    def truth(self, key: str) -> bool:
        """A member that is true or false."""
        return self._of(bool, key)

    def listed(self, key: str) -> List[Any]:
        """A member that is a list."""
        return self._of(list, key)

    def _of(self, kind: Type[Member], key: str) -> Member:
        value = self[key]
        if type(value) is not kind:
            raise StrangeReply(f"a reply whose {key!r} is no {kind.__name__}: {dict(self)!r:.200}")
        return value


class Reading:
    """A request on its way. `value` waits for its reply."""

    __slots__ = ("_exchange", "request", "reply")

    def __init__(self, exchange: "Exchange", request: Request):
        self._exchange, self.request = exchange, request
        self.reply: Optional[Reply] = None

    def wait(self) -> Reply:
        """The reply, or its refusal as an exception."""
        while self.reply is None:
            self._exchange.read_one()
        if "error" in self.reply:
            raise self.refusal()
        return self.reply

    def refusal(self) -> Refusal:
        """The exception of a refusing reply."""
        assert self.reply is not None
        return refusal(self.request, self.reply, self._exchange.hint(self.request, self.reply))

    @property
    def value(self) -> Any:
        """What the reply tells, without its JSON: a number, a list of pairs, a text or a bool."""
        reply = self.wait()
        if len(reply) != 1:
            raise TypeError(f"a reply of {len(reply)} members has no one value: {dict(reply)}")
        (answer,) = reply.values()
        return answer


Keep = Callable[[Reading], None]
"""What is to be done when the reply has come. It mustn't raise."""


class Exchange:
    """Sends requests over a channel and gives each reply to its request.

    An exception leaves requests and replies in step: what was sent stays in the queue, and its
    reply is read in its turn. Where an interruption comes just between the two, `_torn` stays
    set, and the session has ended.
    """

    def __init__(self, channel: Channel, hint: Callable[[Request, Reply], str]):
        self.channel = channel
        """What carries the lines."""
        self.hint = hint
        """What a refusal says beside the program's words."""
        self._waiting: Deque[Tuple[Reading, int, Optional[Keep]]] = deque()
        self._bytes = 0
        self.posted = 0
        """How many requests went out."""
        self.changes = 0
        """How many of them ask for a change."""
        self._torn = ""

    def post(self, request: Request, keep: Optional[Keep] = None) -> Reading:
        """Sends a request without waiting for its reply."""
        line = _line(request)
        if len(line) > LONGEST + 1:
            raise LineTooLong(request)
        if self._waiting and self._bytes + len(line) > UNANSWERED:
            while self._bytes > UNANSWERED // 2:
                self.read_one()
        reading = Reading(self, request)
        self._put(line, reading, keep)
        return reading

    def ask(self, request: Request) -> Reply:
        """Sends a request and waits for its reply. A refusal is raised."""
        return self.post(request).wait()

    def knock(self) -> None:
        """Waits for a first reply: whoever listens there is a workbook and has a seat for us."""
        reading = Reading(self, {})
        self._put(NO_OP, reading, None)
        while reading.reply is None:
            self.read_one()
        if reading.reply.get("error") == "E93":
            raise NoSeat("all its seats are taken; one is free again once somebody has left")
        if reading.reply.get("error") != "E01":
            raise StrangeReply(f"what answers there is no workbook: {dict(reading.reply)!r:.200}")

    def read_one(self) -> None:
        """Reads the next reply, and gives it to its request."""
        if self._torn:
            raise SessionEnded(self._torn)
        if not self._waiting:
            raise RuntimeError("nothing was asked")
        line = self.channel.front()
        reply = _reply(line)
        if reply is None:
            self._torn = f"what came is no reply of a workbook: {line[:200]!r}"
            raise StrangeReply(self._torn)
        self._torn = "the session was interrupted between two replies"
        self.channel.drop()
        reading, length, keep = self._waiting.popleft()
        self._bytes -= length
        reading.reply = reply
        if keep is not None:
            keep(reading)
        self._torn = ""

    def read_all(self) -> None:
        """Reads every reply that is still to come."""
        while self._waiting:
            self.read_one()

    @property
    def unanswered(self) -> int:
        """How many requests have no reply yet."""
        return len(self._waiting)

    def on_their_way(self) -> List[Request]:
        """The requests that have no reply yet, in their order."""
        return [reading.request for reading, _, _ in self._waiting]

    def close(self) -> None:
        """Ends the session."""
        self.channel.close()

    def _put(self, line: bytes, reading: Reading, keep: Optional[Keep]) -> None:
        if self._torn:
            raise SessionEnded(self._torn)
        try:
            self._torn = "the session was interrupted between two requests"
            self.channel.send(line)
            self._waiting.append((reading, len(line), keep))
            self._bytes += len(line)
            self.posted += 1
            self.changes += is_change(reading.request)
            self._torn = ""
        except SessionEnded:  # nothing was sent; replies from before may still come
            self._torn = ""
            raise
        self.channel.press()


_ENCODER = json.JSONEncoder(ensure_ascii=False, allow_nan=False, separators=(",", ":"))
_DECODER = json.JSONDecoder()


def text_of(request: Request) -> str:
    """The line of a request, without its end."""
    return _ENCODER.encode(request)


def _line(request: Request) -> bytes:
    return text_of(request).encode() + b"\n"


def _reply(line: bytes) -> Optional[Reply]:
    """The reply of a line, or None where it is none: no JSON, no object, or an empty one."""
    try:
        told = _DECODER.decode(line.decode())
    except (ValueError, RecursionError):
        return None
    return Reply(told) if isinstance(told, dict) and told else None


def first_refusal(refused: List[Refusal], sent: int) -> Refusal:
    """The first of the refusals of so many changes, which tells how many more there are."""
    first, more = refused[0], len(refused) - 1
    if more:
        first.args = (f"{first} And {more} more of {sent} changes were refused.",)
    return first
