"""Lines out to a workbook's log in Redis, and its replies in."""

import time
import uuid
import warnings
from collections import deque
from typing import Callable, Deque, List, Optional, Sequence

from . import log
from .channel import EARLY, Channel
from .errors import NoAnswer, SessionEnded, StrangeReply
from .redis import Redis, RedisGone, RedisRefused, Word, without_password

SLICE = 1.0
"""So many seconds are waited at once."""
PATIENCE = 5.0
"""After so many seconds without a reply it is told who could answer."""
HEARD = 15_000
"""A worker that was heard of in the last so many thousandths of a second is there."""


class StreamChannel(Channel):
    """A caller of a workbook whose requests stand in a log, and are answered by whichever worker has the workbook."""

    def __init__(self, url: str, name: str, timeout: Optional[float] = None):
        self._at = without_password(url)
        self.where = f"{self._at} {name}"
        self.timeout = timeout
        self.closed = False
        self._name, self._caller = name, uuid.uuid4().hex
        self._replies = log.key(name, f"replies:{self._caller}")
        self._redis = Redis(url)
        self._sent = self._answered = self._bytes = 0
        self._last = log.FIRST
        self._going: List[Sequence[Word]] = []
        self._coming: Deque[bytes] = deque()
        self.tell: Callable[[str], object] = lambda words: warnings.warn(words, stacklevel=2)
        """What is done with the words on a wait that is long."""

    def send(self, line: bytes) -> None:
        if self.closed:
            raise SessionEnded("the session is closed")
        self._sent += 1
        self._going += log.appended(self._name, self._caller, self._sent, line.rstrip(b"\n"))
        self._bytes += len(line)

    def press(self) -> None:
        if self._bytes >= EARLY:
            self._flush()

    def _flush(self) -> None:
        going, self._going, self._bytes = self._going, [], 0
        if going:
            for reply in self._redis.calls(going):
                if isinstance(reply, RedisRefused):
                    raise SessionEnded(f"the log refused a request: {reply}")

    def front(self) -> bytes:
        if self.closed:
            raise SessionEnded("the session is closed")
        self._flush()
        start = time.monotonic()
        end = None if self.timeout is None else start + self.timeout
        patient = True
        while not self._coming:
            left = SLICE if end is None else min(SLICE, end - time.monotonic())
            if left <= 0:
                raise NoAnswer(f"no answer for {self.timeout:g} seconds")
            self._read(left)
            if patient and not self._coming and time.monotonic() - start >= PATIENCE:
                patient = False
                self.tell(self._who_could_answer())
        return self._coming[0]

    def _who_could_answer(self) -> str:
        """Whether there are workers, as they tell of themselves."""
        seconds, millionths = map(int, self._redis.call("TIME"))
        since = seconds * 1000 + millionths // 1000 - HEARD
        count = self._redis.call("ZCOUNT", log.WORKERS, since, "+inf")
        if count:
            return f"no answer for {PATIENCE:g} seconds; {count} worker{'s' * (count > 1)} there, so it is waited for"
        return (
            f"no answer for {PATIENCE:g} seconds, and no worker is there; `python3 -m workbook_client.worker --redis {self._at}` "
            "answers what stands in the log, whenever it is started"
        )

    def _read(self, wait: float) -> None:
        told = log.read(self._redis, {self._replies: self._last}, 1000, wait)
        for id, entry in told.get(self._replies, []):
            self._last, number = id, int(entry[b"n"])
            if number <= self._answered:
                continue  # answered before
            if number != self._answered + 1:
                raise StrangeReply(f"the reply to request {self._answered + 1} of {self.where} isn't there")
            self._answered = number
            self._coming.append(entry[b"reply"] + b"\n")

    def drop(self) -> None:
        self._coming.popleft()

    def why(self) -> str:
        return f"{self.where} answers no more"

    def is_gone(self) -> bool:
        return self.closed or self._redis.is_gone()

    def close(self) -> None:
        if self.closed:
            return
        self.closed = True
        try:
            self._flush()
            self._redis.call("DEL", self._replies)
        except (RedisGone, SessionEnded, RedisRefused):
            pass
        self._redis.close()
