"""A workbook's log of requests in Redis: the names of its keys, and what is done to them in one step.

Of a workbook NAME there are

    wb:{NAME}:requests         a stream: each request with its caller, the caller's own number of it, and its line
    wb:{NAME}:replies:CALLER   a stream: each reply to a caller, with the number of the request
    wb:{NAME}:answered         the id of the last request that was answered
    wb:{NAME}:snapshot         the text of the history, and the id of the last request that it has
    wb:{NAME}:lease            whose workbook it is now, for a while

and for all of them `wb:active`, the names of the workbooks that somebody has to look after, and `wb:workers`, when each worker was
heard of. The braces keep the keys of a workbook together where Redis is spread over machines.
"""

import re
from typing import Any, Dict, List, Optional, Sequence, Tuple

from .redis import Redis, Word

ACTIVE, WORKERS = "wb:active", "wb:workers"
NAME = re.compile(r"[A-Za-z0-9_.-]{1,100}")
FIRST = "0-0"
"""An id before those of all requests."""

REPLIES_LIVE = 86_400
"""After so many seconds without a reply a caller's replies are forgotten."""

# Each does nothing unless the lease is that of the token, and then answers -1.
OURS = "if redis.call('GET', KEYS[1]) ~= ARGV[1] then return -1 end "

ANSWER = OURS + """
local function parts(id)
  local dash = string.find(id, '-', 1, true)
  return tonumber(string.sub(id, 1, dash - 1)), tonumber(string.sub(id, dash + 1))
end
local last = redis.call('GET', KEYS[2]) or '0-0'
local ms, seq = parts(last)
local written = 0
for at = 3, #ARGV, 4 do
  local m, s = parts(ARGV[at])
  if m > ms or (m == ms and s > seq) then
    local key = KEYS[tonumber(ARGV[at + 1])]
    redis.call('XADD', key, '*', 'n', ARGV[at + 2], 'reply', ARGV[at + 3])
    redis.call('EXPIRE', key, ARGV[2])
    last, ms, seq, written = ARGV[at], m, s, written + 1
  end
end
redis.call('SET', KEYS[2], last)
return written
"""

RENEW = OURS + "return redis.call('PEXPIRE', KEYS[1], ARGV[2])"

SNAPSHOT = OURS + """
redis.call('HSET', KEYS[2], 'id', ARGV[2], 'text', ARGV[3])
if ARGV[4] == '1' then redis.call('XTRIM', KEYS[3], 'MINID', ARGV[2]) end
return 1
"""

# Nobody has to look after the workbook any more, if there is no request behind the one of the id.
PARK = OURS + """
local last = redis.call('XREVRANGE', KEYS[2], '+', '-', 'COUNT', 1)
if last[1] and last[1][1] ~= ARGV[2] then return 0 end
redis.call('SREM', KEYS[3], ARGV[3])
redis.call('DEL', KEYS[1])
return 1
"""

RELEASE = OURS + "return redis.call('DEL', KEYS[1])"


def key(name: str, what: str) -> str:
    if not NAME.fullmatch(name):
        raise ValueError(f"a workbook's name has 1 to 100 letters, digits, dots, dashes and underscores, not {name!r:.200}")
    return f"wb:{{{name}}}:{what}"


def appended(name: str, caller: str, number: int, line: bytes) -> List[Sequence[Word]]:
    """The commands that append a request. The name is told to be active after that, so that no request is overlooked."""
    return [("XADD", key(name, "requests"), "*", "caller", caller, "n", number, "line", line), ("SADD", ACTIVE, name)]


def fields(listed: Sequence[bytes]) -> Dict[bytes, bytes]:
    return dict(zip(listed[::2], listed[1::2]))


Entries = List[Tuple[str, Dict[bytes, bytes]]]


def read(redis: Redis, after: Dict[str, str], count: int, wait: float) -> Dict[str, Entries]:
    """What stands in streams behind the ids, at most so much of each. Waits where there is nothing at all."""
    streams = list(after)
    words: List[Word] = ["XREAD", "COUNT", count, *(["BLOCK", max(1, int(wait * 1000))] if wait > 0 else []), "STREAMS", *streams]
    told = redis.call(*words, *after.values(), wait=wait) or []
    return {stream.decode(): [(id.decode(), fields(listed)) for id, listed in entries if listed] for stream, entries in told}


class Lease:
    """A workbook as its worker's: what is done is done while the lease is there, or not at all."""

    def __init__(self, redis: Redis, name: str, token: str, milliseconds: int):
        self._redis, self.name, self._token, self._milliseconds = redis, name, token, milliseconds

    def _eval(self, script: str, keys: Sequence[str], *words: Word) -> int:
        return self._redis.call("EVAL", script, len(keys) + 1, key(self.name, "lease"), *keys, self._token, *words)

    def take(self) -> bool:
        return self._redis.call("SET", key(self.name, "lease"), self._token, "NX", "PX", self._milliseconds) is not None

    def renew(self) -> bool:
        return self._eval(RENEW, [], self._milliseconds) == 1

    def answer(self, replies: Sequence[Tuple[str, str, bytes, bytes]]) -> bool:
        """Writes replies, each with its request's id, caller and number; none twice. Whether the lease is still there."""
        callers = sorted({caller for _, caller, _, _ in replies})
        keys = [key(self.name, "answered"), *(key(self.name, f"replies:{caller}") for caller in callers)]
        words: List[Word] = []
        for id, caller, number, reply in replies:
            words += [id, callers.index(caller) + 3, number, reply]
        return self._eval(ANSWER, keys, REPLIES_LIVE, *words) >= 0

    def snapshot(self, id: str, text: bytes, trim: bool) -> bool:
        return self._eval(SNAPSHOT, [key(self.name, "snapshot"), key(self.name, "requests")], id, text, int(trim)) == 1

    def park(self, id: str) -> bool:
        return self._eval(PARK, [key(self.name, "requests"), ACTIVE], id, self.name) == 1

    def release(self) -> None:
        self._eval(RELEASE, [])

    def kept(self) -> Tuple[str, Optional[bytes], str]:
        """The id and the text of the snapshot, and the id of the last request that was answered."""
        listed, answered = self._redis.calls([("HGETALL", key(self.name, "snapshot")), ("GET", key(self.name, "answered"))])
        found: Dict[bytes, Any] = fields(listed)
        return found.get(b"id", FIRST.encode()).decode(), found.get(b"text"), (answered or FIRST.encode()).decode()


def order(id: str) -> Tuple[int, int]:
    """What ids are compared by."""
    first, _, second = id.partition("-")
    return int(first), int(second)
