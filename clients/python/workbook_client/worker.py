"""A worker: answers the requests of workbooks that stand in logs in Redis. `python3 -m workbook_client.worker --help`"""

import argparse
import json
import os
import random
import signal
import socket
import sys
import time
import uuid
from dataclasses import dataclass
from typing import Dict, List, Optional, Sequence, Tuple

from . import keeping, log
from .channel import Channel, called, command
from .errors import NoProgram, SessionEnded
from .redis import Redis, RedisGone, RedisRefused, place_of, without_password

REDIS = "redis://127.0.0.1:6379"
"""Where a log is, unless something else is told."""
BAD_REQUEST = b'{"error":"E01","name":"bad-request"}'
NO_MEMORY = b'"error":"E90"'
PATIENCE = 0.5
"""So many seconds at most are waited for requests, so that leases are looked after meanwhile."""

DONE, FAILED, OUT_OF_MEMORY = 0, 3, 4
"""Exit statuses, as the program has them."""


class OutOfMemory(Exception):
    """A program found no memory. What it would have answered is no function of the log, so another has to."""


class Lost(Exception):
    """The lease of a workbook is another's, or its program has ended."""


@dataclass
class Settings:
    """What a worker is told."""

    redis: str
    consumer: str
    program: List[str]
    lease: float = 5.0
    most: int = 1000
    every: int = 1000
    seconds: float = 60.0
    idle: float = 60.0
    batch: int = 200
    trim: bool = False


class Held:
    """A workbook that this worker has: its lease, its program, and how far it went."""

    def __init__(self, lease: log.Lease, settings: Settings):
        self.lease, self._settings = lease, settings
        self.id, text, self._answered = lease.kept()
        """The last request that the program has done."""
        self._saved = self.id
        self._since = 0
        self._saved_at = self.active_at = time.monotonic()
        self._channel: Channel = keeping.begin(settings.program, text)

    def send(self, entries: log.Entries) -> List[Tuple[str, str, bytes, bool]]:
        """Gives requests to the program: of each, its id, caller and number, and whether the program got it."""
        sent = []
        for id, entry in entries:
            caller, number, line = entry.get(b"caller", b"").decode("latin-1"), entry.get(b"n", b""), entry.get(b"line")
            if line is None or not number.isdigit() or not log.NAME.fullmatch(caller):
                continue  # nobody can be answered
            proper = b"\n" not in line  # two lines would get two replies
            if proper:
                self._channel.send(line + b"\n")
            sent.append((id, caller, number, proper))
        self._channel.press()
        return sent

    def gather(self, entries: log.Entries, sent: Sequence[Tuple[str, str, bytes, bool]]) -> None:
        """Reads the program's replies, and writes those that nobody was told before."""
        replies, failed = [], None
        for id, caller, number, proper in sent:
            reply = keeping.answer(self._channel)[:-1] if proper else BAD_REQUEST
            if NO_MEMORY in reply[:40]:
                failed = OutOfMemory(f"{self.lease.name}: no memory at request {id}")
                break
            if log.order(id) > log.order(self._answered):
                replies.append((id, caller, number, reply))
        if replies and not self.lease.answer(replies):
            raise Lost("the lease is another's")
        if failed:
            raise failed
        self.id, self.active_at = entries[-1][0], time.monotonic()
        self._since += len(entries)

    def save(self, now: bool = False) -> None:
        """Stores a snapshot where it is time for one."""
        settings = self._settings
        due = self._since >= settings.every or time.monotonic() - self._saved_at >= settings.seconds
        if not (now or due) or self.id == self._saved:
            return
        self._channel.send(keeping.QUESTION)
        reply = keeping.answer(self._channel)
        if NO_MEMORY in reply[:40]:
            raise OutOfMemory(f"{self.lease.name}: no memory for a snapshot")
        if not self.lease.snapshot(self.id, json.loads(reply)["text"].encode(), settings.trim):
            raise Lost("the lease is another's")
        self._saved, self._saved_at, self._since = self.id, time.monotonic(), 0

    def end(self) -> None:
        """Ends the program. The lease isn't touched."""
        self._channel.close()


class Worker:
    """Looks after workbooks until it is told to stop."""

    def __init__(self, settings: Settings):
        self._settings = settings
        self._held: Dict[str, Held] = {}
        self._broken: Dict[str, float] = {}  # until when a workbook is left to others
        self._redis: Optional[Redis] = None
        self._looked_at = self._took_at = 0.0
        self._fault = ""  # why there is no log now, as it was told
        self.stopping = False

    def place(self) -> str:
        """What it is called, and where its logs stand."""
        return f"{self._settings.consumer} looks after workbooks at {without_password(self._settings.redis)}, until Ctrl-C"

    def run(self) -> int:
        """Works until `stopping` is set; the exit status."""
        try:
            while not self.stopping:
                try:
                    self._turn(self._connected())
                    self._is_there()
                except (RedisGone, RedisRefused) as fault:
                    self._begin_anew(fault)
            self._leave()
            return DONE
        except OutOfMemory as fault:
            tell(fault)
            self._release_all()
            return OUT_OF_MEMORY
        except NoProgram as fault:
            tell(fault)
            self._release_all()
            return FAILED
        finally:
            self._end_all()

    def _connected(self) -> Redis:
        if self._redis is None:
            self._redis = Redis(self._settings.redis)
            self._looked_at = 0.0
        return self._redis

    def _begin_anew(self, fault: Exception) -> None:
        """Forgets all: a log that is there again may be another one, of which less was kept."""
        self._tell_fault(fault)
        self._end_all()
        if self._redis is not None:
            self._redis.close()
            self._redis = None
        time.sleep(PATIENCE)

    def _tell_fault(self, fault: Exception) -> None:
        """Tells why there is no log, once."""
        if str(fault) != self._fault:
            self._fault = str(fault)
            tell(f"{self._fault.rstrip('.')}; it is tried again until it is there" if not self.stopping else fault)

    def _is_there(self) -> None:
        """Tells that the log is there, where it wasn't."""
        if self._fault:
            self._fault = ""
            tell("the redis is there again")

    def _end_all(self) -> None:
        for held in self._held.values():
            held.end()
        self._held.clear()

    def _turn(self, redis: Redis) -> None:
        """Looks after the leases where it is time, and answers what there is."""
        wait = min(PATIENCE, self._settings.lease / 10)
        if time.monotonic() - self._looked_at >= self._settings.lease / 3:
            self._look_after(redis)
        if time.monotonic() - self._took_at >= wait:
            self._take(redis)
        if not self._held:
            time.sleep(wait)
            return
        after = {log.key(name, "requests"): held.id for name, held in self._held.items()}
        told = log.read(redis, after, self._settings.batch, wait)
        self._answer({stream.split("{", 1)[1].split("}", 1)[0]: entries for stream, entries in told.items()})

    def _answer(self, told: Dict[str, log.Entries]) -> None:
        """All programs get their requests first, and work at once."""
        sent = {}
        for name, entries in told.items():
            if entries:
                self._guarded(name, lambda held: sent.__setitem__(name, held.send(entries)))
        for name, given in sent.items():
            self._guarded(name, lambda held: held.gather(told[name], given))
            self._guarded(name, lambda held: held.save())

    def _guarded(self, name: str, act) -> None:
        """Does something with a workbook that is held. One that is lost, or whose program has ended, is left to others."""
        held = self._held.get(name)
        if held is None:
            return
        try:
            act(held)
        except RedisGone:
            raise
        except (Lost, SessionEnded) as fault:
            tell(f"{name}: {fault}")
            held.end()
            del self._held[name]
            self._broken[name] = time.monotonic() + self._settings.lease
            held.lease.release()
            if "status 4" in str(fault):
                raise OutOfMemory(f"{name}: {fault}") from fault

    def _look_after(self, redis: Redis) -> None:
        """Tells that this worker is there, renews its leases, and saves and puts aside what is idle."""
        self._looked_at = time.monotonic()
        seconds, millionths = map(int, redis.call("TIME"))
        now = seconds * 1000 + millionths // 1000
        redis.call("ZADD", log.WORKERS, now, self._settings.consumer)
        redis.call("ZREMRANGEBYSCORE", log.WORKERS, "-inf", now - round(self._settings.lease * 1000))
        for name in list(self._held):
            self._guarded(name, self._renew)

    def _renew(self, held: Held) -> None:
        if not held.lease.renew():
            raise Lost("the lease is another's")
        held.save()
        if time.monotonic() - held.active_at >= self._settings.idle:
            held.save(now=True)
            if held.lease.park(held.id):
                held.end()
                del self._held[held.lease.name]
                tell(f"{held.lease.name}: put aside, after {self._settings.idle:g} seconds without a request")

    def _share(self, redis: Redis) -> int:
        """How many workbooks are this worker's part of all that are active."""
        active, workers = redis.calls([("SCARD", log.ACTIVE), ("ZCARD", log.WORKERS)])
        return min(self._settings.most, -(-active // max(1, workers)))

    def _take(self, redis: Redis) -> None:
        """Takes workbooks that nobody has, up to this worker's share, and gives up those above it."""
        self._took_at = time.monotonic()
        share = self._share(redis)
        for name in list(self._held)[share:]:
            self._guarded(name, self._give_up)
        if len(self._held) >= share:
            return
        found = [name.decode() for name in redis.call("SRANDMEMBER", log.ACTIVE, 2 * self._settings.most) or []]
        random.shuffle(found)
        now = time.monotonic()
        for name in found:
            if len(self._held) >= share:
                break
            if name not in self._held and self._broken.get(name, 0.0) <= now:
                self._try_to_take(redis, name)

    def _try_to_take(self, redis: Redis, name: str) -> None:
        token = f"{self._settings.consumer} {uuid.uuid4().hex}"
        lease = log.Lease(redis, name, token, round(self._settings.lease * 1000))
        if not lease.take():
            return
        try:
            held = self._held[name] = Held(lease, self._settings)
            tell(f"{name}: taken up, " + ("from its beginning" if held.id == log.FIRST else f"from request {held.id} on"))
        except NoProgram:
            lease.release()
            raise
        except (SessionEnded, keeping.Unresumed) as fault:
            if isinstance(fault, RedisGone):
                raise
            tell(f"{name}: {fault}")
            self._broken[name] = time.monotonic() + 10 * self._settings.lease
            lease.release()

    def _give_up(self, held: Held) -> None:
        held.save(now=True)
        held.end()
        del self._held[held.lease.name]
        held.lease.release()
        tell(f"{held.lease.name}: given to the other workers")

    def _leave(self) -> None:
        """Gives everything to the other workers."""
        try:
            for name in list(self._held):
                self._guarded(name, self._give_up)
            self._connected().call("ZREM", log.WORKERS, self._settings.consumer)
        except (RedisGone, RedisRefused) as fault:
            self._tell_fault(fault)

    def _release_all(self) -> None:
        try:
            for held in self._held.values():
                held.lease.release()
            self._connected().call("ZREM", log.WORKERS, self._settings.consumer)
        except (RedisGone, RedisRefused) as fault:
            tell(fault)


def tell(what: object) -> None:
    print(f"worker: {what}", file=sys.stderr, flush=True)


def log_at(url: str) -> str:
    """A URL of a Redis."""
    try:
        place_of(url)
    except ValueError as wrong:
        raise argparse.ArgumentTypeError(str(wrong)) from wrong
    return url


def seconds(text: str) -> float:
    """So many seconds, more than none."""
    try:
        told = float(text)
    except ValueError:
        told = 0.0
    if not 0.0 < told < 1e9:
        raise argparse.ArgumentTypeError(f"a number of seconds above 0 is wanted, not {text!r}")
    return told


def settings_of(words: Optional[Sequence[str]] = None) -> Settings:
    parser = argparse.ArgumentParser(
        prog=called("workbook_client.worker"),
        description="Answers the requests of workbooks that stand in logs in Redis, with as many other workers as there are.",
    )
    parser.add_argument(
        "--redis", default=REDIS, metavar="URL", type=log_at, help=f"redis://[user:password@]host[:port][/number] ({REDIS})",
    )
    parser.add_argument(
        "--consumer", default=f"{socket.gethostname()}-{os.getpid()}", metavar="NAME",
        help="what this worker calls itself (the name of the machine, and the number of the process)",
    )
    parser.add_argument("--program", help="the program, else as the client finds it")
    parser.add_argument("--lease", type=seconds, default=5.0, metavar="SECONDS", help="after so long without a word another takes over (5)")
    parser.add_argument("--most", type=int, default=1000, metavar="N", help="holds so many workbooks at most (1000)")
    parser.add_argument("--every", type=int, default=1000, metavar="N", help="a snapshot after so many requests (1000)")
    parser.add_argument("--seconds", type=seconds, default=60.0, metavar="S", help="or after so long (60)")
    parser.add_argument("--idle", type=seconds, default=60.0, metavar="S", help="a workbook without requests for so long is put aside (60)")
    parser.add_argument("--batch", type=int, default=200, metavar="N", help="takes so many requests of a workbook at once (200)")
    parser.add_argument("--trim", action="store_true", help="cuts each log behind its snapshot")
    told = parser.parse_args(words)
    given = {key: value for key, value in vars(told).items() if key != "program"}
    return Settings(program=command(told.program), **given)


def main(words: Optional[Sequence[str]] = None) -> int:
    try:
        worker = Worker(settings_of(words))
    except NoProgram as none:
        tell(none)
        return FAILED

    def stop(*_: object) -> None:
        worker.stopping = True

    for told in (signal.SIGTERM, signal.SIGINT):
        signal.signal(told, stop)
    tell(worker.place())
    return worker.run()


if __name__ == "__main__":
    sys.exit(main())
