"""What the tests of workers stand on: a redis-server, workers, and callers that keep each reply as it came."""

import os
import shutil
import subprocess
import sys
import tempfile
import threading
import time
from typing import Dict, List, Tuple

from tests.support import HERE, PATIENCE, PROGRAM
from workbook_client import log
from workbook_client.redis import Redis, RedisGone

NO_REDIS = "there is no redis-server (Debian's package redis-server)"


def has_redis() -> bool:
    return shutil.which("redis-server") is not None


class RedisServer:
    """A redis-server of the tests' own, on 127.0.0.1, which keeps nothing on disk, or each change at once."""

    def __init__(self, kept: bool = False) -> None:
        keeping = ["--appendonly", "yes", "--appendfsync", "always"] if kept else ["--appendonly", "no"]
        self._folder = tempfile.TemporaryDirectory()
        for port in range(21000 + os.getpid() % 20000, 65000):
            words = ["redis-server", "--port", str(port), "--bind", "127.0.0.1", "--save", "", *keeping]
            self._process = subprocess.Popen(words, stdout=subprocess.DEVNULL, cwd=self._folder.name)
            self.url = f"redis://127.0.0.1:{port}"
            if self._is_there():
                return
        raise AssertionError("no port for redis-server")

    def _is_there(self) -> bool:
        while self._process.poll() is None:
            try:
                redis = Redis(self.url)
            except RedisGone:
                time.sleep(0.02)
                continue
            pid = b"process_id:%d\r" % self._process.pid
            ours = pid in redis.call("INFO", "server")
            redis.close()
            return ours
        return False

    def close(self) -> None:
        self._process.kill()
        self._process.wait()
        self._folder.cleanup()


class WorkerProcess:
    """A worker in a process of its own."""

    def __init__(self, url: str, consumer: str, *words: str, program: str = PROGRAM):
        package = str(HERE.parents[1])
        command = [sys.executable, "-m", "workbook_client.worker", "--redis", url, "--consumer", consumer, "--program", program, *words]
        self.process = subprocess.Popen(command, cwd=package, stderr=subprocess.DEVNULL)

    def kill(self) -> None:
        """Ends it by force, and its programs with it: they read the end of their input."""
        self.process.kill()
        self.wait()

    def stop(self) -> int:
        self.process.terminate()
        return self.wait()

    def wait(self, seconds: float = 60.0) -> int:
        try:
            return self.process.wait(seconds * PATIENCE)
        finally:
            if self.process.poll() is None:
                self.process.kill()
                self.process.wait()


class Caller:
    """A caller of a workbook that appends lines, and waits for as many replies."""

    def __init__(self, url: str, name: str, caller: str):
        self._redis, self._name, self.caller = Redis(url), name, caller
        self.sent = 0

    def append(self, *lines: str) -> None:
        commands: List = []
        for line in lines:
            self.sent += 1
            commands += log.appended(self._name, self.caller, self.sent, line.encode())
        self._redis.calls(commands)

    def replies(self) -> List[Tuple[int, bytes]]:
        """All replies so far, each with the caller's own number of the request."""
        told = log.read(self._redis, {log.key(self._name, f"replies:{self.caller}"): log.FIRST}, 1_000_000, 0.0)
        return [(int(entry[b"n"]), entry[b"reply"]) for entries in told.values() for _, entry in entries]

    def wait(self, seconds: float = 120.0) -> List[Tuple[int, bytes]]:
        """The replies, once there are as many as requests."""
        end = time.monotonic() + seconds * PATIENCE
        while time.monotonic() < end:
            found = self.replies()
            if len(found) >= self.sent:
                return found
            time.sleep(0.05)
        return self.replies()

    def close(self) -> None:
        self._redis.close()


def all_at_once(acts: List) -> None:
    threads = [threading.Thread(target=act) for act in acts]
    for thread in threads:
        thread.start()
    for thread in threads:
        thread.join()


def replayed(redis: Redis, name: str) -> Dict[str, List[Tuple[int, bytes]]]:
    """What a single session answers to a workbook's log, by caller."""
    entries = log.read(redis, {log.key(name, "requests"): log.FIRST}, 1_000_000, 0.0)[log.key(name, "requests")]
    text = b"".join(entry[b"line"] + b"\n" for _, entry in entries)
    told = subprocess.run([PROGRAM, "run"], input=text, stdout=subprocess.PIPE, check=True).stdout.split(b"\n")
    found: Dict[str, List[Tuple[int, bytes]]] = {}
    for (_, entry), reply in zip(entries, told):
        found.setdefault(entry[b"caller"].decode(), []).append((int(entry[b"n"]), reply))
    return found
