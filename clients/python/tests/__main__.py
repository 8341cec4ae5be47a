"""Runs the tests, `python3 -m tests [NAME ..]`, and tells how far they are: each file as it begins, each test that is slow, while it is,
and which one ran where they are stopped, by Ctrl-C or a signal."""

import signal
import sys
import threading
import time
import unittest
from typing import Any, List, Optional

SLOW = 20.0
"""After so many seconds a test is told of, and then again after twice as many."""


class Stopped(Exception):
    """The tests are stopped by a signal. It is an error of the test that runs, which ends what it has begun; no other one begins."""


class Telling(unittest.TextTestResult):
    """Results that tell what runs."""

    running: "Optional[Telling]" = None
    """The results of the tests that run now."""

    def __init__(self, *args: Any, **more: Any):
        super().__init__(*args, **more)
        self._file = self._test = ""
        self._timer = threading.Timer(0.0, self._tell)
        Telling.running = self

    def startTest(self, test: unittest.TestCase) -> None:
        """A test begins."""
        super().startTest(test)
        self._test, self._since, self._wait = test.id(), time.monotonic(), SLOW
        file = test.id().rpartition(".")[0].rpartition(".")[0]
        if file != self._file:
            self._file = file
            self._say(file)
        self._wait_again()

    def stopTest(self, test: unittest.TestCase) -> None:
        """A test ends."""
        self._timer.cancel()
        took = time.monotonic() - self._since
        if took >= SLOW:
            self._say(f"{test.id()} took {took:.0f} seconds")
        super().stopTest(test)

    def stopped(self) -> None:
        """Tells which test runs; no other one begins."""
        self.stop()
        self._say(f"stopped in {self._test}, which ran for {time.monotonic() - self._since:.0f} seconds" if self._test else "stopped")

    def _wait_again(self) -> None:
        self._timer = threading.Timer(self._wait, self._tell)
        self._timer.daemon = True
        self._timer.start()

    def _tell(self) -> None:
        self._say(f"{self._test} runs for {self._wait:.0f} seconds now")
        self._wait *= 2
        self._wait_again()

    def _say(self, text: str) -> None:
        self.stream.write(f"{text}\n")
        self.stream.flush()


def main() -> None:
    """All tests, or those that are named."""
    stopped: List[int] = []

    def stop(number: int, _frame: Any) -> None:
        stopped.append(number)
        if Telling.running is not None:
            Telling.running.stopped()
        raise Stopped(f"by signal {number}")

    for number in (signal.SIGTERM, signal.SIGINT):
        signal.signal(number, stop)
    runner = unittest.TextTestRunner(resultclass=Telling, verbosity=0)
    run = unittest.main(module=None, argv=["tests", *(sys.argv[1:] or ["discover"])], testRunner=runner, exit=False)
    sys.exit(128 + stopped[0] if stopped else not run.result.wasSuccessful())


if __name__ == "__main__":
    main()
