"""What the tests themselves tell while they run."""

import io
import os
import signal
import subprocess
import sys
import tempfile
import time
import unittest
import unittest.mock
from pathlib import Path

from tests import __main__ as telling
from tests.support import HERE, LONG

SLEEPS = """
import time
import unittest


class Sleeps(unittest.TestCase):
    def test_it(self):
        self.addCleanup(print, "it is ended", flush=True)
        print("it sleeps", flush=True)
        time.sleep(600)

    def test_other(self):
        print("it wakes")
"""


class Slow(unittest.TestCase):
    def test_a_slow_test_is_told_of_while_it_runs(self):
        class Sleeping(unittest.TestCase):
            def test_sleeps(self) -> None:
                time.sleep(0.5)

            def test_wakes(self) -> None:
                pass

        out = io.StringIO()
        with unittest.mock.patch.object(telling, "SLOW", 0.2):
            suite = unittest.TestSuite([Sleeping("test_sleeps"), Sleeping("test_wakes")])
            unittest.TextTestRunner(out, resultclass=telling.Telling, verbosity=0).run(suite)
        told = out.getvalue().splitlines()
        self.assertRegex(told[1], r"Sleeping.test_sleeps runs for 0 seconds now$")
        self.assertRegex("\n".join(told), r"Sleeping.test_sleeps took \d seconds")
        self.assertNotIn("test_wakes", out.getvalue())

    def test_one_that_is_stopped_is_told_of(self):
        """Also by the signal that `scripts/test` sends where its time is over. What a test began is ended."""
        with tempfile.TemporaryDirectory() as place:
            Path(place, "sleeps.py").write_text(SLEEPS, encoding="utf-8")
            for number in (signal.SIGTERM, signal.SIGINT):
                words = [sys.executable, "-m", "tests", "sleeps"]
                where = {**os.environ, "PYTHONPATH": os.pathsep.join([place, str(HERE.parents[1])]), "PYTHONDONTWRITEBYTECODE": "1"}
                run = subprocess.Popen(words, cwd=place, env=where, stdout=subprocess.PIPE, stderr=subprocess.STDOUT, text=True,
                                       preexec_fn=lambda: signal.signal(signal.SIGINT, signal.SIG_DFL))
                self.assertEqual(run.stdout.readline(), "sleeps\n")
                self.assertEqual(run.stdout.readline(), "it sleeps\n")
                run.send_signal(number)
                told, _ = run.communicate(timeout=LONG)
                self.assertEqual(run.returncode, 128 + number)
                self.assertRegex(told, r"^stopped in sleeps.Sleeps.test_it, which ran for \d seconds\nit is ended\n")
                self.assertNotIn("it wakes", told)  # and no other test begins


if __name__ == "__main__":
    unittest.main()
