"""The first command in a clone, `scripts/start`."""

import os
import shutil
import subprocess
import sys
import tempfile
import unittest
from pathlib import Path

from tests.support import HERE, LONG
from workbook_client.channel import BUILT

TOP = HERE.parents[3]
START = TOP / "scripts" / "start"


@unittest.skipUnless(START.exists(), "not in the repository")
class Start(unittest.TestCase):
    def started(self, *words: str, script: Path = START, **environment: str) -> "subprocess.CompletedProcess[str]":
        return subprocess.run(
            [sys.executable, str(script), *words], stdout=subprocess.PIPE, stderr=subprocess.PIPE, text=True, timeout=LONG,
            env={"PATH": os.environ["PATH"], "PYTHONDONTWRITEBYTECODE": "1", **environment},
        )

    def test_without_the_kit_there_are_five_replies(self):
        """By the second workbook, or by the program where one was left here; what is proved of it is said."""
        done = self.started(PATH="/nonexistent")
        self.assertEqual((done.returncode, done.stderr), (0, ""))
        lines = done.stdout.splitlines()
        self.assertEqual(lines[0].split(), ['{"op":"domain","d":"D","is":"{1..4}"}', '{"edit":1,"n":3}'])
        self.assertEqual(len([line for line in lines if line.startswith("{")]), 5)
        wanted = "The program is crates/workbook/out/workbook" if os.access(BUILT, os.X_OK) else "Nothing is proved by this"
        self.assertIn(wanted, done.stdout)
        self.assertIn("Next: ", done.stdout)

    def test_with_the_kit_it_is_compiled(self):
        """In a clone where no program lies; the second workbook stands in for the kit's command. That nothing is proved is told."""
        with tempfile.TemporaryDirectory() as place:
            clone = Path(place)
            (clone / "scripts").mkdir()
            (clone / "crates" / "workbook").mkdir(parents=True)
            (clone / "examples").symlink_to(TOP / "examples")
            kit = clone / "rt"
            kit.write_text(f'#!/bin/sh\n[ "$*" = "try -- run" ] && exec {sys.executable} -B "{TOP}/scripts/model-program" run\n')
            kit.chmod(0o755)
            done = self.started(script=Path(shutil.copy(START, clone / "scripts")), PATH=f"{clone}:{os.environ['PATH']}")
        self.assertEqual((done.returncode, done.stderr), (0, ""))
        self.assertEqual(len([line for line in done.stdout.splitlines() if line.startswith("{")]), 5)
        self.assertIn("Nothing is proved by this: the program was compiled", done.stdout)
        self.assertIn("Next: rt ci", done.stdout)

    def test_other_words(self):
        done = self.started("now")
        self.assertEqual((done.returncode, done.stdout), (2, ""))
        self.assertIn("The first command in a clone", done.stderr)


if __name__ == "__main__":
    unittest.main()
