"""The walk of docs/WALK.md: each of its blocks is run, and shows what stands below it."""

import os
import re
import signal
import socket
import subprocess
import sys
import tempfile
import unittest
from typing import Dict, List, NamedTuple

from tests.support import HERE, PROGRAM
from workbook_client.terminal import WELCOME

TOP = HERE.parents[3]
WALK = TOP / "docs" / "WALK.md"
SESSION = "python3 -m workbook_client plan.wb"


class Block(NamedTuple):
    """A block to paste, into the shell or at the prompt, and what its last line shows."""

    kind: str
    text: str
    shown: str


def blocks() -> List[Block]:
    """The blocks of the walk, in order."""
    found: List[Block] = []
    for kind, text in re.findall(r"^```(\w+)\n(.*?)^```$", WALK.read_text(encoding="utf-8"), re.M | re.S):
        if kind == "text":
            found[-1] = found[-1]._replace(shown=text)
        else:
            found.append(Block(kind, text, ""))
    return found


@unittest.skipUnless(WALK.exists(), "the walk isn't beside the client")
class Walk(unittest.TestCase):
    def setUp(self) -> None:
        place = tempfile.TemporaryDirectory()
        self.addCleanup(place.cleanup)
        self.place = os.path.realpath(place.name)
        self.addCleanup(self.end_desk)
        os.symlink(PROGRAM, os.path.join(self.place, "workbook"))
        os.symlink(sys.executable, os.path.join(self.place, "python3"))
        with socket.create_server(("127.0.0.1", 0)) as free:
            self.port = str(free.getsockname()[1])

    def end_desk(self) -> None:
        """Ends the desk of the walk, where the walk broke off before it did."""
        try:
            with open(os.path.join(self.place, "desk.pid"), encoding="ascii") as file:
                number = int(file.read())
            with open(f"/proc/{number}/cmdline", "rb") as file:
                words = file.read().split(b"\0")
            if b"serve" in words and self.port.encode() in words:  # and no other process that has the number by now
                os.kill(number, signal.SIGKILL)
        except (FileNotFoundError, ProcessLookupError):
            pass

    def runs(self, words: List[str], typed: str) -> str:
        """What a command shows."""
        environment: Dict[str, str] = {
            **os.environ, "PATH": f"{self.place}:{os.environ['PATH']}", "PYTHONPATH": str(HERE.parents[1]), "WORKBOOK_PROGRAM": PROGRAM,
            "COLUMNS": "80", "PYTHONDONTWRITEBYTECODE": "1", "PYTHONUTF8": "1",
        }
        done = subprocess.run(words, input=typed, stdout=subprocess.PIPE, stderr=subprocess.STDOUT, text=True, cwd=self.place, timeout=120,
                              encoding="utf-8", env=environment)
        return done.stdout

    def session(self, begin: Block, typed: List[Block]) -> None:
        """A session, and all that is typed into it."""
        lines = [line for block in typed for line in block.text.splitlines()]
        self.assertEqual(lines[-1], "quit")
        told = self.runs([sys.executable, *SESSION.split()[1:], "--keep-going"], "\n".join(lines) + "\n")
        first, *shown = re.split("|".join(f"^> {re.escape(line)}\n" for line in dict.fromkeys(lines)), told, flags=re.M)
        self.assertEqual(self.as_told(first + WELCOME), self.as_told(begin.shown))
        self.assertEqual(len(shown), len(lines))
        at = 0
        for block in typed:
            at += block.text.count("\n")
            with self.subTest(block.text):
                self.assertEqual(shown[at - 1], block.shown)

    def as_told(self, text: str) -> str:
        """A greeting, with the place of the file that the walk shows, and without its line ends."""
        return re.sub(r"\S*/plan\.wb", "plan.wb", " ".join(text.split()))

    def test_each_block(self):
        walk = blocks()
        self.assertGreater(len(walk), 12)
        while walk:
            block, typed = walk.pop(0), []
            while walk and walk[0].kind == "workbook":
                typed.append(walk.pop(0))
            self.assertEqual(block.kind, "sh")
            if block.text.strip() == SESSION:
                self.session(block, typed)
                continue
            self.assertEqual(typed, [])
            with self.subTest(block.text):
                shown = block.shown.replace("7000", self.port)
                self.assertEqual(self.runs(["bash", "-c", block.text.replace("7000", self.port)], ""), shown)


if __name__ == "__main__":
    unittest.main()
