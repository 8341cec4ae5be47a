"""Workbooks that are kept in a journal file: what the file has, what goes on from it, and what isn't opened."""

import os
import signal
import subprocess
import sys
import tempfile
import unittest
import urllib.request
from typing import List

from tests.support import HERE, LONG, PROGRAM, Terminal
from workbook_client import Blocked, NotOpened, NotTakenBack, OutOfDomain, SessionEnded, Workbook, view

PACKAGE = HERE.parents[1]
HEADER = "chapel-workbook 3\n"
BEGUN = HEADER + "#"
PLAN = HEADER + ' {"d":"D","is":"{1..4}","map":"none","op":"domain"}\n {"a":"A","d":"D","op":"array"}\n'
"""A domain and an array, without the mark at the end."""

BYTES = 400
"""So many bytes a file may have on the small disk."""

SMALL_DISK = (
    "import os, resource, signal, sys\n"
    "signal.signal(signal.SIGXFSZ, signal.SIG_IGN)\n"
    f"resource.setrlimit(resource.RLIMIT_FSIZE, ({BYTES}, {BYTES}))\n"
    "os.execvp(sys.argv[1], sys.argv[1:])\n"
)


class Kept(unittest.TestCase):
    def setUp(self) -> None:
        place = tempfile.TemporaryDirectory()
        self.addCleanup(place.cleanup)
        self.place = os.path.realpath(place.name)
        self.path = os.path.join(self.place, "plan.wb")

    def open(self, program=PROGRAM) -> Workbook:
        book = Workbook.run(program, journal=self.path)
        self.addCleanup(book.close)
        return book

    def write(self, text: str, name: str = "plan.wb") -> str:
        path = os.path.join(self.place, name)
        with open(path, "w", encoding="utf-8", newline="") as file:
            file.write(text)
        return path

    def text(self) -> str:
        with open(self.path, encoding="utf-8", newline="") as file:
            return file.read()


class Files(Kept):
    def test_each_change_is_a_line_and_a_question_none(self):
        with self.open() as book:
            self.assertEqual(self.text(), BEGUN)
            A = book.array("A", book.domain("D", range(1, 5)))
            self.assertEqual(self.text(), PLAN + "#")
            first = A.set(1, 5)
            A.copy(2, A, 1, plus=1)
            wanted = PLAN + ' {"a":"A","i":1,"op":"set","v":5}\n {"a":"A","b":"A","c":1,"i":2,"j":1,"op":"copy"}\n'
            self.assertEqual((A[2], A.sum(), first.dependents(), self.text()), (6, 11, [4], wanted + "#"))
            with self.assertRaises(Blocked):
                first.undo()
            with self.assertRaises(OutOfDomain):
                A[9] = 1
            self.assertEqual(self.text(), wanted + "#")
            first.cascade()
            book.redo(3)
            book.undo()
            wanted += '+{"k":4,"op":"undo"}\n {"k":3,"op":"undo"}\n {"k":3,"op":"redo"}\n {"k":3,"op":"undo"}\n'
            self.assertEqual(self.text(), wanted + "#")
        self.assertEqual(self.text(), wanted + "#")
        self.assertEqual(os.listdir(self.place), ["plan.wb"])

    def test_the_next_session_goes_on_from_it(self):
        with self.open() as book:
            A = book.array("A", book.domain("D", range(1, 5)))
            A[1] = 5
            A[2] = 6
            book.undo(3)
        with self.open() as book:
            self.assertEqual(book.journal, self.path)
            told = [(e.number, e.who, e.what, e.was_in_force) for e in book.history()]
            self.assertEqual(told, [(1, "before", "D = {1..4}", True), (2, "before", "A over D", True),
                                    (3, "before", "A[1] = 5", False), (4, "before", "A[2] = 6", True)])
            book.redo(3)
            book["A"].copy(3, book["A"], 1)
        with self.open() as book:
            self.assertEqual(list(book["A"]), [5, 6, 5, 0])
            with self.assertRaisesRegex(Blocked, r"A\[3\] = A\[1\]"):
                book.undo(3)

    def test_a_program_that_is_killed_loses_nothing_that_it_answered(self):
        for round in range(5):
            with self.open() as book:
                before = book.counts()[0]
                if not before:
                    book.array("A", book.domain("D", range(1, 101)))
                A = book["A"]
                for i in range(20 * round + 1, 20 * round + 11):
                    A[i] = i
                answered = book.counts()[0]
                for i in range(20 * round + 11, 20 * round + 21):
                    book.exchange.post({"op": "set", "a": "A", "i": i, "v": i})
                os.kill(book.exchange.channel._process.pid, signal.SIGKILL)
            with self.open() as book:
                edits, more = book.counts()[0], list(book["A"])
                sets = edits - answered
                self.assertTrue(0 <= sets <= 10)
                wanted = [i for i in range(20 * round + 1, 20 * round + 11 + sets)]
                self.assertEqual(more[20 * round :], wanted + [0] * (100 - 20 * round - len(wanted)))

    def test_an_end_that_a_crash_left(self):
        line = ' {"a":"A","i":4,"op":"set","v":9}\n'
        for end in ("", "#", "#" + line[1:], "+" + line[1:], "+" + line[1:] + "#" + line[1:], line[:9] + "\0" + line[10:], "#" + line[1:] + "#", "#" + line[1:20], "\0\0\0", "#\n" + line, line[:-1]):
            with self.subTest(end):
                self.write(PLAN + end)
                with self.open() as book:
                    self.assertEqual((book.counts(), list(book["A"])), ((2, 10), [0, 0, 0, 0]))
                self.assertEqual(self.text(), PLAN + "#")
        for front in range(len(HEADER)):
            self.write(HEADER[:front])
            with self.open() as book:
                self.assertEqual(book.counts(), (0, 0))
            self.assertEqual(self.text(), BEGUN)

    def test_a_file_is_open_once(self):
        with self.open() as book:
            book.domain("D", range(1, 5))
            with self.assertRaisesRegex(NotOpened, "plan.wb isn't opened: the journal is in use"):
                self.open()
            book.array("A", "D")
        self.assertEqual(self.text(), PLAN + "#")
        self.open()

    def test_a_disk_that_is_full(self):
        """What was answered is kept, and the rest is told."""
        line = ' {"a":"A","i":1,"op":"set","v":5}\n'
        book = self.open([sys.executable, "-c", SMALL_DISK, PROGRAM, "run"])
        A = book.array("A", book.domain("D", range(1, 5)))
        with self.assertRaisesRegex(SessionEnded, f"status 3 .*what it had answered is kept in {self.path}"):
            for _ in range(20):
                A[1] = 5
        answered = (BYTES - len(PLAN) - 1) // len(line)
        with self.open() as book:
            self.assertEqual(book.counts()[0], 2 + answered)
        self.assertEqual(self.text(), PLAN + answered * line + "#")

    def test_a_block_that_cannot_be_taken_back_is_told(self):
        """A journal keeps what a block did before its program was gone."""
        book = self.open()
        A = book.array("A", book.domain("D", range(1, 5)))
        with self.assertRaises(NotTakenBack) as left:
            with book.trying():
                A[1] = 5
                os.kill(book.exchange.channel._process.pid, signal.SIGKILL)
                A[2] = 6
        self.assertEqual(left.exception.standing, [3])
        self.assertEqual(list(self.open()["A"]), [5, 0, 0, 0])


class NotJournals(Kept):
    """Each is told in a sentence, and stays as it is."""

    def wrong_files(self) -> "List[tuple[str, str]]":
        """Files, each with what is told of it."""
        history = "chapel-workbook 2\nhistory 0\nend\n"
        return [
            (self.write("milk, bread\n", "list"), "list isn't opened: the file is no journal"),
            (self.write("chapel-workbook 3 \n#", "blank"), "blank isn't opened: the file is no journal"),
            (self.write("\n" + BEGUN, "later"), "later isn't opened: the file is no journal"),
            (self.write(history, "history"), "history isn't opened: .*`--resume` goes on from it"),
            (self.write("chapel-workbook 1\nend\n", "book"), "book isn't opened: .*`load` makes its objects"),
            (self.place, "isn't opened: the journal is no regular file"),
            (os.devnull, "isn't opened: the journal is no regular file"),
            (os.path.join(self.place, "no", "plan.wb"), "plan.wb isn't opened: No such file"),
            (self.write(HEADER + ' {"a":"A","i":4,"op":"set","v":9}\n#', "no-array"), "a line of it is no change that is accepted"),
            (self.write(PLAN + ' {"op":"undo"}\n#', "no-number"), "a line of it is no change that is accepted"),
            (self.write(PLAN + ' {"k":2,"op":"cascade"}\n#', "cascade"), "a line of it is no change that is accepted"),
            (self.write(PLAN + ' {"op":"print"}\n#', "question"), "a line of it is no change that is accepted"),
            (self.write(PLAN + " \n#", "nothing"), "a line of it is no change that is accepted"),
        ]

    def held(self, path: str) -> str:
        if not os.path.isfile(path):
            return ""
        with open(path, encoding="utf-8", newline="") as file:
            return file.read()

    def test_by_the_library(self):
        for path, why in self.wrong_files():
            with self.subTest(why):
                before, names = self.held(path), sorted(os.listdir(self.place))
                with self.assertRaisesRegex(NotOpened, why):
                    Workbook.run(PROGRAM, journal=path)
                self.assertEqual((self.held(path), sorted(os.listdir(self.place))), (before, names))
        with self.assertRaises(ValueError):
            Workbook.run(PROGRAM, resume="chapel-workbook 2\nhistory 0\nend\n", journal=self.path)
        self.assertFalse(os.path.exists(self.path))

    @unittest.skipIf(os.geteuid() == 0, "who may do everything may write that too")
    def test_a_file_that_may_not_be_written(self):
        path = self.write(BEGUN, "locked")
        os.chmod(path, 0o400)
        with self.assertRaisesRegex(NotOpened, "locked isn't opened: "):
            Workbook.run(PROGRAM, journal=path)

    def test_by_session_and_page(self):
        for path, why in self.wrong_files()[::4]:
            for module in ("workbook_client", "workbook_client.page"):
                with self.subTest(f"{module} {why}"):
                    gone = subprocess.run(
                        [sys.executable, "-m", module, "--program", PROGRAM, "--journal", path],
                        input="D = {1..4}\n", capture_output=True, text=True, cwd=PACKAGE, timeout=LONG,
                    )
                    self.assertEqual((gone.returncode, gone.stdout, "Traceback" in gone.stderr), (3, "", False))
                    self.assertRegex(gone.stderr, why)

    def test_a_program_that_knows_no_journal(self):
        for code, why in [("sys.exit(2)", "older than this client"), ("sys.exit(5)", "ended with status 5"),
                          ("print('hello'); sys.stdin.read()", "no reply of a workbook")]:
            with self.subTest(code), self.assertRaisesRegex(NotOpened, why):
                Workbook.run([sys.executable, "-u", "-c", "import sys; " + code], journal=self.path)

    def test_which_files_go_with_what(self):
        for words in (["--journal", "a", "--resume", "b"], ["a", "--resume", "b"], ["a", "--journal", "b"], ["a", "--connect", ":1"]):
            with self.subTest(words):
                gone = subprocess.run(
                    [sys.executable, "-m", "workbook_client", *words], input="", capture_output=True, text=True, cwd=PACKAGE, timeout=LONG,
                )
                self.assertEqual((gone.returncode, "Traceback" in gone.stderr), (3, False))
                self.assertRegex(gone.stderr, "goes on")


class ForPeople(Kept):
    """The session and the page say where the workbook lies, and that it is kept."""

    def test_a_session(self):
        for words, told, line in (
            ([self.path], "a new workbook; each change is kept there", "D = {1..4}"),
            (["--journal", self.path], "1 edit, 1 in force; each change is kept there", "undo"),
            ([self.path], "1 edit, 0 in force; each change is kept there", "history"),
        ):
            done = subprocess.run(
                [sys.executable, "-m", "workbook_client", "--program", PROGRAM, *words], input=line + "\n", capture_output=True, text=True,
                cwd=PACKAGE, timeout=LONG,
            )
            self.assertEqual(done.returncode, 0, done.stderr)
            first = " ".join(done.stdout.partition(">")[0].split())
            self.assertTrue(first.startswith(f"{self.path}: {told}"), first)
        self.assertIn("│ 1    │ before │ D = {1..4} │       │ taken back │", done.stdout)

    def test_at_a_terminal_it_is_left_at_once(self):
        for leave in ("quit\n", "\x04"):
            terminal = Terminal("workbook_client", "--program", PROGRAM, self.path)
            self.addCleanup(terminal.close)
            self.assertIn("plan.wb:", terminal.until("workbook> "))
            terminal.types("D = {1..4}\n")
            terminal.until("workbook> ")
            terminal.types(leave)
            self.assertEqual(terminal.ends(), 0)

    def test_a_program_that_goes_away_in_a_session(self):
        """Its last sentence tells where the work is."""
        done = subprocess.run(
            [sys.executable, "-c", SMALL_DISK, sys.executable, "-m", "workbook_client", "--program", PROGRAM, self.path],
            input="D = {1..4}\nA over D\n" + "A[1] = 5\n" * 20, capture_output=True, text=True, cwd=PACKAGE, timeout=LONG,
        )
        self.assertEqual((done.returncode, "Traceback" in done.stderr), (3, False))
        self.assertIn(f"what it had answered is kept in {self.path}", done.stderr)
        with self.open() as book:
            self.assertEqual(book.counts()[0], done.stdout.count("  edit "))

    def test_the_page_shows_it(self):
        with self.open() as book:
            self.assertEqual(view.View(book).state()["kept"], self.path)
        with Workbook.run(PROGRAM) as book:
            self.assertEqual(view.View(book).state()["kept"], "")

    def is_answered(self, url: str) -> None:
        with urllib.request.urlopen(urllib.request.Request(url, headers={"Sec-Fetch-Site": "none"}), timeout=LONG) as answer:
            self.assertIn(b"<title>workbook</title>", answer.read())

    def test_the_page_at_a_terminal(self):
        """Ctrl-C ends it at once where the workbook is kept, and else asks."""
        script = self.write("D = {1..4}\n", "script")
        page = ["workbook_client.page", "--program", PROGRAM, "--port", "0", "--file", script]
        for words, told in (([self.path], "plan.wb: a new workbook"), ([], "kept nowhere")):
            terminal = Terminal(*page, *words)
            self.addCleanup(terminal.close)
            shown = " ".join(terminal.until("(Ctrl-C ends it)").split())
            self.assertIn(told, shown)
            url = shown.split("the page is at ")[1].split()[0]
            self.is_answered(url)
            terminal.interrupt()
            if not words:
                self.assertIn("1 edit is kept nowhere", terminal.until("[y/N] "))
                terminal.types("n\n")
                self.is_answered(url)
                terminal.interrupt()
                terminal.until("[y/N] ")
                terminal.types("y\n")
            self.assertEqual(terminal.ends(), 0)
        with self.open() as book:
            self.assertEqual(book.counts()[0], 1)


if __name__ == "__main__":
    unittest.main()
