"""Desks that the client starts, kept in a journal or nowhere, and journals that are made anew."""

import io
import os
import re
import subprocess
import sys
import tempfile
import time
import unittest
from typing import Optional
from unittest import mock

from tests.support import HERE, LONG, PROGRAM
from workbook_client import NoNames, NoProgram, NoSeat, NotOpened, NotResumed, SessionEnded, Workbook, channel, compact, terminal
from workbook_client.language import Command, LanguageError, parse
from workbook_client.session import Session
from workbook_client.view import APART, View

PACKAGE = HERE.parents[1]
EMPTY = "chapel-workbook 2\nhistory 0\nend\n"


class Files(unittest.TestCase):
    def setUp(self) -> None:
        place = tempfile.TemporaryDirectory()
        self.addCleanup(place.cleanup)
        self.place = os.path.realpath(place.name)
        self.path = os.path.join(self.place, "plan.wb")

    def write(self, name: str, text: str) -> str:
        path = os.path.join(self.place, name)
        with open(path, "w", encoding="utf-8", newline="") as file:
            file.write(text)
        return path

    def kept_plan(self) -> str:
        """A journal with a few edits, of which one is undone; the text of its history."""
        with Workbook.run(PROGRAM, journal=self.path) as book:
            A = book.array("A", book.domain("D", range(1, 5)))
            for i in range(8):
                A.set(1, i).undo()
                book.redo(3 + i)
            book.undo(10)
            return book.history_text()


class Desks(Files):
    def test_kept_nowhere(self):
        with Workbook.serve(seats=2, program=PROGRAM) as desk:
            self.assertEqual(desk.place(), f"127.0.0.1:{desk.port}, 2 seats: this workbook is kept nowhere; history_text() of a seat is all of it")
            one, two = desk.connect(), desk.connect()
            one.array("A", one.domain("D", range(1, 3)))[1] = 5
            self.assertEqual((two["A"][1], two.where, desk.address), (5, desk.address, desk.address))
            self.assertEqual(desk.settled(), "chapel-workbook 1\narray A over D [5, 0]\nrect D {1..2} none\nend\n")

    def test_a_desk_that_stays(self):
        """Its one seat is taken again and again, and the desk ends once it is told to."""
        with Workbook.serve(seats=1, stay=True, program=PROGRAM) as desk:
            one = desk.connect()
            one.array("A", one.domain("D", range(1, 3)))[1] = 5
            with self.assertRaisesRegex(NoSeat, "all its seats are taken; one is free again"):
                desk.connect()
            one.close()
            self.assertEqual(self.seat(desk)["A"][1], 5)
            self.assertEqual(desk.settled(), "chapel-workbook 1\narray A over D [5, 0]\nrect D {1..2} none\nend\n")

    def test_a_desk_on_a_socket(self):
        """The library, a session and a page take a seat by the path of its socket, and take another when it is there again."""
        path = os.path.join(self.place, "plan.socket")
        with Workbook.serve(seats=2, journal=self.path, stay=True, socket=path, program=PROGRAM) as desk:
            self.assertEqual((desk.address, desk.port), (path, None))
            self.assertEqual(desk.place(), f"{path}, 2 seats: each change is kept in {self.path}, before it is told")
            ben = desk.connect(name="Ben")
            ben.array("A", ben.domain("D", range(1, 3)))[1] = 5
            done = subprocess.run(
                [sys.executable, "-m", "workbook_client", "--connect", path, "--name", "Eva"], input="A[2] = A[1] + 1\nhistory 4\n",
                capture_output=True, text=True, cwd=PACKAGE, timeout=LONG,
            )
            self.assertEqual((done.returncode, done.stderr), (0, ""))
            self.assertIn("A[2] = A[1] + 1", done.stdout)
            self.assertEqual((list(ben["A"]), ben.where, ben.history()[3].by), ([5, 6], path, "Eva"))
        with Workbook.serve(seats=1, journal=self.path, stay=True, socket=path, program=PROGRAM) as desk:
            self.assertEqual((ben.again(), list(ben["A"])), ([], [5, 6]))
            with self.assertRaisesRegex(SessionEnded, "the desk has ended with status 3 .*the socket was not opened: Address already in use"):
                Workbook.serve(stay=True, socket=path, program=PROGRAM)
            ben.close()
            self.assertIn("array A over D [5, 6]", desk.settled())
        self.assertFalse(os.path.exists(path))
        for words in ({"socket": path}, {"socket": path, "stay": True, "port": 7000}):
            with self.assertRaisesRegex(ValueError, "on a socket"):
                Workbook.serve(program=PROGRAM, **words)

    def test_a_desk_that_stays_and_is_kept(self):
        """An idle connection gives its seat back; a desk that was ended by force has lost nothing."""
        with Workbook.serve(seats=1, journal=self.path, stay=True, idle=1, program=PROGRAM) as desk:
            idle = desk.connect()
            idle.array("A", idle.domain("D", range(1, 3)))[1] = 5
            self.assertEqual(self.seat(desk)["A"][1], 5)
            with self.assertRaises(SessionEnded):
                idle.counts()
        with Workbook.serve(seats=1, journal=self.path, stay=True, program=PROGRAM) as desk:
            self.assertEqual(list(desk.connect()["A"]), [5, 0])
            self.assertIn("array A over D [5, 0]", desk.settled())

    def test_who_did_what(self):
        """At a desk that stays each hears by name what others did, in the library, in a session and on the page."""
        with Workbook.serve(seats=2, journal=self.path, stay=True, program=PROGRAM) as desk:
            ben, eva = desk.connect(name="Ben"), desk.connect(name="Eva")
            A = ben.array("A", ben.domain("D", range(1, 5)))
            A[1] = 5
            view = View(ben)
            self.assertEqual(view.state()["taken"], [])
            eva.undo(3)
            eva["A"].set(2, 6)
            time.sleep(APART)
            state = view.state()
            self.assertEqual((state["taken"], state["takers"]), ([3], {"3": "Eva"}))
            self.assertEqual([(e["k"], e["by"]) for e in state["edits"]], [(1, ""), (2, ""), (3, ""), (4, "Eva")])
            told = [(e.number, e.who, e.by, e.was_in_force, e.turned_by) for e in ben.history()]
            self.assertEqual(told, [(1, "me", "", True, ""), (2, "me", "", True, ""), (3, "me", "", False, "Eva"), (4, "another", "Eva", True, "")])
            self.assertEqual([(e.number, e.by, e.turned_by) for e in eva.history()], [(1, "Ben", ""), (2, "Ben", ""), (3, "Ben", ""), (4, "", "")])
            out = io.StringIO()
            Session(ben, out).line("history 3")
            self.assertIn("taken back by Eva", out.getvalue())
            self.assertIn("Eva", out.getvalue().splitlines()[-2])
            out = io.StringIO()
            Session(ben, out).line("undo 3")
            self.assertIn("Eva took it back\n  next: redo 3", out.getvalue())
            out = io.StringIO()
            Session(ben, out).line("undo 2")
            self.assertIn("Blocked by edit 4 of Eva", out.getvalue())
            ben.redo(3)
            self.assertEqual([e.turned_by for e in ben.history()], ["", "", "", ""])
            eva.close()
            one = self.seat(desk)
            one.undo(4)
            self.assertEqual(ben.history()[3].turned_by, f"seat {1 - ben.names_heard.seat}")

    def test_a_seat_that_was_idle_is_taken_again(self):
        """Without much ado: the line is run, and the page shows what there is; what others did meanwhile is told."""
        with Workbook.serve(seats=3, stay=True, idle=1, journal=self.path, program=PROGRAM) as desk, mock.patch.object(channel, "IDLE", 0.5):
            ben, eva = desk.connect(name="Ben"), desk.connect(name="Eva")
            ben.array("A", ben.domain("D", range(1, 5)))
            out = io.StringIO()
            session = Session(ben, out, width=200)
            self.wait_for(ben.exchange.channel.is_gone)
            self.assertTrue(terminal.answered(session, "A[1] = 5"))
            self.assertEqual(out.getvalue(), "  (another seat was taken: the desk ends a connection that is idle)\n  edit 3, 1 cell\n")
            view = View(ben)
            version = view.state()["version"]
            self.wait_for(ben.exchange.channel.is_gone)
            eva.again()
            eva["A"].set(2, 6)
            self.assertNotEqual(view.state()["version"], version)  # as if it had been there all the time
            self.assertEqual((view.state()["edits"][-1]["by"], view.state()["taken"]), ("Eva", []))
            self.wait_for(ben.exchange.channel.is_gone)
            eva.again()
            eva["A"].set(2, 7)
            out.truncate(0), out.seek(0)
            terminal.answered(session, "A[2] = 8")
            self.assertIn("is there again, with 5 edits\n  new: edit 5 (A[2] = 7)\n  edit 6, 1 cell\n", out.getvalue())
            ben.close(), eva.close()

    def test_who_is_there(self):
        """By the words of a session, which may say its name later; the page tells of those who said one."""
        with Workbook.serve(seats=4, stay=True, program=PROGRAM) as desk:
            ben, eva, other = desk.connect(), desk.connect(name="Eva"), desk.connect()
            out = io.StringIO()
            session = Session(ben, out)
            ben.domain("D", range(1, 5))
            session.line("who")
            self.assertEqual(out.getvalue(), "  Eva; 2 without a name; 1 of 4 seats free\n")
            out.truncate(0), out.seek(0)
            for line in ('hello Ben"', "hello " + "x" * 33, "hello Ben of the shop", "hello Bob", "who"):
                session.line(line)
            told = " ".join(out.getvalue().split())
            self.assertEqual(told.count("the desk does not take the name"), 2)
            self.assertIn("others here hear of Ben of the shop by what you do from now on", told)
            self.assertIn("this session is called Ben of the shop, and a name is said once", told)
            self.assertTrue(told.endswith("Ben of the shop (you) and Eva; 1 without a name; 1 of 4 seats free"), told)
            self.assertEqual([(e.who, e.by) for e in ben.history()], [("me", "")])  # also what was done before
            view = View(eva)
            state = view.state()
            self.assertEqual(state["guests"], ["Ben of the shop"])
            self.assertEqual(View(other).state()["guests"], [])  # who said no name asks for none
            ben.exchange.channel.close()
            self.assertEqual(ben.again(), [])  # the name is said again
            self.assertIn("Ben of the shop", ben.desk().names.values())
            ben.close()
            self.wait_for(lambda: len(eva.desk().names) == 1)
            view._looked = float("-inf")
            later = view.state()
            self.assertEqual(later["guests"], [])
            self.assertNotEqual(later["version"], state["version"])

    def wait_for(self, holds) -> None:
        """Waits until something holds."""
        for _ in range(200):
            if holds():
                return
            time.sleep(0.05)
        self.assertTrue(holds())

    def test_a_name_is_said_again_at_another_seat(self):
        """What a session did before it was cut is still its own, and what others did has their names; also where the desk began anew."""
        with Workbook.serve(seats=2, journal=self.path, stay=True, program=PROGRAM) as desk:
            ben = desk.connect(name="Ben")
            ben.array("A", ben.domain("D", range(1, 5)))
            ben.exchange.channel.close()
            eva = self.seat(desk, "Eva")
            eva["A"].set(1, 5)
            self.assertEqual(ben.again(), [])
            ben["A"].set(2, 6)
            self.assertEqual([(e.number, e.who, e.by) for e in ben.history()], [(1, "me", ""), (2, "me", ""), (3, "another", "Eva"), (4, "me", "")])
            self.assertEqual([e.by for e in eva.history()], ["Ben", "Ben", "", "Ben"])
            port = desk.port
        with Workbook.serve(seats=2, port=port, journal=self.path, stay=True, program=PROGRAM) as desk:
            ann = self.seat(desk, "Ann")
            ann.undo(3)
            self.assertEqual(ben.again(), [])
            self.assertNotEqual(ben.names_heard.seat, ann.names_heard.seat)
            self.assertEqual([(e.who, e.by, e.turned_by) for e in ben.history()], [
                ("me", "", ""), ("me", "", ""), ("another", "Eva", "Ann"), ("me", "", "")])
            ben.redo(3)
            self.assertEqual(ann.history()[2].turned_by, "Ben")
            ben.close()

    def test_names_that_are_not_taken(self):
        with Workbook.serve(seats=1, program=PROGRAM) as desk:
            with self.assertRaisesRegex(NoNames, "does not take the name 'Ben': only a desk that stays"):
                desk.connect(name="Ben")
        with Workbook.serve(seats=1, stay=True, program=PROGRAM) as desk:
            with self.assertRaisesRegex(NoNames, "at most 32 bytes"):
                desk.connect(name="B" * 33)
            self.assertEqual(self.seat(desk).counts(), (0, 0))

    def seat(self, desk, name: Optional[str] = None) -> Workbook:
        """The seat of a desk that stays, once it is free."""
        for _ in range(200):
            try:
                return desk.connect(name=name)
            except NoSeat:
                time.sleep(0.05)
        return desk.connect(name=name)

    def test_gone_on_from_a_history(self):
        text = self.kept_plan()
        with Workbook.serve(seats=1, resume=text, program=PROGRAM) as desk:
            self.assertEqual(desk.connect().history_text(), text)
            self.assertEqual(desk.settled(), text)

    def test_kept_in_a_journal(self):
        """Desk, session, desk: each goes on from where the one before was, also from one that was ended by force."""
        with Workbook.serve(seats=2, journal=self.path, program=PROGRAM) as desk:
            self.assertEqual(desk.place(), f"127.0.0.1:{desk.port}, 2 seats: each change is kept in {self.path}, before it is told")
            one, two = desk.connect(), desk.connect()
            A = one.array("A", one.domain("D", range(1, 3)))
            A[1] = 5
            two["A"].copy(2, two["A"], 1)
            text = two.history_text()
        with self.opened() as book:
            self.assertEqual((book.history_text(), list(book["A"])), (text, [5, 5]))
            book.cascade(3)
        with Workbook.serve(seats=1, journal=self.path, program=PROGRAM) as desk:
            self.assertEqual(list(desk.connect()["A"]), [0, 0])
            self.assertIn("array A over D [0, 0]", desk.settled())

    def opened(self) -> Workbook:
        """The journal, once nobody has it open: the session below what stands in for a desk ends a moment after it."""
        for _ in range(50):
            try:
                return Workbook.run(PROGRAM, journal=self.path)
            except NotOpened:
                time.sleep(0.1)
        return Workbook.run(PROGRAM, journal=self.path)

    def test_a_file_that_is_no_journal(self):
        for text, why in (("milk, bread\n", "the file is no journal"), ("chapel-workbook 1\nend\n", "`load` makes its objects"),
                          ('chapel-workbook 3\n {"op":"print"}\n#', "a line of it is no change that is accepted")):
            path = self.write("list", text)
            with self.assertRaisesRegex(NotOpened, "list isn't opened: .*" + why):
                Workbook.serve(journal=path, program=PROGRAM)
            with open(path, encoding="utf-8") as file:
                self.assertEqual(file.read(), text)
        with Workbook.run(PROGRAM, journal=self.path), self.assertRaisesRegex(NotOpened, "in use"):
            Workbook.serve(journal=self.path, program=PROGRAM)

    def test_what_is_no_desk(self):
        for words, error, why in (
            ("/no/such", NoProgram, "there is no program"), (self.place, NoProgram, "there is no program"),
            ([sys.executable, "-c", "print('hello')"], SessionEnded, "no desk: it says b'hello"),
            ([sys.executable, "-c", "import sys; sys.exit(4)"], SessionEnded, r"ended with status 4 \(no memory"),
        ):
            with self.subTest(words), self.assertRaisesRegex(error, why):
                Workbook.serve(program=words)
        with self.assertRaisesRegex(NotOpened, "older than this client"):
            Workbook.serve(journal=self.path, program=[sys.executable, "-c", "import sys; sys.exit(2)"])
        with self.assertRaisesRegex(NotResumed, "no history's"):
            Workbook.serve(resume="milk, bread\n", program=PROGRAM)
        with self.assertRaisesRegex(SessionEnded, r"ended with status 2 \(a bad command line"):
            Workbook.serve(resume=EMPTY * 10_000, program=[sys.executable, "-c", "import sys; sys.exit(2)"])
        for wrong in ({"resume": EMPTY, "journal": self.path}, {"resume": EMPTY, "stay": True}, {"idle": 5}):
            with self.assertRaises(ValueError):
                Workbook.serve(**wrong)
        with Workbook.serve(program=PROGRAM) as desk:
            with self.assertRaisesRegex(SessionEnded, "ended with status 3"):
                Workbook.serve(port=desk.port, program=PROGRAM)
            with self.assertRaisesRegex(SessionEnded, "ended with status 3"):
                Workbook.serve(port=desk.port, journal=self.path, program=PROGRAM)

    def test_a_desk_that_is_closed(self):
        desk = Workbook.serve(seats=1, program=PROGRAM)
        book = desk.connect()
        with self.assertRaises(NoSeat):
            Workbook.connect(desk.host, desk.port, wait=0.3)
        desk.close()
        with self.assertRaises(SessionEnded):
            book.counts()


class Compacting(Files):
    def test_the_same_edits(self):
        text, before = self.kept_plan(), os.path.getsize(self.path)
        done = compact(self.path, PROGRAM)
        self.assertEqual((done.place, done.before, done.after), (self.path, before, os.path.getsize(self.path)))
        self.assertLess(done.after, before)
        with Workbook.run(PROGRAM, journal=self.path) as book:
            self.assertEqual(book.history_text(), text)
            book.redo(10)
        self.assertEqual(os.listdir(self.place), ["plan.wb"])

    def test_what_is_not_made_anew(self):
        with Workbook.run(PROGRAM, journal=self.path), self.assertRaisesRegex(NotOpened, "in use"):
            compact(self.path, PROGRAM)
        with self.assertRaisesRegex(NotOpened, "list isn't opened: the file is no journal"):
            compact(self.write("list", "milk, bread\n"), PROGRAM)
        with self.assertRaisesRegex(NotOpened, "gone isn't opened: No such file"):
            compact(os.path.join(self.place, "gone"), PROGRAM)
        with self.assertRaisesRegex(NotOpened, "has no `compact`"):
            compact(self.path, [sys.executable, "-c", "import sys; sys.exit(2)"])
        with self.assertRaisesRegex(NoProgram, "can't be started"):
            compact(self.path, ["/no/such"])
        self.assertEqual(sorted(os.listdir(self.place)), ["list", "plan.wb"])

    def say(self, book: Workbook, line: str) -> str:
        session = Session(book, io.StringIO(), width=1000)
        session.line(line)
        return " ".join(str(getattr(session.out, "getvalue")()).split())

    def test_the_word_of_the_session(self):
        with Workbook.run(PROGRAM, journal=self.path) as book:
            for line in ("compact", f"compact {self.path}"):
                self.assertEqual(
                    self.say(book, line),
                    f"{self.path} is open in this session, so leave it first; then this makes it anew: {PROGRAM} compact {self.path}",
                )
            self.assertIn("gone isn't opened: No such file", self.say(book, f"compact {self.place}/gone"))
        with Workbook.run(PROGRAM) as book:
            self.assertIn("this session has no journal file", self.say(book, "compact"))
            self.assertRegex(self.say(book, f"compact {self.path}"), r"plan.wb: \d+ bytes, and \d+ before")

    def test_the_word_is_a_name_too(self):
        self.assertEqual(parse("compact a b.wb ", lambda name: None), Command("compact", ("a b.wb",)))
        self.assertEqual(parse("compact = {1..4}", lambda name: None), {"op": "domain", "d": "compact", "is": "{1..4}"})
        with self.assertRaises(LanguageError):
            parse("save", lambda name: None)

    def test_a_session_where_the_journal_is_in_use_says_so(self):
        with Workbook.run(PROGRAM, journal=self.path):
            gone = subprocess.run([sys.executable, "-m", "workbook_client", "--program", PROGRAM, self.path], input="", capture_output=True,
                                  text=True, cwd=PACKAGE, timeout=LONG)
        self.assertEqual((gone.returncode, gone.stdout), (3, ""))
        self.assertTrue(re.search("plan.wb isn't opened: the journal is in use", gone.stderr), gone.stderr)


if __name__ == "__main__":
    unittest.main()
