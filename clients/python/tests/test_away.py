"""A workbook that goes away under a session, and is there again or not."""

import io
import os
import signal
import tempfile
import unittest
from typing import Optional

from tests.support import PATIENCE, PROGRAM, Server, Terminal
from tests.test_streams import RedisAlike
from workbook_client import OutOfDomain, SessionEnded, Workbook, away, hearing
from workbook_client.hearing import News
from workbook_client.session import Session

ONCE = "chapel-workbook 2\nrect D {1..4} none\nhistory 1\n+ {\"d\":\"D\",\"is\":\"{1..4}\",\"map\":\"none\",\"op\":\"domain\"}\nend\n"
"""The history of a domain alone."""


LINES = """\
D = {1..<5}
D.translate(1)
D.expand(1)
D = D[{1..4}]
D dmapped blockDist({1..#4},[2])
D dmapped cyclicDist(1,[2])
M = {1..2, 0..6 by 2} dmapped blockDist({1..2,0..6}, [1, 2])
M = {1..3, 0..#4}
M.translate(1, -1)
S sparse M
S += (2, 1)
N = int
N |= {7, 5, 5}
N ^= {4}
T = text
T |= {"{x", "a..b"}
A over D
B over D
C over M
E over S
P over T
A[4] = 9
A[1] = B[2] + 3
A[1] -= 3
A[1..<3 by 1] = 8
A += B
E.irv = 7
C[2..3, 0..1] = 5
P["a..b"] = P["{x"] - 1
F = {1..4}
D = F
drop F
begin
A[ 1..<3 ] = 4
F = { 1..#4 } dmapped  cyclicDist( 1,[2] )
commit "a {plan} of [2..3]"
begin
F = {1..#2}
A[4] = 1
commit"""
"""Edits of each kind, with literals that a history spells in another way."""


class AtATerminal(unittest.TestCase):
    def setUp(self) -> None:
        self.server = Server(seats=2)
        self.addCleanup(self.server.close)
        self.terminal = Terminal("workbook_client", "--connect", f"127.0.0.1:{self.server.port}")
        self.addCleanup(self.terminal.close)
        self.terminal.until("workbook> ")
        self.types("D = {1..<5}", "edit 1")
        self.types("A over D", "edit 2")
        self.types("A[1..2] = 5", "edit 3")
        self.types("undo 3", "taken back")

    def types(self, line: str, words: str) -> str:
        """What a line gives, up to the next prompt, in which the words are."""
        self.terminal.types(line + "\n")
        told = self.flat(self.terminal.until("workbook> "))
        self.assertIn(words, told)
        return told

    def flat(self, told: str) -> str:
        return " ".join(told.split())

    def history(self) -> str:
        with self.server.connect() as book:
            return book.history_text()

    def restarts(self, resume: Optional[str]) -> None:
        """The server ends and another one is there, at the same place."""
        self.server.kill()
        again = Server(seats=2, port=self.server.port, resume=resume)
        self.addCleanup(again.close)

    def test_it_is_there_again_as_it_was(self):
        self.restarts(self.history())
        told = self.types("A[1] = 7", "there again, with 3 edits; nothing was done meanwhile")
        self.assertIn("has closed the connection", told)
        self.assertIn("edit 4, 1 cell", told)  # the line is run
        told = self.types("history", "A[1] = 7")
        self.assertEqual((told.count("│ me"), told.count("another")), (4, 0))

    def test_a_line_is_not_run_where_something_was_done(self):
        """It was typed by somebody who didn't know."""
        with self.server.connect() as book:
            book["A"][4] = 9
            book.redo(3)
            text = book.history_text()
        self.restarts(text)
        told = self.types("undo", "there again, with 4 edits new: edit 4 (A[4] = 9) put in force again meanwhile: 3")
        self.assertIn("the line wasn't run", told)
        self.types("A[4]", " 9 ")
        self.types("undo", "edit 4 of another seat is taken back")

    def test_another_workbook_is_there(self):
        self.restarts(None)
        self.types("A[1] = 7", "there again, with 0 edits. It isn't the workbook that this session knew, which had 3 edits")
        self.types("history", "no edits yet")
        self.types("D = {1..2}", "edit 1, 3 cells")

    def test_what_is_gathered_stays_gathered(self):
        """A commit that wasn't sent is made once the workbook is there."""
        for line, prompt in (("begin", "(0 gathered)> "), ("A[1] = 7", "(1 gathered)> "), ("A[2] = 8", "(2 gathered)> ")):
            self.terminal.types(line + "\n")
            self.terminal.until(prompt)
        self.restarts(self.history())
        told = self.types('commit "why"', "there again, with 3 edits; nothing was done meanwhile still gathered, and not made: 2 edits")
        self.assertIn("edit 4, 2 cells: why", told)
        self.types("note 4", "edit 4: why 1: A[1] = 7 2: A[2] = 8")

    def test_a_line_that_is_not_waited_for(self):
        """Ctrl-C tells whether its change was sent. The desk answers what was, before the next line."""
        self.server._process.send_signal(signal.SIGSTOP)
        for line, words in (
            ("D = {1..8}", "(not waited for; no change was sent: type it again, if it is still meant)"),
            ("A[1..2] = 7", "(not waited for; its reply is read before the next)"),
        ):
            self.terminal.types(line + "\n")
            self.terminal.until(line)
            self.terminal.waits(0.5 * PATIENCE)
            self.terminal.interrupt()
            self.assertIn(words, self.flat(self.terminal.until("workbook> ")))
        self.server._process.send_signal(signal.SIGCONT)
        self.types("size D", " 4 ")
        self.types("history", "A[1..2] = 7 │ 2 │ in force")

    def test_it_is_waited_for(self):
        text = self.history()
        self.server.kill()
        self.terminal.types("A[1] = 7\n")
        told = self.flat(self.terminal.until("nobody listens"))
        self.assertIn("it is tried again, and the session goes on where it is there; Ctrl-C ends the session", told)
        again = Server(seats=2, port=self.server.port, resume=text)
        self.addCleanup(again.close)
        told = self.flat(self.terminal.until("workbook> "))
        self.assertEqual((told.count("nobody listens"), "edit 4, 1 cell" in told), (0, True))

    def test_ctrl_c_ends_it(self):
        self.server.kill()
        self.terminal.types("A[1] = 7\n")
        self.terminal.until("Connection refused")
        self.terminal.interrupt()
        told = self.flat(self.terminal.until("was away"))
        self.assertIn(f"workbook_client: left, while 127.0.0.1:{self.server.port} was away", told)
        self.assertNotIn("Traceback", told)
        self.assertEqual(self.terminal.ends(), 3)

    def test_it_can_be_left_at_once(self):
        self.server.kill()
        self.terminal.types("quit\n")
        self.assertEqual(self.terminal.ends(), 0)


class Answers(unittest.TestCase):
    """What is told of lines that were sent, and of what was done meanwhile."""

    def session(self, book: Workbook) -> Session:
        self.said = io.StringIO()
        return Session(book, self.said, width=200)

    def told(self) -> str:
        return " ".join(self.said.getvalue().split())

    def test_lines_that_were_sent(self):
        server = Server(seats=2)
        self.addCleanup(server.close)
        book = server.connect()
        self.addCleanup(book.close)
        A = book.array("A", book.domain("D", range(1, 5)))
        session = self.session(book)
        server.kill()
        try:
            with book.pipeline() as sent:
                A[1] = 5
                sent.get(A, 1)
                A.copy(2, A, 1)
                for i in range(6):
                    A[4] = i
        except SessionEnded:
            pass
        away.tell_unanswered(session)
        self.assertEqual(self.told(), "sent and not answered, so perhaps done: A[1] = 5; A[2] = A[1]; A[4] = 0; A[4] = 1; A[4] = 2; and 3 more")
        again = Server(seats=1, port=server.port, resume=ONCE)
        self.addCleanup(again.close)
        self.assertEqual(len(book.again()), 9)
        self.assertEqual(hearing.hear_again(book), News(1, 2, True, [], [], []))
        self.assertEqual((list(book.edits), book["D"].size), ([1], 4))

    def test_a_transaction_that_was_sent(self):
        """It is told as any other line, and isn't gathered any more; one that wasn't sent is."""
        server = Server(seats=1)
        self.addCleanup(server.close)
        book = server.connect()
        self.addCleanup(book.close)
        session = self.session(book)
        for line in ("D = {1..4}", "A over D", "begin", "A[1] = 5", "A[2] = 6"):
            session.line(line)
        server.kill()
        self.said.truncate(0)
        with self.assertRaises(SessionEnded):
            session.line('commit "March forecast"')
        away.tell_unanswered(session)
        self.assertEqual(self.told().strip("\0 "), 'sent and not answered, so perhaps done: "March forecast": A[1] = 5; A[2] = 6')
        self.assertEqual((session.gathered(), session.begun), (0, None))
        for line in ("begin", "A[3] = 7"):
            session.line(line)
        with self.assertRaises(SessionEnded):
            session.line("commit")
        self.assertEqual((session.gathered(), len(book.exchange.on_their_way())), (1, 1))

    def test_a_transaction_in_a_journal(self):
        """It is there whole or not at all, and one change of the file."""
        with tempfile.TemporaryDirectory() as place:
            path = os.path.join(place, "plan.wb")
            with Workbook.run(PROGRAM, journal=path) as book:
                with book.transaction("a plan"):
                    A = book.array("A", book.domain("D", range(1, 5)))
                    A[1] = 5
                with self.assertRaises(OutOfDomain), book.transaction("never"):
                    A[2], A[9] = 6, 7
                os.kill(book.exchange.channel._process.pid, signal.SIGKILL)
            with open(path, encoding="utf-8") as file:
                lines = [line for line in file if '"op"' in line]
            self.assertEqual((len(lines), '"note":"a plan"' in lines[0], "never" in lines[0]), (1, True, False))
            with Workbook.run(PROGRAM, journal=path) as book:
                self.assertEqual((list(book["A"]), book.edits[1].note, len(book.edits[1].parts)), ([5, 0, 0, 0], "a plan", 3))

    def test_a_program_with_a_journal(self):
        """Another program goes on from what the one that was killed had answered."""
        with tempfile.TemporaryDirectory() as place, Workbook.run(PROGRAM, journal=os.path.join(place, "plan.wb")) as book:
            A = book.array("A", book.domain("D", range(1, 5)))
            session = self.session(book)
            os.kill(book.exchange.channel._process.pid, signal.SIGKILL)
            with self.assertRaises(SessionEnded) as end:
                for i in range(1, 5):  # a line may go out before the end is seen
                    A[i] = 7
            self.assertFalse(away.come_back(session, end.exception).other)
            self.assertIn("plan.wb is there again, with", self.told())
            self.assertEqual([e.who for e in book.history()], ["me"] * book.counts()[0])
            A[1] = 9
            self.assertEqual((A[1], book.journal), (9, os.path.join(os.path.abspath(place), "plan.wb")))
            session.line("size D")

    def test_a_block_that_was_cut(self):
        """What is left of it is told, and the session knows that its workbook is away."""
        server = Server(seats=1)
        self.addCleanup(server.close)
        book = server.connect()
        self.addCleanup(book.close)
        book.array("A", book.domain("D", range(1, 20_001)))
        session = self.session(book)
        with tempfile.NamedTemporaryFile("w", suffix=".csv") as file:
            file.write("\n".join(str(10**9 + at) for at in range(20_000)) + "\n")  # more than a line holds, so a block of `trying`
            file.flush()
            asked = book.shapes
            book.shapes = lambda: (asked(), server.kill())[0]  # type: ignore[method-assign, func-returns-value]
            with self.assertRaisesRegex(SessionEnded, "[1-4] requests? without a reply, since .* has closed the connection"):
                session.line(f"import A {file.name}")
        self.assertEqual(self.told(), "")

    def test_a_workbook_that_was_kept_nowhere_is_not_there_again(self):
        with Workbook.run(PROGRAM) as book:
            book.domain("D", range(1, 5))
            self.assertFalse(book.exchange.channel.is_gone())
            with self.assertRaisesRegex(SessionEnded, "has ended with its program"):
                book.again()
            with self.assertRaisesRegex(SessionEnded, "why"):
                away.come_back(self.session(book), SessionEnded("why"))
        self.assertEqual((self.told(), book.exchange.channel.is_gone()), ("", True))

    def test_a_seat_that_is_cut(self):
        """The desk is there: another seat is taken, and none where none is left."""
        server = Server(seats=3)
        self.addCleanup(server.close)
        book, _other = server.connect(), server.connect()
        book.domain("D", range(1, 5))
        book.exchange.channel.close()
        self.assertEqual(book.again(), [])
        self.assertTrue(hearing.hear_again(book).none)
        self.assertEqual([e.who for e in book.history()], ["me"])
        book._anew = lambda: Workbook.connect("127.0.0.1", server.port, wait=0.3)
        with self.assertRaisesRegex(SessionEnded, "all its seats are taken"):
            book.again()
        book.close()

    def test_edits_are_known_again_however_they_were_spelled(self):
        with Workbook.run(PROGRAM) as book:
            session = self.session(book)
            for line in LINES.splitlines():
                session.line(line)
                self.assertFalse(session.failed, self.told())
            self.assertTrue(hearing.hear_again(book).none)
            count = len(book.edits)
            book.undo(count)
            book.edits[count].was_in_force = True
            self.assertEqual(hearing.hear_again(book), News(count, count, False, [], [count], []))
            self.assertEqual((book.edits[22].what, book.edits[22].who), ("A[4] = 9", "me"))
            book.edits[22].what = "A[4] = 8"
            self.assertTrue(hearing.hear_again(book).other)

    def test_a_log(self):
        redis = RedisAlike(answers=True)
        self.addCleanup(redis.close)
        with Workbook.stream(redis.url.replace("//", "//me:secret@"), "plan") as book:
            book.domain("D", range(1, 5))
            self.assertFalse(book.exchange.channel.is_gone())
            redis.close()
            self.assertTrue(book.exchange.channel.is_gone())
            self.assertNotIn("secret", book.exchange.channel.why())
            with self.assertRaisesRegex(SessionEnded, "no redis at"):
                book.again()
            again = RedisAlike(answers=True, port=redis.server_address[1])
            self.addCleanup(again.close)
            self.assertEqual(book.again(), [])
            self.assertTrue(hearing.hear_again(book).other)
            self.assertEqual(book.edits, {})


if __name__ == "__main__":
    unittest.main()
