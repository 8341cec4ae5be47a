"""Lines out and in, against small programs of the tests' own: ends, faults, interruptions."""

import signal
import socket
import sys
import threading
import time
import unittest
from typing import List

from tests import support  # noqa: F401
from workbook_client import (
    LineTooLong, NoAnswer, NoProgram, NoSeat, NoServer, NotTakenBack, SessionEnded, StrangeReply,
    Workbook,
)


PUT = """
import os, sys, time
def put(text):
    try:
        print(text, flush=True)
    except BrokenPipeError:  # the test went first
        os._exit(0)
"""


def python(code: str) -> List[str]:
    """The words of a program in Python."""
    return [sys.executable, "-c", PUT + code]


ECHO = "for n, line in enumerate(sys.stdin, 1): put('{\"edit\":%d,\"n\":1}' % n)"


class Ends(unittest.TestCase):
    def run_(self, code: str, **more: float) -> Workbook:
        book = Workbook.run(python(code), **more)
        self.addCleanup(book.close)
        return book

    def test_replies_from_before_the_end_are_read(self):
        book = self.run_("[put('{\"size\":%d}' % n) for n in (5, 6)]; sys.stdin.readline()")
        with self.assertRaisesRegex(SessionEnded, "ended with status 0"), book.pipeline() as p:
            asked = [p.ask({"op": "size", "d": "D"}) for _ in range(3)]
        self.assertEqual([asked[0].value, asked[1].value], [5, 6])
        for act in (lambda: asked[2].value, book.undo, book.print_text):
            with self.assertRaises(SessionEnded):
                act()

    def test_the_status_is_told(self):
        with self.assertRaisesRegex(SessionEnded, r"status 4 \(no memory\)"):
            self.run_("sys.exit(4)").undo()

    def test_half_a_reply_is_none(self):
        with self.assertRaisesRegex(SessionEnded, "ended"):
            self.run_("sys.stdin.readline(); sys.stdout.write('{\"size\":4}')").undo()

    def test_a_program_that_is_no_workbook(self):
        for code, words in [
            ("sys.stdin.readline(); put('hello')", "b'hello"),
            ("sys.stdin.readline(); put('[1]')", "no reply"),
            ("sys.stdin.readline(); put('{}')", "no reply"),
            ("sys.stdin.readline(); put('[' * 100000)", "no reply"),
            ("put(sys.stdin.readline())", "without 'edit'"),
        ]:
            with self.subTest(code):
                book = self.run_(code)
                with self.assertRaisesRegex(StrangeReply, words):
                    book.domain("D", range(1, 5))
                with self.assertRaises(SessionEnded):
                    book.undo()

    def test_programs_that_cannot_be_started(self):
        with self.assertRaisesRegex(NoProgram, "--program"):
            Workbook.run("/no/such/workbook")
        with self.assertRaisesRegex(NoProgram, "can't be started"):
            Workbook.run(["/no/such/workbook", "run"])

    def test_a_closed_session(self):
        book = self.run_(ECHO)
        book.close()
        book.close()
        with self.assertRaisesRegex(SessionEnded, "closed"):
            book.undo()

    def test_trying_when_the_session_ends(self):
        book = self.run_("put('{\"edit\":1,\"n\":1}'); sys.stdin.readline()")
        with self.assertRaises(SessionEnded), book.trying():
            book.domain("D", range(1, 5))
            book.undo()  # the program is gone, and its workbook with it
        book = self.run_("put('{\"edit\":1,\"n\":1}'); sys.stdin.readline()")
        book.alone = False
        with self.assertRaises(NotTakenBack) as left, book.trying():
            book.domain("D", range(1, 5))
            book.undo()
        self.assertEqual((left.exception.standing, left.exception.undone), ([1], []))
        self.assertEqual(left.exception.unanswered, 1)
        self.assertIn("edit 1 in force; 1 request without a reply, since the program", str(left.exception))


class Order(unittest.TestCase):
    """Each reply is that of its request, whatever happens on the way."""

    def test_long_replies_to_many_requests_lock_nothing_up(self):
        """The program reads nothing more while a reply doesn't go out."""
        code = "for line in sys.stdin: put('{\"text\":\"%s\"}' % (line[19:23] * 5000))"
        with Workbook.run(python(code)) as book, book.pipeline() as p:
            asked = [p.ask({"op": "print", "x": f"{n:4}" + "y" * 3000}) for n in range(800)]
        self.assertEqual([r.value[:4] for r in asked], [f"{n:4}" for n in range(800)])

    def test_a_late_reply_is_read_in_its_turn(self):
        code = "sys.stdin.readline(); time.sleep(.4)\nfor n in (5, 6): put('{\"size\":%d}' % n)\nsys.stdin.read()"
        with Workbook.run(python(code), timeout=0.1) as book:
            with self.assertRaisesRegex(NoAnswer, "0.1 seconds"):
                book.ask({"op": "size", "d": "first"})
            second = book.exchange.post({"op": "size", "d": "second"})
            for _ in range(100):
                try:
                    self.assertEqual(second.value, 6)
                    return
                except NoAnswer:
                    pass
            self.fail("no reply at all")

    def test_an_interruption_leaves_replies_in_step(self):
        """As by Ctrl-C, at many moments."""
        def interrupt(*_: object) -> None:
            signal.setitimer(signal.ITIMER_REAL, 0)  # one interruption is enough, however slow the machine is
            raise KeyboardInterrupt

        before = signal.signal(signal.SIGALRM, interrupt)
        self.addCleanup(signal.signal, signal.SIGALRM, before)
        code = "for n, line in enumerate(sys.stdin): time.sleep(.001); put('{\"size\":%d}' % n)"
        interrupted = torn = 0
        while interrupted < 300:
            with Workbook.run(python(code)) as book:
                while interrupted < 300:
                    try:
                        signal.setitimer(signal.ITIMER_REAL, 0.0005 + interrupted * 0.00001, 5.0)
                        while True:
                            self.ask_one(book)
                    except KeyboardInterrupt:
                        signal.setitimer(signal.ITIMER_REAL, 0)
                        interrupted += 1
                    try:
                        self.ask_one(book)
                    except SessionEnded as end:  # it came between two bytes: never a wrong reply
                        self.assertIn("interrupted", str(end))
                        torn += 1
                        break
        self.assertLess(torn, 30)

    def ask_one(self, book: Workbook) -> None:
        posted = book.exchange.posted
        self.assertEqual(book.ask({"op": "size", "d": "D"})["size"], posted)

    def test_a_request_of_the_longest_line(self):
        with Workbook.run(python(ECHO)) as book:
            longest = {"op": "x" * (65536 - len('{"op":""}'))}
            self.assertEqual(book.ask(longest)["edit"], 1)
            with self.assertRaises(LineTooLong):
                book.ask({"op": longest["op"] + "x"})
            self.assertEqual(book.ask({"op": "x"})["edit"], 2)

    def test_what_cannot_be_sent_is_not_sent(self):
        with Workbook.run(python(ECHO)) as book:
            for wrong in ({"op": "\ud800"}, {"op": float("nan")}, {"op": {1, 2}}):
                with self.assertRaises((ValueError, TypeError)):
                    book.ask(wrong)
            self.assertEqual(book.ask({"op": "x"})["edit"], 1)


class Connections(unittest.TestCase):
    """What a server may do to a connection."""

    def server(self, talk) -> int:
        listener = socket.create_server(("127.0.0.1", 0))
        self.addCleanup(listener.close)

        def accept() -> None:
            connection, _ = listener.accept()
            with connection:
                talk(connection)

        threading.Thread(target=accept, daemon=True).start()
        return listener.getsockname()[1]

    def test_nobody_listens(self):
        with socket.create_server(("127.0.0.1", 0)) as listener:
            port = listener.getsockname()[1]
        with self.assertRaisesRegex(NoServer, f"nobody listens at 127.0.0.1:{port}"):
            Workbook.connect("127.0.0.1", port)
        with self.assertRaises(NoServer):
            Workbook.connect("127.0.0.1", 99999)

    def test_a_server_that_says_nothing(self):
        port = self.server(lambda connection: time.sleep(1))
        with self.assertRaisesRegex(NoSeat, "all its seats are taken"):
            Workbook.connect("127.0.0.1", port, wait=0.2)

    def test_a_server_without_a_free_seat(self):
        port = self.server(lambda connection: connection.sendall(b'{"error":"E93","name":"no-seat"}\n'))
        with self.assertRaisesRegex(NoSeat, f"127.0.0.1:{port}: all its seats are taken; one is free again"):
            Workbook.connect("127.0.0.1", port)

    def test_a_server_that_closes_at_once(self):
        port = self.server(lambda connection: None)
        with self.assertRaisesRegex(NoSeat, "no seat left, or has ended"):
            Workbook.connect("127.0.0.1", port)

    def test_a_server_of_something_else(self):
        port = self.server(lambda connection: connection.sendall(b"HTTP/1.1 400 Bad Request\r\n"))
        with self.assertRaisesRegex(StrangeReply, "HTTP/1.1 400"):
            Workbook.connect("127.0.0.1", port)

    def test_a_connection_that_was_idle(self):
        """Where nothing was sent for long, it is told that a desk may end such a connection."""

        def talk(connection: socket.socket) -> None:
            connection.recv(100)
            connection.sendall(b'{"error":"E01","name":"bad-request"}\n')

        with Workbook.connect("127.0.0.1", self.server(talk)) as book:
            with self.assertRaisesRegex(SessionEnded, "has closed the connection$"):
                book.array("A", "D")
            book.exchange.channel._sent_at -= 300
            with self.assertRaisesRegex(SessionEnded, "nothing was sent for 3.. seconds, and a desk may end a connection that is idle"):
                book.array("A", "D")

    def test_a_connection_that_is_cut(self):
        def talk(connection: socket.socket) -> None:
            connection.recv(100)
            connection.sendall(b'{"error":"E01","name":"bad-request"}\n')
            connection.recv(100)
            connection.sendall(b'{"edit":1,"n":3}\n{"edit":2')

        with Workbook.connect("127.0.0.1", self.server(talk)) as book:
            self.assertEqual(book.domain("D", range(1, 5)).name, "D")
            with self.assertRaisesRegex(SessionEnded, "has closed the connection"):
                book.array("A", "D")
            self.assertEqual(book.edits[1].cells, 3)


if __name__ == "__main__":
    unittest.main()
