"""Seats of one workbook: `workbook serve`, with a client on each seat."""

import threading
import unittest

from tests.support import Server
from workbook_client import (
    Array, BadLiteral, Blocked, Cascade, LineTooLong, NoSeat, NoServer, NoSuchEdit, NoSuchName, NotInForce, NotTakenBack, Refusal,
    SessionEnded, Workbook,
)


class Shared(unittest.TestCase):
    def setUp(self) -> None:
        self.server = Server(seats=2)
        self.addCleanup(self.server.close)
        self.one, self.two = self.server.connect(), self.server.connect()

    def test_two_seats(self):
        D = self.one.domain("D", range(1, 5))
        A = self.one.array("A", D)
        edit = A.set(1, 5)
        self.two["A"].set(1, 6)
        with self.assertRaises(Blocked) as no:
            edit.undo()
        self.assertEqual(no.exception.by, 4)
        self.assertIn("another's", str(no.exception))
        told = [(e.number, e.who, e.was_in_force) for e in self.one.history()]
        self.assertEqual(told, [(1, "me", True), (2, "me", True), (3, "me", True), (4, "another", True)])
        self.assertEqual([e.what for e in self.two.history()], ["D = {1..4}", "A over D", "A[1] = 5", "A[1] = 6"])
        self.two.undo()
        self.assertEqual(self.one.undo(3).number, 3)
        self.assertEqual([e.was_in_force for e in self.two.history()], [True, True, False, False])

    def test_the_history_from_a_number_on(self):
        A = self.one.array("A", self.one.domain("D", range(1, 5)))
        A[1] = 5
        A[2] = 6
        self.one.undo(3)
        told = [(e.number, e.who, e.what, e.was_in_force) for e in self.two.history(since=3)]
        self.assertEqual(told, [(3, "another", "A[1] = 5", False), (4, "another", "A[2] = 6", True)])
        self.assertEqual(self.two.history(since=5), [])
        self.assertEqual(sorted(self.two.edits), [3, 4])
        # four edits, an undo, and two questions
        self.assertEqual(self.server.settled()[0], 7)

    def test_dependents_and_cascade(self):
        """Who needs an edit is a question like others, and a cascade is one step of the desk."""
        A = self.one.array("A", self.one.domain("D", range(1, 5)))
        first = A.set(1, 5)
        B = self.two["A"]
        B.copy(2, B, 1, plus=1)
        B.copy(3, B, 2, plus=1)
        B[4] = 8
        self.assertEqual((first.dependents(), self.one.blocker(3), self.one.blocker(6)), ([4, 5], 4, None))
        self.assertEqual(first.cascade(), Cascade([5, 4, 3], 3))
        self.assertEqual(list(A), [0, 0, 0, 8])
        for act in (first.cascade, first.dependents):
            with self.assertRaises(NotInForce):
                act()
        with self.assertRaises(NoSuchEdit):
            self.two.dependents(7)
        # 4 edits of two seats and a size of each name; three questions, a cascade, a print, three refusals
        self.assertEqual(self.server.settled()[0], 6 + 1 + 3 + 1 + 1 + 3)

    def test_what_cannot_be_taken_back(self):
        D = self.one.domain("D", range(1, 5))
        A = self.one.array("A", D)
        with self.assertRaises(NotTakenBack) as left:
            with self.one.trying():
                A[1] = 5
                A[2] = 6
                self.two["A"].copy(3, A, 1)
                raise KeyError("why")
        self.assertEqual((left.exception.standing, left.exception.undone), ([3], []))
        self.assertIn("edit 3 in force", str(left.exception))
        self.assertEqual(left.exception.why.by, 5)
        self.assertIsInstance(left.exception.__cause__, KeyError)

    def test_what_cannot_be_redone(self):
        A = self.one.array("A", self.one.domain("D", range(1, 5)))
        edit = A.set(1, 5)
        with self.assertRaises(NotTakenBack) as left, self.one.trying():
            A[4] = 1
            edit.undo()
            self.two["A"].set(1, 6)
            raise KeyError("why")
        self.assertEqual((left.exception.standing, left.exception.undone), ([4], [3]))

    def test_two_pipelines_at_once(self):
        A = self.one.array("A", self.one.domain("D", range(1, 4001)))

        def fill(book, numbers):
            mine = Array(book, "A")
            with book.pipeline():
                for i in numbers:
                    mine[i] = -i

        other = threading.Thread(target=fill, args=(self.two, range(1, 2001)))
        other.start()
        fill(self.one, range(2001, 4001))
        other.join()
        self.assertEqual(list(A), [-i for i in range(1, 4001)])
        self.assertEqual(len(self.two.history()), 4002)

    def test_objects_of_another_seat(self):
        D = self.one.domain("D", range(1, 5))
        A, B = self.one.array("A", D), self.two.array("B", D)
        B.assign(A)
        self.assertEqual(self.two["A"].to_dict(), B.to_dict())

    def test_no_seat_left(self):
        """The connection stands, and nobody answers."""
        with self.assertRaisesRegex(NoSeat, "all its seats are taken"):
            Workbook.connect("127.0.0.1", self.server.port, wait=0.3)
        self.one.close()  # a seat is given once
        with self.assertRaises(NoSeat):
            Workbook.connect("127.0.0.1", self.server.port, wait=0.3)

    def test_a_server_that_has_ended(self):
        self.server.settled()
        with self.assertRaises(NoServer):
            Workbook.connect("127.0.0.1", self.server.port)

    def test_a_server_that_is_killed(self):
        self.one.domain("D", range(1, 5))
        self.server.kill()
        with self.assertRaisesRegex(SessionEnded, "has closed the connection"):
            self.one.print_text()

    def test_what_is_an_entry(self):
        """To take a seat is none; a question is one, and so is a refusal."""
        self.one.domain("D", range(1, 5))
        self.two["D"].size
        with self.assertRaises(NoSuchName):
            self.two.undo() and self.one.array("A", "X")
        with self.assertRaises(Refusal):
            self.one.cascade(9)
        with self.assertRaises(BadLiteral):
            self.one.domain("E", "{1..")
        self.assertEqual(self.server.settled(), (6, "chapel-workbook 1\nend\n"))

    def test_the_longest_line(self):
        with self.assertRaises(LineTooLong):
            self.one.ask({"op": "print", "x": "y" * 70000})
        self.assertEqual(self.server.settled()[0], 0)


if __name__ == "__main__":
    unittest.main()
