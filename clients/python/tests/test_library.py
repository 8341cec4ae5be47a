"""The library, against the program."""

import re
import unittest

import workbook_client
from tests.support import HERE, PROGRAM, Told
from workbook_client import hearing, refusals, requests
from workbook_client import (
    Array, BadLiteral, BadMapping, BadRequest, Blocked, Cascade, Empty, InForce, InUse, LineTooLong,
    NameTaken, NoSuchEdit, NoSuchName, NotEmpty, NotInForce, NotResumed, OutOfDomain,
    OutOfParent, Overflow, Refusal, RefusedInPlace, Snapshot, StrangeReply, TooLarge, Workbook,
    WrongKind, block, block_cyclic, cyclic,
)


class Case(unittest.TestCase):
    def setUp(self) -> None:
        self.wb = Workbook.run(PROGRAM)
        self.addCleanup(self.wb.close)

    def line(self) -> tuple:
        """D = {1..4} and A over it."""
        D = self.wb.domain("D", range(1, 5))
        return D, self.wb.array("A", D)


class Basics(Case):
    def test_a_set_and_its_undo(self):
        D, A = self.line()
        A[4] = 9
        self.assertEqual((self.wb.last_edit.number, self.wb.last_edit.cells), (3, 1))
        self.assertEqual(self.wb.undo().number, 3)
        self.assertEqual(A[4], 0)

    def test_an_edit_is_undone_and_redone_alone(self):
        _, A = self.line()
        first, second = A.set(1, 5), A.set(2, 6)
        first.undo()
        self.assertEqual((A[1], A[2]), (0, 6))
        self.assertFalse(first.in_force)
        self.assertTrue(second.in_force)
        self.assertIs(first.redo(), first)
        self.assertEqual(A[1], 5)
        self.assertTrue(first.in_force)

    def test_every_verb_of_a_rectangular_domain(self):
        D = self.wb.domain("D", "{1..4}", map="blockDist({1..4}, [2])")
        self.assertEqual((D.size, len(D), D.where(3)), (4, 4, 1))
        D.reshape("{1..6}")
        self.assertEqual(D.size, 6)
        D.slice(range(2, 99))
        self.assertEqual(D.indices(), [2, 3, 4, 5, 6])
        D.translate(10)
        self.assertEqual(list(D), [12, 13, 14, 15, 16])
        D.expand(-1)
        self.assertEqual(list(D), [13, 14, 15])
        D.remap(cyclic(13, 2))
        self.assertEqual([D.where(i) for i in D], [0, 1, 0])
        self.assertTrue(14 in D)
        self.assertFalse(99 in D)
        D.remap(block_cyclic(13, 2, 3))
        self.assertEqual(self.wb.snapshot().domains["D"].map, "blockCycDist(13, 2, [3])")
        D.drop()
        self.assertIsNone(self.wb.kind("D"))

    def test_ranks_and_ranges(self):
        M = self.wb.domain("M", (range(1, 4), range(10, 0, -3)), map=block((range(1, 4), range(1, 11)), (1, 2)))
        B = self.wb.array("B", M)
        B[2, 7] = 5
        self.assertEqual(B[2, 7], 5)
        self.assertEqual(self.wb.snapshot().domains["M"].literal, "{1..3, 1..10 by -3}")
        self.assertEqual(M.indices()[:4], [(1, 10), (1, 7), (1, 4), (1, 1)])
        with self.assertRaises(WrongKind):
            M.translate(1, 1)

    def test_sparse(self):
        D, A = self.line()
        S = self.wb.sparse("S", D)
        B = self.wb.array("B", S)
        B.irv = 7
        self.assertEqual(S.add(2).cells, 2)
        self.assertEqual(S.add(2).cells, 0)
        self.assertEqual((B[2], B[3], B.irv), (7, 7, 7))
        B[2] = 1
        self.assertEqual(B.to_dict(), {2: 1})
        A.copy(1, B, 3, plus=-2)
        self.assertEqual(A[1], 5)
        S.reshape({1, 4})
        self.assertEqual(B.to_dict(), {1: 7, 4: 7})
        S.remove(4)
        with self.assertRaises(OutOfParent):
            S.add(9)

    def test_associative(self):
        N = self.wb.assoc("N", "int")
        N.reshape({5, 1, 3})
        N |= {3, 7}
        N ^= {1, 9}
        N -= {3}
        N &= {5, 6}
        self.assertEqual(N.indices(), [5])
        T = self.wb.assoc("T", "text")
        T |= {"x", "é, }"}
        P = self.wb.array("P", T)
        P["x"] = 3
        self.assertEqual(P.to_dict(), {"x": 3, "é, }": 0})
        self.assertEqual(P.pieces(), [{"x": 3, "é, }": 0}])

    def test_arrays(self):
        D, A = self.line()
        B = self.wb.array("B", D)
        A.fill("{1..2}", 7)
        A[range(3, 5)] = 1
        B[:] = 2
        A += B
        self.assertEqual(A.to_dict(), {1: 9, 2: 9, 3: 3, 4: 3})
        A *= B
        A -= B
        self.assertEqual(list(A.to_dict().values()), [16, 16, 4, 4])
        self.assertEqual((A.sum(), A.min(), A.max()), (40, 4, 16))
        B[:] = A
        self.assertEqual(B.to_dict(), A.to_dict())
        B.assign(A)
        B.fill_all(0)
        self.assertEqual(B.sum(), 0)
        D.remap(block(range(1, 5), 2))
        self.assertEqual(A.pieces(), [{1: 16, 2: 16}, {3: 4, 4: 4}])
        self.assertEqual(A.piece(1), {3: 4, 4: 4})
        A.drop()
        with self.assertRaises(NoSuchName):
            A.to_dict()
        self.wb.undo()
        self.assertEqual(A[1], 16)
        self.assertEqual([e.cells for e in A.update({1: 2, 4: 3})], [2])
        self.assertEqual(list(A), [2, 16, 4, 3])

    def test_names(self):
        D, A = self.line()
        self.assertEqual((self.wb.kind("D"), self.wb.kind("A"), self.wb.kind("X")), ("domain", "array", None))
        self.assertEqual(self.wb["A"][1], 0)
        self.assertEqual(self.wb["D"].size, 4)
        with self.assertRaises(KeyError):
            self.wb["X"]
        self.assertTrue("A" in self.wb and "X" not in self.wb)
        self.assertEqual(self.wb.names(), ["A", "D"])
        with self.assertRaises(WrongKind):
            Array(self.wb, "D").to_dict()

    def test_changes_in_place_by_name(self):
        D, A = self.line()
        A[1] = 5
        self.wb["A"] += A
        self.assertEqual(A[1], 10)
        T = self.wb.assoc("T", "text")
        self.wb["T"] |= {"x"}
        self.assertEqual(list(T), ["x"])
        for name, wrong in (("A", 3), ("A", D), ("B", A)):
            with self.assertRaisesRegex(TypeError, "are made by"):
                self.wb[name] = wrong

    def test_objects_of_another_workbook(self):
        D, A = self.line()
        with Workbook.run(PROGRAM) as other:
            E = other.domain("D", range(1, 5))
            B = other.array("A", E)

            def plus():
                nonlocal A
                A += B

            for act in (
                plus, lambda: A.assign(B), lambda: A.copy(1, B, 1), lambda: D.reshape(E), lambda: D.slice(E),
                lambda: self.wb.array("C", E), lambda: self.wb.sparse("S", E),
            ):
                with self.assertRaisesRegex(ValueError, "of another workbook"):
                    act()
        self.assertEqual(len(self.wb.history()), 2)

    def test_what_python_tells_before_the_program_is_asked(self):
        D, A = self.line()
        for wrong, words in ((1.5, "1.5"), ("9", "'9'"), (True, "True"), (None, "None")):
            with self.assertRaises(TypeError) as no:
                A[1] = wrong
            self.assertEqual(str(no.exception), f"a value: whole numbers only: {words} isn't one")
        with self.assertRaisesRegex(TypeError, "an index: whole numbers only: 1.5 isn't one"):
            A[1.5]
        with self.assertRaises(ValueError):
            A[1] = 2**63
        with self.assertRaisesRegex(TypeError, "no slices"):
            A[1:3] = 0
        with self.assertRaisesRegex(TypeError, "no slices"):
            A[1:3]
        with self.assertRaises(ValueError):
            self.wb.array("1A", D)
        with self.assertRaises(ValueError):
            self.wb.undo(-1)
        with self.assertRaises(TypeError):
            A += 3
        for text in ('a"', "a\\b", "a\nb", "x" * 65, "\ud800"):
            with self.assertRaises(ValueError):
                A[text]
        with self.assertRaises(ValueError):
            A.fill(range(0, 2**64), 1)
        with self.assertRaises(OutOfDomain):
            A[9] = 1
        self.assertEqual(self.wb.last_edit.number, 2)

    def test_the_ends_of_64_bits(self):
        _, A = self.line()
        A[1], A[2] = 2**63 - 1, -(2**63)
        self.assertEqual((A[1], A[2]), (2**63 - 1, -(2**63)))


class Refusals(Case):
    def test_each_code_has_its_class(self):
        D, A = self.line()
        wb = self.wb
        B = wb.array("B", D)
        A[1] = 2**63 - 1
        B[1] = 1

        def plus():
            nonlocal A
            A += B

        for kind, act in [
            (BadRequest, lambda: wb.ask({"op": "dance"})),
            (BadLiteral, lambda: wb.domain("E", "{1...4}")),
            (NameTaken, lambda: wb.array("A", D)),
            (NoSuchName, lambda: wb.array("C", "X")),
            (WrongKind, lambda: A["x"]),
            (OutOfDomain, lambda: A[5]),
            (InUse, lambda: D.drop()),
            (TooLarge, lambda: D.reshape("{1..65537}")),
            (Overflow, plus),
            (NoSuchEdit, lambda: wb.undo(99)),
            (InForce, lambda: wb.redo(1)),
            (Blocked, lambda: wb.undo(1)),
            (BadMapping, lambda: D.remap("cyclicDist(1, [0])")),
            (LineTooLong, lambda: wb.ask({"op": "print", "x": "y" * 70000})),
        ]:
            with self.subTest(kind.name), self.assertRaises(kind) as no:
                act()
            self.assertIn(kind.code, str(no.exception))
            self.assertIsInstance(no.exception, Refusal)
        wb.undo(4)
        with self.assertRaises(NotInForce):
            wb.undo(4)

    def test_every_refusal_of_the_protocol_has_a_class_of_its_own(self):
        text = (HERE.parents[3] / "docs" / "PROTOCOL.md").read_text(encoding="utf-8")
        names = dict(re.findall(r"^\| (E\d\d) \| ([a-z-]+) \|", text, re.M))
        self.assertGreater(len(names), 20)
        told = {}
        for code, name in names.items():
            wb = Workbook(Told({"error": code, "name": name, "by": 1, "code": "E06"}), "me", alone=True)
            with self.assertRaises(Refusal) as no:
                wb.redo(1)
            told[code] = type(no.exception)
            self.assertEqual((told[code].code, told[code].name), (code, name))
            self.assertIn(f"{code}, {name}", str(no.exception))
            self.assertIs(getattr(workbook_client, told[code].__name__), told[code])
            self.assertIn(told[code].__name__, workbook_client.__all__)
        self.assertEqual(len(set(told.values())), len(names))
        self.assertEqual({*refusals.BY_CODE}, {*names})

    def test_blocked_says_by_whom_and_what_that_was(self):
        _, A = self.line()
        first = A.set(1, 5)
        A.copy(2, A, 1, plus=10)
        with self.assertRaises(Blocked) as no:
            first.undo()
        self.assertEqual((no.exception.by, no.exception.code, no.exception.name), (4, "E14", "blocked"))
        self.assertIn("A[2] = A[1] + 10", str(no.exception))
        self.assertIn("cascade 3", str(no.exception))

    def test_refused_in_place(self):
        _, A = self.line()
        edit = A.set(1, 5)
        edit.undo()
        self.wb.undo(2)
        with self.assertRaises(RefusedInPlace) as no:
            edit.redo()
        self.assertEqual(no.exception.code, "E16")
        self.assertIs(no.exception.because, NoSuchName)
        self.assertIn("nothing has that name", str(no.exception))

    def test_a_code_that_is_new_to_the_client(self):
        wb = Workbook(Told({"error": "E77", "name": "odd"}), "me", alone=True)
        with self.assertRaises(Refusal) as no:
            wb.undo(1)
        self.assertEqual((no.exception.code, no.exception.name), ("E77", "odd"))


class Dependents(Case):
    def chain(self):
        """4 reads 3, 5 reads 4, and 6 has nothing to do with them."""
        _, A = self.line()
        A[1] = 5
        A.copy(2, A, 1, plus=1)
        A.copy(3, A, 2, plus=1)
        A[4] = 8
        return A

    def test_dependents_leave_everything_as_it_was(self):
        A = self.chain()
        before = self.wb.print_text()
        self.assertEqual(self.wb.dependents(3), [4, 5])
        self.assertEqual(self.wb.dependents(6), [])
        self.assertEqual(self.wb.dependents(1), [2, 3, 4, 5, 6])
        self.assertEqual((self.wb.blocker(3), self.wb.blocker(6)), (4, None))
        self.assertEqual(self.wb.print_text(), before)
        self.assertTrue(all(self.wb.in_force(k) for k in range(1, 7)))

    def test_cascade(self):
        A = self.chain()
        self.assertEqual(self.wb.cascade(3), Cascade([5, 4, 3], 3))
        self.assertEqual(list(A.to_dict().values()), [0, 0, 0, 8])
        with self.assertRaises(NotInForce):
            self.wb.cascade(3)
        with self.assertRaises(NoSuchEdit):
            self.wb.cascade(9)
        self.assertEqual(self.wb.cascade(6).undone, [6])

    def test_cascade_of_everything(self):
        self.chain()
        done = self.wb.cascade(1)
        self.assertEqual((sorted(done.undone), done.cells), ([1, 2, 3, 4, 5, 6], 14))

    def test_what_is_undone_but_not_redone_is_put_back_too(self):
        """5 wrote what 4 read, so a redo of 4 is blocked after its undo."""
        D, A = self.line()
        B = self.wb.array("B", D)
        copy = A.copy(1, B, 1, plus=1)
        B[1] = 5
        before = self.wb.print_text()
        self.assertIsNone(self.wb.blocker(4))
        self.assertEqual(copy.dependents(), [])
        with self.assertRaises(ZeroDivisionError), self.wb.trying():
            copy.undo()
            1 / 0
        self.assertEqual(self.wb.print_text(), before)
        copy.undo()
        with self.assertRaises(Blocked) as no:
            copy.redo()
        self.assertEqual(no.exception.by, 5)

    def test_history(self):
        A = self.chain()
        self.wb.cascade(4)
        A += A
        told = [(e.number, e.what, e.was_in_force, e.cells) for e in self.wb.history()]
        self.assertEqual(told[3], (4, "A[2] = A[1] + 1", False, 1))
        self.assertEqual(told[6], (7, "A += A", True, 4))
        self.assertEqual([e.number for e in self.wb.history(since=6)], [6, 7])
        self.assertEqual(self.wb.history(since=8), [])


class Blocks(Case):
    def test_a_pipeline_of_more_than_pipes_hold(self):
        D = self.wb.domain("D", range(1, 20001))
        A = self.wb.array("A", D)
        with self.wb.pipeline() as p:
            for i in range(1, 20001):
                A[i] = i
            readings = [p.get(A, i) for i in range(1, 20001, 100)]
            texts = [p.ask({"op": "print"}) for _ in range(20)]  # 2 MB of replies
        self.assertEqual([r.value for r in readings], list(range(1, 20001, 100)))
        self.assertEqual(len(texts[3].value), len(self.wb.print_text()))
        self.assertEqual(A.sum(), 20000 * 20001 // 2)

    def test_in_a_pipeline_a_question_waits(self):
        _, A = self.line()
        with self.wb.pipeline():
            edit = A.set(1, 5)
            self.assertIn("on its way", repr(edit))
            self.assertEqual(A[1], 5)
            later = A.set(2, 6)
            self.assertEqual(later.number, 4)  # waits too
        self.assertEqual(edit.number, 3)

    def test_a_pipeline_raises_its_first_refusal_at_its_end(self):
        _, A = self.line()
        with self.assertRaisesRegex(OutOfDomain, r"A\[9\] = 1.*1 more of 4 changes"):
            with self.wb.pipeline() as p:
                for i in (1, 9, 2, 8):
                    A[i] = 1
        self.assertEqual(len(p.refused), 2)
        self.assertEqual(A.to_dict(), {1: 1, 2: 1, 3: 0, 4: 0})

    def test_trying_takes_everything_back(self):
        D, A = self.line()
        A[1] = 5
        before = self.wb.print_text()
        with self.assertRaisesRegex(ZeroDivisionError, "."):
            with self.wb.trying():
                D.reshape("{1..2}")
                A.copy(2, A, 1)
                self.wb.undo()
                self.wb.redo(5)
                self.wb.cascade(3)
                1 / 0
        self.assertEqual(self.wb.print_text(), before)
        self.assertEqual([e.was_in_force for e in self.wb.history()], [True, True, True, False, False])

    def test_trying_with_a_pipeline(self):
        _, A = self.line()
        with self.assertRaises(OutOfDomain):
            with self.wb.trying(), self.wb.pipeline():
                for i in range(1, 6):
                    A[i] = i
        self.assertEqual(A.sum(), 0)

    def test_trying_within_a_pipeline(self):
        """The block's refusals are known at its end, and take back what it did and nothing else."""
        _, A = self.line()
        with self.wb.pipeline() as p:
            A[1] = 5
            with self.assertRaisesRegex(OutOfDomain, r"A\[9\] = 1"), self.wb.trying():
                A[2] = 6
                A[9] = 1
            A[3] = 7
            with self.wb.trying():
                A[4] = 8
        self.assertEqual((list(A), p.refused), ([5, 0, 7, 8], []))

    def test_a_refusal_from_before_the_block_takes_nothing_back(self):
        _, A = self.line()
        with self.assertRaisesRegex(OutOfDomain, r"A\[9\] = 1"), self.wb.pipeline():
            A[9] = 1
            with self.wb.trying():
                A[2] = 6
        self.assertEqual(list(A), [0, 6, 0, 0])

    def test_a_pipeline_within_a_pipeline_is_part_of_it(self):
        _, A = self.line()
        with self.assertRaises(OutOfDomain), self.wb.pipeline() as p:
            with self.wb.pipeline() as inner:
                A[9] = 1
            self.assertIs(inner, p)
            A[1] = 5
        self.assertEqual(A[1], 5)

    def test_trying_within_trying(self):
        _, A = self.line()
        A[1] = 5
        with self.assertRaises(KeyError), self.wb.trying():
            A[2] = 6
            with self.assertRaises(ZeroDivisionError), self.wb.trying():
                self.wb.undo(3)
                1 / 0
            self.assertEqual(list(A), [5, 6, 0, 0])
            self.wb.undo(3)
            raise KeyError
        self.assertEqual(list(A), [5, 0, 0, 0])
        self.assertEqual([e.was_in_force for e in self.wb.history()], [True, True, True, False])

    def test_trying_keeps_what_went_well(self):
        _, A = self.line()
        with self.wb.trying():
            A[1] = 5
        self.assertEqual(A[1], 5)


class Texts(Case):
    def everything(self):
        wb = self.wb
        M = wb.domain("M", (range(1, 4), range(2, 9, 3)), map="cyclicDist((1, 1), [2, 2])")
        S = wb.sparse("S", M)
        S.reshape({(1, 2), (3, 8)})
        B = wb.array("B", S)
        B.irv = -7
        B[1, 2] = 4
        wb.assoc("E", "int")
        T = wb.assoc("T", "text")
        T |= {"", "a, b", "]"}
        P = wb.array("P", T)
        P["]"] = 2
        wb.domain("Z", "{1..0}")
        wb.array("Y", "Z")
        wb.array("A", M).fill_all(3)

    def test_a_rebuilt_workbook_has_the_same_text(self):
        self.everything()
        text = self.wb.print_text()
        with Workbook.run(PROGRAM) as other:
            other.load(text)
            self.assertEqual(other.print_text(), text)

    def test_a_snapshot(self):
        self.everything()
        shot = self.wb.snapshot()
        self.assertEqual(shot.names(), ["A", "B", "E", "M", "P", "S", "T", "Y", "Z"])
        self.assertEqual(shot.domains["M"].ranges, (range(1, 4), range(2, 9, 3)))
        self.assertEqual(shot.array("B"), {(1, 2): 4, (3, 8): 0})
        self.assertEqual(shot.array("P"), {"": 0, "]": 2, "a, b": 0})
        self.assertEqual(shot.array("Y"), {})
        self.assertEqual(shot.arrays["B"].irv, -7)

    def test_what_is_no_text(self):
        for text in ("", "chapel-workbook 1\n", "chapel-workbook 1\nround D\nend\n", "chapel-workbook 1\nrect D\nend\n"):
            with self.assertRaises(ValueError):
                Snapshot.read(text)

    def test_a_load_is_one_edit(self):
        self.everything()
        text = self.wb.print_text()
        with self.assertRaises(NotEmpty):
            self.wb.load(text)
        with Workbook.run(PROGRAM) as other:
            (edit,) = other.load(text)
            self.assertEqual((edit.number, edit.what, other.print_text()), (1, "load a text", text))
            with self.assertRaises(BadLiteral):
                other.ask({"op": "load", "text": text + "\n"})
            edit.undo()
            self.assertEqual(other.print_text(), "chapel-workbook 1\nend\n")
            edit.redo()
            self.assertEqual(other.print_text(), text)

    def test_a_long_text_wants_an_empty_workbook_too(self):
        self.wb.domain("D", range(1, 5))
        text = f"chapel-workbook 1\narray A over D [{', '.join(['1000000000'] * 20000)}]\nrect D {{1..20000}} none\nend\n"
        with self.assertRaises(NotEmpty):
            self.wb.load(text)

    def test_a_long_text_is_loaded_by_few_edits(self):
        numbers = ", ".join(str(10**6 + i) for i in range(10000))
        text = f"chapel-workbook 1\narray A over D [{numbers}]\narray B over D [{', '.join(['0'] * 10000)}]\nrect D {{1..100, 1..100}} none\nend\n"
        edits = self.wb.load(text)
        parts = [[part.partition(" = ")[0] for part in edit.parts] for edit in edits]
        self.assertEqual(parts, [["D", "A over D", "A[1..50, 1..100]"], ["A[51..100, 1..100]", "B over D"]])
        self.assertEqual(self.wb.print_text(), text)

    def test_the_text_of_a_history(self):
        self.everything()
        self.wb.undo()
        past = hearing.read(self.wb.history_text())
        self.assertEqual(past.snapshot.text, self.wb.print_text())
        self.assertEqual([on for on, _ in past.edits.values()].count(False), 1)
        self.assertEqual([requests.in_words(r) for _, r in past.edits.values()][2:6],
                         ["S = {(1, 2), (3, 8)}", "B over S", "B.irv = -7", "B[1, 2] = 4"])
        for text in ("", "chapel-workbook 1\nend\n", "chapel-workbook 2\nhistory 1\n+ {}\n"):
            with self.assertRaises(ValueError):
                hearing.read(text)

    def test_going_on_from_a_history(self):
        self.everything()
        edit = self.wb.undo()
        text = self.wb.history_text()
        with Workbook.run(PROGRAM, resume=text) as other:
            self.assertEqual((other.print_text(), other.history_text()), (self.wb.print_text(), text))
            told = [(e.number, e.what, e.who, e.was_in_force) for e in other.history()]
            self.assertEqual(told, [(e.number, e.what, "before", e.was_in_force) for e in self.wb.history()])
            other.redo(edit.number)
            other.domain("X", range(1, 3))
            self.assertEqual(other.last_edit.number, len(told) + 1)
        damaged = text.replace("+ {", "- {", 1)
        for wrong, kind in ((damaged, NotResumed), (self.wb.print_text(), ValueError)):
            with self.assertRaises(kind):
                Workbook.run(PROGRAM, resume=wrong)

    def test_a_large_set_is_rebuilt_in_parts(self):
        N = self.wb.assoc("N", "int")
        with self.wb.pipeline():
            for i in range(8000):
                N.add(10**12 + i)
        text = self.wb.print_text()
        with Workbook.run(PROGRAM) as other:
            other.load(text)
            self.assertEqual(other.print_text(), text)


class Replies(unittest.TestCase):
    """What is sent, and what is made of each reply, also of those that seldom come."""

    def book(self, *replies):
        channel = Told(*replies)
        return channel, Workbook(channel, "me", alone=True)

    def test_cascade(self):
        channel, wb = self.book({"n": 3, "undone": [5, 4, 3]}, {"n": 1, "undone": [5]})
        self.assertEqual(wb.cascade(3), Cascade([5, 4, 3], 3))
        self.assertEqual(channel.sent, [{"op": "cascade", "k": 3}])
        self.assertFalse(wb.cascade(3).whole)

    def test_reduce(self):
        channel, wb = self.book({"value": 9}, {"error": "E18", "name": "empty"}, {"error": "E10", "name": "overflow"})
        A = Array(wb, "A")
        self.assertEqual(A.max(), 9)
        with self.assertRaises(Empty):
            A.min()
        with self.assertRaises(Overflow):
            A.sum()
        self.assertEqual([r["how"] for r in channel.sent], ["max", "min", "+"])

    def test_load(self):
        channel, wb = self.book({"edit": 1, "n": 10})
        (edit,) = wb.load("chapel-workbook 1\nend\n")
        self.assertEqual((edit.number, edit.cells), (1, 10))
        self.assertEqual(channel.sent, [{"op": "load", "text": "chapel-workbook 1\nend\n"}])

    def test_dependents(self):
        channel, wb = self.book({"dependents": [5, 4, 3]}, {"dependents": [3]}, {"error": "E12", "name": "not-in-force"})
        self.assertEqual((wb.dependents(3), wb.blocker(3)), ([4, 5], None))
        with self.assertRaises(NotInForce):
            wb.dependents(3)
        self.assertEqual(channel.sent, [{"op": "dependents", "k": 3}] * 3)

    def test_history_from(self):
        line = '{"a":"A","i":4,"op":"set","v":9}'
        channel = Told({"edits": 19, "text": f"+ {line}\n- {line}\n"}, {"edits": 19, "text": ""}, {"text": ""})
        wb = Workbook(channel, "me", alone=False)
        told = [(e.number, e.what, e.who, e.was_in_force) for e in wb.history(since=18)]
        self.assertEqual(told, [(18, "A[4] = 9", "another", True), (19, "A[4] = 9", "another", False)])
        self.assertEqual(wb.history(since=20), [])
        with self.assertRaises(StrangeReply):
            wb.history(since=2)
        self.assertEqual(channel.sent, [{"op": "history", "from": k} for k in (18, 20, 2)])
        for k in (-1, 1.5, True):
            with self.assertRaises((TypeError, ValueError)):
                requests.history_from(k)

    def test_counts(self):
        channel, wb = self.book({"edits": 3, "writes": 2**64})
        self.assertEqual(wb.counts(), (3, 2**64))
        self.assertEqual(channel.sent, [{"op": "edits"}])
        with Workbook.run(PROGRAM) as wb:
            self.assertEqual(wb.counts(), (0, 0))
            wb.array("A", wb.domain("D", range(1, 5)))[4] = 9
            self.assertEqual(wb.counts(), (3, 11))
            wb.undo()
            self.assertEqual(wb.counts(), (3, 12))

    def test_explain(self):
        wrong = {"error": "E01", "field": "v", "name": "bad-request", "rule": "an integer"}
        channel, wb = self.book({"wrong": wrong}, {"wrong": None})
        self.assertEqual(wb.explain({"op": "irv", "a": "A", "v": 0.5}), wrong)
        self.assertIsNone(wb.explain("{}"))
        self.assertEqual(channel.sent, [{"op": "explain", "line": line} for line in ('{"op":"irv","a":"A","v":0.5}', "{}")])
        with Workbook.run(PROGRAM) as wb:
            self.assertIsNone(wb.explain({"op": "size", "d": "D"}))
            told = wb.explain({"op": "size", "d": "D", "why": 1})
            self.assertEqual((told["error"], told["field"]), ("E01", "why"))
            self.assertEqual(wb.explain("size D")["rule"], "JSON in UTF-8")

    def test_refused_reductions(self):
        with Workbook.run(PROGRAM) as wb:
            D = wb.domain("D", range(1, 3))
            A = wb.array("A", D)
            A.fill_all(2**63 - 1)
            with self.assertRaises(Overflow):
                A.sum()
            self.assertEqual(A.max(), 2**63 - 1)
            D.reshape("{1..0}")
            self.assertEqual(A.sum(), 0)
            with self.assertRaises(Empty):
                A.min()


if __name__ == "__main__":
    unittest.main()
