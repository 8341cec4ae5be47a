"""Many elements at once: lists, dicts, and arrays of numpy's where numpy is there."""

import unittest

from tests.support import PROGRAM
from workbook_client import OutOfDomain, Overflow, TransactionTooLong, Workbook, WrongKind, bulk, requests

try:
    import numpy
except ImportError:
    numpy = None  # type: ignore[assignment]


class Bulk(unittest.TestCase):
    def setUp(self) -> None:
        self.wb = Workbook.run(PROGRAM)
        self.addCleanup(self.wb.close)

    def test_a_list(self):
        A = self.wb.array("A", self.wb.domain("D", range(1, 8)))
        edits = A.put([5, 5, 5, 0, 0, 3, 2**63 - 1])
        self.assertEqual([e.what for e in edits], ["A[1..7] = [5, 5, 5, 0, 0, 3, 9223372036854775807]"])
        self.assertEqual(list(A), [5, 5, 5, 0, 0, 3, 2**63 - 1])
        A[:] = [7] * 7
        self.assertEqual((self.wb.last_edit.what, list(A)), ("A = 7", [7] * 7))
        A[:] = (1, 2, 3, 4, 5, 6, 7)
        self.assertEqual(list(A), [1, 2, 3, 4, 5, 6, 7])

    def test_rows_strides_and_directions(self):
        for ranges in ((range(1, 4), range(2, 9, 3)), (range(9, 0, -4), range(10, 0, -3)), (range(2), range(2), range(-3, 4))):
            shape = [len(part) for part in ranges]
            with self.subTest(ranges), Workbook.run(PROGRAM) as wb:
                A = wb.array("A", wb.domain("D", ranges))
                numbers = iter([1, 1, 2, 3, 3, 3, 4] * 9)

                def rows(shape):
                    return [next(numbers) if len(shape) == 1 else rows(shape[1:]) for _ in range(shape[0])]

                wanted = rows(shape)
                A.put(wanted)
                flat = wanted
                for _ in shape[1:]:
                    flat = [value for part in flat for value in part]
                self.assertEqual(list(A), flat)

    def test_sparse_and_associative(self):
        D = self.wb.domain("D", range(1, 9))
        S = self.wb.sparse("S", D)
        S.reshape({2, 5, 7})
        B = self.wb.array("B", S)
        B.put([1, 1, -4])
        self.assertEqual(B.to_dict(), {2: 1, 5: 1, 7: -4})
        T = self.wb.assoc("T", "text")
        T |= {"b", "a"}
        P = self.wb.array("P", T)
        P[:] = [8, 8]
        self.assertEqual(P.to_dict(), {"a": 8, "b": 8})

    def test_a_part(self):
        """The elements go where the ranges list them; what is outside stays."""
        A = self.wb.array("A", self.wb.domain("D", range(1, 8)))
        A[range(2, 5)] = [5, 6, 6]
        self.assertEqual(list(A), [0, 5, 6, 6, 0, 0, 0])
        self.assertEqual([e.what for e in A.put([1, 1, 2], "{1..5 by -2}")], ["A[1..5 by -2] = [1, 1, 2]"])
        self.assertEqual(list(A), [2, 5, 1, 6, 1, 0, 0])
        A[range(6, 8)] = (9, 9)
        self.assertEqual((self.wb.last_edit.what, list(A)), ("A[6..7] = 9", [2, 5, 1, 6, 1, 9, 9]))
        B = self.wb.array("B", self.wb.domain("M", "{1..3, 1..4}"))
        B[range(2, 4), range(1, 3)] = [[1, 2], [3, 4]]
        self.assertEqual(list(B), [0, 0, 0, 0, 1, 2, 0, 0, 3, 4, 0, 0])
        self.assertEqual(B.put([[], []], (range(1, 3), range(0))), [])
        before = list(A)
        for wrong, on in (([1, 2], range(1, 4)), ([[1, 2]], range(1, 3)), ([1, 2.5], range(1, 3)), ([1], "{1..}"), ([1], 1)):
            with self.subTest(on), self.assertRaises((TypeError, ValueError)):
                A.put(wrong, on)
        with self.assertRaises(OutOfDomain):
            A[range(6, 9)] = [1, 2, 3]
        with self.assertRaises(WrongKind):
            B[range(1, 3)] = [1, 2]
        self.assertEqual(list(A), before)

    def test_elements_by_their_indices(self):
        """Those of a rectangle are one edit."""
        A = self.wb.array("A", self.wb.domain("D", "{1..4, 1..9 by 2}"))
        domain = self.wb.snapshot().domains["D"]
        for values, wanted in (
            ({(2, 3): 1, (2, 5): 2, (3, 3): 3, (3, 5): 4}, ["A[2..3, 3..5 by 2] = [1, 2, 3, 4]"]),
            ({(4, 5): 1, (2, 5): 2}, ["A[2..4 by 2, 5..5] = [2, 1]"]),
            ({(1, 1): 5}, ["A[1, 1] = 5"]),
            ({(1, 1): 5, (2, 3): 6}, ["A[1, 1] = 5", "A[2, 3] = 6"]),
            ({(1, 1): 5, (1, 3): 6, (1, 7): 7}, ["A[1, 1] = 5", "A[1, 3] = 6", "A[1, 7] = 7"]),
            ({(1, 1): 5, (1, 3): 5}, ["A[1..1, 1..3 by 2] = 5"]),
            ({3: 5, 4: 6}, ["A[3..4] = [5, 6]"]),
            ({"a": 5, "b": 6}, ['A["a"] = 5', 'A["b"] = 6']),
            ({1: 5, (2, 3): 6}, ["A[1] = 5", "A[2, 3] = 6"]),
            ({}, []),
        ):
            with self.subTest(values):
                made = list(bulk.at_indices("A", domain, values))
                self.assertEqual([requests.in_words(request) for request in made], wanted)
                if all(isinstance(index, tuple) for index in values):
                    with self.wb.trying():
                        for request in made:
                            self.wb.change(request)
                    self.assertEqual({index: A[index] for index in values}, values)

    def test_empty(self):
        A = self.wb.array("A", self.wb.domain("D", "{1..0}"))
        self.assertEqual(A.put([]), [])
        B = self.wb.array("B", self.wb.domain("M", "{1..3, 1..0}"))
        self.assertEqual(B.put([[], [], []]), [])

    def test_other_shapes_and_other_values(self):
        A = self.wb.array("A", self.wb.domain("D", "{1..2, 1..2}"))
        for wrong in ([1, 2], [[1, 2]], [[1, 2], [3]], [[1, 2], 3], [[[1], 2], [3, 4]], "ab", 3, None, {1: 2}):
            with self.subTest(wrong), self.assertRaises((TypeError, ValueError)):
                A.put(wrong)
        with self.assertRaises(TypeError):
            A.put([[1, 2], [3, 4.0]])
        with self.assertRaises(ValueError):
            A.put([[1, 2], [3, 2**63]])
        self.assertEqual((list(A), len(self.wb.history())), ([0] * 4, 2))

    def test_all_or_none(self):
        D = self.wb.domain("D", range(1, 4))
        A = self.wb.array("A", D)
        with self.assertRaises(OutOfDomain):
            A.update({1: 5, 9: 6, 2: 7})
        self.assertEqual(list(A), [0, 0, 0])
        self.assertEqual([(e.number, e.cells) for e in A.update({1: 2, 3: 3})], [(3, 2)])
        with self.assertRaises(Overflow), self.wb.trying():
            A.put([2**63 - 1, 1, 1])
            A += A
        self.assertEqual(list(A), [2, 0, 3])

    def test_as_many_as_there_may_be(self):
        A = self.wb.array("A", self.wb.domain("D", "{1..256, 1..256}"))
        values = [[(row * column) % 7 for column in range(256)] for row in range(256)]
        with self.assertRaisesRegex(TransactionTooLong, r"4 edits, from A\[1..64, 1..256\] = .* 131,314 bytes, and 65,536 are most"):
            A.put(values)
        with self.assertRaises(TransactionTooLong) as no:
            A[:] = values
        self.assertEqual(len(self.wb.history()), 2)
        edits = A.put(values, parts=True)
        self.assertEqual([edit.cells for edit in edits], [16384] * 4)
        self.assertEqual(list(A), [value for row in values for value in row])
        A[:] = 0
        for part in no.exception.parts():
            self.wb.transact(part)
        self.assertEqual((list(A), self.wb.last_edit.number), ([value for row in values for value in row], 11))

    def test_what_a_line_just_holds(self):
        """Two puts that together fit into a line are one transaction."""
        A = self.wb.array("A", self.wb.domain("D", range(1, 32_401)))
        edits = A.put([at % 8 for at in range(32_400)])  # 64,800 bytes of numbers: more than one put has
        self.assertEqual([(edit.number, edit.cells, edit.parts) for edit in edits], [(3, 32_400, [
            "A[1..16200] = [0, 1, 2, 3, 4, 5, 6, 7, ...]", "A[16201..32400] = [0, 1, 2, 3, 4, 5, 6, 7, ...]"])])
        self.assertEqual((A[16_200], A[16_201], A[32_400]), (16_199 % 8, 16_200 % 8, 32_399 % 8))

    def test_many_single_ones(self):
        """Over texts each number is an edit in one transaction; more than a line holds go in parts, all or none."""
        names = [f"n{at:04}" for at in range(1700)]
        T = self.wb.assoc("T", "text")
        T |= set(names[:1500])
        P = self.wb.array("P", T)
        P[:] = list(range(1500))
        self.assertEqual((self.wb.last_edit.number, self.wb.last_edit.cells), (4, 1500))
        self.assertEqual(list(P), list(range(1500)))
        nines = {name: 9 for name in names}
        with self.assertRaises(TransactionTooLong) as no:
            P.update(nines)
        self.assertEqual((len(no.exception.edits), no.exception.edits[-1]), (1700, {"op": "set", "a": "P", "i": "n1699", "v": 9}))
        with self.assertRaises(OutOfDomain) as gone:
            P.update(nines, parts=True)
        self.assertEqual(gone.exception.request["i"], "n1500")
        self.assertEqual(list(P), list(range(1500)))
        T |= set(names[1500:])
        edits = P.update(nines, parts=True)
        self.assertEqual((len(edits), sum(edit.cells for edit in edits), P.sum()), (2, 1700, 15_300))

    def test_a_table_of_pandas(self):
        class Frame:
            """What is used of a DataFrame of pandas'."""

            shape = (2, 2)

            def __init__(self, rows):
                self.rows = rows

            def to_numpy(self, dtype=None):
                return self.rows

        A = self.wb.array("A", self.wb.domain("D", "{1..2, 1..2}"))
        A[:] = Frame([[1, 2], [3, 4]])
        self.assertEqual((list(A), self.wb.last_edit.what), ([1, 2, 3, 4], "A[1..2, 1..2] = [1, 2, 3, 4]"))
        with self.assertRaises(TypeError):
            A[:] = Frame([[1, 2], [3, 4.5]])
        with self.assertRaises(ValueError):
            A[:] = Frame([[1, 2, 3], [3, 4, 5]])
        self.assertEqual(list(A), [1, 2, 3, 4])

    @unittest.skipUnless(numpy, "numpy isn't there")
    def test_numpy(self):
        M = self.wb.domain("M", "{1..2, 1..3}")
        A = self.wb.array("A", M)
        A[:] = numpy.arange(6).reshape(2, 3)
        self.assertEqual(A.to_numpy().tolist(), [[0, 1, 2], [3, 4, 5]])
        A[2, 3] = numpy.int64(-6)
        A[:] = A.to_numpy() * 2
        self.assertEqual(list(A), [0, 2, 4, 6, 8, -12])
        A[:] = numpy.int32(4)
        self.assertEqual((list(A), self.wb.last_edit.what), ([4] * 6, "A = 4"))
        A.put(numpy.array([[1, 2, 3], [4, 5, 6]], dtype=numpy.uint8).T.T[::-1])
        self.assertEqual(list(A), [4, 5, 6, 1, 2, 3])
        for wrong in (
            numpy.zeros((2, 3)), numpy.zeros((3, 2), dtype=int), numpy.zeros((2, 3), dtype=bool),
            numpy.full((2, 3), 2**63, dtype=numpy.uint64), numpy.array(5),
        ):
            with self.subTest(wrong), self.assertRaises((TypeError, ValueError)):
                A.put(wrong)
        self.assertEqual(list(A), [4, 5, 6, 1, 2, 3])

    @unittest.skipUnless(numpy, "numpy isn't there")
    def test_a_part_from_numpy(self):
        A = self.wb.array("A", self.wb.domain("M", "{1..3, 1..3}"))
        A[range(1, 3), range(2, 4)] = numpy.array([[1, 2], [3, 4]])
        self.assertEqual(A.to_numpy().tolist(), [[0, 1, 2], [0, 3, 4], [0, 0, 0]])
        A[range(1, 4), range(1, 2)] = A.to_numpy()[:, 2:]
        self.assertEqual(A.to_numpy()[:, 0].tolist(), [2, 4, 0])
        with self.assertRaises(ValueError):
            A[range(1, 3), range(2, 4)] = numpy.array([1, 2])
        for wrong in (numpy.array([1, 2, 3]), numpy.int64(3)):  # in place an array takes an array of the workbook
            with self.subTest(wrong), self.assertRaises(TypeError):
                A += wrong
        self.assertEqual(list(A), [2, 1, 2, 4, 3, 4, 0, 0, 0])

    @unittest.skipUnless(numpy, "numpy isn't there")
    def test_numpy_over_any_domain(self):
        T = self.wb.assoc("T", "int")
        T |= {3, 1}
        P = self.wb.array("P", T)
        P.put(numpy.array([7, 9]))
        self.assertEqual(P.to_numpy().tolist(), [7, 9])
        Z = self.wb.array("Z", self.wb.domain("E", "{1..3, 1..0}"))
        Z.put(Z.to_numpy())
        self.assertEqual(Z.to_numpy().shape, (3, 0))


if __name__ == "__main__":
    unittest.main()
