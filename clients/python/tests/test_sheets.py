"""Files of spreadsheets: arrays out and in, by the library and by the session, and titles of rows and columns."""

import io
import os
import re
import sys
import tempfile
import types
import unittest
import unittest.mock
from typing import Any, List

from tests.support import HERE, PROGRAM
from workbook_client import Array, OutOfDomain, Workbook, WrongKind, sheets
from workbook_client.language import LanguageError, parse
from workbook_client.session import Session
from workbook_client.tables import Looks, elements_table, pointed

try:
    import pandas
except ImportError:
    pandas = None  # type: ignore[assignment]

HOURS = "who,Mon,Tue,Wed\nAda,8,8,0\nEmmy,4,0,-6\n"
TWICE = ",a,a\n1,5,6\n2,7,8\n"
POINT = "1,2\n3,4.5\n"
TITLED = [
    "┌──────┬─────┬─────┬─────┐",
    "│      │ Mon │ Tue │ Wed │",
    "├──────┼─────┼─────┼─────┤",
    "│  Ada │   8 │   8 │   0 │",
    "│ Emmy │   4 │   0 │  -6 │",
    "└──────┴─────┴─────┴─────┘",
]


class Sheets(unittest.TestCase):
    def setUp(self) -> None:
        self.wb = Workbook.run(PROGRAM)
        self.addCleanup(self.wb.close)
        self.table = self.wb.array("A", self.wb.domain("D", (range(1, 3), range(1, 4))))

    def texts(self, *texts: str) -> "list[list[int]]":
        """What the array has after each of these files."""
        found = []
        for text in texts:
            self.table.fill_all(0)
            self.table.from_csv(io.StringIO(text))
            found.append(list(self.table))
        return found


class Out(Sheets):
    def test_a_table(self):
        self.table.put([[5, -6, 0], [9, 9, 2**63 - 1]])
        self.assertEqual(self.table.to_csv(), ",1,2,3\n1,5,-6,0\n2,9,9,9223372036854775807\n")

    def test_other_arrays_are_lists(self):
        wb = self.wb
        row = wb.array("Row", wb.domain("E", "{2..6 by -2}"))
        row.put([7, 8, 9])
        self.assertEqual(row.to_csv(), "index,Row\n6,7\n4,8\n2,9\n")
        S = wb.sparse("S", "D")
        S.reshape({(1, 3), (2, 1)})
        self.assertEqual(wb.array("B", S).to_csv(), "index 1,index 2,B\n1,3,0\n2,1,0\n")
        T = wb.assoc("T", "text")
        T |= {"Ada, the first", " b ", ""}
        self.assertEqual(wb.array("P", T).to_csv(), 'index,P\n,0\n b ,0\n"Ada, the first",0\n')
        cube = wb.array("C", wb.domain("F", (range(1, 2), range(1, 2), range(1, 3))))
        self.assertEqual(cube.to_csv(), "index 1,index 2,index 3,C\n1,1,1,0\n1,1,2,0\n")

    def test_each_kind_comes_back(self):
        wb = self.wb
        S = wb.sparse("S", "D")
        S.reshape({(1, 3), (2, 1)})
        T = wb.assoc("T", "text")
        T |= {"Ada, the first", " b ", "", "-1", "é表"}
        N = wb.assoc("N", "int")
        N |= {-5, 7}
        cube = wb.domain("F", (range(2, 0, -1), range(1, 3), range(-4, 3, 3)))
        row = wb.domain("E", "{2..6 by -2}")
        one = wb.domain("O", range(1, 2))
        with tempfile.TemporaryDirectory() as place:
            for number, domain in enumerate(("D", S, T, N, cube, row, one)):
                array = wb.array(f"A{number}", domain)
                array.update({index: 3 * at - 4 for at, index in enumerate(array.to_dict())})
                before = array.to_dict()
                for name in ("a.csv", "a.tsv", "A.TAB"):
                    path = os.path.join(place, name)
                    text = array.to_csv(path)
                    self.assertEqual("\t" in text, name != "a.csv")
                    array.fill_all(77)
                    array.from_csv(path)
                    self.assertEqual(array.to_dict(), before)

    def test_a_table_is_one_edit(self):
        edits = self.table.from_csv(io.StringIO("5,5,5\n0,1,1\n"))
        self.assertEqual([e.what for e in edits], ["A[1..2, 1..3] = [5, 5, 5, 0, 1, 1]"])


class In(Sheets):
    def test_headings_or_none(self):
        wanted = [5, -6, 7, 8, 9, 10]
        for text in (
            "5,-6,7\n8,9,10\n", "5;-6;7\n8;9;10", "5\t-6\t7\r\n8\t9\t10\r\n", " 5 ,-6,+7\n\n8,09,10\n\n", '"5","-6","7"\n8,9,10',
            "1,2,3\n5,-6,7\n8,9,10\n", "Mon,Tue,Wed\n5,-6,7\n8,9,10\n", "Mon,1.5,\n5,-6,7\n8,9,10\n",
            "1,5,-6,7\n2,8,9,10\n", "Ada,5,-6,7\nBen,8,9,10\n",
            ",1,2,3\n1,5,-6,7\n2,8,9,10\n", "who,2021,2022,2023\nAda,5,-6,7\nBen,8,9,10\n", ",2021,2022,2023\n7,5,-6,7\n9,8,9,10\n",
        ):
            with self.subTest(text):
                self.assertEqual(self.texts(text), [wanted])

    def test_what_is_refused_changes_nothing(self):
        self.table.fill_all(3)
        edits = self.wb.counts()
        for text, why in (
            ("", "no cells"), ("\n\n", "no cells"), ("1,2,3\n4,5\n", "row 2 has 2 cells, and row 1 has 3"),
            ("1,2,3\n", "the file has 1 row and 3 columns, and the array 2 and 3"), ("1,2\n3,4\n", "2 rows and 2 columns"),
            ("1,2,3\n4,5,6\n7,8,9\n7,8,9\n", "4 rows"), ("7,8,9\n4,5,6\n7,8,9\n", "the file has 3 rows of numbers, and the array 2"),
            ("9,1,2,3\n9,4,5,6\n", "the file has 4 columns of numbers, and the array 3"),
            ("Mon,2,3\n4,5,6\n7,8,9\n", "3 rows of numbers"), ("2021,5,-6,7\nBen,8,9,10\n", "4 columns of numbers"),
            ("0,7,8,9\n1,4,5,6\n2,7,8,9\n", "the file has 3 rows of numbers"), ("7,1,2,3\n9,4,5,6\n8,7,8,9\n", "4 columns of numbers"),
            ("1,2,3\n4,1.5,6\n", "row 2, column 2: whole numbers only: '1.5' isn't one"),
            ("\n1,2,3\n\n4,1.5,6\n", "row 4, column 2: whole numbers only: '1.5'"), ("\n\n1,2,3\n4,5\n", "row 4 has 2 cells, and row 3 has 3"),
            ("1,2,3\n4,,6\n", "row 2, column 2 is empty"), ("Mon,Tue,Wed\n1,2,3\n4,5,x\n", "row 3, column 3: whole numbers only: 'x' isn't one"),
            ("a,1,2,3\nb,4,5,1e3\n", "row 2, column 4: whole numbers only: '1e3'"), ('1,2,3\n4,"1,000",6\n', "row 2, column 2: whole numbers only: '1,000'"),
            ("1,2,3\n4,5,9223372036854775808\n", "row 2, column 3: a number has 64 bits at most"), ("1,2,3\n4,5," + "9" * 5000, "64 bits"),
            ("1,2,3\n4,5,--6\n", "'--6'"), ("1,2,3\n4,5,٣\n", "'٣'"), ('1,2,"3\n4,5,6\n', "no file of rows and columns"),
            ('1,2,3\n4,5,"6"7\n', "no file of rows and columns"),
        ):
            with self.subTest(text[:40]), self.assertRaises(ValueError) as no:
                self.table.from_csv(io.StringIO(text))
            self.assertIn(why, str(no.exception))
        self.assertEqual((self.wb.counts(), list(self.table)), (edits, [3] * 6))

    def test_lists(self):
        wb = self.wb
        T = wb.assoc("T", "text")
        T |= {"Ada", "Ben", "7"}
        P = wb.array("P", T)
        self.assertEqual([e.parts for e in P.from_csv(io.StringIO("Ben,4\n7,5\n"))], [['P["Ben"] = 4', 'P["7"] = 5']])
        self.assertEqual(P.to_dict(), {"7": 5, "Ada": 0, "Ben": 4})
        P.from_csv(io.StringIO("who,hours\nAda,9\n"))
        P.from_csv(io.StringIO("hours\n1\n2\n3\n"))
        self.assertEqual(list(P), [1, 2, 3])
        P.from_csv(io.StringIO("4,5,6\n"))
        self.assertEqual(list(P), [4, 5, 6])
        row = wb.array("R", wb.domain("E", range(1, 5)))
        for text, elements in (("1\n2\n3\n4\n", [1, 2, 3, 4]), ("5,6,7,8", [5, 6, 7, 8]), ("3,9\n", [5, 6, 9, 8]), ("R\n0\n0\n0\n1\n", [0, 0, 0, 1])):
            row.from_csv(io.StringIO(text))
            self.assertEqual(list(row), elements)
        before = wb.counts()
        for array, text, why in (
            (P, "Ada,1\nAda,2\n", "row 2: the index Ada stands there twice"), (P, "1\n2\n", "2 rows and 1 column, and the array 3 elements"),
            (P, "a,b,c\nAda,1,2\n", "2 columns are wanted"), (P, "Ada,1\nBen,1.5\n", "row 2, column 2"),
            (P, "who,h\n\nBen,x\n", "row 3, column 2"), (P, "Ada,1.5\n", "row 1, column 2"),
            (P, 'A"da,1\n', "no \", \\"), (row, "1,2\n1.5,2\n", "row 2, column 1"), (row, "1\n2\n3\n4\n5\n", "5 rows"), (row, "1,2,3\n", "3 columns"),
        ):
            with self.subTest(text), self.assertRaises(ValueError) as no:
                array.from_csv(io.StringIO(text))
            self.assertIn(why, str(no.exception))
        self.assertEqual(wb.counts(), before)

    def test_all_or_none(self):
        T = self.wb.assoc("T", "text")
        T |= {"Ada"}
        P = self.wb.array("P", T)
        with self.assertRaises(OutOfDomain):
            P.from_csv(io.StringIO("Ada,4\nBen,5\n"))
        self.assertEqual(P.to_dict(), {"Ada": 0})
        with self.assertRaises(WrongKind):
            Array(self.wb, "D").from_csv(io.StringIO("1,2,3\n4,5,6\n"))

    def test_files_that_are_no_texts(self):
        with tempfile.TemporaryDirectory() as place:
            path = os.path.join(place, "sheet.csv")
            for data, why in ((b"\xff\xfe1\x00,\x00", "no text in UTF-8"), (b"PK\x03\x04\xf0", "no text in UTF-8"), (b"1,\x002\n", "")):
                with open(path, "wb") as file:
                    file.write(data)
                with self.subTest(data), self.assertRaisesRegex(ValueError, why):
                    self.table.from_csv(path)
            with open(path, "wb") as file:
                file.write(b"\xef\xbb\xbf1,2,3\n4,5,6\n")  # as spreadsheets mark UTF-8
            self.table.from_csv(path)
            self.assertEqual(list(self.table), [1, 2, 3, 4, 5, 6])
            with self.assertRaises(FileNotFoundError):
                self.table.from_csv(path + ".gone")


class NewTables(unittest.TestCase):
    def test_each(self):
        rows = [[1, 2], [3, 4]]
        for text, down, across in (
            ("1,2\n3,4\n", [], []), (",a,b\nx,1,2\ny,3,4\n", ["x", "y"], ["a", "b"]), ("who,a,b\nx,1,2\ny,3,4\n", ["x", "y"], ["a", "b"]),
            ("a,b\n1,2\n3,4\n", [], ["a", "b"]), (",2021,2022\nx,1,2\ny,3,4\n", ["x", "y"], ["2021", "2022"]),
            (",1,2\n1,1,2\n2,3,4\n", ["1", "2"], ["1", "2"]),
        ):
            with self.subTest(text):
                self.assertEqual(sheets.guessed(sheets.cells_of(text)), (rows, down, across))
        for text, table in (
            ("5\n", ([[5]], [], [])), ("a\n5\n6\n", ([[5], [6]], [], ["a"])), ("a,5,6\n", ([[5, 6]], ["a"], [])),
            ("x,5\ny,6\n", None), ("who,h\nx,5\ny,6\n", ([[5], [6]], ["x", "y"], ["h"])), (",5\n", ([[5]], [""], [])),
        ):
            with self.subTest(text):
                if table is None:
                    with self.assertRaisesRegex(ValueError, "row 1 may be headings"):
                        sheets.guessed(sheets.cells_of(text))
                else:
                    self.assertEqual(sheets.guessed(sheets.cells_of(text)), table)
        for text, why in (
            ("name,2021\nx,5\n", "row 1 may be headings"), ("1,2\n3,3.5\n", "row 2, column 2: whole numbers only: '3.5'"),
            ("a\n", "whole numbers only: 'a' isn't one"), ("1,\n2,3\n", "row 1, column 2 is empty"),
            ("1,x\n2,3\n", "row 1, column 2: whole numbers only: 'x'"), ("1,2\nx,3\n", "row 2, column 1: whole numbers only: 'x'"),
            ("a,1\nb,2\n", "may be headings"), ("a,b\n", "whole numbers only: 'b' isn't one"), ("a,b\nx,\n", "is empty"), (",\n,\n", "is empty"),
        ):
            with self.subTest(text), self.assertRaisesRegex(ValueError, why):
                sheets.guessed(sheets.cells_of(text))

    def test_a_new_array(self):
        with Workbook.run(PROGRAM) as wb:
            A = wb.from_csv("Hours", io.StringIO("who,Mon,Tue\nEmmy,8,8\nAda,4,0\n"))
            self.assertEqual(A.to_dict(), {(1, 1): 8, (1, 2): 8, (2, 1): 4, (2, 2): 0})
            self.assertEqual((wb["HoursRow"].to_dict(), wb["HoursColumn"].to_dict()), ({"Ada": 2, "Emmy": 1}, {"Mon": 1, "Tue": 2}))
            self.assertEqual(list(wb.from_csv("One", io.StringIO("5\n6\n"))), [5, 6])
            before = wb.print_text()
            for name, text in (("Hours", "1,2\n"), ("Bad", "1,x\n"), ("9", "1\n"), ("x" * 30, "1\n")):
                with self.subTest(name), self.assertRaises(Exception):
                    wb.from_csv(name, io.StringIO(text))
            self.assertEqual(wb.print_text(), before)


    def test_many_elements(self):
        """More than a page of the browser has: 83 rows, 50 columns, with titles."""
        rows = [[(7 * i * j) % 1001 - 500 for j in range(50)] for i in range(83)]
        text = "\n".join([",".join(["", *(f"day {j}" for j in range(50))]), *(",".join([f"Ada {i}", *map(str, row)]) for i, row in enumerate(rows))])
        with Workbook.run(PROGRAM) as wb, tempfile.TemporaryDirectory() as place:
            A = wb.from_csv("Hours", io.StringIO(text))
            self.assertEqual(list(A), [value for row in rows for value in row])
            session = Session(wb, io.StringIO(), width=200)
            path = os.path.join(place, "hours.csv")
            session.line(f"export Hours {path}")
            with open(path, encoding="utf-8") as file:
                self.assertEqual(file.read(), text + "\n")
            edits = wb.counts()
            with self.assertRaisesRegex(ValueError, "row 84, column 51: whole numbers only: 'x' isn't one"):
                A.from_csv(io.StringIO(text[: text.rindex(",")] + ",x\n"))
            self.assertEqual(wb.counts(), edits)


class Frame:
    """What is used of a DataFrame of pandas'."""

    class Listed(List[Any]):
        def tolist(self) -> List[Any]:
            return list(self)

    def __init__(self, values: List[List[Any]], index: List[Any], columns: List[Any]):
        self.values, self.index, self.columns = map(self.Listed, (values, index, columns))

    def astype(self, _kind: type) -> "Frame":
        return self


class Frames(unittest.TestCase):
    def make(self, values: List[List[Any]], index: List[Any], columns: List[Any]) -> Any:
        return pandas.DataFrame(values, index=index, columns=columns) if pandas else Frame(values, index, columns)

    def test_in(self):
        with Workbook.run(PROGRAM) as wb:
            A = wb.from_dataframe("Hours", self.make([[8, 8, 0], [4, 0, -6]], ["Ada", "Emmy"], ["Mon", "Tue", "Wed"]))
            self.assertEqual((list(A), wb["HoursRow"].to_dict()), ([8, 8, 0, 4, 0, -6], {"Ada": 1, "Emmy": 2}))
            wb.from_dataframe("B", self.make([[1, 2], [3, 4]], [0, 1], [0, 1]))
            self.assertEqual((list(wb["B"]), "BRow" in wb), ([1, 2, 3, 4], False))
            before = wb.print_text()
            for values, columns, why in (
                ([[1, 2], [3, 4.5]], ["a", "b"], "the element in row .*, column b: whole numbers only: 4.5 isn't one"), ([[], []], [], "no elements"),
                ([[1, 2], [3, None]], ["a", "b"], "column b: whole numbers only: .* isn't one"),
            ):
                with self.subTest(why), self.assertRaisesRegex((TypeError, ValueError), why):
                    wb.from_dataframe("C", self.make(values, [0, 1], columns))
            self.assertEqual(wb.print_text(), before)

    def test_titles_come_out_again(self):
        with Workbook.run(PROGRAM) as wb, unittest.mock.patch.dict(sys.modules, {"pandas": types.SimpleNamespace(DataFrame=Frame)}):
            A = wb.from_dataframe("Hours", Frame([[8, 8, 0], [4, 0, -6]], ["Ada", "Emmy"], ["Mon", "Tue", "Wed"]))
            frame = A.to_dataframe()
            self.assertEqual((frame.values, frame.index, frame.columns), ([[8, 8, 0], [4, 0, -6]], ["Ada", "Emmy"], ["Mon", "Tue", "Wed"]))
            self.assertEqual(A.to_csv(), ",Mon,Tue,Wed\nAda,8,8,0\nEmmy,4,0,-6\n")
            wb["HoursRow"].set("Ada", 7)
            A.label("columns")
            self.assertEqual(A.to_csv(), ",1,2,3\n1,8,8,0\nEmmy,4,0,-6\n")

    @unittest.skipUnless(pandas, "pandas isn't there")
    def test_out(self):
        with Workbook.run(PROGRAM) as wb:
            M = wb.array("M", wb.domain("D", (range(1, 3), range(0, 6, 2))))
            M.put([[1, 2, 3], [4, 5, 6]])
            frame = M.to_dataframe()
            self.assertEqual((frame.values.tolist(), list(frame.index), list(frame.columns)), ([[1, 2, 3], [4, 5, 6]], [1, 2], [0, 2, 4]))
            T = wb.assoc("T", "text")
            T |= {"b", "a"}
            frame = wb.array("P", T).to_dataframe()
            self.assertEqual((frame["P"].tolist(), list(frame.index)), ([0, 0], ["a", "b"]))


class BySession(unittest.TestCase):
    def setUp(self) -> None:
        self.wb = Workbook.run(PROGRAM)
        self.addCleanup(self.wb.close)
        place = tempfile.TemporaryDirectory()
        self.addCleanup(place.cleanup)
        self.place = place.name
        self.session = Session(self.wb, io.StringIO(), width=200)

    def say(self, *lines: str) -> str:
        """What the last of these lines gives."""
        for line in lines:
            self.session.out = io.StringIO()
            self.session.line(line)
        return str(getattr(self.session.out, "getvalue")())

    def file(self, text: str, name: str = "my plan.csv") -> str:
        path = os.path.join(self.place, name)
        with open(path, "w", encoding="utf-8", newline="") as file:
            file.write(text)
        return path

    def test_a_new_table_has_its_titles(self):
        told = self.say(f"import Hours {self.file(HOURS)}")
        self.assertIn("Hours is new, and has the numbers of the file, by edit 1", told)
        self.assertEqual(self.say("Hours").splitlines(), ["Hours over HoursDomain", *TITLED])
        self.assertEqual(self.say("show Hours / 10").splitlines()[0], "Hours over HoursDomain, shown / 10")
        self.assertIn("│ Emmy │ 0.4 │ 0.0 │ -0.6 │", self.say("show Hours / 10"))
        self.assertIn("│ Emmy │  -6 │", self.say("show Hours[2, 3]"))
        path = os.path.join(self.place, "out.csv")
        self.assertEqual(self.say(f"export Hours {path}"), f"  {path}: 6 elements of Hours\n")
        with open(path, encoding="utf-8") as file:
            self.assertEqual(file.read(), HOURS.replace("who", ""))
        self.assertIn("Hours has the numbers of the file, by edit 2\n", self.say(f"import Hours {path}"))
        self.assertEqual([edit.note for edit in self.wb.history()], ["import my plan.csv", "import out.csv"])
        self.assertEqual(self.wb.history()[0].parts, [
            "HoursDomain = {1..2, 1..3}", "Hours over HoursDomain", "Hours[1..2, 1..3] = [8, 8, 0, 4, 0, -6]",
            "HoursRowTitles = text", 'HoursRowTitles = {"Ada", "Emmy"}', "HoursRow over HoursRowTitles", 'HoursRow["Ada"] = 1', 'HoursRow["Emmy"] = 2',
            "HoursColumnTitles = text", 'HoursColumnTitles = {"Mon", "Tue", "Wed"}', "HoursColumn over HoursColumnTitles",
            'HoursColumn["Mon"] = 1', 'HoursColumn["Tue"] = 2', 'HoursColumn["Wed"] = 3'])
        self.assertIn("1 │   8 │", self.say("label Hours rows", "Hours"))
        self.assertIn("Emmy │   4 │", self.say("label Hours rows HoursRow", "Hours"))
        self.assertIn("│ Ida │   4 │", self.say('HoursRowTitles -= "Emmy"', 'HoursRowTitles += "Ida"', 'HoursRow["Ida"] = 2', "Hours"))
        self.assertIn("│ 1 │   8 │", self.say("drop HoursRow", "Hours").replace("  1", " 1"))

    def test_another_session_has_the_titles_too(self):
        """They are found by their names: HoursRow and HoursColumn. A session that wants none says so, for itself."""
        path = os.path.join(self.place, "plan.wb")
        with Workbook.run(PROGRAM, journal=path) as kept:
            kept.from_csv("Hours", io.StringIO(HOURS))
        with Workbook.run(PROGRAM, journal=path) as kept:
            self.assertEqual(str(kept["Hours"].shown()).splitlines()[1:], TITLED)
            self.assertEqual(kept["Hours"].to_csv(), HOURS.replace("who", ""))
            kept["Hours"].label("rows")
            self.assertEqual(kept["Hours"].to_csv().splitlines()[1], HOURS.splitlines()[1].replace("Ada", "1"))
            kept["Hours"].label("rows", "HoursRow")
            self.assertEqual(str(kept["Hours"].shown()).splitlines()[1:], TITLED)
            self.assertNotIn("Ada", str(kept.array("Other", "HoursRowTitles").shown()).splitlines()[0])
            kept.array("P", kept.domain("D", (range(2), range(2), range(2))))
            kept.array("PRow", "HoursRowTitles").update({"Ada": 1})
            self.assertNotIn("Ada", str(kept["P"].shown()))  # three ranges are no rows and columns

    def test_the_lines_of_the_readme(self):
        """What the client's page shows of an import is what comes of it."""
        text = (HERE.parents[1] / "README.md").read_text(encoding="utf-8")
        wanted = re.search(r"```text\n(workbook> import .*?)```", text, re.S)[1]
        self.file(HOURS, "plan.csv")
        self.addCleanup(os.chdir, os.getcwd())
        os.chdir(self.place)
        out = io.StringIO()
        session = Session(self.wb, out, width=80)
        for line in re.findall(r"^workbook> (.*)$", wanted, re.M):
            session.say("workbook> " + line)
            session.line(line, "workbook> ")
        self.assertEqual(out.getvalue(), wanted)

    def test_headings_that_can_be_no_titles_are_told(self):
        told = self.say(f"import A {self.file(TWICE)}")
        self.assertIn("headings that can't be titles were left out: a, a", told)
        self.assertEqual(self.wb["A"].to_dict(), {(1, 1): 5, (1, 2): 6, (2, 1): 7, (2, 2): 8})
        self.assertEqual(self.wb.names(), ["A", "ADomain"])

    def test_titles_of_a_row(self):
        self.say("D = {1..3}", "A over D", "T = text", 'T |= {"x", "y"}', "B over T", 'B["x"] = 3', 'B["y"] = 1')
        self.assertIn("rows of A have titles from B: 2 of them", self.say("label A rows B"))
        self.assertEqual(self.say("A").splitlines()[2], "│ y │ 2 │ x │")
        for line, why in (
            ("label A columns B", "A has one range"), ("label A rows A", "titles come from an array over texts"), ("label B rows B", "has no rows"),
            ("label D rows B", "has no rows"), ("label A rows D", "titles come from"), ("label A rows X", "nothing is called X"),
        ):
            with self.subTest(line):
                self.assertIn(why, self.say(line))
                self.assertTrue(self.session.failed)

    def test_what_is_refused_is_told_and_changes_nothing(self):
        self.say("D = {1..2, 1..2}", "A over D")
        for line, why in (
            (f"import A {self.file(POINT)}", "row 2, column 2: whole numbers only: '4.5' isn't one"),
            (f"import New {self.file(POINT)}", "row 2, column 2: whole numbers only: '4.5' isn't one"),
            ("import A " + os.path.join(self.place, "gone"), "No such file"), (f"import A {self.place}", "Is a directory"),
            ("export A " + os.path.join(self.place, "no", "x.csv"), "No such file"), ("export D x.csv", "no array is called D; that is a domain"),
            ("export X x.csv", "no array is called X"), ("import A", "expected an array and a file's name"), ("import D " + self.file("1,2\n", "row.csv"), "E05"),
        ):
            with self.subTest(line):
                self.assertIn(why, " ".join(self.say(line).split()))
                self.assertTrue(self.session.failed)
        self.assertEqual((self.wb.counts()[0], self.wb.names()), (2, ["A", "D"]))

    def test_a_journal_is_not_written_over(self):
        path = os.path.join(self.place, "plan.wb")
        with Workbook.run(PROGRAM, journal=path) as kept:
            kept.array("A", kept.domain("D", range(1, 5)))
            with open(path, "rb") as file:
                held = file.read()
            os.symlink(path, path + ".csv")
            for word in ("save", "keep", "export A"):
                for place in (path, path + ".csv"):
                    out = io.StringIO()
                    session = Session(kept, out, width=200)
                    session.line(f"{word} {place}")
                    self.assertTrue(session.failed)
                    self.assertIn("is a journal file, in which a workbook is kept: give another name", out.getvalue())
            with self.assertRaisesRegex(ValueError, "is a journal file"):
                kept["A"].to_csv(path)
            with open(path, "rb") as file:
                self.assertEqual(file.read(), held)
        self.assertIn("journal file: `--journal` goes on from it", self.say(f"load {path}"))

    def test_words(self):
        self.say("D = {1..4}", "A over D")
        for line in ("save ./x", "import = {1..4}", "export over D", "label = {1..4}", "show over D", "save.size", "import += 3"):
            with self.subTest(line):
                parse(line, lambda name: "array" if name == "A" else "domain" if name in ("D", "save", "import") else None)
        for line, why in (
            ("A[1] = 1.5", "whole numbers only: 1.5 isn't one"), ("A[1] = -0.25", "whole numbers only: 0.25 isn't one"),
            ("A[1] = A[2] + 1.5", "1.5 isn't one"), ("A = 2.0", "2.0 isn't one"), ("A[1.5] = 2", "1.5 isn't one"),
            ("show A / 3", "expected 10, 100, 1000"), ("show A / 20", "expected 10"), ("show X", "nothing is called X"), ("show", "expected an array"),
            ("label A", "expected `rows` or `columns`"),
        ):
            with self.subTest(line), self.assertRaises(LanguageError) as no:
                parse(line, lambda name: "array" if name == "A" else None)
            self.assertIn(why, str(no.exception))


class Looks_(unittest.TestCase):
    def test_digits_behind_a_point(self):
        told = [pointed(value, 2) for value in (0, 5, -5, 99, 100, -12345, 2**63 - 1)]
        self.assertEqual(told, ["0.00", "0.05", "-0.05", "0.99", "1.00", "-123.45", "92233720368547758.07"])
        self.assertEqual((pointed(-7, 0), pointed(7, 18)), ("-7", "0.000000000000000007"))

    def test_titles(self):
        looks = Looks({1: "Ada"}, {2: "Tue"}, 1)
        table = elements_table({(1, 1): 5, (1, 2): 60, (2, 1): -7, (2, 2): 8}, 80, looks=looks)
        self.assertEqual(table.splitlines()[1], "│     │    1 │ Tue │")
        self.assertEqual(table.splitlines()[3:5], ["│ Ada │  0.5 │ 6.0 │", "│   2 │ -0.7 │ 0.8 │"])



if __name__ == "__main__":
    unittest.main()
