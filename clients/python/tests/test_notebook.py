"""What a notebook shows of arrays and workbooks."""

import unittest
from xml.etree import ElementTree

from tests.support import PROGRAM
from workbook_client import Array, Workbook


class Notebook(unittest.TestCase):
    def setUp(self) -> None:
        self.wb = Workbook.run(PROGRAM)
        self.addCleanup(self.wb.close)

    def rows(self, html: str) -> "list[list[str]]":
        """The cells of a table, row by row."""
        return [[cell.text or "" for cell in row] for row in ElementTree.fromstring(f"<all>{html}</all>").iter("tr")]

    def test_a_table(self):
        A = self.wb.array("A", self.wb.domain("D", (range(1, 3), range(2, 9, 3))))
        A.put([[5, -6, 7], [8, 9, 0]])
        html = A._repr_html_()
        self.assertIn("<caption>A over D = {1..2, 2..8 by 3}</caption>", html)
        self.assertEqual(self.rows(html), [["", "2", "5", "8"], ["1", "5", "-6", "7"], ["2", "8", "9", "0"]])

    def test_a_row_a_list_and_holes(self):
        row = self.wb.array("R", self.wb.domain("E", "{2..6 by -2}"))
        self.assertEqual(self.rows(row._repr_html_()), [["", "6", "4", "2"], ["", "0", "0", "0"]])
        S = self.wb.sparse("S", self.wb.domain("D", (range(1, 3), range(1, 4))))
        S.reshape({(1, 3), (2, 1)})
        self.assertEqual(self.rows(self.wb.array("B", S)._repr_html_()), [["", "1", "3"], ["1", "·", "0"], ["2", "0", "·"]])
        T = self.wb.assoc("T", "text")
        P = self.wb.array("P", T)
        self.assertEqual(self.rows(P._repr_html_()), [["index", "element"]])
        T |= {"a<b>&c", "\u202eevil"}
        html = P._repr_html_()
        self.assertIn("a&lt;b&gt;&amp;c", html)
        self.assertEqual(self.rows(html), [["index", "element"], ["a<b>&c", "0"], ["\ufffdevil", "0"]])

    def test_titles_and_digits_behind_a_point(self):
        A = self.wb.array("A", self.wb.domain("D", (range(1, 3), range(1, 3))))
        A.put([[150, 5], [-275, 0]])
        T = self.wb.assoc("T", "text")
        T |= {"Ada", "<b>"}
        Row = self.wb.array("Row", T)
        Row.update({"Ada": 1, "<b>": 2})
        counts = self.wb.counts()
        A.label("rows", Row)
        self.assertEqual(self.rows(A._repr_html_()), [["", "1", "2"], ["Ada", "150", "5"], ["<b>", "-275", "0"]])
        shown = A.shown(100)
        self.assertIn("<caption>A over D = {1..2, 1..2}, shown / 100</caption>", shown._repr_html_())
        self.assertEqual(self.rows(shown._repr_html_()), [["", "1", "2"], ["Ada", "1.50", "0.05"], ["<b>", "-2.75", "0.00"]])
        self.assertEqual(str(shown).splitlines()[4:6], ["│ Ada │  1.50 │ 0.05 │", "│ <b> │ -2.75 │ 0.00 │"])
        self.assertEqual(repr(shown), str(shown))
        A.label("rows")
        A.label("columns", "Row")
        self.assertEqual(self.rows(A._repr_html_())[0], ["", "Ada", "<b>"])
        B = self.wb.array("B", self.wb.domain("E", range(1, 4)))
        B.label("rows", Row)
        self.assertEqual(self.rows(B._repr_html_())[0], ["", "Ada", "<b>", "3"])
        for wrong in (lambda: A.label("row", Row), lambda: A.label("rows", A), lambda: Row.label("rows", Row), lambda: B.label("columns", Row),
                      lambda: A.shown(3), lambda: A.shown(0), lambda: A.shown(-10), lambda: A.shown(10**19), lambda: A.shown(True)):
            with self.assertRaises(ValueError):
                wrong()
        self.assertEqual(self.wb.labels, {("A", "rows"): None, ("A", "columns"): "Row", ("B", "rows"): "Row"})
        self.assertEqual((self.wb.counts()[0], list(A)), (counts[0] + 2, [150, 5, -275, 0]))  # but for E and B nothing changed

    def test_what_is_large_is_cut(self):
        A = self.wb.array("A", self.wb.domain("D", (range(100), range(100))))
        html = A._repr_html_()
        self.assertEqual((len(self.rows(html)), len(self.rows(html)[0])), (61, 31))
        self.assertIn("and 8,200 more elements", html)
        self.assertIn("and 970 more elements", self.wb.array("B", self.wb.domain("E", range(1000)))._repr_html_())

    def test_a_workbook(self):
        self.wb.array("A", self.wb.domain("D", range(1, 5)))
        self.assertEqual(self.rows(self.wb._repr_html_()), [["name", "kind", "what"], ["D", "domain", "{1..4}"], ["A", "array", "over D"]])
        self.assertIsNone(Array(self.wb, "gone")._repr_html_())


if __name__ == "__main__":
    unittest.main()
