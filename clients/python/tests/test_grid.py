"""The page as a grid, in a real browser: keys, the mouse, copying, pasting and filling."""

import csv
import io
import json
import os
import tempfile
import unittest
from typing import Any

from tests.browser import CTRL, SHIFT, Browser, InABrowser
from tests.support import PROGRAM
from workbook_client import Workbook

CHOSEN = "[...document.querySelectorAll('.value.chosen')].map(x => x.dataset.key).join(' ')"
HERE = "document.activeElement.dataset.key"
COPIED = "navigator.clipboard.readText()"


def cell(key: str) -> str:
    return f".value[data-key='{key}']"


class Grid(InABrowser):
    def grid(self, *shape: range) -> Browser:
        """The page of an array A of this shape, 3 rows and 4 columns unless something else is told."""
        book = Workbook.run(PROGRAM)
        book.array("A", book.domain("D", shape or (range(1, 4), range(1, 5))))
        browser = self.open(book)
        browser.do("Browser.grantPermissions", permissions=["clipboardReadWrite", "clipboardSanitizedWrite"])
        browser.until("document.querySelector('.value') !== null")
        return browser

    def edits(self, browser: Browser) -> "list[str]":
        """What the edits after the first two did, as the page lists them."""
        return browser.js("[...document.querySelectorAll('.edits li .what')].map(x => x.innerText)")[-3::-1]

    def sets(self, values: Any) -> None:
        """Elements of A are set, and not by the page's keys."""
        with self.held() as book:
            book["A"][:] = values

    def has(self, name: str, *values: int) -> None:
        """An array has these elements."""
        with self.held() as book:
            self.assertEqual(list(book[name]), list(values))

    def pastes(self, browser: Browser, text: str) -> None:
        """Pastes a text that was copied elsewhere."""
        browser.js(f"navigator.clipboard.writeText({json.dumps(text)})")
        browser.key("v", CTRL)

    # --- keys

    def test_arrow_keys_move_and_stop_at_the_edge(self):
        browser = self.grid()
        browser.click(cell("A[1, 1]"))
        for key, where in (("ArrowRight", "A[1, 2]"), ("ArrowDown", "A[2, 2]"), ("ArrowLeft", "A[2, 1]"), ("ArrowLeft", "A[2, 1]"),
                           ("ArrowUp", "A[1, 1]"), ("ArrowUp", "A[1, 1]")):
            browser.key(key)
            self.assertEqual((browser.js(HERE), browser.js(CHOSEN)), (where, where))
        browser.key("ArrowRight", CTRL)
        self.assertEqual(browser.js(HERE), "A[1, 4]")
        self.assertEqual(browser.faults, [])

    def test_typing_begins_an_edit_and_enter_and_tab_move_on(self):
        browser = self.grid()
        browser.click(cell("A[1, 1]"))
        browser.keys("12")
        browser.key("Tab")
        self.assertEqual(browser.js(HERE), "A[1, 2]")
        browser.keys("-3")
        browser.key("Enter")
        self.assertEqual(browser.js(HERE), "A[2, 2]")
        browser.keys("7")
        browser.key("Tab", SHIFT)
        self.assertEqual(browser.js(HERE), "A[2, 1]")
        browser.key("Tab")
        browser.key("Tab")
        browser.keys("=A[1, 1] + 1")  # a copy, which reads
        browser.key("Enter", SHIFT)
        self.assertEqual(browser.js(HERE), "A[1, 3]")
        self.shows(browser, "A[2, 3]", 13)
        self.assertEqual(self.edits(browser), ["A[1, 1] = 12", "A[1, 2] = -3", "A[2, 2] = 7", "A[2, 3] = A[1, 1] + 1"])
        self.assertEqual(browser.faults, [])

    def test_enter_begins_with_what_is_there_and_escape_leaves_it(self):
        browser = self.grid()
        browser.click(cell("A[1, 1]"))
        browser.keys("12")
        browser.key("Enter")
        self.shows(browser, "A[1, 1]", 12)
        browser.key("ArrowUp")
        browser.key("Enter")
        self.assertEqual(browser.js("document.activeElement.value"), "12")
        browser.key("Escape")
        self.assertEqual(browser.js(HERE), "A[1, 1]")
        browser.keys("99")
        browser.key("Escape")
        self.shows(browser, "A[1, 1]", 12)
        browser.click(cell("A[1, 1]"))  # a click on the cell that is chosen types in it
        self.assertEqual(browser.js("document.activeElement.value"), "12")
        browser.key("Enter")  # nothing else was typed, so nothing is sent
        browser.keys("1.5")
        browser.key("Enter")
        self.says(browser, "whole numbers only: 1.5 isn't one")
        self.assertEqual(self.edits(browser), ["A[1, 1] = 12"])
        self.assertEqual(browser.faults, [])

    def test_titles_and_digits_behind_a_point(self):
        browser = self.grid(range(1, 3), range(1, 4))
        with self.held() as book:
            T = book.assoc("T", "text")
            T |= {"Ada", "constructor"}
            Row = book.array("Row", T)
            Row.update({"Ada": 1, "constructor": 2})
            book["A"].put([[150, 5, 0], [-275, 0, 0]])
        self.line(browser, "label A rows Row", "show A / 100")
        shown = "document.querySelector(\".value[data-key='{}']\").innerText"
        browser.until(shown.format("A[1, 1]") + " === '1.50'")
        self.assertEqual([browser.js(shown.format(key)) for key in ("A[1, 2]", "A[1, 3]", "A[2, 1]")], ["0.05", "0.00", "-2.75"])
        heads = "[...document.querySelectorAll('table[aria-label=A] th')].map(x => x.innerText)"
        self.assertEqual(browser.js(heads), ["", "1", "2", "3", "Ada", "constructor"])
        self.assertIn("shown / 100", browser.js("document.querySelector('h3').innerText"))
        self.assertEqual(browser.js("[...document.querySelectorAll('[aria-label=Row] .at')].map(x => x.innerText)"), ["Ada", "constructor"])
        browser.drag(cell("A[1, 1]"), cell("A[2, 1]"))
        self.assertIn("sum -1.25", browser.js("document.getElementById('picked').innerText"))
        browser.key("c", CTRL)
        self.assertEqual(browser.js(COPIED), "150\n-275")
        browser.click(cell("A[1, 3]"))
        browser.keys("1.5")
        browser.key("Enter")
        self.says(browser, "whole numbers only: 1.5 isn't one; here 150 is shown as 1.50")
        browser.click(cell("A[1, 3]"))
        browser.keys("150")
        browser.key("Enter")
        browser.until("document.querySelector(\".value[data-key='A[1, 3]']\").dataset.value === '150'")
        browser.until(shown.format("A[1, 3]") + " === '1.50'")
        browser.click(cell("A[1, 3]"))
        browser.key("Enter")  # what is typed is the whole number
        self.assertEqual(browser.js("document.activeElement.value"), "150")
        browser.key("Escape")
        self.line(browser, "show A / 1", "label A rows")
        self.shows(browser, "A[1, 3]", 150)
        browser.until(heads + ".join() === ',1,2,3,1,2'")
        self.assertEqual(browser.faults, [])

    def test_undo_and_redo_by_keys(self):
        browser = self.grid()
        browser.click(cell("A[1, 1]"))
        for text in "567":
            browser.keys(text)
            browser.key("Tab")
        self.shows(browser, "A[1, 3]", 7)
        browser.key("z", CTRL)
        browser.key("z", CTRL)
        self.shows(browser, "A[1, 3]", 0)
        self.shows(browser, "A[1, 2]", 0)
        browser.key("y", CTRL)
        self.shows(browser, "A[1, 2]", 6)
        browser.key("z", CTRL | SHIFT)
        self.shows(browser, "A[1, 3]", 7)
        browser.key("y", CTRL)
        self.says(browser, "nothing of yours was taken back here")
        self.assertEqual(browser.js(HERE), "A[1, 4]")  # the grid keeps the focus
        self.assertEqual(browser.faults, [])

    def test_holes_are_passed_over(self):
        book = Workbook.run(PROGRAM)
        book.domain("D", (range(1, 4), range(1, 5)))
        book.sparse("S", "D")
        for at in ((1, 1), (1, 4), (3, 1)):
            book["S"].add(at)
        book.array("A", "S")
        browser = self.open(book)
        browser.click(cell("A[1, 1]"))
        browser.key("ArrowRight")
        self.assertEqual(browser.js(HERE), "A[1, 4]")
        browser.key("ArrowLeft")
        browser.key("ArrowDown")
        self.assertEqual(browser.js(HERE), "A[3, 1]")
        browser.key("ArrowDown")
        self.assertEqual(browser.js(HERE), "A[3, 1]")
        self.assertEqual(browser.faults, [])

    def test_a_row_goes_on_below(self):
        browser = self.grid(range(1, 41))
        browser.click(cell("A[1]"))
        browser.key("ArrowDown")
        below = int(browser.js(HERE)[2:-1])
        self.assertGreater(below, 5)
        browser.key("ArrowUp")
        self.assertEqual(browser.js(HERE), "A[1]")
        browser.keys("5")
        browser.key("Enter")  # to the next
        browser.keys("6")
        browser.key("Enter")
        self.shows(browser, "A[2]", 6)
        self.assertEqual(browser.js(HERE), "A[3]")
        self.assertEqual(browser.faults, [])

    # --- a rectangle of cells

    def test_choosing_by_shift_and_by_the_mouse(self):
        browser = self.grid()
        self.sets(9223372036854775807)
        self.shows(browser, "A[3, 4]", 9223372036854775807)
        browser.click(cell("A[2, 2]"))
        browser.key("ArrowRight", SHIFT)
        browser.key("ArrowDown", SHIFT)
        self.assertEqual(browser.js(CHOSEN), "A[2, 2] A[2, 3] A[3, 2] A[3, 3]")
        self.assertIn("A[2..3, 2..3] · 4 cells · sum 36893488147419103228", browser.text("#picked"))
        browser.key("ArrowLeft", SHIFT)
        browser.key("ArrowLeft", SHIFT)
        self.assertEqual(browser.js(CHOSEN), "A[2, 1] A[2, 2] A[3, 1] A[3, 2]")
        browser.click(cell("A[1, 4]"), SHIFT)
        self.assertEqual(browser.js(CHOSEN), "A[1, 2] A[1, 3] A[1, 4] A[2, 2] A[2, 3] A[2, 4]")
        browser.drag(cell("A[3, 2]"), cell("A[2, 1]"))
        self.assertEqual(browser.js(CHOSEN), "A[2, 1] A[2, 2] A[3, 1] A[3, 2]")
        self.assertEqual(browser.js(HERE), "A[3, 2]")
        browser.key("Escape")
        self.assertEqual(browser.js(CHOSEN), "A[3, 2]")
        browser.key("a", CTRL)
        self.assertEqual(len(browser.js(CHOSEN).split("] ")), 12)
        self.assertEqual(browser.faults, [])

    def test_copying(self):
        browser = self.grid()
        self.sets([[1, 2, 3, 4], [-5, 0, 7, 8], [9, 10, 11, 12]])
        self.shows(browser, "A[3, 4]", 12)
        browser.drag(cell("A[1, 1]"), cell("A[2, 3]"))
        browser.key("c", CTRL)
        self.says(browser, "A[1..2, 1..3] copied")
        self.assertEqual(browser.js(COPIED), "1\t2\t3\n-5\t0\t7")
        browser.click(cell("A[2, 2]"))
        browser.key("v", CTRL)  # what was copied here is pasted here
        self.says(browser, "6 cells of A set by edit 4")
        self.has("A", 1, 2, 3, 4, -5, 1, 2, 3, 9, -5, 0, 7)
        self.assertEqual(browser.faults, [])

    def test_pasting_from_a_spreadsheet(self):
        browser = self.grid()
        browser.click(cell("A[2, 2]"))
        self.pastes(browser, "10\t20\r\n-30\t+40\r\n")
        self.says(browser, "4 cells of A set by edit 3")
        self.shows(browser, "A[3, 3]", 40)
        self.assertEqual(self.edits(browser), ["paste\nA[2..3, 2..3] = [10, 20, -30, 40]"])
        self.assertEqual(browser.js(CHOSEN), "A[2, 2] A[2, 3] A[3, 2] A[3, 3]")
        self.assertEqual(browser.js("document.querySelectorAll('.changed').length"), 0)  # what one does oneself isn't marked
        browser.key("z", CTRL)  # a paste is one edit
        self.shows(browser, "A[3, 3]", 0)
        self.has("A", *[0] * 12)
        self.assertEqual(browser.faults, [])

    def test_pasting_where_ranges_run_downward(self):
        """Each number goes where it is shown."""
        browser = self.grid(range(9, 0, -4), range(10, 0, -3))
        browser.click(cell("A[5, 10]"))
        self.pastes(browser, "1\t2\t3\n4\t5\t6\n")
        self.says(browser, "6 cells of A set by edit 3")
        self.shows(browser, "A[1, 4]", 6)
        self.has("A", 0, 0, 0, 0, 1, 2, 3, 0, 4, 5, 6, 0)
        self.assertEqual(self.edits(browser), ["paste\nA[1..5 by -4, 4..10 by -3] = [1, 2, 3, 4, 5, 6]"])
        self.assertEqual(browser.js(CHOSEN), "A[5, 10] A[5, 7] A[5, 4] A[1, 10] A[1, 7] A[1, 4]")
        self.assertEqual(browser.faults, [])

    def test_pasting_a_row_and_into_a_plane(self):
        browser = self.grid(range(1, 6))
        browser.click(cell("A[2]"))
        self.pastes(browser, "7\t8\t9")
        self.says(browser, "3 cells of A set by edit 3")
        self.has("A", 0, 7, 8, 9, 0)
        self.pastes(browser, "7\t8\n9\t10")
        self.says(browser, "2 rows and 2 columns don't fit into A from [2] on")
        with self.held() as book:
            book.array("B", book.domain("E", (range(1, 3), range(1, 3), range(1, 4))))
        browser.until(f"document.querySelector({json.dumps(cell('B[2, 1, 2]'))}) !== null")
        browser.click(cell("B[2, 1, 2]"))
        self.pastes(browser, "1\t2\n3\t4\n")
        self.says(browser, "4 cells of B set by edit 6")
        self.shows(browser, "B[2, 2, 3]", 4)
        self.has("B", 0, 0, 0, 0, 0, 0, 0, 1, 2, 0, 3, 4)
        self.assertEqual(self.edits(browser)[-1], "paste\nB[2..2, 1..2, 2..3] = [1, 2, 3, 4]")
        self.assertEqual(browser.faults, [])

    def test_pasting_a_column_onto_an_array_of_one_dimension(self):
        """Its numbers are those of the elements from the chosen one on, as a spreadsheet has them one below another."""
        browser = self.grid(range(1, 6))
        browser.click(cell("A[2]"))
        self.pastes(browser, "7\n8\n9\n")
        self.says(browser, "3 cells of A set by edit 3")
        self.shows(browser, "A[4]", 9)
        self.has("A", 0, 7, 8, 9, 0)
        self.assertEqual(browser.js(CHOSEN), "A[2] A[3] A[4]")
        self.pastes(browser, "1\n2\n3\n4\n5")
        self.says(browser, "5 rows and 1 column don't fit into A from [2] on")
        self.assertEqual(self.edits(browser), ["paste\nA[2..4] = [7, 8, 9]"])
        self.assertEqual(browser.faults, [])

    def test_pasting_a_column_onto_an_array_over_texts(self):
        with Workbook.run(PROGRAM) as book:
            people = book.assoc("People", "text")
            people |= {"Ada", "Ben", "Cleo"}
            book.array("Hours", people)
            browser = self.open(book)
            browser.do("Browser.grantPermissions", permissions=["clipboardReadWrite", "clipboardSanitizedWrite"])
            browser.until("document.querySelector('.value') !== null")
            browser.click(cell('Hours["Ben"]'))
            for text, words in (
                ("34\n1.5", "row 2, column 1 of what is pasted: whole numbers only: 1.5 isn't one"),
                ("34\n28\n7", "3 rows and 1 column don't fit into Hours from [Ben] on"),
                ("34\n28", "2 cells of Hours set by edit 4"),
            ):
                self.pastes(browser, text)
                self.says(browser, words)
            self.shows(browser, 'Hours["Cleo"]', 28)
            self.has("Hours", 0, 34, 28)
            self.assertEqual(browser.js(CHOSEN), 'Hours["Ben"] Hours["Cleo"]')
            self.assertEqual(browser.faults, [])

    def test_pasting_many_numbers(self):
        """Five thousand are one edit, also where not all of them are in the part that is shown."""
        browser = self.grid(range(1, 101), range(1, 101))
        browser.until("document.querySelectorAll('.value').length === 4000")
        browser.click(cell("A[1, 1]"))
        self.pastes(browser, "\n".join("\t".join(str(row * column) for column in range(1, 101)) for row in range(1, 51)))
        self.says(browser, "5,000 cells of A set by edit 3")
        self.shows(browser, "A[40, 100]", 4000)
        self.assertEqual(browser.js("document.querySelectorAll('.changed').length"), 0)
        with self.held() as book:
            self.assertEqual((book["A"][50, 100], book["A"][51, 1]), (5000, 0))
        browser.click(".parts button:nth-of-type(3)")
        self.shows(browser, "A[50, 100]", 5000)
        browser.click(cell("A[41, 1]"))
        self.pastes(browser, "\n".join(["1\t" * 99 + "2"] * 61))
        self.says(browser, "61 rows and 100 columns don't fit into A from [41, 1] on")
        self.assertEqual(browser.faults, [])

    def test_a_table_that_is_pasted_where_no_cell_is_chosen(self):
        """It becomes an array of its own, with titles, under the name that is typed."""
        browser = self.open(Workbook.run(PROGRAM))
        browser.do("Browser.grantPermissions", permissions=["clipboardReadWrite", "clipboardSanitizedWrite"])
        self.assertIn("Paste a table of a spreadsheet", browser.text("#objects"))
        browser.click(".empty")
        self.pastes(browser, "who\tMon\tTue\nAda\t8\t7\nBen\t6\t5.5\n")
        browser.until("document.activeElement.value === 'Table1'")
        self.assertIn("3 lines pasted, as a table called", browser.text("#newtable"))
        browser.type("1st")
        browser.key("Enter")
        self.says(browser, "a name is a letter, then letters, digits and _")
        browser.js("document.activeElement.value = ''")
        browser.type("Hours")
        browser.key("Enter")
        self.says(browser, "row 3, column 3: whole numbers only: '5.5' isn't one")
        self.assertFalse(browser.js("document.getElementById('newtable').hidden"))
        browser.key("Escape")
        browser.until("document.getElementById('newtable').hidden")
        self.assertEqual(browser.js("document.querySelectorAll('.edits li[data-k]').length"), 0)
        browser.js("document.activeElement.blur()")
        self.pastes(browser, "who\tMon\tTue\nAda\t8\t7\nBen\t6\t5\n")
        browser.until("document.activeElement.value === 'Table1'")
        browser.type("Hours")
        browser.key("Enter")
        self.shows(browser, "Hours[2, 2]", 5)
        heads = "[...document.querySelectorAll('table[aria-label=Hours] th')].map(x => x.innerText).join()"
        self.assertEqual(browser.js(heads), ",Mon,Tue,Ada,Ben")
        self.assertTrue(browser.js("document.getElementById('newtable').hidden"))
        self.assertEqual(browser.faults, [])

    def test_a_file_is_opened(self):
        """A file of a spreadsheet becomes a table that is called as the file; once more, its numbers become those of the table."""
        browser = self.open(Workbook.run(PROGRAM))
        with tempfile.TemporaryDirectory() as place:
            path = os.path.join(place, "my\u202e sales.csv")
            for number in (3, 4):
                with open(path, "w", encoding="utf-8") as file:
                    file.write(f"1,2\n{number},4\n")
                root = browser.do("DOM.getDocument")["root"]["nodeId"]
                node = browser.do("DOM.querySelector", nodeId=root, selector="#file")["nodeId"]
                browser.do("DOM.setFileInputFiles", nodeId=node, files=[path])
                browser.until("document.activeElement.value === 'mysales'")
                self.assertIn("2 lines of my\ufffd sales.csv", browser.text("#newtable"))
                browser.key("Enter")
                self.shows(browser, "mysales[2, 1]", number)
        whys = browser.js("[...document.querySelectorAll('.edits li[data-k] .why')].map(x => x.innerText)")
        self.assertEqual(whys, ["import my\ufffd sales.csv"] * 2)  # each is one edit, that of the new table with all that it made
        self.assertEqual(browser.js("document.querySelectorAll('.edits li[data-k]').length"), 2)
        self.assertEqual(browser.faults, [])

    def test_headings_stay_in_sight(self):
        browser = self.grid(range(1, 41), range(1, 31))
        top = "document.querySelector('table tr:nth-child(1) th:nth-child(3)').getBoundingClientRect().top"
        left = "document.querySelector('table tr:nth-child(38) th').getBoundingClientRect().left"
        before = (browser.js(top), browser.js(left))
        browser.js("document.querySelector('.scroll').scrollTo(300, 300)")
        self.assertGreater(browser.js("document.querySelector('.scroll').scrollTop"), 100)
        for now, then in zip((browser.js(top), browser.js(left)), before):
            self.assertAlmostEqual(now, then, delta=1)
        browser.click(cell("A[18, 14]"))
        for key, end, head in (("ArrowUp", "top", "tr th:nth-child(3)"), ("ArrowLeft", "left", "tr:nth-child(9) th")):
            for _ in range(9):
                browser.key(key)
            side = "bottom" if end == "top" else "right"
            hidden = f"document.activeElement.getBoundingClientRect().{end} < document.querySelector('table {head}').getBoundingClientRect().{side} - 2"
            self.assertFalse(browser.js(hidden), key)  # no cell is chosen behind a heading
        self.assertEqual(browser.faults, [])

    def test_a_large_array_has_parts(self):
        browser = self.grid(range(1, 257), range(1, 257))
        words = "document.querySelector('.parts').firstChild.data"
        self.assertEqual(browser.js(words), "part 1 of 16: 4096 of 65536 elements")
        self.assertEqual(browser.js("[...document.querySelectorAll('.parts button')].map(x => x.disabled)"), [True, True, False, False])
        browser.click(".parts button:nth-of-type(4)")
        browser.until(words + " === 'part 16 of 16: 4096 of 65536 elements'")
        browser.click(cell("A[256, 256]"))
        browser.keys("5")
        browser.key("Enter")
        self.shows(browser, "A[256, 256]", 5)
        browser.click(".parts button:nth-of-type(2)")
        browser.until(words + ".startsWith('part 15')")
        self.assertEqual(browser.js("document.querySelectorAll('.value')[0].dataset.key"), "A[225, 1]")
        with self.held() as book:
            book["D"].reshape("{1..3, 1..5000}")  # fewer parts: the last of them is shown
        browser.until(words + " === 'part 6 of 6: 904 of 15000 elements'")
        self.assertEqual(browser.js("document.querySelectorAll('.value')[0].dataset.key"), "A[3, 4097]")
        browser.click(cell("A[3, 4100]"))
        self.pastes(browser, "1\t2\t3")
        self.says(browser, "3 cells of A set by edit 5")
        self.shows(browser, "A[3, 4102]", 3)
        self.assertEqual(browser.faults, [])

    def test_what_is_not_pasted(self):
        """Nothing of it is sent."""
        browser = self.grid()
        browser.click(cell("A[1, 1]"))
        with self.held() as book:
            before = book.exchange.posted
        for text, words in (
            ("1\t2\n3\t1.5", "row 2, column 2 of what is pasted: whole numbers only: 1.5 isn't one"),
            ("1\t", "row 1, column 2 of what is pasted: whole numbers only: an empty cell isn't one"),
            ("1.5", "whole numbers only: 1.5 isn't one"),
            ("Ada\t1", "row 1, column 1 of what is pasted: whole numbers only: Ada isn't one"),
            ("1\t9223372036854775808", "a number has 64 bits at most, and 9223372036854775808 has more"),
            ("1\t2\t3\t4\t5", "1 row and 5 columns don't fit into A from [1, 1] on"),
            ("1\n2\n3\n4", "4 rows and 1 column don't fit into A from [1, 1] on"),
            ("1\t2\n3", "row 2 of what is pasted has 1 cell, and row 1 has 2"),
        ):
            with self.subTest(text):
                self.pastes(browser, text)
                self.says(browser, words)
        self.assertEqual((self.edits(browser), book.exchange.posted), ([], before))
        self.assertEqual(browser.faults, [])

    def test_holes_in_what_is_pasted(self):
        book = Workbook.run(PROGRAM)
        book.domain("D", (range(1, 3), range(1, 4)))
        book.sparse("S", "D")
        for at in ((1, 1), (1, 3), (2, 2)):
            book["S"].add(at)
        book.array("A", "S")
        browser = self.open(book)
        browser.do("Browser.grantPermissions", permissions=["clipboardReadWrite", "clipboardSanitizedWrite"])
        browser.click(cell("A[1, 1]"))
        self.pastes(browser, "1\t\t2")
        self.says(browser, "2 cells of A set by edit 7")
        self.shows(browser, "A[1, 3]", 2)
        self.assertEqual(self.edits(browser)[-1], "paste\nA[1, 1] = 1; A[1, 3] = 2")
        browser.key("a", CTRL)
        browser.key("c", CTRL)
        self.says(browser, "3 cells of A copied")
        self.assertEqual(browser.js(COPIED), "1\t\t2\n\t0\t")
        browser.click(cell("A[1, 1]"))
        self.pastes(browser, "1\t2")
        self.says(browser, "row 1, column 2 of what is pasted: there is no element")
        self.assertEqual(browser.faults, [])

    def test_filling(self):
        browser = self.grid(range(1, 10, 2), range(2, 6))
        browser.drag(cell("A[3, 3]"), cell("A[7, 4]"))
        browser.keys("6")
        browser.key("Enter", CTRL)
        self.shows(browser, "A[7, 4]", 6)
        browser.drag(cell("A[1, 2]"), cell("A[1, 3]"))
        browser.click("#picked button")
        browser.keys("-8")
        browser.key("Enter")
        self.shows(browser, "A[1, 3]", -8)
        browser.key("Delete")
        self.shows(browser, "A[1, 3]", 0)
        self.assertEqual(self.edits(browser), ["A[3..7 by 2, 3..4] = 6", "A[1..1, 2..3] = -8", "A[1..1, 2..3] = 0"])
        self.has("A", 0, 0, 0, 0, 0, 6, 6, 0, 0, 6, 6, 0, 0, 6, 6, 0, 0, 0, 0, 0)
        browser.keys("1.5")
        browser.key("Enter", CTRL)
        self.says(browser, "whole numbers only: 1.5 isn't one")
        self.assertEqual(browser.faults, [])

    def test_filling_where_there_are_no_ranges(self):
        """Then each cell is set, by one edit."""
        book = Workbook.run(PROGRAM)
        people = book.assoc("People", "text")
        people |= {"Ada", "Emmy", "Sofja"}
        book.array("Left", people)
        browser = self.open(book)
        browser.click('.value[data-key=\'Left["Ada"]\']')
        browser.key("ArrowRight", SHIFT)
        browser.keys("4")
        browser.key("Enter", CTRL)
        self.says(browser, "2 cells of Left set by edit 4")
        self.has("Left", 4, 4, 0)
        browser.until("document.querySelectorAll('.edits li[data-k]').length === 4")
        self.assertEqual(self.edits(browser), ["Left over People", 'Left["Ada"] = 4; Left["Emmy"] = 4'])
        self.assertEqual(browser.faults, [])

    def test_planes(self):
        browser = self.grid(range(1, 3), range(1, 3), range(1, 4))
        browser.drag(cell("A[2, 1, 1]"), cell("A[2, 2, 2]"))
        browser.keys("3")
        browser.key("Enter", CTRL)
        self.shows(browser, "A[2, 2, 2]", 3)
        self.assertEqual(self.edits(browser), ["A[2..2, 1..2, 1..2] = 3"])
        browser.drag(cell("A[2, 1, 1]"), cell("A[1, 1, 1]"))  # another plane: the choice stays in its own
        self.assertEqual(browser.js(CHOSEN), "A[2, 1, 1]")
        self.assertEqual(browser.faults, [])

    def test_what_is_chosen_stays_where_the_table_grows(self):
        browser = self.grid()
        browser.drag(cell("A[1, 1]"), cell("A[2, 2]"))
        with self.held() as book:
            book["D"].reshape("{1..5, 1..5}")
        browser.until(f"document.querySelector({json.dumps(cell('A[5, 5]'))}) !== null")
        self.assertEqual((browser.js(HERE), browser.js(CHOSEN)), ("A[1, 1]", "A[1, 1] A[1, 2] A[2, 1] A[2, 2]"))
        with self.held() as book:
            book["D"].reshape("{2..5, 1..5}")
        browser.until(f"document.querySelector({json.dumps(cell('A[1, 1]'))}) === null")
        self.assertEqual(browser.js(CHOSEN), "")  # the cell that was chosen is gone
        self.assertEqual(browser.faults, [])

    def test_what_others_do_while_somebody_types(self):
        """It shows, and what is typed stays."""
        browser = self.grid()
        browser.click(cell("A[1, 1]"))
        browser.keys("12")
        with self.held() as book:
            book["A"][1, 1] = 3
            book["A"][2, 2] = 4
        self.shows(browser, "A[2, 2]", 4)
        self.assertEqual(browser.js("document.activeElement.value"), "12")
        with self.held() as book:
            book["D"].expand(0, 1)  # the table is drawn anew when the typing has ended
        browser.until("document.querySelector('h3 small').innerText.includes('1..4') && document.querySelectorAll('.edits li').length === 5")
        self.assertEqual(browser.js("document.activeElement.value"), "12")
        browser.key("Escape")
        self.shows(browser, "A[1, 5]", 0)
        self.shows(browser, "A[1, 1]", 3)
        self.assertEqual(browser.js(HERE), "A[1, 1]")
        self.assertEqual(browser.faults, [])

    # --- the table as a file

    def test_the_link_to_a_table(self):
        browser = self.grid()
        self.sets([[1, 2, 3, 4], [5, 6, 7, 8], [9, 10, 11, 12]])
        self.assertEqual(browser.text(".csv"), "CSV")
        text = browser.js("fetch(document.querySelector('.csv').href).then(x => x.text())")
        rows = list(csv.reader(io.StringIO(text)))
        self.assertEqual(rows, [["", "1", "2", "3", "4"], ["1", "1", "2", "3", "4"], ["2", "5", "6", "7", "8"], ["3", "9", "10", "11", "12"]])
        self.assertEqual(browser.js("document.querySelector('.csv').download"), "A.csv")
        self.assertEqual(browser.faults, [])


if __name__ == "__main__":
    unittest.main()
