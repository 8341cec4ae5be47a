"""The page's server. How the page looks and is clicked is seen in a browser."""

import http.client
import io
import json
import os
import re
import socket
import subprocess
import sys
import tempfile
import threading
import unittest
from urllib.parse import urlsplit

from tests.support import HERE, LONG, PATIENCE, PROGRAM, Server
from workbook_client import Workbook, view
from workbook_client.page import SCRIPTS, serve


class Page(unittest.TestCase):
    def open(self, book: Workbook) -> None:
        self.addCleanup(book.close)
        self.server = serve(book)
        self.port = self.server.server_address[1]
        self.key = urlsplit(self.server.url).path[:-1]
        thread = threading.Thread(target=self.server.serve_forever, args=(0.05,))
        thread.start()
        self.addCleanup(thread.join)
        self.addCleanup(self.server.server_close)
        self.addCleanup(self.server.shutdown)

    def ask(self, path, body=None, key=None, **headers):
        """Asks as the page does, but for the headers that are told; those of None are left out."""
        asked = http.client.HTTPConnection("127.0.0.1", self.port, timeout=10 * PATIENCE)
        headers = {"Sec_Fetch_Site": "same-origin", **headers}
        headers = {name.replace("_", "-"): value for name, value in headers.items() if value is not None}
        path = (self.key if key is None else key) + path
        if body is not None:
            headers.setdefault("Content-Type", "application/json")
        asked.request("GET" if body is None else "POST", path, None if body is None else json.dumps(body), headers)
        answer = asked.getresponse()
        text = answer.read().decode()
        asked.close()
        return answer.status, json.loads(text) if text[:1] == "{" else text

    def lines(self, *lines):
        for line in lines:
            told = self.ask("/do", {"line": line})
        return told[1]

    def test_a_session_of_its_own(self):
        self.open(Workbook.run(PROGRAM))
        status, page = self.ask("/")
        self.assertEqual(status, 200)
        self.assertIn("<title>workbook</title>", page)
        self.lines("D = {1..2} dmapped cyclicDist(1, [2])", "A over D", "A[1] = 9223372036854775807", "A[2] = A[1] - 1")
        _, state = self.ask("/state")
        self.assertEqual([e["needs"] for e in state["edits"]], [None] * 4)  # none is in sight
        self.assertEqual([e["needs"] for e in self.ask("/state?sight=2-3")[1]["edits"]], [None, [4, 3, 2], [4, 3], None])
        _, state = self.ask("/state?sight=1-")
        (array,) = state["arrays"]
        self.assertEqual(array["values"], [[["1"], "1", "9223372036854775807"], [["2"], "2", "9223372036854775806"]])
        self.assertEqual((array["locales"], array["ranges"], array["part"]), ([0, 1], [["1", "1", 2]], [0, 1, 0]))
        told = [(e["k"], e["on"], e["needs"]) for e in state["edits"]]
        self.assertEqual(told, [(1, True, [4, 3, 2, 1]), (2, True, [4, 3, 2]), (3, True, [4, 3]), (4, True, [4])])
        self.assertEqual(self.ask("/needs?k=2")[1], {"ok": True, "k": 2, "needs": [4, 3, 2]})
        self.assertIn("E11", self.ask("/needs?k=5")[1]["say"])
        self.assertEqual(self.ask("/needs?k=x")[0], 400)
        self.assertEqual(self.ask("/state?seen=" + state["version"]), (204, ""))
        told = self.ask("/do", {"op": "undo", "k": 3})[1]
        self.assertEqual((told["ok"], told["code"], told["by"]), (False, "E14", 4))
        self.assertIn("cascade 3 takes back 4 and 3", told["say"])
        self.assertTrue(self.ask("/do", {"op": "cascade", "k": 3})[1]["ok"])
        self.assertEqual([e["needs"] for e in self.ask("/state?sight=1-")[1]["edits"]], [[2, 1], [2], None, None])
        self.assertNotEqual(self.ask("/state?seen=" + state["version"])[0], 204)
        self.assertIn("array A over D [0, 0]", self.ask("/text")[1])
        self.assertIn("\nhistory 4\n+ {", self.ask("/history")[1])

    def test_wrong_lines_and_files(self):
        self.open(Workbook.run(PROGRAM))
        told = self.lines("A[4 = 9")
        self.assertEqual((told["ok"], told["say"].splitlines()[1]), (False, "      ^"))
        self.assertIn("terminal", self.lines("save x")["say"])
        self.assertEqual(self.ask("/nothing")[0], 404)
        self.assertEqual(self.ask("/do", {"line": "undo"}, Content_Type="text/plain")[0], 404)

    def test_files_are_for_the_terminal_however_the_line_is_written(self):
        self.open(Workbook.run(PROGRAM))
        with tempfile.TemporaryDirectory() as place:
            path = os.path.join(place, "written")
            for line in (f"{word}{path}" for word in ("save ", " save ", "\tsave\t", "keep ", "  keep  ", "\u0020keep\t", "export A ", "\texport\tA  ")):
                with self.subTest(line):
                    told = self.lines(line)
                    self.assertEqual((told["ok"], "Files are for the terminal" in told["say"]), (False, True))
            self.assertEqual(os.listdir(place), [])
            with open(path, "w", encoding="utf-8") as file:
                file.write("chapel-workbook 1\nrect D {1..4} none\nend\n")
            for line in (f"load {path}", f" load {path}", f"\tload\t{path}", f"import A {path}", f"  import\tA\t{path}"):
                with self.subTest(line):
                    self.assertFalse(self.lines(line)["ok"])
            self.assertEqual(self.ask("/text")[1], "chapel-workbook 1\nend\n")

    def test_help_lists_what_the_page_takes(self):
        self.open(Workbook.run(PROGRAM))
        told = self.lines("help")["say"]
        for word in ("drop", "cascade", "history", "// starts a remark"):
            self.assertIn(word, told)
        for word in view.TERMINAL_ALONE:
            with self.subTest(word):
                self.assertNotIn(word, told)
                line = {"colours": "colours on", "quit": "quit"}.get(word, f"{word} A x")
                self.assertFalse(self.lines("D = {1..4}", "A over D", line)["ok"])
        self.assertFalse(self.lines("exit")["ok"])

    def test_whoever_has_not_the_key_is_kept_out(self):
        self.open(Workbook.run(PROGRAM))
        wrong = "/" + "x" * (len(self.key) - 1)
        for key in ("", wrong, self.key[:-1], self.key + "x", "/" + self.key[1:].swapcase(), "/%2e"):
            for path in ("/", "/state", "/needs?k=1", "/text", "/history", "/csv?a=A", "/page.js", "/page.css"):
                with self.subTest(key + path):
                    self.assertEqual(self.ask(path, key=key)[0], 403)
            self.assertEqual(self.ask("/do", {"line": "D = {1..4}"}, key=key)[0], 403)
        self.assertEqual(self.ask("", key=self.key)[0], 403)
        self.assertEqual(self.ask("/text")[1], "chapel-workbook 1\nend\n")

    def test_what_keeps_the_page_from_starting_is_told_in_a_sentence(self):
        with socket.create_server(("127.0.0.1", 0)) as taken:
            port = taken.getsockname()[1]
            for words, why in (
                (["--port", str(port)], f"the page can't have port {port}: Address already in use; --port 0 takes any that is free"),
                (["--port", "65536"], "the page can't have port 65536: "), (["--port", "0", "--file", "/no/such"], "/no/such: No such file or directory"),
            ):
                with self.subTest(words):
                    gone = subprocess.run(
                        [sys.executable, "-m", "workbook_client.page", "--program", PROGRAM, *words], input="", capture_output=True, text=True,
                        cwd=HERE.parents[1], timeout=LONG,
                    )
                    self.assertEqual(gone.returncode, 3)
                    self.assertTrue(gone.stderr.startswith(f"workbook_client.page: {why}"), gone.stderr)
                    self.assertNotIn("Traceback", gone.stderr)

    def test_another_server_has_another_key(self):
        self.open(Workbook.run(PROGRAM))
        before = self.key
        self.open(Workbook.run(PROGRAM))
        self.assertNotEqual(before, self.key)
        self.assertEqual(self.ask("/state", key=before)[0], 403)

    def test_what_another_site_asks_is_refused(self):
        """Also where it knew the key."""
        self.open(Workbook.run(PROGRAM))
        for site in ("cross-site", "same-site", "", "Same-Origin", None):
            for path in ("/", "/state", "/needs?k=1", "/text", "/history", "/csv?a=A", "/page.js", "/page.css"):
                with self.subTest(f"{path} {site}"):
                    self.assertEqual(self.ask(path, Sec_Fetch_Site=site)[0], 403)
            self.assertEqual(self.ask("/do", {"line": "D = {1..4}"}, Sec_Fetch_Site=site)[0], 403)
        for path, status in (("/", 200), ("/text", 200), ("/history", 200), ("/csv?a=A", 404), ("/state", 403), ("/needs?k=1", 403),
                             ("/page.js", 403), ("/page.css", 403)):
            with self.subTest(path):  # somebody gives the address to the browser
                self.assertEqual(self.ask(path, Sec_Fetch_Site="none")[0], status)
        self.assertEqual(self.ask("/do", {"line": "D = {1..4}"}, Sec_Fetch_Site="none")[0], 403)
        self.assertEqual(self.ask("/text")[1], "chapel-workbook 1\nend\n")

    def test_labels_with_direction_marks_are_shown_without_them(self):
        book = Workbook.run(PROGRAM)
        self.open(book)
        for mark in "\u061c\u200e\u200f\u202a\u202b\u202c\u202d\u202e\u2066\u2067\u2068\u2069\x9b":
            with self.subTest(f"{ord(mark):04x}"):
                book.assoc("T", "text").add(f"a{mark}b")
                book.array("P", "T")
                told = self.lines(f'P["a{mark}b"] = 5')
                state = self.ask("/state")[1]
                (array,) = state["arrays"]
                self.assertEqual(array["values"], [[["a\ufffdb"], f'"a{mark}b"', "5"]])  # the second is what a line names it by
                self.assertEqual(state["edits"][-1]["what"], 'P["a\ufffdb"] = 5')
                array["values"] = []
                refused = self.lines(f'P["a{mark}"] = 5')
                self.assertEqual((told["ok"], refused["ok"]), (True, False))
                self.assertNotIn(mark, json.dumps([state, told, refused], ensure_ascii=False))
                book["P"].drop()
                book["T"].drop()

    def test_titles_and_digits_behind_a_point(self):
        self.open(Workbook.run(PROGRAM))
        self.lines("D = {1..2, 1..2}", "A over D", "A[1, 2] = 150", "A[2, 1] = -5", "T = text", 'T |= {"Ada", "B\u202en"}', "Row over T")
        self.lines('Row["Ada"] = 1', 'Row["B\u202en"] = 2', "T2 = text", 'T2 |= {"Mon"}', "Column over T2", 'Column["Mon"] = 1')
        before = self.ask("/state")[1]
        self.assertEqual([(a["down"], a["across"], a["decimals"]) for a in before["arrays"] if a["name"] == "A"], [({}, {}, 0)])
        told = self.lines("label A rows Row")
        self.assertEqual((told["ok"], told["say"].strip()), (True, "rows of A have titles from Row: 2 of them, on this page"))
        self.assertTrue(self.lines("label A columns Column", "show A / 100")["ok"])
        status, state = self.ask("/state?seen=" + before["version"])
        self.assertEqual(status, 200)
        (array,) = [a for a in state["arrays"] if a["name"] == "A"]
        self.assertEqual((array["down"], array["across"], array["decimals"]), ({"1": "Ada", "2": "B\ufffdn"}, {"1": "Mon"}, 2))
        self.assertEqual([value for _, _, value in array["values"]], ["0", "150", "-5", "0"])  # the workbook has whole numbers
        self.assertEqual(self.ask("/csv?a=A")[1], ",Mon,2\nAda,0,150\nB\u202en,-5,0\n")
        self.assertIn("│ 1.50 │", self.lines("A[1..1, 2..2]")["say"])
        self.assertIn("│ -0.05 │", self.lines("A")["say"])
        self.assertIn("whole numbers only: 1.5 isn't one", self.lines("A[1, 1] = 1.5")["say"])
        self.lines('Row["Ada"] = 2')  # a title that goes elsewhere
        (array,) = [a for a in self.ask("/state")[1]["arrays"] if a["name"] == "A"]
        self.assertEqual(array["down"], {"2": "Ada"})
        self.assertIn("whole numbers above", self.lines("label A rows", "label A columns", "show A / 1")["say"])
        (array,) = [a for a in self.ask("/state")[1]["arrays"] if a["name"] == "A"]
        self.assertEqual((array["down"], array["across"], array["decimals"]), ({}, {}, 0))
        for line in ("label A rows T", "label Row rows Row", "label A rows X", "show A / 3", "label A"):
            with self.subTest(line):
                self.assertFalse(self.lines(line)["ok"])

    def test_titles_that_were_given_before_the_page_began(self):
        book = Workbook.run(PROGRAM)
        book.from_csv("Hours", io.StringIO("who,Mon,Tue\nAda,8,8\nEmmy,4,0\n"))
        self.open(book)
        book.array("Zero", "HoursDomain")
        arrays = self.ask("/state")[1]["arrays"]
        self.assertEqual([a["name"] for a in arrays], ["Hours", "Zero", "HoursColumn", "HoursRow"])  # what is titles alone stands last
        (array,) = [a for a in arrays if a["name"] == "Hours"]
        self.assertEqual((array["down"], array["across"]), ({"1": "Ada", "2": "Emmy"}, {"1": "Mon", "2": "Tue"}))

    def test_a_table_that_is_pasted_is_one_edit(self):
        self.open(Workbook.run(PROGRAM))
        self.lines("D = {1..100, 1..100}", "A over D", "A = 7")
        told = self.ask("/do", {"op": "paste", "a": "A", "on": "{2..3, 1..5 by -2}", "vs": ["1", "+2", "-3", "4", "5", "6"]})[1]
        self.assertEqual((told["ok"], told["say"].strip()), (True, "6 cells of A set by edit 4"))
        self.assertIn("│ 2 │ -3 │ 7 │ 2 │ 7 │ 1 │", self.lines("A[2..2, 1..5]")["say"])
        for number, words in (("12345", "set by edit 5"), ("123456789012", "set by 2 edits, 6 to 7, of which each is taken back by itself")):
            told = self.ask("/do", {"op": "paste", "a": "A", "on": "{1..60, 1..100}", "vs": [number] * 5999 + ["1"]})[1]
            self.assertEqual((told["ok"], told["say"].strip()), (True, "6,000 cells of A " + words))
        self.assertEqual(self.ask("/state")[1]["edits"][4]["what"], "A[1..60, 1..100] = [12345, 12345, 12345, 12345, 12345, 12345, 12345, 12345, ...]")
        before = self.ask("/history")[1]
        for on, numbers, words in (
            ("{1..2}", ["1", "2"], "E05"), ("{99..101, 1..1}", ["1", "2", "3"], "E06"), ("{1..1, 1..2}", ["1"], "1 elements, where the ranges have 2"),
            ("{1..1, 1..2}", ["1", "1.5"], "whole numbers only: 1.5 isn't one"), ("{1..1, 1..2}", ["1", 2.5], "2.5 isn't one"),
            ("{1..1, 1..2}", ["1", "9" * 19 + "9"], "64 bits at most"), ("{1..1, x}", ["1"], "a part is shown by ranges"), ("{1..0}", [], "nothing to paste"),
            ("{1..1, 1..2}", "12", "vs is a list"),
        ):
            with self.subTest(on, numbers=numbers):
                told = self.ask("/do", {"op": "paste", "a": "A", "on": on, "vs": numbers})[1]
                self.assertEqual((told["ok"], words in told["say"]), (False, True), told["say"])
        self.assertEqual(self.ask("/history")[1], before)

    def test_parts_of_a_large_array(self):
        book = Workbook.run(PROGRAM)
        for name, ranges in (("D", "{1..100, 1..100}"), ("E", "{1..3, 1..5000}"), ("F", "{2..10 by 2, 1..40, 1..40}"), ("L", "{1..5000}"), ("O", "{1..0}")):
            book.array("A" + name, book.domain(name, ranges))
        people = book.assoc("N", "int")
        people.reshape(set(range(5000)))
        book.array("AN", people)
        self.open(book)

        def shown():
            told = {a["name"]: a for a in self.ask("/state")[1]["arrays"]}
            return {name: [*a["part"], a["values"][0][1] if a["values"] else "", len(a["values"])] for name, a in told.items()}

        self.assertEqual(shown(), {"AD": [0, 3, 0, 0, "1, 1", 4000], "AE": [0, 6, 0, 0, "1, 1", 4096], "AF": [0, 3, 0, 0, 0, "2, 1, 1", 3200],
                                   "AL": [0, 2, 0, "1", 4096], "AN": [0, 2, 0, "0", 4096], "AO": [0, 1, 0, "", 0]})
        for name in ("AD", "AE", "AF", "AL", "AN", "AO"):
            self.assertTrue(self.ask("/do", {"op": "turn", "a": name, "part": 5})[1]["ok"])
        self.assertEqual(shown(), {"AD": [2, 3, 80, 0, "81, 1", 2000], "AE": [5, 6, 2, 4096, "3, 4097", 904], "AF": [2, 3, 4, 0, 0, "10, 1, 1", 1600],
                                   "AL": [1, 2, 4096, "4097", 904], "AN": [1, 2, 4096, "4096", 904], "AO": [0, 1, 0, "", 0]})
        for part in (-1, "1", None, True, 1.5):
            self.assertFalse(self.ask("/do", {"op": "turn", "a": "AD", "part": part})[1]["ok"])

    def test_pasted_cells_are_one_edit(self):
        """Also where no ranges say which they are. It has a note, which is another one where one was typed."""
        self.open(Workbook.run(PROGRAM))
        self.lines("D = {1..2, 1..2}", "A over D", "T = text", 'T += "x"', "P over T")
        told = self.ask("/do", {"op": "paste", "a": "A", "cells": [["1, 1", "5"], ["1, 2", "+6"], ["2, 1", "-7"]]})[1]
        self.assertEqual((told["ok"], told["say"].strip()), (True, "3 cells of A set by edit 6"))
        told = self.ask("/do", {"op": "paste", "a": "P", "cells": [['"x"', "4"]], "note": "of March"})[1]
        self.assertEqual((told["ok"], told["noted"]), (True, True))
        self.assertEqual(self.ask("/do", {"op": "paste", "a": "A", "cells": [["1, 1", "5"], ["2, 1", "-7"]], "fills": True})[1]["noted"], False)
        self.assertEqual([(e["note"], e["what"], e["parts"]) for e in self.ask("/state")[1]["edits"][5:]], [
            ("paste", "A[1, 1] = 5; A[1, 2] = 6; A[2, 1] = -7", 3), ("of March", 'P["x"] = 4', 1), ("", "A[1, 1] = 5; A[2, 1] = -7", 2)])
        before = self.ask("/history")[1]
        for array, cells, words in (
            ("A", [["1, 1", "1"], ["1, 2", "1.5"]], "whole numbers only: 1.5 isn't one"),
            ("A", [["1, 1", "1"], ["1, 2", ""]], "whole numbers only: an empty cell isn't one"),
            ("A", [["1, 1", "9223372036854775808"]], "64 bits"),
            ("A", [["1..2, 1", "1"]], "is no index"),
            ("A", [["1, 1] = A[2, 2] //", "1"]], "is no index"),
            ("A", [["1, 1"]], "whole numbers only"),
            ("A over D //", [["1, 1", "1"]], "is no index"),
            ("A", [], "nothing to paste"),
            ("A", "1", "cells is a list"),
        ):
            with self.subTest(f"{array} {cells}"):
                told = self.ask("/do", {"op": "paste", "a": array, "cells": cells})[1]
                self.assertEqual((told["ok"], words in told["say"]), (False, True))
                self.assertEqual(self.ask("/history")[1], before)
        told = self.ask("/do", {"op": "paste", "a": "A", "cells": [["1, 1", "1"], ["3, 3", "2"]]})[1]  # the program refuses the second
        self.assertEqual((told["ok"], "E06" in told["say"]), (False, True))
        self.assertIn("array A over D [5, 6, -7, 0]", self.ask("/text")[1])

    def test_what_a_transaction_did(self):
        """Its edits are told where they are asked for, and of many the first ones."""
        book = Workbook.run(PROGRAM)
        A = book.array("A", book.domain("D", range(1, 1001)))
        with book.transaction("squares"):
            for index in range(1, 311):
                A[index] = index * index
        self.open(book)
        told = self.ask("/parts?k=3")[1]
        self.assertEqual((told["ok"], told["k"], len(told["parts"]), told["more"]), (True, 3, 300, 10))
        self.assertEqual(told["parts"][299], "A[300] = 90000")
        self.assertEqual(self.ask("/parts?k=1")[1], {"ok": True, "k": 1, "parts": [], "more": 0})
        self.assertEqual(self.ask("/parts?k=9")[1]["parts"], [])
        self.assertEqual((self.ask("/parts?k=x")[0], self.ask("/parts")[0]), (400, 400))
        edit = self.ask("/state")[1]["edits"][2]
        self.assertEqual((edit["note"], edit["what"], edit["parts"]), ("squares", "A[1] = 1; A[2] = 4; A[3] = 9; and 307 more", 310))

    def test_a_note_of_a_line(self):
        self.open(Workbook.run(PROGRAM))
        told = self.ask("/do", {"line": "D = {1..2}", "note": "a plan"})[1]
        self.assertEqual((told["ok"], told["say"], told["noted"]), (True, "  edit 1, 3 cells", True))
        self.assertEqual(self.ask("/do", {"line": "size D", "note": "a plan"})[1]["noted"], False)
        self.assertEqual(self.ask("/do", {"line": "D = {1..", "note": "a plan"})[1]["noted"], False)
        told = self.ask("/do", {"line": "E = {1..9223372036854775807}", "note": "a plan"})[1]
        self.assertEqual((told["ok"], told["noted"], told["code"]), (False, False, "E09"))
        for wrong in ('a "plan"', "x" * 257):
            self.assertIn("a note has 256 bytes at most", self.ask("/do", {"line": "A over D", "note": wrong})[1]["say"])
        self.assertTrue(self.ask("/do", {"op": "table", "a": "T", "text": "1,2\n3,4\n", "file": 'my "plan".csv'})[1]["ok"])
        self.assertTrue(self.ask("/do", {"op": "table", "a": "U", "text": "1,2\n3,4\n"})[1]["ok"])
        self.assertEqual([(e["note"], e["parts"]) for e in self.ask("/state")[1]["edits"]], [("a plan", 1), ("import my ?plan?.csv", 3), ("paste", 3)])
        for line in ("begin", "commit", "abandon"):
            self.assertIn("That is for the terminal", self.lines(line)["say"])
        self.assertEqual(self.lines("note 2")["say"].splitlines()[0], "  edit 2: import my ?plan?.csv")

    def test_what_is_taken_back_here_is_put_back_here(self):
        self.open(Workbook.run(PROGRAM))
        self.assertIn("no edit of yours", self.ask("/do", {"op": "undo_mine"})[1]["say"])
        self.lines("D = {1..3}", "A over D", "A[1] = 5", "A[2] = A[1] + 1", "A[3] = A[2] + 1")
        self.assertIn("nothing of yours", self.ask("/do", {"op": "redo_mine"})[1]["say"])
        self.ask("/do", {"op": "undo_mine"})
        self.assertIn("array A over D [5, 6, 0]", self.ask("/text")[1])
        self.ask("/do", {"op": "redo_mine"})
        self.assertIn("array A over D [5, 6, 7]", self.ask("/text")[1])
        self.assertTrue(self.lines("cascade 3")["ok"])
        self.assertEqual(self.ask("/state")[1]["cascaded"], [3, 4, 5])
        self.assertIn("edit 5 is in force", self.ask("/do", {"op": "put_back", "ks": [5, 3, 4]})[1]["say"])
        self.assertIn("array A over D [5, 6, 7]", self.ask("/text")[1])
        self.assertEqual(self.ask("/state")[1]["cascaded"], [])
        self.ask("/do", {"op": "cascade", "k": 3})
        for _ in range(3):
            self.assertTrue(self.ask("/do", {"op": "redo_mine"})[1]["ok"])  # upward too
        self.assertIn("array A over D [5, 6, 7]", self.ask("/text")[1])
        self.ask("/do", {"op": "cascade", "k": 4})
        self.ask("/do", {"op": "leave", "ks": [4, 5]})
        self.assertEqual(self.ask("/state")[1]["cascaded"], [])
        for wrong in ({"op": "put_back"}, {"op": "put_back", "ks": ["x"]}, {"op": "put_back", "ks": [[]]}, {"op": "undo"}, {"op": "cascade", "k": True}):
            with self.subTest(wrong):
                status, told = self.ask("/do", wrong)
                self.assertEqual((status, told["ok"]), (200, False))

    def test_ones_own_at_a_desk(self):
        """What others did is neither taken back nor put back by the keys; what they took back of one's own is told."""
        other = self.at_a_desk()
        self.lines("D = {1..3}", "A over D", "A[1] = 5")
        other["A"][2] = 6
        self.assertIn("edit 3 is taken back", self.ask("/do", {"op": "undo_mine"})[1]["say"])
        self.assertEqual(self.ask("/state")[1]["taken"], [])
        self.ask("/do", {"op": "redo_mine"})
        other.undo(3)
        self.assertEqual(self.ask("/state")[1]["taken"], [3])
        self.assertIn("edit 3 is in force again", self.ask("/do", {"op": "put_back", "ks": [3]})[1]["say"])
        self.assertEqual(self.ask("/state")[1]["taken"], [])
        other.undo(3)
        self.assertFalse(self.ask("/do", {"op": "undo", "k": 3})[1]["ok"])  # it is heard by a refusal too
        self.assertEqual(self.ask("/state")[1]["taken"], [3])
        self.ask("/do", {"op": "leave", "ks": [3]})
        self.assertEqual(self.ask("/state")[1]["taken"], [])

    def test_a_table_as_a_file(self):
        self.open(Workbook.run(PROGRAM))
        self.lines("D = {1..2, 5..6}", "A over D", "A[1, 6] = 7")
        self.assertEqual(self.ask("/csv?a=A"), (200, ",5,6\n1,0,7\n2,0,0\n"))
        for name in ("D", "B", "", "A%0d%0aX", "../A"):
            self.assertEqual(self.ask(f"/csv?a={name}")[0], 404)

    def test_the_files_of_the_page(self):
        self.open(Workbook.run(PROGRAM))
        _, page = self.ask("/")
        for name in ("page.css", "page.js"):
            self.assertIn(f'"{name}"', page)
        for name in SCRIPTS:
            status, text = self.ask("/" + name)
            self.assertEqual(status, 200)
            self.assertNotIn("innerHTML", text)  # data is never read as HTML
            for other in re.findall('from "./(.*?)"', text):
                self.assertIn(other, SCRIPTS)
        for name in ("page.py", "view.py", "page.html", "../setup", "%2e%2e/page.py", "py.typed"):
            self.assertEqual(self.ask("/" + name)[0], 404)

    def test_other_pages_are_kept_out(self):
        self.open(Workbook.run(PROGRAM))
        self.assertEqual(self.ask("/state", Host="evil.example")[0], 403)
        self.assertEqual(self.ask("/do", {"line": "D = {1..4}"}, Origin="http://evil.example")[0], 403)
        self.assertEqual(self.ask("/do", {"line": "D = {1..4}"}, Origin=f"http://127.0.0.1:{self.port}")[0], 200)

    def at_a_desk(self) -> Workbook:
        """Opens the page at one of a desk's two seats, where each look asks anew: the workbook of the other seat."""
        server = Server(seats=2)
        self.addCleanup(server.close)
        view.APART, before = 0.0, view.APART
        self.addCleanup(setattr, view, "APART", before)
        self.open(server.connect())
        return server.connect()

    def test_a_shared_workbook(self):
        other = self.at_a_desk()
        self.lines("D = {1..2}", "A over D", "A[1] = 5")
        _, state = self.ask("/state")
        other["A"][1] = 6
        _, later = self.ask("/state?seen=" + state["version"])
        self.assertEqual([(e["k"], e["who"]) for e in later["edits"]], [(1, "me"), (2, "me"), (3, "me"), (4, "another")])
        self.assertEqual([e["what"] for e in later["edits"]][2:], ["A[1] = 5", "A[1] = 6"])
        self.assertEqual(self.ask("/do", {"op": "undo", "k": 3})[1]["by"], 4)
        self.assertEqual(self.ask("/state")[1]["edits"][2]["needs"], [4, 3])
        other.undo()
        self.assertIsNone(self.ask("/state")[1]["edits"][2]["needs"])

    def test_others_undos_are_seen_at_the_next_look(self):
        """Of an old edit too, and where no sum of an array tells it."""
        server = Server(seats=2)
        self.addCleanup(server.close)
        view.APART, before = 0.0, view.APART
        self.addCleanup(setattr, view, "APART", before)
        book, other = server.connect(), server.connect()
        shown = view.View(book)
        A = book.array("A", book.domain("D", range(1, 101)))
        B = book.array("B", "D")
        with book.pipeline():
            B.fill(range(1, 3), 2**63 - 1)  # their sum has more than 64 bits
            for i in range(1, 101):
                A[i] = i
        first = shown.state()
        self.assertEqual(first["version"], shown.state()["version"])
        other.undo(60)
        state = shown.state()
        self.assertEqual([e["k"] for e in state["edits"] if not e["on"]], [60])
        self.assertEqual(state["arrays"][0]["values"][55], [["56"], "56", "0"])
        other.redo(60)
        self.assertEqual(shown.state()["version"], first["version"])
        D = book["D"]
        D.remap("cyclicDist(1, [2])")
        shown.state()
        other.undo()  # which no sum tells
        self.assertEqual(shown.state()["domains"], [{"name": "D", "words": "{1..100}"}])
        other.undo(4)
        self.assertEqual(shown.state()["arrays"][1]["values"][0], [["1"], "1", "0"])
        other.undo(3)
        self.assertEqual([a["name"] for a in shown.state()["arrays"]], ["A"])

    def test_a_look_before_a_cascade_at_a_desk(self):
        """One question, and the answer holds until something changes."""
        other = self.at_a_desk()
        self.lines("D = {1..3}", "A over D", "A[1] = 5")
        other["A"].copy(2, other["A"], 1)
        self.assertEqual(self.ask("/needs?k=3")[1]["needs"], [4, 3])
        edits = self.ask("/state")[1]["edits"]
        self.assertEqual([e["needs"] for e in edits], [None, None, [4, 3], None])
        self.assertIn("edits 4 and 3 taken back", self.ask("/do", {"op": "cascade", "k": 3})[1]["say"])
        self.assertIn("array A over D [0, 0, 0]", self.ask("/text")[1])

    def test_of_a_long_history_the_latest_lines_are_asked(self):
        server = Server(seats=2)
        self.addCleanup(server.close)
        for name, value in (("APART", 0.0), ("LATEST", 2)):
            self.addCleanup(setattr, view, name, getattr(view, name))
            setattr(view, name, value)
        self.open(server.connect())
        other = server.connect()
        self.lines("D = {1..2}", "A over D")
        other["A"][1] = 6
        state = self.ask("/state")[1]
        self.assertEqual([(e["what"], e["on"]) for e in state["edits"]], [("A over D", True), ("A[1] = 6", True)])
        self.assertEqual((state["earlier"], state["arrays"][0]["values"][0][2]), (1, "6"))
        other.undo(3)
        other["A"][2] = 7
        self.assertEqual([(e["what"], e["on"]) for e in self.ask("/state")[1]["edits"]], [("A[1] = 6", False), ("A[2] = 7", True)])

    def test_what_looking_costs_a_desk(self):
        server = Server(seats=1)
        self.addCleanup(server.close)
        book = server.connect()
        before, view.APART = view.APART, 0.0
        self.addCleanup(setattr, view, "APART", before)
        A = book.array("A", book.domain("D", range(1, 5)))
        with book.pipeline():
            for i in range(1, 4):
                A[i] = i
        shown = view.View(book)
        shown.state()  # 5 entries so far; whether anything changed, and the text of the history
        for _ in range(10):
            shown.state()  # whether anything changed
        view.APART = 60.0
        for _ in range(10):
            shown.state()  # nothing: another page has just looked
        self.assertEqual(shown.needs(3)["needs"], [3])
        self.assertEqual(shown.state()["edits"][2]["needs"], [3])  # the question alone
        for _ in range(3):
            shown.state(view.Sight(3))  # who needs those in sight of which it isn't known: edits 4 and 5, once
        self.assertEqual(server.settled()[0], 5 + 2 + 10 + 1 + 2)

    def test_bodies_of_no_length_or_of_too_much(self):
        self.open(Workbook.run(PROGRAM))
        for length in ("-1", "x", "", "2097153", "9" * 30):
            with self.subTest(length):
                with socket.create_connection(("127.0.0.1", self.port), 10) as raw:
                    raw.sendall(f"POST {self.key}/do HTTP/1.1\r\nHost: 127.0.0.1:{self.port}\r\nContent-Length: {length}\r\n\r\nxx".encode())
                    told = b"".join(iter(lambda: raw.recv(1000), b""))  # until it is closed
                self.assertIn(b" 413 ", told)
        self.assertEqual(self.ask("/do", [1])[0], 400)
        self.assertFalse(self.ask("/do", {"op": "redo"})[1]["ok"])

    def test_nothing_from_elsewhere_runs_in_the_page(self):
        self.open(Workbook.run(PROGRAM))
        asked = http.client.HTTPConnection("127.0.0.1", self.port, timeout=10 * PATIENCE)
        asked.request("GET", self.key + "/", headers={"Sec-Fetch-Site": "none"})
        answer = asked.getresponse()
        answer.read()
        asked.close()
        policy = answer.getheader("Content-Security-Policy") or ""
        self.assertIn("default-src 'none'", policy)
        self.assertNotIn("unsafe", policy)

    def test_a_program_that_is_gone(self):
        book = Workbook.run(PROGRAM)
        self.open(book)
        self.lines("D = {1..2}")
        last = self.ask("/state")[1]
        book.close()
        status, told = self.ask("/state")
        self.assertEqual((status, told["tries"], told["unanswered"], told["state"]), (503, False, [], last))
        self.assertIsNone(self.ask("/state?seen=" + last["version"])[1]["state"])
        status, told = self.ask("/do", {"line": "A over D"})
        self.assertEqual((status, told["sent"]), (503, False))
        for path in ("/text", "/needs?k=1", "/csv?a=A"):
            self.assertEqual(self.ask(path)[0], 503)


if __name__ == "__main__":
    unittest.main()
