"""The session for people: its tables, its words, and the README's transcript."""

import io
import os
import re
import shutil
import subprocess
import sys
import tempfile
import unittest

from tests.support import HERE, LONG, PROGRAM, Server, Terminal
from workbook_client import Workbook
from workbook_client.language import WORDS
from workbook_client.session import Session
from workbook_client.tables import Cell, columns, elements_table, grid, plain
from workbook_client.terminal import prompt

PACKAGE = HERE.parents[1]


class Tables(unittest.TestCase):
    def test_a_row(self):
        lines = ["┌───┬─────┐", "│ 1 │   2 │", "├───┼─────┤", "│ 0 │ -15 │", "└───┴─────┘"]
        self.assertEqual(elements_table({1: 0, 2: -15}, 80).splitlines(), lines)

    def test_rows_and_columns(self):
        table = elements_table({(1, 1): 1, (1, 2): 2, (2, 1): 3, (2, 2): 4}, 80)
        self.assertEqual(table.splitlines()[3:5], ["│ 1 │ 1 │ 2 │", "│ 2 │ 3 │ 4 │"])

    def test_a_hole_of_a_sparse_domain(self):
        self.assertIn("│ 1 │ · │ 5 │", elements_table({(1, 9): 5, (2, 3): 6}, 80))

    def test_nothing_is_wider_than_the_terminal(self):
        for values in ({i: 10**i for i in range(15)}, {(i, j): i * 10**j for i in range(5) for j in range(15)}):
            for width in (20, 33, 80):
                table = elements_table(values, width)
                self.assertLessEqual(max(map(columns, table.splitlines())), max(width, 24))
                self.assertEqual(table.count("┌"), table.count("┘"))
        bands = elements_table({(i, j): 0 for i in range(2) for j in range(30)}, 40).split("┌")[1:]
        self.assertGreater(len(bands), 2)
        for band in bands:  # each has the rows' numbers
            self.assertRegex(band, "│ 1 │ +0 │")

    def test_large_arrays_are_cut(self):
        self.assertIn("more rows", elements_table({(i, 1): 0 for i in range(100)}, 80))
        self.assertIn("more elements", elements_table({i: 0 for i in range(1000)}, 80))

    def test_wide_letters(self):
        self.assertEqual((columns("é"), columns("e\u0301"), columns("表")), (1, 1, 2))
        lines = elements_table({"表": 1, "a": 2}, 80).splitlines()
        self.assertEqual(len(set(map(columns, lines))), 1)

    def test_colours_come_after_the_widths(self):
        coloured = grid(["a"], [[Cell("12", 1)]], 80)
        self.assertIn("\x1b[33m12\x1b[0m", coloured)
        self.assertEqual(plain(coloured), grid(["a"], [[Cell("12")]], 80))


class Talk(unittest.TestCase):
    def setUp(self) -> None:
        self.wb = Workbook.run(PROGRAM)
        self.addCleanup(self.wb.close)
        self.session = Session(self.wb, io.StringIO(), width=80)

    def say(self, *lines: str) -> str:
        """What the last of these lines gives."""
        for line in lines:
            self.session.out = io.StringIO()
            self.session.line(line)
        return str(getattr(self.session.out, "getvalue")())

    def test_help_has_every_word_of_the_language(self):
        told = self.say("help")
        words = set(re.findall(r"[A-Za-z]+", told))
        self.assertEqual({*WORDS, "blockDist", "cyclicDist", "blockCycDist", "none", "translate", "expand"} - words, set())
        for sign in ("..<", "..#", "+=", "-=", "*=", "|=", "&=", "^=", "//"):
            self.assertIn(sign, told)

    def test_words_for_a_desk_are_for_a_desk(self):
        """In a session alone there is nobody to tell, and at a desk that gives each seat once nothing is told."""
        for line in ("who", "hello Ben"):
            with self.subTest(line):
                self.assertIn("that is for a desk: nobody else is here", self.say(line))
                self.assertTrue(self.session.failed)
        self.assertIn("expected your name, as in hello Ben", self.say("hello"))
        self.assertIn("edit 1", self.say("hello = {1..4}"))
        server = Server(seats=1)
        self.addCleanup(server.close)
        self.session = Session(server.connect(), io.StringIO(), width=200)
        self.assertIn("this desk gives each seat once, and tells nothing of who has one", self.say("who"))
        self.assertIn("the desk does not take the name 'Ben': only one that stays", self.say("hello Ben"))

    def test_exit_is_quit(self):
        self.assertFalse(self.session.line("exit"))
        self.assertFalse(self.session.line(" quit "))
        self.assertTrue(self.session.line("exit = {1..4}"))
        self.assertIn("exit", self.wb.print_text())

    def test_blocked_says_what_to_do_next_and_that_works(self):
        told = self.say("D = {1..4}", "A over D", "A[1] = 5", "A[2] = A[1] + 1", "undo 3")
        self.assertIn("Blocked by edit 4 (A[2] = A[1] + 1)", told)
        self.assertIn("next: undo 4 first, or cascade 3 takes back 4 and 3", told)
        self.assertTrue(self.session.failed)
        self.assertIn("edits 4 and 3 taken back, 2 cells", self.say("cascade 3"))
        self.assertIn("E12", self.say("dependents 3"))
        self.assertIn("nobody needs edit 2", self.say("dependents 2"))

    def test_many_dependents(self):
        self.say("D = {1..4}", "A over D", *["A[1] += 1"] * 60)
        told = self.say("dependents 2").splitlines()
        self.assertEqual((told[0], told[39]), ("  edit 3: A[1] = A[1] + 1", "  edit 42: A[1] = A[1] + 1"))
        self.assertEqual(told[40:], ["  and 20 more", "  cascade 2 takes back 62, 61, 60, 59, 58, 57, 56, 55, .. and 2, 61 edits"])

    def test_a_transaction(self):
        """What is gathered is told, is in no question, and becomes one edit, of which the history has the note."""
        self.say("D = {1..4}", "A over D")
        self.assertIn("begun: what you change now is gathered", self.say("begin"))
        self.assertEqual(self.say("A[1] = 5"), "  gathered, 1 edit so far\n")
        self.assertEqual(self.say("A[1]"), "  0\n  without the 1 edit that is gathered\n")
        self.assertEqual(self.say("E = {1..2}", "E = {1..3}", "B over E", "B += B", "B[3] = 7"), "  gathered, 6 edits so far\n")
        self.assertEqual(self.say("names").splitlines()[-1], "  without the 6 edits that are gathered")
        self.assertEqual(self.wb.counts(), (2, 10))
        self.assertEqual(self.say("begin"), "  begun already, with 6 edits\n  1: A[1] = 5\n  2: E = {1..2}\n  3: E = {1..3}\n  4: B over E\n"
                                            "  5: B += B\n  6: B[3] = 7\n")
        self.assertEqual(self.say('commit "March forecast"'), "  edit 3, 10 cells: March forecast\n")
        self.assertEqual(self.say("note 3").splitlines()[:3], ["  edit 3: March forecast", "  1: A[1] = 5", "  2: E = {1..2}"])
        self.assertEqual(self.say("note 2"), "  edit 2 has no note\n")
        self.assertEqual(self.say("note 4"), "  note 4: there is no such edit. (E11, no-such-edit)\n")
        self.assertIn('│ 3    │ me  │ "March forecast": A[1] = 5;', self.say("history"))
        self.assertEqual(self.say("A[1]"), "  5\n")
        self.assertIn('edit 3 is taken back, 10 cells: "March forecast": A[1] = 5', self.say("undo"))
        self.assertIn("nothing is called B", self.say("B"))

    def test_a_transaction_that_is_refused_or_dropped(self):
        """It stays gathered where it is refused."""
        self.say("D = {1..4}", "A over D", "begin", "A[1] = 5", "A[9] = 6", "A[2] = 7")
        told = " ".join(self.say('commit "why"').split())
        self.assertIn("edit 2 of 3, A[9] = 6: the index or locale isn't there; look at the domain, or let it grow first. (E06, out-of-domain) "
                      "Nothing of the transaction was made. what is gathered stays gathered: `abandon 2` leaves that edit out, `abandon` drops all "
                      "A over D = {1..4}", told)
        self.assertEqual((self.session.gathered(), self.wb.counts()[0]), (3, 2))
        self.assertEqual(self.say("abandon 2"), "  left out: A[9] = 6; 2 edits gathered\n")
        self.assertIn("no edit is gathered at place 3: there are 2", self.say("abandon 3"))
        self.assertIn("a note has 256 bytes at most", self.say('commit "a\\b"'))
        self.assertEqual(self.say("commit"), "  edit 3, 2 cells\n")
        for line in ("commit", "abandon", "abandon 1"):
            self.assertIn("no transaction was begun: `begin` begins one", self.say(line))
        self.assertEqual(self.say("begin", "A[1] = 6", "abandon"), "  1 edit dropped, and nothing changed\n")
        self.assertEqual(self.say("begin", 'commit "why"'), "  nothing was gathered, so nothing changed\n")
        self.say("begin")
        for line in ("undo", "redo 3", "cascade 3", "load x", "import B x"):
            with self.subTest(line):
                self.assertIn("is no part of a transaction: commit it first, or abandon it", self.say(line))
                self.assertTrue(self.session.failed)
        self.assertEqual(self.wb.counts()[0], 3)

    def test_a_line_that_is_not_read_in_a_transaction(self):
        self.say("begin", "D = {1..4}", "E = {1..9223372036854775807}")
        told = " ".join(self.say("commit").split())
        self.assertIn("edit 2 of 2, E = {1..9223372036854775807}", told)
        self.assertIn("`abandon 2` leaves that edit out", told)
        self.assertIn("edit 1, 3 cells", self.say("abandon 2", "commit"))

    def test_a_blocked_redo(self):
        told = self.say("D = {1..4}", "A over D", "A[1] = 5", "undo 3", "A[1] = 6", "redo 3")
        self.assertIn("next: undo 4 first; then redo 3, and redo 4", told)

    def test_the_mark_stands_under_the_column(self):
        told = self.say("D = {1..4}", "A over D", "A[4 = 9")
        self.assertEqual(told.splitlines()[:2], ["  A[4 = 9", "      ^"])
        self.session.out = io.StringIO()
        self.session.line("A[4 = 9", "workbook> ")
        self.assertEqual(self.session.out.getvalue().splitlines()[0], " " * (10 + 4) + "^")

    def test_history_and_names(self):
        told = self.say("D = {1..4}", "A over D", "A[4] = 9", "undo", "history")
        self.assertIn("│ 3    │ me  │ A[4] = 9   │ 1     │ taken back │", told)
        rows = [line for line in self.say("history 3").splitlines() if "│" in line]
        self.assertEqual(rows, ["│ edit │ who │ what     │ cells │ now        │", "│ 3    │ me  │ A[4] = 9 │ 1     │ taken back │"])
        self.assertEqual(self.say("history 4"), "  no edits from 4 on\n")
        told = self.say("names")
        self.assertIn("│ A    │ array  │ over D │", told)

    def test_a_refusal_tells_what_is_there(self):
        self.say("Plan = {1..4}", "Hours over Plan", "S sparse Plan")
        for line, hint in [
            ("Hours[9] = 1", "Hours over Plan = {1..4}"),
            ("Hors[1] = 2", "is it Hours?"),
            ("Hours[1] = X[2]", "there is Hours, Plan, S"),
            ("Hours over Plan", "Hours over Plan = {1..4}"),
            ("drop Plan", "on Plan stand: Hours, S"),
            ("S += 9", "Plan = {1..4}"),
            ("Hours[1, 2]", "Hours over Plan = {1..4}"),
        ]:
            with self.subTest(line):
                self.assertEqual(self.say(line).splitlines()[-1].strip(), hint)

    def test_a_reduction_of_what_is_no_array(self):
        self.assertIn("E04", self.say("+ reduce X"))
        self.assertIn("E05", self.say("D = {1..4}", "+ reduce D"))

    def test_colours(self):
        told = self.say("D = {1..2} dmapped cyclicDist(1, [2])", "A over D", "colours on", "A")
        self.assertIn("\x1b[36mlocale 0\x1b[0m  \x1b[33mlocale 1\x1b[0m", told)
        self.assertNotIn("\x1b", self.say("colours off", "A"))

    def test_a_save_that_fails_leaves_what_was_there(self):
        with tempfile.TemporaryDirectory() as place:
            path = os.path.join(place, "book")
            self.say("D = {1..4}", f"save {path}")
            with open(path, encoding="utf-8") as file:
                text = file.read()
            os.chmod(place, 0o500)
            try:
                told = self.say("E = {1..4}", f"save {path}")
            finally:
                os.chmod(place, 0o700)
            if os.geteuid() != 0:  # who may do everything may do that too
                self.assertIn("Permission denied", told)
                with open(path, encoding="utf-8") as file:
                    self.assertEqual(file.read(), text)
            self.assertEqual(os.listdir(place), ["book"])
            self.assertIn("Is a directory", self.say(f"save {place}"))

    def test_a_long_table_has_pages(self):
        names = ", ".join(f'"n{i}"' for i in range(100, 200))
        self.say("D = {1..100, 1..2}", "A over D", "A[90, 1] = 7", "N = text", f"N |= {{{names}}}", "P over N")
        self.say("R = {1..400}", "B over R", "C = {1..10, 1..1, 1..1}", "E over C")
        for line, first, pages, many in (("A", r"│ +(\d+) │ ", 3, 100), ("P", r"│ n(\d+) +│ ", 3, 100), ("E", r"\[(\d+), .., ..\]", 2, 10)):
            told = [self.say(line), *(self.say("more") for _ in range(pages - 1))]
            seen = [int(n) for page in told for n in re.findall(f"^{first}", page, re.M)]
            with self.subTest(line):
                self.assertEqual([page.count("`more` goes on") for page in told], [1] * (pages - 1) + [0])
                self.assertEqual((seen, len(seen)), (sorted(set(seen)), many))
                self.assertIn("no table was shown that goes on", self.say("more"))
        self.assertEqual(told[0].splitlines()[-1], "  … and 2 more planes; `more` goes on")
        self.assertIn("and 80 more elements; `more` goes on", self.say("B"))
        self.assertRegex(self.say("more"), "\n│ 321 │")
        self.say("A[2..50, 1..2]")
        self.assertIn("│ 50 │ 0 │ 0 │", self.say("more"))
        told = self.say("show A / 10", "more", "more")
        self.assertEqual((told.count("│ 90 │ 0.7 │"), told.count("│ 100 │"), told.count("│  81 │")), (0, 1, 1))
        self.assertIn("│  90 │ 0.7 │", told)

    def test_what_a_terminal_would_obey_is_not_printed(self):
        self.wb.assoc("T", "text").add("a\x9bb\u202ec")
        self.wb.array("P", "T")
        self.assertIn("│ a\ufffdb\ufffdc │       0 │", self.say("P"))

    def test_save_and_load(self):
        with tempfile.TemporaryDirectory() as place:
            path = os.path.join(place, "my book.txt")
            self.say("D = {1..2, 1..3}", "A over D", "A = 4", "A[1, 2] = -1", f"save {path}")
            text = self.wb.print_text()
            with Workbook.run(PROGRAM) as other:
                Session(other, io.StringIO()).line(f"load {path}")
                self.assertEqual(other.print_text(), text)
            self.assertIn("No such file", self.say(f"load {path}.gone"))

    def test_a_shared_workbook(self):
        server = Server(seats=2)
        self.addCleanup(server.close)
        self.session.book, other = server.connect(), server.connect()
        self.say("D = {1..4}", "A over D", "A[1] = 5")
        other["A"][1] = 6
        told = self.say("undo 3")
        self.assertIn("Blocked by edit 4 of another seat (A[1] = 6): it is later", told)
        self.assertIn("│ 4    │ another │ A[1] = 6   │       │ in force │", self.say("history"))
        other["A"][2], other["A"][3] = 8, 9
        told = self.say("A[1] = 7").splitlines()
        self.assertEqual(told, ["  edit 7, 1 cell", "  before it came edits 5 and 6 of other seats; history shows what everybody did"])
        self.assertEqual(self.say("A[1] = 8"), "  edit 8, 1 cell\n")
        other["A"][4] = 1
        self.assertEqual(self.say("undo"), "  edit 9 of another seat is taken back, 1 cell: A[4] = 1\n")
        self.assertIn("│ 6    │ another │ A[3] = 9   │       │ in force   │", self.say("history"))
        with other.pipeline():
            for i in range(12):
                other["A"][4] = i
        self.assertIn("before it came 12 edits of other seats", self.say("A[1] = 9"))


class Whole(unittest.TestCase):
    """`python3 -m workbook_client`, as it is started."""

    def run_with(self, script: str, *words: str) -> "subprocess.CompletedProcess[str]":
        return subprocess.run(
            [sys.executable, "-m", "workbook_client", "--program", PROGRAM, *words],
            input=script, capture_output=True, text=True, cwd=PACKAGE, timeout=LONG,
        )

    def test_statuses(self):
        self.assertEqual(self.run_with("D = {1..4}\n").returncode, 0)
        stopped = self.run_with("A[1] = 2\nD = {1..4}\n")
        self.assertEqual((stopped.returncode, stopped.stdout.count("edit 1")), (1, 0))
        self.assertEqual(self.run_with("A[1] = 2\nD = {1..4}\n", "--keep-going").stdout.count("edit 1"), 1)
        gone = subprocess.run(
            [sys.executable, "-m", "workbook_client", "--program", "/no/such"], capture_output=True, text=True, cwd=PACKAGE,
        )
        self.assertEqual(gone.returncode, 3)
        self.assertIn("there is no program", gone.stderr)

    def test_a_script_that_begins_a_transaction(self):
        """Nothing of it is made unless it is committed, whatever ends the script."""
        done = self.run_with("D = {1..4}\nbegin\nA over D\nA[1] = 5\ncommit \"a plan\"\n")
        self.assertEqual((done.returncode, done.stdout.splitlines()[-1]), (0, "  edit 2, 7 cells: a plan"))
        for end in ("", "quit\n", "A[1 = 5\n"):
            left = self.run_with("D = {1..4}\nbegin\nA over D\nE over D\n" + end)
            self.assertEqual((left.returncode, left.stdout.splitlines()[-1]), (1, "  2 edits are gathered and not made, since no commit came"))
        self.assertEqual(self.run_with("begin\n").returncode, 0)

    def test_what_is_no_program_and_no_server_is_told_in_a_sentence(self):
        with tempfile.TemporaryDirectory() as place:
            junk = os.path.join(place, "junk")
            with open(junk, "wb") as file:
                file.write(b"\x00no program")
            os.chmod(junk, 0o755)
            echo = shutil.which("echo") or "echo"
            for words, why in [
                (["--program", "/no/such"], "there is no program"), (["--program", place], "there is no program"),
                (["--resume", "/no/such"], "/no/such: No such file"), (["--resume", place], f"{place}: Is a directory"), ([place], "no regular file"),
                (["--resume", sys.executable], "is no text in UTF-8"),
                (["--program", junk], "can't be started"), (["--program", echo], "no reply of a workbook"),
                (["--program", shutil.which("true") or "true"], "has ended with status 0"),
                (["--connect", "127.0.0.1:1"], "nobody listens"), (["--connect", "127.0.0.1:99999"], "a port is 1 to 65535"),
                (["--connect", "a..b:7"], "nobody listens"), (["--connect", "localhost"], "wanted is HOST:PORT"),
                (["--connect", "http://127.0.0.1:70x"], "wanted is HOST:PORT"), (["--connect", junk], f"nobody listens at {junk}: Connection refused"),
                (["--connect", "/no/such"], "nobody listens at /no/such: No such file"),
                (["--connect", "127.0.0.1:0"], "a port is 1 to 65535"),
            ]:
                for module in ("workbook_client", "workbook_client.page"):
                    with self.subTest(" ".join([module, *words])):
                        gone = subprocess.run(
                            [sys.executable, "-m", module, *words], input="", capture_output=True, text=True, cwd=PACKAGE, timeout=LONG,
                        )
                        self.assertEqual((gone.returncode, gone.stdout), (2 if "HOST" in why or "a port" in why else 3, ""))
                        self.assertIn(why, gone.stderr)
                        self.assertNotIn("Traceback", gone.stderr)

    def test_what_is_no_script_is_told_in_a_sentence(self):
        with tempfile.TemporaryDirectory() as place:
            for path, why in ((place, ": Is a directory"), (place + "/x", ": No such file or directory"), (sys.executable, " is no text in UTF-8")):
                gone = self.run_with("", "--file", path)
                self.assertEqual((gone.returncode, gone.stdout, gone.stderr), (3, "", f"workbook_client: {path}{why}\n"))

    def test_a_server_whose_seats_are_taken(self):
        server = Server(seats=1)
        self.addCleanup(server.close)
        server.connect()
        for module in ("workbook_client", "workbook_client.page"):
            gone = subprocess.run(
                [sys.executable, "-m", module, "--connect", f"127.0.0.1:{server.port}"],
                input="", capture_output=True, text=True, cwd=PACKAGE, timeout=LONG,
            )
            self.assertEqual((gone.returncode, gone.stdout), (3, ""))
            self.assertIn("all its seats are taken", gone.stderr)

    def test_a_session_that_is_kept_and_gone_on_with(self):
        with tempfile.TemporaryDirectory() as place:
            path = os.path.join(place, "plan")
            kept = self.run_with(f"D = {{1..4}}\nA over D\nA[1] = 5\nundo\nkeep {path}\n")
            self.assertIn("3 edits, 2 in force", " ".join(kept.stdout.split()))
            told = self.run_with("redo 3\nA[1]\nhistory\n", "--resume", path)
            self.assertEqual(told.returncode, 0)
            self.assertIn("\n  5\n", told.stdout)
            self.assertIn("│ 3    │ before │ A[1] = 5", told.stdout)
            with open(path, "a", encoding="utf-8") as file:
                file.write("more\n")
            for words, why in (([path], "no text of a history"), ([path + ".gone"], "No such file"), ([path, "--connect", ":1"], "seats")):
                gone = subprocess.run([sys.executable, "-m", "workbook_client", "--resume", *words], capture_output=True, text=True, cwd=PACKAGE)
                self.assertEqual((gone.returncode, why in gone.stderr), (3, True), gone.stderr)

    def at_a_terminal(self, *words: str) -> Terminal:
        terminal = Terminal("workbook_client", "--program", PROGRAM, *words)
        self.addCleanup(terminal.close)
        return terminal

    def test_at_a_terminal(self):
        """A prompt, completion by Tab, Ctrl-C, and the mark under the typed line."""
        terminal = self.at_a_terminal()
        self.assertIn("kept nowhere", terminal.until("workbook> "))
        terminal.types("Plan = {1..4}\n")
        terminal.until("edit 1, 3 cells")
        terminal.until("workbook> ")
        terminal.types("A over Pl\t\n")
        self.assertIn("A over Plan", terminal.until("edit 2, 7 cells"))
        terminal.until("workbook> ")
        terminal.types("A[4 = 9\n")
        self.assertIn("\n" + " " * 14 + "^", terminal.until("expected").replace("\r", ""))
        terminal.until("workbook> ")
        for _ in range(20):  # as Ctrl-C: the line goes, the workbook stays
            terminal.interrupt()
            if not terminal.waits(0.5):  # else it came before it was waited for
                break
        terminal.until("workbook> ")
        terminal.types("A[4] += 3\n")
        terminal.until("edit 3, 1 cell")

    def test_a_session_that_is_kept_nowhere_is_asked_about(self):
        with tempfile.TemporaryDirectory() as place:
            path = os.path.join(place, "plan")
            terminal = self.at_a_terminal()
            terminal.until("workbook> ")
            terminal.types("D = {1..4}\n")
            terminal.until("workbook> ")
            for leave, answer in (("quit\n", "n\n"), ("quit\n", "\n"), ("\x04", "no\n"), ("exit\n", "why?\n")):
                terminal.types(leave)
                self.assertIn("1 edit is kept nowhere, and would be gone", terminal.until("[y/N] "))
                terminal.types(answer)
                terminal.until("workbook> ")
            terminal.types("quit\n")
            terminal.until("[y/N] ")
            terminal.interrupt()
            terminal.until("workbook> ")
            terminal.types("undo\n")
            terminal.until("workbook> ")
            terminal.types(f"keep {path}\n")
            terminal.until("workbook> ")
            terminal.types("size D\n")
            terminal.until("workbook> ")
            terminal.types("quit\n")  # it is kept, and nothing changed since
            self.assertEqual(terminal.ends(), 0)
            terminal = self.at_a_terminal("--resume", path)
            terminal.until("workbook> ")
            terminal.types("redo 1\n")  # an undo and a redo change it too
            terminal.until("workbook> ")
            terminal.types("\x04")
            terminal.until("[y/N] ")
            terminal.types("\x04")
            self.assertEqual(terminal.ends(), 0)

    def test_what_is_gathered_stands_in_the_prompt_and_is_asked_about(self):
        with tempfile.TemporaryDirectory() as place:
            terminal = self.at_a_terminal(os.path.join(place, "plan.wb"))
            for line, prompt in (
                ("D = {1..4}", ""), ("begin", " (0 gathered)"), ("A over D", " (1 gathered)"), ("A[1] = 5", " (2 gathered)"),
                ("A[1 = 5", " (2 gathered)"),
            ):
                terminal.until("> ")
                terminal.types(line + "\n")
                told = terminal.until(f"workbook{prompt}> ")
                terminal.types("\n")
            self.assertIn("\n" + " " * (len("workbook (2 gathered)> ") + 4) + "^", told.replace("\r", ""))
            for leave in ("quit\n", "\x04"):
                terminal.until("> ")
                terminal.types(leave)
                self.assertIn("2 edits are gathered and not made, and would be gone; commit makes them", terminal.until("[y/N] "))
                terminal.types("n\n")
            terminal.until("> ")
            terminal.types('commit "a plan"\n')
            terminal.until("edit 2, 7 cells: a plan")
            terminal.until("workbook> ")
            terminal.types("quit\n")
            self.assertEqual(terminal.ends(), 0)

    def test_a_session_where_nothing_was_done_is_left_at_once(self):
        for leave in ("quit\n", "\x04"):
            terminal = self.at_a_terminal()
            terminal.until("workbook> ")
            terminal.types("D[1] = 4\n")
            terminal.until("workbook> ")
            terminal.types(leave)
            self.assertEqual(terminal.ends(), 0)

    def test_the_code_of_the_readme(self):
        """Each print gives what its remark says."""
        text = (PACKAGE / "README.md").read_text(encoding="utf-8")
        code = re.search(r"```python\n(.*?)```", text, re.S)[1]
        wanted = re.findall(r"print\(.*\) +# (.*)", code)
        told = subprocess.run(
            [sys.executable, "-c", code], capture_output=True, text=True, cwd=PACKAGE, timeout=LONG,
            env={**os.environ, "WORKBOOK_PROGRAM": PROGRAM},
        )
        self.assertEqual(told.stdout.splitlines(), wanted, told.stderr)

    def test_the_transcript_of_the_readme(self):
        """And the transaction below it, which goes on from there."""
        text = (PACKAGE / "README.md").read_text(encoding="utf-8")
        blocks = [re.search(rf"<!-- {name} -->\n```text\n(.*?)```", text, re.S)[1] for name in ("transcript", "a transaction")]
        with Workbook.run(PROGRAM) as wb:
            session = Session(wb, io.StringIO(), width=80)
            for wanted in blocks:
                session.out = io.StringIO()
                for line in re.findall(r"^workbook(?: \(\d+ gathered\))?> (.*)$", wanted, re.M):
                    session.say(prompt(session) + line)
                    session.line(line, prompt(session))
                self.assertEqual(session.out.getvalue(), wanted)


if __name__ == "__main__":
    unittest.main()
