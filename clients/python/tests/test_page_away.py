"""A workbook that goes away under the page, and is there again or not: in a real browser."""

import os
import re
import signal
import tempfile
import unittest
from typing import Optional

from tests.browser import CTRL, Browser, InABrowser
from tests.support import PROGRAM, Server, Terminal
from workbook_client import Workbook

CELL = ".value[data-key='A[1]']"


class Away(InABrowser):
    def says_it_is_away(self, browser: Browser, *words: str) -> None:
        browser.until("document.body.classList.contains('lost')")
        for each in words:
            self.assertIn(each, browser.text("#away"))

    def says_it_is_there(self, browser: Browser, *words: str) -> None:
        browser.until("!document.body.classList.contains('lost')")
        for each in words:
            self.assertIn(each, browser.text("#away"))

    def dies(self, book: Workbook, how: int = signal.SIGKILL) -> None:
        """The program of a workbook is ended, or stopped."""
        os.kill(book.exchange.channel._process.pid, how)

    def desk(self, port: int = 0, resume: Optional[str] = None) -> Server:
        server = Server(seats=3, port=port, resume=resume)
        self.addCleanup(server.close)
        return server

    def test_a_desk_that_is_there_again(self):
        desk = self.desk()
        book = desk.connect()
        browser = self.open(book)
        self.line(browser, "D = {1..2}", "A over D", "A[1] = 5")
        other = desk.connect()
        other["A"][2] = 6
        self.shows(browser, "A[2]", 6)
        text = other.history_text()
        desk.kill()
        self.says_it_is_away(browser, f"127.0.0.1:{desk.port}", "What you see is as it was at", "It is tried again.")
        self.assertEqual(browser.text(CELL), "5")  # it keeps what it shows
        self.line(browser, "A[1] = 7")
        self.says(browser, "Not sent, since the workbook isn't there now: A[1] = 7")
        browser.go(browser.js("location.href"))  # also where it is loaded anew
        self.says_it_is_away(browser, "What you see is as the page's server had it last.")
        self.shows(browser, "A[1]", 5)
        again = self.desk(desk.port, text)
        self.says_it_is_there(browser, "is there again, with 4 edits; nothing was done meanwhile")
        self.line(browser, "A[1] = 8")
        self.shows(browser, "A[1]", 8)
        whose = "[...document.querySelectorAll('.edits li .meta')].map(x => x.innerText.split(' ')[0]).join(' ')"
        self.assertEqual(browser.js(whose), "me another me me me")
        browser.click("#away button")
        self.assertTrue(browser.js("document.getElementById('away').hidden"))
        with again.connect() as seen:
            self.assertEqual(list(seen["A"]), [8, 6])

    def test_what_was_done_meanwhile(self):
        desk = self.desk()
        browser = self.open(desk.connect())
        self.line(browser, "D = {1..2}", "A over D", "A[1] = 5")
        other = desk.connect()
        A = other["A"]
        A[2] = 6
        self.shows(browser, "A[2]", 6)
        with self.held() as book:
            book.exchange.channel.close()  # the page's seat alone is cut
        other.undo(3)
        A[2] = 9
        self.says_it_is_there(browser)
        browser.until("document.getElementById('away').innerText.includes('new meanwhile: 5; taken back: 3')")
        self.assertIn("your edit 3 (A[1] = 5) was taken back by another", browser.text("#notices"))
        self.shows(browser, "A[1]", 0)
        self.shows(browser, "A[2]", 9)

    def test_another_workbook_is_there(self):
        desk = self.desk()
        browser = self.open(desk.connect())
        self.line(browser, "D = {1..2}", "A over D", "A[1] = 5", "undo 3")
        desk.kill()
        self.says_it_is_away(browser)
        self.desk(desk.port)
        self.says_it_is_there(browser, "with 0 edits. It isn't the workbook that was shown before")
        browser.until("document.getElementById('objects').innerText.includes('The workbook is empty')")

    def test_a_program_with_a_journal(self):
        """What was sent and not answered is told; whether it was done shows when the file is opened again."""
        with tempfile.TemporaryDirectory() as place:
            path = os.path.join(place, "plan.wb")
            book = Workbook.run(PROGRAM, journal=path)
            browser = self.open(book)
            self.assertEqual(browser.text("#where"), f"kept in {path}: each change is on the disk before it is told")
            self.line(browser, "D = {1..2}", "A over D", "A[1] = 5")
            self.dies(book, signal.SIGSTOP)
            browser.click("#words")
            browser.type("A[2] = 6")
            browser.key("Enter")
            self.says(browser, "No answer yet, so it is waited for: A[2] = 6")
            self.dies(book)
            self.says_it_is_away(browser, "Sent and not answered, so perhaps done: A[2] = 6.", path)
            self.says_it_is_there(browser, "is there again, with 3 edits; nothing was done meanwhile", "perhaps done: A[2] = 6")
            self.assertEqual(browser.js("document.getElementById('words').value"), "A[2] = 6")  # what had no answer stays there
            browser.js("document.getElementById('words').value = ''")
            browser.click("#note")
            browser.type("why")
            self.line(browser, "A[2] = 7")
            self.shows(browser, "A[2]", 7)
            with self.held() as now:
                self.assertEqual((list(now["A"]), now.note(4)), ([5, 7], "why"))
            with open(path, encoding="utf-8") as file:
                changes = [line for line in file if '"op"' in line]
            self.assertEqual((len(changes), '"v":7' in changes[-1]), (4, True))  # what had no answer isn't sent again

    def test_a_transaction_that_was_not_answered(self):
        """A paste is told with its note, and the history of the file says whether it was done: not, since its program was stopped."""
        with tempfile.TemporaryDirectory() as place:
            book = Workbook.run(PROGRAM, journal=os.path.join(place, "plan.wb"))
            browser = self.open(book)
            browser.do("Browser.grantPermissions", permissions=["clipboardReadWrite", "clipboardSanitizedWrite"])
            self.line(browser, "D = {1..2}", "A over D")
            browser.click(CELL)
            self.dies(book, signal.SIGSTOP)
            browser.js("navigator.clipboard.writeText('7\\t8')")
            browser.key("v", CTRL)
            self.says(browser, "No answer yet, so it is waited for: 2 cells of A")
            self.dies(book)
            self.says_it_is_away(browser, 'Sent and not answered, so perhaps done: "paste": A[1..2] = [7, 8].')
            self.says_it_is_there(browser, "is there again, with 2 edits; nothing was done meanwhile")
            browser.click(CELL)
            browser.key("v", CTRL)
            self.shows(browser, "A[2]", 8)
            self.assertEqual(browser.text(".edits li[data-k='3'] .why"), "paste")

    def test_a_program_whose_workbook_was_kept_nowhere(self):
        book = Workbook.run(PROGRAM)
        browser = self.open(book)
        self.assertIn("kept nowhere", browser.text("#where"))
        self.line(browser, "D = {1..2}", "A over D", "A[1] = 5")
        self.dies(book)
        self.says_it_is_away(browser, "The program has ended with status -9", "It isn't tried again.")
        self.assertEqual(browser.text(CELL), "5")

    def test_the_pages_server_is_gone(self):
        with tempfile.TemporaryDirectory() as place:
            path = os.path.join(place, "plan.wb")
            terminal = Terminal("workbook_client.page", path, "--port", "0")
            self.addCleanup(terminal.close)
            address = re.search("http://[^ ]*", terminal.until(" (Ctrl-C"))[0]
            browser = self.browser
            self.go(address)
            browser.until("document.title === 'plan.wb · workbook'")
            self.line(browser, "D = {1..2}", "A over D", "A[1] = 5")
            terminal.process.send_signal(signal.SIGSTOP)
            os.waitpid(terminal.process.pid, os.WUNTRACED)  # it has stopped: a thread of its may answer before
            browser.click("#words")
            browser.type("A[1] = 6")
            browser.key("Enter")
            self.says(browser, "No answer yet, so it is waited for: A[1] = 6")
            terminal.process.kill()
            self.says_it_is_away(
                browser, "The page's server is gone", "What you see is as it was at", "Sent and not answered, so perhaps done: A[1] = 6."
            )
            self.assertEqual(browser.text(CELL), "5")
            port = address.split(":")[2].split("/")[0]
            again = Terminal("workbook_client.page", path, "--port", port)
            self.addCleanup(again.close)
            again.until(" (Ctrl-C")
            browser.until("document.getElementById('away').innerText.includes('Another server of a page is there now')")
            self.assertEqual(browser.text(CELL), "5")


if __name__ == "__main__":
    unittest.main()
