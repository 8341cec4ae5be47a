"""The page in a real browser: a headless Chromium, where there is one."""

import os
import tempfile
import unittest
from http.server import BaseHTTPRequestHandler, ThreadingHTTPServer

from tests.browser import CTRL, InABrowser
from tests.support import PROGRAM, Server
from workbook_client import Workbook
from workbook_client.page import serve

ELSEWHERE = """<!doctype html><title>elsewhere</title><script>
const told = [];
const urls = ["%URL%", "%URL%state?seen=x", "%URL%needs?k=1", "%URL%text", "%URL%history", "%BARE%state", "%BARE%history"];
for (const url of urls) {
  const image = new Image();
  image.onload = () => told.push("an image came");
  image.onerror = () => told.push("refused");
  image.src = url;
  for (const mode of ["cors", "no-cors"])
    fetch(url, {mode}).then(answer => told.push(mode + " " + answer.type + " " + answer.status), () => told.push("refused"));
}
for (const [mode, type] of [["cors", "application/json"], ["no-cors", "text/plain"]])
  fetch("%URL%do", {method: "POST", mode, headers: {"Content-Type": type}, body: '{"line":"D = {1..4}"}'})
    .then(answer => told.push(mode + " " + answer.type + " " + answer.status), () => told.push("refused"));
</script>"""
"""A page of another site, which asks the server for all that it has, by images and by requests, and tells what came of each."""
ASKED = 7 * 3 + 2
"""So many times."""

AT_THE_DOOR = """<!doctype html><title>at the door</title><script>
const told = [];
const desk = "127.0.0.1:%PORT%";
const lines = '{"op":"domain","d":"D","is":"{1..4}"}\\n{"op":"array","a":"A","d":"D"}\\n';
for (const [mode, type] of [["cors", "application/json"], ["cors", "text/plain"], ["no-cors", "text/plain"]])
  fetch("http://" + desk, {method: "POST", mode, headers: {"Content-Type": type}, body: lines})
    .then(answer => told.push(mode + " " + answer.type), () => told.push("refused"));
const image = new Image();
image.onload = () => told.push("an image came");
image.onerror = () => told.push("refused");
image.src = "http://" + desk;
const channel = new WebSocket("ws://" + desk);
channel.onopen = () => { told.push("a channel is open"); channel.send(lines); };
channel.onerror = () => told.push("refused");
</script>
<form method="post" enctype="text/plain" action="http://127.0.0.1:%PORT%/">
<textarea name="x">
{"op":"domain","d":"D","is":"{1..4}"}
{"op":"array","a":"A","d":"D"}
</textarea></form>"""
"""A page of another site, which posts lines to a desk's own port, by requests and by a form, and opens a channel to it."""

CELL = ".value[data-key='A[{}]']"


class Page(InABrowser):
    def test_a_session_of_its_own(self):
        browser = self.open(Workbook.run(PROGRAM))
        browser.until("document.body?.innerText.includes('The workbook is empty')")
        self.line(browser, "D = {1..2, 1..3} dmapped cyclicDist((1, 1), [2, 1])", "A over D")
        browser.click(CELL.format("1, 1"))
        browser.keys("5")
        browser.key("Tab")
        browser.keys("A[1, 1] + 10")
        browser.key("Enter")
        self.shows(browser, "A[1, 2]", 15)
        # a click elsewhere sets too, Escape doesn't
        browser.click(CELL.format("2, 1"))
        browser.keys("8")
        browser.click(CELL.format("2, 2"))
        self.shows(browser, "A[2, 1]", 8)
        browser.keys("77")
        browser.key("Escape")
        browser.until("document.querySelectorAll('.edits li').length === 5")
        # who blocks whom, and a cascade
        browser.until("document.querySelector('.edits li[data-k=\"3\"]').innerText.includes('blocked by 4')")
        self.assertEqual(browser.text(".edits li[data-k='3'] button:not(.link)"), "cascade")
        browser.click(".edits li[data-k='3'] button:not(.link)")
        browser.until("document.querySelector('.edits li[data-k=\"3\"] .look')?.innerText.includes('takes back 4 and 3')")
        self.assertEqual(browser.js("[...document.querySelectorAll('.edits li.lit')].map(x => x.dataset.k).join()"), "4,3")
        browser.key("Escape")  # it was only looked at
        browser.until("document.querySelectorAll('.edits .look').length === 0")
        browser.click(".edits li[data-k='3'] button:not(.link)")
        browser.until("document.activeElement.innerText === 'take back 2 edits'")
        browser.key("Enter")
        browser.until("document.getElementById('said').innerText.includes('edits 4 and 3 taken back')")
        browser.until("document.querySelector('.edits li[data-k=\"4\"]').innerText.includes('taken back')")
        browser.click(".edits li[data-k='3'] button")
        browser.until(f'document.querySelector("{CELL.format("1, 1")}").innerText === "5"')
        # Ctrl-Z takes back the latest edit in force
        browser.js("document.activeElement.blur()")
        browser.key("z", CTRL)
        browser.until(f'document.querySelector("{CELL.format("2, 1")}").innerText === "0"')
        browser.click("#tints")
        self.assertIn("locale 1", browser.text("#objects"))
        self.line(browser, "A[4 = 9")
        self.assertIn("expected ']'", browser.text("#said"))
        self.assertEqual(browser.faults, [])

    def elsewhere(self, text: str) -> int:
        """Another server with one page; its port."""

        class Handler(BaseHTTPRequestHandler):
            def do_GET(self) -> None:
                self.send_response(200)
                self.send_header("Content-Type", "text/html; charset=utf-8")
                self.end_headers()
                self.wfile.write(text.encode())

            def log_message(self, *_: object) -> None:
                pass

        server = ThreadingHTTPServer(("127.0.0.1", 0), Handler)
        server.daemon_threads = True
        self.run_in_background(server)
        return int(server.server_address[1])

    def test_another_site_asks_the_desk_nothing(self):
        """By no image and no request, even where it knew the key: the desk's journal stays as it was."""
        desk = Server(seats=1)
        self.addCleanup(desk.close)
        page = serve(desk.connect())
        self.run_in_background(page)
        bare = page.url[: page.url.rindex("/", 0, -1) + 1]
        port = self.elsewhere(ELSEWHERE.replace("%URL%", page.url).replace("%BARE%", bare))
        browser = self.browser
        for host in ("localhost", "127.0.0.1"):  # another site, and the same site with another origin
            with self.subTest(host):
                self.go(f"http://{host}:{port}/")
                browser.until(f"told.length === {ASKED}")
                told = browser.js("told.filter(x => x !== 'refused' && x !== 'no-cors opaque 0').join()")
                self.assertEqual(told, "")
        self.assertEqual(desk.settled(), (0, "chapel-workbook 1\nend\n"))

    def test_another_site_changes_nothing_at_a_desk(self):
        """A desk hears nothing of a connection whose first line is no object, so no body of a browser's request."""
        desk = Server(seats=16)
        self.addCleanup(desk.close)
        book = desk.connect()
        port = self.elsewhere(AT_THE_DOOR.replace("%PORT%", str(desk.port)))
        browser = self.browser
        self.go(f"http://localhost:{port}/")
        browser.until("told.length === 5")
        self.assertEqual(browser.js("told.filter(x => x !== 'refused').join()"), "")
        browser.js("document.forms[0].submit()")
        browser.until("location.protocol === 'chrome-error:'")
        self.assertEqual(book.print_text(), "chapel-workbook 1\nend\n")
        self.assertEqual(desk.connect().history_text(), "chapel-workbook 2\nhistory 0\nend\n")

    def test_another_site_frames_and_opens_nothing(self):
        page = serve(Workbook.run(PROGRAM))
        self.addCleanup(page.RequestHandlerClass.view.book.close)
        self.run_in_background(page)
        port = self.elsewhere(f"<iframe src='{page.url}'></iframe><a id='link' href='{page.url}'>link</a>")
        browser = self.browser
        self.go(f"http://localhost:{port}/")
        self.assertIsNone(browser.js("document.querySelector('iframe').contentDocument"))
        browser.click("#link")
        browser.until("document.body?.innerText.includes('only the page itself may ask')")
        browser.go(page.url)  # as typed
        browser.until("document.body?.innerText.includes('The workbook is empty')")

    def test_labels_with_direction_marks(self):
        """They are shown without the marks, and edited by their own names."""
        book = Workbook.run(PROGRAM)
        label = "a\u202eb\u2067c"
        book.assoc("T", "text").add(label)
        book.array("P", "T")
        browser = self.open(book)
        browser.until("document.querySelectorAll('.edits li').length === 3")
        browser.click(".value")
        browser.keys("5")
        browser.key("Enter")
        browser.until("document.querySelector('.value').innerText === '5'")
        browser.until("document.querySelectorAll('.edits li').length === 4")
        self.line(browser, f'P["{label}"]')
        self.assertEqual(browser.text("#said").strip(), "5")
        self.assertEqual(browser.text(".box .at"), "a\ufffdb\ufffdc")
        self.assertEqual(browser.js("document.querySelector('.value').title"), 'P["a\ufffdb\ufffdc"]')
        self.assertEqual(browser.text(".edits li[data-k='4'] .what"), 'P["a\ufffdb\ufffdc"] = 5')
        self.line(browser, f'P["{label}x"] = 1')
        self.assertIn("a\ufffdb\ufffdcx", browser.text("#said"))
        marked = "/[\\u061c\\u200e\\u200f\\u202a-\\u202e\\u2066-\\u2069]/.test(document.body?.innerText)"
        self.assertFalse(browser.js(marked))
        self.assertEqual(browser.faults, [])
        with self.held() as now:
            now.exchange.channel.close()
        browser.until("document.body.classList.contains('lost')")
        browser.click(".value")
        browser.keys("6")
        browser.key("Enter")
        self.says(browser, "Not sent, since the workbook isn't there now: P[\"a\ufffdb\ufffdc\"] = 6")
        self.assertFalse(browser.js(marked))

    def test_no_file_is_written_or_read(self):
        browser = self.open(Workbook.run(PROGRAM))
        browser.until("document.body?.innerText.includes('The workbook is empty')")
        with tempfile.TemporaryDirectory() as place:
            path = os.path.join(place, "written")
            for word in ("save", "keep"):
                answer = browser.js(
                    f"""fetch("do", {{method: "POST", headers: {{"Content-Type": "application/json"}},
                        body: JSON.stringify({{line: " {word} {path}"}})}}).then(x => x.json()).then(x => x.say)"""
                )
                self.assertIn("Files are for the terminal", answer)
                self.line(browser, f"{word} {path}")
                self.assertIn("Files are for the terminal", browser.text("#said"))
            self.assertEqual(os.listdir(place), [])
        self.assertEqual(browser.faults, [])

    def test_the_links_of_the_page(self):
        browser = self.open(Workbook.run(PROGRAM))
        self.line(browser, "D = {1..2}", "A over D")
        for word, text in (("text", "array A over D [0, 0]"), ("history", "history 2")):
            with self.subTest(word):
                browser.js(f"document.querySelector(\"a[href='{word}']\").removeAttribute('target')")
                address = browser.js("location.href")
                browser.click(f"a[href='{word}']")
                browser.until(f"document.body?.innerText.includes({text!r})")
                browser.go(address)
                browser.until("document.querySelectorAll('.edits li').length === 2")

    def test_who_blocks_whom_at_a_desk_is_asked_of_what_is_in_sight(self):
        server = Server(seats=2)
        self.addCleanup(server.close)
        browser = self.open(server.connect())
        other = server.connect()
        self.line(browser, "D = {1..4}", "A over D", "A[1] = 5")
        A = other["A"]
        A.copy(2, A, 1, plus=1)
        A.copy(3, A, 2, plus=1)
        browser.until("document.querySelectorAll('.edits li').length === 5")
        browser.until("document.querySelector('.edits li[data-k=\"3\"]').innerText.includes('blocked by 4')")
        browser.click(".edits li[data-k='3'] button:not(.link)")
        browser.until("document.querySelector('.edits .look')?.innerText.includes('takes back 5, 4 and 3')")
        A.copy(4, A, 1)  # meanwhile: the page hears of it, and shows who goes now
        browser.until("document.querySelectorAll('.edits li').length === 6")
        browser.click(".edits li[data-k='3'] > button:not(.link)")
        browser.until("document.querySelector('.edits .look')?.innerText.includes('takes back 6, 5, 4 and 3')")
        browser.click(".edits .look .many")
        self.says(browser, "edits 6, 5, 4 and 3 taken back")
        self.assertEqual(list(A), [0, 0, 0, 0])
        self.assertEqual(browser.faults, [])

    def test_of_a_long_history_what_is_in_sight_is_asked(self):
        book = Workbook.run(PROGRAM)
        A = book.array("A", book.domain("D", range(1, 3)))
        with book.pipeline():
            for i in range(100):
                A[1] = i
        browser = self.open(book)
        known = "[...document.querySelectorAll('.edits li')].filter(x => x.innerText.includes('blocked by')).map(x => +x.dataset.k)"
        browser.until(f"{known}.length > 3")
        self.assertEqual(browser.js(f"Math.max(...{known})"), 101)  # of the latest nobody is in the way
        self.assertGreater(browser.js(f"Math.min(...{known})"), 80)  # and what is far below was not asked
        browser.js("document.querySelector('.edits li[data-k=\"20\"]').scrollIntoView()")
        browser.until("document.querySelector('.edits li[data-k=\"20\"]').innerText.includes('blocked by 21')")
        self.assertFalse(browser.js(f"{known}.includes(50)"))
        self.assertEqual(browser.faults, [])

    def test_earlier_edits_are_shown_where_they_are_wanted(self):
        server = Server(seats=2)
        self.addCleanup(server.close)
        other = server.connect()
        A = other.array("A", other.domain("D", range(1, 3)))
        with other.pipeline():
            for i in range(700):
                A[1] = i
        browser = self.open(server.connect())
        browser.until("document.querySelector('.edits li.earlier')?.innerText.includes('402 earlier edits')")
        browser.click(".edits li.earlier button")
        browser.until("document.querySelector('.edits li.earlier')?.innerText.includes('102 earlier edits')")
        other.undo(702)
        A[2] = 7  # what comes is seen as before
        browser.until("document.querySelectorAll('.edits li').length === 601 && document.querySelector('.edits li').innerText.includes('A[2] = 7')")
        browser.js("document.querySelector('.edits li.earlier button').click()")  # at once: the list is made anew as blockers come
        browser.until("document.querySelectorAll('.edits li').length === 703 && !document.querySelector('.edits li.earlier')")
        self.assertIn("D = {1..2}", browser.text(".edits li[data-k='1']"))
        self.assertIn("taken back", browser.text(".edits li[data-k='702']"))
        self.assertEqual(browser.faults, [])

    def test_a_cascade_is_put_back_upward(self):
        """Downward edit 5 would copy what stood in A[1] before edit 4."""
        book = Workbook.run(PROGRAM)
        A = book.array("A", book.domain("D", range(1, 4)))
        A[1] = 5
        A[1] = 7
        A.copy(2, A, 1)
        browser = self.open(book)
        browser.until("document.querySelector('.edits li[data-k=\"4\"]').innerText.includes('blocked by 5')")
        browser.click(".edits li[data-k='4'] button.many")
        browser.until("document.activeElement.innerText === 'take back 2 edits'")
        browser.key("Enter")
        browser.until("document.getElementById('notices').innerText.includes('put back 4, 5')")
        self.shows(browser, "A[1]", 5)
        self.shows(browser, "A[2]", 0)
        self.assertEqual(browser.js("document.querySelectorAll('.value.changed').length"), 2)  # the marks stay lit
        self.assertEqual(browser.text("#marks"), "2 cells changed ×")
        browser.click("#notices button")
        self.shows(browser, "A[1]", 7)
        self.shows(browser, "A[2]", 7)
        browser.until("document.getElementById('notices').innerText === ''")
        self.assertEqual(browser.faults, [])

    def test_marks_stay_until_they_are_looked_at(self):
        server = Server(seats=2)
        self.addCleanup(server.close)
        browser = self.open(server.connect())
        other = server.connect()
        self.line(browser, "D = {1..4}", "A over D")
        A = other["A"]
        A[1], A[2], A[3] = 5, 6, 7
        self.shows(browser, "A[3]", 7)
        lit = "[...document.querySelectorAll('.value.changed')].map(x => x.title).join('; ')"
        self.assertEqual(browser.js(lit), "A[1], was 0; A[2], was 0; A[3], was 0")
        self.assertEqual(browser.text("#marks"), "3 cells, 3 edits changed ×")
        browser.click(CELL.format("2"))
        browser.keys("9")
        browser.key("Enter")
        self.shows(browser, "A[2]", 9)
        self.assertEqual(browser.js(lit), "A[1], was 0")  # 2 was looked at and typed in, and 3 is where Enter went
        A[4] = 1
        self.shows(browser, "A[4]", 1)
        self.assertEqual(browser.js(lit), "A[1], was 0; A[4], was 0")
        browser.click("#marks")
        self.assertEqual(browser.js(lit), "")
        self.assertTrue(browser.js("document.getElementById('marks').hidden"))
        self.assertEqual(browser.faults, [])

    def test_a_click_during_which_something_changes(self):
        book = Workbook.run(PROGRAM)
        A = book.array("A", book.domain("D", range(1, 4)))
        A[1] = 5
        browser = self.open(book)
        browser.until("document.querySelector('.edits li[data-k=\"2\"]').innerText.includes('blocked by 3')")
        browser.press(".edits li[data-k='3'] button")
        with self.held() as now:
            now["A"][2] = 6
        self.shows(browser, "A[2]", 6)
        browser.release(".edits li[data-k='3'] button")
        self.shows(browser, "A[1]", 0)
        self.assertEqual(browser.faults, [])

    def test_an_edit_of_ones_own_that_another_took_back(self):
        server = Server(seats=2)
        self.addCleanup(server.close)
        browser = self.open(server.connect())
        other = server.connect()
        self.line(browser, "D = {1..4}", "A over D", "A[1] = 5")
        other.undo(3)
        browser.until("document.getElementById('notices').innerText.includes('your edit 3 (A[1] = 5) was taken back by another')")
        self.shows(browser, "A[1]", 0)
        browser.click("#notices button")  # put it back
        self.shows(browser, "A[1]", 5)
        browser.until("document.getElementById('notices').innerText === ''")
        other.undo(3)
        browser.until("document.getElementById('notices').innerText.includes('your edit 3')")
        browser.click("#notices button:last-child")  # leave it so
        browser.until("document.getElementById('notices').innerText === ''")
        self.line(browser, "A[2] = 6", "undo 4")  # one's own undo is nothing to tell
        self.shows(browser, "A[2]", 0)
        self.assertEqual(browser.text("#notices"), "")
        browser.click("#note")
        browser.type("why")
        self.line(browser, "A[3] = 1")
        self.shows(browser, "A[3]", 1)
        other.undo(5)
        browser.until("document.getElementById('notices').innerText.includes('your edit 5 (\"why\": A[3] = 1) was taken back by another')")
        self.assertEqual(browser.faults, [])

    def test_who_did_it_by_name(self):
        """At a desk that stays the history and the notices tell who made an edit, and who took one back."""
        desk = Workbook.serve(seats=2, stay=True, program=PROGRAM)
        self.addCleanup(desk.close)
        browser = self.open(desk.connect(name="Ada"))
        other = desk.connect(name="Ben\u202e")
        self.line(browser, "D = {1..4}", "A over D", "A[1] = 5")
        browser.until("document.getElementById('where').innerText.endsWith(' with Ben\ufffd')")
        other.undo(3)
        other["A"][2] = 6
        browser.until("document.getElementById('notices').innerText.includes('Ben\ufffd took back your edit 3 (A[1] = 5)')")
        browser.until("document.querySelector('.edits li[data-k=\"4\"]')?.innerText.includes('Ben\ufffd')")
        self.assertIn("me · 1 cell · taken back", browser.text(".edits li[data-k='3']"))
        browser.click("#notices button")  # put it back
        self.shows(browser, "A[1]", 5)
        self.line(browser, "undo 2")
        self.says(browser, "Blocked by edit 3")
        other.undo(3)
        self.line(browser, "undo 2")
        self.says(browser, "Blocked by edit 4 of Ben\ufffd (A[2] = 6)")
        self.line(browser, "undo 3")
        self.says(browser, "Ben\ufffd took it back")
        self.assertEqual(browser.faults, [])

    def test_what_a_transaction_did_unfolds(self):
        """The history shows the note and, folded, the first edits; a click shows them all, another one folds them again."""
        book = Workbook.run(PROGRAM)
        A = book.array("A", book.domain("D", range(1, 400)))
        with book.transaction("March\u202e forecast"):
            for index in range(1, 6):
                A[index] = index * index
        with book.transaction("once"):
            A[1] = 7
        browser = self.open(book)
        row = ".edits li[data-k='3']"
        browser.until(f"document.querySelectorAll('.edits li[data-k]').length === 4")
        self.assertEqual(browser.text(row + " .why"), "March\ufffd forecast")
        self.assertEqual(browser.text(row + " .what"), "March\ufffd forecast\nA[1] = 1; A[2] = 4; A[3] = 9; and 2 more")
        self.assertEqual(browser.text(".edits li[data-k='4'] .what"), "once\nA[1] = 7")
        self.assertEqual(browser.js("document.querySelectorAll('.fold').length"), 1)
        did = f"[...document.querySelectorAll(\"{row} .did li\")].map(x => x.innerText).join()"
        for _ in range(2):
            self.assertEqual((browser.text(row + " .fold"), browser.js(did)), ("5 edits", ""))
            browser.click(row + " .fold")
            browser.until(f"{did} === 'A[1] = 1,A[2] = 4,A[3] = 9,A[4] = 16,A[5] = 25'")
            self.assertEqual(browser.js(f"document.querySelector(\"{row} .fold\").ariaExpanded"), "true")
            browser.js("document.activeElement.blur()")
            self.line(browser, "A[9] = 1")  # it stays unfolded while others come
            self.assertEqual(browser.js("document.querySelectorAll('.did li').length"), 5)
            browser.click(row + " .fold")
            browser.until("document.querySelectorAll('.did').length === 0")
        with self.held() as held, held.transaction("many"):
            for index in range(1, 312):
                A[index] = 0
        browser.until("document.querySelector('.edits li').dataset.k === '7'")
        browser.click(".edits li[data-k='7'] .fold")
        browser.until("document.querySelectorAll('.did li').length === 301")
        self.assertEqual(browser.text(".did li:last-child"), "and 11 more")
        self.assertEqual(browser.faults, [])

    def test_a_note_goes_with_the_next_edit(self):
        """Whatever that is; it stays where it is refused, and a question takes none."""
        browser = self.open(Workbook.run(PROGRAM))
        browser.do("Browser.grantPermissions", permissions=["clipboardReadWrite", "clipboardSanitizedWrite"])
        self.line(browser, "D = {1..3}", "A over D")
        value = "document.getElementById('note').value"
        whys = "[...document.querySelectorAll('.edits li[data-k]')].map(x => x.querySelector('.why')?.innerText ?? '').reverse().join()"

        def noted(text):
            browser.click("#note")
            browser.type(text)

        noted("of March")
        browser.click(CELL.format("1"))
        browser.keys("5")
        browser.key("Enter")
        browser.until(f"{whys} === ',,of March' && {value} === ''")
        noted("typed first")
        self.line(browser, "A[1]")
        self.assertEqual(browser.js(value), "typed first")
        self.line(browser, "A[9] = 1")
        self.assertIn("A[9] = 1: the index or locale isn't there", browser.text("#said"))
        self.assertEqual(browser.js(value), "typed first")
        browser.click(CELL.format("1"))
        browser.js("navigator.clipboard.writeText('7\\t8')")
        browser.key("v", CTRL)
        browser.until(f"{whys} === ',,of March,typed first' && {value} === ''")
        browser.key("v", CTRL)
        browser.until(f"{whys} === ',,of March,typed first,paste'")
        browser.js("document.getElementById('note').value = 'no \\\\'")
        self.line(browser, "A[1] = 6")
        self.says(browser, "a note has 256 bytes at most")
        self.line(browser, "undo 5")
        self.says(browser, "edit 5 is taken back")
        self.assertEqual(browser.js(value), "no \\")
        browser.js("document.getElementById('note').value = ''")
        self.line(browser, "begin")
        self.says(browser, "Here a paste is one edit")
        self.assertEqual(browser.faults, [])

    def test_what_others_do_appears(self):
        server = Server(seats=2)
        self.addCleanup(server.close)
        browser = self.open(server.connect())
        other = server.connect()
        self.line(browser, "D = {1..4}", "A over D", "A[1] = 5")
        other["A"][1] = 6
        browser.until(f'document.querySelector("{CELL.format("1")}").innerText === "6"')
        self.assertEqual(browser.text("#where"), f"shared at 127.0.0.1:{server.port}: other seats edit too")
        self.assertIn("A[1] = 6", browser.text(".edits li[data-k='4']"))
        self.assertIn("another", browser.text(".edits li[data-k='4'] .meta"))
        self.line(browser, "undo 3")
        self.says(browser, "Blocked by edit 4")
        other.undo(4)
        self.shows(browser, "A[1]", 5)
        self.assertEqual(browser.faults, [])


if __name__ == "__main__":
    unittest.main()
