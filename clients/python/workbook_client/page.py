"""A page for a workbook: arrays as tables, and the history with undo and redo for each edit.

    python3 -m workbook_client.page --program workbook
    python3 -m workbook_client.page --connect 127.0.0.1:7000

It listens on 127.0.0.1 alone. It answers a request only where its address begins with the key that this server drew when it
started, and where the browser says that the page itself sent it, or, for what is opened, that somebody opened it by its address.
"""

import hmac
import json
import re
import secrets
import sys
import webbrowser
from http.server import BaseHTTPRequestHandler, ThreadingHTTPServer
from pathlib import Path
from typing import Any, Callable, Dict, List, Optional, Tuple
from urllib.parse import parse_qs

from .book import Workbook
from .errors import SessionEnded, WorkbookError, sentence
from .redis import RedisRefused
from .session import Session
from .terminal import arguments, may_leave, open_book
from .view import Sight, View

HERE = Path(__file__).parent
SCRIPTS = ("page.js", "talk.js", "edits.js", "grid.js", "tables.js", "pasting.js", "newtable.js")
KINDS = {".html": "text/html; charset=utf-8", ".css": "text/css; charset=utf-8", ".js": "text/javascript; charset=utf-8"}
LONGEST = 1 << 21
"""So many bytes a request of the page may have."""
OPENED = ("", "text", "history", "csv")
"""What is opened by its address, or by a link of the page; all else the page itself asks for."""


POLICY = (
    "default-src 'none'; style-src 'self'; script-src 'self'; connect-src 'self'; img-src data:; "
    "base-uri 'none'; form-action 'none'; frame-ancestors 'none'"
)
"""The page's own style and scripts run, and nothing else."""


def parts() -> Dict[str, Tuple[bytes, str]]:
    """The files of the page, by their addresses behind the key, each with its kind."""
    files = {"": "page.html", **{name: name for name in ("page.css", *SCRIPTS)}}
    return {place: ((HERE / name).read_bytes(), KINDS[Path(name).suffix]) for place, name in files.items()}


class Handler(BaseHTTPRequestHandler):
    """The addresses behind the key: the page and its files, state, needs, parts, text, history, csv, and do for what the page does."""

    view: View
    parts: Dict[str, Tuple[bytes, str]]
    key: str
    protocol_version = "HTTP/1.1"
    timeout = 60  # a connection that says nothing for so long is closed

    def do_GET(self) -> None:
        """A file of the page, its state, who needs an edit, what a transaction did, or a text of the workbook, of its history or of an
        array."""
        place, query = self.place()
        if place is None:
            return
        asked = {word: words[0] for word, words in parse_qs(query).items()}
        if place in self.parts:
            self.answer(200, *self.parts[place])
        elif place == "state":
            self.guarded(lambda: self.state(asked.get("seen", ""), asked.get("sight", "")), asked.get("seen", ""))
        elif place == "needs":
            self.guarded(lambda: self.of_edit(self.view.needs, asked.get("k", "")))
        elif place == "parts":
            self.guarded(lambda: self.of_edit(self.view.parts, asked.get("k", "")))
        elif place in ("text", "history"):
            self.guarded(lambda: self.text(self.view.text if place == "text" else self.view.history))
        elif place == "csv":
            self.guarded(lambda: self.csv(asked.get("a", "")))
        else:
            self.tell(404, {"say": "there is nothing here"})

    def do_POST(self) -> None:
        """What the page does."""
        body = self.body()
        place = None if body is None else self.place()[0]
        if body is None or place is None:
            return
        if place != "do" or self.headers.get("Content-Type") != "application/json":
            self.tell(404, {"say": "there is nothing here"})
            return
        try:
            asked = json.loads(body)
        except (ValueError, RecursionError):
            asked = None
        if not isinstance(asked, dict):
            self.tell(400, {"say": "that is no JSON object"})
            return
        self.guarded(lambda: self.tell(200, self.view.do(asked)))

    def body(self) -> Optional[bytes]:
        """The body of a request, or None where its length isn't told or is too much."""
        length = self.headers.get("Content-Length", "")
        if not re.fullmatch("[0-9]{1,9}", length) or int(length) > LONGEST:
            self.close_connection = True  # where the next request begins isn't known
            self.tell(413, {"say": f"a request has a length, of {LONGEST} bytes at most"})
            return None
        return self.rfile.read(int(length))

    def state(self, seen: str, sight: str) -> None:
        """What the page shows, where that isn't what it has seen. `sight` is as "12-30", or "12-" up to the latest."""
        found = re.fullmatch("([0-9]{1,18})-([0-9]{0,18})", sight)
        state = self.view.state(Sight(int(found[1]), int(found[2]) if found[2] else None) if found else None)
        if state["version"] == seen:
            self.answer(204, b"", "application/json")
        else:
            self.tell(200, state)

    def of_edit(self, told: Callable[[int], Dict[str, Any]], k: str) -> None:
        """What is told of an edit."""
        if re.fullmatch("[0-9]{1,20}", k):
            self.tell(200, told(int(k)))
        else:
            self.tell(400, {"say": "that is no edit's number"})

    def text(self, told: Callable[[], str]) -> None:
        """A text of the workbook."""
        self.answer(200, told().encode(), "text/plain; charset=utf-8")

    def csv(self, name: str) -> None:
        """An array's text, as a file."""
        text = self.view.csv(name)
        if text is None:
            self.tell(404, {"say": "no array has that name"})
        else:
            self.answer(200, text.encode(), "text/csv; charset=utf-8", f'attachment; filename="{name}.csv"')

    def guarded(self, answer: Callable[[], None], seen: str = "") -> None:
        """Tells the page of what went wrong; the server goes on. Where the workbook is away, it tells what the page doesn't show."""
        try:
            answer()
        except ConnectionError:
            self.close_connection = True  # the page went away
        except SessionEnded as end:
            self.tell(503, self.view.away(end, seen))
        except Exception as fault:
            self.tell(500, {"say": f"{type(fault).__name__}: {fault}"})

    def place(self) -> Tuple[Optional[str], str]:
        """What is asked for behind the key, and the query; None where others ask, who are told so."""
        path, _, query = self.path.partition("?")
        key, slash, place = path.lstrip("/").partition("/")
        if not slash or not hmac.compare_digest(key.encode(), self.key.encode()) or not self.is_ours(place):
            self.tell(403, {"say": "only the page itself may ask; its whole address is what the terminal shows"})
            return None, ""
        return place, query

    def is_ours(self, place: str) -> bool:
        """Other pages of the browser are kept out: the host, the origin and the site must be this server. `none` is the site
        where somebody gave the address to the browser."""
        port = self.connection.getsockname()[1]
        hosts = (f"127.0.0.1:{port}", f"localhost:{port}")
        origin = self.headers.get("Origin")
        site = self.headers.get("Sec-Fetch-Site")
        return (
            self.headers.get("Host") in hosts
            and (origin is None or origin in [f"http://{host}" for host in hosts])
            and (site == "same-origin" or (site == "none" and place in OPENED))
        )

    def tell(self, status: int, what: Dict[str, Any]) -> None:
        """Answers with JSON."""
        self.answer(status, json.dumps(what, ensure_ascii=False).encode(), "application/json")

    def answer(self, status: int, body: bytes, kind: str, disposition: str = "") -> None:
        """Answers with bytes."""
        self.send_response(status)
        self.send_header("Content-Type", kind)
        if status != 204:
            self.send_header("Content-Length", str(len(body)))
        self.send_header("Cache-Control", "no-store")
        self.send_header("X-Content-Type-Options", "nosniff")
        self.send_header("Referrer-Policy", "same-origin")
        self.send_header("Cross-Origin-Resource-Policy", "same-origin")
        self.send_header("Content-Security-Policy", POLICY)
        if disposition:
            self.send_header("Content-Disposition", disposition)
        self.end_headers()
        self.wfile.write(body)

    def log_message(self, *_: Any) -> None:
        """Nothing: a look each second would fill the terminal."""


class Server(ThreadingHTTPServer):
    """The page's server. `url` is the page's whole address, with its key."""

    daemon_threads = True
    url = ""

    def handle_error(self, request: Any, client_address: Any) -> None:
        """A page that went away is nothing to tell of."""
        if not isinstance(sys.exc_info()[1], (ConnectionError, TimeoutError)):
            super().handle_error(request, client_address)


def serve(book: Workbook, port: int = 0) -> Server:
    """A server of the page on 127.0.0.1; `serve_forever` runs it."""
    key = secrets.token_urlsafe(16)
    members = {"view": View(book), "parts": parts(), "key": key}
    server = Server(("127.0.0.1", port), type("PageHandler", (Handler,), members))
    server.url = f"http://127.0.0.1:{server.server_address[1]}/{key}/"
    return server


def on_port(book: Workbook, port: int) -> Server:
    """A server of the page on this port; WorkbookError tells in a sentence why there is none."""
    try:
        return serve(book, port)
    except (OSError, OverflowError) as fault:  # OverflowError: no such port
        raise WorkbookError(f"the page can't have port {port}: {sentence(fault)}; --port 0 takes any that is free") from fault


def serve_until_left(server: Server, session: Session) -> None:
    """Answers the page until Ctrl-C. At a terminal a workbook that is kept nowhere is asked about first."""
    while True:
        try:
            server.serve_forever()
        except KeyboardInterrupt:
            print()
            if not sys.stdin.isatty() or may_leave(session):
                return


def main(words: Optional[List[str]] = None) -> int:
    """The page, until Ctrl-C."""
    parser = arguments("A page for a workbook, on 127.0.0.1.", "workbook_client.page")
    parser.add_argument("--port", type=int, default=8765, help="the page's port (0 takes any; 8765)")
    parser.add_argument("--open", action="store_true", help="open the page in a browser")
    parser.add_argument("--file", metavar="SCRIPT", help="run the lines of a file first")
    args = parser.parse_args(words)
    try:
        with open_book(args) as book:
            session = Session(book)
            book.tell_waits(session.wrapped)
            print(session.place())
            if args.file:
                with open(args.file, encoding="utf-8") as lines:
                    for line in lines:
                        session.line(line.rstrip("\r\n"))
            with on_port(book, args.port) as server:
                print(f"the page is at {server.url} (Ctrl-C ends it)", flush=True)
                if args.open:
                    webbrowser.open(server.url)
                serve_until_left(server, session)
    except KeyboardInterrupt:
        print()
    except (WorkbookError, RedisRefused, OSError, UnicodeDecodeError) as end:
        print(f"workbook_client.page: {sentence(end)}", file=sys.stderr)
        return 3
    return 0


if __name__ == "__main__":
    sys.exit(main())
