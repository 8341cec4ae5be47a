"""Drives a headless Chromium by its debugging socket, with the standard library alone, and opens the page in it."""

import base64
import json
import os
import shutil
import socket
import struct
import subprocess
import tempfile
import threading
import time
import unittest
import urllib.request
from contextlib import contextmanager
from http.server import ThreadingHTTPServer
from typing import Any, Iterator, List, Optional

from tests.support import PATIENCE  # the package beside the tests is found by it, too
from workbook_client import Workbook
from workbook_client.page import serve

CHROMIUM = shutil.which("chromium") or shutil.which("chromium-browser") or shutil.which("google-chrome")
WAIT = 20.0 * PATIENCE

KEYS = {
    "Enter": 13, "Tab": 9, "Escape": 27, "Delete": 46, "F2": 113, "ArrowLeft": 37, "ArrowUp": 38, "ArrowRight": 39, "ArrowDown": 40,
}
COMMANDS = {"c": ["copy"], "v": ["paste"]}
"""What a browser does by Ctrl and a key, which a debugger's key has to be told."""
CTRL, SHIFT = 2, 8
"""Keys that are held down."""


class Browser:
    """One page. What its script throws, or writes to the console as an error, is kept in `faults`."""

    def __init__(self, width: int = 1180, height: int = 720, dark: bool = False):
        assert CHROMIUM is not None
        self.place = tempfile.mkdtemp(prefix="workbook-browser-")
        self.process = subprocess.Popen(
            [
                CHROMIUM, "--headless=new", "--no-sandbox", "--disable-gpu", "--hide-scrollbars",
                "--disable-dev-shm-usage", "--no-first-run", "--disable-background-networking",
                f"--user-data-dir={self.place}", "--remote-debugging-port=0", "about:blank",
            ],
            stdout=subprocess.DEVNULL, stderr=subprocess.DEVNULL,
        )
        self.faults: List[str] = []
        self.number = 0
        try:
            self._connect()
        except BaseException:
            self.process.kill()
            raise
        self.do("Emulation.setDeviceMetricsOverride", width=width, height=height, deviceScaleFactor=1, mobile=False)
        scheme = [{"name": "prefers-color-scheme", "value": "dark" if dark else "light"}]
        self.do("Emulation.setEmulatedMedia", features=scheme)
        for domain in ("Page", "Runtime", "Log"):
            self.do(domain + ".enable")

    def _connect(self) -> None:
        told = os.path.join(self.place, "DevToolsActivePort")
        end = time.monotonic() + WAIT
        line = ""
        while not line.endswith("\n"):
            if time.monotonic() > end or self.process.poll() is not None:
                raise RuntimeError("the browser doesn't start")
            time.sleep(0.05)
            if os.path.exists(told):
                with open(told) as file:
                    line = file.readline()
        port = int(line)
        with urllib.request.urlopen(f"http://127.0.0.1:{port}/json", timeout=WAIT) as answer:
            (page,) = [t for t in json.load(answer) if t["type"] == "page"]
        path = page["webSocketDebuggerUrl"].split(str(port), 1)[1]
        self.socket = socket.create_connection(("127.0.0.1", port), WAIT)
        key = base64.b64encode(os.urandom(16)).decode()
        self.socket.sendall(
            f"GET {path} HTTP/1.1\r\nHost: 127.0.0.1:{port}\r\nUpgrade: websocket\r\nConnection: Upgrade\r\n"
            f"Sec-WebSocket-Key: {key}\r\nSec-WebSocket-Version: 13\r\n\r\n".encode()
        )
        self.incoming = self.socket.makefile("rb")
        while self.incoming.readline().strip():
            pass

    def do(self, method: str, **params: Any) -> Any:
        """One call of the debugging protocol, and what it gives."""
        self.number += 1
        data = json.dumps({"id": self.number, "method": method, "params": params}).encode()
        size = len(data)
        kind, form = (0x80 | size, "") if size < 126 else (0xFE, "H") if size < 65536 else (0xFF, "Q")
        head = struct.pack("!BB" + form, 0x81, kind, *([size] if form else []))
        mask = os.urandom(4)
        self.socket.sendall(head + mask + bytes(byte ^ mask[n % 4] for n, byte in enumerate(data)))
        while True:
            told = self._read()
            if told.get("id") == self.number:
                if "error" in told:
                    raise RuntimeError(told["error"])
                return told["result"]
            if told.get("method") == "Runtime.exceptionThrown":
                self.faults.append(str(told["params"]["exceptionDetails"]))
            elif told.get("method") == "Log.entryAdded" and told["params"]["entry"]["level"] == "error":
                self.faults.append(str(told["params"]["entry"]))

    def _read(self) -> Any:
        out = b""
        while True:
            first, size = self.incoming.read(2)
            if size == 126:
                (size,) = struct.unpack("!H", self.incoming.read(2))
            elif size == 127:
                (size,) = struct.unpack("!Q", self.incoming.read(8))
            out += self.incoming.read(size)
            if first & 0x80:
                return json.loads(out)

    def go(self, address: str) -> None:
        """Opens an address."""
        self.do("Page.navigate", url=address)
        self.until("location.href !== 'about:blank' && document.readyState === 'complete'")

    def leave(self) -> None:
        """Leaves the page."""
        self.do("Page.navigate", url="about:blank")
        self.js("1")

    def js(self, expression: str) -> Any:
        """The value of an expression in the page."""
        told = self.do("Runtime.evaluate", expression=expression, awaitPromise=True, returnByValue=True)
        if "exceptionDetails" in told:
            raise RuntimeError(told["exceptionDetails"])
        return told["result"].get("value")

    def until(self, expression: str) -> None:
        """Waits until an expression holds in the page."""
        end = time.monotonic() + WAIT
        while not self.js(expression):
            if time.monotonic() > end:
                raise AssertionError(f"never: {expression}; the page is {self.text('body')!r}")
            time.sleep(0.05)

    def text(self, selector: str) -> str:
        """What an element shows."""
        return self.js(f"document.querySelector({json.dumps(selector)}).innerText")

    def click(self, selector: str, modifiers: int = 0) -> None:
        """Clicks in the middle of an element."""
        self.press(selector, modifiers)
        self.release(selector, modifiers)

    def drag(self, selector: str, to: str) -> None:
        """Goes from one element to another with the mouse's button down."""
        self.press(selector)
        self.hover(to)
        self.release(to)

    def press(self, selector: str, modifiers: int = 0) -> None:
        """Presses the mouse's button over an element."""
        x, y = self._middle(selector)
        self.do("Input.dispatchMouseEvent", type="mousePressed", x=x, y=y, button="left", buttons=1, clickCount=1, modifiers=modifiers)

    def release(self, selector: str, modifiers: int = 0) -> None:
        """Lets the mouse's button go over an element."""
        x, y = self._middle(selector)
        self.do("Input.dispatchMouseEvent", type="mouseReleased", x=x, y=y, button="left", clickCount=1, modifiers=modifiers)

    def hover(self, selector: str) -> None:
        """Puts the mouse over an element."""
        x, y = self._middle(selector)
        self.do("Input.dispatchMouseEvent", type="mouseMoved", x=x, y=y)

    def _middle(self, selector: str) -> List[float]:
        return self.js(
            f"(() => {{ const it = document.querySelector({json.dumps(selector)}); it.scrollIntoView({{block: 'nearest'}});"
            " const r = it.getBoundingClientRect(); return [r.x + r.width / 2, r.y + r.height / 2]; })()"
        )

    def type(self, text: str) -> None:
        """Puts a text where the caret is."""
        self.do("Input.insertText", text=text)

    def keys(self, text: str) -> None:
        """Presses the keys of a text, one after another."""
        for key in text:
            self.do("Input.dispatchKeyEvent", type="keyDown", key=key, text=key, unmodifiedText=key)
            self.do("Input.dispatchKeyEvent", type="keyUp", key=key)

    def key(self, key: str, modifiers: int = 0) -> None:
        """Presses a key, with CTRL or SHIFT."""
        code, number = (f"Key{key.upper()}", ord(key.upper())) if len(key) == 1 else (key, KEYS[key])
        given = {"key": key, "code": code, "windowsVirtualKeyCode": number, "modifiers": modifiers}
        more = {"text": "\r"} if key == "Enter" else {"commands": COMMANDS[key]} if modifiers & CTRL and key in COMMANDS else {}
        self.do("Input.dispatchKeyEvent", type="keyDown", **given, **more)
        self.do("Input.dispatchKeyEvent", type="keyUp", **given)

    def picture(self, path: str) -> None:
        """Writes a picture of the page."""
        data = self.do("Page.captureScreenshot", format="png")["data"]
        with open(path, "wb") as file:
            file.write(base64.b64decode(data))

    def close(self) -> None:
        """Ends the browser."""
        try:
            self.do("Browser.close")
        except (OSError, RuntimeError, ValueError):
            self.process.terminate()
        self.incoming.close()
        self.socket.close()
        self.process.wait(WAIT)
        shutil.rmtree(self.place, ignore_errors=True)

    def __enter__(self) -> "Browser":
        return self

    def __exit__(self, *_: Any) -> Optional[bool]:
        self.close()
        return None


@unittest.skipUnless(CHROMIUM, "Chromium isn't there")
class InABrowser(unittest.TestCase):
    """A server of the page for each test, and one browser for all tests of a class."""

    browser: Browser

    @classmethod
    def setUpClass(cls) -> None:
        cls.browser = Browser()
        cls.addClassCleanup(cls.browser.close)

    def open(self, book: Workbook) -> Browser:
        """The page of a workbook, in the browser."""
        self.server = serve(book)
        self.addCleanup(book.close)
        self.run_in_background(self.server)
        self.go(self.server.url)
        self.browser.until("document.title !== 'workbook'")
        return self.browser

    def go(self, address: str) -> None:
        """Opens an address, and leaves it when the test ends, before its server does."""
        self.addCleanup(self.browser.leave)
        self.browser.faults.clear()
        self.browser.go(address)

    def run_in_background(self, server: ThreadingHTTPServer) -> None:
        """Lets a server answer until the test ends."""
        thread = threading.Thread(target=server.serve_forever, args=(0.05,))
        thread.start()
        self.addCleanup(thread.join)
        self.addCleanup(server.server_close)
        self.addCleanup(server.shutdown)

    @contextmanager
    def held(self) -> Iterator[Workbook]:
        """The workbook of the page, which asks nothing of it meanwhile."""
        view = self.server.RequestHandlerClass.view
        with view._lock:
            yield view.book

    def line(self, browser: Browser, *lines: str) -> None:
        """Types lines below the page."""
        for line in lines:
            browser.click("#words")
            browser.type(line)
            browser.key("Enter")
            browser.until("document.getElementById('words').value === '' || document.getElementById('said').className === 'no'")
            browser.js("document.getElementById('words').value = ''")

    def says(self, browser: Browser, words: str) -> None:
        """Waits until the page says so, below."""
        browser.until(f"document.getElementById('said').innerText.includes({json.dumps(words)})")

    def shows(self, browser: Browser, key: str, value: int) -> None:
        """Waits until an element is shown as this, as the workbook was heard to have it."""
        cell = json.dumps(f".value[data-key='{key}']")
        browser.until(f"document.querySelector({cell})?.dataset.value === '{value}'")
        browser.until(f"document.querySelector({cell})?.innerText === '{value}'")
