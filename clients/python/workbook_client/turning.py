"""What a session did, step by step, and the way back: for `trying`."""

from contextlib import contextmanager
from typing import TYPE_CHECKING, Iterator, List, Optional, Tuple

from . import requests
from .edits import Edit
from .errors import NotTakenBack, SessionEnded, WorkbookError
from .refusals import Blocked, RefusedInPlace

if TYPE_CHECKING:
    from .book import Workbook


class Steps:
    """The edits, undos and redos of a session. They are listed while a block may need them."""

    def __init__(self, book: "Workbook"):
        self._book = book
        self._steps: List[Tuple[str, int]] = []  # "edit", "undo" or "redo", and the edit's number
        self._blocks = 0

    def note(self, way: str, number: int) -> None:
        """A step was done."""
        if self._blocks:
            self._steps.append((way, number))

    def done(self, way: str, number: int, cells: Optional[int]) -> Edit:
        """An undo or a redo was done: the edit as it is now."""
        self.note(way, number)
        return self._now(way, number, cells)

    def _now(self, way: str, number: int, cells: Optional[int]) -> Edit:
        edit = self._book.edits.setdefault(number, Edit(self._book, "", "another", number))
        edit._cells = edit._cells if cells is None else cells
        edit.was_in_force = way == "redo"
        return edit

    @contextmanager
    def kept(self) -> Iterator[None]:
        """A block of which everything is turned back where an exception leaves it."""
        start = len(self._steps)
        self._blocks += 1
        try:
            yield
        except BaseException as cause:
            try:
                self._turn_back(start)
            except WorkbookError as why:
                self._left(start, why, cause)
            raise
        finally:
            self._blocks -= 1
            if not self._blocks:
                self._steps.clear()

    def _turn_back(self, start: int) -> None:
        book = self._book
        book.exchange.read_all()
        while len(self._steps) > start:
            place = len(self._steps) - 1
            way, number = self._steps[place]
            if way == "undo" and book.alone:
                put_back(book, number)
                self.done("redo", number, None)
            elif way == "undo":
                book.redo(number)
            elif book.alone:
                self._undo_many(start)
                continue
            else:
                book.undo(number)
            del self._steps[place:]

    def _undo_many(self, start: int) -> None:
        """Takes back the latest steps, down to one that is an undo itself. They are on their way
        together: in a session that is alone nobody stands in the way of one of them."""
        place = len(self._steps)
        while place > start and self._steps[place - 1][0] != "undo":
            place -= 1
        steps = reversed(self._steps[place:])
        asked = [self._book.exchange.post(requests.undo(number)) for _, number in steps]
        for reading in asked:
            reading.wait()
            self._now("undo", reading.request["k"], None)
            self._steps.pop()

    def _left(self, start: int, why: Exception, cause: BaseException) -> None:
        if self._book.alone and self._book.journal is None and isinstance(why, SessionEnded):
            return  # the workbook is gone with its session, so nothing of the block is left
        steps = self._steps[start:]
        before = {number: way == "undo" for way, number in reversed(steps)}  # by its first step
        now = {number: way != "undo" for way, number in steps}  # by its last
        standing = sorted(number for number, on in now.items() if on and not before[number])
        undone = sorted(number for number, on in now.items() if before[number] and not on)
        raise NotTakenBack(standing, undone, self._book.exchange.unanswered, why) from cause


def put_back(book: "Workbook", k: int) -> None:
    """Puts k in force again right after its undo, as it was. The session must be alone.

    An undo may be granted whose redo isn't: a later edit wrote what k reads. Then what is later is
    undone from the greatest down, k redone, and the later ones redone upward. Each of these is
    granted, since nothing later is in force then.
    """
    try:
        book.ask(requests.redo(k))
        return
    except (Blocked, RefusedInPlace):
        states = [book.exchange.post(requests.state(j)) for j in range(max(book.edits), k, -1)]
        later = [reading.request["k"] for reading in states if reading.value]
    ways = [requests.undo(j) for j in later]
    ways += [requests.redo(j) for j in (k, *reversed(later))]
    for reading in [book.exchange.post(request) for request in ways]:
        reading.wait()
