"""Edits, what a cascade took back, and the block in which changes don't wait."""

from typing import TYPE_CHECKING, Any, List, NamedTuple, Optional

from . import requests
from .errors import InTransaction
from .exchange import Reading
from .literals import Index
from .refusals import Refusal
from .requests import Request

if TYPE_CHECKING:
    from .book import Workbook


class Cascade(NamedTuple):
    """What `cascade` took back: the edits in the order of their undos, and the cells in all."""

    undone: List[int]
    cells: int
    whole: bool = True
    """False where the program's memory ran out before the edit itself: the same again goes on."""


class Edit:
    """An accepted change. Its number never changes, whether it is in force or not."""

    __slots__ = ("_book", "what", "note", "parts", "who", "by", "turned_by", "_number", "_cells", "_reading", "_unsent", "was_in_force")

    def __init__(self, book: "Workbook", what: str, who: str, number: int = -1, cells: int = -1):
        self._book, self.what, self.who = book, what, who
        self.note: Optional[str] = None
        """Its note, where it has one, as far as this client heard."""
        self.parts: List[str] = []
        """What each of its edits does, where it is a transaction and that was heard."""
        self.by = ""
        """The name of another who made it, as far as that was heard."""
        self.turned_by = ""
        """The name of another who last took it back or put it back, as far as that was heard."""
        self._number, self._cells = number, cells
        self._reading: Optional[Reading] = None  # while it is on its way, or where it was refused
        self._unsent = ""  # why it has no number, where it isn't sent
        self.was_in_force = True
        """Whether it was in force when this client last heard of it."""

    def tell(self, request: Request) -> None:
        """Notes what the edit of a request does, unless that is known."""
        if not self.what:
            self.what, self.parts, self.note = requests.in_words(request), requests.parts_in_words(request), request.get("note")

    @property
    def number(self) -> int:
        """Its number. In a pipeline this waits, and raises where the change was refused. In a transaction it has none yet."""
        if self._number < 0:
            self._wait()
        return self._number

    @property
    def cells(self) -> int:
        """How many cells it set, -1 where this client never heard."""
        if self._cells < 0:
            self._wait()
        return self._cells

    def _wait(self) -> None:
        """Waits for its reply, where it is on its way."""
        if self._reading is not None:
            self._reading.wait()
        elif self._unsent:
            raise InTransaction(self._unsent)

    @property
    def in_force(self) -> bool:
        """Whether it is in force now: the program is asked, since others may have taken it back."""
        return self._book.in_force(self.number)

    def undo(self) -> "Edit":
        """Takes this edit back alone. `Blocked` where a later edit in force stands in the way."""
        return self._book.undo(self.number)

    def redo(self) -> "Edit":
        """Puts this edit in force again, in its own place."""
        return self._book.redo(self.number)

    def cascade(self) -> Cascade:
        """Takes it back with every later edit that needs it."""
        return self._book.cascade(self.number)

    def dependents(self) -> List[int]:
        """The later edits that would have to go first, ascending. See `Workbook.dependents`."""
        return self._book.dependents(self.number)

    def __repr__(self) -> str:
        if self._unsent:
            return "<edit that isn't sent>"
        if self._number < 0:
            refused = self._reading is not None and self._reading.reply is not None
            return f"<edit {'refused' if refused else 'on its way'}: {self.what}>"
        return f"<edit {self._number}: {self.what or 'by another seat'}>"


class Pipeline:
    """A block in which changes go out without waiting for their replies.

    Asking for a value still waits, and so reads all replies before it; `get` and `ask` don't.
    """

    def __init__(self, book: "Workbook"):
        self._book = book
        self.sent = 0
        """How many changes went out."""
        self.refused: List[Refusal] = []
        """The refusals of changes, in the order of the requests."""

    def ask(self, request: Request) -> Reading:
        """Sends any question, as `workbook_client.requests` makes them."""
        self._book.may_ask(request)
        return self._book.exchange.post(request)

    def get(self, array: Any, index: Index) -> Reading:
        """An element that is asked for now and read later, by `.value`."""
        if not self._book.same_as(getattr(array, "book", self._book)):
            raise ValueError(f"{array.name} is of another workbook")
        return self.ask(requests.get(array, index))
