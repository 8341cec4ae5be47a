"""Who did what at a desk that stays: the names that its connections say, and who made each edit, undo and redo."""

from typing import TYPE_CHECKING, Any, Dict, List, NamedTuple, Optional, Tuple

from . import requests
from .errors import StrangeReply

if TYPE_CHECKING:
    from .book import Workbook

LATEST = 2**63 - 1
"""No desk has done so much: from here on nothing is told but which number the next one has."""
MOST = 10_000
"""Of edits that aren't known yet so many things are kept that were heard."""


class Doing(NamedTuple):
    """What a seat did with an edit."""

    did: str
    """`edit`, `undo` or `redo`."""
    edit: int
    """The number of the edit."""
    name: Optional[str]
    """The name that the connection had said."""
    seat: int


class Standing(NamedTuple):
    """How a desk that stays stands."""

    seats: int
    free: int
    """How many of its seats nobody has."""
    names: Dict[int, str]
    """Who has said a name, by seat."""
    since: int
    """When it began, in seconds since 1970."""
    entries: int
    """How many requests it keeps that aren't checked yet."""
    journal: Optional[int]
    """How many bytes its journal has."""


class Sitting(NamedTuple):
    """What was done from one number on, and before another, at a seat that this session had."""

    first: int
    end: float
    seat: int

    def has(self, number: int, doing: Doing, name: Optional[str]) -> bool:
        """Whether this session did it."""
        return self.first <= number < self.end and (doing.seat, doing.name) == (self.seat, name)


class Names:
    """What a session hears of who did what. A desk that gives each seat once tells nothing of it."""

    def __init__(self, book: "Workbook"):
        self._book = book
        self._next = 1  # the number of the next thing that is to be heard of
        self._sittings: List[Sitting] = []
        self._early: List[Tuple[Doing, bool]] = []  # what was heard of edits of which this session doesn't know yet, and whether it did it
        self.seat: Optional[int] = None
        """The number of this session's seat, where it has said its name."""
        self.name: Optional[str] = None
        """The name that it has said."""
        self.tells = False
        """Whether the desk tells who did what."""

    def hello(self, name: str) -> None:
        """Says this session's name, which it may do once; `BadRequest` where the desk takes no names, or not this one."""
        self.seat = self._book.ask(requests.hello(name)).number("seat")
        self.name, self.tells = name, True
        since = self._book.ask(requests.doings_from(LATEST)).number("from")
        self._sittings.append(Sitting(since, float("inf"), self.seat))

    def sits_again(self, other: "Names") -> None:
        """Goes on from another seat of the desk, or of one that has begun anew, where the same name was said."""
        if not other.tells:
            return
        now = other._sittings[-1]
        if now.first < self._next:  # it has begun anew, and knows nothing of before
            self._next, self._sittings, self._early = 1, [], []
        before = [sitting._replace(end=min(sitting.end, now.first)) for sitting in self._sittings]
        self._sittings = [*before, now]
        self.seat, self.name, self.tells = other.seat, other.name, True

    def hear(self) -> None:
        """Hears who did what since it was last asked."""
        if not self.tells:
            return
        told = self._book.ask(requests.doings_from(self._next))
        first = told.number("from")
        doings = [_doing(one) for one in told.listed("done")]
        heard = self._early + [(doing, self._is_mine(number, doing)) for number, doing in enumerate(doings, start=first)]
        self._early = [one for one in heard if not self._note(*one)][-MOST:]
        self._next = first + len(doings)

    def _is_mine(self, number: int, doing: Doing) -> bool:
        return any(sitting.has(number, doing, self.name) for sitting in self._sittings)

    def _note(self, doing: Doing, mine: bool) -> bool:
        """Notes it at its edit, if that is known."""
        edit = self._book.edits.get(doing.edit)
        if edit is None:
            return False
        name = "" if mine else doing.name or f"seat {doing.seat}"
        if doing.did == "edit":
            edit.by = "" if edit.who == self._book.who else name  # one's own from before one's name was said
        else:
            edit.turned_by = name
        return True


def standing(book: "Workbook") -> Standing:
    """How the desk stands; `BadRequest` where it tells nothing of it."""
    told = book.ask(requests.desk())
    journal = None if told["journal"] is None else told.number("journal")
    try:
        names = {int(one["seat"]): str(one["name"]) for one in told.listed("names")}
    except (KeyError, TypeError, ValueError) as wrong:
        raise StrangeReply(f"what came tells of no names: {dict(told)!r:.200}") from wrong
    return Standing(told.number("seats"), told.number("free"), names, told.number("since"), told.number("entries"), journal)


def _doing(told: Any) -> Doing:
    """What a desk tells of one thing that was done."""
    try:
        return Doing(str(told["did"]), int(told["edit"]), told["name"], int(told["seat"]))
    except (KeyError, TypeError, ValueError) as wrong:
        raise StrangeReply(f"what came tells of nothing that was done: {told!r:.200}") from wrong


def takers(book: "Workbook", numbers: List[int]) -> Dict[int, str]:
    """Who took back each of these edits, as far as that was heard."""
    return {number: book.edits[number].turned_by for number in numbers if number in book.edits and book.edits[number].turned_by}
