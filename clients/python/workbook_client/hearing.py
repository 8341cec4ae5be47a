"""What others do in a shared workbook, as far as this session asks for it.

The text of the history tells all, and grows with it; the lines of its edits from a number on tell of
these alone. Whether anything changed at all is one short question (`Workbook.counts`).
"""

import json
from itertools import count
from typing import TYPE_CHECKING, Dict, Iterable, List, NamedTuple

from . import requests
from .edits import Edit
from .requests import Request
from .snapshot import Snapshot

if TYPE_CHECKING:
    from .book import Workbook


class Past(NamedTuple):
    """The text of a history, read."""

    snapshot: Snapshot
    """The workbook."""
    edits: Dict[int, "tuple[bool, Request]"]
    """Each edit by its number: whether it is in force, and its request."""


def read(text: str) -> Past:
    """What the text of a history tells."""
    if text.startswith("chapel-workbook 3"):
        raise ValueError("this is a journal file: `--journal` goes on from it")
    objects, mark, rest = text.partition("\nhistory ")
    lines = rest.split("\n")
    if not mark or not objects.startswith("chapel-workbook 2") or lines[-2:] != ["end", ""]:
        raise ValueError("this is no text of a history: that starts with `chapel-workbook 2` and ends with `end`")
    return Past(Snapshot.read(objects.replace("workbook 2", "workbook 1", 1) + "\nend\n"), _edits(lines[1:-2], 1))


def _edits(lines: List[str], first: int) -> "Dict[int, tuple[bool, Request]]":
    """What the lines of edits tell, by the number of the first."""
    return {number: (line[0] == "+", json.loads(line[2:])) for number, line in enumerate(lines, start=first)}


def hear_all(book: "Workbook") -> Snapshot:
    """Hears of every edit, by one question whose answer grows with the history; gives the workbook."""
    past = read(book.history_text())
    note(book, past.edits, "another")
    return past.snapshot


def hear_from(book: "Workbook", k: int) -> int:
    """Hears of the edits from number k on, by one question whose answer has their lines alone; gives how many edits there are."""
    told = book.ask(requests.history_from(k))
    lines = told.text("text").split("\n")[:-1]
    note(book, _edits(lines, max(k, 1)), "another")
    return told.number("edits")


def note(book: "Workbook", edits: "Dict[int, tuple[bool, Request]]", who: str) -> None:
    """Notes what a history tells of edits; those that were unheard of are someone's."""
    for number, (in_force, request) in edits.items():
        edit = _known(book, number, in_force, who)
        edit.tell(request)


def hear_latest(book: "Workbook", edits: int, latest: int) -> None:
    """Hears, of so many edits, of those that this session doesn't know and of the latest ones. What became of others isn't heard."""
    unknown = next(number for number in count(1) if number not in book.edits)
    hear_from(book, max(1, min(unknown, edits - latest + 1)))


class News(NamedTuple):
    """What became of a workbook since this session last heard of it."""

    edits: int
    """How many edits it has."""
    known: int
    """How many this session knew."""
    other: bool
    """Whether it is another history: edits that were known aren't there."""
    came: List[int]
    """Edits that are new."""
    undone: List[int]
    redone: List[int]

    @property
    def none(self) -> bool:
        """Whether nothing was done meanwhile."""
        return not (self.other or self.came or self.undone or self.redone)


def hear_again(book: "Workbook") -> News:
    """Hears of every edit of a workbook that was away, by the text of its history. Of another history all is heard anew."""
    past, known = read(book.history_text()), dict(book.edits)
    was = {number: edit.was_in_force for number, edit in known.items()}
    other = any(number not in past.edits or not _alike(edit.what, past.edits[number][1]) for number, edit in known.items())
    if other:
        book.edits.clear()
    note(book, past.edits, book.who if book.alone else "another")
    now = {number: in_force for number, (in_force, _) in past.edits.items()}
    return News(
        len(now), max(known, default=0), other, [k for k in now if k > max(known, default=0)],
        [k for k, on in was.items() if on and not now.get(k, True)], [k for k, on in was.items() if not on and now.get(k, False)],
    )


def _alike(words: str, request: Request) -> bool:
    """Whether a history's request may be the one of these words, of which literals may be spelled otherwise."""
    return not words or _without_literals(words) == _without_literals(requests.in_words(request))


def _without_literals(words: str) -> str:
    before = words.partition("{")[0].partition(" dmapped ")[0]
    return before.partition("[")[0] if ".." in before else before


def _known(book: "Workbook", number: int, in_force: bool, who: str = "another") -> Edit:
    edit = book.edits.setdefault(number, Edit(book, "", who, number))
    edit.was_in_force = in_force
    return edit


def unheard(book: "Workbook", numbers: Iterable[int]) -> List[int]:
    """Those of these edits of which this session doesn't know what they do."""
    return [number for number in numbers if number not in book.edits or not book.edits[number].what]
