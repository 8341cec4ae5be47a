"""What the page shows of a workbook, and what is done by it."""

import hashlib
import io
import json
import re
import threading
import time
from contextlib import contextmanager
from typing import Any, Callable, Dict, Iterator, List, NamedTuple, Optional, Set, Tuple

from . import bulk, cuts, hearing, requests, sheets, titles
from .book import Workbook
from .edits import Cascade, Edit
from .errors import NotTakenBack, SessionEnded, WorkbookError
from .hearing import News
from .language import LanguageError, parse
from .literals import GREATEST, LEAST, Index, as_note, index_text, name as named, spelled_ranges
from .names import takers
from .objects import Array
from .reach import Reach, in_words
from .refusals import Refusal
from .session import Session
from .snapshot import RectDomain, Snapshot, SparseDomain
from .tables import harmless, pointed
from .titles import Labels

MOST = 4096
"""So many elements of an array are shown at once."""
LATEST = 300
"""So many of the latest edits are shown at first, and as many more each time that earlier ones are wanted. With more, the text of the
whole history isn't asked for."""
ASKED = 60
"""Of so many edits in sight it is asked at once who needs them, the latest first."""
PARTS = 300
"""So many edits of a transaction are listed."""
APART = 1.5
"""So many seconds lie between two looks at a shared workbook, however many pages are open."""
TERMINAL_ALONE = {
    **dict.fromkeys(("save", "load", "keep", "import", "export", "compact"), "Files are for the terminal; the links above give the texts."),
    **dict.fromkeys(
        ("begin", "commit", "abandon"), "That is for the terminal. Here a paste is one edit, and what is typed as `why` goes with the next one.",
    ),
    "colours": "Colours by locale are the box above.",
    "more": "Tables are shown above.",
    "quit": "The page is closed in the browser; its server ends by Ctrl-C in the terminal.",
}
"""Commands of the session that the page doesn't take."""

Json = Dict[str, Any]


class Sight(NamedTuple):
    """The edits in sight on a page: from one to another, or to the latest."""

    low: int
    high: Optional[int] = None

    def has(self, number: int) -> bool:
        """Whether an edit is in sight."""
        return self.low <= number and (self.high is None or number <= self.high)


class Doing(Session):
    """A session for one thing that the page does, which notes what was taken back and put back by it. `decimals` has how many digits
    stand behind a point in the tables of the page, `note` is what a change is to be noted as."""

    here = "on this page"

    def __init__(self, book: Workbook, out: io.StringIO, decimals: Dict[str, int], note: str = ""):
        super().__init__(book, out, width=100, barred=TERMINAL_ALONE)
        self.decimals = decimals
        self._note = note
        self.noted = False
        """Whether the note went with a change."""
        self.undone: List[int] = []
        self.redone: List[int] = []
        self.cascade: List[int] = []
        """What a cascade took back."""

    def do_show(self, name: str, part: Optional[str] = None, decimals: Optional[int] = None, page: int = 0) -> None:
        """`show A / 100` shows the table of the page so from now on; else a table is told below."""
        if part is not None or decimals is None or self.book.kind(name) != "array":
            super().do_show(name, part, self.decimals.get(name, 0) if decimals is None else decimals, page)
            return
        self.decimals[name] = decimals
        number = 15 * 10 ** (decimals - 1) if decimals else 0
        if decimals:
            self.wrapped(f"{name} is shown / {10**decimals} above: {number} as {pointed(number, decimals)}. The workbook has whole numbers, and "
                         f"these are typed; `show {name} / 1` shows them again.")
        else:
            self.wrapped(f"{name} is shown in whole numbers above")

    def change(self, request: requests.Request) -> Edit:
        note = self.note()
        return super().change(request) if note is None else self.book.transact([request], note)

    def note(self, otherwise: Optional[str] = None) -> Optional[str]:
        """What a change is noted as, where something was typed; else as this."""
        self.noted = self.noted or bool(self._note)
        return self._note or otherwise

    def moved(self, how: str, edit: Edit) -> None:
        (self.undone if how == "taken back" else self.redone).append(edit.number)
        super().moved(how, edit)

    def cascaded(self, done: Cascade) -> None:
        self.undone += done.undone
        self.cascade = done.undone
        super().cascaded(done)


class View:
    """The one workbook behind the page; a lock lets one request at a time to it."""

    def __init__(self, book: Workbook):
        self.book = book
        self._lock = threading.Lock()
        self._told: Tuple[int, Json] = (-1, {})
        self._now: List[bool] = []  # whether each edit is in force, as it was last told
        self._version = 0  # rises where something that is shown changed
        self._needs: Dict[int, List[int]] = {}  # of some edits in force: who would go in a cascade, from the greatest down
        self._shot: Optional[Snapshot] = None  # the workbook, where it was just heard
        self._objects: Optional[Json] = None  # its domains and arrays as the page has them, until an edit comes or goes
        self._heard: Optional[Tuple[int, int]] = None  # how much a shared workbook had when all of it was last heard
        self._looked = float("-inf")  # when it was last looked at
        self._undone: List[int] = []  # one's own edits that were taken back here, in the order of their undos
        self._cascaded: List[int] = []  # what the latest cascade took back, ascending
        self._taken: List[int] = []  # one's own edits that another took back
        self._reach = Reach(book)
        self._news = ""  # what is told of a workbook that is there again
        self._decimals: Dict[str, int] = {}  # how many digits stand behind a point, by array
        self._cuts: Dict[str, int] = {}  # which part of a large array is shown
        self._latest = LATEST  # so many of the latest edits are shown
        self._guests: List[str] = []  # who else is at the desk, by name

    # --- a workbook that goes away

    @contextmanager
    def _there(self) -> Iterator[None]:
        """The workbook, for whoever has the lock. Where it went away it is tried again first; NotSent where it isn't there, and
        SessionEnded where it goes away now."""
        with self._lock:
            news = self._reach.check()
            if news is not None:
                self._back(news)
            try:
                yield
            except SessionEnded as end:
                self._reach.went(end)
                raise

    def _back(self, news: News) -> None:
        """It is there again; another workbook at its place has nothing of what was known."""
        self._news = in_words(news, self.book)
        self._objects, self._heard, self._looked = None, None, float("-inf")
        self._version += 1
        if news.other:
            self._needs, self._undone, self._cascaded, self._taken = {}, [], [], []
        else:
            self._taken += [k for k in news.undone if self._is_mine(k)]

    def away(self, end: SessionEnded, seen: str) -> Json:
        """What is told while the workbook isn't there; with its last state where the page has another, or none."""
        state = self._told[1]
        return {**self._reach.told(end), "state": state if state and state["version"] != seen else None}

    # --- what there is

    def state(self, sight: Optional[Sight] = None) -> Json:
        """All that the page shows. `version` changes exactly where something else does. Who needs an edit is asked of those in sight
        alone."""
        with self._there():
            if not self.book.alone:
                self._look()
            # The edits in force make the workbook, so what they are tells whether it changed.
            edits = [self.book.edits[number] for number in sorted(self.book.edits)]
            now = self._in_force()
            if self._now != now:
                self._now, self._objects = now, None
                self._needs = {k: needs for k, needs in self._needs.items() if self._still(needs)}
                self._forget_what_is_in_force()
                self._version += 1
            self._ask_in_sight(edits, sight)
            if self._told[0] != self._version:
                self._told = (self._version, self._state(edits))
            return self._told[1]

    def _in_force(self) -> List[bool]:
        """Whether each edit is in force, as far as this session heard."""
        return [self.book.edits[number].was_in_force for number in sorted(self.book.edits)]

    def _still(self, numbers: List[int]) -> bool:
        """Whether the edits in the way are still in the way, after a change; others may have joined
        them. A session of its own asks again."""
        edits = self.book.edits
        stand = all(k in edits and edits[k].was_in_force for k in numbers)
        return not self.book.alone and len(numbers) > 1 and stand

    def _is_mine(self, number: int) -> bool:
        """Whether an edit is one's own; in a session of its own all are."""
        edit = self.book.edits.get(number)
        return edit is not None and (self.book.alone or edit.who == self.book.who)

    def _is_off(self, number: int) -> bool:
        edit = self.book.edits.get(number)
        return edit is not None and not edit.was_in_force

    def _forget_what_is_in_force(self) -> None:
        """What may be put back is out of force."""
        self._undone = [k for k in self._undone if self._is_off(k)]
        self._taken = [k for k in self._taken if self._is_off(k)]
        self._cascaded = [k for k in self._cascaded if self._is_off(k)]

    def needs(self, k: int) -> Json:
        """Edit k and those that need it, from the greatest down: who would go in a cascade now."""
        with self._there():
            try:
                self._ask_needs(k)
            except Refusal as no:
                self._looked = float("-inf")
                return {"ok": False, "say": str(no)}
            return {"ok": True, "k": k, "needs": self._needs[k]}

    def parts(self, k: int) -> Json:
        """What each edit of a transaction does, as far as that was heard, and how many more there are."""
        with self._lock:
            edit = self.book.edits.get(k)
            parts = edit.parts if edit is not None else []
            return {"ok": True, "k": k, "parts": [harmless(part) for part in parts[:PARTS]], "more": max(len(parts) - PARTS, 0)}

    def _ask_in_sight(self, edits: List[Edit], sight: Optional[Sight]) -> None:
        """Who needs the edits in sight of which it isn't known."""
        if sight is None:
            return
        seen = [edit.number for edit in edits[-self._latest :] if edit.was_in_force and sight.has(edit.number)]
        for k in seen[-ASKED:]:
            if k not in self._needs:
                try:
                    self._ask_needs(k)
                except Refusal:  # another took it back meanwhile, which is heard at the next look
                    self._looked = float("-inf")

    def _ask_needs(self, k: int) -> None:
        found = [*reversed(self.book.dependents(k)), k]
        if self._needs.get(k) != found:
            self._needs[k] = found
            self._version += 1

    def _look(self) -> None:
        """Whether anything changed in a shared workbook, by one short question, since each stays at
        the desk as an entry. Where something did, the text of the history is asked for, or of a
        long one the lines of the latest edits. What an edit that set nothing became is heard with
        the next change."""
        if time.monotonic() < self._looked + APART:
            return
        counts = self.book.counts()
        if counts != self._heard:
            before = self._mine()
            self._hear(counts[0])
            self._taken += [k for k in before if self._is_off(k)]
            self.book.names_heard.hear()
            self._heard, self._objects = counts, None
            self._version += 1
        self._look_for_guests()
        self._looked = time.monotonic()

    def _look_for_guests(self) -> None:
        """Who else is at the desk, where it tells of names and this session has said one; no such question stays there."""
        names = self.book.names_heard
        if not names.tells:
            return
        guests = sorted(name for seat, name in self.book.desk().names.items() if seat != names.seat)
        if guests != self._guests:
            self._guests = guests
            self._version += 1

    def _mine(self) -> List[int]:
        """One's own edits in a shared workbook that are in force, as far as that was heard."""
        return [] if self.book.alone else [k for k, edit in self.book.edits.items() if edit.was_in_force and self._is_mine(k)]

    def _hear(self, edits: int) -> None:
        """What others did, of so many edits."""
        if edits <= LATEST:
            self._shot = hearing.hear_all(self.book)
        else:
            hearing.hear_latest(self.book, edits, self._latest)

    def _state(self, edits: List[Edit]) -> Json:
        if self._objects is None:
            shot, self._shot = self._shot or self.book.snapshot(), None
            self._objects = {
                "domains": [
                    {"name": name, "words": harmless(shot.domains[name].in_words())} for name in sorted(shot.domains)
                ],
                "arrays": [self._array(shot, name) for name in titles.last_with_titles(self.book.labels, shot)],
            }
        state: Json = {
            "alone": self.book.alone,
            "kept": harmless(self.book.journal or ""),
            "where": harmless(self.book.where),
            "guests": [harmless(name) for name in self._guests],
            "news": harmless(self._news),
            "taken": sorted(set(self._taken)),
            "takers": {str(k): harmless(name) for k, name in takers(self.book, self._taken).items()},
            "cascaded": self._cascaded,
            **self._objects,
            "edits": [self._edit(edit) for edit in edits[-self._latest :]],
            "earlier": max(len(edits) - self._latest, 0),
        }
        state["version"] = hashlib.sha256(json.dumps(state).encode()).hexdigest()[:16]
        return state

    def _array(self, shot: Snapshot, name: str) -> Json:
        array = shot.arrays[name]
        domain, elements = shot.domains[array.over], shot.array(name)
        part = cuts.cut(domain, self._cuts.get(name, 0), MOST)
        of = domain.of if isinstance(domain, SparseDomain) else None
        lies = shot.domains[of] if of else domain
        shown: Json = {
            "name": name,
            "over": array.over,
            "words": harmless(domain.in_words()),
            "size": len(elements),
            "ranges": [[str(each.start), str(each.step), len(each)] for each in domain.ranges] if isinstance(domain, RectDomain) else [],
            "values": [[_parts(i), _at(i), str(elements[i])] for i in part.indices],
            "part": [part.number, part.of, *part.begins],
            "locales": None,
            **self._titles(shot, name),
        }
        if isinstance(lies, RectDomain) and lies.map != "none" and self.book.alone:
            shown["locales"] = self._locales(name, part.indices)
        if of is not None:
            shown["irv"], shown["parent"] = str(array.irv), of
        return shown

    def _titles(self, shot: Snapshot, name: str) -> Json:
        """What rows and columns of an array are called, by their indices as texts, and how many digits stand behind a point."""
        drawn = titles.looks(self.book.labels, shot, name, self._decimals.get(name, 0))
        down, across = ({str(at): harmless(title) for at, title in each.items()} for each in (drawn.down, drawn.across))
        return {"down": down, "across": across, "decimals": drawn.decimals}

    def _locales(self, name: str, indices: List[Index]) -> List[int]:
        pieces = Array(self.book, name).pieces()
        at = {i: locale for locale, piece in enumerate(pieces) for i in piece}
        return [at.get(i, 0) for i in indices]

    def _edit(self, edit: Edit) -> Json:
        return {
            "k": edit.number, "what": harmless(requests.together(edit.parts) if edit.parts else edit.what), "note": harmless(edit.note or ""),
            "parts": len(edit.parts), "who": edit.who, "by": harmless(edit.by), "cells": edit.cells,
            "on": edit.was_in_force, "needs": self._needs.get(edit.number) if edit.was_in_force else None,
        }

    # --- what is done

    def do(self, asked: Json) -> Json:
        """A line of the short language (`line`), or what an `op` of the page does."""
        line, act = str(asked.get("line", "")), ACTS.get(str(asked.get("op")))
        with self._there():
            self._looked = float("-inf")
            note = str(asked.get("note") or "")
            return self._done((lambda session: session.line(line)) if act is None else (lambda session: act(self, session, asked)), note)

    def _done(self, act: Callable[[Doing], object], note: str) -> Json:
        """What came of it, in the words of the session."""
        said, before, looks = io.StringIO(), self._mine(), self._looks()
        session = Doing(self.book, said, self._decimals, note)
        try:
            act(session)
        except Refusal as no:
            session.failed = True
            session.refused(no)
        except NotTakenBack as left:
            if isinstance(left.why, SessionEnded):
                raise left.why from left
            self._wrong(session, left)
        except SessionEnded:
            raise
        except (WorkbookError, LanguageError, ValueError, TypeError) as wrong:
            self._wrong(session, wrong)
        self._note(session, before)
        if self._looks() != looks:
            self._objects = None
            self._version += 1
        told: Json = {"ok": not session.failed, "say": said.getvalue().rstrip(), "noted": session.noted and not session.failed}
        refused = session.refusal
        if refused is not None:
            by, k = refused.reply.get("by"), refused.request.get("k")
            told.update(ok=False, code=refused.code, name=refused.name, by=by)
            if by is not None and k is not None and refused.request["op"] == "undo":
                self._hold(k, by)
        return told

    def _looks(self) -> Tuple[Labels, Dict[str, int], Dict[str, int]]:
        """How tables are shown: their titles, the digits behind a point, and the parts of large ones."""
        return dict(self.book.labels), dict(self._decimals), dict(self._cuts)

    def _wrong(self, session: Doing, wrong: Exception) -> None:
        session.failed = True
        session.wrapped(str(wrong))

    def _note(self, session: Doing, before: List[int]) -> None:
        """Notes what was taken back and put back here, and what another took back meanwhile."""
        gone = [k for k in session.undone if self._is_mine(k)]
        back = {*gone, *session.redone}
        self._undone = [k for k in self._undone if k not in back] + gone
        if session.cascade:
            self._cascaded = sorted(session.cascade)
        self._taken += [k for k in before if self._is_off(k) and k not in session.undone]

    def _undo_mine(self, session: Doing) -> None:
        """Takes back the latest of one's own edits."""
        mine = [k for k, edit in self.book.edits.items() if edit.was_in_force and self._is_mine(k)]
        if not mine:
            raise ValueError("no edit of yours is in force")
        session.request(requests.undo(max(mine)))

    def _redo_mine(self, session: Doing) -> None:
        """Puts back what was taken back here last."""
        off = [k for k in self._undone if self._is_off(k)]
        if not off:
            raise ValueError("nothing of yours was taken back here: redo on the right puts any edit back")
        session.request(requests.redo(off[-1]))

    def _put_back(self, session: Doing, asked: Json) -> None:
        """Puts edits in force again, upward: an edit that reads what another of them wrote comes after it. Downward it would read
        what stood there before, and have another number."""
        for k in sorted(_numbers(asked)):
            if self._is_off(k):
                session.request(requests.redo(k))

    def _leave(self, asked: Json) -> None:
        """What was taken back is left so, and no more told."""
        numbers = _numbers(asked)
        self._taken = [k for k in self._taken if k not in numbers]
        if numbers >= set(self._cascaded):
            self._cascaded = []
        self._version += 1

    def _paste(self, session: Doing, asked: Json) -> None:
        """Gives many elements of an array their numbers, as one edit, or where a line would be too long as few as it takes, all or none.
        Where nothing else was typed, a paste is noted as such."""
        wanted = list(_put(asked)) if "on" in asked else [_set(asked.get("a"), cell) for cell in _listed(asked, "cells")]
        if not wanted:
            raise ValueError("there is nothing to paste")
        edits = self.book.as_one(wanted, session.note(None if asked.get("fills") else "paste"), parts=True)
        session.wrapped(f"{_many(sum(edit.cells for edit in edits), 'cell')} of {wanted[0]['a']} set by {_as_one(edits)}")

    def _turn(self, asked: Json) -> None:
        """Another part of a large array is shown."""
        name, number = str(asked.get("a")), asked.get("part")
        if not isinstance(number, int) or isinstance(number, bool) or number < 0:
            raise ValueError("that is no part of an array")
        self._cuts[name] = number

    def _earlier(self) -> None:
        """Earlier edits are shown too; what became of them in a shared workbook is heard anew."""
        self._latest += LATEST
        self._heard = None
        self._version += 1

    def _table(self, session: Doing, asked: Json) -> None:
        """A new array of a table that was pasted or is a file's; the elements of one that is there become those of the table."""
        file = str(asked.get("file") or "")
        note = session.note(as_note(f"import {file}") if file else "paste")
        session.took(named(str(asked.get("a", "")).strip()), str(asked.get("text", "")), of="table", note=note)

    def _hold(self, k: int, by: int) -> None:
        """After a refused undo the page shows who is in the way."""
        try:
            self._ask_needs(k)
        except Refusal:  # others have moved since
            self._needs[k] = [by, k]
            self._version += 1

    # --- texts

    def text(self) -> str:
        """The text of the workbook."""
        with self._there():
            return self.book.print_text()

    def history(self) -> str:
        """The text of the whole history."""
        with self._there():
            return self.book.history_text()

    def csv(self, name: str) -> Optional[str]:
        """An array as a spreadsheet takes it; None where none has the name."""
        with self._there():
            shot = self.book.snapshot()
            if name not in shot.arrays:
                return None
            drawn = titles.looks(self.book.labels, shot, name)
            return sheets.written(shot, name, down=drawn.down, across=drawn.across)


ACTS: Dict[str, Callable[[View, Doing, Json], None]] = {
    "undo": lambda view, session, asked: session.request(requests.undo(_number(asked))),
    "redo": lambda view, session, asked: session.request(requests.redo(_number(asked))),
    "cascade": lambda view, session, asked: session.request(requests.cascade(_number(asked))),
    "undo_mine": lambda view, session, asked: view._undo_mine(session),
    "redo_mine": lambda view, session, asked: view._redo_mine(session),
    "put_back": lambda view, session, asked: view._put_back(session, asked),
    "leave": lambda view, session, asked: view._leave(asked),
    "paste": lambda view, session, asked: view._paste(session, asked),
    "turn": lambda view, session, asked: view._turn(asked),
    "earlier": lambda view, session, asked: view._earlier(),
    "table": lambda view, session, asked: view._table(session, asked),
}
"""What the page does beside lines."""


def _number(asked: Json) -> int:
    return _as_number(asked.get("k"))


def _numbers(asked: Json) -> Set[int]:
    return {_as_number(k) for k in _listed(asked, "ks")}


def _as_number(k: Any) -> int:
    if not isinstance(k, int) or isinstance(k, bool):
        raise ValueError("that is no edit's number")
    return k


def _listed(asked: Json, key: str) -> List[Any]:
    found = asked.get(key)
    if not isinstance(found, list):
        raise ValueError(f"{key} is a list")
    return found


def _put(asked: Json) -> Iterator[requests.Request]:
    """The changes that give the indices of a rectangle these numbers, which are texts, in the order of its ranges."""
    name, numbers = asked.get("a"), [_whole(value) for value in _listed(asked, "vs")]
    return bulk.at_ranges(str(name), spelled_ranges(str(asked.get("on"))), numbers)


def _set(name: Any, cell: Any) -> requests.Request:
    """A cell's `set`: its index as the short language has it in brackets, and its number, both as texts."""
    at, value = (cell if isinstance(cell, list) and len(cell) == 2 else ["", ""])
    what = parse(f"{name}[{at}] = {_whole(value)}", lambda _: None)
    if not isinstance(what, dict) or what["op"] != "set" or what["a"] != name:
        raise ValueError(f"{at!r:.60} is no index")
    return what


def _whole(value: Any) -> int:
    """A whole number as it was typed."""
    text = str(value)
    if not re.fullmatch("[+-]?[0-9]+", text):
        raise ValueError(f"whole numbers only: {text[:40] or 'an empty cell'} isn't one")
    number = int(text) if len(text.lstrip("+-0")) < 20 else GREATEST + 1
    if not LEAST <= number <= GREATEST:
        raise ValueError(f"a number has 64 bits at most, and {text[:40]} has more")
    return number


def _many(number: int, what: str) -> str:
    return f"{number:,} {what}{'s' * (number != 1)}"


def _as_one(edits: List[Edit]) -> str:
    """These edits in a few words, though others may have come between them."""
    first, last, many = edits[0].number, edits[-1].number, len(edits)
    if many == 1:
        return f"edit {first}"
    which = f"edits, {first} to {last}" if last - first + 1 == many else f"edits between {first} and {last}"
    return f"{many:,} {which}, of which each is taken back by itself"


def _parts(index: Index) -> List[str]:
    """The index's numbers, or its text, as texts to be shown: JavaScript's numbers have 53 bits."""
    return [str(part) for part in index] if isinstance(index, tuple) else [harmless(str(index))]


def _at(index: Index) -> str:
    """The index as the short language has it in brackets."""
    return ", ".join(map(str, index)) if isinstance(index, tuple) else index_text(index)
