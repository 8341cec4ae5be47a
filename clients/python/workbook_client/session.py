"""The session for people: a prompt, a short language, tables, and refusals in words."""

import io
import shlex
import shutil
import sys
import textwrap
from typing import Dict, List, Mapping, Optional, TextIO, Tuple

from . import files, hearing, hints, journal, labels, sheets, titles
from . import literals as lit
from . import requests
from .begun import Begun
from .book import Workbook
from .channel import ProgramChannel
from .edits import Cascade, Edit
from .errors import NotOpened, NotTakenBack, SessionEnded, WorkbookError, sentence
from .language import Command, LanguageError, parse
from .literals import Index
from .objects import Array
from .refusals import Blocked, NotInForce, Refusal
from .requests import QUESTIONS, Request
from .tables import NEXT, Cell, elements_table, grid, harmless, object_table

HELP = """\
Domains        D = {1..4}                    a new domain; on one that is there, a new value
               D = {1..9 by 2 align 1}       a stride; also 0..<4 and 1..#4
               D = {1..4} dmapped blockDist({1..4}, [2])
               D dmapped cyclicDist(1, [2])  another mapping, or none
               D dmapped blockCycDist(1, 2, [2])
               S sparse D                    sparse in D, with no index yet
               N = int     T = text          associative, with no index yet
               S += 3      T -= "x"          an index comes, or leaves
               N |= {3, 7} N -= {1}  N &= M  N ^= M
               D = D[{3..9}]   D.translate(1)   D.expand(0, 2)
Arrays         A over D                      0 at each index
               A[4] = 9    M[1, 2] = 9       P["x"] = 9
               A[1] = B[2] + 3               a copy: it reads B[2]
               A[4] += 3                     a copy from itself
               A[1..2] = 7   A = 0           fills a rectangle, or all of it
               A[1..3] = [5, 6, 7]           a number for each index
               A = B   A += B   A *= B       element by element
               B.irv = 7                     the implicit value over a sparse domain
               drop A                        an array goes, or an unused domain
Looking        A     A[4]     A[1..20]       a table, an element, a part of the table
               show A / 100                  the same with two digits behind a point
               more                          the next page of a long table
               label A rows B                titles from B: B["x"] = 3 calls row 3 x
               label A columns C             label A rows, alone, shows the numbers again
               + reduce A    min reduce A    max reduce A
               size D    where D 3    piece A 0    names    text
               colours on    colours off     tables by locale, or plain
Edits          history    history 18         every edit, or from 18 on: who, what, whether in force
               undo    undo 3    redo 3      one edit alone, the latest if none is named
               dependents 3    cascade 3     who needs edit 3; takes it back with those
               begin    commit "why"         edits between are gathered, and made as one
               abandon    abandon 2          drops them, or the second of them
               note 7                        why edit 7 was made, and what it did
At a desk      who    hello Ben              who is there, and what others are told of who you are
Files          save FILE    load FILE        the text of the workbook
               keep FILE                     the whole history, for --resume FILE
               import A FILE  export A FILE  a table of a spreadsheet, .csv or .tsv
               compact FILE                  a journal file that nobody has open, made anew
Remarks        // starts a remark            help lists all this
End            quit    exit                  Ctrl-D does it too"""

FEW = 500
"""With more edits, a refusal doesn't ask the text of the history for what another's edit did."""

SHOWN = 40
"""So many edits are listed at once."""

SHOWS = ("show", "more", "names", "text", "save", "keep", "export")
"""Commands that show or write the workbook as it is, without what is gathered."""


class Session:
    """Runs lines of the short language on a workbook and prints what came of them."""

    here = "in this session"
    """Where titles are shown that were given here."""

    def __init__(
        self, book: Workbook, out: TextIO = sys.stdout, width: Optional[int] = None,
        barred: Optional[Mapping[str, str]] = None,
    ):
        self.book, self.out = book, out
        self.barred = barred or {}
        """Commands that aren't taken here, each with what is said instead."""
        self._width = width
        self.colours = False
        self.failed = False
        """Whether the last line was refused, or wasn't of the language."""
        self.refusal: Optional[Refusal] = None
        """What the program refused it with."""
        self.begun: Optional[Begun] = None
        """The transaction that was begun, and neither committed nor abandoned."""
        self._next: Optional[Tuple[str, Optional[str], Optional[int], int]] = None
        """The page of a table that `more` shows."""
        self._kept = self._now()
        """Which edits there were, and which in force, when a file last had them."""

    def _now(self) -> List[bool]:
        return [edit.was_in_force for edit in self.book.edits.values()]

    def unkept(self) -> int:
        """How many edits go with the session: none where they are kept, or others have them."""
        kept = self.book.journal is not None or not self.book.alone or self._now() == self._kept
        return 0 if kept else len(self.book.edits)

    def gathered(self) -> int:
        """How many edits were gathered since a transaction was begun."""
        return len(self.begun.edits) if self.begun is not None else 0

    def kind(self, name: str) -> Optional[str]:
        """ "domain", "array" or None, as a name stands once what is gathered is made."""
        return self.book.kind(name) if self.begun is None else self.begun.kind(name, self.book.kind)

    def place(self) -> str:
        """Where the workbook lies, and whether it is kept."""
        if not self.book.alone:
            return f"a workbook that others share, at {self.book.where}"
        if self.book.journal is None:
            return "this workbook is kept nowhere: keep FILE writes its history, and --journal FILE keeps each change"
        edits = self._now()
        there = f"{_edits(len(edits))}, {sum(edits):,} in force" if edits else "a new workbook"
        return f"{self.book.journal}: {there}; each change is kept there, before it is told"

    @property
    def width(self) -> int:
        return self._width or max(shutil.get_terminal_size((80, 24)).columns or 80, 24)

    def say(self, text: str) -> None:
        """Prints a text."""
        print(harmless(text), file=self.out)

    def wrapped(self, text: str) -> None:
        self.say(textwrap.fill(text, self.width, initial_indent="  ", subsequent_indent="  ",
                               break_on_hyphens=False))

    def line(self, text: str, prompt: str = "") -> bool:
        """Runs a line. False where it asks for the end. `prompt` stood before it on the terminal."""
        self.failed, self.refusal = False, None
        try:
            what = parse(text, self.kind)
            if isinstance(what, Command):
                goes_on = self.command(what)
                self.without(what.word in SHOWS)
                return goes_on
            if what is not None:
                self.request(what)
                self.without(what["op"] in QUESTIONS)
        except LanguageError as wrong:
            self.failed = True
            self.point(text, wrong, prompt)
        except Refusal as no:
            self.failed = True
            self.refused(no)
        except SessionEnded:
            raise
        except (WorkbookError, ValueError, TypeError, OSError) as wrong:
            self.failed = True
            if isinstance(wrong, NotTakenBack) and isinstance(wrong.why, SessionEnded):
                raise SessionEnded(str(wrong)) from wrong
            self.wrapped(sentence(wrong))
        return True

    def point(self, text: str, wrong: LanguageError, prompt: str) -> None:
        """The mark stands under the column: below the typed line, or below the line again."""
        if not prompt:
            self.say("  " + text)
        lead = len(prompt) if prompt else 2
        before = text[: wrong.column]
        self.say(" " * lead + "".join("\t" if c == "\t" else " " for c in before) + "^")
        self.wrapped(str(wrong))

    # --- requests

    def request(self, request: Request) -> None:
        op = request["op"]
        if self.begun is not None and op not in QUESTIONS:
            self.begun.take(request)
            self.say(f"  gathered, {_edits(self.gathered())} so far")
        elif op == "undo":
            self.moved("taken back", self.book.undo(request.get("k")))
        elif op == "redo":
            self.moved("in force again", self.book.redo(request["k"]))
        elif op == "cascade":
            self.cascaded(self.book.cascade(request["k"]))
        elif op == "reduce":
            self.say(f"  {Array(self.book, request['a']).reduce(request['how'])}")
        elif op == "piece":
            pairs = self.book.ask(request).listed("piece")
            values = {lit.index_back(i): v for i, v in pairs}
            self.say(elements_table(values, self.width, down=len(values) > 0 and isinstance(pairs[0][0], list)))
        elif op == "where":
            self.say(f"  locale {self.book.ask(request).number('locale')}")
        elif op in ("get", "size"):
            (value,) = self.book.ask(request).values()
            self.say(f"  {value}")
        else:
            last = max(self.book.edits, default=0)
            edit = self.change(request)
            self.say(f"  edit {edit.number}, {_cells(edit.cells)}")
            self.between(last, edit.number)

    def change(self, request: Request) -> Edit:
        """Sends a change."""
        return self.book.change(request)

    def without(self, shown: bool) -> None:
        """Tells of what was shown that what is gathered isn't in it."""
        if shown and self.gathered():
            self.wrapped(f"without the {_edits(self.gathered())} that {'is' if self.gathered() == 1 else 'are'} gathered")

    def between(self, last: int, number: int) -> None:
        """Tells of the edits of others between two of which this session heard: their numbers say it."""
        others = number - last - 1
        if others > 0:
            to = "and" if others == 2 else "to"
            these = f"edit {last + 1}" if others == 1 else f"edits {last + 1} {to} {number - 1}" if others < 10 else f"{others:,} edits"
            self.wrapped(f"before it came {these} of other seats; history shows what everybody did")

    def moved(self, how: str, edit: Edit) -> None:
        self.hear_of([edit.number])
        whose = "" if edit.who != "another" else f" of {edit.by}" if edit.by else " of another seat"
        what = f": {edit.what}" if edit.what else ""
        self.wrapped(f"edit {edit.number}{whose} is {how}, {_cells(edit.cells)}{what}")

    def cascaded(self, done: Cascade) -> None:
        many = "edits" if len(done.undone) > 1 else "edit"
        self.wrapped(f"{many} {numbered(done.undone)} taken back, {_cells(done.cells)}")
        if not done.whole:
            self.wrapped("the program's memory ran out before the edit itself; the same line again goes on")

    # --- commands of the session

    def command(self, command: Command) -> bool:
        if command.word in self.barred:
            self.failed = True
            self.wrapped(self.barred[command.word])
            return True
        if command.word == "quit":
            return False
        if self.begun is not None and command.word in ("load", "import"):
            raise ValueError(f"{command.word} is no part of a transaction: commit it first, or abandon it")
        getattr(self, "do_" + command.word)(*command.args)
        return True

    def do_help(self, _word: str = "") -> None:
        """Every line of the help whose command is taken here."""
        self.say("\n".join(line for line in HELP.splitlines() if line[15:].split()[0] not in self.barred))

    def do_show(self, name: str, part: Optional[str] = None, decimals: Optional[int] = None, page: int = 0) -> None:
        ranges = None if part is None else lit.spelled_ranges(part)
        book = self.book.snapshot()
        if name not in book.names():
            self.wrapped(f"nothing is called {name} now")
            return
        locales, looks = self.locales(name, name in book.arrays), titles.looks(self.book.labels, book, name, decimals or 0, page)
        table = object_table(book, name, self.width, locales, ranges, looks)
        self._next = (name, part, decimals, page + 1) if NEXT in table else None
        self.say(table)

    def do_more(self) -> None:
        """The next page of the table that was shown last, as the workbook is now."""
        if self._next is None:
            raise ValueError("no table was shown that goes on")
        self.do_show(*self._next)

    def do_label(self, name: str, way: str, source: Optional[str]) -> None:
        if source is None:
            self.book.labels[name, way] = None
            self.say(f"  {way} of {name} have their numbers")
            return
        found = titles.titles(titles.checked(self.book.snapshot(), name, way, source), source)
        self.book.labels[name, way] = source
        self.wrapped(f"{way} of {name} have titles from {source}: {len(found)} of them, {self.here}")

    def do_begin(self) -> None:
        if self.begun is None:
            self.begun = Begun()
            self.wrapped('begun: what you change now is gathered, and made as one edit by commit, or commit "why"; abandon drops it')
            return
        self.say(f"  begun already, with {_edits(self.gathered())}")
        for place, request in enumerate(self.begun.edits, start=1):
            self.say(f"  {place}: {requests.in_words(request)}")

    def do_commit(self, note: Optional[str]) -> None:
        """Makes what is gathered as one edit. It stays gathered where it is refused, or where it wasn't sent."""
        begun = self.had_begun()
        if not begun.edits:
            self.begun = None
            self.say("  nothing was gathered, so nothing changed")
            return
        last, sent = max(self.book.edits, default=0), self.book.exchange.posted
        self.begun = None
        try:
            edit = self.book.transact(begun.edits, note)
        except BaseException as no:
            if isinstance(no, Refusal) or self.book.exchange.posted == sent:
                self.begun = begun
            raise
        self.say(f"  edit {edit.number}, {_cells(edit.cells)}" + (f": {note}" if note else ""))
        self.between(last, edit.number)

    def do_abandon(self, place: Optional[int]) -> None:
        begun = self.had_begun()
        if place is not None:
            left_out = begun.leave_out(place)
            self.say(f"  left out: {requests.in_words(left_out)}; {_edits(self.gathered())} gathered")
            return
        self.begun = None
        self.say(f"  {_edits(len(begun.edits))} dropped, and nothing changed")

    def had_begun(self) -> Begun:
        """The transaction that was begun; ValueError where none was."""
        if self.begun is None:
            raise ValueError("no transaction was begun: `begin` begins one")
        return self.begun

    def do_note(self, k: int) -> None:
        """The note of an edit, and of a transaction what it did."""
        note = self.book.note(k)
        self.hear_of([k])
        self.wrapped(f"edit {k}: {note}" if note is not None else f"edit {k} has no note")
        parts = self.book.edits[k].parts if k in self.book.edits else []
        for place, part in enumerate(parts[:SHOWN], start=1):
            self.say(f"  {place}: {part}")
        if len(parts) > SHOWN:
            self.wrapped(f"and {len(parts) - SHOWN:,} more")

    def do_import(self, name: str, path: str) -> None:
        self.took(name, files.read(path), note=files.note_of(path))

    def took(self, name: str, text: str, of: str = "file", note: Optional[str] = None) -> None:
        """Takes in the text of a spreadsheet's file, or of a table: as a new array, or into one that is there."""
        if self.book.kind(name) is not None:
            self.imported(f"{name} has", of, Array(self.book, name).from_csv(io.StringIO(text), note))
            return
        made = labels.new_table(self.book, name, sheets.guessed(sheets.cells_of(text)), note)
        self.imported(f"{name} is new, and has", of, made.edits)
        for way, source in made.titles.items():
            self.wrapped(f"its {way} have titles from {source}")
        if made.left:
            self.wrapped(f"headings that can't be titles were left out: {', '.join(made.left)}")

    def imported(self, what: str, of: str, edits: List[Edit]) -> None:
        """Tells by which edits a file, or a table, came in."""
        first, last = (edits[0].number, edits[-1].number) if edits else (0, 0)
        by = f"edits {first} to {last}, of which each is taken back by itself" if first < last else f"edit {first}"
        self.wrapped(f"{what} the numbers of the {of}, by {by}" if edits else f"the {of} has no number, so nothing changed")

    def do_export(self, name: str, path: str) -> None:
        book = self.book.snapshot()
        if name not in book.arrays:
            self.failed = True
            self.wrapped(f"no array is called {name}" + ("; that is a domain" if name in book.domains else ""))
            return
        looks = titles.looks(self.book.labels, book, name)
        files.write(path, sheets.written(book, name, sheets.separator_of(path), looks.down, looks.across))
        self.say(f"  {path}: {len(book.arrays[name].elements):,} elements of {name}")

    def locales(self, name: str, array: bool) -> Optional[Dict[Index, int]]:
        if not self.colours or not array:
            return None
        pieces = Array(self.book, name).pieces()
        return {index: at for at, piece in enumerate(pieces) for index in piece}

    def do_names(self) -> None:
        book = self.book.snapshot()
        rows = [[n, "domain", d.in_words()] for n, d in sorted(book.domains.items())]
        rows += [[n, "array", f"over {a.over}"] for n, a in sorted(book.arrays.items())]
        if not rows:
            self.wrapped("the workbook is empty: D = {1..4} makes a domain, A over D an array")
            return
        self.say(self.table(["name", "kind", "what"], rows))

    def do_history(self, since: int = 1) -> None:
        edits = self.book.history(since)
        if not edits:
            self.wrapped("no edits yet" if since <= 1 else f"no edits from {since} on")
            return
        rows = [
            [str(e.number), e.by or e.who, e.what or "?", "" if e.cells < 0 else str(e.cells), _now(e)]
            for e in edits[-SHOWN:]
        ]
        self.say(self.table(["edit", "who", "what", "cells", "now"], rows))
        if len(edits) > SHOWN:
            self.wrapped(f"and {len(edits) - SHOWN:,} before these" + (f", from {since} on" if since > 1 else ""))

    def table(self, head: List[str], rows: List[List[str]]) -> str:
        taken = sum(max(len(row[c]) for row in [head, *rows]) + 3 for c in range(len(head)) if c != 2)
        room = self.width - taken - 4
        cut = [[_cut(t, room) if c == 2 else t for c, t in enumerate(row)] for row in rows]
        return grid(head, [[Cell(t) for t in row] for row in cut], 10**6, left=len(head))

    def do_who(self) -> None:
        """Who is at the desk, by the names that they said."""
        now = self.book.desk()
        mine = self.book.names_heard.seat
        others = sorted(name for seat, name in now.names.items() if seat != mine)
        named = [*([f"{now.names[mine]} (you)"] if mine in now.names else []), *others]
        without = now.seats - now.free - len(named)
        parts = [_listed(named)] if named else []
        parts += [f"{without} without a name"] if without else []
        self.wrapped(f"{'; '.join(parts)}; {now.free} of {now.seats} seats free")

    def do_hello(self, name: str) -> None:
        self.book.hello(name)
        self.say(f"  others here hear of {name} by what you do from now on")

    def do_dependents(self, k: int) -> None:
        found = self.book.dependents(k)
        if not found:
            self.say(f"  nobody needs edit {k}: undo {k} takes it back alone")
            return
        self.hear_of(found)
        for number in found[:SHOWN]:
            self.say(f"  edit {number}: {self.what(number) or 'made by another seat'}")
        if len(found) > SHOWN:
            self.wrapped(f"and {len(found) - SHOWN:,} more")
        self.wrapped(f"cascade {k}{_takes_back(found, k)}")

    def what(self, number: int) -> str:
        """What an edit did, as far as this session heard."""
        edit = self.book.edits.get(number)
        return edit.what if edit else ""

    def hear_of(self, numbers: List[int]) -> None:
        """Asks what others' edits among these did, where the history isn't long, and who did what, where the desk tells it."""
        if hearing.unheard(self.book, numbers) and max(self.book.edits, default=0) <= FEW and not self.book.alone:
            hearing.hear_all(self.book)
        self.book.names_heard.hear()

    def do_text(self) -> None:
        self.say(self.book.print_text().rstrip("\n"))

    def do_colours(self, on: bool) -> None:
        self.colours = on
        self.say("  tables are coloured by locale" if on else "  tables are plain")

    def do_save(self, path: str) -> None:
        text = self.book.print_text()
        files.write(path, text)
        self._kept = self._now()
        self.say(f"  {path}: {text.count(chr(10)) - 2} objects, {len(text.encode()):,} bytes")

    def do_keep(self, path: str) -> None:
        text = self.book.history_text()
        files.write(path, text)
        self._kept = self._now()
        past = hearing.read(text)
        on = sum(in_force for in_force, _ in past.edits.values())
        self.wrapped(f"{path}: {_edits(len(past.edits))}, {on:,} in force; --resume {path} goes on from it")

    def do_load(self, path: str) -> None:
        edits = self.book.load(files.read(path))
        if not edits:
            self.say(f"  {path} is an empty workbook")
        elif len(edits) == 1:
            self.say(f"  edit {edits[0].number}, {_cells(edits[0].cells)}: {path}")
        else:
            numbers = f"edits {edits[0].number} to {edits[-1].number}"
            self.say(f"  {numbers}: {path}, built object by object")

    def do_compact(self, path: str) -> None:
        """A journal that is open can't be made anew, so of the session's own it is told how."""
        own, channel = self.book.journal, self.book.exchange.channel
        place = journal.place_of(path) if path else own
        program = channel.program if isinstance(channel, ProgramChannel) else None
        if place is None:
            raise ValueError("this session has no journal file; `compact FILE` makes one anew that nobody has open")
        if place == own:
            how = shlex.join([program or "workbook", "compact", place])
            raise ValueError(f"{place} is open in this session, so leave it first; then this makes it anew: {how}")
        try:
            done = journal.compact(place, program)
        except NotOpened as no:  # another's file: this session goes on
            raise ValueError(str(no)) from no
        self.wrapped(f"{done.place}: {done.after:,} bytes, and {done.before:,} before")

    # --- refusals

    def refused(self, no: Refusal) -> None:
        self.refusal = no
        if isinstance(no, Blocked):
            self.blocked(no)
            return
        self.wrapped(str(no))
        self.explained(no)
        if no.at is not None and self.begun is not None:
            self.wrapped(f"what is gathered stays gathered: `abandon {no.at + 1}` leaves that edit out, `abandon` drops all")
        hint = hints.on(no, self.book.snapshot())
        if hint:
            self.wrapped(hint)
        if isinstance(no, NotInForce) and no.request["op"] in ("undo", "cascade"):
            self.taken_back(no.request["k"])

    def taken_back(self, k: int) -> None:
        """Who took an edit back, where another did whose name was heard; and what puts it back."""
        self.hear_of([k])
        edit = self.book.edits.get(k)
        if edit and edit.turned_by:
            self.say(f"  {edit.turned_by} took it back")
        self.say(f"  next: redo {k}")

    def explained(self, no: Refusal) -> None:
        """Tells which field of a line isn't read, and what is wanted in it."""
        if no.code not in ("E01", "E02"):
            return
        try:
            wrong = self.book.explain(no.request)
        except Refusal:
            return
        if wrong is not None:
            self.wrapped(f"in {wrong['field'] or 'the line'}: {wrong.text('rule')} is wanted")

    def blocked(self, no: Blocked) -> None:
        k, redo = no.request["k"], no.request["op"] == "redo"
        self.hear_of([no.by])
        by = self.book.edits.get(no.by)
        whose = "" if by and by.who == self.book.who else f" of {by.by}" if by and by.by else " of another seat"
        what = whose + (f" ({by.what})" if by and by.what else "")
        self.wrapped(
            f"Blocked by edit {no.by}{what}: it is later, in force, and read or touched "
            f"{'cells of' if redo else 'what'} edit {k}{'' if redo else ' wrote'}."
        )
        if redo:
            self.say(f"  next: undo {no.by} first; then redo {k}, and redo {no.by}")
            return
        self.wrapped(f"next: undo {no.by} first, or cascade {k}{self.with_whom(k)}")

    def with_whom(self, k: int) -> str:
        """Who would go along in a cascade. Others may have moved since the refusal."""
        try:
            return _takes_back(self.book.dependents(k), k)
        except Refusal:
            return " takes back all that stand in the way"


def _listed(words: List[str]) -> str:
    *first, last = words
    return f"{', '.join(first)} and {last}" if first else last


def _takes_back(dependents: List[int], k: int) -> str:
    return f" takes back {numbered([*reversed(dependents), k])}"


def numbered(numbers: List[int]) -> str:
    """`5`, `5 and 4`, `5, 4 and 3`; of many the first few, the last, and how many there are."""
    if len(numbers) > 12:
        return f"{', '.join(map(str, numbers[:8]))}, .. and {numbers[-1]}, {len(numbers):,} edits"
    *first, last = map(str, numbers)
    return f"{', '.join(first)} and {last}" if first else last


def _edits(number: int) -> str:
    return "1 edit" if number == 1 else f"{number:,} edits"


def _now(edit: Edit) -> str:
    """Whether an edit is in force, and who took it back, where that is another who has said a name."""
    if edit.was_in_force:
        return "in force"
    return f"taken back by {edit.turned_by}" if edit.turned_by else "taken back"


def _cells(number: int) -> str:
    return "1 cell" if number == 1 else f"{number:,} cells"


def _cut(text: str, room: int) -> str:
    return text if len(text) <= max(room, 12) else text[: max(room, 12) - 1] + "…"
