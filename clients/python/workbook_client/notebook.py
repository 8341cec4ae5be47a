"""Arrays and workbooks as a notebook shows them: tables in HTML."""

from html import escape
from typing import Dict, List, NamedTuple, Sequence, Tuple

from .literals import Index, index_text
from .snapshot import Snapshot
from .tables import HOLE, PLAIN, Looks, harmless, pointed

ROWS, COLUMNS = 60, 30
"""So many rows and columns are shown."""


class Shown(NamedTuple):
    """A table as a text, which `print` shows, and in HTML, which a notebook shows."""

    text: str
    html: str

    def __str__(self) -> str:
        return self.text

    __repr__ = __str__

    def _repr_html_(self) -> str:
        return self.html


def array_html(book: Snapshot, name: str, looks: Looks = PLAIN) -> str:
    """An array: a row at rank 1, rows and columns at rank 2, and else a line for each element."""
    array = book.arrays[name]
    title = f"{name} over {array.over} = {book.domains[array.over].in_words()}"
    if looks.decimals:
        title += f", shown / {10**looks.decimals}"
    head, rows, more = _drawn(book.array(name), looks)
    return _table(title, head, rows, more)


def book_html(book: Snapshot) -> str:
    """What there is in a workbook."""
    rows = [[name, "domain", domain.in_words()] for name, domain in sorted(book.domains.items())]
    rows += [[name, "array", f"over {array.over}"] for name, array in sorted(book.arrays.items())]
    return _table("workbook", ["name", "kind", "what"], rows, 0)


def _drawn(values: Dict[Index, int], looks: Looks) -> Tuple[List[str], List[List[str]], int]:
    """The heading, the rows, each behind its own, and how many elements aren't shown."""
    first = next(iter(values), "")
    if isinstance(first, tuple) and len(first) == 2:
        return _plane({index: value for index, value in values.items() if isinstance(index, tuple)}, looks)
    if isinstance(first, int):
        shown = [i for i in values if isinstance(i, int)][:COLUMNS]
        numbers = [pointed(values[i], looks.decimals) for i in shown]
        return ["", *(looks.down.get(i, str(i)) for i in shown)], [["", *numbers]], len(values) - len(shown)
    pairs = [[i if isinstance(i, str) else index_text(i), pointed(value, looks.decimals)] for i, value in values.items()]
    return ["index", "element"], pairs[:ROWS], max(len(pairs) - ROWS, 0)


def _plane(values: Dict[Tuple[int, ...], int], looks: Looks) -> Tuple[List[str], List[List[str]], int]:
    down, across = (list(dict.fromkeys(index[at] for index in values)) for at in (0, 1))
    if len(values) < len(down) * len(across):  # of a sparse domain: not every place is there
        across.sort()
    rows, columns = down[:ROWS], across[:COLUMNS]
    numbers = {at: pointed(values[at], looks.decimals) for at in ((r, c) for r in rows for c in columns) if at in values}
    cells = [[looks.down.get(r, str(r)), *(numbers.get((r, c), HOLE) for c in columns)] for r in rows]
    return ["", *(looks.across.get(c, str(c)) for c in columns)], cells, len(values) - len(numbers)


def _table(title: str, head: Sequence[str], rows: Sequence[Sequence[str]], more: int) -> str:
    lines = [_line("th", head)] + [_line("td", row) for row in rows]
    note = f"<p>and {more:,} more elements</p>" if more else ""
    return f"<table><caption>{_text(title)}</caption>{''.join(lines)}</table>{note}"


def _line(tag: str, cells: Sequence[str]) -> str:
    first, *rest = cells
    return f"<tr><th>{_text(first)}</th>{''.join(f'<{tag}>{_text(cell)}</{tag}>' for cell in rest)}</tr>"


def _text(text: str) -> str:
    """A text as it stands in HTML: others may have put marks into it."""
    return escape(harmless(text))
