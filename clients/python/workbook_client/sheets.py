"""Arrays as files of a spreadsheet: whole numbers between commas, semicolons or tabs, with headings or without.

An array over a rectangle of rank 2 is a table: its first row and its first column are headings. Any other array is a list: a line for
each element, its index before it, under a line of headings. One number a line, or all in one line, will do where the order is plain.
"""

import csv
import io
import re
from typing import Any, Dict, List, Mapping, NamedTuple, Sequence

from .literals import GREATEST, LEAST, Index, integer, label
from .snapshot import AnyDomain, AssocDomain, RectDomain, Snapshot, SparseDomain

NUMBER = re.compile("[+-]?[0-9]+")
SHORT = 40
"""So much of a cell is told."""
TELL = "make the array first, and its size tells which: D = {1..3, 1..4}, A over D"


class Row(List[str]):
    """The cells of a row, and which row of the file it is."""

    def __init__(self, cells: Sequence[str], number: int):
        super().__init__(cells)
        self.number = number


Cells = List[Row]


class Table(NamedTuple):
    """A table without its headings."""

    rows: List[List[int]]
    down: List[str]
    """What stood before each row, if anything did."""
    across: List[str]
    """What stood above each column, if anything did."""


def separator_of(path: str) -> str:
    """What stands between the cells of a file of this name."""
    return "\t" if path.lower().endswith((".tsv", ".tab")) else ","


# --- out


def written(shot: Snapshot, name: str, separator: str = ",", down: Mapping[int, str] = {}, across: Mapping[int, str] = {}) -> str:
    """An array's text. `down` and `across` are the headings of rows and columns that have others than their index."""
    out = io.StringIO()
    lines = csv.writer(out, delimiter=separator, lineterminator="\n")
    values, domain = shot.array(name), shot.domains[shot.arrays[name].over]
    if isinstance(domain, RectDomain) and len(domain.ranges) == 2:
        rows, columns = domain.ranges
        lines.writerow(["", *(across.get(j, j) for j in columns)])
        lines.writerows([down.get(i, i), *(values[i, j] for j in columns)] for i in rows)
    else:
        rank = _rank(shot, domain)
        lines.writerow([*(["index"] if rank == 1 else [f"index {n}" for n in range(1, rank + 1)]), name])
        lines.writerows([*(i if isinstance(i, tuple) else (i,)), value] for i, value in values.items())
    return out.getvalue()


# --- in


def cells_of(text: str) -> Cells:
    """The cells of a text, row by row, all rows of one length. Its first line says what stands between them."""
    first = text.partition("\n")[0]
    separator = next((mark for mark in "\t;" if mark in first), ",")
    try:
        read = csv.reader(io.StringIO(text, newline=""), delimiter=separator, strict=True)
        rows = [Row(row, number) for number, row in enumerate(read, start=1) if row]
    except csv.Error as wrong:
        raise ValueError(f"this is no file of rows and columns: {wrong}") from wrong
    if not rows:
        raise ValueError("the file has no cells")
    for row in rows:
        if len(row) != len(rows[0]):
            raise ValueError(f"row {row.number} has {_many(len(row), 'cell')}, and row {rows[0].number} has {len(rows[0])}")
    return rows


def values_of(text: str, shot: Snapshot, name: str) -> Dict[Index, int]:
    """The elements that a file has for an array that is there."""
    domain, cells = shot.domains[shot.arrays[name].over], cells_of(text)
    if isinstance(domain, RectDomain) and len(domain.ranges) == 2:
        down, across = domain.ranges
        rows = fitted(cells, down, across).rows
        return {(i, j): value for i, row in zip(down, rows) for j, value in zip(across, row)}
    rank = _rank(shot, domain)
    if len(cells[0]) == 1 or (len(cells) == 1 and len(cells[0]) != rank + 1):
        return _in_order(cells, domain.indices())
    return _listed(cells, isinstance(domain, AssocDomain) and domain.of == "text", rank)


def fitted(cells: Cells, down: range, across: range) -> Table:
    """A table of so many rows and columns. A row or a column more is headings, if it has no number, or has the indices, or where both
    are there and no number is in the corner."""
    above, before = len(cells) - len(down), len(cells[0]) - len(across)
    if not {above, before} <= {0, 1} or not (down and across):
        raise ValueError(f"the file has {_size(cells)}, and the array {len(down)} and {len(across)}")
    free = above == before == 1 and not _is_number(cells[0][0])
    if above and not free and not _are_headings(cells[0][before:], across):
        raise ValueError(f"the file has {_many(len(cells), 'row')} of numbers, and the array {len(down)}")
    if before and not free and not _are_headings([row[0] for row in cells[above:]], down):
        raise ValueError(f"the file has {_many(len(cells[0]), 'column')} of numbers, and the array {len(across)}")
    return _cut(cells, above, before)


def guessed(cells: Cells) -> Table:
    """A table whose size isn't known. A first row without a number is headings, and then so is a first column; both are, under an
    empty corner; and in a single row what stands first, if it is no number. ValueError where that isn't plain."""
    first, below = cells[0], [row[0] for row in cells[1:]]
    high, wide = len(cells) > 1, len(first) > 1
    if not first[0].strip():
        return _cut(cells, int(high), int(wide))
    above = high and _are_words(first)
    if high and wide and not above and not _is_number(first[0]):
        raise ValueError(f"row {first.number} may be headings, or {first[0][:SHORT]!r} that of numbers; {TELL}")
    before = wide and (_are_words(below) if above else not high and not _is_number(first[0]))
    return _cut(cells, int(above), int(before))


def of_frame(frame: Any) -> Table:
    """The table of a DataFrame of pandas'. What it calls its rows, or its columns, are headings, unless those are numbers."""
    down, across = frame.index.tolist(), frame.columns.tolist()
    rows = [
        [integer(value, f"the element in row {row}, column {column}") for column, value in zip(across, values)]
        for row, values in zip(down, frame.astype(object).values.tolist())  # each column as its own numbers
    ]
    if not (rows and across):
        raise ValueError("the table has no elements")
    return Table(rows, _headings(down), _headings(across))


def _headings(labels: List[Any]) -> List[str]:
    """The headings of a DataFrame's labels: none where they are numbers."""
    return [] if all(isinstance(each, int) for each in labels) else list(map(str, labels))


def _cut(cells: Cells, above: int, before: int) -> Table:
    """The table without so many rows and columns of headings."""
    rows = [
        [_number(cell, row.number, c) for c, cell in enumerate(row[before:], start=before + 1)]
        for row in cells[above:]
    ]
    return Table(rows, [row[0] for row in cells[above:]] if before else [], cells[0][before:] if above else [])


def _in_order(cells: Cells, indices: List[Any]) -> Dict[Index, int]:
    """Elements without their indices, in one row or in one column, which may have a heading."""
    column = len(cells[0]) == 1
    places = [(row.number, c, cell) for row in cells for c, cell in enumerate(row, start=1)]
    if column and len(places) == len(indices) + 1 and _is_word(places[0][2]):
        places = places[1:]
    if len(places) != len(indices):
        raise ValueError(f"the file has {_size(cells)}, and the array {_many(len(indices), 'element')}")
    return {index: _number(cell, row, at) for index, (row, at, cell) in zip(indices, places)}


def _listed(cells: Cells, words: bool, rank: int) -> Dict[Index, int]:
    """Elements by their indices, a line for each."""
    if len(cells[0]) != rank + 1:
        raise ValueError(f"the file has {_size(cells)}; {rank + 1} columns are wanted, an index and its element in each row")
    found: Dict[Index, int] = {}
    for row in cells[1:] if _is_word(cells[0][-1]) else cells:  # below headings
        index = label(row[0]) if words else _index(row[:-1], row.number)
        if index in found:
            raise ValueError(f"row {row.number}: the index {', '.join(row[:-1])} stands there twice")
        found[index] = _number(row[-1], row.number, rank + 1)
    return found


def _index(cells: Sequence[str], row: int) -> Index:
    numbers = tuple(_number(cell, row, at) for at, cell in enumerate(cells, start=1))
    return numbers[0] if len(numbers) == 1 else numbers


def _rank(shot: Snapshot, domain: AnyDomain) -> int:
    """How many numbers an index has; 1 where it is a text."""
    if isinstance(domain, SparseDomain):
        domain = shot.domains[domain.of]
    return len(domain.ranges) if isinstance(domain, RectDomain) else 1


def _are_headings(cells: Sequence[str], indices: range) -> bool:
    return _are_words(cells) or [cell.strip() for cell in cells] == [str(index) for index in indices]


def _are_words(cells: Sequence[str]) -> bool:
    """Whether there is something, and no number."""
    return any(cell.strip() for cell in cells) and not any(map(_is_number, cells))


def _is_number(cell: str) -> bool:
    return NUMBER.fullmatch(cell.strip()) is not None


def _is_word(cell: str) -> bool:
    return re.match(r"[^\W\d]", cell.strip()) is not None


def _number(cell: str, row: int, column: int) -> int:
    """The number of a cell; ValueError where it has none, with the cell's place."""
    text, place = cell.strip(), f"row {row}, column {column}"
    if not text:
        raise ValueError(f"{place} is empty: a whole number is wanted, 0 where there is none")
    if not NUMBER.fullmatch(text):
        raise ValueError(f"{place}: whole numbers only: {text[:SHORT]!r} isn't one")
    value = int(text) if len(text.lstrip("+-0")) < 20 else GREATEST + 1
    if not LEAST <= value <= GREATEST:
        raise ValueError(f"{place}: a number has 64 bits at most, and {text[:SHORT]} has more")
    return value


def _size(cells: Cells) -> str:
    return f"{_many(len(cells), 'row')} and {_many(len(cells[0]), 'column')}"


def _many(number: int, what: str) -> str:
    return f"{number:,} {what}{'s' * (number != 1)}"
