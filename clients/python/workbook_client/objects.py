"""Domains and arrays: names in a workbook, with what can be asked of them and done to them."""

import os
from typing import TYPE_CHECKING, Any, Callable, Dict, Iterator, List, Mapping, Optional, Tuple, Union

from . import bulk, files, notebook, requests, sheets
from .literals import Index, Indices, Ranges, index_back, ranges_of
from .literals import index as as_index
from .refusals import OutOfDomain
from .snapshot import RectDomain, Snapshot
from .tables import harmless, object_table
from .titles import WAYS, checked, digits_of, looks

if TYPE_CHECKING:
    from .book import Workbook
    from .edits import Edit

Source = Union[str, range, Tuple[range, ...], Indices, "Domain"]
"""What a domain is given: a literal, ranges, a Python set of indices, or another domain."""


class _Named:
    """What domains and arrays have in common. Nothing is kept here but the name."""

    def __init__(self, book: "Workbook", name: str):
        self.book = book
        """The session that it is spoken of in."""
        self.name = name
        """Its name in the workbook."""

    def __repr__(self) -> str:
        return f"{type(self).__name__}({self.name!r})"


def ours(book: "Workbook", value: Any) -> Any:
    """The value, which mustn't be an object of another workbook: only its name would be sent."""
    if isinstance(value, _Named) and not book.same_as(value.book):
        raise ValueError(f"{value.name} is of another workbook")
    return value


class Domain(_Named):
    """A set of indices, which arrays stand on."""

    def reshape(self, to: Source) -> "Edit":
        """A new value: `D.reshape(range(1, 7))`, `N.reshape({5, 1})`, `D.reshape(E)`.

        Indices in both keep their elements, in each array over the domain; new ones get 0.
        """
        return self.book.change(requests.reshape(self, "to", ours(self.book, to)))

    def slice(self, by: Source) -> "Edit":
        """What a rectangular domain has in common with what is given."""
        return self.book.change(requests.reshape(self, "slice", ours(self.book, by)))

    def translate(self, *by: int) -> "Edit":
        """Moves the ranges: `D.translate(1)`, `M.translate(0, -2)`."""
        return self.book.change(requests.reshape(self, "translate", by))

    def expand(self, *by: int) -> "Edit":
        """Widens the ranges at both ends, or narrows them by less than 0."""
        return self.book.change(requests.reshape(self, "expand", by))

    def add(self, index: Index) -> "Edit":
        """An index comes; `cells` of the edit is 0 where it was there already."""
        return self.book.change(requests.add(self, index))

    def remove(self, index: Index) -> "Edit":
        """An index leaves; `cells` of the edit is 0 where it wasn't there."""
        return self.book.change(requests.remove(self, index))

    def __ior__(self, other: Source) -> "Domain":
        return self._with("or", other)

    def __iand__(self, other: Source) -> "Domain":
        return self._with("and", other)

    def __isub__(self, other: Source) -> "Domain":
        return self._with("minus", other)

    def __ixor__(self, other: Source) -> "Domain":
        return self._with("xor", other)

    def _with(self, how: str, other: Source) -> "Domain":
        self.book.change(requests.reshape(self, how, ours(self.book, other)))
        return self

    def remap(self, map: str) -> "Edit":
        """Another mapping: `D.remap(cyclic(1, 2))`, `D.remap("none")`."""
        return self.book.change(requests.remap(self, map))

    def drop(self) -> "Edit":
        """Drops a domain on which nothing stands."""
        return self.book.change(requests.drop_domain(self))

    @property
    def size(self) -> int:
        """How many indices it has. `len(D)` is the same, and an empty domain is false."""
        return self.book.ask(requests.size(self)).number("size")

    def __len__(self) -> int:
        return self.size

    def where(self, index: Index) -> int:
        """The locale of an index."""
        return self.book.ask(requests.where(self, index)).number("locale")

    def __contains__(self, index: Index) -> bool:
        """Whether it has the index; one of another rank or type is refused, as WrongKind."""
        try:
            self.where(index)
            return True
        except OutOfDomain:
            return False

    def indices(self) -> List[Index]:
        """Every index, in the domain's order."""
        shot = self.book.snapshot()
        if self.name not in shot.domains:
            self.book.ask(requests.size(self))  # refused: it isn't there, or is an array
        return shot.indices(self.name)

    def __iter__(self) -> Iterator[Index]:
        return iter(self.indices())


def _are_many(value: Any) -> bool:
    """Whether it is a list, an array of numpy's of rank 1 or more, or a table of pandas'."""
    return isinstance(value, (list, tuple)) or bool(getattr(value, "shape", None))


class Array(_Named):
    """An element, a whole number of 64 bits, at each index of its domain."""

    def __getitem__(self, index: Index) -> int:
        """`A[4]`, `A[1, 2]`, `P["x"]`. Over a sparse domain also the implicit value. All of it is
        `A.to_dict()`."""
        return self.book.ask(requests.get(self, index)).number("value")

    def __setitem__(self, index: Any, value: Any) -> None:
        """`A[4] = 9`; with ranges a fill, `A[range(1, 3)] = 7`, or `A[range(1, 3)] = [5, 6]`, as `put`;
        with `:` all of it, `A[:] = 0`, `A[:] = B`, or `A[:] = [5, 6, 7, 8]`. The edit is `wb.last_edit`.

        `A[4] += 3` asks for the element and then sets it: two requests, between which others may
        come, and an edit that read nothing. `A.copy(4, A, 4, plus=3)` is one edit that reads."""
        if isinstance(index, slice):
            if index != slice(None):
                as_index(index)  # tells what to write instead
            self._set_all(value)
        elif isinstance(index, range) or (
            isinstance(index, tuple) and index and all(isinstance(part, range) for part in index)
        ):
            if _are_many(value):
                self.put(value, index)
            else:
                self.fill(index, value)
        else:
            self.set(index, value)

    def _set_all(self, value: Any) -> None:
        if isinstance(value, Array):
            self.assign(value)
        elif _are_many(value):
            self.put(value)
        else:
            self.fill_all(value)

    def __iter__(self) -> Iterator[int]:
        """The elements, in the domain's order, as Chapel's `for a in A` has them."""
        return iter(self._shot().arrays[self.name].elements)

    def set(self, index: Index, value: int) -> "Edit":
        """A new element. `A[4] = 9` does the same."""
        return self.book.change(requests.set(self, index, value))

    def update(self, values: Mapping[Any, int], parts: bool = False) -> "List[Edit]":
        """Many elements at once, `A.update({1: 5, 2: 6})`, as one edit, which stands in the list. Some 1,900 fit into one; more are
        `TransactionTooLong`, or with `parts` as few edits as it takes, all or none."""
        return self.book.as_one([requests.set(self, index, value) for index, value in values.items()], parts=parts)

    def put(self, values: Any, on: Optional[Ranges] = None, parts: bool = False) -> "List[Edit]":
        """Every element, in the domain's order: from a list, from lists of lists of
        the domain's shape, or from an array of numpy's or a table of pandas' of that shape. Over a sparse or an
        associative domain it is one list. With `on` the elements of a rectangle, in its order.

        That is one edit, which stands in the list: a `put` over a rectangle, and else a transaction of an edit for each element. Where
        a line doesn't hold it, over some 10,000 numbers or 1,900 elements, it is `TransactionTooLong`, and nothing is sent; with `parts` it is
        as few edits as it takes, all or none. Without `on` the domain is read first, from the workbook's text.
        """
        if on is None:
            shot = self._shot(self.book.shapes)
            made = bulk.changes(self.name, shot.domains[shot.arrays[self.name].over], values)
        else:
            made = bulk.part(self.name, ranges_of(on), values)
        return self.book.as_one(made, parts=parts)

    def from_csv(self, source: files.Source, note: Optional[str] = None) -> "List[Edit]":
        """The elements of a file of a spreadsheet, all or none: a table for an array of rank 2, with headings or without; else
        a line for each element, its index and then the element. It is one edit, with the note "import plan.csv" or another, or as few as
        it takes where a line would be too long. The file
        is text in UTF-8; whole numbers only. ValueError tells the row and the column of what is none."""
        text, shot = files.text_of(source), self._shot(self.book.shapes)
        values = sheets.values_of(text, shot, self.name)
        made = bulk.at_indices(self.name, shot.domains[shot.arrays[self.name].over], values)
        return self.book.as_one(made, files.note_of(source) if note is None else note, parts=True)

    def label(self, way: str, source: "Union[str, Array, None]" = None) -> None:
        """Titles for this array's "rows" or "columns", wherever this `Workbook` shows it: those of an array over texts, where
        `B["Ada"] = 3` calls row 3 Ada. Without one it has its indices again. Nothing in the workbook changes. An array that is called
        as this one, with `Row` or `Column` behind it, gives its titles unasked."""
        if way not in WAYS:
            raise ValueError(f'{way!r:.40} is neither "rows" nor "columns"')
        name = ours(self.book, source)
        if name is not None:
            name = name.name if isinstance(name, Array) else name
            checked(self._shot(), self.name, way, name)
            self.book.labels[self.name, way] = name
        else:
            self.book.labels[self.name, way] = None

    def shown(self, by: int = 1, width: int = 100) -> notebook.Shown:
        """The array as a table, `print(A.shown())`, and in a notebook as such. With 10, 100 and so on that many digits of each number
        stand behind a point: 150 is shown as 1.50, and stays 150."""
        book, digits = self._shot(), digits_of(by)
        drawn = looks(self.book.labels, book, self.name, digits)
        return notebook.Shown(harmless(object_table(book, self.name, width, looks=drawn)), notebook.array_html(book, self.name, drawn))

    def _repr_html_(self) -> "Optional[str]":
        """The array as a notebook shows it; nothing where it isn't there."""
        book = self.book.snapshot()
        return notebook.array_html(book, self.name, looks(self.book.labels, book, self.name)) if self.name in book.arrays else None

    def to_csv(self, path: "Union[str, os.PathLike[str], None]" = None) -> str:
        """The array as a file of a spreadsheet, which `from_csv` reads: its text, which is written to a file where a path is
        given. The cells have commas between them, and tabs in a file that is named `.tsv` or `.tab`. Titles stand as headings."""
        place, shot = "" if path is None else os.fspath(path), self._shot()
        drawn = looks(self.book.labels, shot, self.name)
        text = sheets.written(shot, self.name, sheets.separator_of(place), drawn.down, drawn.across)
        if path is not None:
            files.write(place, text)
        return text

    def fill(self, on: Ranges, value: int) -> "Edit":
        """One number at each index of a rectangle: `A.fill("{1..2}", 7)`."""
        return self.book.change(requests.fill(self, on, value))

    def fill_all(self, value: int) -> "Edit":
        """One number as every element."""
        return self.book.change(requests.fill_all(self, value))

    def copy(self, to: Index, source: "Array", index: Index, plus: int = 0) -> "Edit":
        """An element of another array, or of this one: `A.copy(1, B, 2, plus=3)` is
        A[1] = B[2] + 3. It reads B[2], so whoever wrote that can't be undone alone."""
        return self.book.change(requests.copy(self, to, ours(self.book, source), index, plus))

    def assign(self, other: "Array") -> "Edit":
        """Every element becomes that of another array over the same domain."""
        return self.book.change(requests.all(self, "=", ours(self.book, other)))

    def __iadd__(self, other: "Array") -> "Array":
        return self._with("+", other)

    def __isub__(self, other: "Array") -> "Array":
        return self._with("-", other)

    def __imul__(self, other: "Array") -> "Array":
        return self._with("*", other)

    def _with(self, how: str, other: "Array") -> "Array":
        if not isinstance(other, Array):
            return NotImplemented
        self.book.change(requests.all(self, how, ours(self.book, other)))
        return self

    @property
    def irv(self) -> int:
        """The implicit value: that of the parent's indices that a sparse domain hasn't."""
        return self._shot().arrays[self.name].irv

    @irv.setter
    def irv(self, value: int) -> None:
        self.book.change(requests.irv(self, value))

    def sum(self) -> int:
        """The sum of all elements, as a whole number of 64 bits, or Overflow."""
        return self.reduce("+")

    def min(self) -> int:
        """The least element, or Empty."""
        return self.reduce("min")

    def max(self) -> int:
        """The greatest element, or Empty."""
        return self.reduce("max")

    def reduce(self, how: str) -> int:
        """The sum (`+`), the least (`min`) or the greatest (`max`) of all elements."""
        return self.book.ask(requests.reduce(self, how)).number("value")

    def _shot(self, taken: "Optional[Callable[[], Snapshot]]" = None) -> Snapshot:
        shot = (taken or self.book.snapshot)()
        if self.name not in shot.arrays:
            self.book.exchange.ask(requests.piece(self, 0))  # refused: it isn't there, or is a domain
        return shot

    def piece(self, locale: int) -> Dict[Index, int]:
        """The elements on one locale, by index."""
        pairs = self.book.ask(requests.piece(self, locale)).listed("piece")
        return {index_back(index): value for index, value in pairs}

    def pieces(self) -> List[Dict[Index, int]]:
        """The elements on each locale. Locale by locale: in a shared workbook not one moment."""
        found: List[Dict[Index, int]] = []
        while True:
            try:
                found.append(self.piece(len(found)))
            except OutOfDomain:
                return found

    def to_dict(self) -> Dict[Index, int]:
        """Every element by its index, in the domain's order, at one moment."""
        return self._shot().array(self.name)

    def to_numpy(self) -> Any:
        """An array of numpy's with the domain's shape, its first element at the domain's first
        index. numpy has to be there."""
        import numpy

        shot = self._shot()
        elements = shot.arrays[self.name]
        domain = shot.domains[elements.over]
        values = numpy.array(elements.elements, dtype=numpy.int64)
        if isinstance(domain, RectDomain):
            return values.reshape([len(part) for part in domain.ranges])
        return values

    def to_dataframe(self) -> Any:
        """A table of pandas', with the array's titles or indices as the names of its rows and columns; of an array of another rank
        than 2, one column. pandas has to be there."""
        import pandas

        shot = self._shot()
        values, domain = shot.array(self.name), shot.domains[shot.arrays[self.name].over]
        if isinstance(domain, RectDomain) and len(domain.ranges) == 2:
            (rows, columns), drawn = domain.ranges, looks(self.book.labels, shot, self.name)
            heads = [[titles.get(at, at) for at in along] for titles, along in ((drawn.down, rows), (drawn.across, columns))]
            return pandas.DataFrame([[values[i, j] for j in columns] for i in rows], index=heads[0], columns=heads[1])
        return pandas.DataFrame({self.name: list(values.values())}, index=list(values))

    def drop(self) -> "Edit":
        """The end of the array. Its undo brings back every element."""
        return self.book.change(requests.drop_array(self))
