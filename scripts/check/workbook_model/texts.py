"""The text of a workbook, read by making the workbook and comparing its text, by docs/PROTOCOL.md."""

import re

from . import literals as lit
from .cells import Book, is_in
from .literals import Refused

NAME = r"([A-Za-z][A-Za-z0-9_]{0,31})"
LINES = {
    "rect": re.compile(NAME + r" (\{[^}]*\}) (.*)"),
    "sparse": re.compile(NAME + " of " + NAME + r" (\{.*\})"),
    "assoc": re.compile(NAME + r" of (int|text) (\{.*\})"),
    "array": re.compile(NAME + " over " + NAME + r" \[([^\]]*)\](?: irv (-?[0-9]+))?"),
}


class NoText(Exception):
    """What stands there is no line of a workbook."""


def demand(holds):
    if not holds:
        raise NoText


def parts_of(text):
    """The parts of each line: its kind first."""
    lines = text.split("\n")
    demand(lines[0] == "chapel-workbook 1" and lines[-2:] == ["end", ""])
    for line in lines[1:-2]:
        kind, _, rest = line.partition(" ")
        found = LINES[kind].fullmatch(rest) if kind in LINES else None
        demand(found)
        yield (kind, *found.groups())


def rect(book, name, literal, mapping):
    value, mapping = lit.domain_literal(literal), lit.mapping_literal(mapping)
    demand(value[0] == "rectangle" and (mapping is None or len(mapping[-1]) == len(value[1])))
    book.objects[name], book.shapes[name] = ("rect", len(value[1])), value[1]
    book.mappings[name] = ("none",) if mapping is None else mapping


def members_of(literal, kind):
    value = lit.domain_literal(literal)
    demand(value[0] == "set" and value[1] in (None, kind))
    return dict.fromkeys(value[2], True)


def sparse(book, name, of, literal):
    demand(book.objects.get(of, "?")[0] == "rect")
    rank = book.objects[of][1]
    book.objects[name], book.members[name] = ("sparse", of, rank), members_of(literal, rank)
    demand(all(is_in(book.shapes[of], i) for i in book.members[name]))
    book.uses.setdefault(of, {})[name] = "sparse"


def assoc(book, name, of, literal):
    book.objects[name], book.members[name] = ("assoc", of), members_of(literal, 1 if of == "int" else "text")


def array(book, name, over, items, irv):
    demand(over in book.objects and book.objects[over][0] != "array")
    indices = book.indices(over)
    values = [lit.of_64_bits(item) for item in items.split(", ")] if items else []
    demand(len(values) == len(indices) and (irv is not None) == (book.objects[over][0] == "sparse"))
    book.objects[name], book.elements[name] = ("array", over), dict(zip(indices, values))
    book.implicit[name] = lit.of_64_bits(irv or "0")
    book.uses.setdefault(over, {})[name] = "array"


MAKERS = {"rect": rect, "assoc": assoc, "sparse": sparse, "array": array}


def read_book(text):
    """The workbook of a text; E02 where it is no workbook's, whatever is wrong in it."""
    try:
        lines, book = list(parts_of(text)), Book()
        for kind, make in MAKERS.items():
            for of, *parts in lines:
                if of == kind:
                    make(book, *parts)
        demand(book.text() == text)
        return book
    except (NoText, Refused, ValueError):
        raise Refused("E02") from None
