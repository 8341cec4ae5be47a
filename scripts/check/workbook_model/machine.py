"""A session, by docs/PROTOCOL.md: each line's reply, with undo and redo of any edit by its number."""

import json

from . import literals as lit
from .book import Book, Look, counted, plan
from .literals import Refused
from .reading import QUESTIONS, explained, read

NAMES = {
    "E01": "bad-request", "E02": "bad-literal", "E03": "name-taken", "E04": "no-such-name", "E05": "wrong-kind",
    "E06": "out-of-domain", "E07": "out-of-parent", "E08": "in-use", "E09": "too-large", "E10": "overflow",
    "E11": "no-such-edit", "E12": "not-in-force", "E13": "in-force", "E14": "blocked", "E15": "bad-mapping",
    "E16": "refused-in-place", "E17": "not-empty", "E18": "empty", "E90": "no-memory", "E91": "line-too-long", "E92": "strange-pass",
}


class Edit:
    """An accepted change: its request, and while it is in force what it read, and what its cells held before."""

    def __init__(self, request):
        self.request, self.reads, self.before = request, frozenset(), None

    def touches_what(self, reads):
        return any(is_among(cell, reads) for cell in self.before)

    def meets(self, cells):
        """Whether it touched or read one of the cells."""
        return any(cell in self.before or is_among(cell, self.reads) for cell in cells)


def is_among(cell, reads):
    """Whether reads name a cell: itself, its family, or all of its kind."""
    return cell in reads or cell[:2] in reads or cell[:1] in reads


def text_of(reply):
    return json.dumps(reply, sort_keys=True, separators=(",", ":"), ensure_ascii=False)


def refusal(why):
    return {"error": why.code, "name": NAMES[why.code], **why.more}


class Machine:
    """A workbook with its edits. `answer` gives a line's reply, `do` a request's."""

    def __init__(self):
        self.book, self.edits, self.writes = Book(), [], 0

    def answer(self, line):
        """The text of the reply to a line, and whether reading let it through to the workbook."""
        try:
            request = read(line)
        except Refused as why:
            return text_of(refusal(why)), False
        return text_of(self.do(request)), True

    def do(self, request):
        """The reply to a request."""
        op = request["op"]
        try:
            if op in QUESTIONS:
                return QUESTION[op](self, request)
            if op == "undo":
                return self.undo(request.get("k"))
            if op == "cascade":
                return self.cascade(request["k"])
            return self.redo(request["k"]) if op == "redo" else self.edit(request)
        except Refused as why:
            return refusal(why)

    def edit(self, request):
        edit = Edit(request)
        edit.reads, cells = plan(self.book, request)
        edit.before = self.book.set_all(cells)
        self.edits.append(edit)
        return {"edit": len(self.edits), "n": self.written(cells)}

    def written(self, cells):
        """How many cells were set, which is added to those so far."""
        n = counted(cells)
        self.writes += n
        return n

    def numbered(self, k):
        if not 1 <= k <= len(self.edits):
            raise Refused("E11")
        return self.edits[k - 1]

    def later(self, k):
        """The edits in force after k, with their numbers, ascending."""
        return ((j, edit) for j, edit in enumerate(self.edits[k:], start=k + 1) if edit.before is not None)

    def undo(self, k):
        if k is None:
            k = max((j for j, _ in self.later(0)), default=0)
        edit = self.numbered(k)
        if edit.before is None:
            raise Refused("E12")
        for j, other in self.later(k):
            if other.meets(edit.before):
                raise Refused("E14", more={"by": j})
        self.book.set_all(edit.before)
        n, edit.before = self.written(edit.before), None
        return {"n": n, "undone": k}

    def dependents(self, k):
        """Edit k and each later edit in force that touched or read what one of these touched, from the greatest down."""
        edit = self.numbered(k)
        if edit.before is None:
            raise Refused("E12")
        found, cells = [k], dict.fromkeys(edit.before)
        for j, other in self.later(k):
            if other.meets(cells):
                found.append(j)
                cells.update(dict.fromkeys(other.before))
        return found[::-1]

    def cascade(self, k):
        undone = self.dependents(k)
        return {"n": sum(self.undo(j)["n"] for j in undone), "undone": undone}

    def redo(self, k):
        edit = self.numbered(k)
        if edit.before is not None:
            raise Refused("E13")
        why, cells = None, {}
        try:
            reads, cells = plan(self.book, edit.request)
        except Refused as refused:
            why, reads = refused, refused.reads
        for j, other in self.later(k):
            if other.touches_what(reads) or other.meets(cells):
                raise Refused("E14", more={"by": j})
        if why is not None:
            raise Refused("E16", more={"code": why.code, **why.more})
        edit.reads, edit.before = reads, self.book.set_all(cells)
        return {"n": self.written(cells), "redone": k}

    def replay(self):
        """The workbook that the edits in force make from empty, one after another."""
        book = Book()
        for _, edit in self.later(0):
            book.set_all(plan(book, edit.request)[1])
        return book


def get(machine, r):
    look = Look(machine.book)
    d, kind = look.array(r["a"])
    look.key(kind, r["i"])
    value = machine.book.get(("Element", r["a"], r["i"]))
    if value is None:
        look.demand(kind[0] == "sparse" and machine.book.get(("In", kind[1], r["i"])), "E06")
        value = machine.book.implicit[r["a"]]
    return {"value": value}


def where(machine, r):
    look = Look(machine.book)
    kind = look.domain(r["d"])
    look.key(kind, r["i"])
    look.demand(machine.book.get(("In" if kind[0] == "rect" else "Member", r["d"], r["i"])), "E06")
    return {"locale": lit.locale_of(machine.book.mapping(r["d"]), r["i"])}


def size(machine, r):
    kind = Look(machine.book).domain(r["d"])
    return {"size": lit.size_of(machine.book.shapes[r["d"]]) if kind[0] == "rect" else len(machine.book.members.get(r["d"], ()))}


def piece(machine, r):
    look = Look(machine.book)
    d, _ = look.array(r["a"])
    mapping = machine.book.mapping(d)
    look.demand(r["l"] < lit.locales_of(mapping), "E06")
    held = machine.book.elements.get(r["a"], {})
    return {"piece": [[i, held[i]] for i in sorted(held) if lit.locale_of(mapping, i) == r["l"]]}


def state(machine, r):
    return {"in_force": machine.numbered(r["k"]).before is not None}


def note(machine, r):
    return {"note": machine.numbered(r["k"]).request.get("note")}


def dependents(machine, r):
    return {"dependents": machine.dependents(r["k"])}


def reduce(machine, r):
    look = Look(machine.book)
    look.array(r["a"])
    values = machine.book.elements.get(r["a"], {}).values()
    look.demand(values or r["how"] == "+", "E18")
    value = {"+": sum, "min": min, "max": max}[r["how"]](values)
    look.demand(lit.LOW <= value <= lit.HIGH, "E10")
    return {"value": value}


def print_text(machine, r):
    return {"text": machine.book.text()}


def line_of(request):
    """The canonical line of an edit's request: each field, keys ascending, literals in their one spelling."""
    return text_of(spelled_members(request))


def spelled_members(request):
    """The fields of a change as they stand in JSON."""
    members = {"map": None, **request} if request["op"] == "domain" else request
    return {key: spelled(key, value) for key, value in members.items()}


def spelled(key, value):
    """A field as it stands in JSON."""
    if key == "map":
        return lit.mapping_text(value)
    if key == "edits":
        return [spelled_members(request) for request in value]
    if isinstance(value, tuple) and value[:1] == ("rectangle",):
        return lit.rectangle_text(value[1])
    if isinstance(value, tuple) and value[:1] == ("set",):
        return lit.set_text(value[2])
    return value[1] if isinstance(value, tuple) and value[:1] == ("name",) else value


def history(machine, r):
    """The text of the history: that of the workbook, and then each edit with its mark; or the lines of the edits from a number on."""
    edits = [("+ " if edit.before is not None else "- ") + line_of(edit.request) for edit in machine.edits]
    if "from" in r:
        asked = [line for number, line in enumerate(edits, start=1) if number >= r["from"]]
        return {"edits": len(edits), "text": "".join(line + "\n" for line in asked)}
    objects = machine.book.text().split("\n")[1:-2]
    return {"text": "\n".join(["chapel-workbook 2", *objects, "history %d" % len(edits), *edits, "end", ""])}


def edits(machine, r):
    return {"edits": len(machine.edits), "writes": machine.writes}


def explain(machine, r):
    wrong = explained(r["line"])
    if wrong is None:
        return {"wrong": None}
    code, field, rule, *place = wrong
    return {"wrong": {"error": code, "field": field, "name": NAMES[code], "rule": rule, **({"at": place[0]} if place else {})}}


QUESTION = {
    "history": history, "edits": edits, "get": get, "where": where, "size": size, "piece": piece, "state": state, "print": print_text,
    "dependents": dependents, "reduce": reduce, "explain": explain, "note": note,
}
