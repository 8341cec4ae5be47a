"""What each change reads and touches, by docs/PROTOCOL.md.

A cell is a tuple: ("Object", n), ("Shape", d), ("Mapping", d), ("In", d, i), ("Member", d, i), ("Use", d, n),
("Implicit", a), ("Element", a, i). Its first two members stand for its family: `("Element", a)` among the reads is
every element of a; `("Object",)` is every object. The cells `In` follow from the shapes, so a book doesn't keep them.
"""

from . import literals as lit
from .cells import Book, indices_of
from .literals import HIGH, LOW, Refused
from .texts import read_book

__all__ = ["Book", "Look", "counted", "plan"]


class Look:
    """A book that is looked at: what was read is kept, and goes with each refusal."""

    def __init__(self, book):
        self.book, self.reads = book, set()

    def refuse(self, code):
        raise Refused(code, frozenset(self.reads))

    def demand(self, holds, code):
        if not holds:
            self.refuse(code)

    def cell(self, *cell):
        self.reads.add(cell)
        return self.book.get(cell)

    def family(self, kind, name):
        """What is there of a family, by index or user."""
        self.reads.add((kind, name))
        return self.book.families[kind].get(name, {})

    def free(self, name):
        self.demand(self.cell("Object", name) is None, "E03")

    def domain(self, name):
        kind = self.cell("Object", name)
        self.demand(kind is not None, "E04")
        self.demand(kind[0] != "array", "E05")
        return kind

    def array(self, name):
        """The domain of an array and that domain's kind."""
        kind = self.cell("Object", name)
        self.demand(kind is not None, "E04")
        self.demand(kind[0] == "array", "E05")
        return kind[1], self.book.objects[kind[1]]

    def key(self, kind, index):
        self.demand(lit.kind_of_index(index) == index_kind(kind), "E05")

    def listed(self, name, kind):
        """The indices of a domain, as who reads all of them does."""
        if kind[0] == "rect":
            self.cell("Shape", name)
            return self.book.indices(name)
        return sorted(self.family("Member", name))

    def arrays(self, name):
        return [user for user, use in self.family("Use", name).items() if use == "array"]


def index_kind(kind):
    """The rank of a domain's indices, or "text"."""
    if kind[0] == "assoc":
        return 1 if kind[1] == "int" else "text"
    return kind[-1]


def held_mapping(mapping):
    return ("none",) if mapping is None else mapping


def domain(look, r):
    look.free(r["d"])
    look.demand(r["is"][0] == "rectangle", "E05")
    ranges, mapping, d = r["is"][1], r.get("map"), r["d"]
    look.demand(mapping is None or len(mapping[-1]) == len(ranges), "E15")
    cells = {("Object", d): ("rect", len(ranges)), ("Shape", d): ranges, ("Mapping", d): held_mapping(mapping)}
    cells.update({("In", d, i): True for i in indices_of(ranges)})
    return cells


def remap(look, r):
    kind = look.domain(r["d"])
    look.demand(kind[0] == "rect", "E05")
    look.demand(r["map"] is None or len(r["map"][-1]) == kind[1], "E15")
    return {("Mapping", r["d"]): held_mapping(r["map"])}


def sparse(look, r):
    look.free(r["d"])
    kind = look.domain(r["of"])
    look.demand(kind[0] == "rect", "E05")
    return {("Object", r["d"]): ("sparse", r["of"], kind[1]), ("Use", r["of"], r["d"]): "sparse"}


def assoc(look, r):
    look.free(r["d"])
    return {("Object", r["d"]): ("assoc", r["of"])}


def drop_domain(look, r):
    d = r["d"]
    kind = look.domain(d)
    look.demand(not look.family("Use", d), "E08")
    there = look.listed(d, kind)
    cells = {("Object", d): None}
    if kind[0] == "rect":
        cells.update({("Shape", d): None, ("Mapping", d): None})
    if kind[0] == "sparse":
        cells[("Use", kind[1], d)] = None
    cells.update({("In" if kind[0] == "rect" else "Member", d, i): None for i in there})
    return cells


def reshape(look, r):
    d = r["d"]
    kind = look.domain(d)
    how = next(key for key in r if key not in ("op", "d"))
    source = r[how]
    named = how not in ("translate", "expand") and source[0] == "name"
    other = look.domain(source[1]) if named else None
    look.demand(fits(kind, how, source, other), "E05")
    old = look.listed(d, kind)
    given = look.listed(source[1], other) if named else None
    if kind[0] == "rect":
        return reshape_rectangle(look, d, old, how, look.book.shapes[source[1]] if named else source)
    return reshape_set(look, d, kind, set(old), how, set(given) if named else source[2])


def fits(kind, how, source, other):
    """Whether a source is one that the table has for a domain of this kind."""
    if how in ("translate", "expand"):
        return kind[0] == "rect" and len(lit.as_tuple(source)) == kind[1]
    if kind[0] == "rect":
        if how not in ("to", "slice"):
            return False
        return other == kind if other else source[0] == "rectangle" and len(source[1]) == kind[1]
    if how == "slice" or (kind[0] == "sparse" and how != "to"):
        return False
    if other:
        return other[0] == kind[0] and index_kind(other) == index_kind(kind)
    return source[0] == "set" and source[1] in (None, index_kind(kind))


def displaced(look, ranges, how, offsets):
    look.demand(all(len(part) < 2 or part.step == 1 for part in ranges), "E05")
    made = []
    for part, o in zip(ranges, lit.as_tuple(offsets)):
        if len(part):
            low, high = part[0] + (o if how == "translate" else -o), part[-1] + o
            part = range(low, high + 1) if low <= high else lit.EMPTY
            look.demand(low > high or (-lit.LONGEST_BOUND <= low and high <= lit.LONGEST_BOUND), "E09")
            look.demand(low > high or high - low < lit.MOST_INDICES, "E09")
        made.append(part)
    look.demand(lit.size_of(made) <= lit.MOST_INDICES, "E09")
    return tuple(made)


def common(one, other):
    """What two ranges share, upward."""
    less, more = (one, other) if len(one) <= len(other) else (other, one)
    found = sorted(i for i in less if i in more)
    return lit.progression(found[0], found[1] - found[0] if len(found) > 1 else 1, len(found)) if found else lit.EMPTY


def reshape_rectangle(look, d, old, how, source):
    ranges = look.book.shapes[d]
    if how in ("translate", "expand"):
        made = displaced(look, ranges, how, source)
    else:
        given = source[1] if source[:1] == ("rectangle",) else source
        made = given if how == "to" else tuple(map(common, ranges, given))
    users = look.family("Use", d)
    old, new = set(old), set(indices_of(made))
    for name, use in users.items():
        if use == "sparse":
            look.reads.update(("Member", name, i) for i in old - new)
    look.demand(not any(use == "sparse" and (old - new) & set(look.book.members.get(name, ())) for name, use in users.items()), "E08")
    cells = {("Shape", d): made}
    come_and_go(cells, "In", d, old, new, {name: 0 for name, use in users.items() if use == "array"})
    return cells


def reshape_set(look, d, kind, old, how, given):
    new = {"to": given, "or": old | given, "and": old & given, "minus": old - given, "xor": old ^ given}[how]
    if kind[0] == "sparse":
        inside = [look.cell("In", kind[1], i) for i in new]
        look.demand(None not in inside, "E07")
    arrays = look.arrays(d)
    fresh = {a: look.cell("Implicit", a) if kind[0] == "sparse" else 0 for a in arrays}
    cells = {}
    come_and_go(cells, "Member", d, old, new, fresh)
    return cells


def come_and_go(cells, kind, d, old, new, fresh):
    """The cells of the indices that come or go, also in the arrays, each with what a new element is."""
    for i in old ^ new:
        comes = i in new
        cells[(kind, d, i)] = True if comes else None
        for a, value in fresh.items():
            cells[("Element", a, i)] = value if comes else None


def add(look, r):
    d, i = r["d"], r["i"]
    kind = look.domain(d)
    look.demand(kind[0] != "rect", "E05")
    look.key(kind, i)
    if look.cell("Member", d, i):
        return {}
    if kind[0] == "sparse":
        look.demand(look.cell("In", kind[1], i), "E07")
    fresh = {a: look.cell("Implicit", a) if kind[0] == "sparse" else 0 for a in look.arrays(d)}
    return {("Member", d, i): True, **{("Element", a, i): value for a, value in fresh.items()}}


def remove(look, r):
    d, i = r["d"], r["i"]
    kind = look.domain(d)
    look.demand(kind[0] != "rect", "E05")
    look.key(kind, i)
    if not look.cell("Member", d, i):
        return {}
    return {("Member", d, i): None, **{("Element", a, i): None for a in look.arrays(d)}}


def array(look, r):
    a, d = r["a"], r["d"]
    look.free(a)
    kind = look.domain(d)
    cells = {("Object", a): ("array", d), ("Use", d, a): "array", ("Implicit", a): 0}
    cells.update({("Element", a, i): 0 for i in look.listed(d, kind)})
    return cells


def drop_array(look, r):
    a = r["a"]
    d, _ = look.array(a)
    cells = {("Object", a): None, ("Use", d, a): None, ("Implicit", a): None}
    cells.update({("Element", a, i): None for i in look.family("Element", a)})
    return cells


def set_one(look, r):
    _, kind = look.array(r["a"])
    look.key(kind, r["i"])
    look.demand(look.cell("Element", r["a"], r["i"]) is not None, "E06")
    return {("Element", r["a"], r["i"]): r["v"]}


def fill(look, r):
    _, kind = look.array(r["a"])
    look.demand(r["on"][0] == "rectangle", "E05")
    look.demand(kind == ("rect", len(r["on"][1])), "E05")
    cells = {("Element", r["a"], i): r["v"] for i in indices_of(r["on"][1])}
    there = [look.cell(*cell) for cell in cells]
    look.demand(None not in there, "E06")
    return cells


def put(look, r):
    _, kind = look.array(r["a"])
    look.demand(r["on"][0] == "rectangle", "E05")
    look.demand(kind == ("rect", len(r["on"][1])), "E05")
    cells = {("Element", r["a"], i): v for i, v in zip(indices_of(r["on"][1]), r["vs"], strict=True)}
    there = [look.cell(*cell) for cell in cells]
    look.demand(None not in there, "E06")
    return cells


def fill_all(look, r):
    look.array(r["a"])
    return {("Element", r["a"], i): r["v"] for i in look.family("Element", r["a"])}


def irv(look, r):
    _, kind = look.array(r["a"])
    look.demand(kind[0] == "sparse", "E05")
    return {("Implicit", r["a"]): r["v"]}


def copy(look, r):
    _, kind = look.array(r["a"])
    domain_of_b, other = look.array(r["b"])
    look.key(kind, r["i"])
    look.key(other, r["j"])
    look.demand(look.cell("Element", r["a"], r["i"]) is not None, "E06")
    value = look.cell("Element", r["b"], r["j"])
    if value is None:
        look.demand(other[0] == "sparse", "E06")
        look.cell("Object", domain_of_b)
        look.demand(look.cell("In", other[1], r["j"]), "E06")
        value = look.cell("Implicit", r["b"])
    look.demand(LOW <= value + r["c"] <= HIGH, "E10")
    return {("Element", r["a"], r["i"]): value + r["c"]}


HOW = {"=": lambda x, y: y, "+": lambda x, y: x + y, "-": lambda x, y: x - y, "*": lambda x, y: x * y}


def all_of(look, r):
    one, _ = look.array(r["a"])
    other, _ = look.array(r["b"])
    look.demand(one == other, "E05")
    mine, its = look.family("Element", r["a"]), look.family("Element", r["b"])
    made = {i: HOW[r["how"]](value, its[i]) for i, value in mine.items()}
    look.demand(all(LOW <= value <= HIGH for value in made.values()), "E10")
    return {("Element", r["a"], i): value for i, value in made.items()}


def load(look, r):
    look.reads.add(("Object",))
    look.demand(not look.book.objects, "E17")
    return read_book(r["text"]).cells()


def transaction(look, r):
    """Each change in the book that those before it leave; the first that is refused refuses all, with its place."""
    book, made = look.book.copy(), {}
    for at, request in enumerate(r["edits"]):
        try:
            reads, cells = plan(book, request)
        except Refused as why:
            raise Refused(why.code, frozenset(look.reads | why.reads), {"at": at}) from None
        look.reads |= reads
        book.set_all(cells)
        made.update(cells)
    return made


CHANGES = {
    "domain": domain, "remap": remap, "sparse": sparse, "assoc": assoc, "drop_domain": drop_domain, "reshape": reshape,
    "add": add, "remove": remove, "array": array, "drop_array": drop_array, "set": set_one, "fill": fill, "put": put,
    "fill_all": fill_all, "irv": irv, "copy": copy, "all": all_of, "load": load, "transaction": transaction,
}


def plan(book, request):
    """What a change would read, and the cells that it would set with their values."""
    look = Look(book)
    cells = CHANGES[request["op"]](look, request)
    return frozenset(look.reads), cells


def counted(cells):
    """The number in a reply: the cells without `In`."""
    return sum(cell[0] != "In" for cell in cells)
