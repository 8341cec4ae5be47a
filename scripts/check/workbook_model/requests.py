"""Requests by chance, over a few names, so that they meet each other: most are possible, some are refused."""

import json

from .literals import domain_literal, size_of
from .reading import COMMANDS, FIELDS

TEXTS = ["", "a", "b", "z", "a b", "é", "0", "x" * 64]
NAMES = {"D": 1, "M": 2, "C": 3, "S": 1, "R": 2, "N": 1, "T": "text"}
OVER = {"A": "D", "B": "D", "E": "M", "F": "C", "G": "S", "H": "N", "K": "T", "L": "R", "P": "D"}
WIDTH = {1: 12, 2: 4, 3: 3}
BOOK = """\
chapel-workbook 1
array A over D [1, 2, 3, 4, 5, 6, 7, 8, 9, 9223372036854775807]
array B over D [0, 0, 0, 0, 0, 0, 0, 0, 0, 0]
array F over C [0, 0, 0, 0]
array G over S [4, -7] irv 7
array K over T [1, 2]
rect C {0..1, 0..1, 0..0} cyclicDist((0, 0, 0), [2, 1, 2])
rect D {1..10} blockDist({1..10}, [4])
assoc N of int {}
sparse S of D {2, 9}
assoc T of text {"", "é"}
end
"""
BOOKS = [BOOK, "chapel-workbook 1\nend\n", "chapel-workbook 1\nassoc N of int {1, 5}\nend\n", "", BOOK + "\n", BOOK.replace("}", " }"), BOOK[:-1],
         BOOK.replace("{2, 9}", "{2, 11}"), BOOK.replace("[1, 2]", "[1]"), BOOK.replace("irv 7", "irv 07"), BOOK.replace("over C", "over Q")]
INTEGERS = [0, 1, -1, 7, 2**31, 2**63 - 1, -(2**63), 10**18]
BEGINNING = [
    {"op": "domain", "d": "D", "is": "{1..10}", "map": "blockDist({1..10}, [4])"},
    {"op": "domain", "d": "M", "is": "{0..3, 1..6 by 2}"},
    {"op": "domain", "d": "C", "is": "{0..2, 0..2, 0..1}", "map": "cyclicDist((0, 0, 0), [2, 1, 2])"},
    {"op": "sparse", "d": "S", "of": "D"},
    {"op": "sparse", "d": "R", "of": "M"},
    {"op": "assoc", "d": "N", "of": "int"},
    {"op": "assoc", "d": "T", "of": "text"},
    *({"op": "array", "a": a, "d": d} for a, d in OVER.items()),
]


class Requests:
    """A source of requests. `latest` is the greatest number of an edit that was heard of."""

    def __init__(self, chance):
        self.chance, self.latest = chance, 0
        self.ops = [op for op in SHARES if op == "reshape" or op in FIELDS]
        self.shares = [SHARES[op] for op in self.ops]

    def pick(self, choices):
        return self.chance.choice(choices)

    def rarely(self, share=0.04):
        return self.chance.random() < share

    def domain_name(self):
        return self.pick("DMCSRNT") if not self.rarely() else self.pick(["A", "Q", "X"])

    def array_name(self):
        return self.pick(list(OVER)) if not self.rarely() else self.pick(["D", "Q"])

    def integer(self):
        return self.pick(INTEGERS) if self.rarely(0.15) else self.chance.randint(-99, 99)

    def index(self, kind):
        """An index for a domain of the kind, seldom of another one."""
        if self.rarely(0.02):
            kind = self.pick([1, 2, 3, "text"])
        if kind == "text":
            return self.pick(TEXTS)
        found = [self.chance.randint(0, WIDTH[kind]) for _ in range(kind)]
        return found[0] if kind == 1 else found

    def range_text(self, width):
        low, count = self.chance.randint(0, width), self.chance.randint(0, width)
        text = self.pick(["%d..%d" % (low, low + count - 1), "%d..<%d" % (low, low + count), "%d..#%d" % (low, count)])
        if self.rarely(0.3):
            text += " by %d" % self.pick([1, 2, 3, -1, -2])
            text += " align %d" % self.pick([0, 1, 5]) if self.rarely(0.3) else ""
        return text

    def rectangle(self, rank):
        if self.rarely(0.02):
            rank = self.pick([1, 2, 3])
        return "{%s}" % self.pick([", ", ","]).join(self.range_text(WIDTH[rank]) for _ in range(rank))

    def set_text(self, kind):
        found = [self.index(kind) for _ in range(self.chance.randint(0, 5))]
        if len({type(i) for i in found}) > 1 and not self.rarely(0.1):
            found = found[:1]
        return "{%s}" % ", ".join('"%s"' % i if isinstance(i, str) else str(i).replace("[", "(").replace("]", ")") for i in found)

    def mapping(self, rank):
        if self.rarely(0.3):
            return "none"
        grid = str([self.pick([1, 2, 3]) for _ in range(rank)])
        start = [self.chance.randint(-1, 3) for _ in range(rank)]
        start = str(start[0]) if rank == 1 else str(tuple(start))
        box = "{%s}" % ", ".join("%d..%d" % (self.chance.randint(0, 2), self.chance.randint(2, 9)) for _ in range(rank))
        sizes = "2" if rank == 1 else str((2, 1, 3)[:rank])
        return self.pick(["blockDist(%s, %s)" % (box, grid), "cyclicDist(%s, %s)" % (start, grid),
                          "blockCycDist(%s, %s, %s)" % (start, sizes, grid)])

    def number(self):
        """The number of an edit, oftener of a late one, seldom of one that isn't there."""
        if self.rarely():
            return self.pick([0, self.latest + 1, 2**64 - 1])
        return max(1, self.latest - int(self.chance.expovariate(1 / 12))) if self.latest else 1

    def request(self):
        """Any request."""
        op = self.chance.choices(self.ops, self.shares)[0]
        return {"op": op, **getattr(self, "make_" + op)()}

    def make_domain(self):
        d = self.pick("DMC")
        return {"d": d, "is": self.rectangle(NAMES[d]), **({"map": self.mapping(NAMES[d])} if self.rarely(0.6) else {})}

    def make_sparse(self):
        d = self.pick("SR")
        return {"d": d, "of": {"S": "D", "R": "M"}[d]}

    def make_assoc(self):
        d = self.pick("NT")
        return {"d": d, "of": "text" if d == "T" else "int"}

    def make_drop_domain(self):
        return {"d": self.domain_name()}

    def make_reshape(self):
        d = self.domain_name()
        kind = NAMES.get(d, 1)
        if d in "DMC" and self.rarely(0.5):
            o = [self.chance.randint(-2, 2) for _ in range(kind)]
            return {"d": d, self.pick(["translate", "expand"]): o[0] if kind == 1 else o}
        how = self.pick(["to", "to", "slice"] if d in "DMC" else ["to", "or", "and", "minus", "xor"] if d in "NT" else ["to"])
        if self.rarely(0.1):
            return {"d": d, self.pick(["to", "slice", "or"]): self.domain_name()}
        return {"d": d, how: self.rectangle(kind) if d in "DMC" else self.set_text(kind)}

    def make_add(self):
        d = self.pick("SRNT") if not self.rarely() else self.domain_name()
        return {"d": d, "i": self.index(NAMES.get(d, 1))}

    make_remove = make_add

    def make_remap(self):
        d = self.pick("DMC") if not self.rarely() else self.domain_name()
        rank = NAMES.get(d, 1) if isinstance(NAMES.get(d, 1), int) else 1
        return {"d": d, "map": self.mapping(rank)}

    def make_array(self):
        a = self.array_name()
        return {"a": a, "d": OVER.get(a, "D")}

    def make_drop_array(self):
        return {"a": self.array_name()}

    def element(self, array="a", index="i"):
        a = self.array_name()
        return {array: a, index: self.index(NAMES[OVER.get(a, "D")])}

    def make_set(self):
        return {**self.element(), "v": self.integer()}

    def make_fill(self):
        a = self.array_name()
        kind = NAMES[OVER.get(a, "D")]
        return {"a": a, "on": self.rectangle(kind if kind != "text" else 1), "v": self.integer()}

    def make_put(self):
        """Numbers, mostly as many as the rectangle has indices."""
        a = self.array_name()
        kind = NAMES[OVER.get(a, "D")]
        on = self.rectangle(kind if kind != "text" else 1)
        count = size_of(domain_literal(on)[1]) + (self.pick([-1, 1]) if self.rarely(0.1) else 0)
        return {"a": a, "on": on, "vs": [self.integer() for _ in range(count)]}

    def make_fill_all(self):
        return {"a": self.array_name(), "v": self.integer()}

    def make_irv(self):
        return {"a": self.pick("GL") if not self.rarely() else self.array_name(), "v": self.integer()}

    def make_copy(self):
        return {**self.element(), **self.element("b", "j"), "c": self.integer()}

    def make_all(self):
        one, other = ("A", "B") if self.rarely(0.7) else (self.array_name(), self.array_name())
        return {"a": one, "how": self.pick("=+-*"), "b": other}

    def make_undo(self):
        return {"k": self.number()} if not self.rarely(0.2) else {}

    def make_redo(self):
        return {"k": self.number()}

    make_state = make_redo

    def make_get(self):
        return self.element()

    def make_where(self):
        d = self.domain_name()
        return {"d": d, "i": self.index(NAMES.get(d, 1))}

    def make_size(self):
        return {"d": self.domain_name()}

    def make_piece(self):
        return {"a": self.array_name(), "l": self.pick([0, 0, 1, 2, 3, 99])}

    def make_print(self):
        return {}

    make_edits = make_print

    def make_history(self):
        """The lines of edits from a number on: mostly of a late one, since the whole text is long."""
        return {"from": self.number()}

    make_cascade = make_dependents = make_note = make_redo

    def make_reduce(self):
        return {"a": self.array_name(), "how": self.pick(["+", "min", "max"])}

    def make_load(self):
        return {"text": self.pick(BOOKS)}

    def make_transaction(self):
        """A few changes, seldom something else among them, and often a note."""
        ops = [op for op in self.ops if op in COMMANDS]
        several = [{"op": op, **getattr(self, "make_" + op)()}
                   for op in self.chance.choices(ops, [SHARES[op] for op in ops], k=self.chance.randint(1, 5))]
        if self.rarely():
            several.insert(self.chance.randint(0, len(several)), self.pick([{}, 1, {"op": "undo"}, {"op": "load", "text": ""}]))
        return {"edits": several, **({"note": self.pick(TEXTS)} if self.rarely(0.4) else {})}

    def make_explain(self):
        """What is wrong with a line: a request by chance, of which often a member is missing or another one."""
        op = self.pick(self.ops)
        line = {"op": op, **(getattr(self, "make_" + op)() if op != "explain" else {})}
        if self.rarely(0.6):
            line[self.pick(["op", *line])] = self.pick([1, -1, 0.5, "", "A", "{1..", "{1..65537}", [1, 2], None])
        if self.rarely(0.1):
            del line[self.pick(list(line))]
        return {"line": json.dumps(line, ensure_ascii=False)[: None if not self.rarely() else 9]}


# How often each op is asked for.
SHARES = {
    "domain": 4, "sparse": 2, "assoc": 2, "drop_domain": 2, "reshape": 8, "add": 8, "remove": 4, "remap": 3, "array": 4,
    "drop_array": 2, "set": 16, "fill": 5, "put": 5, "fill_all": 2, "irv": 2, "copy": 8, "all": 4, "undo": 22, "redo": 18, "get": 4,
    "where": 2, "size": 2, "piece": 2, "state": 3, "print": 1, "history": 2, "edits": 2, "cascade": 2, "dependents": 4, "reduce": 4, "load": 1,
    "explain": 2, "transaction": 8, "note": 1,
}
