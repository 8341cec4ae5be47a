"""A workbook as its cells, and its text, by docs/PROTOCOL.md. What a cell is stands in `book`."""

from itertools import product

from . import literals as lit


def indices_of(ranges):
    """The indices of a rectangle, in its order."""
    return list(ranges[0]) if len(ranges) == 1 else list(product(*ranges))


def is_in(ranges, index):
    parts = lit.as_tuple(index)
    return len(parts) == len(ranges) and all(i in part for i, part in zip(parts, ranges))


class Book:
    """The cells by kind and name, those of families in a dict by index or user."""

    def __init__(self):
        self.objects, self.shapes, self.mappings, self.implicit = {}, {}, {}, {}
        self.members, self.uses, self.elements = {}, {}, {}
        self.single = {"Object": self.objects, "Shape": self.shapes, "Mapping": self.mappings, "Implicit": self.implicit}
        self.families = {"Member": self.members, "Use": self.uses, "Element": self.elements}

    def copy(self):
        """A book with the same cells."""
        made = Book()
        for kind, held in self.single.items():
            made.single[kind].update(held)
        for kind, families in self.families.items():
            made.families[kind].update((name, dict(held)) for name, held in families.items())
        return made

    def get(self, cell):
        """What a cell holds, or None. The mapping `none` is held as a tuple of its own."""
        if cell[0] == "In":
            return True if is_in(self.shapes.get(cell[1], ()), cell[2]) and cell[1] in self.shapes else None
        if len(cell) == 2:
            return self.single[cell[0]].get(cell[1])
        return self.families[cell[0]].get(cell[1], {}).get(cell[2])

    def put(self, cell, value):
        if cell[0] == "In":
            return
        if len(cell) == 2:
            held, key = self.single[cell[0]], cell[1]
        else:
            held, key = self.families[cell[0]].setdefault(cell[1], {}), cell[2]
        if value is None:
            held.pop(key, None)
        else:
            held[key] = value

    def set_all(self, cells):
        """Sets cells, and gives what they held before."""
        before = {cell: self.get(cell) for cell in cells}
        for cell, value in cells.items():
            self.put(cell, value)
        return before

    def indices(self, name):
        """The indices of a domain, in its order."""
        kind = self.objects[name]
        return indices_of(self.shapes[name]) if kind[0] == "rect" else sorted(self.members.get(name, ()))

    def mapping(self, name):
        """The mapping by which a domain lies."""
        kind = self.objects[name]
        if kind[0] == "assoc":
            return None
        held = self.mappings[kind[1] if kind[0] == "sparse" else name]
        return None if held == ("none",) else held

    def text(self):
        lines = ["chapel-workbook 1"]
        for name in sorted(self.objects):
            kind = self.objects[name]
            if kind[0] == "rect":
                lines.append("rect %s %s %s" % (name, lit.rectangle_text(self.shapes[name]), lit.mapping_text(self.mapping(name))))
            elif kind[0] == "sparse":
                lines.append("sparse %s of %s %s" % (name, kind[1], lit.set_text(self.members.get(name, ()))))
            elif kind[0] == "assoc":
                lines.append("assoc %s of %s %s" % (name, kind[1], lit.set_text(self.members.get(name, ()))))
            else:
                held = self.elements.get(name, {})
                row = ", ".join(str(held[i]) for i in self.indices(kind[1]))
                irv = " irv %d" % self.implicit[name] if self.objects[kind[1]][0] == "sparse" else ""
                lines.append("array %s over %s [%s]%s" % (name, kind[1], row, irv))
        return "\n".join([*lines, "end", ""])

    def cells(self):
        """Every cell that is there, with what it holds."""
        found = {(kind, name): value for kind, held in self.single.items() for name, value in held.items()}
        for kind, families in self.families.items():
            found.update({(kind, name, key): value for name, held in families.items() for key, value in held.items()})
        found.update({("In", d, i): True for d, ranges in self.shapes.items() for i in indices_of(ranges)})
        return found
