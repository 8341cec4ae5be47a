"""From Python values to the texts and numbers of requests, and back.

A Python `range` stands for a Chapel range: both are a sequence of integers, and `range(1, 5)`
lists 1, 2, 3, 4 just as `1..4` does. Slices stand for nothing but `:` alone (everything), since
`1:4` means three numbers to a reader of Python and four to a reader of Chapel.
"""

import json
import operator
import re
from typing import AbstractSet, Any, List, Sequence, Tuple, Union

Index = Union[int, Tuple[int, ...], str]
"""An index: a number at rank 1, a tuple of 2 or 3 numbers above, or a text."""

Ranges = Union[str, range, Tuple[range, ...]]
"""A rectangle: a literal as "{1..4, 1..3}", a range, or a tuple of 2 or 3 ranges."""

Indices = AbstractSet[Any]
"""A set of indices, as {5, 1} or {(1, 2), (3, 4)} or {"x", "y"}."""

LEAST, GREATEST = -(2**63), 2**63 - 1

LONGEST_NOTE = 256
"""So many bytes a note has at most."""


def integer(value: Any, what: str = "a value") -> int:
    """The value as an int of 64 bits. Anything that isn't a whole number is refused here."""
    if isinstance(value, bool):
        raise TypeError(f"{what}: whole numbers only: {value!r} isn't one")
    try:
        number = operator.index(value)  # also the integers of numpy
    except TypeError:
        raise TypeError(f"{what}: whole numbers only: {value!r} isn't one") from None
    if not LEAST <= number <= GREATEST:
        raise ValueError(f"{what} has 64 bits at most, and {number} has more")
    return number


def count(value: Any, what: str) -> int:
    """A number that isn't negative: of an edit, or of a locale."""
    number = integer(value, what)
    if number < 0:
        raise ValueError(f"{what} isn't negative, and {number} is")
    return number


def name(value: Any) -> str:
    """The name of an object, or of what is given by name."""
    text = value if isinstance(value, str) else getattr(value, "name", None)
    if not isinstance(text, str) or not re.fullmatch("[A-Za-z][A-Za-z0-9_]{0,31}", text):
        raise ValueError(f"a name is a letter, then letters, digits and _, 32 at most; not {value!r}")
    return text


def index(value: Any) -> Union[int, List[int], str]:
    """An index as requests have it."""
    if isinstance(value, str):
        return label(value)
    if isinstance(value, (tuple, list)):
        if len(value) == 1:
            return integer(value[0], "an index")
        if len(value) not in (2, 3):
            raise ValueError(f"an index has 1 to 3 numbers, not {len(value)}")
        return [integer(part, "an index") for part in value]
    if isinstance(value, slice):
        raise TypeError(
            "an array has no slices: write A.fill(range(1, 5), v) or A.fill('{1..4}', v); "
            "A[:] = v sets all of it, and A.to_dict() gives it"
        )
    return integer(value, "an index")


def label(text: str) -> str:
    """A text that may be an index of an associative domain."""
    try:
        length = len(text.encode())
    except UnicodeEncodeError:
        raise ValueError(f"a text is Unicode without lone surrogates: {text!r}") from None
    if length > 64 or re.search('["\\\\\x00-\x1f\x7f]', text):
        raise ValueError(f'a text has 64 bytes at most and no ", \\ or control character: {text!r}')
    return text


def note(text: Any) -> str:
    """A text that may be the note of a transaction."""
    if not isinstance(text, str):
        raise TypeError(f"a note is a text, not {text!r:.60}")
    if text != as_note(text):
        raise ValueError(f'a note has {LONGEST_NOTE} bytes at most and no ", \\ or control character: {text!r:.300}')
    return text


def as_note(text: str) -> str:
    """The note that comes nearest to a text: what none has stands as ?, and it ends after 256 bytes."""
    plain = re.sub('["\\\\\x00-\x1f\x7f\ud800-\udfff]', "?", text)
    return plain.encode()[:LONGEST_NOTE].decode(errors="ignore")


def index_back(value: Union[int, List[int], str]) -> Index:
    """The index of a reply."""
    return tuple(value) if isinstance(value, list) else value


def index_text(value: Any) -> str:
    """An index as literals have it: 3, (1, 2), "x"."""
    if isinstance(value, str):
        return f'"{label(value)}"'
    if isinstance(value, (tuple, list)) and len(value) != 1:
        return "(" + ", ".join(str(integer(part, "an index")) for part in value) + ")"
    return str(integer(value[0] if isinstance(value, (tuple, list)) else value, "an index"))


def range_text(value: range) -> str:
    """A range in Chapel's words: range(1, 5) is 1..4, range(10, 0, -3) is 1..10 by -3."""
    if not value:  # its len() may have more than 64 bits
        return "1..0"
    ends = [integer(value[0], "a bound"), integer(value[-1], "a bound")]
    low, high = min(ends), max(ends)
    return f"{low}..{high}" + ("" if value.step == 1 else f" by {value.step}")


def rectangle(value: Ranges) -> str:
    """A rectangular literal."""
    if isinstance(value, str):
        return value
    if isinstance(value, range):
        return "{" + range_text(value) + "}"
    if isinstance(value, (tuple, list)) and value and all(isinstance(part, range) for part in value):
        return "{" + ", ".join(range_text(part) for part in value) + "}"
    raise TypeError(f"a rectangle is '{{1..4}}', range(1, 5) or a tuple of ranges, not {value!r}")


def ranges_of(value: Ranges) -> Tuple[range, ...]:
    """The ranges of a rectangle."""
    if isinstance(value, str):
        return spelled_ranges(value)
    rectangle(value)  # what is none is told there
    return (value,) if isinstance(value, range) else tuple(value)


def source(value: Any) -> str:
    """What a domain is given: a literal, a range, ranges, a set of indices, or another domain."""
    if isinstance(value, str):
        return value
    if isinstance(value, (set, frozenset)):
        return "{" + ", ".join(sorted(map(index_text, value))) + "}"
    if isinstance(value, range):
        return rectangle(value)
    if isinstance(value, (tuple, list)):
        return rectangle(tuple(value))
    return name(value)


def offsets(values: Sequence[Any]) -> Union[int, List[int]]:
    """An offset for each dimension."""
    given = values[0] if len(values) == 1 and isinstance(values[0], (tuple, list)) else values
    if len(given) not in (1, 2, 3):
        raise ValueError(f"there are 1 to 3 offsets, not {len(given)}")
    numbers = [integer(part, "an offset") for part in given]
    return numbers[0] if len(numbers) == 1 else numbers


def _grid(grid: Any) -> str:
    parts = grid if isinstance(grid, (tuple, list)) else [grid]
    return "[" + ", ".join(str(integer(part, "a number of locales")) for part in parts) + "]"


def block(box: Ranges, grid: Any) -> str:
    """The mapping of a box in blocks: block(range(1, 5), 2) is blockDist({1..4}, [2])."""
    return f"blockDist({rectangle(box)}, {_grid(grid)})"


def cyclic(start: Any, grid: Any) -> str:
    """Round and round from an index: cyclic(1, 3) is cyclicDist(1, [3])."""
    return f"cyclicDist({index_text(start)}, {_grid(grid)})"


def block_cyclic(start: Any, size: Any, grid: Any) -> str:
    """Round and round by blocks: block_cyclic(1, 2, 3) is blockCycDist(1, 2, [3])."""
    return f"blockCycDist({index_text(start)}, {index_text(size)}, {_grid(grid)})"


def read_range(text: str) -> range:
    """The range of a canonical spelling: 2..8 by 3 is range(2, 9, 3)."""
    found = re.fullmatch(r"(-?[0-9]+)\.\.(-?[0-9]+)(?: by (-?[0-9]+))?", text)
    if not found:
        raise ValueError(f"no range: {text!r}")
    low, high, step = int(found[1]), int(found[2]), int(found[3] or 1)
    return range(low, high + 1, step) if step > 0 else range(high, low - 1, step)


def spelled_ranges(text: str) -> Tuple[range, ...]:
    """The ranges of a rectangle as people spell it, `..<` and `..#` too, but without `align`."""
    found = []
    for part in text.strip()[1:-1].split(","):
        match = re.fullmatch(r" *(-?[0-9]+) *(\.\.[<#]?) *(-?[0-9]+)(?: +by +(-?[0-9]+))? *", part)
        if match is None:
            raise ValueError(f"a part is shown by ranges as 1..20 or 1..20 by 2, not {part.strip()!r}")
        low, high, step = int(match[1]), int(match[3]), int(match[4] or 1)
        high = high - 1 if match[2] == "..<" else low + high - 1 if match[2] == "..#" else high
        if step == 0:
            raise ValueError("a stride isn't 0")
        found.append(range(low, high + 1, step) if step > 0 else range(high, low - 1, step))
    return tuple(found)


def read_rectangle(text: str) -> Tuple[range, ...]:
    """The ranges of a canonical rectangle."""
    return tuple(read_range(part) for part in text[1:-1].split(", "))


def read_set(text: str) -> List[Index]:
    """The indices of a canonical set, in its order."""
    inner = text[1:-1]
    if not inner.startswith('"'):
        inner = inner.replace("(", "[").replace(")", "]")
    return [index_back(part) for part in json.loads("[" + inner + "]")]
