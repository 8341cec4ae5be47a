"""Literals: texts that stand for rectangles, sets and mappings, by the grammar of docs/PROTOCOL.md.

A range is a Python `range` whose members are the range's indices in its order, so that two are equal exactly where they
list the same. An index is an int, a tuple of 2 or 3 ints, or a text.
"""

import re

LONGEST_BOUND = 10**18
MOST_INDICES = 65_536
MOST_LOCALES = 256
LOW, HIGH = -(2**63), 2**63 - 1
EMPTY = range(0)
TOKEN = re.compile(r" *(\.\.<|\.\.#|\.\.|blockDist\(|cyclicDist\(|blockCycDist\(|-?[0-9]+|\"[^\"]*\"|[{}\[\](),])")


class Refused(Exception):
    """A refusal: its code, and for E14 and E16 what else the reply tells."""

    def __init__(self, code, reads=frozenset(), more=None):
        super().__init__(code)
        self.code, self.reads, self.more = code, reads, more or {}


def is_text_index(text):
    """Whether a text may be an index."""
    return len(text.encode("utf-8", "surrogatepass")) <= 64 and not re.search(r'["\\\x00-\x1f\x7f\ud800-\udfff]', text)


class Tokens:
    """The tokens of a literal, one after another."""

    def __init__(self, text):
        self.text, self.at = text, 0
        if text.startswith(" ") or text.endswith(" "):
            raise Refused("E02")

    def next(self):
        """The next token, taken; the end is an empty text."""
        if self.at == len(self.text):
            return ""
        found = TOKEN.match(self.text, self.at)
        if found is None:
            raise Refused("E02")
        self.at = found.end()
        return found[1]

    def peek(self):
        """The next token, left where it is."""
        at = self.at
        token = self.next()
        self.at = at
        return token

    def want(self, wanted):
        if self.next() != wanted:
            raise Refused("E02")

    def integer(self):
        token = self.next()
        if not re.fullmatch(r"-?[0-9]+", token):
            raise Refused("E02")
        return of_64_bits(token)

    def word(self, word):
        """Whether ` by ` or ` align ` comes next, with a space on each side; then it is taken."""
        found = re.compile(" +%s +" % word).match(self.text, self.at)
        if found is None:
            return False
        self.at = found.end()
        return True


def of_64_bits(digits):
    """The number that digits spell, however many zeros stand before it."""
    short = digits.lstrip("-").lstrip("0") or "0"
    value = HIGH + 1 if len(short) > 19 else -int(short) if digits.startswith("-") else int(short)
    if not LOW <= value <= HIGH:
        raise Refused("E02")
    return value


def separated(tokens, one):
    """One or more of what `one` reads, with commas between."""
    found = [one(tokens)]
    while tokens.peek() == ",":
        tokens.next()
        found.append(one(tokens))
    return found


def read_range(tokens):
    """A range as its parts: low bound, high bound, stride, alignment, and whether a count made it empty."""
    low = tokens.integer()
    dots = tokens.next()
    if dots == "..#":
        digits = tokens.next()
        if not digits.isdigit():
            raise Refused("E02")
        count = of_64_bits(digits)
        high, none = low + count - 1, count == 0
    elif dots in ("..", "..<"):
        high, none = tokens.integer() - (dots == "..<"), False
    else:
        raise Refused("E02")
    stride, align = 1, None
    if tokens.word("by"):
        stride = tokens.integer()
        align = tokens.integer() if tokens.word("align") else None
    if stride == 0:
        raise Refused("E02")
    return low, high, stride, align, none


def judged(parts):
    """The range of its parts, within the limits."""
    low, high, stride, align, none = parts
    if none:
        return EMPTY
    if not -LONGEST_BOUND <= low <= LONGEST_BOUND or not -LONGEST_BOUND <= high <= LONGEST_BOUND:
        raise Refused("E09")
    if low > high:
        return EMPTY
    start = low if stride > 0 else high
    align = start if align is None else align
    if stride > 0:
        first = low + (align - low) % stride
        made = (first, high, stride)
        count = 0 if first > high else (high - first) // stride + 1
    else:
        first = high - (high - align) % -stride
        made = (first, low, stride)
        count = 0 if first < low else (first - low) // -stride + 1
    if count > MOST_INDICES:
        raise Refused("E09")
    return progression(made[0], stride, count)


def progression(first, stride, count):
    """A range of so many indices. One index has no stride but 1."""
    if count == 0:
        return EMPTY
    return range(first, first + 1) if count == 1 else range(first, first + stride * count, stride)


def size_of(ranges):
    size = 1
    for part in ranges:
        size *= len(part)
    return size


def rectangle_of(parts):
    """The rectangle of the parts of its ranges, within the limits."""
    ranges = tuple(judged(part) for part in parts)
    if size_of(ranges) > MOST_INDICES:
        raise Refused("E09")
    return ranges


def read_rectangle(tokens):
    """A rectangle as the parts of its ranges."""
    tokens.want("{")
    parts = separated(tokens, read_range)
    tokens.want("}")
    if len(parts) > 3:
        raise Refused("E02")
    return parts


def read_index(tokens):
    """An integer, or a tuple of two or three."""
    if tokens.peek() != "(":
        return tokens.integer()
    tokens.next()
    index = tuple(separated(tokens, Tokens.integer))
    tokens.want(")")
    if len(index) not in (2, 3):
        raise Refused("E02")
    return index


def read_text(tokens):
    token = tokens.next()
    if not token.startswith('"') or not is_text_index(token[1:-1]):
        raise Refused("E02")
    return token[1:-1]


def kind_of_index(index):
    """What an index is: the number of its integers, or "text"."""
    return "text" if isinstance(index, str) else len(index) if isinstance(index, tuple) else 1


def domain_literal(text):
    """("rectangle", ranges) or ("set", kind, indices); the kind of `{}` is None."""
    tokens = Tokens(text)
    if re.match(r"\{ *-?[0-9]+ *\.\.", text):
        parts = read_rectangle(tokens)
        tokens.want("")
        return ("rectangle", rectangle_of(parts))
    tokens.want("{")
    if tokens.peek() == "}":
        tokens.next()
        tokens.want("")
        return ("set", None, frozenset())
    found = separated(tokens, read_text if tokens.peek().startswith('"') else read_index)
    tokens.want("}")
    tokens.want("")
    kinds = {kind_of_index(index) for index in found}
    if len(kinds) > 1:
        raise Refused("E02")
    return ("set", kinds.pop(), frozenset(found))


def read_grid(tokens):
    tokens.want("[")
    grid = tuple(separated(tokens, Tokens.integer))
    tokens.want("]")
    if len(grid) > 3:
        raise Refused("E02")
    return grid


def as_tuple(index):
    return index if isinstance(index, tuple) else (index,)


def mapping_literal(text):
    """None for `none`; else ("block", box, grid), ("cyclic", start, grid) or ("blockcyclic", start, sizes, grid)."""
    if text == "none":
        return None
    tokens = Tokens(text)
    kind = tokens.next()
    if kind not in ("blockDist(", "cyclicDist(", "blockCycDist("):
        raise Refused("E02")
    parts = [read_rectangle(tokens) if kind == "blockDist(" else as_tuple(read_index(tokens))]
    tokens.want(",")
    if kind == "blockCycDist(":
        parts.append(as_tuple(read_index(tokens)))
        tokens.want(",")
    parts.append(read_grid(tokens))
    tokens.want(")")
    tokens.want("")
    return judged_mapping(kind[:-5].lower(), parts)


def judged_mapping(kind, parts):
    """The mapping of its parts, within the limits."""
    kind = {"block": "block", "cyclic": "cyclic", "blockcyc": "blockcyclic"}[kind]
    if kind == "block":
        parts[0] = rectangle_of(parts[0])
    grid = parts[-1]
    wrong = len({len(part) for part in parts}) > 1 or any(entry < 1 for entry in grid)
    wrong = wrong or size_of([range(entry) for entry in grid]) > MOST_LOCALES
    if kind == "block":
        wrong = wrong or any(len(part) == 0 or part.step != 1 for part in parts[0])
    if kind == "blockcyclic":
        wrong = wrong or any(size < 1 for size in parts[1])
    if wrong:
        raise Refused("E15")
    return (kind, *parts)


def locales_of(mapping):
    return 1 if mapping is None else size_of([range(entry) for entry in mapping[-1]])


def locale_of(mapping, index):
    """The locale of an index: the row-major place in the grid."""
    if mapping is None:
        return 0
    locale = 0
    for at, (i, n) in enumerate(zip(as_tuple(index), mapping[-1])):
        if mapping[0] == "block":
            low, high = mapping[1][at][0], mapping[1][at][-1]
            place = 0 if i < low else n - 1 if i > high else (i - low) * n // (high - low + 1)
        elif mapping[0] == "cyclic":
            place = (i - mapping[1][at]) % n
        else:
            place = (i - mapping[1][at]) // mapping[2][at] % n
        locale = locale * n + place
    return locale


def range_text(part):
    if len(part) == 0:
        return "1..0"
    low, high = min(part[0], part[-1]), max(part[0], part[-1])
    return "%d..%d" % (low, high) + (" by %d" % part.step if len(part) > 1 and part.step != 1 else "")


def rectangle_text(ranges):
    return "{%s}" % ", ".join(map(range_text, ranges))


def index_text(index):
    if isinstance(index, str):
        return '"%s"' % index
    return "(%s)" % ", ".join(map(str, index)) if isinstance(index, tuple) else str(index)


def set_text(indices):
    return "{%s}" % ", ".join(map(index_text, sorted(indices)))


def mapping_text(mapping):
    if mapping is None:
        return "none"
    grid = "[%s]" % ", ".join(map(str, mapping[-1]))
    if mapping[0] == "block":
        return "blockDist(%s, %s)" % (rectangle_text(mapping[1]), grid)
    parts = [index_text(part if len(part) > 1 else part[0]) for part in mapping[1:-1]]
    return "%s(%s)" % ({"cyclic": "cyclicDist", "blockcyclic": "blockCycDist"}[mapping[0]], ", ".join([*parts, grid]))
