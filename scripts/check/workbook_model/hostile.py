"""Hostile lines by chance: what no client should send, and what it may send but is refused."""

import json

from .reading import LONGEST_LINE
from .requests import Requests

NUMBERS = [
    "9223372036854775807", "9223372036854775808", "-9223372036854775808", "-9223372036854775809", "18446744073709551615",
    "18446744073709551616", "4294967296", "0", "-1", "1.0", "1e0", "1E400", "-1e-400", "0.1", "01", "+1", ".5", "1.", "1e", "0x10",
    "NaN", "Infinity", "-Infinity", "1_000", "--1", "9" * 400, "1" + "0" * 5000, "0." + "3" * 5000, "1e" + "9" * 300,
]
VALUES = ["null", "true", "false", '""', '"A"', "[]", "[1]", "[1,2]", "[1,2,3]", "[1,2,3,4]", "{}", '{"a":1}', '"{1..4}"', "[[1]]",
          '"\\ud800"', '"\\udc00\\ud800"', '"\\u0000"', '"\\u0061"', '"\u00e9"', '"D\\u0000"', '"\u202e"', '"\U0001f4d6"', '"%s"' % ("n" * 33)]
BAD_BYTES = [b"\xff", b"\xfe\xff", b"\xc0\xaf", b"\xe0\x80\xaf", b"\xed\xa0\x80", b"\xf4\x90\x80\x80", b"\xf8\x88\x80\x80\x80", b"\x80", b"\xc3",
             b"\x00", b"\x1b[2J", b"\x7f", b"\x01", b"\xef\xbb\xbf"]
OPS = ["", "gets", "PRINT", "print ", "set\u0000", "op", "undo ", "domain2", "drop", "exec", "__proto__", "\u0440rint", "x" * 300]
BOUNDS = ["0", "1", "-1", "65535", "65536", "65537", "1000000000000000000", "1000000000000000001", "-1000000000000000000",
          "-1000000000000000001", "9223372036854775807", "-9223372036854775808", "9223372036854775808", "00000000000000000000000000001"]
SCRAPS = ["{", "}", "(", ")", "[", "]", ",", "..", "..<", "..#", " by ", " align ", " ", "by", '"', '"a"', "none", "blockDist(", "cyclicDist(",
          "blockCycDist(", "#", "<", "\u2026", "\\", "1", "-", *BOUNDS]


def compact(request):
    return json.dumps(request, ensure_ascii=False, separators=(",", ":"))


def doubled(line):
    """Whether a key stands twice in an object of a line, of which not all is promised."""
    found = []

    def members(pairs):
        found.append(len({key for key, _ in pairs}) < len(pairs))
        return dict(pairs)

    try:
        json.loads(line, object_pairs_hook=members)
    except (ValueError, RecursionError):
        return False  # it is no JSON
    return any(found)


class Hostile:
    """A source of lines, without their ends."""

    def __init__(self, chance):
        self.chance, self.requests = chance, Requests(chance)
        self.kinds = {
            self.mutated: 20, self.cut: 8, self.noise: 8, self.wrong_value: 16, self.numbers: 10, self.fields: 8, self.twice: 3, self.op: 4,
            self.bytes_within: 8, self.literal: 12, self.bounds: 8, self.surrogates: 3, self.around: 4, self.nested: 1, self.asked: 12,
        }
        self.shares = list(self.kinds.values())
        self.makers = list(self.kinds)

    def line(self):
        if self.chance.random() < 0.001:
            line = self.long()
        else:
            line = self.chance.choices(self.makers, self.shares)[0]()
        return line.replace(b"\n", b" ")

    def request(self):
        return self.requests.request()

    def text(self):
        return compact(self.request()).encode()

    def pick(self, choices):
        return self.chance.choice(choices)

    def asked(self):
        """A proper request; what would change the workbook is left out by who asks for lines."""
        return self.text()

    def mutated(self):
        line = bytearray(self.text())
        for _ in range(self.chance.randint(1, 4)):
            at = self.chance.randrange(len(line) + 1)
            what = self.chance.randrange(4)
            if what == 0 and at < len(line):
                line[at] = self.chance.randrange(256)
            elif what == 1:
                line[at:at] = self.pick([b'"', b"{", b"}", b"[", b"]", b",", b":", b"\\", b"0", b" "])
            elif what == 2:
                del line[at : at + self.chance.randint(1, 5)]
            else:
                line[at:at] = line[at : at + self.chance.randint(1, 9)]
        return bytes(line)

    def cut(self):
        line = self.text()
        return line[: self.chance.randrange(len(line))]

    def noise(self):
        length = self.pick([0, 1, 2, 5, 20, 100, 1000])
        if self.chance.random() < 0.5:
            return bytes(self.chance.choices(b'{}[]",:\\0123456789eE+-.truefalsn \t\r', k=length))
        return self.chance.getrandbits(8 * length).to_bytes(length, "big") if length else b""

    def with_text(self, text):
        """A request of which one member's value is this text of JSON."""
        members = self.request()
        key = self.pick(list(members))
        parts = ["%s:%s" % (json.dumps(k), text if k == key else json.dumps(v, ensure_ascii=False)) for k, v in members.items()]
        return ("{%s}" % ",".join(parts)).encode("utf-8", "surrogatepass")

    def wrong_value(self):
        return self.with_text(self.pick(VALUES))

    def numbers(self):
        number = self.pick(NUMBERS)
        return self.with_text(self.pick([number, number, "[%s,1]" % number, "[0,%s,2]" % number]))

    def fields(self):
        members = self.request()
        what = self.chance.randrange(3)
        if what == 0:
            del members[self.pick(list(members))]
        elif what == 1:
            members[self.pick(["x", "", "OP", "a", "d", "k", "v", "i", "to", "map", "text", "is"])] = self.pick([0, "A", None, [], "{}"])
        else:
            key = self.pick(list(members))
            members[self.pick([key + " ", key.upper(), "x" + key])] = members.pop(key)
        return compact(members).encode()

    def twice(self):
        members = self.request()
        key = self.pick(list(members))
        other = self.request().get(key, self.pick(["A", "D", 1, None, "{1..4}"]))
        return (compact(members)[:-1] + ",%s:%s}" % (json.dumps(key), compact(other))).encode()

    def op(self):
        return compact({**self.request(), "op": self.pick(OPS)}).encode()

    def bytes_within(self):
        line = bytearray(self.text())
        at = self.chance.randrange(len(line) + 1)
        line[at:at] = self.pick(BAD_BYTES)
        return bytes(line)

    def surrogates(self):
        half = self.pick(["\\ud800", "\\udfff", "\\uD83D", "\\ud83d\\ud83d", "\\ude00\\ud83d", "\\ud83d\\u0041", "\\u12", "\\x41", "\\'"])
        return self.text().replace(self.pick([b'"op"', b'"A"', b'"D"', b'"a"', b'"d"']), b'"%s"' % half.encode())

    def around(self):
        line = self.text()
        return self.pick([b"\xef\xbb\xbf" + line, line + b",", line + line, b"[" + line + b"]", b"\x00" + line, line + b"\x00", b"'" + line + b"'",
                          line.decode().encode("utf-16"), line + b" // ", b"\xc2\xa0" + line, b"\x0c" + line, b"\t " + line + b" \r", line[::-1]])

    def soup(self):
        return "".join(self.chance.choices(SCRAPS, k=self.chance.randint(0, 9)))

    def placed(self, literal):
        """A request that has the literal in one of the places where literals stand."""
        rank = self.chance.randint(0, 6)
        return compact([
            {"op": "domain", "d": "X", "is": literal}, {"op": "domain", "d": "D", "is": "{1..2}", "map": literal},
            {"op": "remap", "d": "D", "map": literal}, {"op": "fill", "a": "A", "on": literal, "v": 1},
            {"op": "put", "a": "A", "on": literal, "vs": [1, 2]},
            {"op": "reshape", "d": self.pick("DMCSRNT"), self.pick(["to", "slice", "or", "and", "minus", "xor", "translate"]): literal},
            {"op": "sparse", "d": "X", "of": literal},
        ][rank]).encode()

    def literal(self):
        what = self.chance.randrange(4)
        if what == 0:
            return self.placed("{%s}" % self.soup())
        if what == 1:
            return self.placed(self.soup())
        good = [self.requests.rectangle(2), self.requests.set_text("text"), self.requests.mapping(2), self.requests.set_text(2)][self.chance.randrange(4)]
        at = self.chance.randrange(len(good) + 1)
        return self.placed(good[:at] + self.pick(SCRAPS) + good[at + self.chance.randrange(2) :])

    def bounds(self):
        def one():
            return self.pick(BOUNDS) + self.pick(["..", "..<", "..#"]) + self.pick(BOUNDS) + self.pick(["", "", " by " + self.pick(BOUNDS)])

        ranges = "{%s}" % ", ".join(one() for _ in range(self.chance.randint(1, 4)))
        index = "(%s)" % ", ".join(self.pick(BOUNDS) for _ in range(self.chance.randint(1, 4)))
        grid = "[%s]" % ", ".join(self.pick(BOUNDS[:6]) for _ in range(self.chance.randint(1, 4)))
        return self.placed(self.pick([
            ranges, ranges, "{%s, %s}" % (index, index), "{%s}" % self.pick(BOUNDS), "blockDist(%s, %s)" % (ranges, grid),
            "cyclicDist(%s, %s)" % (self.pick([index, self.pick(BOUNDS)]), grid), "blockCycDist(%s, %s, %s)" % (index, index, grid),
        ]))

    def nested(self):
        depth = self.pick([2, 50, 126, 127, 128, 129, 500, 5000])
        opening, closing = self.pick([(b"[", b"]"), (b'{"a":', b"}"), (b'[{"op":', b"}]")])
        inner = self.pick([b"1", b"", b'"x"'])
        value = opening * depth + inner + closing * self.pick([depth, depth, 0, depth - 1])
        return self.pick([value, b'{"op":"size","d":%s}' % value, b'{"op":"size","d":"D","x":%s}' % value])

    def long(self):
        """Lines about as long as a line may be, and longer."""
        length = self.pick([LONGEST_LINE - 1, LONGEST_LINE, LONGEST_LINE + 1, LONGEST_LINE + 2, 2 * LONGEST_LINE, 3 * LONGEST_LINE + 7])
        line = self.pick([b'{"op":"size","d":"D"}', b'{"op":"state","k":1}', b'{"op":"print"', b""])
        filling = self.pick([b" ", b" ", b"[", b'{"a":', b'"', b"\\", b"9", b"\xff", b"\x00", b"\xc3\xa9", b'{"op":"print"}', b",", b"-"])
        if filling == b" ":
            return line.ljust(length)
        prefix = self.pick([b"", b'{"op":"size","d":"', b'{"op":"state","k":', b'{"op":"domain","d":"X","is":"{', b'{"op":"reshape","d":"N","to":"{'])
        return (prefix + filling * length)[:length]
