"""Lines, read as requests: which one it is, or the code of the refusal, by docs/PROTOCOL.md."""

import json
import re

from .literals import HIGH, LOW, Refused, domain_literal, is_text_index, mapping_literal, size_of
from .texts import read_book

LONGEST_LINE = 65_536
NAME = re.compile(r"[A-Za-z][A-Za-z0-9_]{0,31}")
UNPLAIN = re.compile(r'["\\\x00-\x1f\x7f\ud800-\udfff]')
OFFSETS, LITERALS = ("translate", "expand"), ("to", "slice", "or", "and", "minus", "xor")


class Object(dict):
    """A JSON object. `twice` says that a key stands in it more than once."""

    twice = False


def pairs(members):
    found = Object(members)
    found.twice = len(found) < len(members)
    return found


def no_constant(word):
    raise ValueError(word)


DECODER = json.JSONDecoder(object_pairs_hook=pairs, parse_constant=no_constant)


def json_of(line):
    """The JSON value of a line: E01 where it is none."""
    try:
        value = DECODER.decode(line.decode())
        if b"\\u" in line:
            json.dumps(value, ensure_ascii=False).encode()  # fails at half a pair of surrogates
        return value
    except (ValueError, RecursionError):
        raise Refused("E01") from None


# What is wanted of a value, by how it is read and by the code that it is refused with.
RULES = {}


def name(value):
    if not isinstance(value, str) or not NAME.fullmatch(value):
        raise Refused("E01")
    return value


def whole(low, high):
    def read(value):
        if type(value) is not int or not low <= value <= high:
            raise Refused("E01")
        return value

    return read


integer, count = whole(LOW, HIGH), whole(0, 2**64 - 1)


def offset(value):
    if isinstance(value, list):
        if len(value) not in (2, 3):
            raise Refused("E01")
        return tuple(map(integer, value))
    return integer(value)


def index(value):
    if isinstance(value, str):
        if not is_text_index(value):
            raise Refused("E01")
        return value
    return offset(value)


def integers(value):
    if not isinstance(value, list):
        raise Refused("E01")
    return list(map(integer, value))


def word(*words):
    def read(value):
        if not isinstance(value, str) or value not in words:
            raise Refused("E01")
        return value

    RULES[read] = {"E01": "%s or %s" % (", ".join(words[:-1]), words[-1])}
    return read


def text(read):
    """A literal: E01 where it is no text at all."""

    def checked(value):
        if not isinstance(value, str):
            raise Refused("E01")
        return read(value)

    return checked


def source(value):
    """A literal, or ("name", the name of a domain)."""
    if isinstance(value, str) and value.startswith("{"):
        return domain_literal(value)
    return ("name", name(value))


def book_text(value):
    """The text of a workbook: E02 where it is a text and no workbook's."""
    text(read_book)(value)
    return value


def line_text(value):
    """A text of whichever characters."""
    return text(str)(value)


def note_text(value):
    """The note of a transaction."""
    if not isinstance(value, str) or len(value.encode("utf-8", "surrogatepass")) > 256 or UNPLAIN.search(value):
        raise Refused("E01")
    return value


def several(value):
    """1 to 4,096 values, whatever they are."""
    if not isinstance(value, list) or not 1 <= len(value) <= 4096:
        raise Refused("E01")
    return value


domain, mapping = text(domain_literal), text(mapping_literal)
WITHIN = "at most 65536 indices, bounds within 10^18"
SPELLED = "a rectangle or a set, as {1..9} or {1, 5}"
RULES.update({
    name: {"E01": "a name: 1 to 32 letters, digits and _, a letter first"},
    integer: {"E01": "an integer from -2^63 to 2^63-1, without fraction and exponent"},
    count: {"E01": "an integer from 0 to 2^64-1, without fraction and exponent"},
    index: {"E01": "an index: an integer, an array of 2 or 3 of them, or a text of at most 64 bytes without quotes, backslashes and control characters"},
    integers: {"E01": "an array of integers from -2^63 to 2^63-1"},
    offset: {"E01": "an integer, or an array of 2 or 3 of them"},
    line_text: {"E01": "a text"},
    note_text: {"E01": "a text of at most 256 bytes without quotes, backslashes and control characters"},
    several: {"E01": "an array of 1 to 4096 edits"},
    domain: {"E01": "a text", "E02": SPELLED, "E09": WITHIN},
    mapping: {
        "E01": "a text", "E02": "none, blockDist(..), cyclicDist(..) or blockCycDist(..)",
        "E09": "a box of at most 65536 indices, bounds within 10^18",
        "E15": "parts of one rank, a box of filled ranges with stride 1, block sizes from 1, and a grid of 1 to 256 locales",
    },
    source: {"E01": "a literal in braces, or the name of a domain", "E02": SPELLED, "E09": WITHIN},
    book_text: {"E01": "a text", "E02": "the text of a workbook, as print answers it"},
})

# The fields of each op. One that may be missing stands after a question mark.
FIELDS = {
    "domain": {"d": name, "is": domain, "?map": mapping},
    "sparse": {"d": name, "of": name},
    "assoc": {"d": name, "of": word("int", "text")},
    "drop_domain": {"d": name},
    "add": {"d": name, "i": index},
    "remove": {"d": name, "i": index},
    "remap": {"d": name, "map": mapping},
    "array": {"a": name, "d": name},
    "drop_array": {"a": name},
    "set": {"a": name, "i": index, "v": integer},
    "fill": {"a": name, "on": domain, "v": integer},
    "put": {"a": name, "on": domain, "vs": integers},
    "fill_all": {"a": name, "v": integer},
    "irv": {"a": name, "v": integer},
    "copy": {"a": name, "i": index, "b": name, "j": index, "c": integer},
    "all": {"a": name, "how": word("=", "+", "-", "*"), "b": name},
    "undo": {"?k": count},
    "redo": {"k": count},
    "get": {"a": name, "i": index},
    "where": {"d": name, "i": index},
    "size": {"d": name},
    "piece": {"a": name, "l": count},
    "state": {"k": count},
    "print": {},
    "history": {"?from": count},
    "edits": {},
    "load": {"text": book_text},
    "cascade": {"k": count},
    "dependents": {"k": count},
    "reduce": {"a": name, "how": word("+", "min", "max")},
    "explain": {"line": line_text},
    "note": {"k": count},
    "transaction": {"edits": several, "?note": note_text},
}
# The ops of which a transaction may have some.
COMMANDS = {
    "domain", "sparse", "assoc", "drop_domain", "reshape", "add", "remove", "remap", "array", "drop_array", "set", "fill", "put", "fill_all",
    "irv", "copy", "all",
}
QUESTIONS = {"note", "history", "edits", "get", "where", "size", "piece", "state", "print", "dependents", "reduce", "explain"}
SOURCES = {**{how: offset for how in OFFSETS}, **{how: source for how in LITERALS}}


def fields_of(members):
    """The readers of the fields that a request with these members has to have."""
    op = members.get("op")
    if op == "reshape":
        given = [key for key in members if key in SOURCES]
        if len(given) != 1:
            raise Refused("E01")
        return {"d": name, given[0]: SOURCES[given[0]]}
    if not isinstance(op, str) or op not in FIELDS:
        raise Refused("E01")
    return {key.lstrip("?"): read for key, read in FIELDS[op].items() if key[0] != "?" or key[1:] in members}


def request_of(members):
    """The request of a JSON value; of all its faults the one with the least code is told."""
    if not isinstance(members, dict):
        raise Refused("E01")
    fields = fields_of(members)
    if set(fields) | {"op"} != set(members):
        raise Refused("E01")
    found, faults = {"op": members["op"]}, []
    for key, read in fields.items():
        try:
            found[key] = read(members[key])
        except Refused as why:
            faults.append(why.code)
    if faults:
        raise Refused(min(faults))
    if found["op"] == "put" and found["on"][0] == "rectangle" and len(found["vs"]) != size_of(found["on"][1]):
        raise Refused("E01")
    if found["op"] == "transaction":
        found["edits"] = commands_of(found["edits"])
    return found


def command_of(members):
    """The request of a change within a transaction."""
    if not isinstance(members, dict) or not isinstance(members.get("op"), str) or members["op"] not in COMMANDS:
        raise Refused("E01")
    return request_of(members)


def commands_of(values):
    """The requests of changes; of all their faults the one with the least code is told."""
    found, faults = [], []
    for value in values:
        try:
            found.append(command_of(value))
        except Refused as why:
            faults.append(why.code)
    if faults:
        raise Refused(min(faults))
    return found


def forms_of(op):
    """The forms of an op: the fields that a request of it has, each with its reader."""
    if op == "reshape":
        return [{"d": name, how: SOURCES[how]} for how in (LITERALS[0], LITERALS[1], *OFFSETS, *LITERALS[2:])]
    fields = FIELDS[op]
    needed = {key: read for key, read in fields.items() if key[0] != "?"}
    return [needed, *([{key.lstrip("?"): read for key, read in fields.items()}] if len(needed) < len(fields) else [])]


def misfit(members, forms):
    """What is wrong with the members of an object that has none of the forms of its op."""
    for key in sorted(members, key=str.encode):
        if key != "op" and not any(key in form for form in forms):
            return "E01", key, "no field that the op does not have"
    for key in forms[0]:
        if key not in members and all(key in form for form in forms):
            return "E01", key, "each field that the op has"
    return "E01", None, "one of the fields to, slice, translate, expand, or, and, minus and xor"


def explained(line):
    """What is wrong with a line, as the text of a request has it: the code, the field and what is wanted; None where nothing is. Of all
    that is wrong it is the first with the least code."""
    try:
        members = json_of(line.encode("utf-8", "surrogatepass"))
    except Refused:
        return "E01", None, "JSON in UTF-8"
    if not isinstance(members, dict):
        return "E01", None, "a JSON object"
    op = members.get("op")
    if not isinstance(op, str) or op != "reshape" and op not in FIELDS:
        return "E01", "op", "an op"
    wrong = explained_object(op, members)
    if wrong is None and op == "transaction":
        told = [(at, explained_command(value)) for at, value in enumerate(members["edits"])]
        return min(((*fault, at) for at, fault in told if fault is not None), key=lambda fault: fault[0], default=None)
    return wrong


def explained_command(members):
    """What is wrong with a value within a transaction."""
    if not isinstance(members, dict):
        return "E01", None, "a JSON object"
    op = members.get("op")
    if not isinstance(op, str) or op not in COMMANDS:
        return "E01", "op", "an op that changes a domain or an array"
    return explained_object(op, members)


def explained_object(op, members):
    """What is wrong with an object of an op, apart from what is within it."""
    forms = forms_of(op)
    form = next((form for form in forms if {"op", *form} == set(members)), None)
    if form is None:
        return misfit(members, forms)
    faults, found = [], {}
    for key, read_value in form.items():
        try:
            found[key] = read_value(members[key])
        except Refused as why:
            faults.append((why.code, key, RULES[read_value][why.code]))
    if op == "put" and isinstance(found.get("vs"), list) and found.get("on", [""])[0] == "rectangle":
        if len(found["vs"]) != size_of(found["on"][1]):
            faults.append(("E01", "vs", "as many numbers as the rectangle has indices"))
    return min(faults, key=lambda fault: fault[0], default=None)


def read(line):
    """The request of a line without its end."""
    if len(line) > LONGEST_LINE:
        raise Refused("E91")
    return request_of(json_of(line))
