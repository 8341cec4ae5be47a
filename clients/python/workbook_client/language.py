"""The short language of the session: a line becomes a request, or a command of the session.

    D = {1..4} dmapped blockDist({1..4}, [2])      A over D
    A[4] = 9                                       A[1] = B[2] + 3
    A += B                                         undo 3
"""

import re
from typing import Any, Callable, List, NamedTuple, NoReturn, Optional, Tuple, TypeVar, Union

from . import requests
from .requests import Request

COMMANDS = (
    "abandon", "begin", "cascade", "colours", "commit", "compact", "dependents", "drop", "exit", "export", "hello", "help", "history",
    "import", "keep", "label", "load", "max", "min", "more", "names", "note", "piece", "quit", "redo", "save", "show", "size", "text", "undo", "where",
    "who",
)
WORDS = COMMANDS + ("by", "align", "dmapped", "over", "sparse", "reduce", "int", "text", "irv", "rows", "columns")


class LanguageError(Exception):
    """A line that the language hasn't. `column` counts from 0."""

    def __init__(self, message: str, column: int):
        super().__init__(message)
        self.column = column


class Command(NamedTuple):
    """What the session does itself: `show A`, `history`, `save FILE`."""

    word: str
    args: Tuple[Any, ...] = ()


Meant = TypeVar("Meant")


class Token(NamedTuple):
    kind: str  # name, number, text, sign, end
    text: str
    column: int


_TOKENS = re.compile(
    r"""(?P<space>[ \t]+|//.*)|(?P<name>[A-Za-z][A-Za-z0-9_]*)|(?P<number>[0-9]+)|(?P<text>"[^"]*")
      |(?P<sign>\.\.<|\.\.\#|\.\.|[-+*|&^]=|[-+*|&^=\[\]{}(),./])""",
    re.VERBOSE,
)
_SET_HOW = {"|=": "or", "&=": "and", "-=": "minus", "^=": "xor", "+=": "or"}
_MAPPINGS = ("blockDist", "cyclicDist", "blockCycDist", "none")


def tokens(line: str) -> List[Token]:
    found, at = [], 0
    while at < len(line):
        match = _TOKENS.match(line, at)
        if match is None:
            what = "a text that isn't closed" if line[at] == '"' else f"{line[at]!r} means nothing here"
            raise LanguageError(what, at)
        if match.lastgroup != "space":
            found.append(Token(match.lastgroup or "", match.group(), at))
        at = match.end()
    return found + [Token("end", "", len(line.rstrip()))]


def parse(line: str, kind_of: Callable[[str], Optional[str]]) -> Union[Request, Command, None]:
    """The meaning of a line, None for an empty one. `kind_of` says "array", "domain" or None."""
    file = _FILE.match(line)
    if file:  # the rest of the line is a path, whatever its characters
        if not file["path"] and file["word"] != "compact":
            raise LanguageError(f"expected a file's name after {file['word']}", file.end())
        return Command(file["word"], (file["path"],))
    hello = _HELLO.match(line)
    if hello:
        if not hello["name"]:
            raise LanguageError("expected your name, as in hello Ben", hello.end())
        return Command("hello", (hello["name"],))
    sheet = _SHEET.match(line)
    if sheet:
        if not sheet["path"]:
            raise LanguageError(f"expected an array and a file's name, as in {sheet['word']} A plan.csv", sheet.end())
        return Command(sheet["word"], (sheet["name"], sheet["path"]))
    return _Parser(line, kind_of).line_()


_NO_STATEMENT = r"\b(?!\.|\s*\[|\s*[-+*|&^]?=|\s+(?:over|sparse|dmapped)\b)\s*"  # nothing is called save, here
_FILE = re.compile(rf"\s*(?P<word>save|load|keep|compact){_NO_STATEMENT}(?P<path>.*?)\s*$")
_HELLO = re.compile(rf"\s*hello{_NO_STATEMENT}(?P<name>.*?)\s*$")
_SHEET = re.compile(rf"\s*(?P<word>import|export){_NO_STATEMENT}(?:(?P<name>[A-Za-z]\w*)\s+(?P<path>.+?))?(?(name)\s*$|.*$)", re.ASCII)


class _Parser:
    def __init__(self, line: str, kind_of: Callable[[str], Optional[str]]):
        self.line, self.kind_of = line, kind_of
        self.tokens, self.at = tokens(line), 0

    # --- small steps

    @property
    def now(self) -> Token:
        return self.tokens[self.at]

    @property
    def after(self) -> Token:
        return self.tokens[min(self.at + 1, len(self.tokens) - 1)]

    def wrong(self, message: str, token: Optional[Token] = None) -> NoReturn:
        raise LanguageError(message, (token or self.now).column)

    def take(self) -> Token:
        token = self.now
        self.at += token.kind != "end"
        return token

    def takes(self, *texts: str) -> Optional[Token]:
        """The next token if it is one of these signs or words."""
        return self.take() if self.now.kind in ("sign", "name") and self.now.text in texts else None

    def wants(self, text: str, where: str) -> Token:
        return self.takes(text) or self.wrong(f"expected {text!r} {where}")

    def name(self, what: str = "a name") -> str:
        if self.now.kind != "name":
            self.wrong(f"expected {what}")
        if len(self.now.text) > 32:
            self.wrong("a name has 32 letters at most")
        return self.take().text

    def end(self, done: Meant) -> Meant:
        if self.now.kind != "end":
            self.wrong(f"nothing more was expected after `{self.line[: self.now.column].strip()}`")
        return done

    def number(self, what: str = "a whole number") -> int:
        sign = self.takes("-")
        if self.now.kind != "number":
            self.wrong(f"expected {what}")
        return self.whole(self.take(), sign)

    def count(self, what: str) -> int:
        if self.now.kind != "number":
            self.wrong(f"expected {what}")
        return self.whole(self.take(), None)

    def whole(self, digits: Token, sign: Optional[Token]) -> int:
        """The number of these digits; int() takes no text of thousands of them."""
        if self.now.text == "." and self.after.kind == "number":
            self.wrong(f"whole numbers only: {digits.text}.{self.after.text} isn't one", sign or digits)
        text = digits.text.lstrip("0") or "0"
        value = int(text) if len(text) < 20 else 2**63
        if value - bool(sign) >= 2**63:
            self.wrong("a number has 64 bits at most", sign or digits)
        return -value if sign else value

    # --- lines

    def line_(self) -> Union[Request, Command, None]:
        if self.now.kind == "end":
            return None
        if self.now.text in ("+", "min", "max") and self.after.text == "reduce":
            how = self.take().text
            self.take()
            return self.end(requests.reduce(self.name("an array"), how))
        if self.now.kind == "name" and self.now.text in COMMANDS and self.after.kind != "sign" and not self.declares():
            return self.command()
        if self.now.kind != "name":
            self.wrong("a line starts with a name or a command; `help` lists them")
        return self.statement()

    def declares(self) -> bool:
        """Whether the line is `save over D` or so, of an array or a domain with a command's name."""
        return self.after.text in ("over", "sparse", "dmapped") and self.tokens[self.at + 2].kind == "name"

    def command(self) -> Union[Request, Command]:
        word = self.take().text
        if word == "undo":
            k = None if self.now.kind == "end" else self.count("an edit's number")
            return self.end(requests.undo(k))
        if word == "redo":
            return self.end(requests.redo(self.count("the number of the edit; `history` lists them")))
        if word in ("cascade", "dependents"):
            k = self.count("the number of the edit; `history` lists them")
            self.end(None)
            return requests.cascade(k) if word == "cascade" else Command(word, (k,))
        if word == "history":
            return self.end(Command(word, () if self.now.kind == "end" else (self.count("the number of an edit, to begin with"),)))
        if word == "commit":
            return self.end(Command(word, (self.note(),)))
        if word == "abandon":
            return self.end(Command(word, (None if self.now.kind == "end" else self.count("the place of a gathered edit; `begin` lists them"),)))
        if word == "note":
            return self.end(Command(word, (self.count("the number of the edit; `history` lists them"),)))
        if word == "show":
            return self.show()
        if word == "label":
            return self.label()
        if word == "colours":
            how = self.takes("on", "off") or self.wrong("expected `on` or `off`")
            return self.end(Command(word, (how.text == "on",)))
        if word == "drop":
            token = self.now
            name = self.name()
            kind = self.kind_of(name) or self.wrong(f"nothing is called {name}", token)
            return self.end(requests.drop_array(name) if kind == "array" else requests.drop_domain(name))
        if word == "where":
            domain = self.name("a domain")
            return self.end(requests.where(domain, self.index()))
        if word == "size":
            return self.end(requests.size(self.name("a domain")))
        if word == "piece":
            array = self.name("an array")
            return self.end(requests.piece(array, self.count("the number of a locale, from 0")))
        if word in ("min", "max"):
            self.wrong(f"expected `reduce`, as in `{word} reduce A`")
        if word == "help":
            return Command(word, (self.take().text,))
        return self.end(Command("quit" if word == "exit" else word))

    def show(self) -> Command:
        """`show A`, `show A[1..20]`, and with `/ 100` two of its digits behind a point; with `/ 1` none."""
        name, part = self.there(), None
        if self.takes("["):
            part = self.literal()[1] if self.now.text == "{" else "{" + self.ranges() + "}"
            self.wants("]", "after the ranges")
        if not self.takes("/"):
            return self.end(Command("show", (name, part)))
        by = self.now
        if by.kind != "number" or not re.fullmatch("10{0,18}", by.text):
            self.wrong("expected 10, 100, 1000 or so: that many digits stand behind a point")
        self.take()
        return self.end(Command("show", (name, part, len(by.text) - 1)))

    def note(self) -> Optional[str]:
        """`"March forecast"`, or nothing."""
        if self.now.kind == "end":
            return None
        if self.now.kind != "text":
            self.wrong('expected a note in ", as in commit "March forecast", or the line\'s end')
        return self.take().text[1:-1]

    def label(self) -> Command:
        """`label A rows B`, `label A columns B`; without B the indices again."""
        name = self.there()
        way = self.takes("rows", "columns") or self.wrong("expected `rows` or `columns`, as in label A rows B")
        return self.end(Command("label", (name, way.text, None if self.now.kind == "end" else self.there())))

    def there(self) -> str:
        """The name of something that is there."""
        token = self.now
        name = self.name("an array")
        if self.kind_of(name) is None:
            self.wrong(f"nothing is called {name}", token)
        return name

    def statement(self) -> Union[Request, Command]:
        token = self.now
        name = self.name()
        if self.now.kind == "end":
            if self.kind_of(name) is None:
                self.wrong(f"nothing is called {name}, and it is no command; `help` lists those", token)
            return Command("show", (name,))
        if self.takes("over"):
            return self.end(requests.array(name, self.name("the array's domain")))
        if self.takes("sparse"):
            return self.end(requests.sparse(name, self.name("the parent domain")))
        if self.takes("dmapped"):
            return self.end(requests.remap(name, self.mapping()))
        if self.takes("["):
            return self.element(name)
        if self.takes("."):
            return self.method(name)
        if self.takes("="):
            return self.assignment(name, token)
        how = self.takes("+=", "-=", "*=", "|=", "&=", "^=")
        if how:
            return self.end(self.in_place(name, token, how))
        self.wrong(f"expected =, [, over, sparse, dmapped or the line's end after {name}")

    def assignment(self, name: str, token: Token) -> Request:
        if self.now.text == "{":
            start = self.now
            kind, literal = self.literal()
            mapping = self.mapping() if self.takes("dmapped") else None
            there = self.kind_of(name)
            if there is None and kind == "set":
                self.wrong(
                    f"a new domain of single indices is first made: {name} = int, {name} = text, "
                    f"or {name} sparse D", start,
                )
            if there is None:
                return self.end(requests.domain(name, literal, mapping))
            if mapping is not None:
                self.wrong(
                    f"{name} is there already; its mapping changes by a line of its own: "
                    f"{name} dmapped {mapping}", token,
                )
            return self.end(requests.reshape(name, "to", literal))
        if self.now.text in ("int", "text") and self.after.kind == "end":
            return requests.assoc(name, self.take().text)
        if self.now.kind == "number" or self.now.text == "-":
            return self.end(requests.fill_all(name, self.number()))
        source = self.now
        other = self.name("a domain, a number, an array, int or text")
        if self.takes("["):
            if other != name:
                self.wrong(f"a slice is of the domain itself: {name} = {name}[{{3..9}}]", source)
            by = self.name() if self.now.kind == "name" else self.literal()[1]
            self.wants("]", "after the slice")
            return self.end(requests.reshape(name, "slice", by))
        sign = self.takes("+", "-", "*", "|", "&", "^")
        if sign:
            if other != name:
                self.wrong(
                    f"the left side stands first on the right too: {name} = {name} {sign.text} {other}",
                    source,
                )
            return self.end(self.in_place(name, token, Token("sign", sign.text + "=", sign.column)))
        self.end(None)
        kind = self.kind_of(other) or self.wrong(f"nothing is called {other}", source)
        return requests.all(name, "=", other) if kind == "array" else requests.reshape(name, "to", other)

    def in_place(self, name: str, token: Token, how: Token) -> Request:
        if self.now.text == "{":
            if how.text not in _SET_HOW:
                self.wrong(f"a domain has no {how.text}", how)
            return requests.reshape(name, _SET_HOW[how.text], self.literal()[1])
        if self.now.kind == "name":
            kind = self.kind_of(name) or self.wrong(f"nothing is called {name}", token)
            other = self.name()
            if kind == "array" and how.text in ("+=", "-=", "*="):
                return requests.all(name, how.text[0], other)
            if kind == "domain" and how.text in _SET_HOW:
                return requests.reshape(name, _SET_HOW[how.text], other)
            self.wrong(f"{name} is {'an array' if kind == 'array' else 'a domain'} and has no {how.text}", how)
        if how.text not in ("+=", "-="):
            self.wrong("expected a name or {..}")
        if self.now.kind == "number" and self.kind_of(name) == "array":
            self.wrong(f"an array takes += of an array over the same domain; one element is {name}[1] += 3")
        change = requests.add if how.text == "+=" else requests.remove
        return change(name, self.index())

    def element(self, name: str) -> Union[Request, Command]:
        if self.is_range():
            on = self.literal()[1] if self.now.text == "{" else "{" + self.ranges() + "}"  # 1..2, 4
            self.wants("]", "after the ranges")
            if self.now.kind == "end":
                return Command("show", (name, on))
            self.wants("=", "after the ranges")
            if self.takes("["):
                return self.end(requests.put(name, on, self.numbers()))
            return self.end(requests.fill(name, on, self.number('a whole number, or as many as there are indices, as [5, 6]')))
        index = self.indices("]")
        self.wants("]", "after the index")
        if self.now.kind == "end":
            return requests.get(name, index)
        by = self.takes("+=", "-=")
        if by:
            plus = self.number()
            return self.end(requests.copy(name, index, name, index, plus if by.text == "+=" else -plus))
        self.wants("=", "after the element")
        if self.now.kind != "name":
            return self.end(requests.set(name, index, self.number("a whole number, or an element as B[2]")))
        other = self.name()
        self.wants("[", f"after {other}: an element takes one element, as {other}[2] + 3")
        source = self.indices("]")
        self.wants("]", "after the index")
        sign = self.takes("+", "-")
        plus = 0 if sign is None else self.number() * (-1 if sign.text == "-" else 1)
        return self.end(requests.copy(name, index, other, source, plus))

    def method(self, name: str) -> Request:
        token = self.now
        word = self.name("irv, size, where, translate, expand, add or remove")
        if word == "irv":
            self.wants("=", "after irv")
            return self.end(requests.irv(name, self.number()))
        if word == "size" and not self.takes("("):
            return self.end(requests.size(name))
        if word not in ("where", "translate", "expand", "add", "remove"):
            self.wrong(f"there is irv, size, where, translate, expand, add and remove, but no {word}", token)
        self.wants("(", f"after {word}")
        given = self.indices(")")
        self.wants(")", f"at the end of {word}")
        if word in ("translate", "expand"):
            if isinstance(given, str):
                self.wrong("expected an offset for each dimension", token)
            return self.end(requests.reshape(name, word, given if isinstance(given, tuple) else (given,)))
        make = {"where": requests.where, "add": requests.add, "remove": requests.remove}[word]
        return self.end(make(name, given))

    # --- literals: the text itself goes to the program; here its grammar is looked at

    def numbers(self) -> List[int]:
        """5, 6]: the numbers of a list whose bracket is open."""
        if self.takes("]"):
            return []
        found = [self.number("the first number of the list")]
        while self.takes(","):
            found.append(self.number("the next number of the list"))
        self.wants("]", "after the numbers")
        return found

    def index(self) -> Any:
        """3, (1, 2) or "x"."""
        if self.now.kind == "text":
            return self.take().text[1:-1]
        if not self.takes("("):
            return self.number('an index: a number, (1, 2), or a text in "')
        parts = [self.number("a number of the index")]
        while self.takes(","):
            parts.append(self.number("a number of the index"))
        self.wants(")", "after the index")
        if not 2 <= len(parts) <= 3:
            self.wrong("an index in ( ) has 2 or 3 numbers")
        return tuple(parts)

    def indices(self, close: str) -> Any:
        """An index in brackets of its own, where (1, 2) needs no further ones."""
        if self.now.kind == "text" or self.now.text == "(":
            return self.index()
        parts = [self.number(f'an index before {close!r}: a number, 1, 2, or a text in "')]
        while self.takes(","):
            parts.append(self.number("the next number of the index"))
        if len(parts) > 3:
            self.wrong("an index has 3 numbers at most")
        return parts[0] if len(parts) == 1 else tuple(parts)

    def is_range(self) -> bool:
        """Whether ranges stand before the closing bracket."""
        ahead = self.at
        while self.tokens[ahead].text not in ("]", "") and self.tokens[ahead].kind != "text":
            if self.tokens[ahead].text.startswith(".."):
                return True
            ahead += 1
        return False

    def ranges(self) -> str:
        """Ranges in brackets of their own, where 4 stands for 4..4."""
        parts = []
        while True:
            start = self.now
            if self.tokens[self.at + (start.text == "-") + 1].text.startswith(".."):
                self.range_()
                parts.append(self.line[start.column : self.now.column].strip())
            else:
                at = self.number("a range as 1..4, or a number")
                parts.append(f"{at}..{at}")
            if not self.takes(","):
                return ", ".join(parts)

    def range_(self) -> None:
        self.number("a range as 1..4")
        dots = self.takes("..", "..<", "..#") or self.wrong("expected .. in the range")
        if dots.text == "..#":
            self.count("how many, after ..#")
        else:
            self.number("the range's other end")
        if self.takes("by"):
            self.number("a stride after `by`")
            if self.takes("align"):
                self.number("an index after `align`")

    def literal(self) -> "tuple[str, str]":
        """("rect", text) for ranges, ("set", text) for indices."""
        start = self.wants("{", "for a domain")
        kind = None
        while self.now.text != "}" or kind:
            begins = self.now
            if begins.kind == "text" or begins.text == "(":
                this = "set"
                self.index()
            elif self.tokens[min(self.at + (begins.text == "-") + 1, len(self.tokens) - 1)].text.startswith(".."):
                this = "rect"
                self.range_()
            else:
                this = "set"
                self.number("a range as 1..4, or an index")
            if kind not in (None, this):
                self.wrong("a domain has ranges alone or indices alone; one index as a range is 4..4", begins)
            kind = this
            if not self.takes(","):
                break
        close = self.wants("}", "at the end of the domain")
        return kind or "set", self.line[start.column : close.column + 1]

    def mapping(self) -> str:
        start = self.now
        word = self.takes(*_MAPPINGS) or self.wrong(
            "expected a mapping: blockDist({1..4}, [2]), cyclicDist(1, [2]), blockCycDist(1, 2, [2]) or none"
        )
        if word.text == "none":
            return "none"
        self.wants("(", f"after {word.text}")
        if word.text == "blockDist":
            if self.literal()[0] != "rect":
                self.wrong("blockDist takes a box of ranges first, as {1..4}", start)
        else:
            self.index()
            if word.text == "blockCycDist":
                self.wants(",", "between the start and the block size")
                self.index()
        self.wants(",", "before the grid")
        self.wants("[", "for the grid, the locales of each dimension, as [2]")
        self.number("a number of locales")
        while self.takes(","):
            self.number("a number of locales")
        self.wants("]", "after the grid")
        close = self.wants(")", "at the end of the mapping")
        return self.line[start.column : close.column + 1]
