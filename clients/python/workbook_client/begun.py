"""A transaction that was begun at a prompt: its edits are gathered until it is committed or abandoned."""

from typing import Callable, List, Optional

from .exchange import LONGEST
from .gathering import length_of
from .literals import LONGEST_NOTE
from .requests import COMMANDS, Request, in_words

ROOM = LONGEST - length_of({"op": "transaction", "edits": [], "note": "n" * LONGEST_NOTE})
"""So many bytes the edits may have in a line, whichever note they get."""
MAKES = {
    "domain": ("d", "domain"), "sparse": ("d", "domain"), "assoc": ("d", "domain"), "array": ("a", "array"),
    "drop_domain": ("d", None), "drop_array": ("a", None),
}
"""The ops that make an object or drop one: the field with its name, and what has the name then."""


class Begun:
    """The edits that were gathered so far."""

    def __init__(self) -> None:
        self.edits: List[Request] = []
        """Each edit as its request, in their order."""
        self._left = ROOM

    def take(self, request: Request) -> None:
        """Gathers a change. ValueError where it is none, or where no line would hold it with those before it."""
        if request["op"] not in COMMANDS:
            raise ValueError(f"{in_words(request)} is no part of a transaction: commit it first, or abandon it")
        length = length_of(request) + 1
        if length > self._left:
            raise ValueError(
                f"{in_words(request)} isn't gathered: a transaction is a line of {LONGEST:,} bytes at most, so commit what is there first"
            )
        self.edits.append(request)
        self._left -= length

    def leave_out(self, place: int) -> Request:
        """Drops the edit at a place, from 1; ValueError where none is there."""
        if not 1 <= place <= len(self.edits):
            raise ValueError(f"no edit is gathered at place {place:,}: there are {len(self.edits):,}")
        request = self.edits.pop(place - 1)
        self._left += length_of(request) + 1
        return request

    def kind(self, name: str, before: Callable[[str], Optional[str]]) -> Optional[str]:
        """What has a name once these edits are made, "domain", "array" or None; `before` says it of a name that they leave as it is."""
        for edit in reversed(self.edits):
            field, kind = MAKES.get(edit["op"], ("", None))
            if field and edit[field] == name:
                return kind
        return before(name)
