"""One exception class for each refusal of the program. A refusal changes nothing."""

from typing import Any, Dict, Optional, Type

from . import requests
from .errors import WorkbookError


_CLOSER = {
    ("E05", "irv"): "only an array over a sparse domain has an implicit value.",
    ("E05", "fill"): "ranges of the array's rank are wanted, and an array over a rectangular domain.",
    ("E05", "put"): "ranges of the array's rank are wanted, and an array over a rectangular domain.",
    ("E05", "all"): "both must be arrays over the same domain.",
    ("E05", "get"): "that is no array, or its indices have another rank or type.",
    ("E05", "set"): "that is no array, or its indices have another rank or type.",
    ("E05", "copy"): "these are no arrays, or their indices have another rank or type.",
    ("E05", "sparse"): "the parent of a sparse domain is rectangular.",
    ("E05", "add"): "only sparse and associative domains take single indices, of their own rank or type.",
    ("E05", "remove"): "only sparse and associative domains lose single indices, of their own rank or type.",
    ("E05", "remap"): "only a rectangular domain has a mapping; a sparse one lies where its parent does.",
    ("E05", "reduce"): "only an array is reduced.",
    ("E05", "reshape"): (
        "a domain of this kind doesn't take that: ranges, slices and an offset for each dimension "
        "are for rectangular domains, {..} of indices for the others, set operations for associative ones."
    ),
    ("E06", "fill"): "the rectangle reaches beyond the array's domain.",
    ("E06", "put"): "the rectangle reaches beyond the array's domain.",
    ("E01", "put"): "as many numbers are wanted as the rectangle has indices.",
    ("E06", "piece"): "there is no such locale; they are counted from 0.",
    ("E08", "reshape"): "an index of a sparse domain in it would be left outside; take that out first.",
    ("E11", "undo"): "there is nothing to take back, or no edit has that number.",
}
"""Closer words than those of the code alone, by the op that was refused."""


class Refusal(WorkbookError):
    """The program said no. `code` is as "E06", `name` as "out-of-domain"."""

    code = "E??"
    name = "refused"
    advice = "The program refused it."

    def __init__(self, request: Dict[str, Any], reply: Optional[Dict[str, Any]] = None, hint: str = ""):
        self.request = request
        """What was refused: of a transaction the edit in it for which it was, where that is told."""
        self.reply = reply or {}
        self.hint = hint
        self.transaction: Optional[Dict[str, Any]] = None
        """The transaction in which the refused edit stands, as the request that was sent; nothing of it was made."""
        self.at: Optional[int] = None
        """The place of that edit in the transaction, from 0."""
        at, edits = self.reply.get("at"), request.get("edits", [])
        if type(at) is int and 0 <= at < len(edits):
            self.at, self.transaction, self.request = at, request, edits[at]
        super().__init__(self.sentence())

    def sentence(self) -> str:
        """What was refused and why, and what to do next."""
        advice = _CLOSER.get((self.code, self.request.get("op", "")), self.advice)
        words = f"{self.placed()}{requests.in_words(self.request)}: {advice} ({self.code}, {self.name})"
        if self.is_one_of_several():
            words += " Nothing of the transaction was made."
        return f"{words} {self.hint}" if self.hint else words

    def is_one_of_several(self) -> bool:
        """Whether the refused edit stands with others in a transaction."""
        return self.transaction is not None and len(self.transaction["edits"]) > 1

    def placed(self) -> str:
        """`edit 2 of 3, ` before what is told of an edit in a transaction."""
        if self.at is None or self.transaction is None or not self.is_one_of_several():
            return ""
        return f"edit {self.at + 1:,} of {len(self.transaction['edits']):,}, "


class BadRequest(Refusal):
    code, name = "E01", "bad-request"
    advice = "the program doesn't read this request: its op, a field, or what stands in a field is none."


class BadLiteral(Refusal):
    code, name = "E02", "bad-literal"
    advice = "that spells no domain or mapping; a domain is written {1..4} or {1..3, 2..8 by 3}."


class NameTaken(Refusal):
    code, name = "E03", "name-taken"
    advice = "the name is taken; take another, or drop what has it."


class NoSuchName(Refusal):
    code, name = "E04", "no-such-name"
    advice = "nothing has that name now."


class WrongKind(Refusal):
    code, name = "E05", "wrong-kind"
    advice = (
        "these don't go together: an array where a domain is wanted or the reverse, "
        "or an index of another rank or type."
    )


class OutOfDomain(Refusal):
    code, name = "E06", "out-of-domain"
    advice = "the index or locale isn't there; look at the domain, or let it grow first."


class OutOfParent(Refusal):
    code, name = "E07", "out-of-parent"
    advice = "a sparse domain takes indices of its parent alone; let the parent grow first."


class InUse(Refusal):
    code, name = "E08", "in-use"
    advice = "an array or a sparse domain still stands on it; drop that, or take its indices out, first."


class TooLarge(Refusal):
    code, name = "E09", "too-large"
    advice = "a bound lies beyond 10^18, or there are more than 65,536 indices."


class Overflow(Refusal):
    code, name = "E10", "overflow"
    advice = "a result doesn't fit in 64 bits."


class NoSuchEdit(Refusal):
    code, name = "E11", "no-such-edit"
    advice = "there is no such edit."


class NotInForce(Refusal):
    code, name = "E12", "not-in-force"
    advice = "it is taken back already; redo puts it in force again."


class InForce(Refusal):
    code, name = "E13", "in-force"
    advice = "it is in force already."


class Blocked(Refusal):
    """`by` is the first later edit in force that stands in the way."""

    code, name = "E14", "blocked"
    advice = "a later edit in force read or touched the same cells."

    @property
    def by(self) -> int:
        """The number of the edit that stands in the way."""
        return int(self.reply["by"])

    def sentence(self) -> str:
        words = f"{requests.in_words(self.request)}: blocked by edit {self.reply.get('by')}"
        return f"{words}{self.hint} ({self.code}, {self.name})"


class BadMapping(Refusal):
    code, name = "E15", "bad-mapping"
    advice = "no such mapping for this domain: look at the rank, the box, the block sizes and the grid."


class RefusedInPlace(Refusal):
    """A redo of an edit that would be refused now. `because` is the class of that refusal."""

    code, name = "E16", "refused-in-place"

    @property
    def because(self) -> "Type[Refusal]":
        """The class of the refusal that the redo would meet."""
        return BY_CODE.get(self.reply.get("code", ""), Refusal)

    def sentence(self) -> str:
        why = self.because
        return (
            f"{requests.in_words(self.request)}: in its old place the edit would be refused now, "
            f"since {why.advice} ({self.code}, {self.name}: {why.code}, {why.name}){self.hint}"
        )


class NotEmpty(Refusal):
    code, name = "E17", "not-empty"
    advice = "only an empty workbook can be loaded into; start a session of its own for the file."


class Empty(Refusal):
    code, name = "E18", "empty"
    advice = "an array with no elements has no least and no greatest."


class NoMemory(Refusal):
    code, name = "E90", "no-memory"
    advice = "the program found no memory; nothing was changed."


class LineTooLong(Refusal):
    code, name = "E91", "line-too-long"
    advice = "a request has 65,536 bytes at most; send it in parts."


class StrangePass(Refusal):
    code, name = "E92", "strange-pass"
    advice = "the desk doesn't know this seat; connect again."


class NoFreeSeat(Refusal):
    code, name = "E93", "no-seat"
    advice = "no seat of the desk is free; connect again once somebody has left."


BY_CODE: Dict[str, Type[Refusal]] = {
    kind.code: kind
    for kind in (
        BadRequest, BadLiteral, NameTaken, NoSuchName, WrongKind, OutOfDomain, OutOfParent, InUse,
        TooLarge, Overflow, NoSuchEdit, NotInForce, InForce, Blocked, BadMapping, RefusedInPlace,
        NotEmpty, Empty, NoMemory, LineTooLong, StrangePass, NoFreeSeat,
    )
}


def refusal(request: Dict[str, Any], reply: Dict[str, Any], hint: str = "") -> Refusal:
    """The exception of a refusing reply."""
    kind = BY_CODE.get(reply["error"])
    if kind is None:
        kind = type("Refusal", (Refusal,), {"code": reply["error"], "name": reply.get("name", "")})
    return kind(request, reply, hint)
