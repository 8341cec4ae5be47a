"""A workbook made again from its text, object by object: for a text too long for one line."""

from typing import TYPE_CHECKING, Any, List

from . import bulk, requests
from .edits import Edit
from .gathering import length_of
from .requests import Request
from .snapshot import AssocDomain, Elements, RectDomain, Snapshot

if TYPE_CHECKING:
    from .book import Workbook


def rebuild(book: "Workbook", wanted: Snapshot) -> List[Edit]:
    """Each domain, then each array, then its elements, in as few edits as it takes; all or none."""
    changes: List[Request] = []
    for domain in sorted(wanted.domains.values(), key=lambda d: not isinstance(d, RectDomain)):
        changes += _domain(domain)
    for array in wanted.arrays.values():
        changes += _elements(wanted, array)
    return book.as_one(changes, parts=True)


def _domain(domain: Any) -> List[Request]:
    if isinstance(domain, RectDomain):
        return [requests.domain(domain.name, domain.literal, domain.map)]
    kind = requests.assoc if isinstance(domain, AssocDomain) else requests.sparse
    new = kind(domain.name, domain.of)
    whole = requests.reshape(domain.name, "to", domain.literal)
    if length_of(whole) > bulk.LONGEST:
        return [new, *(requests.add(domain.name, i) for i in domain.indices())]
    return [new] if domain.literal == "{}" else [new, whole]


def _elements(wanted: Snapshot, array: Elements) -> List[Request]:
    changes = [requests.array(array.name, array.over)]
    domain = wanted.domains[array.over]
    if isinstance(domain, RectDomain):
        return changes + (list(bulk.at_ranges(array.name, domain.ranges, array.elements)) if any(array.elements) else [])
    if array.irv:
        changes.append(requests.irv(array.name, array.irv))
    values = array.elements
    usual = max(sorted(set(values)), key=values.count) if 0 < len(set(values)) < 8 else 0
    if usual:
        changes.append(requests.fill_all(array.name, usual))
    return changes + [requests.set(array.name, index, value) for index, value in wanted.array(array.name).items() if value != usual]
