"""Which elements of a large array are shown at once: a part of its rectangle, in which rows stay whole as far as they fit."""

import itertools
import math
from typing import List, NamedTuple, Sequence, Tuple

from .literals import Index
from .snapshot import AnyDomain, RectDomain


class Cut(NamedTuple):
    """A part of an array."""

    number: int
    """Which part it is, from 0 on."""
    of: int
    """How many parts there are."""
    begins: Tuple[int, ...]
    """How many rows, columns and so on are before it; in a list how many elements."""
    indices: List[Index]
    """What it has, in the domain's order."""


def cut(domain: AnyDomain, number: int, most: int) -> Cut:
    """A part of at most so many elements; the last one where there are no more."""
    if not isinstance(domain, RectDomain):
        indices = domain.indices()
        of = max(-(-len(indices) // most), 1)
        begin = min(number, of - 1) * most
        return Cut(begin // most, of, (begin,), indices[begin : begin + most])
    sizes = _sizes([len(each) for each in domain.ranges], most)
    counts = [max(-(-len(each) // size), 1) for each, size in zip(domain.ranges, sizes)]
    of = math.prod(counts)
    here = min(number, of - 1)
    begins = tuple(place * size for place, size in zip(_places(here, counts), sizes))
    parts = [each[begin : begin + size] for each, begin, size in zip(domain.ranges, begins, sizes)]
    return Cut(here, of, begins, list(parts[0]) if len(parts) == 1 else list(itertools.product(*parts)))


def _sizes(lengths: Sequence[int], most: int) -> List[int]:
    """How much of each range a part has: of the last ones all, as far as that fits."""
    sizes: List[int] = []
    for length in reversed(lengths):
        sizes.insert(0, max(min(length, most // math.prod(sizes)), 1))
    return sizes


def _places(number: int, counts: Sequence[int]) -> List[int]:
    """Where a part stands among the parts of each range; the last range runs fastest."""
    places: List[int] = []
    for count in reversed(counts):
        number, place = divmod(number, count)
        places.insert(0, place)
    return places
