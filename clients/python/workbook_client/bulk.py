"""Many elements of an array at once, from lists, an array of numpy's or a table of pandas'."""

import itertools
import math
from typing import Any, Collection, Iterator, List, Mapping, Optional, Sequence, Tuple

from . import requests
from .literals import Index, integer
from .requests import Request
from .snapshot import AnyDomain, RectDomain

LONGEST = 64_500
"""The numbers of one `put` have so many bytes at most, so that it is within a line of 65,536, also in a transaction with a note."""


def changes(array: str, domain: AnyDomain, values: Any) -> Iterator[Request]:
    """The changes that give an array these elements: one where all are the same number. Else a `put` over a rectangle, or more
    where one line would be too long, and over a sparse or an associative domain a set for each element.

    The values are looked at before the first of these.
    """
    indices = domain.indices()
    shape = [len(part) for part in domain.ranges] if isinstance(domain, RectDomain) else [len(indices)]
    return _whole(array, domain, indices, flat(values, shape))


def part(array: str, ranges: Tuple[range, ...], values: Any) -> Iterator[Request]:
    """The changes that give a part of an array these elements, nested as the ranges are: as `changes`."""
    return at_ranges(array, ranges, flat(values, [len(each) for each in ranges]))


def at_ranges(array: str, ranges: Tuple[range, ...], elements: List[int]) -> Iterator[Request]:
    """The changes that give a part of an array as many elements, in the order of the ranges: as `changes`."""
    if len(elements) != math.prod(len(each) for each in ranges):
        raise ValueError(f"{len(elements):,} elements, where the ranges have {math.prod(len(each) for each in ranges):,} indices")
    if len(elements) > 1 and len(set(elements)) == 1:
        return iter([requests.fill(array, ranges, elements[0])])
    return _puts(array, ranges, elements)


def at_indices(array: str, domain: AnyDomain, values: Mapping[Index, int]) -> Iterator[Request]:
    """The changes that give an array elements by their indices: as `changes` where all indices are there, a `put` where they are
    those of a rectangle, and else a set for each."""
    indices = domain.indices()
    if len(values) == len(indices) and all(index in values for index in indices):
        return _whole(array, domain, indices, [values[index] for index in indices])
    ranges = _rectangle(values) if isinstance(domain, RectDomain) else None
    if ranges is None:
        return (requests.set(array, index, value) for index, value in values.items())
    places = itertools.product(*ranges)
    return at_ranges(array, ranges, [values[place if len(ranges) > 1 else place[0]] for place in places])


def _rectangle(indices: Collection[Index]) -> Optional[Tuple[range, ...]]:
    """The ranges of which just these are the indices, if there are any."""
    places = [index if isinstance(index, tuple) else (index,) for index in indices]
    ranges: List[range] = []
    if len({len(place) for place in places}) != 1:
        return None
    for numbers in zip(*places):
        if not all(isinstance(number, int) for number in numbers):
            return None
        line = sorted(set(numbers))
        ranges.append(range(line[0], line[-1] + 1, line[1] - line[0] if len(line) > 1 else 1))
        if len(ranges[-1]) != len(line):
            return None
    return tuple(ranges) if math.prod(map(len, ranges)) == len(places) else None


def _whole(array: str, domain: AnyDomain, indices: Sequence[Index], elements: List[int]) -> Iterator[Request]:
    """The changes that give an array all its elements."""
    if len(elements) > 1 and len(set(elements)) == 1:
        return iter([requests.fill_all(array, elements[0])])
    if isinstance(domain, RectDomain):
        return _puts(array, domain.ranges, elements)
    return (requests.set(array, index, value) for index, value in zip(indices, elements))


def flat(values: Any, shape: Sequence[int]) -> List[int]:
    """The whole numbers of nested lists of this shape, row by row."""
    if hasattr(values, "to_numpy"):  # a table of pandas'
        values = values.to_numpy(dtype=object)
    if hasattr(values, "tolist"):  # an array of numpy's, of array's, or a memoryview
        values = values.tolist()
    if not isinstance(values, (list, tuple)) or len(values) != shape[0]:
        wanted = " by ".join(map(str, shape))
        raise ValueError(f"{wanted} elements are wanted here, not {values!r:.80}")
    if len(shape) == 1:
        return [integer(value, "an element") for value in values]
    return [value for part in values for value in flat(part, shape[1:])]


def _puts(array: str, ranges: Tuple[range, ...], elements: List[int]) -> Iterator[Request]:
    """One `put`, or one of each half along the first range that has two indices where the line would be too long."""
    if len(elements) < 2:
        for value in elements:
            yield requests.set(array, tuple(part[0] for part in ranges), value)
    elif sum(len(str(value)) + 1 for value in elements) <= LONGEST:
        yield requests.put(array, ranges, elements)
    else:
        at = next(at for at, part in enumerate(ranges) if len(part) > 1)
        half = len(ranges[at]) // 2
        cut = half * (len(elements) // len(ranges[at]))
        yield from _puts(array, (*ranges[:at], ranges[at][:half], *ranges[at + 1 :]), elements[:cut])
        yield from _puts(array, (*ranges[:at], ranges[at][half:], *ranges[at + 1 :]), elements[cut:])
