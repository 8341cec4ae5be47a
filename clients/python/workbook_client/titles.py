"""Titles of rows and columns, which a workbook has as an array over texts: `B["Ada"] = 3` calls row 3 Ada.

An array `Hours` has the titles of `HoursRow` and `HoursColumn`, where these are there, unless a session tells others.
"""

from typing import Dict, List, Mapping, Optional, Tuple

from .snapshot import AssocDomain, RectDomain, Snapshot
from .tables import Looks

WAYS = ("rows", "columns")
"""The ways of a table, in the order of an index."""
ENDINGS = {"rows": "Row", "columns": "Column"}
"""How the array of titles is called, behind the name of the array that has them, where nothing else is told."""
Labels = Dict[Tuple[str, str], Optional[str]]
"""Of an array's "rows" or "columns", the array whose texts are their titles; None where they are to have none."""


def titles(shot: Snapshot, source: Optional[str]) -> Dict[int, str]:
    """What each number is called; nothing where there is no such array now. Of two texts for one number the first counts."""
    array = shot.arrays.get(source or "")
    if array is None or not _is_of_texts(shot, array.over):
        return {}
    found: Dict[int, str] = {}
    for text, number in shot.array(array.name).items():
        found.setdefault(number, str(text))
    return found


def checked(shot: Snapshot, name: str, way: str, source: str) -> Snapshot:
    """The workbook, in which the array has such a way, and the other array has texts. ValueError tells what isn't so."""
    array = shot.arrays.get(name)
    domain = shot.domains[array.over] if array else None
    if not isinstance(domain, RectDomain) or len(domain.ranges) > 2:
        raise ValueError(f"{name} has no rows and columns: an array over ranges of rank 1 or 2 has")
    if way == "columns" and len(domain.ranges) == 1:
        raise ValueError(f"{name} has one range: its elements are labelled by `label {name} rows {source}`")
    other = shot.arrays.get(source)
    if other is None or not _is_of_texts(shot, other.over):
        raise ValueError(f'titles come from an array over texts: T = text, T |= {{"Ada", "Ben"}}, {source} over T, {source}["Ada"] = 1')
    return shot


def _is_of_texts(shot: Snapshot, domain: str) -> bool:
    found = shot.domains[domain]
    return isinstance(found, AssocDomain) and found.of == "text"


def looks(labels: Mapping[Tuple[str, str], Optional[str]], shot: Snapshot, name: str, decimals: int = 0, page: int = 0) -> Looks:
    """How an array is shown: with the titles that it was given, or those of an array that is called so, as they are now."""
    down, across = (titles(shot, source) for source in sources(labels, shot, name))
    return Looks(down, across, decimals, page)


def sources(labels: Mapping[Tuple[str, str], Optional[str]], shot: Snapshot, name: str) -> List[Optional[str]]:
    """What the arrays are called from which an array's rows and columns would have their titles."""
    rank = _rank(shot, name)
    return [labels.get((name, way), name + ENDINGS[way]) if at < rank <= 2 else None for at, way in enumerate(WAYS)]


def last_with_titles(labels: Mapping[Tuple[str, str], Optional[str]], shot: Snapshot) -> List[str]:
    """The names of all arrays: first those that are no titles of another, then those that are."""
    used = {source for name in shot.arrays for source in sources(labels, shot, name)}
    return sorted(shot.arrays, key=lambda name: (name in used and _is_of_texts(shot, shot.arrays[name].over), name))


def _rank(shot: Snapshot, name: str) -> int:
    """How many ways an array over a rectangle has; 0 for any other."""
    array = shot.arrays.get(name)
    domain = shot.domains[array.over] if array else None
    return len(domain.ranges) if isinstance(domain, RectDomain) else 0


def digits_of(by: int) -> int:
    """How many digits stand behind a point where numbers are shown / 1, 10, 100 and so on; ValueError for another."""
    digits = len(str(by)) - 1
    if isinstance(by, bool) or not isinstance(by, int) or not 0 <= digits <= 18 or by != 10**digits:
        raise ValueError(f"{by!r:.40} isn't 1, 10, 100, 1000 or so: that many digits stand behind a point")
    return digits
