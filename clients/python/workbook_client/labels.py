"""New arrays from tables with headings, whose titles are arrays over texts."""

from typing import TYPE_CHECKING, Dict, List, NamedTuple, Optional, Sequence

from . import bulk, requests
from .edits import Edit
from .gathering import length_of
from .literals import label
from .requests import Request
from .sheets import Table
from .titles import ENDINGS, WAYS

if TYPE_CHECKING:
    from .book import Workbook


class Made(NamedTuple):
    """What became of a table: the edits, which array has the titles of which way, and the headings that were left out."""

    edits: List[Edit]
    titles: Dict[str, str]
    left: List[str]


def new_table(book: "Workbook", name: str, table: Table, note: Optional[str] = None) -> Made:
    """Makes an array over a rectangle from 1 on, with the elements of a table, and arrays of titles for its headings, as one edit; where no
    line holds it, as few as it takes, all or none. One row or one column becomes an array of rank 1, whose titles are those along it.
    Headings 1, 2, 3 and so on need no titles."""
    height, width = len(table.rows), len(table.rows[0])
    ranges = tuple(range(1, size + 1) for size in (height, width) if size > 1) or (range(1, 2),)
    along = [table.across] if height == 1 else [table.down] if width == 1 else [table.down, table.across]
    domain, titles, left = f"{name}Domain", {}, []
    changes = [requests.domain(domain, ranges), requests.array(name, domain)]
    changes += bulk.at_ranges(name, ranges, [value for row in table.rows for value in row])
    for way, headings in zip(WAYS, along):
        if not headings or headings == [str(n) for n in range(1, len(headings) + 1)]:
            continue
        if _are_titles(headings):
            titles[way] = name + ENDINGS[way]
            changes += _titled(titles[way], headings)
        else:
            left += headings
    edits = book.as_one(changes, note, parts=True)
    for way in WAYS:
        book.labels.pop((name, way), None)
    return Made(edits, titles, left)


def _are_titles(headings: Sequence[str]) -> bool:
    """Whether these texts can be indices, each of another place."""
    try:
        return len({label(text) for text in headings}) == len(headings)
    except ValueError:
        return False


def _titled(name: str, headings: Sequence[str]) -> List[Request]:
    """The changes for a new array over texts, which has each one's place from 1 on."""
    domain = f"{name}Titles"
    whole = requests.reshape(domain, "to", set(headings))
    texts = [whole] if length_of(whole) <= bulk.LONGEST else [requests.add(domain, text) for text in headings]
    places = [requests.set(name, text, place) for place, text in enumerate(headings, start=1)]
    return [requests.assoc(domain, "text"), *texts, requests.array(name, domain), *places]
