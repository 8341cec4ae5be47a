"""Whether the workbook behind the page is there. Where it went away it is tried again, and what was not answered is told."""

import time
from typing import Any, Dict, List, Optional

from . import hearing
from .away import changes_of
from .book import Workbook
from .errors import SessionEnded, WorkbookError
from .hearing import News
from .redis import RedisRefused
from .session import numbered
from .tables import harmless

SOON, LATER = 0.5, 10.0
"""So many seconds lie between two tries, at first and at last."""


class NotSent(SessionEnded):
    """The workbook wasn't there before anything was sent."""


class Reach:
    """The way to a workbook, for whoever has the view's lock."""

    def __init__(self, book: Workbook):
        self._book = book
        self._away: Optional[Exception] = None  # why it isn't there
        self._unanswered: List[str] = []  # what was sent before it went away, and not answered
        self._tried, self._wait = float("-inf"), SOON  # when it was last tried again, and how long the next try waits

    def check(self) -> Optional[News]:
        """Nothing where the workbook is there, and what was done meanwhile where it is there again. NotSent where it isn't."""
        channel = self._book.exchange.channel
        if self._away is None and channel.is_gone():
            self.went(SessionEnded(channel.why()))
            if channel.was_idle():  # the desk is there, and gave the seat to others: another one is taken at once
                self._tried = float("-inf")
        return None if self._away is None else self._tried_again(self._away)

    def went(self, end: Exception) -> None:
        """It went away."""
        self._away = end
        self._unanswered = changes_of(self._book.exchange.on_their_way())
        self._tried, self._wait = time.monotonic(), SOON

    def _tried_again(self, why: Exception) -> News:
        """Takes the workbook up where it is there again. It isn't tried too often."""
        if not self.may_come_back() or time.monotonic() < self._tried + self._wait:
            raise NotSent(str(why))
        self._wait = min(2 * self._wait, LATER)
        try:
            self._book.again()
            news = hearing.hear_again(self._book)
        except (WorkbookError, RedisRefused, OSError) as still:
            self._away, self._tried = still, time.monotonic()
            raise NotSent(str(still)) from still
        self._away = None
        return news

    def may_come_back(self) -> bool:
        """Whether a workbook that went away may be there again: one that others share, or that a file keeps."""
        return not self._book.alone or self._book.journal is not None

    def told(self, end: SessionEnded) -> Dict[str, Any]:
        """What is told while it isn't there: why, whether it is tried again, what was sent and not answered, and whether what is
        asked for now was sent."""
        return {
            "say": harmless(str(end)),
            "tries": self.may_come_back(),
            "unanswered": [harmless(line) for line in self._unanswered],
            "sent": bool(self._unanswered) and not isinstance(end, NotSent),
        }


def in_words(news: News, book: Workbook) -> str:
    """What is told of a workbook that is there again."""
    has = f"{book.journal or book.where} is there again, with {news.edits:,} edit{'s' * (news.edits != 1)}"
    if news.other:
        return f"{has}. It isn't the workbook that was shown before: numbers of edits are now those of the new one."
    told = [
        f"{how}: {numbered(these)}"
        for how, these in (("new meanwhile", news.came), ("taken back", news.undone), ("put in force again", news.redone)) if these
    ]
    return f"{has}; {'; '.join(told) or 'nothing was done meanwhile'}."
