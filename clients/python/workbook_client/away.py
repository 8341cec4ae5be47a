"""A workbook that went away: what is told of it, and how a session goes on once it is there again."""

import time
from typing import List, Optional

from . import hearing
from .errors import SessionEnded
from .hearing import News
from .redis import RedisRefused
from .requests import Request, in_words, is_change
from .session import Session, numbered

SOON, LATER = 0.5, 10.0
"""So many seconds lie between two tries, at first and at last."""
TOLD = 5
"""So many edits are told of one by one."""


def is_gone(session: Session) -> bool:
    """Whether the workbook of a session is known to have gone, before anything is sent to it."""
    return session.book.exchange.channel.is_gone()


def where(session: Session) -> str:
    """Where the workbook lies; nothing where it is kept nowhere."""
    return session.book.where or session.book.journal or ""


def sat_again(session: Session) -> Optional[News]:
    """What was done meanwhile, where a session that gave its seat back, since it was idle, has another one now; nothing where it has
    none."""
    if not session.book.exchange.channel.was_idle():
        return None
    try:
        session.book.again()
        news = hearing.hear_again(session.book)
    except (SessionEnded, RedisRefused):
        return None
    if news.none:
        session.wrapped("(another seat was taken: the desk ends a connection that is idle)")
    else:
        tell_news(session, news)
    return news


def come_back(session: Session, end: Exception) -> News:
    """Tells that the workbook went away, and tries again until it is there: what was done meanwhile. Ctrl-C ends that, and so the
    session. One that was kept nowhere isn't there any more, which is raised."""
    if not where(session):
        raise end
    session.wrapped(str(end))
    tell_unanswered(session)
    session.wrapped("it is tried again, and the session goes on where it is there; Ctrl-C ends the session")
    try:
        news = _tried(session)
    except KeyboardInterrupt:
        session.say("")
        raise SessionEnded(f"left, while {where(session)} was away") from None
    tell_news(session, news)
    if session.gathered():
        session.wrapped(f"still gathered, and not made: {_edits(session.gathered())}")
    return news


def tell_unanswered(session: Session) -> None:
    """Tells of the changes that were sent and have no reply."""
    lost = changes_of(session.book.exchange.on_their_way())
    if lost:
        session.wrapped(f"sent and not answered, so perhaps done: {_listed(lost)}")


def changes_of(asked: List[Request]) -> List[str]:
    """Those of these requests that change something, in words."""
    return [in_words(request) for request in asked if is_change(request)]


def _tried(session: Session) -> News:
    """Tries again until the workbook is there and has told what it has. Why it isn't is told once."""
    told, wait = "", SOON
    while True:
        try:
            session.book.again()
            return hearing.hear_again(session.book)
        except (SessionEnded, RedisRefused) as still:
            if str(still) != told:
                told = str(still)
                session.wrapped(told)
        time.sleep(wait)
        wait = min(2 * wait, LATER)


def tell_news(session: Session, news: News) -> None:
    """Tells what a workbook has that is there again."""
    has = f"{where(session)} is there again, with {_edits(news.edits)}"
    if news.other:
        session.wrapped(f"{has}. It isn't the workbook that this session knew, which had {_edits(news.known)}: that is gone, and numbers "
                        "of edits are now those of the new one")
        return
    session.wrapped(f"{has}; nothing was done meanwhile" if news.none else has)
    if news.came:
        session.wrapped(f"new: {_listed([f'edit {k} ({session.what(k)})' for k in news.came])}")
    for how, these in (("taken back", news.undone), ("put in force again", news.redone)):
        if these:
            session.wrapped(f"{how} meanwhile: {numbered(these)}")


def _edits(number: int) -> str:
    return "1 edit" if number == 1 else f"{number:,} edits"


def _listed(words: List[str]) -> str:
    more = len(words) - TOLD
    return "; ".join(words[:TOLD]) + (f"; and {more:,} more" if more > 0 else "")
