"""`python3 -m workbook_client`: a prompt, or the lines of a file."""

import argparse
import io
import os
import sys
from typing import Any, List, NamedTuple, Optional, TextIO, Union

from . import away, files, log
from .book import Workbook
from .channel import called
from .errors import NoProgram, NotResumed, SessionEnded, WorkbookError, sentence
from .language import WORDS
from .redis import RedisRefused, place_of
from .refusals import Refusal
from .session import Session

PROMPT = "workbook> "
"""What stands before a line, where no transaction was begun."""
WELCOME = "help lists what you can write; quit, or Ctrl-D, ends."
WITHOUT = ("", "quit", "exit", "help", "begin", "abandon")
"""Lines that ask a workbook nothing."""


def _completer(book: Workbook) -> Any:
    """Completes names and words; names are asked for when a first letter is completed."""
    found: List[str] = []

    def complete(text: str, state: int) -> Optional[str]:
        if state == 0:
            try:
                names = book.snapshot().names()
            except (Refusal, SessionEnded):
                names = []
            words = {*names, *WORDS, "blockDist", "cyclicDist", "blockCycDist"}
            found[:] = sorted(word for word in words if word.startswith(text))
        return found[state] if state < len(found) else None

    return complete


def _with_readline(book: Workbook) -> Optional[str]:
    """Turns on editing, completion and history; gives the history's file."""
    try:
        import readline
    except ImportError:  # a plain prompt, then
        return None
    path = os.path.expanduser(os.environ.get("WORKBOOK_HISTORY", "~/.workbook_history"))
    readline.set_completer(_completer(book))
    readline.set_completer_delims(" \t[](){},=+-*|&^.\"")
    readline.parse_and_bind("bind ^I rl_complete" if "libedit" in (readline.__doc__ or "") else "tab: complete")
    readline.set_history_length(1000)
    try:
        readline.read_history_file(path)
    except OSError:
        pass
    return path


def converse(session: Session) -> int:
    """A prompt until the end."""
    path = _with_readline(session.book)
    session.wrapped(session.place())
    session.say(WELCOME)
    try:
        while True:
            try:
                text = input(prompt(session))
            except KeyboardInterrupt:
                session.say("")
                continue
            except EOFError:
                session.say("")
                if may_leave(session):
                    return 0
                continue
            if not answered(session, text) and may_leave(session):
                return 0
    finally:
        if path:
            import readline

            try:
                readline.write_history_file(path)
            except OSError:
                pass


def prompt(session: Session) -> str:
    """What stands before a line: how many edits are gathered, where a transaction was begun."""
    return PROMPT if session.begun is None else f"workbook ({session.gathered():,} gathered)> "


def answered(session: Session, text: str) -> bool:
    """Runs a line that was typed. False where it asks for the end. A shared workbook that is away is waited for: a line that wasn't
    sent is run then, unless something was done meanwhile."""
    if text.strip() not in WITHOUT and away.is_gone(session) and not is_still_meant(session):
        session.wrapped("the line wasn't run, since that was before it: type it again, if it is still meant")
        return True
    changes = session.book.exchange.changes
    try:
        return session.line(text, prompt(session))
    except SessionEnded as end:
        away.come_back(session, end)
    except KeyboardInterrupt:
        session.wrapped(f"(not waited for; {what_became(session, changes)})")
    return True


def what_became(session: Session, changes: int) -> str:
    """What is told of a line that Ctrl-C has ended; so many changes were sent before it."""
    exchange = session.book.exchange
    if exchange.changes == changes:
        return "no change was sent: type it again, if it is still meant"
    if exchange.channel.is_gone():
        return "it was sent, so it is perhaps done"
    return "its reply is read before the next"


def is_still_meant(session: Session) -> bool:
    """Takes the workbook up again, and says whether a line that wasn't sent is run then: where nothing was done meanwhile. Who was
    idle and takes another seat may run it too where others did something, as who kept a seat may."""
    news = away.sat_again(session)
    if news is not None:
        return not news.other
    return away.come_back(session, SessionEnded(session.book.exchange.channel.why())).none


def may_leave(session: Session) -> bool:
    """Asks before a session is left whose edits are kept nowhere, or gathered and not committed. A second Ctrl-D leaves it."""
    unkept, gathered = session.unkept(), session.gathered()
    if not unkept and not gathered:
        return True
    if gathered:
        session.wrapped(f"{_edits_are(gathered)} gathered and not made, and would be gone; commit makes {'it' if gathered == 1 else 'them'}")
    if unkept:
        session.wrapped(f"{_edits_are(unkept)} kept nowhere, and would be gone; keep FILE writes the history to a file")
    try:
        return input("  leave all the same? [y/N] ").strip().lower() in ("y", "yes")
    except EOFError:
        session.say("")
        return True
    except KeyboardInterrupt:
        session.say("")
        return False


def _edits_are(number: int) -> str:
    return "1 edit is" if number == 1 else f"{number:,} edits are"


def script(session: Session, lines: TextIO, keep_going: bool) -> int:
    """The lines of a file, each shown before what came of it. A refusal ends it with status 1."""
    status = 0
    if session.book.journal is not None:
        session.wrapped(session.place())
    for text in lines:
        text = text.rstrip("\r\n")
        session.say(f"> {text}" if text else "")
        try:
            if not session.line(text, "> "):
                break
        except SessionEnded:
            away.tell_unanswered(session)
            raise
        if session.failed:
            status = 1
            if not keep_going:
                break
    if session.gathered():
        session.wrapped(f"{_edits_are(session.gathered())} gathered and not made, since no commit came")
        status = 1
    return status


class Log(NamedTuple):
    """A workbook whose requests stand in a log in Redis."""

    url: str
    name: str


class Desk(NamedTuple):
    """A workbook that `workbook serve` shares: at a port of a host, or at the socket of a path."""

    host: str
    port: Optional[int] = None


WHERE = "HOST:PORT, as 127.0.0.1:7000, the path of a desk's socket with a / in it, as ./plan.socket, or redis://HOST/NAME"
"""What --connect takes."""


def address(text: str) -> Union[Desk, Log]:
    """HOST:PORT, PORT alone with a colon before it, or [HOST]:PORT where the host has colons; a path; or redis://HOST/NAME."""
    if text.startswith("redis://"):
        return log_at(text)
    if "/" in text and "://" not in text:
        return Desk(os.path.expanduser(text))
    host, colon, port = text.rpartition(":")
    if not colon or not (port.isascii() and port.isdigit() and len(port) < 6):
        raise argparse.ArgumentTypeError(f"wanted is {WHERE}; not {text!r}")
    if not 1 <= int(port) <= 65535:
        raise argparse.ArgumentTypeError(f"a port is 1 to 65535, and not {port}")
    return Desk(host.strip("[]") or "127.0.0.1", int(port))


def log_at(text: str) -> Log:
    """redis://[user:password@]host[:port][/number]/NAME."""
    url, _, name = text.rpartition("/")
    if not url.startswith("redis://"):
        raise argparse.ArgumentTypeError(f"redis://HOST/NAME is wanted, as redis://127.0.0.1/plan, not {text!r}, which names no workbook")
    try:
        place_of(url)
        log.key(name, "requests")
    except ValueError as wrong:
        raise argparse.ArgumentTypeError(f"redis://HOST/NAME is wanted, as redis://127.0.0.1/plan: {wrong}") from wrong
    return Log(url, name)


def arguments(description: str, module: str) -> argparse.ArgumentParser:
    """The options that the session and the page have in common."""
    parser = argparse.ArgumentParser(description=description, prog=called(module))
    where = parser.add_mutually_exclusive_group()
    where.add_argument("--program", help="the program to start (else WORKBOOK_PROGRAM, else workbook)")
    where.add_argument(
        "--connect", metavar="WHERE", type=address,
        help="a shared workbook: HOST:PORT, or the path of a socket, where `workbook serve` listens, or redis://HOST/NAME, which workers answer",
    )
    parser.add_argument("--name", help="what others at a desk that stays are told of who did what; with --connect")
    parser.add_argument("--resume", metavar="FILE", help="go on from a history that `keep FILE` has written")
    parser.add_argument("--journal", metavar="FILE", help="keep each change in FILE, and go on from those that are there")
    parser.add_argument("plan", nargs="?", metavar="FILE", help="the same as --journal FILE")
    return parser


def open_book(args: argparse.Namespace) -> Workbook:
    """The workbook of --program, --resume, --journal or --connect."""
    given = [file for file in (args.journal, args.plan, args.resume) if file is not None]
    if len(given) > 1:
        raise NoProgram("a workbook goes on from one file: that of --journal, or that of --resume")
    if args.connect and given:
        raise NoProgram("a shared workbook is kept, and goes on, by `workbook serve`, not by its seats")
    if args.name is not None and not isinstance(args.connect, Desk):
        raise NoProgram("only a desk that stays takes a name: --connect HOST:PORT --name NAME")
    if isinstance(args.connect, Log):
        return Workbook.stream(*args.connect)
    if args.connect:
        return Workbook.connect(*args.connect, name=args.name)
    if args.resume is None and given:
        return Workbook.run(args.program, journal=given[0])
    if args.resume is None:
        return _answering(Workbook.run(args.program))
    try:
        return Workbook.run(args.program, resume=files.read(args.resume))
    except ValueError as wrong:
        raise NotResumed(f"{args.resume}: {wrong}") from wrong
    except OSError as fault:
        raise NotResumed(sentence(fault)) from fault


def _answering(book: Workbook) -> Workbook:
    """The workbook, once its program has answered: what is no workbook is told of before a line is typed."""
    try:
        book.exchange.knock()
    except BaseException:
        book.close()
        raise
    return book


def main(words: Optional[List[str]] = None) -> int:
    """The session; gives the exit status."""
    parser = arguments("A session with a workbook: `help` at the prompt lists its language.", "workbook_client")
    parser.add_argument("--file", metavar="SCRIPT", help="run the lines of a file (- for standard input)")
    parser.add_argument("--keep-going", action="store_true", help="go on after a refused line of SCRIPT")
    parser.add_argument("--colours", action="store_true", help="tables coloured by locale from the start")
    args = parser.parse_args(words)
    if isinstance(sys.stdout, io.TextIOWrapper):
        sys.stdout.reconfigure(errors="replace")  # a terminal without the tables' characters
    try:
        with open_book(args) as book:
            session = Session(book)
            session.colours = args.colours
            book.tell_waits(session.wrapped)
            if args.file and args.file != "-":
                with open(args.file, encoding="utf-8") as lines:
                    return script(session, lines, args.keep_going)
            if args.file or not sys.stdin.isatty():
                return script(session, sys.stdin, args.keep_going)
            return converse(session)
    except UnicodeDecodeError:
        print(f"workbook_client: {'standard input' if args.file in (None, '-') else args.file} is no text in UTF-8", file=sys.stderr)
        return 3
    except (WorkbookError, RedisRefused, OSError) as end:
        print(f"workbook_client: {sentence(end)}", file=sys.stderr)
        return 3
    except KeyboardInterrupt:
        return 130
