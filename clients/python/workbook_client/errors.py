"""What ends a session, or keeps it from beginning. Refusals of the program are in `refusals`."""

from typing import List


class WorkbookError(Exception):
    """All that this client raises of its own, beside TypeError and ValueError for wrong values."""


class NoProgram(WorkbookError):
    """The program isn't there, or can't be started."""


class SessionEnded(WorkbookError):
    """The program, or the connection, is gone. What was sent without a reply may have been done."""


class NoServer(SessionEnded):
    """Nobody listens there."""


class NoSeat(SessionEnded):
    """A server took the connection, and its seats are taken: it says so, or answers nothing."""


class NoNames(SessionEnded):
    """A desk does not take a name: it gives each seat once, or this is no name."""


class NotResumed(SessionEnded):
    """A program did not go on from a text, which is no history's."""


class NotOpened(SessionEnded):
    """A program did not open a journal file. It stays as it is."""


class StrangeReply(SessionEnded):
    """What came is no reply of a workbook. The session ends, since nothing could be told apart."""


class NoAnswer(WorkbookError):
    """No reply within the time. The session goes on: a late reply is still read, in its turn."""


class InTransaction(WorkbookError):
    """What was asked for needs the workbook as the edits of a transaction leave it, and these aren't made before the block ends."""


def sentence(fault: Exception) -> str:
    """What an exception says to people: of a file its name and what the system says, without the system's numbers."""
    if isinstance(fault, OSError) and fault.strerror:
        return f"{fault.filename}: {fault.strerror}" if fault.filename else fault.strerror
    return str(fault)


class NotTakenBack(WorkbookError):
    """`trying` couldn't turn everything back. `__cause__` is the exception that left the block."""

    def __init__(self, standing: List[int], undone: List[int], unanswered: int, why: Exception):
        self.standing = standing
        """The edits of the block that are still in force."""
        self.undone = undone
        """The edits that the block took back and that couldn't be put in force again."""
        self.unanswered = unanswered
        """How many requests had no reply when the session ended: they may have been done."""
        self.why = why
        """What stood in the way: a refusal, or the end of the session."""
        parts = []
        if standing:
            parts.append(f"{_edits(standing)} in force")
        if undone:
            parts.append(f"{_edits(undone)} taken back")
        if unanswered:
            parts.append(f"{unanswered} request{'s' * (unanswered > 1)} without a reply")
        super().__init__(f"left as the block had it: {'; '.join(parts) or 'nothing'}, since {why}")


def _edits(numbers: List[int]) -> str:
    return f"{'edits' if len(numbers) > 1 else 'edit'} {', '.join(map(str, numbers))}"
