"""A client for `workbook`, the shared workbook of whole-number arrays with selective undo.

    from workbook_client import Workbook

    with Workbook.run() as wb:
        D = wb.domain("D", range(1, 5))
        A = wb.array("A", D)
        A[4] = 9
        wb.undo()
        print(A[4])  # 0
"""

from .book import Workbook
from .edits import Cascade, Edit, Pipeline
from .errors import (
    InTransaction,
    NoAnswer,
    NoNames,
    NoProgram,
    NoSeat,
    NoServer,
    NotOpened,
    NotResumed,
    NotTakenBack,
    SessionEnded,
    StrangeReply,
    WorkbookError,
)
from .exchange import Reading
from .gathering import Transaction, TransactionTooLong
from .literals import block, block_cyclic, cyclic
from .journal import Compacted, compact
from .objects import Array, Domain
from .refusals import (
    BadLiteral,
    BadMapping,
    BadRequest,
    Blocked,
    Empty,
    InForce,
    InUse,
    LineTooLong,
    NameTaken,
    NoFreeSeat,
    NoMemory,
    NoSuchEdit,
    NoSuchName,
    NotEmpty,
    NotInForce,
    OutOfDomain,
    OutOfParent,
    Overflow,
    Refusal,
    RefusedInPlace,
    StrangePass,
    TooLarge,
    WrongKind,
)
from .serving import Served
from .snapshot import Snapshot

__version__ = "1.0.0"

__all__ = [
    "Array", "BadLiteral", "BadMapping", "BadRequest", "Blocked", "Cascade", "Compacted", "Domain", "Edit",
    "Empty", "InForce", "InTransaction", "InUse", "LineTooLong", "NameTaken", "NoAnswer", "NoFreeSeat", "NoMemory", "NoNames", "NoProgram",
    "NoSeat", "NoServer", "NoSuchEdit", "NoSuchName", "NotEmpty", "NotInForce", "NotOpened", "NotResumed",
    "NotTakenBack", "OutOfDomain", "OutOfParent", "Overflow", "Pipeline", "Reading", "Refusal", "RefusedInPlace",
    "Served", "SessionEnded", "Snapshot", "StrangePass", "StrangeReply", "TooLarge",
    "Transaction", "TransactionTooLong", "Workbook", "WorkbookError", "WrongKind", "block", "block_cyclic", "compact", "cyclic",
]
