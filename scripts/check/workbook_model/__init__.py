"""A second workbook, written from docs/PROTOCOL.md alone and in its words, to hold the built program against.

It is slow and small: cells in dicts, and a walk over the later edits for each undo. Nothing of the program is used.
"""

from . import memory
from .book import Book
from .machine import Machine, text_of
from .reading import read

__all__ = ["Book", "Machine", "memory", "read", "text_of"]
