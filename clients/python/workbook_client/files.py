"""Files of texts, written whole, and never over a journal."""

import os
import shutil
from typing import Optional, TextIO, Union

from .literals import as_note

Source = Union[str, "os.PathLike[str]", TextIO]
"""A file, by its path or as it is open."""

JOURNAL = b"chapel-workbook 3\n"
"""The first line of a journal file."""


def place_of(path: str) -> str:
    """The file itself, where a path leads to it."""
    return os.path.realpath(os.path.expanduser(path))


def text_of(source: Source) -> str:
    """All of a file."""
    return read(os.fspath(source)) if isinstance(source, (str, os.PathLike)) else source.read()


def note_of(source: Source) -> Optional[str]:
    """The note of an edit that takes a file in, "import plan.csv"; none where it has no name."""
    place = source if isinstance(source, (str, os.PathLike)) else getattr(source, "name", None)
    return as_note(f"import {os.path.basename(place)}") if isinstance(place, (str, os.PathLike)) else None


def read(path: str) -> str:
    """The text of a file, its line ends as they are."""
    with open(os.path.expanduser(path), encoding="utf-8-sig", newline="") as file:
        try:
            return file.read()
        except UnicodeDecodeError as wrong:
            raise ValueError(f"{path} is no text in UTF-8") from wrong


def write(path: str, text: str) -> None:
    """Writes a file whole: what was there stays until all of the new text is on the disk. A journal isn't written over: a
    workbook is kept there, perhaps by a program that has it open."""
    place = place_of(path)
    if os.path.exists(place) and not os.path.isfile(place):  # a device, or a pipe
        with open(place, "w", encoding="utf-8", newline="") as file:
            file.write(text)
        return
    if is_journal(place):
        raise ValueError(f"{path} is a journal file, in which a workbook is kept: give another name")
    beside = f"{place}.{os.getpid()}.new"
    try:
        with open(beside, "w", encoding="utf-8", newline="") as file:
            file.write(text)
            file.flush()
            os.fsync(file.fileno())
        if os.path.exists(place):
            shutil.copymode(place, beside)
        os.replace(beside, place)
    except BaseException:
        if os.path.exists(beside):
            os.remove(beside)
        raise


def is_journal(place: str) -> bool:
    """Whether there is a journal file."""
    try:
        with open(place, "rb") as file:
            return file.read(len(JOURNAL)) == JOURNAL
    except FileNotFoundError:
        return False
