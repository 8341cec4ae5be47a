"""How a workbook outlives its program: by the text of its history."""

from typing import List, Optional

from .channel import Channel, ProgramChannel

QUESTION = b'{"op":"history"}\n'
NO_OP = b"{}\n"


class Unresumed(Exception):
    """A program did not go on from a text."""


def begin(words: List[str], text: Optional[bytes]) -> Channel:
    """A program that goes on from the text of a history, or from nothing."""
    if text is None:
        return ProgramChannel(words)
    channel = ProgramChannel([*words, "--resume"])
    channel.send(text)
    channel.send(NO_OP)
    if b'"E01"' not in answer(channel):
        channel.close()
        raise Unresumed("the program did not go on from the snapshot")
    return channel


def answer(channel: Channel) -> bytes:
    """The next reply, taken, with its line end."""
    line = channel.front()
    channel.drop()
    return line
