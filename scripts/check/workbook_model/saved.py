"""A history made again from its text."""

from .book import CHANGES
from .literals import Refused
from .machine import Edit, Machine
from .reading import json_of, request_of


def restored(text):
    """The machine of a history's text, or None."""
    lines, machine = text.split("\n"), Machine()
    try:
        for line in lines:
            if line[:2] not in ("+ ", "- "):
                continue
            request = request_of(json_of(line[2:].encode()))
            if request["op"] not in CHANGES:
                return None
            if line[0] == "+":
                machine.edit(request)
            else:
                machine.edits.append(Edit(request))
        return machine if machine.do({"op": "history"})["text"] == text else None
    except (Refused, ValueError):
        return None
