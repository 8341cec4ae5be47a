"""The worked histories of examples/histories: requests, each with its reply."""

from pathlib import Path

FILES = Path(__file__).resolve().parents[3] / "examples" / "histories"


def rows_of(text):
    """The requests of a text with their replies."""
    return [tuple(row.split(" -> ", 1)) for row in text.split("\n") if " -> " in row]


def worked():
    """The name of each file without its ending, and its rows."""
    for path in sorted(FILES.glob("*.txt")):
        yield path.stem, rows_of(path.read_text(encoding="utf-8"))
