"""Reads the worked rows of rows.txt."""

from pathlib import Path
from typing import Dict, List, NamedTuple, Tuple


class Event(NamedTuple):
    session: str
    text: str


class Row(NamedTuple):
    definitions: str
    max_commits: int
    events: List[Event]
    lines: List[str]
    closing: List[str]
    refused: str


def read_rows() -> Dict[str, Row]:
    """The rows by their names."""
    rows: Dict[str, Dict[str, List[str]]] = {}
    current: Dict[str, List[str]] = {}
    for line in Path(__file__).with_name("rows.txt").read_text(encoding="utf-8").splitlines():
        word, _, rest = line.partition(" ")
        if word == "row":
            current = rows[rest] = {}
        elif line and word != "#":
            current.setdefault(word, []).append(rest)
    return {name: _row(parts) for name, parts in rows.items()}


def _row(parts: Dict[str, List[str]]) -> Row:
    script = "\n".join(parts.get("events", []))
    return Row(
        definitions="\n".join(parts["defs"]),
        max_commits=int(parts.get("commits", ["1000000"])[0]),
        events=[_event(piece) for piece in script.split(";") if piece.strip()],
        lines=parts.get("line", []),
        closing=parts.get("closing", []),
        refused="".join(parts.get("refused", [])),
    )


def _event(piece: str) -> Event:
    session, text = piece.strip().split(":", 1)
    return Event(session, text.strip())


def split_replies(lines: List[str]) -> List[Tuple[str, ...]]:
    """The lines of the report, each with the rows under it."""
    replies: List[Tuple[str, ...]] = []
    for line in lines:
        if line.startswith("  "):
            replies[-1] += (line,)
        else:
            replies.append((line,))
    return replies
