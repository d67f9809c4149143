"""The report of a script: its lines, by the events that they answer."""
from __future__ import annotations

import re
from collections.abc import Iterable, Sequence

from .refusing import NO_MEMORY

Replies = list[list[str]]
# Where the replies end: at the first line of the closing part, or of what is rolled back at the end.
BEHIND_REPLIES = re.compile(r"^(?:\w+: ROLLBACK AT END$|COMMITS )", re.MULTILINE)


def replies(report: str) -> Replies:
    """The lines of a report, each with the rows under it: first those of each event, behind them the closing part."""
    found: Replies = []
    for line in report.splitlines():
        if line.startswith("  ") and found:
            found[-1].append(line)
        else:
            found.append([line])
    return found


def answers(report: str) -> str | None:
    """The part of a report that answers events; None where it is not a whole one, with an end behind them."""
    end = BEHIND_REPLIES.search(report)
    return report[:end.start()] if end else None


def places_without_memory(report: str, events: Sequence[str]) -> list[int]:
    """The places of the events that were answered that there is no memory."""
    return [at for at, reply in enumerate(replies(report)[:len(events)]) if reply[0].endswith(NO_MEMORY)]


def with_refused(report: str, events: Sequence[str], places: Iterable[int]) -> str:
    """The report of a script without some events, with the line put in of each of these that it found no memory."""
    found = replies(report)
    for at in sorted(places):
        found.insert(at, [f"{events[at].split(':')[0]}: {NO_MEMORY}"])
    return "".join(f"{line}\n" for reply in found for line in reply)
