"""Journals: the lines of their files, as docs/JOURNAL.md has them, and what the program says of a file."""
from __future__ import annotations

import re
import typing
from collections.abc import Iterable

from .programs import Answer, run
from .texts import Path

DAMAGED = 4  # the status with which the program refuses a damaged journal
FAULT = re.compile(r"the journal .* is damaged at byte (\d+): commit (\d+) is missing")
SELECT = "Z: BEGIN; Z: SELECT {}; Z: ROLLBACK;\n"


class Line(typing.NamedTuple):
    """A line of the body with its two line feeds: from which byte of the file to which, and which commit it says."""

    start: int
    end: int
    number: int


class Held(typing.NamedTuple):
    """What a file says: the newest commit, that of the image where there is no other; or what is missing, and where."""

    newest: int | None
    missing: int | None
    at: int | None


def sum_of(text: bytes) -> int:
    """The sum of a line's bytes."""
    found = 0
    for byte in text:
        found = (found * 1099511628211 + byte) % 2 ** 64
    return found


def header_end(file: bytes) -> int:
    """The first byte of the body."""
    return file.index(b"\n") + 1


def lines_of(file: bytes) -> list[Line]:
    """The whole lines up to the first zero: that of the image, and those of commits."""
    found: list[Line] = []
    start = header_end(file)
    stop = file.find(b"\0", start)
    stop = len(file) if stop < 0 else stop
    while start < stop and file[start] == 10 and (end := file.find(b"\n", start + 1, stop) + 1):
        found.append(Line(start, end, int(file[start + 1:end].split(b"\t")[0])))
        start = end
    return found


def spelled(fields: Iterable[bytes]) -> bytes:
    """The line of a commit, by its fields without the sum."""
    body = b"".join(field + b"\t" for field in fields)
    return b"\n%s%d\t\n" % (body, sum_of(body))


def with_durable(line: bytes, durable: int) -> bytes:
    """A line as it would be had another commit been the last on the disk when it was written."""
    fields = line.strip(b"\n").split(b"\t")
    return spelled([fields[0], str(durable).encode(), *fields[2:-2]])


def refused(answer: Answer) -> Held | None:
    """What is said to be missing, where a journal was refused as damaged."""
    fault = FAULT.search(answer.error) if answer.status == DAMAGED else None
    return Held(None, int(fault.group(2)), int(fault.group(1))) if fault else None


def held(program: Path, path: Path) -> Held | None:
    """What `journal` says of a file; nothing where it says none of what it may."""
    answer = run([program, "journal", path])
    if answer.status:
        return refused(answer)
    newest = re.search(r"^commits \d+ to (\d+)$", answer.output, re.M)
    newest = newest or re.search(r"^image after commit (\d+):", answer.output, re.M)
    return Held(int(newest.group(1)), None, None) if newest else None


def recovered(program: Path, definitions: Path, path: Path, query: str) -> tuple[Answer, list[list[str]]]:
    """The rows of a query, field by field, once the shell has recovered them from a journal."""
    answer = run([program, "shell", definitions, "--journal", path], SELECT.format(query))
    return answer, [fields_of(line) for line in answer.output.splitlines() if line.startswith("  ")]


def fields_of(line: str) -> list[str]:
    """The fields of a row, of whose texts none has a comma in it."""
    return [field.strip() for field in line.split(",")]
