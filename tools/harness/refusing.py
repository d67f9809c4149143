"""Runs in which the system refuses what a program asks for: memory, or threads."""
from __future__ import annotations

import os
import pathlib
from collections.abc import Iterable

from .programs import TOP, Answer, Word, carry_out, run
from .texts import Path

NO_MEMORY = "REFUSED 1 - NO MEMORY"


def shim(name: str, folder: Path) -> str:
    """tools/NAME.c as a library that goes before those of a program."""
    made = pathlib.Path(folder, f"{name}.so")
    carry_out(["gcc", "-shared", "-fPIC", "-O1", "-o", made, TOP / "tools" / f"{name}.c", "-ldl"])
    return str(made)


def run_refusing(words: Iterable[Word], library: str, **told: int) -> tuple[Answer, int]:
    """A run with tools/refuse_malloc.c, told what to refuse; and how many allocations were refused, at most 99."""
    reading, writing = os.pipe()
    try:
        more = {"LD_PRELOAD": library, "REFUSE_TOLD": str(writing), **{name: str(it) for name, it in told.items()}}
        answer = run(words, more=more, pass_fds=(writing,))
        os.close(writing)
        writing = -1
        return answer, len(os.read(reading, 99))
    finally:
        os.close(reading)


def found_none(answer: Answer) -> str | None:
    """What found no memory before anything was run: "a text", or "the command line"; None where neither did."""
    status, output, error = answer
    if output == "" and status == 1 and error in (f"DEFS: {NO_MEMORY}\n", f"SCRIPT: {NO_MEMORY}\n"):
        return "a text"
    if output == "" and (status == 1 and error == f"{NO_MEMORY}\n" or status == 2 and "memory" in error):
        return "the command line"
    return None
