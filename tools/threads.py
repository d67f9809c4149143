#!/usr/bin/env python3
"""Runs the command `threads` of the program, where what it prints is known.

    tools/threads.py PROGRAM

Each script here is of one session, whose events come in one order, so that `threads` prints what `replay` prints:
of crates/skewguard/data that is crates/skewguard/stdout, and of the others what the program itself replays. On a new
journal it prints the same, and the journal then holds as many commits. And where no thread is to be had
(tools/refuse_threads.c, which this compiles) the session is told so in one line, the commits are none, and the status
is 1; a replay needs no thread.
"""
from __future__ import annotations

import os
import pathlib
import sys
import typing
from collections.abc import Iterator

from harness.arguments import parser_of
from harness.journals import held
from harness.programs import TOP, Answer, run_on
from harness.refusing import shim
from harness.texts import ended, read, temporary_folder
from refused_growth import HISTORIES, TABLES

DATA = TOP / "crates/skewguard/data"
WITHOUT = "A: REFUSED 24 - TOO MANY SESSIONS\nCOMMITS 0\nSERIAL\nREFUSED 0\n"


class Texts(typing.NamedTuple):
    """Definitions, a script, words for the command line, and what is wanted, if it stands in a file."""

    name: str
    definitions: str
    script: str
    words: list[str]
    wanted: str | None


def texts() -> Iterator[Texts]:
    """All that is run here."""
    wanted = read(TOP / "crates/skewguard/stdout")
    yield Texts("data", read(DATA / "defs.sql"), read(DATA / "script.sql"), [], wanted)
    for name, it in HISTORIES.items():
        if {event.split(":")[0] for event in it.events} == {"A"}:
            yield Texts(name, TABLES + it.definitions, ended(it.events), it.words, None)


def closing_of(output: str) -> str:
    """The assertions' truths on the loaded tables, as a replay of no event has them."""
    return "".join(output.rpartition("ASSERTIONS ")[1:])


def commits_of(output: str) -> int:
    """How many commits a replay says."""
    return int(output.rpartition("COMMITS ")[2].split("\n")[0])


def held_in(program: str, journal: pathlib.Path) -> int | None:
    """How many commits a journal holds."""
    found = held(program, journal)
    return found and found.newest


def main() -> int:
    parser = parser_of(__doc__)
    parser.add_argument("program")
    program, bad, count = os.path.abspath(parser.parse_args().program), 0, 0
    with temporary_folder() as folder:
        refused = {"LD_PRELOAD": shim("refuse_threads", folder)}
        for name, defs, script, words, wanted in texts():
            replays, threads = ([program, command, *words] for command in ("replay", "threads"))
            replayed = run_on(replays, defs, script)
            without = Answer(1, WITHOUT + closing_of(run_on(replays, defs, "").output), "")
            journal = folder / f"journal of {name}"
            for what, got, want in (
                    ("threads on a journal", run_on([*threads, "--journal", str(journal)], defs, script), replayed),
                    ("its commits", held_in(program, journal), commits_of(replayed.output)),
                    ("replay", replayed, Answer(0, wanted or replayed.output, "")),
                    ("threads", run_on(threads, defs, script), replayed),
                    ("replay without threads", run_on(replays, defs, script, more=refused), replayed),
                    ("threads without threads", run_on(threads, defs, script, more=refused), without)):
                count += 1
                if got != want:
                    bad += 1
                    print(f"DIFFERS  {name}, {what}: {got}\nwanted: {want}")
    print(f"{count} runs, {bad} differ")
    return bad != 0 or count < 8


if __name__ == "__main__":
    sys.exit(main())
