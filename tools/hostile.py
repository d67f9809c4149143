#!/usr/bin/env python3
"""Gives the program what it should not be given, and looks whether it answers as docs/PROGRAM.md says.

    tools/hostile.py PROGRAM        each text, file and limit in turn; prints what was answered, and what differs

No answer may be a signal, a text cut short, or silence: there is one line on standard error with the fault, or the
report. What is expected of a text stands beside it here, as a status and the line; none of it is taken from the
program.
"""
from __future__ import annotations

import pathlib
import sys
import typing
from collections.abc import Iterator

from harness.arguments import parser_of
from harness.programs import Answer, run, words_of_replay
from harness.texts import Text, placed, temporary_folder, write

MEGABYTES = 10
LONG = MEGABYTES * 1000 * 1000
TABLE = "CREATE TABLE T (ID INTEGER PRIMARY KEY, NAME VARCHAR(10));\n"
CLOSED = "COMMITS 0\nSERIAL\nREFUSED 0\nASSERTIONS 0\n"
WHERE = "A: BEGIN; A: DELETE FROM T WHERE "


class Wanted(typing.NamedTuple):
    """What is to be answered: the status, and what stands on standard error or output."""

    status: int
    line: str


class Given(typing.NamedTuple):
    """What is given, and what is to be answered."""

    name: str
    definitions: Text
    script: Text
    wanted: Wanted


def texts() -> Iterator[Given]:
    """Texts that are given, some of them short."""
    yield Given("both files empty", "", "", taken())
    yield Given("a script of white space", TABLE, " \t\r\n" * 1000, taken())
    yield Given("a comment without an end of line", TABLE, "-- nothing", taken())
    for name, text, at in beginnings():
        yield Given(name, TABLE, text, refused("SCRIPT", f"2 - SYNTAX {at}"))
    for name, byte in (("NUL", b"\0"), ("a byte outside ASCII", b"\xc3"), ("a control byte", b"\x07")):
        yield Given(f"{name} between tokens", TABLE, b"A: " + byte + b"BEGIN;", refused("SCRIPT", "2 - SYNTAX 3"))
        quoted = b"INSERT INTO T VALUES ('" + byte + b"');"
        yield Given(f"{name} in a quoted text", quoted, "", refused("DEFS", "2 - SYNTAX 22"))
    name = "A" * 128
    yield Given("a name of 128 bytes", TABLE, f"{name}: VERDICT B;", taken(f"{name}: REFUSED 14 - NO TRANSACTION\n"))
    yield Given("a name of 129 bytes", TABLE, "A" * 129 + ": BEGIN;", refused("SCRIPT", "2 - SYNTAX 0"))
    past = "INSERT INTO T VALUES (9000000000000000);"
    yield Given("a number past the limit", past, "", refused("DEFS", "2 - SYNTAX 22"))
    digits = WHERE + "ID = " + "9" * 10**6
    yield Given("a number of a million digits", TABLE, digits, refused("SCRIPT", f"2 - SYNTAX {len(WHERE) + 5}"))
    for thing, script, wanted in long_scripts():
        yield Given(f"{MEGABYTES} MB of {thing}", TABLE, script, wanted)


def beginnings() -> Iterator[tuple[str, str, int]]:
    """Scripts that end too early, and where."""
    yield "a script that ends in a statement", "A: BEGIN; A: INSERT INTO T", 26
    yield "a script that ends in a quoted text", "A: BEGIN; A: INSERT INTO T VALUES (1, 'x", 38


def long_scripts() -> Iterator[tuple[str, str, Wanted]]:
    """Ten megabytes of one thing, where it may stand and where it may not."""
    yield "`(`", "(" * LONG, refused("SCRIPT", "2 - SYNTAX 0")
    deep = refused("SCRIPT", f"19 - TOO DEEP {len(WHERE) + 64}")
    yield "`(` in a condition", WHERE + "(" * LONG, deep
    yield "quotes", "'" * LONG, refused("SCRIPT", "2 - SYNTAX 0")
    yield "quotes without an end", "'" * (LONG + 1), refused("SCRIPT", "2 - SYNTAX 0")
    yield "one name", "A" * LONG, refused("SCRIPT", "2 - SYNTAX 0")
    yield "`OR`", WHERE + "OR " * (LONG // 3), refused("SCRIPT", f"2 - SYNTAX {len(WHERE)}")
    parts = " OR ".join(["ID = 1"] * (LONG // 10))
    yield "`ID = 1 OR`", f"{WHERE}{parts};", taken("A: BEGIN 0\nA: DELETE 0\nA: ROLLBACK AT END\n")
    yield "commas", "A: INSERT INTO T VALUES (" + "," * LONG, refused("SCRIPT", "2 - SYNTAX 25")
    values = "A: BEGIN; A: INSERT INTO T VALUES (" + ",".join("1" * (LONG // 2)) + ");"
    yield "values", values, taken("A: BEGIN 0\nA: REFUSED 5 - TYPE\nA: ROLLBACK AT END\n")
    rows = "A: BEGIN; A: INSERT INTO T VALUES " + ",".join(["(1,NULL)"] * (LONG // 9)) + ";"
    yield "rows", rows, taken("A: BEGIN 0\nA: REFUSED 7 23000 T 1\nA: ROLLBACK AT END\n")
    sessions = "".join(f"S{i}: BEGIN;" for i in range(LONG // 14))
    yield "session names", sessions, refused("SCRIPT", "24 - TOO MANY SESSIONS")


def taken(replies: str = "") -> Wanted:
    """Both texts are taken, and nothing is committed."""
    return Wanted(0, replies + CLOSED)


def refused(text: str, fault: str) -> Wanted:
    """A text is refused."""
    return Wanted(1, f"{text}: REFUSED {fault}\n")


def files(folder: pathlib.Path) -> Iterator[tuple[str, pathlib.Path, pathlib.Path, Wanted]]:
    """Files that are none: DEFS and SCRIPT, and what is to be answered."""
    missing, directory, empty = folder / "missing", folder / "folder", folder / "empty"
    directory.mkdir()
    write(empty, "")
    for text, one, other in (("DEFS", missing, empty), ("SCRIPT", empty, missing)):
        yield f"no such {text}", one, other, Wanted(3, f"{text}: UNREADABLE\n")
    for text, one, other in (("DEFS", directory, empty), ("SCRIPT", empty, directory)):
        yield f"a folder for {text}", one, other, Wanted(3, f"{text}: UNREADABLE\n")


def told(done: Answer, wanted: Wanted) -> str:
    """What was answered: what stands on standard output where that was expected, else standard error."""
    return done.output if wanted.line.endswith(CLOSED) else done.error


def main() -> int:
    parser = parser_of(__doc__)
    parser.add_argument("program")
    program, wrong = parser.parse_args().program, 0
    for given in texts():
        with placed(given.definitions, given.script) as (defs, script):
            words = words_of_replay(program, defs, script)
            wrong += judge(given.name, run(words), given.wanted)
            # (with little memory each is answered the same, or that there is none: never by a signal)
            for megabytes in (64, 256):
                done = run(words, kib=megabytes << 10)
                wrong += judge_short(f"{given.name}, {megabytes} MB of memory", done, given.wanted)
    with temporary_folder() as folder:
        for name, one, other, wanted in files(folder):
            wrong += judge(name, run(words_of_replay(program, one, other)), wanted)
    with placed(TABLE, "A: BEGIN;") as (defs, script), open("/dev/full", "wb") as full:
        wrong += judge("a full disk", run(words_of_replay(program, defs, script), stdout=full), Wanted(3, ""))
    print(f"{wrong} differ")
    return wrong != 0


def judge(name: str, done: Answer, wanted: Wanted) -> bool:
    """Whether an answer is another one."""
    got = told(done, wanted)
    right = Wanted(done.status, got) == wanted
    print(f"{'as said' if right else 'DIFFERS'}  {name}: {done.status} {got[:60].splitlines()[:1]}")
    return not right


def judge_short(name: str, done: Answer, wanted: Wanted) -> bool:
    """The same of an answer with little memory."""
    no_memory = done.status == 1 and "NO MEMORY" in done.error + done.output
    right = no_memory or Wanted(done.status, told(done, wanted)) == wanted
    if not right:
        print(f"DIFFERS  {name}: {done.status} {done.error[:80].encode('latin-1')!r}")
    return not right


if __name__ == "__main__":
    sys.exit(main())
