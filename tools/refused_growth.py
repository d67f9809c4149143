#!/usr/bin/env python3
"""Refuses each allocation of the program in turn, and looks at what is answered.

    tools/refused_growth.py PROGRAM [NAME..]      all histories below, or those of these names
    tools/refused_growth.py --tests PROGRAM       TESTS, of crates/manager_rows, as `rt test` builds them there
    tools/refused_growth.py --without PROGRAM     of the same, the tests of the calls that take no memory

A test of these passes, or ends with the words that there is no memory: each call that finds none is made once more, and
one that then finds none again ends the test with other words, which no run may.
In a test of the calls that take no memory, every allocation behind its mark is refused: that is the one at its end.

For each history and each number N, the program is run with its Nth allocation refused (tools/refuse_malloc.c, which
this compiles), until a run meets no refusal. One of these must come of it:

- the words of the command line find no memory, or DEFS or SCRIPT is refused `1 - NO MEMORY`, and nothing is written on
  standard output;
- one event is answered `REFUSED 1 - NO MEMORY`, and the rest is the report of the script without that event: nothing
  of it was kept, and nothing was lost;
- all is answered as ever.

And where an event was answered so and stands in the script once more right behind, it is answered the second time as it
would have been the first.
"""
from __future__ import annotations

import collections
import itertools
import os
import pathlib
import re
import sys
import typing
from collections.abc import Callable, Iterator, Sequence

from harness.arguments import parser_of
from harness.programs import Answer, run
from harness.refusing import found_none, run_refusing, shim
from harness.reports import places_without_memory, with_refused
from harness.texts import ended, placed, temporary_folder

MARK = 7_654_321  # so many bytes are asked for by the test without memory, where memory ends

TABLES = """CREATE TABLE SHIFTS (ID INTEGER PRIMARY KEY);
CREATE TABLE DUTY (ID INTEGER PRIMARY KEY, SHIFT INTEGER, ONCALL INTEGER);
CREATE TABLE ACCT (ID INTEGER PRIMARY KEY, OWNER VARCHAR(10), BAL INTEGER);
CREATE ASSERTION COVER CHECK (NOT EXISTS (SELECT * FROM SHIFTS S
    WHERE NOT EXISTS (SELECT * FROM DUTY D WHERE D.SHIFT = S.ID AND D.ONCALL = 1)));
INSERT INTO SHIFTS VALUES (7); INSERT INTO DUTY VALUES (1, 7, 1); INSERT INTO DUTY VALUES (2, 7, 1);
INSERT INTO ACCT VALUES (1, 'KIM', 100); INSERT INTO ACCT VALUES (2, 'KIM', 50);
"""
FUNDS = """CREATE ASSERTION FUNDS CHECK (NOT EXISTS (SELECT OWNER FROM ACCT GROUP BY OWNER HAVING SUM(BAL) < 0))
    DEFERRABLE;
"""


class History(typing.NamedTuple):
    """More definitions, the events, and words for the command line."""

    definitions: str
    events: list[str]
    words: list[str]


HISTORIES = {
    "write_skew": History("", ["A: BEGIN", "B: BEGIN", "A: UPDATE DUTY SET ONCALL = 0 WHERE ID = 1",
        "B: UPDATE DUTY SET ONCALL = 0 WHERE ID = 2", "A: COMMIT", "B: COMMIT"], []),
    "pivot_refused": History("", ["X: BEGIN", "P: BEGIN", "Y: BEGIN", "X: SELECT ONCALL FROM DUTY WHERE ID = 1",
        "P: SELECT BAL FROM ACCT WHERE ID = 1", "P: UPDATE DUTY SET ONCALL = 0 WHERE ID = 1",
        "Y: UPDATE ACCT SET BAL = 0 WHERE ID = 1", "Y: COMMIT", "X: COMMIT", "P: COMMIT"], []),
    "same_key_inserted_twice": History("", ["A: BEGIN", "B: BEGIN", "A: INSERT INTO ACCT VALUES (9, 'LEE', 1)",
        "B: INSERT INTO ACCT VALUES (9, 'LEE', 2)", "A: COMMIT", "B: COMMIT"], []),
    "deferred_then_immediate": History(FUNDS, ["A: BEGIN", "A: SET CONSTRAINTS FUNDS DEFERRED",
        "A: INSERT INTO ACCT VALUES (9, 'LEE', -1)", "A: VERDICT FUNDS", "A: SET CONSTRAINTS ALL IMMEDIATE",
        "A: INSERT INTO ACCT VALUES (10, 'LEE', 5)", "A: SET CONSTRAINTS ALL IMMEDIATE", "A: COMMIT"], []),
    "epoch_full": History("", ["A: BEGIN", "A: DELETE FROM ACCT WHERE ID = 1", "A: COMMIT", "A: BEGIN",
        "A: SELECT * FROM ACCT", "A: COMMIT"], ["--max-commits", "1"]),
    "rolled_back": History("", ["A: BEGIN", "A: INSERT INTO ACCT VALUES (9, 'LEE', 1)", "A: DELETE FROM DUTY",
        "A: ROLLBACK", "A: BEGIN", "A: SELECT * FROM ACCT", "B: VERDICT COVER", "B: BEGIN", "B: VERDICT COVER"], []),
}

# Tests of crates/manager_rows: those whose calls are made once more where they find no memory, and those whose calls
# take none.
TESTS = ["rows::shift_write_skew", "rows::pivot_refused", "rows::same_key_inserted_twice",
    "rows::deferred_then_immediate", "rows::epoch_full", "given_back::by_a_manager", "given_back::rolled_back",
    "given_back::by_an_engine", "given_back::reader_before_writer", "given_back::deferred_row",
    "given_back::null_group", "views::changed", "checkpoints::checkpoint_with_funds"]
WITHOUT = ["without_memory::without_memory", *(f"lower_without_memory::{name}" for name in ("values", "tables", "pages",
    "locks", "snapshots", "judgment", "a_commit_is_made", "a_commit_is_given_up", "a_transaction_ends"))]
# What a test ends with; an assertion that fails says something else, even where it shows a line with these words.
# (the last of these words is a writer's, of bytes in memory)
SAYS_NO_MEMORY = re.compile(r"^error: (NoMemory|AllocFailed.*|AllocError.*|Kind\(OutOfMemory\))$", re.MULTILINE)


Count = collections.Counter[typing.Optional[str]]


class Program:
    """The program, and what refuses it memory."""

    def __init__(self, path: str, folder: pathlib.Path) -> None:
        self.path, self.shim = os.path.abspath(path), shim("refuse_malloc", folder)

    def run(self, history: History, refuse: int = 0) -> tuple[Answer, int]:
        """What a replay answers, and whether an allocation was refused."""
        with placed(TABLES + history.definitions, ended(history.events)) as files:
            return self.call(["replay", *history.words, *files], **({"REFUSE": refuse} if refuse else {}))

    def call(self, words: Sequence[str], **told: int) -> tuple[Answer, int]:
        """The same of any words, and of whatever the shim is told."""
        return run_refusing([self.path, *words], self.shim, **told) if told else (run([self.path, *words]), 0)


def judge(program: Program, history: History, whole: str, got: Answer) -> str | None:
    """What came of a refused allocation, as a word; or None where it is none of what may come."""
    if found := found_none(got):
        return found
    if got.status != 0 or got.error:
        return None
    events = history.events
    refused = places_without_memory(got.output, events)
    if not refused:
        return "as ever" if got.output == whole else None
    at = refused[0]
    without = program.run(history._replace(events=events[:at] + events[at + 1:]))[0].output
    return "an event" if got.output == with_refused(without, events, [at]) else None


def each_refusal(run_refused: Callable[[int], tuple[Answer, int]]) -> Iterator[tuple[int, Answer]]:
    """Each number, and what came of it, until a run meets no refusal."""
    for number in itertools.count(1):
        answer, refused = run_refused(number)
        if not refused:
            return
        yield number, answer


def again(program: Program, history: History, at: int, whole: str) -> tuple[int, int]:
    """How often the event was refused memory where it stands twice, and how often it was then answered otherwise."""
    twice = history.events[:at + 1] + history.events[at:]
    wanted = with_refused(whole, twice, [at])
    met = wrong = 0
    for _, got in each_refusal(lambda number: program.run(history._replace(events=twice), number)):
        if got.status == 0 and places_without_memory(got.output, twice)[:1] == [at]:
            met += 1
            wrong += got.output != wanted
    return met, wrong


def judge_test(got: Answer) -> str | None:
    """What came of a refused allocation in a test, as a word; or None where it is none of what may come."""
    status, out, err = got
    if status == 0:
        return "passed"
    return "no memory" if status > 0 and SAYS_NO_MEMORY.search(out + err) else None


def refuse_in_test(program: Program, name: str) -> tuple[Count, int]:
    """How often each came of the test's refused allocations, and how many differ."""
    count: Count = collections.Counter()
    for number, got in each_refusal(lambda number: program.call([name], REFUSE=number)):
        what = judge_test(got)
        if what is None:
            print(f"DIFFERS  {name}, allocation {number}: status {got.status}\n{got.output}{got.error}")
        count[what] += 1
    status = program.call([name])[0].status
    if not count or status != 0:
        print(f"DIFFERS  {name}: no allocation was refused, or it fails with all of them: status {status}")
        count[None] += 1
    return count, count[None]


def refuse_behind(program: Program, name: str) -> tuple[Count, int]:
    """How many allocations were refused, and whether a test without memory fails, or a call of it asks for memory."""
    (status, out, err), refused = program.call([name], REFUSE_BEHIND=MARK)
    bad = status != 0 or refused != 1
    if bad:
        print(f"DIFFERS  {name}: status {status}, {refused} allocations refused, not 1\n{out}{err}")
    return collections.Counter({"in vain": refused}), int(bad)


def try_tests(path: str, names: Sequence[str], refuse: Callable[[Program, str], tuple[Count, int]]) -> bool:
    """Whether a test is not in the program, or one differs."""
    bad = 0
    with temporary_folder() as folder:
        program = Program(path, folder)
        listed = {line.split(": ")[0] for line in program.call(["--list"])[0].output.splitlines()}
        for name in names:
            if name not in listed:
                print(f"DIFFERS  {name}: the program has no such test")
                bad += 1
                continue
            count, differ = refuse(program, name)
            bad += differ
            print(f"{name}: {sum(count.values())} allocations refused: {dict(count)}", flush=True)
    print(f"{bad} differ")
    return bad != 0


def try_histories(path: str, names: Sequence[str]) -> bool:
    """Whether a history differs."""
    bad = 0
    with temporary_folder() as folder:
        program = Program(path, folder)
        for name in names or HISTORIES:
            history = HISTORIES[name]
            whole = program.run(history)[0].output
            count: Count = collections.Counter()
            for number, got in each_refusal(lambda number: program.run(history, number)):
                what = judge(program, history, whole, got)
                if what is None:
                    bad += 1
                    print(f"DIFFERS  {name}, allocation {number}: status {got.status}, {got.error!r}\n{got.output}")
                count[what] += 1
            tried = [again(program, history, at, whole) for at in range(len(history.events))]
            met, otherwise = (sum(column) for column in zip(*tried))
            bad += otherwise
            print(f"{name}: {sum(count.values())} allocations refused: {dict(count)}; tried again {met} times,"
                f" {otherwise} answered otherwise")
    print(f"{bad} differ")
    return bad != 0


def main() -> int:
    parser = parser_of(__doc__)
    which = parser.add_mutually_exclusive_group()
    which.add_argument("--tests", action="store_true", help="PROGRAM is that of the tests of crates/manager_rows")
    which.add_argument("--without", action="store_true", help="likewise, for the calls that take no memory")
    parser.add_argument("program")
    parser.add_argument("names", nargs="*", metavar="name")
    given = parser.parse_args()
    if given.tests:
        return try_tests(given.program, TESTS, refuse_in_test)
    if given.without:
        return try_tests(given.program, WITHOUT, refuse_behind)
    return try_histories(given.program, given.names)


if __name__ == "__main__":
    sys.exit(main())
