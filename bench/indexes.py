#!/usr/bin/env python3
"""Time of a statement whose WHERE wants a value of a column that is not the key, with an index by it and without.

    python3 bench/indexes.py [--program PATH] [--rows 10000,100000,1000000] [--repetitions 5]

Without --program the program is built first by `rt run` in crates/skewguard, which proves it. The table that
docs/PERFORMANCE.md holds is printed as it stands there.

Ten rows have each value. A replay runs one transaction of SELECTs, or of UPDATEs of the ten rows, each of a value of
its own; the processor time of a replay with an empty script, for loading alone, is taken off. Reading the texts and
writing the report are in it. SQLite, as Python's standard library has it, does the same in memory, by statements that
are prepared once. Without an index both look at all rows, so fewer statements are run. Each side has to find ten rows
at each statement.
"""

from __future__ import annotations

import sqlite3
import sys
import time
from collections.abc import Iterator

from replays import (
    Figures, digits, loads, load_at_end, machine, measured_replay, numbers_of, parser_of, program_of, replay, replies,
    table, take_program, temporary_folder, written)

IN_A_GROUP = 10
TABLE = "CREATE TABLE ACCT (ID INTEGER PRIMARY KEY, OWNER INTEGER, BAL INTEGER);\n"
INDEX = "CREATE INDEX BYOWNER ON ACCT (OWNER);\n"
SELECT, UPDATE = "SELECT ID, BAL FROM ACCT WHERE OWNER = ?", "UPDATE ACCT SET BAL = BAL + 1 WHERE OWNER = ?"
STATEMENTS = {"SELECT": SELECT, "UPDATE": UPDATE}


def rows(count: int) -> Iterator[tuple[int, int, int]]:
    """So many rows, of which ten have each owner; those of one owner are far apart."""
    owners = count // IN_A_GROUP
    return ((key, key % owners, key * 37 % 1000) for key in range(count))


def count_of(size: int, is_indexed: bool) -> int:
    """How many statements are run: without an index so many that some hundred million rows are looked at."""
    return 20_000 if is_indexed else max(5, 100_000_000 // size // 5)


def owner_of(number: int, size: int) -> int:
    """The owner that a statement asks for."""
    return number * 7919 % (size // IN_A_GROUP)


def script(statement: str, size: int, count: int) -> Iterator[str]:
    """One transaction of so many statements."""
    yield "A: BEGIN;\n"
    for number in range(count):
        yield f"A: {statement.replace('?', str(owner_of(number, size)))};\n"
    yield "A: COMMIT;\n"


def try_once(program: str, is_indexed: bool) -> None:
    """Ends the run where a statement does not find its ten rows."""
    definitions = TABLE + (INDEX if is_indexed else "") + "".join(loads.inserts("ACCT", rows(100)))
    for word, statement in STATEMENTS.items():
        answer = replay(program, definitions, "".join(script(statement, 100, 3)))
        told = [lines[0] for lines in replies(answer.output)][1:4]
        if told != [f"A: {word} {IN_A_GROUP}"] * 3:
            sys.exit(f"{word} was answered {told}")


def ours(program: str, size: int, is_indexed: bool, figures: Figures) -> None:
    """Notes the time of a statement of each kind."""
    with temporary_folder() as folder:
        index = INDEX if is_indexed else ""
        definitions = written(folder / "defs.sql", [TABLE, index, *loads.inserts("ACCT", rows(size))])
        empty = written(folder / "empty.sql", [])
        loading = measured_replay(program, definitions, empty).seconds
        for word, statement in STATEMENTS.items():
            count = count_of(size, is_indexed)
            run = written(folder / "script.sql", script(statement, size, count))
            seconds = measured_replay(program, definitions, run).seconds - loading
            figures["skewguard", word, size, is_indexed].append(seconds / count * 1e6)


def sqlite(size: int, is_indexed: bool, figures: Figures) -> None:
    """The same of SQLite."""
    made = sqlite3.connect(":memory:", isolation_level=None)
    made.execute(TABLE)
    made.executemany("INSERT INTO ACCT VALUES (?, ?, ?)", rows(size))
    if is_indexed:
        made.execute(INDEX)
    for word, statement in STATEMENTS.items():
        count = count_of(size, is_indexed)
        made.execute("BEGIN")
        began = time.process_time()
        for number in range(count):
            done = made.execute(statement, (owner_of(number, size),))
            found = len(done.fetchall()) if word == "SELECT" else done.rowcount
            if found != IN_A_GROUP:
                sys.exit(f"SQLite found {found} rows")
        figures["SQLite", word, size, is_indexed].append((time.process_time() - began) / count * 1e6)
        made.execute("COMMIT")


def main() -> None:
    parser = parser_of(__doc__)
    take_program(parser)
    parser.add_argument("--rows", type=numbers_of, default=[10_000, 100_000, 1_000_000])
    parser.add_argument("--repetitions", type=int, default=5)
    given = parser.parse_args()
    program = program_of(given)
    for is_indexed in (True, False):
        try_once(program, is_indexed)
    print(machine(given.repetitions))
    figures = Figures()
    for _ in range(given.repetitions):
        for size in given.rows:
            for is_indexed in (True, False):
                ours(program, size, is_indexed, figures)
                sqlite(size, is_indexed, figures)
    load_at_end()
    sides = [(side, is_indexed) for is_indexed in (True, False) for side in ("skewguard", "SQLite")]
    heads = [f"{side}, {'by the index' if is_indexed else 'no index'}, us" for side, is_indexed in sides]
    table(["statement", "rows", *heads], (
        [word, f"{size:,}", *(digits(figures.middle((side, word, size, is_indexed))) for side, is_indexed in sides)]
        for word in STATEMENTS for size in given.rows))


if __name__ == "__main__":
    main()
