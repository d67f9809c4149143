#!/usr/bin/env python3
"""Time of a SELECT with set functions: of all rows, by an index, and of groups.

    python3 bench/selects.py [--program PATH] [--rows 100000,1000000] [--repetitions 3]

Without --program the program is built first by `rt run` in crates/skewguard, which proves it. The table that
docs/PERFORMANCE.md holds is printed as it stands there.

T has a key, a column G with an index, in which ten rows have each value, a column K of ten values, and a number N. A
replay runs the same SELECT many times in one transaction; the processor time of a replay with an empty script, for
loading alone, is taken off. Reading the texts and writing the report are in it. SQLite, as Python's standard library
has it, does the same in memory, with the statement prepared once; of groups it is asked for them in order, which is how
skewguard lists them. Both sides have to give the same rows.
"""

from __future__ import annotations

import sqlite3
import sys
import time
from collections.abc import Iterator

from replays import (
    Figures, digits, loads, load_at_end, machine, measured_replay, numbers_of, parser_of, program_of, replay, replies,
    table, take_program, temporary_folder, written)

IN_A_GROUP = 10
KINDS = 10
TABLE = "CREATE TABLE T (ID INTEGER PRIMARY KEY, G INTEGER, K INTEGER, N INTEGER);\n"
INDEX = "CREATE INDEX BY_G ON T (G);\n"
BY_INDEX = "SELECT COUNT(*), SUM(N) FROM T WHERE G = 5"
SELECTS = [
    "SELECT COUNT(*) FROM T",
    "SELECT SUM(N) FROM T",
    "SELECT MIN(N), MAX(N) FROM T",
    "SELECT COUNT(DISTINCT N) FROM T",
    BY_INDEX,
    "SELECT K, COUNT(*), SUM(N) FROM T GROUP BY K",
    "SELECT G, COUNT(*), SUM(N) FROM T GROUP BY G HAVING SUM(N) > 9900",
    "SELECT G, K, MAX(N) FROM T GROUP BY G, K HAVING COUNT(*) > 10",
]
TRIED = 1000


def rows(count: int) -> Iterator[tuple[int, int, int, int]]:
    """So many rows; those of one value of G are far apart."""
    groups = count // IN_A_GROUP
    return ((key, key % groups, key % KINDS, key * 7919 % 10_007) for key in range(count))


def count_of(select: str, size: int) -> int:
    """How many times a SELECT is run: by the index many times, and of all rows so often that ten million are read."""
    return 20_000 if select is BY_INDEX else max(1, 10_000_000 // size)


def in_order(select: str) -> str:
    """The SELECT with its groups in the order of their values."""
    _, _, behind = select.partition(" GROUP BY ")
    return f"{select} ORDER BY {behind.split(' HAVING ')[0]}" if behind else select


def script(select: str, count: int) -> Iterator[str]:
    """One transaction of so many SELECTs."""
    yield "A: BEGIN;\n"
    for _ in range(count):
        yield f"A: {select};\n"
    yield "A: COMMIT;\n"


def loaded(size: int) -> sqlite3.Connection:
    """The table in SQLite."""
    made = sqlite3.connect(":memory:", isolation_level=None)
    made.execute(TABLE)
    made.executemany("INSERT INTO T VALUES (?, ?, ?, ?)", rows(size))
    made.execute(INDEX)
    return made


def definitions(size: int) -> Iterator[str]:
    """The table as skewguard reads it."""
    yield TABLE
    yield INDEX
    yield from loads.inserts("T", rows(size))


def try_once(program: str) -> None:
    """Ends the run where the two sides don't give the same rows."""
    made = loaded(TRIED)
    for select in SELECTS:
        answer = replay(program, "".join(definitions(TRIED)), "".join(script(select, 1)))
        told = [line.strip() for line in replies(answer.output)[1][1:]]
        wanted = [", ".join(map(str, row)) for row in made.execute(in_order(select))]
        if told != wanted or not wanted and " HAVING " not in select:
            sys.exit(f"{select} gave {len(told)} rows {told[:3]}, and of SQLite {len(wanted)} rows {wanted[:3]}")


def ours(program: str, size: int, figures: Figures) -> None:
    """Notes the time of each SELECT."""
    with temporary_folder() as folder:
        loads_rows = written(folder / "defs.sql", definitions(size))
        loading = measured_replay(program, loads_rows, written(folder / "empty.sql", [])).seconds
        for select in SELECTS:
            run = written(folder / "script.sql", script(select, count_of(select, size)))
            seconds = measured_replay(program, loads_rows, run).seconds - loading
            figures["skewguard", select, size].append(seconds / count_of(select, size) * 1e6)


def sqlite(size: int, figures: Figures) -> None:
    """The same of SQLite."""
    made = loaded(size)
    for select in SELECTS:
        asked = in_order(select)
        began = time.process_time()
        for _ in range(count_of(select, size)):
            made.execute(asked).fetchall()
        figures["SQLite", select, size].append((time.process_time() - began) / count_of(select, size) * 1e6)


def main() -> None:
    parser = parser_of(__doc__)
    take_program(parser)
    parser.add_argument("--rows", type=numbers_of, default=[100_000, 1_000_000])
    parser.add_argument("--repetitions", type=int, default=3)
    given = parser.parse_args()
    program = program_of(given)
    try_once(program)
    print(machine(given.repetitions))
    figures = Figures()
    for _ in range(given.repetitions):
        for size in given.rows:
            ours(program, size, figures)
            sqlite(size, figures)
    load_at_end()
    table(["SELECT", "rows", "skewguard, us", "SQLite, us"], (
        [f"`{select.removeprefix('SELECT ')}`", f"{size:,}", *(digits(figures.middle((side, select, size)))
         for side in ("skewguard", "SQLite"))]
        for size in given.rows for select in SELECTS))


if __name__ == "__main__":
    main()
