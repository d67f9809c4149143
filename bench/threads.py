#!/usr/bin/env python3
"""Committed transactions a second with sessions on threads, beside SQLite and PostgreSQL in the same run.

    python3 bench/threads.py [--program PATH] [--keys 100000] [--transactions 100000] [--sessions 1,2,4]
                             [--repetitions 3] [--without-postgres]

Without --program the program is built first by `rt run` in crates/skewguard, which proves it. Python 3.9 or later is
needed, and for PostgreSQL its server, initdb and pgbench. The table that docs/PERFORMANCE.md holds is printed as it
stands there.

The rule on each side: no owner's accounts sum below zero, and each owner has four. A transaction adds 1 to one account,
which is found by its key. On *disjoint* keys each session has owners of its own; on *contended* ones all draw from the
same ten owners. What counts is the time of the clock, and of each load only what was committed: a transaction that was
refused is not tried again.

- skewguard: `threads` on a script of so many transactions by each session, less the same script with COMMIT in the
  place of each BEGIN, of which every event is refused for want of a transaction: so loading, reading the script and
  writing the report are taken off.
- SQLite, as Python's standard library has it: one writer on a database in memory, with prepared statements and triggers
  that keep a total for each owner and refuse what would make the rule false. The calls from Python are in its time.
- PostgreSQL: SERIALIZABLE, by pgbench with prepared statements through a socket, on a folder in memory, without fsync.
  A trigger sums the owner's accounts by an index, and refuses what would make the rule false. The way through the
  socket is in its time.
"""

from __future__ import annotations

import os
import pathlib
import random
import re
import sqlite3
import statistics
import sys
import time
from collections.abc import Iterable, Iterator, Sequence

from replays import (
    Path, Word, digits, loads, machine, memory_folder, numbers_of, output_of, parser_of, program_of, servers, table,
    take_program, temporary_folder, written)

MEMBERS = loads.MEMBERS  # accounts of an owner
CONTENDED_OWNERS = 10

Rate = tuple[float, float]  # commits a second, and the share of refused transactions


def drawn_key(drawn: random.Random, keys: int, sessions: int, session: int, contended: bool) -> int:
    """An account of an owner that is the session's own, or of one of the owners that all share."""
    if contended:
        owner = drawn.randrange(CONTENDED_OWNERS)
    else:
        owner = drawn.randrange(keys // MEMBERS // sessions) * sessions + session
    return owner * MEMBERS + drawn.randrange(MEMBERS)


def script(keys: int, sessions: int, transactions: int, contended: bool, begin: str) -> Iterator[str]:
    """The events of all sessions. One after the other in the text, since each has a thread of its own."""
    for session in range(sessions):
        drawn = random.Random(session)
        keys_of_it = (drawn_key(drawn, keys, sessions, session, contended) for _ in range(transactions // sessions))
        updates = map(loads.add_one, keys_of_it)
        yield from loads.transactions(updates, begin, session=f"S{session}")


def clocked(words: Iterable[Word]) -> tuple[float, str]:
    """The seconds of a command by the clock, and its output."""
    start = time.perf_counter()
    output = output_of(words, timeout=None)
    return time.perf_counter() - start, output


def skewguard(program: Path, folder: pathlib.Path, keys: int, sessions: int, transactions: int,
              contended: bool) -> Rate:
    """What sessions on threads commit."""
    defs = written(folder / "defs.sql", loads.ledger(keys))
    whole = written(folder / "whole.sql", script(keys, sessions, transactions, contended, "BEGIN"))
    idle = written(folder / "idle.sql", script(keys, sessions, transactions, contended, "COMMIT"))
    words = [os.path.abspath(program), "threads"]
    taken, report = clocked([*words, defs, whole])
    rest, _ = clocked([*words, defs, idle])
    (commits,) = map(int, re.findall(r"^COMMITS (\d+)$", report, re.M))
    if not report.endswith("FUNDS TRUE\n"):
        sys.exit("skewguard: the rule does not hold")
    begun = transactions // sessions * sessions
    return commits / (taken - rest), 1 - commits / begun


TRIGGERS = [
    "CREATE TABLE FUNDS (OWNER INTEGER PRIMARY KEY, TOTAL INTEGER NOT NULL)",
    """CREATE TRIGGER ACCT_COMES AFTER INSERT ON ACCT BEGIN
        INSERT INTO FUNDS VALUES (NEW.OWNER, NEW.BAL) ON CONFLICT (OWNER) DO UPDATE SET TOTAL = TOTAL + NEW.BAL;
    END""",
    """CREATE TRIGGER BALANCE_CHANGES AFTER UPDATE OF BAL ON ACCT BEGIN
        UPDATE FUNDS SET TOTAL = TOTAL - OLD.BAL + NEW.BAL WHERE OWNER = NEW.OWNER;
        SELECT RAISE(ABORT, 'FUNDS') FROM FUNDS WHERE OWNER = NEW.OWNER AND TOTAL < 0;
    END""",
]


def sqlite(keys: int, transactions: int, contended: bool) -> float:
    """Commits a second of the one writer."""
    database = sqlite3.connect(":memory:", isolation_level=None)
    database.execute(loads.ACCT)
    for trigger in TRIGGERS:
        database.execute(trigger)
    database.execute("BEGIN")
    database.executemany("INSERT INTO ACCT VALUES (?, ?, ?)", loads.accounts(keys))
    database.execute("COMMIT")
    drawn = random.Random(0)
    chosen = [drawn_key(drawn, keys, 1, 0, contended) for _ in range(transactions)]
    start = time.perf_counter()
    for key in chosen:
        database.execute("BEGIN IMMEDIATE")
        database.execute(loads.ADD_ONE, (key,))
        database.execute("COMMIT")
    return transactions / (time.perf_counter() - start)


RULE = """
CREATE FUNCTION funds() RETURNS trigger LANGUAGE plpgsql AS $$ BEGIN
    IF (SELECT SUM(bal) FROM acct WHERE owner = NEW.owner) < 0 THEN RAISE EXCEPTION 'funds'; END IF;
    RETURN NULL;
END $$;
CREATE INDEX ON acct (owner);
CREATE TRIGGER funds AFTER UPDATE ON acct FOR EACH ROW EXECUTE FUNCTION funds();
"""


class Postgres(servers.Server):
    """A server with the accounts and the rule."""

    def __init__(self, folder: Path, keys: int) -> None:
        super().__init__(folder)
        self.sql("CREATE TABLE acct (id integer PRIMARY KEY, owner integer NOT NULL, bal bigint NOT NULL);"
            f"INSERT INTO acct SELECT i, i / {MEMBERS}, {loads.FIRST} FROM generate_series(0, {keys - 1}) AS i;"
            f"{RULE}VACUUM ANALYZE acct;")

    def sql(self, text: str) -> None:
        """Runs statements; a VACUUM has to stand alone."""
        for statement in text.split("VACUUM"):
            vacuum = "VACUUM" if statement.startswith(" ANALYZE") else ""
            words = ["-h", self.folder, "-U", "postgres", "-v", "ON_ERROR_STOP=1", "-q", "-c", vacuum + statement]
            self.run("psql", *words)

    def commits(self, keys: int, sessions: int, transactions: int, contended: bool) -> Rate:
        """What so many clients commit."""
        owners = keys // MEMBERS // sessions
        own = f"random(0, {owners - 1}) * {sessions} + :client_id"
        owner = f"random(0, {CONTENDED_OWNERS - 1})" if contended else own
        text = f"\\set key ({owner}) * {MEMBERS} + random(0, {MEMBERS - 1})\n"
        text += "BEGIN;\nUPDATE acct SET bal = bal + 1 WHERE id = :key;\nCOMMIT;\n"
        path = written(f"{self.folder}/load.sql", [text])
        os.chmod(path, 0o644)
        clients = ["-c", str(sessions), "-j", str(sessions), "-t", str(transactions // sessions)]
        told = self.run("pgbench", "-h", self.folder, "-U", "postgres", "-n", "-M", "prepared", *clients, "-f", path,
            "postgres")
        failed = re.search(r"number of failed transactions: (\d+)", told)
        refused = int(failed.group(1)) / transactions if failed else 0.0
        return float(re.findall(r"tps = ([\d.]+)", told)[0]), refused


def row(load: str, sessions: int, ours: Sequence[Rate], lite: Sequence[float], theirs: Sequence[Rate]) -> list[str]:
    """A line of the table."""
    def pair(figures: Sequence[Rate]) -> tuple[str, str]:
        if not figures:
            return "-", "-"
        each, share = (statistics.median(column) for column in zip(*figures))
        return digits(each, 3), f"{100 * share:.1f} %"

    return [load, str(sessions), *pair(ours), digits(statistics.median(lite), 3) if lite else "-", *pair(theirs)]


def main() -> None:
    parser = parser_of(__doc__, whole=True)
    take_program(parser)
    parser.add_argument("--keys", type=int, default=100_000)
    parser.add_argument("--transactions", type=int, default=100_000)
    parser.add_argument("--sessions", default="1,2,4")
    parser.add_argument("--repetitions", type=int, default=3)
    parser.add_argument("--without-postgres", action="store_true")
    given = parser.parse_args()
    program = program_of(given)
    print(machine(given.repetitions))
    memory = memory_folder()
    with temporary_folder(memory) as folder, temporary_folder(memory) as data:
        server = None if given.without_postgres else Postgres(data, given.keys)
        lines = []
        for contended in (False, True):
            for sessions in numbers_of(given.sessions):
                ours: list[Rate] = []
                lite: list[float] = []
                theirs: list[Rate] = []
                for _ in range(given.repetitions):
                    ours.append(skewguard(program, folder, given.keys, sessions, given.transactions, contended))
                    if sessions == 1:
                        lite.append(sqlite(given.keys, given.transactions, contended))
                    if server:
                        theirs.append(server.commits(given.keys, sessions, given.transactions // 4, contended))
                lines.append(row("contended" if contended else "disjoint", sessions, ours, lite, theirs))
        if server:
            server.stop()
    table(["keys", "sessions", "skewguard, commits a second", "refused", "SQLite", "PostgreSQL", "refused"], lines)


if __name__ == "__main__":
    main()
