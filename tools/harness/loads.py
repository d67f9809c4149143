"""Loads: tables with their rules and rows, and scripts over them."""
from __future__ import annotations

import sqlite3
from collections.abc import Iterable, Iterator, Sequence

from .texts import Path

MEMBERS = 4  # rows that belong to a shift or an owner
FIRST = 1_000_000  # what an account begins with

SHIFTS = "CREATE TABLE SHIFTS (ID INTEGER PRIMARY KEY);"
DUTY = "CREATE TABLE DUTY (ID INTEGER PRIMARY KEY, SHIFT INTEGER NOT NULL, ONCALL INTEGER NOT NULL);"
ACCT = "CREATE TABLE ACCT (ID INTEGER PRIMARY KEY, OWNER INTEGER NOT NULL, BAL INTEGER NOT NULL);"
ADD_ONE = "UPDATE ACCT SET BAL = BAL + 1 WHERE ID = ?"
# Someone is on call in each shift; no owner's accounts sum below zero.
COVERED = """NOT EXISTS (SELECT * FROM SHIFTS S WHERE NOT EXISTS\
 (SELECT * FROM DUTY D WHERE D.SHIFT = S.ID AND D.ONCALL = 1))"""
FUNDS = "NOT EXISTS (SELECT OWNER FROM ACCT GROUP BY OWNER HAVING SUM(BAL) < 0)"


def inserts(table: str, rows: Iterable[Iterable[object]]) -> Iterator[str]:
    """Definitions of rows, whose values stand there as they are written."""
    return (f"INSERT INTO {table} VALUES ({', '.join(map(str, row))});\n" for row in rows)


def accounts(keys: int) -> Iterator[tuple[int, int, int]]:
    """Accounts, of which each owner has some one behind the other."""
    return ((key, key // MEMBERS, FIRST) for key in range(keys))


def add_one(key: int) -> str:
    """The least change of an account, as a text."""
    return ADD_ONE.replace("?", str(key))


def ledger(keys: int) -> Iterator[str]:
    """Accounts and their rule."""
    yield f"{ACCT}\nCREATE ASSERTION FUNDS CHECK ({FUNDS});\n"
    yield from inserts("ACCT", accounts(keys))


def sqlite_ledger(path: Path, keys: int, synchronous: str = "FULL") -> sqlite3.Connection:
    """The accounts in a new file of SQLite, with a write-ahead log; it keeps no rule."""
    database = sqlite3.connect(path, isolation_level=None)
    database.execute("PRAGMA journal_mode=WAL")
    database.execute(f"PRAGMA synchronous={synchronous}")
    database.execute(ACCT)
    database.executemany("INSERT INTO ACCT VALUES (?, ?, ?)", accounts(keys))
    return database


def on_call(keys: int) -> Iterator[str]:
    """Persons in shifts, every other of them on call, and their rule."""
    yield f"{SHIFTS}\n{DUTY}\nCREATE ASSERTION COVERED CHECK ({COVERED});\n"
    yield from inserts("SHIFTS", ((shift,) for shift in range(keys // MEMBERS)))
    yield from inserts("DUTY", ((key, key // MEMBERS, 1 - key % 2) for key in range(keys)))


def script(events: Iterable[Sequence[str]]) -> Iterator[str]:
    """Lines of events, each of which is a session and a text; what else it has does not stand there."""
    return (f"{session}: {text};\n" for session, text, *_ in events)


def transactions(statements: Iterable[str], begin: str = "BEGIN", end: str = "COMMIT",
                 session: str = "A") -> Iterator[str]:
    """A transaction of each statement. With another word in the place of BEGIN each event is refused."""
    return script((session, text) for statement in statements for text in (begin, statement, end))
