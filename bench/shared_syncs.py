#!/usr/bin/env python3
"""Commits a second of threads that share a manager with a journal from Python, and of as many connections of SQLite and
of PostgreSQL.

    SKEWGUARD_LIBRARY=LIBRARY PYTHONPATH=FOLDER python3 bench/shared_syncs.py [--commits 4000] [--repetitions 5]
        [--folder FOLDER]

LIBRARY is a libskewguard.so, and FOLDER has the package skewguard with its extension. A transaction is one UPDATE of a
row by its key under a rule by groups, made in one call; each thread has rows of its own. SQLite has a write-ahead log
and synchronous=FULL. PostgreSQL has fsync and synchronous_commit, its clients are those of pgbench, over a socket, with
prepared statements, and its transactions are serializable; where there is no server there are dashes. Neither of the
two keeps the rule. The sides take turns on one disk, and the table that docs/PERFORMANCE.md holds is printed, of
medians.
"""

from __future__ import annotations

import argparse
import contextlib
import pathlib
import re
import sqlite3
import statistics
import threading
import time
from collections.abc import Callable, Iterator

import skewguard
from replays import Path, loads, parser_of, servers, table, temporary_folder, written

ROWS = 1024
THREADS = 1, 4, 16
OWN = ROWS // max(THREADS)
DURABLE = {"fsync": "on", "synchronous_commit": "on", "full_page_writes": "on"}


def keys_of(thread: int, commits: int) -> Iterator[int]:
    """Keys of a thread's own, each of another owner than the one before it."""
    return (OWN * thread + at * loads.MEMBERS % OWN for at in range(commits))


def seconds_of(work: Callable[[int], None], threads: int) -> float:
    """How long threads take that each do a work by its number."""
    started = [threading.Thread(target=work, args=(thread,)) for thread in range(threads)]
    began = time.perf_counter()
    for thread in started:
        thread.start()
    for thread in started:
        thread.join()
    return time.perf_counter() - began


def timed_skewguard(folder: pathlib.Path, threads: int, commits: int) -> float:
    """The seconds of so many commits with a journal."""
    with skewguard.open("".join(loads.ledger(ROWS)), journal=folder / "journal") as manager:
        def work(thread: int) -> None:
            for key in keys_of(thread, commits // threads):
                manager.run_transaction([(loads.ADD_ONE, (key,))])

        return seconds_of(work, threads)


def timed_sqlite(folder: pathlib.Path, threads: int, commits: int) -> float:
    """The same of SQLite."""
    path = folder / "sqlite.db"
    loads.sqlite_ledger(path, ROWS).close()

    def work(thread: int) -> None:
        own = sqlite3.connect(path, isolation_level=None, timeout=60)
        own.execute("PRAGMA synchronous=FULL")
        for key in keys_of(thread, commits // threads):
            own.execute("BEGIN IMMEDIATE")
            own.execute(loads.ADD_ONE, (key,))
            own.execute("COMMIT")
        own.close()

    return seconds_of(work, threads)


@contextlib.contextmanager
def postgresql(folder: Path | None) -> Iterator[servers.Server | None]:
    """A server with the accounts, on the same disk; None where there is none."""
    if not servers.server_programs():
        yield None
        return
    with temporary_folder(folder) as data:
        server = servers.Server(data, DURABLE)
        try:
            rows = written(data / "accounts.sql", [loads.ACCT, *loads.inserts("ACCT", loads.accounts(ROWS))])
            server.run("psql", "-Xq", "-h", server.folder, "-U", "postgres", "-f", rows, "postgres")
            key = f"\\set id :client_id * {OWN} + random(0, {OWN - 1})"
            written(data / "update.sql", [f"{key}\n{loads.ADD_ONE.replace('?', ':id')};\n"])
            yield server
        finally:
            server.stop()


def timed_postgresql(server: servers.Server, threads: int, commits: int) -> float:
    """The same of PostgreSQL."""
    clients = ["-c", str(threads), "-j", str(threads), "-t", str(commits // threads)]
    where = ["-h", server.folder, "-U", "postgres", "-f", f"{server.folder}/update.sql", "postgres"]
    told = server.run("pgbench", "-n", "-M", "prepared", *clients, *where)
    (rate,) = re.findall(r"^tps = ([\d.]+) \(without", told, re.MULTILINE)
    return commits / float(rate)


def main() -> None:
    parser = parser_of(__doc__)
    parser.add_argument("--commits", type=int, default=4000)
    parser.add_argument("--repetitions", type=int, default=5)
    parser.add_argument("--folder", default=None)
    words = parser.parse_args()
    with postgresql(words.folder) as server:
        rows = [row_of(threads, server, words) for threads in THREADS]
    table(["threads", "skewguard with a journal", "SQLite, WAL, FULL", "PostgreSQL, synchronous_commit"], rows)


def row_of(threads: int, server: servers.Server | None, words: argparse.Namespace) -> list[str]:
    """The rates of so many threads."""
    sides = [timed_skewguard, timed_sqlite]
    seconds: list[list[float]] = [[] for _ in range(3)]
    for _ in range(words.repetitions):
        for each, timed in zip(seconds, sides):
            with temporary_folder(words.folder) as folder:
                each.append(timed(folder, threads, words.commits))
        if server:
            seconds[2].append(timed_postgresql(server, threads, words.commits))
    rates = (f"{words.commits / statistics.median(each):,.0f}" if each else "-" for each in seconds)
    return [str(threads), *rates]


if __name__ == "__main__":
    main()
