#!/usr/bin/env python3
"""Commits a second with a journal, and how long it takes to open one: skewguard's shell, and SQLite on the same disk.

    python3 bench/journal.py [PROGRAM] [--commits 3000] [--open 100000] [--repetitions 5] [--folder FOLDER]

A transaction is BEGIN, one UPDATE of a row by its key under a rule by groups, and COMMIT, by one session, each COMMIT
synced by itself or up to so many with one sync. The sides take turns on the same folder: the shell with --journal, the
shell without, SQLite through the module sqlite3 with a write-ahead log, synchronous=FULL and then NORMAL (which may
lose what was acknowledged), and a bare fdatasync of 80 bytes over zeros. `threads` takes turns with them, with and
without --journal, the transactions shared out among so many sessions, each over owners of its own. The table that
docs/PERFORMANCE.md holds is printed as it stands there, of medians. Each answer of the shell is looked at. To open: a
journal of so many commits is made without a sync, line by line as the shell writes them, and a shell without events is
timed on it.
"""

import functools
import os
import pathlib
import statistics
import sys
import time
from collections.abc import Callable

from replays import (
    PROGRAM, Answer, Figures, Path, Word, lines_of, loads, parser_of, run, spelled, temporary_folder, written)

ROWS = 1000
SHARED = 4, 16, 1000  # so many commits share a sync
SESSIONS = 1, 4, 16  # on so many threads


def events(commits: int) -> str:
    """So many transactions of one session."""
    return "".join(f"BEGIN; {loads.add_one(at * 7 % ROWS)}; COMMIT;\n" for at in range(commits))


def run_shell(program: Path, folder: pathlib.Path, script: str, *options: Word) -> Answer:
    """A shell over the accounts, which has to end well."""
    answer = run([program, "shell", folder / "defs.sql", *options], script, timeout=None)
    return answer if not answer.status else sys.exit(f"the shell has ended with {answer.status}: {answer.error}")


def timed_shell(program: Path, folder: pathlib.Path, commits: int, *options: Word) -> float:
    """Seconds of a shell that answers so many transactions."""
    script = events(commits)
    began = time.perf_counter()
    done = run_shell(program, folder, script, *options)
    seconds = time.perf_counter() - began
    if done.output.count("ME: COMMIT ") != commits:
        sys.exit("not each COMMIT was accepted")
    return seconds


def timed_threads(program: Path, folder: pathlib.Path, commits: int, sessions: int, *options: Word) -> float:
    """Seconds of so many transactions of sessions on threads, each over owners of its own. The last option is a new
    journal."""
    for path in options[1:]:
        pathlib.Path(str(path)).unlink(missing_ok=True)
    each, keys = commits // sessions, ROWS // sessions // loads.MEMBERS * loads.MEMBERS
    script = written(folder / "script.sql", (line for session in range(sessions) for line in loads.transactions(
        (loads.add_one(session * keys + at * 7 % keys) for at in range(each)), session=f"S{session}")))
    began = time.perf_counter()
    done = run([program, "threads", folder / "defs.sql", script, *options], timeout=None)
    seconds = time.perf_counter() - began
    if done.status or done.output.count(": COMMIT ") != each * sessions:
        sys.exit(f"not each COMMIT was accepted: {done.error}")
    return seconds


def timed_sqlite(folder: pathlib.Path, commits: int, synchronous: str) -> float:
    """The same of SQLite, with this setting."""
    path = folder / "sqlite.db"
    for old in folder.glob("sqlite.db*"):
        old.unlink()
    database = loads.sqlite_ledger(path, ROWS, synchronous)
    began = time.perf_counter()
    for at in range(commits):
        database.execute("BEGIN")
        database.execute(loads.ADD_ONE, (at * 7 % ROWS,))
        database.execute("COMMIT")
    seconds = time.perf_counter() - began
    database.close()
    return seconds


def timed_syncs(folder: pathlib.Path, commits: int) -> float:
    """The same of nothing but writes, each with its sync."""
    path = folder / "bare"
    path.write_bytes(bytes(100 * commits))
    with open(path, "r+b", buffering=0) as file:
        os.fsync(file.fileno())
        began = time.perf_counter()
        for at in range(commits):
            os.pwrite(file.fileno(), b"x" * 80, 80 * at)
            os.fdatasync(file.fileno())
        return time.perf_counter() - began


def timed_opening(program: Path, folder: pathlib.Path, commits: int) -> float:
    """Seconds in which a journal of so many commits is opened."""
    path = folder / "long"
    path.unlink(missing_ok=True)
    timed_shell(program, folder, 1, "--journal", path)
    held = path.read_bytes()
    balances = [balance for *_, balance in loads.accounts(ROWS)]
    balances[0] += 1
    lines = []
    for number in range(2, commits + 1):
        key = number * 7 % ROWS
        row, old = (3, key, key // loads.MEMBERS), balances[key]
        balances[key] += 1
        fields = (number, number - 1, 1, 0, key, *row, old, *row, balances[key])
        lines.append(spelled(str(field).encode() for field in fields))
    path.write_bytes(held[:lines_of(held)[-1].end] + b"".join(lines) + bytes(1 << 16))
    began = time.perf_counter()
    run_shell(program, folder, "", "--journal", path)
    return time.perf_counter() - began


def main() -> None:
    parser = parser_of(__doc__)
    parser.add_argument("program", nargs="?", default=str(PROGRAM))
    parser.add_argument("--commits", type=int, default=3000)
    parser.add_argument("--open", type=int, default=100_000)
    parser.add_argument("--repetitions", type=int, default=5)
    parser.add_argument("--folder", default=None)
    words = parser.parse_args()
    with temporary_folder(words.folder) as folder:
        written(folder / "defs.sql", loads.ledger(ROWS))
        sides, seconds = sides_of(words.program, folder, words.commits), Figures()
        for _ in range(words.repetitions):
            for side, timed in sides.items():
                seconds[side].append(timed())
        print("| one session where no more are named, a sync each but where more share one | commits a second |")
        print("|---|---|")
        for side in sides:
            print(f"| {side} | {words.commits / seconds.median(side):,.0f} |")
        opening = statistics.median(timed_opening(words.program, folder, words.open) for _ in range(words.repetitions))
        print(f"\nA journal of {words.open:,} commits over {ROWS:,} rows is opened in {opening:.2f} s.")


def sides_of(program: Path, folder: pathlib.Path, commits: int) -> dict[str, Callable[[], float]]:
    """What is held against what: for each side what gives the seconds of so many transactions."""
    fresh = functools.partial(timed_fresh, program, folder, commits)
    shared = {f"`shell --journal`, up to {most} commits a sync": functools.partial(fresh, "--sync-every", most)
        for most in SHARED}
    kept_and_not: list[list[Word]] = [["--journal", folder / "of_threads"], []]
    threads = {f"`threads{' --journal' * bool(options)}`, {sessions} {'session' if sessions == 1 else 'sessions'}":
        functools.partial(timed_threads, program, folder, commits, sessions, *options)
        for options in kept_and_not for sessions in SESSIONS}
    return {
        "`shell --journal`": fresh,
        **shared,
        **threads,
        "`shell`, in memory alone": lambda: timed_shell(program, folder, commits),
        "SQLite, WAL, FULL": lambda: timed_sqlite(folder, commits, "FULL"),
        "SQLite, WAL, NORMAL": lambda: timed_sqlite(folder, commits, "NORMAL"),
        "a bare fdatasync of 80 bytes": lambda: timed_syncs(folder, commits),
    }


def timed_fresh(program: Path, folder: pathlib.Path, commits: int, *options: Word) -> float:
    """Seconds of a shell that makes a journal and keeps so many transactions in it."""
    (folder / "journal").unlink(missing_ok=True)
    return timed_shell(program, folder, commits, "--journal", folder / "journal", *options)


if __name__ == "__main__":
    main()
