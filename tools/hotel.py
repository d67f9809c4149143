#!/usr/bin/env python3
"""A hotel's desks on four threads, of which one is interrupted again and again, as by Ctrl-C.

    tools/hotel.py [--minutes 1] [--commits 20000] [--seed 1]

Python has to find the package and the library (PYTHONPATH, SKEWGUARD_LIBRARY); SKEWGUARD_CTYPES=1 chooses ctypes.

Desks book, move, exchange and cancel stays, by blocks, functions that run again, and connections; they forget
transactions, take any of hundreds of session names, and run more texts than are kept. The desk of the main thread gets
a SIGINT at a random moment of each few milliseconds. What a desk reads has to keep the rules, worked out here anew.
When an epoch is full, the threads have to end, what is stored has to keep the rules and to agree with the counts that
each transaction kept in a table of its own, 256 transactions have to find a place, and a checkpoint has to find none
open; then the next epoch begins. The last line says what was done. A desk that is stuck ends the run, with the place.
"""
from __future__ import annotations

import collections
import contextlib
import faulthandler
import gc
import random
import signal
import subprocess
import sys
import threading
import time
import typing
from collections.abc import Iterable, Sequence

import skewguard
from harness.arguments import parser_of
from harness.programs import pipe
from skewguard import dbapi

T = typing.TypeVar("T")

DEFINITIONS = """
CREATE TABLE ROOMS (ID INTEGER PRIMARY KEY, BEDS INTEGER NOT NULL);
CREATE TABLE STAYS (ID INTEGER PRIMARY KEY, ROOM INTEGER NOT NULL, FROM_DAY INTEGER NOT NULL, TO_DAY INTEGER NOT NULL,
    GUESTS INTEGER NOT NULL);
CREATE TABLE DESKS (ID INTEGER PRIMARY KEY, BOOKED INTEGER NOT NULL, CANCELLED INTEGER NOT NULL);
CREATE ASSERTION NOTWICE CHECK (NOT EXISTS (SELECT * FROM STAYS A WHERE EXISTS (SELECT * FROM STAYS B
    WHERE B.ROOM = A.ROOM AND B.ID <> A.ID AND B.FROM_DAY < A.TO_DAY AND A.FROM_DAY < B.TO_DAY))) DEFERRABLE;
CREATE ASSERTION BEDS CHECK (NOT EXISTS (SELECT * FROM STAYS S WHERE EXISTS (SELECT * FROM ROOMS R
    WHERE R.ID = S.ROOM AND R.BEDS < S.GUESTS)));
CREATE ASSERTION THEREIS CHECK (NOT EXISTS (SELECT * FROM STAYS S WHERE NOT EXISTS (SELECT * FROM ROOMS R
    WHERE R.ID = S.ROOM)));
CREATE ASSERTION ANIGHT CHECK (NOT EXISTS (SELECT * FROM STAYS WHERE TO_DAY <= FROM_DAY));
CREATE ASSERTION ENOUGH CHECK ((SELECT COUNT(*) FROM STAYS) <= 60);
"""
RULES = 5
BEDS = {room: 1 + room % 4 for room in range(1, 9)}
DESKS = 4
DAYS = 30
SESSIONS = 256
STUCK = 300  # seconds without an interrupt, and those for the threads to end

# Sends SIGINT to its parent, as often as it is asked to, at a random moment of the next milliseconds.
SENDER = """
import os, random, signal, sys, time
for line in sys.stdin:
    until = time.perf_counter() + float(line) * random.random()
    while time.perf_counter() < until:
        pass
    os.kill(os.getppid(), signal.SIGINT)
"""


def faults(stays: skewguard.Result | Sequence[skewguard.Row]) -> set[str]:
    """The rules that rows break, by their names."""
    found = set()
    by_rooms: dict[int, list[tuple[int, int]]] = collections.defaultdict(list)
    for stay in stays:
        by_rooms[stay.ROOM].append((stay.FROM_DAY, stay.TO_DAY))
        if stay.ROOM not in BEDS:
            found.add("THEREIS")
        elif BEDS[stay.ROOM] < stay.GUESTS:
            found.add("BEDS")
        if stay.TO_DAY <= stay.FROM_DAY:
            found.add("ANIGHT")
    for nights in by_rooms.values():
        nights.sort()
        if any(before[1] > behind[0] for before, behind in zip(nights, nights[1:])):
            found.add("NOTWICE")
    if len(stays) > 60:
        found.add("ENOUGH")
    return found


class Desk:
    """What one thread does."""

    def __init__(self, manager: skewguard.Manager, number: int, seed: str) -> None:
        self.manager, self.number, self.drawn = manager, number, random.Random(seed)
        self.connection = dbapi.connect(manager, session=f"DESK{number}")
        self.count: collections.Counter[str] = collections.Counter()
        self.works = [self.book] * 6 + [self.cancel, self.move, self.exchange, self.read] * 2 + [self.forget]

    def serve(self) -> None:
        """Does one thing, which the rules or the other desks may refuse. Raises EpochFull."""
        work = self.drawn.choice(self.works)
        try:
            work()
            self.count[work.__name__] += 1
        except skewguard.RuleViolated as refused:
            self.count[f"refused by {refused.rule}"] += 1
        except skewguard.SerializationFailure:
            self.count["others were in the way"] += 1
        except skewguard.ProgrammingError as refused:
            if refused.number != 15:  # another desk has a transaction open in the session of that name
                raise
            self.count["session in use"] += 1

    def note(self, t: skewguard.Transaction, column: str) -> None:
        t.execute(f"UPDATE DESKS SET {column} = {column} + 1 WHERE ID = ?", [self.number])

    def one_of(self, found: Iterable[T]) -> T | None:
        return self.drawn.choice(list(found)) if found else None

    def book(self) -> None:
        day = self.drawn.randrange(DAYS)
        stay = {"id": self.drawn.randrange(10**15), "room": self.drawn.randrange(1, 10), "day": day}
        stay |= {"end": day + self.drawn.randrange(5), "guests": self.drawn.randrange(1, 4)}

        def insert(t: skewguard.Transaction) -> None:
            t.execute("INSERT INTO STAYS VALUES (:id, :room, :day, :end, :guests);", stay)
            self.note(t, "BOOKED")

        self.manager.run(insert, retry=100)

    def cancel(self) -> None:
        with self.manager.transaction(session=f"GUEST{self.drawn.randrange(400)}") as t:
            stay = self.one_of(t.execute(f"SELECT ID FROM STAYS WHERE ROOM >= {self.drawn.randrange(1, 9)}"))
            if stay:
                t.execute("DELETE FROM STAYS WHERE ID = ?", stay)
                self.note(t, "CANCELLED")

    def move(self) -> None:
        cursor = self.connection.cursor()
        stay = self.one_of(cursor.execute("SELECT * FROM STAYS").fetchall())
        try:
            if stay:
                days = [stay.FROM_DAY + 1, stay.TO_DAY + 1, stay.ID]
                cursor.execute("UPDATE STAYS SET FROM_DAY = ?, TO_DAY = ? WHERE ID = ?", days)
            self.connection.commit()
        finally:
            self.connection.rollback()

    def exchange(self) -> None:
        """Two stays exchange their rooms, which breaks a rule in between."""
        with self.manager.transaction() as t:
            t.set_constraints("NOTWICE", deferred=True)
            stays = list(t.execute("SELECT * FROM STAYS"))
            if len(stays) > 1:
                one, other = self.drawn.sample(stays, 2)
                for stay, room in ((one, other.ROOM), (other, one.ROOM)):
                    t.execute("UPDATE STAYS SET ROOM = ? WHERE ID = ?", [room, stay.ID])

    def read(self) -> None:
        with self.manager.transaction(read_only=True) as t:
            stays = list(t.execute("SELECT * FROM STAYS"))
            for _ in range(3):
                t.execute(f"SELECT ID FROM STAYS WHERE GUESTS = {self.drawn.randrange(1000)}")
        if faults(stays):
            sys.exit(f"a transaction reads what breaks {', '.join(faults(stays))}")

    def forget(self) -> None:
        t = self.manager.begin()
        t.execute("UPDATE DESKS SET BOOKED = BOOKED + 1000 WHERE ID = ?", [self.number])

    def work(self, failed: list[BaseException]) -> None:
        """Serves until the epoch is full."""
        try:
            with contextlib.suppress(skewguard.EpochFull):
                while True:
                    self.serve()
        except BaseException as error:
            failed.append(error)
            raise


def work_interrupted(desk: Desk, sender: subprocess.Popen[str]) -> None:
    """The same on the main thread, with an interrupt every few milliseconds."""
    is_full = False
    while not is_full:
        faulthandler.dump_traceback_later(STUCK, exit=True)
        try:
            pipe(sender.stdin).write("0.01\n")
            pipe(sender.stdin).flush()
            with contextlib.suppress(skewguard.EpochFull):
                while True:
                    desk.serve()
            is_full = True
            time.sleep(60)
            sys.exit("no interrupt came")
        except KeyboardInterrupt:
            desk.count["interrupts"] += 1


def check(manager: skewguard.Manager, desks: Sequence[Desk], commits: int) -> None:
    """What has to hold when the desks have ended."""
    for desk in desks:
        desk.connection.rollback()  # which an interrupt may have kept a desk from
    gc.collect()
    held = [manager.begin() for _ in range(SESSIONS)]
    stays, kept = (held[0].execute(f"SELECT * FROM {table}") for table in ("STAYS", "DESKS"))
    for t in held:
        t.rollback()
    if faults(stays):
        sys.exit(f"what is stored breaks {', '.join(faults(stays))}")
    if sum(row.BOOKED - row.CANCELLED for row in kept) != len(stays):
        sys.exit(f"{len(stays)} stays are stored, and the desks have counted {list(kept)}")
    for desk, row in zip(desks, kept):
        # (an interrupt may come behind a COMMIT, before the desk counts it)
        if not 0 <= row.BOOKED - desk.count["book"] <= desk.count["interrupts"]:
            sys.exit(f"a desk knows of {dict(desk.count)}, and this is stored: {row}")
    report = manager.report().splitlines()
    if report[0] != f"COMMITS {commits}" or sum(line.endswith(" TRUE") for line in report[-RULES:]) != RULES:
        sys.exit(f"the report begins with {report[0]}, and ends with {report[-RULES:]}")
    manager.checkpoint()


def serve_an_epoch(desks: Sequence[Desk], sender: subprocess.Popen[str]) -> None:
    """All desks work until the epoch is full, and have to end then."""
    failed: list[BaseException] = []
    threads = [threading.Thread(target=desk.work, args=(failed,), daemon=True) for desk in desks[1:]]
    for thread in threads:
        thread.start()
    work_interrupted(desks[0], sender)
    for thread in threads:
        thread.join()
    if failed:
        sys.exit("a desk has failed")


def main() -> None:
    words = parser_of(__doc__)
    words.add_argument("--minutes", type=float, default=1)
    words.add_argument("--commits", type=int, default=20_000, help="those of an epoch")
    words.add_argument("--seed", type=int, default=1)
    given = words.parse_args()
    until, epochs = time.monotonic() + 60 * given.minutes, 0
    total: collections.Counter[str] = collections.Counter()
    rooms = "".join(f"INSERT INTO ROOMS VALUES ({room}, {beds});" for room, beds in BEDS.items())
    counts = "".join(f"INSERT INTO DESKS VALUES ({number}, 0, 0);" for number in range(DESKS))
    signal.signal(signal.SIGINT, signal.default_int_handler)  # a shell leaves it out for what runs in the background
    with subprocess.Popen([sys.executable, "-c", SENDER], stdin=subprocess.PIPE, text=True) as sender:
        with skewguard.open(DEFINITIONS + rooms + counts, max_commits=given.commits) as manager:
            desks = [Desk(manager, number, f"{given.seed} {number}") for number in range(DESKS)]
            while not epochs or time.monotonic() < until:
                serve_an_epoch(desks, sender)
                check(manager, desks, given.commits)
                epochs += 1
            faulthandler.cancel_dump_traceback_later()
        pipe(sender.stdin).close()
    for desk in desks:
        total.update(desk.count)
    done = ", ".join(f"{what} {count}" for what, count in sorted(total.items()))
    print(f"{skewguard.IMPLEMENTATION}: {epochs} epochs of {given.commits} commits; {done}; the rules held")


if __name__ == "__main__":
    main()
