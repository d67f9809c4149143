#!/usr/bin/env python3
"""Time of a transaction of one UPDATE from C and from Python: skewguard, and SQLite in memory with triggers.

    python3 bench/languages.py [--library FOLDER] [--rows 10000,100000] [--threads 1,4] [--forms "by row,by group"]
                               [--transactions 20000] [--repetitions 5]
    python3 bench/languages.py --instructions [--library FOLDER] [--rows 1000] [--forms ..] [--transactions 300]
    python3 bench/languages.py --many [--library FOLDER] [--repetitions 5]

FOLDER has libskewguard.so; without it tools/c_library.py builds it. It needs a C compiler, libsqlite3-dev and Python's
headers. The table that docs/PERFORMANCE.md holds is printed as it stands there. Python is measured twice: by the
extension, as a wheel has it, and over ctypes; SQLite is called by the module sqlite3 both times.

With --instructions each side runs in one thread under `valgrind --tool=callgrind`, three times as many transactions and
then as many as asked for, and the difference counts: so loading is not in it, and other work of the machine changes
nothing.

A transaction is BEGIN, one UPDATE of a row by its key, prepared once and with two values, and COMMIT. The tables, the
rules and SQLite's triggers are those of bench/statements.py. Each side is called as its users would call it: skewguard
from C by the functions of its header under a lock round each call, and from Python by `with manager.transaction()`;
SQLite by statements that are prepared once, under a lock round the whole transaction, since a connection in memory has
one transaction at a time. Threads share one database and take turns at the same list of changes. Where others were in
the way of a COMMIT of skewguard, the transaction is run again, and that is counted. "At once" is the same in one call
of skewguard (skewguard_run_transaction, manager.run_transaction).

With --many it is one statement with many values: an INSERT of a thousand rows in a transaction, by a call for each row
(execute), by one call (run_all), and by the cursor's executemany, beside that of the module sqlite3.

Each measurement is a process of its own; the sides take turns. Medians count, of the time that passed on the clock and
of that of the processor. Each answer is looked at: a statement that did not change one row ends the run.
"""

from __future__ import annotations

import os
import pathlib
import sqlite3
import statistics
import struct
import sys
import threading
import time
import typing
from collections.abc import Callable, Iterator, Mapping, Sequence

from replays import (
    HEADER_FOLDER, PYTHON, SONAME, TOP, Word, carry_out, digits, instructions, library_in, linked, load_at_end,
    machine, numbers_of, output_of, packed, parser_of, table, temporary_folder, unpacked, written)
from statements import FORMS, Form, text

if typing.TYPE_CHECKING:
    import skewguard

LANGUAGES = ("C", "Python", "ctypes")
SIDES = ("skewguard", "at_once", "sqlite")

Values = tuple[int, int]  # a new value, and the key of the row that gets it


class Command(typing.NamedTuple):
    """What runs from a language, and what its environment has."""

    words: list[Word]
    more: dict[str, str]


class Timed(typing.NamedTuple):
    """Microseconds a transaction, on the clock and of the processor, and how many COMMITs were refused for others."""

    passed: float
    used: float
    refused: float


class Asked(typing.NamedTuple):
    """What the command line asks for."""

    library: pathlib.Path | None
    rows: list[int]
    threads: list[int]
    forms: list[str]
    transactions: int
    repetitions: int
    instructions: bool
    many: bool

# How a statement is run with many values, and how many.
WAYS = ("execute", "run_all", "executemany", "sqlite")
MANY = 1000


def update_of(form: Form) -> str:
    """The statement that each transaction runs: it changes whether a person is on call, or a balance."""
    column = "ONCALL" if form.changed == "DUTY" else "BAL"
    return f"UPDATE {form.changed} SET {column} = ? WHERE ID = ?"


def changes_of(form: Form, rows: int, count: int) -> Iterator[Values]:
    """The values of each transaction: a new one, and the key of a row, anywhere in the table.

    The first person of each shift stays on call, so that no rule is broken, and each change is one.
    """
    first = rows // 10
    for number in range(count):
        at = first + number * 7919 % (rows - first)
        turn = number // (rows - first)
        yield turn % 2 if form.changed == "DUTY" else 1000 + turn, 2 * at


def write_setups(form: Form, rows: int, folder: pathlib.Path) -> dict[str, str]:
    """The files that make the tables: definitions for skewguard; rows, side tables and triggers for SQLite."""
    loaded = [f"{text(*one)}\n" for one in form.loaded(rows)]
    after = [f"{one};\n" for one in (*form.side, *form.triggers)]
    own = written(folder / "skewguard", form.definitions(rows))
    other = written(folder / "sqlite", [*form.tables, "BEGIN;\n", *loaded, "COMMIT;\n", *after, "ANALYZE;\n"])
    return {"skewguard": own, "at_once": own, "sqlite": other}


def write_changes(form: Form, rows: int, count: int, folder: pathlib.Path) -> pathlib.Path:
    """The file with the values of each transaction."""
    path = folder / "changes"
    path.write_bytes(b"".join(struct.pack("<qq", *one) for one in changes_of(form, rows, count)))
    return path


# -- from Python; each run is a process of this file


def opened(setup: str) -> skewguard.Manager:
    """A manager over definitions, by the implementation that is wanted."""
    import skewguard

    if skewguard.IMPLEMENTATION != os.environ["WANTED"]:
        raise ValueError(f"this is the implementation {skewguard.IMPLEMENTATION}")
    return skewguard.open(pathlib.Path(setup).read_text())


def in_skewguard(setup: str, update: str) -> Callable[[Values], int]:
    """What makes a change in skewguard, and counts how often others were in its way."""
    import skewguard

    manager = opened(setup)

    def change(values: Values) -> int:
        refused = 0
        while True:
            try:
                with manager.transaction() as transaction:
                    if transaction.execute(update, values).count != 1:
                        raise ValueError("an UPDATE was not answered as it has to be")
                return refused
            except skewguard.SerializationFailure:
                refused += 1

    return change


def at_once(setup: str, update: str) -> Callable[[Values], int]:
    """What makes a change in skewguard by one call."""
    manager = opened(setup)

    def change(values: Values) -> int:
        if manager.run_transaction([(update, values)], retry=0)[1][0].count != 1:
            raise ValueError("an UPDATE was not answered as it has to be")
        return 0

    return change


def in_sqlite(setup: str, update: str) -> Callable[[Values], int]:
    """What makes a change in SQLite."""
    base = sqlite3.connect(":memory:", isolation_level=None, check_same_thread=False)
    base.executescript(pathlib.Path(setup).read_text())
    lock, execute = threading.Lock(), base.execute

    def change(values: Values) -> int:
        with lock:
            execute("BEGIN")
            if execute(update, values).rowcount != 1:
                raise ValueError("an UPDATE was not answered as it has to be")
            execute("COMMIT")
        return 0

    return change


def run_in_python(side: str, setup: str, update: str, path: str, threads: int) -> None:
    """Prints what bench/languages.c prints."""
    change = {"skewguard": in_skewguard, "at_once": at_once, "sqlite": in_sqlite}[side](setup, update)
    changes = [(value, key) for value, key in struct.iter_unpack("<qq", pathlib.Path(path).read_bytes())]
    refused: list[int] = []
    faults: list[BaseException] = []

    def run(part: Sequence[Values]) -> None:
        try:
            refused.append(sum(change(values) for values in part))
        except BaseException as fault:
            faults.append(fault)

    workers = [threading.Thread(target=run, args=(changes[thread::threads],)) for thread in range(threads)]
    passed, used = time.monotonic(), time.process_time()
    for worker in workers:
        worker.start()
    for worker in workers:
        worker.join()
    passed, used = time.monotonic() - passed, time.process_time() - used
    if faults:
        raise faults[0]
    print(f"{passed:.6f} {used:.6f} {sum(refused)}")


def inserted(way: str) -> Callable[[], None]:
    """What inserts many rows in one transaction, which is rolled back."""
    create, insert = "CREATE TABLE T (ID INTEGER PRIMARY KEY, N INTEGER)", "INSERT INTO T VALUES (?, ?)"
    rows = [(place, 7 * place) for place in range(MANY)]
    if way == "sqlite":
        base = sqlite3.connect(":memory:")
        base.execute(create)
        base.commit()

        def by_sqlite() -> None:
            base.executemany(insert, rows)
            base.rollback()

        return by_sqlite
    from skewguard import dbapi

    connection = dbapi.connect(f"{create};")
    transaction = connection.manager.transaction

    def by_call(run: Callable[[skewguard.Transaction], object]) -> None:
        with transaction() as own:
            run(own)
            own.rollback()

    def by_cursor() -> None:
        connection.cursor().executemany(insert, rows)
        connection.rollback()

    ways = {
        "execute": lambda: by_call(lambda own: [own.execute(insert, row) for row in rows]),
        "run_all": lambda: by_call(lambda own: own.run_all(insert, rows)),
        "executemany": by_cursor,
    }
    return ways[way]


def run_many(way: str) -> None:
    """Prints the microseconds a statement, of the clock: the least of twenty transactions."""
    insert, times = inserted(way), []
    for _ in range(20):
        start = time.perf_counter()
        insert()
        times.append(time.perf_counter() - start)
    print(f"{1e6 * min(times) / MANY:.3f}")


def print_many(commands: Mapping[str, Command], repetitions: int) -> None:
    """One statement with many values, by each way."""
    rows = []
    for language in ("Python", "ctypes"):
        (python, *_), more = commands[language]
        words = [python, os.path.abspath(__file__), "--run-many"]
        done = [[float(output_of([*words, way], more=more)) for way in WAYS] for _ in range(repetitions)]
        rows.append([language, *(digits(time) for time in medians(done))])
    table(["from", *(f"{way}, us a row" for way in WAYS)], rows)


# -- all of them


def compiled(library: pathlib.Path, folder: pathlib.Path) -> pathlib.Path:
    """The program of bench/languages.c."""
    program = folder / "languages"
    flags = ["-std=gnu99", "-O2", "-Wall", "-Wextra", f"-I{HEADER_FOLDER}"]
    libraries = [f"-L{library}", "-lskewguard", "-lsqlite3", "-lpthread", f"-Wl,-rpath,{library}"]
    carry_out(["cc", *flags, "-o", program, TOP / "bench/languages.c", *libraries])
    return program


def commands_of(library: pathlib.Path, folder: pathlib.Path) -> dict[str, Command]:
    """For each language its command. The package has its extension, as a wheel has it."""
    python: list[Word] = [sys.executable, os.path.abspath(__file__), "--run"]
    found = {"SKEWGUARD_LIBRARY": f"{library}/{SONAME}", "PYTHONPATH": str(unpacked(packed("wheel", PYTHON, folder)))}
    return {
        "C": Command([compiled(library, folder)], found),
        "Python": Command(python, found | {"SKEWGUARD_CTYPES": "0", "WANTED": "C"}),
        "ctypes": Command(python, found | {"SKEWGUARD_CTYPES": "1", "WANTED": "ctypes"}),
    }


def sides_of(language: str) -> Sequence[str]:
    """What is run from a language. SQLite is run from Python once, since the implementation changes nothing there."""
    return SIDES[:2] if language == "ctypes" else SIDES


def measured(command: Command, side: str, setup: str, update: str, changes: pathlib.Path, threads: int) -> Timed:
    """What a run takes."""
    words = [*command.words, side, setup, update, changes, threads]
    passed, used, refused = output_of(words, more=command.more, timeout=None).split()
    each = 1e6 / (changes.stat().st_size / 16)
    return Timed(float(passed) * each, float(used) * each, int(refused))


def measure(form: Form, rows: int, asked: Asked, commands: Mapping[str, Command],
            folder: pathlib.Path) -> dict[tuple[int, str, str], list[Timed]]:
    """The figures of each number of threads, language and side."""
    setups, update = write_setups(form, rows, folder), update_of(form)
    changes = write_changes(form, rows, asked.transactions, folder)
    found: dict[tuple[int, str, str], list[Timed]] = {}
    for _ in range(asked.repetitions):
        for threads in asked.threads:
            for language in LANGUAGES:
                for side in sides_of(language):
                    one = measured(commands[language], side, setups[side], update, changes, threads)
                    found.setdefault((threads, language, side), []).append(one)
    for key, figures in found.items():
        each = " ".join(f"{one.passed:.1f}/{one.used:.1f}" for one in figures)
        print(f"{form.name}, {rows} rows, {key}: {each}", flush=True)
    return found | {(threads, "ctypes", "sqlite"): found[threads, "Python", "sqlite"] for threads in asked.threads}


def count(form: Form, rows: int, asked: Asked, commands: Mapping[str, Command],
          folder: pathlib.Path) -> dict[tuple[str, str], float]:
    """The instructions of a transaction, by languages and sides."""
    setups, update = write_setups(form, rows, folder), update_of(form)
    found: dict[tuple[str, str], float] = {}
    for language in LANGUAGES:
        for side in sides_of(language):
            counts = []
            for times in (3 * asked.transactions, asked.transactions):
                changes = write_changes(form, rows, times, folder)
                words = [*commands[language].words, side, setups[side], update, changes, 1]
                counts.append(instructions(words, commands[language].more))
            many, few = counts
            found[language, side] = (many - few) / (2 * asked.transactions)
            print(f"{form.name}, {rows} rows, {language}, {side}: {found[language, side]:.0f}", flush=True)
    return found | {("ctypes", "sqlite"): found["Python", "sqlite"]}


def print_counts(found: Mapping[tuple[str, int, str], Sequence[float]]) -> None:
    """The table of instructions."""
    heads = ["form", "rows", "from", "skewguard, instructions", "at once", "SQLite, instructions", "SQLite / skewguard"]
    rows = []
    for (form, size, language), (own, whole, other) in found.items():
        counts = [f"{one:,.0f}" for one in (own, whole, other)]
        rows.append([form, f"{size:,}", language, *counts, digits(other / own)])
    table(heads, rows)


def medians(figures: Sequence[Sequence[float]]) -> list[float]:
    """The median of each column."""
    return [statistics.median(column) for column in zip(*figures)]


def print_table(found: Mapping[tuple[str, int, int, str], Mapping[str, Sequence[Timed]]]) -> None:
    """The table of times."""
    heads = ["form", "rows", "threads", "from", "skewguard, us", "at once, us", "SQLite, us", "SQLite / skewguard"]
    heads += ["skewguard, processor", "at once, processor", "SQLite, processor", "tried again"]
    rows = []
    for (form, size, threads, language), figures in found.items():
        sides = [medians(figures[side]) for side in SIDES]
        (own, own_used, refused), (whole, whole_used, _), (other, other_used, _) = sides
        times = [digits(time) for time in (own, whole, other, other / own, own_used, whole_used, other_used)]
        rows.append([form, f"{size:,}", str(threads), language, *times, f"{refused:.0f}"])
    table(heads, rows)


def parsed() -> Asked:
    """What the command line asks for, where counting asks for less than timing."""
    words = parser_of(__doc__, whole=True)
    words.add_argument("--library", type=pathlib.Path,
        help="the folder of libskewguard.so; without it tools/c_library.py builds it")
    words.add_argument("--rows", type=numbers_of)
    words.add_argument("--threads", type=numbers_of, default=[1, 4])
    words.add_argument("--forms", type=lambda text: text.split(","), default=["by row", "by group"])
    words.add_argument("--transactions", type=int)
    words.add_argument("--repetitions", type=int, default=5)
    words.add_argument("--instructions", action="store_true")
    words.add_argument("--many", action="store_true")
    given = words.parse_args()
    given.rows = given.rows or ([1000] if given.instructions else [10_000, 100_000])
    given.transactions = given.transactions or (300 if given.instructions else 20_000)
    return Asked(**vars(given))


def main() -> None:
    asked = parsed()
    found: dict[tuple[str, int, int, str], dict[str, list[Timed]]] = {}
    counts: dict[tuple[str, int, str], list[float]] = {}
    with temporary_folder() as folder:
        library = (asked.library or library_in(folder, quiet=True)).resolve()
        commands = commands_of(linked(library, folder, static=False), folder)
        print(f"SQLite {sqlite3.sqlite_version}, {machine(asked.repetitions)}", flush=True)
        if asked.many:
            print_many(commands, asked.repetitions)
            return
        for form in FORMS:
            for rows in asked.rows if form.name in asked.forms else ():
                if asked.instructions:
                    counted = count(form, rows, asked, commands, folder)
                    for language in LANGUAGES:
                        counts[form.name, rows, language] = [counted[language, side] for side in SIDES]
                    continue
                for (threads, language, side), figures in measure(form, rows, asked, commands, folder).items():
                    found.setdefault((form.name, rows, threads, language), {})[side] = figures
    if asked.instructions:
        print_counts(counts)
        return
    load_at_end()
    print_table(found)


if __name__ == "__main__":
    if sys.argv[1:2] == ["--run"]:
        side_of_it, setup_of_it, update_of_it, path_of_it, threads_of_it = sys.argv[2:]
        run_in_python(side_of_it, setup_of_it, update_of_it, path_of_it, int(threads_of_it))
    elif sys.argv[1:2] == ["--run-many"]:
        run_many(sys.argv[2])
    else:
        main()
