#!/usr/bin/env python3
"""The goals of performance, each with its figure, beside SQLite and PostgreSQL in the same run.

    python3 bench/goals.py [--program PATH] [--rows 10000,100000,1000000] [--repetitions 5 or 5,3,1]
                           [--forms "by group,no assertion"] [--without-postgresql] [--without-threads]

Without --program the program is built first by `rt run` in crates/skewguard, which proves it. Python 3.9 or later is
needed; for PostgreSQL its server, and for SQLite from C a C compiler and libsqlite3-dev: without them there are dashes.
What is printed on standard output is the text for docs/PERFORMANCE.md; on standard error the least and the greatest of
each figure is told as it comes. One process at a time runs, but for the threads at the end. Medians count; of three
numbers of repetitions each is for a size.

Tables, rules and triggers are those of bench/statements.py. There are two works: a *transaction* is BEGIN, one UPDATE
by key and COMMIT (that of bench/languages.py), and a *statement* is one of many INSERTs, UPDATEs and DELETEs by key, in
turns, in one transaction. Each side gets the same ones, on tables that are loaded afresh for each repetition.

- skewguard: the processor time of `replay`, less that of loading alone. *Without its text*: less what it takes to read
  the same script, behind definitions that are refused as soon as both texts are read. *Without text and report*: less
  what the same script takes when COMMIT stands in the place of BEGIN, so that each event is refused: it reads the
  script and writes a line for each event. (That line is longer than the one of an event that is taken, and the list of
  commits at the end stays in.)
- SQLite in memory: a side table of totals that AFTER triggers keep, with RAISE(ABORT). *Prepared*: statements that are
  prepared once, with bound values, from Python, and from C by bench/sqlite.c. *As text*: one script of all statements,
  which one call of Python runs.
- PostgreSQL, SERIALIZABLE, without fsync, in a folder in memory: the same side table and triggers, as functions of
  PL/pgSQL, and PREPARE and EXECUTE, by psql. A transaction is one message to the server, and so are three statements
  of a long one. *By the clock* has psql, the socket and the server in it; *backend* is the processor time of the one
  process that serves it. Fewer statements are run. One transaction can't let go of the old versions of a row, so each
  UPDATE of the one total of the form single takes longer than that before it.

Memory: what is resident when `shell` has answered its first event, and the most that was until then, each less the same
of definitions of 20 rows. What has been freed and not given back to the system is in it. Whether the text of DEFS is
still held is tried by definitions with a long comment; if it is, it is taken off. Of SQLite and PostgreSQL the pages of
tables and indexes. A row is one of any table.

In the table of goals *as run* holds skewguard against SQLite prepared, from Python, and PostgreSQL by the clock;
*alone* holds skewguard without text and report against SQLite from C and PostgreSQL's backend. A ratio above 1 says
that skewguard is faster or smaller. Beside the threads of skewguard stands a loop of hashes on as many threads, which
share nothing: more than it gets the machine does not give.

Each answer is looked at: a refused statement, a wrong total, or a side that does not refuse what breaks a rule ends the
run.
"""

from __future__ import annotations

import collections
import hashlib
import os
import pathlib
import re
import shutil
import sqlite3
import subprocess
import sys
import threading
import time
import typing
from collections.abc import Callable, Iterable, Iterator, Mapping, Sequence

import threads
from languages import changes_of, update_of
from replays import (
    TOP, Figures, Path, digits, exponent, launched, load_at_end, loads, machine, measured_replay, memory_folder,
    numbers_of, output_of, parser_of, pipe, power, program_of, run, servers, table, take_program, temporary_folder,
    words_of_replay, written)
from statements import (FORMS, REFUSE, ROUNDS, ROUNDS_TRIGGERS, SHIFTS, TRIGGERS, Files, Form, Step, Values, add_rule,
                        check_refusals, check_report, check_totals, in_one_transaction, script_of_rounds, text, valued)

FORM_NAMES = ("by group", "by row", "single", "no assertion")
WORKS = ("transaction", "statement")

# What is looked for in each work, in microseconds.
WHOLE, UNREAD, ENGINE = "skewguard", "skewguard without its text", "skewguard without text and report"
PREPARED, FROM_C, AS_TEXT = "SQLite, prepared, from Python", "SQLite, prepared, from C", "SQLite, as text"
CLOCK, BACKEND = "PostgreSQL, by the clock", "PostgreSQL, backend"
COLUMNS = (WHOLE, UNREAD, ENGINE, PREPARED, FROM_C, AS_TEXT, CLOCK, BACKEND)

SMALL = 20  # rows where the number of them does not count
TRANSACTIONS_SQLITE = 20_000
TRANSACTIONS_POSTGRESQL, ROUNDS_POSTGRESQL = 10_000, 1_000
COMMENT_LINES = 400_000  # of a hundred bytes each

THREADS, KEYS, THREADED = (1, 4), 100_000, 100_000
HASHES = 4_000_000

# The goals.
LOADED_ROWS, LOADED_SECONDS = 1_000_000, 3
ROW_BYTES = 150
GROWTH = 0.15
SPEEDUP = 2.5
BESIDE_SQLITE = [
    ("a transaction of one statement no slower than SQLite's", "transaction", 1),
    ("a statement of a long transaction twice as fast as SQLite's", "statement", 2),
]

# What is held against what: as they are run, and without what does not belong to the work itself.
PAIRS = [("as run", WHOLE, PREPARED, CLOCK), ("alone", ENGINE, FROM_C, BACKEND)]


Found = Mapping[tuple[str, int], Figures]  # by the name of a form and the size of its tables
Forms = Mapping[str, Form]


# -- skewguard


def script_of_transactions(form: Form, rows: int, count: int, begin: str = "BEGIN") -> Iterator[str]:
    """Transactions of one UPDATE each; with another word in the place of BEGIN each event is refused."""
    update = update_of(form)
    return loads.transactions((valued(update, one) for one in changes_of(form, rows, count)), begin)


def check_transactions(output: Path, form: Form, count: int) -> None:
    """Every transaction was committed, and the rule is true in the end."""
    want = "".join(f"A: BEGIN {one}\nA: UPDATE 1\nA: COMMIT {one + 1}\n" for one in range(count)) + f"COMMITS {count}\n"
    report = pathlib.Path(output).read_text()
    if not report.startswith(want) or not report.endswith("RULE TRUE\n" if form.condition else "ASSERTIONS 0\n"):
        sys.exit("a transaction was not answered as it has to be")


class Work(typing.NamedTuple):
    """The script of a work, the look at its report, and how many of it there are in a round."""

    script: Callable[[Form, int, int, str], Iterator[str]]
    check: Callable[[Path, Form, int], None]
    each: int


SCRIPTS = {
    "transaction": Work(script_of_transactions, check_transactions, 1),
    "statement": Work(script_of_rounds, check_report, 3),
}


def reading(program: Path, folder: pathlib.Path, script: Path) -> float:
    """The processor seconds that reading a script takes: definitions without a key are refused once it is read."""
    refused = written(folder / "refused", ["CREATE TABLE T (A INTEGER);\n"])
    return launched(words_of_replay(program, refused, script), os.devnull, end=1).seconds


def of_skewguard(program: Path, files: Files, small: Files, form: Form, rows: int, figures: Figures) -> None:
    """Figures of both works, and of loading."""
    loading = measured_replay(program, files.definitions, files.empty)
    figures["loading"].append(loading.seconds)
    unread = reading(program, small.folder, small.empty)
    idle = measured_replay(program, small.definitions, small.empty).seconds
    rounds = ROUNDS.get(rows, 20_000)
    for work, (script, check, each) in SCRIPTS.items():
        written(files.script, script(form, rows, rounds, "BEGIN"))
        written(small.script, script(form, rows, rounds, "COMMIT"))
        whole = measured_replay(program, files.definitions, files.script, files.output).seconds - loading.seconds
        check(files.output, form, rounds)
        text_alone = reading(program, small.folder, files.script) - unread
        refused = measured_replay(program, small.definitions, small.script).seconds - idle
        for column, seconds in ((WHOLE, whole), (UNREAD, whole - text_alone), (ENGINE, whole - refused)):
            figures[work, column].append(seconds / (each * rounds) * 1e6)


def in_memory(program: Path, definitions: Path) -> tuple[int, int]:
    """The bytes that are resident when `shell` has answered its first event, and the most that were until then."""
    command = [program, "shell", definitions]
    with subprocess.Popen(command, stdin=subprocess.PIPE, stdout=subprocess.PIPE, text=True) as shell:
        into = pipe(shell.stdin)
        into.write("BEGIN;\n")
        into.flush()
        if pipe(shell.stdout).readline() != "ME: BEGIN 0\n":
            sys.exit("the shell has not answered as it has to")
        status = pathlib.Path(f"/proc/{shell.pid}/status").read_text()
        into.close()
    (resident,), (peak,) = (re.findall(rf"{name}:\s+(\d+) kB", status) for name in ("VmRSS", "VmHWM"))
    return 1024 * int(resident), 1024 * int(peak)


def of_memory(program: Path, files: Files, small: Files, figures: Figures) -> None:
    """What is resident after loading, and at the peak, and without the text of DEFS. Each run has the same."""
    least, least_peak = in_memory(program, small.definitions)
    lines = [pathlib.Path(small.definitions).read_text(), *["-- " + 96 * "x" + "\n"] * COMMENT_LINES]
    commented, _ = in_memory(program, written(small.folder / "commented", lines))
    held = min(1.0, max(0.0, round((commented - least) / (100 * COMMENT_LINES), 1)))
    resident, peak = in_memory(program, files.definitions)
    size = os.path.getsize(files.definitions)
    counts: dict[str, float] = {"text": size, "peak": peak - least_peak, "resident": resident - least}
    for name, count in [*counts.items(), ("resident without text", resident - least - held * size)]:
        figures[name].append(count)


# -- SQLite


def loaded_from_text(form: Form, rows: int) -> tuple[sqlite3.Connection, float]:
    """SQLite with the tables and the triggers, from the texts that skewguard gets, and the processor seconds of it."""
    script = "".join([*form.tables, "BEGIN;\n", *form.inserts(rows), "COMMIT;\n"])
    base = sqlite3.connect(":memory:", isolation_level=None)
    start = time.process_time()
    base.executescript(script)
    add_rule(base, form, TRIGGERS)
    used = time.process_time() - start
    base.execute("ANALYZE")
    return base, used


def prepared_transactions(base: sqlite3.Connection, update: str, changes: Iterable[Values]) -> float:
    """The processor seconds of transactions of one UPDATE each."""
    execute, start = base.execute, time.process_time()
    for values in changes:
        execute("BEGIN")
        if execute(update, values).rowcount != 1:
            sys.exit("an UPDATE did not change one row")
        execute("COMMIT")
    return time.process_time() - start


def driver_in_c(folder: pathlib.Path) -> pathlib.Path | None:
    """The program of bench/sqlite.c; None without a C compiler or the header of SQLite."""
    program = folder / "sqlite"
    command = ["cc", "-std=gnu99", "-O2", "-o", str(program), f"{TOP}/bench/sqlite.c", "-lsqlite3"]
    return program if shutil.which("cc") and not run(command).status else None


def from_c(driver: pathlib.Path, database: pathlib.Path, steps: Sequence[Step], folder: pathlib.Path) -> float:
    """The processor seconds of statements with their values, on a copy in memory of a database."""
    numbers = {statement: number for number, statement in enumerate(dict.fromkeys(one for one, _ in steps))}
    statements = written(folder / "statements", (f"{one}\n" for one in numbers))
    lines = (" ".join(map(str, (numbers[statement], *values))) + "\n" for statement, values in steps)
    return float(output_of([driver, database, statements, written(folder / "work", lines)], timeout=None))


def as_text(base: sqlite3.Connection, lines: Iterable[str]) -> float:
    """The processor seconds of a script of statements, in one call."""
    script = "".join(lines)
    start = time.process_time()
    base.executescript(script)
    return time.process_time() - start


def copies_of(base: sqlite3.Connection, database: pathlib.Path) -> sqlite3.Connection:
    """A copy in memory of a base in SQLite; another one is in a file."""
    database.unlink(missing_ok=True)
    other, file = sqlite3.connect(":memory:", isolation_level=None), sqlite3.connect(database)
    for copy in (other, file):
        base.backup(copy)
    file.close()
    return other


def of_sqlite(driver: pathlib.Path | None, form: Form, rows: int, folder: pathlib.Path, figures: Figures) -> None:
    """Figures of both works, and of loading."""
    base, seconds = loaded_from_text(form, rows)
    figures["SQLite loading"].append(seconds)
    (pages,), (size,) = (base.execute(f"PRAGMA {what}").fetchone() for what in ("page_count", "page_size"))
    figures["SQLite bytes"].append(pages * size)
    database = folder / "database"
    other = copies_of(base, database)

    steps = [one for number in range(ROUNDS_TRIGGERS) for one in form.round(number, rows)]
    prepared = in_one_transaction(base, form, steps, TRIGGERS)
    one_text = as_text(other, ["BEGIN;\n", *(f"{text(*one)}\n" for one in steps)])
    if form.condition:
        check_totals(other, form)
    other.execute("ROLLBACK")
    compiled = from_c(driver, database, [("BEGIN", ()), *steps], folder) if driver else None
    add_times(figures, "statement", len(steps), prepared, one_text, compiled)

    update, changes = update_of(form), list(changes_of(form, rows, TRANSACTIONS_SQLITE))
    prepared = prepared_transactions(base, update, changes)
    one_text = as_text(other, (f"BEGIN;\n{text(update, values)}\nCOMMIT;\n" for values in changes))
    begin, commit = ("BEGIN", ()), ("COMMIT", ())
    steps = [one for values in changes for one in (begin, (update, values), commit)]
    compiled = from_c(driver, database, steps, folder) if driver else None
    add_times(figures, "transaction", len(changes), prepared, one_text, compiled)
    for each in (base, other):
        if form.condition:
            check_totals(each, form)
        each.close()


def add_times(figures: Figures, work: str, count: int, *times: float | None) -> None:
    """Adds seconds of a work, so many of it, in the three ways of SQLite."""
    for column, seconds in zip((PREPARED, AS_TEXT, FROM_C), times):
        if seconds is not None:
            figures[work, column].append(seconds / count * 1e6)


# -- PostgreSQL

# The processor time of the backend in nanoseconds, and the seconds of the clock.
MARK = "\\! cut -d ' ' -f 1 /proc/$BACKEND/schedstat; date +%s.%N\n"
FAULT = "RAISE EXCEPTION USING ERRCODE = '23000', MESSAGE = 'RULE'"


def for_postgresql(trigger: str) -> Iterator[str]:
    """A trigger of SQLite as a function of PostgreSQL and a trigger that calls it, with the same statements."""
    parts = re.fullmatch(r"CREATE TRIGGER (\w+) (AFTER .* ON \w+)( WHEN (.*?))? BEGIN(.*)END", trigger, re.S)
    if not parts:
        sys.exit(f"this is no trigger: {trigger}")
    name, event, _, condition, body = parts.groups()
    statements = [one.strip() for one in body.split(";")[:-1]]
    body = "".join(
        f"IF EXISTS (SELECT{one[len(REFUSE):]}) THEN {FAULT}; END IF; " if one.startswith(REFUSE) else f"{one}; "
        for one in statements
    )
    yield f"CREATE FUNCTION {name}() RETURNS trigger LANGUAGE plpgsql AS $$ BEGIN {body} RETURN NULL; END $$;\n"
    when = f"WHEN ({condition}) " if condition else ""
    yield f"CREATE TRIGGER {name} {event} FOR EACH ROW {when}EXECUTE FUNCTION {name}();\n"


def write_copies(form: Form, rows: int, folder: pathlib.Path) -> dict[str, str]:
    """A file of rows for each table, in the order in which they are loaded."""
    lines: dict[str, list[str]] = {}
    for statement, numbers in form.loaded(rows):
        lines.setdefault(statement.split()[2], []).append(",".join(map(str, numbers)) + "\n")
    return {name: written(folder / name, rows_of) for name, rows_of in lines.items()}


def tables_of_postgresql(form: Form, copies: Mapping[str, str]) -> Iterator[str]:
    """New tables with their rows, the side table and the triggers; a mark before the rows, and one behind all."""
    yield "SET client_min_messages = error;\nDROP SCHEMA public CASCADE;\nCREATE SCHEMA public;\n"
    yield "SELECT pg_backend_pid() AS backend \\gset\n\\setenv BACKEND :backend\n"
    yield from (f"{one}\n" for one in form.tables)
    yield MARK
    yield from (f"\\copy {name} FROM '{path}' CSV\n" for name, path in copies.items())
    yield from (f"{one};\n" for one in form.side)
    for trigger in form.triggers:
        yield from for_postgresql(trigger)
    yield MARK


def numbered(statement: str) -> str:
    """A statement with $1, $2 .. in the places of its values."""
    places = iter(range(1, 10))
    return re.sub(r"\?", lambda _: f"${next(places)}", statement)


class Span(typing.NamedTuple):
    """Seconds by the clock, and of the backend's processor."""

    clock: float
    used: float


def played(server: servers.Server, folder: pathlib.Path, lines: Iterable[str],
           stops: bool = True) -> tuple[list[Span], str]:
    """Plays lines by psql: what it takes from each mark to the next, and the answers."""
    path, answers = written(folder / "psql", lines), folder / "answers"
    command = [f"{server.programs}/psql", "-XAt", "-h", server.folder, "-U", "postgres", "-d", "postgres"]
    command += ["-v", f"ON_ERROR_STOP={int(stops)}", "-o", str(answers), "-f", path]
    told = output_of(command, stderr=None if stops else subprocess.DEVNULL, timeout=None)
    numbers = [float(word) for word in told.split()]
    marks = [Span(clock, used / 1e9) for used, clock in zip(numbers[::2], numbers[1::2])]
    between = [Span(later.clock - one.clock, later.used - one.used) for one, later in zip(marks, marks[1:])]
    return between, answers.read_text()


def totals_differ(form: Form) -> Iterator[str]:
    """A query that lists a word where the totals are not those of the rows."""
    if form.condition:
        kept, counted = form.totals
        one, other = f"(({kept}) EXCEPT ({counted}))", f"(({counted}) EXCEPT ({kept}))"
        yield f"SELECT 'DIFFER' WHERE EXISTS {one} OR EXISTS {other};\n"


def works_of_postgresql(form: Form, rows: int) -> Iterator[str]:
    """Both works, each between two marks."""
    prepared = {"comes": form.insert, "changes": form.update, "goes": form.delete, "alone": update_of(form)}
    yield from (f"PREPARE {name} AS {numbered(one)};\n" for name, one in prepared.items())
    yield from ("SELECT 'BYTES', SUM(pg_total_relation_size(oid)) FROM pg_class WHERE relkind = 'r'",
                " AND relnamespace = 'public'::regnamespace;\nVACUUM ANALYZE;\n", MARK, "BEGIN;\n")
    for number in range(ROUNDS_POSTGRESQL):
        steps = zip(("comes", "changes", "goes"), form.round(number, rows))
        yield "\\; ".join(f"EXECUTE {name} ({', '.join(map(str, values))})" for name, (_, values) in steps) + ";\n"
    yield MARK
    yield from totals_differ(form)
    yield from ("ROLLBACK;\nVACUUM;\n", MARK)
    for value, key in changes_of(form, rows, TRANSACTIONS_POSTGRESQL):
        yield f"BEGIN\\; EXECUTE alone ({value}, {key})\\; COMMIT;\n"
    yield MARK
    yield from totals_differ(form)


def of_postgresql(server: servers.Server, copies: Mapping[str, str], form: Form, rows: int, folder: pathlib.Path,
                  figures: Figures) -> None:
    """Figures of both works, and of loading."""
    lines = [*tables_of_postgresql(form, copies), *works_of_postgresql(form, rows)]
    between, answers = played(server, folder, lines)
    tags = collections.Counter(answers.splitlines())
    rounds, transactions = ROUNDS_POSTGRESQL, TRANSACTIONS_POSTGRESQL
    if tags["UPDATE 1"] != rounds + transactions or tags["DELETE 1"] != rounds or tags["DIFFER"]:
        sys.exit(f"{form.name}: PostgreSQL has not answered as it has to")
    loading, _, statement, _, transaction = between
    figures["PostgreSQL loading"].append(loading.used)
    (size,) = re.findall(r"^BYTES\|(\d+)$", answers, re.M)
    figures["PostgreSQL bytes"].append(int(size))
    for work, count, times in (("statement", 3 * rounds, statement), ("transaction", transactions, transaction)):
        for column, seconds in zip((CLOCK, BACKEND), times):
            figures[work, column].append(seconds / count * 1e6)


def check_postgresql(server: servers.Server, form: Form, folder: pathlib.Path) -> None:
    """What breaks the rule is refused by PostgreSQL, and nothing else."""
    lines = [*tables_of_postgresql(form, write_copies(form, SMALL, folder))]
    lines += [f"{text(statement, numbers)}\n\\qecho STATE :SQLSTATE\n" for statement, numbers, _ in form.tries]
    _, answers = played(server, folder, [*lines, *totals_differ(form)], stops=False)
    states = [state == "23000" for state in re.findall(r"^STATE (\w+)$", answers, re.M)]
    if states != [breaks for _, _, breaks in form.tries] or "DIFFER" in answers:
        sys.exit(f"{form.name}: PostgreSQL does not answer as the rule has it")


# -- threads


def arithmetic(count: int) -> float:
    """Hashes a second on so many threads of this process: each hashes on its own, and holds no lock of Python's."""
    words = ("sha256", b"skewguard", b"salt", HASHES // count)
    workers = [threading.Thread(target=hashlib.pbkdf2_hmac, args=words) for _ in range(count)]
    start = time.perf_counter()
    for worker in workers:
        worker.start()
    for worker in workers:
        worker.join()
    return HASHES / (time.perf_counter() - start)


def of_threads(program: Path, repetitions: int, folder: pathlib.Path) -> Figures:
    """Commits a second on disjoint keys, and hashes a second, by numbers of threads."""
    figures = Figures()
    for _ in range(repetitions):
        for count in THREADS:
            figures["commits", count].append(threads.skewguard(program, folder, KEYS, count, THREADED, False)[0])
            figures["hashes", count].append(arithmetic(count))
    return figures


# -- all of them


def measure(program: Path, server: servers.Server | None, driver: pathlib.Path | None, form: Form, rows: int,
            repetitions: int, folder: pathlib.Path) -> Figures:
    """The figures of one form and size, by what they are of, in each repetition."""
    files, small = Files(folder, form, rows), small_files(folder, form)
    copies, figures = write_copies(form, rows, folder) if server else {}, Figures()
    for _ in range(repetitions):
        of_skewguard(program, files, small, form, rows, figures)
        of_sqlite(driver, form, rows, folder, figures)
        if server:
            of_postgresql(server, copies, form, rows, folder, figures)
    of_memory(program, files, small, figures)
    return figures


def small_files(folder: pathlib.Path, form: Form) -> Files:
    """The files of a form where the number of rows does not count."""
    place = folder / "small"
    place.mkdir(exist_ok=True)
    return Files(place, form, SMALL)


def tell(form: Form, rows: int, figures: Figures) -> None:
    """The least and the greatest of each figure, in one line."""
    ends = []
    for name, all_of_it in figures.items():
        what = " ".join(name) if isinstance(name, tuple) else name
        ends.append(f"{what}: {digits(min(all_of_it), 3)} to {digits(max(all_of_it), 3)}")
    print(f"{form.name}, {rows:,} rows; {'; '.join(ends)}", file=sys.stderr, flush=True)


def print_works(found: Found) -> None:
    """A table of each work."""
    for work in WORKS:
        rows = [
            [name, f"{size:,}", *(digits(figures.middle((work, column))) for column in COLUMNS)]
            for (name, size), figures in found.items()
        ]
        table([f"us a {work}", "rows", *COLUMNS], rows)


def all_rows(form: Form, rows: int) -> int:
    """How many rows are loaded, of all tables."""
    return rows + (rows // 10 if SHIFTS in form.tables else 0)


BYTES = ("text", "peak", "resident", "resident without text", "SQLite bytes", "PostgreSQL bytes")


def row_bytes(form: Form, rows: int, figures: Figures, name: str) -> float | None:
    """Bytes of one of these kinds for a row of all that are loaded."""
    count = figures.middle(name)
    return None if count is None else count / all_rows(form, rows)


def print_loading(found: Found, forms: Forms) -> None:
    """The table of loading and of memory."""
    heads = ["loading", "rows", "skewguard, s", "SQLite, the same text, s", "PostgreSQL, COPY, backend, s"]
    heads += ["bytes a row: text of DEFS", "skewguard, peak", "after loading", "without the text"]
    heads += ["SQLite", "PostgreSQL"]
    rows = []
    for (name, size), figures in found.items():
        times = [digits(figures.middle(side)) for side in ("loading", "SQLite loading", "PostgreSQL loading")]
        counts = [digits(row_bytes(forms[name], size, figures, one), 3) for one in BYTES]
        rows.append([name, f"{size:,}", *times, *counts])
    table(heads, rows)


def growth(found: Found, name: str, sizes: Sequence[int], work: str, column: str) -> float | None:
    """By which power the time of a work grows with the rows."""
    return exponent((size, found[name, size].middle((work, column))) for size in sizes)


def print_growth(found: Found, forms: Forms, sizes: Sequence[int]) -> None:
    """The table of growth."""
    heads = [f"exponent of growth, {sizes[0]:,} to {sizes[-1]:,} rows", "of a"]
    rows = [
        [name, work, *(power(growth(found, name, sizes, work, column)) for column in COLUMNS)]
        for name in forms
        for work in WORKS
    ]
    table([*heads, *COLUMNS], rows)


def print_threads(of_all: Figures) -> None:
    """The table of threads."""
    rows = []
    for what, unit in (("commits", "skewguard, commits a second"), ("hashes", "arithmetic, hashes a second")):
        cells = [digits(of_all.middle((what, count)), 3) for count in THREADS]
        rows.append([unit, *cells, digits(speedup(of_all, what))])
    table(["disjoint keys", *(f"threads: {count}" for count in THREADS), "how many times as many"], rows)


def speedup(of_all: Figures, what: str) -> float:
    """How many times as much the most threads do as the fewest."""
    least, most = (of_all.median((what, count)) for count in (THREADS[0], THREADS[-1]))
    return most / least


def verdict(is_met: bool | None) -> str:
    """Whether a goal is met; a dash where that can't be told."""
    return "-" if is_met is None else "met" if is_met else "**missed**"


def ratio(one: float | None, other: float | None) -> float | None:
    """How many times as much one is as another; None where one is missing, or nothing."""
    return one / other if one and other else None


def listed(numbers: Sequence[float | None], unit: str = "") -> str:
    """Numbers with a unit behind the last; a dash where there is none at all."""
    return ", ".join(digits(number) for number in numbers) + unit if any(numbers) else "-"


def beside_sqlite(found: Found, forms: Forms, sizes: Sequence[int]) -> Iterator[list[str]]:
    """Rows of the goals that are told beside SQLite; a goal is met if it is at each size."""
    for goal, work, least in BESIDE_SQLITE:
        for how, *sides in PAIRS:
            for name in forms:
                own, lite, other = ([found[name, size].middle((work, side)) for size in sizes] for side in sides)
                ratios = [ratio(theirs, ours) for ours, theirs in zip(own, lite)]
                told = [each for each in ratios if each is not None]
                met = verdict(min(told) >= least if len(told) == len(ratios) else None)
                times = [listed(side, " us") for side in (own, lite, other)]
                yield [goal, f"{name}, {how}", *times, listed(ratios), met]


def of_loading(found: Found, forms: Forms, rows: int) -> Iterator[list[str]]:
    """Rows of the goals of loading and memory. Fewer rows than the goals speak of are not judged."""
    sides = ("loading", "SQLite loading", "PostgreSQL loading")
    for name in forms:
        own, lite, other = (found[name, rows].middle(side) for side in sides)
        met = verdict(own < LOADED_SECONDS if own and rows == LOADED_ROWS else None)
        goal = f"{LOADED_ROWS:,} rows loaded in under {LOADED_SECONDS} s (figures at {rows:,})"
        yield [goal, name, *(listed([side], " s") for side in (own, lite, other)), digits(ratio(lite, own)), met]
    sides = ("resident without text", "SQLite bytes", "PostgreSQL bytes")
    for name, form in forms.items():
        own, lite, other = (row_bytes(form, rows, found[name, rows], side) for side in sides)
        met = verdict(own <= ROW_BYTES if own and rows == LOADED_ROWS else None)
        goal = f"at most {ROW_BYTES} bytes a row after loading, without the text (figures at {rows:,})"
        yield [goal, name, digits(own, 3), digits(lite, 3), digits(other, 3), digits(ratio(lite, own)), met]


def of_growth(found: Found, forms: Forms, sizes: Sequence[int]) -> Iterator[list[str]]:
    """Rows of the goal of growth."""
    for how, *sides in PAIRS:
        for name in forms:
            own, lite, other = (growth(found, name, sizes, "statement", side) for side in sides)
            met = verdict(None if own is None else own <= GROWTH)
            goal = f"a statement of a long transaction grows by an exponent of at most {GROWTH}"
            yield [goal, f"{name}, {how}", power(own), power(lite), power(other), "", met]


def of_speedup(of_all: Figures) -> list[str]:
    """The row of the goal of threads."""
    own, other = (speedup(of_all, what) for what in ("commits", "hashes"))
    met = verdict(own >= SPEEDUP if len(os.sched_getaffinity(0)) >= THREADS[-1] else None)
    goal = f"{THREADS[-1]} threads on disjoint keys commit {SPEEDUP} times as much as one"
    return [goal, "by group", digits(own), f"arithmetic: {digits(other)}", "", digits(other / own), met]


def print_all(found: Found, of_all: Figures | None, forms: Forms, sizes: Sequence[int]) -> None:
    """All tables, that of the goals first."""
    goals = [*beside_sqlite(found, forms, sizes), *of_loading(found, forms, sizes[-1]), *of_growth(found, forms, sizes)]
    goals += [of_speedup(of_all)] if of_all else []
    told = ", ".join(f"{size:,}" for size in sizes)
    heads = [f"goal (figures at {told} rows)", "form", "skewguard", "SQLite", "PostgreSQL", "SQLite / skewguard", ""]
    table(heads, goals)
    print_works(found)
    print_growth(found, forms, sizes)
    print_loading(found, forms)
    if of_all:
        print_threads(of_all)


def main() -> None:
    words = parser_of(__doc__, whole=True)
    take_program(words)
    words.add_argument("--rows", default="10000,100000,1000000", help="sizes of the tables, each at least 20")
    words.add_argument("--repetitions", default="5", help="one number, or one for each size")
    words.add_argument("--forms", default=",".join(FORM_NAMES), help="some of the forms, by name, with commas between")
    words.add_argument("--without-postgresql", action="store_true")
    words.add_argument("--without-threads", action="store_true")
    asked = words.parse_args()
    sizes = sorted(numbers_of(asked.rows))
    counts = numbers_of(asked.repetitions)
    repetitions = dict(zip(sizes, counts * len(sizes) if len(counts) == 1 else counts))
    forms = {name: form for name in asked.forms.split(",") for form in FORMS if form.name == name}
    program = program_of(asked)
    has_server = not asked.without_postgresql and servers.server_programs()
    found: dict[tuple[str, int], Figures] = {}
    of_all: Figures | None = None
    with temporary_folder() as folder, temporary_folder(memory_folder()) as data:
        server, driver = servers.Server(data) if has_server else None, driver_in_c(folder)
        try:
            version = server.run("postgres", "--version").strip() if server else "no PostgreSQL"
            print(f"SQLite {sqlite3.sqlite_version}, {version}, {machine(asked.repetitions)}", flush=True)
            for form in forms.values():
                if form.condition:
                    check_refusals(program, form, folder)
                    if server:
                        check_postgresql(server, form, folder)
            for form in forms.values():
                for rows in sizes:
                    found[form.name, rows] = measure(program, server, driver, form, rows, repetitions[rows], folder)
                    tell(form, rows, found[form.name, rows])
        finally:
            if server:
                server.stop()
        if not asked.without_threads:
            of_all = of_threads(program, counts[0], folder)
    load_at_end()
    print_all(found, of_all, forms, sizes)


if __name__ == "__main__":
    main()
