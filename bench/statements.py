#!/usr/bin/env python3
"""Time of a statement with assertions maintained by skewguard, beside SQLite, from scratch and with triggers.

    python3 bench/statements.py [--program PATH] [--rows 1000,10000,100000,1000000] [--repetitions 3]
                                [--repetitions-large 1] [--forms "by parent,10 stays a room"] [--without-memory]

Without --program the program is built first by `rt run` in crates/skewguard, which proves it. Nothing but Python 3.9
or later is needed besides. The tables that docs/PERFORMANCE.md holds are printed as they stand there. One process at
a time runs.

Skewguard replays one transaction of INSERTs, UPDATEs and DELETEs in turns, each of one row by its key, on tables of so
many rows; the processor time of a replay with an empty script, for loading alone, is taken off. Reading the texts and
writing the report are in it. SQLite, as Python's standard library has it, does the same in memory, in one transaction,
by statements that are prepared once and take their values as bound parameters. It keeps the rule in two ways, and some
in a third:

- from scratch: after each statement the assertion's own condition as a query, with the index that serves it best;
- with triggers: a side table holds a total for each group, triggers keep it and refuse what would make the rule false.
  Where a row needs another row, or none that it meets, there is no total: triggers look for the row by an index;
- otherwise: with a foreign key, where the rule is one; with triggers that have a poorer index.

The sides take turns in one run, and the median of the repetitions counts. Each answer is looked at: a refused statement
or a false assertion ends the run. So does a trigger, a foreign key, or an assertion of skewguard, that does not
refuse what breaks its rule. The peak memory of loading, and what a committed change adds to it, are printed too.
"""

from __future__ import annotations

import pathlib
import sqlite3
import sys
import time
import typing
from collections.abc import Iterable, Iterator, Mapping, Sequence

from replays import (
    Figures, Path, Used, digits, exponent, least_memory, load_at_end, loads, machine, measured_replay, numbers_of,
    parser_of, power, program_of, spread, table, take_program, temporary_folder, written)

# Rounds of an INSERT, an UPDATE and a DELETE in one repetition, by rows: so many that loading, which is taken off, does
# not cover them. From scratch fewer do.
ROUNDS = {1_000: 20_000, 10_000: 20_000, 100_000: 50_000, 1_000_000: 100_000}
ROUNDS_TRIGGERS = 20_000
ROUNDS_FROM_SCRATCH = {1_000: 200, 10_000: 60, 100_000: 20, 1_000_000: 4}

# From so many rows on there are fewer repetitions.
LARGE = 1_000_000

# At how many rows the memory of a committed change is taken, and of how many commits.
COMMIT_ROWS, COMMITS = 100_000, 100_000

SHIFTS, DUTY, ACCT = loads.SHIFTS, loads.DUTY, loads.ACCT
STAYS = """CREATE TABLE STAYS (ID INTEGER PRIMARY KEY, ROOM INTEGER NOT NULL, FROM_DAY INTEGER NOT NULL,
    TO_DAY INTEGER NOT NULL);"""
WITH_KEY = DUTY.replace("SHIFT INTEGER NOT NULL", "SHIFT INTEGER NOT NULL REFERENCES SHIFTS (ID)")

NEW_SHIFT = "INSERT INTO SHIFTS VALUES (?)"
MOST = 1_000_000_000  # that all accounts may sum to, in the single form


Values = tuple[int, ...]
Step = tuple[str, Values]  # a statement with its values
Found = Mapping[tuple[str, int], Figures]  # by the name of a form and the size of its tables


class Try(typing.NamedTuple):
    """A statement with its values, and whether it breaks the rule."""

    statement: str
    values: Values
    breaks: bool


class Other(typing.NamedTuple):
    """Another way of SQLite: its name, what makes its tables, and what is added to them."""

    name: str
    tables: Sequence[str]
    added: Sequence[str]


class Form:
    """Tables and an assertion over them, or none; SQLite keeps it by an index and a query, or a table and triggers.

    `totals` are two queries, of the totals that are kept and of those of the rows. `tries` are of small tables.
    """

    def __init__(self, name: str, tables: Sequence[str], condition: str = "", index: str = "",
                 side: Sequence[str] = (), triggers: Sequence[str] = (), totals: Sequence[str] = (),
                 tries: Sequence[tuple[str, Values, bool]] = (), other: Other | None = None) -> None:
        self.name = name
        self.tables = tables
        self.condition = condition
        self.index = index
        self.side = side
        self.triggers = triggers
        self.totals = totals
        self.tries = [Try(*one) for one in tries]
        self.other = other
        self.changed = "DUTY" if DUTY in tables else "ACCT"
        self.insert = f"INSERT INTO {self.changed} VALUES (?, ?, ?)"
        self.update = f"UPDATE {self.changed} SET {'SHIFT' if DUTY in tables else 'BAL'} = ? WHERE ID = ?"
        self.delete = f"DELETE FROM {self.changed} WHERE ID = ?"

    def row(self, key: int, number: int, rows: int) -> Values:
        """A row under a key: ten rows share a shift or an owner, and balances have up to a thousand values."""
        return key, number % (rows // 10), 1 if self.changed == "DUTY" else number * 37 % 1000

    def loaded(self, rows: int) -> Iterator[Step]:
        """The rows to begin with. Their keys are even, so that new ones fall between them."""
        if SHIFTS in self.tables:
            yield from ((NEW_SHIFT, (shift,)) for shift in range(rows // 10))
        yield from ((self.insert, self.row(2 * number, number, rows)) for number in range(rows))

    def round(self, number: int, rows: int) -> tuple[Step, Step, Step]:
        """A row comes, changes its shift or its balance, and goes; its key may be anywhere in the table."""
        key = 2 * (number * 7919 % rows) + 1
        row = self.row(key, number * 7919, rows)
        changed = (row[1] + 1) % (rows // 10) if self.changed == "DUTY" else row[2] + 1
        return (self.insert, row), (self.update, (changed, key)), (self.delete, (key,))

    def another(self, number: int, rows: int) -> int:
        """What an UPDATE may give to a row of the beginning: what the next row has."""
        return self.row(2 * number, number + 1, rows)[1 if self.changed == "DUTY" else 2]

    def definitions(self, rows: int) -> Iterator[str]:
        """What DEFS holds, piece by piece."""
        yield "\n".join(self.tables) + "\n"
        if self.condition:
            yield f"CREATE ASSERTION RULE CHECK ({self.condition});\n"
        yield from self.inserts(rows)

    def inserts(self, rows: int) -> Iterator[str]:
        """The rows to begin with, as texts."""
        return (f"{text(*one)}\n" for one in self.loaded(rows))


def valued(statement: str, values: Values) -> str:
    """A statement with its values put in."""
    return statement.replace("?", "{}").format(*values)


def text(statement: str, values: Values) -> str:
    """The same as skewguard reads it."""
    return f"{valued(statement, values)};"


REFUSE = "SELECT RAISE(ABORT, 'RULE')"


class Stays(Form):
    """Stays in rooms, so many to a room: no two in one room have a night in common.

    Each has two nights, and the two nights behind it are free.
    """

    def __init__(self, in_room: int) -> None:
        meets = "B.ROOM = {0}.ROOM AND B.ID <> {0}.ID AND B.FROM_DAY < {0}.TO_DAY AND {0}.FROM_DAY < B.TO_DAY"
        refuse = f"{REFUSE} WHERE EXISTS (SELECT 1 FROM STAYS B WHERE {meets.format('NEW')});"
        triggers = [
            f"CREATE TRIGGER STAY_COMES AFTER INSERT ON STAYS BEGIN {refuse} END",
            f"CREATE TRIGGER STAY_CHANGES AFTER UPDATE OF ROOM, FROM_DAY, TO_DAY ON STAYS BEGIN {refuse} END",
        ]
        super().__init__(
            f"{in_room} stays a room",
            [STAYS],
            "NOT EXISTS (SELECT * FROM STAYS A WHERE EXISTS (SELECT * FROM STAYS B WHERE " + meets.format("A") + "))",
            "CREATE INDEX BEST ON STAYS (ROOM, FROM_DAY, TO_DAY)",
            ["CREATE INDEX OF_A_ROOM ON STAYS (ROOM, FROM_DAY, TO_DAY)"],
            triggers,
            (
                "SELECT 0",
                "SELECT COUNT(*) FROM (SELECT TO_DAY, LEAD(FROM_DAY) OVER (PARTITION BY ROOM ORDER BY FROM_DAY) AS NEXT"
                " FROM STAYS) WHERE NEXT < TO_DAY",
            ),
            # In room 0 there are the stays from day 0, 4, .. 36 on, and more where a room has a hundred.
            [
                ("INSERT INTO STAYS VALUES (?, ?, ?, ?)", (1, 0, 1, 3), True),
                ("INSERT INTO STAYS VALUES (?, ?, ?, ?)", (1, 0, 2, 4), False),
                ("INSERT INTO STAYS VALUES (?, ?, ?, ?)", (3, 0, 3, 5), True),
                ("UPDATE STAYS SET TO_DAY = ? WHERE ID = ?", (5, 1), True),
                ("UPDATE STAYS SET TO_DAY = ? WHERE ID = ?", (3, 1), False),
                ("INSERT INTO STAYS VALUES (?, ?, ?, ?)", (3, 0, 3, 4), False),
                ("UPDATE STAYS SET TO_DAY = ? WHERE ID = ?", (4, 1), True),
                ("UPDATE STAYS SET FROM_DAY = ? WHERE ID = ?", (1, 1), True),
                ("INSERT INTO STAYS VALUES (?, ?, ?, ?)", (5, 5, 1, 3), False),
                ("UPDATE STAYS SET ROOM = ? WHERE ID = ?", (0, 5), True),
                ("UPDATE STAYS SET ROOM = ? WHERE ID = ?", (5, 0), True),
                ("UPDATE STAYS SET ROOM = ? WHERE ID = ?", (6, 0), False),
                ("UPDATE STAYS SET ROOM = ? WHERE ID = ?", (0, 5), True),
                ("DELETE FROM STAYS WHERE ID = ?", (1,), False),
                ("UPDATE STAYS SET ROOM = ? WHERE ID = ?", (0, 5), False),
                ("UPDATE STAYS SET ROOM = ? WHERE ID = ?", (0, 0), True),
            ],
            Other("triggers, an index by ROOM alone", [STAYS], ["CREATE INDEX OF_A_ROOM ON STAYS (ROOM)", *triggers]),
        )
        self.in_room = in_room
        self.changed = "STAYS"
        self.insert = "INSERT INTO STAYS VALUES (?, ?, ?, ?)"
        self.update = "UPDATE STAYS SET TO_DAY = ? WHERE ID = ?"
        self.delete = "DELETE FROM STAYS WHERE ID = ?"

    def room_and_day(self, number: int, rows: int) -> tuple[int, int]:
        """The room of a row of the beginning, and its first day."""
        rooms = max(1, rows // self.in_room)
        return number % rooms, 4 * (number // rooms)

    def loaded(self, rows: int) -> Iterator[Step]:
        for number in range(rows):
            room, day = self.room_and_day(number, rows)
            yield self.insert, (2 * number, room, day, day + 2)

    def round(self, number: int, rows: int) -> tuple[Step, Step, Step]:
        """A stay of a night comes behind another one, becomes one of two nights, and goes."""
        at = number * 7919 % rows
        room, day = self.room_and_day(at, rows)
        key = 2 * at + 1
        return (self.insert, (key, room, day + 2, day + 3)), (self.update, (day + 4, key)), (self.delete, (key,))

    def another(self, number: int, rows: int) -> int:
        """A night more."""
        return self.room_and_day(number, rows)[1] + 3


FORMS = [
    Form(
        "by row",
        [SHIFTS, DUTY],
        loads.COVERED,
        "CREATE INDEX BEST ON DUTY (SHIFT, ONCALL)",
        [
            "CREATE TABLE COVER (SHIFT INTEGER PRIMARY KEY, N INTEGER NOT NULL)",
            "INSERT INTO COVER SELECT SHIFT, COUNT(*) FROM DUTY WHERE ONCALL = 1 GROUP BY SHIFT",
        ],
        [
            f"""CREATE TRIGGER SHIFT_COMES AFTER INSERT ON SHIFTS BEGIN
                {REFUSE} WHERE NOT EXISTS (SELECT 1 FROM COVER WHERE SHIFT = NEW.ID AND N > 0);
            END""",
            """CREATE TRIGGER DUTY_COMES AFTER INSERT ON DUTY WHEN NEW.ONCALL = 1 BEGIN
                INSERT INTO COVER VALUES (NEW.SHIFT, 1) ON CONFLICT (SHIFT) DO UPDATE SET N = COVER.N + 1;
            END""",
            f"""CREATE TRIGGER DUTY_GOES AFTER DELETE ON DUTY WHEN OLD.ONCALL = 1 BEGIN
                UPDATE COVER SET N = N - 1 WHERE SHIFT = OLD.SHIFT;
                {REFUSE} FROM COVER WHERE SHIFT = OLD.SHIFT AND N < 1
                    AND EXISTS (SELECT 1 FROM SHIFTS WHERE ID = OLD.SHIFT);
            END""",
            f"""CREATE TRIGGER DUTY_CHANGES AFTER UPDATE OF SHIFT, ONCALL ON DUTY BEGIN
                INSERT INTO COVER SELECT NEW.SHIFT, 1 WHERE NEW.ONCALL = 1
                    ON CONFLICT (SHIFT) DO UPDATE SET N = COVER.N + 1;
                UPDATE COVER SET N = N - 1 WHERE SHIFT = OLD.SHIFT AND OLD.ONCALL = 1;
                {REFUSE} FROM COVER WHERE SHIFT = OLD.SHIFT AND N < 1
                    AND EXISTS (SELECT 1 FROM SHIFTS WHERE ID = OLD.SHIFT);
            END""",
        ],
        (
            "SELECT SHIFT, N FROM COVER WHERE N > 0 ORDER BY SHIFT",
            "SELECT SHIFT, COUNT(*) FROM DUTY WHERE ONCALL = 1 GROUP BY SHIFT ORDER BY SHIFT",
        ),
        # Of 20 rows those with the keys 0, 4, .. 36 are the first shift's.
        [*(("DELETE FROM DUTY WHERE ID = ?", (4 * number,), False) for number in range(9))]
        + [
            ("DELETE FROM DUTY WHERE ID = ?", (36,), True),
            ("UPDATE DUTY SET ONCALL = ? WHERE ID = ?", (0, 36), True),
            ("UPDATE DUTY SET SHIFT = ? WHERE ID = ?", (1, 36), True),
            (NEW_SHIFT, (5,), True),
            ("INSERT INTO DUTY VALUES (?, ?, ?)", (3, 5, 0), False),
            (NEW_SHIFT, (5,), True),
            ("UPDATE DUTY SET ONCALL = ? WHERE ID = ?", (1, 3), False),
            (NEW_SHIFT, (5,), False),
            ("INSERT INTO DUTY VALUES (?, ?, ?)", (1, 0, 1), False),
            ("DELETE FROM DUTY WHERE ID = ?", (36,), False),
            ("DELETE FROM DUTY WHERE ID = ?", (1,), True),
        ],
    ),
    Form(
        "by group",
        [ACCT],
        loads.FUNDS,
        "CREATE INDEX BEST ON ACCT (OWNER, BAL)",
        [
            "CREATE TABLE FUNDS (OWNER INTEGER PRIMARY KEY, TOTAL INTEGER NOT NULL)",
            "INSERT INTO FUNDS SELECT OWNER, SUM(BAL) FROM ACCT GROUP BY OWNER",
        ],
        [
            f"""CREATE TRIGGER ACCT_COMES AFTER INSERT ON ACCT BEGIN
                INSERT INTO FUNDS VALUES (NEW.OWNER, NEW.BAL)
                    ON CONFLICT (OWNER) DO UPDATE SET TOTAL = FUNDS.TOTAL + NEW.BAL;
                {REFUSE} FROM FUNDS WHERE OWNER = NEW.OWNER AND TOTAL < 0;
            END""",
            f"""CREATE TRIGGER ACCT_GOES AFTER DELETE ON ACCT BEGIN
                UPDATE FUNDS SET TOTAL = TOTAL - OLD.BAL WHERE OWNER = OLD.OWNER;
                {REFUSE} FROM FUNDS WHERE OWNER = OLD.OWNER AND TOTAL < 0;
            END""",
            f"""CREATE TRIGGER BALANCE_CHANGES AFTER UPDATE OF BAL ON ACCT WHEN NEW.OWNER = OLD.OWNER BEGIN
                UPDATE FUNDS SET TOTAL = TOTAL - OLD.BAL + NEW.BAL WHERE OWNER = OLD.OWNER;
                {REFUSE} FROM FUNDS WHERE OWNER = OLD.OWNER AND TOTAL < 0;
            END""",
            f"""CREATE TRIGGER OWNER_CHANGES AFTER UPDATE OF OWNER ON ACCT WHEN NEW.OWNER <> OLD.OWNER BEGIN
                UPDATE FUNDS SET TOTAL = TOTAL - OLD.BAL WHERE OWNER = OLD.OWNER;
                INSERT INTO FUNDS VALUES (NEW.OWNER, NEW.BAL)
                    ON CONFLICT (OWNER) DO UPDATE SET TOTAL = FUNDS.TOTAL + NEW.BAL;
                {REFUSE} FROM FUNDS WHERE OWNER IN (OLD.OWNER, NEW.OWNER) AND TOTAL < 0;
            END""",
        ],
        (
            "SELECT OWNER, TOTAL FROM FUNDS ORDER BY OWNER",
            "SELECT OWNER, SUM(BAL) FROM ACCT GROUP BY OWNER ORDER BY OWNER",
        ),
        # Of 20 rows the first owner's have the keys 0, 4, .. 36 and the balances 0, 74, .. 666, which sum to 3330.
        [
            ("INSERT INTO ACCT VALUES (?, ?, ?)", (1, 0, -3331), True),
            ("INSERT INTO ACCT VALUES (?, ?, ?)", (1, 0, -3330), False),
            ("INSERT INTO ACCT VALUES (?, ?, ?)", (3, 0, -1), True),
            ("INSERT INTO ACCT VALUES (?, ?, ?)", (5, 7, -1), True),
            ("UPDATE ACCT SET BAL = ? WHERE ID = ?", (-3331, 1), True),
            ("UPDATE ACCT SET OWNER = ? WHERE ID = ?", (1, 4), True),
            ("UPDATE ACCT SET OWNER = ? WHERE ID = ?", (7, 1), True),
            ("DELETE FROM ACCT WHERE ID = ?", (4,), True),
            ("INSERT INTO ACCT VALUES (?, ?, ?)", (3, 0, 1), False),
            ("UPDATE ACCT SET BAL = ? WHERE ID = ?", (-3331, 1), False),
            ("DELETE FROM ACCT WHERE ID = ?", (3,), True),
            ("UPDATE ACCT SET OWNER = ? WHERE ID = ?", (1, 1), False),
        ],
    ),
    Form(
        "single",
        [ACCT],
        f"(SELECT SUM(BAL) FROM ACCT) <= {MOST}",
        "CREATE INDEX BEST ON ACCT (BAL)",
        [
            "CREATE TABLE WHOLE (ID INTEGER PRIMARY KEY, TOTAL INTEGER NOT NULL)",
            "INSERT INTO WHOLE SELECT 1, COALESCE(SUM(BAL), 0) FROM ACCT",
        ],
        [
            f"""CREATE TRIGGER ACCT_COMES AFTER INSERT ON ACCT BEGIN
                UPDATE WHOLE SET TOTAL = TOTAL + NEW.BAL WHERE ID = 1;
                {REFUSE} FROM WHOLE WHERE ID = 1 AND TOTAL > {MOST};
            END""",
            f"""CREATE TRIGGER ACCT_GOES AFTER DELETE ON ACCT BEGIN
                UPDATE WHOLE SET TOTAL = TOTAL - OLD.BAL WHERE ID = 1;
                {REFUSE} FROM WHOLE WHERE ID = 1 AND TOTAL > {MOST};
            END""",
            f"""CREATE TRIGGER BALANCE_CHANGES AFTER UPDATE OF BAL ON ACCT BEGIN
                UPDATE WHOLE SET TOTAL = TOTAL - OLD.BAL + NEW.BAL WHERE ID = 1;
                {REFUSE} FROM WHOLE WHERE ID = 1 AND TOTAL > {MOST};
            END""",
        ],
        ("SELECT TOTAL FROM WHOLE", "SELECT SUM(BAL) FROM ACCT"),
        # The balances of 20 rows sum to 7030.
        [
            ("INSERT INTO ACCT VALUES (?, ?, ?)", (1, 0, MOST - 7029), True),
            ("INSERT INTO ACCT VALUES (?, ?, ?)", (1, 0, MOST - 7030), False),
            ("INSERT INTO ACCT VALUES (?, ?, ?)", (3, 0, 1), True),
            ("UPDATE ACCT SET BAL = ? WHERE ID = ?", (1, 0), True),
            ("INSERT INTO ACCT VALUES (?, ?, ?)", (5, 0, -10), False),
            ("INSERT INTO ACCT VALUES (?, ?, ?)", (3, 0, 10), False),
            ("DELETE FROM ACCT WHERE ID = ?", (5,), True),
            ("DELETE FROM ACCT WHERE ID = ?", (1,), False),
        ],
    ),
    Form(
        "by parent",
        [SHIFTS, DUTY],
        "NOT EXISTS (SELECT * FROM DUTY D WHERE D.SHIFT IS NOT NULL AND NOT EXISTS"
        " (SELECT * FROM SHIFTS S WHERE S.ID = D.SHIFT))",
        "CREATE INDEX BEST ON DUTY (SHIFT)",
        ["CREATE INDEX CHILDREN ON DUTY (SHIFT)"],
        [
            f"""CREATE TRIGGER DUTY_COMES AFTER INSERT ON DUTY BEGIN
                {REFUSE} WHERE NOT EXISTS (SELECT 1 FROM SHIFTS WHERE ID = NEW.SHIFT);
            END""",
            f"""CREATE TRIGGER DUTY_CHANGES AFTER UPDATE OF SHIFT ON DUTY BEGIN
                {REFUSE} WHERE NOT EXISTS (SELECT 1 FROM SHIFTS WHERE ID = NEW.SHIFT);
            END""",
            f"""CREATE TRIGGER SHIFT_GOES AFTER DELETE ON SHIFTS BEGIN
                {REFUSE} WHERE EXISTS (SELECT 1 FROM DUTY WHERE SHIFT = OLD.ID);
            END""",
        ],
        ("SELECT 0", "SELECT COUNT(*) FROM DUTY WHERE SHIFT NOT IN (SELECT ID FROM SHIFTS)"),
        # Of 20 rows half are in shift 0, half in shift 1.
        [
            ("INSERT INTO DUTY VALUES (?, ?, ?)", (1, 2, 1), True),
            (NEW_SHIFT, (2,), False),
            ("INSERT INTO DUTY VALUES (?, ?, ?)", (1, 2, 1), False),
            ("DELETE FROM SHIFTS WHERE ID = ?", (2,), True),
            ("UPDATE DUTY SET SHIFT = ? WHERE ID = ?", (3, 1), True),
            ("UPDATE DUTY SET SHIFT = ? WHERE ID = ?", (1, 1), False),
            ("DELETE FROM SHIFTS WHERE ID = ?", (2,), False),
        ],
        Other("a foreign key", ["PRAGMA foreign_keys = ON", SHIFTS, WITH_KEY],
            ["CREATE INDEX CHILDREN ON DUTY (SHIFT)"]),
    ),
    Stays(10),
    Stays(100),
    Form("no assertion", [ACCT]),
]


class Files:
    """The files of one form and size."""

    def __init__(self, folder: pathlib.Path, form: Form, rows: int) -> None:
        self.folder = folder
        self.definitions = written(folder / "defs", form.definitions(rows))
        self.empty = written(folder / "empty", [])
        self.script, self.output = folder / "script", folder / "output"


def script_of_rounds(form: Form, rows: int, rounds: int, begin: str = "BEGIN") -> Iterator[str]:
    """One transaction, which is rolled back; with another word in the place of BEGIN each statement is refused."""
    yield f"A: {begin};\n"
    yield from (f"A: {text(*one)}\n" for number in range(rounds) for one in form.round(number, rows))
    yield "A: ROLLBACK;\n"


def replayed(program: Path, files: Files, form: Form, rounds: int) -> tuple[Used, float]:
    """What loading alone uses, and the processor seconds of the statements after it."""
    loading = measured_replay(program, files.definitions, files.empty)
    whole = measured_replay(program, files.definitions, files.script, files.output)
    check_report(files.output, form, rounds)
    return loading, whole.seconds - loading.seconds


def check_report(output: Path, form: Form, rounds: int) -> None:
    """Every statement was taken, and the rule is true in the end."""
    want = "A: BEGIN 0\n" + "A: INSERT 1\nA: UPDATE 1\nA: DELETE 1\n" * rounds + "A: ROLLBACK\nCOMMITS 0\n"
    report = pathlib.Path(output).read_text()
    if not report.startswith(want) or not report.endswith("RULE TRUE\n" if form.condition else "ASSERTIONS 0\n"):
        sys.exit("a statement of the script was not answered as it has to be")


# How SQLite keeps the rule: by a query after each statement, by triggers, or in the other way of the form.
SCRATCH, TRIGGERS, OTHER = range(3)


def filled(form: Form, rows: int, how: int) -> sqlite3.Connection:
    """SQLite with the tables in memory, and what is added to them so that the rule is kept."""
    base = sqlite3.connect(":memory:", isolation_level=None)
    for one in form.other.tables if form.other and how == OTHER else form.tables:
        base.execute(one)
    base.execute("BEGIN")
    for statement, numbers in form.loaded(rows):
        base.execute(statement, numbers)
    base.execute("COMMIT")
    add_rule(base, form, how)
    return base


def add_rule(base: sqlite3.Connection, form: Form, how: int) -> None:
    """Adds to the tables of SQLite what keeps the rule in this way."""
    by_triggers = [*form.side, *form.triggers]
    by_other = form.other.added if form.other else by_triggers
    for one in [form.index] if how == SCRATCH else by_other if how == OTHER else by_triggers:
        base.execute(one)


def in_sqlite(form: Form, rows: int, rounds: int, how: int) -> float:
    """The processor seconds of the statements in SQLite, which keeps the rule in this way."""
    base = filled(form, rows, how)
    base.execute("ANALYZE")
    used = in_one_transaction(base, form, [one for number in range(rounds) for one in form.round(number, rows)], how)
    base.close()
    return used


def in_one_transaction(base: sqlite3.Connection, form: Form, statements: Iterable[Step], how: int) -> float:
    """The processor seconds of statements in a transaction, which is rolled back."""
    query = f"SELECT {form.condition}" if form.condition and how == SCRATCH else None
    base.execute("BEGIN")
    used = processor_time(base, statements, query)
    if form.condition and how != SCRATCH:
        check_totals(base, form)
    base.execute("ROLLBACK")
    return used


def processor_time(base: sqlite3.Connection, statements: Iterable[Step], query: str | None) -> float:
    """The processor seconds of statements that each change one row, and leave a query true if there is one."""
    start = time.process_time()
    for statement, numbers in statements:
        if base.execute(statement, numbers).rowcount != 1:
            sys.exit("a statement did not change one row")
        if query and base.execute(query).fetchone() != (1,):
            sys.exit("the assertion is false from scratch")
    return time.process_time() - start


def check_totals(base: sqlite3.Connection, form: Form) -> None:
    """The totals are those of the rows."""
    kept, counted = (base.execute(query).fetchall() for query in form.totals)
    if kept != counted:
        sys.exit(f"{form.name}: SQLite has not kept the totals")


def check_sqlite(form: Form, how: int) -> None:
    """What breaks the rule is refused by SQLite, and nothing else, where it keeps it in this way."""
    base = filled(form, 20, how)
    for statement, numbers, breaks in form.tries:
        if refuses(base, statement, numbers) != breaks:
            sys.exit(f"{form.name}: SQLite does not answer as the rule has it: {text(statement, numbers)}")
        check_totals(base, form)
        if base.execute(f"SELECT {form.condition}").fetchone() != (1,):
            sys.exit(f"{form.name}: SQLite has let the rule be broken")
    base.close()


def check_refusals(program: Path, form: Form, folder: pathlib.Path) -> None:
    """What breaks the rule is refused, and nothing else, by SQLite and by skewguard."""
    check_sqlite(form, TRIGGERS)
    if form.other:
        check_sqlite(form, OTHER)
    replies = ["A: BEGIN 0"]
    for statement, _, breaks in form.tries:
        replies.append("A: REFUSED 10 23000 RULE" if breaks else f"A: {statement.split()[0]} 1")
    files = Files(folder, form, 20)
    tries = (f"A: {text(statement, numbers)}\n" for statement, numbers, _ in form.tries)
    measured_replay(program, files.definitions, written(files.script, ["A: BEGIN;\n", *tries]), files.output)
    report = pathlib.Path(files.output).read_text().splitlines() + [""] * len(replies)
    for found, want in zip(report, replies):
        if not found.startswith(want):
            sys.exit(f"{form.name}: skewguard answers {found} and not {want}")


def refuses(base: sqlite3.Connection, statement: str, numbers: Values) -> bool:
    """Whether SQLite refuses a statement by a trigger or by a foreign key."""
    try:
        base.execute(statement, numbers)
    except sqlite3.IntegrityError as fault:
        if str(fault) not in ("RULE", "FOREIGN KEY constraint failed"):
            sys.exit(f"SQLite says {fault}")
        return True
    return False


def told(figures: Figures) -> str:
    """All figures of one form and size, in one line."""
    parts = [("us a statement:", "kept", 2), ("triggers", "triggers", 2)]
    parts += [("otherwise", "other", 2)] if figures["other"] else []
    parts += [("from scratch", "scratch", 1), ("loading s", "loading", 4)]
    each = [spread(title, figures[name], places) for title, name, places in parts]
    return ", ".join([*each, f"{figures.median('memory') / 1e6:.1f} MB"])


def measure(program: Path, form: Form, rows: int, repetitions: int, folder: pathlib.Path) -> Figures:
    """Seconds and bytes of loading, and microseconds a statement on each side, in each repetition."""
    rounds, fewer = ROUNDS.get(rows, 20_000), ROUNDS_FROM_SCRATCH.get(rows, 4)
    files, figures = Files(folder, form, rows), Figures()
    written(files.script, script_of_rounds(form, rows, rounds))
    for _ in range(repetitions):
        loading, statements = replayed(program, files, form, rounds)
        figures["loading"].append(loading.seconds)
        figures["memory"].append(loading.memory)
        figures["kept"].append(statements / (3 * rounds) * 1e6)
        sides = [(TRIGGERS, ROUNDS_TRIGGERS, "triggers")]
        sides += [(OTHER, ROUNDS_TRIGGERS, "other")] if form.other else []
        sides += [(SCRATCH, fewer, "scratch")] if form.condition else []
        for how, of_sqlite, side in sides:
            figures[side].append(in_sqlite(form, rows, of_sqlite, how) / (3 * of_sqlite) * 1e6)
    return figures


def committed_memory(program: Path, form: Form, folder: pathlib.Path) -> list[float]:
    """Bytes of a committed change of one row: of the whole, and of the same transactions rolled back."""
    files = Files(folder, form, COMMIT_ROWS)
    loaded = measured_replay(program, files.definitions, files.empty).memory
    found = []
    for end in ("COMMIT", "ROLLBACK"):
        pairs = (form.round(number, COMMIT_ROWS) for number in range(COMMITS // 2))
        changes = (valued(*one) for insert, update, _ in pairs for one in (insert, update))
        written(files.script, loads.transactions(changes, end=end))
        used = measured_replay(program, files.definitions, files.script, files.output)
        check_commits(files.output, end)
        found.append((used.memory - loaded) / COMMITS)
    return found


def check_commits(output: Path, end: str) -> None:
    """Every transaction was taken."""
    report = pathlib.Path(output).read_text()
    commits = COMMITS if end == "COMMIT" else 0
    ends = f"\nA: COMMIT {COMMITS}\n" if commits else "\nA: ROLLBACK\n"
    if f"\nCOMMITS {commits}\n" not in report or ends not in report or "\nREFUSED 0\n" not in report:
        sys.exit("a transaction was not committed as it has to be")


def print_tables(found: Found, sizes: Sequence[int]) -> None:
    """The tables of statements, of growth and of loading."""
    heads = ["form", "rows", "skewguard, us", "SQLite from scratch, best index, us", "SQLite with triggers, us"]
    heads += ["from scratch / skewguard", "triggers / skewguard"]
    rows = []
    for (name, size), one in found.items():
        kept, scratch, triggers = one.median("kept"), one.middle("scratch"), one.median("triggers")
        cells = [name, f"{size:,}", digits(kept), digits(scratch), digits(triggers)]
        ratios = [scratch and scratch / kept, triggers / kept]
        rows.append(cells + [digits(ratio) for ratio in ratios])
    table(heads, rows)
    ways = {form.name: form.other.name for form in FORMS if form.other}
    rows = [
        [name, f"{size:,}", ways[name], digits(one.median("other")), digits(one.median("other") / one.median("kept"))]
        for (name, size), one in found.items()
        if name in ways
    ]
    if rows:
        table(["form", "rows", "SQLite otherwise", "us", "otherwise / skewguard"], rows)
    names = list(dict.fromkeys(name for name, _ in found))
    rows = []
    for name in names:
        sides = [[found[name, size].middle(side) for size in sizes] for side in ("kept", "scratch", "triggers")]
        rows.append([name, *(power(exponent(zip(sizes, times))) for times in sides)])
    heads = [f"exponent of growth, {sizes[0]:,} to {sizes[-1]:,} rows", "skewguard"]
    table(heads + ["SQLite from scratch", "SQLite with triggers"], rows)
    heads = ["loading", *(f"{size:,} rows" for size in sizes)]
    rows = [[f"{name}, seconds", *(digits(found[name, size].middle("loading")) for size in sizes)] for name in names]
    rows += [[f"{name}, peak MB", *(digits(found[name, size].median("memory") / 1e6) for size in sizes)]
        for name in names]
    table(heads, rows)


def print_memory(program: Path, forms: Iterable[Form], folder: pathlib.Path) -> None:
    """The table of what a committed change adds."""
    rows = []
    for form in forms:
        whole, script = committed_memory(program, form, folder)
        rows.append([form.name, digits(whole, 3), digits(script, 3), digits(whole - script, 3)])
    heads = [f"bytes a committed change, {COMMIT_ROWS:,} rows", "whole", "of it the script", "of it the commit"]
    table(heads, rows)


def main() -> None:
    words = parser_of("Time of a statement, in skewguard and in SQLite.")
    take_program(words)
    words.add_argument("--rows", default="1000,10000,100000,1000000", help="sizes of the tables, each at least 20")
    words.add_argument("--repetitions", type=int, default=3)
    words.add_argument("--repetitions-large", type=int, default=1, help=f"repetitions from {LARGE:,} rows on")
    words.add_argument("--forms", help="some of the forms, by name, with commas between")
    words.add_argument("--without-memory", action="store_true", help="leaves out the memory of committed changes")
    chosen = words.parse_args()
    sizes = numbers_of(chosen.rows)
    forms = [form for form in FORMS if not chosen.forms or form.name in chosen.forms.split(",")]
    program = program_of(chosen)
    print(f"SQLite {sqlite3.sqlite_version}, {machine(chosen.repetitions)}")
    print(f"a peak below {least_memory() / 1e6:.1f} MB can't be told", flush=True)
    found: dict[tuple[str, int], Figures] = {}
    with temporary_folder() as folder:
        for form in forms:
            if form.condition:
                check_refusals(program, form, folder)
        for form in forms:
            for rows in sizes:
                repetitions = chosen.repetitions_large if rows >= LARGE else chosen.repetitions
                found[form.name, rows] = one = measure(program, form, rows, repetitions, folder)
                print(f"{form.name}, {rows} rows, {told(one)}", flush=True)
        load_at_end()
        print_tables(found, sizes)
        if not chosen.without_memory:
            print_memory(program, forms, folder)


if __name__ == "__main__":
    main()
