#!/usr/bin/env python3
"""Loads what `skewguard sqlite` prints with SQLite, and compares its rows with those that the shell selects.

    tools/sqlite_rows.py PROGRAM [--rows N]

Each case is a text of definitions and the transactions of a session, which the shell takes on a journal, one start for
each. Before the first, and behind each of them, the tables and rows that SQLite has are compared with what the shell
says: of the definitions alone, and of the journal. The changes that `journal --commits` prints have to lead from the
rows of the definitions to those behind each transaction. Then the journal is torn behind its last commit, used by a
shell while it is read, damaged, and read with other definitions; each answer has to be the one that docs/JOURNAL.md
has. The last case has N rows.
"""
from __future__ import annotations

import os
import pathlib
import re
import sqlite3
import subprocess
import sys
import typing
from collections.abc import Callable, Iterable, Sequence

from harness.arguments import parser_of
from harness.journals import DAMAGED, SELECT, lines_of
from harness.programs import Answer, Word, pipe, run
from harness.texts import Value, in_bytes, in_characters, literal, placed, temporary_folder, write

VALUE = r"(?:NULL|-?\d+|'(?:[^']|'')*')"
ROW = rf"(none|\({VALUE}(?:, {VALUE})*\))"
CHANGE = re.compile(rf"commit (\d+): (?:no changes|table (\d+): {ROW} -> {ROW})")
NO_TRANSACTION = "Z: REFUSED 14 - NO TRANSACTION\n"
LARGEST = 10 ** 15
REFUSED = 1
WIDE = "CREATE TABLE T (ID INTEGER PRIMARY KEY, " + ", ".join(f"C{n} INTEGER" for n in range(2000)) + ");"
REFUSED_BY_SQLITE = {"CREATE TABLE SQLITE_T (ID INTEGER PRIMARY KEY);": "SQLITE_T", WIDE: "T"}

Rows = dict[str, list[str]]


class Case(typing.NamedTuple):
    """Definitions, what a session does in each of its transactions, and the columns of each table."""

    name: str
    definitions: str
    transactions: Sequence[str]
    columns: dict[str, str]


CASES = [
    Case("texts", """CREATE TABLE NOTE (NAME VARCHAR(255) PRIMARY KEY, SAID VARCHAR(20), N INTEGER NOT NULL);
INSERT INTO NOTE VALUES ('O''HARA', '''', 0); INSERT INTO NOTE VALUES ('', NULL, -1);
INSERT INTO NOTE VALUES ('-- ; .quit \\ " ` $1 ?', '%_', 1); INSERT INTO NOTE VALUES ('ÄÖ ∀ 🂡', 'naïve', 2);""",
        ["A: INSERT INTO NOTE VALUES (' ''''', 'x'' || ''y', 3);", "A: UPDATE NOTE SET SAID = 'ÿ''' WHERE NAME = '';",
            "A: DELETE FROM NOTE WHERE NAME = 'O''HARA';"], {"NOTE": "NAME, SAID, N"}),
    Case("numbers", f"""CREATE TABLE ACCOUNT (ID INTEGER PRIMARY KEY, BAL INTEGER);
CREATE ASSERTION COVERED CHECK (NOT EXISTS (SELECT * FROM ACCOUNT WHERE BAL = 7));
CREATE ASSERTION FEW CHECK (NOT EXISTS (SELECT * FROM ACCOUNT WHERE BAL = 8));
INSERT INTO ACCOUNT VALUES ({LARGEST}, -{LARGEST}); INSERT INTO ACCOUNT VALUES (-{LARGEST}, {LARGEST});
INSERT INTO ACCOUNT VALUES (0, NULL); INSERT INTO ACCOUNT VALUES (-1, -1);""",
        ["A: UPDATE ACCOUNT SET BAL = 0 - BAL WHERE ID = -1;", "", f"A: DELETE FROM ACCOUNT WHERE ID = {LARGEST};"],
        {"ACCOUNT": "ID, BAL"}),
    Case("several tables, words of SQLite, no rows", """CREATE TABLE INDEX (ROWID INTEGER PRIMARY KEY, OID VARCHAR(1));
CREATE TABLE TRIGGER (COLUMN VARCHAR(3) PRIMARY KEY); CREATE TABLE VIEW (ID INTEGER PRIMARY KEY);
INSERT INTO TRIGGER VALUES ('A');""",
        ["A: INSERT INTO INDEX VALUES (2, 'B'); A: INSERT INTO INDEX VALUES (1, NULL);",
            "A: DELETE FROM TRIGGER WHERE COLUMN = 'A';"],
        {"INDEX": "ROWID, OID", "TRIGGER": "COLUMN", "VIEW": "ID"}),
]


def large(rows: int) -> Case:
    values = "".join(f"INSERT INTO T VALUES ({row}, 'ROW {row} O''', NULL);\n" for row in range(rows))
    return Case(f"{rows} rows", f"CREATE TABLE T (ID INTEGER PRIMARY KEY, A VARCHAR(30), B INTEGER);\n{values}",
        ["A: UPDATE T SET B = ID WHERE ID > 3;"], {"T": "ID, A, B"})


def written(value: Value) -> str:
    """A value as the shell writes it."""
    return in_bytes(literal(value))


def loaded(text: str) -> sqlite3.Connection:
    """The tables and rows that SQLite has of a text. Nothing of it is left open."""
    database = sqlite3.connect(":memory:", isolation_level=None)
    database.executescript(in_characters(text))
    if database.in_transaction:
        raise ValueError("the transaction is still open")
    return database


def rows_of(database: sqlite3.Connection, table: str, columns: str) -> list[str]:
    quoted = ", ".join(f'"{column}"' for column in columns.split(", "))
    return sorted(", ".join(map(written, row)) for row in database.execute(f'SELECT {quoted} FROM "{table}"'))


def differences(case: Case, printed: Answer, wanted: Rows) -> list[str]:
    """What SQLite has otherwise than the shell, where it is given what was printed."""
    if printed.status or printed.error:
        return [f"{case.name}: {printed}"]
    try:
        database = loaded(printed.output)
    except (sqlite3.Error, ValueError) as error:
        return [f"{case.name}: SQLite says: {error}\n{printed.output[:500]}"]
    tables = {name for (name,) in database.execute("SELECT name FROM sqlite_master WHERE type = 'table'")}
    found = [] if tables == set(case.columns) else [f"{case.name}: tables {tables}"]
    for table, columns in case.columns.items():
        has = rows_of(database, table, columns)
        if has != wanted[table]:
            found.append(f"{case.name}, {table}: SQLite has {has[:5]} .., the shell {wanted[table][:5]} ..")
    database.close()
    return found


def selected(case: Case, answer: Callable[[str], Iterable[str]]) -> Rows:
    """The rows of each table, by what the shell answers to a query."""
    return {table: sorted(line[2:] for line in answer(SELECT.format(f"{columns} FROM {table}")) if line[:2] == "  ")
        for table, columns in case.columns.items()}


class Trial:
    """A case in a folder: its definitions, its journal, the rows that the shell selects, and what differs."""

    def __init__(self, program: str, case: Case, folder: pathlib.Path) -> None:
        self.program, self.case = program, case
        self.definitions = write(folder / "defs.sql", case.definitions.encode())
        self.journal = folder / "ledger"
        self.found: list[str] = []
        self.states: list[Rows] = []

    # (no text is cut at its lines by splitlines, which takes bytes of UTF-8 for ends of lines)

    def on_journal(self, script: str) -> list[str]:
        words = self.program, "shell", self.definitions, "--journal", self.journal
        return run(words, script.encode()).output.split("\n")

    def printed(self, *words: Word, status: int = 0, error: str = "") -> Answer:
        """What is printed of the definitions, or of the journal. Nothing is where a status or an error is wanted."""
        answer = run([self.program, "sqlite", self.definitions, *words])
        if answer.status != status or error not in answer.error or status and answer.output:
            self.found.append(f"{self.case.name}: {answer}, and not {status} {error}")
        return answer

    def of_definitions(self) -> None:
        shell = [self.program, "shell", self.definitions]
        self.states.append(selected(self.case, lambda script: run(shell, script.encode()).output.split("\n")))
        answer = self.printed()
        self.found += differences(self.case, answer, self.states[0])
        told = "".join(line for line in answer.output.split("\n") if line.startswith("-- Assertions"))
        for line in self.case.definitions.splitlines():
            if line.startswith("CREATE ASSERTION") and line.split()[2] not in told:
                self.found.append(f"{self.case.name}: {line.split()[2]} is not named: {told}")

    def of_journal(self, number: int, rows: Rows) -> None:
        """The journal has these rows after the commit of this number, which is its last."""
        answer = self.printed("--journal", self.journal)
        if f" after commit {number}.\n" not in answer.output:
            self.found.append(f"{self.case.name}: not after commit {number}")
        self.found += differences(self.case, answer, rows)

    def commit(self, text: str) -> None:
        if "A: COMMIT 1" not in self.on_journal(f"A: BEGIN; {text} A: COMMIT;\n"):
            self.found.append(f"{self.case.name}: {text} was not committed")
        self.states.append(selected(self.case, self.on_journal))
        self.of_journal(len(self.states) - 1, self.states[-1])

    def of_commits(self) -> None:
        """What the changes of each commit make of the rows of the image."""
        held = [{f"({row})" for row in self.states[0][table]} for table in self.case.columns]
        answer = run([self.program, "journal", self.journal, "--commits"])
        told = answer.output.split("\n")[:-1]
        lines = [line for line in map(CHANGE.fullmatch, told) if line]
        if answer.status or len(lines) < len(told):
            self.found.append(f"{self.case.name}: {answer}")
            return
        for number in range(1, len(self.states)):
            for line in lines:
                if int(line[1]) == number and line[2]:
                    rows = held[int(line[2])]
                    rows.symmetric_difference_update({line[3], line[4]} - {"none"})
            wanted = [{f"({row})" for row in rows} for rows in self.states[number].values()]
            if held != wanted or str(number) not in {line[1] for line in lines}:
                self.found.append(f"{self.case.name}: commit {number} leads to {held}, and not to {wanted}")

    def in_use(self) -> None:
        """The journal is read while a shell has it open, and goes on."""
        def answer(script: str) -> list[str]:
            into.write(script.encode() + b"Z: ROLLBACK;\n")
            into.flush()
            lines = []
            while (line := out.readline().decode("latin-1")) not in ("", NO_TRANSACTION):
                lines.append(line.rstrip("\n"))
            return lines

        words = [self.program, "shell", self.definitions, "--journal", str(self.journal)]
        with subprocess.Popen(words, stdin=subprocess.PIPE, stdout=subprocess.PIPE) as shell:
            into, out = pipe(shell.stdin), pipe(shell.stdout)
            self.of_journal(len(self.states) - 1, selected(self.case, answer))
            into.close()

    def of_broken(self) -> None:
        """The journal is torn in its last commit, damaged before it, and read with other definitions."""
        file = self.journal.read_bytes()
        last = lines_of(file)[-1]
        for cut in (last.end - 1, last.start + 5, last.start):
            write(self.journal, file[:cut] + bytes(len(file) - cut))
            self.of_journal(len(self.states) - 2, self.states[-2])
        write(self.journal, file[:last.start - 3] + b"~" + file[last.start - 2:])
        self.printed("--journal", self.journal, status=DAMAGED, error="is damaged at byte")
        write(self.journal, file)
        write(self.definitions, self.case.definitions.encode() + b" ")
        self.printed("--journal", self.journal, status=REFUSED, error="is of other definitions")


def judge(program: str, case: Case) -> list[str]:
    with temporary_folder() as folder:
        trial = Trial(program, case, folder)
        trial.of_definitions()
        for text in ["", *case.transactions]:
            trial.commit(text)
        trial.of_commits()
        trial.in_use()
        trial.of_broken()
        return trial.found


def refusals(program: str) -> list[str]:
    """Tables that SQLite does not take are refused, and nothing is printed."""
    found = []
    for text, name in REFUSED_BY_SQLITE.items():
        with placed(text) as (definitions,):
            answer = run([program, "sqlite", definitions])
        if answer.status != REFUSED or answer.output or not answer.error.endswith(f": {name}\n"):
            found.append(f"{text[:60]}: {answer}")
    return found


def main() -> int:
    parser = parser_of(__doc__)
    parser.add_argument("program")
    parser.add_argument("--rows", type=int, default=5000)
    words = parser.parse_args()
    program = os.path.abspath(words.program)
    cases = [*CASES, large(words.rows)]
    found = [difference for case in cases for difference in judge(program, case)] + refusals(program)
    for difference in found:
        print(difference)
    print(f"{len(cases)} cases, {len(found)} differ")
    return bool(found)


if __name__ == "__main__":
    sys.exit(main())
