#!/usr/bin/env python3
"""Faulty texts, and what a person is shown of each: the program's `check` is run on all of them.

    tools/faulty_texts.py            runs them, and compares what is shown with docs/faulty_texts.txt
    tools/faulty_texts.py --write    runs them, and writes that file
    tools/faulty_texts.py [--write] PROGRAM      the same with a program that is built

Else the program is built once, by `rt try`, which proves nothing. A text is of definitions; behind a line of three
dashes stands a script.
"""
from __future__ import annotations

import difflib
import os
import pathlib
import re
import sys
import typing
from collections.abc import Mapping

from harness.arguments import parser_of
from harness.programs import TOP, run
from harness.texts import placed, read, temporary_folder, write

SHOWN = f"{TOP}/docs/faulty_texts.txt"

TABLES = """CREATE TABLE SHIFTS (ID INTEGER PRIMARY KEY, HOURS INTEGER);
CREATE TABLE DUTY (ID INTEGER PRIMARY KEY, SHIFT INTEGER, DOCTOR VARCHAR(10), ONCALL INTEGER);
CREATE TABLE ACCT (ID INTEGER PRIMARY KEY, OWNER VARCHAR(10), BAL INTEGER NOT NULL);
"""


def rule(condition: str) -> str:
    return TABLES + f"CREATE ASSERTION RULE CHECK ({condition});\n"


def script(*statements: str) -> str:
    """A script of one transaction, over the three tables."""
    return f"{TABLES}---\nALICE: BEGIN;\n" + "".join(f"ALICE: {statement};\n" for statement in statements)


TEXTS = {
    "misspelt-word": "CREATE TABEL T (ID INTEGER PRIMARY KEY);\n",
    "misspelt-type": "CREATE TABLE T (ID INTEGR PRIMARY KEY);\n",
    "no-semicolon": "CREATE TABLE T (ID INTEGER PRIMARY KEY)\nCREATE TABLE U (ID INTEGER PRIMARY KEY);\n",
    "no-end": "CREATE TABLE T (ID INTEGER PRIMARY KEY, A INTEGER\n",
    "open-text": "CREATE TABLE T (ID VARCHAR(9) PRIMARY KEY);\nINSERT INTO T VALUES ('O'HARA');\n",
    "double-quotes": 'CREATE TABLE "T" (ID INTEGER PRIMARY KEY);\n',
    "varchar-300": "CREATE TABLE T (ID INTEGER PRIMARY KEY, A VARCHAR(300));\n",
    "number-too-great": "CREATE TABLE T (ID INTEGER PRIMARY KEY);\nINSERT INTO T VALUES (10000000000000000);\n",
    "reserved-name": "CREATE TABLE T (ID INTEGER PRIMARY KEY, KEY INTEGER);\n",
    "key-of-two-columns": "CREATE TABLE T (ID INTEGER, A INTEGER, PRIMARY KEY (ID, A));\n",
    "reserved-table": "CREATE TABLE FOREIGN (ID INTEGER PRIMARY KEY);\n",
    "no-type": "CREATE TABLE T (A INTEGER CONSTRAINT X UNIQUE, B PRIMARY KEY);\n",
    "key-of-no-column": "CREATE TABLE T (ID INTEGER, PRIMARY KEY (NO));\n",
    "key-of-a-misspelt-column": "CREATE TABLE T (NUMBER INTEGER, PRIMARY KEY (NUMBR));\n",
    "key-with-a-name": "CREATE TABLE T (ID INTEGER, CONSTRAINT MAIN PRIMARY KEY (ID));\n",
    "key-with-a-name-behind-a-column": "CREATE TABLE T (ID INTEGER CONSTRAINT MAIN PRIMARY KEY);\n",
    "key-behind-a-column": "CREATE TABLE T (ID INTEGER PRIMARY KEY (ID));\n",
    "not-null-with-a-name": "CREATE TABLE T (ID INTEGER PRIMARY KEY, A INTEGER CONSTRAINT THERE NOT NULL);\n",
    "default": "CREATE TABLE T (ID INTEGER PRIMARY KEY, A INTEGER DEFAULT 0);\n",
    "foreign-key": "CREATE TABLE T (ID INTEGER PRIMARY KEY, U INTEGER REFERENCES U (ID));\n",
    "foreign-key-behind-a-column": "CREATE TABLE T (ID INTEGER PRIMARY KEY, U INTEGER FOREIGN KEY REFERENCES T);\n",
    "foreign-key-without-its-words": "CREATE TABLE T (ID INTEGER PRIMARY KEY, U INTEGER,\n"
        "    CONSTRAINT LINK REFERENCES T);\n",
    "foreign-key-to-a-reserved-word": "CREATE TABLE T (ID INTEGER PRIMARY KEY, U INTEGER REFERENCES ON (A));\n",
    "foreign-key-cascades": "CREATE TABLE T (ID INTEGER PRIMARY KEY, U INTEGER REFERENCES T ON DELETE CASCADE);\n",
    "foreign-key-of-no-column": TABLES
        + "CREATE TABLE T (ID INTEGER PRIMARY KEY, U INTEGER,\n    FOREIGN KEY (V) REFERENCES DUTY (ID));\n",
    "foreign-key-to-no-column": TABLES
        + "CREATE TABLE T (ID INTEGER PRIMARY KEY, U INTEGER,\n    FOREIGN KEY (U) REFERENCES DUTY (IDS));\n",
    "foreign-key-to-no-key": TABLES + "CREATE TABLE T (ID INTEGER PRIMARY KEY, U INTEGER REFERENCES DUTY (SHIFT));\n",
    "foreign-key-of-a-text": TABLES + "CREATE TABLE T (ID INTEGER PRIMARY KEY, U VARCHAR(9) REFERENCES DUTY);\n",
    "foreign-key-of-a-number": TABLES + "CREATE TABLE T (ID INTEGER PRIMARY KEY, A VARCHAR(9) UNIQUE, U INTEGER,\n"
        "    FOREIGN KEY (U) REFERENCES T (A));\n",
    "foreign-key-of-two-columns": TABLES
        + "CREATE TABLE T (ID INTEGER PRIMARY KEY, U INTEGER, V INTEGER, FOREIGN KEY (U, V) REFERENCES DUTY);\n",
    "foreign-key-to-two-columns": TABLES
        + "CREATE TABLE T (ID INTEGER PRIMARY KEY, U INTEGER,\n    FOREIGN KEY (U) REFERENCES DUTY (ID, SHIFT));\n",
    "references-to-two-columns": TABLES
        + "CREATE TABLE T (ID INTEGER PRIMARY KEY, U INTEGER REFERENCES DUTY (ID, SHIFT));\n",
    "foreign-key-from-two-to-two": TABLES + "CREATE TABLE T (ID INTEGER PRIMARY KEY, U INTEGER, V INTEGER,\n"
        "    FOREIGN KEY (U, V) REFERENCES DUTY (ID, SHIFT));\n",
    "unique-behind-a-column": "CREATE TABLE T (ID INTEGER PRIMARY KEY, A INTEGER UNIQUE (A));\n",
    "unique-of-two-columns": "CREATE TABLE T (ID INTEGER PRIMARY KEY, A INTEGER, B INTEGER,\n    UNIQUE (A, B));\n",
    "unique-of-a-column-twice": "CREATE TABLE T (ID INTEGER PRIMARY KEY, A INTEGER, UNIQUE (A, A));\n",
    "unique-of-no-column": "CREATE TABLE T (ID INTEGER PRIMARY KEY, A INTEGER UNIQUE, UNIQUE (B));\n",
    "unique-not-deferrable": "CREATE TABLE T (ID INTEGER PRIMARY KEY, A INTEGER UNIQUE NOT DEFERRABLE);\n",
    "constraint-twice": "CREATE TABLE T (ID INTEGER PRIMARY KEY,\n    A INTEGER CONSTRAINT SAME UNIQUE, B INTEGER"
        " CONSTRAINT SAME CHECK (B > 0));\n",
    "constraint-without-a-name-twice": "CREATE TABLE T (ID INTEGER PRIMARY KEY,\n    A INTEGER UNIQUE, UNIQUE (A));\n",
    "check-without-a-name-twice": "CREATE TABLE T (ID INTEGER PRIMARY KEY, A INTEGER, CHECK (A > 0), CHECK (A < 9));\n",
    "constraint-attributes": "CREATE TABLE T (ID INTEGER PRIMARY KEY, A INTEGER,\n"
        "    CHECK (A > 0) INITIALLY IMMEDIATE, UNIQUE (A) NOT DEFERRABLE INITIALLY DEFERRED);\n",
    "check-of-no-column": "CREATE TABLE T (ID INTEGER PRIMARY KEY, A INTEGER CHECK (B > 0));\n",
    "check-of-a-text": "CREATE TABLE T (ID INTEGER PRIMARY KEY, A VARCHAR(9),\n    CHECK (ID > 0 AND A > 0));\n",
    "check-too-wide": "CREATE TABLE T (ID INTEGER PRIMARY KEY, A INTEGER, CHECK (A * A * A > 0));\n",
    "check-by-a-function": "CREATE TABLE T (ID INTEGER PRIMARY KEY, A INTEGER CHECK (SUM(A) > 0));\n",
    "check-by-a-query-in-a-query": TABLES + "CREATE TABLE T (ID INTEGER PRIMARY KEY, CHECK (EXISTS (\n"
        "    SELECT * FROM DUTY D WHERE D.SHIFT = T.ID AND EXISTS (SELECT * FROM ACCT A WHERE A.ID = D.ID))));\n",
    "check-by-a-function-in-a-query": TABLES + "CREATE TABLE T (ID INTEGER PRIMARY KEY, CHECK (EXISTS (\n"
        "    SELECT * FROM DUTY D WHERE D.SHIFT = T.ID AND SUM(D.ONCALL) > 1)));\n",
    "check-before-its-columns": "CREATE TABLE T (CHECK (C > 0), ID INTEGER PRIMARY KEY, C VARCHAR(9));\n",
    "check-of-no-near-column": "CREATE TABLE T (CHECK (C > 0), ID INTEGER PRIMARY KEY);\n",
    "false-constraint": "CREATE TABLE T (ID INTEGER PRIMARY KEY, A INTEGER CHECK (A > 0), B INTEGER UNIQUE);\n"
        "INSERT INTO T VALUES (1, 1, 7);\nINSERT INTO T VALUES (2, 1, 7);\n",
    "rows-without-a-comma": "CREATE TABLE T (ID INTEGER PRIMARY KEY);\nINSERT INTO T VALUES (1) (2);\n",
    "rows-without-parentheses": "CREATE TABLE T (ID INTEGER PRIMARY KEY);\nINSERT INTO T VALUES 1, 2;\n",
    "rows-with-a-comma-too-many": "CREATE TABLE T (ID INTEGER PRIMARY KEY);\nINSERT INTO T VALUES (1), (2),;\n",
    "not-equal": rule("NOT EXISTS (SELECT * FROM DUTY WHERE ONCALL != 1)"),
    "equals-null": rule("NOT EXISTS (SELECT * FROM DUTY WHERE DOCTOR = NULL)"),
    "join": rule("NOT EXISTS (SELECT * FROM DUTY D JOIN SHIFTS S ON D.SHIFT = S.ID)"),
    "two-tables": rule("NOT EXISTS (SELECT * FROM DUTY D, SHIFTS S WHERE D.SHIFT = S.ID)"),
    "average": rule("(SELECT AVG(BAL) FROM ACCT) > 0"),
    "like": rule("NOT EXISTS (SELECT * FROM DUTY WHERE DOCTOR LIKE 'K%')"),
    "select-distinct": rule("NOT EXISTS (SELECT DISTINCT DOCTOR FROM DUTY WHERE ONCALL > 1)"),
    "distinct-rows": rule("NOT EXISTS (SELECT SHIFT FROM DUTY GROUP BY SHIFT HAVING COUNT(DISTINCT *) > 1)"),
    "two-groups": rule("NOT EXISTS (SELECT SHIFT FROM DUTY GROUP BY SHIFT, DOCTOR HAVING COUNT(*) > 1)"),
    "deep": rule("(" * 70 + "1 = 1" + ")" * 70),
    "unknown-table": rule("NOT EXISTS (\n    SELECT * FROM SHIFT S WHERE S.HOURS > 12)"),
    "unknown-column": rule("NOT EXISTS (SELECT * FROM ACCT WHERE BALL < 0)"),
    "unknown-qualifier": rule(
        "NOT EXISTS (SELECT * FROM SHIFTS S WHERE NOT EXISTS (SELECT * FROM DUTY D WHERE D.SHIFT = SHIFTS.ID))"),
    "table-below": "CREATE ASSERTION RULE CHECK (NOT EXISTS (SELECT * FROM LATER));\n"
        "CREATE TABLE LATER (ID INTEGER PRIMARY KEY);\n",
    "table-twice": TABLES + "CREATE TABLE DUTY (ID INTEGER PRIMARY KEY);\n",
    "column-twice": "CREATE TABLE T (ID INTEGER PRIMARY KEY, A INTEGER, B INTEGER,\n                A VARCHAR(9));\n",
    "index-twice": TABLES + "CREATE INDEX BYNAME ON DUTY (DOCTOR);\nCREATE INDEX BYNAME ON ACCT (OWNER);\n",
    "index-on-no-table": TABLES + "CREATE INDEX BYNAME ON DUTIES (DOCTOR);\n",
    "index-on-no-column": TABLES + "CREATE INDEX BYNAME ON DUTY (DOCTORS);\n",
    "index-of-two-columns": TABLES + "CREATE INDEX BYNAME ON DUTY (DOCTOR, SHIFT);\n",
    "unique-index": TABLES + "CREATE UNIQUE INDEX BYNAME ON DUTY (DOCTOR);\n",
    "no-key": "CREATE TABLE T (ID INTEGER, A INTEGER);\n",
    "two-keys": "CREATE TABLE T (ID INTEGER PRIMARY KEY, A INTEGER PRIMARY KEY);\n",
    "number-and-text": rule("NOT EXISTS (SELECT * FROM DUTY D WHERE D.ONCALL = 1 AND D.DOCTOR = 7)"),
    "sum-of-texts": rule("NOT EXISTS (SELECT SHIFT FROM DUTY GROUP BY SHIFT HAVING SUM(DOCTOR) > 1)"),
    "sum-of-distinct-texts": rule(
        "NOT EXISTS (SELECT SHIFT FROM DUTY GROUP BY SHIFT HAVING SUM(DISTINCT DUTY.DOCTOR) > 1 AND COUNT(*) > 1)"),
    "arithmetic-on-text": rule("NOT EXISTS (SELECT * FROM DUTY WHERE ONCALL + DOCTOR > 1)"),
    "exists-alone": rule("EXISTS (SELECT * FROM DUTY WHERE ONCALL = 1)"),
    "two-rules": rule(
        "NOT EXISTS (SELECT * FROM DUTY WHERE ONCALL > 1) AND NOT EXISTS (SELECT * FROM ACCT WHERE BAL < 0)"),
    "not-linked": rule(
        "NOT EXISTS (SELECT * FROM SHIFTS S WHERE NOT EXISTS (SELECT * FROM DUTY D WHERE D.ONCALL = 1))"),
    "function-in-where": rule("NOT EXISTS (SELECT * FROM ACCT WHERE SUM(BAL) < 0)"),
    "group-without-having": rule("NOT EXISTS (SELECT OWNER FROM ACCT GROUP BY OWNER)"),
    "other-column-in-having": rule("NOT EXISTS (SELECT OWNER FROM ACCT GROUP BY OWNER HAVING BAL < 0)"),
    "value-of-a-row": rule(
        "NOT EXISTS (SELECT * FROM SHIFTS S WHERE (SELECT D.ONCALL FROM DUTY D WHERE D.SHIFT = S.ID) = 0)"),
    "below-a-level": rule(
        "NOT EXISTS (SELECT * FROM SHIFTS S WHERE EXISTS (SELECT * FROM DUTY D WHERE D.SHIFT = S.ID"
        " AND EXISTS (SELECT * FROM ACCT A WHERE A.ID = D.ID)))"),
    "too-wide": rule("(SELECT SUM(BAL) FROM ACCT) * (SELECT COUNT(*) FROM ACCT) >= 0"),
    "attributes": TABLES
        + "CREATE ASSERTION RULE CHECK (NOT EXISTS (SELECT * FROM DUTY WHERE ONCALL > 1))\n"
        "    INITIALLY DEFERRED NOT DEFERRABLE;\n",
    "too-few-values": TABLES + "INSERT INTO DUTY VALUES (1, 7, 'KIM');\n",
    "text-for-number": TABLES + "INSERT INTO DUTY (ID, SHIFT) VALUES (1, 'NINE');\n",
    "null-for-not-null": TABLES + "INSERT INTO ACCT (ID, OWNER) VALUES (1, 'KIM');\n",
    "text-too-long": TABLES + "INSERT INTO DUTY VALUES (1, 7, 'MONTGOMERY-SMITH', 1);\n",
    "key-taken": TABLES + "INSERT INTO SHIFTS VALUES (7, 8);\nINSERT INTO SHIFTS VALUES (7, 9);\n",
    "too-many-values-in-a-row": TABLES + "INSERT INTO SHIFTS VALUES (7, 8), (8, 8, 9);\n",
    "too-few-values-in-a-row": TABLES
        + "INSERT INTO DUTY (ID, DOCTOR, SHIFT) VALUES (1, 'KIM', 7),\n    (2, 'LEE'), (3, 'MAX', 7);\n",
    "text-for-number-in-a-row": TABLES
        + "INSERT INTO DUTY (ID, SHIFT) VALUES\n    (1, -7),\n    (2, 'NINE'),\n    (3, '9');\n",
    "null-in-a-row": TABLES + "INSERT INTO ACCT VALUES (1, NULL, -5), (2, NULL, NULL);\n",
    "null-for-not-null-in-each-row": TABLES + "INSERT INTO ACCT (ID, OWNER) VALUES (1, 'KIM'), (2, 'LEE');\n",
    "text-too-long-in-a-row": TABLES
        + "INSERT INTO DUTY VALUES (1, 7, 'KIM', 1),\n    (2, 7, 'MONTGOMERY-SMITH', 1);\n",
    "key-twice": TABLES + "INSERT INTO SHIFTS VALUES (7, 8), (8, 8), (-7, 8), (7, 9);\n",
    "key-taken-in-a-row": TABLES
        + "INSERT INTO SHIFTS VALUES (7, 8), (8, 8);\nINSERT INTO SHIFTS VALUES (9, 8), (8, 9);\n",
    "key-taken-before-rules": "CREATE TABLE T (ID INTEGER PRIMARY KEY);\nINSERT INTO T VALUES (1), (2);\n"
        "INSERT INTO T VALUES (3), (2), (2);\nCREATE TABLE U (ID INTEGER PRIMARY KEY);\n",
    "false-by-rows": TABLES
        + "CREATE ASSERTION SHORT CHECK (NOT EXISTS (SELECT * FROM SHIFTS WHERE HOURS > 12));\n"
        "INSERT INTO SHIFTS VALUES (7, 24);\n",
    "false-by-groups": TABLES
        + "CREATE ASSERTION FUNDS CHECK (NOT EXISTS (SELECT OWNER FROM ACCT GROUP BY OWNER HAVING SUM(BAL) < 0));\n"
        "INSERT INTO ACCT VALUES (1, 'O''HARA', -5);\n",
    "script-word": TABLES + "---\nALICE: BEGIN;\nALICE: COMIT;\n",
    "script-no-session": TABLES + "---\nALICE: BEGIN;\nINSERT INTO SHIFTS VALUES (7, 8);\n",
    "script-definition": TABLES + "---\nALICE: CREATE TABLE T (ID INTEGER PRIMARY KEY);\n",
    "script-transaction": TABLES + "---\nALICE: BEGIN TRANSACTION;\n",
    "script-read-write": TABLES + "---\nALICE: BEGIN READ WRITE;\n",
    "script-read-olny": TABLES + "---\nALICE: BEGIN READ OLNY;\n",
    "script-statements": TABLES
        + "---\nALICE: BEGIN;\nALICE: UPDATE DUTY SET ONCAL = 1 WHERE ID = 7;\n"
        "ALICE: DELETE FROM DUTY WHERE DOCTOR = 7;\nALICE: UPDATE SHIFTS SET ID = 8 WHERE ID = 7;\n"
        "ALICE: VERDICT COVERED;\n",
    "script-rows": TABLES
        + "---\nALICE: BEGIN;\nALICE: INSERT INTO SHIFTS VALUES (7, 8), (7, 9);\n"
        "ALICE: INSERT INTO ACCT VALUES (1, 'KIM', 5), (2, NULL, NULL);\n"
        "ALICE: INSERT INTO ACCT (ID, BAL) VALUES (1, 5), (2, 5, 5), (3, NULL);\n",
    "select-names": script(
        "SELECT BAL AS B, BAL - 1 LESS, 'X' MARK, BALL FROM ACCT WHERE BAAL > 0",
        "SELECT -BAL OWES, COUNT(BAL), SUM(DISTINCT OWNR) + 1 AS N FROM ACCT AS A WHERE BAL > 0",
        "SELECT BAL AS B, (A.BAL + 1) * 2 TWICE FROM ACCT AS A WHERE A.BAL > 0 AND A.OWNR = 'KIM'",
        "SELECT ID, BAL AS B FROM ACCTS AS A WHERE C > 0"),
    "select-by-the-own-name": script(
        "SELECT A.ID, ACCT.BAL AS B FROM ACCT A",
        "SELECT A.ID FROM ACCT AS A WHERE ACCT.BAL > 0",
        "SELECT X.ID FROM ACCT"),
    "select-a-column-beside-functions": script(
        "SELECT OWNER, SUM(BAL) AS TOTAL FROM ACCT",
        "SELECT COUNT(*), MAX(BAL) - ACCT.BAL FROM ACCT WHERE BAL > 0"),
    "select-a-query": script(
        "SELECT ID AS N, BAL - (SELECT MIN(A.BAL) FROM ACCT A) FROM ACCT",
        "SELECT ID FROM ACCT WHERE BAL = (SELECT MIN(BAL) FROM ACCT)"),
    "select-a-function-in-where": script(
        "SELECT COUNT(*) N FROM ACCT A WHERE A.BAL > 0 AND A.BAL = MAX(A.BAL)",
        "SELECT OWNER FROM ACCT WHERE SUM(BAL) > 0 GROUP BY OWNER"),
    "select-types": script(
        "SELECT ID, 1 - OWNER AS LESS FROM ACCT WHERE OWNER = 1",
        "SELECT COUNT(*) AS N, -SUM(OWNER) FROM ACCT",
        "SELECT MAX(OWNER) AS LAST FROM ACCT A WHERE A.OWNER > 7"),
    "select-too-wide": script(
        "SELECT BAL * BAL AS SQUARE, BAL * BAL * BAL CUBE FROM ACCT",
        "SELECT COUNT(*) * SUM(BAL) FROM ACCT",
        "SELECT BAL AS B FROM ACCT WHERE BAL * BAL * BAL > 0"),
    "select-names-of-groups": script(
        "SELECT COUNT(*) FROM ACCT GROUP BY OWNR",
        "SELECT OWNER AS O, COUNT(*) FROM ACCT A WHERE A.BAL > 0 GROUP BY A.OWNER, ID, ACCT.BAL HAVING BAAL > 1",
        "SELECT BAL B FROM ACCT AS A WHERE A.BAL > 0 GROUP BY A.OWNER, BAL HAVING COUNT(*) > 1 AND SUM(A.BALL) > 0",
        "SELECT OWNER AS WHOSE, COUNT(*) AS N FROM ACCT GROUP BY OWNER HAVING N > 1"),
    "select-a-column-outside-groups": script(
        "SELECT OWNER, BAL FROM ACCT GROUP BY OWNER",
        "SELECT A.OWNER, SUM(BAL) - A.ID AS LESS FROM ACCT A GROUP BY BAL, A.OWNER",
        "SELECT ID FROM ACCT HAVING COUNT(*) > 0"),
    "select-a-column-in-having": script(
        "SELECT OWNER, SUM(BAL) FROM ACCT GROUP BY OWNER, BAL HAVING SUM(BAL) > 0 AND OWNER = 'KIM' AND ACCT.ID = 1",
        "SELECT SUM(BAL) FROM ACCT WHERE BAL > 0 HAVING OWNER IS NULL"),
    "select-all-of-groups": script(
        "SELECT * FROM ACCT GROUP BY ID, OWNER HAVING COUNT(*) > 1",
        "SELECT * FROM ACCT WHERE BAL * 2 > 0 HAVING COUNT(*) > 1"),
    "select-a-query-in-having": script(
        "SELECT OWNER FROM ACCT GROUP BY OWNER HAVING SUM(BAL) > (SELECT MAX(A.BAL) FROM ACCT A)"),
    "select-types-of-groups": script(
        "SELECT OWNER FROM ACCT GROUP BY OWNER, ACCT.ID HAVING COUNT(*) > 1 OR OWNER = 7",
        "SELECT COUNT(*) FROM ACCT HAVING SUM(OWNER) > 1",
        "SELECT OWNER + 1 FROM ACCT GROUP BY OWNER"),
    "select-too-wide-groups": script(
        "SELECT BAL FROM ACCT GROUP BY BAL, OWNER HAVING COUNT(*) * SUM(BAL) > 0",
        "SELECT COUNT(*) FROM ACCT GROUP BY BAL HAVING BAL * BAL * BAL > 0"),
    "select-having-before-groups": script("SELECT OWNER FROM ACCT HAVING COUNT(*) > 1 GROUP BY OWNER"),
    "select-where-behind-groups": script("SELECT OWNER FROM ACCT GROUP BY OWNER WHERE BAL > 0"),
    "select-groups-by-nothing": script("SELECT OWNER FROM ACCT GROUP BY HAVING COUNT(*) > 1"),
    "select-groups-by-a-number": script("SELECT OWNER FROM ACCT GROUP BY 1"),
    "select-groups-by-an-expression": script("SELECT BAL * 2 FROM ACCT GROUP BY OWNER, BAL * 2"),
    "select-groups-with-a-comma-too-many": script("SELECT OWNER FROM ACCT GROUP BY OWNER, ID, HAVING COUNT(*) > 1"),
    "select-groups-in-order": script("SELECT OWNER FROM ACCT GROUP BY OWNER ORDER BY OWNER"),
    "select-groups-by-an-average": script("SELECT OWNER FROM ACCT GROUP BY OWNER HAVING AVG(BAL) > 0"),
    "select-order": script("SELECT OWNER FROM ACCT ORDER BY BAL"),
    "select-limit": script("SELECT OWNER FROM ACCT A LIMIT 5"),
    "select-distinct-owners": script("SELECT DISTINCT OWNER FROM ACCT"),
    "select-a-sum-of-a-product": script("SELECT SUM(BAL * 2) FROM ACCT"),
    "select-an-average": script("SELECT AVG(BAL) FROM ACCT"),
    "select-two-tables": script("SELECT A.BAL, D.DOCTOR FROM ACCT A, DUTY D"),
    "select-a-join": script("SELECT BAL FROM ACCT JOIN DUTY ON OWNER = DOCTOR"),
    "select-all-and-more": script("SELECT *, BAL * 2 FROM ACCT"),
    "select-null": script("SELECT ID, NULL FROM ACCT"),
    "select-a-case": script("SELECT CASE WHEN BAL > 0 THEN 1 ELSE 0 END FROM ACCT"),
    "select-a-reserved-name": script("SELECT COUNT(*) AS COUNT FROM ACCT"),
}


class Case(typing.NamedTuple):
    """A command line, and the texts of the files that it names."""

    words: list[str]
    files: dict[str, str]


def run_unproved(cases: Mapping[str, Case]) -> tuple[dict[str, str], str]:
    """What the program prints on each case, by its name; and what `rt try` says."""
    with temporary_folder() as folder, temporary_folder() as texts:
        data: list[str] = []
        for name, case in cases.items():
            write(folder / name, "")
            write(folder / f"{name}.args", "\n".join(case.words) + "\n")
            for file, text in case.files.items():
                data += ["--data", f"{file}={write(texts / str(len(data)), text)}"]
        words = ["rt", "try", "--cases", str(folder), *data]
        _, output, error = run(words, cwd=TOP / "crates/skewguard", timeout=None)
    parts = re.split(r"^== (\S+)\n", output, flags=re.M)
    return dict(zip(parts[1::2], parts[2::2])), error[-3000:]


def run_program(program: str, cases: Mapping[str, Case]) -> tuple[dict[str, str], str]:
    """The same, with a program that is built."""
    shown = {}
    for name, case in cases.items():
        with placed(*case.files.values(), names=list(case.files)) as paths:
            shown[name] = run([program, *case.words], cwd=pathlib.Path(paths[0]).parent, stderr=None).output
    return shown, ""


def case_of(name: str, text: str) -> Case:
    defs, _, script = text.partition("---\n") if "\n---\n" in text else (text, "", "")
    files = {f"{name}.sql": defs}
    if script:
        files[f"{name}-script.sql"] = script
    return Case(["check", *files], files)


def main() -> int:
    parser = parser_of(__doc__)
    parser.add_argument("--write", action="store_true", help="writes docs/faulty_texts.txt")
    parser.add_argument("program", nargs="?", help="a program that is built; without it `rt try` builds it")
    given = parser.parse_args()
    cases = {name: case_of(name, text) for name, text in TEXTS.items()}
    shown, said = run_program(os.path.abspath(given.program), cases) if given.program else run_unproved(cases)
    missing = [name for name in TEXTS if not shown.get(name)]
    if missing:
        sys.exit(f"{said}\nnothing was shown of {', '.join(missing)}")
    table = "".join(f"== {name}\n{shown[name].strip()}\n\n" for name in TEXTS)
    if given.write:
        write(SHOWN, table)
        return 0
    wanted = read(SHOWN)
    if table == wanted:
        print(f"{len(TEXTS)} faulty texts are shown as in docs/faulty_texts.txt")
        return 0
    sys.stderr.writelines(difflib.unified_diff(wanted.splitlines(True), table.splitlines(True), "wanted", "shown"))
    return 1


if __name__ == "__main__":
    sys.exit(main())
