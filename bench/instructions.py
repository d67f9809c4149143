#!/usr/bin/env python3
"""Instructions of a statement and of a transaction, of one program or of several.

    python3 bench/instructions.py PROGRAM [PROGRAM ..] [--rows 10000] [--statements 2000]

Counted by `valgrind --tool=callgrind`, so the figures are the same in each run, whatever else the machine does. For
each form of `statements.py`, one with MIN and one with DISTINCT: statements of each kind in one transaction, and
transactions of BEGIN, one UPDATE and COMMIT, each by key all over the table; what a replay of loading alone takes is
taken off. Reading the texts and writing the report are in it.
"""

import os
import pathlib
import sys
from collections.abc import Iterable, Iterator

from replays import Path, instructions, loads, parser_of, table, temporary_folder, words_of_replay, written
from statements import ACCT, FORMS, Form, text, valued

LEAST = Form("least", [ACCT], "NOT EXISTS (SELECT OWNER FROM ACCT GROUP BY OWNER HAVING MIN(BAL) < 0)")
DISTINCT = Form(
    "distinct", [ACCT], "NOT EXISTS (SELECT OWNER FROM ACCT GROUP BY OWNER HAVING SUM(DISTINCT BAL) < 0)")
KINDS = ("INSERT", "UPDATE", "DELETE")


def scripts(form: Form, rows: int, count: int) -> Iterator[Iterable[str]]:
    """For each kind of statement so many in one transaction, behind those before it; and so many transactions."""
    rounds = [form.round(number, rows) for number in range(count)]
    kinds = [[f"A: {text(*one[at])}\n" for one in rounds] for at in range(3)]
    for upto in range(4):
        lines = [line for kind in kinds[:upto] for line in kind]
        yield ["A: BEGIN;\n", *lines, "A: ROLLBACK;\n"]
    keys = [2 * (number * 7919 % rows) for number in range(count)]
    # (what no rule is broken by: an account, say, has its own balance or the next one's)
    yield loads.transactions(valued(form.update, (form.another(key // 2, rows), key)) for key in keys)


def counted(program: Path, form: Form, rows: int, count: int, folder: pathlib.Path) -> list[float]:
    """Instructions of an INSERT, an UPDATE, a DELETE and of a transaction of one UPDATE."""
    definitions = written(f"{folder}/defs", form.definitions(rows))
    script = f"{folder}/script"
    totals = []
    for lines in scripts(form, rows, count):
        totals.append(instructions(words_of_replay(program, definitions, written(script, lines))))
    none, insert, update, delete, transactions = totals
    return [(after - before) / count for before, after in zip((none, insert, update), (insert, update, delete))] + [
        (transactions - none) / count
    ]


def main() -> None:
    words = parser_of(__doc__, whole=True)
    words.add_argument("programs", nargs="+", metavar="PROGRAM")
    words.add_argument("--rows", type=int, default=10_000)
    words.add_argument("--statements", type=int, default=2_000)
    words.add_argument("--forms", default=None, help="some of the forms, by name, with commas between")
    asked = words.parse_args()
    forms = [one for one in [*FORMS, LEAST, DISTINCT] if not asked.forms or one.name in asked.forms.split(",")]
    lines = []
    with temporary_folder() as folder:
        for form in forms:
            for program in asked.programs:
                program = os.path.abspath(program)
                figures = counted(program, form, asked.rows, asked.statements, folder)
                lines.append([form.name, os.path.basename(program), *(f"{one:,.0f}" for one in figures)])
                print(*lines[-1], file=sys.stderr, flush=True)
    table(["form", "program", *KINDS, "a transaction of one UPDATE"], lines)


if __name__ == "__main__":
    main()
