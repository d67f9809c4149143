#!/usr/bin/env python3
"""Random scripts on tables of hundreds of rows, through skewguard and through a reference, byte for byte.

    python3 bench/fuzz_large_tables.py --reference 'COMMAND' [--program 'COMMAND']
                                       [--cases 200] [--seed 1] [--minutes 10] [--differs DIFFERS]

Each command is run with the paths of two files behind it, DEFS and SCRIPT, and has to print the report of `skewguard
replay DEFS SCRIPT`: standard output, standard error and the status are compared. Any program that prints the same
report serves as the reference; the slower and plainer, the better. Without --program it is the proved program of this
repository, `crates/skewguard/out/skewguard replay`, which has to be built. Nothing but Python 3.9 or later is needed
besides.

The rows of a table, the totals of its groups and its bad roots are kept in pages of 64 entries. Small tables fit into
one; here tables have 300 to 1,000 rows, so that pages are cut and taken out at all places: by rows that are put in
side by side, by deletions of ranges and of everything, and by rollbacks. Each case has two tables, an assertion by
groups on the one and an assertion by rows on the other, and one to three sessions. The thresholds of the assertions
lie close to what the loaded rows reach, so that some statements are refused.

The first case that differs is written to the folder of --differs (two files, and both reports), and ends the run.
"""

from __future__ import annotations

import collections
import pathlib
import random
import shlex
import sys
import time
import typing
from collections.abc import Sequence

from replays import PROGRAM, Answer, ended, parser_of, placed, run, write

COMPARISONS = ["<", "<=", ">", ">=", "=", "<>"]
ATTRIBUTES = ["", "", " DEFERRABLE", " INITIALLY DEFERRED"]


class Row(typing.NamedTuple):
    """A row of a table; None is NULL."""

    key: int
    group: int | None
    number: int | None


class Table:
    """A table of a key, a group and a number. Its keys are even when it is loaded, so that new ones fall between."""

    def __init__(self, rng: random.Random, name: str, rows: int, groups: int) -> None:
        self.rng, self.name, self.groups = rng, name, groups
        self.text_keys, self.text_groups = rng.random() < 0.25, rng.random() < 0.4
        self.columns = ["K", "G", "N"]
        if rng.random() < 0.3:
            rng.shuffle(self.columns)
        self.loaded = [Row(2 * place, self.group(), self.number()) for place in range(rows)]
        self.last = 2 * rows

    def group(self) -> int | None:
        return None if self.rng.random() < 0.03 else self.rng.randrange(self.groups)

    def number(self) -> int | None:
        return None if self.rng.random() < 0.05 else self.rng.randint(-20, 500)

    def definition(self) -> str:
        """The table as it is created."""
        types = {
            "K": "VARCHAR(6) PRIMARY KEY" if self.text_keys else "INTEGER PRIMARY KEY",
            "G": "VARCHAR(6)" if self.text_groups else "INTEGER",
            "N": "INTEGER",
        }
        return f"CREATE TABLE {self.name} ({', '.join(f'{column} {types[column]}' for column in self.columns)})"

    def key_text(self, key: int) -> str:
        """Texts of the same length are in the order of the numbers that they write."""
        return f"'K{key:05}'" if self.text_keys else str(key)

    def group_text(self, group: int | None) -> str:
        if group is None:
            return "NULL"
        return f"'G{group:04}'" if self.text_groups else str(group)

    def insert(self, key: int, group: int | None, number: int | None) -> str:
        values = {"K": self.key_text(key), "G": self.group_text(group), "N": "NULL" if number is None else str(number)}
        return f"INSERT INTO {self.name} VALUES ({', '.join(values[column] for column in self.columns)})"

    def loading(self) -> list[str]:
        """By key upwards, downwards, or in any order: pages are cut at other places."""
        rows = list(self.loaded)
        order = self.rng.choice(["up", "down", "any"])
        if order == "down":
            rows.reverse()
        elif order == "any":
            self.rng.shuffle(rows)
        return [self.insert(*row) for row in rows]

    def any_key(self) -> int:
        """Mostly that of a row, sometimes one between rows or behind all."""
        key = 2 * self.rng.randrange(self.last // 2)
        return key if self.rng.random() < 0.8 else self.rng.randrange(self.last + 4)

    def by_key(self) -> str:
        where = f"K = {self.key_text(self.any_key())}"
        kind = self.rng.random()
        if kind < 0.1:
            return f"{where} AND N {self.rng.choice(COMPARISONS)} {self.rng.randint(0, 300)}"
        if kind < 0.2:
            return f"(N IS NOT NULL AND {where}) AND G = {self.group_text(self.rng.randrange(self.groups))}"
        if kind < 0.25:
            return f"{where} AND K = {self.key_text(self.any_key())}"
        if kind < 0.3:
            return f"{self.key_text(self.any_key())} = K"
        if kind < 0.35:
            return f"{where} OR K = {self.key_text(self.any_key())}"
        return where

    def by_range(self) -> str:
        first = self.any_key()
        width = self.rng.choice([10, 40, 130, 130, 260, 400])
        last = self.key_text(min(first + width, 99_999))
        kind = self.rng.random()
        if kind < 0.7:
            return f"K BETWEEN {self.key_text(first)} AND {last}"
        if kind < 0.85:
            return f"K > {self.key_text(first)} AND K <= {last} AND N > {self.rng.randint(-20, 400)}"
        # The beginning or the end of the table.
        edge = self.rng.randrange(self.last // 4)
        return f"K < {self.key_text(edge)}" if kind < 0.92 else f"K >= {self.key_text(self.last - edge)}"

    def by_group(self) -> str:
        return f"G = {self.group_text(self.rng.randrange(self.groups))}"

    def where(self) -> str:
        kind = self.rng.random()
        return self.by_key() if kind < 0.65 else self.by_range() if kind < 0.9 else self.by_group()

    def setting(self) -> str:
        kind = self.rng.random()
        if kind < 0.4:
            return f"N = {self.rng.randint(-40, 500)}"
        if kind < 0.6:
            return f"N = N {self.rng.choice('+-')} {self.rng.randint(1, 9)}"
        if kind < 0.65:
            return "N = NULL"
        group = self.group_text(self.group())
        return f"G = {group}" if kind < 0.9 else f"G = {group}, N = {self.rng.randint(-20, 500)}"

    def statement(self) -> str:
        kind = self.rng.random()
        if kind < 0.3:
            return f"UPDATE {self.name} SET {self.setting()} WHERE {self.where()}"
        if kind < 0.55:
            return f"DELETE FROM {self.name} WHERE {self.where()}"
        if kind < 0.75:
            listed = self.rng.choice(["*", "K", "N, K", "G, G"])
            return f"SELECT {listed} FROM {self.name} WHERE {self.where()}"
        if kind < 0.97:
            return self.insert(self.any_key() ^ self.rng.choice([0, 1, 1, 1]), self.group(), self.number())
        return self.rng.choice([
            f"DELETE FROM {self.name}",
            f"UPDATE {self.name} SET {self.setting()}",
            f"SELECT K FROM {self.name}",
        ])

    def run_of_inserts(self) -> list[str]:
        """Rows side by side, which cut a page."""
        first, count = self.any_key() | 1, self.rng.randint(5, 35)
        return [self.insert(first + 2 * step, self.group(), self.number()) for step in range(count)]


def by_groups(rng: random.Random, table: Table) -> str:
    """An assertion by groups that the loaded rows keep by a little."""
    members: dict[int | None, list[int | None]] = collections.defaultdict(list)
    for _, group, number in table.loaded:
        members[group].append(number)
    numbers = [[number for number in those if number is not None] for those in members.values()]
    sums, numbers = [sum(those) for those in numbers if those], [those for those in numbers if those]
    slack = rng.choice([0, 3, 30, 300])
    having = rng.choice([
        f"SUM(N) < {min(sums) - slack}",
        f"SUM(N) > {max(sums) + slack}",
        f"COUNT(*) > {max(len(those) for those in members.values()) + rng.choice([0, 1, 5])}",
        f"MIN(N) < {min(min(those) for those in numbers) - slack}",
        f"MAX(N) > {max(max(those) for those in numbers) + slack}",
        f"MAX(N) - MIN(N) > {max(max(those) - min(those) for those in numbers) + slack}",
    ])
    return f"NOT EXISTS (SELECT G FROM {table.name} GROUP BY G HAVING {having})"


def by_rows(rng: random.Random, table: Table, other: Table | None) -> str:
    """An assertion by rows that the loaded rows keep by a little. The rows count those of `other`, if it is given."""
    if other is not None:
        counts = collections.Counter(group for _, group, _ in other.loaded)
        most = max([counts[key] for key, _, _ in table.loaded] + [0]) + rng.choice([0, 1, 4])
        few = f"(SELECT COUNT(*) FROM {other.name} D WHERE D.G = R.K) > {most}"
        bare = f"NOT EXISTS (SELECT * FROM {other.name} D WHERE D.G = R.K AND D.N > 0)"
        empty = any(not [1 for _, group, number in other.loaded if group == key and (number or 0) > 0]
                    for key, _, _ in table.loaded)
        return f"NOT EXISTS (SELECT * FROM {table.name} R WHERE {few if empty else rng.choice([few, bare])})"
    least = min(number for _, _, number in table.loaded if number is not None)
    condition = rng.choice([
        f"N < {least - rng.choice([0, 5, 15])}",
        "N > 500",
        f"N < {least} OR (N IS NULL AND G IS NULL AND K IS NULL)",
        f"N + N < {2 * least - 3} AND G IS NOT NULL",
    ])
    return f"NOT EXISTS (SELECT * FROM {table.name} R WHERE {condition})"


class Case:
    """Definitions and a script.

    In a third of the cases the rows of the second table, which are few then, count those of the first.
    """

    def __init__(self, seed: str) -> None:
        rng = self.rng = random.Random(seed)
        linked = rng.random() < 0.33
        small = rng.randint(8, 20)
        rows, groups = rng.randint(300, 500 if linked else 1_000), 2 * small if linked else rng.choice([4, 30, 100])
        first = Table(rng, "T", rows, groups)
        second = Table(rng, "U", small if linked else rng.randint(300, 1_000), 10)
        if linked:
            # The groups of the first have to be of the type of the second's keys.
            first.text_groups = second.text_keys = False
        self.tables = [first, second]
        rules = [by_groups(rng, first), by_rows(rng, second, first if linked else None)]
        texts = [table.definition() for table in self.tables]
        for place, rule in enumerate(rules):
            texts.append(f"CREATE ASSERTION A{place} CHECK ({rule}){rng.choice(ATTRIBUTES)}")
        self.definitions = ended([*texts, *first.loading(), *second.loading()])
        self.script = ended(self.events())
        self.rows = len(first.loaded) + len(second.loaded)

    def statements(self) -> list[str]:
        rng = self.rng
        table = self.tables[0] if len(self.tables[1].loaded) < 300 and rng.random() < 0.8 else rng.choice(self.tables)
        if rng.random() < 0.02:
            return table.run_of_inserts()
        if rng.random() < 0.07:
            meant = rng.choice(["ALL", "A0", "A1"])
            return [rng.choice(["VERDICT A0", "VERDICT A1", f"SET CONSTRAINTS {meant} DEFERRED",
                                f"SET CONSTRAINTS {meant} IMMEDIATE"])]
        return [table.statement()]

    def events(self) -> list[str]:
        """Some hundred events of one to three sessions, whose transactions overlap."""
        rng = self.rng
        sessions = ["A", "B", "C"][:rng.choice([1, 2, 2, 3])]
        left: dict[str, int] = {}
        made: list[str] = []
        while len(made) < 100:
            session = rng.choice(sessions)
            if session not in left:
                left[session] = rng.choice([1, 3, 8, 20])
                made.append(f"{session}: BEGIN")
            elif left[session] == 0:
                del left[session]
                made.append(f"{session}: {'ROLLBACK' if rng.random() < 0.15 else 'COMMIT'}")
            else:
                left[session] -= 1
                made += [f"{session}: {statement}" for statement in self.statements()]
        return made + [f"{session}: COMMIT" for session in left if rng.random() < 0.7]


Met = collections.Counter[str]


def report(command: str, files: Sequence[str]) -> Answer:
    """What a command answers to the two files."""
    return run([*shlex.split(command), *files])


def count_answers(met: Met, output: str) -> None:
    """Counts the answers of a report by their words, refusals by their numbers, up to the closing part."""
    for line in output.split("\nCOMMITS ")[0].splitlines():
        words = line.split()
        if len(words) < 2 or not words[0].endswith(":"):
            continue
        if words[1] == "REFUSED":
            met[f"refused {words[2]}"] += 1
        elif words[1] in ("UPDATE", "DELETE") and int(words[2]) > 64:
            met[f"{words[1]} of more than 64 rows"] += 1
        elif words[1] in ("INSERT", "UPDATE", "DELETE"):
            met[words[1]] += 1
        elif words[1] in ("SELECT", "COMMIT", "ROLLBACK", "VERDICT"):
            met[words[1]] += 1


def keep_difference(folder: pathlib.Path, case: Case, want: Answer, got: Answer) -> None:
    """Writes a case and both reports."""
    folder.mkdir(parents=True, exist_ok=True)
    for name, text in (("defs", case.definitions), ("script", case.script),
                       ("wanted", want.output + want.error), ("got", got.output + got.error)):
        write(folder / name, text)


def main() -> int:
    words = parser_of("Random scripts on large tables, through skewguard and a reference.")
    words.add_argument("--reference", required=True, help="a command that prints the report of DEFS and SCRIPT")
    words.add_argument("--program", default=f"{PROGRAM} replay", help="the command of the program itself")
    words.add_argument("--cases", type=int, default=200)
    words.add_argument("--seed", type=int, default=1)
    words.add_argument("--minutes", type=float, default=10, help="no case is begun after so many")
    words.add_argument("--differs", type=pathlib.Path, default=pathlib.Path("DIFFERS"),
        help="where a case that differs is written")
    chosen = words.parse_args()
    met: Met = collections.Counter()
    done, rows, start = 0, 0, time.monotonic()
    slow = quick = 0.0
    for number in range(chosen.cases):
        if time.monotonic() - start > 60 * chosen.minutes:
            break
        case = Case(f"{chosen.seed} {number}")
        with placed(case.definitions, case.script) as files:
            before = time.monotonic()
            want = report(chosen.reference, files)
            between = time.monotonic()
            got = report(chosen.program, files)
        slow, quick = slow + between - before, quick + time.monotonic() - between
        if want != got:
            keep_difference(chosen.differs, case, want, got)
            print(f"case {number} differs: statuses {want.status} and {got.status}, see {chosen.differs}/")
            print(f"{done} passed, 1 failed")
            return 1
        count_answers(met, want.output)
        met["definitions refused"] += want.status != 0
        done, rows = done + 1, rows + case.rows
    print(f"rows loaded: {rows:,}; seconds: reference {slow:.0f}, program {quick:.1f}")
    print("answers met: " + ", ".join(f"{word}: {count:,}" for word, count in sorted(met.items())))
    print(f"{done} passed, 0 failed")
    return 0


if __name__ == "__main__":
    sys.exit(main())
