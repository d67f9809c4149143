#!/usr/bin/python3
"""Plays random cases on PostgreSQL, under the SQL that `skewguard postgresql` prints, and through `skewguard replay`.

    apt-get install -y postgresql python3-psycopg2
    against_postgresql.py PROGRAM                        2,000 cases of one session, and 300 of several
    against_postgresql.py PROGRAM --one 200 --many 30    fewer
    against_postgresql.py PROGRAM --costs                what a statement costs, beside hand-written triggers

A server of its own is made in a new folder, listens on a socket in it alone, and is stopped and removed at the end. As
PostgreSQL does not run as root, root starts it as the user `postgres`.

A case is definitions and a script. PROGRAM prints the SQL of the definitions, which is loaded into a schema of its
own, and replays the script. Each session of the script then plays its events on a connection of its own, in the order
of the script. Compared is what each event is answered: accepted or refused, and why; how many rows it changed, and
which it lists; verdicts; and the rule and the least bad root of a refusal, at COMMIT too.

PostgreSQL and skewguard tell which transactions may not commit together (SQLSTATE 40001) by rules of their own: where
they differ, it is counted, and that case is compared no further, since its tables are others from there on. The same
holds of a key that another session has put in since the snapshot (23505 on PostgreSQL), or taken out. A session of
PostgreSQL may also wait for another one's row; where its COMMIT comes later for that, it is counted the same way.
After each COMMIT on PostgreSQL every rule is evaluated from scratch, and none may be false.
"""
from __future__ import annotations

import collections
import contextlib
import os
import random
import statistics
import sys
import time
import typing
from collections.abc import Callable, Iterable, Mapping, Sequence

import psycopg2

from harness import loads
from harness.arguments import parser_of
from harness.programs import Answer, replay, run_on
from harness.reports import replies
from harness.servers import Player, ServerOfCases
from harness.texts import ended, in_characters, literal

if typing.TYPE_CHECKING:
    from psycopg2.extensions import cursor as Cursor

COMPARES = ['=', '<>', '<', '<=', '>', '>=']
NOT = ['', 'NOT ']
NUMBERS = [0, 1, 2, 3, 4, -1, -2, 5, 7, 10, 10 ** 15, -10 ** 15, 999999999999999]
TEXTS = ['A', 'B', '', "O'N", 'ab', 'b ', 'zz~', '\\', '$x$', 'KIM', 'ABCDEFGHIJ', 'Žofie', 'é', '字字', '🙂']


T = typing.TypeVar('T')


class Tree(typing.NamedTuple):
    """An expression or a condition, from which both languages are printed: its kind, its words, and what is in it."""

    kind: str
    words: tuple[str, ...] = ()
    parts: tuple[Tree, ...] = ()


NULL = Tree('null')


def number(value: int) -> Tree:
    return Tree('number', (str(value),))


def query(text: str) -> Tree:
    return Tree('query', (text,))


def joined(kind: str, *parts: Tree) -> Tree:
    """What has no words of its own: a product, a negation, NOT, AND and OR."""
    return Tree(kind, (), parts)


def signed(kind: str, sign: str, one: Tree, other: Tree) -> Tree:
    """A sum or a comparison."""
    return Tree(kind, (sign,), (one, other))


def tested(kind: str, part: Tree, *words: str) -> Tree:
    """IS NULL, and IS TRUE."""
    return Tree(kind, words, (part,))


def spanned(kind: str, part: Tree, word: str, *others: Tree) -> Tree:
    """BETWEEN and IN."""
    return Tree(kind, (word,), (part, *others))


class Column(typing.NamedTuple):
    """A column of a table."""

    name: str
    type: str
    takes_null: bool
    is_key: bool

    @property
    def kind(self) -> str:
        """The kind of its values."""
        return 'INTEGER' if self.type == 'INTEGER' else 'TEXT'


class Statement(typing.NamedTuple):
    """A statement, or a part of one, for skewguard and for PostgreSQL."""

    own: str
    theirs: str


class Event(typing.NamedTuple):
    """A statement of a session."""

    session: str
    own: str
    theirs: str


class Maker:
    """Makes one case. The key of a table stands first or not."""

    def __init__(self, rng: random.Random, sessions: int) -> None:
        self.rng, self.sessions = rng, sessions
        self.tables: dict[str, list[Column]] = {}
        self.assertions: list[str] = []
        self.all_deferred = self.chance(0.25)

    def pick(self, choices: Iterable[T]) -> T:
        return self.rng.choice(list(choices))

    def chance(self, p: float) -> bool:
        return self.rng.random() < p

    def constant(self, kind: str, null: float = 0.0) -> Tree:
        if self.chance(null):
            return NULL
        if kind == 'INTEGER':
            few = NUMBERS[:6] if self.chance(0.7) else NUMBERS[:10] if self.chance(0.95) else NUMBERS
            return number(self.pick(few))
        return Tree('text', (self.pick(TEXTS[:4] if self.chance(0.7) else TEXTS),))

    def column(self, table: str, kind: str, row: str = '') -> Tree:
        found = [column for column in self.tables[table] if column.kind == kind]
        return Tree('column', (row, self.pick(found).name)) if found else self.constant(kind)

    def key(self, table: str) -> Column:
        return next(column for column in self.tables[table] if column.is_key)

    def atom(self, table: str | None, kind: str, row: str, atoms: Sequence[Tree]) -> Tree:
        if atoms and self.chance(0.7):
            return self.pick(atoms)
        return self.constant(kind) if table is None or self.chance(0.4) else self.column(table, kind, row)

    def expression(self, table: str | None, kind: str, row: str = '', atoms: Sequence[Tree] = (),
                   depth: int = 0) -> Tree:
        if kind != 'INTEGER' or depth > 1 or self.chance(0.6):
            return self.atom(table, kind, row, atoms)
        a, b = (self.expression(table, kind, row, atoms, depth + 1) for _ in range(2))
        sums = [signed('sum', '+', a, b), signed('sum', '-', a, b)]
        if not depth:
            return self.pick([*sums, joined('product', a, number(3))])
        return self.pick([*sums, joined('negation', a), signed('sum', '+', a, number(1)),
                          joined('product', a, number(2)), joined('product', a, b)])

    def test(self, table: str | None, row: str = '', atoms: Sequence[Tree] = (), extra: Sequence[Tree] = (),
             depth: int = 0) -> Tree:
        if extra and self.chance(0.35):
            return self.pick(extra)
        if depth < 2 and self.chance(0.3):
            a, b = (self.condition(table, row, atoms, extra, depth + 1) for _ in range(2))
            return self.pick([joined('and', a, b), joined('or', a, b), joined('not', a),
                              tested('is', a, self.pick(NOT), self.pick(['TRUE', 'FALSE', 'UNKNOWN']))])
        kind = 'INTEGER' if atoms else self.pick(['INTEGER', 'INTEGER', 'TEXT'])

        def e() -> Tree:
            return self.expression(table, kind, row, atoms)

        return self.pick([signed('compare', self.pick(COMPARES), e(), e()),
                          signed('compare', '=', e(), self.constant(kind)), tested('null test', e(), self.pick(NOT)),
                          spanned('between', e(), self.pick(NOT), e(), e()),
                          spanned('in', e(), self.pick(NOT), e(), e())])

    def condition(self, table: str | None, row: str = '', atoms: Sequence[Tree] = (), extra: Sequence[Tree] = (),
                  depth: int = 0) -> Tree:
        parts = [self.test(table, row, atoms, extra, depth) for _ in range(self.pick([1, 1, 2]))]
        out = parts[0]
        for part in parts[1:]:
            out = joined(self.pick(['and', 'and', 'or']), out, part)
        return out

    # ---- definitions

    def definitions(self) -> str:
        if self.chance(0.3):
            return self.themed()
        out = []
        for i in range(self.pick([1, 2, 2, 3])):
            columns = [Column('ID', 'INTEGER' if self.chance(0.8) else 'VARCHAR(3)', False, True)]
            for j in range(self.pick([1, 2, 2, 3])):
                of_type = 'INTEGER' if self.chance(0.7) else f'VARCHAR({self.pick([1, 3, 10])})'
                columns.append(Column(f'C{j}', of_type, not self.chance(0.15), False))
            if self.chance(0.2):
                self.rng.shuffle(columns)
            self.tables[f'T{i}'] = columns
            words = ', '.join(f'{n} {t}{"" if null or key else " NOT NULL"}{" PRIMARY KEY" if key else ""}'
                              for n, t, null, key in columns)
            out.append(f'CREATE TABLE T{i} ({words})')
        for i in range(self.pick([1, 1, 2, 2, 3, 4])):
            out.append(self.assertion())
        for table in self.tables:
            for _ in range(self.pick([0, 1, 3, 4])):
                out.append(self.insert(table, tidy=True).own)
        return ended(out)

    def themed(self) -> str:
        """Shifts, duties and accounts, under rules that write skew breaks."""
        key, last = Column('ID', 'INTEGER', False, True), Column('C1', 'INTEGER', True, False)
        self.tables = {'T0': [key], 'T1': [key, Column('C0', 'INTEGER', True, False), last],
                       'T2': [key, Column('C0', 'VARCHAR(3)', True, False), last]}
        rules = ['NOT EXISTS (SELECT * FROM T0 S WHERE NOT EXISTS (SELECT * FROM T1 D WHERE D.C0 = S.ID AND D.C1 = 1))',
                 'NOT EXISTS (SELECT C0 FROM T2 GROUP BY C0 HAVING SUM(C1) < 0)',
                 'NOT EXISTS (SELECT * FROM T0 S WHERE (SELECT COUNT(*) FROM T1 D WHERE D.C0 = S.ID) > 2)',
                 'NOT EXISTS (SELECT C0 FROM T1 GROUP BY C0 HAVING MIN(C1) > 1 OR COUNT(C1) > 3)',
                 'NOT EXISTS (SELECT C0 FROM T1 GROUP BY C0 HAVING COUNT(DISTINCT C1) > 1)',
                 'NOT EXISTS (SELECT * FROM T0 S WHERE (SELECT SUM(DISTINCT D.C1) FROM T1 D WHERE D.C0 = S.ID) > 2)',
                 'NOT EXISTS (SELECT * FROM T1 A WHERE EXISTS'
                 ' (SELECT * FROM T1 B WHERE B.C0 = A.C0 AND B.ID <> A.ID AND B.C1 = A.C1))',
                 'NOT EXISTS (SELECT * FROM T1 D WHERE EXISTS (SELECT * FROM T2 A WHERE A.ID = D.C0 AND A.C1 < D.C1))',
                 '(SELECT SUM(C1) FROM T2) >= (SELECT COUNT(*) FROM T0)', '(SELECT SUM(C1) FROM T2) BETWEEN 3 AND 9',
                 '(SELECT COUNT(C1) FROM T1 WHERE C1 > 0) BETWEEN 2 AND 6',
                 '(SELECT SUM(DISTINCT C1) FROM T2) < 6',
                 '(SELECT MAX(C1) FROM T2 WHERE C0 IS NOT NULL) < 3']
        out = ['CREATE TABLE T0 (ID INTEGER PRIMARY KEY)',
               'CREATE TABLE T1 (ID INTEGER PRIMARY KEY, C0 INTEGER, C1 INTEGER)',
               'CREATE TABLE T2 (ID INTEGER PRIMARY KEY, C0 VARCHAR(3), C1 INTEGER)']
        for rule in self.rng.sample(rules, self.pick([1, 2, 2, 3, 4])):
            out.append(self.named(rule, self.pick(['', ' INITIALLY DEFERRED', ' DEFERRABLE'])))
        out += [f'INSERT INTO T0 VALUES ({shift})' for shift in (1, 2)]
        for i in range(4):
            out.append(f'INSERT INTO T1 VALUES ({i}, {self.pick([1, 2]) if i > 1 else i + 1}, 1)')
            out.append(f"""INSERT INTO T2 VALUES ({i}, {self.pick(['NULL', "'A'"])}, {self.pick([1, 2])})""")
        return ended(out)

    def named(self, condition: str, attributes: str) -> str:
        name = f'A{len(self.assertions)}'
        self.assertions.append(name)
        attributes = ' INITIALLY DEFERRED' if self.all_deferred else attributes
        return f'CREATE ASSERTION {name} CHECK ({condition}){attributes}'

    def assertion(self) -> str:
        form = self.pick('RRGGS')
        table = self.pick(self.tables)
        if form == 'R':
            subqueries = [self.linked(table) for _ in range(self.pick([0, 1, 1, 2]))]
            extra = [Tree('exists', (text,)) if test
                     else signed('compare', self.pick(COMPARES), query(text), self.constant('INTEGER'))
                     for test, text in subqueries]
            extra += [joined('not', e) for e in extra]
            where = self.pick(extra) if extra and self.chance(0.6) else self.condition(table, 'R', (), extra)
            body = f'NOT EXISTS (SELECT * FROM {table} R WHERE {own(where)})'
        elif form == 'G':
            group = self.pick(self.tables[table]).name
            atoms = [query(self.function(table)) for _ in range(2)]
            having = (signed('compare', self.pick(COMPARES), atoms[0], self.constant('INTEGER')) if self.chance(0.5)
                      else self.condition(None, '', atoms))
            filtered = f' WHERE {own(self.condition(table))}' if self.chance(0.4) else ''
            body = f'NOT EXISTS (SELECT {group} FROM {table}{filtered} GROUP BY {group} HAVING {own(having)})'
        else:
            atoms = [query(f'(SELECT {self.function(t)} FROM {t}{self.pick(["", " WHERE " + own(self.condition(t))])})')
                     for t in [self.pick(self.tables), self.pick(self.tables)]]
            body = own(self.condition(None, '', atoms) if self.chance(0.5)
                       else signed('compare', self.pick(COMPARES), atoms[0],
                                   self.pick([atoms[1], self.constant('INTEGER')])))
        return self.named(body, self.pick(['', '', '', ' DEFERRABLE', ' INITIALLY DEFERRED',
                                           ' INITIALLY DEFERRED DEFERRABLE', ' NOT DEFERRABLE']))

    def function(self, table: str, row: str = '') -> str:
        word = self.pick(['COUNT(*)', 'COUNT', 'SUM', 'SUM', 'MIN', 'MAX'])
        column = self.column(table, 'INTEGER', row)
        quantifier = self.pick(['', '', 'ALL ', 'DISTINCT ', 'DISTINCT '])
        is_plain = word == 'COUNT(*)' or column.kind != 'column'
        return 'COUNT(*)' if is_plain else f'{word}({quantifier}{own(column)})'

    def linked(self, table: str) -> tuple[bool, str]:
        """Whether it is an EXISTS, and a subquery that is linked to the row R."""
        key = self.key(table).name
        child = self.pick(self.tables)
        pairs = [(c.name, r.name) for c in self.tables[child] for r in self.tables[table] if c.kind == r.kind]
        by_key = [pair for pair in pairs if pair[1] == key]
        if not by_key:
            return True, f'(SELECT * FROM {table} W WHERE W.{key} = R.{key})'
        inner, outer = self.pick(pairs if self.chance(0.4) else by_key)
        parts = [f'W.{inner} = R.{outer}']
        for _ in range(self.pick([0, 0, 1, 2])):
            one, other = self.pick(pairs)
            parts.append(f'W.{one} {self.pick(COMPARES)} R.{other}')
        if self.chance(0.6):
            parts.append(own(self.test(child, "W", (), (), 1)))
        source = f'FROM {child} W WHERE {" AND ".join(parts)}'
        if self.chance(0.5):
            return True, f'(SELECT * {source})'
        return False, f'(SELECT {self.function(child, "W")} {source})'

    # ---- statements

    def insert(self, table: str, tidy: bool = False) -> Statement:
        rows = [self.row(table, tidy) for _ in range(self.pick([1, 1, 1, 2, 3]))]
        return Statement(f'INSERT INTO {table} VALUES {", ".join(row.own for row in rows)}',
                         f'INSERT INTO "{table}" VALUES {", ".join(row.theirs for row in rows)}')

    def row(self, table: str, tidy: bool) -> Statement:
        values = []
        for column in self.tables[table]:
            is_given = tidy and not column.takes_null or column.is_key
            value = self.constant(column.kind, 0 if is_given else 0.15)
            if tidy and column.kind == 'TEXT':
                value = Tree('text', (self.pick('AB'),))
            elif tidy or column.is_key and self.chance(0.9):
                value = number(self.pick(range(9))) if column.kind == 'INTEGER' else Tree('text', (self.pick('ABab'),))
            values.append(value)
        return Statement(f'({", ".join(map(own, values))})', f'({", ".join(map(theirs, values))})')

    def where(self, table: str) -> Statement:
        if self.chance(0.15):
            return Statement('', '')
        key = self.key(table)
        by_key = signed('compare', '=', Tree('column', ('', key.name)), self.constant(key.kind))
        tree = by_key if self.chance(0.6) else self.condition(table)
        return Statement(f' WHERE {own(tree)}', f' WHERE {theirs(tree)}')

    def set_function(self, table: str, kind: str) -> Tree:
        """A set function with values of the kind."""
        word = self.pick(['MIN', 'MAX', 'COUNT', 'SUM', 'SUM', 'COUNT(*)'] if kind == 'INTEGER' else ['MIN', 'MAX'])
        counted = self.pick(['INTEGER', 'TEXT']) if word == 'COUNT' else kind
        column = self.column(table, counted)
        if column.kind != 'column':
            return Tree('all rows') if kind == 'INTEGER' else column
        quantifier = self.pick(['', '', 'ALL ', 'DISTINCT '])
        return Tree('all rows') if word == 'COUNT(*)' else Tree('set function', (word, quantifier), (column,))

    def summary(self, table: str) -> Tree:
        """An expression over set functions. A product of two could be past the range of arithmetic."""
        one, other = (self.set_function(table, 'INTEGER') for _ in range(2))
        return self.pick([one, one, one, self.set_function(table, 'TEXT'), signed('sum', '+', one, other),
                          signed('sum', '-', one, self.constant('INTEGER')), joined('product', one, number(3)),
                          joined('negation', one), self.constant(self.pick(['INTEGER', 'TEXT']))])

    def derived(self, tree: Tree) -> Statement:
        """A derived column, now and then with a name."""
        name = self.pick(['', '', ' AS X', ' Y'])
        return Statement(own(tree) + name, theirs(tree) + name.replace(' Y', ' AS Y'))

    def select(self, table: str) -> Statement:
        """All columns, expressions of each row, of all rows together, or of groups. The rows come in the order of their
        keys, groups in that of their columns."""
        key = self.key(table).name
        mine, yours = self.where(table)
        roll = self.rng.random()
        if roll < 0.3:
            return Statement(f'SELECT * FROM {table}{mine}', f'SELECT * FROM "{table}"{yours} ORDER BY "{key}"')
        if roll > 0.6 and self.chance(0.6):
            mine, yours = Statement('', '')
        own_name = self.pick(['', ' R', ' AS R'])
        row = 'R' if own_name and self.chance(0.5) else ''
        if roll < 0.6:
            listed = [self.expression(table, self.pick(['INTEGER', 'TEXT']), row) for _ in self.several()]
            behind = Statement('', f' ORDER BY "{key}"')
        elif roll < 0.7:
            listed = [self.set_function(table, 'INTEGER'), *(self.summary(table) for _ in self.several())]
            behind = Statement('', '')
        else:
            listed, behind = self.groups(table, row)
        columns = [self.derived(tree) for tree in listed]
        items, others = ', '.join(column.own for column in columns), ', '.join(column.theirs for column in columns)
        return Statement(f'SELECT {items} FROM {table}{own_name}{mine}{behind.own}',
                         f'SELECT {others} FROM "{table}"{yours}{behind.theirs}')

    def several(self) -> range:
        return range(self.pick([1, 2, 3]))

    def groups(self, table: str, row: str) -> tuple[list[Tree], Statement]:
        """What is listed of groups by two columns at most, and GROUP BY and HAVING; on PostgreSQL their order too."""
        columns = self.tables[table]
        by = self.rng.sample(columns, min(len(columns), self.pick([0, 1, 1, 2])))
        named = [Tree('column', (row, column.name)) for column in by]
        numbers = [tree for tree, column in zip(named, by) if column.kind == 'INTEGER']
        texts = [tree for tree, column in zip(named, by) if column.kind == 'TEXT']
        listed = [self.pick([self.summary(table), *named, *(self.of_group(table, tree, numbers) for tree in numbers)])
                  for _ in self.several()]
        mine = yours = ''
        if by:
            mine, yours = f' GROUP BY {", ".join(map(own, named))}', f' GROUP BY {", ".join(map(theirs, named))}'
        if not by or self.chance(0.4):
            having = self.having(table, numbers, texts)
            mine, yours = f'{mine} HAVING {own(having)}', f'{yours} HAVING {theirs(having)}'
        if by:
            yours += f' ORDER BY {", ".join(f"{theirs(tree)} NULLS FIRST" for tree in named)}'
        return listed, Statement(mine, yours)

    def of_group(self, table: str, column: Tree, columns: Sequence[Tree]) -> Tree:
        """An expression over columns of GROUP BY, and perhaps over a set function."""
        return self.pick([self.expression(None, 'INTEGER', '', columns),
                          signed('sum', self.pick('+-'), column, self.set_function(table, 'INTEGER'))])

    def having(self, table: str, columns: Sequence[Tree], texts: Sequence[Tree]) -> Tree:
        """A condition over groups with these columns."""
        def e() -> Tree:
            return self.pick([self.set_function(table, 'INTEGER'), self.constant('INTEGER'), *columns])

        tests = [self.pick([signed('compare', self.pick(COMPARES), self.set_function(table, 'INTEGER'), e()),
                            tested('null test', self.set_function(table, 'INTEGER'), self.pick(NOT)),
                            spanned('between', e(), self.pick(NOT), e(), e()),
                            *(signed('compare', self.pick(COMPARES), tree, self.constant('TEXT')) for tree in texts)])
                 for _ in range(2)]
        return self.pick([tests[0], tests[0], joined('not', tests[0]), joined('and', *tests), joined('or', *tests)])

    def update(self, table: str) -> Statement:
        columns = [column for column in self.tables[table] if not column.is_key or self.chance(0.03)]
        if not columns:
            return self.insert(table)
        ours, others = [], []
        for column in self.rng.sample(columns, min(len(columns), self.pick([1, 1, 2]))):
            value = NULL if self.chance(0.1) else self.expression(table, column.kind)
            ours.append(f'{column.name} = {own(value)}')
            others.append(f'"{column.name}" = {theirs(value)}')
        mine, yours = self.where(table)
        return Statement(f'UPDATE {table} SET {", ".join(ours)}{mine}',
                         f'UPDATE "{table}" SET {", ".join(others)}{yours}')

    def statement(self) -> Statement:
        table = self.pick(self.tables)
        mine, yours = self.where(table)
        roll = self.rng.random()
        if roll < 0.3:
            return self.insert(table, tidy=self.chance(0.3))
        if roll < 0.55:
            return self.update(table)
        if roll < 0.68:
            return Statement(f'DELETE FROM {table}{mine}', f'DELETE FROM "{table}"{yours}')
        if roll < 0.8:
            return self.select(table)
        if roll < 0.9 and self.assertions:
            names = None if self.chance(0.4) else [self.pick(self.assertions) for _ in range(self.pick([1, 1, 2]))]
            mode = self.pick(['DEFERRED', 'IMMEDIATE'])
            quoted = ', '.join(f'"{name}"' for name in names) if names else 'ALL'
            return Statement(f'SET CONSTRAINTS {", ".join(names) if names else "ALL"} {mode}',
                             f'SET CONSTRAINTS {quoted} {mode}')
        name = self.pick(self.assertions)
        return Statement(f'VERDICT {name}', f"SELECT verdict FROM skewguard_verdicts WHERE rule = '{name}'")

    def script(self) -> list[Event]:
        """Events, each transaction begun before its statements."""
        names = ['A', 'B', 'C', 'D'][:self.sessions]
        open_: dict[str, int] = {}
        out = []
        for _ in range(self.pick([10, 20, 30])):
            session = self.pick(names)
            if session not in open_:
                open_[session] = self.pick([1, 2, 3, 5, 8])
                out.append(Event(session, 'BEGIN', 'BEGIN'))
            elif open_[session] == 0 or self.chance(0.05):
                del open_[session]
                word = 'ROLLBACK' if self.chance(0.1) else 'COMMIT'
                out.append(Event(session, word, word))
            else:
                open_[session] -= 1
                out.append(Event(session, *self.statement()))
        return out + [Event(session, 'COMMIT', 'COMMIT') for session in open_]


def own(tree: Tree) -> str:
    """A tree as skewguard reads it."""
    return printed(tree, lambda row, name: f'{row}.{name}' if row else name, '')


def theirs(tree: Tree) -> str:
    """A tree as PostgreSQL reads it: arithmetic is of type numeric, and texts compare by bytes."""
    return printed(tree, lambda row, name: f'"{name}"', '::numeric')


def printed(tree: Tree, column: Callable[[str, str], str], cast: str) -> str:
    """A tree, with what a language makes of the row and the name of a column, and of a number."""
    kind, words, parts = tree
    if kind == 'null':
        return 'NULL'
    if kind == 'number':
        return f'({words[0]})' if int(words[0]) < 0 else words[0]
    if kind == 'text':
        return f'({literal(words[0])} COLLATE "C")' if cast else literal(words[0])
    if kind == 'column':
        return column(*words)
    if kind in ('query', 'exists'):
        return words[0] if kind == 'query' else f'EXISTS {words[0]}'
    if kind == 'all rows':
        return 'COUNT(*)'
    one, *others = (printed(part, column, cast) for part in parts)
    if kind == 'set function':
        return f'{words[0]}({words[1]}{one})'
    if kind in ('sum', 'product', 'negation'):
        one, *others = (text if part.kind in ('sum', 'product', 'negation') else text + cast
                        for text, part in zip((one, *others), parts))
    if kind == 'negation':
        return f'(- {one})'
    if kind == 'not':
        return f'(NOT ({one}))'
    if kind == 'is':
        return f'(({one}) IS {words[0]}{words[1]})'
    if kind == 'null test':
        return f'{one} IS {words[0]}NULL'
    other = others[0]
    if kind == 'sum':
        return f'({one} {words[0]} {other})'
    if kind == 'product':
        return f'({one} * {other})'
    if kind == 'compare':
        return f'{one} {words[0]} {other}'
    if kind == 'between':
        return f'{one} {words[0]}BETWEEN {other} AND {others[1]}'
    if kind == 'in':
        return f'{one} {words[0]}IN ({other}, {others[1]})'
    return f'({one} {kind.upper()} {other})'


# ---- what an event is answered, in words that both sides have

# Where a row has a NULL and a number that may not be there, skewguard names the first column and PostgreSQL the NULL:
# both are one answer here.
REFUSED = {'3': 'name', '6': 'value', '7': 'key taken', '8': 'key', '9': 'value', '11': 'not deferrable',
           '12': 'serialization', '13': 'serialization'}
STATES = {'23502': 'value', '23505': 'key taken', '0A000': 'key', '23514': 'value', '22003': 'value',
          '42704': 'not deferrable', '40001': 'serialization', '40P01': 'serialization'}
# A word for what became of an event, and what there is to it: why it was refused, a number of rows, the rows, ..
Outcome = tuple[typing.Union[None, int, str], ...]
SERIALIZATION: Outcome = ('refused', 'serialization')


def answer_of_program(lines: Sequence[str]) -> Outcome:
    """The answer in the lines of an event."""
    words = lines[0].split(': ', 1)[1]
    if words.startswith('REFUSED '):
        parts = words.split(' ', 4)
        if parts[1] == '10':
            return 'violated', parts[3], parts[4]
        return 'refused', REFUSED.get(parts[1], words)
    if words.startswith(('INSERT', 'UPDATE', 'DELETE')):
        return 'changed', int(words.split()[1])
    if words.startswith('SELECT'):
        return ('rows', *(line[2:] for line in lines[1:]))
    if words.startswith('VERDICT'):
        return 'verdict', words.split()[2]
    return 'done', words.split()[0]


def answer_of_error(error: psycopg2.Error) -> Outcome:
    if error.pgcode == '23000':
        return 'violated', error.diag.constraint_name, error.diag.message_detail
    return 'refused', STATES.get(error.pgcode or '', f'{error.pgcode} {error}')


class Session(Player):
    """Notes what its events are answered. One that is alone waits for no other, and plays them at once, without a
    thread."""

    def __init__(self, server: ServerOfCases, schema: str, alone: bool) -> None:
        super().__init__(server, schema)
        self.pid = self.connection.info.backend_pid
        self.answers: list[Outcome] = []
        self.is_open, self.lost, self.alone = False, False, alone
        if not alone:
            self.start()

    def give(self, event: str | None) -> None:
        if self.alone and event is not None:
            self.play(event)
        else:
            super().give(event)

    def end(self, watch: Cursor) -> None:
        """Ends the session, also where it waits for another one."""
        watch.execute('SELECT pg_terminate_backend(%s, 10000)', (self.pid,))
        self.work.put(None)
        if not self.alone:
            self.join(10)
        self.connection.close()

    def run(self) -> None:
        # (where the case is over, its sessions were ended)
        with contextlib.suppress(psycopg2.Error):
            super().run()

    def play(self, event: str) -> None:
        self.answers.append(self.played(event))

    def played(self, event: str) -> Outcome:
        try:
            return self.answer(event)
        except psycopg2.Error as error:
            answer = answer_of_error(error)
            if event in ('BEGIN', 'COMMIT', 'ROLLBACK') or answer == SERIALIZATION:
                self.cursor.execute('ROLLBACK')
                self.is_open, self.lost = False, event != 'COMMIT'
            else:
                self.cursor.execute('ROLLBACK TO SAVEPOINT statement')
            return answer

    def answer(self, event: str) -> Outcome:
        if event == 'BEGIN':
            self.lost = False
            self.cursor.execute('BEGIN ISOLATION LEVEL SERIALIZABLE; SELECT 1')
            self.is_open = True
            return 'done', event
        if self.lost or not self.is_open:
            if event in ('COMMIT', 'ROLLBACK'):
                self.lost = False
            return 'lost', event
        if event in ('COMMIT', 'ROLLBACK'):
            self.cursor.execute(event)
            self.is_open = False
            return 'done', event
        self.cursor.execute('SAVEPOINT statement')
        self.cursor.execute(event)
        answer = self.told(event)
        self.cursor.execute('RELEASE SAVEPOINT statement')
        return answer

    def told(self, event: str) -> Outcome:
        if event.startswith('SELECT verdict'):
            ((verdict,),) = self.cursor.fetchall()
            return 'verdict', {True: 'TRUE', False: 'FALSE', None: 'UNKNOWN'}[verdict]
        if event.startswith('SELECT'):
            return ('rows', *(', '.join(map(literal, row)) for row in self.cursor.fetchall()))
        if event.startswith('SET'):
            return 'done', 'SET'
        return 'changed', self.cursor.rowcount


class Differs(Exception):
    """What the two answer differently."""


class Cases:
    """Plays cases on both, and counts what it meets."""

    def __init__(self, program: str, server: ServerOfCases) -> None:
        self.program, self.server = program, server
        self.watch = server.connect('-c default_transaction_isolation=read\\ committed')
        self.cursor = self.watch.cursor()
        self.counts: collections.Counter[str] = collections.Counter()
        self.schemas = 0

    def count(self, what: str) -> None:
        self.counts[what] += 1

    def replayed(self, defs: str, events: Sequence[Event]) -> list[Outcome] | None:
        """The answers of the program to a script's events, or None where the definitions are refused."""
        ran = replay(self.program, defs.encode(), ''.join(loads.script(events)).encode())
        if ran.status != 0:
            return None
        answered = replies(in_characters(ran.output))
        return [answer_of_program(answered[at]) for at in range(len(events))]

    def printed(self, defs: str) -> Answer:
        """What the program makes of definitions for PostgreSQL."""
        return run_on([self.program, 'postgresql'], defs.encode())

    def load(self, defs: str) -> str:
        """The name of a new schema with the tables and rules of definitions."""
        made = self.printed(defs)
        if made.status != 0:
            raise Differs(f'postgresql: status {made.status}: {made.error}')
        self.schemas += 1
        schema = f'case_{self.schemas}'
        try:
            self.cursor.execute(f'CREATE SCHEMA {schema}')
            self.cursor.execute(f'SET search_path = {schema}')
            self.cursor.execute(in_characters(made.output))
        except psycopg2.Error as error:
            raise Differs(f'the SQL is not loaded: {error}\n{made.output}')
        return schema

    def case(self, maker: Maker) -> bool:
        """One case. False where its definitions are refused."""
        defs, script = maker.definitions(), maker.script()
        wanted = self.replayed(defs, script)
        if wanted is None:
            return False
        schema = self.load(defs)
        sessions: dict[str, Session] = {}
        try:
            names = sorted({session for session, _, _ in script})
            sessions = {name: Session(self.server, schema, len(names) == 1) for name in names}
            self.play(script, wanted, sessions)
        except Differs as differs:
            shown = '\n'.join(f'{s}: {mine};   -- {answer}' for (s, mine, _), answer in zip(script, wanted))
            raise Differs(f'{differs}\n--- defs\n{defs}\n--- script and answers of the program\n{shown}')
        finally:
            for session in sessions.values():
                session.end(self.cursor)
            self.cursor.execute(f'DROP SCHEMA {schema} CASCADE')
        return True

    def play(self, script: Sequence[Event], wanted: Sequence[Outcome], sessions: Mapping[str, Session]) -> None:
        """Gives each event to its session, and compares the answers as they come."""
        places: dict[str, list[int]] = {name: [] for name in sessions}
        compares, checked = True, {name: 0 for name in sessions}
        for place, (name, _, event) in enumerate(script):
            session = sessions[name]
            if not session.idle and event == 'COMMIT' and compares:
                self.count('committed later than in the script, after a wait')
                compares = False
            places[name].append(place)
            session.give(event)
            self.settle(sessions)
            compares = self.compare(script, wanted, sessions, places, checked, compares)
        while not all(session.idle for session in sessions.values()):
            self.settle(sessions)
            time.sleep(0.001)
        self.compare(script, wanted, sessions, places, checked, compares)

    def settle(self, sessions: Mapping[str, Session]) -> None:
        """Waits until each session is idle or waits for another one."""
        begun = time.time()
        while True:
            busy = [s for s in sessions.values() if not s.idle]
            if not busy:
                return
            if time.time() - begun > 0.01:
                self.cursor.execute("SELECT pid FROM pg_stat_activity WHERE wait_event_type = 'Lock'")
                waiting = {row[0] for row in self.cursor.fetchall()}
                if all(s.pid in waiting for s in busy):
                    return
            if time.time() - begun > 30:
                raise Differs('a session does not come to an end')
            time.sleep(0.0005)

    def compare(self, script: Sequence[Event], wanted: Sequence[Outcome], sessions: Mapping[str, Session],
                places: Mapping[str, Sequence[int]], checked: dict[str, int], compares: bool) -> bool:
        """Compares the answers that have come in since, in the order of the script; whether to go on comparing."""
        new = []
        for name, session in sessions.items():
            while checked[name] < len(session.answers):
                new.append((places[name][checked[name]], session.answers[checked[name]]))
                checked[name] += 1
        for place, answer in sorted(new):
            if script[place].own == 'COMMIT' and answer[0] == 'done':
                self.check_rules()
            if compares:
                compares = self.same(script[place], answer, wanted[place], len(sessions) > 1)
        return compares

    def check_rules(self) -> None:
        """No rule is false in what is committed."""
        self.count('commits on PostgreSQL')
        self.cursor.execute('SELECT rule, root FROM skewguard_verdicts WHERE NOT verdict')
        broken = self.cursor.fetchall()
        if broken:
            raise Differs(f'a committed state breaks a rule: {broken}')

    def same(self, event: Event, answer: Outcome, wanted: Outcome, several: bool) -> bool:
        """Whether to go on comparing behind an answer that is the same, or may be another one."""
        self.count('answers compared')
        if wanted[0] == 'violated':
            self.count('refused at COMMIT for a rule' if event.own == 'COMMIT' else 'refused for a rule')
        lost = answer == SERIALIZATION or answer[0] == 'lost'
        if event.own == 'COMMIT' and (lost or wanted == SERIALIZATION):
            if lost and wanted == SERIALIZATION:
                self.count('refused with 40001 by both')
                return True
            if lost and wanted[0] != 'done':
                return True
            self.count('refused with 40001 by PostgreSQL alone' if lost else 'refused with 40001 by skewguard alone')
            return False
        if lost:
            return True
        if several and answer == ('refused', 'key taken') and wanted[0] == 'changed':
            self.count('refused with 23505 by PostgreSQL for a key that another session has put in since')
            return False
        if several and wanted == ('refused', 'key taken') and answer[0] == 'changed':
            self.count('put in by PostgreSQL under a key that another session has taken out since')
            return False
        if answer != wanted:
            raise Differs(f'{event.session}: {event.own};\n'
                          f'  skewguard  {wanted}\n  PostgreSQL {answer}  ({event.theirs})')
        return True


def play_cases(player: Cases, cases: int, seed: int, most_sessions: int) -> bool:
    """Whether all of so many cases are alike."""
    played = tried = 0
    while played < cases:
        rng = random.Random((seed << 32) + (most_sessions << 24) + tried)
        tried += 1
        sessions = 1 if most_sessions == 1 else rng.choice(range(2, most_sessions + 1))
        try:
            played += player.case(Maker(rng, sessions))
        except Differs as differs:
            print(f'case {tried - 1} of seed {seed}, {most_sessions} sessions at most: {differs}')
            return False
    sessions_of_them = 'one session' if most_sessions == 1 else 'several sessions'
    print(f'{cases} cases of {sessions_of_them}: alike ({tried} made, the others refused at their definitions)')
    for what, count in sorted(player.counts.items()):
        print(f'    {count} {what}')
    player.counts.clear()
    return True


# ---- what a statement costs

COST_DEFS = '''CREATE TABLE SHIFTS (ID INTEGER PRIMARY KEY);
CREATE TABLE DUTY (ID INTEGER PRIMARY KEY, SHIFT INTEGER, ONCALL INTEGER);
CREATE TABLE ACCT (ID INTEGER PRIMARY KEY, OWNER INTEGER, BAL INTEGER);
CREATE TABLE SEAT (ID INTEGER PRIMARY KEY, TAKEN INTEGER);
CREATE ASSERTION COVERED CHECK (NOT EXISTS (
    SELECT * FROM SHIFTS S WHERE NOT EXISTS (SELECT * FROM DUTY D WHERE D.SHIFT = S.ID AND D.ONCALL = 1)))%(mode)s;
CREATE ASSERTION FUNDS CHECK (NOT EXISTS (SELECT OWNER FROM ACCT GROUP BY OWNER HAVING SUM(BAL) < 0))%(mode)s;
CREATE ASSERTION SOLD CHECK ((SELECT SUM(TAKEN) FROM SEAT) <= 1000000)%(mode)s;
'''

BARE = '''CREATE TABLE "SHIFTS" ("ID" bigint PRIMARY KEY);
CREATE TABLE "DUTY" ("ID" bigint PRIMARY KEY, "SHIFT" bigint, "ONCALL" bigint);
CREATE TABLE "ACCT" ("ID" bigint PRIMARY KEY, "OWNER" bigint, "BAL" bigint);
CREATE TABLE "SEAT" ("ID" bigint PRIMARY KEY, "TAKEN" bigint);
CREATE INDEX ON "DUTY" ("SHIFT"); CREATE INDEX ON "ACCT" ("OWNER");
'''

# What one writes by hand: a trigger for each row that looks at what this row can break, and for the sum of a whole
# table one for each statement.
BY_HAND = BARE + '''
CREATE FUNCTION hand_covered() RETURNS trigger LANGUAGE plpgsql AS $$ BEGIN
    IF EXISTS (SELECT FROM "SHIFTS" WHERE "ID" = OLD."SHIFT")
       AND NOT EXISTS (SELECT FROM "DUTY" WHERE "SHIFT" = OLD."SHIFT" AND "ONCALL" = 1) THEN
        RAISE EXCEPTION 'shift % is not covered', OLD."SHIFT" USING ERRCODE = '23000'; END IF;
    RETURN NULL; END $$;
CREATE TRIGGER hand AFTER UPDATE OR DELETE ON "DUTY" FOR EACH ROW EXECUTE FUNCTION hand_covered();
CREATE FUNCTION hand_new_shift() RETURNS trigger LANGUAGE plpgsql AS $$ BEGIN
    IF NOT EXISTS (SELECT FROM "DUTY" WHERE "SHIFT" = NEW."ID" AND "ONCALL" = 1) THEN
        RAISE EXCEPTION 'shift % is not covered', NEW."ID" USING ERRCODE = '23000'; END IF;
    RETURN NULL; END $$;
CREATE TRIGGER hand AFTER INSERT ON "SHIFTS" FOR EACH ROW EXECUTE FUNCTION hand_new_shift();
CREATE FUNCTION hand_funds() RETURNS trigger LANGUAGE plpgsql AS $$ BEGIN
    IF (SELECT SUM("BAL") FROM "ACCT" WHERE "OWNER" = NEW."OWNER") < 0 THEN
        RAISE EXCEPTION 'owner % has no funds', NEW."OWNER" USING ERRCODE = '23000'; END IF;
    RETURN NULL; END $$;
CREATE TRIGGER hand AFTER INSERT OR UPDATE ON "ACCT" FOR EACH ROW EXECUTE FUNCTION hand_funds();
CREATE FUNCTION hand_sold() RETURNS trigger LANGUAGE plpgsql AS $$ BEGIN
    IF (SELECT SUM("TAKEN") FROM "SEAT") > 1000000 THEN
        RAISE EXCEPTION 'too many seats' USING ERRCODE = '23000'; END IF;
    RETURN NULL; END $$;
CREATE TRIGGER hand AFTER INSERT OR UPDATE ON "SEAT" FOR EACH STATEMENT EXECUTE FUNCTION hand_sold();
'''

# Tables of N rows: 5 duties a shift, 5 accounts an owner.
COST_ROWS = [('DUTY', 'SELECT i, i / 5, 1 FROM generate_series(0, {n} - 1) AS i'),
             ('SHIFTS', 'SELECT i FROM generate_series(0, {n} / 5 - 1) AS i'),
             ('ACCT', 'SELECT i, i / 5, 10 FROM generate_series(0, {n} - 1) AS i'),
             ('SEAT', 'SELECT i, 1 FROM generate_series(0, {n} - 1) AS i')]

COST_STATEMENTS = [('COVERED, by rows', 'DUTY', 'UPDATE "DUTY" SET "ONCALL" = 1 - "ONCALL" WHERE "ID" = {i} * 5'),
                   ('FUNDS, by groups', 'ACCT', 'UPDATE "ACCT" SET "BAL" = "BAL" + 1 WHERE "ID" = {i} * 5'),
                   ('SOLD, single', 'SEAT', 'UPDATE "SEAT" SET "TAKEN" = 1 - "TAKEN" WHERE "ID" = {i}')]


def timed(cursor: Cursor, statement: str) -> float:
    """The seconds of a statement."""
    begun = time.perf_counter()
    cursor.execute(statement)
    return time.perf_counter() - begun


def loaded(server: ServerOfCases, player: Cases, sql: str, name: str, n: int) -> tuple[Cursor, dict[str, float]]:
    """A connection to tables of n rows, and how long the INSERT of each took."""
    player.cursor.execute(f'CREATE SCHEMA {name}')
    cursor = server.connect(f'-c search_path={name}').cursor()
    cursor.execute(sql)
    seconds = {table: timed(cursor, f'INSERT INTO "{table}" {rows.format(n=n)}') for table, rows in COST_ROWS}
    for table, _ in COST_ROWS:
        cursor.execute(f'VACUUM ANALYZE "{table}"')
    return cursor, seconds


def costs(server: ServerOfCases, player: Cases, statements: int = 200) -> None:
    """For each rule the median of an UPDATE of one row, a transaction each, the kinds in turns; and an INSERT of
    all."""
    immediate, deferred = (player.printed(COST_DEFS % {'mode': mode}).output for mode in ('', ' INITIALLY DEFERRED'))
    kinds = [('no rule', BARE), ('by hand', BY_HAND), ('printed', immediate), ('printed, deferred', deferred)]
    names = ' | '.join(kind for kind, _ in kinds)
    print(f'| rule | rows | statement | {names} |\n|---|---|---|' + '---|' * len(kinds))
    for n in (10 ** 4, 10 ** 5):
        ready = [loaded(server, player, sql, f'cost_{n}_{place}', n) for place, (_, sql) in enumerate(kinds)]
        for title, table, statement in COST_STATEMENTS:
            times: list[list[float]] = [[] for _ in kinds]
            for i in range(50 + statements):
                for (cursor, _), found in zip(ready, times):
                    found.append(timed(cursor, statement.format(i=i)))
            each = ' | '.join(f'{statistics.median_high(found[50:]) * 1e6:,.0f} us' for found in times)
            print(f'| {title} | {n:,} | UPDATE of one row | {each} |')
            each = ' | '.join(f'{seconds[table] * 1e3:,.0f} ms' for _, seconds in ready)
            print(f'| {title} | {n:,} | INSERT of all rows | {each} |', flush=True)


def main() -> int:
    arguments = parser_of(__doc__)
    arguments.add_argument('program')
    arguments.add_argument('--one', type=int, default=2000, help='cases of one session')
    arguments.add_argument('--many', type=int, default=300, help='cases of several sessions')
    arguments.add_argument('--seed', type=int, default=1)
    arguments.add_argument('--costs', action='store_true', help='what a statement costs, beside hand-written triggers')
    options = arguments.parse_args()
    server = ServerOfCases()
    try:
        player = Cases(os.path.abspath(options.program), server)
        if options.costs:
            costs(server, player)
            return 0
        good = play_cases(player, options.one, options.seed, 1) and play_cases(player, options.many, options.seed, 4)
    finally:
        server.stop()
    return 0 if good else 1


if __name__ == '__main__':
    sys.exit(main())
