#!/usr/bin/env python3
"""Holds each figure that `explain` and `picture` show against a plain reference, over random cases.

    tools/explain_against.py REFERENCE PROGRAM [--cases N] [--seed N] [--files DEFS SCRIPT].. [--pictures-only]

REFERENCE is a folder with the reference of the engine (modules `fuzz` and `reference`), which compares whole states
and every pair of commits. From what it reads and changes this writes what `PROGRAM explain DEFS SCRIPT N` has to say of
each event N, and which boxes and arrows `PROGRAM picture DEFS SCRIPT` has to draw. Left out of the comparison are the
text of an event and of a rule, and the WHERE of a set function. With --files these are tried in place of random cases.
"""
from __future__ import annotations

import argparse
import collections
import dataclasses
import itertools
import pathlib
import re
import sys
import typing
import xml.etree.ElementTree as ET
from collections.abc import Iterable, Iterator, Mapping, Sequence

from harness.arguments import parser_of
from harness.programs import Word, run
from harness.texts import placed

parser = parser_of(__doc__)
parser.add_argument('reference')
parser.add_argument('program')
parser.add_argument('--cases', type=int, default=100)
parser.add_argument('--seed', type=int, default=1)
parser.add_argument('--stage', default='base')
parser.add_argument('--files', nargs=2, action='append')
parser.add_argument('--pictures-only', action='store_true')
options = parser.parse_args()
sys.path.insert(0, options.reference)
import fuzz  # noqa: E402
from reference import engine, meaning as M, parser as P  # noqa: E402
from reference.refusals import Refused, value_text  # noqa: E402
from reference.report import reply_lines  # noqa: E402

MOST_LINES, MOST_LANES, MOST_BOXES, MOST_ARROWS = 10, 12, 60, 40

# What the reference has, which says nothing of its types: its parts of a definition, the key of what is read, what is
# answered to an event, and tables by their names.
Part = typing.Any
Key = typing.Any
Reply = typing.Any
State = typing.Any
Row = Sequence[object]


class Change(typing.NamedTuple):
    """A row as it was and as it is; None where there is none."""

    table: str
    key: object
    old: Row | None
    new: Row | None


class Noting(typing.NamedTuple):
    """A key that was read at an event, and the rule by whose check, if it was one."""

    event: int
    by: str | None
    key: Key


@dataclasses.dataclass
class Transaction:
    """A transaction as it is told: where it begins and ends among the events, and how."""

    session: str
    begun: int
    snapshot: int
    read_only: bool
    txn: Noted
    ended: int
    end: str = 'open'
    number: int = 0
    changes: list[Change] = dataclasses.field(default_factory=list)


class Told(typing.NamedTuple):
    """What became of an event: its answer, its transaction, the tables that it saw, and the rows that it changed."""

    answer: Reply
    it: Transaction | None
    state: State
    made: list[Change]


class One(frozenset[str]):
    """A line that is one of these."""


Line = typing.Union[str, One]


class SetFunction(typing.NamedTuple):
    """A slot of a rule's condition: its function, the rows that it is of in words, and the rows."""

    name: str
    column: str | None
    scope: str
    linked: str
    rows: list[Row]
    given: object  # what it makes of them


class Noted(engine.Transaction):  # type: ignore[misc]  # (of the reference)
    """A transaction that notes who read each key, and the tables as each statement would leave them."""

    def __post_init__(self) -> None:
        super().__post_init__()
        self.noted: list[Noting] = []
        self.event = 0
        self.by: str | None = None
        self.tried: State = None
        self.made: list[Change] = []

    def read(self, key: Key) -> None:
        self.noted.append(Noting(self.event, self.by, key))
        super().read(key)

    def read_checks(self, assertions: Iterable[Part], changes: Sequence[Change], state: State) -> None:
        # COMMIT checks all, and what it would read of those that are immediate then the statements have read
        at_commit = assertions is self.definitions.assertions
        for a in assertions:
            self.by = a.name
            read = super().read if at_commit and not self.deferred[a.name] else self.read
            for key in engine.check_keys(a, changes, state):
                read(key)
        self.by = None

    def change(self, table: Part, rows: Mapping[object, Row | None], reply: Reply) -> Reply:
        new = engine.copied(self.state)
        for key, row in rows.items():
            if row is None:
                del new[table.name][key]
            else:
                new[table.name][key] = row
        self.tried = new
        self.made = [Change(*change) for change in engine.differences(self.definitions, self.state, new)]
        return super().change(table, rows, reply)


engine.Transaction = Noted


class Story:
    """A run of the reference, event by event, with the transactions in the order of their BEGINs."""

    def __init__(self, defs: bytes, script: bytes, limit: int) -> None:
        self.definitions = engine.Definitions(P.parse('defs', defs, options.stage), options.stage)
        self.items = P.parse('script', script, options.stage)
        self.core = engine.Core(self.definitions, limit)
        self.sessions = list(dict.fromkeys(s for s, _ in self.items))
        self.transactions: list[Transaction] = []
        self.events: list[Told] = []
        live: dict[str, Transaction] = {}
        for i, (session, event) in enumerate(self.items):
            txn: Noted | None = self.core.live[session][1] if session in self.core.live else None
            if txn is not None:
                txn.event, txn.tried, txn.made = i, None, []
            commits = len(self.core.records)
            answer = engine.run(self.core, [(session, event)])[0]
            if isinstance(event, P.Begin) and not isinstance(answer, Refused):
                begun = Transaction(session, i, answer[1], event.read_only, self.core.live[session][1], i)
                live[session] = begun
                self.transactions.append(begun)
            it = live.get(session)
            if it is not None:
                it.ended = i
                if isinstance(event, (P.Commit, P.Rollback)):
                    del live[session]
                    it.end = 'rolled back'
                if isinstance(event, P.Commit):
                    it.changes = [Change(*change) for change in it.txn.net_change()]
                    it.end = 'refused' if isinstance(answer, Refused) else 'committed'
                    it.number = commits + 1
            state = None if txn is None else txn.tried or txn.state
            self.events.append(Told(answer, it, state, [] if txn is None else txn.made))
        self.order = self.core.order()

    def commit(self, number: int) -> Transaction:
        return next(it for it in self.transactions if it.end == 'committed' and it.number == number)

    # words ---------------------------------------------------------------------------------------
    def column(self, table: str, place: int) -> str:
        name: str = self.definitions.tables[table].columns[place][0]
        return name

    def key(self, key: Key) -> str:
        if key[0] == 'row':
            return f'row {value_text(key[2])} of {key[1]}'
        if key[0] == 'table':
            return f'all rows of {key[1]}'
        sign = ' NULL' if key[3] is None else f' = {value_text(key[3])}'
        return f'rows of {key[1]} with {self.column(key[1], key[2])}{sign}'

    def changed(self, change: Change) -> str:
        table, key, old, new = change
        said = f'row {value_text(key)} of {table}'
        if old is None:
            return f'{said}, put in as {row_text(new or ())}'
        if new is None:
            return f'{said}, taken out as {row_text(old)}'
        return f'{said} from {row_text(old)} to {row_text(new)}'

    def who(self, it: Transaction) -> str:
        name = f'commit {it.number}' if it.end == 'committed' else 'this transaction'
        return f'{name} (session {it.session}, events {it.begun + 1} to {it.ended + 1}, {sees(it)})'

    # explanations --------------------------------------------------------------------------------
    def explained(self, i: int) -> list[Line]:
        session, event = self.items[i]
        told = self.events[i]
        answer, it = told.answer, told.it
        lines: list[Line] = list(reply_lines(session, event, answer))
        if it is not None and not isinstance(answer, Refused):
            return lines + self.done(i, told, it)
        if answer.number == 10:
            return lines + self.violated(told.state, *answer.fields)
        if it is not None and answer.number == 12:
            return lines + self.overwritten(it, *answer.fields)
        if it is not None and answer.number == 13:
            return lines + self.dangerous(it, *answer.fields)
        return [*lines, '..']

    def done(self, i: int, told: Told, it: Transaction) -> list[Line]:
        lines: list[Line] = [f'  in the transaction of event {it.begun + 1}, {sees(it)}']
        is_commit = it.end == 'committed' and it.ended == i
        if is_commit:
            lines.append(f'  place in the serial order: {self.order.index(it.number) + 1}')
        reads = list(dict.fromkeys((by, key) for event, by, key in it.txn.noted if event == i))
        lines.append(f'  read: {len(reads)}')
        lines += some([f'    {self.key(key)}{reader(by)}' for by, key in reads], '    ')
        changes = it.changes if is_commit else told.made
        lines.append(f"  {'its net change' if is_commit else 'changed rows'}: {len(changes)}")
        return [*lines, *cut(['    ' + self.changed(c) for c in changes], '    ')]

    def violated(self, state: State, name: str, root: object) -> list[Line]:
        a = self.definitions.named(name)
        lines: list[Line] = [f'  the rule, {name}']
        if a.form == 'S':
            lines.append('  would be false as a whole')
        elif a.form == 'G':
            lines.append(f'  would be false at {self.group(a)} {value_text(root)}')
        else:
            table = a.source.tables[0]
            row = state[table.name][root]
            lines.append(f'  would be false at row {value_text(root)} of {table.name}: {row_text(row)}')
        parts = self.parts(a, state, root)
        for slot, part in enumerate(parts):
            named = part.name + ('(*)' if part.column is None else f'({part.column})')
            lines.append(f'    {named} of {part.scope} would be {value_text(part.given)}{demand(a, slot)}')
        lists = [(part.linked, part.rows) for part in parts]
        if a.form == 'G':
            lists = [(self.linked(a.source.tables[0].name, a.groups[0], root), self.members(a, state, root))]
        for linked, rows in lists:
            lines.append(f'    rows of {linked} that count: {len(rows)}')
            lines += cut(['      ' + row_text(r) for r in rows], '      ')
        return lines

    def linked(self, table: str, column: int, root: object) -> str:
        return f'{table} with {self.column(table, column)} = {value_text(root)}'

    def parts(self, a: Part, state: State, root: object) -> list[SetFunction]:
        """The set function of each slot."""
        out = []
        if a.form == 'S':
            for query in a.slots:
                table = query.source.tables[0]
                rows = M.kept(M.rows_of(state, table), query.where)
                out.append(self.function(table, query.function, table.name, table.name, rows))
        elif a.form == 'G':
            rows = self.members(a, state, root)
            for query in a.slots:
                scope = f'{self.group(a)} {value_text(root)}'
                out.append(self.function(a.source.tables[0], query.function, scope, '', rows))
        else:
            around = state[a.source.tables[0].name][root]
            for query in a.slots:
                child = query.source.tables[0]
                rows = [r for r in M.rows_of(state, child) if M.truth(query.where, r + around) is True]
                linked = self.linked(child.name, query.link[0], around[query.link[1]])
                out.append(self.function(child, query.function or ('COUNT', None, False), linked, linked, rows))
        return out

    def group(self, a: Part) -> str:
        """The column of a rule by groups."""
        return self.column(a.source.tables[0].name, a.groups[0])

    def members(self, a: Part, state: State, root: object) -> list[Row]:
        """The rows of a group."""
        rows: list[Row] = M.kept(M.rows_of(state, a.source.tables[0]), a.where)
        return [row for row in rows if row[a.groups[0]] == root]

    def function(self, table: Part, function: Part, scope: str, linked: str, rows: list[Row]) -> SetFunction:
        name, expression, distinct = function
        column = None if expression is None else self.column(table.name, expression[1])
        if distinct and name in ('COUNT', 'SUM'):
            column = f'DISTINCT {column}'
        return SetFunction(name, column, scope, linked, rows, M.aggregate(function, rows))

    def overwritten(self, this: Transaction, table: str, key: object, by: int) -> list[Line]:
        other = self.commit(by)
        lines: list[Line] = ['  in the way: ' + self.who(other)]
        lines.append('  both changed one row, and the first to commit wins:')
        for it, name in ((this, 'this transaction'), (other, f'commit {by}')):
            change = next(c for c in it.changes if c[:2] == (table, key))
            events = [i + 1 for i, told in enumerate(self.events)
                      if told.it is it and not isinstance(told.answer, Refused)
                      and any(c[:2] == (table, key) for c in told.made)]
            by_events = ', by event ' + ' and '.join(map(str, events)) if events else ''
            lines.append(f'    {name}: {self.changed(change)}{by_events}')
        return lines

    def dangerous(self, this: Transaction, *names: str | int) -> list[Line]:
        parties = [self.commit(n) if isinstance(n, int) else this for n in names]
        lines: list[Line] = ['  a dangerous triple: reader, pivot and writer may have no serial order']
        lines += [f'  {name}: {self.who(it)}' for name, it in zip(('reader', 'pivot', 'writer'), parties)]
        if parties[0].read_only:
            snapshot = parties[0].snapshot
            lines.append(f'  the reader is read only, and its snapshot {snapshot} holds the writer, commit {names[2]}')
        for (a, x), (b, y) in ((('the reader', parties[0]), ('the pivot', parties[1])),
                               (('the pivot', parties[1]), ('the writer', parties[2]))):
            found: dict[tuple[str | None, Key], tuple[Change, list[int]]] = {}
            for event, by, key in x.txn.noted:
                change = next((c for c in y.changes if engine.touches(c, key)), None)
                if change is not None:
                    events = found.setdefault((by, key), (change, []))[1]
                    if event + 1 not in events:
                        events.append(event + 1)
            lines.append(f'  {a} read what {b} changed and neither saw the other, by keys: {len(found)}')
            lines += some([f"    {self.key(key)}{reader(by)} at event {' and '.join(map(str, events))}; changed was "
                          f"{self.changed(change)}" for (by, key), (change, events) in found.items()], '    ')
        return lines

    # pictures ------------------------------------------------------------------------------------
    def drawn(self) -> tuple[list[Line], list[Line]]:
        """The titles of the boxes and of the arrows; of these those of refusals, and those of conflicts."""
        lanes = list(dict.fromkeys(it.session for it in self.transactions))[:MOST_LANES]
        boxes = [it for it in self.transactions if it.session in lanes][:MOST_BOXES]
        drawn = set(map(id, boxes))
        # (a refused transaction has one arrow of a write conflict, or two of a triple, and no other)
        red: list[tuple[tuple[int, int], Line]] = []
        arrows: list[Line] = []
        for it in boxes:
            answer = self.events[it.ended].answer
            if it.end == 'refused' and answer.number == 13:
                x, p, y = [it if n == 'THIS' else self.commit(n) for n in answer.fields]
                for a, b in ((x, p), (p, y)):
                    ends = id(a), id(b)
                    if drawn.issuperset(ends) and ends not in [pair for pair, _ in red]:
                        red.append((ends, self.arrow(a, b)))
            if it.end == 'refused' and answer.number == 12:
                other = self.commit(answer.fields[2])
                if id(other) in drawn:
                    said = f'{self.called(it)} changed a row that {self.called(other)} changed'
                    red.append(((id(it), id(other)), said))
        committed = [it for it in boxes if it.end == 'committed']
        records = self.core.records
        for a in committed:
            for b in committed:
                if engine.conflicts_to(records[a.number - 1], records[b.number - 1]):
                    if (id(a), id(b)) not in [pair for pair, _ in red]:
                        arrows.append(self.arrow(a, b))
        return [self.boxed(it) for it in boxes], ([arrow for _, arrow in red] + arrows)[:MOST_ARROWS]

    def boxed(self, it: Transaction) -> str:
        if it.end == 'committed':
            said = f'commit {it.number}, place {self.order.index(it.number) + 1}'
        elif it.end == 'refused':
            said = f'refused, {self.events[it.ended].answer.number}'
        else:
            said = it.end
        return f'{said}; events {it.begun + 1} to {it.ended + 1}, {sees(it)}, session {it.session}'

    def called(self, it: Transaction) -> str:
        name = f'commit {it.number}' if it.end == 'committed' else 'the refused transaction'
        return f'{name} of {it.session}'

    def arrow(self, a: Transaction, b: Transaction) -> One:
        """What may be said of a conflict: that one of the keys was read."""
        keys = [k for _, _, k in a.txn.noted if any(engine.touches(c, k) for c in b.changes)]
        return One(f'{self.called(a)} read {self.key(k)}, which {self.called(b)} changed' for k in keys)


def some(lines: Sequence[str], front: str) -> list[Line]:
    """Lines in any order, each once, ten at most, and how many more there are."""
    left: list[Line] = [f'{front}and {len(lines) - MOST_LINES} more'] if len(lines) > MOST_LINES else []
    one = One(lines)
    return [*[one] * min(len(lines), MOST_LINES), *left]


def row_text(row: Row) -> str:
    return '(' + ', '.join(value_text(v) for v in row) + ')'


def sees(it: Transaction) -> str:
    return f'snapshot {it.snapshot}' + (', read only' if it.read_only else '')


def reader(by: str | None) -> str:
    return ', read by the statement' if by is None else f', read by the check of {by}'


def cut(lines: list[str], front: str) -> list[str]:
    return lines[:MOST_LINES] + ([f'{front}and {len(lines) - MOST_LINES} more'] if len(lines) > MOST_LINES else [])


# What a comparison with a literal asks of a value: where it must not hold, where it must, and the same turned round.
FORBIDDEN = {'=': 'must not be', '<>': 'must be', '<': 'must not be below', '<=': 'must be above',
             '>': 'must not be above', '>=': 'must be below'}
WANTED = {'=': 'must be', '<>': 'must not be', '<': 'must be below', '<=': 'must be at most', '>': 'must be above',
          '>=': 'must be at least'}
TURNED = {'=': '=', '<>': '<>', '<': '>', '<=': '>=', '>': '<', '>=': '<='}


def demand(a: Part, slot: int) -> str:
    """What one comparison of a slot with a literal asks, where the condition is that."""
    part, forbidden = a.condition, a.form != 'S'
    while part is not None and part[0] == 'and' and len(part[1]) == 1:
        part = part[1][0]
    if part is None:
        return ''
    if part[0] == 'exists' and part[1] == slot:
        return ', and must be 0' if forbidden else ', and must not be 0'
    if part[0] == 'not' and part[1][0] == 'exists' and part[1][1] == slot:
        return ', and must not be 0' if forbidden else ', and must be 0'
    if part[0] == 'compare':
        for op, x, y in ((part[1], part[2], part[3]), (TURNED[part[1]], part[3], part[2])):
            if x[0] == 'slot' and x[1] == slot and y[0] in ('number', 'text'):
                return f', and {(FORBIDDEN if forbidden else WANTED)[op]} {value_text(y[1])}'
    return ''


def told(text: str) -> list[str]:
    """An explanation without what is not compared."""
    lines = text.splitlines()
    assert re.match(r'event \d+, line \d+: ', lines[0]), lines[0]
    rule = re.compile(r'^  the rule, line \d+ of DEFS: CREATE ASSERTION (\w+).*', re.IGNORECASE)
    out = []
    for line in lines[1:]:
        line = re.sub(r'^(    [A-Z]+\([^)]*\) of .*?) where .* would be ', r'\1 would be ', line)
        out.append(rule.sub(lambda m: f'  the rule, {m[1].upper()}', line))
    return out[:-1] if out and not out[-1] else out


def printed(words: Sequence[Word], limit: int, files: Sequence[str]) -> str:
    """What the program prints, which has to end well and say nothing else."""
    more = [] if limit == 1_000_000 else ['--max-commits', str(limit)]
    status, output, error = run([options.program, words[0], *more, *files, *words[1:]])
    assert (error, status) == ('', 0), (words, error, status)
    return output


def titles(svg: str) -> tuple[list[str], list[str]]:
    """The titles of boxes and of arrows."""
    space = '{http://www.w3.org/2000/svg}'
    boxes: list[str] = []
    arrows: list[str] = []
    for group in ET.fromstring(svg.encode('latin1')).iter(space + 'g'):
        title = group.find(space + 'title')
        if title is not None:
            (boxes if group.find(space + 'path') is None else arrows).append(title.text or '')
    return boxes, arrows


def free_lists(want: Iterable[Line], got: Iterable[str]) -> Iterator[list[str]]:
    """The lines of each list whose order is free: each of them may stand there once."""
    for _, pairs in itertools.groupby(zip(want, got), lambda pair: id(pair[0])):
        yield [line for one, line in pairs if isinstance(one, One)]


def compare(name: str, want: Sequence[Line], got: Sequence[str], defs: bytes, script: bytes) -> bool:
    fits = [line in one if isinstance(one, One) else line == one for one, line in zip(want, got)]
    fits += [len(lines) == len(set(lines)) for lines in free_lists(want, got)]
    if len(want) == len(got) and all(fits):
        return True
    print(f'{name}\n--- defs\n{defs.decode("latin1")}\n--- script\n{script.decode("latin1")}\n--- wanted')
    print('\n'.join(' | '.join(it) if isinstance(it, One) else it for it in want), '\n--- got')
    print('\n'.join(got))
    return False


def cases() -> Iterator[tuple[bytes, bytes, int]]:
    """Definitions, scripts and limits."""
    for paths in options.files or []:
        defs, script = (pathlib.Path(path).read_bytes() for path in paths)
        yield defs, script, 1_000_000
    how = argparse.Namespace(stage=options.stage, first_path=False, one_session=False, sessions=4, no_bad_texts=True)
    for n in range(0 if options.files else options.cases):
        defs, events, limit = fuzz.case((options.seed << 32) + n, how)
        yield defs, b''.join(events), limit


Counts = collections.Counter[typing.Union[str, int]]


def try_case(n: int, defs: bytes, script: bytes, limit: int, counts: Counts) -> bool:
    try:
        story = Story(defs, script, limit)
        story.definitions.refuse_false(story.definitions.loaded)
    except Refused:
        return True
    with placed(defs, script) as files:
        boxes, arrows = titles(printed(['picture'], limit, files))
        drawn_boxes, drawn_arrows = story.drawn()
        counts['boxes'] += len(boxes)
        counts['arrows'] += len(arrows)
        if not compare(f'case {n}, picture', drawn_boxes + drawn_arrows, boxes + arrows, defs, script):
            return False
        for i in range(0 if options.pictures_only else len(story.items)):
            want, got = story.explained(i), told(printed(['explain', i + 1], limit, files))
            counts['events'] += 1
            answer = story.events[i].answer
            if isinstance(answer, Refused):
                counts[answer.number] += 1
                if want[-1] == '..':
                    want, got = want[:-1], got[:len(want) - 1]
            if not compare(f'case {n}, event {i + 1}', want, got, defs, script):
                return False
    return True


def main() -> int:
    counts: Counts = collections.Counter({'events': 0, 'boxes': 0, 'arrows': 0})
    n = 0
    for n, case in enumerate(cases(), 1):
        if not try_case(n, *case, counts):
            print(f'{n - 1} passed, 1 failed')
            return 1
    print('met: ' + ', '.join(f'{k}: {v}' for k, v in counts.items()))
    print(f'{n} passed, 0 failed')
    return 0


if __name__ == '__main__':
    sys.exit(main())
