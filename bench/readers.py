#!/usr/bin/python3
"""How many commits are refused for readers, with a plain BEGIN and with BEGIN READ ONLY, beside PostgreSQL.

    apt-get install -y postgresql python3-psycopg2
    python3 bench/readers.py [--program PATH] [--transactions 2000] [--open 4,8,16] [--owners 50] [--seed 1]

Without --program the program is built first by `rt run` in crates/skewguard, which proves it. The table that
docs/PERFORMANCE.md holds is printed as it stands there.

The load is the ledger: no owner's accounts sum below zero, and each owner has two. Of four transactions one reads 20
accounts, each by its key, as a report does; the others look at an account, and add to one of another owner. So many
sessions are open at once, and take their turns at random, a statement a turn. The same turns are played four times:
through `skewguard replay`, the readers beginning with BEGIN and with BEGIN READ ONLY, and on PostgreSQL, SERIALIZABLE,
over the SQL that `skewguard postgresql` prints, the readers beginning READ WRITE and READ ONLY. A refused transaction
is not tried again. On PostgreSQL a session may wait for another one's row; its turns then wait with it.
"""

from __future__ import annotations

import random
import re
import time
from collections.abc import Sequence

import psycopg2
from replays import (
    Path, loads, numbers_of, parser_of, program_of, replay, replies, run_on, servers, take_program)

ACCOUNTS = 2  # of an owner
READ = 20  # accounts that a report reads
Turn = tuple[int, str]  # a session, and an event
REFUSED_FOR_OTHERS = ('40001', '40P01')
NAMES = re.compile(r'\b(ACCT|BAL|ID)\b')  # (the SQL that is printed quotes all names, in upper case)


def definitions(owners: int) -> str:
    """The accounts of so many owners, and their rule."""
    rows = ((owner * 10 + i, f"'O{owner}'", 1000) for owner in range(1, owners + 1) for i in range(ACCOUNTS))
    return ('CREATE TABLE ACCT (ID INTEGER PRIMARY KEY, OWNER VARCHAR(10), BAL INTEGER);\n'
            'CREATE ASSERTION FUNDS CHECK (NOT EXISTS (SELECT OWNER FROM ACCT GROUP BY OWNER HAVING SUM(BAL) < 0));\n'
            + ''.join(loads.inserts('ACCT', rows)))


def report(rng: random.Random, owners: int) -> list[str]:
    """What a reader reads."""
    keys = rng.sample([owner * 10 + i for owner in range(1, owners + 1) for i in range(ACCOUNTS)], READ)
    return [f'SELECT BAL FROM ACCT WHERE ID = {key}' for key in keys]


def transfer(rng: random.Random, owners: int) -> list[str]:
    """What the others do."""
    one, other = (owner * 10 + rng.randrange(ACCOUNTS) for owner in rng.sample(range(1, owners + 1), 2))
    return [f'SELECT BAL FROM ACCT WHERE ID = {one}',
            f'UPDATE ACCT SET BAL = BAL + {rng.randint(1, 3)} WHERE ID = {other}']


def turns(transactions: int, sessions: int, owners: int, seed: int) -> list[Turn]:
    """The turns as pairs of a session and an event. A report begins with 'BEGIN READER'."""
    rng = random.Random(f'{transactions} {sessions} {owners} {seed}')
    left = transactions
    script: list[Turn] = []
    running: list[list[str]] = [[] for _ in range(sessions)]
    while left or any(running):
        session = rng.randrange(sessions)
        if not running[session]:
            if not left:
                continue
            left -= 1
            is_report = left % 4 == 0
            running[session] = [
                'BEGIN READER' if is_report else 'BEGIN',
                *(report if is_report else transfer)(rng, owners),
                'COMMIT',
            ]
        script.append((session, running[session].pop(0)))
    return script


class Counts:
    """What COMMITs were answered, of reports and of transfers; a transaction that is refused before is counted once."""

    def __init__(self) -> None:
        self.ended, self.refused = {True: 0, False: 0}, {True: 0, False: 0}

    def note(self, is_report: bool, is_refused: bool) -> None:
        self.ended[is_report] += 1
        self.refused[is_report] += is_refused

    def share(self, *kinds: bool) -> float:
        """How many in a hundred were refused, of reports, transfers or both."""
        return 100 * sum(self.refused[kind] for kind in kinds) / sum(self.ended[kind] for kind in kinds)


def play_program(program: Path, defs: str, script: Sequence[Turn], begin: str) -> Counts:
    """The same turns through `replay`, where readers begin so."""
    events = ((f'S{session}', begin if event == 'BEGIN READER' else event) for session, event in script)
    ran = replay(program, defs, ''.join(loads.script(events)))
    assert ran.status == 0, ran
    counts = Counts()
    is_report: dict[int, bool] = {}
    for (session, event), (reply, *_) in zip(script, replies(ran.output)):
        if event.startswith('BEGIN'):
            is_report[session] = event == 'BEGIN READER'
        elif event == 'COMMIT':
            answer = reply.split(': ', 1)[1]
            assert answer.startswith('COMMIT ') or answer.startswith(('REFUSED 12 ', 'REFUSED 13 ')), reply
            counts.note(is_report[session], answer.startswith('REFUSED'))
    return counts


class Player(servers.Player):
    """Counts how its transactions end."""

    def __init__(self, server: servers.ServerOfCases, schema: str, begin: str, counts: Counts) -> None:
        super().__init__(server, schema)
        self.begin, self.counts, self.is_report, self.is_lost = begin, counts, False, False
        self.start()

    def play(self, event: str) -> None:
        if event.startswith('BEGIN'):
            self.is_report, self.is_lost = event == 'BEGIN READER', False
            mode = self.begin if self.is_report else 'READ WRITE'
            # (the snapshot of a transaction here is taken by its BEGIN, and there by its first statement)
            self.cursor.execute(f'BEGIN ISOLATION LEVEL SERIALIZABLE {mode}; SELECT 1')
            return
        if not self.is_lost:
            try:
                self.cursor.execute(NAMES.sub(r'"\1"', event))
            except psycopg2.Error as error:
                assert error.pgcode in REFUSED_FOR_OTHERS, error
                self.is_lost = True
                self.cursor.execute('ROLLBACK')
        if event == 'COMMIT':
            self.counts.note(self.is_report, self.is_lost)


def play_postgresql(program: Path, server: servers.ServerOfCases, defs: str, script: Sequence[Turn], begin: str,
                    sessions: int) -> Counts:
    """The same on PostgreSQL."""
    printed = run_on([program, 'postgresql'], defs)
    assert printed.status == 0, printed
    schema = f"readers_{begin.replace(' ', '_').lower()}_{sessions}"
    with server.connect() as connection, connection.cursor() as cursor:
        cursor.execute(f'CREATE SCHEMA {schema}; SET search_path = {schema}')
        cursor.execute(printed.output)
        cursor.execute('ANALYZE')
    counts = Counts()
    players = [Player(server, schema, begin, counts) for _ in range(sessions)]
    for session, event in script:
        players[session].give(event)
        until = time.monotonic() + 0.05
        while not players[session].idle and time.monotonic() < until:
            time.sleep(0.00005)
    for player in players:
        player.give(None)
        player.join()
    return counts


def main() -> None:
    parser = parser_of(__doc__, whole=True)
    take_program(parser)
    parser.add_argument('--transactions', type=int, default=2000)
    parser.add_argument('--open', default='4,8,16')
    parser.add_argument('--owners', type=int, default=50)
    parser.add_argument('--seed', type=int, default=1)
    given = parser.parse_args()
    program = program_of(given)
    defs = definitions(given.owners)
    server = servers.ServerOfCases()
    try:
        print('| open at once | readers begin | refused here | of the reports | refused by PostgreSQL 15 |'
              ' of the reports |\n|---:|---|---:|---:|---:|---:|')
        for sessions in numbers_of(given.open):
            script = turns(given.transactions, sessions, given.owners, given.seed)
            for here, there in (('BEGIN', 'READ WRITE'), ('BEGIN READ ONLY', 'READ ONLY')):
                ours = play_program(program, defs, script, here)
                theirs = play_postgresql(program, server, defs, script, there, sessions)
                shares = [f'{share:.1f} %' for counts in (ours, theirs)
                          for share in (counts.share(True, False), counts.share(True))]
                print(f'| {sessions} | {here} | {" | ".join(shares)} |', flush=True)
    finally:
        server.stop()


if __name__ == '__main__':
    main()
