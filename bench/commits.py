#!/usr/bin/env python3
"""Committed transactions a second with several transactions open at once, and the cost of a commit by those before it.

    python3 bench/commits.py [--program PATH] [--keys 1000,100000] [--open 1,4,16,64]
                             [--history 1000,10000,100000] [--behind] [--repetitions 3]

Without --program the program is built first by `rt run` in crates/skewguard, which proves it. Nothing but Python 3.9
or later is needed besides. The tables that docs/PERFORMANCE.md holds are printed as they stand there. One process at
a time runs.

Open at once: K sessions take turns. At its turn a session commits the transaction that it began K turns before, begins
the next and runs its statements. So K transactions are open all the time, and K - 1 COMMITs of others come between a
BEGIN and its COMMIT. All statements are by key; the keys are drawn at random, each as likely as any other. There are
two loads:

- on-call: someone is on call in each shift, and four persons belong to each. A person is looked up and put on call,
  and another one of the shift is taken off.
- ledger: no owner's accounts sum below zero, and each has four. An account is looked up, and a sum goes from it to
  another one of anyone's.

A COMMIT may be refused, since two transactions changed one row (fault 12) or would complete a dangerous triple (13).
It is not tried again. --without-look leaves the looking up out. No statement is refused: a person is put on call before
another is taken off, and balances are large.

History: one session commits transactions of one UPDATE each, on 1,000 accounts under the ledger's rule. A history of
a million is run where --history asks for it: it takes some 4 GB. With --behind another session, which may write, began
before the first of them and stays open until the last.

What counts is the processor time of the replay less that of loading alone. Each report is looked at whole: each BEGIN
with the commits that it sees, each statement, each COMMIT with its number, and the closing part.
"""

from __future__ import annotations

import pathlib
import random
import statistics
import sys
import typing
from collections.abc import Iterable, Iterator, Sequence

from replays import (
    Path, digits, exponent, least_memory, load_at_end, loads, machine, measured_replay, numbers_of, parser_of, power,
    program_of, spread, table, take_program, temporary_folder, written)

TRANSACTIONS = 20_000  # of all sessions together
HISTORY_KEYS = 1_000

# More repetitions of the short histories, in which loading is a greater part, and one of the longest.
REPETITIONS_OF_HISTORY = {1_000: 15, 10_000: 7, 1_000_000: 1}


Answered = tuple[str, str]  # a statement, and its reply; a SELECT's goes on with the row


class Event(typing.NamedTuple):
    """An event of a session, and how its reply begins."""

    session: str
    text: str
    reply: str


class Load:
    """A load whose transactions may begin with a SELECT by key, the look."""

    name = ""

    def __init__(self, look: bool = True) -> None:
        self.look = look

    def definitions(self, keys: int) -> Iterator[str]:
        """Tables of so many keys, and their rule."""
        raise NotImplementedError

    def statements(self, drawn: random.Random, keys: int) -> Iterator[Answered]:
        """Statements of one transaction."""
        raise NotImplementedError


class OnCall(Load):
    """Someone is on call in each shift. The persons of a shift have the keys that begin with its number."""

    name = "on-call"

    def definitions(self, keys: int) -> Iterator[str]:
        return loads.on_call(keys)

    def statements(self, drawn: random.Random, keys: int) -> Iterator[Answered]:
        comes = drawn.randrange(keys)
        goes = comes - comes % loads.MEMBERS + (comes + drawn.randrange(1, loads.MEMBERS)) % loads.MEMBERS
        if self.look:
            yield f"SELECT ONCALL FROM DUTY WHERE ID = {comes}", "SELECT 1"
        yield f"UPDATE DUTY SET ONCALL = 1 WHERE ID = {comes}", "UPDATE 1"
        yield f"UPDATE DUTY SET ONCALL = 0 WHERE ID = {goes}", "UPDATE 1"


class Ledger(Load):
    """No owner's accounts sum below zero."""

    name = "ledger"

    def definitions(self, keys: int) -> Iterator[str]:
        return loads.ledger(keys)

    def statements(self, drawn: random.Random, keys: int) -> Iterator[Answered]:
        one, other = drawn.sample(range(keys), 2)
        amount = drawn.randint(1, 100)
        if self.look:
            yield f"SELECT BAL FROM ACCT WHERE ID = {one}", "SELECT 1"
        yield f"UPDATE ACCT SET BAL = BAL - {amount} WHERE ID = {one}", "UPDATE 1"
        yield f"UPDATE ACCT SET BAL = BAL + {amount} WHERE ID = {other}", "UPDATE 1"


def turns(load: Load, keys: int, sessions: int) -> Iterator[Event]:
    """The events of a script."""
    drawn = random.Random(f"{load.name} {keys} {sessions}")
    for turn in range(TRANSACTIONS + sessions):
        session = f"S{turn % sessions}"
        if turn >= sessions:
            yield Event(session, "COMMIT", "COMMIT")
        if turn < TRANSACTIONS:
            yield Event(session, "BEGIN", "BEGIN")
            for statement, reply in load.statements(drawn, keys):
                yield Event(session, statement, reply)


def history(commits: int, behind: bool, end: str = "COMMIT") -> Iterator[Event]:
    """The events of one session that commits so many times, or is rolled back; behind another that is open, or not."""
    if behind:
        yield Event("W", "BEGIN", "BEGIN")
    for number in range(commits):
        yield Event("A", "BEGIN", "BEGIN")
        yield Event("A", loads.add_one(number * 619 % HISTORY_KEYS), "UPDATE 1")
        yield Event("A", end, end)
    if behind:
        yield Event("W", "ROLLBACK", "ROLLBACK")


def looked_at(output: Path, events: Iterable[Event]) -> tuple[int, dict[str, int]]:
    """Commits, and refused COMMITs by their faults, after a look at each line of a report."""
    commits, refused = 0, {"12 40001": 0, "13 40001": 0}
    with open(output) as lines:
        for session, event, reply in events:
            line = next(lines, "").rstrip("\n")
            if event == "COMMIT":
                if line == f"{session}: COMMIT {commits + 1}":
                    commits += 1
                    continue
                fault = line[len(session) + len(": REFUSED "):][:8]
                if not line.startswith(f"{session}: REFUSED ") or fault not in refused:
                    sys.exit(f"a COMMIT was answered {line}")
                refused[fault] += 1
                continue
            want = f"{session}: BEGIN {commits}" if event == "BEGIN" else f"{session}: {reply}"
            if line != want:
                sys.exit(f"{event} was answered {line} and not {want}")
            if reply == "SELECT 1" and not next(lines, "").startswith("  "):
                sys.exit("a SELECT has not listed its row")
        check_closing(lines, commits, sum(refused.values()))
    return commits, refused


def check_closing(lines: Iterator[str], commits: int, refused: int) -> None:
    """The closing part: each commit, the serial order, each refused COMMIT, and that the rule is true."""
    expect(lines, f"COMMITS {commits}")
    for number in range(1, commits + 1):
        if next(lines, "").split()[:1] != [str(number)]:
            sys.exit(f"commit {number} is not listed")
    order = next(lines, "").split()
    if order[:1] != ["SERIAL"] or sorted(map(int, order[1:])) != list(range(1, commits + 1)):
        sys.exit("the serial order does not have each commit once")
    expect(lines, f"REFUSED {refused}")
    for _ in range(refused):
        next(lines)
    expect(lines, "ASSERTIONS 1")
    if not next(lines, "").endswith(" TRUE\n") or next(lines, None) is not None:
        sys.exit("the rule is not true in the end")


def expect(lines: Iterator[str], want: str) -> None:
    """The next line has to be this one."""
    line = next(lines, "").rstrip("\n")
    if line != want:
        sys.exit(f"the closing part has {line} and not {want}")


def at_once(program: Path, load: Load, keys: int, sizes: Sequence[int], repetitions: int,
            folder: pathlib.Path) -> list[list[str]]:
    """For each number of open transactions a row of the table."""
    definitions = written(folder / "defs", load.definitions(keys))
    empty, output = written(folder / "empty", []), folder / "output"
    rows = []
    for sessions in sizes:
        path = written(folder / "script", loads.script(turns(load, keys, sessions)))
        seconds, loading = [], []
        for _ in range(repetitions):
            loading.append(measured_replay(program, definitions, empty).seconds)
            seconds.append(measured_replay(program, definitions, path, output).seconds - loading[-1])
        commits, refused = looked_at(output, turns(load, keys, sessions))
        used = statistics.median(seconds)
        print(f"{load.name}, {keys} keys, {sessions} open, {commits} commits, refused {refused}, ", end="")
        print(f"{spread('s', seconds, 3)}, {spread('loading s', loading, 3)}", flush=True)
        shares = [f"{count / TRANSACTIONS:.2%}" for count in refused.values()]
        cells = [load.name, f"{keys:,}", str(sessions), digits(commits / used), digits(used / TRANSACTIONS * 1e6)]
        rows.append(cells + shares)
    return rows


class Past(typing.NamedTuple):
    """Of one length of history: seconds in each repetition less loading, and bytes a commit, of it those of the
    script."""

    commits: int
    all_seconds: list[float]
    memory: float
    script: float

    @property
    def seconds(self) -> float:
        return statistics.median(self.all_seconds)

    def __str__(self) -> str:
        return f"{self.commits} commits, {spread('us', (one / self.commits * 1e6 for one in self.all_seconds), 2)}"


def past(program: Path, commits: int, behind: bool, repetitions: int, folder: pathlib.Path) -> Past:
    definitions = written(folder / "defs", Ledger().definitions(HISTORY_KEYS))
    empty, output = written(folder / "empty", []), folder / "output"
    path = written(folder / "script", loads.script(history(commits, behind)))
    seconds = []
    for _ in range(REPETITIONS_OF_HISTORY.get(commits, repetitions)):
        alone = measured_replay(program, definitions, empty)
        whole = measured_replay(program, definitions, path, output, commits)
        seconds.append(whole.seconds - alone.seconds)
    if looked_at(output, history(commits, behind))[0] != commits:
        sys.exit("a transaction was not committed")
    written(path, loads.script(history(commits, behind, "ROLLBACK")))
    rolled_back = measured_replay(program, definitions, path, output)
    looked_at(output, history(commits, behind, "ROLLBACK"))
    bytes_of = ((used.memory - alone.memory) / commits for used in (whole, rolled_back))
    return Past(commits, seconds, *bytes_of)


def print_history(found: Sequence[Past]) -> None:
    """The table of histories."""
    rows = []
    before: Past | None = None
    for one in found:
        later = (one.seconds - before.seconds) / (one.commits - before.commits) if before else one.seconds / one.commits
        cells = [f"{one.commits:,}", digits(one.seconds / one.commits * 1e6), digits(later * 1e6)]
        rows.append(cells + [digits(one.memory, 3), digits(one.script, 3), digits(one.memory - one.script, 3)])
        before = one
    heads = ["commits in one history", "us a commit", "of those since the row above"]
    table(heads + ["bytes a commit", "of it the script", "of it the commit"], rows)
    growth = power(exponent([(one.commits, one.seconds / one.commits) for one in found]))
    least, most = found[0].commits, found[-1].commits
    print(f"\nThe time of a commit grows by the exponent {growth} from {least:,} commits to {most:,}.")


def main() -> None:
    words = parser_of("Committed transactions a second, and a commit by those before it.")
    take_program(words)
    words.add_argument("--keys", default="1000,100000", help="keys of the loads with several open transactions")
    words.add_argument("--open", default="1,4,16,64", help="how many are open at once, at most 256")
    words.add_argument("--history", default="1000,10000,100000", help="commits in one history")
    words.add_argument("--behind", action="store_true", help="another transaction is open during the whole history")
    words.add_argument("--repetitions", type=int, default=3)
    words.add_argument("--without-look", action="store_true", help="leaves out the SELECT of each transaction")
    chosen = words.parse_args()
    program = program_of(chosen)
    print(machine(chosen.repetitions))
    print(f"a peak below {least_memory() / 1e6:.1f} MB can't be told", flush=True)
    rows: list[list[str]] = []
    found: list[Past] = []
    with temporary_folder() as folder:
        for load in (OnCall(not chosen.without_look), Ledger(not chosen.without_look)):
            for keys in numbers_of(chosen.keys):
                rows += at_once(program, load, keys, numbers_of(chosen.open), chosen.repetitions, folder)
        for commits in numbers_of(chosen.history):
            found.append(past(program, commits, chosen.behind, chosen.repetitions, folder))
            print(found[-1], flush=True)
    load_at_end()
    heads = ["load", "keys", "open at once", "committed a second", "us a transaction"]
    if rows:
        table(heads + ["refused: same row (12)", "refused: dangerous triple (13)"], rows)
    if found:
        print_history(found)


if __name__ == "__main__":
    main()
