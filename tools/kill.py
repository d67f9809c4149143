#!/usr/bin/env python3
"""Kills the program at random moments while it keeps a journal, and looks at what is recovered.

    tools/kill.py PROGRAM [--rounds N] [--seed N]

Each round starts `shell` on the journal of the round before, hands it transactions, and kills it: before it has
recovered, or up to half a second behind its first answer. In some rounds commits share syncs, the shell makes
checkpoints while it runs, or its epochs are short. In some a `checkpoint` is made first, and that is killed too, and in
some the system lets no file grow past a few blocks more, so that the disk is as good as full. What is recovered then
has to be at least what was acknowledged and at most what was begun, and its rows are those of that commit.

As many rounds run `threads` on a journal of its own, with sessions that meet at a few accounts, and kill it, or let it
end. Each commit that is recovered then has to change one row as a transaction does, or none, from what it was after the
commit before, with the rule kept; and there are as many as were answered, or more where it was killed. Once it runs on
a disk that is soon full: each COMMIT from then on is refused, and can be rolled back.
"""
from __future__ import annotations

import collections
import os
import pathlib
import random
import re
import resource
import signal
import subprocess
import sys
import threading
import time
from collections.abc import Callable, Sequence

from harness.arguments import parser_of
from harness.journals import held, recovered
from harness.loads import inserts
from harness.programs import Word, pipe, run
from harness.texts import temporary_folder, write

ACCOUNTS = 8
STRIDE = 7
DEFS = f"""CREATE TABLE ACCOUNT (ID INTEGER PRIMARY KEY, OWNER INTEGER, BAL INTEGER);
CREATE ASSERTION COVERED CHECK (NOT EXISTS (SELECT OWNER FROM ACCOUNT GROUP BY OWNER HAVING SUM(BAL) < 0));
{"".join(inserts("ACCOUNT", ((key, key // 2, 0) for key in range(ACCOUNTS))))}"""
QUERY = "ID, OWNER, BAL FROM ACCOUNT"
MOST = 5000  # transactions of a round
PATIENCE = 60
CHANGES = 3, -2  # what a transaction of threads adds to an account
COLUMNS, TURNS = 16, 200  # what fills a journal's room of zeros: how many texts a row has, and how often it is changed
CHANGED = re.compile(r"commit (\d+): table 0: \((\d+), (\d+), (-?\d+)\) -> \((\d+), (\d+), (-?\d+)\)")
UNCHANGED = re.compile(r"commit (\d+): no changes")  # of a transaction whose statement the rule refused


def transaction(number: int) -> str:
    account = number * STRIDE % ACCOUNTS
    return f"A: BEGIN; A: UPDATE ACCOUNT SET BAL = BAL + {number} WHERE ID = {account}; A: COMMIT;\n"


def rows_after(number: int) -> list[list[str]]:
    balances = [0] * ACCOUNTS
    for each in range(1, number + 1):
        balances[each * STRIDE % ACCOUNTS] += each
    return [[str(key), str(key // 2), str(balances[key])] for key in range(ACCOUNTS)]


def with_full_disk(limit: int) -> Callable[[], None]:
    """No file grows past a limit: a write past it fails, as on a full disk."""
    def set_limit() -> None:
        signal.signal(signal.SIGXFSZ, signal.SIG_IGN)
        resource.setrlimit(resource.RLIMIT_FSIZE, (limit, limit))
    return set_limit


class Round:
    """One run of the shell behind a newest commit, and how far it came: what was begun, and what acknowledged."""

    def __init__(self, words: Sequence[Word], newest: int, drawn: random.Random, limit: int | None) -> None:
        self.begun = self.acknowledged = newest
        self.last, self.drawn, self.ended = newest + MOST, drawn, False
        self.process = subprocess.Popen(list(map(str, words)), stdin=subprocess.PIPE, stdout=subprocess.PIPE,
            stderr=subprocess.DEVNULL, preexec_fn=with_full_disk(limit) if limit else None)
        self.into, self.out = pipe(self.process.stdin), pipe(self.process.stdout)
        self.answered = threading.Event()
        self.threads = [threading.Thread(target=work) for work in (self.feed, self.listen)]
        for thread in self.threads:
            thread.start()

    def feed(self) -> None:
        """Hands transactions over, some at a time. One is begun as soon as the shell may have read it."""
        try:
            while not self.ended and self.begun < self.last:
                numbers = range(self.begun + 1, self.begun + 1 + self.drawn.choice([1, 20]))
                self.begun = numbers[-1]
                self.into.write("".join(map(transaction, numbers)).encode())
                self.into.flush()
        except OSError:
            pass

    def listen(self) -> None:
        for line in self.out:
            self.answered.set()
            if line.startswith(b"A: COMMIT ") and line.endswith(b"\n"):
                self.acknowledged += 1
        self.answered.set()

    def kill(self) -> None:
        self.process.kill()
        self.ended = True
        self.process.wait()
        for thread in self.threads:
            thread.join()
        try:
            self.into.close()
        except OSError:
            pass


def checkpoint(words: Sequence[Word], drawn: random.Random) -> str:
    """Makes a checkpoint, and kills every other of them."""
    process = subprocess.Popen(list(map(str, words)), stdout=subprocess.DEVNULL, stderr=subprocess.DEVNULL)
    try:
        status = process.wait(drawn.uniform(0, 0.05) if drawn.random() < 0.5 else PATIENCE)
    except subprocess.TimeoutExpired:
        process.kill()
        process.wait()
        return "checkpoint killed"
    return f"checkpoint ended with {status}"


def pace(drawn: random.Random) -> list[str]:
    """Options of the shell: how many commits share a sync, how far the journal grows, and how long an epoch is."""
    return (["--sync-every", drawn.choice(["1", "4", "1000"])] + ["--checkpoint-bytes", "3000"] * drawn.randrange(2)
        + ["--max-commits", "7"] * drawn.randrange(2))


def trial(program: str, defs: str, ledger: pathlib.Path, newest: int, drawn: random.Random,
          count: collections.Counter[str]) -> tuple[int, str | None]:
    """One round; gives what was recovered, and what is wrong with it."""
    if ledger.exists() and drawn.random() < 0.2:
        count[checkpoint([program, "checkpoint", defs, "--journal", ledger], drawn)] += 1
    size = ledger.stat().st_size if ledger.exists() else 0
    limit = size + drawn.randrange(1, 1 << 14) if size and drawn.random() < 0.1 else None
    turn = Round([program, "shell", defs, "--journal", ledger, *pace(drawn)], newest, drawn, limit)
    if drawn.random() < 0.9:
        turn.answered.wait(PATIENCE)
    time.sleep(drawn.uniform(0, 0.5))
    turn.kill()
    count["on a full disk" if limit else "killed in the run" if turn.acknowledged > newest else "killed early"] += 1
    if not ledger.exists():
        return newest, None if turn.acknowledged == newest == 0 else "the journal is gone"
    found = held(program, ledger)
    answer, shown = recovered(program, defs, ledger, QUERY)
    if found is None or found.newest is None:
        return newest, f"{found}, {answer}"
    count["recovered what was acknowledged" if found.newest == turn.acknowledged else "recovered more"] += 1
    if not turn.acknowledged <= found.newest <= turn.begun:
        return found.newest, f"acknowledged {turn.acknowledged}, recovered {found.newest}, begun {turn.begun}"
    return found.newest, None if shown == rows_after(found.newest) else f"wrong rows after {found.newest}: {answer}"


def keeps_waiting(program: str, defs: str, ledger: pathlib.Path) -> str | None:
    """Where commits share syncs: what a client that reads each answer before it goes on is not answered."""
    words = [program, "shell", defs, "--journal", str(ledger), "--sync-every", "1000"]
    with subprocess.Popen(words, stdin=subprocess.PIPE, stdout=subprocess.PIPE) as process:
        into, out = pipe(process.stdin), pipe(process.stdout)
        late = threading.Timer(PATIENCE, process.kill)
        late.start()
        for number in range(1, 4):
            # (the beginning of the next transaction is there, and its end only once this one is answered)
            begun = transaction(number).strip()
            into.write(f"{begun[4:] if number > 1 else begun}\nA: B".encode())
            into.flush()
            lines = [out.readline() for _ in range(3)]
            if lines[-1] != f"A: COMMIT {number}\n".encode():
                return f"commit {number} is answered {lines}"
        into.write(b"EGIN; A: ROLLBACK;")
        into.close()
        left = out.read()
        late.cancel()
    return None if left == b"A: BEGIN 3\nA: ROLLBACK\n" else f"at the end comes {left!r}"


def refuses(program: str, folder: pathlib.Path) -> str | None:
    """What threads do not do on a disk that is soon full: of which commits the journal holds each that was answered."""
    columns = ", ".join(f"T{at} VARCHAR(255)" for at in range(COLUMNS))
    defs = write(folder / "notes.sql", f"CREATE TABLE NOTES (ID INTEGER PRIMARY KEY, {columns});\n"
        + "".join(inserts("NOTES", ((key, *["'" + "x" * 255 + "'"] * COLUMNS) for key in range(2)))))
    turn = "S{0}: BEGIN; S{0}: UPDATE NOTES SET T0 = '{1}' WHERE ID = {0}; S{0}: COMMIT; S{0}: ROLLBACK;\n"
    script = write(folder / "notes", "".join(turn.format(at % 2, at) for at in range(TURNS)))
    words = [program, "threads", defs, script, "--journal", str(folder / "notes of threads")]
    run([program, "shell", defs, *words[-2:]])
    limit = with_full_disk(os.stat(words[-1]).st_size)
    done = subprocess.run(words, stdout=subprocess.PIPE, stderr=subprocess.STDOUT, check=False, preexec_fn=limit)
    ends = re.findall(rb"^S\d: (COMMIT|REFUSED|ROLLBACK)\b.*\n", done.stdout, re.M)
    kept, unkept = ends.count(b"COMMIT"), done.stdout.count(b": REFUSED 25 58030 IO ERROR\n")
    found = held(program, words[-1])
    is_told = kept and unkept and kept + unkept == TURNS == ends.count(b"ROLLBACK") + kept
    return None if is_told and not done.returncode and found and found.newest == kept else f"{found}, {done.stdout!r}"


class Shared:
    """A journal that threads write, with the balances after its newest commit."""

    def __init__(self, program: str, defs: str, folder: pathlib.Path, drawn: random.Random) -> None:
        self.program, self.defs, self.folder, self.drawn = program, defs, folder, drawn
        self.ledger, self.newest, self.balances = folder / "shared", 0, [0] * ACCOUNTS

    def script(self, sessions: int, each: int) -> str:
        """Transactions of sessions that meet at a few accounts."""
        events = "{0}: BEGIN; {0}: UPDATE ACCOUNT SET BAL = BAL + {1} WHERE ID = {2}; {0}: COMMIT;\n"
        return "".join(events.format(f"S{session}", self.drawn.choice(CHANGES), self.drawn.randrange(ACCOUNTS))
            for session in range(sessions) for _ in range(each)).replace("+ -", "- ")

    def trial(self, count: collections.Counter[str]) -> str | None:
        """One round; gives what is wrong with it."""
        sessions, each = self.drawn.choice([1, 4, 16]), self.drawn.choice([20, 100])
        script = write(self.folder / "script.sql", self.script(sessions, each))
        words = [self.program, "threads", self.defs, script, "--journal", str(self.ledger)]
        with subprocess.Popen(words, stdout=subprocess.PIPE, stderr=subprocess.DEVNULL) as process:
            try:
                output, _ = process.communicate(timeout=self.drawn.choice([self.drawn.uniform(0, 0.2), PATIENCE]))
            except subprocess.TimeoutExpired:
                process.kill()
                output, _ = process.communicate()
        told = len(re.findall(rb"^S\d+: COMMIT .*\n", output, re.M))
        count[f"threads {'killed' if process.returncode else 'ended'}"] += 1
        if not self.ledger.exists():
            return None if process.returncode and not told else "the journal is gone"
        before = self.newest
        said = self.follow()
        most = before + (sessions * each if process.returncode < 0 else told)
        if said or not before + told <= self.newest <= most:
            return said or f"threads: {told} acknowledged behind {before}, {self.newest} recovered, {most} at most"
        return self.compare()

    def follow(self) -> str | None:
        """Puts in the commits that came; says which is not one of these transactions behind the one before."""
        for line in run([self.program, "journal", self.ledger, "--commits"]).output.splitlines():
            found = CHANGED.fullmatch(line) or UNCHANGED.fullmatch(line)
            if not found or int(found.group(1)) > self.newest + 1:
                return f"threads: behind commit {self.newest}: {line}"
            if int(found.group(1)) == self.newest + 1:
                self.newest += 1
                if found.re is CHANGED and not self.put_in(*map(int, found.groups()[1:])):
                    return f"threads: with {self.balances}: {line}"
        return None

    def put_in(self, key: int, owner: int, old: int, new_key: int, new_owner: int, new: int) -> bool:
        """Puts in a changed row; says whether it is what a transaction does there, and the rule holds behind it."""
        is_due = (new_key, new_owner, old) == (key, owner, self.balances[key]) and new - old in CHANGES
        self.balances[key] = new
        return is_due and self.balances[key] + self.balances[key ^ 1] >= 0

    def compare(self) -> str | None:
        """The rows that a shell recovers."""
        answer, shown = recovered(self.program, self.defs, self.ledger, QUERY)
        wanted = [[str(key), str(key // 2), str(balance)] for key, balance in enumerate(self.balances)]
        return None if shown == wanted else f"threads: wrong rows after {self.newest}: {answer}"


def wrong_in(what: str, said: str | None) -> bool:
    """Prints what is wrong, if something is."""
    if said:
        print(f"{what}: {said}", flush=True)
    return bool(said)


def main() -> int:
    parser = parser_of(__doc__)
    parser.add_argument("program")
    parser.add_argument("--rounds", type=int, default=200)
    parser.add_argument("--seed", type=int, default=3)
    words = parser.parse_args()
    program, drawn, wrong, newest = os.path.abspath(words.program), random.Random(words.seed), 0, 0
    count: collections.Counter[str] = collections.Counter()
    with temporary_folder() as folder:
        defs, ledger = write(folder / "defs.sql", DEFS), folder / "ledger"
        wrong += wrong_in("shared syncs", keeps_waiting(program, defs, folder / "talk"))
        wrong += wrong_in("threads on a full disk", refuses(program, folder))
        for turn in range(words.rounds):
            newest, said = trial(program, defs, ledger, newest, drawn, count)
            wrong += wrong_in(f"round {turn}", said)
        shared = Shared(program, defs, folder, drawn)
        for turn in range(words.rounds):
            wrong += wrong_in(f"round {turn}", shared.trial(count))
    for what, times in sorted(count.items()):
        print(f"{what}: {times}")
    print(f"{words.rounds} rounds, {newest} commits, and {shared.newest} of threads, {wrong} wrong")
    return wrong != 0


if __name__ == "__main__":
    sys.exit(main())
