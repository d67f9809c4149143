#!/usr/bin/env python3
"""Random loads through `replay` and `threads`, a part of the runs with little memory, each report judged.

    tools/soak.py --reference FOLDER [--program PROGRAM] [--minutes 30] [--seed 1]

FOLDER has the plain reference that lies beside the repository: `make_load.py` makes the loads, `oracle.py` answers a
replay, and `check_threads.py` decides whether a report of threads is that of some order of the sessions' events.

A replay with memory has to print what the reference prints. One with little memory may refuse a text, stop with a
beginning of the report, or answer events that there is no memory: the rest is then the report of the script without
those events. A run of threads with little memory may also leave a session without a thread.
"""
from __future__ import annotations

import collections
import os
import pathlib
import random
import re
import sys
import time
import typing
from collections.abc import Callable

from harness.arguments import parser_of
from harness.programs import PROGRAM, Answer, Word, run
from harness.refusing import found_none
from harness.reports import places_without_memory, with_refused
from harness.texts import Path, read, temporary_folder, write


class Try(typing.NamedTuple):
    """A run of a load with so many KiB of memory, or with all there is, and what judges it."""

    name: str
    kib: int | None
    judge: Callable[[int | None], bool]


class Soak:
    """The program beside its reference, on the files of one load after the other."""

    def __init__(self, program: str, reference: pathlib.Path, folder: pathlib.Path) -> None:
        self.program, self.reference = program, reference
        self.count: collections.Counter[str] = collections.Counter()
        self.defs, self.script, self.other = (folder / name for name in ("defs", "script", "other"))
        self.least = {command: self.least_memory(command) for command in ("replay", "threads")}

    def least_memory(self, command: str) -> int:
        """The least KiB with which an empty script is run."""
        for path in (self.defs, self.script):
            write(path, "")
        low, high = 0, 1 << 22
        while high - low > 64:
            middle = (low + high) // 2
            if self.run(command, middle).status == 0:
                high = middle
            else:
                low = middle
        return high

    def run(self, command: str, kib: int | None) -> Answer:
        return run([self.program, command, self.defs, self.script], kib=kib)

    def ask(self, program: str, *words: Word) -> Answer:
        """What a program of the reference says."""
        return run([sys.executable, self.reference / program, *words])

    def answered(self, script: Path) -> Answer:
        """What the reference says of a script."""
        return self.ask("oracle.py", "replay", "--stage", "base", self.defs, script)

    def tally(self, report: str, what: str) -> None:
        for found in re.findall(r"^[A-Za-z0-9_]+: (COMMIT|ROLLBACK|REFUSED \d+)", report, re.M):
            self.count[f"{what}: {found}"] += 1

    def replay(self, whole: Answer, kib: int | None) -> bool:
        answer = self.run("replay", kib)
        if answer == whole:
            return True
        if not kib:
            return False
        if found_none(answer):
            self.count["replay: a text or the command line found no memory"] += 1
            return True
        return answer.status == 0 and self.is_without_events(answer.output)

    def is_without_events(self, report: str) -> bool:
        """Whether a report is that of the script without the events that found no memory."""
        events = read(self.script).splitlines()
        refused = places_without_memory(report, events)
        self.count["replay: events without memory"] += len(refused)
        left = [event for at, event in enumerate(events) if at not in refused]
        write(self.other, "\n".join(left) + "\n")
        return report == with_refused(self.answered(self.other).output, events, refused)

    def threads(self, kib: int | None) -> bool:
        status, out, err = self.run("threads", kib)
        if kib and (status == 1 and "NO MEMORY" in err or status == 2 and "memory" in err):
            self.count["threads: a text, the run or the command line found no memory"] += 1
            return True
        if kib and status == 1 and err == "":
            self.count["threads: a session without a thread or a place"] += 1
        elif status != 0:
            return False
        write(self.other, out)
        self.tally(out, "threads")
        words = "--stage", "base", "--sample", 10, self.defs, self.script, self.other
        allowed = ["--allow-no-memory", "--allow-no-thread"] if kib else []
        return self.ask("check_threads.py", *words, *allowed).status == 0

    def load(self, drawn: random.Random) -> int:
        """One load, run nine times; gives how many differ."""
        words: list[Word] = ["--kind", drawn.choice(["oncall", "ledger", "booking", "mixed"]), "--sessions",
            drawn.choice([1, 2, 4, 8, 16]), "--transactions", drawn.choice([5, 10, 20]), "--keys",
            drawn.choice([3, 10, 40]), "--contention", drawn.choice([0.1, 0.5, 0.9]), "--read-only", 0, "--seed",
            drawn.randrange(1 << 30)]
        self.ask("make_load.py", *words, self.defs, self.script)
        whole = self.answered(self.script)
        self.tally(whole.output, "replay")

        def replay(kib: int | None) -> bool:
            return self.replay(whole, kib)

        tries = [Try("replay", None, replay)]
        tries += [Try("replay", self.least["replay"] + drawn.randrange(6000), replay) for _ in range(3)]
        tries += [Try("threads", None, self.threads)] * 3
        more = [2000, 20000, 100000, 200000]
        tries += [Try("threads", self.least["threads"] + int(drawn.choice(more) * drawn.random()), self.threads)
            for _ in range(2)]
        differ = [it for it in tries if not it.judge(it.kib)]
        for it in differ:
            print("DIFFERS", it.name, "with", it.kib, "KiB:", *words, flush=True)
        self.count["loads"] += 1
        self.count["runs"] += len(tries)
        return len(differ)


def main() -> int:
    parser = parser_of(__doc__)
    parser.add_argument("--reference", type=pathlib.Path, required=True, help="the folder of the plain reference")
    parser.add_argument("--program", default=str(PROGRAM))
    parser.add_argument("--minutes", type=float, default=30)
    parser.add_argument("--seed", type=int, default=1)
    words = parser.parse_args()
    drawn, until, differ = random.Random(words.seed), time.time() + 60 * words.minutes, 0
    with temporary_folder() as folder:
        soak = Soak(os.path.abspath(words.program), words.reference, folder)
        while time.time() < until:
            differ += soak.load(drawn)
    for what in sorted(soak.count):
        print(f"{what}: {soak.count[what]}")
    print(f"{differ} differ")
    return differ != 0


if __name__ == "__main__":
    sys.exit(main())
