#!/usr/bin/env python3
"""Cuts, changes and tears a journal at each byte, and looks at what the program makes of it.

    tools/crash.py PROGRAM [--commits N] [--torn N] [--jobs N] [--seed N]

A journal of N commits, each with a sync of its own, is made by the program. Then copies of it are given to it:

    cut     the file ends at a byte: what a crash leaves of a file that had not grown yet
    flip    a byte is another, and none of them a zero
    zero    a byte is a zero
    torn    the last commits were one batch, and each byte, or each block of bytes, was written or is still a zero

Of each copy, `journal` and `shell` have to say the same: the commits of its whole lines, with their rows, or that it is
damaged, with the commit that is missing and the byte where its line begins. A header that is changed is refused. What
the disk lost has to be noticed; what can't be told from a torn batch is counted, and may stand in the last line alone.
"""
from __future__ import annotations

import collections
import concurrent.futures
import os
import pathlib
import random
import sys
import typing
from collections.abc import Callable, Iterator, Sequence

from harness.arguments import parser_of
from harness.journals import Held, Line, header_end, held, lines_of, recovered, refused, with_durable
from harness.loads import inserts
from harness.programs import run
from harness.texts import temporary_folder, write

ACCOUNTS = 6
DEFS = f"""CREATE TABLE ACCOUNT (ID INTEGER PRIMARY KEY, OWNER VARCHAR(10), BAL INTEGER);
CREATE ASSERTION COVERED CHECK (NOT EXISTS (SELECT OWNER FROM ACCOUNT GROUP BY OWNER HAVING SUM(BAL) < 0));
{"".join(inserts("ACCOUNT", ((key, f"'O''{key % 4}'", 100) for key in range(ACCOUNTS))))}"""
QUERY = "ID, OWNER, BAL FROM ACCOUNT"
BLOCKS = (1, 1, 16, 64)
KEPT = (0.5, 0.9, 0.99, 0.999)

State = dict[int, tuple[str, int]]


class Copy(typing.NamedTuple):
    """A changed journal, and what may be said of it: that a commit is the newest, or that one is missing."""

    kind: str
    place: int
    file: bytes
    allowed: list[Held]
    # Whether it is refused before its body is read.
    headless: bool = False


class Made(typing.NamedTuple):
    """A journal, its lines, and the rows after each of its commits."""

    file: bytes
    lines: list[Line]
    states: list[State]


def changed(state: State, number: int, drawn: random.Random) -> tuple[str, State]:
    """The statements of a transaction that is accepted, and the rows after it."""
    after = dict(state)
    added = [key for key in state if key >= 1000]
    kind = drawn.randrange(3)
    if kind == 1 and added:
        key = drawn.choice(added)
        del after[key]
        return f"A: DELETE FROM ACCOUNT WHERE ID = {key};", after
    if kind == 2:
        keys = drawn.sample(range(ACCOUNTS), 2)
        for key in keys:
            after[key] = (state[key][0], state[key][1] + 1)
        return "".join(f"A: UPDATE ACCOUNT SET BAL = BAL + 1 WHERE ID = {key};" for key in keys), after
    row = after[1000 + number] = (drawn.choice(["NULL", "'NEW ~'"]), drawn.randrange(10 ** 15))
    return f"A: INSERT INTO ACCOUNT VALUES ({1000 + number}, {row[0]}, {row[1]});", after


def make(program: str, defs: str, path: pathlib.Path, commits: int, drawn: random.Random) -> Made:
    """A journal of commits, each of which the program was started for."""
    states: list[State] = [{key: (f"'O''{key % 4}'", 100) for key in range(ACCOUNTS)}]
    for number in range(1, commits + 1):
        text, after = changed(states[-1], number, drawn)
        answer = run([program, "shell", defs, "--journal", path], f"A: BEGIN; {text} A: COMMIT;\n")
        if answer.status or "A: COMMIT " not in answer.output:
            sys.exit(f"commit {number} was not accepted: {answer}")
        states.append(after)
    file = path.read_bytes()
    lines = lines_of(file)
    if [line.number for line in lines] != list(range(commits + 1)):
        sys.exit(f"the journal has other lines than those of {commits} commits: {lines}")
    return Made(file[:lines[-1].end + 512], lines, states)


def line_at(lines: Sequence[Line], place: int) -> Line:
    return next(line for line in lines if place < line.end)


def missing(line: Line) -> Held:
    return Held(None, line.number, line.start)


def newest(number: int) -> Held:
    return Held(number, None, None)


def cuts(made: Made) -> Iterator[Copy]:
    """The file up to each byte. A file without its image is no whole one, and no crash leaves it."""
    body, image = header_end(made.file), made.lines[0]
    for place in range(made.lines[-1].end + 1):
        whole = [line for line in made.lines if line.end <= place]
        allowed = [newest(whole[-1].number)] if whole else [missing(image)]
        yield Copy("cut", place, made.file[:place], allowed, place < body)


def replaced(made: Made, kind: str, byte: Callable[[int], int]) -> Iterator[Copy]:
    """The file with each byte replaced. Only what stands in the last line may look torn."""
    body, last = header_end(made.file), made.lines[-1]
    for place in range(last.end):
        file = made.file[:place] + bytes([byte(made.file[place])]) + made.file[place + 1:]
        line = line_at(made.lines, place)
        allowed = [missing(line)]
        if line is last:
            allowed.append(newest(last.number - 1))
        yield Copy(kind, place, file, allowed, place < body)


def torn(made: Made, count: int, drawn: random.Random) -> Iterator[Copy]:
    """The last few commits as one batch, of which some bytes were not written."""
    for place in range(count):
        size = drawn.randrange(1, min(6, len(made.lines)))
        before, batch = made.lines[-size - 1], made.lines[-size:]
        text = b"".join(with_durable(made.file[line.start:line.end], before.number) for line in batch)
        block, kept = drawn.choice(BLOCKS), drawn.choice(KEPT)
        pieces = [text[at:at + block] for at in range(0, len(text), block)]
        mixed = b"".join(piece if drawn.random() < kept else bytes(len(piece)) for piece in pieces)
        file = made.file[:before.end] + mixed + bytes(512)
        yield Copy("torn", place, file, [newest(lines_of(file)[-1].number)])


def rows(state: State) -> list[list[str]]:
    return [[str(key), owner, str(balance)] for key, (owner, balance) in sorted(state.items())]


def judge(program: str, defs: str, folder: pathlib.Path, made: Made, copy: Copy) -> str:
    """What the program makes of a copy, in a word; of what it should not, all."""
    path = write(folder / f"{copy.kind}-{copy.place}", copy.file)
    found = held(program, path)
    answer, shown = recovered(program, defs, path, QUERY)
    os.unlink(path)
    if copy.headless:
        taken = not answer.status or shown or found and found.newest is not None
        return f"TAKEN: {answer}" if taken else "refused by its header"
    if found is None or found not in copy.allowed:
        return f"WRONG: {found}, and not {copy.allowed}"
    if found.newest is None:
        return "damaged, the right commit and byte named" if refused(answer) == found else f"TWO ANSWERS: {answer}"
    if shown != rows(made.states[found.newest]):
        return f"WRONG ROWS after {found.newest}: {answer}"
    if copy.kind in ("flip", "zero"):
        return "taken as torn, in the last line"
    return "recovered, the whole lines"


def main() -> int:
    parser = parser_of(__doc__)
    parser.add_argument("program")
    parser.add_argument("--commits", type=int, default=12)
    parser.add_argument("--torn", type=int, default=150)
    parser.add_argument("--jobs", type=int, default=2)
    parser.add_argument("--seed", type=int, default=7)
    words = parser.parse_args()
    program, drawn = os.path.abspath(words.program), random.Random(words.seed)
    count: collections.Counter[tuple[str, str]] = collections.Counter()
    with temporary_folder() as folder, concurrent.futures.ThreadPoolExecutor(words.jobs) as pool:
        defs = write(folder / "defs.sql", DEFS)
        made = make(program, defs, folder / "ledger", words.commits, drawn)
        other = {byte: drawn.choice([it for it in range(1, 256) if it != byte]) for byte in range(256)}
        copies = [*cuts(made), *replaced(made, "flip", other.__getitem__), *replaced(made, "zero", lambda _: 0),
            *torn(made, words.torn, drawn)]
        for copy, said in zip(copies, pool.map(lambda it: judge(program, defs, folder, made, it), copies)):
            count[copy.kind, said if said[0].islower() else "WRONG"] += 1
            if not said[0].islower():
                print(f"{copy.kind} at {copy.place}: {said}", flush=True)
    for (kind, said), times in sorted(count.items()):
        print(f"{kind}: {times} {said}")
    wrong = sum(times for (_, said), times in count.items() if said == "WRONG")
    print(f"{len(copies)} files, {wrong} wrong")
    return wrong != 0


if __name__ == "__main__":
    sys.exit(main())
