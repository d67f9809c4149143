#!/usr/bin/env python3
"""Runs the program on folders of texts, and compares what it prints byte for byte.

    tools/folders.py PROGRAM [NAME..]     all of them, or those of these names

The folders are those of tests/, of examples/ and of docs/pictures/. A folder holds

    defs.sql, script.sql    the texts
    expected.txt            what standard output has (of a picture: docs/pictures/NAME.svg)
    args                    the command line, a word a line; without it `replay defs.sql script.sql`
    error.txt               what standard error has; without it nothing
    status                  the status; without it 0
    stdin.txt, typed.txt    what standard input has; typed.txt where input and output are a terminal
    each.txt                lines, each of which stands once where a text has `@`: what comes of them stands together

A line `...` of expected.txt stands for any bytes, its own two ends of lines among them.

A script that is replayed is also run by `shell`, event by event, and has to print the same; and where one session has
all events, so that they come in one order, by `threads`. So are the worked rows of bindings/python/tests/rows.txt.
"""
from __future__ import annotations

import difflib
import os
import pathlib
import pty
import re
import subprocess
import sys
import termios
import typing
from collections.abc import Iterable, Iterator, Sequence

from harness.arguments import parser_of
from harness.loads import script
from harness.programs import TOP, Answer, from_terminal, pipe, run
from harness.reports import answers, replies
from harness.texts import NAMES, placed, read

if typing.TYPE_CHECKING:
    from rows import Row

PICTURES = TOP / "docs" / "pictures"
ROWS = TOP / "bindings" / "python" / "tests"
GAP = re.compile(r"(?:\A|\n)\.\.\.\n")
# The bits of a terminal by which it shows what is typed and turns each end of a line into two bytes.
INPUT_MODES, OUTPUT_MODES = 3, 1


class Folder(typing.NamedTuple):
    """A folder of texts, the words of its command line, and what standard output has to have."""

    name: str
    path: pathlib.Path
    words: list[str]
    output: str


class Run(typing.NamedTuple):
    """The subcommand of a run, what has to come of it, and what does."""

    way: str
    wanted: Answer
    got: Answer


def talk(program: str, words: Sequence[str], folder: pathlib.Path, typed: str) -> Answer:
    """The same on a terminal, which shows nothing of what is typed."""
    terminal, end = pty.openpty()
    modes = termios.tcgetattr(end)
    modes[INPUT_MODES] &= ~termios.ECHO
    modes[OUTPUT_MODES] &= ~termios.OPOST
    termios.tcsetattr(end, termios.TCSANOW, modes)
    with subprocess.Popen([program, *words], cwd=folder, stdin=end, stdout=end, stderr=subprocess.PIPE) as process:
        os.close(end)
        os.write(terminal, typed.encode("latin-1"))
        shown = b"".join(iter(lambda: from_terminal(terminal), b""))
        error = pipe(process.stderr).read()
    os.close(terminal)
    return Answer(process.returncode, shown.decode("latin-1"), error.decode("latin-1"))


def run_each(program: str, words: Sequence[str], folder: pathlib.Path, lines: Iterable[str]) -> Answer:
    """What comes of the words where each of the lines stands in the texts, one behind the other."""
    texts = [read(folder / name) for name in NAMES]
    found = []
    for line in lines:
        with placed(*(text.replace("@", line) for text in texts)) as files:
            found.append(run([program, *words], cwd=pathlib.Path(files[0]).parent))
    statuses = {answer.status for answer in found}
    status = statuses.pop() if len(statuses) == 1 else -1
    return Answer(status, "".join(it.output for it in found), "".join(it.error for it in found))


def answer_of(program: str, folder: Folder) -> Answer:
    path, words = folder.path, folder.words
    if (path / "each.txt").is_file():
        return run_each(program, words, path, read(path / "each.txt").splitlines())
    if (path / "typed.txt").is_file():
        return talk(program, words, path, read(path / "typed.txt"))
    return run([program, *words], read(path / "stdin.txt"), cwd=path)


def is_as_wanted(got: str, wanted: str) -> bool:
    """Whether the bytes are those, with any others in each gap."""
    pieces = GAP.split(wanted)
    pattern = ".*".join(map(re.escape, pieces))
    return re.fullmatch(pattern, got, re.DOTALL) is not None


def other_ways(program: str, words: Sequence[str], place: pathlib.Path, report: str) -> Iterator[Run]:
    """Each other way to run a script that is replayed whole, where its report is a whole one."""
    told = answers(report)
    if told is None:
        return
    options, (defs, events) = words[1:-2], words[-2:]
    given, shell = read(place / events), [program, "shell", *options, defs]
    yield Run("shell", Answer(0, told, ""), run(shell, given, cwd=place))
    yield Run("shell --report", Answer(0, report, ""), run([*shell, "--report"], given, cwd=place))
    if len({reply[0].split(":")[0] for reply in replies(told)}) <= 1:
        yield Run("threads", Answer(0, report, ""), run([program, "threads", *words[1:]], cwd=place))


def runs_of_folder(program: str, folder: Folder) -> Iterator[Run]:
    """Each run of a folder."""
    wanted = Answer(int(read(folder.path / "status", "0")), folder.output, read(folder.path / "error.txt"))
    yield Run(folder.words[0], wanted, answer_of(program, folder))
    is_one_run = not (folder.path / "each.txt").is_file()
    if folder.words[0] == "replay" and is_one_run:
        yield from other_ways(program, folder.words, folder.path, folder.output)


def folders() -> Iterator[Folder]:
    for top in (TOP / "tests", TOP / "examples"):
        for path in sorted(it for it in top.iterdir() if it.is_dir()):
            words = read(path / "args").splitlines() or ["replay", *NAMES]
            yield Folder(f"{top.name}/{path.name}", path, words, read(path / "expected.txt"))
    for path in sorted(it for it in PICTURES.iterdir() if it.is_dir()):
        output = read(PICTURES / f"{path.name}.svg")
        yield Folder(f"pictures/{path.name}", path, ["picture", *NAMES], output)


def runs_of_row(program: str, row: Row) -> Iterator[Run]:
    """Each run of a worked row, of which the closing part may be left open."""
    wanted = "".join(f"{line}\n" for line in [*row.lines, *(row.closing or ["..."])])
    words = ["replay", "--max-commits", str(row.max_commits), *NAMES]
    with placed(row.definitions, "".join(script((it.session, it.text) for it in row.events))) as files:
        place = pathlib.Path(files[0]).parent
        replayed = run([program, *words], cwd=place)
        yield Run("replay", Answer(0, wanted, ""), replayed)
        if is_as_wanted(replayed.output, wanted):
            yield from other_ways(program, words, place, replayed.output)


def all_runs(program: str, names: Sequence[str]) -> Iterator[tuple[str, Run]]:
    """Each run with the name of its folder or row."""
    for folder in folders():
        if not names or folder.path.name in names:
            yield from ((folder.name, it) for it in runs_of_folder(program, folder))
    sys.path.insert(0, str(ROWS))
    from rows import read_rows
    for name, row in read_rows().items():
        if not row.refused and (not names or name in names):
            yield from ((f"row {name}", it) for it in runs_of_row(program, row))


def show(name: str, run_of_it: Run) -> None:
    way, wanted, got = run_of_it
    print(f"DIFFERS  {name}, {way}: status {got.status}, and {wanted.status} is wanted")
    for stream, want, have in (("output", wanted.output, got.output), ("error", wanted.error, got.error)):
        names = f"wanted {stream}", stream
        print("\n".join(difflib.unified_diff(want.splitlines(), have.splitlines(), *names, lineterm="")))


def main() -> int:
    parser = parser_of(__doc__)
    parser.add_argument("program")
    parser.add_argument("names", nargs="*", metavar="name")
    given = parser.parse_args()
    count = bad = 0
    found: set[str] = set()
    for name, it in all_runs(os.path.abspath(given.program), given.names):
        count += 1
        found.add(name)
        is_alike = it.wanted._replace(output="") == it.got._replace(output="")
        if not is_alike or not is_as_wanted(it.got.output, it.wanted.output):
            bad += 1
            show(name, it)
    print(f"{count} runs of {len(found)} folders and rows, {bad} differ")
    return bad != 0 or not found


if __name__ == "__main__":
    sys.exit(main())
