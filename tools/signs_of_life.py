#!/usr/bin/env python3
"""Tries the line that shows on a terminal that long work goes on.

    tools/signs_of_life.py PROGRAM

The definitions come through a named pipe that is empty until the line was seen, so that nothing here depends on how
fast the machine is. All subcommands wait at the same time. Wanted of each: on the terminal the line, brought up to
date, wiped before anything else is written, and nothing else but a fault; and on standard output what is printed
where standard error is no terminal. There no line is to be seen, though the program waits for as long.
"""
from __future__ import annotations

import os
import pathlib
import pty
import re
import subprocess
import sys
import tempfile
import threading
import time
import typing
from collections.abc import Iterator

from harness.arguments import parser_of
from harness.programs import Stream, from_terminal
from harness.texts import temporary_folder, write

DEFS = """CREATE TABLE T (ID INTEGER PRIMARY KEY, A INTEGER);
CREATE ASSERTION POSITIVE CHECK (NOT EXISTS (SELECT * FROM T WHERE A < 0));
INSERT INTO T VALUES (1, 5);
"""
SCRIPT = "ALICE: BEGIN;\nALICE: INSERT INTO T VALUES (2, -5);\nALICE: COMMIT;\n"
SUBCOMMANDS = ("replay", "threads", "check", "explain", "picture", "postgresql", "sqlite")
WITHOUT_SCRIPT = ("postgresql", "sqlite")
READING = re.compile(rb"(\rreading, [0-9]+ s\x1b\[K){2}")
WIPED = re.compile(rb"(\rreading, [0-9]+ s\x1b\[K){2,}(\r[a-z ]+( [0-9]+ MB)?, [0-9]+ s\x1b\[K)*\r\x1b\[K")
PATIENCE = 60


class Run:
    """The program with a named pipe for definitions. `on` tells which of its streams a terminal gets."""

    def __init__(self, program: str, folder: pathlib.Path, name: str, defs: str, on: tuple[str, ...]) -> None:
        self.name, self.defs, self.on = f"{name} with a terminal for {' and '.join(on) or 'nothing'}", defs, on
        self.path = folder / f"{name}-{len(defs)}-{len(on)}.sql"
        os.mkfifo(self.path)
        words: list[str | pathlib.Path] = [program, name, self.path]
        if name not in WITHOUT_SCRIPT:
            words.append(folder / "script.sql")
        self.printed = self.said = b""
        self.shown, self.files = b"", [tempfile.TemporaryFile(), tempfile.TemporaryFile()]
        self.terminal, end = pty.openpty()
        streams: list[Stream] = [end if name in on else file for name, file in zip(("output", "errors"), self.files)]
        self.process = subprocess.Popen(words, stdin=subprocess.DEVNULL, stdout=streams[0], stderr=streams[1])
        os.close(end)
        self.reader = threading.Thread(target=self.read_terminal)
        self.reader.start()

    def read_terminal(self) -> None:
        while more := from_terminal(self.terminal):
            self.shown += more

    def feed(self) -> None:
        """Waits for the line to come twice, or for as long as that takes, and then hands the definitions over."""
        with open(self.path, "wb") as pipe:
            end = time.monotonic() + (PATIENCE if "errors" in self.on else 2.5)
            while time.monotonic() < end and not READING.match(self.shown):
                time.sleep(0.05)
            pipe.write(self.defs.encode())

    def finish(self) -> None:
        self.feed()
        self.process.wait(PATIENCE)
        self.reader.join()
        os.close(self.terminal)
        self.printed, self.said = map(whole, self.files)
        # (a terminal turns each end of a line into two bytes)
        self.shown = self.shown.replace(b"\r\n", b"\n")

    def behind_the_line(self) -> bytes | None:
        """What the terminal got behind the line; None where the line is not as it is wanted."""
        found = WIPED.match(self.shown)
        return self.shown[found.end():] if found else None


def whole(file: typing.IO[bytes]) -> bytes:
    """What was written to a file."""
    with file:
        file.seek(0)
        return file.read()


def faults_of(plain: Run, errors: Run, both: Run, refused: Run) -> Iterator[tuple[Run, bytes]]:
    """What is not as it is wanted, of one subcommand."""
    if plain.said or plain.shown:
        yield plain, plain.said + plain.shown
    if errors.behind_the_line() != b"" or errors.printed != plain.printed:
        yield errors, errors.shown
    behind = both.behind_the_line()
    # (a terminal gets colours of `check`)
    if behind is None or re.sub(rb"\x1b\[[0-9;]*m", b"", behind) != plain.printed:
        yield both, both.shown
    behind = refused.behind_the_line()
    if behind is None or b"\x1b[K" in behind or not behind + refused.printed:
        yield refused, refused.shown
    for run in (plain, errors, both):
        if run.process.returncode != 0:
            yield run, b"the status is %d" % run.process.returncode


def main() -> int:
    parser = parser_of(__doc__)
    parser.add_argument("program")
    program = os.path.abspath(parser.parse_args().program)
    ways: list[tuple[str, tuple[str, ...]]] = [
        (DEFS, ()), (DEFS, ("errors",)), (DEFS, ("output", "errors")), ("CREATE TABEL", ("errors",))]
    with temporary_folder() as folder:
        write(folder / "script.sql", SCRIPT)
        runs = [[Run(program, folder, name, defs, on) for defs, on in ways] for name in SUBCOMMANDS]
        feeders = [threading.Thread(target=run.finish) for some in runs for run in some]
        for feeder in feeders:
            feeder.start()
        for feeder in feeders:
            feeder.join()
    bad = [fault for some in runs for fault in faults_of(*some)]
    for run, what in bad:
        print(f"{run.name}: {what!r}")
    print(f"{len(SUBCOMMANDS) * len(ways)} runs that wait, {len(bad)} not as they are wanted")
    return 1 if bad else 0


if __name__ == "__main__":
    sys.exit(main())
