"""Programs: where they are, and one run of one."""
from __future__ import annotations

import functools
import os
import pathlib
import resource
import subprocess
import sys
import typing
from collections.abc import Iterable, Mapping, Sequence

from .texts import Path, Text, in_characters, placed, shown

TOP = pathlib.Path(__file__).resolve().parents[2]
PROGRAM = TOP / "crates/skewguard/out/skewguard"  # where `rt run`, and the gate, build it
PATIENCE = 600  # seconds that a run may take

Word = typing.Union[str, int, float, "os.PathLike[str]"]
Environment = Mapping[str, str]
# Where a stream goes: to a file, to one of subprocess's places, or, for None, where this program's goes.
Stream = typing.Union[None, int, typing.IO[bytes]]


class Answer(typing.NamedTuple):
    """What a run ended with. A status below zero is a signal's; in the texts each byte is one character."""

    status: int
    output: str
    error: str


def run(words: Iterable[Word], given: Text = "", *, kib: int | None = None, more: Environment | None = None,
        environment: Environment | None = None, cwd: Path | None = None, stdout: Stream = subprocess.PIPE,
        stderr: Stream = subprocess.PIPE, pass_fds: Sequence[int] = (), timeout: float | None = PATIENCE) -> Answer:
    """One run of a command, with a text on its standard input.

    It may have so many KiB of address space. Its environment is this one's or another, with more in it.
    """
    limit = functools.partial(resource.setrlimit, resource.RLIMIT_AS, (kib << 10,) * 2) if kib else None
    known = {**(os.environ if environment is None else environment), **(more or {})}
    done = subprocess.run(list(map(str, words)), input=given.encode("latin-1") if isinstance(given, str) else given,
        env=known, cwd=cwd, stdout=stdout, stderr=stderr, pass_fds=pass_fds, timeout=timeout, check=False,
        preexec_fn=limit)
    return Answer(done.returncode, *((text or b"").decode("latin-1") for text in (done.stdout, done.stderr)))


def output_of(words: Iterable[Word], *, more: Environment | None = None, environment: Environment | None = None,
              cwd: Path | None = None, stdout: Stream = subprocess.PIPE, stderr: Stream = None,
              timeout: float | None = PATIENCE) -> str:
    """What a command prints, in characters. It has to end well: else what it says ends this program."""
    words = list(words)
    status, output, error = run(words, more=more, environment=environment, cwd=cwd, stdout=stdout, stderr=stderr,
        timeout=timeout)
    if status:
        sys.exit(f"{' '.join(map(str, words))} ended with {status}:\n{shown(output + error)}")
    return in_characters(output)


def printed(words: Iterable[Word], *, environment: Environment | None = None, cwd: Path | None = None) -> str:
    """The same of both streams, as they come."""
    return output_of(words, environment=environment, cwd=cwd, stderr=subprocess.STDOUT)


def carry_out(words: Iterable[Word], *, more: Environment | None = None, cwd: Path | None = None,
              quiet: bool = False) -> None:
    """Has a command do what it does, as long as that takes. What it prints is shown, or, where it is quiet, is not."""
    output_of(words, more=more, cwd=cwd, stdout=subprocess.DEVNULL if quiet else None, timeout=None)


def run_on(words: Iterable[Word], *texts: Text, given: Text = "", more: Environment | None = None,
           stderr: Stream = subprocess.PIPE) -> Answer:
    """A run with files behind the words, which have these texts."""
    with placed(*texts) as files:
        return run([*words, *files], given, more=more, stderr=stderr)


def words_of_replay(program: Path, definitions: Path, script: Path, *options: Word) -> list[Word]:
    """The command line of a replay of two files."""
    return [program, "replay", *options, definitions, script]


def replay(program: Path, definitions: Text, script: Text, *options: Word) -> Answer:
    """What `replay` answers to these texts."""
    with placed(definitions, script) as (one, other):
        return run(words_of_replay(program, one, other, *options))


def built() -> str:
    """The program, proved and built by `rt run`."""
    example = [f"../../examples/on-call/{text}.sql" for text in ("defs", "script")]
    carry_out(["rt", "run", "--", "replay", *example], cwd=TOP / "crates/skewguard", quiet=True)
    return str(PROGRAM)


def pipe(stream: typing.IO[typing.AnyStr] | None) -> typing.IO[typing.AnyStr]:
    """A stream of a process that was started with a pipe for it."""
    if stream is None:
        raise ValueError("this process has no pipe here")
    return stream


def from_terminal(terminal: int) -> bytes:
    """What comes next from a terminal; nothing where the program has gone."""
    try:
        return os.read(terminal, 65536)
    except OSError:
        return b""
