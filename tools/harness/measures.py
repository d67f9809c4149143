"""Runs with their processor time and peak memory, and figures as docs/PERFORMANCE.md has them."""
from __future__ import annotations

import collections
import math
import os
import re
import statistics
import subprocess
import sys
import typing
from collections.abc import Iterable, Sequence

from .programs import Environment, Word, output_of, run, words_of_replay
from .texts import Path

# A process counts the memory of the one that starts it towards its own peak, so a small Python starts the program. What
# that Python holds itself, some 9 MB, is the least peak that can be told.
LAUNCHER = """
import os, sys
output = (os.POSIX_SPAWN_OPEN, 1, sys.argv[1], os.O_WRONLY | os.O_CREAT | os.O_TRUNC, 0o644)
child = os.posix_spawn(sys.argv[2], sys.argv[2:], os.environ, file_actions=[output])
_, status, used = os.wait4(child, 0)
print(os.waitstatus_to_exitcode(status), used.ru_utime + used.ru_stime, used.ru_maxrss * 1024)
"""


class Used(typing.NamedTuple):
    """Processor seconds, and the peak memory in bytes."""

    seconds: float
    memory: int


class Figures(collections.defaultdict[object, list[float]]):
    """Figures by what they are of, one of each repetition."""

    def __init__(self) -> None:
        super().__init__(list)

    def middle(self, name: object) -> float | None:
        """The median; None where there is no figure."""
        return statistics.median(self[name]) if self.get(name) else None

    def median(self, name: object) -> float:
        """The median of figures that are there."""
        return statistics.median(self[name])


def launched(words: Iterable[Word], output: Path, end: int = 0) -> Used:
    """The processor seconds and the peak memory in bytes of a command, which has to end with this status.

    What a command says where it is to end otherwise than well is not shown.
    """
    command = list(map(str, words))
    launcher = [sys.executable, "-I", "-S", "-c", LAUNCHER, str(output)]
    told = output_of([*launcher, *command], stderr=subprocess.DEVNULL if end else None, timeout=None)
    status, seconds, memory = told.split()
    if status != str(end):
        sys.exit(f"{' '.join(command)} ended with {status}")
    return Used(float(seconds), int(memory))


def measured_replay(program: Path, definitions: Path, script: Path, output: Path = os.devnull,
                    commits: int | None = None) -> Used:
    """A replay of two files, with its report in a third."""
    allowed = ["--max-commits", str(commits)] if commits else []
    return launched(words_of_replay(os.path.abspath(program), definitions, script, *allowed), output)


def instructions(words: Iterable[Word], more: Environment | None = None) -> int:
    """The instructions of a command, which has to end well, as valgrind counts them."""
    counting = ["valgrind", "--tool=callgrind", "--callgrind-out-file=/dev/null", *words]
    status, _, told = run(counting, more=more, stdout=subprocess.DEVNULL, timeout=None)
    found = re.search(r"Collected : (\d+)", told)
    return int(found[1]) if found and not status else sys.exit(f"valgrind ended with {status}:\n{told}")


def least_memory() -> int:
    """The least peak that can be told: that of a program which does nothing."""
    return launched(["/bin/true"], os.devnull).memory


def exponent(points: Iterable[tuple[float, float | None]]) -> float | None:
    """By which power a time grows: the slope of log time by log number, by least squares; None without all times."""
    along, up = [], []
    for number, time in points:
        if time is None or time <= 0:
            return None
        along.append(math.log(number))
        up.append(math.log(time))
    if len(along) < 2:
        return None
    centre, middle = statistics.mean(along), statistics.mean(up)
    across = sum((x - centre) * (y - middle) for x, y in zip(along, up))
    return across / sum((x - centre) ** 2 for x in along)


def digits(number: float | None, count: int = 2) -> str:
    """A number in so many digits, as the repetitions differ in the second; a dash for none."""
    if number is None:
        return "-"
    rounded = float(f"{number:.{count}g}")
    return f"{rounded:,.0f}" if abs(rounded) >= 10 ** (count - 1) else f"{rounded:.{count}g}"


def power(number: float | None) -> str:
    """An exponent in two places."""
    return "-" if number is None else f"{number:.2f}"


def table(heads: Sequence[str], rows: Iterable[Sequence[str]]) -> None:
    """A table as docs/PERFORMANCE.md holds it."""
    print(f"\n| {' | '.join(heads)} |")
    print("|---" * len(heads) + "|")
    for row in rows:
        print(f"| {' | '.join(row)} |")


def load_at_end() -> None:
    """The last line before the tables."""
    print(f"load at the end {os.getloadavg()[0]:.1f}")


def machine(repetitions: object) -> str:
    """The first line of a run."""
    python = ".".join(map(str, sys.version_info[:3]))
    load = f"load at the start {os.getloadavg()[0]:.1f}"
    return f"Python {python}, {os.cpu_count()} processors, median of {repetitions}, {load}"


def spread(name: str, figures: Iterable[float], places: int) -> str:
    """All figures of one name, the least first."""
    return f"{name} {' '.join(f'{figure:.{places}f}' for figure in sorted(figures)) or '-'}"
