#!/usr/bin/env python3
"""Runs the gate and says how many processor minutes each crate took: its proof, its tests' proof, its edits.

    tools/gate_minutes.py [--log FILE] [--add FILE] [NAME ..]

runs `rt ci` here and then `tools/edits.py --behind-gate`, or `rt ci NAME ..` alone, and prints the table of
docs/GATE.md. Where the gate keeps what it passed, a later run doesn't do it again, and the minutes of several runs
belong together: with `--add FILE` those of this run are added to what FILE (JSON) has of earlier ones, and the table is
of all of them.

The gate itself reports no times. Its work is done by processes of the prover, one a check, so this reads from /proc
what each of its own has used so far, every half second, and adds up by the crate that its command line names. What a
process uses between the last look and its end is missed, less than half a second a check. Minutes are processor
minutes, not those of a clock; the runs of tests and programs and the gate's own script are in the last line alone.
"""
from __future__ import annotations

import collections
import json
import os
import resource
import subprocess
import sys
import time
import typing
from collections.abc import Callable, Sequence

from harness.arguments import parser_of
from harness.crates import edges
from harness.programs import TOP
from harness.texts import Path

TICKS = os.sysconf("SC_CLK_TCK")
KINDS = ("proof", "tests", "edits")

Label = tuple[str, str]  # a crate, and one of these
Seconds = collections.defaultdict[Label, float]
Chain = tuple[float, list[str]]  # the seconds of crates, and their names


def fields_of(pid: str) -> list[str] | None:
    """The fields of a process behind its name: its parent is the second, its times the twelfth and thirteenth."""
    try:
        with open(f"/proc/{pid}/stat") as it:
            return it.read().rsplit(")", 1)[1].split()
    except (OSError, IndexError):
        return None


def label(pid: str) -> Label | None:
    """The crate and the kind of work of a prover's process, or None for another process."""
    try:
        with open(f"/proc/{pid}/cmdline", "rb") as it:
            words = it.read().decode(errors="replace").split("\0")
    except OSError:
        return None
    if not words[0].endswith("/rattle") or "--crate-name" not in words:
        return None
    crate = words[words.index("--crate-name") + 1]
    if "--only" in words:
        return crate, "edits"
    return crate, "tests" if "--test" in words else "proof"


def is_below(pid: str, top: str, parents: dict[str, str]) -> bool:
    """Whether a process is the top one or was started below it."""
    while pid in parents and pid != top:
        pid = parents[pid]
    return pid == top


def watch(is_running: Callable[[], bool], top: str) -> Seconds:
    """Processor seconds by crate and kind of what a process starts, looked at until the command has ended."""
    # (by the number of a process and its start)
    seconds: dict[tuple[str, str], float] = {}
    labels: dict[tuple[str, str], Label | None] = {}
    while is_running():
        all_fields = {pid: fields_of(pid) for pid in os.listdir("/proc") if pid.isdigit()}
        found = {pid: fields for pid, fields in all_fields.items() if fields}
        parents = {pid: fields[1] for pid, fields in found.items()}
        for pid, fields in found.items():
            # (a process keeps its number and its label; a number that is used again is of another start)
            key = pid, fields[19]
            if not labels.get(key) and is_below(pid, top, parents):
                # (asked again while there is none: a process that was just made has its parent's command line)
                labels[key] = label(pid)
            if labels.get(key):
                seconds[key] = max(seconds.get(key, 0.0), (int(fields[11]) + int(fields[12])) / TICKS)
        time.sleep(0.5)
    table: Seconds = collections.defaultdict(float)
    for key, spent in seconds.items():
        if crate_and_kind := labels[key]:
            table[crate_and_kind] += spent
    return table


def show(table: Seconds) -> None:
    crates = sorted({crate for crate, _ in table}, key=lambda it: -sum(table[it, kind] for kind in KINDS))
    print("| crate | proof | tests | edits | together |\n|---|---|---|---|---|")
    for crate in crates:
        minutes = [table[crate, kind] / 60 for kind in KINDS]
        cells = " | ".join(f"{it:.1f}" for it in [*minutes, sum(minutes)])
        print(f"| `{crate}` | {cells} |")
    sums = [sum(table[it, kind] for it in crates) / 60 for kind in KINDS]
    cells = " | ".join(f"{it:.1f}" for it in [*sums, sum(sums)])
    print(f"| all of these | {cells} |")


def longest_chain(table: Seconds) -> Chain:
    """The crates of which each waits for the proof of the one before it, and what they take together. Beside the proof
    of the last one stand its tests; edits wait for all crates."""
    below = edges()
    chains: dict[str, Chain] = {}

    def before(crate: str) -> Chain:
        return max([chain(it) for it in below[crate] if it in below], default=(0.0, []))

    def chain(crate: str) -> Chain:
        if crate not in chains:
            spent, under = before(crate)
            chains[crate] = spent + table[crate, "proof"], [*under, crate]
        return chains[crate]

    def whole(crate: str) -> Chain:
        spent, under = before(crate)
        return spent + max(table[crate, "proof"], table[crate, "tests"]), [*under, crate]

    return max(map(whole, below))


def add(file: Path, table: Seconds) -> Seconds:
    """The table with what the file has of earlier runs, which is then in the file."""
    if os.path.exists(file):
        with open(file) as it:
            for crate, kind, seconds in json.load(it):
                table[crate, kind] += seconds
    with open(file, "w") as it:
        json.dump([[*key, seconds] for key, seconds in sorted(table.items())], it, indent=0)
    return table


def spend(command: Sequence[str], log: typing.IO[str], table: Seconds) -> int:
    """Runs a command of the gate and adds what it spends to the table; gives its status."""
    with subprocess.Popen(command, cwd=TOP, stdin=subprocess.DEVNULL, stdout=log, stderr=subprocess.STDOUT) as gate:
        for crate_and_kind, seconds in watch(lambda: gate.poll() is None, str(gate.pid)).items():
            table[crate_and_kind] += seconds
    return gate.returncode


def main() -> int:
    parser = parser_of(__doc__)
    parser.add_argument("--log", default="gate.log", help="where what the gate prints goes")
    parser.add_argument("--add", metavar="FILE", help="what is known of earlier runs, to be added to")
    parser.add_argument("names", nargs="*", metavar="NAME", help="a crate; the gate then goes over it and those below")
    words = parser.parse_args()
    begin = time.time()
    commands = [["rt", "ci", *words.names], *([] if words.names else [["tools/edits.py", "--behind-gate"]])]
    table: Seconds = collections.defaultdict(float)
    status = 0
    with open(words.log, "w") as log:
        for command in commands:
            status = status or spend(command, log, table)
    table = add(words.add, table) if words.add else table
    show(table)
    minutes, chain = longest_chain(table)
    print(f"\nThe longest chain: {', '.join(chain)}; {minutes / 60:.0f} processor minutes.")
    spent = resource.getrusage(resource.RUSAGE_CHILDREN)
    print(f"\nThis run: {(time.time() - begin) / 60:.0f} minutes on {os.cpu_count()} processors, "
          f"{(spent.ru_utime + spent.ru_stime) / 60:.0f} processor minutes of all processes.")
    with open(words.log) as log:
        print(log.read().rstrip().rsplit("\n", 1)[-1])
    return status


if __name__ == "__main__":
    sys.exit(main())
