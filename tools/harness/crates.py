"""The crates of the repository by crates.txt, their edits, and the kit that proves them."""
from __future__ import annotations

import pathlib
import shutil
import sys

from .programs import TOP

CRATES = TOP / "crates"
Edges = dict[str, list[str]]


def groups() -> list[tuple[str, Edges]]:
    """Of each group of crates.txt its words, and its crates with the names that they stand on."""
    found: list[tuple[str, Edges]] = []
    for line in (TOP / "crates.txt").read_text(encoding="utf-8").splitlines():
        if line.startswith("#"):
            found.append((line.lstrip("# "), {}))
        elif line.strip():
            head, names = line.split(":")
            found[-1][1][head.split()[0]] = names.split()
    return found


def edges() -> Edges:
    """What each crate stands on."""
    return {crate: names for _, crates in groups() for crate, names in crates.items()}


def with_those_below(crate: str, stands_on: Edges) -> set[str]:
    """A crate and all that it stands on. A name that is none of a crate, as the kit's, has nothing below it."""
    found, left = {crate}, [crate]
    while left:
        new = set(stands_on.get(left.pop(), ())) - found
        found |= new
        left += new
    return found


def edits_of(crate: str) -> list[pathlib.Path]:
    """The files of a crate's edits, in the order of their names."""
    return sorted((CRATES / crate / "edits").glob("*.edit"))


def path_of_rt(otherwise: str) -> pathlib.Path:
    """The kit's `rt`; where there is none, what is given ends the run."""
    tool = shutil.which("rt")
    return pathlib.Path(tool).resolve() if tool else sys.exit(otherwise)


def kit(otherwise: str) -> pathlib.Path:
    """The folder of the toolchain, which has `rt` in its bin/; where there is none, what is given ends the run."""
    return path_of_rt(otherwise).parent.parent
