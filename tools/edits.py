#!/usr/bin/env python3
"""Tries wrong bodies, each of which the proof has to refuse: run it whenever a crate's contracts change.

    tools/edits.py [--at-once N] [--jobs N] CRATE..   tries crates/CRATE/edits/*.edit, and builds what is missing
    tools/edits.py [--at-once N] --behind-gate        tries those that the gate tries, over what `rt ci` has left built
    tools/edits.py --check                            whether each edit can be put in where it says
    tools/edits.py --sort [CRATE..]                   each edit with the clauses of the function that it turns

An edit is a file with a line `file: src/..` and pairs of lines, `old: ..` with what stands there once and `new: ..`
with what is put in its place. The function around it is the one whose contract has to refuse it; where another does, as
for a constant, a line `of: module::function` names it. A line `by hand: why` leaves an edit out of the gate.

All edits of a crate are put into one copy of it, and one run of the prover says which of the functions that they turn
are not proved. That takes no longer than the crate's own proof, however many there are, since each proof rests on the
contracts of what the function calls and on no body but its own. An edit waits for the next run where another one turns
the same function or one that it calls. Either form says of each edit what was refused, and ends with status 1 if one is
proved or can't be read. docs/GATE.md says which crates' edits the gate tries.
"""
from __future__ import annotations

import importlib.machinery
import importlib.util
import os
import pathlib
import re
import shutil
import subprocess
import sys
import types
import typing
from collections.abc import Iterator, Sequence
from concurrent.futures import ThreadPoolExecutor

from harness.arguments import parser_of
from harness.crates import CRATES, edits_of, path_of_rt
from harness.programs import TOP
from harness.texts import temporary_folder

HEAD = re.compile(r"^([ \t]*)(?:pub(?:\([\w ]+\))? )?(?:unsafe )?(?:extern \"C\" )?fn (\w+)", re.MULTILINE)
IMPL = re.compile(r"^(?:unsafe )?impl\b(?:<(?:[^<>]|<[^<>]*>)*>)? ([^{]*?)\s*(?:\n|\{|where)", re.MULTILINE)
CLAUSE = re.compile(r"^[ \t]*(?:ghost|requires|ensures)\*?[ \w:]*\{", re.MULTILINE)
# What a clause says of a call that succeeded: one equation, of the whole of what is returned or left.
HOLDS = r"(?:(?:If|On)(?:Ok|Some) result |\(|λ \w+\. |\(\w+ : [^()]+\) → )*"
WHOLE = r"(?:option_copied )?\w+(?:\.new)?(?:\.items)?(?:\.1)?"
OTHER = r"(?!\w+\.old[\w.]*\)*$)[^→×⊎]*"
EQUATION = re.compile(rf"{HOLDS}(?:Reads .*|Gives .*|{WHOLE} ≡ {OTHER}|[^→×⊎]* ≡ (?:Ok|Some) [^→×⊎]*)")
# What the prover prints of a function that it was asked for.
TOLD = re.compile(r"^fn (\S+): (.*)$", re.MULTILINE)
FAILS = re.compile(r"not proved|no proof: expected ")
# A proof that was written fails too where it rests on a function that isn't proved: that says nothing of its own.
RESTS = re.compile(r".*\bit calls ")
OWN = re.compile(r"no proof: expected .* did not prove ")


class Function(typing.NamedTuple):
    """A function of a file: the end of its name, as the prover prints it, and its clauses of what it leaves.

    A method is named by its type, whose module may be another than that of its `impl`.
    """

    name: str
    clauses: list[str]


class Edit(typing.NamedTuple):
    """A wrong body, and the functions whose contracts have to refuse it; whether it turns what others rest on too, and
    whether the gate leaves it out.
    """

    name: str
    text: str
    functions: frozenset[str]
    is_apart: bool
    is_by_hand: bool


class Crate(typing.Protocol):
    """A crate as `rt` has it."""

    name: str
    folder: str

    def words(self, flags: list[str], *, keeps: bool) -> list[str]:
        """The command line of a check of it."""

    def below(self) -> list[Crate]:
        """What it stands on."""

    def is_built(self) -> bool:
        """Whether a check of one's own has built it."""

    def build_rlib(self, flags: list[str], anew: bool) -> int:
        """Builds it where it is not built, and ends with status 0 where that went well."""


# Those with a wrong body that somebody named, or with one of a function whose clause is a relation; first those that
# take longest.
IN_GATE = ("session", "calls", "commit", "txn", "shell", "roots", "pages", "durable", "delta", "changes", "parse",
    "definitions", "skewguard_c", "journal", "mvrows", "journal_file", "groups", "conflict")


def kit() -> types.ModuleType:
    """What `rt` is made of, which reads edits and knows the command line of a check."""
    tool = path_of_rt("edits.py: there is no `rt` to try edits with")
    loader = importlib.machinery.SourceFileLoader("rt", str(tool))
    spec = importlib.util.spec_from_file_location("rt", tool, loader=loader)
    assert spec
    rt = importlib.util.module_from_spec(spec)
    sys.dont_write_bytecode = True
    loader.exec_module(rt)
    return rt


def crates() -> list[str]:
    return sorted(folder.name for folder in CRATES.iterdir())


def check() -> int:
    """Whether each edit can be put in: its old text stands exactly once in its file, in a function that has a name."""
    rt, bad, count = kit(), 0, 0
    for crate in crates():
        for edit in edits_of(crate):
            why = rt.read_edit(str(edit), str(CRATES / crate))[1]
            if not why and not read(edit).functions:
                why = "it turns no function, and has no line `of: module::function`"
            count += 1
            if why:
                bad += 1
                print(f"{edit.relative_to(TOP)}: {why}", file=sys.stderr)
    print(f"{count} edits, {bad} can't be put in", file=sys.stderr)
    return bad


def turned(edit: pathlib.Path) -> Iterator[tuple[pathlib.Path, str, int]]:
    """The files that an edit turns, each with its text and where that is turned."""
    path = edit
    for line in edit.read_text(encoding="utf-8").splitlines():
        if line.startswith("file: "):
            path = edit.parent.parent / line.removeprefix("file: ").strip()
        elif line.startswith("old: "):
            text = path.read_text(encoding="utf-8")
            old = line.removeprefix("old: ")
            yield path, text, text.index(old) + len(old) - len(old.lstrip())


def end_of_braces(text: str, start: int) -> int:
    """Where the brace that opens at the start is closed."""
    depth = 0
    for at in range(start, len(text)):
        depth += {"{": 1, "}": -1}.get(text[at], 0)
        if depth == 0:
            return at
    return len(text)


def owner(text: str, place: int) -> str:
    """The type and the trait, written together, of the `impl` that stands last before a place: `TextOrd`, or `Text`."""
    of_trait, is_for, of_type = list(IMPL.finditer(text, 0, place))[-1][1].rpartition(" for ")
    trait = "".join(re.findall(r"\w+", of_trait.rpartition("::")[2])) if is_for else ""
    return re.split(r"[<\s]", of_type)[0].rpartition("::")[2] + trait


def function_at(path: pathlib.Path, text: str, place: int) -> Function | None:
    """The function around a place, and its clauses; or None where none is there."""
    for head in reversed(list(HEAD.finditer(text, 0, place))):
        clauses: list[str] = []
        at = head.end()
        while (opening := text.find("{", at)) >= 0:
            line = text.rfind("\n", 0, opening) + 1
            if not CLAUSE.match(text, line):
                break
            at = end_of_braces(text, opening) + 1
            clauses.append(" ".join(text[line:at].split()))
        if opening >= 0 and opening <= place <= end_of_braces(text, opening):
            before = owner(text, head.start()) if head[1] else path.stem
            name = head[2] if before in ("lib", "main") else f"{before}::{head[2]}"
            return Function(name, [it for it in clauses if it.startswith("ensures")])
    return None


def read(file: pathlib.Path) -> Edit:
    """An edit, with the functions that it names, or else those that it turns."""
    text = file.read_text(encoding="utf-8")
    found = [function_at(*place) for place in turned(file)]
    named = re.findall(r"^of: (\S+)$", text, re.MULTILINE)
    functions = frozenset(named or [it.name for it in found if it])
    return Edit(file.stem, text, functions, None in found, "\nby hand: " in text)


def is_equation(clause: str) -> bool:
    return EQUATION.fullmatch(clause[clause.index("{") + 1:-1].strip()) is not None


def sort(names: Sequence[str]) -> None:
    """Prints each edit with the clauses of what it turns. Whether they are equations is a guess by their form."""
    for crate in names or crates():
        for edit in edits_of(crate):
            found = [function_at(*place) for place in turned(edit)]
            clauses = [clause for it in found if it for clause in it.clauses]
            form = "an equation" if any(map(is_equation, clauses)) else "a relation" if clauses else "no clause here"
            print(f"{crate}/{edit.stem}: {', '.join(sorted(read(edit).functions)) or 'no function'}, {form}")
            for clause in dict.fromkeys(clauses):
                print(f"    {clause}")


def put_in(rt: types.ModuleType, edits: Sequence[Edit], room: pathlib.Path) -> list[Edit]:
    """Puts as many edits into a copy of their crate as turn different functions, and gives those. One that turns what
    stands in no function, as a constant, is put in alone."""
    inside: list[Edit] = []
    for edit in edits:
        if inside and (edit.is_apart or inside[0].is_apart or any(edit.functions & it.functions for it in inside)):
            continue
        texts, why = rt.edited(edit.text, str(room))
        if why:
            # The one before it turned the same line.
            continue
        for path, text in texts.items():
            (room / path).write_text(text, encoding="utf-8")
        inside.append(edit)
    return inside


def told_of(rt: types.ModuleType, crate: Crate, edits: Sequence[Edit], kept: pathlib.Path,
            jobs: str) -> tuple[list[Edit], dict[str, str]]:
    """The edits that were put into one copy, and what the prover says of each function. It says nothing where it can't
    read what was put in, and then all that it printed is shown.
    """
    with temporary_folder() as room:
        for part in rt.rtlib.PARTS:
            if (pathlib.Path(crate.folder) / part).is_dir():
                shutil.copytree(pathlib.Path(crate.folder) / part, room / part)
        inside = put_in(rt, edits, room)
        changed = {str(path.relative_to(room)) for path in room.rglob("*.rt")}
        words = [rt.rtlib.RATTLE, "check", *crate.words(["--jobs", jobs], keeps=False), "--incremental", kept]
        words += [word for edit in inside for path in sorted(edit.functions) for word in ("--only", path)]
        ran = subprocess.run([*rt.rtlib.guarded(), *words], cwd=room, stdin=subprocess.DEVNULL, stdout=subprocess.PIPE,
            stderr=subprocess.STDOUT, encoding="utf-8", errors="replace", check=False)
    is_read = not any(rt.unread(line, changed) for line in ran.stdout.splitlines())
    told = {found[1]: found[2] for found in TOLD.finditer(ran.stdout)} if is_read else {}
    if not told:
        print(f"{crate.name}: the prover can't read what was put in:\n{ran.stdout}", flush=True)
    return inside, told


def verdict(edit: Edit, told: dict[str, str], is_alone: bool) -> str | None:
    """Why the edit was refused: its function's own proof fails. None where it may only rest on another that fails."""
    said = {name: words for name, words in told.items() if name.endswith(tuple(f"::{it}" for it in edit.functions))}
    for name, words in said.items():
        if FAILS.match(words) and (is_alone or OWN.match(words) or not RESTS.match(words)):
            return f"refused: {name}: {words}"
    if all(words == "proved" for words in said.values()):
        return f"NOT REFUSED: {', '.join(said) or 'nothing was said of it'}"
    return None


def try_crate(rt: types.ModuleType, crate: Crate, edits: Sequence[Edit], jobs: str, behind_gate: bool) -> int:
    """Tries edits of a crate, and returns how many were not refused."""
    # (the gate keeps nothing, and what builds the C library beside it is not to be waited for)
    before = None if behind_gate else f"{crate.folder}/out/incremental"
    with temporary_folder() as room:
        # What is proved for one run serves the next; it goes with what was kept of wrong bodies.
        kept = room / "kept"
        if before and os.path.isdir(before):
            rt.linked(before, str(kept))
        else:
            kept.mkdir()
        return try_over(rt, crate, edits, kept, jobs)


def try_over(rt: types.ModuleType, crate: Crate, edits: Sequence[Edit], kept: pathlib.Path, jobs: str) -> int:
    """Tries edits in as many runs as they take, and returns how many were not refused."""
    left, most, bad = list(edits), len(edits), 0
    while left:
        inside, told = told_of(rt, crate, left[:most], kept, jobs)
        verdicts = {edit.name: verdict(edit, told, len(inside) == 1) for edit in inside}
        settled = {name: words for name, words in verdicts.items() if words}
        if not told or (not settled and len(inside) == 1):
            print(f"{crate.name}: nothing is known of {', '.join(edit.name for edit in left)}", flush=True)
            return bad + len(left)
        # Functions that call each other in turn may all rest on one that fails: then one is tried alone.
        most = len(left) if settled else 1
        for name, words in settled.items():
            print(f"{crate.name}/{name}: {words[:200]}", flush=True)
            bad += words.startswith("NOT REFUSED")
        left = [edit for edit in left if edit.name not in settled]
    return bad


def build_below(rt: types.ModuleType, crate: Crate, jobs: str, behind_gate: bool) -> None:
    """Builds what a crate stands on, unless the gate has left it built, and takes what checks kept of the crate."""
    below = crate.below()
    if behind_gate and not any(library.is_built() for library in below):
        return
    if any(library.build_rlib(["--jobs", jobs], anew=False) for library in below):
        sys.exit(f"edits.py: what {crate.name} stands on is not proved")
    rt.adopt(crate, is_alone=False)


def try_edits(names: Sequence[str], jobs: str, at_once: int, behind_gate: bool) -> int:
    """Tries the edits of these crates, and returns how many were not refused."""
    rt = kit()
    rt.rtlib.guarded()
    rt.share_work(is_alone=False)
    by_name = {it.name: it for it in rt.rtlib.crates_below(str(TOP))}
    edits: dict[str, list[Edit]] = {}
    for name in names:
        edits[name] = [it for it in map(read, edits_of(name)) if not (behind_gate and it.is_by_hand)]
        if name not in by_name or not edits[name]:
            sys.exit(f"edits.py: there are no edits in crates/{name}/edits")
        build_below(rt, by_name[name], jobs, behind_gate)
    with ThreadPoolExecutor(at_once) as pool:
        bad = sum(pool.map(lambda name: try_crate(rt, by_name[name], edits[name], jobs, behind_gate), names))
    print(f"{sum(map(len, edits.values()))} edits, {bad} not refused")
    return bad


def main() -> None:
    words = parser_of(__doc__)
    what = words.add_mutually_exclusive_group()
    what.add_argument("--check", action="store_true", help="only whether each edit can be put in")
    what.add_argument("--sort", action="store_true", help="only what each edit turns")
    what.add_argument("--behind-gate", action="store_true", help="over the crates that `rt ci` has just proved")
    words.add_argument("--jobs", default="1", metavar="N", help="how many processes of the prover for each crate")
    words.add_argument("--at-once", default=1, type=int, metavar="N", help="how many crates at once")
    words.add_argument("crates", nargs="*", metavar="CRATE")
    given = words.parse_args()
    if given.check:
        sys.exit(check() != 0)
    if given.sort:
        sort(given.crates)
        return
    if bool(given.crates) == given.behind_gate:
        words.error("name the crates whose edits are to be tried, or say --behind-gate")
    sys.exit(try_edits(given.crates or IN_GATE, given.jobs, given.at_once, given.behind_gate) != 0)


if __name__ == "__main__":
    main()
