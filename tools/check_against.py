#!/usr/bin/env python3
"""Holds the figures of `skewguard check --json` against a reference that evaluates plain lists of rows.

    tools/check_against.py REFERENCE PROGRAM [--cases N] [--seed S] [--stage any-link]

REFERENCE is the folder of the reference (its generator of random definitions, `fuzz.py`, and its package `reference`),
PROGRAM a built `skewguard`. Of each of N random definitions, a part of them spoilt, the two have to agree: on the
number of the first fault, or on each assertion's form, verdict and least bad root, on when it is checked, and on how
many rows and groups there are, as a whole and for each set function, and for what its totals are maintained. The first
that differs is printed. The stage is the reference's language: base, or any-link with parts over both rows.
"""
from __future__ import annotations

import json
import random
import sys
import types
import typing
from collections.abc import Iterator, Sequence

from harness.arguments import parser_of
from harness.programs import run_on

TRUTHS = {True: "TRUE", False: "FALSE", None: "UNKNOWN"}
FORMS = {"R": "rows", "G": "groups", "S": "single"}


# What the reference has: its parts of a definition, and the rows of its tables by their keys.
Part = typing.Any
State = typing.Any


class Reference(typing.NamedTuple):
    """The modules of the reference."""

    engine: types.ModuleType
    parser: types.ModuleType
    meaning: types.ModuleType
    refusals: types.ModuleType


class Kept(typing.NamedTuple):
    """A set function: its table, the column by which its totals are kept, for what, and how many rows and groups."""

    function: str
    table: str
    by: str | None
    upkeep: str
    rows: int
    groups: int


class Checked(typing.NamedTuple):
    """What is said of an assertion. As a whole it has so many rows and groups."""

    name: str
    form: str
    verdict: str
    root: str | None
    deferrable: bool
    initially_deferred: bool
    whole: tuple[int, int]
    kept: list[Kept]


Said = tuple[typing.Optional[int], typing.Optional[list[Checked]]]  # the first fault's number, and the assertions


def made(fuzz: types.ModuleType, seed: int, stage: str) -> bytes:
    """Random definitions: mostly of the language, a few of them with a text spoilt."""
    rng = random.Random(seed)
    defs = fuzz.Maker(rng, stage).defs()
    if rng.random() < 0.2:
        spoilt: bytes = fuzz.mutated(rng, defs, stage)
        return spoilt
    text: str = defs
    return text.encode()


def counted(rows: Sequence[Sequence[object]], column: int | None, is_link: bool) -> tuple[int, int]:
    """How many of the rows go to a group, and how many groups they make."""
    if column is None:
        return len(rows), min(len(rows), 1)
    values = [row[column] for row in rows if not (is_link and row[column] is None)]
    return len(values), len(set(values))


def column_of(function: Part) -> int | None:
    """The column that a set function is of; None for all rows."""
    return None if function[1] is None else function[1][1]


def name_of(function: Part, table: Part) -> str:
    """A set function as the program shows it."""
    name, distinct = function[0], "DISTINCT " if function[2] and function[0] in ("COUNT", "SUM") else ""
    column = column_of(function)
    return "COUNT(*)" if column is None else f"{name}({distinct}{table.columns[column][0]})"


def columns_in(part: Part) -> Iterator[int]:
    """The columns that a condition looks at; those of the row around stand behind those of its own row."""
    if isinstance(part, tuple) and part and part[0] == "column":
        yield part[1]
    elif isinstance(part, (tuple, list)):
        for inner in part:
            yield from columns_in(inner)


def beside_link(query: Part) -> list[Part]:
    """The parts of a linked query's WHERE but for the equality that links it."""
    parts = list(query.where[1]) if query.where[0] == "and" else [query.where]
    linked = {query.link[0], query.source.width + query.link[1]}
    for place, part in enumerate(parts):
        if part[:2] == ("compare", "=") and part[2][0] == part[3][0] == "column" and {part[2][1], part[3][1]} == linked:
            return parts[:place] + parts[place + 1:]
    raise ValueError("a query without its link")


def linked_by(assertion: Part, query: Part, state: State, M: types.ModuleType) -> Kept:
    """How the totals of a linked query are maintained."""
    child, column = query.source.tables[0], query.link[0]
    head = name_of(query.function or ("COUNT", None, False), child), child.name, child.columns[column][0]
    parts = beside_link(query)
    if any(one >= query.source.width for one in columns_in(parts)):
        around = M.rows_of(state, assertion.source.tables[0])
        beside = [sum(M.truth(query.where, own + row) is True for own in M.rows_of(state, child)) for row in around]
        upkeep = "none" if column == child.key else "rows"
        return Kept(*head, upkeep, sum(beside), sum(1 for one in beside if one))
    rows = [row for row in M.rows_of(state, child) if M.t_and([M.truth(part, row) for part in parts]) is True]
    return Kept(*head, "groups", *counted(rows, column, True))


def kept_by(assertion: Part, state: State, M: types.ModuleType) -> Iterator[Kept]:
    """How the totals of each set function are maintained."""
    if assertion.form == "R":
        for query in assertion.slots:
            yield linked_by(assertion, query, state, M)
    elif assertion.form == "G":
        table, group = assertion.source.tables[0], assertion.groups[0]
        rows = M.kept(M.rows_of(state, table), assertion.where)
        for function in [query.function for query in assertion.slots] or [("COUNT", None, False)]:
            counts = counted(rows, group, False)
            yield Kept(name_of(function, table), table.name, table.columns[group][0], "groups", *counts)
    else:
        for query in assertion.slots:
            table = query.source.tables[0]
            rows = M.kept(M.rows_of(state, table), query.where)
            yield Kept(name_of(query.function, table), table.name, None, "groups", *counted(rows, None, False))


def whole_of(assertion: Part, kept: Sequence[Kept], state: State, M: types.ModuleType) -> tuple[int, int]:
    """The rows and groups of an assertion as a whole."""
    if assertion.form == "R":
        rows = len(M.rows_of(state, assertion.source.tables[0]))
        return rows, rows
    if assertion.form == "G":
        return kept[0].rows, kept[0].groups
    return sum(one.rows for one in kept), 1


def wanted(reference: Reference, defs: bytes, stage: str) -> Said:
    """The first fault's number, and what is wanted of each assertion."""
    engine, P, M, refusals = reference
    try:
        definitions = engine.Definitions(P.parse("defs", defs, stage), stage)
    except refusals.Refused as refused:
        return refused.number, None
    found, state = [], definitions.loaded
    for one in definitions.assertions:
        kept = list(kept_by(one, state, M))
        roots = M.bad_roots(one, state)
        root = refusals.value_text(roots[0]) if roots else None
        found.append(Checked(one.name, FORMS[one.form], TRUTHS[M.verdict(one, state)], root, one.deferrable,
            one.deferred, whole_of(one, kept, state, M), kept))
    fault = 21 if any(one.root is not None for one in found) else None
    return fault, found


def shown(text: str) -> Said:
    """The same of what the program prints."""
    said = json.loads(text)
    fault = said["faults"][0]["fault"] if said["faults"] else None
    if fault not in (None, 21):
        return fault, None
    found = []
    for one in said["assertions"]:
        kept = [Kept(*(each[word] for word in Kept._fields)) for each in one["kept"]]
        found.append(Checked(one["name"], one["form"], one["verdict"], one["root"], one["deferrable"],
            one["initially_deferred"], (one["rows"], one["groups"]), kept))
    return fault, found


def load(folder: str) -> tuple[types.ModuleType, Reference]:
    """The reference's generator of definitions, and its modules."""
    sys.path.insert(0, folder)
    import fuzz
    from reference import engine, meaning, parser, refusals
    return fuzz, Reference(engine, parser, meaning, refusals)


def main() -> int:
    parser = parser_of(__doc__, whole=True)
    parser.add_argument("reference")
    parser.add_argument("program")
    parser.add_argument("--cases", type=int, default=300)
    parser.add_argument("--seed", type=int, default=1)
    parser.add_argument("--stage", default="base", choices=["base", "any-link"])
    words = parser.parse_args()
    fuzz, reference = load(words.reference)
    for seed in range(words.seed, words.seed + words.cases):
        defs = made(fuzz, seed, words.stage)
        answer = run_on([words.program, "check", "--json"], defs, stderr=None)
        want, found = wanted(reference, defs, words.stage), shown(answer.output)
        if want != found:
            print(f"seed {seed}:\n{defs.decode('latin1')}\nwanted {want}\nshown  {found}")
            return 1
    print(f"{words.cases} random definitions agree")
    return 0


if __name__ == "__main__":
    sys.exit(main())
