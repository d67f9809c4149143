#!/usr/bin/env python3
"""The memory and the time of many commits through an engine, with a checkpoint after so many, and without.

    python3 bench/checkpoints.py [--commits 1000000] [--rows 10000] [--every 10000]

The program is made in a copy of the repository, by `rt run`, which proves it: a transaction of one UPDATE by key each,
key after key, under the rule that no sum of a group is below zero. What a checkpoint hands out is dropped.
The table that docs/PERFORMANCE.md holds is printed as it stands there. One process at a time runs.
"""

import os
import pathlib
import shutil

from replays import TOP, Used, carry_out, launched, least_memory, parser_of, table, temporary_folder

PROGRAM = """//! Commits of one row each, with a checkpoint after so many.
#![tactic(auto)]

use commit::{{Engine, admit}};
use parse::{{parse_schema, parse_script}};
use sqlite_items::Items;
use syntax::ScriptLine;
use std::alloc::Global;
use value::Refusal;

const ROWS: u64 = {rows};
const COMMITS: u64 = {commits};
const EVERY: u64 = {every};

const TABLE: &str = "CREATE TABLE T (ID INTEGER PRIMARY KEY, G INTEGER, V INTEGER);
    CREATE ASSERTION R CHECK (NOT EXISTS (SELECT G FROM T GROUP BY G HAVING SUM(V) < 0));";

fn engine(alloc: Global) -> Result<Engine, Refusal> {{
    let mut text = String::from_str(alloc, TABLE)?;
    for row in 0..ROWS {{
        text.push_str(format!(in alloc; "INSERT INTO T VALUES ({{row}}, {{}}, 0);", row / 10)?.as_str())?;
    }}
    let definitions = parse_schema(alloc, text.as_bytes())?;
    let loaded = admit(alloc, definitions.as_slice())?;
    let lines = transaction(alloc, 0)?;
    Engine::new(alloc, 4_294_967_295, loaded, lines.as_slice())
}}

fn transaction(alloc: Global, row: u64) -> Result<Items<ScriptLine>, Refusal> {{
    let text = format!(in alloc; "A: BEGIN; A: UPDATE T SET V = V + 1 WHERE ID = {{row}}; A: COMMIT;")?;
    parse_script(alloc, text.as_bytes())
}}

fn run(alloc: Global) -> Result<(), Refusal> {{
    let mut transactions = Vec::new(alloc);
    for row in 0..ROWS {{
        transactions.push(transaction(alloc, row)?)?;
    }}
    let mut engine = engine(alloc)?;
    for done in 0..COMMITS {{
        if let Some(lines) = transactions.get((done % ROWS) as usize) {{
            for line in lines.as_slice() {{
                engine.answer(line);
            }}
        }}
        if EVERY > 0 && (done + 1) % EVERY == 0 {{
            drop(engine.checkpoint(&[], &[])?);
        }}
    }}
    Ok(())
}}

fn main(rt: HostRuntime) -> Result<(), Refusal> {{
    run(rt.alloc())
}}
"""


def program(folder: pathlib.Path, rows: int, commits: int, every: int) -> str:
    """The program with these numbers, proved and built in a copy of the repository."""
    if not (folder / "crates").exists():
        shutil.copytree(TOP / "crates", folder / "crates", ignore=shutil.ignore_patterns("out"))
        for name in ("crates.txt", "HANDLES"):
            shutil.copy(TOP / name, folder / name)
    crate = folder / "crates" / "checkpointed"
    if not crate.exists():
        (crate / "src").mkdir(parents=True)
        with open(folder / "crates.txt", "a") as out:
            out.write("\ncheckpointed: commit parse syntax sqlite_items value\n")
    (crate / "src" / "main.rt").write_text(PROGRAM.format(rows=rows, commits=commits, every=every))
    carry_out(["rt", "run"], cwd=crate, quiet=True)
    return str(crate / "out" / "checkpointed")


def measured(folder: pathlib.Path, rows: int, commits: int, every: int) -> Used:
    """What a run of it takes."""
    return launched([program(folder, rows, commits, every)], os.devnull)


def main() -> None:
    words = parser_of(__doc__, whole=True)
    words.add_argument("--commits", type=int, default=1_000_000)
    words.add_argument("--rows", type=int, default=10_000)
    words.add_argument("--every", type=int, default=10_000)
    asked = words.parse_args()
    rows = []
    with temporary_folder() as folder:
        for commits, every in ((0, 0), (asked.every, 0), (asked.commits, asked.every), (asked.commits, 0)):
            used = measured(folder, asked.rows, commits, every)
            rows.append([f"{commits:,}", f"{every:,}" if every else "none", f"{used.seconds:.1f}",
                         f"{(used.memory - least_memory()) / 1e6:,.0f}"])
    table(["commits", "a checkpoint every", "processor seconds", "peak memory, MB"], rows)


if __name__ == "__main__":
    main()
