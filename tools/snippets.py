#!/usr/bin/env python3
"""Holds the Rust of docs/LIBRARY.md against the example that the gate builds.

    tools/snippets.py

Each block of Rust on that page has to stand, line for line and but for what it is indented by, in a file of
crates/rota/src. So what the page shows is proved and run.
"""
import sys
import textwrap

from harness.crates import CRATES
from harness.pages import code, page


def stands(block: list[str], lines: list[str]) -> bool:
    """Whether the lines of the block stand in these, one behind the other, each further in by the same."""
    for at in range(len(lines) - len(block) + 1):
        part = textwrap.dedent("\n".join(lines[at:at + len(block)])).splitlines()
        if part == block:
            return True
    return False


def main() -> int:
    blocks = code(page("docs/LIBRARY.md"), "rust")
    files = sorted((CRATES / "rota/src").iterdir())
    sources = [file.read_text(encoding="utf-8").splitlines() for file in files]
    missing = [block for block in blocks
        if not any(stands(textwrap.dedent(block).splitlines(), lines) for lines in sources)]
    for block in missing:
        print(f"this block stands in no file of crates/rota/src:\n{block}")
    print(f"{len(blocks)} blocks, {len(missing)} missing")
    return bool(missing) or not blocks


if __name__ == "__main__":
    sys.exit(main())
