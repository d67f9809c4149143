#!/usr/bin/env python3
"""Makes the list of crates in docs/DESIGN.md.

    tools/crates_list.py            writes it between the two marks of that page
    tools/crates_list.py --check    writes nothing; ends with status 1 where the page has another list

The groups are the comment lines of crates.txt. The edges are its own, without the libraries of the kit, and without the
crates that stand below another one that is named. What a crate is for is the first paragraph of the comment with which
its src/lib.rt or src/main.rt begins, and its definitions are the files of its specs/. A crate that crates.txt does not
name, and a name without a crate, end the run.
"""
import pathlib
import re
import sys

from harness.arguments import parser_of
from harness.crates import CRATES, Edges, edges, groups, with_those_below
from harness.pages import page
from harness.programs import TOP

PAGE = TOP / "docs/DESIGN.md"
BEGIN = "<!-- crates: made by tools/crates_list.py -->\n"
END = "<!-- crates: end -->\n"


def root_file(crate: str) -> pathlib.Path:
    """The file with which a crate begins."""
    files = [CRATES / crate / "src" / name for name in ("lib.rt", "main.rt")]
    return next(file for file in files if file.exists())


def purpose(crate: str) -> str:
    """The first paragraph of the comment with which a crate begins, in a cell of a table."""
    text = root_file(crate).read_text(encoding="utf-8")
    paragraph = re.match(r"(?://! .*\n)+", text)
    if not paragraph:
        sys.exit(f"{root_file(crate)} does not begin with a comment on the crate")
    words = " ".join(line[4:] for line in paragraph.group().splitlines())
    return re.sub(r"\[(`\w+`)\]", r"\1", words).replace("|", "\\|")


def definitions(crate: str) -> str:
    """The files of a crate's specs/, without the one that lists them."""
    names = sorted(file.stem for file in (CRATES / crate / "specs").glob("*.antt"))
    return ", ".join(f"`{name}`" for name in names if name != "Lib")


def nearest(crate: str, stands_on: Edges) -> list[str]:
    """The crates that one stands on, without those that another of them stands on."""
    further: set[str] = set()
    for name in stands_on[crate]:
        further |= with_those_below(name, stands_on) - {name}
    return [name for name in stands_on[crate] if name in stands_on and name not in further]


def made_list() -> str:
    """The list as the page has it: one table, with a row for each group above those of its crates."""
    stands_on = edges()
    there = {folder.name for folder in CRATES.iterdir() if (folder / "src").is_dir()}
    if there != set(stands_on):
        sys.exit(f"crates.txt and the folder crates differ by {', '.join(sorted(there ^ set(stands_on)))}")
    lines = ["| crate | what it is for | stands on | its definitions |", "|---|---|---|---|"]
    for words, crates in groups():
        lines += [f"| | **{words[0].upper()}{words[1:]}** | | |"]
        for crate in crates:
            link, below = f"[`{crate}`](../crates/{crate})", ", ".join(nearest(crate, stands_on))
            lines += [f"| {link} | {purpose(crate)} | {below} | {definitions(crate)} |"]
    return "\n".join(lines) + "\n"


def main() -> None:
    parser = parser_of(__doc__)
    parser.add_argument("--check", action="store_true", help="writes nothing; says whether the page has another list")
    checks = parser.parse_args().check
    parts = re.fullmatch(f"(.*{BEGIN})(.*)({END}.*)", page("docs/DESIGN.md"), re.DOTALL)
    if not parts:
        sys.exit(f"docs/DESIGN.md lacks the marks of the list of crates: {BEGIN}{END}")
    before, found, after = parts.groups()
    made = f"\n{made_list()}\n"
    if checks and found != made:
        sys.exit("docs/DESIGN.md has another list of crates: tools/crates_list.py makes it again")
    if not checks:
        PAGE.write_text(before + made + after, encoding="utf-8")


if __name__ == "__main__":
    main()
