#!/usr/bin/env python3
"""Makes the numbers of the C library's requests and replies known to its bindings, from where they are proved.

    tools/layout.py            writes them
    tools/layout.py --check    writes nothing; ends with status 1 where a binding has others

The source is the crate `messages`: the operations (operation_of), the statuses (status_number), the kinds of replies
and the number of the layout (the constants of replies.rt), and the kinds of values (those of writing.rt), of all of
which contracts speak. The tables of Python (_numbers.py) and Rust (numbers.rs) are made whole. In
bindings/c/skewguard.h each name stands with a comment of its own, so there the numbers are set, and a name that is
missing or is none ends the run.
"""
import re
import sys

from harness.arguments import parser_of
from harness.programs import TOP

MESSAGES = TOP / "crates/messages/src"
HEADER = TOP / "bindings/c/skewguard.h"
PYTHON = TOP / "bindings/python/src/skewguard/_numbers.py"
RUST = TOP / "bindings/rust/src/numbers.rs"

# Names with their numbers.
Pairs = list[tuple[str, int]]

ORIGIN = "Made by tools/layout.py, from the crate `messages`"


def words_of(name: str) -> str:
    """The words of a name, in capitals: OpenSession is OPEN_SESSION."""
    return re.sub(r"(?<=[a-z])(?=[A-Z])", "_", name).upper()


def found(pattern: str, file: str) -> Pairs:
    """Names and numbers, by a pattern with these two groups."""
    text = (MESSAGES / file).read_text(encoding="utf-8")
    pairs = [(words_of(it["name"]), int(it["number"])) for it in re.finditer(pattern, text)]
    numbers = [number for _, number in pairs]
    if numbers != list(range(len(pairs))) or not pairs:
        sys.exit(f"crates/messages/src/{file}: the numbers are not 0, 1, and so on: {numbers}")
    return pairs


def layout() -> int:
    """The number of the layout."""
    text = (MESSAGES / "replies.rt").read_text(encoding="utf-8")
    (number,) = re.findall(r"^const LAYOUT: u64 = (\d+);", text, re.MULTILINE)
    return int(number)


OPERATIONS = found(r"(?P<number>\d+) => Some\(Operation::(?P<name>\w+)\)", "operations.rt")
STATUSES = found(r"Status::(?P<name>\w+) => (?P<number>\d+),", "responses.rt")
KINDS = found(r"(?m)^const (?P<name>\w+): u8 = (?P<number>\d+);", "replies.rt")
VALUE_KINDS = found(r"(?m)^(?:pub )?const (?P<name>\w+): u8 = (?P<number>\d+);", "writing.rt")

# Kinds that have another name in C, whose constants share one space of names: a status is called so.
IN_C = {"UNRESTORED": "JOURNAL_FAULT"}


def python_text() -> str:
    """The table of Python. Plain numbers: members of an enum take long to look up, and each call does some."""
    lines = [f'"""The numbers of requests and replies. {ORIGIN}."""', "", "# The number of the layout."]
    lines += [f"LAYOUT = {layout()}"]
    for name, about, pairs in (
        ("Operation", "What a call asks for.", OPERATIONS),
        ("Status", "What became of a call.", STATUSES),
        ("Kind", "What a reply is of.", KINDS),
        ("ValueKind", "What a value is.", VALUE_KINDS),
    ):
        lines += ["", "", f"class {name}:", f'    """{about}"""', ""]
        lines += [f"    {word} = {number}" for word, number in pairs]
    return "\n".join(lines) + "\n"


def rust_text() -> str:
    """The table of Rust."""
    lines = [f"//! The numbers of requests and replies. {ORIGIN}.", ""]
    lines += ["// (all of them, whichever are in use)", "#![allow(dead_code)]", ""]
    lines += ["/// The number of the layout.", f"pub const LAYOUT: u64 = {layout()};"]
    lines += ["", "/// What a call asks for.", "#[derive(Clone, Copy, PartialEq, Eq)]", "pub enum Operation {"]
    lines += [f"    {word.title().replace('_', '')} = {number}," for word, number in OPERATIONS] + ["}"]
    for name, about, kind, pairs in (
        ("status", "What became of a call.", "i32", STATUSES),
        ("kind", "What a reply is of: its first byte.", "u8", KINDS),
        ("value_kind", "What a value is: its first byte.", "u8", VALUE_KINDS),
    ):
        lines += ["", f"/// {about}", f"pub mod {name} {{"]
        lines += [f"    pub const {word}: {kind} = {number};" for word, number in pairs] + ["}"]
    return "\n".join(lines) + "\n"


def with_numbers(text: str, enum: str, prefix: str, pairs: Pairs) -> str:
    """The header with these numbers in an enum, which has these names and no others."""
    parts = re.search(rf"(enum {enum} \{{\n)(.*?)(\n\}})", text, re.DOTALL)
    if not parts:
        sys.exit(f"bindings/c/skewguard.h: there is no enum {enum}")
    begin, body, end = parts.groups()
    names = re.findall(rf"^ +{prefix}(\w+) = \d+,?$", body, re.MULTILINE)
    if names != [name for name, _ in pairs]:
        differ = ", ".join(sorted(set(names) ^ {name for name, _ in pairs})) or "their order"
        sys.exit(f"bindings/c/skewguard.h: enum {enum} has other names than the crate messages: {differ}")
    for name, number in pairs:
        body = re.sub(rf"(?m)^( +{prefix}{name}) = \d+", rf"\1 = {number}", body)
    return re.sub(rf"(enum {enum} \{{\n).*?(\n\}})", lambda _: begin + body + end, text, count=1, flags=re.DOTALL)


def header_text() -> str:
    """The header with the numbers set."""
    text = HEADER.read_text(encoding="utf-8")
    for enum, prefix, pairs in (
        ("skewguard_operation", "SKEWGUARD_DO_", OPERATIONS),
        ("skewguard_status", "SKEWGUARD_", STATUSES),
        ("skewguard_kind", "SKEWGUARD_", [(IN_C.get(name, name), number) for name, number in KINDS]),
        ("skewguard_value_kind", "SKEWGUARD_", VALUE_KINDS),
    ):
        text = with_numbers(text, enum, prefix, pairs)
    return re.sub(r"(?m)^#define SKEWGUARD_LAYOUT \d+$", f"#define SKEWGUARD_LAYOUT {layout()}", text)


def main() -> None:
    parser = parser_of(__doc__)
    parser.add_argument("--check", action="store_true", help="writes nothing; says whether a binding has others")
    checks = parser.parse_args().check
    for file, made in ((HEADER, header_text()), (PYTHON, python_text()), (RUST, rust_text())):
        if checks and (not file.exists() or file.read_text(encoding="utf-8") != made):
            sys.exit(f"{file.relative_to(TOP)} has other numbers than the crate messages: run tools/layout.py")
        if not checks:
            file.write_text(made, encoding="utf-8")


if __name__ == "__main__":
    main()
