#!/usr/bin/env python3
"""Runs the tests of the languages: Python and Rust, their examples, and what the pages and the manual show.

    tools/languages.py [--library FOLDER] [--program FILE] [--without-rust]
    tools/languages.py --sanitized [--library FOLDER]    runs what is below under AddressSanitizer alone
    tools/languages.py --manual                          prints the manual's example in C

FOLDER has the static and the shared library; without it tools/c_library.py builds them. FILE is the program, or that
which the gate has built. It needs a C compiler, cargo, and Python 3.9 or later with venv and its headers; no network.

Python is tried by both implementations: over ctypes, and in C, built from the package's source archive; that one is
tried under AddressSanitizer and UndefinedBehaviorSanitizer once more, where the compiler has them.
"""
from __future__ import annotations

import os
import pathlib
import re
import shutil
import sys
import tarfile
import typing
from collections.abc import Iterable

from harness.arguments import parser_of
from harness.libraries import HEADER_FOLDER, PYTHON, SONAME, library_in, linked, packed, unpacked
from harness.pages import blocks, code, page
from harness.programs import PROGRAM, TOP, Word, printed
from harness.texts import temporary_folder

RUST = TOP / "bindings/rust"
# Of a program that is run, all that it finds in its environment.
Known = dict[str, str]
AS_EVER: Known = {}
BY_CTYPES = {"SKEWGUARD_CTYPES": "1"}
BY_SHARED = {"SKEWGUARD_STATIC": "0"}

# What the examples print, in both languages. Their threads come in any order, and what is printed does not tell of it.
EXAMPLES = {
    "on_call": "3 go home, 1 on call\nstays: COVERED would be false in shift 7\n",
    "ledger": "half of a transfer: BALANCED would be false at ALL\n"
    "400 answers: some made, some refused by FUNDS\n"
    "the bank holds 200, and no owner is below zero\n",
    "booking": "4 guests have a room\nslots: 1209 1210 1211 1212 1213\n",
}

# The name of a rule: of an assertion, of a constraint, or of one without CONSTRAINT in a comment behind it.
RULE = re.compile(r"^CREATE ASSERTION (\w+) |\bCONSTRAINT (\w+) |-- (\w+)$", re.MULTILINE)
REPLAY = "skewguard", "replay", "defs.sql", "script.sql"
# The rows that are there for events of docs/LANGUAGE.md over a table T.
ROWS_OF_T = """CREATE TABLE T (ID INTEGER PRIMARY KEY, N INTEGER);
INSERT INTO T VALUES (1, 7);
INSERT INTO T VALUES (2, 7);
"""


def wanted(what: str, found: str, expected: str) -> None:
    """Ends the run where something printed what it should not."""
    if found != expected:
        sys.exit(f"{what} prints\n{found}and not\n{expected}")


def environment(library: pathlib.Path, program: pathlib.Path | None, folder: pathlib.Path) -> Known:
    """As if the packages were installed: where compilers and programs find header, library, module and program."""
    programs = folder / "programs"
    programs.mkdir()
    if program:
        (programs / "skewguard").symlink_to(program)
    # The places that the one who calls has set come last; an empty one would mean the folder at hand.
    places = {
        "PATH": programs,
        "CPATH": HEADER_FOLDER,
        "LIBRARY_PATH": library,
        "LD_LIBRARY_PATH": library,
        "PYTHONPATH": PYTHON / "src",
    }
    set_before = {name: os.pathsep + os.environ[name] for name in places if os.environ.get(name)}
    own = {name: f"{place}{set_before.get(name, '')}" for name, place in places.items()}
    own |= {
        "SKEWGUARD_LIBRARY": str(library / SONAME),
        "SKEWGUARD_LIB_DIR": str(library),
        "PYTHONDONTWRITEBYTECODE": "1",
        "CARGO_TARGET_DIR": str(folder / "target"),
    }
    return os.environ | own


def unittests(known: Known, *modules: str) -> None:
    """Runs the tests of modules, or all."""
    chosen: Iterable[Word] = modules or ("discover", "-s", PYTHON / "tests")
    words = [sys.executable, "-X", "dev", "-W", "error", "-m", "unittest", *chosen]
    printed(words, cwd=PYTHON / "tests", environment=known)


def hotel(known: Known) -> None:
    """A hotel's desks, for an epoch of few commits."""
    printed([sys.executable, TOP / "tools/hotel.py", "--minutes", "0", "--commits", "3000"], environment=known)


def python_page(known: Known, place: pathlib.Path) -> None:
    """The Python of docs/PYTHON.md as one program. Its first block is a file, which the shell's lines run."""
    text = page("docs/PYTHON.md")
    of_python, of_shell = code(text, "python"), code(text, "sh")
    count = len(of_python) + len(of_shell)
    if count != len(blocks(text)) or text.count("\n```") != 2 * count:
        sys.exit("docs/PYTHON.md has a block that is none of Python or of the shell")
    whole, printing = "".join(of_python), r"^ *print\(.*\)(?:  |\n)# (.+\n)"
    place.mkdir()
    (place / "service.py").write_text(of_python[0], encoding="utf-8")
    (place / "page.py").write_text(whole, encoding="utf-8")
    told = "".join(re.findall(printing, whole, re.MULTILINE))
    wanted("docs/PYTHON.md", printed([sys.executable, "page.py"], cwd=place, environment=known), told)
    lines = "".join(of_shell)
    told = "".join(re.findall(r"  # (.+\n)", lines))
    wanted("the shell of docs/PYTHON.md", printed(["bash", "-ec", lines], cwd=place, environment=known), told)


def python_tests(known: Known, implementation: str) -> None:
    """The tests, the README, the examples and the hotel by an implementation."""
    found = printed([sys.executable, "-c", "import skewguard; print(skewguard.IMPLEMENTATION)"], environment=known)
    wanted("the implementation", found, f"{implementation}\n")
    unittests(known)
    readme = page("bindings/python/README.md")
    first, told = code(readme, "python")[0], re.findall(r"^It prints `([^`]*)`\.", readme, re.MULTILINE)[0]
    wanted("the example of the README", printed([sys.executable, "-c", first], environment=known), f"{told}\n")
    for name, expected in EXAMPLES.items():
        wanted(f"{name}.py", printed([sys.executable, PYTHON / f"examples/{name}.py"], environment=known), expected)
    hotel(known)


def with_extension(known: Known, folder: pathlib.Path, **flags: str) -> Known:
    """The environment in which the package is that of a wheel, which was built from the source archive."""
    folder.mkdir()
    archive = packed("sdist", PYTHON, folder, known)
    with tarfile.open(archive) as sources:
        sources.extractall(folder)
    wheel = packed("wheel", folder / archive.name[: -len(".tar.gz")], folder, known | flags)
    return known | {"PYTHONPATH": str(unpacked(wheel))}


def sanitized_extension(known: Known, folder: pathlib.Path) -> Known | None:
    """The tests of the extension, and the hotel, under AddressSanitizer; None where the compiler has none."""
    found = [printed(["cc", f"-print-file-name={name}"]).strip() for name in ("libasan.so", "libubsan.so")]
    if not all(map(os.path.isabs, found)):
        return None
    flags = "-O1 -g -fno-lto -fsanitize=address,undefined -fno-sanitize-recover=undefined"
    known = with_extension(known, folder, CFLAGS=flags)
    # What Python keeps until its end is no leak: tests/test_memory.py looks for those.
    options = {"ASAN_OPTIONS": "detect_leaks=0:allocator_may_return_null=1", "PYTHONMALLOC": "malloc"}
    known |= options | {"LD_PRELOAD": " ".join(found)}
    unittests(known)
    hotel(known)
    return known


def python_implementations(known: Known, folder: pathlib.Path) -> bool:
    """All that Python is tried by; True where AddressSanitizer was there."""
    of_both = {"ctypes": known | BY_CTYPES, "C": with_extension(known, folder / "extension")}
    for implementation, environment in of_both.items():
        python_tests(environment, implementation)
        python_page(environment, folder / f"page_{implementation}")
    return sanitized_extension(known, folder / "sanitized") is not None


def python_package(known: Known, library: pathlib.Path, folder: pathlib.Path) -> None:
    """The package in an environment of its own: from nothing, without a network and with the library in it."""
    printed([sys.executable, "-m", "venv", folder / "venv"])
    python = folder / "venv/bin/python"
    bare = {name: value for name, value in known.items() if not name.startswith(("PYTHON", "SKEWGUARD", "LD_"))}
    bundled = bare | {"SKEWGUARD_BUNDLE": str(library / SONAME)}
    pip: list[Word] = [python, "-m", "pip", "--quiet", "--disable-pip-version-check"]
    printed([*pip, "install", "--no-index", PYTHON], environment=bundled)
    found = printed([python, "-c", "import skewguard; print(skewguard.IMPLEMENTATION)"], cwd=folder, environment=bare)
    wanted("the implementation, installed", found, "C\n")
    for name, expected in EXAMPLES.items():
        for chosen in (AS_EVER, BY_CTYPES):
            found = printed([python, PYTHON / f"examples/{name}.py"], cwd=folder, environment=bare | chosen)
            wanted(f"{name}.py, installed", found, expected)
    printed([*pip, "uninstall", "--yes", "skewguard"], environment=bare)


def unaided(known: Known) -> Known:
    """An environment in which nothing says where libraries are at run time."""
    return {name: value for name, value in known.items() if name != "LD_LIBRARY_PATH"}


def rust_tests(known: Known) -> None:
    """The tests and examples with the static library, and the examples with the shared one."""
    known = unaided(known)
    quiet, manifest = ("--quiet", "--offline"), ("--manifest-path", str(RUST / "Cargo.toml"))
    printed(["cargo", "test", *quiet, *manifest], environment=known)
    for chosen in (AS_EVER, BY_SHARED):
        printed(["cargo", "build", *quiet, "--examples", *manifest], environment=known | chosen)
        for name, expected in EXAMPLES.items():
            program = pathlib.Path(known["CARGO_TARGET_DIR"]) / "debug/examples" / name
            wanted(f"{name}.rs", printed([program], environment=known), expected)


def manual_page() -> str:
    """The manual's page as it is written."""
    return page("packaging/skewguard.3")


def manual_example() -> str:
    """The program in C of the manual's page, as a reader would copy it."""
    found = re.findall(r"^\.SH EXAMPLES\n\.nf\n\.RS\n(.*?)^\.RE$", manual_page(), re.MULTILINE | re.DOTALL)
    return "".join(found[:1]).replace("\\-", "-")


def untold_calls() -> list[str]:
    """The calls of the header that the manual does not tell of."""
    header, _ = page("bindings/c/skewguard.h").split("how it is done")
    calls = re.findall(r"^(?:static inline )?\w+ \*?(skewguard_\w+)\(", header, re.MULTILINE)
    told = re.findall(r"\b(skewguard_\w+)(?: \(\)|\()", manual_page())
    return sorted(set(calls) - set(told))


def manual(known: Known, library: pathlib.Path, folder: pathlib.Path) -> None:
    """The manual tells of each call, and its example runs with either library."""
    if untold_calls():
        sys.exit(f"packaging/skewguard.3 does not tell of {', '.join(untold_calls())}")
    place = folder / "manual"
    place.mkdir()
    (place / "first.c").write_text(manual_example(), encoding="utf-8")
    strict = ["cc", "-std=c99", "-Wall", "-Wextra", "-pedantic", "-Werror", "first.c"]
    for named in ("-lskewguard", str(library / "libskewguard.a")):
        printed([*strict, "-o", "first", named], cwd=place, environment=known)
        told = printed(["./first"], cwd=place, environment=known)
        wanted("the manual's example", told, "KIM: REFUSED 10 23000 COVERED ALL\n")


class Way(typing.NamedTuple):
    """A way to use the product that a page shows: the files that lie in its folder, a command, and what it prints."""

    files: dict[str, str]
    command: str
    printed: str


def ways(name: str = "README.md") -> dict[str, Way]:
    """Each way of a page, by the file that its command runs.

    Above the text of a file stands a paragraph that ends with its name and, where it is run, with the command. Files
    without a command lie in the folder of each way. What a script prints stands beside its events; what the others
    print is said once.
    """
    whole = page(name)
    said = "".join(f"{line}\n" for line in re.findall(r"prints `([^`]+)`\.", whole))
    shared: dict[str, str] = {}
    found: dict[str, Way] = {}
    for label, text in re.findall(r"^((?:[^\n]+\n)+)\n```\w+\n(.*?)^```$", whole, re.MULTILINE | re.DOTALL):
        end = re.search(r"`([\w./]+)`(?:, run by\s`([^`]+)`)?:\n$", label)
        if end and end.group(2):
            beside = "".join(re.findall(r"-- (.+\n)", text)) if end.group(1).endswith(".sql") else said
            of_runs = re.search(r"^print\(.*\)  # (.+\n)", text, re.MULTILINE)  # what each run of a script prints
            if of_runs:
                beside = of_runs.group(1).replace(", ", "\n")
            found[end.group(1)] = Way(shared | {end.group(1): text}, end.group(2), beside)
        elif end:
            shared[end.group(1)] = text
    return found


def run_way(name: str, way: Way, place: pathlib.Path, known: Known) -> None:
    """Runs a way in an empty folder. Of what a script prints the first lines have to be those beside its events."""
    place.mkdir()
    for path, text in way.files.items():
        (place / path).parent.mkdir(exist_ok=True)
        (place / path).write_text(text, encoding="utf-8")
    told = printed(["bash", "-ec", way.command], cwd=place, environment=known)
    if name.endswith(".sql"):
        told = "".join(told.splitlines(keepends=True)[:way.printed.count("\n")])
    wanted(f"{name} of the page", told, way.printed)


def rules(known: Known, folder: pathlib.Path) -> None:
    """The program takes each block of rules of docs/LANGUAGE.md.

    What tables a block does not make are those of the page's first block. A constraint without CONSTRAINT has its name
    in a comment behind it.
    """
    language = page("docs/LANGUAGE.md")
    texts = code(language, "sql")
    tables = re.findall(r"^(CREATE TABLE (\w+) .*\n)", texts[0], re.MULTILINE)
    named = [(text, [found[found.lastindex or 0] for found in RULE.finditer(text)]) for text in texts]
    written = sum(len(re.findall("^CREATE ASSERTION ", text, re.MULTILINE)) for text in texts)
    if written != language.count("\nCREATE ASSERTION "):
        sys.exit("docs/LANGUAGE.md has a rule outside of its blocks of SQL")
    place = folder / "rules"
    place.mkdir()
    (place / "script.sql").touch()
    for text, names in named:
        if names:
            others = "".join(table for table, name in tables if f"CREATE TABLE {name} " not in text)
            (place / "defs.sql").write_text(others + text, encoding="utf-8")
            told = printed(REPLAY, cwd=place, environment=known)
            truths = re.sub(" (TRUE|UNKNOWN)$", "", told, flags=re.MULTILINE)
            taken = "".join(f"{name}\n" for name in [f"ASSERTIONS {len(names)}", *names])
            wanted(f"{', '.join(names)} of docs/LANGUAGE.md", truths, f"COMMITS 0\nSERIAL\nREFUSED 0\n{taken}")


def replayed(events: str, known: Known, place: pathlib.Path) -> str:
    """The answers to events over a table T with two rows."""
    place.mkdir(exist_ok=True)
    (place / "defs.sql").write_text(ROWS_OF_T, encoding="utf-8")
    (place / "script.sql").write_text(events, encoding="utf-8")
    return printed(REPLAY, cwd=place, environment=known)


def with_lines(answers: str) -> str:
    """The answers with a line for each row: the rows stand behind a colon, one behind the other."""
    return re.sub(r"^(\w+: SELECT \d+): (.*)$", lambda found: "\n  ".join([found[1], *found[2].split("; ")]), answers,
        flags=re.MULTILINE)


def answers_of_examples(shown: Iterable[str], known: Known, folder: pathlib.Path) -> None:
    """The answers beside events in docs/LANGUAGE.md stand one behind the other in what an example prints.

    But for those that are shown otherwise. Events of a table T are replayed.
    """
    reports = [path.read_text(encoding="utf-8") for path in TOP.glob("examples/*/expected.txt")]
    for events in re.findall(r"^```sql\n((?:\w+: .*; +-- .*\n)+)```$", page("docs/LANGUAGE.md"), re.MULTILINE):
        answers = with_lines("".join(re.findall(r"-- (.+\n)", events)))
        if " T " in events:
            wanted("a script of docs/LANGUAGE.md", replayed(events, known, folder / "t")[: len(answers)], answers)
        elif events not in shown and not any(f"\n{answers}" in f"\n{one}" for one in reports):
            sys.exit(f"no example prints what docs/LANGUAGE.md has:\n{answers}")


def pages(known: Known, folder: pathlib.Path, without_rust: bool) -> None:
    """Runs each way that the pages show."""
    (folder / "skewguard").symlink_to(TOP)
    found, language = ways(), ways("docs/LANGUAGE.md")
    shown = ["script.sql", "first.c", "first.py", "src/main.rs", "books.py"]
    if list(found) != shown or list(language) != ["script.sql"]:
        sys.exit(f"README.md shows {', '.join(found)}, and docs/LANGUAGE.md {', '.join(language)}")
    if without_rust:
        del found["src/main.rs"]
    quiet = known | {"CARGO_TERM_QUIET": "true", "CARGO_NET_OFFLINE": "true"}
    for name, way in found.items():
        # (a crate that stands on the one for Rust needs nothing where it runs)
        run_way(name, way, folder / name.replace("/", "_"), unaided(quiet) if name.endswith(".rs") else quiet)
    run_way("script.sql", language["script.sql"], folder / "language", quiet)
    rules(known, folder)
    answers_of_examples(language["script.sql"].files.values(), known, folder)


def main() -> None:
    words = parser_of(__doc__, whole=True)
    words.add_argument("--library", type=pathlib.Path)
    words.add_argument("--program", type=pathlib.Path, default=PROGRAM)
    words.add_argument("--without-rust", action="store_true")
    words.add_argument("--sanitized", action="store_true")
    words.add_argument("--manual", action="store_true")
    asked = words.parse_args()
    if asked.manual:
        print(manual_example(), end="")
        return
    if not asked.sanitized and not asked.program.exists():
        sys.exit(f"there is no program at {asked.program}: `rt run` in crates/skewguard makes it")
    if not asked.sanitized and not asked.without_rust and not shutil.which("cargo"):
        sys.exit("there is no cargo: --without-rust leaves Rust out")
    with temporary_folder() as folder:
        library = linked((asked.library or library_in(folder, quiet=True)).resolve(), folder)
        known = environment(library, asked.program.resolve(), folder)
        if asked.sanitized:
            if sanitized_extension(known, folder / "sanitized") is None:
                sys.exit("the compiler has no AddressSanitizer")
            print("the extension: all ran as it has to, under AddressSanitizer")
            return
        is_sanitized = python_implementations(known, folder)
        python_package(known, library, folder)
        if not asked.without_rust:
            rust_tests(known)
        manual(known, library, folder)
        pages(known, folder, asked.without_rust)
    missing = [", without Rust"] * asked.without_rust + [", without AddressSanitizer"] * (not is_sanitized)
    print("the languages: all ran as they have to" + "".join(missing))


if __name__ == "__main__":
    main()
