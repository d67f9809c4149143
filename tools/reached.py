#!/usr/bin/env python3
"""Says of each public function of a library which runs of the program, or which tests, have called it.

    tools/reached.py FOLDER [--keep]     FOLDER: for what is built (2 GB); --keep: what it has from before is used

The program and the crates of tests are built as `rt try` does, without proof, with a mark at the head of each function.
Then the program runs the folders of texts (tools/folders.py), tools/threads.py and tools/faulty_texts.py, the example
crates/rota runs, and each test. Printed are, by crate, how many public functions the runs reach, and by name those that
only tests reach, and those that neither does. Of a generic function one instance is enough.

What neither reaches is to be looked at: a law has an empty body, and is called by none; the crates of the C library are
run by C, Python and Rust (bindings/c/run_tests.py, tools/languages.py), which have no marks.

`rt try` keeps no file, so its module is taken while the compiler has it, for which TMPDIR is a folder of its own.
"""
from __future__ import annotations

import collections
import mmap
import os
import pathlib
import re
import shutil
import subprocess
import sys
import time
import typing
from collections.abc import Callable, Iterator, Sequence

from harness import crates
from harness.arguments import parser_of
from harness.crates import CRATES
from harness.programs import TOP, carry_out, output_of

TESTS = "manager_rows", "skewguard_c", "tests_of_libraries", "tests_of_programs"
NO_LIBRARIES = "histories", "manager_rows", "tests_of_libraries", "tests_of_programs"
RUNS = "folders.py", "threads.py", "faulty_texts.py"
DEFINE = re.compile(r'^define .*?@("(?:[^"\\]|\\.)*"|[\w.$+-]+)\(')
TYPE = re.compile(r"^\s*(?:pub(?:\([\w ]+\))? )?(?:struct|enum) (\w+)", re.MULTILINE)
LABEL = re.compile(r'^("(?:[^"\\]|\\.)*"|[-\w.$]+):')
SizeAndTime = tuple[int, int]
SIZE = 1 << 20  # at least as many bytes as a module has functions
MARKS = """
#include <fcntl.h>
#include <stdlib.h>
#include <sys/mman.h>
#include <unistd.h>
char marks[%d] __attribute__((aligned(4096)));
/* The marks of all runs stand in one file. */
__attribute__((constructor)) static void share(void)
{
    const char *name = getenv("MARKS");
    int file = name ? open(name, O_RDWR | O_CREAT, 0644) : -1;
    if (file >= 0 && ftruncate(file, sizeof marks) == 0)
        mmap(marks, sizeof marks, PROT_READ | PROT_WRITE, MAP_SHARED | MAP_FIXED, file, 0);
}
""" % SIZE


class Owner(typing.NamedTuple):
    """Of what a function is: a type, under which name it is compiled, and whether it is of a trait."""

    name: str
    path: str
    of_trait: bool


def kit() -> pathlib.Path:
    """The folder of the toolchain."""
    return crates.kit("reached.py: there is no `rt` to build with")


def take_module(crate: str, words: Sequence[str], module: pathlib.Path) -> None:
    """Has `rt try` build a crate, and copies the module that the compiler is given."""
    room = module.with_suffix(".room")
    room.mkdir()
    with open(module.with_suffix(".log"), "w", encoding="utf-8") as log:
        known = {**os.environ, "TMPDIR": str(room)}
        with subprocess.Popen(["rt", "try", *words], cwd=CRATES / crate, env=known, stdin=subprocess.DEVNULL,
                stdout=log, stderr=log) as building:
            taken: SizeAndTime | None = None
            while building.poll() is None:
                for found in room.rglob("module.bc"):
                    taken = copy_if_new(found, module, taken)
                time.sleep(0.2)
    shutil.rmtree(room)
    if not module.is_file():
        sys.exit(f"reached.py: {crate} was not built: {module.with_suffix('.log')}")


def copy_if_new(found: pathlib.Path, module: pathlib.Path, taken: SizeAndTime | None) -> SizeAndTime | None:
    """Copies a file that the compiler may remove; gives its size and time once it is whole."""
    try:
        before = found.stat()
        if not before.st_size or (before.st_size, before.st_mtime_ns) == taken:
            return taken
        shutil.copyfile(found, module)
        after = found.stat()
    except FileNotFoundError:
        return taken
    return (after.st_size, after.st_mtime_ns) if after.st_size == before.st_size else taken


def mark(text: pathlib.Path, marked: pathlib.Path, names: pathlib.Path) -> None:
    """Puts a mark at the head of each function of a module's text, and writes the functions' names."""
    store = "  store i8 1, ptr getelementptr inbounds (i8, ptr @marks, i64 {})\n"
    with open(text, encoding="utf-8") as lines, open(marked, "w", encoding="utf-8") as out:
        found: list[str] = []
        is_head = False
        for line in lines:
            if is_head and not LABEL.match(line):
                out.write(store.format(len(found) - 1))
                is_head = False
            out.write(line)
            if line.startswith("define "):
                found.append(name_of(line))
                is_head = True
        out.write("\n@marks = external global i8\n")
    if len(found) > SIZE:
        sys.exit(f"reached.py: {len(found)} functions, and room for {SIZE}")
    names.write_text("".join(f"{name}\n" for name in found), encoding="utf-8")


def name_of(define: str) -> str:
    """The name of the function that a line of a module's text begins."""
    head = DEFINE.match(define)
    return head[1].strip('"') if head else sys.exit(f"reached.py: no function's name is in {define}")


def build(crate: str, words: Sequence[str], folder: pathlib.Path) -> pathlib.Path:
    """The crate as a program with marks."""
    module, program = folder / f"{crate}.bc", folder / crate
    take_module(crate, words, module)
    clang, text, marked = kit() / "toolchain/bin/clang", folder / "module.ll", folder / "marked.ll"
    carry_out([clang, "-S", "-emit-llvm", "-x", "ir", module, "-o", text])
    mark(text, marked, folder / f"{crate}.names")
    carry_out([clang, "-O0", "-w", "-c", "-x", "ir", marked, "-o", folder / "marked.o"])
    (folder / "marks.c").write_text(MARKS, encoding="utf-8")
    libraries = "-Wl,--start-group", kit() / "c/libos_c.a", kit() / "c/liblibc_c.a", "-Wl,--end-group"
    carry_out(["gcc", "-no-pie", folder / "marked.o", folder / "marks.c", *libraries, "-lpthread", "-lm", "-o",
        program])
    for file in (module, text, marked, folder / "marked.o"):
        file.unlink()
    return program


def run_alone(program: pathlib.Path, marks: pathlib.Path) -> None:
    carry_out([program], more={"MARKS": str(marks)}, quiet=True)


def run_tools(program: pathlib.Path, marks: pathlib.Path) -> None:
    """The runs of the gate, of which none may differ."""
    for tool in RUNS:
        carry_out([sys.executable, TOP / "tools" / tool, program], more={"MARKS": str(marks)})


def run_tests(program: pathlib.Path, marks: pathlib.Path) -> None:
    """Each test of a crate, all of which have to pass."""
    for name in re.findall(r"^(\S+): test$", output_of([program, "--list"]), re.MULTILINE):
        carry_out([program, name], more={"MARKS": str(marks)}, quiet=True)


def reached(folder: pathlib.Path, crate: str) -> set[str]:
    """The functions whose mark is set, without the types of an instance."""
    names = (folder / f"{crate}.names").read_text(encoding="utf-8").splitlines()
    with open(folder / f"{crate}.marks", "rb") as file, mmap.mmap(file.fileno(), 0, access=mmap.ACCESS_READ) as marks:
        return {re.sub(r"::<.*", "", name) for name, is_set in zip(names, marks) if is_set}


def exported(crate: str) -> set[str]:
    """The names that a library's root hands out."""
    text = (CRATES / crate / "src/lib.rt").read_text(encoding="utf-8")
    uses = re.findall(r"^pub use \w+::(\{[^}]*\}|\w+);", text, re.MULTILINE)
    items = re.findall(r'^pub (?:struct|enum|trait|(?:unsafe )?(?:extern "C" )?fn) (\w+)', text, re.MULTILINE)
    return {name for use in uses for name in re.findall(r"\w+", use)} | set(items)


def module_of(crate: str, file: pathlib.Path) -> str:
    inside = file.relative_to(CRATES / crate / "src").with_suffix("").parts
    return "::".join([crate, *(name for name in inside if name != "lib")])


def places_of_types(crate: str, files: Sequence[pathlib.Path]) -> dict[str, str]:
    """The module of each type of a crate."""
    found = {}
    for file in files:
        for name in TYPE.findall(file.read_text(encoding="utf-8")):
            found[name] = module_of(crate, file)
    return found


def owner_of(line: str, owner: Owner | None, module: str, types: dict[str, str]) -> Owner | None:
    """Of what the functions are from a line on. A type's own have its module's name, and those of a trait that of the
    module where they stand."""
    head = re.match(r"impl(?:<.*?>)? (?:(?:\w+::)*(\w+)(?:<(\w+))?.*? for )?(?:\w+::)*(\w+)", line)
    if not head:
        return None if line.startswith("}") else owner
    trait, of, name = head.groups()
    if not trait:
        return Owner(name, f"{types.get(name)}::{name}", False)
    path = f"{module}::{name}{trait}{of[0].upper() + of[1:] if of else ''}"
    return Owner(name, path, True) if trait != "Drop" else None


def public_functions(crate: str) -> Iterator[str]:
    """Each public function of a library, and each of a trait for one of its public types, by the name under which it is
    compiled. What lets a value go is called where it ends."""
    files = sorted((CRATES / crate / "src").glob("**/*.rt"))
    handed_out, types = exported(crate), places_of_types(crate, files)
    for file in files:
        owner: Owner | None = None
        module = module_of(crate, file)
        for line in file.read_text(encoding="utf-8").splitlines():
            owner = owner_of(line, owner, module, types)
            found = re.match(r'(    )?(pub )?(?:unsafe )?(?:extern "C" )?fn (\w+)', line)
            if not found:
                continue
            is_inner, is_public, name = found.groups()
            if is_inner and owner and owner.name in handed_out and (is_public or owner.of_trait):
                yield f"{owner.path}::{name}"
            elif not is_inner and is_public and name in handed_out:
                yield f"{module}::{name}"


def show(crate: str, by_runs: set[str], by_tests: dict[str, set[str]]) -> collections.Counter[str]:
    """Prints a crate's functions, and returns how many of them there are, and how many each reaches."""
    functions = list(public_functions(crate))
    left = [name for name in functions if name not in by_runs]
    only_tests = {name: [it for it, names in by_tests.items() if name in names] for name in left}
    print(f"{crate}: {len(functions)} public functions, {len(functions) - len(left)} reached by runs")
    for name, tests in only_tests.items():
        print(f"    {name.removeprefix(f'{crate}::')}: {', '.join(tests) or 'NEITHER'}")
    by_any = sum(bool(tests) for tests in only_tests.values())
    return collections.Counter(all=len(functions), runs=len(functions) - len(left), tests=by_any)


def main() -> None:
    parser = parser_of(__doc__)
    parser.add_argument("folder", type=pathlib.Path)
    parser.add_argument("--keep", action="store_true", help="what the folder has from before is used")
    given = parser.parse_args()
    folder = given.folder.resolve()
    folder.mkdir(parents=True, exist_ok=True)
    runs: list[tuple[str, list[str], Callable[[pathlib.Path, pathlib.Path], None]]] = [
        ("skewguard", ["--", "--help"], run_tools), ("rota", [], run_alone),
        *((name, ["--test"], run_tests) for name in TESTS)]
    for crate, words, run in runs:
        marks = folder / f"{crate}.marks"
        if not given.keep or not marks.is_file():
            marks.unlink(missing_ok=True)
            run(build(crate, words, folder), marks)
    by_runs = reached(folder, "skewguard") | reached(folder, "rota")
    by_tests = {crate: reached(folder, crate) for crate in TESTS}
    libraries = [it.parent.parent.name for it in sorted(CRATES.glob("*/src/lib.rt"))]
    libraries = [name for name in libraries if name not in NO_LIBRARIES]
    counts: collections.Counter[str] = collections.Counter()
    for crate in libraries:
        counts.update(show(crate, by_runs, by_tests))
    neither = counts["all"] - counts["runs"] - counts["tests"]
    print(f"{counts['all']} public functions: {counts['runs']} reached by runs, {counts['tests']} by tests alone, "
        f"{neither} by neither")


if __name__ == "__main__":
    main()
