#!/usr/bin/env python3
"""Runs the tests of the C library.

    bindings/c/run_tests.py [--library FOLDER]

FOLDER is what tools/c_library.py made; without it, it is made of the proved archive. The header is compiled as C99 and
as C++11 without a warning, and so are plain loops of rows (tests/loop.c), at each level of optimisation and by what
pkg-config says of the package, where there is pkg-config. Every call and every status (tests/calls.c), threads with
little stack and with a skewguard each (tests/threads.c), a journal of which each call on its file fails in turn
(tests/journal.c), and the worked examples through the library against their reports (tests/replay.c), are run plain and
under AddressSanitizer, which also looks for what was not given back. Then the examples are run with each allocation
refused in turn: a call that found no memory is made once more, and the report has to come out the same. The last line
says what passed; the status is 1 where something did not.
"""
import concurrent.futures
import os
import pathlib
import shutil
import sys

sys.path.append(str(pathlib.Path(__file__).resolve().parent.parent.parent / "tools"))

from harness.arguments import parser_of  # noqa: E402
from harness.libraries import library_in  # noqa: E402
from harness.programs import TOP, Answer, Word, run  # noqa: E402
from harness.refusing import run_refusing, shim  # noqa: E402
from harness.texts import read, shown, temporary_folder  # noqa: E402

HERE = pathlib.Path(__file__).resolve().parent
EXAMPLES = "on-call", "ledger", "booking"
PROGRAMS = "calls", "threads", "journal", "replay"

# The calls on the file of a journal, each of which a test lets fail.
WRAPPED = tuple(f"-Wl,--wrap={name}" for name in ("pwrite", "fdatasync", "fsync", "linkat", "unlinkat", "renameat"))
SANITIZERS = "-fsanitize=address,undefined", "-fno-sanitize-recover=all"
WARNINGS = "-Wall", "-Wextra", "-pedantic", "-Werror"
LANGUAGES = ("-x", "c", "-std=c99"), ("-x", "c++", "-std=c++11")
COMPILED = [(compiler, language) for compiler in ("gcc", "clang") for language in LANGUAGES]
MOST_ALLOCATIONS = 20000

# What tests/loop.c prints.
LOOPS = "1 ONE 10 1\n2 TWO 20 1\n10\n20\n"


class Tests:
    """What was run, and what of it failed."""

    def __init__(self) -> None:
        self.passed = 0
        self.failed = 0

    def note(self, name: str, holds: bool, why: str = "") -> None:
        self.passed += holds
        self.failed += not holds
        if not holds:
            print(f"FAILED {name}\n{shown(why)}", file=sys.stderr)


def compile_headers(tests: Tests, work: pathlib.Path) -> None:
    """The header alone, as both languages and by both compilers."""
    source = work / "header.c"
    source.write_text('#include "skewguard.h"\nint main(void) { return 0; }\n')
    for compiler, language in COMPILED:
        made = run([compiler, *language, *WARNINGS, "-I", HERE, "-c", source, "-o", work / "header.o"])
        tests.note(f"header by {compiler} {language[1]}", made.status == 0, made.error)


def compile_loops(tests: Tests, library: pathlib.Path, work: pathlib.Path) -> None:
    """A program as anyone writes it, by both compilers at each level, without a warning; it has to print its rows."""
    for compiler, language in COMPILED:
        for level in ("-O0", "-O1", "-O2", "-O3", "-Os"):
            words = (compiler, level, "-Wall", "-Wextra", "-Werror", f"-I{library}", *language)
            ran = build_loop(library, work, *words)
            tests.note(f"loops by {compiler} {level} {language[1]}", ran.output == LOOPS, ran.output + ran.error)


def build_loop(library: pathlib.Path, work: pathlib.Path, *words: Word) -> Answer:
    """What the program of loops prints, or the compiler says."""
    archive = library / "libskewguard.a"
    made = run([*words, HERE / "tests" / "loop.c", "-x", "none", archive, "-o", work / "loop"])
    return made if made.status else run([work / "loop"])


def compile_by_package(tests: Tests, library: pathlib.Path, work: pathlib.Path) -> None:
    """The same by the flags of packaging/skewguard.pc, as if it were installed in a root folder."""
    if not shutil.which("pkg-config"):
        return
    root, triplet = work / "root", "x86_64-linux-gnu"
    libraries = root / "usr/lib" / triplet
    (libraries / "pkgconfig").mkdir(parents=True)
    (root / "usr/include").mkdir()
    shutil.copy(library / "skewguard.h", root / "usr/include")
    for name in ("libskewguard.so", "libskewguard.so.0"):
        shutil.copy(library / name, libraries)
    text = (TOP / "packaging/skewguard.pc").read_text().replace("@TRIPLET@", triplet)
    (libraries / "pkgconfig/skewguard.pc").write_text(text.replace("@VERSION@", "0.1.0"))
    places = {"PKG_CONFIG_LIBDIR": str(libraries / "pkgconfig"), "PKG_CONFIG_SYSROOT_DIR": str(root)}
    places |= {"PKG_CONFIG_ALLOW_SYSTEM_CFLAGS": "1", "PKG_CONFIG_ALLOW_SYSTEM_LIBS": "1"}
    asked = run(["pkg-config", "--cflags", "--libs", "skewguard"], more=places)
    warnings = ("-O2", "-Wall", "-Wextra", "-Werror")
    made = run(["cc", *warnings, HERE / "tests/loop.c", *asked.output.split(), "-o", work / "by"])
    ran = made if made.status else run([work / "by"], environment={"LD_LIBRARY_PATH": str(libraries)})
    tests.note("by pkg-config", ran.output == LOOPS, asked.output + asked.error + ran.output + ran.error)


def build(name: str, library: pathlib.Path, out: pathlib.Path, *flags: str) -> pathlib.Path:
    """A test, linked with the static library."""
    flags += WRAPPED if name == "journal" else ()
    words: list[Word] = ["clang", "-std=c99", "-g", "-pthread", *flags, *WARNINGS, "-I", library, "-I", HERE / "tests"]
    made = run([*words, HERE / "tests" / f"{name}.c", library / "libskewguard.a", "-o", out])
    if made.status:
        sys.exit(shown(made.error))
    return out


def example(name: str) -> tuple[pathlib.Path, pathlib.Path, str]:
    """The files of an example, and its report."""
    folder = TOP / "examples" / name
    return folder / "defs.sql", folder / "script.sql", read(folder / "expected.txt")


def run_programs(tests: Tests, kind: str, *programs: pathlib.Path) -> None:
    """Each program, and each example by the last."""
    *others, replay = programs
    for program in others:
        given = run([program])
        tests.note(f"{program.name}, {kind}", given.status == 0, given.output + given.error)
    for name in EXAMPLES:
        definitions, script, report = example(name)
        given = run([replay, definitions, script])
        is_as_wanted = given.status == 0 and given.output == report
        tests.note(f"{name}, {kind}", is_as_wanted, given.output + given.error)


def refused_run(replay: pathlib.Path, preload: str, name: str, number: int) -> tuple[bool, bool]:
    """Whether an allocation was refused, and whether the report was the same all the same."""
    definitions, script, report = example(name)
    answer, refused = run_refusing([replay, definitions, script], preload, REFUSE=number)
    return bool(refused), answer.status == 0 and answer.output == report


def refuse_each(tests: Tests, replay: pathlib.Path, preload: str, name: str) -> int:
    """The example with its first allocation refused, its second, and so on, up to a run that none is refused in."""
    refused = 0
    differs: list[int] = []
    with concurrent.futures.ThreadPoolExecutor(os.cpu_count()) as pool:
        for start in range(1, MOST_ALLOCATIONS, 256):
            numbers = range(start, start + 256)
            runs = list(pool.map(lambda number: refused_run(replay, preload, name, number), numbers))
            refused += sum(told for told, _ in runs)
            differs += [number for number, (_, same) in zip(numbers, runs) if not same]
            if not all(told for told, _ in runs):
                break
    tests.note(f"{name}, {refused} allocations refused", refused > 0 and not differs, f"differs: {differs[:20]}")
    return refused


def main() -> None:
    words = parser_of(__doc__)
    words.add_argument("--library", type=pathlib.Path, help="the folder that tools/c_library.py made")
    given = words.parse_args()
    tests = Tests()
    with temporary_folder() as work:
        library = given.library or library_in(work)
        compile_headers(tests, work)
        compile_loops(tests, library.resolve(), work)
        compile_by_package(tests, library.resolve(), work)
        plain = [build(name, library, work / name) for name in PROGRAMS]
        run_programs(tests, "plain", *plain)
        sanitized = [build(name, library, work / f"{name}_sanitized", *SANITIZERS) for name in PROGRAMS]
        run_programs(tests, "sanitized", *sanitized)
        preload = shim("refuse_malloc", work)
        refused = sum(refuse_each(tests, plain[-1], preload, name) for name in EXAMPLES)
    print(f"C library: {tests.passed} passed, {tests.failed} failed, {refused} allocations refused")
    sys.exit(tests.failed != 0)


if __name__ == "__main__":
    main()
