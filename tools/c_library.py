#!/usr/bin/env python3
"""Builds the C library into a folder, of the proved archive and of bindings/c/journal.c.

    tools/c_library.py FOLDER [--archive FILE | --behind-gate]

FOLDER gets skewguard.h, libskewguard.a, and libskewguard.so.0.1.0 with the links libskewguard.so.0 (its soname) and
libskewguard.so. Of either library only the functions that the header declares can be seen. Without --archive, `rt lib`
proves and builds crates/skewguard_c/out/libskewguard_c.a; it takes no time where nothing has changed.

With --behind-gate the crates below are those that `rt ci` has just proved from nothing and left built. It marks them as
no work of one's own, so `rt lib` would prove them all once more; here the compiler is called over them by what `rt` is
made of, and proves skewguard_c alone again. Where checks of one's own have kept some of the crates, `rt ci` has put
them back in place of its own, and they are no set that was built together: then it is `rt lib` all the same.
"""
import os
import pathlib
import shutil
import sys

from harness import crates
from harness.arguments import parser_of
from harness.programs import TOP, carry_out
from harness.texts import temporary_folder

CRATE = TOP / "crates" / "skewguard_c"
HEADER = TOP / "bindings" / "c" / "skewguard.h"
SONAME = "libskewguard.so.0"
FILE = "libskewguard.so.0.1.0"
JOURNAL = TOP / "bindings" / "c" / "journal.c"
PROVED = tuple(f"skewguard_library_{name}" for name in ("open", "call", "close", "draw", "open_journal", "take_calls"))
EXPORTS = (*PROVED, *(f"skewguard_journal_{name}" for name in (
    "open", "call", "checkpoint", "checkpoint_bytes", "close", "start", "take", "make", "made", "failure")))


def proved_archive() -> pathlib.Path:
    """What `rt lib` makes, over the work that earlier checks kept."""
    carry_out(["rt", "lib"], cwd=CRATE)
    return CRATE / "out" / "libskewguard_c.a"


def archive_behind_gate() -> pathlib.Path:
    """What the compiler makes over the crates that `rt ci` has left, and proves as it does."""
    sys.path.insert(0, str(kit() / "bin"))
    import rtlib

    rtlib.Crate.cuts_libraries = True
    crate = rtlib.Crate(str(CRATE), str(TOP), {})
    if any(library.is_built() for library in crate.below()):
        return proved_archive()
    if crate.build_static([]) or not crate.is_proved:
        sys.exit("c_library.py: skewguard_c was not built over what `rt ci` has left")
    return CRATE / "out" / "libskewguard_c.a"


def kit() -> pathlib.Path:
    """The folder of the toolchain, which has `rt` in its bin/."""
    return crates.kit("c_library.py: there is no `rt` to find the kit by")


def memory_archive() -> pathlib.Path:
    """The kit's calls of malloc."""
    return kit() / "c" / "liblibc_c.a"


def one_object(archive: pathlib.Path, work: pathlib.Path) -> pathlib.Path:
    """All of both archives, in which only the exports can be seen."""
    whole, journal = work / "skewguard.o", work / "journal.o"
    carry_out(["cc", "-std=c99", "-O2", "-Wall", "-Wextra", "-Werror", "-fPIC", "-c", JOURNAL, "-o", journal])
    carry_out(["ld", "-r", "-o", whole, journal, "--whole-archive", archive, "--no-whole-archive", memory_archive()])
    carry_out(["objcopy", *(f"--keep-global-symbol={name}" for name in EXPORTS), whole])
    return whole


def static_library(whole: pathlib.Path, folder: pathlib.Path) -> None:
    library = folder / "libskewguard.a"
    library.unlink(missing_ok=True)
    carry_out(["ar", "rcsD", library, whole])


def shared_library(whole: pathlib.Path, work: pathlib.Path, folder: pathlib.Path) -> None:
    names = work / "exports.map"
    names.write_text("{ global: " + " ".join(f"{name};" for name in EXPORTS) + " local: *; };\n")
    link = (f"-Wl,-soname,{SONAME}", f"-Wl,--version-script={names}", "-Wl,--gc-sections", "-Wl,--no-undefined")
    more = ("-Wl,-z,relro,-z,now", "-Wl,--build-id=sha1")
    carry_out(["cc", "-shared", "-s", *link, *more, "-o", folder / FILE, whole])
    for link_name, target in ((SONAME, FILE), ("libskewguard.so", SONAME)):
        link_path = folder / link_name
        link_path.unlink(missing_ok=True)
        os.symlink(target, link_path)


def main() -> None:
    words = parser_of(__doc__)
    words.add_argument("folder", type=pathlib.Path)
    made = words.add_mutually_exclusive_group()
    made.add_argument("--archive", type=pathlib.Path, help="what `rt lib` made; without it `rt lib` is called")
    made.add_argument("--behind-gate", action="store_true", help="over the crates that `rt ci` has just proved")
    given = words.parse_args()
    archive = given.archive or (archive_behind_gate() if given.behind_gate else proved_archive())
    given.folder.mkdir(parents=True, exist_ok=True)
    shutil.copyfile(HEADER, given.folder / HEADER.name)
    with temporary_folder() as work:
        whole = one_object(archive.resolve(), work)
        static_library(whole, given.folder)
        shared_library(whole, work, given.folder)


if __name__ == "__main__":
    main()
