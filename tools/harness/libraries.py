"""The C library, and the package of Python that calls it, built for a run."""
from __future__ import annotations

import pathlib
import sys
import zipfile

from .programs import TOP, Environment, carry_out, printed

HEADER_FOLDER = TOP / "bindings/c"
PYTHON = TOP / "bindings/python"
SONAME = "libskewguard.so.0"


def library_in(folder: pathlib.Path, *, quiet: bool = False) -> pathlib.Path:
    """The static and the shared library, built into a folder of this one."""
    place = folder / "library"
    carry_out([sys.executable, TOP / "tools/c_library.py", place], quiet=quiet)
    return place


def linked(library: pathlib.Path, folder: pathlib.Path, *, static: bool = True) -> pathlib.Path:
    """A folder in this one where the libraries have the names that compilers and programs look for."""
    place = folder / "linked"
    place.mkdir()
    names = {"libskewguard.so": "libskewguard.so", SONAME: "libskewguard.so"}
    names |= {"libskewguard.a": "libskewguard.a"} if static else {}
    for name, built in names.items():
        (place / name).symlink_to((library / built).resolve(strict=True))
    return place


def packed(what: str, sources: pathlib.Path, folder: pathlib.Path,
           environment: Environment | None = None) -> pathlib.Path:
    """The archive, "sdist" or "wheel", that the sources of the package make of themselves in a folder."""
    words = sys.executable, "-c", f"import sys, wheels; print(wheels.build_{what}(sys.argv[1]))", folder
    return folder / printed(words, cwd=sources / "backend", environment=environment).splitlines()[-1]


def unpacked(wheel: pathlib.Path) -> pathlib.Path:
    """A folder beside a wheel, with the packages that are in it."""
    place = wheel.parent / "packages"
    with zipfile.ZipFile(wheel) as files:
        files.extractall(place)
    return place
