"""Builds the wheel and the source archive of this package (PEP 517, PEP 660), with the standard library alone.

The extension in C is built by the system's compiler, for Python's stable ABI. Where there is no compiler, or no header
of Python, or where SKEWGUARD_CTYPES=1 is set, the wheel has none, and the package calls the library by ctypes.

An archive is the same for the same files: times are SOURCE_DATE_EPOCH, or 1980. Where the environment names a shared
library in SKEWGUARD_BUNDLE, that file goes into the wheel, and the package then needs none on the system.
"""

import base64
import gzip
import hashlib
import io
import os
import re
import shlex
import shutil
import subprocess
import sys
import sysconfig
import tarfile
import tempfile
import time
import zipfile
from pathlib import Path

TOP = Path(__file__).resolve().parent.parent
BUNDLED = "skewguard/libskewguard.so.0"
EXTENSION = "skewguard/_native.abi3.so"

# The header of the library: in a source archive beside the extension's files, in the repository with the others of C.
HEADERS = TOP / "native/skewguard.h", TOP.parent / "c/skewguard.h"
FLAGS = ["-std=gnu11", "-O2", "-DNDEBUG", "-flto", "-fno-plt", "-fPIC", "-fvisibility=hidden"]
LINKED = ["-shared", "-s", "-Wl,-z,relro,-z,now", "-ldl", "-pthread"]


def _said(name):
    """What pyproject.toml says in one line."""
    text = (TOP / "pyproject.toml").read_text(encoding="utf-8")
    return re.search(rf'^{name} = "(.*)"$', text, re.MULTILINE).group(1)


NAME, VERSION = _said("name"), _said("version")
INFO = f"{NAME}-{VERSION}.dist-info"


def _metadata():
    return (
        f"Metadata-Version: 2.1\nName: {NAME}\nVersion: {VERSION}\nSummary: {_said('description')}\n"
        f"Requires-Python: {_said('requires-python')}\nDescription-Content-Type: text/markdown\n\n"
        + (TOP / "README.md").read_text(encoding="utf-8")
    ).encode()


def _tag(files):
    """For which Pythons a wheel of these files is."""
    platform = re.sub(r"[-.]", "_", sysconfig.get_platform())
    if EXTENSION in files:
        return f"cp39-abi3-{platform}"
    return f"py3-none-{platform if BUNDLED in files else 'any'}"


def _about_wheel(files):
    """The files of the folder with what is said of the wheel."""
    pure = "true" if _tag(files).endswith("any") else "false"
    wheel = f"Wheel-Version: 1.0\nGenerator: skewguard\nRoot-Is-Purelib: {pure}\nTag: {_tag(files)}\n"
    return {f"{INFO}/METADATA": _metadata(), f"{INFO}/WHEEL": wheel.encode()}


def _sources():
    """The files of the package that are Python's, by their names in a wheel."""
    files = sorted(it for it in (TOP / "src/skewguard").iterdir() if it.suffix in (".py", ".typed"))
    return {f"skewguard/{it.name}": it.read_bytes() for it in files}


def _header():
    return next(it for it in HEADERS if it.exists())


def _compiler():
    """The words of the system's compiler; none where there is none."""
    for words in (os.environ.get("CC"), sysconfig.get_config_var("CC"), "cc"):
        if words and shutil.which(shlex.split(words)[0]):
            return shlex.split(words)
    return []


def _build_extension(target):
    """Compiles the extension. Raises OSError where that can't be."""
    include = Path(sysconfig.get_paths()["include"])
    if sys.implementation.name != "cpython" or not (include / "Python.h").exists():
        raise OSError(f"there is no Python.h in {include}")
    if not _compiler():
        raise OSError("there is no C compiler")
    own = {name: shlex.split(os.environ.get(name, "")) for name in ("CPPFLAGS", "CFLAGS", "LDFLAGS")}
    places = [f"-I{it}" for it in (TOP / "native", _header().parent, include)]
    sources = [str(it) for it in sorted((TOP / "native").glob("*.c"))]
    words = [*_compiler(), *FLAGS, *own["CPPFLAGS"], *own["CFLAGS"], *places, *sources, "-o", target]
    done = subprocess.run([*words, *own["LDFLAGS"], *LINKED], stderr=subprocess.PIPE, text=True, check=False)
    if done.returncode:
        raise OSError(done.stderr)


def extension():
    """The bytes of the extension; None where it can't be built, or is not wanted."""
    if os.environ.get("SKEWGUARD_CTYPES") == "1":
        return None
    with tempfile.TemporaryDirectory() as folder:
        built = Path(folder) / "built.so"
        try:
            _build_extension(str(built))
        except OSError as fault:
            print(f"skewguard: the package will use ctypes, since its extension was not built: {fault}", file=sys.stderr)
            return None
        return built.read_bytes()


def _of_this_machine():
    """The files of the package that are not for every machine: the extension, and the library of SKEWGUARD_BUNDLE."""
    found, built, bundle = {}, extension(), os.environ.get("SKEWGUARD_BUNDLE")
    if built:
        found[EXTENSION] = built
    if bundle:
        found[BUNDLED] = Path(bundle).read_bytes()
    return found


def _when():
    return max(int(os.environ.get("SOURCE_DATE_EPOCH", "315532800")), 315532800)


def _write_wheel(folder, files):
    """A wheel of these files, with the list of their sums."""
    tag = _tag(files)
    files = {**files, **_about_wheel(files)}
    lines = []
    for name, content in files.items():
        digest = base64.urlsafe_b64encode(hashlib.sha256(content).digest()).rstrip(b"=").decode()
        lines.append(f"{name},sha256={digest},{len(content)}\n")
    files[f"{INFO}/RECORD"] = "".join([*lines, f"{INFO}/RECORD,,\n"]).encode()
    wheel = f"{NAME}-{VERSION}-{tag}.whl"
    with zipfile.ZipFile(Path(folder) / wheel, "w", zipfile.ZIP_DEFLATED) as archive:
        for name, content in files.items():
            member = zipfile.ZipInfo(name, time.gmtime(_when())[:6])
            member.external_attr = 0o644 << 16
            member.compress_type = zipfile.ZIP_DEFLATED
            archive.writestr(member, content)
    return wheel


def build_wheel(wheel_directory, config_settings=None, metadata_directory=None):
    return _write_wheel(wheel_directory, {**_sources(), **_of_this_machine()})


def build_editable(wheel_directory, config_settings=None, metadata_directory=None):
    built = extension()
    if built:
        (TOP / "src" / EXTENSION).write_bytes(built)
    return _write_wheel(wheel_directory, {f"{NAME}.pth": f"{TOP / 'src'}\n".encode()})


def build_sdist(sdist_directory, config_settings=None):
    root = f"{NAME}-{VERSION}"
    files = {it: (TOP / it).read_bytes() for it in ("pyproject.toml", "README.md", "backend/wheels.py")}
    files.update({f"src/{name}": content for name, content in _sources().items()})
    files["native/skewguard.h"] = _header().read_bytes()
    for part in ("native", "tests", "examples"):
        for path in sorted((TOP / part).glob("*.*")):
            files[f"{part}/{path.name}"] = path.read_bytes()
    packed = io.BytesIO()
    with tarfile.open(fileobj=packed, mode="w", format=tarfile.PAX_FORMAT) as archive:
        for name, content in {**files, "PKG-INFO": _metadata()}.items():
            member = tarfile.TarInfo(f"{root}/{name}")
            member.size, member.mtime, member.mode = len(content), _when(), 0o644
            archive.addfile(member, io.BytesIO(content))
    (Path(sdist_directory) / f"{root}.tar.gz").write_bytes(gzip.compress(packed.getvalue(), mtime=_when()))
    return f"{root}.tar.gz"
