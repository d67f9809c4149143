"""The library with faults, as a program would meet them: tests import this before they open a manager.

Where there is no C compiler it is not there, and `library` is None.
"""

import atexit
import contextlib
import ctypes
import os
import shutil
import subprocess
import tempfile
from pathlib import Path

from skewguard import _library

ANY = 0xFFFFFFFF
OPEN = 16


def _built():
    """A library in front of the one that tests are to use, in a folder of its own."""
    compiler = shutil.which("cc")
    if not compiler:
        return None
    folder = tempfile.mkdtemp()
    atexit.register(shutil.rmtree, folder, ignore_errors=True)
    path = Path(folder, "libfaulty.so")
    source = Path(__file__).with_name("faulty_library.c")
    flags = ["-std=c99", "-Wall", "-Wextra", "-O1", "-g", "-shared", "-fPIC"]
    subprocess.run([compiler, *flags, str(source), "-o", str(path), "-ldl"], check=True)
    os.environ["SKEWGUARD_BEHIND"] = next(_library._candidates())
    os.environ["SKEWGUARD_LIBRARY"] = str(path)
    return _declared(ctypes.CDLL(str(path)))


def _declared(faulty):
    faulty.faulty_answer.argtypes = [ctypes.c_uint32, ctypes.c_int32, ctypes.c_uint32, ctypes.c_size_t]
    faulty.faulty_answer.restype = None
    faulty.faulty_calls.argtypes = [ctypes.c_uint32]
    faulty.faulty_calls.restype = ctypes.c_uint64
    faulty.faulty_open_libraries.restype = ctypes.c_int64
    return faulty


library = _built()


@contextlib.contextmanager
def answering(status, operation=ANY, times=2**32 - 1, length=0):
    """A block in which so many calls answer with a status. With 3, no memory for the reply, they are made."""
    library.faulty_answer(operation, status, times, length)
    try:
        yield
    finally:
        library.faulty_answer(ANY, 0, 0, 0)


def calls(operation):
    """How often an operation was called since this was asked last."""
    return library.faulty_calls(operation)


def open_libraries():
    """How many libraries are open."""
    return library.faulty_open_libraries()
