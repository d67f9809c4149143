"""Where the shared library is."""

from __future__ import annotations

import os
from pathlib import Path
from typing import Callable, Iterator, TypeVar

from .errors import InterfaceError

# The name of the interface that this package was written for: another number is another interface.
NAME = "libskewguard.so.0"

T = TypeVar("T")


def loaded_by(load: Callable[[str], T]) -> T:
    """What a function gives for the library's file. It raises OSError for one that can't be loaded.

    The file is the one that the environment names in SKEWGUARD_LIBRARY; without that the one that lies beside this
    module, and else the one that the system finds. Raises InterfaceError where there is none, and where the function
    raises AttributeError: the file is another library.
    """
    faults = []
    for name in _candidates():
        try:
            return load(name)
        except OSError as fault:
            faults.append(str(fault))
        except AttributeError as fault:
            raise InterfaceError(f"{name} is no library of skewguard: {fault}") from None
    raise InterfaceError(
        f"the library {NAME} was not found ({'; '.join(faults)}): install the package libskewguard0, or name the file "
        "in the environment variable SKEWGUARD_LIBRARY"
    )


def _candidates() -> Iterator[str]:
    named = os.environ.get("SKEWGUARD_LIBRARY")
    if named:
        yield named
        return
    beside = Path(__file__).with_name(NAME)
    if beside.exists():
        yield str(beside)
    yield NAME
