"""Texts, as files in a folder that goes with them. In a text each byte is one character (latin-1): none is lost."""
from __future__ import annotations

import contextlib
import os
import pathlib
import tempfile
import typing
from collections.abc import Iterable, Iterator, Sequence

NAMES = "defs.sql", "script.sql"
Text = typing.Union[str, bytes]
Path = typing.Union[str, "os.PathLike[str]"]
Value = typing.Union[None, int, str]


def in_bytes(text: str) -> str:
    """Characters as their bytes in UTF-8, each of which is one character."""
    return text.encode("utf-8").decode("latin-1")


def in_characters(text: str) -> str:
    """The characters that the bytes of a text spell in UTF-8; UnicodeDecodeError where they spell none."""
    return text.encode("latin-1").decode("utf-8")


def shown(text: str) -> str:
    """The same for a person to read: where bytes spell none, a mark stands for them."""
    return text.encode("latin-1").decode("utf-8", "replace")


def literal(value: Value) -> str:
    """A value as the language writes it."""
    if isinstance(value, str):
        return "'" + value.replace("'", "''") + "'"
    return "NULL" if value is None else str(value)


def ended(texts: Iterable[str]) -> str:
    """Definitions, or events, each on a line of its own and with the mark that ends it."""
    return "".join(f"{text};\n" for text in texts)


def read(path: Path, otherwise: str = "") -> str:
    """The text of a file, or what is given where there is none."""
    file = pathlib.Path(path)
    return file.read_bytes().decode("latin-1") if file.is_file() else otherwise


def write(path: Path, text: Text) -> str:
    """Writes a text, and gives the path."""
    pathlib.Path(path).write_bytes(text if isinstance(text, bytes) else text.encode("latin-1"))
    return str(path)


def written(path: Path, pieces: Iterable[str]) -> str:
    """The same of pieces of a text, which need not be in memory at once."""
    with open(path, "w", encoding="latin-1") as out:
        out.writelines(pieces)
    return str(path)


@contextlib.contextmanager
def temporary_folder(within: Path | None = None) -> Iterator[pathlib.Path]:
    """A new folder, in another one where that is given; it goes with all that is in it."""
    with tempfile.TemporaryDirectory(dir=within) as folder:
        yield pathlib.Path(folder)


def memory_folder() -> str | None:
    """The folder whose files are in memory; None where there is none."""
    return "/dev/shm" if os.path.isdir("/dev/shm") else None


@contextlib.contextmanager
def placed(*texts: Text, names: Sequence[str] = NAMES) -> Iterator[list[str]]:
    """The paths of files with these texts, DEFS and SCRIPT where no other names are given."""
    with temporary_folder() as folder:
        yield [write(folder / name, text) for name, text in zip(names, texts)]
