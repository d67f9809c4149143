"""The bytes of requests and replies, as `skewguard.h` lays them out."""

from __future__ import annotations

import re
from struct import Struct
from typing import Any, Iterable, List, NoReturn, Tuple

from ._numbers import Kind, ValueKind
from .errors import ALL, ParameterError

NUMBER = Struct("<q")
NUMBER_VALUE = Struct("<Bq")
COUNT = Struct("<Q")

# The language takes numbers from -10^15 to 10^15.
LARGEST = 10**15

# A control character of ASCII stands in no text, and half of a surrogate pair is no character.
IN_NO_TEXT = re.compile("[\0-\x1f\x7f\ud800-\udfff]")


class Fault:
    """What a call may find besides the statuses of the library."""

    CLOSED = -1
    ENDED = -2
    POOLED = -3
    CALLING = -4
    OF_PARENT = -5
    OTHER_LIBRARY = -6
    RETRIED = -7
    USED = -8
    NO_TEXT = -9
    IO_ERROR = -16  # as skewguard.h has it


class Role:
    """What a text was to be that was refused."""

    DEFINITIONS = 0
    RULES = 1
    STATEMENT = 2


class State:
    """How a transaction stands."""

    NOT_BEGUN = 0
    OPEN = 1
    COMMITTED = 2
    ROLLED_BACK = 3
    REFUSED = 4
    ENDED = 5
    LOST = 6
    INTERRUPTED = 7


# The numbers that stand in a reply of a kind.
_NUMBERS = {
    Kind.BEGUN: 1,
    Kind.COMMITTED: 1,
    Kind.INSERTED: 1,
    Kind.UPDATED: 1,
    Kind.DELETED: 1,
    Kind.VERDICT: 1,
    Kind.MISUSED: 1,
}

# Kinds of replies that tell of something that was not done.
UNDONE = (Kind.NOTHING, Kind.REFUSAL, Kind.MISUSED)


def number_bytes(number: int) -> bytes:
    """A number of a request."""
    return COUNT.pack(number)


def counted(text: bytes) -> bytes:
    """A text of a request."""
    return COUNT.pack(len(text)) + text


def text_bytes(text: str) -> bytes:
    """The bytes of a text of the language. What may not stand in one goes along, so that the library says where."""
    if not isinstance(text, str):
        raise TypeError(f"a text of SQL is a str, not {type(text).__name__}")
    return text.encode("utf-8", "surrogatepass")


def parameter_bytes(values: Iterable[Any]) -> Tuple[int, bytes]:
    """How many values there are, and that number and their bytes.

    Raises TypeError for a value that is no int, str or None, and ParameterError for one that the language has not.
    """
    pieces: List[bytes] = []
    for place, value in enumerate(values, 1):
        if isinstance(value, int) and value is not True and value is not False:
            if not -LARGEST <= value <= LARGEST:
                _refuse(place, "it is not from -10**15 to 10**15, as numbers are")
            pieces.append(NUMBER_VALUE.pack(1, value))
        elif isinstance(value, str):
            pieces.append(b"\2" + counted(_characters(place, value)))
        elif value is None:
            pieces.append(b"\0")
        elif isinstance(value, bool):
            raise TypeError(f"value {place} is {value}, and tables hold numbers, texts and NULL: write {int(value)}")
        else:
            raise TypeError(f"value {place} is of type {type(value).__name__}, and only int, str and None are values")
    return len(pieces), COUNT.pack(len(pieces)) + b"".join(pieces)


def _characters(place: int, text: str) -> bytes:
    """The bytes of a text that a table may hold."""
    found = IN_NO_TEXT.search(text)
    if not found:
        return text.encode("utf-8")
    _refuse(place, f"its character {found.start() + 1} is {found[0]!r}, which stands in no text")


def _refuse(place: int, why: str) -> NoReturn:
    error = ParameterError(f"value {place}: {why}")
    error.parameter = place
    raise error


class Reader:
    """Reads the bytes of a reply from front to back."""

    __slots__ = ("_at", "_bytes")

    def __init__(self, content: bytes) -> None:
        self._bytes = content
        self._at = 1  # behind the kind

    def number(self) -> int:
        number: int = NUMBER.unpack_from(self._bytes, self._at)[0]
        self._at += 8
        return number

    def text(self) -> str:
        start = self._at + 8
        self._at = start + COUNT.unpack_from(self._bytes, self._at)[0]
        return self._bytes[start : self._at].decode("utf-8", "replace")

    def value(self) -> Any:
        """A value, or ALL. Where there is none it is None, as for NULL."""
        kind = self._bytes[self._at]
        self._at += 1
        if kind == ValueKind.NUMBER:
            return self.number()
        if kind == ValueKind.CHARACTERS:
            return self.text()
        if kind == ValueKind.NUMERIC:
            return int(self.text())
        return ALL if kind == ValueKind.ALL else None

    def values(self, count: int) -> List[Any]:
        value = self.value
        return [value() for _ in range(count)]

    def replies(self) -> List[bytes]:
        """The replies of a call that made several events."""
        return [self._reply() for _ in range(self.number())]

    def _reply(self) -> bytes:
        """The next of several replies."""
        start = self._at
        kind = self._bytes[start]
        self._at += 1
        if kind == Kind.ROWS:
            width = self.number()
            for _ in range(width):
                self.text()
            self.values(self.number() * width)
        elif kind == Kind.REFUSAL:
            self.number(), self.text(), self.text(), self.value()
            self._at += 5 * 8
            self.text()
        elif kind == Kind.TEXT:
            self.text()
        else:
            self._at += 8 * _NUMBERS.get(kind, 0)
        return self._bytes[start : self._at]
