"""What may go wrong, as exceptions.

The names follow PEP 249 where it has one for the case. Each refusal of the manager is an `Error` with the number, the
SQLSTATE and the line of the report that skewguard gives it. A value of a wrong Python type is a plain `TypeError`.
"""

from __future__ import annotations

from dataclasses import dataclass
from enum import Enum
from typing import Optional, Tuple, Union

__all__ = [
    "ALL",
    "DangerousStructure",
    "DataError",
    "DatabaseError",
    "EpochFull",
    "Error",
    "IntegrityError",
    "InterfaceError",
    "JournalError",
    "NoMemory",
    "OperationalError",
    "ParameterError",
    "ProgrammingError",
    "ReplyLost",
    "RuleViolated",
    "SerializationFailure",
    "WriteConflict",
]

Value = Union[None, int, str]


class _Whole(Enum):
    ALL = "ALL"

    def __str__(self) -> str:
        return "ALL"

    __repr__ = __str__


ALL = _Whole.ALL
"""Where an assertion is false that is over a whole table and no row or group of it."""

Root = Union[None, int, str, _Whole]


class Error(Exception):
    """Whatever skewguard refuses.

    number: the fault's number, None where the fault was seen before the manager was asked.
    sqlstate: five characters, None where the fault has none.
    names: the table, column or assertion that the fault names.
    report: the line that `skewguard replay` prints for it, empty without a number.
    place: which statement it is of, from 0, in a call that runs several; None elsewhere.
    explanation: where in its text the fault lies, and what may stand there or how else to say it, as `skewguard check`
        shows it; empty where the text has no such fault, as where rows or other transactions were in the way.
    """

    number: Optional[int] = None
    sqlstate: Optional[str] = None
    names: Tuple[str, ...] = ()
    report: str = ""
    place: Optional[int] = None
    # Of which text it is: what that was to be, the definitions, and the text.
    _refused: Optional[Tuple[int, str, str]] = None
    _drawn: Optional[str] = None

    @property
    def explanation(self) -> str:
        if self._drawn is None:
            from ._drawing import drawn  # which stands on all that raises these

            self._drawn = drawn(self.number, self._refused)
        return self._drawn

    def __str__(self) -> str:
        shown = super().__str__()
        return f"{shown}\n{self.explanation}" if self.explanation else shown


class InterfaceError(Error):
    """The wrapper was used in a way that can't be: a closed manager, a transaction after its end."""


class DatabaseError(Error):
    """What the database refuses; all but InterfaceError, as PEP 249 has it."""


class ProgrammingError(DatabaseError):
    """A text is not of the language, names what is not there, or has another type than the place it stands in.

    line, column: where the text stops being one of the language, both from 1; None where the fault has no place.
    """

    line: Optional[int] = None
    column: Optional[int] = None


class ParameterError(ProgrammingError, ValueError):
    """Values don't suit their statement: too many or too few, beyond the range, a text with a control character.

    parameter: the place of the value, from 1; None where their number is wrong.
    """

    parameter: Optional[int] = None


class DataError(DatabaseError):
    """A value is beyond what its column holds (22003, 22001)."""


class IntegrityError(DatabaseError):
    """A row takes a key that is taken, or a NULL where none may be (23000)."""


class RuleViolated(IntegrityError):
    """An assertion would be false.

    Nothing of a refused statement is left, and its transaction goes on (SQLSTATE 23000). A refused COMMIT has ended
    its transaction (40002): running the same again alone will not help.

    rule: the name of the assertion.
    root: the least row key, or group, at which it would be false; None is the group of NULL, and ALL stands for an
        assertion over a whole table.
    """

    rule: str = ""
    root: Root = None


class OperationalError(DatabaseError):
    """What lies outside of the program's text: other transactions, memory, limits."""


@dataclass(frozen=True)
class WriteConflict:
    """A commit behind the transaction's snapshot changed a row that it changed too; the first to commit wins."""

    table: str
    key: Value
    commit: int


@dataclass(frozen=True)
class DangerousStructure:
    """Reads and writes that allow no serial order: `reader` read what `pivot` changed, and that what `writer` changed.

    Each is the number of a commit, or None for the transaction itself. Reader and writer may be one.
    """

    reader: Optional[int]
    pivot: Optional[int]
    writer: Optional[int]


class SerializationFailure(OperationalError):
    """Other transactions were in the way of a COMMIT (40001). It has ended, and the same may be run again.

    conflict: what was in its way.
    """

    conflict: Union[WriteConflict, DangerousStructure]


class EpochFull(OperationalError):
    """The manager takes no commit more: `Manager.checkpoint` begins a new epoch. The transaction has ended."""


class JournalError(OperationalError):
    """A journal can't be opened, a commit was not kept in it, or no checkpoint was made of it.

    errno: what the system says, where a call on the file failed; None elsewhere. From then on nothing is answered:
        close the manager and open it again. Whether a COMMIT that raised this was kept is known then. Where
        `Manager.checkpoint` raised it the manager goes on, unless its next call raises it too.
    path: the file, where it was not opened.
    commit, byte: of a damaged journal, the commit that is missing and where its line begins.

    Without an errno a COMMIT that raises this has changed nothing, and its transaction is open.
    """

    errno: Optional[int] = None
    path: Optional[str] = None
    commit: Optional[int] = None
    byte: Optional[int] = None

    def __str__(self) -> str:
        shown = super().__str__()
        return shown if self.path is None else f"{self.path}: {shown}"


class NoMemory(OperationalError, MemoryError):
    """There was no memory for it, and nothing has changed. A COMMIT may be asked for again."""


class ReplyLost(OperationalError, MemoryError):
    """The call was answered, but there was no memory for its reply.

    Its transaction has ended: it is rolled back, or behind a COMMIT it may have committed, as the report tells. A
    checkpoint may have begun a new epoch.
    """
