"""The exception of each refusal, and of whatever else a call may find."""

from __future__ import annotations

import errno
import os
import sys
from typing import Any, Callable, Dict, Optional, Tuple, Type, Union

from . import errors
from ._layout import Fault, Reader, Role, State
from ._numbers import Kind, Status
from .errors import DangerousStructure, Error, WriteConflict

SYNTAX, TOO_DEEP = 2, 19
VIOLATED, WRITE_CONFLICT, DANGEROUS, NO_TRANSACTION, EPOCH_FULL, FALSE_AT_CREATION = 10, 12, 13, 14, 17, 21
TOO_MANY_SESSIONS, NOT_KEPT = 24, 25

# The class of each fault's exception; ProgrammingError where none stands here.
_CLASSES: Dict[int, Type[Error]] = {
    1: errors.NoMemory,
    6: errors.IntegrityError,
    7: errors.IntegrityError,
    9: errors.DataError,
    VIOLATED: errors.RuleViolated,
    EPOCH_FULL: errors.EpochFull,
    FALSE_AT_CREATION: errors.RuleViolated,
    TOO_MANY_SESSIONS: errors.OperationalError,
    NOT_KEPT: errors.JournalError,
}

# What is said of each fault, with the name and the root or key that it tells.
_WORDS: Dict[int, str] = {
    1: "no memory is left",
    3: "nothing has the name {name}",
    4: "the name {name} is taken",
    5: "values and columns differ in number or type",
    6: "{name} takes no NULL",
    7: "{name} has a row under the key {root} already",
    8: "{name} is a key, which no UPDATE may set",
    9: "the value is beyond the range, or the length, of {name}",
    VIOLATED: "{name} would be false at {root}",
    11: "{name} is not DEFERRABLE",
    NO_TRANSACTION: "no transaction is open in this session",
    15: "a transaction is open",
    16: "this is of another manager or epoch",
    EPOCH_FULL: "the epoch holds as many commits as it may: begin another by checkpoint",
    18: "arithmetic could pass the range in which it is exact",
    20: "this is outside the class of assertions and conditions that are taken",
    FALSE_AT_CREATION: "{name} is false at {root} on the rows that are there",
    22: "the attributes of {name} exclude each other",
    23: "the transaction is READ ONLY",
    TOO_MANY_SESSIONS: "too many transactions are open at once: there may be 256",
    NOT_KEPT: "the commit could not be kept in the journal: its transaction is open",
}

# What is said of a journal's file by an errno, where the system's own words would not say it.
_FILES: Dict[int, str] = {
    errno.EWOULDBLOCK: "another process has the journal open",
    errno.ELOOP: "a symbolic link stands there: name the file itself",
    errno.EISDIR: "a folder stands there",
    errno.ENOTSUP: "it is not a regular file",
}

# Why a file was not opened as a journal, with the number of a commit and a byte of the file.
_UNRESTORED: Dict[int, str] = {
    1: "this is no journal: it does not begin with the line of one",
    2: "the journal is of other definitions: `skewguard checkpoint DEFS --journal FILE` takes these for what it holds",
    3: "the journal is damaged at byte {byte}: commit {commit} is missing",
    4: "the journal is damaged: commit {commit} is none of these tables",
}

# How a transaction ended.
STATES: Dict[int, str] = {
    State.NOT_BEGUN: "has not begun: use it in a `with` block",
    State.COMMITTED: "has committed",
    State.ROLLED_BACK: "was rolled back",
    State.REFUSED: "was refused at COMMIT",
    State.ENDED: "has ended",
    State.LOST: "was lost with a reply",
    State.INTERRUPTED: "was interrupted",
}

# What is said of a call that was not made, or not answered.
_FAULTS: Dict[int, str] = {
    Status.REPLY_WAITS: "the call was answered, but there was no memory for its reply",
    Status.BAD_NAME: "a name is a letter, then letters, digits, _, 128 at most, and no reserved word",
    Status.JOURNALED: "the rules of a journal can't be changed while it is open",
    Fault.CLOSED: "the manager is closed",
    Fault.CALLING: "a trace, or a signal's handler, may not call the manager in the midst of a call",
    Fault.OF_PARENT: "the manager belongs to the process that opened it: open one in each process",
    Fault.OTHER_LIBRARY: "the library is another one than this package was written for",
    Fault.RETRIED: "a with block can't run its body again: for retry give the body as a function to Manager.run, or "
    "put this transaction in front of it as a decorator",
    Fault.USED: "a block begins its transaction, and this one has begun before: ask the manager for another by "
    "transaction()",
}
_FAULT_CLASSES: Dict[int, Type[Exception]] = {
    Status.REPLY_WAITS: errors.ReplyLost,
    Status.BAD_NAME: errors.ProgrammingError,
    Status.JOURNALED: errors.OperationalError,
    Fault.RETRIED: TypeError,
}


def error_of(status: int, reply: bytes, detail: Any = None, engine: Any = None) -> Exception:
    """The exception of a status that is not DONE, with what the fault is of: a text, a name, a state, two counts.

    engine: the one that was given the text of a statement.
    """
    if status in (Status.REFUSED, Status.NOT_KEPT):
        error = refusal(reply, detail)
        if engine is not None and detail is not None:
            error._refused = (Role.STATEMENT, engine._definitions, detail)
        return error
    if status in (Fault.IO_ERROR, Status.UNRESTORED):
        return _journal_error(status, Reader(reply))
    if status == Status.NO_MEMORY:
        return no_memory()
    if status == Status.WRONG_COUNT:
        wanted, given = detail
        return errors.ParameterError(f"the statement has {_many(wanted)}, and {given} came")
    if status == Status.BAD_VALUE:
        return _bad_value(Reader(reply).number() if reply[:1] == bytes([Kind.MISUSED]) else 0)
    if status == Fault.ENDED:
        return errors.InterfaceError(f"the transaction {STATES[detail]}")
    if status == Fault.POOLED:
        return errors.ProgrammingError(f"{detail} is the name of a session that the manager handed out by itself")
    if status == Fault.NO_TEXT:
        return TypeError(f"a statement is a str, not {type(detail).__name__}")
    words = _FAULTS.get(status, f"the library answers with the status {status}")
    return _FAULT_CLASSES.get(status, errors.InterfaceError)(words)


def _journal_error(status: int, reader: Reader) -> Error:
    """That a journal was not opened, or that a call on its file failed."""
    number = reader.number()
    if status == Fault.IO_ERROR:
        error = errors.JournalError(_FILES.get(number) or os.strerror(number))
        error.errno = number
        return error
    commit, byte = reader.number(), reader.number()
    error = errors.JournalError(_UNRESTORED[number].format(commit=commit, byte=byte))
    if number >= 3:
        error.commit = commit
    if number == 3:
        error.byte = byte
    return error


def tell(trace: Callable[[str], Any], line: str) -> None:
    """Hands the line of an event on. The event has been: what the trace raises is shown, and stops nothing."""
    try:
        trace(line.rstrip("\n"))
    except Exception:
        sys.excepthook(*sys.exc_info())


def _many(parameters: int) -> str:
    return f"{parameters} parameter{'' if parameters == 1 else 's'}"


def _bad_value(parameter: int) -> Error:
    error = errors.ParameterError(f"value {parameter} may not stand there: for NULL a condition says IS NULL")
    error.parameter = parameter
    return error


def refusal(reply: bytes, text: Optional[str]) -> Error:
    """The exception of a refusal. A fault in a text is shown in that text."""
    reader = Reader(reply)
    number, sqlstate, name, root = reader.number(), reader.text(), reader.text(), reader.value()
    commit, first, pivot, last = [reader.number() for _ in range(4)]
    offset, line = reader.number(), reader.text().rstrip()
    error: Error
    if number in (SYNTAX, TOO_DEEP) and text is not None:
        error = _fault_in_text(number, text, offset)
    elif number == WRITE_CONFLICT:
        error = _failure(WriteConflict(name, root, commit))
    elif number == DANGEROUS:
        error = _failure(DangerousStructure(first or None, pivot or None, last or None))
    else:
        words = _WORDS.get(number, line).format(name=name, root=_shown(root))
        error = _CLASSES.get(number, errors.ProgrammingError)(words)
        if isinstance(error, errors.RuleViolated):
            error.rule, error.root = name, root
    error.number, error.sqlstate, error.report = number, sqlstate or None, line
    error.names = (name,) if name else ()
    return error


def no_memory() -> Error:
    """The exception where there is no memory."""
    error = errors.NoMemory(_WORDS[1])
    error.number = 1
    return error


def _shown(root: object) -> str:
    """A key or root as the report writes it."""
    if isinstance(root, str):
        return "'" + root.replace("'", "''") + "'"
    return "NULL" if root is None else repr(root)


def _failure(conflict: Union[WriteConflict, DangerousStructure]) -> Error:
    """The exception of a COMMIT that others were in the way of."""
    if isinstance(conflict, WriteConflict):
        row = f"the row {_shown(conflict.key)} of {conflict.table}"
        words = f"commit {conflict.commit} has changed {row} since this transaction began"
    else:
        reader, pivot, writer = _party(conflict.reader), _party(conflict.pivot), _party(conflict.writer)
        words = (
            f"there would be no serial order: {reader} read what {pivot} changed, and {pivot} read what {writer} "
            "changed, each without seeing the change"
        )
    error = errors.SerializationFailure(words)
    error.conflict = conflict
    return error


def _party(number: Optional[int]) -> str:
    return "this transaction" if number is None else f"commit {number}"


def _fault_in_text(number: int, text: str, offset: int) -> Error:
    """A fault of a text, with its place."""
    line, column = place_of(text, offset)
    what = "parentheses nest too deep" if number == TOO_DEEP else "syntax error"
    error = errors.ProgrammingError(f"{what} at line {line}, column {column}")
    error.line, error.column = line, column
    return error


def place_of(text: str, offset: int) -> Tuple[int, int]:
    """Line and column of an offset in bytes, each from 1."""
    before = text.encode("utf-8", "surrogatepass")[:offset].decode("utf-8", "replace")
    return before.count("\n") + 1, len(before) - before.rfind("\n")
