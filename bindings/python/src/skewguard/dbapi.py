"""Managers by the interface of PEP 249: connections and cursors.

    from skewguard import dbapi

    connection = dbapi.connect("CREATE TABLE DUTY (ID INTEGER PRIMARY KEY, ONCALL INTEGER);")
    cursor = connection.cursor()
    cursor.execute("INSERT INTO DUTY VALUES (?, ?)", (1, 1))
    connection.commit()

A connection has one transaction at a time. It begins with the first statement, and `commit` or `rollback` ends it. A
statement that is refused leaves nothing behind, and its transaction goes on; a COMMIT that is refused has ended it.
"""

from __future__ import annotations

import datetime
import threading
from typing import (
    Any,
    Callable,
    ContextManager,
    Dict,
    Iterable,
    Iterator,
    List,
    Mapping,
    Optional,
    Sequence,
    Tuple,
    Type,
    Union,
)

from ._layout import Fault, State
from ._refusals import error_of
from ._texts import first_word, taken
from .errors import (
    DatabaseError,
    DataError,
    Error,
    IntegrityError,
    InterfaceError,
    OperationalError,
    ProgrammingError,
    RuleViolated,
    SerializationFailure,
)
from .manager import Manager, Transaction
from .manager import open as open_manager
from .rows import Result, Row

__all__ = [
    "BINARY",
    "DATETIME",
    "NUMBER",
    "ROWID",
    "STRING",
    "Binary",
    "Connection",
    "Cursor",
    "DataError",
    "DatabaseError",
    "Date",
    "DateFromTicks",
    "Error",
    "IntegrityError",
    "InterfaceError",
    "InternalError",
    "NotSupportedError",
    "OperationalError",
    "ProgrammingError",
    "RuleViolated",
    "SerializationFailure",
    "Time",
    "TimeFromTicks",
    "Timestamp",
    "TimestampFromTicks",
    "Warning",
    "apilevel",
    "connect",
    "paramstyle",
    "threadsafety",
]

apilevel = "2.0"

# Threads may share connections: their statements run one after the other, in the connection's one transaction.
threadsafety = 2

# `:name` is taken as well, where the values come as a dict.
paramstyle = "qmark"

Parameters = Union[Iterable[Any], Mapping[str, Any]]

# So many statements of an `executemany` are run in one call.
PART = 1000
Column = Tuple[str, Optional["TypeObject"], None, None, None, None, None]


class Warning(Exception):
    """Is never raised; PEP 249 has it."""


class InternalError(DatabaseError):
    """Is never raised; PEP 249 has it."""


class NotSupportedError(DatabaseError):
    """Is never raised; PEP 249 has it."""


class TypeObject:
    """A type of columns."""

    def __init__(self, name: str) -> None:
        self.name = name

    def __repr__(self) -> str:
        return f"skewguard.dbapi.{self.name}"


STRING, NUMBER = TypeObject("STRING"), TypeObject("NUMBER")
BINARY, DATETIME, ROWID = TypeObject("BINARY"), TypeObject("DATETIME"), TypeObject("ROWID")
"""Types that no column has."""

# Tables hold numbers and texts. So a date is the text that ISO 8601 has for it, which is compared as dates are; bytes
# are no value.
Binary = bytes


def Date(year: int, month: int, day: int) -> str:
    """The text of a date, as 2026-11-28."""
    return datetime.date(year, month, day).isoformat()


def Time(hour: int, minute: int, second: int) -> str:
    """The text of a time, as 09:30:00."""
    return datetime.time(hour, minute, second).isoformat()


def Timestamp(year: int, month: int, day: int, hour: int, minute: int, second: int) -> str:
    """The text of a date and a time, as 2026-11-28 09:30:00."""
    return datetime.datetime(year, month, day, hour, minute, second).isoformat(" ")


def DateFromTicks(ticks: float) -> str:
    """The text of the date so many seconds after the epoch, in local time."""
    return datetime.date.fromtimestamp(ticks).isoformat()


def TimeFromTicks(ticks: float) -> str:
    """The text of the time so many seconds after the epoch, in local time."""
    return datetime.datetime.fromtimestamp(int(ticks)).time().isoformat()


def TimestampFromTicks(ticks: float) -> str:
    """The text of the date and time so many seconds after the epoch, in local time."""
    return datetime.datetime.fromtimestamp(int(ticks)).isoformat(" ")


def connect(
    database: Union[str, Manager],
    *,
    read_only: bool = False,
    session: Optional[str] = None,
    autocommit: bool = False,
    **options: Any,
) -> Connection:
    """A connection to a manager.

    database: a manager, which connections share; or definitions, for a manager that the connection opens and closes.
    read_only, session: of its transactions, as `Manager.transaction` has them.
    autocommit: whether each statement is a transaction of its own.
    options: `journal`, `checkpoint_bytes`, `max_commits`, `trace` and `log` of a manager that is opened. Raises what
        `skewguard.open` raises.
    """
    is_own = not isinstance(database, Manager)
    if options and not is_own:
        raise TypeError(f"a manager that is open takes no {', '.join(options)}")
    manager = database if isinstance(database, Manager) else open_manager(database, **options)
    return Connection(manager, is_own, read_only, session, autocommit)


class Connection:
    """A connection: cursors, and the one transaction that their statements run in.

    As a context manager it commits at the end of the block, or rolls back where an exception leaves it; it stays open.

    manager: the manager.
    autocommit: whether each statement is a transaction of its own. It can't be set while a transaction is open.
    """

    Warning = Warning
    Error = Error
    InterfaceError = InterfaceError
    DatabaseError = DatabaseError
    DataError = DataError
    OperationalError = OperationalError
    IntegrityError = IntegrityError
    InternalError = InternalError
    ProgrammingError = ProgrammingError
    NotSupportedError = NotSupportedError

    def __init__(
        self, manager: Manager, is_own: bool, read_only: bool, session: Optional[str], autocommit: bool
    ) -> None:
        self.manager = manager
        self._is_own = is_own
        self._how: Dict[str, Any] = {"read_only": read_only, "session": session}
        self._autocommit = bool(autocommit)
        self._is_closed = False
        # The last transaction. Threads take turns to begin one, so that all get the same.
        self._last: Optional[Transaction] = None
        self._turn = threading.RLock()

    def cursor(self) -> Cursor:
        """A cursor. Those of a connection see each other's changes at once."""
        self._check_open()
        return Cursor(self)

    def execute(self, operation: str, parameters: Parameters = ()) -> Cursor:
        """A cursor that has executed a statement."""
        return self.cursor().execute(operation, parameters)

    def commit(self) -> None:
        """Commits, if a transaction is open. What raises has ended it, but NoMemory has not."""
        self._check_open()
        self._end(Transaction.commit)

    def rollback(self) -> None:
        """Rolls back, if a transaction is open."""
        self._check_open()
        self._end(Transaction.rollback)

    def close(self) -> None:
        """Rolls back, and closes the manager if this connection has opened it. Later calls raise InterfaceError, but
        for this one."""
        if self._is_closed:
            return
        if not self.manager.closed:  # with which its transactions are gone
            self._end(Transaction.rollback)
        self._is_closed = True
        if self._is_own:
            self.manager.close()

    @property
    def autocommit(self) -> bool:
        return self._autocommit

    @autocommit.setter
    def autocommit(self, value: bool) -> None:
        self._check_open()
        if self.in_transaction:
            raise ProgrammingError("autocommit can't be set while a transaction is open")
        self._autocommit = bool(value)

    @property
    def in_transaction(self) -> bool:
        """Whether a transaction is open."""
        return self._current() is not None

    def _check_open(self) -> None:
        if self._is_closed:
            raise InterfaceError("the connection is closed")

    def _current(self) -> Optional[Transaction]:
        """The open transaction, if there is one."""
        last = self._last
        return last if last is not None and last._state == State.OPEN else None

    def _taken_turn(self) -> ContextManager[Any]:
        """The turn to begin. In the midst of a call none is waited for: who has it may wait for the end of the call."""
        if self.manager._is_calling:
            raise error_of(Fault.CALLING, b"")
        return self._turn

    def _begun(self) -> Transaction:
        """The open transaction, or one that begins."""
        with self._taken_turn():
            transaction = self._current()
            if transaction is None:
                transaction = self._last = self.manager.begin(**self._how)
            return transaction

    def _run(self, operation: str, parameters: Parameters) -> Result:
        """The answer to a statement, in the open transaction or in one that begins."""
        if isinstance(operation, str) and not isinstance(parameters, (list, tuple)):
            operation, parameters = taken(operation, parameters)
        while True:
            self._check_open()
            transaction = self._current()
            if transaction is None and self._autocommit:
                with self._taken_turn(), self.manager.transaction(**self._how) as transaction:
                    return transaction.execute(operation, parameters)
            transaction = transaction or self._begun()
            try:
                return transaction.execute(operation, parameters)
            except InterfaceError:
                if transaction._state == State.OPEN:
                    raise
                # Another thread has ended it: the statement is one of the next.

    def _run_all(self, operation: str, seq_of_parameters: Iterable[Parameters]) -> int:
        """How many rows a statement has changed that is run with each of these values."""
        is_listed = isinstance(seq_of_parameters, (list, tuple))
        if not is_listed or self._autocommit and self._current() is None:
            return sum(self._run(operation, parameters).count for parameters in seq_of_parameters)
        total, rows = 0, list(seq_of_parameters)
        for done in range(0, len(rows), PART):
            try:
                total += self._run_part(operation, rows[done : done + PART])
            except Error as error:
                if error.place is not None:
                    error.place += done
                raise
        return total

    def _run_part(self, operation: str, rows: List[Parameters]) -> int:
        """The same of rows for one call, in the open transaction or in one that begins."""
        while True:
            self._check_open()
            transaction = self._begun()
            try:
                return sum(result.count for result in transaction.run_all(operation, rows))
            except InterfaceError as error:
                if transaction._state == State.OPEN or error.place is not None:
                    raise
                # Another thread has ended it: the statements are some of the next.

    def _end(self, by: Callable[[Transaction], Any]) -> None:
        """Ends the open transaction, if there is one."""
        transaction = self._current()
        if transaction is None:
            return
        try:
            by(transaction)
        except InterfaceError:
            if transaction._state == State.OPEN:
                raise
            # Another thread has ended it.

    def __enter__(self) -> Connection:
        self._check_open()
        return self

    def __exit__(self, kind: Optional[Type[BaseException]], *_: object) -> None:
        if kind is None:
            self.commit()
            return
        try:
            self.rollback()
        except Error:
            pass  # the exception that leaves the block says more

    def __repr__(self) -> str:
        state = "closed" if self._is_closed else f"open, {'in a' if self.in_transaction else 'no'} transaction"
        return f"<skewguard.dbapi.Connection {state}>"


class Cursor:
    """Executes statements, and has the rows of the last SELECT.

    arraysize: how many rows `fetchmany` gives where nothing else is said.
    rowcount: how many rows the last statement listed or changed, of `executemany` all of them; -1 before, and for
        statements that have none.
    """

    def __init__(self, connection: Connection) -> None:
        self.connection = connection
        self.arraysize = 1
        self.rowcount = -1
        self.lastrowid = None
        self._rows: Optional[Result] = None
        self._at = 0
        self._is_closed = False

    @property
    def description(self) -> Optional[Sequence[Column]]:
        """Of each column of a SELECT its name, the type of its values where there is one, and None five times."""
        if self._rows is None:
            return None
        return [
            (name, _type_of(row[place] for row in self._rows), None, None, None, None, None)
            for place, name in enumerate(self._rows.columns)
        ]

    @property
    def rownumber(self) -> Optional[int]:
        """The place of the row that comes next, from 0; None where there is no SELECT."""
        return None if self._rows is None else self._at

    def execute(self, operation: str, parameters: Parameters = ()) -> Cursor:
        """Executes a statement, with values for its `?` or `:names`; gives the cursor."""
        self._forget_rows()
        result = self.connection._run(operation, parameters)
        if result.kind in ("SELECT", "INSERT", "UPDATE", "DELETE"):
            self.rowcount = result.count
        if result.kind == "SELECT":
            self._rows = result
        return self

    def executemany(self, operation: str, seq_of_parameters: Iterable[Parameters]) -> Cursor:
        """Executes a statement that changes rows once for each of these values; gives the cursor.

        Where one is refused, that raises, and those before it have been. A list or a tuple of values goes in one call.
        """
        self._forget_rows()
        word = first_word(operation) if isinstance(operation, str) else ""
        if word in ("SELECT", "VERDICT", "SET", "BEGIN", "COMMIT", "ROLLBACK"):
            raise ProgrammingError(f"executemany changes rows, and {word} doesn't: use execute")
        self.rowcount = self.connection._run_all(operation, seq_of_parameters)
        return self

    def fetchone(self) -> Optional[Row]:
        """The next row; None behind the last one."""
        rows = self._take(1)
        return rows[0] if rows else None

    def fetchmany(self, size: Optional[int] = None) -> List[Row]:
        """So many of the next rows, or as many as there are."""
        return self._take(self.arraysize if size is None else size)

    def fetchall(self) -> List[Row]:
        """All rows that are left."""
        return self._take(self.rowcount)

    def _take(self, count: int) -> List[Row]:
        self._check_open()
        if self._rows is None:
            raise ProgrammingError("there are no rows to fetch: the last statement was no SELECT")
        rows = list(self._rows[self._at : self._at + max(0, count)])
        self._at += len(rows)
        return rows

    def setinputsizes(self, sizes: Sequence[Any]) -> None:
        """Does nothing: values need no room that is made before."""

    def setoutputsize(self, size: int, column: Optional[int] = None) -> None:
        """Does nothing: values need no room that is made before."""

    def close(self) -> None:
        """Lets the rows go. Later calls raise InterfaceError."""
        self._rows = None
        self._is_closed = True

    def _check_open(self) -> None:
        self.connection._check_open()
        if self._is_closed:
            raise InterfaceError("the cursor is closed")

    def _forget_rows(self) -> None:
        self._check_open()
        self._rows, self._at, self.rowcount = None, 0, -1

    def __iter__(self) -> Iterator[Row]:
        return self

    def __next__(self) -> Row:
        row = self.fetchone()
        if row is None:
            raise StopIteration
        return row

    def __enter__(self) -> Cursor:
        self._check_open()
        return self

    def __exit__(self, *_: object) -> None:
        self.close()

    def __repr__(self) -> str:
        place = "no rows" if self._rows is None else f"row {self._at} of {self.rowcount}"
        return f"<skewguard.dbapi.Cursor {'closed' if self._is_closed else place}>"


def _type_of(values: Iterable[Any]) -> Optional[TypeObject]:
    """The type of the first value that is none of NULL."""
    found = next((value for value in values if value is not None), None)
    return None if found is None else STRING if isinstance(found, str) else NUMBER
