"""The manager, and transactions on it."""

from __future__ import annotations

import functools
import inspect
import logging
import os
from typing import (
    TYPE_CHECKING,
    Any,
    Callable,
    Dict,
    Iterable,
    List,
    NoReturn,
    Optional,
    Sequence,
    Tuple,
    Type,
    TypeVar,
    Union,
    cast,
)

from . import _backend
from ._layout import Fault, Reader, Role, State, counted, number_bytes, text_bytes
from ._numbers import Operation
from ._refusals import STATES, error_of
from ._texts import Values, taken, taken_rows
from .errors import Error, InterfaceError, JournalError, SerializationFailure
from .rows import Result

if TYPE_CHECKING:
    from ._asynchronous import AsyncTransaction

__all__ = ["Manager", "Transaction", "open"]

T = TypeVar("T")


MOST_COMMITS = 2**32 - 1
MOST_BYTES = 2**62 - 1

# As many statements of a call can be kept prepared at once; one with more is made by a call for each.
MOST_TEXTS = 200


def open(
    definitions: str,
    *,
    journal: Union[None, str, "os.PathLike[str]"] = None,
    checkpoint_bytes: int = 16 * 2**20,
    max_commits: int = 1_000_000,
    trace: Optional[Callable[[str], Any]] = None,
    log: Optional[logging.Logger] = None,
) -> Manager:
    """A manager on the tables, assertions and rows that the definitions define.

    definitions: CREATE TABLE, CREATE ASSERTION and INSERT, each with its `;`.
    journal: the file of a journal, which is made where there is none. Each COMMIT is on the disk before it returns, and
        the next `open` goes on from there: the tables are then those that the file holds, and the rows of the
        definitions are passed over. No other process may have it open.
    checkpoint_bytes: where the commits in the journal's file become longer than that, and than the rows in front of
        them, an image of the newest rows takes the file's place by itself; 0: never.
    max_commits: so many commits are taken, until `checkpoint` begins a new epoch (1 to 4,294,967,295).
    trace: is called with the line of the report for each event, as `skewguard replay` prints it. It runs in the midst
        of the call, and may not call the manager.
    log: is told the same lines, those of refusals as INFO and all others as DEBUG, and as INFO each transaction that is
        run again. What it leaves out by its level when the manager is opened costs nothing.

    Raises ProgrammingError for a text that is not of the language or doesn't fit together, IntegrityError and
    DataError for a row that its table can't take, RuleViolated for an assertion that is false on the rows to begin
    with, JournalError for a file that can't be opened, is damaged or of other definitions, and NoMemory.
    """
    _require_number("max_commits", max_commits, 1, MOST_COMMITS)
    _require_number("checkpoint_bytes", checkpoint_bytes, 0, MOST_BYTES)
    if trace is not None and not callable(trace):
        raise TypeError(f"trace is called with each line, and a {type(trace).__name__} can't be")
    if log is not None and not isinstance(log, logging.Logger):
        raise TypeError(f"log is a logging.Logger, not {type(log).__name__}")
    request = number_bytes(max_commits) + text_bytes(definitions)
    path = None if journal is None else os.fsencode(journal)
    if path is not None and b"\0" in path:
        raise ValueError("the name of the journal's file has a NUL in it")
    _backend.find_library()
    try:
        manager = Manager(request, definitions, _told(trace, log), path)
    except JournalError as error:
        error.path = os.fsdecode(journal) if journal is not None else None
        raise
    except Error as error:
        error._refused = (Role.DEFINITIONS, "", definitions)
        raise
    manager._set_checkpoint_bytes(checkpoint_bytes)
    manager._log, manager._definitions = log, definitions
    return manager


def _require_number(name: str, number: int, least: int, most: int) -> None:
    """Raises where an option is no number, or one out of its range."""
    if isinstance(number, bool) or not isinstance(number, int):
        raise TypeError(f"{name} is a number, not {type(number).__name__}")
    if not least <= number <= most:
        raise ValueError(f"{name} is {number}, and not from {least} to {most}")


def _told(trace: Optional[Callable[[str], Any]], log: Optional[logging.Logger]) -> Optional[Callable[[str], Any]]:
    """What is told each line, for a trace and a log."""
    if log is None or not log.isEnabledFor(logging.INFO):
        return trace
    logger = log

    def tell(line: str) -> None:
        is_refused = ": REFUSED " in line.partition("\n")[0]
        logger.log(logging.INFO if is_refused else logging.DEBUG, "%s", line)
        if trace is not None:
            trace(line)

    return tell


class Manager(_backend.Engine):
    """Tables in memory. No committed ones make an assertion false, and committed transactions have a serial order.

    Any thread may call it; one call is served after the other. `open` makes it, and `close`, or the end of a `with`
    block, gives its memory back.
    """

    _log: Optional[logging.Logger] = None
    _definitions: str = ""

    if TYPE_CHECKING:

        def transaction(
            self, *, read_only: bool = False, retry: int = 0, session: Optional[str] = None
        ) -> Transaction: ...

    def begin(self, *, read_only: bool = False, session: Optional[str] = None) -> Transaction:
        """A transaction that has begun, for code without a `with` block: `commit` or `rollback` ends it."""
        begun: Transaction = self.transaction(read_only=read_only, session=session)._begin()
        return begun

    def run(
        self,
        function: Callable[..., T],
        *arguments: Any,
        retry: Optional[int] = None,
        read_only: Optional[bool] = None,
        session: Optional[str] = None,
        **named: Any,
    ) -> T:
        """What the function gives, called with a transaction and these arguments, once that transaction has committed.

        Where others were in its way (SerializationFailure), the whole is run again, at most `retry` times more (3
        without it), on the tables as they are then; the last failure is raised. Each failure means that another
        transaction committed, so of transactions that try again one is always getting on. So the function should do
        nothing that can't be done twice, but for what it does by its transaction. Any other exception rolls the
        transaction back and is raised.

        `retry`, `read_only` and `session` are those of `transaction`. A function with parameters of these names gets
        them by `manager.transaction(retry=3).run(function, ..)`.
        """
        given = {"retry": retry, "read_only": read_only, "session": session}
        options: Dict[str, Any] = {name: value for name, value in given.items() if value is not None}
        _check_names(function, options)
        options.setdefault("retry", 3)
        return self.transaction(**options).run(function, *arguments, **named)

    def run_transaction(
        self, steps: Iterable[Tuple[str, Values]], *, retry: int = 3, session: Optional[str] = None
    ) -> Tuple[int, List[Result]]:
        """A whole transaction in one call: the number of its commit, and the answers to these statements with values.

            number, answers = manager.run_transaction([
                ("UPDATE ACCOUNTS SET BAL = BAL - ? WHERE ID = ?", [5, 1]),
                ("UPDATE ACCOUNTS SET BAL = BAL + ? WHERE ID = ?", [5, 2]),
            ])

        It begins, runs the statements as `Transaction.execute` does, and commits. What a statement raises has its
        `place` among them, from 0; none is run behind it, and the transaction is rolled back. A COMMIT that others were
        in the way of is tried again, with the whole, at most `retry` times more. Other threads run meanwhile, and the
        manager's lock is taken once: where threads share a manager it takes less time than as many calls.

        session: as of `transaction`.
        """
        taken_steps = [_taken_step(step) for step in steps]
        left = _checked_retry(retry)
        is_long = len(taken_steps) > MOST_TEXTS and len({text for text, _ in taken_steps}) > MOST_TEXTS
        while True:
            try:
                if is_long:
                    return self._transact_each(taken_steps, session)
                done: Tuple[int, List[Result]] = self._transact(taken_steps, session)
                return done
            except SerializationFailure as failure:
                if not left:
                    raise
                left -= 1
                self._log_failure(failure)

    def _transact_each(
        self, steps: List[Tuple[str, Sequence[Any]]], session: Optional[str]
    ) -> Tuple[int, List[Result]]:
        """The same by a call for each of its events."""
        with self.transaction(session=session) as transaction:
            results = [transaction.execute(*step) for step in steps]
            return transaction.commit(), results

    def _log_failure(self, failure: SerializationFailure) -> None:
        if self._log is not None:
            self._log.info("run again: %s", failure)

    def checkpoint(self, create: str = "", drop: Iterable[str] = ()) -> str:
        """Begins a new epoch on the newest tables, and gives the closing part of the report of the one that ended.

        create: texts of CREATE ASSERTION, each with its `;`.
        drop: names of assertions. One that is dropped may be created anew in the same call.

        The numbers of commits begin anew, and the memory of the epoch's history is given back. While a transaction is
        open it is refused (ProgrammingError, number 15). Else it raises what `open` raises; nothing has changed then.

        With a journal an image of the newest rows takes the place of its file first, also where a transaction is open.
        Where that can't be, as on a full disk, it raises JournalError, and the manager goes on with the file as it is.
        No rule is created or dropped then (OperationalError): a journal is of one text of definitions, and
        `skewguard checkpoint` takes another for a file that is closed.
        """
        if isinstance(drop, str):
            raise TypeError(f"drop is a list of names: [{drop!r}]")
        names = [b"\2" + counted(text_bytes(name)) for name in drop]
        if not create and not names:
            self._shorten()
        request = counted(text_bytes(create)) + number_bytes(len(names)) + b"".join(names)
        try:
            return Reader(self._call(Operation.CHECKPOINT, request, create)).text()
        except Error as error:
            error._refused = (Role.RULES, self._definitions, create)
            raise

    def report(self) -> str:
        """The closing part of the report: commits, their serial order, refused COMMITs, each assertion's truth."""
        return Reader(self._call(Operation.REPORT, b"", None)).text()

    def __enter__(self) -> Manager:
        if self.closed:
            raise error_of(Fault.CLOSED, b"")
        return self

    def __exit__(self, *_: object) -> None:
        self.close()

    def __reduce__(self) -> NoReturn:
        raise TypeError("a manager belongs to its process, and is neither copied nor pickled")

    def __repr__(self) -> str:
        count = self._open_transactions
        state = "closed" if self.closed else f"open, {count} transaction{'' if count == 1 else 's'}"
        return f"<skewguard.Manager {state}>"


class Transaction(_backend.Transaction):
    """A transaction: statements on the tables of its begin, with its own changes.

    `Manager.transaction` and `Manager.begin` make it. Each statement is answered on its own; several threads may share
    a transaction, and their statements run one after the other. One that is forgotten is rolled back by the next call
    of the manager after Python has collected it, with a ResourceWarning.
    """

    __slots__ = ()

    if TYPE_CHECKING:

        def __enter__(self) -> Transaction: ...

    def run_all(self, sql: str, rows: Iterable[Values]) -> List[Result]:
        """Runs a statement once with each of these values, in one call, and gives the answers.

            t.run_all("INSERT INTO DUTY VALUES (?, ?)", [("KIM", 1), ("LEE", 0)])

        Each is answered as by `execute`. The first that is refused, or whose values the statement does not take,
        raises, with its `place` among them, from 0; those before it have been, and none is run behind it. What is no
        list of values at all raises before anything is run.
        """
        results: List[Result] = self._run_all(*taken_rows(_exact(sql), rows))
        return results

    def verdict(self, rule: str) -> Optional[bool]:
        """How an assertion stands on the transaction's own tables: True, False, or None for unknown."""
        return self.execute(f"VERDICT {rule}").verdict

    def set_constraints(self, *rules: str, deferred: bool) -> None:
        """Defers these rules until COMMIT, or makes them immediate; without a name all that are DEFERRABLE.

        One that is made immediate is checked at once: RuleViolated, and nothing has changed. ProgrammingError for one
        that is not DEFERRABLE, or not there.
        """
        self.execute(f"SET CONSTRAINTS {', '.join(rules) or 'ALL'} {'DEFERRED' if deferred else 'IMMEDIATE'}")

    def run(self, function: Callable[..., T], *arguments: Any, **named: Any) -> T:
        """What the function gives, called with a transaction that is like this one, and with these arguments, once that
        transaction has committed: as `Manager.run`, with all that stands behind the function for the function."""
        self._check_unbegun()
        return _run(self, function, arguments, named)

    async def __aenter__(self) -> AsyncTransaction:
        """Begins, for an `async with` block. It gets a transaction whose calls are made by threads, to wait for."""
        from ._asynchronous import entered

        return await entered(self)

    async def __aexit__(self, kind: Optional[Type[BaseException]], *_: object) -> None:
        from ._asynchronous import by_thread

        await by_thread(self.__exit__, kind, None, None)

    def _enter(self) -> None:
        """Begins for a block, which goes on with this object."""
        if self._retry:
            raise error_of(Fault.RETRIED, b"")
        if self._state != State.NOT_BEGUN:
            raise error_of(Fault.USED, b"")
        self._begin()

    def __call__(self, function: Callable[..., T]) -> Callable[..., T]:
        """The function, run in a transaction of its own at each call, and again as often as `retry` says."""
        self._check_unbegun()

        @functools.wraps(function)
        def in_transaction(*arguments: Any, **named: Any) -> T:
            return _run(self, function, arguments, named)

        return in_transaction

    def __reduce__(self) -> NoReturn:
        raise TypeError("a transaction belongs to its manager, and is neither copied nor pickled")

    def _check_unbegun(self) -> None:
        if self._state != State.NOT_BEGUN:
            raise InterfaceError("a transaction that has begun runs no function: ask the manager for another")

    def __repr__(self) -> str:
        name = "" if self._name is None else f" of {self._name}"
        if self._state == State.NOT_BEGUN:
            state = "not begun"
        elif self._state == State.COMMITTED:
            state = f"has committed as {self.number}"
        else:
            state = f"open, on {self.snapshot} commits" if self._state == State.OPEN else STATES[self._state]
        return f"<skewguard.Transaction{name} {state}>"


def _run(like: Transaction, function: Callable[..., T], arguments: Tuple[Any, ...], named: Dict[str, Any]) -> T:
    """What a function gives, once the transaction that it was called with has committed."""
    manager = cast(Manager, like._engine)
    for left in range(like._retry, -1, -1):
        try:
            with manager.transaction(read_only=like._read_only, session=like._name) as transaction:
                answer = function(transaction, *arguments, **named)
                if inspect.isawaitable(answer) or inspect.isgenerator(answer) or inspect.isasyncgen(answer):
                    raise TypeError(
                        f"the function gives a {type(answer).__name__}, which has run nothing by the time of the "
                        "COMMIT: a plain function is wanted"
                    )
            return answer
        except SerializationFailure as failure:
            if not left:
                raise
            manager._log_failure(failure)
    raise AssertionError("the last attempt returns or raises")


def _is_step(step: Any) -> bool:
    """Whether a step is as the library takes it."""
    return type(step) is tuple and len(step) == 2 and type(step[0]) is str and type(step[1]) in (list, tuple)


def _taken_step(step: Any) -> Tuple[str, Sequence[Any]]:
    """A step as the library takes it."""
    taken_step: Tuple[str, Sequence[Any]] = step if _is_step(step) else _step(*step)
    return taken_step


def _step(sql: str, values: Values = ()) -> Tuple[str, Sequence[Any]]:
    """A statement of a transaction, and its values."""
    return (_exact(sql), values) if isinstance(values, (list, tuple)) else taken(_exact(sql), values)


def _exact(sql: str) -> str:
    """A text as a str that is no subtype of it."""
    if type(sql) is str:
        return sql
    if not isinstance(sql, str):
        raise error_of(Fault.NO_TEXT, b"", sql)
    return str.__str__(sql)


def _check_names(function: Callable[..., Any], options: Dict[str, Any]) -> None:
    """Refuses an option that would be taken from a parameter of the function."""
    code = getattr(function, "__code__", None)
    if code is None:
        return
    parameters = code.co_varnames[: code.co_argcount + code.co_kwonlyargcount]
    for name in options:
        if name in parameters:
            raise TypeError(
                f"{function.__name__} has a parameter {name} of its own: write "
                f"manager.transaction({name}=..).run({function.__name__}, ..)"
            )


def _checked_retry(retry: int) -> int:
    """A number of times."""
    if isinstance(retry, bool) or not isinstance(retry, int):
        raise TypeError(f"retry is a number of times, not {type(retry).__name__}")
    if retry < 0:
        raise ValueError(f"retry is {retry}, and not 0 or more")
    return retry


_backend.install(Transaction, _checked_retry)
