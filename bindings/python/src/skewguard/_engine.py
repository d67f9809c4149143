"""The implementation over ctypes: one opened library with its sessions, statements and lock, and transactions on it.

Python may be interrupted between any two of its instructions: by Ctrl-C, or by whatever a signal's handler raises. So
what is noted here is noted in one step; in more than one, in an order in which each may be the last; and what a call
has left that was cut short is brought to an end by the next one (`_settle`). No finalizer of a transaction is a Python
function, since Python drops what is raised in one.
"""

from __future__ import annotations

import ctypes
import itertools
import os
import sys
import threading
import warnings
import weakref
from collections import OrderedDict, deque
from ctypes import POINTER, c_char_p, c_int, c_int32, c_size_t, c_uint32, c_uint64, c_void_p
from typing import (
    Any,
    Callable,
    Deque,
    Dict,
    Iterable,
    List,
    Mapping,
    NamedTuple,
    Optional,
    Sequence,
    Tuple,
    Type,
    TypeVar,
    Union,
)

from . import _library
from ._layout import COUNT, UNDONE, Fault, Reader, State, number_bytes, parameter_bytes, text_bytes
from ._numbers import LAYOUT, Kind, Operation, Status
from ._refusals import EPOCH_FULL, NO_TRANSACTION, TOO_MANY_SESSIONS, error_of, refusal, tell
from ._texts import taken
from .errors import Error, JournalError, OperationalError, ReplyLost, Value
from .rows import Result, row_type

# So many prepared statements are kept, those that were used last.
STATEMENTS = 256

T = TypeVar("T")
Trace = Callable[[str], Any]

# A reply that there was no memory for is asked for so often.
FETCHES = 3
REPLY_WAITS = Status.REPLY_WAITS

# The statuses of events whose line is told.
TOLD = (Status.DONE, Status.REFUSED, Status.NOT_KEPT)

# The length of a reply, while the library has not written any.
UNANSWERED = 2**64 - 1

# The SQLSTATEs of refusals that have ended their transaction: for others (40001), and for an assertion (40002).
ENDING = ("40001", "40002")

# What an event is called that was answered so.
_WORDS: Dict[int, str] = {
    Kind.BEGUN: "BEGIN",
    Kind.COMMITTED: "COMMIT",
    Kind.ROLLED_BACK: "ROLLBACK",
    Kind.INSERTED: "INSERT",
    Kind.UPDATED: "UPDATE",
    Kind.DELETED: "DELETE",
    Kind.MODES_SET: "SET CONSTRAINTS",
}
_COUNTED = (Kind.INSERTED, Kind.UPDATED, Kind.DELETED)
_TRUTHS = {0: False, 1: True, 2: None}


class Session:
    """A session of the library, which has one transaction at a time.

    number: its number, as bytes of a request; empty while it is not open.
    use: whose transaction it has; None where it has none. To set it is what gives the session away, or back.
    """

    __slots__ = ("is_pooled", "key", "number", "use")

    def __init__(self, key: str, is_pooled: bool) -> None:
        self.key = key
        self.is_pooled = is_pooled
        self.number = b""
        self.use: Optional[Use] = None


class Seat:
    """What a transaction knows of itself.

    session: its session. Once the transaction has ended that may be another's.
    snapshot: how many commits its tables hold.
    number: the number of its commit, once it has one.
    """

    __slots__ = ("number", "session", "snapshot", "state", "use")

    def __init__(self) -> None:
        self.state = State.NOT_BEGUN
        self.session: Optional[Session] = None
        self.use: Optional[Use] = None
        self.snapshot: Optional[int] = None
        self.number: Optional[int] = None

    def end(self, state: int) -> None:
        """That it has ended so, unless it had ended before."""
        if self.state <= State.OPEN:
            self.state = state


class Use(weakref.ref):  # type: ignore[type-arg]
    """That an object has a session, for the transaction of a seat.

    When the object goes, Python calls a function in C that puts this aside, so that no interrupt can come between.
    """

    __slots__ = ("seat",)
    seat: Seat


class Statement(NamedTuple):
    number: bytes
    parameters: int


class Room(NamedTuple):
    """Where a reply is written."""

    buffer: Any
    address: int
    length: int


def _room(length: int) -> Room:
    buffer = ctypes.create_string_buffer(length)
    return Room(buffer, ctypes.addressof(buffer), length)


class Process:
    """This process, of which a fork makes another one."""

    number = 0

    @classmethod
    def is_child(cls) -> None:
        cls.number += 1


if hasattr(os, "register_at_fork"):
    os.register_at_fork(after_in_child=Process.is_child)

_loaded: Optional[ctypes.CDLL] = None


def _load() -> ctypes.CDLL:
    """The library, which is looked for once. Two threads that find it unloaded load the same, which changes nothing."""
    global _loaded
    if _loaded is None:
        _loaded = _library.loaded_by(_loaded_from)
    return _loaded


def _loaded_from(name: str) -> ctypes.CDLL:
    """The library of a file, with the types of its functions."""
    library = ctypes.CDLL(name)
    library.skewguard_library_open.argtypes = [c_char_p, c_size_t, POINTER(c_void_p)]
    library.skewguard_library_open.restype = c_int32
    library.skewguard_library_call.argtypes = [
        c_void_p, c_uint32, c_char_p, c_size_t, c_void_p, c_size_t, c_void_p,
    ]  # fmt: skip
    library.skewguard_library_call.restype = c_int32
    library.skewguard_library_close.argtypes = [c_void_p]
    library.skewguard_library_close.restype = None
    library.skewguard_library_draw.argtypes = [c_char_p, c_size_t, c_void_p, c_size_t, POINTER(c_size_t)]
    library.skewguard_library_draw.restype = c_int32
    library.skewguard_journal_open.argtypes = [c_char_p, c_char_p, c_size_t, POINTER(c_void_p), POINTER(c_int)]
    library.skewguard_journal_open.restype = c_int32
    library.skewguard_journal_call.argtypes = library.skewguard_library_call.argtypes
    library.skewguard_journal_call.restype = c_int32
    library.skewguard_journal_checkpoint.argtypes = [c_void_p]
    library.skewguard_journal_checkpoint.restype = c_int
    library.skewguard_journal_checkpoint_bytes.argtypes = [c_void_p, c_uint64]
    library.skewguard_journal_checkpoint_bytes.restype = None
    library.skewguard_journal_close.argtypes = [c_void_p]
    library.skewguard_journal_close.restype = None
    return library


def draw(request: bytes) -> str:
    """What the library draws by a request; empty where it draws nothing, or where there is no memory for it."""
    library, length, room = _load(), c_size_t(), 2048
    while True:
        buffer = ctypes.create_string_buffer(room)
        if library.skewguard_library_draw(request, len(request), buffer, room, ctypes.byref(length)):
            return ""
        if length.value <= room:
            return buffer.raw[: length.value].decode("utf-8", "replace")
        room = length.value


def _io_error(error: int) -> Exception:
    """That a call on the journal's file failed, for this errno."""
    return error_of(Fault.IO_ERROR, b"\0" + number_bytes(error))


def _close_library(close: Callable[[c_void_p], None], handle: c_void_p, process: int) -> None:
    # A child has a copy of what its parent's threads were about to change, and leaves it as it is.
    if handle and process == Process.number:
        close(handle)


class Engine:
    """Calls of one opened library, one at a time.

    What was collected by Python, or cut short by an interrupt, is put aside without the lock, and is rolled back at the
    next call: a collection may come in the midst of a call, in the thread that holds the lock.
    """

    # The type of its transactions, and what looks at how often one may be tried again.
    transaction_type: Any
    checked_retry: Callable[[int], int]

    def __init__(self, request: bytes, definitions: str, trace: Optional[Trace], path: Optional[bytes]) -> None:
        self._library = _load()
        self._lock = threading.RLock()
        self._trace = trace
        self._process = Process.number
        self._statements: OrderedDict[str, Statement] = OrderedDict()
        # By their names, the one that was used longest ago first.
        self._sessions: OrderedDict[str, Session] = OrderedDict()
        self._free: List[Session] = []
        self._put_aside: Deque[Use] = deque()
        self._unnoted: Optional[Tuple[Callable[[Any, bytes], None], Any]] = None
        self._length = c_size_t()
        self._length_at = ctypes.addressof(self._length)
        self._room = _room(4096)
        handle = c_void_p()
        self._handle: Optional[int] = None
        library = self._library
        self._is_journaled = is_journaled = path is not None
        self._library_call = library.skewguard_journal_call if is_journaled else library.skewguard_library_call
        # At the end of the process nothing is freed: another thread may be in a call.
        close = library.skewguard_journal_close if is_journaled else library.skewguard_library_close
        self._finalizer = weakref.finalize(self, _close_library, close, handle, self._process)
        self._finalizer.atexit = False
        error = c_int()
        if is_journaled:
            status = library.skewguard_journal_open(
                path, request, len(request), ctypes.byref(handle), ctypes.byref(error)
            )
        else:
            status = library.skewguard_library_open(request, len(request), ctypes.byref(handle))
        if status != Status.DONE:
            raise _io_error(error.value) if status == Fault.IO_ERROR else error_of(Status.NO_MEMORY, b"")
        self._handle = handle.value
        try:
            self._serve(self._check_layout, definitions)
        except BaseException as error:
            self.close()
            if isinstance(error, ReplyLost):
                raise error_of(Status.NO_MEMORY, b"") from None
            raise

    def _check_layout(self, definitions: str) -> None:
        """What became of the definitions: the library has them, and is the one that this was written for."""
        opened = self._called(Operation.AGAIN, b"", definitions)
        if opened[:1] != bytes([Kind.OPENED]) or Reader(opened).number() != LAYOUT:
            raise error_of(Fault.OTHER_LIBRARY, b"")

    def transaction(self, *, read_only: bool = False, retry: int = 0, session: Optional[str] = None) -> Any:
        """A transaction for a `with` block, or around a function.

            with manager.transaction() as t:
                t.execute("UPDATE DUTY SET ONCALL = 0 WHERE DOCTOR = ?", ["KIM"])

        It begins with the block, commits at its end, and is rolled back where an exception leaves the block. The
        COMMIT may raise RuleViolated, SerializationFailure, EpochFull and NoMemory; the transaction has ended then.

            @manager.transaction(retry=3)
            def leave(t, doctor):
                t.execute("UPDATE DUTY SET ONCALL = 0 WHERE DOCTOR = ?", [doctor])

        The function is then called as `leave("KIM")`, in a transaction of its own each time, as by `run`.

        read_only: INSERT, UPDATE and DELETE are refused, and the transaction is refused less often.
        retry: how many times more the function is run where others were in its way. A `with` block can't be run again,
            so for one there is no retry.
        session: the name under which the report tells of it, of any number of names; without one the manager gives it
            one. 256 transactions may be open at once, and one more is an OperationalError (number 24).
        """
        return self.transaction_type(self, read_only, session, type(self).checked_retry(retry))

    def _call(self, operation: int, request: bytes, text: Optional[str]) -> bytes:
        """The reply to an operation with its request. A fault in the text is shown in it."""
        return self._serve(self._called, operation, request, text)

    def _shorten(self) -> None:
        """Puts an image in the place of a journal's file."""
        error = self._serve(self._put_image)
        if error:
            raise _io_error(error)

    def _put_image(self) -> int:
        """The same, under the lock: 0, or an errno."""
        error: int = self._library.skewguard_journal_checkpoint(self._handle) if self._is_journaled else 0
        return error

    def _set_checkpoint_bytes(self, count: int) -> None:
        """How long the commits in a journal's file may become. The engine is new, and nobody calls it."""
        if self._is_journaled:
            self._library.skewguard_journal_checkpoint_bytes(self._handle, count)

    @property
    def closed(self) -> bool:
        """Whether the manager was closed."""
        return self._handle is None or self._process != Process.number

    @property
    def _open_transactions(self) -> int:
        return 0 if self.closed else sum(session.use is not None for session in list(self._sessions.values()))

    @property
    def _is_calling(self) -> bool:
        """Whether the thread that asks is in the midst of a call: in the trace, or in a signal's handler."""
        return bool(self._lock._is_owned())  # type: ignore[attr-defined]

    def close(self) -> None:
        """Gives the memory back. Open transactions are lost. Later calls raise InterfaceError, but for this one."""
        if not self.closed:
            self._serve_if_open(self._close)
        self._finalizer()

    def _close(self) -> None:
        self._handle = None

    def _serve(self, call: Callable[..., T], *arguments: Any) -> T:
        """What a call gives that is made under the lock, behind what earlier ones have left to do."""
        answers = self._serve_if_open(call, *arguments)
        if not answers:
            raise error_of(Fault.CLOSED, b"")
        return answers[0]

    def _serve_if_open(self, call: Callable[..., T], *arguments: Any) -> Tuple[T, ...]:
        """The same, as the one of a tuple; none where the library is closed."""
        if self._process != Process.number:
            raise error_of(Fault.OF_PARENT, b"")
        lock = self._lock
        if lock._is_owned():  # type: ignore[attr-defined]  # as threading.Condition asks its lock
            raise error_of(Fault.CALLING, b"")
        try:
            with lock:
                if self._handle is None:
                    return ()
                if self._unnoted or self._put_aside:
                    self._settle()
                return (call(*arguments),)
        except BaseException:
            # Python 3.9 may be interrupted at the end of the block, before the lock is released.
            if lock._is_owned():  # type: ignore[attr-defined]
                lock.release()
            raise

    # -- calls of the library; the lock is held

    def _answered(self, operation: int, request: bytes) -> Tuple[int, bytes]:
        """The status of a call and a copy of its reply."""
        buffer, address, room = self._room
        call = self._library_call
        status = call(self._handle, operation, request, len(request), address, room, self._length_at)
        length = self._length.value
        if length > room or status == REPLY_WAITS:
            return self._fetched(Operation.LINE if operation == Operation.LINE else Operation.AGAIN, length)
        return status, buffer[:length]

    def _fetched(self, operation: int, length: int) -> Tuple[int, bytes]:
        """The status and a copy of a reply that has not come yet; REPLY_WAITS where there is no memory for it."""
        call = self._library_call
        for _ in range(FETCHES):
            try:
                if length > self._room.length:
                    self._room = _room(2 * length)
                buffer, address, room = self._room
                status = call(self._handle, operation, b"", 0, address, room, self._length_at)
                length = self._length.value
                if length <= room and status != REPLY_WAITS:
                    return status, buffer[:length]
            except (MemoryError, OverflowError):
                break
        return REPLY_WAITS, b""

    def _called(self, operation: int, request: bytes, text: Optional[str]) -> bytes:
        """The reply of a call that was done. What was refused raises; a fault in a text is shown in it."""
        status, reply = self._answered(operation, request)
        if status:
            raise error_of(status, reply, text)
        return reply

    def _event(self, operation: int, request: bytes, text: Optional[str] = None) -> bytes:
        """The reply to an event, of which the trace is told, also where it was refused."""
        status, reply = self._answered(operation, request)
        if self._trace is not None and status in TOLD:
            self._tell(self._trace)
        if status:
            raise error_of(status, reply, text, self)
        return reply

    def _tell(self, trace: Trace) -> None:
        """Hands the line of the last answer on. Without memory it is lacking: the event has been."""
        _, reply = self._answered(Operation.LINE, b"")  # its status is the event's own
        for line in Reader(reply).replies() if reply[:1] == bytes([Kind.SEVERAL]) else [reply]:
            if line[:1] == bytes([Kind.TEXT]):
                tell(trace, Reader(line).text())

    # -- what the library makes, and has to be noted; the lock is held

    def _make(
        self, operation: int, request: bytes, text: Optional[str], note: Callable[[Any, bytes], None], what: Any
    ) -> None:
        """Has the library make something, or unmake it, and notes by its reply what has become of it."""
        self._length.value = UNANSWERED
        self._unnoted = (note, what)
        status, reply = self._answered(operation, request)
        if status == REPLY_WAITS:  # the reply is asked for again by the next call
            raise error_of(Status.NO_MEMORY, b"")
        if not status:
            note(what, reply)
        self._unnoted = None
        if status:
            raise error_of(status, reply, text, self)

    def _settle(self) -> None:
        """Brings to an end what was cut short, or forgotten."""
        if self._unnoted:
            self._note_last()
        while self._put_aside:
            self._roll_back(self._put_aside[0])
            self._put_aside.popleft()

    def _note_last(self) -> None:
        """Notes what the last call has made, if the library was reached."""
        assert self._unnoted is not None
        note, what = self._unnoted
        if self._length.value != UNANSWERED:
            status, reply = self._answered(Operation.AGAIN, b"")
            if status == REPLY_WAITS:
                raise error_of(Status.NO_MEMORY, b"")
            if not status:
                note(what, reply)
        self._unnoted = None

    def _roll_back(self, use: Use) -> None:
        """Ends the transaction of a use, if it is still that of its session.

        It may have ended in a call that was cut short. The library then refuses the ROLLBACK, and nobody is told.
        """
        seat, session = use.seat, use.seat.session
        if session is None or session.use is not use:
            return
        if seat.state == State.OPEN:
            seat.state = State.LOST
            self._warn(use)
        status, _ = self._answered(Operation.ROLLBACK, session.number)
        if self._trace is not None and status == Status.DONE:
            self._tell(self._trace)
        self._end(seat, State.ENDED)

    @staticmethod
    def _warn(use: Use) -> None:
        """Warns of a forgotten transaction. Where warnings are errors it is shown, and stops nothing."""
        try:
            words = "a transaction was forgotten, and is rolled back"
            warnings.warn(words, ResourceWarning, stacklevel=2, source=use)
        except Exception:
            sys.excepthook(*sys.exc_info())

    # -- sessions; the lock is held

    def _session(self, name: Optional[str]) -> Session:
        """The session of the name, or one that no transaction uses."""
        if name is None:
            return self._pooled_session()
        key = name.upper() if name.isascii() else name
        session = self._sessions.get(key)
        if session is None:
            session = self._opened(Session(key, False), name)
        elif session.is_pooled:
            raise error_of(Fault.POOLED, b"", name)
        return session

    def _pooled_session(self) -> Session:
        while self._free:
            session = self._free[-1]
            if session.use is None and session.number:
                return session
            self._free.pop()  # it was closed, or given away in a call that was cut short
        name = next(name for name in map("PYTHON{}".format, itertools.count(1)) if name not in self._sessions)
        return self._opened(Session(name, True), name)

    def _opened(self, session: Session, name: str) -> Session:
        """The session of a new name. Where as many are open as may be, one without a transaction makes room."""
        request = text_bytes(name)
        try:
            self._make(Operation.OPEN_SESSION, request, None, self._note_session, session)
        except OperationalError as error:
            if error.number != TOO_MANY_SESSIONS or not self._close_idle():
                raise
            self._make(Operation.OPEN_SESSION, request, None, self._note_session, session)
        return session

    def _note_session(self, session: Session, reply: bytes) -> None:
        session.number = reply[1:9]
        self._sessions[session.key] = session
        if session.is_pooled:
            self._free.append(session)

    def _close_idle(self) -> bool:
        """Closes the session that was used longest ago, of those without a transaction; False where there is none."""
        idle = next((session for session in self._sessions.values() if session.use is None), None)
        if idle is not None:
            self._make(Operation.CLOSE_SESSION, idle.number, None, self._note_closed, idle)
        return idle is not None

    def _note_closed(self, session: Session, _: bytes) -> None:
        session.number = b""
        self._sessions.pop(session.key, None)

    def _take(self, session: Session, owner: Any, seat: Seat) -> None:
        """Gives a session to the transaction of a seat, for as long as there is its owner."""
        # The reference that Python hands to the function is this one, a Use.
        use = Use(owner, self._put_aside.append)  # type: ignore[arg-type]
        use.seat = seat
        seat.session, seat.use = session, use
        session.use = use
        if session.is_pooled:
            self._free.pop()
        self._sessions.move_to_end(session.key)

    def _end(self, seat: Seat, state: int) -> None:
        """That a seat's transaction has ended, and its session is free."""
        seat.end(state)
        session = seat.session
        if session is not None and session.use is seat.use:
            if session.is_pooled:
                self._free.append(session)
            session.use = None
        seat.use = None  # with which nobody is told when the owner goes

    def _put_seat_aside(self, seat: Seat, state: int = State.INTERRUPTED) -> None:
        """That a transaction is to be rolled back, whatever became of it. It takes no lock, and needs none."""
        if seat.use is not None:
            self._put_aside.append(seat.use)
        seat.end(state)

    # -- transactions

    def _begin_seat(self, owner: Any, seat: Seat, name: Optional[str], read_only: bool) -> None:
        """Begins the transaction of a seat. Once there is no owner any more, it is rolled back."""
        self._serve(self._begin, owner, seat, name, Operation.BEGIN_READ_ONLY if read_only else Operation.BEGIN)

    def _begin(self, owner: Any, seat: Seat, name: Optional[str], operation: int) -> None:
        session = self._session(name)
        if session.use is not None:
            self._event(operation, session.number)  # which is refused, unless its transaction has ended unnoticed
            self._roll_back(session.use)
        self._take(session, owner, seat)
        try:
            reply = self._event(operation, session.number)
        except ReplyLost:
            self._put_seat_aside(seat)
            raise error_of(Status.NO_MEMORY, b"") from None
        except Error:
            self._end(seat, State.NOT_BEGUN)
            raise
        seat.snapshot = COUNT.unpack_from(reply, 1)[0]
        seat.state = State.OPEN

    def _end_seat(self, seat: Seat, operation: int) -> None:
        """COMMIT or ROLLBACK. After NoMemory and 25 the transaction is open as before; another refusal has ended it."""
        self._serve(self._end_by, seat, operation)

    def _end_by(self, seat: Seat, operation: int) -> None:
        session = self._session_of(seat)
        try:
            self._note(seat, self._event_of(seat, operation, session.number))
        except Error:
            raise
        except BaseException:  # an interrupt: it may have ended, and nobody can go on with it
            self._put_seat_aside(seat)
            raise

    def _session_of(self, seat: Seat) -> Session:
        """The session of a transaction, which has to be open."""
        session = seat.session
        if seat.state != State.OPEN or session is None:
            raise error_of(Fault.ENDED, b"", seat.state)
        if session.use is not seat.use:
            raise error_of(Fault.ENDED, b"", State.ENDED)
        return session

    def _run_in_seat(self, seat: Seat, text: str, values: Iterable[Any]) -> Result:
        """The answer to a statement. COMMIT and ROLLBACK as texts end the transaction, as the calls do."""
        count, given = parameter_bytes(values)
        return _answer(self._serve(self._run, seat, text, count, given))

    def _run(self, seat: Seat, text: str, count: int, given: bytes) -> bytes:
        session = self._session_of(seat)
        statement = self._statement(text)
        if count != statement.parameters:
            raise error_of(Status.WRONG_COUNT, b"", (statement.parameters, count))
        reply = self._event_of(seat, Operation.RUN, session.number + statement.number + given, text)
        self._note(seat, reply)
        return reply

    def _run_all_in_seat(self, seat: Seat, text: str, rows: List[Sequence[Any]]) -> List[Result]:
        """The answers to a statement with lists of values, up to the first that is not done, which raises."""
        return self._serve(self._run_all, seat, text, rows)

    def _run_all(self, seat: Seat, text: str, rows: List[Sequence[Any]]) -> List[Result]:
        session = self._session_of(seat)
        steps, fault = self._steps((text, values) for values in rows)
        request = session.number + number_bytes(len(steps)) + b"".join(steps)
        try:
            status, replies = self._several(Operation.RUN_ALL, request)
            for reply in replies:
                self._note_one(seat, reply)
        except ReplyLost:
            self._put_seat_aside(seat, State.LOST)
            raise
        results = [self._done(status, reply, text, place) for place, reply in enumerate(replies)]
        if fault is not None:
            raise fault
        return results

    def _note_one(self, seat: Seat, reply: bytes) -> None:
        """Notes by one of several replies whether a seat's transaction has ended, if it had not before."""
        if seat.state != State.OPEN:
            return
        if reply[0] == Kind.REFUSAL:
            self._note_refusal(seat, refusal(reply, None))
        else:
            self._note(seat, reply)

    def _transact(self, steps: List[Tuple[str, Sequence[Any]]], name: Optional[str]) -> Tuple[int, List[Result]]:
        """A whole transaction: the number of its commit, and the answers to its statements."""
        if name is not None:
            text_bytes(name)
        return self._serve(self._transact_steps, steps, name)

    def _transact_steps(self, steps: List[Tuple[str, Sequence[Any]]], name: Optional[str]) -> Tuple[int, List[Result]]:
        made, fault = self._steps(steps)
        if fault is not None:
            raise fault
        session = self._session(name)
        self._sessions.move_to_end(session.key)
        status, replies = self._several(Operation.TRANSACT, session.number + number_bytes(len(made)) + b"".join(made))
        self._done(status, replies[0], None, None)
        answered = enumerate(zip(steps, replies[1:]))
        results = [self._done(status, reply, step[0], place) for place, (step, reply) in answered]
        committed = replies[1 + len(steps)]  # (behind which there is a ROLLBACK, where it was not done)
        self._done(status, committed, None, None)
        return COUNT.unpack_from(committed, 1)[0], results

    def _steps(self, steps: Iterable[Tuple[str, Sequence[Any]]]) -> Tuple[List[bytes], Optional[Exception]]:
        """Statements with their values as bytes of a request, up to the first that is not taken; and why it is not."""
        made: List[bytes] = []
        try:
            for text, values in steps:
                statement = self._statement(text)
                count, given = parameter_bytes(values)
                if count != statement.parameters:
                    raise error_of(Status.WRONG_COUNT, b"", (statement.parameters, count))
                made.append(statement.number + given)
        except (Error, TypeError) as fault:
            if isinstance(fault, Error):
                fault.place = len(made)
            return made, fault
        return made, None

    def _several(self, operation: int, request: bytes) -> Tuple[int, List[bytes]]:
        """The status and the replies of a call that makes several events, of which the trace is told."""
        status, reply = self._answered(operation, request)
        if status == REPLY_WAITS or reply[:1] != bytes([Kind.SEVERAL]):
            raise error_of(status, reply)
        if self._trace is not None:
            self._tell(self._trace)
        return status, Reader(reply).replies()

    def _event_of(self, seat: Seat, operation: int, request: bytes, text: Optional[str] = None) -> bytes:
        """The reply to an event of a seat. A refusal may have ended its transaction."""
        try:
            return self._event(operation, request, text)
        except ReplyLost:
            self._put_seat_aside(seat, State.LOST)
            raise
        except Error as error:
            self._note_refusal(seat, error)
            raise

    def _note_refusal(self, seat: Seat, error: Error) -> None:
        """Notes by a refusal how a seat's transaction has ended, if it has."""
        if isinstance(error, JournalError) and error.errno is not None:
            self._end(seat, State.LOST)  # nothing is answered any more
        elif error.sqlstate in ENDING or error.number == EPOCH_FULL:
            self._end(seat, State.REFUSED)
        elif error.number == NO_TRANSACTION:
            self._end(seat, State.ENDED)

    def _note(self, seat: Seat, reply: bytes) -> None:
        """Notes by a reply how a seat's transaction has ended, if it has."""
        if reply[0] == Kind.COMMITTED:
            seat.number = COUNT.unpack_from(reply, 1)[0]
            self._end(seat, State.COMMITTED)
        elif reply[0] == Kind.ROLLED_BACK:
            self._end(seat, State.ROLLED_BACK)

    def _done(self, status: int, reply: bytes, text: Optional[str], place: Optional[int]) -> Result:
        """What one of several replies says. That of what was not done raises, with the place of its statement."""
        if reply[0] not in UNDONE:
            return _answer(reply)
        error = error_of(status, reply, text, self)
        if isinstance(error, Error):
            error.place = place
        raise error

    # -- prepared statements; the lock is held

    def _statement(self, text: str) -> Statement:
        """The prepared statement of a text: as it was kept; or a new one, and the one used longest ago may go."""
        kept = self._statements.get(text)
        if kept is not None:
            self._statements.move_to_end(text)
            return kept
        self._make(Operation.PREPARE, text_bytes(text), text, self._note_statement, text)
        while len(self._statements) > STATEMENTS:
            oldest, statement = next(iter(self._statements.items()))
            self._make(Operation.FORGET, statement.number, None, self._note_forgotten, oldest)
        return self._statements[text]

    def _note_statement(self, text: str, reply: bytes) -> None:
        self._statements[text] = Statement(reply[1:9], COUNT.unpack_from(reply, 9)[0])

    def _note_forgotten(self, text: str, _: bytes) -> None:
        self._statements.pop(text, None)


def _answer(reply: bytes) -> Result:
    """What the reply to a statement says."""
    kind = reply[0]
    if kind == Kind.ROWS:
        return _rows(Reader(reply))
    if kind == Kind.VERDICT:
        return Result("VERDICT", 0, (), (), _TRUTHS[reply[1]])
    count = COUNT.unpack_from(reply, 1)[0] if kind in _COUNTED else 0
    return Result(_WORDS.get(kind, "DONE"), count, (), (), None)


def _rows(reader: Reader) -> Result:
    columns = tuple([reader.text() for _ in range(reader.number())])
    new, width = row_type(columns), len(columns)
    rows = tuple([new(reader.values(width)) for _ in range(reader.number())])
    return Result("SELECT", len(rows), columns, rows, None)


class Transaction:
    """What of a transaction is done in C, where the package was built so."""

    __slots__ = ("__weakref__", "_engine", "_name", "_read_only", "_retry", "_seat")

    def __init__(self, engine: Engine, read_only: bool, session: Optional[str], retry: int) -> None:
        self._engine = engine
        self._read_only = read_only
        self._name = session
        self._retry = retry
        self._seat = Seat()

    def execute(self, sql: str, values: Union[Iterable[Value], Mapping[str, Value]] = ()) -> Result:
        """Runs a statement, and gives what it was answered: a count, rows, a verdict.

        Each `?` in the text stands for the next of the values, or each `:name` for that of the name, where they come as
        a dict. Values are numbers, texts and None for NULL, and never become a part of the text. Raises, with nothing
        of the statement left and the transaction going on:
        ProgrammingError (a text that is not of the language, with line and column; a name that is not there; types
        that don't fit), ParameterError and TypeError (values), DataError, IntegrityError, RuleViolated, NoMemory.
        """
        if not isinstance(sql, str):
            raise error_of(Fault.NO_TEXT, b"", sql)
        if not isinstance(values, (list, tuple)):
            sql, values = taken(sql, values)
        return self._engine._run_in_seat(self._seat, sql, values)

    def _run_all(self, sql: str, rows: List[Sequence[Any]]) -> List[Result]:
        return self._engine._run_all_in_seat(self._seat, sql, rows)

    def commit(self) -> int:
        """Commits, and gives the number of the commit.

        Raises RuleViolated, SerializationFailure and EpochFull, and the transaction has ended; NoMemory, and it is
        open as before; or ReplyLost.
        """
        seat = self._seat
        self._engine._end_seat(seat, Operation.COMMIT)
        assert seat.number is not None
        return seat.number

    def rollback(self) -> None:
        """Ends the transaction, and nothing of it is left."""
        self._engine._end_seat(self._seat, Operation.ROLLBACK)

    @property
    def snapshot(self) -> Optional[int]:
        """How many commits its tables hold; None before it began."""
        return self._seat.snapshot

    @property
    def number(self) -> Optional[int]:
        """The number of its commit; None without one."""
        return self._seat.number

    @property
    def _state(self) -> int:
        return self._seat.state

    def _begin(self) -> Any:
        """Begins, and gives the transaction itself."""
        if self._name is not None:
            text_bytes(self._name)
        seat = self._seat
        try:
            self._engine._begin_seat(self, seat, self._name, self._read_only)
            return self
        except Error:
            raise
        except BaseException:
            self._engine._put_seat_aside(seat)
            raise

    def __enter__(self) -> Any:
        # A block gets another object for the same transaction, so that this one goes with the block. Should an
        # interrupt come where Python enters `__exit__`, nothing else would tell that the block has ended.
        if self._retry:
            raise error_of(Fault.RETRIED, b"")
        seat = self._seat
        if seat.state != State.NOT_BEGUN:
            raise error_of(Fault.USED, b"")
        try:
            self._begin()
            other = type(self)(self._engine, self._read_only, self._name, 0)
            other._seat = seat
            return other
        except Error:
            raise
        except BaseException:
            self._engine._put_seat_aside(seat)
            raise

    def __exit__(self, kind: Optional[Type[BaseException]], *_: object) -> None:
        seat = self._seat
        try:
            self._leave(seat, kind is None)
        except BaseException:
            self._engine._put_seat_aside(seat)
            raise

    def _leave(self, seat: Seat, commits: bool) -> None:
        """Ends the transaction of a block that was left, if it has not ended in it."""
        if seat.state != State.OPEN:
            return
        try:
            if commits:
                self._engine._end_seat(seat, Operation.COMMIT)
        finally:
            if seat.state == State.OPEN:
                try:
                    self._engine._end_seat(seat, Operation.ROLLBACK)
                except Error:
                    pass
