#!/usr/bin/env python3
"""Random calls of the C library through ctypes, against `skewguard replay` of the same events.

    tools/fuzz_calls.py LIBRARY PROGRAM [--calls 100000] [--seed 1]

LIBRARY is a libskewguard.so, PROGRAM the program skewguard. Each run has some definitions and up to five sessions, and
is 500 calls: events as texts, by calls of their own, and prepared with values, also several in one call, and whole
transactions in one; sessions that are closed and opened again, and three hundred of other names one after the other;
checkpoints that drop and create rules; and calls that no library should be given, as sessions that are closed,
statements that were never prepared, requests of random bytes and operations that there are not. What each event was
answered is asked for as the line of a report, and the reply's bytes have to say the same; a call that is misused, or
refused for its rules, may change nothing. In the end the events of each epoch are replayed as a script, over the rules
of that epoch and the rows that it began on: every line, and the closing part, have to be the same bytes. The last line
says how many calls were made, and how many runs differ.
"""
from __future__ import annotations

import collections
import ctypes
import pathlib
import random
import struct
import sys
import typing
from collections.abc import Callable, Iterable, Sequence

from harness.arguments import parser_of
from harness.programs import replay
from harness.texts import Value, in_bytes, literal

(AGAIN, LINE, OPEN_SESSION, CLOSE_SESSION, PREPARE, FORGET, RUN, EXECUTE, BEGIN, BEGIN_READ_ONLY, COMMIT, ROLLBACK,
 REPORT, CHECKPOINT, RUN_ALL, TRANSACT, IMAGE) = range(17)
DONE, REFUSED = 0, 1
(BAD_REQUEST, NO_SESSION, NO_STATEMENT, WRONG_COUNT, BAD_VALUE, BAD_NAME, NAME_TAKEN) = range(4, 11)
SESSION, STATEMENT, BEGUN, COMMITTED, ROLLED_BACK, INSERTED, UPDATED, DELETED, ROWS = 2, 3, 5, 6, 7, 8, 9, 10, 11
MODES_SET, VERDICT, TEXT, REFUSAL, MISUSED, SEVERAL = 12, 13, 14, 15, 16, 17
ENDING = "10 40002", "12 40001", "13 40001", "17 -"
CALLS_IN_A_RUN = 500


class Schema(typing.NamedTuple):
    """Tables with their names, assertions by their names in their order, and rows."""

    tables: str
    names: tuple[str, ...]
    rules: dict[str, str]
    rows: str

    def text(self) -> str:
        return "\n".join([self.tables, *self.rules.values(), self.rows]) + "\n"


def rule(name: str, condition: str, attributes: str = "") -> str:
    return f"CREATE ASSERTION {name} CHECK ({condition}) {attributes};"


DUTY = "CREATE TABLE DUTY (ID INTEGER PRIMARY KEY, SHIFT INTEGER, DOCTOR VARCHAR(8), ONCALL INTEGER);"
RULES = {
    "COVERED": rule("COVERED", """NOT EXISTS (SELECT * FROM SHIFTS S WHERE NOT EXISTS (
        SELECT * FROM DUTY D WHERE D.SHIFT = S.ID AND D.ONCALL = 1))"""),
    "FEW": rule("FEW", "(SELECT COUNT(*) FROM DUTY) < 9", "INITIALLY DEFERRED"),
    "SOME": rule("SOME", "EXISTS (SELECT * FROM DUTY)", "DEFERRABLE"),
    "TWICE": rule("TWICE", "NOT EXISTS (SELECT DOCTOR FROM DUTY GROUP BY DOCTOR HAVING COUNT(*) > 3)"),
    "BELOW": rule("BELOW", "NOT EXISTS (SELECT * FROM DUTY WHERE ONCALL > 6)"),
    "NONE": rule("NONE", "NOT EXISTS (SELECT * FROM DUTY)"),
}
SUMS = rule("COVERED", "NOT EXISTS (SELECT SHIFT FROM DUTY GROUP BY SHIFT HAVING SUM(ONCALL) < 0)")
CLINIC = Schema("CREATE TABLE SHIFTS (ID INTEGER PRIMARY KEY);\n" + DUTY, ("SHIFTS", "DUTY"),
    {name: RULES[name] for name in ("COVERED", "FEW")}, """
INSERT INTO DUTY VALUES (1, 1, 'KIM', 1); INSERT INTO DUTY VALUES (2, 1, 'O''HARA', 1);
INSERT INTO DUTY VALUES (3, 2, NULL, 1); INSERT INTO SHIFTS VALUES (1); INSERT INTO SHIFTS VALUES (2);""")
BANK = Schema(DUTY.replace("SHIFT INTEGER", "SHIFT INTEGER NOT NULL"), ("DUTY",),
    {"COVERED": SUMS, "TWICE": RULES["TWICE"]},
    "INSERT INTO DUTY VALUES (1, 1, 'KIM', 5); INSERT INTO DUTY VALUES (2, 1, 'LEE', 0);")
PLAIN = Schema(DUTY, ("DUTY",), {}, "")
SCHEMAS = CLINIC, CLINIC, BANK, PLAIN
# Each with the types of its parameters: a number, a text, or a number where NULL may stand too.
STATEMENTS = {
    "INSERT INTO DUTY VALUES (?, ?, ?, ?)": "nnto",
    "INSERT INTO DUTY (ID, ONCALL, SHIFT) VALUES (?, ?, 1)": "no",
    "INSERT INTO DUTY (ID, SHIFT, ONCALL) VALUES (?, 1, ?), (?, ?, 1)": "nonn",
    "UPDATE DUTY SET ONCALL = ? WHERE ID = ?": "on",
    "UPDATE DUTY SET ONCALL = 0 WHERE ID = ?": "n",
    "UPDATE DUTY SET ONCALL = ONCALL - ?, DOCTOR = 'EVE' WHERE SHIFT = ? OR ID = ?": "nnn",
    "DELETE FROM DUTY WHERE ID = ?": "n",
    "DELETE FROM DUTY WHERE DOCTOR = ? AND ONCALL < ?": "tn",
    "SELECT * FROM DUTY WHERE ID = ?": "n",
    "SELECT DOCTOR, ID FROM DUTY WHERE SHIFT = ? OR ONCALL IS NULL": "n",
    "SELECT ID FROM DUTY": "",
    "SELECT COUNT(*), SUM(ONCALL), MIN(DOCTOR) AS LEAST, MAX(ID) + ? FROM DUTY WHERE SHIFT = ?": "nn",
    "SELECT COUNT(DISTINCT DOCTOR) SEVERAL, SUM(DISTINCT ID) * 4000 - ? FROM DUTY": "n",
    "SELECT D.DOCTOR, ID * 1000000000000000 * 10000, -ONCALL + ? AS OFF, ? FROM DUTY AS D WHERE D.ID < ?": "ntn",
    "SELECT SHIFT, COUNT(*), MAX(D.ID) + ? FROM DUTY D WHERE ID < ? GROUP BY D.SHIFT, ONCALL HAVING SUM(ID) > ?": "nnn",
    "SELECT DOCTOR FROM DUTY GROUP BY DOCTOR HAVING DOCTOR <> ? OR COUNT(*) BETWEEN 2 AND ?": "tn",
    "SELECT ? FROM DUTY HAVING COUNT(*) > ?": "nn",
    "VERDICT COVERED": "",
    "SET CONSTRAINTS ALL DEFERRED": "",
    "SET CONSTRAINTS COVERED IMMEDIATE": "",
    "INSERT INTO NOWHERE VALUES (?)": "n",
}
USERS = 300
# In a text each byte is one character, as in the harness.
PAST_ASCII = in_bytes("Žofie"), in_bytes("日本語'😀")
NO_NAMES = b"", b"A B", b"SELECT", b"\xff", b"1A", b"A" * 129
EVENTS = {BEGIN: "BEGIN", BEGIN_READ_ONLY: "BEGIN READ ONLY", COMMIT: "COMMIT", ROLLBACK: "ROLLBACK"}


def number(value: int) -> bytes:
    return struct.pack("<q", value)


def value_bytes(value: Value) -> bytes:
    if value is None:
        return b"\0"
    if isinstance(value, int):
        return b"\1" + number(value)
    text = value.encode("latin-1")
    return b"\2" + number(len(text)) + text


class Reader:
    """The fields of a reply."""

    def __init__(self, data: bytes) -> None:
        self.data, self.at = data, 0

    def take(self, count: int) -> bytes:
        self.at += count
        if self.at > len(self.data):
            raise ValueError("the reply ends too early")
        return self.data[self.at - count:self.at]

    def byte(self) -> int:
        return self.take(1)[0]

    def number(self) -> int:
        (found,) = struct.unpack("<q", self.take(8))
        return int(found)

    def text(self) -> str:
        return self.take(self.number()).decode("latin-1")

    def value(self) -> Value:
        kind = self.byte()
        by_kind: dict[int, Callable[[], Value]] = {
            0: lambda: None, 1: self.number, 2: self.text, 3: lambda: "ALL", 4: lambda: "", 5: self.large_number}
        return by_kind[kind]()

    def large_number(self) -> int:
        """A number by its decimal digits, which only one past 64 bits is."""
        digits = self.text()
        found = int(digits)
        if -2**63 <= found < 2**63 or str(found) != digits:
            raise ValueError(f"{digits} is no number past 64 bits")
        return found

    def done(self) -> None:
        if self.at != len(self.data):
            raise ValueError("the reply goes on behind its end")


class Library:
    """A handle, with the calls that were made."""

    def __init__(self, shared: ctypes.CDLL, definitions: str, limit: int) -> None:
        self.shared, self.handle = shared, ctypes.c_void_p()
        request = number(limit) + definitions.encode()
        if shared.skewguard_library_open(request, len(request), ctypes.byref(self.handle)):
            raise MemoryError

    def call(self, operation: int, request: bytes, room: int = 1 << 16) -> tuple[int, bytes]:
        buffer, length = ctypes.create_string_buffer(room), ctypes.c_size_t()
        status = self.shared.skewguard_library_call(
            self.handle, operation, request or b"\0", len(request), buffer, room, ctypes.byref(length))
        if length.value > room:
            return self.call(operation if operation == LINE else AGAIN, b"", length.value)
        return status, buffer.raw[:length.value]

    def lines(self) -> list[str]:
        """The lines of a call that made several events."""
        reader = Reader(self.call(LINE, b"")[1])
        if reader.byte() != SEVERAL:
            raise ValueError("no lines")
        lines = [reader.text() for _ in range(reader.number()) if reader.byte() == TEXT]
        reader.done()
        return lines

    def line(self) -> str:
        status, reply = self.call(LINE, b"")
        reader = Reader(reply)
        kind, text = reader.byte(), reader.text()
        reader.done()
        if (status != DONE and status != REFUSED) or kind != TEXT:
            raise ValueError(f"no line: {status} {reply!r}")
        return text

    def close(self) -> None:
        self.shared.skewguard_library_close(self.handle)


def rows_of(reader: Reader) -> tuple[list[str], list[list[Value]]]:
    names = [reader.text() for _ in range(reader.number())]
    return names, [[reader.value() for _ in names] for _ in range(reader.number())]


def told_by(reply: bytes) -> tuple[int, str]:
    """What the fields of a reply say, as the line of a report has it behind the session's name."""
    reader = Reader(reply)
    told = told_next(reader)
    reader.done()
    return told


def told_next(reader: Reader) -> tuple[int, str]:
    """The same of the next of several; nothing where a call was not made."""
    kind = reader.byte()
    words = {BEGUN: "BEGIN", COMMITTED: "COMMIT", INSERTED: "INSERT", UPDATED: "UPDATE", DELETED: "DELETE"}
    if kind in words:
        told = f"{words[kind]} {reader.number()}"
    elif kind == ROLLED_BACK:
        told = "ROLLBACK"
    elif kind == MODES_SET:
        told = "SET CONSTRAINTS"
    elif kind == VERDICT:
        told = ("FALSE", "TRUE", "UNKNOWN")[reader.number()]
    elif kind == ROWS:
        _, rows = rows_of(reader)
        told = f"SELECT {len(rows)}" + "".join("\n  " + ", ".join(map(literal, row)) for row in rows)
    elif kind == REFUSAL:
        told = refusal_of(reader)
    elif kind in (0, MISUSED):
        told = str(reader.number()) if kind else ""
    else:
        raise ValueError(f"a reply of kind {kind}")
    return kind, told


def refusal_of(reader: Reader) -> str:
    which, state, name, root = reader.number(), reader.text() or "-", reader.text(), reader.value()
    by, *parties, _offset = (reader.number() for _ in range(5))
    line = reader.text()
    told = f"REFUSED {which} {state}"
    if which == 13:
        words = [party or "THIS" for party in parties]
        told += " READER {} PIVOT {} WRITER {}".format(*words)
    elif which in (7, 10, 12, 21):
        shown = root if root == "ALL" and "'ALL'" not in line else literal(root)
        told += f" {name} {shown}" + (f" BY {by}" if which == 12 else "")
    elif name:
        told += f" {name}"
    if told not in line:
        raise ValueError(f"{told!r} is not in {line!r}")
    return line.split(": ", 1)[1].rstrip("\n")


class Epoch(typing.NamedTuple):
    """The definitions that an epoch began on, its events, and the report that the library told of it."""

    schema: Schema
    script: list[str]
    told: str


class Step(typing.NamedTuple):
    """A statement of a call of several: its text, its bytes, and the status where it can't be run."""

    text: str
    request: bytes
    wrong: int | None


class Run:
    """One database, the script of what was done, and the report that is expected of it."""

    def __init__(self, shared: ctypes.CDLL, chance: random.Random) -> None:
        self.chance = chance
        self.schema = chance.choice(SCHEMAS)
        self.limit = chance.choice((1000000, 1000000, 12))
        self.library = Library(shared, self.schema.text(), self.limit)
        self.epochs: list[Epoch] = []
        self.sessions: dict[str, int] = {}
        self.closed = [0, 10**12]
        self.statements: dict[int, str] = {}
        self.script: list[str] = []
        self.lines: list[str] = []
        self.order: list[str] = []
        self.in_transaction: dict[str, bool] = collections.defaultdict(bool)
        self.calls = self.events = 0

    def call(self, operation: int, request: bytes = b"") -> tuple[int, bytes]:
        self.calls += 1
        return self.library.call(operation, request)

    def expect(self, holds: bool, what: str) -> None:
        if not holds:
            raise ValueError(what)

    def misuse(self, operation: int, request: bytes, *statuses: int) -> None:
        """A call that may do nothing, and says why."""
        before = self.library.call(REPORT, b"")
        status, _ = self.call(operation, request)
        self.expect(status in statuses, f"status {status} of operation {operation}, wanted {statuses}")
        self.expect(self.library.call(REPORT, b"") == before, f"operation {operation} changed something")

    def value(self, kind: str) -> Value:
        """A value of the kind, or now and then of another."""
        if self.chance.random() < 0.03:
            kind = self.chance.choice("nto")
        if kind == "t":
            return self.chance.choice(("KIM", "LEE", "O'HARA", "EVE", "", "'; --", "NINELONGER", *PAST_ASCII))
        if kind == "o" and self.chance.random() < 0.2:
            return None
        return self.chance.choice((0, 0, 1, 1, 2, 3, 4, 5, 6, 7, 8, 9, -1))

    def session(self) -> tuple[str, int]:
        """A session, mostly one with an open transaction."""
        working = [name for name in self.sessions if self.in_transaction[name]]
        name = self.chance.choice(working if working and self.chance.random() < 0.95 else list(self.sessions))
        return name, self.sessions[name]

    def event(self, name: str, text: str, operation: int, request: bytes) -> None:
        """An event that the engine answers: its line goes into the report, and the event into the script."""
        status, reply = self.call(operation, request)
        self.expect(status in (DONE, REFUSED), f"status {status} of {text}")
        kind, told = told_by(reply)
        self.expect((status == REFUSED) == (kind == REFUSAL), f"status {status} with kind {kind}")
        self.answered(name, text, kind, told, self.library.line())

    def answered(self, name: str, text: str, kind: int, told: str, line: str) -> None:
        """An event was answered so, and this is its line."""
        if line.startswith("STATEMENT: "):
            raise ValueError(f"{text} was refused as a text: {line}")
        shown = line.split(": ", 1)[1].rstrip("\n")
        self.expect(line.startswith(f"{name}: "), line)
        self.expect(told == shown or (kind == VERDICT and shown.endswith(" " + told)), f"{told!r} is not {shown!r}")
        if kind == BEGUN:
            self.in_transaction[name] = True
        elif kind in (COMMITTED, ROLLED_BACK) or (text == "COMMIT" and shown[8:].startswith(ENDING)):
            self.in_transaction[name] = False
        self.note(name, text, line)

    def note(self, name: str, text: str, line: str) -> None:
        if name not in self.order:
            self.order.append(name)
        self.script.append(f"{name}: {text};")
        self.lines.append(line)
        self.events += 1

    def open_session(self) -> None:
        name = self.chance.choice(("ANN", "BOB", "CLEO", "DAN", "EVE"))
        written = self.chance.choice((name, name.lower())).encode()
        if name in self.sessions:
            return self.misuse(OPEN_SESSION, written, NAME_TAKEN)
        status, reply = self.call(OPEN_SESSION, written)
        reader = Reader(reply)
        self.expect(status == DONE and reader.byte() == SESSION, f"status {status} of opening {name}")
        self.sessions[name] = reader.number()
        self.expect(self.sessions[name] not in self.closed, "a session's number was given again")

    def close_session(self) -> None:
        name = self.chance.choice(list(self.sessions))
        session = self.sessions.pop(name)
        self.closed.append(session)
        status, _ = self.call(CLOSE_SESSION, number(session))
        self.expect(status == DONE, f"status {status} of closing {name}")
        if self.in_transaction[name]:
            self.in_transaction[name] = False
            self.note(name, "ROLLBACK", f"{name}: ROLLBACK\n")

    def serve_users(self) -> None:
        """A session for each of more users than there are places, one after the other."""
        for user in range(USERS):
            status, reply = self.library.call(OPEN_SESSION, b"USER%d" % user)
            reader = Reader(reply)
            self.expect(status == DONE and reader.byte() == SESSION, f"status {status} of opening USER{user}")
            session = reader.number()
            self.expect(self.library.call(CLOSE_SESSION, number(session))[0] == DONE, f"USER{user} stays open")
            self.closed.append(session)
        self.calls += 2 * USERS

    def checkpoint(self, program: str) -> None:
        """Drops and creates rules. The rows that the next epoch begins on are asked for first, by a transaction."""
        dropped = self.chance.sample([*self.schema.rules, "NOWHERE"], self.chance.choice((0, 1)))
        created = self.chance.sample(list(RULES), self.chance.choice((0, 1, 1, 2)))
        text = "".join(RULES[name] for name in created).encode()
        names = number(len(dropped)) + b"".join(map(value_bytes, dropped))
        request = number(len(text)) + text + names
        if any(self.in_transaction.values()):
            return self.refuse_rules(request, "15 - TRANSACTION OPEN")
        rows = self.rows()
        fault = self.fault_of_rules(program, dropped, created, rows)
        if fault:
            return self.refuse_rules(request, fault)
        status, reply = self.call(CHECKPOINT, request)
        reader = Reader(reply)
        self.expect(status == DONE and reader.byte() == TEXT, f"status {status} of a checkpoint: {reply!r}")
        self.epochs.append(Epoch(self.schema, self.script, "".join(self.lines) + reader.text()))
        self.schema = self.with_rules(dropped, created, rows)
        self.script, self.lines, self.order = [], [], []

    def with_rules(self, dropped: Iterable[str], created: Iterable[str], rows: str) -> Schema:
        rules = {name: text for name, text in self.schema.rules.items() if name not in dropped}
        return self.schema._replace(rules=rules | {name: RULES[name] for name in created}, rows=rows)

    def fault_of_rules(self, program: str, dropped: Sequence[str], created: Sequence[str], rows: str) -> str | None:
        """What the rules are refused for, if they are: a name to drop, or what the program says of the definitions."""
        for name in dropped:
            if name not in self.schema.rules:
                return f"3 - {name}"
        left, new = self.with_rules(dropped, [], rows), [RULES[name] for name in created]
        status, told = self.replay(program, left._replace(rows="\n".join([*new, rows])), [])
        return told.removeprefix("DEFS: REFUSED ").rstrip("\n") if status else None

    def refuse_rules(self, request: bytes, fault: str) -> None:
        before = self.library.call(REPORT, b"")
        status, reply = self.call(CHECKPOINT, request)
        self.expect(status == REFUSED, f"status {status} of a checkpoint, wanted {fault}")
        kind, told = told_by(reply)
        self.expect(kind == REFUSAL and told == f"REFUSED {fault}", f"{told!r}, wanted {fault}")
        self.expect(self.library.call(REPORT, b"") == before, "a checkpoint that was refused changed something")

    def rows(self) -> str:
        """The rows of each table, as INSERTs."""
        if not self.sessions:
            self.open_session()
        name, session = next(iter(self.sessions.items()))
        self.event(name, "BEGIN READ ONLY", BEGIN_READ_ONLY, number(session))
        written = [line for table in self.schema.names for line in self.rows_of_table(name, session, table)]
        self.event(name, "ROLLBACK", ROLLBACK, number(session))
        return "\n".join(written)

    def rows_of_table(self, name: str, session: int, table: str) -> list[str]:
        text = f"SELECT * FROM {table}"
        self.event(name, text, EXECUTE, number(session) + text.encode("latin-1"))
        rows = self.lines[-1].splitlines()[1:]
        return [f"INSERT INTO {table} VALUES ({row.strip()});" for row in rows]

    def prepare(self) -> None:
        text = self.chance.choice(list(STATEMENTS))
        status, reply = self.call(PREPARE, text.encode("latin-1"))
        reader = Reader(reply)
        self.expect(status == DONE and reader.byte() == STATEMENT, f"status {status} of preparing {text}")
        statement, parameters = reader.number(), reader.number()
        self.expect(parameters == text.count("?") and statement not in self.statements, text)
        self.statements[statement] = text

    def run_statement(self) -> None:
        name, session = self.session()
        statement, text = self.chance.choice(list(self.statements.items()))
        values = [self.value(kind) for kind in STATEMENTS[text]]
        request = number(session) + number(statement) + number(len(values)) + b"".join(map(value_bytes, values))
        if None in values and not text.startswith("INSERT") and not text.startswith("UPDATE DUTY SET ONCALL = ?"):
            return self.misuse(RUN, request, BAD_VALUE)
        if None in values[1:] and text.startswith("UPDATE DUTY SET ONCALL = ?"):
            return self.misuse(RUN, request, BAD_VALUE)
        pieces = text.split("?")
        written = "".join(piece + literal(value) for piece, value in zip(pieces, values)) + pieces[-1]
        self.event(name, written, RUN, request)

    def step_of(self) -> Step:
        """A statement with values, for a call of several."""
        statement, text = self.chance.choice(list(self.statements.items()))
        values = [self.value(kind) for kind in STATEMENTS[text]]
        pieces = text.split("?")
        written = "".join(piece + literal(value) for piece, value in zip(pieces, values)) + pieces[-1]
        may_be_null = len(values) if text.startswith("INSERT") else text.startswith("UPDATE DUTY SET ONCALL = ?")
        wrong = BAD_VALUE if None in values[int(may_be_null):] else None
        pick = self.chance.random()
        if pick < 0.02:
            return Step(written, number(10**9) + number(0), NO_STATEMENT)
        if pick < 0.04:
            request = number(statement) + number(len(values) + 1) + b"\0" * (len(values) + 1)
            return Step(written, request, WRONG_COUNT)
        return Step(written, number(statement) + number(len(values)) + b"".join(map(value_bytes, values)), wrong)

    def several(self) -> None:
        """Statements in one call, or a whole transaction."""
        name, session = self.session()
        steps = [self.step_of() for _ in range(self.chance.randrange(5))]
        request = number(session) + number(len(steps)) + b"".join(step.request for step in steps)
        is_whole = self.chance.random() < (0.1 if self.in_transaction[name] else 0.9)
        if is_whole:
            steps = [Step("BEGIN", b"", None), *steps, Step("COMMIT", b"", None)]
        status, reply = self.call(TRANSACT if is_whole else RUN_ALL, request)
        reader, lines, found = Reader(reply), self.library.lines(), DONE
        self.expect(reader.byte() == SEVERAL and reader.number() == len(lines), f"{reply!r} with {lines}")
        count = 0
        for (text, _, wrong), line in zip(steps, lines):
            count += 1
            kind, told = told_next(reader)
            if wrong:
                self.expect(kind in (0, MISUSED) and not line, f"{text} was answered {told}")
                found = wrong
            else:
                self.answered(name, text, kind, told, line)
                found = REFUSED if kind == REFUSAL else DONE
            if found:
                break
        if is_whole and found and 1 < count < len(steps):
            kind, told = told_next(reader)
            self.answered(name, "ROLLBACK", kind, told, lines[count])
            self.expect(kind == ROLLED_BACK, "a transaction that was refused was not rolled back")
            count += 1
        elif not found:
            self.expect(count == len(steps), f"{count} of {len(steps)} were run")
        reader.done()
        self.expect(status == found and count == len(lines), f"status {status}, wanted {found}; {count} of {lines}")
        self.expect(self.library.call(AGAIN, b"") == (status, reply), "the replies are others when they come again")

    def execute(self) -> None:
        name, session = self.session()
        text = self.chance.choice(list(STATEMENTS))
        for kind in STATEMENTS[text]:
            value = self.value(kind)
            if value is None and not text.startswith("INSERT"):
                value = 0
            text = text.replace("?", literal(value), 1)
        self.event(name, text, EXECUTE, number(session) + text.encode("latin-1"))

    def bound(self) -> None:
        name, session = self.chance.choice(list(self.sessions.items()))
        if self.in_transaction[name]:
            operation = self.chance.choices((COMMIT, ROLLBACK, BEGIN), (12, 2, 1))[0]
        else:
            operation = self.chance.choices((BEGIN, BEGIN_READ_ONLY, COMMIT), (12, 1, 1))[0]
        if self.chance.random() < 0.3:
            text = EVENTS[operation]
            return self.event(name, text, EXECUTE, number(session) + text.encode("latin-1"))
        self.event(name, EVENTS[operation], operation, number(session))

    def foul(self) -> None:
        """What no caller should do."""
        chance = self.chance
        gone = number(chance.choice(self.closed))
        live = number(next(iter(self.sessions.values()), 0))
        noise = bytes(chance.randrange(256) for _ in range(chance.randrange(40)))
        status = NO_SESSION
        kinds: list[Callable[[], None]] = [
            lambda: self.misuse(chance.choice((BEGIN, BEGIN_READ_ONLY, COMMIT, ROLLBACK, CLOSE_SESSION)), gone, status),
            lambda: self.misuse(EXECUTE, gone + b"BEGIN", status),
            lambda: self.misuse(FORGET, number(10**9), NO_STATEMENT),
            lambda: self.misuse(RUN, live + number(10**9) + number(0), NO_STATEMENT),
            lambda: self.misuse(chance.randrange(17, 2**32), noise, BAD_REQUEST),
            lambda: self.misuse(chance.choice((RUN_ALL, TRANSACT)), gone + number(1) + noise[:20], BAD_REQUEST),
            lambda: self.misuse(chance.choice((RUN_ALL, TRANSACT)), live + number(0) + b"\0", BAD_REQUEST),
            lambda: self.misuse(TRANSACT, gone + number(0), NO_SESSION),
            lambda: self.misuse(RUN_ALL, live + number(1) + number(10**9) + number(0), NO_STATEMENT, NO_SESSION),
            lambda: self.misuse(OPEN_SESSION, chance.choice(NO_NAMES), BAD_NAME),
            lambda: self.misuse(chance.choice((CLOSE_SESSION, FORGET, BEGIN, COMMIT)), noise[:7], BAD_REQUEST),
            lambda: self.misuse(RUN, live + live + noise[:12] + b"\x77", BAD_REQUEST, NO_STATEMENT),
            lambda: self.misuse(CHECKPOINT, b"\xff" + noise, BAD_REQUEST),
            lambda: self.misuse(EXECUTE, live + b"SELEKT " + noise, REFUSED, NO_SESSION),
            lambda: self.misuse(PREPARE, b"SELECT ? " + noise, REFUSED),
        ]
        if self.statements:
            statement, text = chance.choice(list(self.statements.items()))
            count = text.count("?") + 1
            head = live + number(statement)
            kinds += [
                lambda: self.misuse(RUN, head + number(count) + count * b"\0", WRONG_COUNT),
                lambda: self.misuse(RUN, head + number(count) + (count - 1) * b"\0", BAD_REQUEST),
            ]
            if text.count("?"):
                most = b"".join(value_bytes(10**15 + 1) for _ in range(count - 1))
                odd = b"".join(value_bytes("\xe9") for _ in range(count - 1))
                kinds.append(lambda: self.misuse(RUN, head + number(count - 1) + chance.choice((most, odd)), BAD_VALUE))
        chance.choice(kinds)()

    def forget(self) -> None:
        statement = self.chance.choice(list(self.statements))
        del self.statements[statement]
        self.expect(self.call(FORGET, number(statement))[0] == DONE, "a statement was not forgotten")

    def step(self, program: str) -> None:
        pick = self.chance.random()
        if pick < 0.001:
            return self.serve_users()
        if 0.3 < pick < (0.305 if any(self.in_transaction.values()) else 0.4):
            return self.checkpoint(program)
        if not self.sessions or pick < 0.02:
            return self.open_session()
        if not self.statements or pick < 0.05:
            return self.prepare()
        if pick < 0.07:
            return self.close_session()
        if pick < 0.08:
            return self.forget()
        if pick < 0.16:
            return self.foul()
        if pick < (0.32 if any(self.in_transaction.values()) else 0.8):
            return self.bound()
        if pick > 0.88:
            return self.several()
        return self.run_statement() if pick < 0.8 else self.execute()

    def report(self) -> str:
        """What the library told, as a whole report."""
        left = "".join(f"{name}: ROLLBACK AT END\n" for name in self.order if self.in_transaction[name])
        reader = Reader(self.call(REPORT)[1])
        self.expect(reader.byte() == TEXT, "no report")
        return "".join(self.lines) + left + reader.text()

    def replay(self, program: str, schema: Schema, script: Sequence[str]) -> tuple[int, str]:
        """The status, and what was printed."""
        done = replay(program, schema.text(), "\n".join(script) + "\n", *self.limit_words())
        return done.status, done.output or done.error.splitlines(keepends=True)[0]

    def compare(self, program: str) -> None:
        """Replays each epoch."""
        for schema, script, told in [*self.epochs, Epoch(self.schema, self.script, self.report())]:
            _, replayed = self.replay(program, schema, script)
            self.expect(told == replayed, first_difference(told, replayed))

    def limit_words(self) -> list[str]:
        return ["--max-commits", str(self.limit)]


def bind(path: str) -> ctypes.CDLL:
    shared = ctypes.CDLL(path)
    size, pointer = ctypes.c_size_t, ctypes.c_void_p
    shared.skewguard_library_open.argtypes = [ctypes.c_char_p, size, ctypes.POINTER(pointer)]
    shared.skewguard_library_open.restype = ctypes.c_int32
    shared.skewguard_library_call.argtypes = [
        pointer, ctypes.c_uint32, ctypes.c_char_p, size, ctypes.c_char_p, size, ctypes.POINTER(size)]
    shared.skewguard_library_call.restype = ctypes.c_int32
    shared.skewguard_library_close.argtypes = [pointer]
    shared.skewguard_library_close.restype = None
    return shared


def one_run(shared: ctypes.CDLL, program: str, seed: int) -> tuple[Run, str | None]:
    """How many calls were made, and what differs."""
    run = Run(shared, random.Random(seed))
    try:
        while run.calls < CALLS_IN_A_RUN:
            run.step(program)
        run.compare(program)
    except ValueError as fault:
        return run, f"seed {seed}: {fault}"
    finally:
        run.library.close()
    return run, None


def first_difference(told: str, replayed: str) -> str:
    for line, other in zip(told.splitlines(), replayed.splitlines()):
        if line != other:
            return f"library {line!r}, replay {other!r}"
    return f"{len(told)} bytes from the library, {len(replayed)} from replay"


def main() -> None:
    words = parser_of(__doc__)
    words.add_argument("library", type=pathlib.Path)
    words.add_argument("program")
    words.add_argument("--calls", type=int, default=100000)
    words.add_argument("--seed", type=int, default=1)
    given = words.parse_args()
    shared = bind(str(given.library.resolve()))
    calls = events = epochs = differs = seed = 0
    answers: collections.Counter[str] = collections.Counter()
    while calls < given.calls:
        run, fault = one_run(shared, given.program, given.seed * 10**6 + seed)
        seed, calls, epochs = seed + 1, calls + run.calls, epochs + len(run.epochs) + 1
        events += run.events
        for line in run.lines:
            told = line.split(": ", 1)[1].split()
            answers[" ".join(told[:2]) if told[0] == "REFUSED" else told[0]] += 1
        if fault:
            differs += 1
            print(fault)
    print(", ".join(f"{word} {count}" for word, count in sorted(answers.items())))
    print(f"{calls} calls, {events} events in {epochs} epochs of {seed} runs, {differs} differ")
    sys.exit(differs != 0)


if __name__ == "__main__":
    main()
