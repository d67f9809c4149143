"""Transactions over SQL-92 assertions, in this process.

    import skewguard

    manager = skewguard.open('''
        CREATE TABLE DUTY (ID INTEGER PRIMARY KEY, DOCTOR VARCHAR(10), ONCALL INTEGER);
        CREATE ASSERTION COVERED CHECK ((SELECT SUM(ONCALL) FROM DUTY) >= 1);
        INSERT INTO DUTY VALUES (1, 'KIM', 1);
    ''')
    try:
        with manager.transaction() as t:
            t.execute("UPDATE DUTY SET ONCALL = 0 WHERE DOCTOR = ?", ["KIM"])
    except skewguard.RuleViolated as refused:
        print(refused.rule)

An assertion is a rule over whole tables. No committed tables make one false, and the committed transactions have a
serial order, whatever threads do. `Manager.run` runs a function's transaction again where others were in its way.
With `journal` in `open` what is committed outlives the process, whatever
becomes of it. `skewguard.dbapi` has the same by connections and cursors, as PEP 249 has them.
"""

from ._backend import IMPLEMENTATION
from .errors import (
    ALL,
    DangerousStructure,
    DatabaseError,
    DataError,
    EpochFull,
    Error,
    IntegrityError,
    InterfaceError,
    JournalError,
    NoMemory,
    OperationalError,
    ParameterError,
    ProgrammingError,
    ReplyLost,
    RuleViolated,
    SerializationFailure,
    WriteConflict,
)
from .manager import Manager, Transaction, open
from .rows import Result, Row

__version__ = "0.1.0"

__all__ = [
    "ALL",
    "IMPLEMENTATION",
    "DangerousStructure",
    "DataError",
    "DatabaseError",
    "EpochFull",
    "Error",
    "IntegrityError",
    "InterfaceError",
    "JournalError",
    "Manager",
    "NoMemory",
    "OperationalError",
    "ParameterError",
    "ProgrammingError",
    "ReplyLost",
    "Result",
    "RuleViolated",
    "Row",
    "SerializationFailure",
    "Transaction",
    "WriteConflict",
    "open",
]
