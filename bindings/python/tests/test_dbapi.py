"""What PEP 249 asks of a module, point by point, and what its users rely on beside that."""

import datetime
import sys
import threading
import time
import unittest

import skewguard
from skewguard import dbapi

import faulty  # noqa: F401  # by which the library is loaded

DEFINITIONS = """
CREATE TABLE BOOZE (NAME VARCHAR(20) PRIMARY KEY);
CREATE TABLE BARFLYS (NAME VARCHAR(20) PRIMARY KEY, DRINK VARCHAR(30), AGE INTEGER);
CREATE ASSERTION SOBER CHECK ((SELECT COUNT(*) FROM BARFLYS) <= 3);
"""
SAMPLES = ["Carlton Cold", "Carlton Draft", "Mountain Goat", "Redback", "Victoria Bitter", "XXXX"]
INSERT = "INSERT INTO BOOZE VALUES (?)"
NAMES = "SELECT NAME FROM BOOZE"


class Module(unittest.TestCase):
    def test_its_globals(self):
        self.assertEqual(dbapi.apilevel, "2.0")
        self.assertIn(dbapi.threadsafety, (0, 1, 2, 3))
        self.assertEqual(dbapi.paramstyle, "qmark")
        self.assertTrue(callable(dbapi.connect))

    def test_the_exceptions_and_their_order(self):
        self.assertTrue(issubclass(dbapi.Warning, Exception))
        self.assertTrue(issubclass(dbapi.Error, Exception))
        for name in ("InterfaceError", "DatabaseError"):
            self.assertTrue(issubclass(getattr(dbapi, name), dbapi.Error), name)
        kinds = ("Data", "Operational", "Integrity", "Internal", "Programming", "NotSupported")
        for name in (f"{kind}Error" for kind in kinds):
            self.assertTrue(issubclass(getattr(dbapi, name), dbapi.DatabaseError), name)
            self.assertFalse(issubclass(getattr(dbapi, name), dbapi.InterfaceError), name)
        for name in ("Warning", "Error", "InterfaceError", "DatabaseError", *(f"{kind}Error" for kind in kinds)):
            self.assertIs(getattr(dbapi.Connection, name), getattr(dbapi, name))
        self.assertIs(dbapi.Error, skewguard.Error)

    def test_constructors_of_types(self):
        self.assertEqual(dbapi.Date(2002, 12, 25), "2002-12-25")
        self.assertEqual(dbapi.Time(13, 45, 30), "13:45:30")
        self.assertEqual(dbapi.Timestamp(2002, 12, 25, 13, 45, 30), "2002-12-25 13:45:30")
        ticks = time.mktime((2002, 12, 25, 13, 45, 30, 0, 0, 0))
        self.assertEqual(dbapi.DateFromTicks(ticks), "2002-12-25")
        self.assertEqual(dbapi.TimeFromTicks(ticks + 0.5), "13:45:30")
        self.assertEqual(dbapi.TimestampFromTicks(ticks), "2002-12-25 13:45:30")
        self.assertEqual(dbapi.Binary(b"Something"), b"Something")
        self.assertEqual(dbapi.Binary(b""), b"")
        with self.assertRaises(ValueError):
            dbapi.Date(2002, 13, 1)

    def test_type_objects(self):
        types = [dbapi.STRING, dbapi.BINARY, dbapi.NUMBER, dbapi.DATETIME, dbapi.ROWID]
        self.assertEqual([[one == other for other in types].index(True) for one in types], list(range(5)))
        self.assertEqual(repr(dbapi.STRING), "skewguard.dbapi.STRING")


class Connections(unittest.TestCase):
    def setUp(self):
        self.connection = dbapi.connect(DEFINITIONS)
        self.addCleanup(self.connection.close)

    def fill(self, names=SAMPLES):
        cursor = self.connection.cursor()
        for name in names:
            cursor.execute(INSERT, (name,))
        return cursor

    def names(self):
        """What is committed."""
        with self.connection.manager.transaction() as t:
            return [row.NAME for row in t.execute(NAMES)]

    # -- connections

    def test_commit_and_rollback(self):
        self.connection.commit()
        self.connection.rollback()
        self.fill(["Redback"])
        self.assertEqual(self.names(), [])
        self.connection.rollback()
        self.connection.commit()
        self.assertEqual(self.names(), [])
        self.fill(["XXXX"])
        self.connection.commit()
        self.assertEqual(self.names(), ["XXXX"])

    def test_cursors_are_not_isolated(self):
        one, other = self.connection.cursor(), self.connection.cursor()
        one.execute(INSERT, ["Victoria Bitter"])
        self.assertEqual(other.execute(NAMES).fetchall(), [("Victoria Bitter",)])
        self.assertIs(other.connection, self.connection)

    def test_connections_are_isolated(self):
        other = dbapi.connect(self.connection.manager, session="OTHER")
        self.fill(["Redback"])
        self.assertEqual(other.execute(NAMES).fetchall(), [])
        self.connection.commit()
        self.assertEqual(other.execute(NAMES).fetchall(), [])  # it sees the tables of its begin
        other.rollback()
        self.assertEqual(other.execute(NAMES).fetchall(), [("Redback",)])
        other.commit()
        self.assertIn("2 OTHER SNAPSHOT 1", self.connection.manager.report())
        other.close()
        self.assertFalse(self.connection.manager.closed)

    def test_close(self):
        cursor = self.fill()
        self.connection.close()
        self.connection.close()
        self.assertTrue(self.connection.manager.closed)
        calls = [
            self.connection.commit,
            self.connection.rollback,
            self.connection.cursor,
            lambda: self.connection.execute(NAMES),
            lambda: cursor.execute(NAMES),
            lambda: cursor.executemany(INSERT, [["A"]]),
            cursor.fetchone,
            cursor.__enter__,
            self.connection.__enter__,
        ]
        for call in calls:
            with self.assertRaisesRegex(dbapi.InterfaceError, "the connection is closed"):
                call()

    def test_close_behind_its_manager(self):
        shared = dbapi.connect(self.connection.manager)
        for connection in (shared, self.connection):
            connection.execute("SELECT * FROM BOOZE")
        self.connection.manager.close()
        for connection in (shared, self.connection):
            for call in (connection.commit, connection.rollback, lambda: connection.execute(NAMES)):
                with self.assertRaisesRegex(dbapi.InterfaceError, "the manager is closed"):
                    call()
            connection.close()
            connection.close()
            self.assertEqual(repr(connection), "<skewguard.dbapi.Connection closed>")

    def test_an_exception_leaves_the_block_of_one_that_is_closed(self):
        other = dbapi.connect(self.connection.manager)
        for connection, close in ((other, other.close), (self.connection, self.connection.manager.close)):
            with self.assertRaises(ZeroDivisionError), connection:
                connection.execute(INSERT, ["Redback"])
                close()
                1 / 0
        with self.assertRaisesRegex(dbapi.InterfaceError, "the connection is closed"):
            with dbapi.connect(DEFINITIONS) as connection:
                connection.close()

    def test_a_closed_connection_leaves_no_transaction(self):
        other = dbapi.connect(self.connection.manager)
        other.execute(INSERT, ["Redback"])
        other.close()
        self.connection.manager.checkpoint()  # which is refused while a transaction is open
        self.assertEqual(self.names(), [])

    def test_a_block_commits_or_rolls_back(self):
        with self.connection as connection:
            connection.execute(INSERT, ["Redback"])
        self.assertEqual(self.names(), ["Redback"])
        with self.assertRaises(ZeroDivisionError), self.connection:
            self.connection.execute(INSERT, ["XXXX"])
            1 / 0
        self.assertEqual(self.names(), ["Redback"])
        self.fill(["XXXX"])
        self.connection.commit()

    def test_autocommit(self):
        self.assertFalse(self.connection.autocommit)
        self.fill(["Redback"])
        with self.assertRaises(dbapi.ProgrammingError):
            self.connection.autocommit = True
        self.connection.rollback()
        self.connection.autocommit = True
        self.fill(["XXXX"])
        self.assertFalse(self.connection.in_transaction)
        self.assertEqual(self.names(), ["XXXX"])
        with self.assertRaises(dbapi.IntegrityError):
            self.fill(["XXXX"])
        self.assertEqual(self.connection.execute(NAMES).fetchone(), ("XXXX",))
        with dbapi.connect(self.connection.manager, autocommit=True) as other:
            other.execute("DELETE FROM BOOZE")
        self.assertEqual(self.names(), [])

    def test_a_refused_statement_leaves_the_transaction(self):
        self.fill(["Redback"])
        for text, values, error in (
            (INSERT, ["Redback"], dbapi.IntegrityError),
            (INSERT, ["x" * 21], dbapi.DataError),
            ("SELEKT", [], dbapi.ProgrammingError),
            ("SELECT * FROM NONE", [], dbapi.ProgrammingError),
            (INSERT, [], dbapi.ProgrammingError),
        ):
            with self.assertRaises(error):
                self.connection.execute(text, values)
        self.connection.commit()
        self.assertEqual(self.names(), ["Redback"])

    def test_a_refused_commit_ends_the_transaction(self):
        other = dbapi.connect(self.connection.manager)
        self.fill(["Redback"])
        other.execute(INSERT, ["Redback"])
        self.connection.commit()
        with self.assertRaises(dbapi.SerializationFailure):
            other.commit()
        self.assertFalse(other.in_transaction)
        other.commit()
        with self.assertRaises(dbapi.IntegrityError):
            other.execute(INSERT, ["Redback"])
        other.close()

    def test_rules_hold(self):
        rows = [(f"N{place}", None, None) for place in range(4)]
        with self.assertRaises(dbapi.IntegrityError) as caught:
            self.connection.cursor().executemany("INSERT INTO BARFLYS VALUES (?, ?, ?)", rows)
        self.assertEqual((caught.exception.rule, caught.exception.root), ("SOBER", skewguard.ALL))

    def test_commit_and_rollback_as_statements(self):
        cursor = self.fill(["Redback"])
        self.assertEqual(cursor.execute("COMMIT").rowcount, -1)
        self.assertFalse(self.connection.in_transaction)
        self.fill(["XXXX"])
        cursor.execute("ROLLBACK")
        self.assertEqual(self.names(), ["Redback"])

    def test_read_only_and_options(self):
        with self.assertRaises(dbapi.ProgrammingError):
            dbapi.connect(self.connection.manager, read_only=True, autocommit=True).execute(INSERT, ["A"])
        told = []
        with dbapi.connect(DEFINITIONS, trace=told.append, session="KIM") as connection:
            connection.execute(INSERT, ["Redback"])
        self.assertEqual(told, ["KIM: BEGIN 0", "KIM: INSERT 1", "KIM: COMMIT 1"])
        connection.close()
        with self.assertRaises(TypeError):
            dbapi.connect(self.connection.manager, max_commits=7)
        with self.assertRaises(dbapi.ProgrammingError):
            dbapi.connect("CREATE")

    def test_they_tell_their_state(self):
        self.assertEqual(repr(self.connection), "<skewguard.dbapi.Connection open, no transaction>")
        cursor = self.fill()
        self.assertEqual(repr(self.connection), "<skewguard.dbapi.Connection open, in a transaction>")
        self.assertEqual(repr(cursor), "<skewguard.dbapi.Cursor no rows>")
        cursor.execute(NAMES).fetchmany(2)
        self.assertEqual(repr(cursor), "<skewguard.dbapi.Cursor row 2 of 6>")
        cursor.close()
        self.assertEqual(repr(cursor), "<skewguard.dbapi.Cursor closed>")
        self.connection.close()
        self.assertEqual(repr(self.connection), "<skewguard.dbapi.Connection closed>")

    def test_threads_share_a_connection(self):
        def insert(first):
            for number in range(first, first + 50):
                self.connection.execute(INSERT, [f"N{number}"])

        threads = [threading.Thread(target=insert, args=(100 * thread,)) for thread in range(4)]
        for thread in threads:
            thread.start()
        for thread in threads:
            thread.join(30)
        self.connection.commit()
        self.assertEqual(len(self.names()), 200)
        self.connection.manager.checkpoint()

    def share(self, connection, work):
        """Four threads do something with a connection, each with its number; what they raised."""
        raised, at_once = [], threading.Barrier(4)

        def do(thread):
            at_once.wait(30)
            try:
                work(connection, thread)
            except Exception as error:
                raised.append(error)

        threads = [threading.Thread(target=do, args=(thread,)) for thread in range(4)]
        switches = sys.getswitchinterval()
        sys.setswitchinterval(1e-6)
        try:
            for thread in threads:
                thread.start()
            for thread in threads:
                thread.join(60)
        finally:
            sys.setswitchinterval(switches)
        return raised

    def test_threads_that_share_a_connection_end_its_transactions(self):
        """What one thread does as another commits is of the transaction before, or of the next."""

        def work(connection, thread):
            for number in range(150):
                connection.execute(INSERT, [f"{thread} {number}"])
                connection.commit()

        for session in (None, "KIM"):
            with self.subTest(session):
                connection = dbapi.connect(DEFINITIONS, session=session)
                self.assertEqual(self.share(connection, work), [])
                connection.rollback()
                self.assertEqual(len(connection.execute(NAMES).fetchall()), 600)
                connection.close()

    def test_threads_share_a_connection_of_single_statements(self):
        def work(connection, thread):
            for number in range(100):
                connection.execute(INSERT, [f"{thread} {number}"])

        with dbapi.connect(DEFINITIONS, session="KIM", autocommit=True) as connection:
            self.assertEqual(self.share(connection, work), [])
            self.assertEqual(len(connection.execute(NAMES).fetchall()), 400)
        connection.close()

    def test_a_trace_does_not_wait_for_its_own_call(self):
        refused = []

        def trace(line):
            for autocommit in (False, True):
                other = dbapi.connect(connection.manager, autocommit=autocommit)
                try:
                    other.execute(NAMES)
                except dbapi.InterfaceError as error:
                    refused.append(str(error))

        connection = dbapi.connect(DEFINITIONS, trace=trace)
        connection.execute(NAMES)
        connection.close()
        self.assertEqual(len(refused), 6)
        self.assertIn("may not call the manager in the midst of a call", refused[0])

    # -- cursors

    def test_description(self):
        cursor = self.connection.cursor()
        self.assertIsNone(cursor.description)
        self.fill(["Redback"])
        self.assertIsNone(cursor.execute(INSERT, ["XXXX"]).description)
        cursor.execute(NAMES)
        self.assertEqual(cursor.description, [("NAME", dbapi.STRING, None, None, None, None, None)])
        cursor.execute("INSERT INTO BARFLYS VALUES ('A', NULL, 7)")
        cursor.execute("SELECT * FROM BARFLYS")
        found = [column[:2] for column in cursor.description]
        self.assertEqual(found, [("NAME", dbapi.STRING), ("DRINK", None), ("AGE", dbapi.NUMBER)])
        self.assertEqual([len(column) for column in cursor.description], [7] * 3)
        cursor.execute("SELECT AGE FROM BARFLYS WHERE NAME = 'B'")
        self.assertEqual(cursor.description[0][:2], ("AGE", None))
        cursor.execute("SELECT COUNT(*), SUM(AGE), MAX(NAME) AS LAST_NAME, MIN(AGE) + 1 FROM BARFLYS")
        found = [column[:2] for column in cursor.description]
        numbers = [("COUNT", dbapi.NUMBER), ("SUM", dbapi.NUMBER), ("?column?", dbapi.NUMBER)]
        self.assertEqual(found, [*numbers[:2], ("LAST_NAME", dbapi.STRING), numbers[2]])
        self.assertEqual(cursor.fetchall(), [(1, 7, "A", 8)])

    def test_rowcount(self):
        cursor = self.connection.cursor()
        self.assertEqual(cursor.rowcount, -1)
        self.assertEqual(cursor.execute(INSERT, ["Redback"]).rowcount, 1)
        self.assertEqual(cursor.execute(NAMES).rowcount, 1)
        self.assertEqual(cursor.execute("DELETE FROM BOOZE WHERE NAME = 'XXXX'").rowcount, 0)
        self.assertEqual(cursor.execute("SET CONSTRAINTS ALL IMMEDIATE").rowcount, -1)
        self.assertEqual(cursor.executemany(INSERT, [["A"], ["B"]]).rowcount, 2)
        self.assertEqual(cursor.execute("INSERT INTO BOOZE VALUES (?), ('D'), (?)", ["C", "E"]).rowcount, 3)
        with self.assertRaises(dbapi.Error):
            cursor.execute("SELEKT")
        self.assertEqual(cursor.rowcount, -1)

    def test_execute_with_values(self):
        cursor = self.connection.cursor()
        cursor.execute("INSERT INTO BOOZE VALUES ('Victoria Bitter')")
        cursor.execute(INSERT, ("Cooper's",))
        cursor.execute("INSERT INTO BOOZE VALUES (:beer)", {"beer": "'; DELETE FROM X; --"})
        names = ["'; DELETE FROM X; --", "Cooper's", "Victoria Bitter"]
        self.assertEqual([name for (name,) in cursor.execute(NAMES)], names)

    def test_executemany(self):
        cursor = self.connection.cursor()
        cursor.executemany(INSERT, ((name,) for name in SAMPLES[:2]))
        cursor.executemany("INSERT INTO BOOZE VALUES (:beer)", [{"beer": name} for name in SAMPLES[2:4]])
        self.assertEqual(cursor.execute(NAMES).fetchall(), [(name,) for name in SAMPLES[:4]])
        self.assertEqual(cursor.executemany(INSERT, []).rowcount, 0)
        with self.assertRaises(dbapi.ProgrammingError):
            cursor.executemany(NAMES, [()])
        with self.assertRaises(dbapi.Error):
            cursor.fetchall()
        with self.assertRaises(dbapi.IntegrityError):
            cursor.executemany(INSERT, [["X"], ["Redback"], ["Y"]])
        self.assertEqual(cursor.execute(NAMES).rowcount, 5)

    def test_executemany_and_rollback(self):
        cursor = self.fill(["Redback"])
        self.connection.commit()
        with self.assertRaises(dbapi.IntegrityError):
            cursor.executemany(INSERT, [["A"], ["Redback"], ["B"]])
        self.assertEqual(cursor.rowcount, -1)
        self.assertEqual([row.NAME for row in cursor.execute(NAMES)], ["A", "Redback"])
        self.connection.rollback()
        self.assertEqual(self.names(), ["Redback"])

        def failing():
            yield ["C"]
            1 / 0

        def rolling_back():
            yield ["D"]
            self.connection.rollback()
            yield ["E"]

        with self.assertRaises(ZeroDivisionError), self.connection:
            cursor.executemany(INSERT, failing())
        self.assertEqual((cursor.rowcount, self.names()), (-1, ["Redback"]))
        cursor.executemany(INSERT, rolling_back())
        self.connection.commit()
        self.assertEqual(self.names(), ["E", "Redback"])

    def test_executemany_of_more_than_a_call_has(self):
        cursor, rows = self.connection.cursor(), [[f"B{place}"] for place in range(2500)]
        self.assertEqual(cursor.executemany(INSERT, rows).rowcount, 2500)
        self.connection.rollback()
        rows[2100] = rows[7]
        with self.assertRaises(dbapi.IntegrityError) as caught:
            cursor.executemany(INSERT, tuple(rows))
        self.assertEqual((caught.exception.place, cursor.execute(NAMES).rowcount), (2100, 2100))
        self.connection.rollback()
        for wrong in (["A", "B"], [7.5], 7):
            with self.assertRaises((dbapi.Error, TypeError)):
                cursor.executemany(INSERT, [["A"], wrong, ["C"]])
            self.assertLess(cursor.execute(NAMES).rowcount, 2)
            self.connection.rollback()

    def test_executemany_by_autocommit(self):
        connection = dbapi.connect(self.connection.manager, autocommit=True)
        with self.assertRaises(dbapi.IntegrityError):
            connection.cursor().executemany(INSERT, [["A"], ["A"], ["B"]])
        self.assertEqual(self.names(), ["A"])

    def test_executemany_of_what_changes_no_rows(self):
        cursor = self.fill(["Redback"])
        for text in ("COMMIT", " rollback work", "--\nSELECT * FROM BOOZE", "SET CONSTRAINTS ALL IMMEDIATE", "BEGIN"):
            for values in ([()], []):
                with self.assertRaisesRegex(dbapi.ProgrammingError, "executemany changes rows"):
                    cursor.executemany(text, values)
        self.assertTrue(self.connection.in_transaction)
        for text, error in (("SELEKT", dbapi.ProgrammingError), ("", dbapi.ProgrammingError), (None, TypeError)):
            with self.assertRaises(error):
                cursor.executemany(text, [()])
        self.connection.rollback()
        self.assertEqual(self.names(), [])

    def test_fetchone(self):
        cursor = self.connection.cursor()
        with self.assertRaises(dbapi.Error):
            cursor.fetchone()
        cursor.execute(NAMES)
        self.assertIsNone(cursor.fetchone())
        cursor.execute(INSERT, ["Redback"])
        with self.assertRaises(dbapi.Error):
            cursor.fetchone()
        cursor.execute(NAMES)
        self.assertEqual(cursor.rownumber, 0)
        row = cursor.fetchone()
        self.assertEqual((row, row.NAME, row["name"], cursor.rownumber), (("Redback",), "Redback", "Redback", 1))
        self.assertIsNone(cursor.fetchone())
        self.assertIsNone(cursor.fetchone())

    def test_fetchmany(self):
        cursor = self.connection.cursor()
        with self.assertRaises(dbapi.Error):
            cursor.fetchmany(4)
        self.fill()
        cursor.execute(NAMES)
        self.assertEqual(len(cursor.fetchmany()), 1)
        cursor.arraysize = 10
        self.assertEqual(len(cursor.fetchmany(3)), 3)
        self.assertEqual(len(cursor.fetchmany(4)), 2)
        self.assertEqual(cursor.fetchmany(4), [])
        cursor.arraysize = 4
        cursor.execute(NAMES)
        self.assertEqual([len(cursor.fetchmany()) for _ in range(4)], [4, 2, 0, 0])
        cursor.arraysize = 6
        self.assertEqual([name for (name,) in cursor.execute(NAMES).fetchmany()], SAMPLES)
        self.assertEqual(cursor.execute("SELECT NAME FROM BARFLYS").fetchmany(), [])

    def test_fetchall(self):
        cursor = self.connection.cursor()
        with self.assertRaises(dbapi.Error):
            cursor.fetchall()
        self.fill()
        with self.assertRaises(dbapi.Error):
            cursor.execute(INSERT, ["Z"]).fetchall()
        cursor.execute("DELETE FROM BOOZE WHERE NAME = 'Z'")
        rows = cursor.execute(NAMES).fetchall()
        self.assertEqual(([name for (name,) in rows], cursor.rowcount), (SAMPLES, 6))
        self.assertEqual(cursor.fetchall(), [])
        self.assertEqual(cursor.execute("SELECT * FROM BARFLYS").fetchall(), [])

    def test_mixed_fetches_and_iteration(self):
        cursor = self.fill()
        cursor.execute(NAMES)
        rows = [cursor.fetchone(), *cursor.fetchmany(2), next(cursor), *cursor.fetchall()]
        self.assertEqual([row.NAME for row in rows], SAMPLES)
        self.assertEqual(list(cursor), [])
        self.assertEqual([row.NAME for row in cursor.execute(NAMES)], SAMPLES)

    def test_rows_stay_behind_the_transaction(self):
        cursor = self.fill()
        cursor.execute(NAMES)
        self.connection.commit()
        self.assertEqual(len(cursor.fetchall()), 6)

    def test_null(self):
        cursor = self.connection.cursor()
        cursor.execute("INSERT INTO BARFLYS VALUES (?, ?, ?)", ("Kim", None, None))
        self.assertEqual(cursor.execute("SELECT DRINK, AGE FROM BARFLYS").fetchone(), (None, None))

    def test_dates_are_texts(self):
        cursor = self.connection.cursor()
        days = [dbapi.Date(2026, 11, day) for day in (28, 9, 30)]
        cursor.executemany(INSERT, [[day] for day in days])
        found = cursor.execute("SELECT NAME FROM BOOZE WHERE NAME > ?", [dbapi.Date(2026, 11, 10)]).fetchall()
        self.assertEqual([datetime.date.fromisoformat(day).day for (day,) in found], [28, 30])
        with self.assertRaises(TypeError):
            cursor.execute(INSERT, [dbapi.Binary(b"A")])

    def test_sizes_may_be_set(self):
        cursor = self.connection.cursor()
        cursor.setinputsizes((25,))
        cursor.setoutputsize(1000)
        cursor.setoutputsize(2000, 0)
        self.assertEqual(cursor.execute(INSERT, ["Redback"]).rowcount, 1)

    def test_a_closed_cursor(self):
        with self.connection.cursor() as cursor:
            cursor.execute(NAMES)
        cursor.close()
        for call in (lambda: cursor.execute(NAMES), cursor.fetchone, cursor.fetchall, lambda: next(cursor)):
            with self.assertRaisesRegex(dbapi.InterfaceError, "the cursor is closed"):
                call()
        self.connection.execute(NAMES)


if __name__ == "__main__":
    unittest.main()
