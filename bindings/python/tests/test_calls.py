"""Each public call, and what a careless caller does: a clear error, and nothing lost."""

import copy
import doctest
import gc
import logging
import os
import pickle
import random
import signal
import sys
import threading
import types
import unittest
import warnings
import weakref
from unittest import mock

import skewguard
from skewguard._numbers import Operation, Status

import faulty

# So many prepared statements are kept.
STATEMENTS = 256

DEFINITIONS = """
CREATE TABLE DUTY (ID INTEGER PRIMARY KEY, DOCTOR VARCHAR(10), ONCALL INTEGER NOT NULL);
CREATE ASSERTION COVERED CHECK ((SELECT SUM(ONCALL) FROM DUTY) >= 1);
CREATE ASSERTION ONCE CHECK (NOT EXISTS (SELECT DOCTOR FROM DUTY GROUP BY DOCTOR HAVING COUNT(*) > 1));
INSERT INTO DUTY VALUES (1, 'KIM', 1);
INSERT INTO DUTY VALUES (2, 'O''HARA', 0);
"""

NEEDS_FAULTS = unittest.skipUnless(faulty.library, "no C compiler for the library with faults")

INSERT = "INSERT INTO DUTY VALUES (?, ?, ?)"
ALL = "SELECT * FROM DUTY"
BEGINNING = [(1, "KIM", 1), (2, "O'HARA", 0)]


def load_tests(loader, tests, _):
    """The tests here, and the examples in the text of the modules."""
    tests.addTests(doctest.DocTestSuite(skewguard.rows))
    return tests


class Calls(unittest.TestCase):
    def setUp(self):
        self.manager = skewguard.open(DEFINITIONS)
        self.addCleanup(self.manager.close)

    def rows(self):
        """What is committed."""
        with self.manager.transaction(read_only=True) as t:
            return [tuple(row) for row in t.execute(ALL)]

    # -- what works

    def test_statements_answer_counts_and_rows(self):
        with self.manager.transaction() as t:
            self.assertEqual((t.snapshot, t.number), (0, None))
            inserted = t.execute(INSERT, [3, None, 0])
            self.assertEqual((inserted.kind, inserted.count, len(inserted)), ("INSERT", 1, 0))
            self.assertEqual(t.execute("UPDATE DUTY SET ONCALL = ONCALL + ?", (1,)).count, 3)
            rows = t.execute("SELECT DOCTOR, ONCALL FROM DUTY WHERE ID >= ?", [2])
            self.assertEqual((rows.columns, rows.count), (("DOCTOR", "ONCALL"), 2))
            self.assertEqual(list(rows), [("O'HARA", 1), (None, 1)])
            self.assertEqual([row["doctor"] for row in rows], ["O'HARA", None])
            self.assertEqual(rows[0].as_dict(), {"DOCTOR": "O'HARA", "ONCALL": 1})
            self.assertEqual(t.execute("DELETE FROM DUTY WHERE ID = 3").count, 1)
            self.assertIs(t.verdict("COVERED"), True)
        self.assertEqual(t.number, 1)
        self.assertEqual(self.rows(), [(1, "KIM", 2), (2, "O'HARA", 1)])

    def test_rows_are_tuples_with_names(self):
        with self.manager.transaction() as t:
            (row,) = t.execute("SELECT ID, DOCTOR FROM DUTY WHERE ID = 1")
        self.assertEqual(row, (1, "KIM"))
        self.assertEqual((row[-1], row[:1], row["ID"]), ("KIM", (1,), 1))
        self.assertEqual(repr(row), "Row(ID=1, DOCTOR='KIM')")
        self.assertEqual(pickle.loads(pickle.dumps(row))["DOCTOR"], "KIM")
        with self.assertRaisesRegex(KeyError, "no column 'NAME'; there are ID, DOCTOR"):
            row["NAME"]

    def test_rows_by_name(self):
        with self.manager.transaction() as t:
            rows = t.execute("SELECT DOCTOR, ID FROM DUTY")
            named = [(row.DOCTOR, row.ID, row["doctor"]) for row in rows]
            self.assertEqual(named, [("KIM", 1, "KIM"), ("O'HARA", 2, "O'HARA")])
            self.assertEqual((rows.keys(), rows.first().keys()), (("DOCTOR", "ID"), ("DOCTOR", "ID")))
            self.assertEqual(dict(rows.first()), {"DOCTOR": "KIM", "ID": 1})
            with self.assertRaises(AttributeError):
                rows.first().ONCALL
            with self.assertRaises(AttributeError):
                rows.first().ID = 7
            self.assertEqual((rows.scalar(), t.execute(ALL).scalar()), ("KIM", 1))
            none = t.execute("SELECT ID FROM DUTY WHERE ID = 7")
            self.assertEqual((none.first(), none.scalar(), none.keys()), (None, None, ("ID",)))
            twice = t.execute("SELECT ID, ID, DOCTOR FROM DUTY").first()
            self.assertEqual((twice, twice.ID, twice.DOCTOR), ((1, 1, "KIM"), 1, "KIM"))
        definitions = "CREATE TABLE T (COUNT2 INTEGER PRIMARY KEY, INDEX INTEGER, KEYS INTEGER, COLUMNS INTEGER);"
        with skewguard.open(f"{definitions} INSERT INTO T VALUES (1, 2, 3, 4);") as manager:
            row = manager.run(lambda t: t.execute("SELECT * FROM T")).first()
            self.assertEqual((row.COUNT2, row.INDEX, row.KEYS, row.COLUMNS), (1, 2, 3, 4))
            self.assertEqual((row.index(3), row.count(3), len(row.keys()), row.columns[1]), (2, 1, 4, "INDEX"))

    def test_derived_columns_have_names(self):
        with self.manager.transaction() as t:
            self.assertEqual(t.execute("SELECT COUNT(*) FROM DUTY").scalar(), 2)
            found = t.execute("SELECT COUNT(*), MAX(DOCTOR) AS LAST_NAME, SUM(ID), MIN(ID) + ? FROM DUTY", [1])
            self.assertEqual((found.columns, found.count), (("COUNT", "LAST_NAME", "SUM", "?column?"), 1))
            row = found.first()
            self.assertEqual((row, row.COUNT, row.SUM, row["last_name"]), ((2, "O'HARA", 3, 2), 2, 3, "O'HARA"))
            self.assertEqual((row["?column?"], pickle.loads(pickle.dumps(row))["?column?"]), (2, 2))
            named = t.execute("SELECT D.DOCTOR, ID AS PLACE FROM DUTY AS D WHERE D.ID = 2")
            self.assertEqual((named.columns, list(named)), (("DOCTOR", "PLACE"), [("O'HARA", 2)]))

    def test_numbers_past_64_bits(self):
        wide = (
            "SELECT ONCALL * 9223 + 372036854775807, ONCALL * 9223 + 372036854775808, ONCALL * ONCALL,"
            " ONCALL * 9223 - 372036854775808, ONCALL * 9223 - 372036854775809 FROM DUTY WHERE ID IN (3, 4)"
        )
        with self.manager.transaction() as t:
            t.execute("INSERT INTO DUTY VALUES (3, 'LEE', ?), (4, 'EVE', ?)", [10**15, -(10**15)])
            t.execute("INSERT INTO DUTY VALUES (5, 'ANN', ?), (6, 'BOB', ?)", [10**15, 10**15])
            one, other = t.execute(wide)
            self.assertEqual(one[:3], (2**63 - 1, 2**63, 10**30))
            self.assertEqual(other[2:], (10**30, -(2**63), -(2**63) - 1))
            total = t.execute("SELECT SUM(ONCALL) * 4000 FROM DUTY WHERE ID IN (3, 5, 6)")
            self.assertEqual(total.scalar(), 12 * 10**18)
            # (of several in one call, rows are skipped until they are asked for)
            t.execute("DELETE FROM DUTY WHERE ID > 2")
        add = "INSERT INTO DUTY VALUES (?, ?, ?)"
        _, answers = self.manager.run_transaction(
            [(add, [3, "LEE", 10**15]), ("SELECT ONCALL * ONCALL FROM DUTY",), ("SELECT COUNT(*) FROM DUTY",)]
        )
        self.assertEqual([answer.columns for answer in answers[1:]], [("?column?",), ("COUNT",)])
        self.assertEqual((list(answers[1]), answers[2].scalar()), ([(1,), (0,), (10**30,)], 3))

    def test_a_result_is_true_where_there_are_rows(self):
        with self.manager.transaction() as t:
            truths = {
                "UPDATE DUTY SET ONCALL = 1": True,
                "UPDATE DUTY SET ONCALL = 1 WHERE ID = 7": False,
                "INSERT INTO DUTY VALUES (3, NULL, 1)": True,
                "DELETE FROM DUTY WHERE ID = 3": True,
                "DELETE FROM DUTY WHERE ID = 4": False,
                "SELECT * FROM DUTY WHERE ID = 1": True,
                "SELECT * FROM DUTY WHERE ID = 4": False,
                "VERDICT COVERED": True,
                "SET CONSTRAINTS ALL IMMEDIATE": True,
                "COMMIT": True,
            }
            self.assertEqual({text: bool(t.execute(text)) for text in truths}, truths)
        deferred = DEFINITIONS.replace(">= 1);", ">= 1) INITIALLY DEFERRED;")
        with skewguard.open(deferred) as manager, manager.transaction() as t:
            t.execute("UPDATE DUTY SET ONCALL = 0")
            self.assertFalse(t.execute("VERDICT COVERED"))
            t.execute("DELETE FROM DUTY")
            self.assertFalse(t.execute("VERDICT COVERED"))  # unknown, of which nobody can be sure
            self.assertEqual(t.execute(ALL).first(), None)
            t.rollback()

    def test_results_are_shown_and_pickled(self):
        with self.manager.transaction() as t:
            shown = [repr(t.execute(text)) for text in (ALL, "DELETE FROM DUTY WHERE ID = 2", "VERDICT ONCE")]
            rows = t.execute(ALL)
            changed = t.execute("SET CONSTRAINTS ALL DEFERRED")
        words = ("SELECT, 2 rows", "DELETE, 1 row", "VERDICT true")
        self.assertEqual(shown, [f"<skewguard.Result {it}>" for it in words])
        self.assertEqual(repr(changed), "<skewguard.Result SET CONSTRAINTS>")
        copied = pickle.loads(pickle.dumps(rows))
        self.assertEqual((list(copied), copied.count, copied.kind), (list(rows), 1, "SELECT"))
        self.assertEqual((copied.columns, copied.first().DOCTOR), (rows.columns, "KIM"))

    def test_managers_and_transactions_are_not_copied(self):
        with self.manager.transaction() as t:
            for what in (self.manager, t):
                for way in (copy.copy, copy.deepcopy, pickle.dumps):
                    with self.assertRaisesRegex(TypeError, "is neither copied nor pickled"):
                        way(what)

    def test_errors_are_pickled(self):
        """So that a pool of processes hands them on."""
        refused = []
        with self.manager.transaction() as t:
            wrong = [("UPDATE DUTY SET ONCALL = 0", []), ("SELEKT", []), (INSERT, [3, "\n", 1]), (INSERT, [1, "A", 1])]
            for text, values in wrong:
                with self.assertRaises(skewguard.Error) as caught:
                    t.execute(text, values)
                refused.append(caught.exception)
            with self.manager.transaction() as other:
                other.execute("UPDATE DUTY SET ONCALL = 2 WHERE ID = 1")
            t.execute("UPDATE DUTY SET ONCALL = 3 WHERE ID = 1")
            with self.assertRaises(skewguard.SerializationFailure) as caught:
                t.commit()
            refused.append(caught.exception)
        for error in (*refused, skewguard.NoMemory("none"), skewguard.ReplyLost("lost"), skewguard.EpochFull("full")):
            for copied in (pickle.loads(pickle.dumps(error)), copy.copy(error), copy.deepcopy(error)):
                self.assertIs(type(copied), type(error))
                self.assertEqual((str(copied), copied.__dict__), (str(error), error.__dict__))
        self.assertIs(pickle.loads(pickle.dumps(refused[0])).root, skewguard.ALL)

    def test_set_constraints(self):
        definitions = DEFINITIONS.replace(">= 1);", ">= 1) DEFERRABLE;")
        with skewguard.open(definitions) as manager:
            with manager.transaction() as t:
                t.set_constraints("COVERED", deferred=True)
                t.execute("UPDATE DUTY SET ONCALL = 0")
                with self.assertRaises(skewguard.RuleViolated):
                    t.set_constraints(deferred=False)
                t.execute("UPDATE DUTY SET ONCALL = 2 WHERE ID = 1")
                t.set_constraints("COVERED", deferred=False)
                with self.assertRaises(skewguard.RuleViolated):
                    t.execute("UPDATE DUTY SET ONCALL = 0")
                t.set_constraints(deferred=True)
                with self.assertRaises(skewguard.ProgrammingError) as caught:
                    t.set_constraints("COVERED", "ONCE", deferred=True)
                self.assertEqual(caught.exception.number, 11)
            with self.assertRaises(skewguard.InterfaceError):
                t.set_constraints(deferred=True)

    def test_transactions_and_managers_tell_their_state(self):
        t = self.manager.transaction(session="kim")
        self.assertEqual(repr(t), "<skewguard.Transaction of kim not begun>")
        with t as t:
            self.assertEqual(repr(t), "<skewguard.Transaction of kim open, on 0 commits>")
            self.assertEqual(repr(self.manager), "<skewguard.Manager open, 1 transaction>")
        self.assertEqual(repr(t), "<skewguard.Transaction of kim has committed as 1>")
        other = self.manager.begin()
        self.assertEqual(repr(other), "<skewguard.Transaction open, on 1 commits>")
        other.rollback()
        self.assertEqual(repr(other), "<skewguard.Transaction was rolled back>")
        self.assertEqual(repr(self.manager), "<skewguard.Manager open, 0 transactions>")
        self.manager.close()
        self.assertEqual(repr(self.manager), "<skewguard.Manager closed>")

    def test_values_come_back_as_they_were_given(self):
        most = 10**15
        given = [
            (-most, 0, ""),
            (-1, -1, "'"),
            (0, most, "'; DELETE FROM T; --"),
            (1, -most, "?"),
            (2, None, None),
            (3, 1, "\u017dofie \u65e5\u672c\u8a9e \U0001f600"),
            (4, 1, "\u00e9" * 20),
            (most, 7, ' "\\ NULL '),
        ]
        with skewguard.open("CREATE TABLE T (ID INTEGER PRIMARY KEY, N INTEGER, S VARCHAR(20));") as manager:
            with manager.transaction() as t:
                for row in given:
                    t.execute("INSERT INTO T VALUES (?, ?, ?)", row)
                self.assertEqual(list(t.execute("SELECT * FROM T WHERE ID BETWEEN ? AND ?", (-most, most))), given)
                self.assertEqual(t.execute("DELETE FROM T WHERE S = ?", ["'; DELETE FROM T; --"]).count, 1)

    def test_a_refused_statement_names_the_rule_and_leaves_the_transaction(self):
        with self.manager.transaction() as t:
            with self.assertRaises(skewguard.RuleViolated) as caught:
                t.execute(INSERT, [3, "KIM", 1])
            self.assertEqual((caught.exception.rule, caught.exception.root), ("ONCE", "KIM"))
            self.assertEqual((caught.exception.number, caught.exception.sqlstate), (10, "23000"))
            self.assertTrue(caught.exception.report.endswith(": REFUSED 10 23000 ONCE 'KIM'"), caught.exception.report)
            self.assertEqual(str(caught.exception), "ONCE would be false at 'KIM'")
            with self.assertRaises(skewguard.RuleViolated) as caught:
                t.execute("UPDATE DUTY SET ONCALL = 0")
            self.assertEqual((caught.exception.rule, caught.exception.root), ("COVERED", skewguard.ALL))
            t.execute(INSERT, [3, "LEE", 1])
        self.assertEqual(self.rows(), [*BEGINNING, (3, "LEE", 1)])

    def test_faults_of_rows(self):
        with self.manager.transaction() as t:
            with self.assertRaises(skewguard.IntegrityError) as caught:
                t.execute(INSERT, [1, "LEE", 1])
            self.assertEqual(caught.exception.names, ("DUTY",))
            with self.assertRaises(skewguard.IntegrityError):
                t.execute(INSERT, [3, "LEE", None])
            with self.assertRaises(skewguard.DataError) as caught:
                t.execute(INSERT, [3, "ABCDEFGHIJK", 1])
            self.assertEqual(caught.exception.sqlstate, "22001")
            with self.assertRaises(skewguard.DataError) as caught:
                t.execute("UPDATE DUTY SET ONCALL = ONCALL + ? WHERE ID = 1", [10**15])
            self.assertEqual(caught.exception.sqlstate, "22003")
        self.assertEqual(self.rows(), BEGINNING)

    def test_an_exception_rolls_back(self):
        with self.assertRaises(ZeroDivisionError):
            with self.manager.transaction() as t:
                t.execute("DELETE FROM DUTY WHERE ID = 2")
                1 / 0
        self.assertEqual(self.rows(), BEGINNING)

    def test_write_conflict(self):
        first, second = self.manager.begin(), self.manager.begin()
        first.execute("UPDATE DUTY SET ONCALL = 2 WHERE ID = 1")
        second.execute("UPDATE DUTY SET ONCALL = 3 WHERE ID = 1")
        self.assertEqual(first.commit(), 1)
        with self.assertRaises(skewguard.SerializationFailure) as caught:
            second.commit()
        self.assertEqual(caught.exception.conflict, skewguard.WriteConflict("DUTY", 1, 1))
        self.assertEqual((caught.exception.number, caught.exception.sqlstate), (12, "40001"))

    def test_dangerous_structure(self):
        first, second = self.manager.begin(), self.manager.begin()
        first.execute(INSERT, [3, "LEE", 0])
        second.execute("INSERT INTO DUTY VALUES (4, 'LEE', 0)")
        first.commit()
        with self.assertRaises(skewguard.SerializationFailure) as caught:
            second.commit()
        self.assertEqual(caught.exception.conflict, skewguard.DangerousStructure(1, None, 1))
        self.assertIn("this transaction", str(caught.exception))

    def test_read_only(self):
        with self.manager.transaction(read_only=True) as t:
            with self.assertRaises(skewguard.ProgrammingError) as caught:
                t.execute("DELETE FROM DUTY")
            self.assertEqual(caught.exception.number, 23)

    def test_a_violated_rule_at_commit(self):
        definitions = DEFINITIONS.replace(">= 1);", ">= 1) INITIALLY DEFERRED;")
        with skewguard.open(definitions) as manager:
            with self.assertRaises(skewguard.RuleViolated) as caught:
                with manager.transaction() as t:
                    t.execute("UPDATE DUTY SET ONCALL = 0")
                    self.assertIs(t.verdict("COVERED"), False)
            self.assertEqual(caught.exception.sqlstate, "40002")
            self.assertIn("REFUSED 1", manager.report())

    def test_report_and_trace(self):
        told = []
        with skewguard.open(DEFINITIONS, trace=told.append) as manager:
            with manager.transaction(session="kim") as t:
                t.execute(ALL)
            selected = "KIM: SELECT 2\n  1, 'KIM', 1\n  2, 'O''HARA', 0"
            self.assertEqual(told, ["KIM: BEGIN 0", selected, "KIM: COMMIT 1"])
            self.assertEqual(manager.report().splitlines()[:2], ["COMMITS 1", "1 KIM SNAPSHOT 0 ROWS 0"])

    def test_checkpoint_and_a_full_epoch(self):
        with skewguard.open(DEFINITIONS, max_commits=1) as manager:
            with manager.transaction() as t:
                t.execute("UPDATE DUTY SET ONCALL = 1 WHERE ID = 2")
            with self.assertRaises(skewguard.EpochFull):
                with manager.transaction() as t:
                    t.execute("UPDATE DUTY SET ONCALL = 0 WHERE ID = 2")
            none = "CREATE ASSERTION NONE CHECK (NOT EXISTS (SELECT * FROM DUTY WHERE ONCALL > 0));"
            with self.assertRaises(skewguard.RuleViolated) as caught:
                manager.checkpoint(create=none)
            self.assertEqual((caught.exception.number, caught.exception.rule, caught.exception.root), (21, "NONE", 1))
            ended = manager.checkpoint(create=none.replace("> 0", "> 9"), drop=["ONCE"])
            self.assertEqual(ended.splitlines()[0], "COMMITS 1")
            with manager.transaction() as t:
                t.execute("INSERT INTO DUTY VALUES (3, 'KIM', 1)")
            self.assertEqual(t.number, 1)
            self.assertIn("NONE TRUE", manager.report())

    def test_a_checkpoint_waits_for_no_transaction(self):
        t = self.manager.begin()
        with self.assertRaises(skewguard.ProgrammingError) as caught:
            self.manager.checkpoint()
        self.assertEqual(caught.exception.number, 15)
        t.commit()
        self.manager.checkpoint()
        self.assertEqual(self.rows(), BEGINNING)

    # -- again

    def test_run_tries_again_where_others_were_in_the_way(self):
        snapshots = []

        def add(t, amount):
            snapshots.append(t.snapshot)
            t.execute("UPDATE DUTY SET ONCALL = ONCALL + ? WHERE ID = 1", [amount])
            if len(snapshots) < 3:
                with self.manager.transaction() as other:
                    other.execute("UPDATE DUTY SET ONCALL = ONCALL + 10 WHERE ID = 1")
            return "added"

        self.assertEqual(self.manager.run(add, 5, retry=2), "added")
        self.assertEqual(snapshots, [0, 1, 2])
        self.assertEqual(self.rows()[0], (1, "KIM", 26))

    def test_run_gives_up_after_its_retries(self):
        attempts = []

        def lose(t):
            attempts.append(t)
            t.execute("UPDATE DUTY SET ONCALL = 9 WHERE ID = 1")
            with self.manager.transaction() as other:
                other.execute("UPDATE DUTY SET ONCALL = ONCALL + 1 WHERE ID = 1")

        with self.assertRaises(skewguard.SerializationFailure):
            self.manager.run(lose, retry=1)
        self.assertEqual(len(attempts), 2)
        self.assertEqual(self.rows()[0], (1, "KIM", 3))

    def test_run_does_not_try_again_what_alone_is_refused(self):
        attempts = []

        def leave(t):
            attempts.append(t)
            t.execute("UPDATE DUTY SET ONCALL = 0")

        with self.assertRaises(skewguard.RuleViolated):
            self.manager.run(leave)
        self.assertEqual(len(attempts), 1)

    def test_parameters_reach_the_function(self):
        def seen(t, first, *, retry=0, session=None, read_only="no"):
            return first, retry, session, read_only

        run = self.manager.transaction(retry=1, session="KIM", read_only=True).run
        self.assertEqual(run(seen, 1, retry=7, session="S", read_only=False), (1, 7, "S", False))
        self.assertEqual(self.manager.transaction()(seen)(2, retry=8), (2, 8, None, "no"))
        for options in ({"retry": 7}, {"session": "S"}, {"read_only": True}):
            (name,) = options
            with self.assertRaisesRegex(TypeError, f"seen has a parameter {name} of its own"):
                self.manager.run(seen, 1, **options)
        self.assertEqual(self.manager.run(seen, 1), (1, 0, None, "no"))
        self.assertEqual(self.manager.run(lambda t, function: function, "mine"), "mine")
        with self.manager.transaction() as t, self.assertRaisesRegex(skewguard.InterfaceError, "runs no function"):
            t.run(seen, 1)
        self.assertIn("1 KIM SNAPSHOT", self.manager.report())

    def test_a_log_is_told(self):
        log = logging.getLogger("skewguard.test")
        with self.assertLogs(log, "DEBUG") as logged, skewguard.open(DEFINITIONS, log=log) as manager:
            first = manager.begin(session="KIM")
            first.execute("UPDATE DUTY SET ONCALL = 2 WHERE ID = 1")

            def change(t):
                t.execute("UPDATE DUTY SET ONCALL = 3 WHERE ID = 1")
                if not first.number:
                    first.commit()

            manager.transaction(session="LEE", retry=1).run(change)
        told = [(record.levelname, record.getMessage()) for record in logged.records]
        self.assertEqual(told[0], ("DEBUG", "KIM: BEGIN 0"))
        self.assertEqual(told[5], ("INFO", "LEE: REFUSED 12 40001 DUTY 1 BY 1"))
        self.assertEqual(told[6][0], "INFO")
        self.assertTrue(told[6][1].startswith("run again: commit 1 has changed"), told[6])
        self.assertEqual(told[-1], ("DEBUG", "LEE: COMMIT 2"))

    def test_a_log_beside_a_trace_and_one_that_wants_less(self):
        log, told = logging.getLogger("skewguard.test"), []
        with self.assertLogs(log, "INFO") as logged, skewguard.open(DEFINITIONS, log=log, trace=told.append) as manager:
            with manager.transaction(session="KIM") as t, self.assertRaises(skewguard.RuleViolated):
                t.execute("UPDATE DUTY SET ONCALL = 0")
        self.assertEqual([record.getMessage() for record in logged.records], ["KIM: REFUSED 10 23000 COVERED ALL"])
        self.assertEqual(told, ["KIM: BEGIN 0", "KIM: REFUSED 10 23000 COVERED ALL", "KIM: COMMIT 1"])
        with self.assertRaises(TypeError):
            skewguard.open(DEFINITIONS, log=print)

    def test_a_transaction_in_front_of_a_function(self):
        @self.manager.transaction(retry=3)
        def put(t, key, *, doctor):
            """Puts a doctor in."""
            return t.execute(INSERT, [key, doctor, 0]).count

        self.assertEqual((put(3, doctor="LEE"), put(4, doctor="SATO")), (1, 1))
        self.assertEqual((put.__name__, put.__doc__), ("put", "Puts a doctor in."))
        self.assertEqual(len(self.rows()), 4)

    def test_a_block_is_not_run_again(self):
        with self.assertRaisesRegex(TypeError, "Manager.run"):
            with self.manager.transaction(retry=3):
                self.fail("the block was run")
        for retry in (-1, True, "3", 1.0):
            with self.assertRaises((TypeError, ValueError)):
                self.manager.run(lambda t: None, retry=retry)

    def test_only_a_manager_makes_transactions(self):
        with self.assertRaises(TypeError):
            skewguard.Transaction()
        t = self.manager.begin()
        self.assertIs(weakref.ref(t)(), t)
        t.commit()
        for name in ("snapshot", "number", "other"):
            with self.assertRaises(AttributeError):
                setattr(t, name, 7)

    def test_run_takes_no_coroutine(self):
        async def leave(t):
            t.execute("DELETE FROM DUTY WHERE ID = 2")

        def each(t):
            yield t.execute("DELETE FROM DUTY WHERE ID = 2")

        with warnings.catch_warnings():
            warnings.simplefilter("ignore", RuntimeWarning)
            for function in (leave, each):
                with self.assertRaisesRegex(TypeError, "a plain function"):
                    self.manager.run(function)
        self.assertEqual(self.rows(), BEGINNING)

    # -- careless callers

    def test_a_closed_manager(self):
        t = self.manager.begin()
        t.execute("DELETE FROM DUTY WHERE ID = 2")
        self.manager.close()
        self.manager.close()
        self.assertTrue(self.manager.closed)
        calls = [
            lambda: t.execute(ALL),
            t.commit,
            t.rollback,
            self.manager.begin,
            self.manager.report,
            self.manager.checkpoint,
            lambda: self.manager.run(lambda t: None),
        ]
        for call in calls:
            with self.assertRaisesRegex(skewguard.InterfaceError, "the manager is closed"):
                call()

    def test_a_manager_closed_in_a_block(self):
        with self.assertRaisesRegex(skewguard.InterfaceError, "closed"):
            with self.manager.transaction():
                self.manager.close()
        with self.assertRaises(ZeroDivisionError):
            with skewguard.open(DEFINITIONS) as manager, manager.transaction():
                manager.close()
                1 / 0

    def test_a_transaction_after_its_block(self):
        with self.manager.transaction() as t:
            pass
        for call in (lambda: t.execute(ALL), t.commit, t.rollback, lambda: t.verdict("ONCE")):
            with self.assertRaisesRegex(skewguard.InterfaceError, "the transaction has committed"):
                call()
        with self.assertRaisesRegex(skewguard.InterfaceError, "another"):
            with t:
                self.fail("the block was run")
        with self.assertRaisesRegex(skewguard.InterfaceError, "has not begun"):
            self.manager.transaction().execute(ALL)

    def test_a_block_begins_its_transaction(self):
        t = self.manager.begin()
        with self.assertRaisesRegex(skewguard.InterfaceError, "this one has begun before"):
            with t:
                self.fail("the block was run")
        self.assertEqual(t.execute(ALL).count, 2)
        t.commit()
        self.manager.close()
        with self.assertRaisesRegex(skewguard.InterfaceError, "the manager is closed"):
            with self.manager:
                self.fail("the block was run")

    def test_a_transaction_that_was_ended_in_its_block(self):
        with self.manager.transaction() as t:
            t.execute("DELETE FROM DUTY WHERE ID = 2")
            t.rollback()
            with self.assertRaisesRegex(skewguard.InterfaceError, "was rolled back"):
                t.execute(ALL)
        with self.manager.transaction() as t:
            t.execute("COMMIT")
            with self.assertRaisesRegex(skewguard.InterfaceError, "has committed"):
                t.execute(ALL)
        with self.manager.transaction() as t:
            with self.assertRaises(skewguard.ProgrammingError) as caught:
                t.execute("BEGIN")
            self.assertEqual(caught.exception.number, 15)
        self.assertEqual(self.rows(), BEGINNING)

    def test_a_stale_transaction_does_not_reach_the_session_of_another(self):
        stale = self.manager.begin()
        stale.rollback()
        other = self.manager.begin()  # in the same session of the pool
        with self.assertRaises(skewguard.InterfaceError):
            stale.execute("DELETE FROM DUTY WHERE ID = 2")
        self.assertEqual(len(other.execute(ALL)), 2)
        other.commit()

    def test_values_of_a_wrong_type(self):
        with self.manager.transaction() as t:
            for value in (True, 1.0, b"KIM", bytearray(b"KIM"), object(), [1], 1j):
                with self.assertRaisesRegex(TypeError, "value 3 is"):
                    t.execute(INSERT, [3, "LEE", value])
            for values in ("KIM", b"KIM", bytearray(b"K"), {1}, frozenset([1]), 7, None):
                with self.assertRaisesRegex(TypeError, "values come as a list or a tuple"):
                    t.execute("DELETE FROM DUTY WHERE ID = ?", values)
            for sql in (b"SELECT", None, 7, ["SELECT"]):
                with self.assertRaisesRegex(TypeError, "a statement is a str"):
                    t.execute(sql)
        self.assertEqual(self.rows(), BEGINNING)

    def test_values_beyond_the_language(self):
        with self.manager.transaction() as t:
            texts = ("Ren\u00e9\t", "a\nb", "\0", "\x7f", "\ud800")
            for value in (10**15 + 1, -(10**15) - 1, 2**63, 10**100, *texts):
                with self.assertRaises(skewguard.ParameterError) as caught:
                    t.execute(INSERT, [3, value, 0])
                self.assertEqual(caught.exception.parameter, 2)
                self.assertIsInstance(caught.exception, ValueError)
            with self.assertRaisesRegex(skewguard.ParameterError, "value 2: its character 5 is '.t'"):
                t.execute(INSERT, [3, "Ren\u00e9\t", 0])
            with self.assertRaises(skewguard.ProgrammingError) as caught:
                t.execute(INSERT, ["3", "LEE", 0])  # a text for a number
            self.assertEqual(caught.exception.number, 5)
            with self.assertRaises(skewguard.ParameterError) as caught:
                t.execute("SELECT * FROM DUTY WHERE DOCTOR = ?", [None])
            self.assertEqual(caught.exception.parameter, 1)
            self.assertIn("IS NULL", str(caught.exception))
        self.assertEqual(self.rows(), BEGINNING)

    def test_values_in_any_collection(self):
        class Text(str):
            pass

        with self.manager.transaction() as t:
            for key, values in enumerate((iter([3, "A", 0]), dict.fromkeys([4, "B", 0]).keys(), range(5, 8)), 3):
                if key < 5:
                    self.assertEqual(t.execute(Text(INSERT), values).count, 1)
            self.assertEqual(t.execute("SELECT ID FROM DUTY WHERE ID = ? OR ID = ? OR ID = ?", range(3, 6)).count, 2)
            self.assertEqual(t.execute(sql="SELECT * FROM DUTY WHERE DOCTOR = ?", values=[Text("A")]).count, 1)
            self.assertEqual(t.execute("SELECT * FROM DUTY WHERE ID = ?", values=(4,)).count, 1)
            for wrong in ((), (ALL, (), 7)):
                with self.assertRaises(TypeError):
                    t.execute(*wrong)
            t.rollback()

    def test_values_that_are_made_as_they_are_asked_for(self):
        with self.manager.transaction() as t:
            found = t.execute("SELECT ID FROM DUTY WHERE ID = ?", (row.ID for row in t.execute(ALL) if row.ONCALL))
            self.assertEqual(found.scalar(), 1)

            class Failing(dict):
                def __getitem__(self, name):
                    return 1 // 0

            for values in ((1 // 0 for _ in range(3)), Failing(id=1)):
                with self.assertRaises(ZeroDivisionError):
                    t.execute("DELETE FROM DUTY WHERE ID = :id", values)
            with self.assertRaisesRegex(skewguard.InterfaceError, "was rolled back"):
                t.execute("DELETE FROM DUTY WHERE ID = ?", (t.rollback() or 2 for _ in range(1)))
        self.assertEqual(self.rows(), BEGINNING)

    def test_values_by_name(self):
        with self.manager.transaction() as t:
            new = {"id": 3, "doctor": "LEE", "oncall": 0, "hired": "never read"}
            self.assertEqual(t.execute("INSERT INTO DUTY VALUES (:id, :doctor, :oncall)", new).count, 1)
            text = "SELECT ID FROM DUTY WHERE ID >= :low AND ID <= :low+1 OR ID=:id --:none here, 'nor ?\n AND ID = :id"
            self.assertEqual([row.ID for row in t.execute(text, {"low": 1, "id": 3})], [1, 2, 3])
            quoted = "SELECT ID FROM DUTY WHERE DOCTOR = ':id' OR DOCTOR = 'O''HARA :id ?' OR DOCTOR = :ID"
            self.assertEqual(len(t.execute(quoted, types.MappingProxyType({"ID": "O'HARA"}))), 1)
            self.assertEqual(len(t.execute(ALL, {"unused": 1})), 3)
            with self.assertRaisesRegex(skewguard.ParameterError, "there is no value for :low") as caught:
                t.execute(text, {"id": 3})
            self.assertEqual(caught.exception.parameter, 1)
            with self.assertRaisesRegex(skewguard.ParameterError, "the statement has `\\?`: write `:name`"):
                t.execute("SELECT * FROM DUTY WHERE ID = ? OR ID = :id", {"id": 1})
            with self.assertRaises(skewguard.ProgrammingError) as caught:
                t.execute("SELECT * FROM DUTY WHERE ID = :id", [1])
            self.assertEqual(caught.exception.column, 31)
            with self.assertRaises(skewguard.ProgrammingError) as caught:
                t.execute("SELECT * FROM DUTY\nWHERE ID = :number AND", {"number": 1})
            self.assertEqual((caught.exception.line, caught.exception.column), (2, 23))
            for text in ("SELECT * FROM DUTY WHERE DOCTOR = 'a :id", "SELECT :", "SELECT * FROM DUTY WHERE ID = ID:id"):
                with self.assertRaises(skewguard.ProgrammingError):
                    t.execute(text, {"id": 1})
            for value in (1.5, True, b"x"):
                with self.assertRaises(TypeError):
                    t.execute("SELECT * FROM DUTY WHERE ID = :id", {"id": value})
            t.rollback()

    def test_names_and_places_mean_the_same(self):
        """Wherever parameters stand among quotes, comments and blanks of all kinds."""
        chance = random.Random(7)
        gaps = (" ", "\n", "\t ", "\r\n", " -- it's :p0 ?\n", "--\n", "-- ' \r :p1 ?\n ", " --'\n--?\n")
        quoted = ("KIM", "?", ":p0", "--", "O''HARA", "''", "''--:p0''", "", " :", ":p1''?")

        def condition():
            """The parts of a random condition; None stands for a parameter."""
            terms = [[chance.choice(("ID", "ONCALL")), chance.choice(("=", "<", "<>", ">=")), None]]
            terms.append(["DOCTOR", chance.choice(("=", "<>")), f"'{chance.choice(quoted)}'"])
            terms.append(["ID", "IN", "(", None, ",", "7", ",", None, ")"])
            chance.shuffle(terms)
            joined = [[*term, chance.choice(("AND", "OR", "AND NOT"))] for term in terms]
            return [*"SELECT * FROM DUTY WHERE".split(), *[part for term in joined for part in term], "ID", "<", None]

        with self.manager.transaction() as t:
            for _ in range(300):
                parts = [(part, chance.choice(gaps)) for part in condition()]
                values = [chance.randrange(4) for part, _ in parts if part is None]
                names = iter(f"p{place}" for place in range(len(values)))
                by_place = "".join(("?" if part is None else part) + gap for part, gap in parts)
                by_name = "".join((f":{next(names)}" if part is None else part) + gap for part, gap in parts)
                found = t.execute(by_name, {f"p{place}": value for place, value in enumerate(values)})
                self.assertEqual(list(found), list(t.execute(by_place, values)), by_name)

    def test_too_many_and_too_few_values(self):
        with self.manager.transaction() as t:
            for values in ([], [3], [3, "LEE"], [3, "LEE", 0, 0]):
                with self.assertRaisesRegex(skewguard.ParameterError, f"has 3 parameters, and {len(values)} came"):
                    t.execute(INSERT, values)
            with self.assertRaisesRegex(skewguard.ParameterError, "has 0 parameters, and 1 came"):
                t.execute("SELECT * FROM DUTY WHERE DOCTOR = '?'", [1])
        self.assertEqual(self.rows(), BEGINNING)

    def test_a_fault_in_a_text_has_line_column_and_caret(self):
        with self.manager.transaction() as t:
            with self.assertRaises(skewguard.ProgrammingError) as caught:
                t.execute("SELECT *\n\tFORM DUTY")
            fault = caught.exception
            self.assertEqual((fault.number, fault.line, fault.column), (2, 2, 2))
            self.assertEqual(str(fault).splitlines()[0], "syntax error at line 2, column 2")
            self.assertEqual(str(fault).splitlines()[2:6], ["  --> statement:2:2", "   |", " 2 |  FORM DUTY", "   |  ^^^^"])
            quoted = "SELECT * FROM DUTY WHERE DOCTOR = 'Ren\u00e9\t'"
            for text, column in (("", 1), ("SELECT * FROM DUTY;;", 19), (quoted, 35)):
                with self.assertRaises(skewguard.ProgrammingError) as caught:
                    t.execute(text)
                self.assertEqual((caught.exception.line, caught.exception.column), (1, column), text)
            with self.assertRaises(skewguard.ProgrammingError) as caught:
                t.execute("DELETE FROM DUTY WHERE " + "(" * 70)
            self.assertEqual((caught.exception.number, caught.exception.column), (19, 88))
            with self.assertRaises(skewguard.ProgrammingError) as caught:
                t.execute("SELECT NAME FROM DUTY")
            self.assertEqual((caught.exception.number, caught.exception.names), (3, ("NAME",)))
            for text in ("\ud800", "SELECT \0", "x" * 100_000):
                with self.assertRaises(skewguard.ProgrammingError) as caught:
                    t.execute(text)
                self.assertLess(len(str(caught.exception)), 1000)

    def test_a_statement_may_have_its_end(self):
        """A `;`, as in a script."""
        with self.manager.transaction() as t:
            for end in (";", " ;", ";\n", " ; -- all of it; really", "--'\n;--'"):
                for _ in range(2):
                    self.assertEqual(t.execute("SELECT ID FROM DUTY" + end).count, 2)
                self.assertEqual(t.execute(f"SELECT ID FROM DUTY WHERE ID = ?{end}", [2]).scalar(), 2)
                self.assertEqual(t.execute(f"SELECT ID FROM DUTY WHERE ID = :id{end}", {"id": 2}).scalar(), 2)
            self.assertEqual(t.execute("DELETE FROM DUTY WHERE DOCTOR = ';';").count, 0)
            faults = {
                ";": 1,
                "SELECT * FROM DUTY WHERE;": 25,
                "SELECT * FROM DUTY WHERE ;": 26,
                "SELECT * FROM DUTY; DELETE FROM DUTY;": 19,
                "SELECT * FROM DUTY; DELETE FROM DUTY": 19,
                "SELECT * FROM DUTY WHERE DOCTOR = 'A;": 35,
            }
            for text, column in faults.items():
                with self.assertRaises(skewguard.ProgrammingError) as caught:
                    t.execute(text)
                self.assertEqual((caught.exception.line, caught.exception.column), (1, column), text)
                self.assertIn(f"\n 1 | {text}\n", str(caught.exception))
            t.execute("COMMIT;")
        self.assertEqual((t.number, self.rows()), (1, BEGINNING))

    def test_definitions_that_are_refused(self):
        with self.assertRaises(skewguard.ProgrammingError) as caught:
            skewguard.open("CREATE TABLE T (\n    ID INTEGR PRIMARY KEY\n);")
        self.assertEqual((caught.exception.line, caught.exception.column), (2, 8))
        self.assertIn("\n 2 |     ID INTEGR PRIMARY KEY\n   |        ^^^^^^\n", str(caught.exception))
        with self.assertRaises(skewguard.RuleViolated) as caught:
            skewguard.open(DEFINITIONS.replace("'KIM', 1", "'KIM', 0"))
        self.assertEqual((caught.exception.number, caught.exception.rule), (21, "COVERED"))
        for definitions in (b"CREATE TABLE T (ID INTEGER PRIMARY KEY);", None, 7):
            with self.assertRaises(TypeError):
                skewguard.open(definitions)
        with self.assertRaises(TypeError):
            skewguard.open(DEFINITIONS, trace="print")
        for limit in (0, -1, 2**32):
            with self.assertRaises(ValueError):
                skewguard.open(DEFINITIONS, max_commits=limit)
        for limit in (True, "9", 1.0, None):
            with self.assertRaises(TypeError):
                skewguard.open(DEFINITIONS, max_commits=limit)

    def test_session_names(self):
        self.manager.begin(session="S").commit()
        for name in ("", "A B", "1A", "SELECT", "A" * 129, "Ren\u00e9", "\u017f", "\0"):
            with self.assertRaises(skewguard.ProgrammingError, msg=name):
                self.manager.begin(session=name)
        with self.assertRaises(TypeError):
            self.manager.begin(session=7)
        first = self.manager.begin(session="A")
        with self.assertRaises(skewguard.ProgrammingError) as caught:
            self.manager.begin(session="a")
        self.assertEqual(caught.exception.number, 15)
        first.commit()
        self.manager.begin(session="A").commit()
        self.manager.begin(session="PYTHON1").commit()
        self.manager.begin().commit()
        with self.assertRaises(skewguard.ProgrammingError):
            self.manager.begin(session="PYTHON2")

    def test_many_transactions_at_once(self):
        held = [self.manager.begin() for _ in range(256)]
        with self.assertRaises(skewguard.OperationalError) as caught:
            self.manager.begin()
        self.assertEqual(caught.exception.number, 24)
        held.pop().rollback()
        self.manager.begin().rollback()
        for t in held:
            t.rollback()

    def test_a_forgotten_transaction_is_rolled_back(self):
        t = self.manager.begin()
        t.execute("DELETE FROM DUTY WHERE ID = 2")
        with self.assertWarnsRegex(ResourceWarning, "a transaction was forgotten, and is rolled back"):
            del t
            gc.collect()
            self.manager.checkpoint()  # which is refused while a transaction is open
        self.assertEqual(self.rows(), BEGINNING)

    def test_a_forgotten_transaction_where_warnings_are_errors(self):
        with warnings.catch_warnings(), mock.patch.object(sys, "excepthook") as shown:
            warnings.simplefilter("error", ResourceWarning)
            with mock.patch.object(sys, "unraisablehook") as dropped:
                self.manager.begin()
                gc.collect()
                self.assertEqual(self.rows(), BEGINNING)
        kinds = [call.args[0] for call in shown.call_args_list]
        kinds += [call.args[0].exc_type for call in dropped.call_args_list]
        self.assertEqual(kinds, [ResourceWarning])

    def test_a_transaction_that_is_collected_in_the_midst_of_a_call(self):
        told, held = [], []

        def trace(line):
            told.append(line)
            if len(held) == 1 and line.startswith("A"):
                held.clear()
                gc.collect()

        with skewguard.open(DEFINITIONS, trace=trace) as manager, warnings.catch_warnings():
            warnings.simplefilter("ignore", ResourceWarning)
            held.append(manager.begin())
            with manager.transaction(session="A"):
                pass
        lines = ["PYTHON1: BEGIN 0", "A: BEGIN 0", "PYTHON1: ROLLBACK", "A: COMMIT 1"]
        self.assertEqual(told, lines)

    @NEEDS_FAULTS
    def test_a_forgotten_manager_gives_its_memory_back(self):
        before = faulty.open_libraries()
        manager = skewguard.open(DEFINITIONS)
        t = manager.begin()
        del manager
        gc.collect()
        self.assertEqual(len(t.execute(ALL)), 2)  # a transaction keeps its manager
        t.commit()
        self.assertEqual(faulty.open_libraries(), before + 1)
        del t
        gc.collect()
        self.assertEqual(faulty.open_libraries(), before)

    @NEEDS_FAULTS
    def test_a_manager_in_a_circle_gives_its_memory_back(self):
        class Service:
            def __init__(self):
                self.manager = skewguard.open(DEFINITIONS, trace=self.hear)
                self.t = self.manager.begin()

            def hear(self, line):
                self.line = line

        before = faulty.open_libraries()
        Service().t.commit()
        gc.collect()
        self.assertEqual(faulty.open_libraries(), before)

    def test_a_trace_may_not_call_and_may_fail(self):
        told = []

        def trace(line):
            told.append(line)
            with self.assertRaisesRegex(skewguard.InterfaceError, "in the midst of a call"):
                manager.report()
            raise ValueError(line)

        with mock.patch.object(sys, "excepthook") as shown, skewguard.open(DEFINITIONS, trace=trace) as manager:
            self.assertEqual(manager.begin().commit(), 1)
        self.assertEqual(len(told), 2)
        self.assertEqual([call.args[0] for call in shown.call_args_list], [ValueError, ValueError])

    @unittest.skipUnless(hasattr(signal, "setitimer"), "no timer")
    def test_a_handler_of_a_signal_does_not_wait_for_itself(self):
        """In the midst of a call it is refused. The implementation in C has no such midst."""
        answers = set()

        def handle(*_):
            try:
                self.manager.report()
                answers.add("report")
            except skewguard.InterfaceError as refused:
                answers.add(str(refused))

        before = signal.signal(signal.SIGALRM, handle)
        try:
            signal.setitimer(signal.ITIMER_REAL, 0.001, 0.001)
            for _ in range(10_000):
                self.manager.begin().rollback()
                if len(answers) == 2:
                    break
        finally:
            signal.setitimer(signal.ITIMER_REAL, 0)
            signal.signal(signal.SIGALRM, before)
        midst = "a trace, or a signal's handler, may not call the manager in the midst of a call"
        self.assertEqual(answers, {"report", midst} if skewguard.IMPLEMENTATION == "ctypes" else {"report"})

    @NEEDS_FAULTS
    def test_more_texts_than_are_kept(self):
        texts = [f"SELECT * FROM DUTY WHERE ID = {number}" for number in range(2 * STATEMENTS)]

        def prepared_and_forgotten():
            return faulty.calls(Operation.PREPARE), faulty.calls(Operation.FORGET)

        with self.manager.transaction() as t:
            prepared_and_forgotten()
            for number, text in enumerate(texts):
                self.assertEqual(len(t.execute(text)), number in (1, 2))
            self.assertEqual(prepared_and_forgotten(), (2 * STATEMENTS, STATEMENTS))
            for text in texts[STATEMENTS:]:
                t.execute(text)
            self.assertEqual(prepared_and_forgotten(), (0, 0))
            t.execute(texts[0])  # in the place of that which was used longest ago
            for text in texts[STATEMENTS + 1 :]:
                t.execute(text)
            self.assertEqual(prepared_and_forgotten(), (1, 1))
            self.assertEqual(len(t.execute(texts[STATEMENTS])), 0)
            self.assertEqual(prepared_and_forgotten(), (1, 1))

    def test_a_reply_beyond_the_buffer(self):
        with self.manager.transaction() as t:
            for key in range(3, 1000):
                t.execute(INSERT, [key, f"D{key}", 0])
            rows = t.execute(ALL)
            self.assertEqual((len(rows), rows[-1]), (999, (999, "D999", 0)))
        self.assertEqual(len(self.rows()), 999)

    @NEEDS_FAULTS
    def test_a_call_without_memory(self):
        def refuse(operation, call):
            with faulty.answering(Status.NO_MEMORY, operation), self.assertRaises(skewguard.NoMemory) as caught:
                call()
            self.assertIsInstance(caught.exception, MemoryError)

        refuse(faulty.OPEN, lambda: skewguard.open(DEFINITIONS))
        refuse(Operation.OPEN_SESSION, self.manager.begin)
        refuse(Operation.BEGIN, self.manager.begin)
        t = self.manager.begin()
        refuse(Operation.PREPARE, lambda: t.execute(ALL))
        refuse(Operation.RUN, lambda: t.execute(INSERT, [3, "LEE", 0]))
        t.execute(INSERT, [3, "LEE", 0])
        refuse(Operation.COMMIT, t.commit)
        refuse(Operation.REPORT, self.manager.report)
        refuse(Operation.CHECKPOINT, self.manager.checkpoint)
        self.assertEqual(t.commit(), 1)

        def delete():
            with self.manager.transaction() as t:
                t.execute("DELETE FROM DUTY WHERE ID = 3")

        faulty.calls(Operation.OPEN_SESSION)
        refuse(Operation.COMMIT, delete)
        self.assertEqual(len(self.rows()), 3)
        self.assertEqual(faulty.calls(Operation.OPEN_SESSION), 0)

    @NEEDS_FAULTS
    def test_a_reply_without_memory(self):
        change = "UPDATE DUTY SET ONCALL = 1 WHERE ID = 1"
        for t in [self.manager.begin(), self.manager.begin()]:
            t.commit()  # so that there are two sessions
        faulty.calls(Operation.OPEN_SESSION)
        new_texts = (f"DELETE FROM DUTY WHERE ID = {key}" for key in (2, 1))
        for call, error in (
            (lambda t: t.execute(change), skewguard.ReplyLost),
            (lambda t: t.rollback(), skewguard.ReplyLost),
            (lambda t: t.commit(), skewguard.ReplyLost),
            (lambda t: t.execute(next(new_texts)), skewguard.NoMemory),  # it is not prepared
            (lambda t: self.manager.begin(), skewguard.NoMemory),
        ):
            for length in (0, 10**15):  # no reply has come, or there is no memory for one that is so long
                t = self.manager.begin()
                with faulty.answering(Status.REPLY_WAITS, times=1, length=length and 5000):
                    t.execute(change)  # the reply comes when it is asked for again
                with faulty.answering(Status.REPLY_WAITS, times=10, length=length), self.assertRaises(error):
                    call(t)
                if error is skewguard.NoMemory:
                    t.commit()
                with self.assertRaises(skewguard.InterfaceError):
                    t.execute(ALL)
                self.assertEqual(self.rows(), BEGINNING)
        self.manager.checkpoint()  # which is refused while a transaction is open
        self.assertEqual(faulty.calls(Operation.OPEN_SESSION), 0)

    @NEEDS_FAULTS
    def test_a_lost_reply_to_what_makes_something(self):
        """A session or statement of which the reply was lost is none that nobody can close."""
        with faulty.answering(Status.REPLY_WAITS), self.assertRaises(skewguard.NoMemory):
            self.manager.begin(session="KIM")
        with self.manager.transaction(session="KIM") as t:
            with faulty.answering(Status.REPLY_WAITS), self.assertRaises(skewguard.NoMemory):
                t.execute(ALL)
            with faulty.answering(Status.REPLY_WAITS), self.assertRaises(skewguard.NoMemory):
                t.execute(ALL)  # nor is there memory to hear what the call before has made
            self.assertEqual(len(t.execute(ALL)), 2)
        with faulty.answering(Status.REPLY_WAITS), self.assertRaises(skewguard.NoMemory):
            skewguard.open(DEFINITIONS)
        with faulty.answering(Status.REPLY_WAITS), self.assertRaises(skewguard.ReplyLost):
            self.manager.checkpoint()

    @NEEDS_FAULTS
    def test_an_answer_that_is_none(self):
        """Another library, or another version of it, is found out."""
        with faulty.answering(0, Operation.AGAIN), self.assertRaisesRegex(skewguard.InterfaceError, "another one"):
            skewguard.open(DEFINITIONS)
        with faulty.answering(77, Operation.BEGIN), self.assertRaisesRegex(skewguard.InterfaceError, "status 77"):
            self.manager.begin()
        with self.manager.transaction() as t:
            with faulty.answering(Status.BAD_REQUEST, Operation.RUN), self.assertRaises(skewguard.InterfaceError):
                t.execute(ALL)
            self.assertEqual(len(t.execute(ALL)), 2)

    @unittest.skipUnless(hasattr(os, "fork"), "no fork")
    def test_a_fork_leaves_the_manager_to_the_parent(self):
        with warnings.catch_warnings():
            warnings.simplefilter("ignore", DeprecationWarning)
            child = os.fork()
        if child == 0:
            try:
                self.manager.begin()
            except skewguard.InterfaceError as refused:
                os._exit(0 if "open one in each process" in str(refused) else 1)
            os._exit(2)
        self.assertEqual(os.waitstatus_to_exitcode(os.waitpid(child, 0)[1]), 0)
        self.assertEqual(self.rows(), BEGINNING)


class Threads(unittest.TestCase):
    def run_all(self, *functions):
        """Runs them on threads, and raises the first exception of any."""
        raised = []

        def guarded(function):
            try:
                function()
            except BaseException as error:
                raised.append(error)

        threads = [threading.Thread(target=guarded, args=(function,)) for function in functions]
        for thread in threads:
            thread.start()
        for thread in threads:
            thread.join(60)
            self.assertFalse(thread.is_alive())
        if raised:
            raise raised[0]

    def test_one_manager(self):
        definitions = "CREATE TABLE T (ID INTEGER PRIMARY KEY, V INTEGER); INSERT INTO T VALUES (1, 0);"
        with skewguard.open(definitions) as manager:

            def add():
                for _ in range(100):
                    manager.run(lambda t: t.execute("UPDATE T SET V = V + 1 WHERE ID = 1"), retry=1000)

            self.run_all(*[add] * 4)
            with manager.transaction() as t:
                self.assertEqual(t.execute("SELECT V FROM T")[0]["V"], 400)

    def test_one_transaction(self):
        with skewguard.open("CREATE TABLE T (ID INTEGER PRIMARY KEY);") as manager:
            with manager.transaction() as t:

                def insert(first):
                    for key in range(first, first + 200):
                        self.assertEqual(t.execute("INSERT INTO T VALUES (?)", [key]).count, 1)
                        self.assertGreater(len(t.execute("SELECT * FROM T WHERE ID = ?", [key])), 0)

                self.run_all(*[lambda first=first: insert(first) for first in (0, 1000, 2000)])
            with manager.transaction() as t:
                self.assertEqual(len(t.execute("SELECT * FROM T")), 600)

    def test_one_thread_ends_what_another_one_uses(self):
        with skewguard.open("CREATE TABLE T (ID INTEGER PRIMARY KEY);") as manager:
            t, begun, refused = manager.begin(), threading.Event(), []

            def insert():
                try:
                    for key in range(100_000):
                        t.execute("INSERT INTO T VALUES (?)", [key])
                        begun.set()
                except skewguard.InterfaceError as error:
                    refused.append(str(error))

            def end():
                begun.wait(10)
                t.rollback()

            def others():
                begun.wait(10)
                for _ in range(100):
                    with manager.transaction() as other:
                        self.assertEqual(len(other.execute("SELECT * FROM T")), 0)

            self.run_all(insert, end, others)
            self.assertEqual(refused, ["the transaction was rolled back"])

    def test_a_manager_that_is_closed_while_others_call_it(self):
        for _ in range(20):
            manager, started = skewguard.open("CREATE TABLE T (ID INTEGER PRIMARY KEY);"), threading.Barrier(4)

            def call():
                started.wait(10)
                try:
                    for _ in range(1000):
                        manager.begin().rollback()
                except skewguard.InterfaceError:
                    pass

            def close():
                started.wait(10)
                manager.close()

            self.run_all(call, call, call, close)


if __name__ == "__main__":
    unittest.main()
