"""Several statements and whole transactions in one call each."""

import pickle
import threading
import unittest

import skewguard
from skewguard._numbers import Operation, Status

import faulty

DEFINITIONS = """
CREATE TABLE P (ID INTEGER PRIMARY KEY, N INTEGER NOT NULL);
CREATE ASSERTION FEW CHECK ((SELECT SUM(N) FROM P) <= 1000) DEFERRABLE;
INSERT INTO P VALUES (1, 0);
INSERT INTO P VALUES (2, 0);
"""
ADD = "UPDATE P SET N = N + ? WHERE ID = ?"
INSERT = "INSERT INTO P VALUES (?, ?)"
ALL = "SELECT * FROM P"

NEEDS_FAULTS = unittest.skipUnless(faulty.library, "no C compiler for the library with faults")


class Several(unittest.TestCase):
    def setUp(self):
        self.told = []
        self.manager = skewguard.open(DEFINITIONS, trace=self.told.append)
        self.addCleanup(self.manager.close)

    def rows(self):
        """What is committed."""
        with self.manager.transaction(read_only=True) as t:
            return [tuple(row) for row in t.execute(ALL)]

    def counts(self, results):
        return [result.count for result in results]

    # -- one statement with many values

    def test_each_is_answered(self):
        with self.manager.transaction(session="KIM") as t:
            self.assertEqual(self.counts(t.run_all(ADD, [(1, 1), (1, 7), [2, 2]])), [1, 0, 1])
            self.assertEqual(self.counts(t.run_all(INSERT, iter([(3, 3), (4, 4)]))), [1, 1])
            named = t.run_all("SELECT N FROM P WHERE ID = :id;", [{"id": 1}, {"id": 9, "n": 1}, {"id": 4}])
            self.assertEqual([result.scalar() for result in named], [1, None, 4])
            self.assertEqual([result.columns for result in named], [("N",)] * 3)
            self.assertEqual(t.run_all(INSERT, []), [])
            self.assertEqual([result.verdict for result in t.run_all("VERDICT FEW", [()] * 2)], [True, True])
            (deferred,) = t.run_all("SET CONSTRAINTS ALL DEFERRED", [[]])
            self.assertEqual(deferred.kind, "SET CONSTRAINTS")
        self.assertEqual(self.rows(), [(1, 1), (2, 2), (3, 3), (4, 4)])
        self.assertEqual(self.told[:4], ["KIM: BEGIN 0", "KIM: UPDATE 1", "KIM: UPDATE 0", "KIM: UPDATE 1"])
        self.assertEqual(self.told[6], "KIM: SELECT 1\n  1")

    def test_the_first_that_is_refused_is_the_last(self):
        with self.manager.transaction() as t:
            with self.assertRaises(skewguard.IntegrityError) as caught:
                t.run_all(INSERT, [(3, 3), (1, 1), (4, 4)])
            self.assertEqual((caught.exception.place, caught.exception.number), (1, 7))
            self.assertEqual(pickle.loads(pickle.dumps(caught.exception)).place, 1)
            with self.assertRaises(skewguard.RuleViolated) as caught:
                t.run_all(ADD, [(995, 1), (7, 1)])
            self.assertEqual((caught.exception.place, caught.exception.rule), (1, "FEW"))
            with self.assertRaises(skewguard.ProgrammingError) as caught:
                t.run_all("SELECT * FROM NOWHERE", [()])
            self.assertEqual(caught.exception.place, 0)
        self.assertEqual(self.rows(), [(1, 995), (2, 0), (3, 3)])

    def test_values_that_are_none(self):
        """Those before have been."""
        wrong = [(7,), (7, 1, 1), (7, 1.5), (7, "\x7f"), (10**16, 1)]
        for place, values in enumerate(wrong):
            with self.manager.transaction() as t:
                with self.assertRaises((skewguard.ParameterError, TypeError)) as caught:
                    t.run_all(INSERT, [(10 + place, 0), values, (3, 3)])
                self.assertEqual(getattr(caught.exception, "place", 1), 1)
        self.assertEqual([row[0] for row in self.rows()], [1, 2, 10, 11, 12, 13, 14])
        with self.manager.transaction() as t:
            for rows in (7, [7], [{1, 2}], [(3, 3), "AB"]):
                with self.assertRaises(TypeError):
                    t.run_all(INSERT, rows)
            with self.assertRaisesRegex(skewguard.ParameterError, "some values come by their places"):
                t.run_all("INSERT INTO P VALUES (:id, 1)", [{"id": 3}, [4]])
            with self.assertRaises(TypeError):
                t.run_all(None, [])
            with self.assertRaises(skewguard.ProgrammingError):
                t.run_all("SELEKT", [()])
            self.assertEqual(t.execute(ALL).count, 7)

    def test_transactions_that_end(self):
        t = self.manager.begin()
        with self.assertRaises(skewguard.ProgrammingError) as caught:
            t.run_all("COMMIT", [(), ()])
        self.assertEqual((caught.exception.number, t.number), (14, 1))
        for ended in (t, self.manager.transaction()):
            with self.assertRaises(skewguard.InterfaceError):
                ended.run_all(ALL, [()])
        self.assertIn("has committed as 1", repr(t))

    def test_more_statements_than_are_kept(self):
        with self.manager.transaction() as t:
            for number in range(300):
                (found,) = t.run_all(f"SELECT * FROM P WHERE ID < {number}", [()])
                self.assertEqual(found.count, min(2, max(0, number - 1)))

    # -- a whole transaction

    def test_a_transaction(self):
        steps = [(ADD, [5, 1]), (ADD + ";", (-5, 2)), ("SELECT N FROM P WHERE ID = :id", {"id": 1}), (ALL,)]
        number, done = self.manager.run_transaction(steps, session="KIM")
        self.assertEqual(number, 1)
        self.assertEqual(self.counts(done), [1, 1, 1, 2])
        self.assertEqual((done[2].scalar(), done[3].first()), (5, (1, 5)))
        self.assertEqual(self.rows(), [(1, 5), (2, -5)])
        self.assertEqual(self.told[0], "KIM: BEGIN 0")
        self.assertEqual(self.told[5], "KIM: COMMIT 1")
        self.assertEqual(self.manager.run_transaction([]), (3, []))
        self.assertEqual(repr(self.manager), "<skewguard.Manager open, 0 transactions>")

    def test_a_transaction_that_is_refused(self):
        refused = {
            skewguard.RuleViolated: [(ADD, [5, 1]), (ADD, [999, 2])],
            skewguard.ParameterError: [(ADD, [5, 1]), (ADD, [5])],
            TypeError: [(ADD, [5, 1]), (ADD, [5, 1.5])],
            skewguard.IntegrityError: [(ADD, [5, 1]), (INSERT, [2, 2])],
            skewguard.ProgrammingError: [(ADD, [5, 1]), ("SELEKT", ())],
        }
        for kind, steps in refused.items():
            with self.assertRaises(kind) as caught:
                self.manager.run_transaction(steps)
            self.assertEqual(getattr(caught.exception, "place", 1), 1)
        with self.assertRaises(skewguard.RuleViolated) as caught:
            self.manager.run_transaction([("SET CONSTRAINTS ALL DEFERRED",), (ADD, [2000, 1])])
        self.assertEqual((caught.exception.place, caught.exception.sqlstate), (None, "40002"))
        for steps in (7, [7], [(7, ())], [(ADD, 7)]):
            with self.assertRaises(TypeError):
                self.manager.run_transaction(steps)
        self.assertEqual(self.rows(), [(1, 0), (2, 0)])
        with self.manager.transaction(session="KIM") as t:
            with self.assertRaises(skewguard.ProgrammingError) as caught:
                self.manager.run_transaction([(ADD, [5, 1])], session="KIM")
            self.assertEqual((caught.exception.number, caught.exception.place), (15, None))
            t.execute(ADD, [1, 2])
        self.assertEqual(self.rows(), [(1, 0), (2, 1)])
        with self.assertRaises(skewguard.ProgrammingError):
            self.manager.run_transaction([], session="NO NAME")
        self.manager.close()
        with self.assertRaisesRegex(skewguard.InterfaceError, "the manager is closed"):
            self.manager.run_transaction([(ADD, [5, 1])])

    def test_threads(self):
        """A row that all change: each COMMIT sees all before it, since a transaction of one call is alone."""

        def add():
            for _ in range(100):
                self.manager.run_transaction([(ADD, [1, 1]), (ADD, [-1, 2])], retry=0)

        threads = [threading.Thread(target=add) for _ in range(4)]
        for thread in threads:
            thread.start()
        for thread in threads:
            thread.join()
        self.assertEqual(self.rows(), [(1, 400), (2, -400)])

    # -- without memory

    @NEEDS_FAULTS
    def test_replies_that_come_late_or_never(self):
        steps = [(ADD, [1, 1])]
        for operation in (Operation.RUN_ALL, Operation.TRANSACT):
            with faulty.answering(Status.REPLY_WAITS, operation, times=1), self.manager.transaction() as t:
                self.assertEqual(self.counts(t.run_all(ADD, [(1, 1), (1, 1)])), [1, 1])
                t.rollback()
                self.assertEqual(self.counts(self.manager.run_transaction(steps)[1]), [1])
        self.assertEqual(self.rows(), [(1, 2), (2, 0)])
        t = self.manager.begin()
        with faulty.answering(Status.REPLY_WAITS):
            with self.assertRaises(skewguard.ReplyLost):
                t.run_all(ADD, [(1, 1), (1, 1)])
        with self.assertRaises(skewguard.InterfaceError):
            t.execute(ALL)
        with faulty.answering(Status.REPLY_WAITS):
            with self.assertRaises(skewguard.ReplyLost):
                self.manager.run_transaction(steps)
        self.assertEqual(self.rows(), [(1, 3), (2, 0)])
        self.assertEqual(repr(self.manager), "<skewguard.Manager open, 0 transactions>")

    @NEEDS_FAULTS
    def test_without_memory_nothing_is_run(self):
        with faulty.answering(Status.NO_MEMORY, Operation.TRANSACT):
            with self.assertRaises(skewguard.NoMemory):
                self.manager.run_transaction([(ADD, [1, 1])])
        with self.manager.transaction() as t:
            with faulty.answering(Status.NO_MEMORY, Operation.RUN_ALL), self.assertRaises(skewguard.NoMemory):
                t.run_all(ADD, [(1, 1)])
            t.run_all(ADD, [(1, 2)])
        self.assertEqual(self.rows(), [(1, 0), (2, 1)])

    def test_more_texts_than_are_kept_in_a_transaction(self):
        steps = [(f"UPDATE P SET N = {number} WHERE ID = 1", ()) for number in range(300)]
        self.assertEqual(len(self.manager.run_transaction(steps)[1]), 300)
        self.assertEqual(self.rows(), [(1, 299), (2, 0)])


if __name__ == "__main__":
    unittest.main()
