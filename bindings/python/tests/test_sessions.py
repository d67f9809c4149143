"""Sessions: any number of names, one after the other, and so many transactions at once."""

import unittest
import warnings

import skewguard

MOST = 256
DEFINITIONS = "CREATE TABLE P (ID INTEGER PRIMARY KEY, N INTEGER); INSERT INTO P VALUES (1, 0);"
ADD = "UPDATE P SET N = N + 1 WHERE ID = 1"


class Sessions(unittest.TestCase):
    def setUp(self):
        self.manager = skewguard.open(DEFINITIONS)
        self.addCleanup(self.manager.close)

    def reported(self):
        """The session of each commit."""
        lines = self.manager.report().splitlines()
        return [line.split()[1] for line in lines if " SNAPSHOT " in line]

    def test_thousands_of_names(self):
        names = [f"USER{number}" for number in range(3000)]
        for name in names:
            with self.manager.transaction(session=name) as t:
                t.execute(ADD)
        self.assertEqual(self.reported(), names)
        for name in ("USER0", "user2999", None):
            with self.manager.transaction(session=name) as t:
                self.assertEqual(t.execute("SELECT N FROM P")[0], (3000,))

    def test_names_again_and_again(self):
        names = [f"USER{number * 7919 % 300}" for number in range(2000)]
        for name in names:
            self.manager.run(lambda t: t.execute(ADD), session=name)
        self.assertEqual(self.reported(), names)

    def test_names_beside_open_transactions(self):
        """Who has a transaction keeps the session."""
        names = [f"HELD{number}" for number in range(100)]
        held = [self.manager.begin(session=name) for name in names] + [self.manager.begin() for _ in range(100)]
        for key, t in enumerate(held, 2):
            t.execute("INSERT INTO P VALUES (?, 7)", [key])
        for number in range(1000):
            self.manager.begin(session=f"USER{number}").rollback()
            self.manager.begin().rollback()
        for key, t in enumerate(held, 2):
            self.assertEqual(list(t.execute("SELECT N FROM P WHERE ID = ?", [key])), [(7,)])
            t.commit()
        self.assertEqual(self.reported()[:100], names)
        self.assertEqual(len(set(self.reported())), 200)

    def test_unnamed_transactions_make_room_too(self):
        for t in [self.manager.begin() for _ in range(MOST)]:
            t.rollback()
        for number in range(MOST):
            self.manager.begin(session=f"USER{number}").rollback()
        for t in [self.manager.begin() for _ in range(MOST)]:
            t.rollback()

    def test_one_transaction_too_many(self):
        for turn in range(3):
            named = [self.manager.begin(session=f"USER{turn}X{number}") for number in range(MOST // 2)]
            held = named + [self.manager.begin() for _ in range(MOST // 2)]
            for name in (None, "ONEMORE", "ANOTHER"):
                with self.assertRaises(skewguard.OperationalError) as caught:
                    self.manager.begin(session=name)
                self.assertEqual(caught.exception.number, 24)
                self.assertIn("too many transactions are open at once", str(caught.exception))
            for key, t in enumerate(held, 2):
                t.execute("INSERT INTO P VALUES (?, 7)", [1000 * turn + key])
            held.pop().rollback()
            self.manager.begin(session="ONEMORE").rollback()
            self.manager.begin(session="ANOTHER").rollback()
            for t in held:
                t.rollback()

    def test_a_name_that_is_in_use_stays_so(self):
        t = self.manager.begin(session="KIM")
        for number in range(2 * MOST):
            self.manager.begin(session=f"USER{number}").rollback()
        with self.assertRaises(skewguard.ProgrammingError) as caught:
            self.manager.begin(session="kim")
        self.assertEqual(caught.exception.number, 15)
        t.commit()
        self.manager.begin(session="kim").commit()

    def test_a_forgotten_transaction_makes_room(self):
        with warnings.catch_warnings():
            warnings.simplefilter("ignore", ResourceWarning)
            for number in range(2 * MOST):
                self.manager.begin(session=f"USER{number}")
            self.manager.checkpoint()


if __name__ == "__main__":
    unittest.main()
