"""Memory: each allocation of Python's refused in turn, and nothing kept that nobody needs."""

import contextlib
import gc
import sys
import unittest
import warnings
from unittest import mock

import skewguard

try:
    import _testcapi
except ImportError:
    _testcapi = None

import faulty  # noqa: F401  # by which the library is loaded

DEFINITIONS = """
CREATE TABLE P (ID INTEGER PRIMARY KEY, S VARCHAR(20));
CREATE ASSERTION FEW CHECK ((SELECT COUNT(*) FROM P) <= 9);
INSERT INTO P VALUES (1, 'ONE');
INSERT INTO P VALUES (2, NULL);
"""
CHANGE = "UPDATE P SET S = ? WHERE ID = ?"


def opened():
    return skewguard.open(DEFINITIONS, max_commits=2**32 - 1)


def block(manager):
    with manager.transaction() as t:
        t.execute(CHANGE, ["X", 1])


def named_block(manager):
    with manager.transaction(session="kim", read_only=True) as t:
        t.execute("SELECT S FROM P WHERE ID = ?", (1,)).count


def rows(manager):
    with manager.transaction() as t:
        for row in t.execute("SELECT * FROM P"):
            row["ID"], row[1]


def by_hand(manager):
    manager.begin().rollback()
    t = manager.begin()
    t.verdict("FEW")
    t.commit()
    t.number, t.snapshot


def new_text(manager):
    with manager.transaction() as t:
        t.execute(f"SELECT * FROM P WHERE ID = {next(NUMBERS)}")


def generator_of_values(manager):
    with manager.transaction() as t:
        t.execute(CHANGE, iter(["X" * 20, 1]))


def refusals(manager):
    with manager.transaction() as t:
        for text, values in (("SELEKT", ()), (CHANGE, ["X"]), (CHANGE, ["X" * 21, 1]), (CHANGE, [1.5, 1]), (7, ())):
            with contextlib.suppress(skewguard.Error, TypeError):
                t.execute(text, values)


def left_by_an_exception(manager):
    with contextlib.suppress(KeyError), manager.transaction() as t:
        t.execute(CHANGE, ["X", 1])
        raise KeyError


def conflict(manager):
    first, second = manager.begin(), manager.begin()
    for t in (first, second):
        t.execute(CHANGE, ["Y", 1])
    first.commit()
    with contextlib.suppress(skewguard.SerializationFailure):
        second.commit()


def forgotten(manager):
    manager.begin()


def whole(manager):
    manager.report()
    manager.checkpoint()


def another_manager(_):
    with opened() as manager:
        block(manager)


def traced(_):
    lines = []
    with skewguard.open(DEFINITIONS, trace=lines.append) as manager:
        block(manager)


NUMBERS = iter(range(3, 10**9))
CALLS = [
    block,
    named_block,
    rows,
    by_hand,
    new_text,
    generator_of_values,
    refusals,
    left_by_an_exception,
    conflict,
    forgotten,
    whole,
    another_manager,
    traced,
]


IN_C = unittest.skipUnless(skewguard.IMPLEMENTATION == "C", "of the implementation in C")
HAS_HOOKS = unittest.skipUnless(_testcapi, "Python was installed without its own tests")


class Memory(unittest.TestCase):
    def setUp(self):
        warned = warnings.catch_warnings()
        warned.__enter__()
        self.addCleanup(warned.__exit__, None, None, None)
        warnings.simplefilter("ignore")
        for hook in ("excepthook", "unraisablehook"):  # what a trace, or a warning, raises is shown
            shown = mock.patch.object(sys, hook)
            shown.start()
            self.addCleanup(shown.stop)

    def assert_works(self, manager):
        for name in (None, "KIM"):
            with manager.transaction(session=name) as t:
                self.assertEqual(len(t.execute("SELECT * FROM P")), 2)
        manager.checkpoint()  # which is refused while a transaction is open

    def refused(self, call, manager, number):
        """Whether a call that came to its end had its n-th allocation refused, or raised."""
        _testcapi.set_nomemory(number, number + 1)
        try:
            call(manager)
            return False
        except MemoryError:
            return True
        finally:
            _testcapi.remove_mem_hooks()

    @IN_C
    @HAS_HOOKS
    def test_each_allocation_refused(self):
        for call in CALLS:
            with self.subTest(call=call.__name__), opened() as manager:
                call(manager)
                refused = [self.refused(call, manager, number) for number in range(1, 200)]
                self.assertIn(True, refused)
                self.assert_works(manager)

    @IN_C
    @HAS_HOOKS
    def test_a_manager_works_behind_each_refusal(self):
        with opened() as manager:
            for call in (block, named_block, rows, conflict):
                for number in range(1, 120):
                    with self.subTest(call=call.__name__, number=number):
                        self.refused(call, manager, number)
                        self.assert_works(manager)

    def test_nothing_is_kept(self):
        with opened() as manager:
            for call in CALLS:
                with self.subTest(call=call.__name__):
                    self.times(300, call, manager)
                    before = sys.getallocatedblocks()
                    self.times(300, call, manager)
                    self.assertLess(sys.getallocatedblocks() - before, 100)

    @IN_C
    def test_no_reference_is_kept(self):
        shared = [skewguard.Result, skewguard.Transaction, skewguard.Manager]
        if sys.version_info < (3, 12):  # from there on nobody counts the references to these
            shared += [None, True, (), 0, 1, "UPDATE", "SELECT"]
        with opened() as manager:
            for call in CALLS:
                with self.subTest(call=call.__name__):
                    self.times(300, call, manager)
                    before = [sys.getrefcount(it) for it in shared]
                    self.times(300, call, manager)
                    after = [sys.getrefcount(it) for it in shared]
                    for it, grown in zip(shared, (now - then for now, then in zip(after, before))):
                        self.assertLess(abs(grown), 280, repr(it))

    def times(self, count, call, manager):
        for _ in range(count):
            call(manager)
        gc.collect()


if __name__ == "__main__":
    unittest.main()
