"""Transactions in `async with` blocks: threads make the calls, and the loop goes on."""

import asyncio
import gc
import threading
import time
import unittest

import skewguard

import faulty  # noqa: F401  # by which the library is loaded

DEFINITIONS = """
CREATE TABLE P (ID INTEGER PRIMARY KEY, N INTEGER);
CREATE ASSERTION FEW CHECK ((SELECT SUM(N) FROM P) <= 1000) DEFERRABLE;
INSERT INTO P VALUES (1, 0);
INSERT INTO P VALUES (2, 0);
"""
ADD = "UPDATE P SET N = N + ? WHERE ID = ?"


class Async(unittest.IsolatedAsyncioTestCase):
    def setUp(self):
        self.pause = 0
        self.pauses = 0
        self.during = lambda: None
        self.manager = skewguard.open(DEFINITIONS, trace=self.wait)
        self.addCleanup(self.manager.close)

    def wait(self, line):
        """Has each call take so long."""
        self.pauses += self.pause > 0
        time.sleep(self.pause)
        self.during()

    def numbers(self):
        with self.manager.transaction(read_only=True) as t:
            return [row.N for row in t.execute("SELECT N FROM P")]

    async def test_a_block_commits(self):
        async with self.manager.transaction() as t:
            self.assertEqual((t.snapshot, t.number), (0, None))
            self.assertEqual((await t.execute(ADD, [5, 1])).count, 1)
            self.assertEqual((await t.execute("SELECT N FROM P WHERE ID = :id", {"id": 1})).scalar(), 5)
            self.assertIs(await t.verdict("FEW"), True)
            self.assertEqual(repr(t), "<skewguard.AsyncTransaction open, on 0 commits>")
        self.assertEqual((t.number, self.numbers()), (1, [5, 0]))
        with self.assertRaisesRegex(skewguard.InterfaceError, "has committed"):
            await t.execute(ADD, [1, 1])

    async def test_an_exception_rolls_back(self):
        with self.assertRaises(ZeroDivisionError):
            async with self.manager.transaction() as t:
                await t.execute(ADD, [5, 1])
                1 / 0
        with self.assertRaises(skewguard.RuleViolated):
            async with self.manager.transaction() as t:
                await t.set_constraints("FEW", deferred=True)
                await t.execute(ADD, [2000, 1])
        self.assertEqual(self.numbers(), [0, 0])

    async def test_commit_and_rollback_in_the_block(self):
        async with self.manager.transaction(session="KIM") as t:
            await t.execute(ADD, [5, 1])
            self.assertEqual(await t.commit(), 1)
        async with self.manager.transaction(read_only=True) as t:
            with self.assertRaises(skewguard.ProgrammingError):
                await t.execute(ADD, [5, 1])
            await t.rollback()
        self.assertIn("1 KIM SNAPSHOT 0", self.manager.report())

    async def test_a_block_is_entered_once(self):
        with self.assertRaisesRegex(TypeError, "Manager.run"):
            async with self.manager.transaction(retry=3):
                self.fail("the block was run")
        transaction = self.manager.transaction()
        async with transaction:
            with self.assertRaises(skewguard.InterfaceError):
                async with transaction:
                    self.fail("the block was run")

    async def test_tasks_take_turns(self):
        async def add(number):
            for _ in range(5):
                while True:
                    try:
                        async with self.manager.transaction() as t:
                            await t.execute(ADD, [number, 1])
                        break
                    except skewguard.SerializationFailure:
                        continue

        await asyncio.gather(*map(add, range(8)))
        self.assertEqual(self.numbers(), [5 * sum(range(8)), 0])

    async def test_the_loop_goes_on(self):
        """Each call waits until the loop has had a turn."""
        loop, turns = asyncio.get_running_loop(), []

        def during():
            turn = threading.Event()
            loop.call_soon_threadsafe(turn.set)
            turns.append(turn.wait(30))

        self.during = during
        async with self.manager.transaction() as t:
            await t.execute(ADD, [1, 1])
        self.assertEqual(turns, [True] * 3)

    async def cancelled(self, work):
        """Runs a task that is cancelled in its first call that takes long, and once more at once."""
        task = asyncio.create_task(work())
        while not self.pauses:
            await asyncio.sleep(0.001)
        task.cancel()
        await asyncio.sleep(0)
        task.cancel()
        with self.assertRaises(asyncio.CancelledError):
            await task
        self.pause = 0
        del task
        gc.collect()
        self.manager.checkpoint()  # which is refused while a transaction is open

    async def test_a_task_that_is_cancelled_in_a_statement(self):
        async def work():
            async with self.manager.transaction() as t:
                self.pause = 0.1
                await t.execute(ADD, [5, 1])
                self.fail("it went on")

        await self.cancelled(work)
        self.assertEqual(self.numbers(), [0, 0])

    async def test_a_task_that_is_cancelled_as_it_begins(self):
        async def work():
            self.pause = 0.1
            async with self.manager.transaction(session="KIM"):
                self.fail("the block was run")

        await self.cancelled(work)
        self.manager.begin(session="KIM").rollback()

    async def test_a_task_that_is_cancelled_as_it_commits(self):
        async def work():
            async with self.manager.transaction() as t:
                await t.execute(ADD, [5, 1])
                self.pause = 0.1

        await self.cancelled(work)
        self.assertEqual(self.numbers(), [5, 0])

    async def test_functions_with_retries_run_in_a_thread(self):
        self.assertEqual((await asyncio.to_thread(self.manager.run, lambda t: t.execute(ADD, [5, 2]))).count, 1)
        self.assertEqual(self.numbers(), [0, 5])


if __name__ == "__main__":
    unittest.main()
