"""An interrupt at any moment leaves a manager that works: Ctrl-C, or a handler that raises, as a timeout does."""

import contextlib
import itertools
import os
import random
import signal
import subprocess
import sys
import threading
import unittest
import warnings
from unittest import mock

import skewguard
from skewguard import _engine
from skewguard._layout import number_bytes
from skewguard._numbers import Operation, Status

DEFINITIONS = """
CREATE TABLE P (ID INTEGER PRIMARY KEY, N INTEGER);
CREATE ASSERTION FEW CHECK ((SELECT COUNT(*) FROM P) <= 400);
INSERT INTO P VALUES (1, 0);
"""
UPDATE = "UPDATE P SET N = N + 1 WHERE ID = ?"
INTERRUPTS = 500
SESSIONS = 256
NAMES = ["KIM", "LEE", "MAY", "S0", "S1", "S2", "S3"]

# Sends SIGINT to its parent, as often as it is asked to, at a random moment of the next milliseconds.
SENDER = """
import os, random, signal, sys, time
for line in sys.stdin:
    until = time.perf_counter() + float(line) * random.random()
    while time.perf_counter() < until:
        pass
    os.kill(os.getppid(), signal.SIGINT)
"""


def opened(**how):
    return skewguard.open(DEFINITIONS, max_commits=2**32 - 1, **how)


# -- what is interrupted, each for as long as it is let


def update_in_blocks(manager):
    while True:
        with manager.transaction() as t:
            t.execute(UPDATE, [1])


def update_in_a_named_session(manager):
    while True:
        with manager.transaction(session="KIM") as t:
            t.execute(UPDATE, [1])


def run_functions(manager):
    while True:
        manager.run(lambda t: t.execute(UPDATE, [1]))


def begin_and_end_by_hand(manager):
    while True:
        manager.begin().commit()
        manager.begin(session="LEE", read_only=True).rollback()


def open_new_sessions(manager):
    for number in itertools.count():
        held = [manager.begin(session=f"S{number % 4}"), manager.begin(), manager.begin()]
        for t in held:
            t.rollback()


def prepare_new_texts(manager):
    for number in itertools.count(random.randrange(10**9)):
        with manager.transaction() as t:
            t.execute(f"SELECT * FROM P WHERE ID = {number}")


def refuse_statements(manager):
    while True:
        with manager.transaction() as t:
            for text in ("INSERT INTO P VALUES (1, 1)", "SELECT NONE FROM P", "SELEKT"):
                with contextlib.suppress(skewguard.Error):
                    t.execute(text)


def fetch_long_replies(manager):
    while True:
        with manager.transaction() as t:
            for key in range(2, 400):
                t.execute("INSERT INTO P VALUES (?, 7)", [key])
            while len(t.execute("SELECT * FROM P")) == 399:
                pass


def forget_transactions(manager):
    while True:
        manager.begin(session="MAY")
        manager.begin()


def make_checkpoints(manager):
    while True:
        manager.checkpoint()
        manager.report()


def open_and_close(_):
    while True:
        with opened() as manager, manager.transaction() as t:
            t.execute(UPDATE, [1])


WORKS = [
    update_in_blocks,
    update_in_a_named_session,
    run_functions,
    begin_and_end_by_hand,
    open_new_sessions,
    prepare_new_texts,
    refuse_statements,
    fetch_long_replies,
    forget_transactions,
    make_checkpoints,
    open_and_close,
]


class Works(unittest.TestCase):
    """What holds of a manager that has no transaction open, whatever came before."""

    def setUp(self):
        warned = warnings.catch_warnings()
        warned.__enter__()
        self.addCleanup(warned.__exit__, None, None, None)
        warnings.simplefilter("ignore", ResourceWarning)

    def assert_works(self, manager, names=NAMES):
        for name in names:
            with manager.transaction(session=name) as t:
                self.assertEqual(t.execute(UPDATE, [1]).count, 1)
                t.rollback()
        self.assertEqual(manager.run(lambda t: t.execute("SELECT ID FROM P"))[0], (1,))
        manager.checkpoint()  # which is refused while a transaction is open

    def assert_has_all_sessions(self, manager, names=NAMES):
        """No session was lost: there are those of the names, and all the others."""
        held = [manager.begin(session=name) for name in names]
        held += [manager.begin() for _ in range(SESSIONS - len(names))]
        with self.assertRaises(skewguard.OperationalError):
            manager.begin()
        for t in held:
            t.rollback()


class Interrupts(Works):
    def setUp(self):
        super().setUp()
        before = signal.signal(signal.SIGINT, signal.default_int_handler)
        self.addCleanup(signal.signal, signal.SIGINT, before)
        self.sender = subprocess.Popen([sys.executable, "-c", SENDER], stdin=subprocess.PIPE, text=True, bufsize=1)
        self.addCleanup(self.sender.wait)
        self.addCleanup(self.sender.stdin.close)

    def interrupt(self, work, manager, within=0.003):
        """Runs a work until Ctrl-C, which comes within so many seconds."""
        try:
            self.sender.stdin.write(f"{within}\n")
            work(manager)
        except KeyboardInterrupt:
            return
        self.fail("the work came to an end")

    def test_at_any_moment(self):
        for _ in range(10):
            with opened() as manager:
                for number in range(INTERRUPTS // 10):
                    self.interrupt(WORKS[number % len(WORKS)], manager)
                    self.assert_works(manager)
                self.assert_has_all_sessions(manager)

    def test_in_the_midst_of_its_handling(self):
        """A manager works where the exception is handled, too, while its traceback has the frames that were left."""
        with opened() as manager:
            for _ in range(50):
                try:
                    self.sender.stdin.write("0.002\n")
                    update_in_a_named_session(manager)
                except KeyboardInterrupt:
                    self.assertEqual(manager.run(lambda t: t.execute(UPDATE, [1])).count, 1)
                    if skewguard.IMPLEMENTATION == "C":
                        self.assert_works(manager)
                self.assert_works(manager)

    def test_a_handler_that_raises_again_and_again(self):
        """The second exception may come while the first one is handled."""

        def timed(work, manager):
            signal.setitimer(signal.ITIMER_REAL, 0.001)
            work(manager)

        def expire(_, frame):
            while frame and frame.f_code is not timed.__code__:
                frame = frame.f_back
            if frame:
                # Each alarm sets the next, a few in all: where the machine is slow, those of an interval would ring
                # within this handler without end.
                signal.setitimer(signal.ITIMER_REAL, next(pauses, 0))
                raise TimeoutError

        before = signal.signal(signal.SIGALRM, expire)
        self.addCleanup(signal.signal, signal.SIGALRM, before)
        self.addCleanup(signal.setitimer, signal.ITIMER_REAL, 0)
        with opened() as manager:
            for number in range(200):
                pauses = iter([random.uniform(0.00002, 0.0001) for _ in range(10)])
                with contextlib.suppress(TimeoutError):
                    timed(WORKS[number % 5], manager)
                signal.setitimer(signal.ITIMER_REAL, 0)
                self.assert_works(manager)
            self.assert_has_all_sessions(manager)

    def test_as_a_forgotten_transaction_is_warned_of(self):
        def forget(manager):
            manager.begin()
            for _ in range(1000):
                manager.begin().rollback()

        with opened() as manager, mock.patch.object(warnings, "showwarning", side_effect=KeyboardInterrupt) as shown:
            warnings.simplefilter("always", ResourceWarning)
            with self.assertRaises(KeyboardInterrupt):
                forget(manager)
            shown.assert_called_once()
            self.assert_works(manager)

    def test_while_other_threads_work(self):
        """Ctrl-C stops the main thread alone, and the others go on."""
        stop, faults = threading.Event(), []

        def work():
            try:
                while not stop.is_set():
                    manager.run(lambda t: t.execute(UPDATE, [1]), retry=1000)
            except BaseException as fault:
                faults.append(fault)

        with opened() as manager:
            threads = [threading.Thread(target=work) for _ in range(3)]
            for thread in threads:
                thread.start()
            try:
                for _ in range(30):
                    self.interrupt(lambda manager: [manager.begin().rollback() for _ in iter(int, 1)], manager, 0.01)
                    manager.run(lambda t: t.execute("SELECT ID FROM P"))
            finally:
                stop.set()
                for thread in threads:
                    thread.join(30)
            self.assertEqual((faults, [thread.is_alive() for thread in threads]), ([], [False] * 3))
            self.assert_works(manager)


class Interrupter:
    """Raises KeyboardInterrupt before the n-th instruction that Python runs in the package, and once more after it."""

    def __init__(self, places):
        self.places = list(places)
        self.seen = 0

    def __call__(self, frame, event, _):
        if event != "call" or not frame.f_globals.get("__name__", "").startswith("skewguard"):
            return None
        frame.f_trace_opcodes, frame.f_trace_lines = True, False
        return self.count

    def count(self, _, event, __):
        if event == "opcode":
            self.seen += 1
            if self.places and self.seen == self.places[0]:
                del self.places[0]
                if not self.places:
                    sys.settrace(None)
                raise KeyboardInterrupt
        return self.count

    def run(self, work, *arguments):
        """Whether the work was interrupted."""
        before = sys.gettrace()
        sys.settrace(self)
        try:
            work(*arguments)
        except KeyboardInterrupt:
            return True
        finally:
            sys.settrace(before)
        return False


# -- what is interrupted at each instruction


def block(manager):
    with manager.transaction(session="KIM") as t:
        t.execute(UPDATE, [1])


def block_that_is_left(manager):
    with contextlib.suppress(ZeroDivisionError), manager.transaction() as t:
        t.execute(f"SELECT * FROM P WHERE ID = {next(NUMBERS)}")
        1 / 0


def by_hand(manager):
    manager.begin().commit()
    manager.begin().rollback()


def refused(manager):
    with manager.transaction(session="KIM") as t:
        with contextlib.suppress(skewguard.Error):
            manager.begin(session="KIM")
        with contextlib.suppress(skewguard.Error):
            t.execute("INSERT INTO P VALUES (1, 1)")


def forgotten(manager):
    manager.begin()
    manager.checkpoint()


NUMBERS = itertools.count(1)


class EachInstruction(Works):
    """An interrupt before each single instruction of the package's Python."""

    def each_place(self, work):
        with opened() as manager:
            for _ in range(2):  # the first time there is more to do, and some versions of Python show nothing of it
                counter = Interrupter([])
                counter.run(work, manager)
        return range(1, counter.seen + 1)

    def test_one(self):
        with opened() as manager:
            for work in (block, block_that_is_left, by_hand, refused, forgotten):
                for place in self.each_place(work):
                    with self.subTest(work=work, place=place):
                        Interrupter([place]).run(work, manager)
                        self.assert_works(manager, ["KIM"])
            self.assert_has_all_sessions(manager, ["KIM"])

    def test_two(self):
        """The second one comes a few instructions behind the first, where that one is handled."""
        chance = random.Random(1)
        with opened() as manager:
            for work in (block, block_that_is_left, by_hand, refused, forgotten):
                for place in chance.choices(self.each_place(work), k=60):
                    with self.subTest(work=work, place=place):
                        Interrupter([place, place + chance.randint(1, 30)]).run(work, manager)
                        self.assert_works(manager, ["KIM"])
            self.assert_has_all_sessions(manager, ["KIM"])

    def test_new_sessions(self):
        """A session that was opened is known, and there are as many as before."""
        places = self.each_place(lambda manager: manager.begin(session=f"N{next(NUMBERS)}").rollback())
        for start in places[::SESSIONS]:
            with opened() as manager:
                names = [f"N{number}" for number in range(SESSIONS)]
                for place, name in enumerate(names, start):
                    Interrupter([place]).run(lambda name=name: manager.begin(session=name).rollback())
                self.assert_has_all_sessions(manager, names)

    def test_new_sessions_of_the_pool(self):
        places = self.each_place(lambda manager: [manager.begin(), manager.begin()][0].commit())
        for start in places[::200]:
            with opened() as manager:
                held = []
                for place in range(start, start + 200):
                    Interrupter([place]).run(manager.begin)
                    held.append(manager.begin())
                held += [manager.begin() for _ in range(SESSIONS - len(held))]
                with self.assertRaises(skewguard.OperationalError):
                    manager.begin()
                for t in held:
                    t.rollback()
                self.assert_works(manager, [None])

    def test_sessions_that_make_room(self):
        """A session that is closed for another one is known to be, and there are as many as before."""

        def use(manager):
            manager.begin(session=f"NEW{next(NUMBERS)}").rollback()

        with opened() as manager:
            for number in range(SESSIONS):
                manager.begin(session=f"USER{number}").rollback()
            counter = Interrupter([])
            counter.run(use, manager)
            for place in range(1, counter.seen + 1):
                with self.subTest(place=place):
                    Interrupter([place]).run(use, manager)
                    self.assert_works(manager)
            self.assert_has_all_sessions(manager)

    @unittest.skipIf(skewguard.IMPLEMENTATION == "C", "in C a call is not cut short")
    def test_new_texts(self):
        """The library has those statements that are kept, and no other."""

        def use(manager):
            with manager.transaction() as t:
                t.execute("SELECT N FROM P")
                t.execute(f"SELECT * FROM P WHERE ID = {next(NUMBERS)}")

        with mock.patch.object(_engine, "STATEMENTS", 1), opened() as manager:
            for place in self.each_place(use):
                with self.subTest(place=place):
                    Interrupter([place]).run(use, manager)
                    use(manager)
                    self.assertEqual(self.statements_of(manager), self.kept_by(manager))

    def kept_by(self, manager):
        return [int.from_bytes(kept.number, "little") for kept in manager._statements.values()]

    def statements_of(self, manager):
        """Those of the last numbers of statements that the library knows."""
        session, (last,) = number_bytes(1), self.kept_by(manager)
        requests = {it: session + number_bytes(it) + number_bytes(0) for it in range(max(1, last - 20), last + 1)}
        answers = {it: manager._answered(Operation.RUN, request)[0] for it, request in requests.items()}
        return [it for it, status in answers.items() if status != Status.NO_STATEMENT]

    @unittest.skipIf(skewguard.IMPLEMENTATION == "C", "in C a call is not cut short")
    def test_a_transaction_that_ended_unnoticed(self):
        """As where one interrupt came behind a COMMIT, and another one before that was noted."""
        with opened() as manager:
            stale = manager.begin(session="KIM")
            stale.execute(UPDATE, [1])
            manager._answered(Operation.COMMIT, stale._seat.session.number)
            with manager.transaction(session="KIM") as t:
                with self.assertRaisesRegex(skewguard.InterfaceError, "the transaction was"):
                    stale.execute(UPDATE, [1])
                self.assertEqual(t.execute(UPDATE, [1]).count, 1)
            self.assertEqual((t.snapshot, t.number), (1, 2))

    def test_opening(self):
        for place in self.each_place(lambda _: opened().close()):
            with self.subTest(place=place):
                Interrupter([place]).run(lambda: opened().close())
        with opened() as manager:
            self.assert_works(manager)


if __name__ == "__main__":
    unittest.main()
