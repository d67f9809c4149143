"""A journal: what is committed outlives the process, and what stands in the place of one is refused."""

import os
import random
import resource
import signal
import subprocess
import sys
import tempfile
import threading
import unittest
from contextlib import contextmanager
from pathlib import Path

import skewguard
from skewguard import dbapi
from skewguard._implementation import native

LEDGER = """
CREATE TABLE ENTRY (ID INTEGER PRIMARY KEY, OWNER VARCHAR(10), AMOUNT INTEGER NOT NULL);
CREATE ASSERTION COVERED CHECK (NOT EXISTS (SELECT OWNER FROM ENTRY GROUP BY OWNER HAVING SUM(AMOUNT) < 0));
INSERT INTO ENTRY VALUES (1000, 'Žofie', 5);
"""
INSERT = "INSERT INTO ENTRY VALUES (?, ?, ?)"
ROUNDS = 25
ROWS = 100
THREADS = 8

# Commits one row after the other, and prints the number of each once its commit is answered. After so many bytes of
# commits, the second word, comes a checkpoint, and after 50 commits a new epoch.
WRITER = f"""
import sys
import skewguard

manager = skewguard.open({LEDGER!r}, journal=sys.argv[1], checkpoint_bytes=int(sys.argv[2]), max_commits=60)
first = len(manager.run(lambda t: t.execute("SELECT * FROM ENTRY WHERE OWNER = 'KIM'")))
for number in range(first, first + 100_000):
    manager.run(lambda t: t.execute({INSERT!r}, [2_000 + number, "KIM", 1]))
    if number % 50 == 0:
        manager.checkpoint()
    sys.stdout.write(f"{{number}}\\n")
    sys.stdout.flush()
"""


def rows(manager):
    return [tuple(row) for row in manager.run(lambda t: t.execute("SELECT * FROM ENTRY"))]


def insert(manager, number, owner="KIM", amount=1):
    return manager.run(lambda t: t.execute(INSERT, [number, owner, amount]))


@contextmanager
def full_disk(size):
    """No file grows past a size: a write past it fails, as on a full disk."""
    before = resource.getrlimit(resource.RLIMIT_FSIZE)
    at_limit = signal.signal(signal.SIGXFSZ, signal.SIG_IGN)
    resource.setrlimit(resource.RLIMIT_FSIZE, (size, before[1]))
    try:
        yield
    finally:
        resource.setrlimit(resource.RLIMIT_FSIZE, before)
        signal.signal(signal.SIGXFSZ, at_limit)


class JournalTest(unittest.TestCase):
    def setUp(self):
        folder = tempfile.TemporaryDirectory()
        self.addCleanup(folder.cleanup)
        self.path = Path(folder.name) / "ledger.journal"

    @contextmanager
    def fault(self, **fields):
        """That opening it is refused with a JournalError that has these fields."""
        with self.assertRaises(skewguard.JournalError) as caught:
            skewguard.open(LEDGER, journal=self.path)
        self.assertEqual(caught.exception.path, str(self.path))
        self.assertTrue(str(caught.exception).startswith(f"{self.path}: "), caught.exception)
        for name, value in fields.items():
            self.assertEqual(getattr(caught.exception, name), value, caught.exception)
        yield caught.exception

    def test_what_is_committed_is_there_again(self):
        with skewguard.open(LEDGER, journal=str(self.path)) as manager:
            insert(manager, 1)
            lost = manager.begin()
            lost.execute(INSERT, [2, "KIM", 1])
            with self.assertRaises(skewguard.RuleViolated):
                insert(manager, 3, "LEE", -1)
        with skewguard.open(LEDGER, journal=self.path) as manager:
            self.assertEqual(rows(manager), [(1, "KIM", 1), (1000, "Žofie", 5)])
            number, _ = manager.run_transaction([(INSERT, (2, "KIM", 1)), ("DELETE FROM ENTRY WHERE ID = ?", (1000,))])
            self.assertEqual(number, 2)  # behind the read of its own
        with skewguard.open(LEDGER, journal=self.path) as manager:
            self.assertEqual(rows(manager), [(1, "KIM", 1), (2, "KIM", 1)])

    def test_connections_keep_one(self):
        with dbapi.connect(LEDGER, journal=self.path) as connection:
            connection.cursor().execute(INSERT, (7, "KIM", 2))
        connection.close()
        connection = dbapi.connect(LEDGER, journal=self.path)
        found = connection.cursor().execute("SELECT * FROM ENTRY WHERE ID = 7").fetchall()
        self.assertEqual([tuple(row) for row in found], [(7, "KIM", 2)])
        connection.close()

    def test_kill(self):
        """However it ends, as many rows are there as were answered, or the one more that was being committed."""
        kept = 0
        chance = random.Random(58)
        for turn in range(ROUNDS):
            words = [sys.executable, "-c", WRITER, str(self.path), str((0, 100, 2**24)[turn % 3])]
            writer = subprocess.Popen(words, stdout=subprocess.PIPE, text=True)
            try:
                told = [writer.stdout.readline() for _ in range(chance.randrange(1, 80))]
            finally:
                writer.send_signal(signal.SIGKILL)
                told += writer.communicate()[0].splitlines(keepends=True)
            answered = kept + sum(line.endswith("\n") for line in told)
            with skewguard.open(LEDGER, journal=self.path) as manager:
                kept = sum(owner == "KIM" for _, owner, _ in rows(manager))
            self.assertIn(kept, (answered, answered + 1))

    def test_full_disk(self):
        """Nothing is answered behind a write that failed, and nothing that was answered is lost."""
        with skewguard.open(LEDGER, journal=self.path) as manager:
            with full_disk(self.path.stat().st_size):
                answered = 0
                with self.assertRaises(skewguard.JournalError) as caught:
                    for first in range(2_000, 10**9, ROWS):
                        steps = [(INSERT, (first + row, "x" * 10, 1)) for row in range(ROWS)]
                        manager.run_transaction(steps)
                        answered += ROWS
            self.assertIsNotNone(caught.exception.errno)
            self.assertGreater(answered, 10 * ROWS)
            for call in (manager.begin, manager.report, lambda: insert(manager, 5)):
                with self.assertRaises(skewguard.JournalError):
                    call()
        with skewguard.open(LEDGER, journal=self.path) as manager:
            self.assertIn(len(rows(manager)) - 1, (answered, answered + ROWS))

    def test_checkpoint(self):
        """The file is short, and the epoch a new one; the rules stay as they are."""
        with skewguard.open(LEDGER, journal=self.path, max_commits=3) as manager:
            for number in range(3):
                insert(manager, number)
            with self.assertRaises(skewguard.EpochFull):
                insert(manager, 3)
            self.assertGreater(self.path.stat().st_size, 2**20)
            self.assertEqual(manager.checkpoint().splitlines()[0], "COMMITS 3")
            self.assertLess(self.path.stat().st_size, 2**10)
            insert(manager, 3)
            more = "CREATE ASSERTION MORE CHECK ((SELECT COUNT(*) FROM ENTRY) >= 0);"
            for change in ({"create": more}, {"drop": ["COVERED"]}):
                with self.assertRaises(skewguard.OperationalError) as caught:
                    manager.checkpoint(**change)
                self.assertIn("can't be changed while it is open", str(caught.exception))
        with skewguard.open(LEDGER, journal=self.path) as manager:
            self.assertEqual(len(rows(manager)), 5)

    def test_checkpoint_beside_a_transaction(self):
        """It makes the file short, the epoch goes on, and so does the transaction."""
        with skewguard.open(LEDGER, journal=self.path) as manager:
            insert(manager, 1)
            with manager.transaction() as t:
                t.execute(INSERT, [2, "KIM", 1])
                with self.assertRaises(skewguard.ProgrammingError) as caught:
                    manager.checkpoint()
                self.assertEqual(caught.exception.number, 15)
                self.assertLess(self.path.stat().st_size, 2**10)
        with skewguard.open(LEDGER, journal=self.path) as manager:
            self.assertEqual(len(rows(manager)), 3)

    def test_checkpoints_by_themselves(self):
        with skewguard.open(LEDGER, journal=self.path, checkpoint_bytes=100) as manager:
            with manager.transaction() as t:
                t.execute(INSERT, [0, "KIM", 1])
                for number in range(1, 60):
                    insert(manager, number % 5 + 1, "LEE")
                    manager.run(lambda t: t.execute("DELETE FROM ENTRY WHERE OWNER = 'LEE'"))
        self.assertLess(len(self.lines()), 10)
        for wrong in (-1, 2**62):
            with self.assertRaises(ValueError):
                skewguard.open(LEDGER, journal=self.path, checkpoint_bytes=wrong)
        for wrong in ("1", 1.0, True):
            with self.assertRaises(TypeError):
                skewguard.open(LEDGER, journal=self.path, checkpoint_bytes=wrong)
        with skewguard.open(LEDGER, journal=self.path, checkpoint_bytes=0) as manager:
            self.assertEqual(rows(manager), [(0, "KIM", 1), (1000, "Žofie", 5)])

    def test_checkpoint_on_a_full_disk(self):
        """None is made then, and the manager goes on."""
        with skewguard.open(LEDGER, journal=self.path) as manager:
            for number in range(30):
                insert(manager, number)
            with full_disk(100), self.assertRaises(skewguard.JournalError) as caught:
                manager.checkpoint()
            self.assertEqual(caught.exception.errno, 27)
            insert(manager, 30)
        self.assertEqual(os.listdir(self.path.parent), [self.path.name])
        with skewguard.open(LEDGER, journal=self.path) as manager:
            self.assertEqual(len(rows(manager)), 32)

    def test_checkpoint_from_another_folder(self):
        """The file is the one in the folder in which it was opened."""
        before = os.getcwd()
        os.chdir(self.path.parent)
        try:
            manager = skewguard.open(LEDGER, journal=self.path.name)
            os.chdir(before)
            insert(manager, 1)
            manager.checkpoint()
            manager.close()
        finally:
            os.chdir(before)
        self.assertLess(self.path.stat().st_size, 2**10)

    def insert_from_threads(self, manager):
        """Threads commit side by side, up to the first error of each: the rows that were acknowledged, and errors."""
        acknowledged, errors = [], []

        def work(first):
            for number in range(first, 1000, THREADS):
                try:
                    insert(manager, number, f"T{first}")
                except skewguard.Error as error:
                    errors.append(error)
                    return
                acknowledged.append(number)

        threads = [threading.Thread(target=work, args=(first,)) for first in range(THREADS)]
        for thread in threads:
            thread.start()
        for thread in threads:
            thread.join()
        return acknowledged, errors

    def lines(self):
        """The number of each entry, and of the last that was on the disk when it was written."""
        fields = [line.split(b"\t") for line in self.path.read_bytes().rstrip(b"\0").split(b"\n")[1:] if line]
        return [(int(line[0]), int(line[1])) for line in fields]

    def test_threads_keep_what_is_acknowledged(self):
        with skewguard.open(LEDGER, journal=self.path) as manager:
            acknowledged, errors = self.insert_from_threads(manager)
            self.assertEqual(errors, [])
        self.assertTrue(all(number - durable >= 1 for number, durable in self.lines()[1:]))
        with skewguard.open(LEDGER, journal=self.path) as manager:
            self.assertLessEqual(set(acknowledged), {row[0] for row in rows(manager)})

    def test_checkpoints_under_threads(self):
        with skewguard.open(LEDGER, journal=self.path, checkpoint_bytes=1) as manager:
            stop = threading.Event()

            def ask():
                while not stop.is_set():
                    try:
                        manager.checkpoint()
                    except skewguard.ProgrammingError:
                        pass  # a transaction is open

            asking = threading.Thread(target=ask)
            asking.start()
            try:
                acknowledged, errors = self.insert_from_threads(manager)
            finally:
                stop.set()
                asking.join()
            self.assertEqual(errors, [])
        with skewguard.open(LEDGER, journal=self.path) as manager:
            self.assertLessEqual(set(acknowledged), {row[0] for row in rows(manager)})

    @unittest.skipUnless(native, "over ctypes each call syncs by itself")
    def test_threads_share_syncs(self):
        for _ in range(10):  # whether they meet is chance
            with skewguard.open(LEDGER, journal=self.path) as manager:
                self.insert_from_threads(manager)
            if any(number - durable > 1 for number, durable in self.lines()):
                return
            self.path.unlink()
        self.fail("no two commits have shared a sync")

    def test_full_disk_under_threads(self):
        with skewguard.open(LEDGER, journal=self.path) as manager:
            insert(manager, 2000)
            # (so few bytes that no thread has room for all its rows, even where it is alone)
            with full_disk(self.path.stat().st_size - (1 << 20) + 4000):
                acknowledged, errors = self.insert_from_threads(manager)
                with self.assertRaises(skewguard.JournalError):
                    insert(manager, 2001)
        self.assertEqual(len(errors), THREADS)
        self.assertTrue(all(isinstance(error, skewguard.JournalError) for error in errors), errors)
        with skewguard.open(LEDGER, journal=self.path) as manager:
            self.assertLessEqual(set(acknowledged), {row[0] for row in rows(manager)})

    def test_one_at_a_time(self):
        with skewguard.open(LEDGER, journal=self.path) as manager:
            with self.fault(errno=11) as error:
                self.assertIn("another process has the journal open", str(error))
            insert(manager, 1)
            manager.checkpoint()
            with self.fault(errno=11):
                pass
            child = os.fork()
            if not child:
                try:
                    insert(manager, 2)
                except skewguard.InterfaceError:
                    os._exit(7)
                os._exit(1)
            self.assertEqual(os.waitstatus_to_exitcode(os.waitpid(child, 0)[1]), 7)
            insert(manager, 2)
        with skewguard.open(LEDGER, journal=self.path) as manager:
            self.assertEqual(len(rows(manager)), 3)

    def test_what_is_no_journal(self):
        self.path.mkdir()
        with self.fault(errno=21):
            self.path.rmdir()
        os.mkfifo(self.path)
        with self.fault(errno=95):
            self.path.unlink()
        self.path.symlink_to("nowhere")
        with self.fault(errno=40):
            self.path.unlink()
        self.path.write_text("no journal")
        with self.fault(errno=None):
            self.assertEqual(self.path.read_text(), "no journal")
        self.path = self.path.parent / "no-folder" / "journal"
        with self.fault(errno=2):
            pass

    def test_damage_and_other_definitions(self):
        with skewguard.open(LEDGER, journal=self.path) as manager:
            for number in range(3):
                insert(manager, number)
        with self.assertRaises(skewguard.JournalError) as caught:
            skewguard.open(LEDGER.replace("VARCHAR(10)", "VARCHAR(11)"), journal=self.path)
        self.assertIn("of other definitions", str(caught.exception))
        whole = self.path.read_bytes()
        place = whole.index(b"\n2\t1\t")  # in front of the line of the second commit
        self.path.write_bytes(whole[: place + 1] + b"3" + whole[place + 2 :])
        with self.fault(commit=2, byte=place):
            self.path.write_bytes(whole)
        with skewguard.open(LEDGER, journal=self.path) as manager:
            self.assertEqual(len(rows(manager)), 4)

    def test_names_that_no_file_has(self):
        with self.assertRaises(ValueError):
            skewguard.open(LEDGER, journal="a\0b")
        with self.assertRaises(TypeError):
            skewguard.open(LEDGER, journal=7)

    def test_definitions_that_are_refused_make_no_file(self):
        with self.assertRaises(skewguard.ProgrammingError):
            skewguard.open("CREATE TABEL", journal=self.path)
        self.assertEqual(list(self.path.parent.iterdir()), [])


if __name__ == "__main__":
    unittest.main()
