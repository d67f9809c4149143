"""The worked rows, through the package: each a test of the row's name, by the bytes of the report's lines."""

import unittest

import skewguard
from rows import Row, read_rows, split_replies

ROWS = read_rows()
LEFT_OPEN = "ROLLBACK AT END"


class Rows(unittest.TestCase):
    """A test for each row is added below."""

    def refused_definitions(self, row: Row) -> None:
        with self.assertRaises(skewguard.Error) as caught:
            skewguard.open(row.definitions, max_commits=row.max_commits)
        self.assertEqual(caught.exception.report, row.refused)

    def refused_text(self, row: Row) -> None:
        """A text that breaks off. The row has its offset in a script; a program's text is one statement alone."""
        *events, last = row.events
        told = []
        with skewguard.open(row.definitions, trace=told.append) as manager:
            transactions = {}
            for event in events:
                self.run_event(manager, transactions, event)
            before = len(told)
            with self.assertRaises(skewguard.ProgrammingError) as caught:
                transactions[last.session].execute(last.text)
            self.assertEqual((caught.exception.number, len(told)), (2, before))
            self.assertEqual((caught.exception.line, caught.exception.column), (1, last.text.index("'") + 1))

    def run_event(self, manager, transactions, event) -> None:
        """Runs an event in its session. What is refused is told by the trace."""
        try:
            if event.text.startswith("BEGIN"):
                read_only = event.text.endswith("READ ONLY")
                transactions[event.session] = manager.begin(session=event.session, read_only=read_only)
            elif event.text == "COMMIT":
                transactions[event.session].commit()
            elif event.text == "ROLLBACK":
                transactions[event.session].rollback()
            else:
                transactions[event.session].execute(event.text)
        except skewguard.InterfaceError:
            raise
        except skewguard.Error:
            pass

    def answered(self, row: Row) -> None:
        told, transactions = [], {}
        wanted = split_replies(row.lines)
        with skewguard.open(row.definitions, max_commits=row.max_commits, trace=told.append) as manager:
            for event in row.events:
                if wanted[len(told)][0] == f"{event.session}: REFUSED 14 - NO TRANSACTION":
                    # The package knows that the transaction has ended, and the manager is not asked.
                    with self.assertRaises(skewguard.InterfaceError):
                        self.run_event(manager, transactions, event)
                    told.append(wanted[len(told)][0])
                else:
                    self.run_event(manager, transactions, event)
            for (line,) in wanted[len(row.events) :]:
                session, _, ending = line.partition(": ")
                self.assertEqual(ending, LEFT_OPEN)
                told.append(f"{session}: {LEFT_OPEN}")
                transactions[session].rollback()
                self.assertEqual(told.pop(), f"{session}: ROLLBACK")
            self.assertEqual(told, ["\n".join(reply) for reply in wanted])
            if row.closing:
                self.assertEqual(manager.report(), "".join(f"{line}\n" for line in row.closing))


def _add_tests() -> None:
    for name, row in ROWS.items():
        if row.refused.startswith("DEFS"):
            check = Rows.refused_definitions
        else:
            check = Rows.refused_text if row.refused else Rows.answered
        setattr(Rows, f"test_{name}", lambda self, check=check, row=row: check(self, row))


_add_tests()


class All(unittest.TestCase):
    def test_all_rows_are_read(self):
        self.assertEqual(len(ROWS), 37)


if __name__ == "__main__":
    unittest.main()
