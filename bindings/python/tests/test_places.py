"""A value stands at each place of a statement where a constant may: it is answered as the text with the constant is."""

from __future__ import annotations

import itertools
import unittest

import skewguard

DEFINITIONS = """
CREATE TABLE T (ID INTEGER PRIMARY KEY, A INTEGER, B INTEGER, C INTEGER, D VARCHAR(10), E VARCHAR(10));
CREATE TABLE U (ID INTEGER PRIMARY KEY, A INTEGER, B INTEGER, C INTEGER);
""" + "".join(f"INSERT INTO T VALUES ({key}, {key % 3}, {key - 4}, NULL, 'it''s ?', '?');" for key in range(1, 9))

# Parameters at each place of the grammar where a constant may stand. What a WHERE of a statement may not have, as a
# query, is refused in both forms.
PLACES = (
    "INSERT INTO T VALUES (?, 7, ?, NULL, 'a?', NULL)",
    "insert into U (ID, A) values (?,?)",
    "INSERT INTO U (ID, A, B) VALUES (-7, ?, 1), (?, NULL, ?), (-8, -2, ?)",
    "UPDATE T SET A = ?, B = B - ?, C = ? * 2 + ? WHERE ID = ?",
    "UPDATE T SET A = NULL, B = -(?) WHERE A IS NULL",
    "UPDATE T SET D = ?, E = (?) WHERE ID = 3",
    "DELETE FROM T WHERE ? = A AND NOT (B < ? OR B >= ?)",
    "DELETE FROM T WHERE (A + ?) * (? - B) <> - A * ?",
    "SELECT * FROM T WHERE A BETWEEN ? AND ? AND B NOT BETWEEN ?AND ?",
    "SELECT A, B FROM T WHERE A IN (?, ?, B - ?) OR (? = 1) IS NOT TRUE",
    "SELECT A FROM T WHERE ? IS NULL OR A + ? IS NOT NULL",
    "SELECT A FROM T WHERE EXISTS (SELECT ? FROM U X WHERE X.A = ? GROUP BY X.B HAVING SUM(DISTINCT X.C) > ?)",
    "SELECT A FROM T WHERE (SELECT MAX(A) + ? FROM U WHERE B = ?) <= ? - 1",
    "DELETE FROM T WHERE D = 'it''s ?' OR A = ? -- ?",
    "DELETE FROM T WHERE A = (SELECT COUNT(*)-? FROM U) + 3 - ? + - 4",
    "SELECT A FROM T WHERE A+?=?*?-?",
    "SELECT ID FROM T WHERE D >= ? AND E IN (?, '?')",
)
NUMBERS = 0, 1, -1, 25, 10**15, -(10**15)
TEXTS = "it's", "", "? -- 0", "'"


def pieces_of(text: str) -> list[str]:
    """What stands round the parameters: each `?` that is in no quoted text, and in no comment."""
    pieces, is_quoted = [""], False
    code, dashes, comment = text.partition(" -- ")
    for character in code:
        is_quoted ^= character == "'"
        if character == "?" and not is_quoted:
            pieces.append("")
        else:
            pieces[-1] += character
    pieces[-1] += dashes + comment
    return pieces


def literal(value: int | str) -> str:
    """A constant, behind a blank: two minus signs would begin a comment."""
    return f" {value}" if isinstance(value, int) else " '" + value.replace("'", "''") + "'"


def written(text: str, values: list[int] | list[str]) -> str:
    """The text with the constants written in it."""
    pieces = pieces_of(text)
    return pieces[0] + "".join(literal(value) + piece for value, piece in zip(values, pieces[1:]))


class Places(unittest.TestCase):
    def outcome(self, text: str, *values: list[int] | list[str]) -> tuple[object, ...]:
        """What a statement is answered, and the rows behind it; then all is rolled back."""
        with self.manager.transaction() as t:
            try:
                result = t.execute(text, *values)
                told = result.count, list(map(tuple, result))
            except skewguard.Error as error:
                told = type(error), error.report
            rows = [list(map(tuple, t.execute(f"SELECT * FROM {table}"))) for table in "TU"]
            t.rollback()
        return *told, rows

    def test_a_value_stands_at_each_place(self) -> None:
        self.manager = skewguard.open(DEFINITIONS)
        self.addCleanup(self.manager.close)
        answered = 0
        for text in PLACES:
            count = len(pieces_of(text)) - 1
            numbers = [[first // 3**at - at for at in range(count)] for first in NUMBERS]
            for values in (*numbers, list(itertools.islice(itertools.cycle(TEXTS), count))):
                found = self.outcome(text, values)
                self.assertEqual(found, self.outcome(written(text, values)), (text, values))
                answered += isinstance(found[0], int)
        self.assertGreater(answered, 65)  # the others are refused in both forms: a type, a query, a number too great
