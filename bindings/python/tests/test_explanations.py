"""Where in its text a fault lies, as the text of an error goes on."""

import pickle
import unittest

import skewguard

DEFINITIONS = """
CREATE TABLE ACCOUNT (ID INTEGER PRIMARY KEY, OWNER VARCHAR(10), BAL INTEGER NOT NULL);
CREATE ASSERTION COVERED CHECK ((SELECT SUM(BAL) FROM ACCOUNT) >= 0) DEFERRABLE; -- the rows follow
INSERT INTO ACCOUNT VALUES (1, 'Žofie', 5);
"""


class ExplanationTest(unittest.TestCase):
    def setUp(self):
        self.manager = skewguard.open(DEFINITIONS)
        self.addCleanup(self.manager.close)

    def error(self, call, *arguments):
        with self.assertRaises(skewguard.Error) as caught:
            call(*arguments)
        return caught.exception

    def refused(self, sql, values=()):
        """What a statement raises, run alone, in a list, and in a call for a whole transaction."""
        with self.manager.transaction() as t:
            error = self.error(t.execute, sql, values)
            self.assertEqual(str(self.error(t.run_all, sql, [values])), str(error))
            t.rollback()
        self.assertEqual(str(self.error(self.manager.run_transaction, [(sql, values)])), str(error))
        return error

    def test_syntax(self):
        error = self.refused("SELECT *\nFROM ACCOUNT\nORDER BY BAL")
        # (ORDER may be the name that the table goes by)
        self.assertEqual((error.number, error.line, error.column), (2, 3, 7))
        self.assertEqual(str(error).splitlines()[0], "syntax error at line 3, column 7")
        shown = ["  --> statement:3:7", "   |", " 3 | ORDER BY BAL", "   |       ^^"]
        self.assertEqual(str(error).splitlines()[2:6], shown)
        self.assertIn("There is no ORDER BY.", error.explanation)

    def test_second_statement(self):
        error = self.refused("DELETE FROM ACCOUNT; DELETE FROM ACCOUNT;")
        self.assertIn("a statement ends at its `;`", error.explanation)
        self.assertIn(" 1 | DELETE FROM ACCOUNT; DELETE FROM ACCOUNT;\n   |                    ^\n", error.explanation)

    def test_names_and_types(self):
        error = self.refused("UPDATE ACCOUNT SET BALANCE = ? WHERE OWNER = 'Žofie'", [1])
        self.assertEqual((error.number, error.names), (3, ("BALANCE",)))
        self.assertIn("   |                    ^^^^^^^\n", error.explanation)
        self.assertIn("   |                          ^^^\n", self.refused("UPDATE ACCOUNT SET BAL = 'x'").explanation)

    def test_values_are_not_of_the_text(self):
        error = self.refused("UPDATE ACCOUNT SET BAL = ?", ["x"])
        self.assertEqual((error.number, error.explanation), (5, ""))
        error = self.refused("INSERT INTO ACCOUNT VALUES (?, ?, ?)", [1, "LEE", 0])
        self.assertEqual((error.number, error.explanation), (7, ""))

    def test_definitions_and_rules(self):
        outside = "CREATE ASSERTION SOME CHECK (EXISTS (SELECT * FROM ACCOUNT A WHERE BAL > ID));"
        error = self.error(skewguard.open, DEFINITIONS + outside)
        self.assertEqual(error.number, 20)
        self.assertIn("  --> definitions:5:", error.explanation)
        error = self.error(self.manager.checkpoint, outside)
        self.assertEqual(error.number, 20)
        self.assertIn("  --> rules:1:", error.explanation)
        false = self.error(skewguard.open, DEFINITIONS.replace("'Žofie', 5", "'Žofie', -5"))
        self.assertIsInstance(false, skewguard.RuleViolated)
        self.assertIn("COVERED", false.explanation)

    def test_errors_are_pickled_with_it(self):
        error = self.refused("SELEKT")
        self.assertEqual(str(pickle.loads(pickle.dumps(error))), str(error))
        self.assertEqual(str(pickle.loads(pickle.dumps(self.refused("SELEKT")))), str(error))


if __name__ == "__main__":
    unittest.main()
