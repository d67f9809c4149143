"""Each module of the package, on small programs of its own."""
from __future__ import annotations

import os
import pathlib
import signal
import subprocess
import sys
import unittest

from harness import (
    arguments, crates, journals, libraries, loads, measures, pages, programs, refusing, reports, servers, texts)

# Answers with what it is given: its words, its files, its standard input.
ECHO = """
import sys
for path in sys.argv[1:]:
    sys.stdout.buffer.write(open(path, "rb").read())
sys.stdout.buffer.write(sys.stdin.buffer.read())
sys.stderr.write("SAID")
sys.exit(3)
"""
# Asks for memory by the C library alone, three times, and answers which of them it got.
ASKS = """
#include <stdio.h>
#include <stdlib.h>
int main(void)
{
    char answers[3];
    for (int at = 0; at < 3; at++)
        answers[at] = malloc(1000 + at) ? 'y' : 'n';
    return fwrite(answers, 1, 3, stdout) != 3;
}
"""
REPORT = "A: BEGIN 0\nA: SELECT 2\n  1\n  2\nA: COMMIT 1\nCOMMITS 1\n  1\n"


class Texts(unittest.TestCase):
    def test_bytes_stay(self) -> None:
        every = bytes(range(256))
        with texts.placed(every, every.decode("latin-1")) as files:
            self.assertEqual([os.path.basename(file) for file in files], ["defs.sql", "script.sql"])
            self.assertEqual([pathlib.Path(file).read_bytes() for file in files], [every] * 2)
            self.assertEqual(texts.read(files[0]).encode("latin-1"), every)
        self.assertFalse(os.path.exists(os.path.dirname(files[0])))

    def test_characters_and_their_bytes(self) -> None:
        self.assertEqual(texts.in_bytes("\u017do"), "\xc5\xbdo")
        self.assertEqual(texts.in_characters("\xc5\xbdo"), "\u017do")
        with self.assertRaises(UnicodeDecodeError):
            texts.in_characters("\xc5")

    def test_names_and_pieces(self) -> None:
        with texts.placed("one", names=["one.sql"]) as (file,):
            self.assertTrue(file.endswith("/one.sql"))
            self.assertEqual(texts.read(texts.written(file, iter("abc"))), "abc")
            self.assertEqual(texts.read(f"{file}.not", "none"), "none")

    def test_values_and_lines(self) -> None:
        self.assertEqual([texts.literal(it) for it in (None, -7, "O'HARA")], ["NULL", "-7", "'O''HARA'"])
        self.assertEqual(texts.ended(["BEGIN", "COMMIT"]), "BEGIN;\nCOMMIT;\n")
        self.assertEqual(texts.shown("\xc5\xbdo \xc5"), "\u017do \ufffd")

    def test_folders_go_with_what_is_in_them(self) -> None:
        with texts.temporary_folder() as around, texts.temporary_folder(around) as folder:
            self.assertEqual(folder.parent, around)
            texts.write(folder / "file", "text")
        self.assertFalse(folder.exists() or around.exists())

    def test_gone_after_a_fault(self) -> None:
        with self.assertRaises(ValueError), texts.placed("") as (file,):
            raise ValueError
        self.assertFalse(os.path.exists(file))


class Programs(unittest.TestCase):
    def test_answer(self) -> None:
        words = [sys.executable, "-c", ECHO]
        self.assertEqual(programs.run(words, "\xe9"), (3, "\xe9", "SAID"))
        self.assertEqual(programs.run_on(words, b"a\r\n", "b", given=b"c"), (3, "a\r\nbc", "SAID"))

    def test_environment_and_signals(self) -> None:
        words = "sh", "-c", "echo $MORE $HOME; kill -9 $$"
        answer = programs.run(words, more={"MORE": "more"})
        self.assertEqual(answer, (-signal.SIGKILL, f"more {os.environ.get('HOME', '')}\n", ""))

    def test_memory_is_limited(self) -> None:
        room = "import mmap; mmap.mmap(-1, 1 << 30)"
        self.assertEqual(programs.run([sys.executable, "-c", room]).status, 0)
        self.assertEqual(programs.run([sys.executable, "-c", room], kib=1 << 19).status, 1)

    def test_environment_of_its_own(self) -> None:
        answer = programs.run(["/usr/bin/env"], environment={"ONE": "1"}, more={"TWO": "2"})
        self.assertEqual(sorted(answer.output.split()), ["ONE=1", "TWO=2"])

    def test_what_has_to_end_well(self) -> None:
        said = "import sys; print('\u017d'); sys.stdout.flush(); print('said', file=sys.stderr); sys.exit(%d)"
        words = [sys.executable, "-X", "utf8", "-c"]
        self.assertEqual(programs.output_of([*words, said % 0], stderr=subprocess.DEVNULL), "\u017d\n")
        self.assertEqual(programs.printed([*words, said % 0]), "\u017d\nsaid\n")
        programs.carry_out(["/bin/echo", "said"], quiet=True)
        with self.assertRaisesRegex(SystemExit, "ended with 3:\n\u017d\nsaid\n$"):
            programs.printed([*words, said % 3])
        with self.assertRaisesRegex(SystemExit, "^/bin/false ended with 1:\n$"):
            programs.carry_out(["/bin/false"])

    def test_replay_has_its_words_in_order(self) -> None:
        answer = programs.replay("/bin/echo", "d", "s", "--max-commits", 7).output.split()
        self.assertEqual([os.path.basename(word) for word in answer],
            ["replay", "--max-commits", "7", "defs.sql", "script.sql"])

    def test_terminal(self) -> None:
        reading, writing = os.pipe()
        os.write(writing, b"shown")
        os.close(writing)
        self.assertEqual([programs.from_terminal(reading) for _ in range(2)], [b"shown", b""])
        os.close(reading)
        self.assertEqual(programs.from_terminal(reading), b"")


class Refusing(unittest.TestCase):
    def test_each_allocation(self) -> None:
        with texts.temporary_folder() as folder:
            source, program = texts.write(f"{folder}/asks.c", ASKS), f"{folder}/asks"
            self.assertEqual(programs.run(["gcc", "-O0", "-o", program, source]).status, 0)
            shim = refusing.shim("refuse_malloc", folder)
            runs = [refusing.run_refusing([program], shim, REFUSE=number) for number in (1, 2, 3, 50)]
            self.assertEqual([(answer.output, count) for answer, count in runs],
                [("nyy", 1), ("yny", 1), ("yyn", 1), ("yyy", 0)])
            self.assertEqual(refusing.run_refusing([program], shim, REFUSE_BEHIND=1000)[0].output, "ynn")

    def test_what_found_none(self) -> None:
        for told, want in (((1, "", "DEFS: REFUSED 1 - NO MEMORY\n"), "a text"),
                           ((1, "", "REFUSED 1 - NO MEMORY\n"), "the command line"),
                           ((2, "", "no memory for words\n"), "the command line"),
                           ((1, "A", "DEFS: REFUSED 1 - NO MEMORY\n"), None),
                           ((0, "", "DEFS: REFUSED 1 - NO MEMORY\n"), None),
                           ((1, "", "DEFS: REFUSED 2 - SYNTAX 0\n"), None), ((2, "", "usage\n"), None)):
            self.assertEqual(refusing.found_none(programs.Answer(*told)), want)


class Reports(unittest.TestCase):
    def test_replies(self) -> None:
        self.assertEqual(reports.replies(REPORT), [["A: BEGIN 0"], ["A: SELECT 2", "  1", "  2"], ["A: COMMIT 1"],
            ["COMMITS 1", "  1"]])

    def test_answers(self) -> None:
        self.assertEqual(reports.answers(REPORT), REPORT.partition("COMMITS")[0])
        self.assertEqual(reports.answers("A: BEGIN 0\nA: ROLLBACK AT END\nCOMMITS 0\n"), "A: BEGIN 0\n")
        self.assertIsNone(reports.answers("A: BEGIN 0\n"))

    def test_refused_events(self) -> None:
        events = ["A: BEGIN", "B: BEGIN", "A: SELECT ID FROM T", "A: COMMIT", "A: BEGIN"]
        report = reports.with_refused(REPORT, events, [3 + 1, 1])
        self.assertEqual(report, REPORT.replace("A: SELECT", "B: REFUSED 1 - NO MEMORY\nA: SELECT").replace(
            "COMMITS", "A: REFUSED 1 - NO MEMORY\nCOMMITS"))
        self.assertEqual(reports.places_without_memory(report, events), [1, 4])
        self.assertEqual(reports.places_without_memory(report, events[:2]), [1])
        self.assertEqual(reports.places_without_memory("", events), [])


class Loads(unittest.TestCase):
    def test_tables(self) -> None:
        ledger, on_call = list(loads.ledger(8)), list(loads.on_call(8))
        self.assertEqual(ledger[1:], [f"INSERT INTO ACCT VALUES ({key}, {key // 4}, 1000000);\n" for key in range(8)])
        self.assertEqual(ledger[0].count(";"), 2)
        self.assertEqual(loads.add_one(7), "UPDATE ACCT SET BAL = BAL + 1 WHERE ID = 7")
        self.assertEqual(len(on_call), 1 + 2 + 8)
        self.assertEqual(on_call[1::5], ["INSERT INTO SHIFTS VALUES (0);\n", "INSERT INTO DUTY VALUES (3, 0, 0);\n"])

    def test_scripts(self) -> None:
        script = loads.script([("A", "BEGIN"), ("B", "COMMIT", "what else")])
        self.assertEqual("".join(script), "A: BEGIN;\nB: COMMIT;\n")
        self.assertEqual("".join(loads.transactions(["X", "Y"], "COMMIT", "ROLLBACK", "S")),
            "S: COMMIT;\nS: X;\nS: ROLLBACK;\nS: COMMIT;\nS: Y;\nS: ROLLBACK;\n")


class Measures(unittest.TestCase):
    def test_launched(self) -> None:
        with texts.temporary_folder() as folder:
            used = measures.launched(["/bin/echo", "said"], f"{folder}/output")
            self.assertEqual(texts.read(f"{folder}/output"), "said\n")
            self.assertGreater(used.memory, 1 << 20)
            self.assertLess(used.seconds, 10)
            measures.launched(["/bin/false"], os.devnull, end=1)
            with self.assertRaises(SystemExit):
                measures.launched(["/bin/false"], os.devnull)

    def test_figures(self) -> None:
        figures = measures.Figures()
        figures["us"] += [3.0, 1.0, 2.5]
        self.assertEqual((figures.middle("us"), figures.middle("none")), (2.5, None))
        self.assertEqual(measures.spread("us", figures["us"], 1), "us 1.0 2.5 3.0")
        self.assertEqual(measures.spread("us", [], 1), "us -")
        self.assertAlmostEqual(measures.exponent([(10, 5), (100, 500)]) or 0, 2)
        without: list[list[float | None]] = [[5, None], [5, 0], [5], []]
        for times in without:
            self.assertIsNone(measures.exponent(zip((10, 100), times)))
        self.assertEqual([measures.digits(it) for it in (1234, 12, 1.26, 0.0123, None)],
            ["1,200", "12", "1.3", "0.012", "-"])
        self.assertEqual((figures.median("us"), measures.power(None)), (2.5, "-"))


class Arguments(unittest.TestCase):
    """What a script says of itself.

    And more.
    """

    def test_program(self) -> None:
        parser = arguments.parser_of(self.__doc__)
        arguments.take_program(parser)
        self.assertEqual(arguments.program_of(parser.parse_args(["--program", "a"])), os.path.abspath("a"))
        self.assertEqual(parser.description, "What a script says of itself.")
        self.assertEqual(arguments.parser_of(self.__doc__, whole=True).description, self.__doc__)

    def test_numbers(self) -> None:
        self.assertEqual(arguments.numbers_of("1,20"), [1, 20])


class Crates(unittest.TestCase):
    def test_those_below(self) -> None:
        stands_on: crates.Edges = {"a": ["b", "kit"], "b": ["c"], "c": [], "d": ["a"]}
        self.assertEqual(crates.with_those_below("a", stands_on), {"a", "b", "c", "kit"})

    def test_edits(self) -> None:
        edits = crates.edits_of("table")
        self.assertTrue(edits and all(edit.suffix == ".edit" for edit in edits))
        self.assertEqual(sorted(edits), edits)

    def test_edges(self) -> None:
        edges = crates.edges()
        self.assertIn("table", edges["assertion"])
        self.assertEqual(sum(len(of_group) for _, of_group in crates.groups()), len(edges))
        self.assertTrue(all((programs.TOP / "crates" / crate / "src").is_dir() for crate in edges))


class Libraries(unittest.TestCase):
    def test_names(self) -> None:
        with texts.temporary_folder() as folder:
            for name in ("libskewguard.so", "libskewguard.a"):
                texts.write(folder / name, name)
            place = libraries.linked(folder, folder)
            self.assertEqual({file.name: texts.read(file) for file in place.iterdir()}, {
                "libskewguard.a": "libskewguard.a", "libskewguard.so": "libskewguard.so",
                "libskewguard.so.0": "libskewguard.so"})
        with texts.temporary_folder() as folder, self.assertRaises(FileNotFoundError):
            libraries.linked(folder, folder)


class Pages(unittest.TestCase):
    def test_blocks(self) -> None:
        page = "# Page\n```sh\nls\n```\nmore\n```\nplain\n```\n```sql\nA\nB\n```\n"
        self.assertEqual(pages.blocks(page), [("sh", "ls\n"), ("sql", "A\nB\n")])
        self.assertEqual(pages.code(page, "sql"), ["A\nB\n"])
        self.assertTrue(pages.code(pages.page("docs/LIBRARY.md"), "rust"))


class Servers(unittest.TestCase):
    def test_programs(self) -> None:
        programs_of_server = servers.server_programs()
        self.assertTrue(programs_of_server is None or os.access(f"{programs_of_server}/initdb", os.X_OK))


class Journals(unittest.TestCase):
    """On the header and the two lines of docs/JOURNAL.md."""

    HEADER = b"skewguard journal 1\t7\t16697876759621788180\t3719024853352176233\t\n"
    FIRST = b"\n1\t0\t1\t0\t'BOB\t3\t'BOB\t9\t1\t3\t'BOB\t9\t0\t17437670071814014402\t\n"
    SECOND = b"\n2\t1\t2\t0\t'CAROL\t3\t'CAROL\t9\t1\t0\t0\t'DAN\t0\t3\t'DAN\tN\t-5\t10053107342939392658\t\n"

    def test_lines(self) -> None:
        file = self.HEADER + self.FIRST + self.SECOND
        middle = len(self.HEADER + self.FIRST)
        both = [(len(self.HEADER), middle, 1), (middle, len(file), 2)]
        self.assertEqual(journals.lines_of(file + bytes(5)), both)
        self.assertEqual(journals.lines_of(file), both)
        self.assertEqual(journals.lines_of(file[:-1] + bytes(5) + self.SECOND), both[:1])
        self.assertEqual(journals.lines_of(self.HEADER + bytes(5)), [])

    def test_sums(self) -> None:
        self.assertEqual(journals.sum_of(self.FIRST.strip(b"\n")[:-21]), 17437670071814014402)
        self.assertEqual(journals.with_durable(self.SECOND, 1), self.SECOND)
        self.assertEqual(journals.with_durable(self.SECOND, 0)[:8], b"\n2\t0\t2\t0")

    def test_fields(self) -> None:
        self.assertEqual(journals.fields_of("  1, 'BOB', NULL"), ["1", "'BOB'", "NULL"])

    def test_what_is_said(self) -> None:
        fault = "error: the journal a b is damaged at byte 70: commit 3 is missing\n"
        self.assertEqual(journals.refused(programs.Answer(4, "", fault)), (None, 3, 70))
        self.assertIsNone(journals.refused(programs.Answer(1, "", fault)))
        self.assertIsNone(journals.refused(programs.Answer(4, "", "error\n")))


if __name__ == "__main__":
    unittest.main()
