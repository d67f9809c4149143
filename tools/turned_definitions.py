#!/usr/bin/env python3
"""Turns one definition of how an assertion's form or the key of a read is made, and sees that a law of what is written
refuses it.

A must-fail edit turns code, which its own contract refuses. A slip made alike in code and definition passes that
contract, and only the law that ties the form, or the key, to what is written can find it. So in a copy of the
repository the definitions of form_check, and those of keys in alone, are put into the crate `meaning`
(the code is then left out of it), one of them is turned, and the crate is checked again: it has to be refused. First
it is checked with nothing turned, and has to be proved.

A turn may change lines of proofs too, so that a law that still holds is proved of what is turned: then it is refused by
the other laws alone.

    turned_definitions.py FOLDER [WORD ..]  FOLDER: for the copy (about 2 GB; it is written over)
                                            WORD: only the turns with one of these in their name

The crates have to be built (`rt check` in crates/meaning). It prints a line for each turn, with the laws that refuse it
and the first error, and last how many were refused; the status is 1 where one was not.
"""
import pathlib
import re
import shutil
import sys
import typing
from collections.abc import Sequence

from harness.arguments import parser_of
from harness.crates import CRATES, edges, with_those_below
from harness.programs import carry_out, run

MODULES = {
    "form_check": ["Results", "Columns", "Leaves", "Queries", "Links", "Forms"],
    "alone": ["Reads", "Checks"],
}
LAWS = ["rows_are_as_written", "class_has_forms", "form_means_what_is_written", "keys_are_as_written"]

# Exchanging the two parts of an AND keeps each truth, and this is the proof.
EXCHANGED = """    two_exchanged : (s t : Truth) → and_of t (and_of s True) ≡ and_of s (and_of t True)
    two_exchanged True True = refl
    two_exchanged True False = refl
    two_exchanged True Unknown = refl
    two_exchanged False True = refl
    two_exchanged False False = refl
    two_exchanged False Unknown = refl
    two_exchanged Unknown True = refl
    two_exchanged Unknown False = refl
    two_exchanged Unknown Unknown = refl

    all_exchanged : (parts : List Cond)
        → sql.all_of (map (resolved.truth row slots) (leaves_of.exchanged parts))
        ≡ sql.all_of (map (resolved.truth row slots) parts)
    all_exchanged [] = refl
    all_exchanged (a ∷ []) = refl
    all_exchanged (a ∷ b ∷ []) = two_exchanged (resolved.truth row slots a) (resolved.truth row slots b)
    all_exchanged (a ∷ b ∷ c ∷ rest) = refl

"""

# Of each file, pairs of the text there and what stands for it.
Files = dict[str, list[tuple[str, str]]]


class Turn(typing.NamedTuple):
    """What is turned, and in which files."""

    what: str
    files: Files


TURNS = [
    Turn("slots are put in the other order", {"specs/Leaves": [
        ("both make left right leaves = and_then (left leaves) (λ l. then_made (make l.0) (right l.1))",
         "both make left right leaves = and_then (right leaves) (λ r. then_made (λ l. make l r.0) (left r.1))")]}),
    Turn("a second link is dropped", {"specs/Links": [
        ("if passes part then rest else part ∷", "if passes part then beside passes rest else part ∷")]}),
    Turn("the parts beside a link are forgotten", {"specs/Links": [
        ("(beside (may_link child root parts) parts)", "[]")]}),
    Turn("the child's key goes before no other link", {"specs/Links": [
        ("then Some child.layout.key else None", "then None else None")]}),
    Turn("a column of the root is taken for the child's", {"specs/Columns": [
        ("in_both None outer = option_map Slot outer", "in_both None outer = option_map Column outer")]}),
    Turn("HAVING is of unfiltered rows", {"specs/Forms": [
        ("and_then (row_filter source.scope query.keeps) (λ restriction. having_over source group restriction having)",
         "and_then (row_filter source.scope None) (λ restriction. having_over source group restriction having)")]}),
    Turn("a name of both tables is the root's", {"specs/Columns": [
        ("if is_name_of column.qualifier column.name child then None else own_column root column",
         "own_column root column")]}),
    Turn("NOT is lost", {"specs/Leaves": [
        ("then_made cond_of.Not (part.1 leaves)", "part.1 leaves")]}),
    Turn("EXISTS may list COUNT(*)", {"specs/Queries": [
        ("expression_may_stand place other = false",
         "expression_may_stand place Expression-F.CountRows = true\nexpression_may_stand place other = false")]}),
    Turn("the ends of BETWEEN are exchanged", {"specs/Leaves": [
        ("both (between_of s.0) low high s.1", "both (between_of s.0) high low s.1")]}),
    Turn("HAVING without GROUP BY is forgotten", {"specs/Forms": [
        ("by_clauses tables source query None (Some having) = Err OutsideClass",
         "by_clauses tables source query None (Some having) = by_row tables source query")]}),
    Turn("GROUP BY without HAVING is forgotten", {"specs/Forms": [
        ("by_clauses tables source query (Some column) None = Err OutsideClass",
         "by_clauses tables source query (Some column) None = by_row tables source query")]}),
    Turn("the columns of a link are exchanged", {"specs/Links": [
        ("Some (record { inner = inner; outer = outer })", "Some (record { inner = outer; outer = inner })")]}),
    Turn("a link may be by <=", {"specs/Links": [
        ("link_in child root (Condition-F.Compare left Equal right) =",
         "link_in child root (Condition-F.Compare left AtMost right) ="),
        ("Comparison.TheVariants.{Equal}", "Comparison.TheVariants.{AtMost}")]}),
    Turn("COUNT is taken for SUM", {"specs/Queries": [
        ("of_column function.Count All column = Count column", "of_column function.Count All column = Sum column")]}),
    Turn("DISTINCT is forgotten", {"specs/Queries": [
        ("of_column function.Count Distinct column = CountDistinct column",
         "of_column function.Count Distinct column = Count column")]}),
    Turn("any own column is the grouping column", {"specs/Columns": [
        ("in_group group (Some column) = if column == group then Some 0 else None",
         "in_group group (Some column) = Some 0")]}),
    Turn("OR is taken for AND", {"specs/Leaves": [
        ("condition_step place (Condition-F.Or parts) leaves = then_made cond_of.Or (all parts leaves)",
         "condition_step place (Condition-F.Or parts) leaves = then_made cond_of.And (all parts leaves)")]}),
    Turn("IS TRUE, FALSE or UNKNOWN is lost", {"specs/Leaves": [
        ("then_made (λ c. cond_of.Is c truth) (part.1 leaves)", "part.1 leaves")]}),
    Turn("a correlation name is forgotten", {"specs/Queries": [
        ("source_named (unwrap_or correlation_name table)", "source_named table")]}),
    Turn("WHERE of a query of its own is forgotten", {"specs/Forms": [
        ("and_then (row_filter source.scope keeps) (λ filter.",
         "and_then (row_filter source.scope None) (λ filter.")]}),
    Turn("the two parts of an AND are exchanged", {"specs/Leaves": [
        ("-- a condition, likewise\n",
         "abbrev pub exchanged : List Cond → List Cond\n"
         "exchanged (a ∷ b ∷ []) = b ∷ a ∷ []\nexchanged other = other\n\n"
         "-- a condition, likewise\n"),
        ("then_made cond_of.And (all parts leaves)",
         "then_made (λ made. cond_of.And (exchanged made)) (all parts leaves)")],
     "proofs/Numbering": [
        ("    and_true : (t : Truth) →", EXCHANGED + "    and_true : (t : Truth) →"),
        ("cond_of.And sql.all_of (λ a. sym (truth-And a))",
         "(λ a. cond_of.And (leaves_of.exchanged a)) sql.all_of"
         " (λ a. sym (truth-And (leaves_of.exchanged a) ∙ all_exchanged a))")],
     "proofs/Standing": [
        ("then_numbers cond_of.And ", "then_numbers (λ a. cond_of.And (leaves_of.exchanged a)) ")],
     "proofs/Keys": [
        ("(out-Cond made ≡ Cond-F.And cs))", "(out-Cond made ≡ Cond-F.And (leaves_of.exchanged cs)))"),
        ("then_ok cond_of.And (all", "then_ok (λ cs. cond_of.And (leaves_of.exchanged cs)) (all"),
        ("shown_cond (Cond-F.And cs) made (cond.rolls-And cs ∙ makes)",
         "shown_cond (Cond-F.And (leaves_of.exchanged cs)) made (cond.rolls-And (leaves_of.exchanged cs) ∙ makes)"),
        ("record { shown = Cond-F.And cs;", "record { shown = Cond-F.And (leaves_of.exchanged cs);")]}),
    Turn("the last equality is taken for the first", {"specs/Reads": [
        ("option_or (equality_in (out-Cond part)) (first_equality rest)",
         "option_or (first_equality rest) (equality_in (out-Cond part))")]}),
    Turn("the key is no better than another column", {"specs/Reads": [
        ("if is_on column (equality_in (out-Cond part)) then equality_in (out-Cond part) else first_on column rest",
         "None")]}),
    Turn("an inequality is taken for an equality", {"specs/Reads": [
        ("equal_sides Equal a b = sides (out-Expr a) (out-Expr b)\nequal_sides other a b = None",
         "equal_sides other a b = sides (out-Expr a) (out-Expr b)")]}),
    Turn("a literal on the left is not seen", {"specs/Reads": [
        ("sides (Expr-F.Literal v) (Expr-F.Column i) = Some (record { column = i; value = v })\n", "")]}),
    Turn("a check by rows reads the whole of a linked table", {"specs/Checks": [
        ("InColumn q.table q.grouping.inner k ∷ []", "WholeTable q.table ∷ []")]}),
    Turn("the row under a value is read as rows of a column", {"specs/Checks": [
        ("then OneRow (record { table = q.table; key = v })", "then InColumn q.table q.grouping.inner v")]}),
    Turn("a changed child finds its roots unseen", {"specs/Checks": [
        ("then map (InColumn table q.grouping.outer) (linked_values q.grouping (rows_of_change change)) else []",
         "then [] else []")]}),
    Turn("a check by groups reads the whole table", {"specs/Checks": [
        ("(Of v) = InColumn table group v ∷ []", "(Of v) = WholeTable table ∷ []")]}),
    Turn("a single condition reads a row of each group too", {"specs/Checks": [
        ("keys_for layouts state (Single condition queries) (Of v) = []",
         "keys_for layouts state (Single condition queries) (Of v) = map WholeTable (map (λ q. q.table) queries)")]}),
]


def copy_to(folder: pathlib.Path) -> pathlib.Path:
    """The crates below, with what was built of them, and the definitions in the crate meaning."""
    shutil.rmtree(folder, ignore_errors=True)
    stands_on = edges()
    wanted = [name for name in stands_on if name in with_those_below("meaning", stands_on)]
    (folder / "crates").mkdir(parents=True)
    for name in wanted:
        carry_out(["cp", "-a", CRATES / name, folder / "crates" / name])
    lines = [f"{name}: {' '.join(stands_on[name])}\n" for name in wanted]
    (folder / "crates.txt").write_text("".join(lines))
    carry_out(["git", "init", "-q"], cwd=folder)
    meaning = folder / "crates" / "meaning"
    modules = [(crate, module) for crate in MODULES for module in MODULES[crate]]
    for crate, module in modules:
        shutil.copy(folder / f"crates/{crate}/specs/{module}.antt", meaning / f"specs/{module}.antt")
    lib = meaning / "specs/Lib.antt"
    lib.write_text(lib.read_text() + "".join(f"pub mod {module}\n" for _, module in modules))
    keep_laws(meaning)
    for path in [*meaning.glob("specs/*.antt"), *meaning.glob("proofs/**/*.antt")]:
        text = path.read_text()
        for crate, module in modules:
            text = re.sub(rf"Rattle\.{crate}\.specs\.{module}\b", f"Rattle.meaning.specs.{module}", text)
        path.write_text(text)
    return meaning


def keep_laws(meaning: pathlib.Path) -> None:
    """Leaves out the laws of what is checked, which speak of the definitions where they stand."""
    for path in (meaning / "proofs/laws").iterdir():
        if path.name not in LAWS:
            shutil.rmtree(path)
    lib = meaning / "proofs/Lib.antt"
    for module in ["Checked", "StatementKeys"]:
        (meaning / f"proofs/{module}.antt").unlink()
        lib.write_text(lib.read_text().replace(f"pub mod {module}\n", ""))
    laws = meaning / "src/laws.rt"
    pieces = re.split(r"(?=^///)(?<=\{\}\n\n)", laws.read_text(), flags=re.M)
    head, first = pieces[0].split("///", 1)
    kept = [piece for piece in ["///" + first, *pieces[1:]] if any(f"fn {law}(" in piece for law in LAWS)]
    laws.write_text(head + "".join(kept))
    (meaning / "src/lib.rt").write_text(
        "//! A copy.\n#![tactic(auto)]\n\nmod laws;\n\npub use laws::{\n"
        + "".join(f"    {law},\n" for law in sorted(LAWS)) + "};\n")


def check(meaning: pathlib.Path) -> tuple[Sequence[str], str]:
    """The laws that are not proved, and the first error; a definition that can't be read ends the run."""
    _, output, error = run(["rt", "check", "--jobs", "1"], cwd=meaning, timeout=900)
    told = output + error
    errors = [line for line in told.splitlines() if " error: " in line]
    if any(line.startswith("./specs/") for line in errors):
        sys.exit(f"a definition can't be read: {errors[0]}")
    if "\nlogic=proved " in told:
        return [], ""
    laws = [law for law in LAWS if f"fn meaning::laws::{law}: proved" not in told]
    return laws, errors[0] if errors else told[-300:]


def turn(meaning: pathlib.Path, what: str, files: Files) -> dict[pathlib.Path, str]:
    """Turns the files; gives back what stood there."""
    before: dict[pathlib.Path, str] = {}
    for name, pairs in files.items():
        path = meaning / f"{name}.antt"
        text = before[path] = path.read_text()
        for old, new in pairs:
            if text.count(old) != 1:
                sys.exit(f"{what}: the text stands {text.count(old)} times in {name}: {old}")
            text = text.replace(old, new)
        path.write_text(text)
    return before


def main() -> int:
    parser = parser_of(__doc__)
    parser.add_argument("folder", type=pathlib.Path, help="for the copy; it is written over")
    parser.add_argument("words", nargs="*", metavar="word", help="only the turns with one of these in their name")
    given = parser.parse_args()
    meaning = copy_to(given.folder.resolve())
    turns = [it for it in TURNS if any(word in it.what for word in given.words or [""])]
    laws, error = check(meaning)
    if error:
        sys.exit(f"nothing is turned, and it is not proved: {error}")
    print("nothing turned: proved", flush=True)
    refused = 0
    for what, files in turns:
        before = turn(meaning, what, files)
        laws, error = check(meaning)
        for path, text in before.items():
            path.write_text(text)
        refused += bool(error)
        print(f"{what}: {'refused by ' + ', '.join(laws) + '; ' + error[:160] if error else 'PROVED'}", flush=True)
    print(f"{refused} of {len(turns)} turns refused")
    return refused < len(turns)


if __name__ == "__main__":
    sys.exit(main())
