"""What tools/harness has for these scripts, which find it by way of this file."""
# ruff: noqa: E402
import pathlib
import sys

sys.path.append(str(pathlib.Path(__file__).resolve().parent.parent / "tools"))

from harness import loads, servers
from harness.arguments import numbers_of, parser_of, program_of, take_program
from harness.journals import lines_of, spelled
from harness.libraries import HEADER_FOLDER, PYTHON, SONAME, library_in, linked, packed, unpacked
from harness.measures import (
    Figures, Used, digits, exponent, instructions, launched, least_memory, load_at_end, machine, measured_replay,
    power, spread, table)
from harness.programs import (
    PROGRAM, TOP, Answer, Word, built, carry_out, output_of, pipe, replay, run, run_on, words_of_replay)
from harness.reports import replies
from harness.texts import Path, ended, memory_folder, placed, temporary_folder, write, written

__all__ = [
    "HEADER_FOLDER", "PROGRAM", "PYTHON", "SONAME", "TOP", "Answer", "Figures", "Path", "Used", "Word", "built",
    "carry_out", "digits", "ended", "exponent", "instructions", "launched", "least_memory", "library_in",
    "lines_of", "linked", "load_at_end", "loads", "machine", "measured_replay", "memory_folder", "numbers_of",
    "output_of", "packed", "parser_of", "pipe", "placed", "power", "program_of", "replay", "replies", "run", "run_on",
    "servers", "spelled", "spread", "table", "take_program", "temporary_folder", "unpacked", "words_of_replay",
    "write", "written",
]
