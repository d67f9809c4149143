"""Command lines: what a script says of itself, and the program that it is given."""
from __future__ import annotations

import argparse
import os

from .programs import built


def parser_of(about: str | None, *, whole: bool = False) -> argparse.ArgumentParser:
    """A parser of a script's words, which shows the first line of what the script says of itself, or the whole."""
    text = about or ""
    if whole:
        return argparse.ArgumentParser(description=text, formatter_class=argparse.RawDescriptionHelpFormatter)
    return argparse.ArgumentParser(description=text.split("\n", 1)[0])


def take_program(parser: argparse.ArgumentParser) -> None:
    """Lets a command line name the program, which need not be there."""
    parser.add_argument("--program", help="the program skewguard; without it `rt run` builds it")


def program_of(given: argparse.Namespace) -> str:
    """The program that was named, or is built now."""
    return os.path.abspath(given.program or built())


def numbers_of(words: str) -> list[int]:
    """The numbers of a word of the command line, which has commas between them."""
    return [int(word) for word in words.split(",") if word]
