"""The pages of the repository, and the code that stands on them."""
from __future__ import annotations

import re
import typing

from .programs import TOP


class Block(typing.NamedTuple):
    """Code that stands on a page, and the word of its language."""

    word: str
    text: str


def page(name: str) -> str:
    """A page, by its path below the top folder."""
    return (TOP / name).read_text(encoding="utf-8")


def blocks(text: str) -> list[Block]:
    """The blocks of code of a page."""
    found = re.findall(r"^```(\w+)\n(.*?)^```$", text, re.MULTILINE | re.DOTALL)
    return [Block(word, code) for word, code in found]


def code(text: str, word: str) -> list[str]:
    """The blocks of one language."""
    return [block.text for block in blocks(text) if block.word == word]
