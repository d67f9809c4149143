"""Why a text was refused, drawn in it."""

from __future__ import annotations

from typing import Optional, Tuple

from . import _backend
from ._layout import counted, number_bytes, text_bytes

# The faults that lie in a text by itself, or beside the definitions.
_OF_TEXTS = frozenset((2, 3, 4, 5, 6, 7, 8, 9, 11, 18, 19, 20, 21, 22))


def drawn(number: Optional[int], refused: Optional[Tuple[int, str, str]]) -> str:
    """The drawing of the fault of this number in a text; empty where there is none."""
    if refused is None or number not in _OF_TEXTS:
        return ""
    role, definitions, text = refused
    request = number_bytes(role) + number_bytes(number) + counted(text_bytes(definitions)) + text_bytes(text)
    return _backend.draw(request).rstrip()
