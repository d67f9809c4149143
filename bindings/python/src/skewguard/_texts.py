"""Texts of the language, as far as they are looked into here: their tokens, and parameters by name.

The tokens are those of docs/LANGUAGE.md, and `:name` beside them. What is no token is given byte by byte, and a text in
quotes that has no end goes on to the end: the library refuses both.
"""

from __future__ import annotations

import re
from collections.abc import Mapping
from functools import lru_cache
from typing import Any, Iterable, Iterator, List, Optional, Sequence, Tuple, Union

from .errors import ParameterError

__all__ = ["first_word", "taken", "taken_rows", "tokens"]

Values = Union[Iterable[Any], "Mapping[str, Any]"]

_TOKEN = re.compile(
    r"""
      (?P<gap> (?: [ \t\n\r] | --[^\n]* )+ )
    | (?P<text> ' [^']* (?: '' [^']* )* (?: ' | \Z ) )
    | (?P<parameter> : [A-Za-z][A-Za-z0-9_]* | \? )
    | (?P<word> [A-Za-z][A-Za-z0-9_]* )
    | (?P<number> [0-9]+ )
    | (?P<mark> <> | <= | >= | . )
    """,
    re.VERBOSE | re.DOTALL,
)


def tokens(text: str) -> Iterator[Tuple[str, str]]:
    """The tokens of a text, and the gaps between them, each with its kind: joined they are the text."""
    for found in _TOKEN.finditer(text):
        assert found.lastgroup is not None
        yield found.lastgroup, found.group()


def first_word(sql: str) -> str:
    """The first token of a statement, in upper case; empty where it has none."""
    return next((token.upper() for kind, token in tokens(sql) if kind != "gap"), "")


@lru_cache(maxsize=256)
def _by_places(sql: str) -> Tuple[str, Tuple[str, ...]]:
    """A text with `?` for each `:name`, as long as it was, so that faults keep their places; and the names."""
    pieces, names = [], []
    for kind, token in tokens(sql):
        if kind == "parameter":
            names.append(token[1:])
            token = "?".ljust(len(token))
        pieces.append(token)
    return "".join(pieces), tuple(names)


def taken(sql: str, values: Values) -> Tuple[str, Sequence[Any]]:
    """A statement and its values as the library takes them: with `?` for each, and in their order.

    Raises ParameterError where values come by their names and the text has other parameters, and TypeError for what is
    neither a collection of values in their order nor one by their names.
    """
    if isinstance(values, Mapping):
        return _by_name(sql, values)
    if isinstance(values, (str, bytes, bytearray, set, frozenset)) or not hasattr(values, "__iter__"):
        raise TypeError(
            "values come as a list or a tuple, one for each `?`, or as a dict, one for each `:name`, and not as "
            f"{type(values).__name__}"
        )
    return sql, list(values)


def taken_rows(sql: str, rows: Iterable[Values]) -> Tuple[str, List[Sequence[Any]]]:
    """A statement and lists of values for it, as the library takes them.

    Raises what `taken` raises, and ParameterError where some come by their places and some by their names.
    """
    text: Optional[str] = None
    lists: List[Sequence[Any]] = []
    for place, values in enumerate(rows):
        own, values = (sql, values) if isinstance(values, (list, tuple)) else taken(sql, values)
        if text is not None and own != text:
            error = ParameterError("some values come by their places, and some by their names")
            error.place = place
            raise error
        text = own
        lists.append(values)
    return sql if text is None else text, lists


def _by_name(sql: str, values: Mapping[str, Any]) -> Tuple[str, Sequence[Any]]:
    text, names = _by_places(sql)
    if "" in names:
        raise ParameterError("values come by their names, and the statement has `?`: write `:name` for each")
    for place, name in enumerate(names, 1):
        if name not in values:
            error = ParameterError(f"there is no value for :{name}")
            error.parameter = place
            raise error
    return text, [values[name] for name in names]
