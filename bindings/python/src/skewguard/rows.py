"""What a statement was answered: counts, rows with named columns, a verdict."""

from __future__ import annotations

from functools import lru_cache
from operator import itemgetter
from typing import TYPE_CHECKING, Any, Dict, Iterator, Optional, Tuple, Type, Union, overload

from ._implementation import native
from .errors import Value

__all__ = ["Result", "Row"]

# The statements that are answered by a number of rows.
_COUNTED = ("SELECT", "INSERT", "UPDATE", "DELETE")
_TRUTHS = {True: " true", False: " false", None: " unknown"}


if TYPE_CHECKING:
    _Values = Tuple[Value, ...]
else:
    _Values = tuple


class Row(_Values):
    """A row of a SELECT: a tuple of its values, which are found by the names of their columns too.

    >>> row = row_type(("ID", "OWNER"))((1, "KIM"))
    >>> row["OWNER"], row["owner"], row.OWNER, row[0], row == (1, "KIM")
    ('KIM', 'KIM', 'KIM', 1, True)
    >>> dict(row)
    {'ID': 1, 'OWNER': 'KIM'}
    """

    __slots__ = ()
    columns: Tuple[str, ...] = ()
    _places: Dict[str, int] = {}

    def __getitem__(self, at: Any) -> Any:
        """The value at a place, those of a slice, or that of a column; a column is named in any case of letters."""
        if isinstance(at, str):
            place = self._places.get(at.upper())
            if place is None:
                raise KeyError(f"no column {at!r}; there are {', '.join(self.columns)}")
            at = place
        return tuple.__getitem__(self, at)

    if TYPE_CHECKING:

        def __getattr__(self, name: str) -> Any: ...

    def keys(self) -> Tuple[str, ...]:
        """The names of the columns."""
        return self.columns

    def as_dict(self) -> Dict[str, Value]:
        """The values by the names of their columns."""
        return dict(zip(self.columns, self))

    def __repr__(self) -> str:
        return f"Row({', '.join(f'{name}={value!r}' for name, value in zip(self.columns, self))})"

    def __reduce__(self) -> Tuple[Any, ...]:
        return _row_of, (self.columns, tuple(self))


@lru_cache(maxsize=256)
def row_type(columns: Tuple[str, ...]) -> Type[Row]:
    """The type of rows with these columns. A column that stands twice is found at its first place.

    The columns are attributes too, as they are written in the table: in upper case, in which no method is. So is what
    AS gives and the name of a set function; `?column?`, which other expressions are called, is no name of an attribute.
    """
    places = {name.upper(): place for place, name in reversed(list(enumerate(columns)))}
    members: Dict[str, Any] = {name: property(itemgetter(place)) for name, place in places.items()}
    return type("Row", (Row,), {**members, "__slots__": (), "columns": columns, "_places": places})


def _row_of(columns: Tuple[str, ...], values: Tuple[Value, ...]) -> Row:
    return row_type(columns)(values)


if TYPE_CHECKING or native is None:

    class Answer:
        """The parts of a result."""

        __slots__ = ("_rows", "columns", "count", "kind", "verdict")

        def __init__(
            self, kind: str, count: int, columns: Tuple[str, ...], rows: Tuple[Row, ...], verdict: Optional[bool]
        ) -> None:
            self.kind = kind
            self.count = count
            self.columns = columns
            self._rows = rows
            self.verdict = verdict

else:
    Answer = native.Answer


class Result(Answer):
    """The answer to a statement, and the rows of a SELECT in the order of their keys.

    It is gone through as often as one likes, has a length, and gives a row by its place. It is true where there are
    rows: that a SELECT lists, or that an INSERT, UPDATE or DELETE changed. That of a VERDICT is true where the verdict
    is, and those of other statements are.

    count: how many rows an INSERT, UPDATE or DELETE changed, or a SELECT lists; 0 for other statements.
    columns: the names of the columns of a SELECT, else none.
    verdict: of a VERDICT, True, False, or None for unknown; None for other statements.
    kind: the word of the statement, as UPDATE.
    """

    __slots__ = ()

    @overload
    def __getitem__(self, at: int) -> Row: ...

    @overload
    def __getitem__(self, at: slice) -> Tuple[Row, ...]: ...

    def __getitem__(self, at: Union[int, slice]) -> Union[Row, Tuple[Row, ...]]:
        return self._rows[at]

    def __len__(self) -> int:
        return len(self._rows)

    def __iter__(self) -> Iterator[Row]:
        return iter(self._rows)

    def __bool__(self) -> bool:
        if self.kind in _COUNTED:
            return self.count > 0
        return self.kind != "VERDICT" or self.verdict is True

    def keys(self) -> Tuple[str, ...]:
        """The names of the columns of a SELECT; none for other statements."""
        return self.columns

    def first(self) -> Optional[Row]:
        """The first row of a SELECT, by its key; None where there is none."""
        return self._rows[0] if self._rows else None

    def scalar(self) -> Value:
        """The first value of the first row of a SELECT; None where there is none."""
        return self._rows[0][0] if self._rows else None

    def __repr__(self) -> str:
        if self.kind in _COUNTED:
            return f"<skewguard.Result {self.kind}, {self.count} row{'' if self.count == 1 else 's'}>"
        return f"<skewguard.Result {self.kind}{_TRUTHS[self.verdict] if self.kind == 'VERDICT' else ''}>"

    def __reduce__(self) -> Tuple[Any, ...]:
        return Result, (self.kind, self.count, self.columns, self._rows, self.verdict)
