"""An opened library, and transactions on it, by the implementation that is used: the same two classes of each."""

from __future__ import annotations

from typing import TYPE_CHECKING, Any, Callable, Type

from . import _library, _refusals, rows
from ._implementation import native
from ._layout import parameter_bytes, text_bytes
from ._texts import taken

if TYPE_CHECKING or native is None:
    from . import _engine
    from ._engine import Engine, Transaction
else:
    from ._native import Engine, Transaction

__all__ = ["IMPLEMENTATION", "Engine", "Transaction", "draw", "find_library", "install"]

IMPLEMENTATION = "ctypes" if native is None else "C"

_is_found = False


def install(transaction: Type[Any], checked_retry: Callable[[int], int]) -> None:
    """Makes known what of the package is the same in both."""
    if native is None:
        Engine.transaction_type = transaction
        Engine.checked_retry = staticmethod(checked_retry)  # type: ignore[assignment]
        return
    native.use(
        error_of=_refusals.error_of,
        parameter_bytes=parameter_bytes,
        text_bytes=text_bytes,
        taken=taken,
        row_type=rows.row_type,
        tell=_refusals.tell,
        checked_retry=checked_retry,
        result=rows.Result,
        transaction=transaction,
    )


def draw(request: bytes) -> str:
    """What the library draws by a request; empty where it draws nothing."""
    find_library()
    return str(native.draw(request)) if native is not None else _engine.draw(request)


def find_library() -> None:
    """Finds the library for the implementation in C, once. That over ctypes finds it by itself."""
    global _is_found
    if native is not None and not _is_found:
        _library.loaded_by(native.load)
        _is_found = True
