"""Transactions for programs on asyncio: each call is made by a thread, while the loop goes on.

The first `async with` imports it, since asyncio takes long to import.
"""

from __future__ import annotations

import asyncio
from typing import TYPE_CHECKING, Any, Callable, Iterable, List, Mapping, Optional, TypeVar, Union

from ._layout import State
from ._texts import Values
from .errors import Value
from .rows import Result

if TYPE_CHECKING:
    from .manager import Transaction

__all__ = ["AsyncTransaction", "by_thread", "entered"]

T = TypeVar("T")


async def by_thread(function: Callable[..., T], *arguments: Any) -> T:
    """What a function gives that a thread of the loop's calls.

    A call can't be stopped. So a task that is cancelled meanwhile waits for its end, and is cancelled then.
    """
    call = asyncio.get_running_loop().run_in_executor(None, function, *arguments)
    try:
        return await asyncio.shield(call)
    except asyncio.CancelledError:
        while not call.done():
            try:
                await asyncio.wait([call])
            except asyncio.CancelledError:
                continue
        raise


async def entered(transaction: Transaction) -> AsyncTransaction:
    """Begins a transaction for an `async with` block."""
    try:
        await by_thread(transaction._enter)
    except asyncio.CancelledError:
        if transaction._state == State.OPEN:  # it began meanwhile, and has no block
            await by_thread(transaction.rollback)
        raise
    return AsyncTransaction(transaction)


class AsyncTransaction:
    """The transaction of an `async with` block, with the methods of a Transaction to wait for."""

    __slots__ = ("_transaction",)

    def __init__(self, transaction: Transaction) -> None:
        self._transaction = transaction

    async def execute(self, sql: str, values: Union[Iterable[Value], Mapping[str, Value]] = ()) -> Result:
        """As Transaction.execute."""
        return await by_thread(self._transaction.execute, sql, values)

    async def run_all(self, sql: str, rows: Iterable[Values]) -> List[Result]:
        """As Transaction.run_all."""
        return await by_thread(self._transaction.run_all, sql, rows)

    async def verdict(self, rule: str) -> Optional[bool]:
        """As Transaction.verdict."""
        return await by_thread(self._transaction.verdict, rule)

    async def set_constraints(self, *rules: str, deferred: bool) -> None:
        """As Transaction.set_constraints."""
        await by_thread(lambda: self._transaction.set_constraints(*rules, deferred=deferred))

    async def commit(self) -> int:
        """As Transaction.commit."""
        return await by_thread(self._transaction.commit)

    async def rollback(self) -> None:
        """As Transaction.rollback."""
        await by_thread(self._transaction.rollback)

    @property
    def snapshot(self) -> Optional[int]:
        """How many commits its tables hold."""
        return self._transaction.snapshot

    @property
    def number(self) -> Optional[int]:
        """The number of its commit; None without one."""
        return self._transaction.number

    def __repr__(self) -> str:
        return repr(self._transaction).replace("skewguard.", "skewguard.Async", 1)
