"""Which implementation is used: that in C, or that over ctypes, where it was not built or is not wanted."""

from __future__ import annotations

import os
from importlib import import_module
from typing import Any, Optional

__all__ = ["native"]


def _native() -> Optional[Any]:
    """The module in C. SKEWGUARD_CTYPES=1 in the environment leaves it out."""
    if os.environ.get("SKEWGUARD_CTYPES") == "1":
        return None
    try:
        return import_module("._native", __package__)
    except ImportError:
        return None


native = _native()
