"""A handle of the library with a lock of its own: ctypes lets other threads run during a call, and no two calls on a handle may be made at the same time."""

from __future__ import annotations

import threading
import weakref
from ctypes import CDLL
from types import TracebackType
from typing import Optional, Type

from . import _inline
from ._raw import Handle
from .errors import Closed


class Held:
    """`with held as handle:` has the handle for one or more calls. Closed: it was freed."""

    def __init__(self, library: CDLL, what: str, free: str) -> None:
        self._what = what
        self._handle = Handle()
        self._lock = threading.Lock()
        # What its owner forgets to close is freed with the owner, but not at the end of the process, where other threads may still use it.
        self._free = weakref.finalize(self, _inline.free, library, free, self._handle)
        self._free.atexit = False

    def __enter__(self) -> Handle:
        self._lock.acquire()
        if not self._handle.ptr:
            self._lock.release()
            raise Closed(f"{self._what} is closed")
        return self._handle

    def __exit__(self, kind: Optional[Type[BaseException]], error: Optional[BaseException], trace: Optional[TracebackType]) -> None:
        self._lock.release()

    def unmade(self) -> Handle:
        """The handle before it is made, for the call that makes it."""
        return self._handle

    def close(self) -> None:
        """Frees what the handle has, if it has anything, behind a call that another thread makes now."""
        with self._lock:
            self._free()

    @property
    def is_open(self) -> bool:
        """Whether it was made and not freed."""
        return bool(self._handle.ptr)
