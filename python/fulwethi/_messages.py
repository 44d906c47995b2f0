"""Where the messages of a station wait for their reader, and the thread that makes calls back."""

from __future__ import annotations

import asyncio
import logging
import queue
import threading
from collections import deque
from concurrent.futures import Future
from types import TracebackType
from typing import Any, AsyncIterator, Callable, Deque, Generic, Iterator, Optional, Tuple, Type, TypeVar

log = logging.getLogger("fulwethi.can")

T = TypeVar("T")


class Messages(Generic[T]):
    """What comes from now on, in its order, for one reader or several that share it: each message is read once.

    `for message in messages` waits for the next one, and ends with the station; so does `async for`. `close` ends it before. What isn't read is kept.
    """

    def __init__(self, forget: Callable[[Messages[T]], None]) -> None:
        self._forget = forget
        self._lock = threading.Lock()
        self._items: Deque[T] = deque()
        self._waiters: Deque[Future[T]] = deque()
        self._is_over = False
        self._cause: Optional[BaseException] = None

    def get(self, timeout: Optional[float] = None) -> T:
        """The next message. TimeoutError: none came within so many seconds. EOFError: none will come, since the station ended; its cause is why, if that was an error."""
        waiter = self._wait()
        try:
            return waiter.result(timeout)
        except TimeoutError:
            self._withdraw(waiter)
            raise TimeoutError(f"no message came within {timeout} seconds") from None
        except BaseException:
            self._withdraw(waiter)
            raise

    def close(self) -> None:
        """Nothing more comes. What is there is still read."""
        self._forget(self)
        self.end(None)

    def __enter__(self) -> Messages[T]:
        return self

    def __exit__(self, kind: Optional[Type[BaseException]], error: Optional[BaseException], trace: Optional[TracebackType]) -> None:
        self.close()

    def __iter__(self) -> Iterator[T]:
        return self

    def __next__(self) -> T:
        try:
            return self.get()
        except EOFError:
            raise StopIteration from None

    def __aiter__(self) -> AsyncIterator[T]:
        return self

    async def __anext__(self) -> T:
        waiter = self._wait()
        try:
            return await asyncio.wrap_future(waiter)
        except EOFError:
            raise StopAsyncIteration from None
        except BaseException:
            self._withdraw(waiter)
            raise

    # Of the station's thread

    def put(self, item: T) -> None:
        """A message came."""
        self._give(item, self._items.append)

    def end(self, cause: Optional[BaseException]) -> None:
        """No message will come any more."""
        with self._lock:
            if self._is_over:
                return
            self._is_over, self._cause = True, cause
            waiters, self._waiters = self._waiters, deque()
        for waiter in waiters:
            if waiter.set_running_or_notify_cancel():
                waiter.set_exception(self._end_of())

    def _end_of(self) -> EOFError:
        end = EOFError("no message will come")
        end.__cause__ = self._cause
        return end

    def _wait(self) -> Future[T]:
        waiter: Future[T] = Future()
        with self._lock:
            if self._items:
                waiter.set_result(self._items.popleft())
            elif self._is_over:
                waiter.set_exception(self._end_of())
            else:
                self._waiters.append(waiter)
        return waiter

    def _withdraw(self, waiter: Future[T]) -> None:
        """Who waited doesn't any more: a message that came just then is the next one again."""
        if not waiter.cancel() and waiter.exception() is None:
            self._give(waiter.result(), self._items.appendleft)

    def _give(self, item: T, keep: Callable[[T], None]) -> None:
        """Gives it to one who waits, or keeps it where none does."""
        with self._lock:
            while self._waiters:
                waiter = self._waiters.popleft()
                if waiter.set_running_or_notify_cancel():
                    break
            else:
                keep(item)
                return
        waiter.set_result(item)


class Calls:
    """A thread that makes calls back one after another, so that one that waits holds no station up. One that raises is logged, and the next one is made."""

    def __init__(self, name: str) -> None:
        self._queue: queue.SimpleQueue[Optional[Tuple[Callable[..., Any], Tuple[Any, ...]]]] = queue.SimpleQueue()
        self._thread = threading.Thread(target=self._run, name=name, daemon=True)
        self._thread.start()

    def make(self, callback: Callable[..., Any], *words: Any) -> None:
        """Makes a call behind those that wait."""
        self._queue.put((callback, words))

    def stop(self) -> None:
        """Ends the thread behind the calls that wait."""
        self._queue.put(None)

    def join(self, timeout: Optional[float]) -> bool:
        """Waits for the thread, unless it is the one that asks. False: it is still at work after so many seconds."""
        if threading.current_thread() is not self._thread:
            self._thread.join(timeout)
        return not self._thread.is_alive() or threading.current_thread() is self._thread

    def _run(self) -> None:
        while (call := self._queue.get()) is not None:
            callback, words = call
            try:
                callback(*words)
            except Exception:
                log.exception("a callback raised an exception: %r", callback)
            # Else the last call's message would be kept until the next one.
            del call, callback, words
