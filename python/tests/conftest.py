"""What the tests share: the repository, buses of python-can, and stations with slow clocks."""

from __future__ import annotations

import faulthandler
import itertools
import os
import threading
import time
from pathlib import Path
from typing import Callable, Iterator

import can
import pytest

TOP = Path(__file__).resolve().parents[2]

PATIENCE = 300
"""No test waits for longer than so many seconds; what waits so long has failed."""

_channels = itertools.count()


def slow_clock() -> int:
    """A clock on which the shortest timer of a connection takes twelve minutes: then none ends a message, however busy the machine is. A broadcast would take as long."""
    return time.monotonic_ns() // 1000


def slower_clock() -> int:
    """A clock on which it takes fifteen seconds, and a gap of a broadcast one."""
    return time.monotonic_ns() // 20


@pytest.fixture
def top() -> Path:
    """The repository."""
    return TOP


@pytest.fixture
def channel() -> str:
    """The name of a virtual bus that no other test has."""
    return f"test {next(_channels)} of {os.getpid()}"


@pytest.fixture
def bus(channel: str) -> Iterator[Callable[..., can.BusABC]]:
    """Opens buses of one virtual channel, which are shut down at the end."""
    opened = []

    def open_bus(**words: object) -> can.BusABC:
        opened.append(can.Bus(interface="virtual", channel=channel, **words))
        return opened[-1]

    yield open_bus
    for it in opened:
        it.shutdown()


@pytest.fixture(autouse=True)
def no_thread_is_left() -> Iterator[None]:
    """Each test ends with the threads that it began with."""
    before = set(threading.enumerate())
    yield
    left = [thread for thread in threading.enumerate() if thread not in before]
    for thread in left:
        thread.join(PATIENCE / 3)
    assert not [thread.name for thread in left if thread.is_alive()]


@pytest.fixture(autouse=True)
def nothing_hangs() -> Iterator[None]:
    """A test that takes longer than twice that ends the run, and shows where each thread is."""
    faulthandler.dump_traceback_later(2 * PATIENCE, exit=True)
    yield
    faulthandler.cancel_dump_traceback_later()
