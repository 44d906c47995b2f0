"""A station on a bus of python-can: any interface that it knows, with a thread that alone touches the node.

    with can.Bus(interface="socketcan", channel="can0", receive_own_messages=True) as bus, Station(bus, 0x21) as station:
        station.open(0xEF00, 1785)
        print(station.send(0x35, 0xEF00, bytes(100)).result())

python-can doesn't tell that frames were lost. Who knows of a loss calls `Station.missed`; error frames call it by themselves.
"""

from __future__ import annotations

import asyncio
import functools
import logging
import queue
import threading
import time
from concurrent.futures import Future
from types import TracebackType
from typing import Any, Callable, Dict, Generator, List, Optional, Tuple, Type, TypeVar, Union

import can

from ._buses import shows_own_frames, tells_of_loss
from ._inline import contents, u8, u32
from ._messages import Calls, Messages
from ._requests import Request, frame_of_request, request_of
from ._wire import RETRY, BusGone, Wire, flush, frame_of
from .errors import Closed, Error, NoMemory, Starting, TxFull
from .node import Node
from .values import ALL, Counts, Ended, Event, Frame, Given, Lane

__all__ = ["Awaited", "BusGone", "Messages", "Request", "Sending", "Station"]

log = logging.getLogger("fulwethi.can")

NOTIFIER_SECONDS = 0.1
"""So long the notifier's thread waits for a frame before it looks whether the station was closed."""

MOST_WAITING = 65536
"""So many frames wait for the station's thread; more are dropped, and told as missed."""

FRAMES_OF_A_TURN = 64
"""After so many frames the node's own ones are put."""

T = TypeVar("T")
Callback = TypeVar("Callback", bound=Callable[..., Any])


class Awaited(Future[T]):
    """A future of concurrent.futures that can be awaited, too."""

    def __await__(self) -> Generator[Any, None, T]:
        return asyncio.wrap_future(self).__await__()


class Sending(Awaited[Ended]):
    """A message on its way. Its result says how it has ended, whether well or not. Its exception is why it wasn't sent, or that the station ended before it.

    `cancel` ends the message, too.
    """

    def __init__(self, to: int, pgn: int, length: int) -> None:
        super().__init__()
        self.to, self.pgn, self.length = to, pgn, length
        self.number: Optional[int] = None
        """Its number among the messages to its destination, once it was taken over."""


class _Ear(can.Listener):
    """Hands each frame of the bus to the station's thread. All calls are made by the notifier's."""

    def __init__(self, station: Station) -> None:
        super().__init__()
        self._station = station
        self._has_dropped = False

    def on_message_received(self, msg: can.Message) -> None:
        waiting = self._station._queue
        if waiting.qsize() >= MOST_WAITING:
            self._has_dropped = True
            return
        if self._has_dropped:
            self._has_dropped = False
            waiting.put(self._station._lose)
        waiting.put(msg)

    def on_error(self, exc: Exception) -> None:
        self._end(BusGone(f"the bus went away: {exc}"), exc)

    def stop(self) -> None:
        self._end(BusGone("the bus's notifier was stopped"), None)

    def _end(self, failure: BusGone, cause: Optional[Exception]) -> None:
        failure.__cause__ = cause
        self._station._queue.put(functools.partial(self._station._lose_bus, failure))


class Station:
    """A station at an address, 0 to 253, on a bus of python-can. BadAddress, NoMemory: it isn't made.

    Frames come by a notifier: one of the station's own, or `notifier`, where the bus has one already. `shows_own` says whether the bus shows frames that it put to
    who put them (`receive_own_messages`); if it isn't said, the bus is asked. Then a frame counts as sent once it is shown, else once the bus has taken it.
    `clock` answers nanoseconds and doesn't go back: a slower one gives a simulated bus more time.

    A program that starts again must send nothing at first, since an answer to what it sent earlier could acknowledge a new message. So what is sent in the station's
    first 1,250 ms waits until then. With `again` False it is sent at once: for an address from which no program sent a message in the last 1,250 ms.

    Any thread may make a call. Each but `close` and `is_open` raises Closed once the station has ended, and BusGone if the bus went away.
    """

    def __init__(
        self,
        bus: can.BusABC,
        address: int,
        *,
        notifier: Optional[can.Notifier] = None,
        shows_own: Optional[bool] = None,
        clock: Callable[[], int] = time.monotonic_ns,
        again: bool = True,
    ) -> None:
        self.bus = bus
        self.address = address
        self._clock = clock
        self._start = clock()
        self._node = Node(address, again_at=0) if again else Node(address)
        self._sends_from = self._node.sends_from()
        self._wire = Wire(self._node, bus, shows_own_frames(bus) if shows_own is None else shows_own)
        self._queue: queue.SimpleQueue[Union[can.Message, Callable[[], None]]] = queue.SimpleQueue()
        self._gate = threading.Lock()
        self._end_of: Optional[Callable[[], Closed]] = None
        self._stop_asked = False
        # Of the station's thread:
        self._under_way: Dict[Tuple[int, int], Sending] = {}
        self._early: List[Tuple[Sending, bytes]] = []
        self._to_cancel: List[Sending] = []
        self._has_untold = False
        self._ports: List[int] = []
        # Changed as a whole, behind the gate:
        self._readers: Tuple[Messages[Given], ...] = ()
        self._callbacks: Tuple[Callable[[Given], Any], ...] = ()
        self._answers: Dict[int, Callable[[Request], Any]] = {}
        self._calls: Optional[Calls] = None
        self._ear = _Ear(self)
        self._has_own_notifier = notifier is None
        self._notifier = can.Notifier(bus, [], timeout=NOTIFIER_SECONDS) if notifier is None else notifier
        self._notifier.add_listener(self._ear)
        self._thread = threading.Thread(target=self._run, name=f"station {address:02X}", daemon=True)
        try:
            self._thread.start()
        except BaseException:
            self._leave_notifier()
            raise

    # Calls of any thread

    def send(self, to: int, pgn: int, data: Any) -> Sending:
        """Sends a copy of a message of 9 to 1,785 bytes to all (255), or of up to 117,440,505 bytes to one node.

        The result of what is answered is how the message has ended; `await` waits for it too. BadPgn, NoSuchStation, SameStation, TooShort, TooLong, LaneFull (32 to
        this destination have no outcome) and NoMemory are its exception.
        """
        message = contents(data)
        sending = Sending(u8(to, "an address"), u32(pgn, "a PGN"), len(message))
        self._post(functools.partial(self._begin, sending, message))
        sending.add_done_callback(self._cancel_if_asked)
        return sending

    def request(self, pgn: int, to: int = ALL) -> Awaited[None]:
        """Asks a node, or all, for a PGN, by a Request (SAE J1939-21), which is a single frame. What is answered is done once the bus has taken it.

        The answer comes as a message if it has more than 8 bytes and a port is open for it.
        """
        frame = frame_of_request(Request(self.address, u8(to, "an address"), u32(pgn, "a PGN")))
        return self._do(functools.partial(self._wire.put_single, frame))

    def open(self, pgn: int, max_len: int) -> int:
        """Opens a port for messages of a PGN of at most `max_len` bytes, and answers its number. BadPgn, PortsFull, NoMemory."""
        return self._ask(functools.partial(self._open, pgn, max_len))

    def close_port(self, port: int) -> None:
        """Closes a port: no message is given at it any more. NoSuchPort, NoMemory."""
        self._ask(functools.partial(self._close_port, port))

    def pause(self, port: int) -> None:
        """Pauses a port: connections that bring it a message are held. NoSuchPort, PortPaused, NoMemory."""
        self._ask(functools.partial(self._node.pause, port))

    def resume(self, port: int) -> None:
        """Ends the pause of a port. NoSuchPort, PortNotPaused, NoMemory."""
        self._ask(functools.partial(self._node.resume, port))

    def lane(self, to: int) -> Lane:
        """How many messages to a destination have no outcome, and whether it is in doubt after one that failed."""
        return self._ask(functools.partial(self._node.lane, to))

    def counts(self) -> Counts:
        """What was counted of frames and messages."""
        return self._ask(self._node.counts)

    def missed(self) -> None:
        """Frames of the bus were lost: what is coming in ends, and connections under way end as OVERRUN. To be called before a later frame comes."""
        self._post(self._lose)

    def on_message(self, callback: Callback) -> Callback:
        """From now on each message is given to this call, too. Calls are made one after another by a thread of their own; one may wait for a `send`."""
        with self._gate:
            self._begin_calls()
            self._callbacks += (callback,)
        return callback

    def on_request(self, pgn: int, callback: Callback) -> Callback:
        """From now on Requests for this PGN, to this node or to all, are given to this call, and the program answers them.

        The station answers each other Request to itself, that it doesn't have what is asked for.
        """
        with self._gate:
            self._begin_calls()
            self._answers = {**self._answers, u32(pgn, "a PGN"): callback}
        return callback

    def messages(self) -> Messages[Given]:
        """The messages from now on, for `for` or `async for`."""
        reader = Messages(self._forget)
        with self._gate:
            self._must_be_open()
            self._readers += (reader,)
        return reader

    @property
    def is_open(self) -> bool:
        """Whether the station is at work."""
        return self._end_of is None

    def close(self, timeout: Optional[float] = 5) -> None:
        """Ends the station. Messages under way are cancelled, futures end by Closed, and its threads have ended, once this returns. The bus stays open.

        A callback that is at work, and a bus that doesn't come back from a call, are waited for, each so many seconds at most.
        """
        self._queue.put(self._stop)
        if threading.current_thread() is self._thread:
            return
        self._thread.join(timeout)
        if self._thread.is_alive():
            log.warning("station %02X: the bus or the callback of a future is still at work after %s seconds", self.address, timeout)
        elif self._calls is not None and not self._calls.join(timeout):
            log.warning("station %02X: a callback is still at work after %s seconds", self.address, timeout)

    def __enter__(self) -> Station:
        return self

    def __exit__(self, kind: Optional[Type[BaseException]], error: Optional[BaseException], trace: Optional[TracebackType]) -> None:
        self.close()

    async def __aenter__(self) -> Station:
        return self

    async def __aexit__(self, kind: Optional[Type[BaseException]], error: Optional[BaseException], trace: Optional[TracebackType]) -> None:
        await asyncio.get_running_loop().run_in_executor(None, self.close)

    # Between the threads

    def _post(self, call: Callable[[], None]) -> None:
        """Has the station's thread make a call."""
        with self._gate:
            self._must_be_open()
            self._queue.put(call)

    def _do(self, call: Callable[[], T]) -> Awaited[T]:
        """Has it make a call, whose answer is that of a future."""
        future: Awaited[T] = Awaited()
        self._post(functools.partial(self._answer, future, call))
        return future

    def _ask(self, call: Callable[[], T]) -> T:
        """Has it make a call, and waits for its answer."""
        if threading.current_thread() is self._thread:
            return call()
        return self._do(call).result()

    def _answer(self, future: Awaited[T], call: Callable[[], T]) -> None:
        if not future.set_running_or_notify_cancel():
            return
        try:
            self._must_be_open()
            answer = call()
        except Exception as error:
            future.set_exception(error)
        else:
            future.set_result(answer)

    def _cancel_if_asked(self, sending: Future[Ended]) -> None:
        if sending.cancelled() and isinstance(sending, Sending):
            self._queue.put(functools.partial(self._cancel, sending))

    def _must_be_open(self) -> None:
        """Closed, BusGone: the station has ended."""
        if self._end_of is not None:
            raise self._end_of()

    def _begin_calls(self) -> None:
        """Has a thread for callbacks. It is called behind the gate."""
        self._must_be_open()
        if self._calls is None:
            self._calls = Calls(f"callbacks of station {self.address:02X}")

    def _forget(self, reader: Messages[Given]) -> None:
        with self._gate:
            self._readers = tuple(it for it in self._readers if it is not reader)

    # The station's thread

    def _run(self) -> None:
        failure: Optional[BaseException] = None
        try:
            while not self._stop_asked:
                self._turn()
        except BaseException as error:
            failure = error
        self._finish(failure)

    def _ticks(self) -> int:
        return (self._clock() - self._start) // 1_000_000

    def _seconds_until(self, tick: Optional[int]) -> Optional[float]:
        if tick is None:
            return None
        # A tick may be later than a queue can wait for.
        return min(3600.0, max(0.0, (self._start + tick * 1_000_000 - self._clock()) / 1e9))

    def _wait(self) -> Union[can.Message, Callable[[], None], None]:
        """The next frame or call; None if something else is to be done first."""
        now = self._ticks()
        next_at = now + RETRY if self._to_cancel or self._has_untold else self._wire.next_at(now)
        if self._early:
            next_at = self._sends_from if next_at is None else min(next_at, max(self._sends_from, now + 1))
        try:
            return self._queue.get(timeout=self._seconds_until(next_at))
        except queue.Empty:
            return None

    def _turn(self) -> None:
        """Waits, and does what is to be done."""
        item = self._wait()
        now = self._ticks()
        try:
            self._node.clock(now)
        except NoMemory:
            pass
        if self._early and now >= self._sends_from:
            self._begin_early()
        left = FRAMES_OF_A_TURN
        while item is not None and left:
            self._take(item, now)
            left -= 1
            item = self._queue.get_nowait() if left and self._queue.qsize() else None
        self._cancel_those_asked()
        self._wire.turn(now)
        self._tell()

    def _take(self, item: Union[can.Message, Callable[[], None]], now: int) -> None:
        if not isinstance(item, can.Message):
            item()
        elif item.is_error_frame:
            if tells_of_loss(self.bus, item):
                self._wire.lost(now)
        else:
            frame = frame_of(item)
            if frame is not None and not self._is_answered(frame):
                self._wire.heard(frame, item.is_rx)

    def _is_answered(self, frame: Frame) -> bool:
        """Whether it is a Request that the program answers, which is told then."""
        request = request_of(frame)
        if request is None or request.to not in (self.address, ALL) or request.source == self.address:
            return False
        answer = self._answers.get(request.pgn)
        if answer is not None and self._calls is not None:
            self._calls.make(answer, request)
        return answer is not None

    def _tell(self) -> None:
        """Hands out what the node tells. A message for which there is no memory now stays there."""
        self._has_untold = True
        try:
            for event in self._node.events():
                self._tell_one(event)
        except MemoryError:
            return
        self._has_untold = False

    def _tell_one(self, event: Event) -> None:
        if isinstance(event, Given):
            for reader in self._readers:
                reader.put(event)
            for callback in self._callbacks:
                if self._calls is not None:
                    self._calls.make(callback, event)
            return
        sending = self._under_way.pop((event.to, event.number), None)
        if sending is not None and sending.set_running_or_notify_cancel():
            sending.set_result(event)

    def _open(self, pgn: int, max_len: int) -> int:
        port = self._node.open(pgn, max_len)
        self._ports.append(port)
        return port

    def _close_port(self, port: int) -> None:
        self._node.close_port(port)
        self._ports.remove(port)

    def _begin_early(self) -> None:
        """Begins what was sent before the node sends."""
        early, self._early = self._early, []
        for sending, message in early:
            self._begin(sending, message)

    def _begin(self, sending: Sending, message: bytes) -> None:
        if sending.cancelled():
            return
        try:
            self._must_be_open()
            sending.number = self._node.send(sending.to, sending.pgn, message)
        except Starting:
            self._early.append((sending, message))
            return
        except Exception as error:
            if sending.set_running_or_notify_cancel():
                sending.set_exception(error)
            return
        self._under_way[sending.to, sending.number] = sending

    def _cancel(self, sending: Sending) -> None:
        if sending.number is not None and self._under_way.pop((sending.to, sending.number), None):
            self._to_cancel.append(sending)
            self._cancel_those_asked()

    def _cancel_those_asked(self) -> None:
        """Cancels what was asked to be, as far as there are places for aborts."""
        while self._to_cancel:
            try:
                self._node.cancel(self._to_cancel[0].to, self._to_cancel[0].number or 0)
            except (NoMemory, TxFull):
                return
            except Error:
                pass
            self._to_cancel.pop(0)

    def _lose(self) -> None:
        self._wire.lost(self._ticks())

    def _lose_bus(self, failure: BusGone) -> None:
        raise failure

    def _stop(self) -> None:
        self._stop_asked = True

    # The end

    def _finish(self, failure: Optional[BaseException]) -> None:
        """Ends all that waits for the station, and its threads, but for that of a callback at work."""
        with self._gate:
            self._end_of = functools.partial(end_of, failure)
        if failure is None:
            self._take_leave()
        elif not isinstance(failure, BusGone):
            log.error("station %02X ended", self.address, exc_info=failure)
        self._leave_notifier()
        self._node.close()
        self._begin_early()
        while self._queue.qsize():
            item = self._queue.get_nowait()
            if not isinstance(item, can.Message):
                self._refuse(item)
        for sending in self._under_way.values():
            if sending.set_running_or_notify_cancel():
                sending.set_exception(self._end_of())
        self._under_way.clear()
        for reader in self._readers:
            reader.end(failure)
        if self._calls is not None:
            self._calls.stop()

    def _refuse(self, call: Callable[[], None]) -> None:
        """Makes a call that waits: its future ends by the end of the station."""
        try:
            call()
        except Error:
            pass

    def _take_leave(self) -> None:
        """Aborts what is under way, so that no other node waits for it."""
        for port in self._ports:
            try:
                self._node.close_port(port)
            except Error:
                break
        for to, number in self._under_way:
            try:
                self._node.cancel(to, number)
            except Error:
                break
        flush(self._node, self.bus)

    def _leave_notifier(self) -> None:
        if self._has_own_notifier:
            self._notifier.stop()
        elif self._ear in self._notifier.listeners:
            self._notifier.remove_listener(self._ear)


def end_of(failure: Optional[BaseException]) -> Closed:
    """What is raised once the station has ended."""
    if failure is None:
        return Closed("the station is closed")
    if isinstance(failure, BusGone):
        gone = BusGone(str(failure))
        gone.__cause__ = failure.__cause__
        return gone
    end = Closed(f"the station ended: {failure}")
    end.__cause__ = failure
    return end
