"""Stations on the virtual bus of python-can. Clocks are slow where a message has to come, so that it does under any schedule."""

from __future__ import annotations

import asyncio
import concurrent.futures
import gc
import itertools
import socket
import threading
import time
import tracemalloc
from typing import Any, Callable, List, Optional, Tuple

import can
import pytest
from conftest import PATIENCE, slow_clock
from fulwethi import ALL, Closed, Ended, Given, Lane, Outcome, errors
from fulwethi._buses import shows_own_frames, tells_of_loss
from fulwethi._messages import Messages
from fulwethi._requests import frame_of_request, request_of
from fulwethi.can import FRAMES_OF_A_TURN, BusGone, Request, Station
from fulwethi.values import Frame

PGN, TO_ALL = 0xEF00, 0xFECA
TWENTY = bytes(range(20))


def pattern(length: int, seed: int) -> bytes:
    """Bytes that differ from place to place, and from seed to seed."""
    block = bytes((seed * 31 + place * 7 + place // 251) % 256 for place in range(251 * 256))
    return (block * (length // len(block) + 1))[:length]


@pytest.mark.parametrize("shows_own", [False, True], ids=["unseen", "shown"])
def test_messages_both_ways(bus: Callable[..., can.BusABC], shows_own: bool) -> None:
    """9 to 1,000,000 bytes both ways at once; where own frames are shown to who put them, each of which is waited for, to 10,000."""
    lengths = (9, 14, 100, 1785, 1786, 10_000) + (() if shows_own else (1_000_000,))
    buses = [bus(receive_own_messages=shows_own) for _ in range(2)]
    with Station(buses[0], 0x21, clock=slow_clock, again=False) as one, Station(buses[1], 0x35, clock=slow_clock, again=False) as other:
        ports = [station.open(PGN, 1_000_000) for station in (one, other)]
        readers = [station.messages() for station in (one, other)]
        sent = [[station.send(to, PGN, pattern(length, to)) for length in lengths] for station, to in ((one, 0x35), (other, 0x21))]
        for to, each in zip((0x35, 0x21), sent):
            assert [it.result() for it in each] == [Ended(to, number, Outcome.ACKNOWLEDGED) for number in range(1, len(lengths) + 1)]
        for station, source, port, reader in ((one, 0x35, ports[0], readers[0]), (other, 0x21, ports[1], readers[1])):
            came = [reader.get(PATIENCE) for _ in lengths]
            assert came == [Given(source, station.address, PGN, pattern(length, station.address), port) for length in lengths]
            assert station.counts().given == len(lengths)


def test_a_message_to_all(bus: Callable[..., can.BusABC]) -> None:
    with Station(bus(), 0x21, again=False) as one, Station(bus(), 0x35, clock=slow_clock, again=False) as other, Station(bus(), 0x40, clock=slow_clock, again=False) as third:
        readers = []
        for station in (other, third):
            station.open(TO_ALL, 1785)
            readers.append(station.messages())
        assert one.send(ALL, TO_ALL, TWENTY).result() == Ended(ALL, 1, Outcome.BROADCAST)
        assert [reader.get(PATIENCE).data for reader in readers] == [TWENTY, TWENTY]


@pytest.mark.parametrize(
    "refused, to, pgn, length",
    [
        (errors.TooShort, 0x35, PGN, 8),
        (errors.TooLong, ALL, TO_ALL, 1786),
        (errors.BadPgn, 0x35, 0xEF01, 9),
        (errors.NoSuchStation, 254, PGN, 9),
        (errors.SameStation, 0x21, PGN, 9),
    ],
    ids=lambda it: getattr(it, "name", ""),
)
def test_refusals_are_the_future_s_exception(bus: Callable[..., can.BusABC], refused: Any, to: int, pgn: int, length: int) -> None:
    with Station(bus(), 0x21, again=False) as station:
        with pytest.raises(refused):
            station.send(to, pgn, bytes(length)).result()


def test_a_station_sends_nothing_at_first(bus: Callable[..., can.BusABC]) -> None:
    """What is sent in its first 1,250 ms waits until then. What is cancelled meanwhile isn't sent, and what waits at the end ends by it."""
    began = time.monotonic()
    with Station(bus(), 0x21) as station:
        sent = [station.send(0x35, PGN, bytes(9)) for _ in range(3)]
        assert sent[1].cancel()
        assert [sent[place].result(PATIENCE).number for place in (0, 2)] == [1, 2]
        assert time.monotonic() - began > 1.25 and sent[1].number is None
    with Station(bus(), 0x21, clock=slow_clock) as station:
        early = station.send(0x35, PGN, bytes(9))
    with pytest.raises(Closed):
        early.result(PATIENCE)


def test_other_refusals(bus: Callable[..., can.BusABC]) -> None:
    with pytest.raises(errors.BadAddress):
        Station(bus(), 254, again=False)
    with Station(bus(), 0x21, again=False) as station:
        sent = [station.send(0x35, PGN, bytes(9)) for _ in range(33)]
        with pytest.raises(errors.LaneFull):
            sent[-1].result()
        assert station.lane(0x35) == Lane(32, False)
        for call in (lambda: station.send(0x35, PGN, "nine bytes"), lambda: station.send(0x35, PGN, 9)):
            with pytest.raises(TypeError):
                call()
        for wrong in (lambda: station.send(300, PGN, bytes(9)), lambda: station.request(1 << 18), lambda: station.request(0xFECA, 256)):
            with pytest.raises(ValueError):
                wrong()
        port = station.open(PGN, 9)
        station.pause(port)
        with pytest.raises(errors.PortPaused):
            station.pause(port)
        station.resume(port)
        station.close_port(port)
        with pytest.raises(errors.NoSuchPort):
            station.close_port(port)


class LossyBus(can.BusABC):
    """Loses each frame that a list of booleans names, in turn, and shows an error frame before the next one."""

    def __init__(self, inner: can.BusABC, losses: List[bool]) -> None:
        self._inner, self._losses, self._has_lost = inner, itertools.cycle(losses), False
        self._kept: Optional[can.Message] = None
        self.lost = 0
        self.channel_info = "lossy"
        super().__init__(channel=None)

    def _recv_internal(self, timeout: Optional[float]) -> Tuple[Optional[can.Message], bool]:
        if self._kept is not None:
            message, self._kept = self._kept, None
            return message, False
        message = self._inner.recv(timeout)
        if message is not None and next(self._losses):
            self.lost += 1
            self._has_lost = True
            return None, False
        if message is not None and self._has_lost:
            self._has_lost, self._kept = False, message
            return can.Message(is_error_frame=True), False
        return message, False

    def send(self, msg: can.Message, timeout: Optional[float] = None) -> None:
        self._inner.send(msg, timeout)


def test_losses(bus: Callable[..., can.BusABC]) -> None:
    """What comes is what was sent, each message at most once and in order; what is acknowledged has come; and each message ends.

    How many come depends on the schedule, these don't. test_wire.py does the same without threads.
    """
    losses = [place % 41 in (11, 12) for place in range(41)]
    lossy = [LossyBus(bus(), losses), LossyBus(bus(), losses[20:] + losses[:20])]
    with Station(lossy[0], 0x21, again=False) as one, Station(lossy[1], 0x35, again=False) as other:
        other.open(PGN, 1785)
        reader = other.messages()
        sent = [pattern(60, number) for number in range(6)]
        ended = [sending.result() for sending in [one.send(0x35, PGN, data) for data in sent]]
    came = [message.data for message in reader]
    assert [data for data in sent if data in came] == came and len(set(came)) == len(came)
    assert {data for data, it in zip(sent, ended) if it.outcome is Outcome.ACKNOWLEDGED} <= set(came)
    assert lossy[1].lost > 0


def test_missed(bus: Callable[..., can.BusABC]) -> None:
    """A loss that the program reports ends what is under way."""
    with Station(bus(), 0x21, clock=slow_clock, again=False) as station:
        sending = station.send(0x35, PGN, TWENTY)
        while station.lane(0x35).pending != 1:
            pass
        station.missed()
        assert sending.result() == Ended(0x35, 1, Outcome.OVERRUN)


def test_an_error_frame(bus: Callable[..., can.BusABC]) -> None:
    """It tells of a loss by itself, in its place among the frames."""
    at = bus()
    with Station(bus(), 0x21, clock=slow_clock, again=False) as station:
        sending = station.send(0x35, PGN, TWENTY)
        while station.lane(0x35).pending != 1:
            pass
        at.send(can.Message(is_error_frame=True))
        assert sending.result() == Ended(0x35, 1, Outcome.OVERRUN)


def test_a_flood_of_frames(bus: Callable[..., can.BusABC], monkeypatch: pytest.MonkeyPatch) -> None:
    """Frames for which there is no place are told as missed."""
    monkeypatch.setattr("fulwethi.can.MOST_WAITING", 4)
    at, goes_on = bus(), threading.Event()
    with Station(at, 0x21, clock=slow_clock, again=False) as station:
        sending = station.send(0x35, PGN, TWENTY)
        while station.lane(0x35).pending != 1:
            pass
        station._queue.put(lambda: goes_on.wait(PATIENCE) and None)
        ear = station._ear
        for _ in range(10):
            ear.on_message_received(can.Message(arbitration_id=0x18FEF190, data=bytes(8)))
        assert station._queue.qsize() <= 5
        goes_on.set()
        assert not sending.done() or sending.result().outcome is Outcome.OVERRUN
        while station._queue.qsize():
            time.sleep(0.001)
        ear.on_message_received(can.Message(arbitration_id=0x18FEF190, data=bytes(8)))
        assert sending.result() == Ended(0x35, 1, Outcome.OVERRUN)


# What goes wrong


def test_close_in_the_middle(bus: Callable[..., can.BusABC]) -> None:
    """Of either end: its futures end by Closed, its readers end, and the other end is told by an abort."""
    with Station(bus(), 0x35, clock=slow_clock, again=False) as other:
        other.open(PGN, 1_000_000)
        one = Station(bus(), 0x21, clock=slow_clock, again=False)
        one.open(PGN, 1_000_000)
        reader = one.messages()
        to_one, to_other = other.send(0x21, PGN, bytes(1_000_000)), one.send(0x35, PGN, bytes(1_000_000))
        queued = one.send(0x77, PGN, TWENTY)
        while other.counts().frames < 100:
            pass
        one.close(PATIENCE)
        one.close()
        for sending in (to_other, queued):
            with pytest.raises(Closed, match="the station is closed"):
                sending.result()
        assert to_one.result().outcome is Outcome.ABORTED
        assert list(reader) == [] and not one.is_open and not one._node._held.is_open
        with pytest.raises(EOFError):
            reader.get()
        calls = (lambda: one.send(0x35, PGN, TWENTY), lambda: one.open(PGN, 9), lambda: one.request(PGN), lambda: one.on_message(print), lambda: one.on_request(PGN, print))
        for call in (*calls, one.messages, one.missed, one.counts):
            with pytest.raises(Closed, match="the station is closed"):
                call()


def test_a_bus_that_goes_away(bus: Callable[..., can.BusABC]) -> None:
    at = bus()
    station = Station(at, 0x21, clock=slow_clock, again=False)
    station.on_message(print)
    reader = station.messages()
    sending = station.send(0x35, PGN, TWENTY)
    at.shutdown()
    with pytest.raises(BusGone) as gone:
        sending.result()
    assert isinstance(gone.value.__cause__, can.CanOperationError)
    with pytest.raises(EOFError):
        reader.get()
    with pytest.raises(BusGone):
        station.send(0x35, PGN, TWENTY)
    assert not station.is_open
    station.close()


class BrokenBus(can.BusABC):
    """Receives nothing, and can't be written to."""

    channel_info = "broken"

    def __init__(self) -> None:
        super().__init__(channel=None)

    def _recv_internal(self, timeout: Optional[float]) -> Tuple[Optional[can.Message], bool]:
        time.sleep(timeout or 0)
        return None, False

    def send(self, msg: can.Message, timeout: Optional[float] = None) -> None:
        raise OSError("unplugged")


def test_a_bus_that_can_t_be_written_to() -> None:
    with Station(BrokenBus(), 0x21, again=False) as station:
        with pytest.raises(BusGone, match="unplugged"):
            station.send(0x35, PGN, TWENTY).result()


def test_calls_that_wait_for_a_station_that_ends(bus: Callable[..., can.BusABC]) -> None:
    """What was asked for before the station's thread ends, and not done by then, ends by Closed; and nothing of it is put."""
    watch, goes_on = bus(), threading.Event()
    station = Station(bus(), 0x21, clock=slow_clock, again=False)
    station._queue.put(lambda: goes_on.wait(PATIENCE) and station._stop())
    futures = [station.send(0x35, PGN, TWENTY)]
    for _ in range(FRAMES_OF_A_TURN):
        futures.append(station.request(PGN))
    goes_on.set()
    station.close()
    ended = [type(future.exception()) for future in futures]
    assert ended[0] is Closed and ended[-1] is Closed
    assert count_of(watch) == ended.count(type(None))


def count_of(watch: can.BusABC) -> int:
    """How many Requests there were on a bus."""
    count = 0
    while (message := watch.recv(0.2)) is not None:
        count += message.arbitration_id == 0x18EAFF21
    return count


class StuckBus(BrokenBus):
    """Doesn't come back from a call until it is told to."""

    def __init__(self) -> None:
        super().__init__()
        self.goes_on = threading.Event()

    def send(self, msg: can.Message, timeout: Optional[float] = None) -> None:
        self.goes_on.wait(PATIENCE)


def test_a_bus_that_doesn_t_come_back(caplog: pytest.LogCaptureFixture) -> None:
    bus = StuckBus()
    station = Station(bus, 0x21, clock=slow_clock, again=False)
    sending = station.send(0x35, PGN, TWENTY)
    while station._queue.qsize():
        time.sleep(0.001)
    station.close(timeout=0.05)
    assert "still at work" in caplog.text and not sending.done()
    bus.goes_on.set()
    station.close()
    assert isinstance(sending.exception(), Closed)


def test_a_notifier_that_is_stopped(bus: Callable[..., can.BusABC]) -> None:
    at = bus()
    notifier = can.Notifier(at, [], timeout=0.05)
    with Station(at, 0x21, notifier=notifier, again=False) as station:
        sending = station.send(0x35, PGN, TWENTY)
        notifier.stop()
        with pytest.raises(BusGone, match="notifier was stopped"):
            sending.result()


def test_callbacks_that_raise(bus: Callable[..., can.BusABC], caplog: pytest.LogCaptureFixture) -> None:
    came: List[bytes] = []
    done = threading.Event()
    with Station(bus(), 0x21, clock=slow_clock, again=False) as one, Station(bus(), 0x35, clock=slow_clock, again=False) as other:
        other.open(PGN, 1785)

        @other.on_message
        def fails(message: Given) -> None:
            raise RuntimeError("on purpose")

        @other.on_message
        def keeps(message: Given) -> None:
            came.append(message.data)
            if len(came) == 3:
                done.set()

        ended = one.send(0x35, PGN, TWENTY)
        ended.add_done_callback(lambda _: 1 // 0)
        assert [it.result().outcome for it in (ended, *(one.send(0x35, PGN, TWENTY) for _ in range(2)))] == [Outcome.ACKNOWLEDGED] * 3
        assert done.wait(PATIENCE)
    assert came == [TWENTY] * 3 and caplog.text.count("RuntimeError: on purpose") == 3 and "ZeroDivisionError" in caplog.text


def test_a_callback_that_waits_and_closes(bus: Callable[..., can.BusABC]) -> None:
    """It may wait for a message that it sends, and close the station that calls it."""
    closed = threading.Event()
    with Station(bus(), 0x21, clock=slow_clock, again=False) as one:
        one.open(PGN, 1785)
        reader = one.messages()
        other = Station(bus(), 0x35, clock=slow_clock, again=False)
        other.open(PGN, 1785)

        @other.on_message
        def answer(message: Given) -> None:
            assert other.send(message.source, PGN, message.data[::-1]).result().outcome is Outcome.ACKNOWLEDGED
            other.close()
            closed.set()

        one.send(0x35, PGN, TWENTY)
        assert reader.get(PATIENCE).data == TWENTY[::-1]
        assert closed.wait(PATIENCE) and not other.is_open
        other.close()


def test_a_hundred_stations(bus: Callable[..., can.BusABC]) -> None:
    """Opened and closed, with a message each: no thread is left, and no memory."""

    def round_of(count: int) -> None:
        at = bus()
        stations = [Station(at, address, clock=slow_clock, again=False) for address in range(count)]
        for station in stations:
            station.open(PGN, 1785)
            station.on_message(print)
            station.send(0xFD, PGN, bytes(1785))
        with concurrent.futures.ThreadPoolExecutor(20) as pool:
            list(pool.map(Station.close, stations))
        at.shutdown()

    before = threading.active_count()
    round_of(10)
    gc.collect()
    held = in_use()
    tracemalloc.start()
    try:
        round_of(10)
        gc.collect()
        python_held, _ = tracemalloc.get_traced_memory()
        round_of(100)
        gc.collect()
        python_holds, _ = tracemalloc.get_traced_memory()
    finally:
        tracemalloc.stop()
    assert threading.active_count() == before
    # A station has 64 frames, a message of 1,785 bytes and tables of ports and lanes: a hundred of them would show.
    assert in_use() - held < 100_000 and python_holds - python_held < 100_000


def in_use() -> int:
    """How many bytes are in use that came from malloc."""
    import ctypes

    class Mallinfo(ctypes.Structure):
        _fields_ = [(name, ctypes.c_size_t) for name in "arena ordblks smblks hblks hblkhd usmblks fsmblks uordblks fordblks keepcost".split()]

    mallinfo2 = ctypes.CDLL(None).mallinfo2
    mallinfo2.restype = Mallinfo
    said = mallinfo2()
    return int(said.uordblks + said.hblkhd)


# Requests


def test_requests(bus: Callable[..., can.BusABC]) -> None:
    """A Request is a single frame. The program answers those that it says, and the station the others to itself."""
    watch = bus()
    # (who answers to all has a clock on which that takes no hours)
    with Station(bus(), 0x21, clock=slow_clock, again=False) as one, Station(bus(), 0x35, clock=slow_clock, again=False) as other, Station(bus(), 0x40, again=False) as third:
        for pgn in (PGN, TO_ALL):
            one.open(pgn, 1785)
        reader = one.messages()
        asked: List[Request] = []

        def answer(request: Request) -> None:
            asked.append(request)
            other.send(request.source, request.pgn, TWENTY)

        def answer_all(request: Request) -> None:
            asked.append(request)
            third.send(request.to, request.pgn, TWENTY)

        assert other.on_request(PGN, answer) is answer
        third.on_request(TO_ALL, answer_all)
        assert one.request(PGN, 0x35).result() is None
        assert reader.get(PATIENCE).data == TWENTY
        one.request(TO_ALL).result()
        assert reader.get(PATIENCE).to == ALL
        assert asked == [Request(0x21, 0x35, PGN), Request(0x21, ALL, TO_ALL)]
        one.request(0xFEDA, 0x35).result()
        seen = frames_until(watch, 0x18E8FF35)
    assert (0x18EA3521, "00ef00") in seen and (0x18EAFF21, "cafe00") in seen and (0x18EA3521, "dafe00") in seen
    assert [data for it, data in seen if it >> 16 == 0x18E8] == ["01ffffff21dafe00"]


def frames_until(watch: can.BusABC, last: int) -> List[Tuple[int, str]]:
    """What a bus shows up to a frame with this identifier."""
    seen = []
    while not seen or seen[-1][0] != last:
        message = watch.recv(PATIENCE)
        assert message is not None
        seen.append((message.arbitration_id, message.data.hex()))
    return seen


def test_request_of() -> None:
    assert request_of(Frame(0x18EA3521, bytes.fromhex("CAFE00"))) == Request(0x21, 0x35, 0xFECA)
    assert frame_of_request(Request(0x21, 0x35, 0xFECA)) == Frame(0x18EA3521, bytes.fromhex("CAFE00"))
    for other in (Frame(0x18EB3521, bytes(3)), Frame(0x19EA3521, bytes(3)), Frame(0x18EA3521, bytes(2)), Frame(0x18EA3521, bytes(9))):
        assert request_of(other) is None


# async


def run(work: Any) -> Any:
    """Runs a coroutine, no longer than a test may wait."""
    return asyncio.run(asyncio.wait_for(work, PATIENCE))


def test_async(bus: Callable[..., can.BusABC]) -> None:
    async def work() -> None:
        async with Station(bus(), 0x21, clock=slow_clock, again=False) as one, Station(bus(), 0x35, clock=slow_clock, again=False) as other:
            other.open(PGN, 1785)
            reader = other.messages()
            for number in range(3):
                assert (await one.send(0x35, PGN, pattern(50, number))).outcome is Outcome.ACKNOWLEDGED
            assert await one.request(PGN) is None
            with pytest.raises(errors.TooShort):
                await one.send(0x35, PGN, bytes(8))
            came = []
            async for message in reader:
                came.append(message.data)
                if len(came) == 3:
                    break
            assert came == [pattern(50, number) for number in range(3)]
        assert [message async for message in reader] == []

    run(work())


def test_a_message_isn_t_lost_where_its_reader_gives_up() -> None:
    async def work() -> None:
        reader: Messages[int] = Messages(lambda _: None)
        with pytest.raises(TimeoutError):
            await asyncio.wait_for(reader.__anext__(), 0.01)
        with pytest.raises(TimeoutError):
            reader.get(0.01)
        task = asyncio.ensure_future(reader.__anext__())
        await asyncio.sleep(0)
        # It comes while the task waits, and the task is cancelled before it goes on.
        reader.put(1)
        reader.put(2)
        task.cancel()
        with pytest.raises(asyncio.CancelledError):
            await task
        assert [reader.get(1), await reader.__anext__()] == [1, 2]
        reader.put(3)
        reader.close()
        assert [it async for it in reader] == [3]

    run(work())


def test_cancel(bus: Callable[..., can.BusABC]) -> None:
    """A future that is cancelled ends its message."""

    async def work() -> None:
        async with Station(bus(), 0x21, clock=slow_clock, again=False) as station:
            with pytest.raises(asyncio.TimeoutError):
                await asyncio.wait_for(station.send(0x35, PGN, TWENTY), 0.05)
            assert station.lane(0x35).pending == 0
            sending = station.send(0x35, PGN, TWENTY)
            assert sending.cancel() and sending.cancelled()
            assert station.lane(0x35).pending == 0
            assert station.counts().cancelled == 2 - (sending.number is None)

    run(work())


# What a bus tells


def test_one_bus_for_two_stations(bus: Callable[..., can.BusABC]) -> None:
    """Two stations behind one bus of python-can, that shows them the frames of each other."""
    at = bus(receive_own_messages=True)
    notifier = can.Notifier(at, [], timeout=0.05)
    with Station(at, 0x21, notifier=notifier, clock=slow_clock, again=False) as one, Station(at, 0x35, notifier=notifier, clock=slow_clock, again=False) as other:
        other.open(PGN, 1785)
        reader = other.messages()
        assert one.send(0x35, PGN, TWENTY).result().outcome is Outcome.ACKNOWLEDGED
        assert reader.get(PATIENCE).data == TWENTY
    assert notifier.listeners == []
    notifier.stop()


def test_what_is_known_of_a_bus(bus: Callable[..., can.BusABC]) -> None:
    assert shows_own_frames(bus(receive_own_messages=True)) and not shows_own_frames(bus())
    assert not shows_own_frames(BrokenBus())
    assert tells_of_loss(bus(), can.Message(is_error_frame=True))


class CanSocket(socket.socket):
    """Says that it is a CAN socket, and whether it shows own frames."""

    family = socket.AF_CAN
    shows_own = 0

    def getsockopt(self, *option: int) -> int:  # type: ignore[override]
        assert option == (socket.SOL_CAN_RAW, socket.CAN_RAW_RECV_OWN_MSGS)
        return self.shows_own


def test_what_is_known_of_socketcan() -> None:
    at = BrokenBus()
    with CanSocket(socket.AF_UNIX, socket.SOCK_DGRAM) as its_socket:
        at.socket = its_socket  # type: ignore[attr-defined]
        assert not shows_own_frames(at)
        its_socket.shows_own = 1
        assert shows_own_frames(at)
        told = {(error, second): tells_of_loss(at, can.Message(is_error_frame=True, arbitration_id=error, data=bytes([0, second, 0]))) for error in (0x100, 0x40, 0x04, 0x08) for second in (0, 1, 4)}
    assert [key for key, is_loss in told.items() if is_loss] == [(0x100, 0), (0x100, 1), (0x100, 4), (0x40, 0), (0x40, 1), (0x40, 4), (0x04, 1)]


def test_frames_that_are_passed_over(bus: Callable[..., can.BusABC]) -> None:
    """Of 11 bits, remote ones and those of CAN FD."""
    at = bus()
    with Station(bus(), 0x21, clock=slow_clock, again=False) as station:
        for words in ({"is_extended_id": False, "arbitration_id": 0x123}, {"is_remote_frame": True}, {"is_fd": True}):
            at.send(can.Message(**{"arbitration_id": 0x18EA2140, "data": bytes(0 if "is_remote_frame" in words else 3), **words}))
        at.send(can.Message(arbitration_id=0x18EA2140, data=bytes.fromhex("CAFE00")))
        assert frames_until(at, 0x18E8FF21) == [(0x18E8FF21, "01ffffff40cafe00")]
        assert station.counts().frames == 2
