"""A node: messages between two, every refusal as its exception, its lock and its end."""

from __future__ import annotations

import gc
import threading
import weakref
from typing import Any, Callable, Iterator, Tuple

import pytest
from conftest import PATIENCE
from fulwethi import ALL, AbortReason, Closed, Ended, Error, Fed, Frame, Given, Lane, Node, Outcome, _inline, errors

PGN = 0xEF00


@pytest.fixture
def pair() -> Iterator[Tuple[Node, Node]]:
    with Node(0x21) as one, Node(0x35) as other:
        yield one, other


def carry(*nodes: Node) -> int:
    """Carries each frame to the other nodes, until there is none."""
    frames = 0
    while any(carry_one(node, nodes) for node in nodes):
        frames += 1
    return frames


def carry_one(node: Node, nodes: Tuple[Node, ...]) -> bool:
    frame = node.front()
    if frame is None:
        return False
    for other in nodes:
        if other is not node:
            assert other.feed(frame) is Fed.TAKEN
    node.sent()
    return True


def test_messages(pair: Tuple[Node, Node]) -> None:
    one, other = pair
    port = other.open(PGN, 1_000_000)
    for number, length in enumerate((9, 1785, 1786, 100_000), 1):
        data = bytes(place % 251 for place in range(length))
        assert one.send(0x35, PGN, data) == number
        assert one.lane(0x35) == Lane(1, False)
        carry(one, other)
        assert list(other.events()) == [Given(0x21, 0x35, PGN, data, port)]
        assert list(one.events()) == [Ended(0x35, number, Outcome.ACKNOWLEDGED)]
    assert one.counts().acknowledged == 4 and other.counts().given == 4
    assert one.next_at() is None and one.next_due_at() is None and one.take() is None and one.front() is None


def test_a_broadcast(pair: Tuple[Node, Node]) -> None:
    one, other = pair
    port = other.open(0xFECA, 1785)
    one.send(ALL, 0xFECA, memoryview(bytearray(range(9))))
    for frames, tick in ((1, 50), (1, 100), (1, None)):
        assert carry(one, other) == frames
        assert one.next_at() == tick
        if tick is not None:
            one.clock(tick)
    assert list(other.events()) == [Given(0x21, ALL, 0xFECA, bytes(range(9)), port)]
    assert list(one.events()) == [Ended(ALL, 1, Outcome.BROADCAST)]


def test_missed_and_cancelled(pair: Tuple[Node, Node]) -> None:
    one, other = pair
    other.open(PGN, 1785)
    one.send(0x35, PGN, bytes(100))
    one.front()
    one.sent()
    assert one.missed()
    assert list(one.events()) == [Ended(0x35, 1, Outcome.OVERRUN)]
    assert one.lane(0x35) == Lane(0, True)
    number = one.send(0x35, PGN, bytes(100))
    one.cancel(0x35, number)
    assert list(one.events()) == [Ended(0x35, 2, Outcome.CANCELLED)]


def test_a_message_is_aborted_and_one_times_out(pair: Tuple[Node, Node]) -> None:
    one, other = pair
    one.send(0x35, PGN, bytes(100))
    carry(one, other)
    assert list(one.events()) == [Ended(0x35, 1, Outcome.ABORTED, AbortReason.RESOURCES)]
    one.send(0x77, PGN, bytes(100))
    one.front()
    one.sent()
    due = one.next_due_at()
    assert due == 1250
    one.clock(due)
    assert one.fire_all()
    assert list(one.events()) == [Ended(0x77, 1, Outcome.TIMED_OUT)]


def test_a_program_that_starts_again_sends_nothing_at_first() -> None:
    with Node(0x21) as node:
        assert node.sends_from() == 0
    with Node(0x21, again_at=5000) as node:
        assert node.sends_from() == 6250
        for tick in (5000, 6249):
            node.clock(tick)
            with pytest.raises(errors.Starting):
                node.send(0x35, PGN, bytes(9))
        assert node.feed(Frame(0x18EA2140, bytes(3))) is Fed.TAKEN and node.front() is not None
        node.clock(6250)
        assert node.send(0x35, PGN, bytes(9)) == 1


def filled(node: Node) -> Node:
    """A node whose queue is full of answers to Requests."""
    for _ in range(64):
        node.feed(Frame(0x18EA3540, bytes(3)))
    return node


def late(node: Node) -> Node:
    node.clock(10)
    return node


def paused(node: Node) -> int:
    port = node.open(PGN, 9)
    node.pause(port)
    return port


def all_of(call: Callable[[], Any]) -> Callable[[], Any]:
    """A call that is made until it is refused."""

    def make() -> None:
        for _ in range(100):
            call()

    return make


REFUSED = {
    errors.BadAddress: lambda node: Node(254),
    errors.BadPgn: lambda node: node.open(0xEF01, 9),
    errors.PortsFull: lambda node: all_of(lambda: node.open(PGN, 9))(),
    errors.NoSuchPort: lambda node: node.close_port(7),
    errors.PortPaused: lambda node: node.pause(paused(node)),
    errors.PortNotPaused: lambda node: node.resume(node.open(PGN, 9)),
    errors.NoSuchStation: lambda node: node.send(254, PGN, bytes(9)),
    errors.SameStation: lambda node: node.send(0x35, PGN, bytes(9)),
    errors.TooShort: lambda node: node.send(0x21, PGN, bytes(8)),
    errors.TooLong: lambda node: node.send(ALL, 0xFECA, bytes(1786)),
    errors.LaneFull: lambda node: all_of(lambda: node.send(0x21, PGN, bytes(9)))(),
    errors.Starting: lambda node: Node(0x21, again_at=5).send(0x35, PGN, bytes(9)),
    errors.NothingToSend: lambda node: node.sent(),
    errors.NothingDue: lambda node: node.fire(),
    errors.ClockPassed: lambda node: late(node).clock(9),
    errors.StationAddress: lambda node: node.feed(Frame(0x18EA2135, bytes(3))),
    errors.IdTooLarge: lambda node: node.feed(Frame(1 << 29)),
    errors.DataTooLong: lambda node: node.feed(Frame(0x18EA3521, bytes(9))),
    errors.TxFull: lambda node: filled(node).feed(Frame(0x18EA3540, bytes(3))),
}
"""How each refusal of a node comes about; of the others one can't make a node say them, since they are of 2^64 frames or of want of memory."""


@pytest.mark.parametrize("refused", REFUSED, ids=lambda it: it.name)
def test_refusals(refused: Any) -> None:
    with Node(0x35) as node:
        with pytest.raises(refused) as said:
            REFUSED[refused](node)
        assert type(said.value) is refused and str(said.value) == f"{refused.name}: {refused.text}"


def test_send_refusal(pair: Tuple[Node, Node]) -> None:
    one, _ = pair
    for to, pgn, length, refused in ((0x35, PGN, 117_440_506, errors.TooLong), (0x35, PGN, 117_440_505, None), (254, PGN, 9, errors.NoSuchStation), (0x35, 1, 9, errors.BadPgn)):
        assert one.send_refusal(to, pgn, length) is refused


def test_a_frame_of_more_than_eight_bytes_is_told_by_its_identifier_first() -> None:
    with Node(0x35) as node:
        with pytest.raises(errors.IdTooLarge):
            node.feed(Frame(1 << 29, bytes(9)))


def test_no_byte_of_a_longer_frame_is_read() -> None:
    """The library isn't called with it, since there are 8 bytes behind the pointer."""
    with Node(0x35) as node:
        over(node, OneAnswer(0))
        assert node.feed(Frame(0x18EA3521, bytes(8))) is Fed.TAKEN
        with pytest.raises(errors.DataTooLong):
            node.feed(Frame(0x18EA3521, bytes(9)))


def test_wrong_values(pair: Tuple[Node, Node]) -> None:
    one, _ = pair
    for call in (lambda: Node(300), lambda: one.send(-1, PGN, bytes(9)), lambda: one.clock(1 << 64), lambda: one.feed(Frame(1 << 32)), lambda: one.open(1 << 32, 9)):
        with pytest.raises(ValueError):
            call()
    for data in ("a text of nine bytes", 100, None):
        with pytest.raises(TypeError):
            one.send(0x35, PGN, data)


class OneAnswer:
    """A library that answers each call by one code, and says when it is in a call."""

    def __init__(self, code: int) -> None:
        self.code = code
        self.at_once = self.most_at_once = 0
        self.entered, self.goes_on = threading.Semaphore(0), threading.Semaphore(0)
        self.waits = False

    def __getattr__(self, name: str) -> Callable[..., int]:
        def answer(*_: object) -> int:
            if self.waits:
                self.at_once += 1
                self.most_at_once = max(self.most_at_once, self.at_once)
                self.entered.release()
                self.goes_on.acquire()
                self.at_once -= 1
            return self.code

        return answer


def over(node: Node, library: OneAnswer) -> Node:
    node._library = library  # type: ignore[assignment]
    return node


@pytest.mark.parametrize("refused", errors.Refused.__subclasses__(), ids=lambda it: it.name)
def test_each_code_is_an_exception(refused: Any) -> None:
    """Of a library that answers each code: want of memory and 2^64 frames among them."""
    with Node(0x35) as node:
        over(node, OneAnswer(refused.code))
        with pytest.raises(refused):
            node.cancel(0x21, 1)


def test_codes_that_are_answers(pair: Tuple[Node, Node]) -> None:
    one, _ = pair
    assert over(one, OneAnswer(errors.WithoutRoom.code)).feed(Frame(1)) is Fed.WITHOUT_ROOM
    assert over(one, OneAnswer(errors.PassedBy.code)).feed(Frame(1)) is Fed.PASSED_BY
    assert over(one, OneAnswer(errors.NotEnded.code)).missed() is False
    assert over(one, OneAnswer(errors.TxFull.code)).fire_all() is False
    assert over(one, OneAnswer(errors.NothingDue.code)).fire_all() is True
    with pytest.raises(Error, match="code 999"):
        over(one, OneAnswer(999)).sent()


def test_no_two_calls_at_once() -> None:
    with Node(0x35) as node:
        library = OneAnswer(0)
        library.waits = True
        over(node, library)
        threads = [threading.Thread(target=node.sent) for _ in range(4)]
        for thread in threads:
            thread.start()
        for _ in threads:
            assert library.entered.acquire(timeout=PATIENCE)
            assert not library.entered.acquire(timeout=0.05)
            library.goes_on.release()
        for thread in threads:
            thread.join()
        assert library.most_at_once == 1


def test_close() -> None:
    node = Node(0x35)
    node.close()
    node.close()
    for call in (node.front, node.missed, lambda: node.send(0x21, PGN, bytes(9)), lambda: list(node.events())):
        with pytest.raises(Closed, match="the node is closed"):
            call()


def test_what_is_forgotten_is_freed(monkeypatch: pytest.MonkeyPatch) -> None:
    freed = []
    free = _inline.free
    monkeypatch.setattr(_inline, "free", lambda library, name, handle: (freed.append((name, bool(handle.ptr))), free(library, name, handle)))
    node = Node(0x35)
    gone = weakref.ref(node)
    del node
    gc.collect()
    assert gone() is None and freed == [("fulwethi_raw_free", True)]
    node = Node(0x35)
    node.close()
    del node
    gc.collect()
    assert freed == [("fulwethi_raw_free", True)] * 2
