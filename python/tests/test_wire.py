"""The order in which a node is told of frames, with ticks that the test counts, and a bus that does what it says."""

from __future__ import annotations

import random
from typing import Dict, List, Optional

import can
import pytest
from fulwethi import ALL, Ended, Fed, Frame, Node, Outcome, errors
from fulwethi._wire import ECHO_LOST, ECHO_WAIT, RETRY, BusGone, Wire

PGN, TO_ALL = 0xEF00, 0xFECA
OTHER = Frame(0x18FEF190, bytes(8))


class Told:
    """A node that tells what it is told, in order."""

    def __init__(self, address: int = 0x21) -> None:
        self.address = address
        self.calls: List[object] = []
        self.queue: List[Frame] = []
        self.due: Optional[int] = None
        self.refuses: Optional[errors.Refused] = None

    def feed(self, frame: Frame) -> Fed:
        if self.refuses is not None:
            raise self.refuses
        self.calls.append(frame)
        return Fed.TAKEN

    def missed(self) -> bool:
        self.calls.append("missed")
        return True

    def sent(self) -> None:
        self.calls.append("sent")
        self.queue.pop(0)

    def front(self) -> Optional[Frame]:
        return self.queue[0] if self.queue else None

    def fire_all(self) -> bool:
        return True

    def next_at(self) -> Optional[int]:
        return 0 if self.queue else self.due

    def next_due_at(self) -> Optional[int]:
        return self.due


class Bus:
    """Takes frames, unless it is told to refuse them."""

    def __init__(self) -> None:
        self.put: List[Frame] = []
        self.refuses: Optional[Exception] = None

    def send(self, message: can.Message, timeout: Optional[float] = None) -> None:
        assert timeout is not None
        if self.refuses is not None:
            raise self.refuses
        assert message.is_extended_id
        self.put.append(Frame(message.arbitration_id, bytes(message.data)))


def own(number: int) -> Frame:
    return Frame(0x1CEB3521, bytes([number] * 8))


def made(shows_own: bool, frames: int = 0) -> tuple[Told, Bus, Wire]:
    node, bus = Told(), Bus()
    node.queue = [own(number) for number in range(frames)]
    return node, bus, Wire(node, bus, shows_own)  # type: ignore[arg-type]


def test_a_bus_that_shows_nothing() -> None:
    node, bus, wire = made(False, 3)
    wire.turn(0)
    assert bus.put == [own(0), own(1), own(2)] and node.calls == ["sent"] * 3
    # One that is shown late, or by another program of this machine, is no other node's.
    wire.heard(own(1), True)
    wire.heard(OTHER, True)
    wire.lost(1)
    assert node.calls[3:] == [OTHER, "missed"]
    assert wire.next_at(1) is None


def test_a_frame_is_sent_where_it_is_shown() -> None:
    node, bus, wire = made(True, 2)
    wire.turn(0)
    assert bus.put == [own(0)] and node.calls == []
    assert wire.next_at(0) == ECHO_LOST
    wire.heard(OTHER, True)
    wire.heard(own(0), False)
    assert node.calls == [OTHER, "sent"]
    wire.turn(1)
    assert bus.put == [own(0), own(1)]


def test_a_loss_while_a_frame_is_outstanding() -> None:
    node, _, wire = made(True, 1)
    wire.turn(0)
    wire.lost(10)
    wire.heard(OTHER, True)
    assert node.calls == [] and wire.next_at(10) == 10 + ECHO_WAIT
    wire.heard(own(0), False)
    assert node.calls == ["missed", "sent"]
    wire.heard(OTHER, True)
    assert node.calls[2:] == [OTHER]


def test_a_frame_that_is_never_shown() -> None:
    node, bus, wire = made(True, 2)
    wire.turn(0)
    wire.turn(ECHO_LOST - 1)
    assert node.calls == []
    wire.turn(ECHO_LOST)
    assert wire.next_at(ECHO_LOST) == ECHO_LOST + ECHO_WAIT
    wire.turn(ECHO_LOST + ECHO_WAIT)
    assert node.calls == ["missed", "sent", "missed"] and bus.put == [own(0), own(1)]
    # Shown after all: what came since isn't in order.
    wire.heard(own(0), False)
    assert node.calls[3:] == ["missed"]
    wire.heard(own(1), False)
    assert node.calls[4:] == ["sent"]


def test_a_bus_that_takes_nothing() -> None:
    node, bus, wire = made(False, 3)
    bus.refuses = can.CanOperationError("full")
    wire.turn(5)
    assert node.calls == [] and wire.next_at(5) == 5 + RETRY
    wire.turn(5 + ECHO_LOST - 1)
    assert node.calls == []
    wire.turn(5 + ECHO_LOST)
    assert node.calls == ["missed", "sent", "missed"] * 3 and node.queue == []
    assert wire.next_at(5 + ECHO_LOST) is None
    bus.refuses = None
    node.queue = [own(7)]
    wire.turn(3000)
    assert bus.put == [own(7)]
    # It is patient again.
    bus.refuses = can.CanOperationError("full")
    node.queue = [own(8)]
    wire.turn(3001)
    assert len(node.queue) == 1


def test_a_bus_that_goes_away() -> None:
    _, bus, wire = made(False, 1)
    bus.refuses = OSError("unplugged")
    with pytest.raises(BusGone, match="unplugged") as gone:
        wire.turn(0)
    assert gone.value.__cause__ is bus.refuses


def test_another_node_with_the_address(caplog: pytest.LogCaptureFixture) -> None:
    node, _, wire = made(False)
    wire.heard(own(1), False)
    assert caplog.records == []
    wire.heard(own(1), True)
    wire.heard(own(2), True)
    assert node.calls == [] and len(caplog.records) == 1 and "address 21" in caplog.text


def test_a_frame_without_memory_waits_and_keeps_its_place() -> None:
    node, _, wire = made(False)
    node.refuses = errors.NoMemory()
    wire.heard(OTHER, True)
    wire.lost(0)
    wire.heard(own(9), False)
    assert node.calls == [] and wire.next_at(0) == RETRY
    node.refuses = None
    wire.turn(RETRY)
    assert node.calls == [OTHER, "missed"]


def test_a_frame_without_a_place_for_its_answer() -> None:
    """It waits until frames are put; behind one that was put and has no place yet it counts as missed."""
    node, bus, wire = made(False, 1)
    node.refuses = errors.TxFull()
    bus.refuses = can.CanOperationError("full")
    wire.heard(OTHER, True)
    wire.turn(0)
    assert node.calls == [] and wire.next_at(0) == RETRY
    node.refuses = bus.refuses = None
    wire.turn(RETRY)
    assert node.calls == [OTHER, "sent"]

    node, bus, wire = made(True, 1)
    wire.turn(0)
    node.refuses = errors.TxFull()
    wire.heard(OTHER, True)
    assert node.calls == ["missed"]
    wire.heard(own(0), False)
    assert node.calls == ["missed", "sent"]


def test_losses_over_a_node() -> None:
    """With a node itself: a connection under way ends as OVERRUN."""
    with Node(0x21) as node:
        bus = Bus()
        wire = Wire(node, bus, False)  # type: ignore[arg-type]
        node.send(0x35, PGN, bytes(100))
        wire.turn(0)
        wire.lost(0)
        assert list(node.events()) == [Ended(0x35, 1, Outcome.OVERRUN)] and len(bus.put) == 1


class Side:
    """A node of an exchange in memory, with its wire, and what waits for it: frames, and in place of those that were lost None."""

    def __init__(self, address: int, reports: bool) -> None:
        self.node, self.bus, self.reports = Node(address), Bus(), reports
        self.wire = Wire(self.node, self.bus, False)  # type: ignore[arg-type]
        self.waiting: List[Optional[Frame]] = []

    def turn(self, now: int) -> bool:
        """One turn at a tick: whether anything was to do."""
        self.node.clock(now)
        did = bool(self.waiting)
        for frame in self.waiting:
            if frame is not None:
                self.wire.heard(frame, True)
            elif self.reports:
                self.wire.lost(now)
        self.waiting.clear()
        self.wire.turn(now)
        return did or bool(self.bus.put)


class Losing:
    """Loses frames in runs, the same ones each time."""

    def __init__(self, seed: int) -> None:
        self._random, self._left, self.count = random.Random(seed), 0, 0

    def is_lost(self) -> bool:
        if not self._left and self._random.random() < 0.02:
            self._left = self._random.randint(1, 6)
        if not self._left:
            return False
        self._left -= 1
        self.count += 1
        return True


class Exchange:
    """Messages of 20 and 27 bytes from one node to the other, and as many to all, over a bus that loses frames for each."""

    def __init__(self, messages: int, reports: bool, seed: int) -> None:
        self.sides = [Side(0x21, reports), Side(0x35, reports)]
        self.losing = Losing(seed)
        self.messages = messages
        self.sent: Dict[int, List[bytes]] = {0x35: [], ALL: []}
        self.given: Dict[int, List[bytes]] = {0x35: [], ALL: []}
        self.ended: Dict[int, List[Ended]] = {0x35: [], ALL: []}
        for pgn in (PGN, TO_ALL):
            self.sides[1].node.open(pgn, 1785)

    def run(self) -> Exchange:
        now = 0
        while any(len(ended) < self.messages for ended in self.ended.values()):
            self.send()
            did = [side.turn(now) for side in self.sides]
            self.carry()
            if not any(did):
                now = max(now, min(tick for side in self.sides if (tick := side.wire.next_at(now)) is not None))
        for side in self.sides:
            side.node.close()
        return self

    def send(self) -> None:
        for to, pgn in ((0x35, PGN), (ALL, TO_ALL)):
            sent = self.sent[to]
            if len(sent) < self.messages and len(sent) - len(self.ended[to]) < 8:
                sent.append(bytes([to, *len(sent).to_bytes(4, "big")]) * 4 + bytes(7 * (len(sent) % 2)))
                self.sides[0].node.send(to, pgn, sent[-1])

    def carry(self) -> None:
        for side, other in zip(self.sides, reversed(self.sides)):
            other.waiting += [None if self.losing.is_lost() else frame for frame in side.bus.put]
            side.bus.put.clear()
            for event in side.node.events():
                if isinstance(event, Ended):
                    self.ended[event.to].append(event)
                else:
                    self.given[event.to].append(event.data)


def test_an_exchange_with_losses() -> None:
    """Each message that is given was sent, at most once and in order; what is acknowledged was given."""
    exchange = Exchange(500, True, 1).run()
    for to, given in exchange.given.items():
        assert [data for data in exchange.sent[to] if data in set(given)] == given and len(set(given)) == len(given)
        assert len(given) > 200
    acknowledged = {exchange.sent[0x35][it.number - 1] for it in exchange.ended[0x35] if it.outcome is Outcome.ACKNOWLEDGED}
    assert acknowledged <= set(exchange.given[0x35])
    assert {it.outcome for it in exchange.ended[0x35]} >= {Outcome.ACKNOWLEDGED, Outcome.OVERRUN, Outcome.TIMED_OUT}
    assert exchange.losing.count > 200


def test_losses_that_aren_t_reported_are_seen() -> None:
    """The same without the reports gives a message that nobody sent: so the test above would find one."""
    exchange = Exchange(500, False, 1).run()
    assert not set(exchange.given[ALL]) <= set(exchange.sent[ALL])
