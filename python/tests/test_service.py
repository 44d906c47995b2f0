"""A service with clients and inboxes, over threads, and every refusal as its exception."""

from __future__ import annotations

import threading
from typing import Any, Dict, List

import pytest
from fulwethi import ALL, Closed, Frame, Message, Note, Outcome, Service, errors

PGN = 0xEF00
ADDRESSES = (0x21, 0x35, 0x40)


def work(service: Service) -> bool:
    """Turns, and a bus without other nodes: whether there was anything to do."""
    made = service.turn()
    while (front := service.front()) is not None:
        service.sent(front[0])
        made += 1
    return made > 0


def test_messages() -> None:
    with Service([0x21, 0x35]) as service, service.attach(0x21) as client, service.open(0x35, PGN, 100_000) as inbox:
        assert (client.station, inbox.station, inbox.port) == (0x21, 0x35, 1)
        for ticket, length in enumerate((9, 1785, 1786, 50_000), 1):
            assert client.submit(0x35, PGN, bytes(length)) == ticket
        while work(service):
            pass
        assert [(it, len(it.data)) for it in inbox.messages()] == [(Message(0x21, 0x35, PGN, bytes(length)), length) for length in (9, 1785, 1786, 50_000)]
        assert list(client.outcomes()) == [Note(it, it, 0x35, Outcome.ACKNOWLEDGED) for it in (1, 2, 3, 4)]
        assert client.outcome() is None and inbox.receive() is None
        assert service.counts().given == 4 and service.next_at() is None


def test_news() -> None:
    """Each client and each inbox is named once, however much came, and again once more comes."""
    with Service([0x21, 0x35]) as service, service.attach(0x21) as client, service.open(0x35, PGN, 9) as inbox, service.open(0x21, PGN, 9) as other:
        assert service.news() is None
        for _ in range(3):
            client.submit(0x35, PGN, bytes(9))
        while work(service):
            pass
        assert service.news() is client and service.news() is inbox and service.news() is None
        client.submit(0x35, PGN, bytes(9))
        while work(service):
            pass
        assert [service.news(), service.news(), service.news()] == [client, inbox, None]
        assert len(list(inbox.messages())) == 4 and other.receive() is None
        assert service.agrees([client], [inbox, other])


def test_full_inboxes() -> None:
    with Service([0x21, 0x35]) as service, service.attach(0x21) as client, service.open(0x35, PGN, 9, places=1) as inbox:
        for _ in range(2):
            client.submit(0x35, PGN, bytes(9))
        while work(service):
            pass
        assert [(note.outcome, note.reason) for note in client.outcomes()] == [(Outcome.ACKNOWLEDGED, 0), (Outcome.ABORTED, 2)]
        assert service.turned_away() == 1 and len(list(inbox.messages())) == 1
        service.detach(client.number)
        service.close_port_of(0x35, inbox.port)
        with pytest.raises(errors.PortClosed):
            inbox.receive()


def test_frames_of_others_and_time() -> None:
    with Service([0x35]) as service, service.open(0x35, PGN, 1785) as inbox:
        service.feed(Frame(0x1CEC3521, bytes.fromhex("10090002FF00EF00")))
        while work(service):
            pass
        due = service.next_due_at()
        assert due == 1250 and service.next_at() == 1250
        service.missed(0x35)
        assert service.next_due_at() is None
        service.feed(Frame(0x1CEC3521, bytes.fromhex("10090002FF00EF00")))
        for packet in ("0101020304050607", "020809FFFFFFFFFF"):
            service.turn()
            service.feed(Frame(0x1CEB3521, bytes.fromhex(packet)))
        while work(service):
            pass
        assert inbox.receive() == Message(0x21, 0x35, PGN, bytes(range(1, 10)))
        service.clock(60)


def test_over_threads() -> None:
    """Three stations, each with a client and an inbox in threads of their own: each message comes once, in order, and each has its outcome."""
    count = 40
    service = Service(ADDRESSES)
    ends = {(one, other): (service.attach(one), service.open(other, PGN, 1785)) for one, other in zip(ADDRESSES, ADDRESSES[1:] + ADDRESSES[:1])}
    came: Dict[Any, List[bytes]] = {pair: [] for pair in ends}
    noted: Dict[Any, List[Note]] = {pair: [] for pair in ends}
    news = threading.Semaphore(0)

    def submit(pair: Any) -> None:
        client, _ = ends[pair]
        for number in range(count):
            while True:
                try:
                    client.submit(pair[1], PGN, number.to_bytes(2, "little") * 50)
                    break
                except errors.RingFull:
                    noted[pair] += client.outcomes()
            news.release()
        while len(noted[pair]) < count:
            noted[pair] += client.outcomes()

    def receive(pair: Any) -> None:
        _, inbox = ends[pair]
        while len(came[pair]) < count:
            came[pair] += (message.data for message in inbox.messages())

    threads = [threading.Thread(target=target, args=(pair,)) for pair in ends for target in (submit, receive)]
    for thread in threads:
        thread.start()
    while any(thread.is_alive() for thread in threads):
        if not work(service):
            news.acquire(timeout=0.01)
    for pair in ends:
        assert came[pair] == [number.to_bytes(2, "little") * 50 for number in range(count)]
        assert [note.ticket for note in noted[pair]] == list(range(1, count + 1))
        assert {note.outcome for note in noted[pair]} == {Outcome.ACKNOWLEDGED}
    for client, inbox in ends.values():
        client.close()
        inbox.close()
    service.close()


def repeat(times: int, call: Any) -> None:
    for _ in range(times):
        call()


def close_port_of_another(service: Service) -> None:
    with Service([1]) as other, other.open(1, PGN, 9) as inbox:
        service.close_port(inbox)


def late(service: Service) -> Service:
    service.clock(10)
    return service


def paused(service: Service) -> int:
    inbox = service.open(0x21, PGN, 9)
    service.pause(0x21, inbox.port)
    return inbox.port


REFUSED = {
    errors.BadAddress: lambda service: Service([1, 1]),
    errors.NoSuchStation: lambda service: service.attach(9),
    errors.ClientsFull: lambda service: repeat(17, lambda: service.attach(0x21)),
    errors.BadPgn: lambda service: service.open(0x21, 0xEF01, 9),
    errors.BadPlaces: lambda service: service.open(0x21, PGN, 9, places=65_537),
    errors.NoSuchClient: lambda service: service.detach(0),
    errors.ClientGone: lambda service: repeat(2, lambda number=service.attach(0x21).number: service.detach(number)),  # type: ignore[misc]
    errors.PortsFull: lambda service: repeat(17, lambda: service.open(0x21, PGN, 9)),
    errors.NotThisSegment: close_port_of_another,
    errors.NoSuchPort: lambda service: service.pause(0x21, 7),
    errors.PortPaused: lambda service: service.pause(0x21, paused(service)),
    errors.PortNotPaused: lambda service: service.resume(0x21, service.open(0x21, PGN, 9).port),
    errors.StationAddress: lambda service: service.feed(Frame(0x18EEFF21, bytes(8))),
    errors.IdTooLarge: lambda service: service.feed(Frame(1 << 29, bytes(9))),
    errors.DataTooLong: lambda service: service.feed(Frame(0x18EEFF90, bytes(9))),
    errors.BusFull: lambda service: repeat(4097, lambda: service.feed(Frame(0x18EEFF90, bytes(8)))),
    errors.NothingToSend: lambda service: service.sent(0x21),
    errors.ClockPassed: lambda service: late(service).clock(9),
    errors.SameStation: lambda service: service.attach(0x21).submit(0x21, PGN, bytes(9)),
    errors.TooShort: lambda service: service.attach(0x21).submit(0x35, PGN, bytes(8)),
    errors.TooLong: lambda service: service.attach(0x21).submit(ALL, 0xFECA, bytes(1786)),
    errors.RingFull: lambda service: repeat(65, lambda client=service.attach(0x21): client.submit(0x35, PGN, bytes(9))),  # type: ignore[misc]
    errors.TraceFull: lambda service: [service.clock(tick) for tick in range(1_000_001)],
}
"""How each refusal of a service comes about."""


@pytest.mark.parametrize("refused", REFUSED, ids=lambda it: it.name)
def test_refusals(refused: Any) -> None:
    with Service([0x21, 0x35]) as service:
        with pytest.raises(refused) as said:
            REFUSED[refused](service)
        assert type(said.value) is refused and str(said.value) == f"{refused.name}: {refused.service_text}"


def test_they_end_in_any_order() -> None:
    service = Service([0x21, 0x35])
    client, inbox = service.attach(0x21), service.open(0x35, PGN, 1785)
    client.submit(0x35, PGN, bytes(9))
    while work(service):
        pass
    service.close_port(inbox)
    service.close()
    service.close()
    # What was given before is still received.
    assert inbox.receive() == Message(0x21, 0x35, PGN, bytes(9)) and client.outcomes() is not None
    client.close()
    inbox.close()
    for call in (service.turn, inbox.receive, client.outcome, lambda: service.attach(0x21)):
        with pytest.raises(Closed):
            call()
