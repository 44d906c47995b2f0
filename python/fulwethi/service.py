"""All stations of one bus, for a thread that has the bus, with clients and inboxes for other threads.

The thread that has the bus works the `Service`. A `Client` submits messages of one station and reads what became of them; an `Inbox` receives the messages of one
port. No call waits, and calls on different objects may be made at the same time.
"""

from __future__ import annotations

from ctypes import byref, c_uint8, c_uint64
from types import TracebackType
from typing import Any, Iterable, Iterator, Optional, Tuple, Type, TypeVar, Union
from weakref import WeakValueDictionary

from . import _inline, _raw
from ._held import Held
from ._inline import u8, u32, u64
from ._library import service_library
from .errors import DONE, NotThisSegment, Nothing, PortClosed, TooLittleRoom, refusal
from .node import counts_of, frame_of
from .values import LONGEST_TO_ALL, AbortReason, Counts, Frame, Message, Note, Outcome

T = TypeVar("T", bound="_Handled")


class _Handled:
    """What the three have in common: the library, a handle, and its end."""

    def __init__(self, what: str, kind: str) -> None:
        self._library = service_library()
        self._held = Held(self._library, what, f"fulwethi_raw_{kind}_free")

    def __enter__(self: T) -> T:
        return self

    def __exit__(self, kind: Optional[Type[BaseException]], error: Optional[BaseException], trace: Optional[TracebackType]) -> None:
        self.close()

    def close(self) -> None:
        """Frees it. It may be called more than once; each other call raises Closed then."""
        self._held.close()


class Service(_Handled):
    """Stations with these addresses, 1 to 32 distinct ones of 0 to 253, at tick 0. BadAddress, NoMemory: nothing is made.

    Each call may raise NoMemory too, but for `front`, `next_due_at`, `next_at` and `counts`. Where TraceFull is raised, a call of `turn` mends that.
    """

    def __init__(self, addresses: Iterable[int]) -> None:
        super().__init__("the service", "service")
        self.addresses = tuple(addresses)
        self._ends: WeakValueDictionary[Tuple[int, ...], Union[Client, Inbox]] = WeakValueDictionary()
        each = bytes(u8(address, "an address") for address in self.addresses)
        _done(self._library.fulwethi_raw_service_new(each, len(each), byref(self._held.unmade())))

    # Clients and inboxes

    def attach(self, station: int) -> Client:
        """Makes a client of a station. NoSuchStation, ClientsFull (16 are at it that weren't detached)."""
        client, number = Client(station), c_uint64()
        with self._held as service:
            _done(self._library.fulwethi_raw_service_attach(service, u8(station, "an address"), byref(client._held.unmade()), byref(service)))
        with client._held as of:
            _done(self._library.fulwethi_raw_client_number(of, byref(number), byref(of)))
        client.number = number.value
        self._ends[(client.number,)] = client
        return client

    def detach(self, number: int) -> None:
        """Detaches the client of this number: its place at its station is free for another one. Its messages under way continue. NoSuchClient, ClientGone."""
        with self._held as service:
            _done(self._library.fulwethi_raw_service_detach(service, u64(number, "a number"), byref(service)))

    def open(self, station: int, pgn: int, max_len: int, places: int = 64) -> Inbox:
        """Opens a port of a station for messages of a PGN of at most `max_len` bytes, and makes its inbox, with so many places, 1 to 65,536.

        If it is full, a message from one node ends with an abort for want of resources, and one to all is lost; `turned_away` counts both.
        BadPlaces, BadPgn, NoSuchStation, PortsFull, TraceFull.
        """
        inbox, port = Inbox(station), c_uint64()
        words = u8(station, "an address"), u32(pgn, "a PGN"), u32(max_len, "a length"), u32(places, "a number of places")
        with self._held as service:
            _done(self._library.fulwethi_raw_service_open_with(service, *words, byref(port), byref(inbox._held.unmade()), byref(service)))
        inbox.port = port.value
        self._ends[(station, inbox.port)] = inbox
        return inbox

    def close_port(self, inbox: Inbox) -> None:
        """Closes the port of an inbox: nothing more is given at it. What was given is still received. NotThisSegment (it is another service's), TraceFull."""
        with self._held as service, inbox._held as of:
            _done(self._library.fulwethi_raw_service_close(service, of, byref(service), byref(of)))

    def close_port_of(self, station: int, port: int) -> None:
        """Closes a port by its number, while another thread has its inbox, which raises PortClosed once all is received. NoSuchPort, TraceFull."""
        with self._held as service:
            _done(self._library.fulwethi_raw_service_close_port(service, u8(station, "an address"), u64(port, "a port"), byref(service)))

    def pause(self, station: int, port: int) -> None:
        """Pauses a port of a station: connections that bring it a message are held. NoSuchStation, NoSuchPort, PortPaused, TraceFull."""
        with self._held as service:
            _done(self._library.fulwethi_raw_service_pause(service, u8(station, "an address"), u64(port, "a port"), byref(service)))

    def resume(self, station: int, port: int) -> None:
        """Ends the pause of a port. NoSuchStation, NoSuchPort, PortNotPaused, TraceFull."""
        with self._held as service:
            _done(self._library.fulwethi_raw_service_resume(service, u8(station, "an address"), u64(port, "a port"), byref(service)))

    # The bus

    def feed(self, frame: Frame) -> None:
        """A frame of a node that is no station of the service comes from the bus; the stations look at it in their turns.

        StationAddress, BusFull (4,096 wait: make turns first), TraceFull, NoMemory, IdTooLarge, DataTooLong: the stations don't have it. It is fed again before
        any other, or told by `missed`.
        """
        raw = _inline.raw_frame(frame.id, frame.data)
        with self._held as service:
            _done(_inline.service_feed(self._library, service, raw))

    def missed(self, station: int) -> None:
        """Frames of the bus were lost: to be called for each station before a later frame is fed. NoSuchStation. TraceFull, NoMemory: to be called again."""
        with self._held as service:
            _done(self._library.fulwethi_raw_service_missed(service, u8(station, "an address"), byref(service)))

    def front(self) -> Optional[Tuple[int, Frame]]:
        """The frame that is next for the bus, that of lowest identifier, and its station; or None. It stays until `sent`."""
        station, raw = c_uint8(), _raw.RawFrame()
        with self._held as service:
            code = self._library.fulwethi_raw_service_front(service, byref(station), byref(raw), byref(service))
        return (station.value, frame_of(raw)) if _is_there(code) else None

    def sent(self, station: int) -> None:
        """The first frame of a station was put: the other stations look at it in their turns. NoSuchStation, NothingToSend.

        BusFull (make turns first), TraceFull, NoMemory: to be called again, without putting the frame again.
        """
        with self._held as service:
            _done(self._library.fulwethi_raw_service_sent(service, u8(station, "an address"), byref(service)))

    # Time

    def clock(self, tick: int) -> None:
        """The clock goes on to a tick of 1 ms. ClockPassed, TraceFull."""
        with self._held as service:
            _done(self._library.fulwethi_raw_service_clock(service, u64(tick, "a tick"), byref(service)))

    def turn(self, most: int = 16) -> int:
        """Turns of each station until none has anything to do, at most so many of each. Answers how much they did: 0, if nothing was to do. TraceFull, NoMemory."""
        made = c_uint64()
        with self._held as service:
            _done(self._library.fulwethi_raw_service_turn(service, u32(most, "a number of turns"), byref(made), byref(service)))
        return made.value

    def next_due_at(self) -> Optional[int]:
        """The tick at which the next timer is due, or None."""
        tick = c_uint64()
        with self._held as service:
            code = self._library.fulwethi_raw_service_next_due_at(service, byref(tick), byref(service))
        return tick.value if _is_there(code) else None

    def next_at(self) -> Optional[int]:
        """The first tick, from that of its clock on, at which there is something to do, or None. A client that submits has to wake who sleeps until then."""
        tick = c_uint64()
        with self._held as service:
            code = self._library.fulwethi_raw_service_next_at(service, byref(tick), byref(service))
        return tick.value if _is_there(code) else None

    # What came of it

    def news(self) -> Optional[Union[Client, Inbox]]:
        """A client or an inbox into whose ring an outcome or a message came since it was last answered, or None. To be called behind each turn until None.

        One that is nowhere used any more is passed over.
        """
        raw = _raw.RawNews()
        while True:
            with self._held as service:
                code = self._library.fulwethi_raw_service_news(service, byref(raw), byref(service))
            if not _is_there(code):
                return None
            end = self._ends.get((raw.number,) if raw.kind == _raw.CLIENT_NEWS else (raw.station, raw.number))
            if end is not None:
                return end

    def turned_away(self) -> int:
        """How many messages were turned away, since an inbox that was to have it had no place, or its port was closed meanwhile."""
        count = c_uint64()
        with self._held as service:
            _done(self._library.fulwethi_raw_service_turned_away(service, byref(count), byref(service)))
        return count.value

    def agrees(self, clients: Iterable[Client], inboxes: Iterable[Inbox]) -> bool:
        """Whether these clients and inboxes are the service's, and submitted, read and received what its record says, as far as that is kept."""
        for kind, ends in (("client", clients), ("inbox", inboxes)):
            compare = getattr(self._library, f"fulwethi_raw_service_compare_{kind}")
            for end in ends:
                with self._held as service, end._held as of:
                    code = compare(service, of, byref(service), byref(of))
                if code == NotThisSegment.code:
                    return False
                _done(code)
        return True

    def counts(self) -> Counts:
        """What its stations counted together."""
        counts = _raw.RawCounts()
        with self._held as service:
            _done(self._library.fulwethi_raw_service_counts(service, byref(counts), byref(service)))
        return counts_of(counts)


class Client(_Handled):
    """Submits messages of one station. `Service.attach` makes it."""

    def __init__(self, station: int) -> None:
        super().__init__("the client", "client")
        self.station = station
        self.number = 0

    def submit(self, to: int, pgn: int, data: Any) -> int:
        """Submits a copy of a message, and answers its ticket, from 1. The bus's thread takes it over in a turn.

        BadPgn, NoSuchStation, SameStation, TooShort, TooLong, RingFull (64 weren't taken over yet), NoMemory.
        """
        message, ticket = _inline.contents(data), c_uint64()
        with self._held as client:
            code = self._library.fulwethi_raw_client_submit(client, u8(to, "an address"), u32(pgn, "a PGN"), message, len(message), byref(ticket), byref(client))
            _done(code)
        return ticket.value

    def outcome(self) -> Optional[Note]:
        """What became of a message, or None if no outcome is there. Each message has one. NoMemory: it stays."""
        raw = _raw.RawNote()
        with self._held as client:
            code = self._library.fulwethi_raw_client_outcome(client, byref(raw), byref(client))
        if not _is_there(code):
            return None
        return Note(raw.ticket, raw.number, raw.to, Outcome(raw.outcome), AbortReason(raw.reason))

    def outcomes(self) -> Iterator[Note]:
        """Each outcome that is there."""
        while (note := self.outcome()) is not None:
            yield note


class Inbox(_Handled):
    """Receives the messages of one port. `Service.open` makes it."""

    def __init__(self, station: int) -> None:
        super().__init__("the inbox", "inbox")
        self.station = station
        self.port = 0

    def receive(self) -> Optional[Message]:
        """The next message, or None if none is there. PortClosed: none is there or will come. NoMemory: it stays."""
        raw, room = _raw.RawMessage(), bytearray(LONGEST_TO_ALL)
        with self._held as inbox:
            code = _inline.receive(self._library, inbox, room, raw)
            if code == TooLittleRoom.code:
                room = bytearray(raw.len)
                code = _inline.receive(self._library, inbox, room, raw)
        if not _is_there(code):
            return None
        return Message(int(getattr(raw, "from")), raw.to, raw.pgn, bytes(room[: raw.len]))

    def messages(self) -> Iterator[Message]:
        """Each message that is there."""
        try:
            while (message := self.receive()) is not None:
                yield message
        except PortClosed:
            return


def _done(code: int) -> None:
    if code != DONE:
        raise refusal(code, of_service=True)


def _is_there(code: int) -> bool:
    """Whether a call found what it asked for."""
    if code != Nothing.code:
        _done(code)
    return code == DONE
