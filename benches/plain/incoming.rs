//! What a station does with a frame: messages that come to it, and the answers to those that it sends.
use crate::station::{Event, Outcome, State, Station, TP_MAX_SIZE, UnderWay};
use crate::wire::{Frame, GLOBAL, Kind, Wire, format, is_transport, read};

const MIN_SIZE: u32 = 9;
const ETP_MAX_SIZE: u32 = 117_440_505;
const SESSIONS: usize = 32;

/// The packets of a window at most.
const TP_WINDOW: u32 = 16;
const ETP_WINDOW: u32 = 64;

const T1: u64 = 750;
const T2: u64 = 1250;
const T4: u64 = 1050;

/// The reasons of an abort.
const TOO_MANY: u8 = 1;
const NO_RESOURCES: u8 = 2;
const WRONG: u8 = 250;

/// A message that comes.
pub struct Incoming {
    pgn: u32,
    size: u32,
    packets: u32,
    /// The packet that comes next.
    next: u32,
    /// The last packet that is granted, and the last one that is announced.
    granted: u32,
    announced: u32,
    offset: u32,
    /// The packets of a window that the sender allows.
    most: u8,
    bytes: Vec<u8>,
    pub timer: u64,
    pub ports: Vec<u64>,
}

impl Incoming {
    // The CTS of the next window.
    fn grant(&mut self, is_etp: bool, now: u64) -> Wire {
        let left = self.packets - self.next + 1;
        let most = if self.most == 0 { 255 } else { self.most as u32 };
        let granted = if is_etp { left.min(ETP_WINDOW) } else { left.min(TP_WINDOW).min(most) };
        self.granted = self.next + granted - 1;
        self.announced = self.next - 1;
        self.timer = now + T2;
        Wire::Cts { granted: granted as u8, next: self.next, pgn: self.pgn }
    }
}

/// Whether a message of so many bytes in so many packets can come by TP or in a broadcast.
fn fits_tp(size: u32, packets: u8) -> bool {
    (MIN_SIZE..=TP_MAX_SIZE).contains(&size) && packets as u32 == size.div_ceil(7)
}

impl Station {
    fn ports_for(&self, pgn: u32, size: u32) -> Vec<u64> {
        self.ports.iter().filter(|port| port.pgn == pgn && size <= port.max).map(|port| port.number).collect()
    }

    // Gives the bytes at each port, the last of which gets them without a copy.
    fn give(&mut self, from: u8, to: u8, incoming: Incoming, events: &mut Vec<Event>) {
        let Incoming { ports, pgn, bytes, .. } = incoming;
        let count = ports.len();
        let mut left = Some(bytes);
        for (place, number) in ports.into_iter().enumerate() {
            let bytes = if place + 1 == count { left.take().unwrap() } else { left.as_ref().unwrap().clone() };
            events.push(Event::Given { port: (self.address, number), from, to, pgn, bytes })
        }
    }

    fn abort(&mut self, reason: u8, pgn: u32, is_etp: bool, to: u8) {
        self.enqueue(Wire::Abort { reason, pgn }, is_etp, to)
    }

    fn forget(&mut self, from: u8, kind: Kind) {
        self.incoming.retain(|incoming| !(incoming.0 == from && incoming.1 == kind))
    }

    fn take_rts(&mut self, size: u32, packets: u8, most: u8, pgn: u32, is_etp: bool, from: u8, room: bool, now: u64) {
        let kind = if is_etp { Kind::Etp } else { Kind::Tp };
        self.forget(from, kind);
        let fits = if is_etp { size > TP_MAX_SIZE && size <= ETP_MAX_SIZE } else { fits_tp(size, packets) };
        if !fits {
            return self.abort(WRONG, pgn, is_etp, from);
        }
        let ports = self.ports_for(pgn, size);
        if ports.is_empty() || !room {
            return self.abort(NO_RESOURCES, pgn, is_etp, from);
        }
        if self.incoming.len() >= SESSIONS {
            return self.abort(TOO_MANY, pgn, is_etp, from);
        }
        let bytes = Vec::with_capacity(if is_etp { 7 * ETP_WINDOW as usize } else { size as usize });
        let packets = size.div_ceil(7);
        let mut incoming = Incoming { pgn, size, packets, next: 1, granted: 0, announced: 0, offset: 0, most, bytes, timer: 0, ports };
        let cts = incoming.grant(is_etp, now);
        self.incoming.push((from, kind, incoming));
        self.enqueue(cts, is_etp, from)
    }

    fn take_bam(&mut self, size: u32, packets: u8, pgn: u32, from: u8, room: bool, now: u64) {
        self.forget(from, Kind::Broadcast);
        if !fits_tp(size, packets) {
            return;
        }
        let ports = self.ports_for(pgn, size);
        if ports.is_empty() || !room || self.incoming.len() >= SESSIONS {
            return;
        }
        let bytes = Vec::with_capacity(size as usize);
        let packets = size.div_ceil(7);
        let timer = now + T1;
        let incoming =
            Incoming { pgn, size, packets, next: 1, granted: packets, announced: packets, offset: 0, most: 0, bytes, timer, ports };
        self.incoming.push((from, Kind::Broadcast, incoming))
    }

    fn take_cts(&mut self, granted: u8, next: u32, pgn: u32, is_etp: bool, from: u8, now: u64, events: &mut Vec<Event>) {
        let Some(lane) = self.lanes[from as usize].as_mut() else { return };
        let UnderWay::Connection(outgoing) = &mut lane.under_way else { return };
        if outgoing.is_etp != is_etp || outgoing.pgn != pgn {
            return;
        }
        if outgoing.state == State::Sending && outgoing.granted == (granted, next) {
            return;
        }
        if granted == 0 {
            outgoing.timer = now + T4;
            return;
        }
        if next == 0 || next > outgoing.fresh.min(outgoing.packets) {
            self.end(from, Outcome::Aborted, events);
            return self.abort(WRONG, pgn, is_etp, from);
        }
        outgoing.granted = (granted, next);
        outgoing.window = (next, outgoing.packets.min(next + granted as u32 - 1));
        outgoing.is_announced = false;
        outgoing.state = State::Sending
    }

    fn take_end(&mut self, size: u32, packets: u8, pgn: u32, is_etp: bool, from: u8, events: &mut Vec<Event>) {
        let Some(lane) = self.lanes[from as usize].as_ref() else { return };
        let UnderWay::Connection(outgoing) = &lane.under_way else { return };
        let is_all = outgoing.fresh == outgoing.packets + 1 && size == outgoing.len && (is_etp || packets as u32 == outgoing.packets);
        if outgoing.is_etp == is_etp && outgoing.pgn == pgn && is_all {
            self.end(from, Outcome::Acknowledged, events)
        }
    }

    fn take_dpo(&mut self, packets: u8, offset: u32, pgn: u32, from: u8) {
        let Some(place) = self.incoming.iter().position(|incoming| incoming.0 == from && incoming.1 == Kind::Etp) else { return };
        let incoming = &mut self.incoming[place].2;
        if incoming.pgn != pgn {
            return;
        }
        if packets == 0 || offset > incoming.next - 1 || offset + packets as u32 > incoming.granted {
            self.incoming.remove(place);
            return self.abort(WRONG, pgn, true, from);
        }
        incoming.offset = offset;
        if offset + packets as u32 >= incoming.next {
            incoming.announced = offset + packets as u32
        }
    }

    fn take_packet(&mut self, sequence: u8, data: [u8; 7], kind: Kind, sent: (u8, u8), room: bool, now: u64, events: &mut Vec<Event>) {
        let (from, is_etp) = (sent.0, kind == Kind::Etp);
        let Some(place) = self.incoming.iter().position(|incoming| incoming.0 == from && incoming.1 == kind) else { return };
        let incoming = &mut self.incoming[place].2;
        let packet = sequence as u32 + if is_etp { incoming.offset } else { 0 };
        if packet < incoming.next {
            return;
        }
        let pgn = incoming.pgn;
        if packet > incoming.next || is_etp && packet > incoming.announced {
            self.incoming.swap_remove(place);
            if kind != Kind::Broadcast {
                self.abort(WRONG, pgn, is_etp, from)
            }
            return;
        }
        if packet == incoming.packets {
            return self.take_last(place, data, kind, sent, room, events);
        }
        incoming.bytes.extend_from_slice(&data);
        incoming.next += 1;
        if kind == Kind::Broadcast || packet != if is_etp { incoming.announced } else { incoming.granted } {
            incoming.timer = now + T1;
            return;
        }
        if is_etp {
            incoming.bytes.reserve(7 * ETP_WINDOW as usize)
        }
        let cts = incoming.grant(is_etp, now);
        self.enqueue(cts, is_etp, from)
    }

    fn take_last(&mut self, place: usize, data: [u8; 7], kind: Kind, sent: (u8, u8), room: bool, events: &mut Vec<Event>) {
        let (_, _, mut incoming) = self.incoming.swap_remove(place);
        let left = incoming.size as usize - incoming.bytes.len();
        incoming.bytes.extend_from_slice(&data[..left.min(7)]);
        let (from, pgn, is_etp) = (sent.0, incoming.pgn, kind == Kind::Etp);
        if !room {
            if kind != Kind::Broadcast {
                self.abort(NO_RESOURCES, pgn, is_etp, from)
            }
            return;
        }
        if kind != Kind::Broadcast {
            self.enqueue(Wire::End { size: incoming.size, packets: incoming.packets as u8, pgn }, is_etp, from)
        }
        self.give(from, sent.1, incoming, events)
    }

    fn take_abort(&mut self, pgn: u32, kind: Kind, from: u8, events: &mut Vec<Event>) {
        let is_mine = |outgoing: &crate::station::Outgoing| outgoing.is_etp == (kind == Kind::Etp) && outgoing.pgn == pgn;
        if let Some(lane) = &self.lanes[from as usize] {
            if matches!(&lane.under_way, UnderWay::Connection(outgoing) if is_mine(outgoing)) {
                self.end(from, Outcome::Aborted, events)
            }
        }
        self.incoming.retain(|incoming| !(incoming.0 == from && incoming.1 == kind && incoming.2.pgn == pgn))
    }

    pub fn take(&mut self, frame: &Frame, room: bool, now: u64, malformed: &mut u64, events: &mut Vec<Event>) {
        if frame.id as u8 == self.address {
            return;
        }
        let to = if format(frame) >= 240 { GLOBAL } else { (frame.id >> 8) as u8 };
        if to != self.address && to != GLOBAL {
            return;
        }
        let Some((wire, is_etp, from, to)) = read(frame) else {
            if is_transport(frame) {
                *malformed += 1
            }
            return;
        };
        let kind = if is_etp {
            Kind::Etp
        } else if to == GLOBAL {
            Kind::Broadcast
        } else {
            Kind::Tp
        };
        match wire {
            Wire::Rts { size, packets, most, pgn } => self.take_rts(size, packets, most, pgn, is_etp, from, room, now),
            Wire::Bam { size, packets, pgn } => self.take_bam(size, packets, pgn, from, room, now),
            Wire::Cts { granted, next, pgn } => self.take_cts(granted, next, pgn, is_etp, from, now, events),
            Wire::Dpo { packets, offset, pgn } => self.take_dpo(packets, offset, pgn, from),
            Wire::End { size, packets, pgn } => self.take_end(size, packets, pgn, is_etp, from, events),
            Wire::Packet { sequence, data } => self.take_packet(sequence, data, kind, (from, to), room, now, events),
            Wire::Abort { pgn, .. } => self.take_abort(pgn, kind, from, events),
        }
    }

    /// Takes a packet in the middle of a window, or one of which no session is: whether it was one.
    #[cfg(limit)]
    #[inline]
    pub fn take_quickly(&mut self, frame: &Frame, from: u8, kind: Kind, now: u64) -> bool {
        let Some(session) = self.incoming.iter_mut().find(|incoming| incoming.0 == from && incoming.1 == kind) else { return true };
        let incoming = &mut session.2;
        let packet = frame.data[0] as u32 + if kind == Kind::Etp { incoming.offset } else { 0 };
        let end = if kind == Kind::Etp { incoming.announced } else { incoming.granted };
        if packet != incoming.next || packet == incoming.packets || packet >= end {
            return false;
        }
        incoming.bytes.extend_from_slice(&frame.data[1..8]);
        incoming.next += 1;
        incoming.timer = now + T1;
        true
    }
}
