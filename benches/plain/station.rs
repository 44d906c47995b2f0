//! A station: its transmit queue, its lanes by destination, what comes to it, and its ports.
use crate::incoming::Incoming;
use crate::wire::{Frame, GLOBAL, Kind, Wire, write};
use std::collections::VecDeque;

pub const QUEUE: usize = 64;

/// The frames that a pump queues at most.
const BURST: usize = 8;

/// From how many bytes on a message needs ETP.
pub const TP_MAX_SIZE: u32 = 1785;

const BROADCAST_GAP: u64 = 50;
const T3: u64 = 1250;

/// Why a call is refused.
#[derive(Clone, Copy, PartialEq, Eq)]
pub enum Refusal {
    NoStation,
    StationAddress,
    TxFull,
    LaneFull,
    NothingToSend,
    NothingToTake,
    NotYet,
    BusFull,
    NothingDue,
}

#[derive(Clone, Copy)]
pub enum Outcome {
    Acknowledged,
    Broadcast,
    Aborted,
}

// A port, a node and a message are named in full, as the proved events name them, though nobody reads all of it here.
#[allow(dead_code)]
pub enum Event {
    Given { port: (u8, u64), from: u8, to: u8, pgn: u32, bytes: Vec<u8> },
    Outcome { from: u8, to: u8, number: u64, outcome: Outcome },
}

#[derive(PartialEq, Clone, Copy)]
pub enum State {
    AwaitCts,
    Sending,
    AwaitEnd,
}

pub struct Outgoing {
    pub is_etp: bool,
    pub pgn: u32,
    pub len: u32,
    pub packets: u32,
    /// The first packet that was never queued.
    pub fresh: u32,
    /// The packets that may be queued now.
    pub window: (u32, u32),
    pub is_announced: bool,
    pub offset: u32,
    /// The last CTS.
    pub granted: (u8, u32),
    pub state: State,
    pub timer: u64,
}

pub struct Broadcast {
    pub packets: u32,
    pub next: u32,
    pub due: u64,
}

pub enum UnderWay {
    Nothing,
    Broadcast(Broadcast),
    Connection(Outgoing),
}

pub struct Pending {
    pub number: u64,
    pub pgn: u32,
    pub bytes: Vec<u8>,
}

pub struct Lane {
    pub to: u8,
    pub sent: u64,
    pub pending: VecDeque<Pending>,
    pub under_way: UnderWay,
}

pub struct Port {
    pub number: u64,
    pub pgn: u32,
    pub max: u32,
}

pub struct Station {
    pub address: u8,
    pub queue: VecDeque<Frame>,
    pub lanes: Vec<Option<Box<Lane>>>,
    pub incoming: Vec<(u8, Kind, Incoming)>,
    pub ports: Vec<Port>,
    pub opened: u64,
}

// The seven bytes of a packet, counted from 1.
fn packet_of(bytes: &[u8], packet: u32) -> [u8; 7] {
    let mut data = [0xFF; 7];
    let part = &bytes[7 * (packet as usize - 1)..(7 * packet as usize).min(bytes.len())];
    data[..part.len()].copy_from_slice(part);
    data
}

// Begins the message: its BAM or its RTS, and what is under way then.
fn begin(message: &Pending, from: u8, to: u8, now: u64) -> (Frame, UnderWay) {
    let len = message.bytes.len() as u32;
    let (packets, pgn) = (len.div_ceil(7), message.pgn);
    if to == GLOBAL {
        let bam = write(&Wire::Bam { size: len, packets: packets as u8, pgn }, false, from, to);
        return (bam, UnderWay::Broadcast(Broadcast { packets, next: 1, due: now + BROADCAST_GAP }));
    }
    let is_etp = len > TP_MAX_SIZE;
    let rts = write(&Wire::Rts { size: len, packets: packets as u8, most: 255, pgn }, is_etp, from, to);
    let outgoing = Outgoing {
        is_etp,
        pgn,
        len,
        packets,
        fresh: 1,
        window: (1, 0),
        is_announced: false,
        offset: 0,
        granted: (0, 0),
        state: State::AwaitCts,
        timer: now + T3,
    };
    (rts, UnderWay::Connection(outgoing))
}

// Queues the next packets of a window, at most eight frames.
fn pump_window(outgoing: &mut Outgoing, bytes: &[u8], from: u8, to: u8, now: u64, queue: &mut VecDeque<Frame>) {
    let (mut packet, last) = outgoing.window;
    let mut room = BURST;
    if outgoing.is_etp && !outgoing.is_announced {
        let dpo = Wire::Dpo { packets: (last - packet + 1) as u8, offset: packet - 1, pgn: outgoing.pgn };
        queue.push_back(write(&dpo, true, from, to));
        outgoing.is_announced = true;
        outgoing.offset = packet - 1;
        room -= 1;
    }
    while room > 0 && packet <= last {
        let sequence = (packet - if outgoing.is_etp { outgoing.offset } else { 0 }) as u8;
        let data = packet_of(bytes, packet);
        queue.push_back(write(&Wire::Packet { sequence, data }, outgoing.is_etp, from, to));
        packet += 1;
        room -= 1;
    }
    outgoing.window = (packet, last);
    outgoing.fresh = outgoing.fresh.max(packet);
    if packet > last {
        outgoing.state = if outgoing.fresh > outgoing.packets { State::AwaitEnd } else { State::AwaitCts };
        outgoing.timer = now + T3;
    }
}

impl Station {
    pub fn new(address: u8) -> Station {
        Station {
            address,
            queue: VecDeque::with_capacity(QUEUE),
            lanes: (0..256).map(|_| None).collect(),
            incoming: Vec::new(),
            ports: Vec::new(),
            opened: 0,
        }
    }

    /// Hands a message to a lane: its number.
    pub fn send(&mut self, to: u8, pgn: u32, bytes: Vec<u8>) -> Option<u64> {
        let new = || Box::new(Lane { to, sent: 0, pending: VecDeque::new(), under_way: UnderWay::Nothing });
        let lane = self.lanes[to as usize].get_or_insert_with(new);
        if lane.pending.len() >= 32 {
            return None;
        }
        lane.sent += 1;
        lane.pending.push_back(Pending { number: lane.sent, pgn, bytes });
        Some(lane.sent)
    }

    pub fn open(&mut self, pgn: u32, max: u32) -> u64 {
        self.opened += 1;
        self.ports.push(Port { number: self.opened, pgn, max });
        self.opened
    }

    pub fn close(&mut self, number: u64) {
        self.ports.retain(|port| port.number != number);
        for incoming in self.incoming.iter_mut() {
            incoming.2.ports.retain(|port| *port != number)
        }
        self.incoming.retain(|incoming| !incoming.2.ports.is_empty());
    }

    pub fn enqueue(&mut self, wire: Wire, is_etp: bool, to: u8) {
        let frame = write(&wire, is_etp, self.address, to);
        self.queue.push_back(frame)
    }

    pub fn pump_refusal(&self, to: u8, now: u64) -> Option<Refusal> {
        let Some(lane) = &self.lanes[to as usize] else { return Some(Refusal::NothingToSend) };
        let (may_pump, cause) = match &lane.under_way {
            UnderWay::Nothing => (!lane.pending.is_empty(), Refusal::NothingToSend),
            UnderWay::Broadcast(broadcast) => (now >= broadcast.due, Refusal::NotYet),
            UnderWay::Connection(outgoing) => (outgoing.state == State::Sending, Refusal::NothingToSend),
        };
        if may_pump { None } else { Some(cause) }
    }

    /// Queues the next frames of a lane that isn't refused.
    pub fn pump(&mut self, to: u8, now: u64, events: &mut Vec<Event>) {
        let from = self.address;
        let lane = self.lanes[to as usize].as_mut().unwrap();
        let message = lane.pending.front().unwrap();
        match &mut lane.under_way {
            UnderWay::Nothing => {
                let (frame, under_way) = begin(message, from, to, now);
                self.queue.push_back(frame);
                lane.under_way = under_way
            }
            UnderWay::Broadcast(broadcast) => {
                let packet = broadcast.next;
                let data = packet_of(&message.bytes, packet);
                self.queue.push_back(write(&Wire::Packet { sequence: packet as u8, data }, false, from, to));
                if packet == broadcast.packets {
                    return self.end(to, Outcome::Broadcast, events);
                }
                broadcast.next = packet + 1;
                broadcast.due = now + BROADCAST_GAP
            }
            UnderWay::Connection(outgoing) => pump_window(outgoing, &message.bytes, from, to, now, &mut self.queue),
        }
    }

    /// Ends the message that is under way in a lane.
    pub fn end(&mut self, to: u8, outcome: Outcome, events: &mut Vec<Event>) {
        let lane = self.lanes[to as usize].as_mut().unwrap();
        lane.under_way = UnderWay::Nothing;
        let message = lane.pending.pop_front().unwrap();
        events.push(Event::Outcome { from: self.address, to: lane.to, number: message.number, outcome })
    }

    pub fn is_due(&self, now: u64) -> bool {
        let is_lane_due = |lane: &Box<Lane>| match &lane.under_way {
            UnderWay::Connection(outgoing) => outgoing.state != State::Sending && now >= outgoing.timer,
            _ => false,
        };
        self.incoming.iter().any(|incoming| now >= incoming.2.timer) || self.lanes.iter().flatten().any(is_lane_due)
    }

    /// The lowest destination whose lane may be pumped.
    pub fn next_pump(&self, now: u64) -> Option<u8> {
        if self.queue.len() > QUEUE - BURST {
            return None;
        }
        (0..=255u8).find(|to| self.pump_refusal(*to, now).is_none())
    }
}
