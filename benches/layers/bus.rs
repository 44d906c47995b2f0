//! Stations on one bus in plain Rust: queues, lanes, incoming sessions, ports and timers, with the rows of connections that meet no fault;
//! a message that does is ended with an abort.
use crate::{Frame, Kind, Receiver, Sender, Wire, read, write};
use std::collections::{BTreeMap, VecDeque};

const QUEUE: usize = 64;
const LANE: usize = 32;
const BURST: usize = 8;

#[derive(Clone, Copy, PartialEq)]
pub enum Outcome {
    Acknowledged,
    Aborted(u8),
    TimedOut,
}

pub enum Event {
    Given { to: u8, port: usize, from: u8, pgn: u32, bytes: Vec<u8> },
    Outcome { from: u8, to: u8, number: u64, outcome: Outcome },
}

#[derive(Default)]
struct Lane {
    sent: u64,
    waiting: VecDeque<(u64, u32, Vec<u8>)>,
    under_way: Option<(u64, Sender<Vec<u8>>)>,
}

impl Lane {
    fn has_frames(&self) -> bool {
        match &self.under_way {
            Some((_, sender)) => sender.is_sending(),
            None => !self.waiting.is_empty(),
        }
    }
}

struct Session {
    receiver: Receiver,
    ports: Vec<usize>,
}

struct Port {
    pgn: u32,
    longest: u32,
}

struct Station {
    address: u8,
    queue: VecDeque<Frame>,
    burst: Vec<Frame>,
    lanes: BTreeMap<u8, Lane>,
    sessions: BTreeMap<(u8, Kind), Session>,
    ports: Vec<Port>,
    taken: u64,
}

impl Station {
    fn pump(&mut self, to: u8, now: u64) {
        let Some(lane) = self.lanes.get_mut(&to) else { return };
        if let Some((_, sender)) = &mut lane.under_way {
            self.burst.clear();
            sender.pump(&mut self.burst, now);
            self.queue.extend(self.burst.drain(..));
        } else if let Some((number, pgn, bytes)) = lane.waiting.pop_front() {
            let (sender, rts) = Sender::begin(self.address, to, pgn, bytes, now);
            lane.under_way = Some((number, sender));
            self.queue.push_back(rts);
        }
    }

    fn abort(&mut self, to: u8, kind: Kind, reason: u8, pgn: u32) {
        self.queue.push_back(write(Wire::Abort { kind, reason, pgn }, self.address, to));
    }

    /// Opens a session for the ports that take the message.
    fn open(&mut self, rts: Wire, kind: Kind, size: u32, pgn: u32, from: u8, now: u64) {
        let ports: Vec<usize> =
            (0..self.ports.len()).filter(|k| self.ports[*k].pgn == pgn && size <= self.ports[*k].longest).collect();
        if ports.is_empty() {
            return self.abort(from, kind, 2, pgn);
        }
        if let Some((receiver, cts)) = Receiver::begin(rts, from, self.address, now) {
            self.sessions.insert((from, kind), Session { receiver, ports });
            self.queue.push_back(cts);
        }
    }

    /// A packet, or the offset of those that follow. What it completes is given where there is room for it.
    fn step(&mut self, wire: Wire, kind: Kind, from: u8, now: u64, room: impl FnOnce(u8, &[usize]) -> bool) -> Vec<Event> {
        let Some(session) = self.sessions.get_mut(&(from, kind)) else { return Vec::new() };
        let (is_last, pgn) = (session.receiver.is_last(&wire), session.receiver.pgn);
        if is_last && !room(self.address, &session.ports) {
            self.sessions.remove(&(from, kind));
            self.abort(from, kind, 2, pgn);
            return Vec::new();
        }
        let Some(answer) = session.receiver.take(wire, now) else {
            self.sessions.remove(&(from, kind));
            self.abort(from, kind, 7, pgn);
            return Vec::new();
        };
        self.queue.extend(answer);
        if !is_last {
            return Vec::new();
        }
        let Some(Session { receiver, ports }) = self.sessions.remove(&(from, kind)) else { return Vec::new() };
        let to = self.address;
        let mut bytes = receiver.bytes;
        let mut given = Vec::with_capacity(ports.len());
        for (k, port) in ports.iter().enumerate() {
            let copy = if k + 1 == ports.len() { std::mem::take(&mut bytes) } else { bytes.clone() };
            given.push(Event::Given { to, port: *port, from, pgn, bytes: copy });
        }
        given
    }

    /// An answer to the message under way.
    fn answered(&mut self, wire: Wire, from: u8, now: u64) -> Vec<Event> {
        let Some(lane) = self.lanes.get_mut(&from) else { return Vec::new() };
        let Some((number, sender)) = &mut lane.under_way else { return Vec::new() };
        let outcome = match wire {
            Wire::Abort { reason, pgn, .. } if pgn == sender.pgn => Outcome::Aborted(reason),
            _ if sender.take(wire, now) => Outcome::Acknowledged,
            _ => return Vec::new(),
        };
        let event = Event::Outcome { from: self.address, to: from, number: *number, outcome };
        lane.under_way = None;
        vec![event]
    }

    fn take(&mut self, frame: &Frame, now: u64, room: impl FnOnce(u8, &[usize]) -> bool) -> Vec<Event> {
        let Some((wire, from, to)) = read(frame) else { return Vec::new() };
        if to != self.address || from == self.address {
            return Vec::new();
        }
        match wire {
            Wire::Rts { kind, size, pgn } => {
                self.open(wire, kind, size, pgn, from, now);
                Vec::new()
            }
            Wire::Packet { kind, .. } => self.step(wire, kind, from, now, room),
            Wire::Dpo { .. } => self.step(wire, Kind::Etp, from, now, room),
            Wire::Cts { .. } | Wire::End { .. } | Wire::Abort { .. } => self.answered(wire, from, now),
        }
    }

    fn due_lane(&self, now: u64) -> Option<u8> {
        let is_due = |lane: &Lane| matches!(&lane.under_way, Some((_, sender)) if sender.due.is_some_and(|due| due <= now));
        self.lanes.iter().find(|(_, lane)| is_due(lane)).map(|(to, _)| *to)
    }

    fn due_session(&self, now: u64) -> Option<(u8, Kind)> {
        self.sessions.iter().find(|(_, session)| session.receiver.due <= now).map(|(key, _)| *key)
    }

    /// Ends what is due.
    fn fire(&mut self, now: u64) -> Vec<Event> {
        if let Some((from, kind)) = self.due_session(now) {
            if let Some(session) = self.sessions.remove(&(from, kind)) {
                self.abort(from, kind, 3, session.receiver.pgn);
            }
            return Vec::new();
        }
        let Some(to) = self.due_lane(now) else { return Vec::new() };
        let Some((number, sender)) = self.lanes.get_mut(&to).and_then(|lane| lane.under_way.take()) else { return Vec::new() };
        self.abort(to, sender.kind, 3, sender.pgn);
        vec![Event::Outcome { from: self.address, to, number, outcome: Outcome::TimedOut }]
    }

    fn next_pump(&self) -> Option<u8> {
        if self.queue.len() + BURST > QUEUE {
            return None;
        }
        self.lanes.iter().find(|(_, lane)| lane.has_frames()).map(|(to, _)| *to)
    }
}

pub struct Segment {
    now: u64,
    stations: Vec<Station>,
    bus: VecDeque<Frame>,
    released: u64,
}

impl Segment {
    pub fn new(addresses: &[u8]) -> Segment {
        let station = |address: &u8| Station {
            address: *address,
            queue: VecDeque::with_capacity(QUEUE),
            burst: Vec::with_capacity(BURST),
            lanes: BTreeMap::new(),
            sessions: BTreeMap::new(),
            ports: Vec::new(),
            taken: 0,
        };
        Segment { now: 0, stations: addresses.iter().map(station).collect(), bus: VecDeque::new(), released: 0 }
    }

    fn station(&self, address: u8) -> &Station {
        self.stations.iter().find(|station| station.address == address).expect("a station")
    }

    fn station_mut(&mut self, address: u8) -> &mut Station {
        self.stations.iter_mut().find(|station| station.address == address).expect("a station")
    }

    pub fn open(&mut self, address: u8, pgn: u32, longest: u32) -> usize {
        let ports = &mut self.station_mut(address).ports;
        ports.push(Port { pgn, longest });
        ports.len() - 1
    }

    /// The number of the message in its lane, or the bytes where the lane is full.
    pub fn send(&mut self, from: u8, to: u8, pgn: u32, bytes: Vec<u8>) -> Result<u64, Vec<u8>> {
        let lane = self.station_mut(from).lanes.entry(to).or_default();
        if lane.waiting.len() + usize::from(lane.under_way.is_some()) == LANE {
            return Err(bytes);
        }
        lane.sent += 1;
        lane.waiting.push_back((lane.sent, pgn, bytes));
        Ok(lane.sent)
    }

    pub fn has_place(&self, from: u8, to: u8) -> bool {
        let lane = self.station(from).lanes.get(&to);
        lane.is_none_or(|lane| lane.waiting.len() + usize::from(lane.under_way.is_some()) < LANE)
    }

    pub fn pump(&mut self, address: u8, to: u8) {
        let now = self.now;
        self.station_mut(address).pump(to, now);
    }

    pub fn transmit(&mut self, address: u8) {
        let frame = self.station_mut(address).queue.pop_front();
        self.bus.extend(frame);
    }

    pub fn take(&mut self, address: u8, room: impl FnOnce(u8, &[usize]) -> bool) -> Vec<Event> {
        let (now, released) = (self.now, self.released);
        let station = self.stations.iter_mut().find(|station| station.address == address).expect("a station");
        let Some(frame) = self.bus.get((station.taken - released) as usize) else { return Vec::new() };
        station.taken += 1;
        let events = station.take(frame, now, room);
        let least = self.stations.iter().map(|station| station.taken).min().unwrap_or(0);
        while self.released < least {
            self.bus.pop_front();
            self.released += 1;
        }
        events
    }

    pub fn tick(&mut self, ticks: u64) {
        self.now += ticks;
    }

    pub fn fire(&mut self, address: u8) -> Vec<Event> {
        let now = self.now;
        self.station_mut(address).fire(now)
    }

    pub fn next_pump(&self, address: u8) -> Option<u8> {
        self.station(address).next_pump()
    }

    /// Whether a frame waits that the station can take: it has a place for an answer.
    pub fn can_take(&self, address: u8) -> bool {
        let station = self.station(address);
        station.taken < self.released + self.bus.len() as u64 && station.queue.len() < QUEUE
    }

    pub fn is_due(&self, address: u8) -> bool {
        let station = self.station(address);
        station.due_session(self.now).is_some() || station.due_lane(self.now).is_some()
    }

    /// The station whose first frame has the lowest identifier.
    pub fn lowest(&self) -> Option<u8> {
        let first = |station: &Station| station.queue.front().map(|frame| (frame.id, station.address));
        self.stations.iter().filter_map(first).min().map(|(_, address)| address)
    }

    pub fn is_idle(&self) -> bool {
        let end = self.released + self.bus.len() as u64;
        self.stations.iter().all(|station| station.queue.is_empty() && station.taken == end && station.next_pump().is_none())
    }
}
