//! A drive as fast as it was found to get over the same data: a frame is sorted once for all stations, each that passes over it or is in
//! the middle of a message is done at once, and what nobody needs is dropped once a turn.
use crate::bus::Cursor;
use crate::segment::{DriveEnd, Driven, Reply, Segment};
use crate::station::{Event, QUEUE, Refusal};
use crate::wire::{Frame, GLOBAL, Kind, format, is_transport};

const BROADCAST_GAP: u64 = 50;
const TP_DT: u8 = 0xEB;
const ETP_DT: u8 = 0xC7;

/// What each station has to know of a frame.
struct Sorted {
    from: u8,
    to: u8,
    kind: Kind,
    is_transport: bool,
    is_packet: bool,
}

fn sorted(frame: &Frame) -> Sorted {
    let (from, format) = (frame.id as u8, format(frame));
    let to = if format >= 240 { GLOBAL } else { (frame.id >> 8) as u8 };
    let kind = if format == ETP_DT {
        Kind::Etp
    } else if to == GLOBAL {
        Kind::Broadcast
    } else {
        Kind::Tp
    };
    let is_transport = is_transport(frame);
    let is_row = format == TP_DT || format == ETP_DT && to != GLOBAL;
    let is_packet = is_transport && frame.len == 8 && from < 254 && frame.data[0] != 0 && is_row;
    Sorted { from, to, kind, is_transport, is_packet }
}

fn end_at(cause: Refusal) -> DriveEnd {
    if cause == Refusal::NothingToSend { DriveEnd::Idle } else { DriveEnd::Refused(cause) }
}

impl Segment {
    /// Drives a lane for at most so many turns.
    pub fn drive(&mut self, from: u8, to: u8, turns: u64) -> Driven {
        let mut driven = Driven { frames: Vec::new(), events: Vec::new(), end: DriveEnd::Turns };
        let Some(from) = self.place(from) else {
            driven.end = DriveEnd::Refused(Refusal::NoStation);
            return driven;
        };
        let answering = self.place(to);
        for _ in 0..turns {
            if let Err(cause) = self.turn(from, answering, to, &mut driven) {
                driven.end = end_at(cause);
                return driven;
            }
        }
        driven
    }

    // The place of the station that transmits, once the lane is pumped where none has a frame.
    #[inline]
    fn transmitter(&mut self, from: usize, answering: Option<usize>, to: u8, events: &mut Vec<Event>) -> Result<usize, Refusal> {
        if !self.stations[from].queue.is_empty() {
            return Ok(from);
        }
        if let Some(place) = answering.filter(|place| !self.stations[*place].queue.is_empty()) {
            return Ok(place);
        }
        let mut cause = self.stations[from].pump_refusal(to, self.now);
        if cause == Some(Refusal::NotYet) {
            self.now += BROADCAST_GAP;
            cause = self.stations[from].pump_refusal(to, self.now)
        }
        if let Some(cause) = cause {
            return Err(cause);
        }
        let before = events.len();
        self.stations[from].pump(to, self.now, events);
        self.counts.count(&events[before..]);
        Ok(from)
    }

    #[inline]
    fn turn(&mut self, from: usize, answering: Option<usize>, to: u8, driven: &mut Driven) -> Result<(), Refusal> {
        let place = self.transmitter(from, answering, to, &mut driven.events)?;
        let Some(frame) = self.stations[place].queue.pop_front() else { return Err(Refusal::NothingToSend) };
        if !self.put(frame) {
            self.stations[place].queue.push_front(frame);
            return Err(Refusal::BusFull);
        }
        driven.frames.push(frame);
        self.sweep(&frame, &mut driven.events)
    }

    // Each station takes all that waits for it.
    #[inline]
    fn sweep(&mut self, frame: &Frame, events: &mut Vec<Event>) -> Result<(), Refusal> {
        let newest = self.bus.len();
        let of = sorted(frame);
        for place in 0..self.stations.len() {
            let station = &mut self.stations[place];
            if self.bus.cursors[place].place + 1 != newest || station.queue.len() >= QUEUE {
                self.catch_up(place, events)?;
                continue;
            }
            let is_foreign = of.from == station.address || of.to != GLOBAL && of.to != station.address || !of.is_transport;
            if !(is_foreign || of.is_packet && station.take_quickly(frame, of.from, of.kind, self.now)) {
                let before = events.len();
                station.take(frame, true, self.now, &mut self.counts.malformed, events);
                self.counts.count(&events[before..]);
            }
            self.bus.cursors[place] = Cursor { place: newest, is_repeatable: true };
        }
        self.bus.release();
        Ok(())
    }

    fn catch_up(&mut self, place: usize, events: &mut Vec<Event>) -> Result<(), Refusal> {
        let address = self.stations[place].address;
        while self.bus.waiting(place) > 0 {
            match self.take(address, true) {
                Reply::Done(told) => events.extend(told),
                Reply::Refused(cause) => return Err(cause),
                _ => {}
            }
        }
        Ok(())
    }
}
