//! A drive as one would write it at ease, by the calls that there are.
use crate::segment::{DriveEnd, Driven, Reply, Segment};
use crate::station::Refusal;

const BROADCAST_GAP: u64 = 50;

fn end_at(cause: Refusal) -> DriveEnd {
    if cause == Refusal::NothingToSend { DriveEnd::Idle } else { DriveEnd::Refused(cause) }
}

impl Segment {
    /// Drives a lane for at most so many turns.
    pub fn drive(&mut self, from: u8, to: u8, turns: u64) -> Driven {
        let mut driven = Driven { frames: Vec::new(), events: Vec::new(), end: DriveEnd::Turns };
        for _ in 0..turns {
            if let Err(cause) = self.turn(from, to, &mut driven) {
                driven.end = end_at(cause);
                return driven;
            }
        }
        driven
    }

    // Which station transmits, once the lane is pumped where none has a frame.
    #[inline]
    fn transmitter(&mut self, from: u8, to: u8, driven: &mut Driven) -> Result<u8, Refusal> {
        if self.queue_len(from) > 0 {
            return Ok(from);
        }
        if self.queue_len(to) > 0 {
            return Ok(to);
        }
        let reply = match self.pump(from, to) {
            Reply::Refused(Refusal::NotYet) => {
                self.now += BROADCAST_GAP;
                self.pump(from, to)
            }
            reply => reply,
        };
        match reply {
            Reply::Done(events) => driven.events.extend(events),
            Reply::Refused(cause) => return Err(cause),
            _ => {}
        }
        Ok(from)
    }

    #[inline]
    fn turn(&mut self, from: u8, to: u8, driven: &mut Driven) -> Result<(), Refusal> {
        let station = self.transmitter(from, to, driven)?;
        let frame = self.place(station).and_then(|place| self.stations[place].queue.front().copied());
        if let Reply::Refused(cause) = self.transmit(station) {
            return Err(cause);
        }
        driven.frames.extend(frame);
        for place in 0..self.stations.len() {
            let address = self.stations[place].address;
            while self.bus.waiting(place) > 0 {
                match self.take(address, true) {
                    Reply::Done(events) => driven.events.extend(events),
                    Reply::Refused(cause) => return Err(cause),
                    _ => {}
                }
            }
        }
        Ok(())
    }
}
