//! The work of `benches/speed` in plain Rust, std only and without a proof: one bus with 1 to 32 stations, each call a value in and a
//! reply out, lanes by destination, sessions by source and kind, ports, events, counts, kept frames with a cursor for each station. It has the
//! calls that the benchmark makes, but neither holds nor the probes of a lane. By `--cfg limit` it is built with the fastest drive that
//! was found over the same data, to compare with.
mod bus;
#[cfg(not(limit))]
mod drive;
mod incoming;
#[cfg(limit)]
mod limit;
mod segment;
mod setting;
mod single;
mod station;
mod wire;

use crate::segment::{Call, DriveEnd, Reply, Segment};
use crate::setting::{Case, DM1, FROM, TO, Work, given_by, make, message, segment, take_all};
use crate::station::Refusal;
use crate::wire::GLOBAL;
use std::hint::black_box;
use std::time::Instant;

/// After how many turns a drive hands over what it put.
const TURNS: u64 = 8192;

// Drives the lane until it is at rest: how many bytes were given.
fn drive(segment: &mut Segment, to: u8) -> u64 {
    let mut given = 0;
    loop {
        let driven = segment.drive(FROM, to, TURNS);
        black_box(&driven.frames);
        given += given_by(driven.events);
        match driven.end {
            DriveEnd::Turns => {}
            DriveEnd::Idle => return given,
            DriveEnd::Refused(_) => panic!("an exchange was not driven"),
        }
    }
}

// Which station has a frame to transmit, once the lane is pumped where none had; none where the lane is at rest.
fn transmitter(segment: &mut Segment, to: u8) -> Option<u8> {
    if segment.queue_len(FROM) > 0 {
        return Some(FROM);
    }
    if segment.queue_len(to) > 0 {
        return Some(to);
    }
    for _ in 0..2 {
        match segment.apply(Call::Pump { station: FROM, to }) {
            Reply::Done(_) => return Some(FROM),
            Reply::Refused(Refusal::NotYet) => make(segment, Call::Tick { ticks: 50 }),
            _ => return None,
        };
    }
    None
}

// The same as a drive, by single calls.
fn by_calls(segment: &mut Segment, case: &Case, to: u8) -> u64 {
    let mut given = 0;
    while let Some(station) = transmitter(segment, to) {
        make(segment, Call::Transmit { station });
        given += take_all(segment, case)
    }
    given
}

// A round of whole messages: the frames that were put, and the bytes that were given.
fn whole(segment: &mut Segment, case: &Case, bytes: &[u8]) -> (u64, u64) {
    let to = if matches!(case.work, Work::Drive | Work::Calls) { TO } else { GLOBAL };
    let drives = matches!(case.work, Work::Drive | Work::DriveToAll);
    let before = segment.bus.len();
    let mut given = 0;
    for _ in 0..case.times {
        make(segment, Call::Send { from: FROM, to, pgn: DM1, bytes: bytes.to_vec() });
        given += if drives { drive(segment, to) } else { by_calls(segment, case, to) }
    }
    assert!(given == case.times * case.length as u64, "not all bytes were given");
    (segment.bus.len() - before, given)
}

fn main() {
    let words: Vec<String> = std::env::args().collect();
    let case = Case::of(&words).expect("WORK STATIONS LENGTH TIMES [PORTS LANES SESSIONS KEPT]");
    let bytes = message(case.length);
    let mut segment = segment(&case);
    let start = Instant::now();
    let is_whole = matches!(case.work, Work::Drive | Work::DriveToAll | Work::Calls | Work::CallsToAll);
    let (count, sum) = if is_whole { whole(&mut segment, &case, &bytes) } else { single::round(&mut segment, &case) };
    let nanos = start.elapsed().as_nanos();
    black_box(&segment.counts.frames);
    println!("{nanos} {count} {sum}")
}
