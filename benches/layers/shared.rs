//! The shared segment in plain Rust: a segment under a lock, a ring of submissions and one of outcomes for each client, one of deliveries
//! for each port, and workers that make the same turns. Where it `KEEPS`, it stores the calls and keeps what went through each ring at
//! both ends, as the service does.
use crate::bus::{Event, Outcome, Segment};
use crate::ring::{Consumer, Producer, ring};
use crate::{DM1, FROM, TO, message};
use std::hint::black_box;
use std::sync::Mutex;
use std::sync::atomic::{AtomicU64, Ordering};
use std::thread;
use std::time::{Duration, Instant};

const LONGEST: u32 = 1785;
const AHEAD: u64 = 32;
const IDLE_TICKS: u64 = 50;

#[derive(Clone)]
struct Submission {
    to: u8,
    pgn: u32,
    bytes: Vec<u8>,
}

#[derive(Clone, Copy)]
struct Note {
    ticket: u64,
    to: u8,
    number: u64,
    outcome: Outcome,
}

#[derive(Clone)]
struct Delivery {
    from: u8,
    to: u8,
    pgn: u32,
    bytes: Vec<u8>,
}

/// A stored call.
enum Call {
    Send { by: u64, from: u8, submission: Submission },
    Pump { station: u8, to: u8 },
    Transmit { station: u8 },
    Take { station: u8, room: bool },
    Tick { ticks: u64 },
    Fire { station: u8 },
}

struct Client<const KEEPS: bool> {
    submissions: Producer<Submission>,
    notes: Consumer<Note>,
    submitted: Vec<Submission>,
    read: Vec<Note>,
}

impl<const KEEPS: bool> Client<KEEPS> {
    fn submit(&mut self, to: u8, pgn: u32, bytes: Vec<u8>) -> Result<(), Submission> {
        let submission = Submission { to, pgn, bytes };
        if KEEPS {
            if self.submissions.free() == 0 {
                return Err(submission);
            }
            self.submitted.push(submission.clone());
        }
        self.submissions.push(submission)
    }

    fn try_outcome(&mut self) -> Option<Note> {
        let note = self.notes.pop()?;
        if KEEPS {
            self.read.push(note);
        }
        Some(note)
    }
}

struct Inbox<const KEEPS: bool> {
    deliveries: Consumer<Delivery>,
    received: Vec<Delivery>,
}

impl<const KEEPS: bool> Inbox<KEEPS> {
    fn try_receive(&mut self) -> Option<Delivery> {
        let delivery = self.deliveries.pop()?;
        if KEEPS {
            self.received.push(delivery.clone());
        }
        Some(delivery)
    }
}

/// The segment's side of a client, with the messages that have no outcome yet: destination, number and ticket.
struct Seat {
    station: u8,
    submissions: Consumer<Submission>,
    notes: Producer<Note>,
    accepted: u64,
    owed: Vec<(u8, u64, u64)>,
    noted: Vec<Note>,
}

/// The segment's side of a port.
struct Door {
    station: u8,
    port: usize,
    deliveries: Producer<Delivery>,
    given: Vec<Delivery>,
}

struct Live<const KEEPS: bool> {
    segment: Segment,
    seats: Vec<Seat>,
    doors: Vec<Door>,
    calls: Vec<Call>,
    stopped: bool,
}

impl<const KEEPS: bool> Live<KEEPS> {
    fn new(addresses: &[u8]) -> Live<KEEPS> {
        Live { segment: Segment::new(addresses), seats: Vec::new(), doors: Vec::new(), calls: Vec::new(), stopped: false }
    }

    fn attach(&mut self, station: u8) -> Client<KEEPS> {
        let (submissions, front) = ring();
        let (notes, back) = ring();
        self.seats.push(Seat { station, submissions: front, notes, accepted: 0, owed: Vec::new(), noted: Vec::new() });
        Client { submissions, notes: back, submitted: Vec::new(), read: Vec::new() }
    }

    fn open_port(&mut self, station: u8, pgn: u32, longest: u32) -> Inbox<KEEPS> {
        let (deliveries, back) = ring();
        let port = self.segment.open(station, pgn, longest);
        self.doors.push(Door { station, port, deliveries, given: Vec::new() });
        Inbox { deliveries: back, received: Vec::new() }
    }

    fn store(&mut self, call: impl FnOnce() -> Call) {
        if KEEPS {
            self.calls.push(call());
        }
    }

    /// Gives and notes what a call told.
    fn tell(&mut self, events: Vec<Event>) {
        for event in events {
            match event {
                Event::Given { to, port, from, pgn, bytes } => {
                    let Some(door) = self.doors.iter_mut().find(|door| door.station == to && door.port == port) else { continue };
                    let delivery = Delivery { from, to, pgn, bytes };
                    if KEEPS {
                        door.given.push(delivery.clone());
                    }
                    // There was room, and only this end fills places.
                    let _pushed = door.deliveries.push(delivery);
                }
                Event::Outcome { from, to, number, outcome } => {
                    for seat in self.seats.iter_mut().filter(|seat| seat.station == from) {
                        let Some(k) = seat.owed.iter().position(|owed| (owed.0, owed.1) == (to, number)) else { continue };
                        let note = Note { ticket: seat.owed.remove(k).2, to, number, outcome };
                        if KEEPS {
                            seat.noted.push(note);
                        }
                        // As many places are free as are owed.
                        let _pushed = seat.notes.push(note);
                        break;
                    }
                }
            }
        }
    }

    /// Whether the front submission of a client was there and could be accepted.
    fn accept(&mut self, k: usize) -> bool {
        let seat = &mut self.seats[k];
        let station = seat.station;
        let Some(front) = seat.submissions.front() else { return false };
        if !self.segment.has_place(station, front.to) || seat.notes.free() <= seat.owed.len() {
            return false;
        }
        let Some(submission) = seat.submissions.pop() else { return false };
        let copy = if KEEPS { Some(submission.clone()) } else { None };
        let Submission { to, pgn, bytes } = submission;
        if let Ok(number) = self.segment.send(station, to, pgn, bytes) {
            seat.accepted += 1;
            seat.owed.push((to, number, seat.accepted));
        }
        if let Some(submission) = copy {
            self.calls.push(Call::Send { by: k as u64, from: station, submission });
        }
        true
    }

    /// Whether there was something to do.
    fn station_turn(&mut self, station: u8) -> bool {
        let mut did = false;
        for k in 0..self.seats.len() {
            if self.seats[k].station == station {
                did |= self.accept(k);
            }
        }
        if let Some(to) = self.segment.next_pump(station) {
            self.segment.pump(station, to);
            did = true;
            self.store(|| Call::Pump { station, to });
        }
        if self.segment.can_take(station) {
            did = true;
            let doors = &mut self.doors;
            let mut room = true;
            let events = self.segment.take(station, |to, ports| {
                room = doors.iter_mut().all(|door| door.station != to || !ports.contains(&door.port) || door.deliveries.free() > 0);
                room
            });
            self.tell(events);
            self.store(|| Call::Take { station, room });
        }
        if self.segment.is_due(station) {
            did = true;
            let events = self.segment.fire(station);
            self.tell(events);
            self.store(|| Call::Fire { station });
        }
        did
    }

    /// Whether there was something to do but to let the time go on.
    fn bus_turn(&mut self) -> bool {
        if let Some(station) = self.segment.lowest() {
            self.segment.transmit(station);
            self.store(|| Call::Transmit { station });
            return true;
        }
        if self.segment.is_idle() {
            self.segment.tick(IDLE_TICKS);
            self.store(|| Call::Tick { ticks: IDLE_TICKS });
        }
        false
    }
}

/// A worker's turns until it is stopped. It yields where another thread has the lock, and after a turn with nothing to do: with a yield before
/// each turn, or where it sleeps until the lock is free, messages take longer here too, and to try the lock several times before it
/// yields, as the service's worker does, makes nothing faster here.
fn work<const KEEPS: bool>(shared: &Mutex<Live<KEEPS>>, turn: impl Fn(&mut Live<KEEPS>) -> bool) {
    loop {
        if let Ok(mut live) = shared.try_lock() {
            if live.stopped {
                return;
            }
            if turn(&mut live) {
                continue;
            }
        }
        thread::yield_now();
    }
}

/// A segment of the two stations, and both ends.
fn live<const KEEPS: bool>() -> (Live<KEEPS>, Client<KEEPS>, Inbox<KEEPS>) {
    let mut live = Live::new(&[FROM, TO]);
    let inbox = live.open_port(TO, DM1, LONGEST);
    let client = live.attach(FROM);
    (live, client, inbox)
}

fn over_threads<const KEEPS: bool>(bytes: &[u8], times: u64) -> Duration {
    let (live, mut client, mut inbox) = live::<KEEPS>();
    let shared = Mutex::new(live);
    let received = AtomicU64::new(0);
    let start = Instant::now();
    thread::scope(|scope| {
        scope.spawn(|| work(&shared, |live| live.station_turn(FROM)));
        scope.spawn(|| work(&shared, |live| live.station_turn(TO)));
        scope.spawn(|| work(&shared, |live| live.bus_turn()));
        scope.spawn(|| {
            for sent in 0..times {
                loop {
                    black_box(client.try_outcome());
                    if sent < received.load(Ordering::SeqCst) + AHEAD {
                        break;
                    }
                    thread::yield_now();
                }
                assert!(client.submit(TO, DM1, bytes.to_vec()).is_ok());
            }
        });
        scope.spawn(|| {
            for _ in 0..times {
                let delivery = loop {
                    match inbox.try_receive() {
                        Some(delivery) => break delivery,
                        None => thread::yield_now(),
                    }
                };
                assert!(delivery.bytes == bytes && delivery.pgn == DM1);
                received.fetch_add(1, Ordering::SeqCst);
            }
            shared.lock().expect("no thread panics").stopped = true;
        });
    });
    let time = start.elapsed();
    black_box((shared.into_inner().expect("no thread panics").calls, client.read, inbox.received));
    time
}

fn by_turns<const KEEPS: bool>(bytes: &[u8], times: u64) -> Duration {
    let (mut live, mut client, mut inbox) = live::<KEEPS>();
    let start = Instant::now();
    for _ in 0..times {
        assert!(client.submit(TO, DM1, bytes.to_vec()).is_ok());
        let delivery = loop {
            live.station_turn(FROM);
            live.station_turn(TO);
            live.bus_turn();
            if let Some(delivery) = inbox.try_receive() {
                break delivery;
            }
        };
        assert!(delivery.bytes == bytes && delivery.pgn == DM1);
        black_box(client.try_outcome());
    }
    let time = start.elapsed();
    black_box((live.calls, client.read, inbox.received));
    time
}

/// Prints the nanoseconds that one message of a case took.
fn show(load: &str, case: &str, times: u64, time: Duration) {
    println!("{} {load}, {case}", time.as_nanos() / u128::from(times));
}

/// One round of all cases.
pub fn round<const KEEPS: bool>() {
    for (load, size, times) in [("9 bytes", 9, 20_000), ("1,785 bytes", 1785, 500)] {
        let bytes = message(size);
        show(load, "turns on one thread", times, by_turns::<KEEPS>(&bytes, times));
        show(load, "over five threads", times, over_threads::<KEEPS>(&bytes, times));
    }
}
