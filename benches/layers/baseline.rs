//! The exchanges of the benchmark in plain Rust, to compare with: the same frames are written, read, cut and joined, by
//! states that are changed in place. It has no proof, and only the rows that an exchange without a fault has. With the word `messages`
//! or `keeping` it prints one round of messages from thread to thread instead, as the benchmark's program does.
mod bus;
mod ring;
// Not all that it stores and keeps is read.
#[allow(dead_code)]
mod shared;

use std::hint::black_box;
use std::time::Instant;

const FROM: u8 = 0x21;
const TO: u8 = 0x35;
const DM1: u32 = 0xFECA;

#[derive(Clone, Copy, PartialEq, Eq, PartialOrd, Ord)]
enum Kind {
    Tp,
    Etp,
}

#[derive(Clone, Copy)]
struct Frame {
    id: u32,
    len: u8,
    data: [u8; 8],
}

/// What a frame means.
#[derive(Clone, Copy)]
enum Wire {
    Rts { kind: Kind, size: u32, pgn: u32 },
    Cts { kind: Kind, granted: u8, next: u32, pgn: u32 },
    Dpo { packets: u8, offset: u32, pgn: u32 },
    End { kind: Kind, size: u32, pgn: u32 },
    Abort { kind: Kind, reason: u8, pgn: u32 },
    Packet { kind: Kind, sequence: u8, bytes: [u8; 7] },
}

fn group(wire: &Wire) -> u32 {
    match wire {
        Wire::Packet { kind: Kind::Tp, .. } => 0xEB,
        Wire::Packet { kind: Kind::Etp, .. } => 0xC7,
        Wire::Rts { kind: Kind::Tp, .. }
        | Wire::Cts { kind: Kind::Tp, .. }
        | Wire::End { kind: Kind::Tp, .. }
        | Wire::Abort { kind: Kind::Tp, .. } => 0xEC,
        _ => 0xC8,
    }
}

fn bytes_of(wire: Wire) -> [u8; 8] {
    let control = |control: u8, a: u8, rest: u32, pgn: u32| {
        let [b, c, d, _] = rest.to_le_bytes();
        let [p, q, r, _] = pgn.to_le_bytes();
        [control, a, b, c, d, p, q, r]
    };
    match wire {
        Wire::Rts { kind: Kind::Tp, size, pgn } => control(16, size as u8, 0xFF_0000 | size.div_ceil(7) << 8 | size >> 8, pgn),
        Wire::Rts { kind: Kind::Etp, size, pgn } => control(20, size as u8, size >> 8, pgn),
        Wire::Cts { kind: Kind::Tp, granted, next, pgn } => control(17, granted, 0xFF_FF00 | next, pgn),
        Wire::Cts { kind: Kind::Etp, granted, next, pgn } => control(21, granted, next, pgn),
        Wire::Dpo { packets, offset, pgn } => control(22, packets, offset, pgn),
        Wire::End { kind: Kind::Tp, size, pgn } => control(19, size as u8, 0xFF_0000 | size.div_ceil(7) << 8 | size >> 8, pgn),
        Wire::End { kind: Kind::Etp, size, pgn } => control(23, size as u8, size >> 8, pgn),
        Wire::Abort { reason, pgn, .. } => control(255, reason, 0xFF_FFFF, pgn),
        Wire::Packet { sequence, bytes: [a, b, c, d, e, f, g], .. } => [sequence, a, b, c, d, e, f, g],
    }
}

fn write(wire: Wire, from: u8, to: u8) -> Frame {
    let id = 7 << 26 | group(&wire) << 16 | u32::from(to) << 8 | u32::from(from);
    Frame { id, len: 8, data: bytes_of(wire) }
}

fn read(frame: &Frame) -> Option<(Wire, u8, u8)> {
    let (from, to) = (frame.id as u8, (frame.id >> 8) as u8);
    if frame.len != 8 || from > 253 || to > 253 {
        return None;
    }
    let [control, a, b, c, d, e, f, g] = frame.data;
    let pgn = u32::from_le_bytes([e, f, g, 0]);
    let (two, three, four) =
        (u32::from_le_bytes([a, b, 0, 0]), u32::from_le_bytes([b, c, d, 0]), u32::from_le_bytes([a, b, c, d]));
    let wire = match (frame.id >> 16 & 0x3FF, control) {
        (0xEB, 1..) => Wire::Packet { kind: Kind::Tp, sequence: control, bytes: [a, b, c, d, e, f, g] },
        (0xC7, 1..) => Wire::Packet { kind: Kind::Etp, sequence: control, bytes: [a, b, c, d, e, f, g] },
        _ if pgn >= 1 << 18 => return None,
        (0xEC, 16) => Wire::Rts { kind: Kind::Tp, size: two, pgn },
        (0xEC, 17) => Wire::Cts { kind: Kind::Tp, granted: a, next: u32::from(b), pgn },
        (0xEC, 19) => Wire::End { kind: Kind::Tp, size: two, pgn },
        (0xEC, 255) => Wire::Abort { kind: Kind::Tp, reason: a, pgn },
        (0xC8, 20) => Wire::Rts { kind: Kind::Etp, size: four, pgn },
        (0xC8, 21) => Wire::Cts { kind: Kind::Etp, granted: a, next: three, pgn },
        (0xC8, 22) => Wire::Dpo { packets: a, offset: three, pgn },
        (0xC8, 23) => Wire::End { kind: Kind::Etp, size: four, pgn },
        (0xC8, 255) => Wire::Abort { kind: Kind::Etp, reason: a, pgn },
        _ => return None,
    };
    Some((wire, from, to))
}

struct Sender<B> {
    kind: Kind,
    from: u8,
    to: u8,
    pgn: u32,
    bytes: B,
    next: u32,
    at: u32,
    until: u32,
    announced: bool,
    due: Option<u64>,
}

impl<B: AsRef<[u8]>> Sender<B> {
    fn begin(from: u8, to: u8, pgn: u32, bytes: B, now: u64) -> (Sender<B>, Frame) {
        let size = bytes.as_ref().len() as u32;
        let kind = if size <= 1785 { Kind::Tp } else { Kind::Etp };
        let rts = write(Wire::Rts { kind, size, pgn }, from, to);
        (Sender { kind, from, to, pgn, bytes, next: 1, at: 1, until: 0, announced: true, due: Some(now + 1250) }, rts)
    }

    /// Whether it has frames to send.
    fn is_sending(&self) -> bool {
        self.at <= self.until
    }

    /// Its next frames, at most eight.
    fn pump(&mut self, frames: &mut Vec<Frame>, now: u64) {
        if !self.announced && self.kind == Kind::Etp {
            let packets = (self.until + 1 - self.next) as u8;
            frames.push(write(Wire::Dpo { packets, offset: self.next - 1, pgn: self.pgn }, self.from, self.to));
        }
        self.announced = true;
        while self.at <= self.until && frames.len() < 8 {
            let rest = &self.bytes.as_ref()[7 * (self.at as usize - 1)..];
            let mut bytes = [0xFF; 7];
            let len = rest.len().min(7);
            bytes[..len].copy_from_slice(&rest[..len]);
            let first = if self.kind == Kind::Tp { 1 } else { self.next };
            let sequence = (self.at + 1 - first) as u8;
            frames.push(write(Wire::Packet { kind: self.kind, sequence, bytes }, self.from, self.to));
            self.at += 1;
        }
        self.due = if self.at > self.until { Some(now + 1250) } else { None };
    }

    /// Takes an answer: whether the message was acknowledged.
    fn take(&mut self, answer: Wire, now: u64) -> bool {
        match answer {
            Wire::Cts { kind, granted, next, pgn } if kind == self.kind && pgn == self.pgn => {
                if granted == 0 {
                    self.due = Some(now + 1050);
                    return false;
                }
                let last = (self.bytes.as_ref().len() as u32).div_ceil(7);
                (self.next, self.at, self.until) = (next, next, (next - 1 + u32::from(granted)).min(last));
                (self.announced, self.due) = (false, None);
                false
            }
            Wire::End { kind, size, pgn } if kind == self.kind && pgn == self.pgn => size as usize == self.bytes.as_ref().len(),
            _ => false,
        }
    }
}

struct Receiver {
    kind: Kind,
    from: u8,
    to: u8,
    pgn: u32,
    size: u32,
    next: u32,
    offset: u32,
    granted: u32,
    due: u64,
    bytes: Vec<u8>,
}

impl Receiver {
    fn begin(rts: Wire, from: u8, to: u8, now: u64) -> Option<(Receiver, Frame)> {
        let Wire::Rts { kind, size, pgn } = rts else {
            return None;
        };
        let mut receiver = Receiver { kind, from, to, pgn, size, next: 1, offset: 0, granted: 0, due: 0, bytes: Vec::new() };
        let cts = receiver.grant(now);
        Some((receiver, cts))
    }

    fn grant(&mut self, now: u64) -> Frame {
        let most = if self.kind == Kind::Tp { 16 } else { 64 };
        let granted = (self.size.div_ceil(7) + 1 - self.next).min(most);
        self.granted = self.next - 1 + granted;
        let end = (7 * self.granted as usize).min(self.size as usize);
        let room = if self.kind == Kind::Tp { self.size as usize } else { end };
        self.bytes.reserve_exact(room - self.bytes.len());
        self.due = now + 1250;
        let cts = Wire::Cts { kind: self.kind, granted: granted as u8, next: self.next, pgn: self.pgn };
        write(cts, self.to, self.from)
    }

    /// Whether this packet completes the message.
    fn is_last(&self, wire: &Wire) -> bool {
        match *wire {
            Wire::Packet { kind, sequence, .. } => {
                kind == self.kind && self.offset + u32::from(sequence) == self.next && self.next == self.size.div_ceil(7)
            }
            _ => false,
        }
    }

    /// Takes a frame of the sender: its answer, if there is one.
    fn take(&mut self, wire: Wire, now: u64) -> Option<Option<Frame>> {
        match wire {
            Wire::Packet { kind, sequence, bytes } if kind == self.kind => {
                let number = self.offset + u32::from(sequence);
                if number < self.next {
                    return Some(None);
                }
                if number > self.next || number > self.granted {
                    return None;
                }
                let len = (self.size as usize - self.bytes.len()).min(7);
                self.bytes.extend_from_slice(&bytes[..len]);
                self.next += 1;
                self.due = now + 750;
                if self.bytes.len() == self.size as usize {
                    return Some(Some(write(Wire::End { kind, size: self.size, pgn: self.pgn }, self.to, self.from)));
                }
                Some(if number == self.granted { Some(self.grant(now)) } else { None })
            }
            Wire::Dpo { offset, packets, pgn }
                if pgn == self.pgn && offset < self.next && offset + u32::from(packets) <= self.granted =>
            {
                self.offset = offset;
                Some(None)
            }
            _ => Some(None),
        }
    }
}

/// One message, from its RTS to its end acknowledgement.
fn exchange(bytes: &[u8]) -> Option<()> {
    let (mut sender, rts) = Sender::begin(FROM, TO, DM1, bytes, 0);
    let (wire, from, to) = read(&rts)?;
    let (mut receiver, cts) = Receiver::begin(wire, from, to, 0)?;
    let mut answer = Some(cts);
    let mut frames = Vec::with_capacity(8);
    loop {
        if let Some(frame) = answer {
            if sender.take(read(&frame)?.0, 0) {
                return (receiver.bytes == bytes && sender.due.is_some() && receiver.due > 0).then_some(());
            }
        }
        frames.clear();
        sender.pump(&mut frames, 0);
        for frame in &frames {
            answer = receiver.take(read(frame)?.0, 0)?;
        }
    }
}

fn message(size: u32) -> Vec<u8> {
    (0..size).map(|i| (i % 251) as u8).collect()
}

fn time(name: &str, size: u32, times: u32) {
    let message = message(size);
    let mut best = u128::MAX;
    for _ in 0..3 {
        let start = Instant::now();
        for _ in 0..times {
            exchange(black_box(&message)).expect("an exchange");
        }
        best = best.min(start.elapsed().as_nanos());
    }
    let tenths = best * 10 / u128::from(size.div_ceil(7) * times);
    println!("{name:<44} {:>6}.{} ns a packet", tenths / 10, tenths % 10);
}

fn main() {
    match std::env::args().nth(1).as_deref() {
        Some("messages") => shared::round::<false>(),
        Some("keeping") => shared::round::<true>(),
        _ => {
            time("plain Rust: exchange of 100,000,000 bytes", 100_000_000, 1);
            time("plain Rust: exchange of 1,785 bytes", 1_785, 40_000);
        }
    }
}
