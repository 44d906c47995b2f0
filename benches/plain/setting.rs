//! What a round does, and the segment on which it does it.
use crate::segment::{Call, Reply, Segment};
use crate::station::Event;
use crate::wire::Frame;

/// Diagnostic message 1.
pub const DM1: u32 = 0xFECA;

pub const FROM: u8 = 0;
pub const TO: u8 = 1;

/// What is done again and again. The names are those of `benches/speed`.
#[derive(Clone, Copy, PartialEq)]
pub enum Work {
    Drive,
    DriveToAll,
    Calls,
    CallsToAll,
    Foreign,
    Other,
    Tick,
    Fire,
    IsDue,
    NextPump,
    IsIdle,
    Close,
}

pub struct Case {
    pub work: Work,
    pub stations: u8,
    pub length: u32,
    pub times: u64,
    pub ports: u32,
    pub lanes: u8,
    pub sessions: u8,
    pub kept: u64,
}

impl Work {
    fn of(word: &str) -> Option<Work> {
        Some(match word {
            "drive" => Work::Drive,
            "drive-to-all" => Work::DriveToAll,
            "calls" => Work::Calls,
            "calls-to-all" => Work::CallsToAll,
            "foreign" => Work::Foreign,
            "other" => Work::Other,
            "tick" => Work::Tick,
            "fire" => Work::Fire,
            "is-due" => Work::IsDue,
            "next-pump" => Work::NextPump,
            "is-idle" => Work::IsIdle,
            "close" => Work::Close,
            _ => return None,
        })
    }
}

impl Case {
    /// The case of these words, of which the first is the program's name.
    pub fn of(words: &[String]) -> Option<Case> {
        let number = |place: usize, absent: u64| words.get(place).map_or(Some(absent), |word| word.parse::<u64>().ok());
        Some(Case {
            work: Work::of(words.get(1)?)?,
            stations: number(2, 2)? as u8,
            length: number(3, 9)? as u32,
            times: number(4, 1)?,
            ports: number(5, 1)? as u32,
            lanes: number(6, 0)? as u8,
            sessions: number(7, 0)? as u8,
            kept: number(8, 0)?,
        })
    }
}

/// A message of so many bytes.
pub fn message(length: u32) -> Vec<u8> {
    (0..length).map(|i| (i % 251) as u8).collect()
}

/// A frame of eight bytes, of a node that is no station.
pub fn foreign(id: u32) -> Frame {
    Frame { id, len: 8, data: [1, 2, 3, 4, 5, 6, 7, 8] }
}

/// Makes a call that isn't refused.
#[inline(always)]
pub fn make(segment: &mut Segment, call: Call) -> Reply {
    let reply = segment.apply(call);
    assert!(!matches!(reply, Reply::Refused(_)), "a call was refused");
    reply
}

/// How many bytes these events give.
pub fn given_by(events: Vec<Event>) -> u64 {
    let mut given = 0;
    for event in events {
        if let Event::Given { bytes, .. } = event {
            given += bytes.len() as u64
        }
    }
    given
}

/// Each station takes what waits for it, the last one all but what it keeps waiting: how many bytes were given.
pub fn take_all(segment: &mut Segment, case: &Case) -> u64 {
    let mut given = 0;
    for station in 0..case.stations {
        let left = if station + 1 == case.stations { case.kept } else { 0 };
        while segment.waiting(station) > left {
            match segment.apply(Call::Take { station, room: true }) {
                Reply::Done(events) => given += given_by(events),
                _ => panic!("a frame was not taken"),
            }
        }
    }
    given
}

/// The segment of a case.
pub fn segment(case: &Case) -> Segment {
    let mut segment = Segment::new(case.stations);
    for port in 1..case.ports {
        make(&mut segment, Call::Open { station: TO, pgn: 0xFE00 + port % 128, max: 1785 });
    }
    make(&mut segment, Call::Open { station: TO, pgn: DM1, max: 117_440_505 });
    for lane in 0..case.lanes {
        make(&mut segment, Call::Send { from: FROM, to: 40 + lane % 200, pgn: DM1, bytes: message(9) });
    }
    for node in 0..case.sessions {
        // An RTS of 1,785 bytes.
        let rts = Frame { id: 0x1CEC_0100 + 100 + node as u32, len: 8, data: [16, 0xF9, 6, 255, 16, 0xCA, 0xFE, 0] };
        make(&mut segment, Call::Inject { frame: rts });
        take_all(&mut segment, case);
        make(&mut segment, Call::Transmit { station: TO });
        take_all(&mut segment, case);
    }
    for _ in 0..case.kept {
        make(&mut segment, Call::Inject { frame: foreign(0x18FE_F1F0) });
        take_all(&mut segment, case);
    }
    segment
}
