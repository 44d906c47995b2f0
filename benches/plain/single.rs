//! Single calls. Each kind of work has a loop of its own in which its call is named, as in `benches/speed`.
use crate::segment::{Call, Reply, Segment};
use crate::setting::{Case, DM1, FROM, Work, foreign, make, take_all};
use crate::wire::Frame;
use std::hint::black_box;

// It is called, so that the compiler doesn't make one step of all Ticks.
#[inline(never)]
fn tick(segment: &mut Segment) {
    make(segment, Call::Tick { ticks: 1 });
}

// A port is opened and closed again.
#[inline(always)]
fn open_and_close(segment: &mut Segment) {
    match segment.apply(Call::Open { station: FROM, pgn: DM1, max: 1785 }) {
        Reply::Opened(station, number) => make(segment, Call::Close { port: (station, number) }),
        _ => panic!("a port was not opened"),
    };
}

// A foreign frame is put on the bus, and each station takes it.
#[inline(never)]
fn injections(segment: &mut Segment, case: &Case, frame: Frame) -> u64 {
    for _ in 0..case.times {
        make(segment, Call::Inject { frame });
        take_all(segment, case);
    }
    case.times
}

#[inline(never)]
fn timers(segment: &mut Segment, times: u64) -> u64 {
    for _ in 0..times {
        // As far as the compiler knows, the segment was changed, so that it does no call once for all.
        let reply = black_box(&mut *segment).apply(Call::Fire { station: FROM });
        assert!(matches!(reply, Reply::Refused(_)), "a timer ran out")
    }
    times
}

#[inline(never)]
fn dues(segment: &mut Segment, times: u64) -> u64 {
    let mut sum = 0;
    for _ in 0..times {
        sum += u64::from(segment.stations[0].is_due(segment.now));
        tick(segment)
    }
    sum
}

#[inline(never)]
fn pumps(segment: &mut Segment, times: u64) -> u64 {
    let mut sum = 0;
    for _ in 0..times {
        sum += u64::from(segment.stations[0].next_pump(segment.now).is_some());
        tick(segment)
    }
    sum
}

#[inline(never)]
fn rests(segment: &mut Segment, times: u64) -> u64 {
    let mut sum = 0;
    for _ in 0..times {
        sum += u64::from(segment.is_idle());
        tick(segment)
    }
    sum
}

#[inline(never)]
fn ports(segment: &mut Segment, times: u64) -> u64 {
    for _ in 0..times {
        // As above.
        open_and_close(black_box(&mut *segment))
    }
    times
}

// Eight in a turn of the loop, so that it isn't the place of the loop's own branch that is measured.
#[inline(never)]
fn ticks(segment: &mut Segment, times: u64) -> u64 {
    let turns = times / 8;
    for _ in 0..turns {
        for _ in 0..8 {
            tick(segment)
        }
    }
    turns * 8
}

/// A round of single calls, each of them a call, or a reader and a Tick: how many there were, and the sum of the answers.
pub fn round(segment: &mut Segment, case: &Case) -> (u64, u64) {
    let times = case.times;
    let sum = match case.work {
        Work::Foreign => injections(segment, case, foreign(0x18FE_F1F0)),
        Work::Other => injections(segment, case, foreign(0x1CEB_F1F0)),
        Work::Fire => timers(segment, times),
        Work::IsDue => dues(segment, times),
        Work::NextPump => pumps(segment, times),
        Work::IsIdle => rests(segment, times),
        Work::Close => ports(segment, times),
        _ => ticks(segment, times),
    };
    (times, sum)
}
