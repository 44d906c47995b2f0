//! The frames on the bus, kept until each station has taken them.
use crate::wire::Frame;
use std::collections::VecDeque;

const KEPT: usize = 4096;

/// How far a station has taken, and whether it may take its last frame again.
#[derive(Clone, Copy)]
pub struct Cursor {
    pub place: u64,
    // What the proved log keeps of each station too, though no call of the benchmark asks for it.
    #[allow(dead_code)]
    pub is_repeatable: bool,
}

pub struct Bus {
    kept: VecDeque<Frame>,
    first: u64,
    pub cursors: Vec<Cursor>,
}

impl Bus {
    pub fn new(stations: usize) -> Bus {
        Bus { kept: VecDeque::new(), first: 1, cursors: vec![Cursor { place: 0, is_repeatable: false }; stations] }
    }

    pub fn len(&self) -> u64 {
        self.first - 1 + self.kept.len() as u64
    }

    pub fn waiting(&self, place: usize) -> u64 {
        self.len() - self.cursors[place].place
    }

    pub fn put(&mut self, frame: Frame) -> bool {
        if self.kept.len() >= KEPT {
            return false;
        }
        self.kept.push_back(frame);
        true
    }

    pub fn next(&mut self, place: usize) -> Option<Frame> {
        let cursor = &mut self.cursors[place];
        let frame = *self.kept.get((cursor.place + 1 - self.first) as usize)?;
        *cursor = Cursor { place: cursor.place + 1, is_repeatable: true };
        Some(frame)
    }

    /// Drops the frames that every station has taken.
    pub fn release(&mut self) {
        let rear = self.cursors.iter().map(|cursor| cursor.place).min().unwrap();
        while self.first < rear {
            self.kept.pop_front();
            self.first += 1
        }
    }
}
