//! The exports of the library, as `fulwethi.h` declares them. A handle goes in by value, which spends it, and comes back by `out`.

use core::{ffi::c_void, mem::size_of};

/// `struct fulwethi`: it owns a node, or nothing if it is null.
#[repr(C)]
pub struct Handle {
    pub ptr: *mut c_void,
}

/// `struct fulwethi_event`
#[repr(C)]
#[derive(Default)]
pub struct Event {
    pub kind: u32,
    pub from: u32,
    pub to: u32,
    pub pgn: u32,
    pub number: u64,
    pub len: u64,
    pub outcome: u32,
    pub reason: u32,
}

// As in examples/c/abi.txt.
const _: () = assert!(size_of::<Handle>() == 8 && size_of::<crate::Frame>() == 16 && size_of::<Event>() == 40);
const _: () = assert!(size_of::<crate::Counts>() == 80 && size_of::<crate::Lane>() == 16);

extern "C" {
    pub fn fulwethi_version() -> u32;
    pub fn fulwethi_raw_new(address: u8, out: *mut Handle) -> u32;
    pub fn fulwethi_raw_again(address: u8, tick: u64, out: *mut Handle) -> u32;
    pub fn fulwethi_raw_free(of: Handle);
    pub fn fulwethi_raw_open(of: Handle, pgn: u32, max_len: u32, port: *mut u64, out: *mut Handle) -> u32;
    pub fn fulwethi_raw_close(of: Handle, port: u64, out: *mut Handle) -> u32;
    pub fn fulwethi_raw_pause(of: Handle, port: u64, out: *mut Handle) -> u32;
    pub fn fulwethi_raw_resume(of: Handle, port: u64, out: *mut Handle) -> u32;
    pub fn fulwethi_raw_send(of: Handle, to: u8, pgn: u32, bytes: *const u8, len: usize, number: *mut u64, out: *mut Handle) -> u32;
    pub fn fulwethi_raw_cancel(of: Handle, to: u8, number: u64, out: *mut Handle) -> u32;
    pub fn fulwethi_raw_feed(of: Handle, id: u32, bytes: *const u8, len: usize, out: *mut Handle) -> u32;
    pub fn fulwethi_raw_missed(of: Handle, out: *mut Handle) -> u32;
    pub fn fulwethi_raw_front(of: Handle, frame: *mut crate::Frame, out: *mut Handle) -> u32;
    pub fn fulwethi_raw_sent(of: Handle, out: *mut Handle) -> u32;
    pub fn fulwethi_raw_clock(of: Handle, tick: u64, out: *mut Handle) -> u32;
    pub fn fulwethi_raw_fire(of: Handle, out: *mut Handle) -> u32;
    pub fn fulwethi_raw_next_due_at(of: Handle, tick: *mut u64, out: *mut Handle) -> u32;
    pub fn fulwethi_raw_next_at(of: Handle, tick: *mut u64, out: *mut Handle) -> u32;
    pub fn fulwethi_raw_sends_from(of: Handle, tick: *mut u64, out: *mut Handle) -> u32;
    pub fn fulwethi_raw_send_refusal(of: Handle, to: u8, pgn: u32, len: usize, out: *mut Handle) -> u32;
    pub fn fulwethi_raw_lane(of: Handle, to: u8, lane: *mut crate::Lane, out: *mut Handle) -> u32;
    pub fn fulwethi_raw_counts(of: Handle, counts: *mut crate::Counts, out: *mut Handle) -> u32;
    pub fn fulwethi_raw_event(of: Handle, event: *mut Event, out: *mut Handle) -> u32;
    pub fn fulwethi_raw_take(of: Handle, room: *mut u8, len: usize, out: *mut Handle) -> u32;
}
