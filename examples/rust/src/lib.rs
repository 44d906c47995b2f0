//! One station of SAE J1939-21 and ISO 11783-3 for a program that owns the bus: frames and ticks go in, frames and events come out. No call
//! waits, reads a clock, starts a thread or calls back. The C library does the work, and is proved; this crate, by which Rust calls it, isn't.
//!
//! ```
//! let mut node = fulwethi::Node::new(0x35)?;
//! let port = node.open(0xEF00, 1785)?;
//! assert_eq!(node.close(port), Ok(()));
//! assert_eq!(node.close(port), Err(fulwethi::Error::NoSuchPort));
//! # Ok::<(), fulwethi::Error>(())
//! ```

mod code;
mod raw;

pub use code::{Error, Fed, Missed, Outcome};
use core::{mem, ptr};

/// A frame: 29 bits of identifier, and `len` bytes, 0 to 8.
#[repr(C)]
#[derive(Clone, Copy, Debug, Default, PartialEq, Eq)]
pub struct Frame {
    pub id: u32,
    len: u32,
    bytes: [u8; 8],
}

impl Frame {
    pub fn new(id: u32, bytes: &[u8]) -> Result<Frame, Error> {
        let mut frame = Frame { id, ..Frame::default() };
        frame.bytes.get_mut(..bytes.len()).ok_or(Error::DataTooLong)?.copy_from_slice(bytes);
        frame.len = bytes.len() as u32;
        Ok(frame)
    }

    pub fn bytes(&self) -> &[u8] {
        &self.bytes[..self.len as usize]
    }
}

/// What a node counted: frames that were put or fed, malformed ones among them, messages that were given, and messages by their outcome.
#[repr(C)]
#[derive(Clone, Copy, Debug, Default, PartialEq, Eq)]
pub struct Counts {
    pub frames: u64,
    pub malformed: u64,
    pub given: u64,
    pub acknowledged: u64,
    pub broadcast: u64,
    pub aborted: u64,
    pub timed_out: u64,
    pub overrun: u64,
    pub cancelled: u64,
    pub unreachable: u64,
}

/// How many messages to a destination have no outcome, and 1 in `in_doubt` after one that failed.
#[repr(C)]
#[derive(Clone, Copy, Debug, Default, PartialEq, Eq)]
pub struct Lane {
    pub pending: u64,
    pub in_doubt: u32,
}

/// What is told.
#[derive(Clone, Copy, Debug, PartialEq, Eq)]
pub enum Event {
    /// A message of `len` bytes at a port.
    Given { port: u64, from: u8, to: u8, pgn: u32, len: usize },
    /// How a message that was sent has ended, with the reason of its abort.
    Outcome { to: u8, number: u64, outcome: Outcome, reason: u8 },
}

/// A node. It may be handed to another thread, and one thread at a time uses it:
///
/// ```
/// fn passes<T: Send>(_: T) {}
/// passes(fulwethi::Node::new(0x35)?);
/// # Ok::<(), fulwethi::Error>(())
/// ```
///
/// ```compile_fail
/// fn shares<T: Sync>(_: T) {}
/// shares(fulwethi::Node::new(0x35));
/// ```
pub struct Node {
    // A pointer, so that a node isn't `Sync`. It is never null outside of a call.
    handle: raw::Handle,
}

// SAFETY: the library's handle may go to another thread with all that it owns, which is proved there, and every call takes the node
// by `&mut` or by `&`, which no two threads have at the same time, since it isn't `Sync`.
unsafe impl Send for Node {}

impl Drop for Node {
    fn drop(&mut self) {
        let handle = mem::replace(&mut self.handle, raw::Handle { ptr: ptr::null_mut() });
        if !handle.ptr.is_null() {
            // SAFETY: it owns a node, and nobody uses it again.
            unsafe { raw::fulwethi_raw_free(handle) }
        }
    }
}

/// What a code says of a call that is done or isn't.
fn done(code: u32) -> Result<(), Error> {
    match code {
        0 => Ok(()),
        _ => Err(Error::of_number(code)),
    }
}

/// What a code says of a frame that was fed.
fn fed(code: u32) -> Result<Fed, Error> {
    match code {
        70 => Ok(Fed::WithoutRoom),
        71 => Ok(Fed::PassedBy),
        _ => done(code).map(|()| Fed::Taken),
    }
}

impl Node {
    /// A node with this address, 0 to 253, at tick 0, if no program sent a message from it in the last 1,250 ms.
    pub fn new(address: u8) -> Result<Node, Error> {
        let mut node = Node { handle: raw::Handle { ptr: ptr::null_mut() } };
        // SAFETY: the place is there, and owns nothing.
        done(unsafe { raw::fulwethi_raw_new(address, &mut node.handle) })?;
        Ok(node)
    }

    /// That of a program that starts again at its address, or may do so, at this tick of its clock: it sends no message for 1,250 ticks.
    pub fn again(address: u8, tick: u64) -> Result<Node, Error> {
        let mut node = Node { handle: raw::Handle { ptr: ptr::null_mut() } };
        // SAFETY: as in `new`.
        done(unsafe { raw::fulwethi_raw_again(address, tick, &mut node.handle) })?;
        Ok(node)
    }

    /// Makes a call of the library, which spends the handle and writes it back.
    fn call(&mut self, call: impl FnOnce(raw::Handle, *mut raw::Handle) -> u32) -> u32 {
        let handle = mem::replace(&mut self.handle, raw::Handle { ptr: ptr::null_mut() });
        call(handle, &mut self.handle)
    }

    /// Opens a port for messages of a PGN of at most `max_len` bytes.
    pub fn open(&mut self, pgn: u32, max_len: u32) -> Result<u64, Error> {
        let mut port = 0;
        // SAFETY: here and below, the handle owns a node, and each pointer is to a place as large as is said.
        done(self.call(|of, out| unsafe { raw::fulwethi_raw_open(of, pgn, max_len, &mut port, out) }))?;
        Ok(port)
    }

    pub fn close(&mut self, port: u64) -> Result<(), Error> {
        done(self.call(|of, out| unsafe { raw::fulwethi_raw_close(of, port, out) }))
    }

    /// Holds connections that bring the port a message.
    pub fn pause(&mut self, port: u64) -> Result<(), Error> {
        done(self.call(|of, out| unsafe { raw::fulwethi_raw_pause(of, port, out) }))
    }

    pub fn resume(&mut self, port: u64) -> Result<(), Error> {
        done(self.call(|of, out| unsafe { raw::fulwethi_raw_resume(of, port, out) }))
    }

    /// Sends a message, whose bytes are copied, and answers its number in the lane.
    pub fn send(&mut self, to: u8, pgn: u32, bytes: &[u8]) -> Result<u64, Error> {
        let mut number = 0;
        done(self.call(|of, out| unsafe { raw::fulwethi_raw_send(of, to, pgn, bytes.as_ptr(), bytes.len(), &mut number, out) }))?;
        Ok(number)
    }

    /// The tick before which it sends no message: until then `send` is refused as `Starting`.
    pub fn sends_from(&mut self) -> u64 {
        let mut tick = 0;
        self.call(|of, out| unsafe { raw::fulwethi_raw_sends_from(of, &mut tick, out) });
        tick
    }

    /// Why `send` of so many bytes would be refused, but for `Starting`.
    pub fn send_refusal(&mut self, to: u8, pgn: u32, len: usize) -> Option<Error> {
        done(self.call(|of, out| unsafe { raw::fulwethi_raw_send_refusal(of, to, pgn, len, out) })).err()
    }

    pub fn cancel(&mut self, to: u8, number: u64) -> Result<(), Error> {
        done(self.call(|of, out| unsafe { raw::fulwethi_raw_cancel(of, to, number, out) }))
    }

    /// A frame of another node comes from the bus.
    pub fn feed(&mut self, frame: &Frame) -> Result<Fed, Error> {
        let bytes = frame.bytes();
        fed(self.call(|of, out| unsafe { raw::fulwethi_raw_feed(of, frame.id, bytes.as_ptr(), bytes.len(), out) }))
    }

    /// Frames of the bus were lost: to be called before a later one is fed.
    pub fn missed(&mut self) -> Missed {
        match self.call(|of, out| unsafe { raw::fulwethi_raw_missed(of, out) }) {
            0 => Missed::Ended,
            _ => Missed::Waits,
        }
    }

    /// The frame that is next for the bus, if there is one; it stays next until `sent`.
    pub fn front(&mut self) -> Result<Option<Frame>, Error> {
        let mut frame = Frame::default();
        match done(self.call(|of, out| unsafe { raw::fulwethi_raw_front(of, &mut frame, out) })) {
            Ok(()) => Ok(Some(frame)),
            Err(Error::Nothing) => Ok(None),
            Err(error) => Err(error),
        }
    }

    /// That frame was put.
    pub fn sent(&mut self) -> Result<(), Error> {
        done(self.call(|of, out| unsafe { raw::fulwethi_raw_sent(of, out) }))
    }

    /// The clock goes on to a tick of 1 ms.
    pub fn clock(&mut self, tick: u64) -> Result<(), Error> {
        done(self.call(|of, out| unsafe { raw::fulwethi_raw_clock(of, tick, out) }))
    }

    /// Fires one timer that is due; to be called until it isn't done.
    pub fn fire(&mut self) -> Result<(), Error> {
        done(self.call(|of, out| unsafe { raw::fulwethi_raw_fire(of, out) }))
    }

    /// The tick of the next timer, if one runs.
    pub fn next_due_at(&mut self) -> Option<u64> {
        let mut tick = 0;
        done(self.call(|of, out| unsafe { raw::fulwethi_raw_next_due_at(of, &mut tick, out) })).ok()?;
        Some(tick)
    }

    /// The tick until which the program may sleep, if there is something to do at any.
    pub fn next_at(&mut self) -> Option<u64> {
        let mut tick = 0;
        done(self.call(|of, out| unsafe { raw::fulwethi_raw_next_at(of, &mut tick, out) })).ok()?;
        Some(tick)
    }

    pub fn lane(&mut self, to: u8) -> Lane {
        let mut lane = Lane::default();
        self.call(|of, out| unsafe { raw::fulwethi_raw_lane(of, to, &mut lane, out) });
        lane
    }

    pub fn counts(&mut self) -> Counts {
        let mut counts = Counts::default();
        self.call(|of, out| unsafe { raw::fulwethi_raw_counts(of, &mut counts, out) });
        counts
    }

    /// What is told next, if something is; it stays.
    pub fn next_event(&mut self) -> Option<Event> {
        let mut told = raw::Event::default();
        done(self.call(|of, out| unsafe { raw::fulwethi_raw_event(of, &mut told, out) })).ok()?;
        let (from, to) = (told.from as u8, told.to as u8);
        Some(if told.kind == 1 {
            Event::Given { port: told.number, from, to, pgn: told.pgn, len: told.len as usize }
        } else {
            Event::Outcome { to, number: told.number, outcome: Outcome::of_number(told.outcome), reason: told.reason as u8 }
        })
    }

    /// Takes what is told next, and writes its bytes to the front of the room. If the room is too little, it stays.
    pub fn take(&mut self, room: &mut [u8]) -> Result<(), Error> {
        done(self.call(|of, out| unsafe { raw::fulwethi_raw_take(of, room.as_mut_ptr(), room.len(), out) }))
    }

    /// Takes what is told next, if something is, with its bytes. Without memory for them it stays.
    pub fn take_next(&mut self) -> Result<Option<(Event, Vec<u8>)>, Error> {
        let Some(event) = self.next_event() else {
            return Ok(None);
        };
        let len = match event {
            Event::Given { len, .. } => len,
            Event::Outcome { .. } => 0,
        };
        let mut bytes = Vec::new();
        bytes.try_reserve_exact(len).map_err(|_| Error::NoMemory)?;
        bytes.resize(len, 0);
        self.take(&mut bytes)?;
        Ok(Some((event, bytes)))
    }
}

/// The version of the library that is linked: its three numbers, two hexadecimal digits each.
pub fn version() -> u32 {
    // SAFETY: it takes and changes nothing.
    unsafe { raw::fulwethi_version() }
}
