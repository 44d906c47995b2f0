//! What a call comes to that isn't done, and how a message ends.

use core::fmt;

macro_rules! numbered {
    ($(#[$about:meta])* $kind:ident { $($(#[$doc:meta])* $name:ident = $number:literal, $text:literal;)* }) => {
        $(#[$about])*
        #[derive(Clone, Copy, Debug, PartialEq, Eq, Hash)]
        #[non_exhaustive]
        pub enum $kind {
            $($(#[$doc])* $name,)*
            /// A number that this crate doesn't know: the library is newer.
            Other(u32),
        }

        impl $kind {
            pub fn of_number(number: u32) -> $kind {
                match number {
                    $($number => $kind::$name,)*
                    _ => $kind::Other(number),
                }
            }

            pub fn number(self) -> u32 {
                match self {
                    $($kind::$name => $number,)*
                    $kind::Other(number) => number,
                }
            }
        }

        impl fmt::Display for $kind {
            fn fmt(&self, out: &mut fmt::Formatter<'_>) -> fmt::Result {
                match self {
                    $($kind::$name => out.write_str($text),)*
                    $kind::Other(number) => write!(out, "number {number}"),
                }
            }
        }
    };
}

numbered! {
    /// Why a call isn't done. It may be made again. It changed nothing, but that `feed` and `sent` may have ended what `missed` left to end.
    Error {
        IdTooLarge = 1, "the identifier of the frame has more than 29 bits";
        DataTooLong = 2, "the frame has more than 8 bytes";
        BadPgn = 3, "no PGN: it has more than 18 bits, or is of PDU1 and its low byte isn't 0";
        TxFull = 6, "too few places are free in the queue of frames for the bus: put frames first";
        BusFull = 7, "the node has counted as many frames as it can";
        LaneFull = 9, "32 messages to this destination have no outcome";
        PortsFull = 11, "16 ports are open";
        NoSuchPort = 12, "no port with this number is open";
        BadAddress = 13, "a node's address is 0 to 253";
        NoSuchStation = 14, "254 is no destination";
        TooShort = 15, "the message has fewer than 9 bytes";
        TooLong = 16, "the message has more than 1,785 bytes to all, or more than 117,440,505 to one node";
        SameStation = 17, "the destination is the node itself";
        NothingDue = 20, "no timer is due";
        NothingToSend = 21, "there is no such frame or message to send";
        StationAddress = 23, "the frame has the source address of the node";
        PortPaused = 27, "the port is paused already";
        PortNotPaused = 28, "the port isn't paused";
        NoMemory = 64, "no memory: nothing changed";
        Nothing = 65, "there is nothing now";
        ClockPassed = 67, "the clock of the node stands later";
        TooLittleRoom = 68, "the room is too little for the message";
        Starting = 77, "the program started again: it sends no message yet";
    }
}

impl std::error::Error for Error {}

numbered! {
    /// How a message that was sent has ended. All but `Acknowledged` and `Unreachable` leave open whether it was given.
    Outcome {
        Acknowledged = 1, "Acknowledged";
        Broadcast = 2, "Broadcast";
        Aborted = 3, "Aborted";
        TimedOut = 4, "TimedOut";
        Overrun = 5, "Overrun";
        Cancelled = 6, "Cancelled";
        Unreachable = 7, "Unreachable";
    }
}

/// What becomes of a frame that was fed.
#[derive(Clone, Copy, Debug, PartialEq, Eq)]
#[must_use]
pub enum Fed {
    /// The node has taken it.
    Taken,
    /// The node has looked at the frame, and there was no memory for what it brings.
    WithoutRoom,
    /// The node hasn't looked at it: what was under way when frames were missed has yet to end, and there was no memory for that. The frame
    /// counts as missed too, and isn't fed again.
    PassedBy,
}

/// What becomes of a loss that was told.
#[derive(Clone, Copy, Debug, PartialEq, Eq)]
#[must_use]
pub enum Missed {
    /// What was under way has ended.
    Ended,
    /// There was no memory for that. The node remembers it, and each `feed` and `sent` tries it first.
    Waits,
}
