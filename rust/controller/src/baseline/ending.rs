//! How a command ends.

use super::Seen;
use crate::STATUS;

/// An ending, by its number in a record whose store is awaited.
#[derive(Clone, Copy, Debug, PartialEq, Eq)]
pub enum Ending {
    Good = 0,
    Moved = 1,
    Failed = 2,
    Overrun = 3,
    NoNumber = 4,
    NoTableOnRead = 5,
    NoTableOnWrite = 6,
    Latched = 7,
    BadFull = 8,
    NoSpare = 9,
}

impl Ending {
    /// All of them, each at its number.
    pub const ALL: [Ending; 10] = [
        Ending::Good,
        Ending::Moved,
        Ending::Failed,
        Ending::Overrun,
        Ending::NoNumber,
        Ending::NoTableOnRead,
        Ending::NoTableOnWrite,
        Ending::Latched,
        Ending::BadFull,
        Ending::NoSpare,
    ];

    /// Returns the status bytes after what was met.
    pub fn status(self, seen: Seen) -> [u8; STATUS] {
        let (one, two, three) = match self {
            Ending::Good => (0, 0, 0),
            Ending::Moved => (0, 0x04, 0),
            Ending::Failed => (0x01, 0, 0),
            Ending::Overrun => (0x41, 0, 0),
            Ending::NoNumber => (0x01, 0, 0x40),
            Ending::NoTableOnRead => (0x01, 0x08, 0),
            Ending::NoTableOnWrite => (0x41, 0x08, 0),
            Ending::Latched => (0x11, 0, 0),
            Ending::BadFull => (0x01, 0x10, 0),
            Ending::NoSpare => (0x01, 0x40, 0),
        };
        let met = u8::from(seen.crc) << 3 | u8::from(seen.timeout) << 2;
        [one | met, two, three, seen.errors]
    }
}
