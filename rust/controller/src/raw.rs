//! The library as C sees it: `include/bumivondra.h` in Rust.

/// How many words a record has.
pub const WORDS: usize = 189;

/// `struct bv_drive`: the record. All of it is the library's own, but for the
/// words of `word`, which a board may look at.
#[repr(C)]
#[derive(Clone, Copy, Debug, PartialEq, Eq)]
pub struct Drive {
    pub words: [u16; WORDS],
}

impl Drive {
    /// The record that was never started: all zero.
    pub const NEW: Drive = Drive { words: [0; WORDS] };
}

/// The words that a board may look at.
pub mod word {
    /// Not 0 if there is a table.
    pub const KNOWN: usize = 0;
    /// Not 0 while the table has changes that are not stored.
    pub const UNSTORED: usize = 1;
    /// Not 0 under the latch.
    pub const LATCH: usize = 2;
    /// The low byte is the phase, one of `kind`.
    pub const PHASE: usize = 4;
    /// The run number: its low half, and its high half in the next word.
    pub const RUN: usize = 20;
    /// Not 0 while the place of some block that was moved is not stored.
    pub const UNSTORED_PLACE: usize = 22;
}

/// The phases.
pub mod kind {
    pub const IDLE: u8 = 0;
    pub const OFFER: u8 = 1;
    pub const COMMAND: u8 = 2;
    pub const DATA: u8 = 3;
    pub const START: u8 = 4;
    pub const STORE: u8 = 5;
    pub const READ: u8 = 6;
    pub const WRITE: u8 = 7;
    pub const VERIFY: u8 = 8;
    pub const TRIAL_WRITE: u8 = 9;
    pub const TRIAL_READ: u8 = 10;
}

/// `struct bv_reply`: what a call answers.
#[repr(C)]
#[derive(Clone, Copy, Debug, PartialEq, Eq)]
pub struct Reply {
    pub kind: u32,
    pub value: u32,
}

/// The layout is that of the header's own assertions.
const _: () = {
    use core::mem::{align_of, offset_of, size_of};
    assert!(size_of::<usize>() == 4 || size_of::<usize>() == 8);
    assert!(size_of::<Reply>() == 8);
    assert!(offset_of!(Reply, kind) == 0);
    assert!(offset_of!(Reply, value) == 4);
    assert!(size_of::<Drive>() == 2 * WORDS);
    assert!(align_of::<Drive>() == 2);
};

extern "C" {
    pub fn bv_start(drive: *mut Drive, buf: *mut u8, len: usize) -> Reply;
    pub fn bv_raise(drive: *mut Drive, buf: *mut u8, len: usize) -> Reply;
    pub fn bv_lower(drive: *mut Drive, buf: *mut u8, len: usize, byte: u8) -> Reply;
    pub fn bv_feed(
        drive: *mut Drive,
        buf: *mut u8,
        len: usize,
        bytes: *const u8,
        n: usize,
    ) -> Reply;
    pub fn bv_surface(
        drive: *mut Drive,
        buf: *mut u8,
        len: usize,
        answer: u8,
        bytes: *const u8,
        n: usize,
    ) -> Reply;
    pub fn bv_reset(drive: *mut Drive, buf: *mut u8, len: usize) -> Reply;
    pub fn bv_image(drive: *const Drive, buf: *mut u8, len: usize) -> Reply;
    pub fn bv_convert(from: *const u8, from_len: usize, to: *mut u8, to_len: usize) -> Reply;
    pub fn bv_parity(v: u8) -> u8;
}
