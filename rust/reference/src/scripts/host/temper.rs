//! The tempers of random scripts: how the host and the surface behave over a
//! whole script.

use crate::surface::{Mood, MOODS};

/// A temper. Where a number n stands for a chance, it is one in n.
#[derive(Debug)]
pub struct Temper {
    /// Of a step: a call that no sensible host makes now.
    pub stray: u32,
    /// Of a handshake byte: a wrong one.
    pub wrong: u32,
    /// Of a raise in idle: a start in its place, at any time and when not much
    /// can be done any more.
    pub restart: u32,
    pub dull_restart: u32,
    /// Of a start: the surface is not calm.
    pub bad_start: u32,
    /// Of a command: the surface's mood turns, to one of these.
    pub turn: u32,
    pub moods: &'static [Mood],
    /// Of an access without an answer: no settle. Among the rereads of a trial it is
    /// ten times as rare.
    pub no_settle: u32,
    /// Of a command: R is 255.
    pub most_rereads: u32,
    /// Of a command, if at all: a read that goes on as long as it can.
    pub longest: Option<u32>,
    /// Of a write or a store: the power is cut. At reads it is rarer.
    pub cut: u32,
    /// Half of the commands go to blocks all over the drive.
    pub roams: bool,
}

/// A bit of everything.
pub const EVEN: Temper = Temper {
    stray: 8,
    wrong: 25,
    restart: 150,
    dull_restart: 4,
    bad_start: 4,
    turn: 3,
    moods: &MOODS,
    no_settle: 30,
    most_rereads: 60,
    longest: None,
    cut: 6,
    roams: false,
};

/// Few starts and few mistakes, so that the controller itself fills its lists.
pub const PATIENT: Temper = Temper {
    stray: 60,
    wrong: 200,
    restart: 4000,
    dull_restart: 25,
    moods: &[Mood::Calm, Mood::Marginal, Mood::Rough, Mood::Worn],
    no_settle: 300,
    cut: 30,
    ..EVEN
};

/// Every other step is a stray call.
pub const HOSTILE: Temper = Temper {
    stray: 2,
    wrong: 5,
    ..EVEN
};

/// Sectors wear out all over the drive, and commands take long.
pub const WORN: Temper = Temper {
    stray: 30,
    wrong: 100,
    restart: 1000,
    dull_restart: 8,
    moods: &[
        Mood::Worn,
        Mood::Worn,
        Mood::Marginal,
        Mood::Rough,
        Mood::Faint,
        Mood::Blind,
    ],
    no_settle: 300,
    most_rereads: 12,
    longest: Some(32),
    cut: 12,
    roams: true,
    ..EVEN
};

/// Starts, stores and writes fail.
pub const FAILING: Temper = Temper {
    bad_start: 1,
    turn: 2,
    moods: &[
        Mood::Faint,
        Mood::Faint,
        Mood::Rough,
        Mood::Stuck,
        Mood::Dead,
        Mood::Calm,
    ],
    ..EVEN
};

/// All tempers.
pub const ALL: [&Temper; 5] = [&EVEN, &PATIENT, &HOSTILE, &WORN, &FAILING];

impl Temper {
    /// That of a seed: neighbours have different ones.
    pub fn of(seed: u64) -> &'static Temper {
        let count = ALL.len() as u64;
        // The place is below the count.
        ALL[(seed % count) as usize]
    }
}
