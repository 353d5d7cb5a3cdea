//! Fault lines: what the surface is ordered to do.

use std::collections::VecDeque;

use reference::geometry::Sector;

use usage::quote;

use super::slip::Slip;
use super::words::{missing, Words};
use crate::faults::{Effect, Fault, Faults, Kind, Random, Share, NONE};
use usage::near::meant;

/// A fault line.
#[derive(Clone, Debug, PartialEq, Eq)]
pub enum Order {
    /// A fault for each of these sectors.
    Planned {
        sectors: Vec<Sector>,
        kind: Kind,
        fault: Fault,
    },
    Random {
        seed: u32,
        rate: Share,
        dying: Share,
    },
    ClearAll,
    Clear(Vec<Sector>),
}

impl Order {
    /// Gives the order.
    pub fn give(self, faults: &mut Faults) {
        match self {
            Order::Planned {
                sectors,
                kind,
                fault,
            } => {
                for sector in sectors {
                    faults.add(sector, kind, fault.clone());
                }
            }
            Order::Random { seed, rate, dying } => {
                faults.set_random(Random::new(seed.into(), rate, dying));
            }
            Order::ClearAll => faults.clear(),
            Order::Clear(sectors) => sectors.iter().for_each(|s| faults.clear_sector(*s)),
        }
    }
}

/// Reads what stands after `fault`.
pub fn parse(mut words: Words) -> Result<Order, Slip> {
    match words.need("sector, random or clear")? {
        "sector" => planned(words),
        "random" => random(words),
        "clear" => words.end().map(|()| Order::ClearAll),
        other => Err(Slip::Form(format!(
            "after fault comes sector, random or clear, not {}{}",
            quote(other),
            meant(other, &["sector", "random", "clear"])
        ))),
    }
}

fn planned(mut words: Words) -> Result<Order, Slip> {
    let sectors = words.sectors()?;
    let kind = match words.need("reads, rereads, writes or clear")? {
        "reads" => Kind::Reads,
        "rereads" => Kind::Rereads,
        "writes" => Kind::Writes,
        "clear" => return words.end().map(|()| Order::Clear(sectors)),
        other => {
            return Err(Slip::Form(format!(
                "{} is neither reads, rereads, writes nor clear{}",
                quote(other),
                meant(other, &["reads", "rereads", "writes", "clear"])
            )))
        }
    };
    let fault = fault(&mut words, kind)?;
    words.end()?;
    Ok(Order::Planned {
        sectors,
        kind,
        fault,
    })
}

fn fault(words: &mut Words, kind: Kind) -> Result<Fault, Slip> {
    match words.need("next, all, every, fail or in-turn")? {
        "next" => {
            let times = words.positive("the number of accesses")?;
            Ok(Fault::next(times, one_effect(words, kind)?))
        }
        "all" => Ok(Fault::All(one_effect(words, kind)?)),
        "every" => {
            let every = words.positive("the number of accesses")?;
            Ok(Fault::spread(1, every, one_effect(words, kind)?))
        }
        "fail" => fail(words, kind),
        "in-turn" => in_turn(words, kind),
        other => Err(Slip::Form(format!(
            "{} is neither next, all, every, fail nor in-turn{}",
            quote(other),
            meant(other, &["next", "all", "every", "fail", "in-turn"])
        ))),
    }
}

/// Reads one effect, which must be there.
fn one_effect(words: &mut Words, kind: Kind) -> Result<Effect, Slip> {
    let word = words.next().ok_or_else(|| no_effect(kind))?;
    effect(word, kind)
}

/// Says that the fault is missing, and which there are.
fn no_effect(kind: Kind) -> Slip {
    let own = match kind {
        Kind::Reads | Kind::Rereads => "crc",
        Kind::Writes => "unreadable",
    };
    missing(&format!("the fault ({own}, timeout, no-settle or good)"))
}

/// How many of how many accesses fail, and by which fault: by CRC errors if a line about
/// reads does not say.
fn fail(words: &mut Words, kind: Kind) -> Result<Fault, Slip> {
    let fails = words.number("the number of failures", u32::MAX)?;
    if words.peek().is_none() {
        let fault = "\"of\" and the number of accesses are missing";
        return Err(Slip::Form(String::from(fault)));
    }
    words.expected("after the number of failures", &["of"])?;
    let of = words.positive("the number of accesses")?;
    if fails > of {
        let fault = format!("of {of} accesses {of} at most can fail, not {fails}");
        return Err(Slip::Value(fault));
    }
    let effect = match words.next() {
        Some(word) => effect(word, kind)?,
        None if kind == Kind::Writes => {
            return Err(missing("the fault (unreadable, timeout or no-settle)"));
        }
        None => Effect::Crc,
    };
    match effect {
        Effect::Good => Err(Slip::Value(String::from("\"good\" is no failure"))),
        effect => Ok(Fault::spread(fails, of, effect)),
    }
}

/// Effects, each with a count after `*` or without.
fn in_turn(words: &mut Words, kind: Kind) -> Result<Fault, Slip> {
    let mut turns = VecDeque::new();
    while let Some(word) = words.next() {
        let (name, times) = word.split_once('*').unwrap_or((word, "1"));
        let times = Words::new(times).positive("a count")?;
        turns.push_back((times, effect(name, kind)?));
    }
    match turns.is_empty() {
        true => Err(no_effect(kind)),
        false => Ok(Fault::InTurn(turns)),
    }
}

fn effect(word: &str, kind: Kind) -> Result<Effect, Slip> {
    let value = |fault| Err(Slip::Value(String::from(fault)));
    match (word, kind) {
        ("good", _) => Ok(Effect::Good),
        ("timeout", _) => Ok(Effect::Timeout),
        ("no-settle", _) => Ok(Effect::NoSettle),
        ("crc", Kind::Writes) => value("a write has no CRC error"),
        ("crc", _) => Ok(Effect::Crc),
        ("unreadable", Kind::Writes) => Ok(Effect::Unreadable),
        ("unreadable", _) => value("a read leaves its sector as it is"),
        _ => Err(Slip::Form(format!(
            "{} is no fault: crc, timeout, no-settle, unreadable or good{}",
            quote(word),
            meant(word, &["crc", "timeout", "no-settle", "unreadable", "good"])
        ))),
    }
}

fn random(mut words: Words) -> Result<Order, Slip> {
    words.expected("after \"fault random\"", &["seed"])?;
    let seed = words.number("the seed", u32::MAX)?;
    words.expected("after the seed", &["rate"])?;
    let rate = share(&mut words, "rate")?;
    let dying = match words.take("dying") {
        true => share(&mut words, "share")?,
        false => NONE,
    };
    words.end()?;
    Ok(Order::Random { seed, rate, dying })
}

/// Reads a share, N/M.
fn share(words: &mut Words, what: &str) -> Result<Share, Slip> {
    let share = words.need(&format!("the {what}"))?;
    let (some, of) = share
        .split_once('/')
        .ok_or_else(|| Slip::Form(format!("a {what} is N/M, not {}", quote(share))))?;
    let of = Words::new(of).positive(&format!("the {what}'s second number"))?;
    let some = Words::new(some).number(&format!("the {what}'s first number"), of)?;
    Ok(Share { some, of })
}
