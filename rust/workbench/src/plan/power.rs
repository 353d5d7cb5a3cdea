//! Lines about the power: at which access it fails, and which lines are done again with
//! the power failing at each of their accesses.

use usage::quote;

use super::slip::Slip;
use super::words::Words;
use super::Line;
use crate::power::{Fate, Order, When};
use usage::near::meant;

/// Reads what stands after `power`.
pub fn parse(mut words: Words) -> Result<Order, Slip> {
    words.expected("after power", &["fails"])?;
    let when = match words.need("\"at access N\" or \"during the store\"")? {
        "at" => {
            words.expected("after \"power fails at\"", &["access"])?;
            When::Access(words.positive("the number of the access")?)
        }
        "during" => {
            words.expected("after \"power fails during\"", &["the", "store"])?;
            When::Store
        }
        other => {
            return Err(Slip::Form(format!(
                "the power fails at access N, or during the store, not {}{}",
                quote(other),
                meant(other, &["at", "during"])
            )))
        }
    };
    let fate = words.next().map_or(Ok(Fate::Old), fate)?;
    words.end()?;
    Ok(Order { when, fate })
}

fn fate(word: &str) -> Result<Fate, Slip> {
    let named = Fate::ALL.into_iter().find(|fate| fate.word() == word);
    named.ok_or_else(|| {
        Slip::Form(format!(
            "a write leaves its sector old, new or unreadable, not {}{}",
            quote(word),
            meant(word, &Fate::ALL.map(Fate::word))
        ))
    })
}

/// Reads what stands after `cuts`.
pub fn cuts(mut words: Words) -> Result<Line, Slip> {
    let line = match words.need("\"from here\" or \"to here\"")? {
        "from" => Line::CutsFrom,
        "to" => Line::CutsTo,
        other => {
            return Err(Slip::Form(format!(
                "after cuts comes \"from here\" or \"to here\", not {}{}",
                quote(other),
                meant(other, &["from", "to"])
            )))
        }
    };
    words.expected("then", &["here"])?;
    words.end().map(|()| line)
}
