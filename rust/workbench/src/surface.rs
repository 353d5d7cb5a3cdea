//! The surface: how an access goes, by what the platter holds and what is ordered, and
//! what one leaves at which the power fails.

use reference::surface::{Access, Left, Outcome};

use crate::faults::Effect;
use crate::platter::Platter;
use crate::power::Fate;

/// Answers of the surface, as document 01 numbers them.
pub const GOOD: u8 = controller::surface::GOOD;
pub const CRC: u8 = controller::surface::CRC;
pub const TIMEOUT: u8 = controller::surface::TIMEOUT;
pub const NO_SETTLE: u8 = controller::surface::NO_SETTLE;

/// How an access goes that is ordered to do this; a write is sent these bytes.
pub fn outcome(platter: &Platter, access: Access, sent: &[u8], effect: Effect) -> Outcome {
    match (access, effect) {
        (_, Effect::Timeout) => Outcome::new(TIMEOUT, vec![]),
        (_, Effect::NoSettle) => Outcome::new(NO_SETTLE, vec![]),
        (Access::Write(_), Effect::Unreadable) => Outcome::done(Left::Spoiled),
        (Access::Write(_), _) => Outcome::done(Left::Held(sent.to_vec())),
        (Access::Read(sector), Effect::Good) => match platter.held(sector) {
            Some(held) => Outcome::new(GOOD, held.to_vec()),
            None => Outcome::new(CRC, damaged(&platter.bytes(sector))),
        },
        (Access::Read(sector), _) => Outcome::new(CRC, damaged(&platter.bytes(sector))),
    }
}

/// What an access leaves at which the power fails; a write was sent these bytes. A read
/// leaves its sector alone, whatever is ordered.
pub fn left_at_a_cut(access: Access, sent: &[u8], fate: Fate) -> Left {
    match (access, fate) {
        (Access::Read(_), _) | (_, Fate::Old) => Left::Alone,
        (_, Fate::New) => Left::Held(sent.to_vec()),
        (_, Fate::Unreadable) => Left::Spoiled,
    }
}

/// What a CRC error brings: the bytes with a bit turned over in every 128th.
fn damaged(bytes: &[u8]) -> Vec<u8> {
    let mut bytes = bytes.to_vec();
    for byte in bytes.iter_mut().skip(5).step_by(128) {
        *byte ^= 0x40;
    }
    bytes
}

#[cfg(test)]
mod tests {
    use super::*;
    use reference::geometry::Sector;
    use reference::surface::{cut_obeys, obeys};

    const EFFECTS: [Effect; 5] = [
        Effect::Good,
        Effect::Crc,
        Effect::Timeout,
        Effect::NoSettle,
        Effect::Unreadable,
    ];

    /// Every outcome of this access keeps the surface's rules.
    fn keeps_the_rules(platter: &Platter, access: Access) {
        let sent = [7; 532];
        for effect in EFFECTS {
            let outcome = outcome(platter, access, &sent, effect);
            let kept = obeys(platter.sectors(), access, &sent, &outcome);
            assert!(kept, "{access:?} {effect:?}");
        }
    }

    #[test]
    fn every_outcome_keeps_the_rules() {
        let sector = Sector::new(17).expect("a sector");
        let mut platter = Platter::blank();
        keeps_the_rules(&platter, Access::Read(sector));
        keeps_the_rules(&platter, Access::Write(sector));
        platter.leave(Access::Write(sector), &[7; 532], &Left::Spoiled);
        keeps_the_rules(&platter, Access::Read(sector));
        keeps_the_rules(&platter, Access::Write(sector));
    }

    #[test]
    fn what_a_cut_leaves_keeps_the_rules() {
        let sector = Sector::new(17).expect("a sector");
        let (read, write) = (Access::Read(sector), Access::Write(sector));
        let sent = [7; 532];
        for fate in Fate::ALL {
            assert_eq!(left_at_a_cut(read, &[], fate), Left::Alone);
            let left = left_at_a_cut(write, &sent, fate);
            assert!(cut_obeys(write, &sent, &left), "{fate:?}");
        }
        let lefts = Fate::ALL.map(|fate| left_at_a_cut(write, &sent, fate));
        let new = Left::Held(sent.to_vec());
        assert_eq!(lefts, [Left::Alone, new, Left::Spoiled]);
    }

    #[test]
    fn a_crc_error_damages_the_bytes() {
        let sector = Sector::new(17).expect("a sector");
        let platter = Platter::blank();
        let outcome = outcome(&platter, Access::Read(sector), &[], Effect::Crc);
        let changed = outcome.bytes.iter().filter(|&&byte| byte != 0).count();
        assert_eq!((outcome.answer, changed), (CRC, 5));
    }
}
