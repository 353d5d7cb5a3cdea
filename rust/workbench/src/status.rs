//! The four status bytes in words.

/// Status 1.
pub const NOT_55: u8 = 1 << 7;
pub const ABORTED: u8 = 1 << 6;
pub const LATCHED: u8 = 1 << 4;
pub const CRC: u8 = 1 << 3;
pub const TIMEOUT: u8 = 1 << 2;
pub const FAILED: u8 = 1 << 0;

/// Status 2.
pub const NO_SPARE: u8 = 1 << 6;
pub const BAD_LIST_FULL: u8 = 1 << 4;
pub const NO_TABLE: u8 = 1 << 3;
pub const SPARED: u8 = 1 << 2;

/// Status 3.
pub const FIRST: u8 = 1 << 7;
pub const NO_BLOCK: u8 = 1 << 6;

/// A bit: its byte, its mask, and its word.
type Bit = (usize, u8, &'static str);

/// The bits that an access shows too, and the one that the verdict is.
const SHOWN_ELSEWHERE: [Bit; 3] = [
    (0, FAILED, "failed"),
    (0, CRC, "CRC error met"),
    (0, TIMEOUT, "timeout met"),
];

/// All others.
const OTHERS: [Bit; 9] = [
    (0, NOT_55, "broken off by the host"),
    (0, ABORTED, "write aborted"),
    (0, LATCHED, "latched"),
    (1, NO_SPARE, "no spare"),
    (1, BAD_LIST_FULL, "bad list full"),
    (1, NO_TABLE, "no table"),
    (1, SPARED, "spared"),
    (2, FIRST, "first since start or reset"),
    (2, NO_BLOCK, "no such block"),
];

/// Whether a finished command was good.
pub fn good(status: [u8; 4]) -> bool {
    status[0] & FAILED == 0
}

/// Whether the block was moved to a spare.
pub fn spared(status: [u8; 4]) -> bool {
    status[1] & SPARED != 0
}

/// The words of the bits that neither the accesses nor the verdict tell.
pub fn words(status: [u8; 4]) -> Vec<&'static str> {
    reason(status)
        .into_iter()
        .chain(set(&OTHERS, status))
        .collect()
}

/// The words of all bits, and E.
pub fn all_words(status: [u8; 4]) -> String {
    let words = set(&SHOWN_ELSEWHERE, status).chain(words(status));
    let mut words: Vec<String> = words.map(String::from).collect();
    if words.is_empty() {
        words.push(String::from("nothing to report"));
    }
    words.push(format!("E {}", status[3]));
    words.join(", ")
}

/// Why a write was aborted, unless it was for want of a table.
fn reason(status: [u8; 4]) -> Option<&'static str> {
    let aborted = status[0] & ABORTED != 0 && status[1] & NO_TABLE == 0;
    aborted.then_some("more than 532 bytes")
}

/// The words of those bits that are set.
fn set(bits: &'static [Bit], status: [u8; 4]) -> impl Iterator<Item = &'static str> {
    let is_set = move |(byte, mask, _): &&Bit| status[*byte] & mask != 0;
    bits.iter().filter(is_set).map(|(_, _, word)| *word)
}

#[cfg(test)]
mod tests {
    use super::*;

    /// Document 01's bits: status byte, bit, word.
    const BITS: [(usize, u32, &str); 12] = [
        (1, 7, "broken off by the host"),
        (1, 6, "more than 532 bytes, write aborted"),
        (1, 4, "latched"),
        (1, 3, "CRC error met"),
        (1, 2, "timeout met"),
        (1, 0, "failed"),
        (2, 6, "no spare"),
        (2, 4, "bad list full"),
        (2, 3, "no table"),
        (2, 2, "spared"),
        (3, 7, "first since start or reset"),
        (3, 6, "no such block"),
    ];

    #[test]
    fn every_bit_has_its_word() {
        for (byte, bit, word) in BITS {
            let mut status = [0; 4];
            status[byte - 1] = 1 << bit;
            assert_eq!(all_words(status), format!("{word}, E 0"));
        }
    }

    #[test]
    fn several_bits() {
        assert_eq!(
            all_words([0x0C, 0x04, 0x80, 4]),
            "CRC error met, timeout met, spared, first since start or reset, E 4"
        );
        assert_eq!(words([0x0C, 0x04, 0, 4]), ["spared"]);
        assert_eq!(words([0x41, 0x08, 0, 0]), ["write aborted", "no table"]);
        assert_eq!(all_words([0; 4]), "nothing to report, E 0");
    }

    #[test]
    fn verdicts() {
        assert!(good([0x0C, 0x04, 0x80, 4]));
        assert!(!good([0x01, 0, 0, 0]));
        assert!(spared([0, 0x04, 0, 0]));
        assert!(!spared([0x04, 0, 0x04, 0x04]));
    }
}
