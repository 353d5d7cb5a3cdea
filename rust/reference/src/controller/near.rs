//! Words for verify bytes that nearly are the data part, for the coverage names.

use crate::geometry::SECTOR_BYTES;

const LAST: usize = SECTOR_BYTES - 1;

/// The word for these bytes, if there is one. Of the data part so many bytes were
/// brought, and the rest was zeroed.
pub fn word(part: &[u8], verify: &[u8], brought: usize) -> Option<&'static str> {
    let differ = |place: &usize| part[*place] != verify[*place];
    let places: Vec<usize> = (0..part.len()).filter(differ).collect();
    match places[..] {
        [place] => one_byte(place, brought),
        [one, other] => {
            let ours = (part[one], part[other]);
            let theirs = (verify[one], verify[other]);
            two_bytes(ours, theirs)
        }
        _ => None,
    }
}

fn one_byte(place: usize, brought: usize) -> Option<&'static str> {
    Some(match place {
        LAST if brought <= LAST => "zero-last",
        _ if place == brought => "zero-first",
        _ if place > brought => "zero-middle",
        0 => "byte-0",
        265 => "byte-265",
        300 => "byte-300",
        LAST => "byte-531",
        _ => return None,
    })
}

fn two_bytes(ours: (u8, u8), theirs: (u8, u8)) -> Option<&'static str> {
    let sum = |(one, other): (u8, u8)| u16::from(one) + u16::from(other);
    match ours {
        (one, other) if theirs == (other, one) => Some("swapped"),
        _ if sum(ours) == sum(theirs) => Some("same-sum"),
        _ => None,
    }
}

#[cfg(test)]
mod tests {
    use super::*;

    /// The word after a change of the data part 0, 1, 2 and so on.
    fn changed(brought: usize, change: impl Fn(&mut [u8])) -> Option<&'static str> {
        let part: Vec<u8> = (0..=250).cycle().take(SECTOR_BYTES).collect();
        let mut verify = part.clone();
        change(&mut verify);
        word(&part, &verify, brought)
    }

    #[test]
    fn one_byte_alone() {
        for (place, brought, wanted) in [
            (0, 532, Some("byte-0")),
            (1, 532, None),
            (265, 532, Some("byte-265")),
            (300, 532, Some("byte-300")),
            (531, 532, Some("byte-531")),
            (0, 300, Some("byte-0")),
            (300, 300, Some("zero-first")),
            (301, 300, Some("zero-middle")),
            (530, 300, Some("zero-middle")),
            (531, 300, Some("zero-last")),
            (0, 0, Some("zero-first")),
            (531, 531, Some("zero-last")),
        ] {
            let found = changed(brought, |bytes| bytes[place] ^= 0xFF);
            assert_eq!(found, wanted, "{place} of {brought}");
        }
    }

    #[test]
    fn two_bytes() {
        assert_eq!(changed(532, |bytes| bytes.swap(7, 300)), Some("swapped"));
        let same_sum = |bytes: &mut [u8]| {
            bytes[7] += 1;
            bytes[300] -= 1;
        };
        assert_eq!(changed(532, same_sum), Some("same-sum"));
        assert_eq!(changed(532, |bytes| bytes[7..9].fill(0)), None);
        assert_eq!(changed(532, |bytes| bytes[7..10].fill(0)), None);
        assert_eq!(changed(532, |_| {}), None);
    }
}
