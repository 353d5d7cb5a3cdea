//! Parity (document 02, request 5).
//!
//! The bus has eight lines for a byte and one for its bit of odd parity. The
//! bit is the entry of the table for the byte.

use std::iter;

/// The entry of the table for a byte: 1 if the byte has an even number of ones,
/// otherwise 0.
pub fn parity(byte: u8) -> u8 {
    u8::from(byte.count_ones().is_multiple_of(2))
}

/// Whether a byte and a bit, which is 0 or 1, carry an odd number of ones on the
/// nine lines of the bus.
pub fn is_odd(byte: u8, bit: u8) -> bool {
    assert!(bit < 2, "a bit is 0 or 1");
    let of_byte = (0..8).map(|line| (byte >> line) & 1 == 1);
    let carried = of_byte.chain(iter::once(bit == 1));
    carried.fold(false, |odd, one| odd != one)
}

/// The table as it is printed: the entries of the bytes 0 to FF, a digit a line.
pub fn lines() -> String {
    (0..=0xFF)
        .map(|byte| format!("{}\n", parity(byte)))
        .collect()
}

#[cfg(test)]
mod tests {
    use super::*;

    /// The byte and the bit on nine lines, of which the last is that of the bit.
    fn split(nine: u16) -> (u8, u8) {
        assert!(nine < 0x200, "nine lines");
        ((nine & 0xFF) as u8, (nine >> 8) as u8)
    }

    /// A byte and its bit on nine lines.
    fn joined(byte: u8) -> u16 {
        (u16::from(parity(byte)) << 8) | u16::from(byte)
    }

    #[test]
    fn entries_of_the_readings() {
        assert_eq!(parity(0), 1);
        assert_eq!(parity(1), 0);
        assert_eq!(parity(3), 1);
        assert_eq!(parity(0xFF), 1);
    }

    #[test]
    fn half_of_the_entries_are_1() {
        let count = |entry| (0..=0xFF).filter(|&byte| parity(byte) == entry).count();
        assert_eq!((count(0), count(1)), (128, 128));
    }

    #[test]
    fn odd_on_nine_lines() {
        assert!(!is_odd(0, 0));
        assert!(is_odd(0, 1));
        assert!(!is_odd(3, 0));
        assert!(!is_odd(0xFF, 0));
        assert!(is_odd(0xFF, 1));
        for line in 0..8 {
            assert!(is_odd(1 << line, 0), "{line}");
            assert!(!is_odd(1 << line, 1), "{line}");
        }
    }

    #[test]
    fn a_byte_is_odd_with_its_bit_alone() {
        for byte in 0..=0xFF {
            let bit = parity(byte);
            assert!(is_odd(byte, bit), "{byte:02X}");
            assert!(!is_odd(byte, 1 - bit), "{byte:02X}");
        }
    }

    #[test]
    fn one_flipped_line_is_noticed() {
        for byte in 0..=0xFF {
            for line in 0..9 {
                let (found, bit) = split(joined(byte) ^ (1 << line));
                assert!(!is_odd(found, bit), "{byte:02X}, line {line}");
            }
        }
    }

    #[test]
    fn lines_are_digits() {
        let text = lines();
        assert_eq!(text.len(), 512);
        assert_eq!(text.lines().count(), 256);
        assert!(text.ends_with('\n'));
        assert!(text.lines().all(|line| line == "0" || line == "1"));
    }

    #[test]
    fn lines_are_the_entries() {
        let text = lines();
        assert!(text.starts_with("1\n0\n0\n1\n0\n1\n1\n0\n0\n1\n1\n0\n1\n0\n0\n1\n0\n"));
        assert!(text.ends_with("\n1\n0\n0\n1\n"));
        for (byte, line) in (0..=0xFF).zip(text.lines()) {
            let bit = line.parse().expect("a digit");
            assert!(is_odd(byte, bit), "{byte:02X}");
        }
    }

    #[test]
    #[should_panic(expected = "a bit is 0 or 1")]
    fn two_is_no_bit() {
        is_odd(0, 2);
    }
}
