//! The bus from the board to the host: eight lines for a byte and one for its parity
//! bit.

use controller::parity;
use reference::parity::is_odd;

/// Carries bytes to the host. The library gives the parity bit, and the host's card
/// counts the ones on the nine lines.
pub fn carry(bytes: &[u8]) {
    for &byte in bytes {
        let bit = parity(byte);
        assert!(is_odd(byte, bit), "{byte:02X} came with parity bit {bit}");
    }
}
