//! A small deterministic source of numbers (splitmix64): the same seed gives
//! the same output everywhere.

/// The generator.
#[derive(Clone, Debug)]
pub struct Rng {
    state: u64,
}

impl Rng {
    /// A generator that begins at this seed.
    pub fn new(seed: u64) -> Rng {
        Rng { state: seed }
    }

    /// Any 64 bits.
    pub fn word(&mut self) -> u64 {
        self.state = self.state.wrapping_add(0x9E37_79B9_7F4A_7C15);
        let mut z = self.state;
        z = (z ^ (z >> 30)).wrapping_mul(0xBF58_476D_1CE4_E5B9);
        z = (z ^ (z >> 27)).wrapping_mul(0x94D0_49BB_1331_11EB);
        z ^ (z >> 31)
    }

    /// A number below `limit`, which is not 0.
    pub fn below(&mut self, limit: u32) -> u32 {
        assert!(limit > 0, "no number is below 0");
        let wide = u128::from(self.word()) * u128::from(limit);
        (wide >> 64) as u32
    }

    /// A place in a list of `length`, which is not 0.
    pub fn place(&mut self, length: usize) -> usize {
        let limit = u32::try_from(length).expect("a short list");
        self.below(limit) as usize
    }

    /// One of the items, of which there is one at least.
    pub fn pick<T: Copy>(&mut self, items: &[T]) -> T {
        items[self.place(items.len())]
    }

    /// Any byte.
    pub fn byte(&mut self) -> u8 {
        self.word() as u8
    }

    /// Any byte but this one.
    pub fn other_byte(&mut self, byte: u8) -> u8 {
        byte.wrapping_add(1 + self.below(255) as u8)
    }

    /// True once in `n` times.
    pub fn one_in(&mut self, n: u32) -> bool {
        self.below(n) == 0
    }
}

#[cfg(test)]
mod tests {
    use super::*;

    #[test]
    fn known_output() {
        let mut rng = Rng::new(1234567);
        let words: Vec<u64> = (0..5).map(|_| rng.word()).collect();
        assert_eq!(
            words,
            [
                6457827717110365317,
                3203168211198807973,
                9817491932198370423,
                4593380528125082431,
                16408922859458223821
            ]
        );
    }

    #[test]
    fn all_values_are_met_and_no_others() {
        let mut rng = Rng::new(1);
        let mut met = [0; 7];
        for _ in 0..7000 {
            met[rng.place(7)] += 1;
        }
        assert!(met.iter().all(|&times| times > 800), "{met:?}");
    }

    #[test]
    fn other_bytes() {
        let mut rng = Rng::new(2);
        let mut met = [false; 256];
        for _ in 0..10000 {
            met[usize::from(rng.other_byte(77))] = true;
        }
        assert!((0..256).all(|value| met[value] == (value != 77)));
    }
}
