//! Seeded random numbers (splitmix64), so that every run can be repeated.

pub struct Random {
    state: u64,
}

impl Random {
    pub fn new(seed: u64) -> Random {
        Random { state: seed }
    }

    /// For the input of this number: with each seed and number another row.
    pub fn numbered(seed: u64, number: u64) -> Random {
        let mixed = Random::new(seed).bits();
        Random::new(Random::new(mixed ^ number).bits())
    }

    /// The next 64 random bits.
    pub fn bits(&mut self) -> u64 {
        self.state = self.state.wrapping_add(0x9E37_79B9_7F4A_7C15);
        let mut mixed = self.state;
        mixed = (mixed ^ (mixed >> 30)).wrapping_mul(0xBF58_476D_1CE4_E5B9);
        mixed = (mixed ^ (mixed >> 27)).wrapping_mul(0x94D0_49BB_1331_11EB);
        mixed ^ (mixed >> 31)
    }

    /// A number from `low` to `high`, both included.
    pub fn between(&mut self, low: u16, high: u16) -> u16 {
        let choices = u64::from(high - low) + 1;
        // The upper 32 bits scaled to the range; the result is below `choices`.
        low + (((self.bits() >> 32) * choices) >> 32) as u16
    }

    /// Like `between`, but each end comes in a quarter of the cases.
    pub fn between_often_an_end(&mut self, low: u16, high: u16) -> u16 {
        match self.between(0, 3) {
            0 => low,
            1 => high,
            _ => self.between(low, high),
        }
    }

    /// A byte from `low` to `high`, both included.
    pub fn byte_between(&mut self, low: u8, high: u8) -> u8 {
        self.between(low.into(), high.into()) as u8
    }

    /// True in one of `chances` cases.
    pub fn one_in(&mut self, chances: u16) -> bool {
        self.between(1, chances) == 1
    }

    /// One of the items.
    pub fn pick<T: Copy>(&mut self, items: &[T]) -> T {
        items[usize::from(self.between(0, items.len() as u16 - 1))]
    }

    /// Any byte.
    pub fn byte(&mut self) -> u8 {
        self.byte_between(0, 255)
    }
}

#[cfg(test)]
mod tests {
    use super::Random;

    #[test]
    fn gives_the_published_numbers_of_splitmix64() {
        let mut random = Random::new(1234567);
        assert_eq!(random.bits(), 6457827717110365317);
        assert_eq!(random.bits(), 3203168211198807973);
        assert_eq!(random.bits(), 9817491932198370423);
    }

    #[test]
    fn between_reaches_both_ends_and_nothing_beyond() {
        let mut random = Random::new(1);
        let mut came = [false; 10];
        for _ in 0..1000 {
            came[usize::from(random.between(3, 6))] = true;
        }
        let expected = [
            false, false, false, true, true, true, true, false, false, false,
        ];
        assert_eq!(came, expected);
        assert_eq!(random.between(65535, 65535), 65535);
    }
}
