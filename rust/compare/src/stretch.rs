//! Numbers that are lent, with a margin on either side.

use crate::random::Random;
use std::fmt::Debug;

/// How many numbers stand before and after the lent ones: an odd count, so that
/// the lent ones stand at no better address than is promised of them.
const MARGIN: usize = 41;

/// The lent part of a row of numbers. Two rows are equal if the margins, which
/// nobody may write, are equal too.
#[derive(Clone, Debug, PartialEq, Eq)]
pub struct Stretch<T> {
    row: Vec<T>,
}

impl<T: Copy + Debug> Stretch<T> {
    /// These numbers, with margins that repeat one number.
    pub fn new(numbers: impl IntoIterator<Item = T>, margin: T) -> Stretch<T> {
        let mut row = vec![margin; MARGIN];
        row.extend(numbers);
        row.extend([margin; MARGIN]);
        Stretch { row }
    }

    /// Random numbers with random margins; `split` makes some of 64 bits.
    fn any<const COUNT: usize>(
        random: &mut Random,
        length: usize,
        split: fn(u64) -> [T; COUNT],
    ) -> Stretch<T> {
        let margin = split(random.bits())[0];
        let numbers = std::iter::repeat_with(|| split(random.bits())).flatten();
        Stretch::new(numbers.take(length), margin)
    }

    /// The part that is lent.
    pub fn lent(&mut self) -> &mut [T] {
        let end = self.row.len() - MARGIN;
        &mut self.row[MARGIN..end]
    }

    pub fn numbers(&self) -> &[T] {
        &self.row[MARGIN..self.row.len() - MARGIN]
    }

    /// The margins, as one row.
    pub fn margins(&self) -> impl Iterator<Item = T> + '_ {
        let (before, rest) = self.row.split_at(MARGIN);
        let after = &rest[rest.len() - MARGIN..];
        before.iter().chain(after).copied()
    }

    /// The margins, to be changed.
    #[cfg(test)]
    pub fn margins_mut(&mut self) -> impl Iterator<Item = &mut T> {
        let (before, rest) = self.row.split_at_mut(MARGIN);
        let lent = rest.len() - MARGIN;
        before.iter_mut().chain(&mut rest[lent..])
    }
}

impl Stretch<u8> {
    /// Random bytes with random margins.
    pub fn any_bytes(random: &mut Random, length: usize) -> Stretch<u8> {
        Stretch::any(random, length, u64::to_be_bytes)
    }
}

impl Stretch<u16> {
    /// Random numbers of 16 bits with random margins.
    pub fn any_cells(random: &mut Random, length: usize) -> Stretch<u16> {
        Stretch::any(random, length, |bits| {
            [0, 16, 32, 48].map(|bit| (bits >> bit) as u16)
        })
    }
}

#[cfg(test)]
mod tests {
    use super::{Stretch, MARGIN};

    #[test]
    fn the_margins_are_not_lent_but_compared() {
        let whole = Stretch::new([1, 2, 3], 9);
        assert_eq!(whole.numbers(), [1, 2, 3]);
        assert_eq!(whole.clone().lent(), [1, 2, 3]);
        assert!(whole.margins().eq([9; 2 * MARGIN]));
        for at in 0..whole.row.len() {
            let mut changed = whole.clone();
            changed.row[at] = 0;
            assert_ne!(changed, whole);
            let in_margin = !(MARGIN..MARGIN + 3).contains(&at);
            assert_eq!(changed.numbers() == whole.numbers(), in_margin);
        }
        assert_eq!(Stretch::<u8>::new([], 0).lent(), [0u8; 0]);
    }

    /// A host may lend bytes at any address, and cells at any even one.
    #[test]
    fn numbers_are_lent_at_no_better_address_than_is_promised() {
        let bytes = Stretch::new([0u8; 65_536], 0);
        assert_eq!(bytes.numbers().as_ptr().addr() % 2, 1);
        let cells = Stretch::new([0u16; 4_483], 0);
        assert_eq!(cells.numbers().as_ptr().addr() % 4, 2);
    }
}
