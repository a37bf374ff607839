//! A post's record as it is lent to the library, with numbers beside it.

pub use drift_records::{post_of, record_of, Record};

/// Numbers on either side: an odd count, so that the address of the record is
/// even and no more, as nothing more is promised of it.
const BESIDE: usize = 33;

/// A record with numbers beside it that nobody may write. Two are equal if those
/// are equal too.
#[repr(C, align(16))]
#[derive(Clone, Debug, PartialEq, Eq)]
pub struct LentRecord {
    before: [u16; BESIDE],
    pub record: Record,
    after: [u16; BESIDE],
}

impl LentRecord {
    /// This record, and a byte that is repeated beside it.
    pub fn new(record: Record, margin: u8) -> LentRecord {
        let beside = [u16::from_ne_bytes([margin; 2]); BESIDE];
        LentRecord {
            before: beside,
            record,
            after: beside,
        }
    }

    /// The bytes before the record, then those after it.
    pub fn margins(&self) -> Vec<u8> {
        let beside = self.before.iter().chain(&self.after);
        beside.flat_map(|number| number.to_ne_bytes()).collect()
    }

    /// The numbers beside the record, before it and after it.
    #[cfg(test)]
    pub fn margins_mut(&mut self) -> impl Iterator<Item = &mut u16> {
        self.before.iter_mut().chain(&mut self.after)
    }
}
