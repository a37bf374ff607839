//! Delivery logs for the charging desk, as RFC 4180 text: request K1 of document
//! 02, and refusals 1, 6, 31 and 32.

mod read;
mod write;

use crate::frame::{LANES, LAST_SERIAL};
use crate::post::ORDERS;

pub use read::{first_bad, read, Bad};
pub use write::write;

/// Refusal 1: file over 48,000 bytes.
pub const FILE_TOO_LONG: u8 = 1;
/// Refusal 6: buffer not 2,048 bytes, or the place for a log not 384 numbers.
pub const WRONG_LENGTH: u8 = 6;
/// Refusal 31: a record that is not three numbers within their ranges, or another
/// header.
pub const BAD_FIELDS: u8 = 31;
/// Refusal 32: a record that does not rise by stamp and then lane, a 129th one, or
/// a lane's 17th.
pub const NOT_IN_TURN: u8 = 32;

/// The most bytes that a file may have.
pub const FILE_LIMIT: usize = 48_000;
/// The bytes that `write` must be lent; every text fits.
pub const BUFFER_LENGTH: usize = 2_048;
/// The numbers that `read` must be lent; every log fits.
pub const LOG_NUMBERS: usize = FIELDS * ORDERS;

/// The fields of a record: stamp, lane and word.
const FIELDS: usize = 3;

/// An order of a log, its numbers within their ranges.
#[derive(Clone, Copy)]
struct Order {
    stamp: u16,
    lane: u8,
    word: u16,
}

impl Order {
    /// The order of these numbers, if each is within its range.
    #[inline]
    fn new(stamp: usize, lane: usize, word: usize) -> Option<Order> {
        let most = usize::from(u16::MAX);
        let is_good = (1..=most).contains(&stamp) && lane < LANES && word <= most;
        is_good.then_some(Order {
            stamp: stamp as u16,
            lane: lane as u8,
            word: word as u16,
        })
    }
}

/// What refusal 32 asks of the orders so far.
#[derive(Default)]
struct Sequence {
    /// The rank of the last order; 0, which no order has, before the first.
    last: usize,
    /// How many orders of each lane there are.
    counts: [u8; LANES],
}

impl Sequence {
    /// Adds the next order, or refuses it by 32. With at most 16 orders of each of
    /// the eight lanes there is no 129th.
    #[inline]
    fn add(&mut self, order: Order) -> Result<(), u8> {
        let lane = usize::from(order.lane);
        // By stamp and then lane.
        let rank = LANES * usize::from(order.stamp) + lane;
        if rank <= self.last || self.counts[lane] == LAST_SERIAL.0 {
            return Err(NOT_IN_TURN);
        }
        self.last = rank;
        self.counts[lane] += 1;
        Ok(())
    }
}
