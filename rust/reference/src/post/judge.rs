//! What a post refuses: the record by 12, the state by 21 to 30.

use super::record::{holds, Post, LAST_STAMP, ORDERS};
use super::{
    BAD_RECORD, BEYOND_OWN, CLOCK_SPENT, LANE_SPENT, NOT_IN_YARD, NO_SOURCE, OWN_BROADCAST,
    STAMP_NOT_ABOVE, STRANGER,
};
use crate::frame::{Frame, Serial, LANES, LAST_SERIAL, ORDER};
use std::ops::BitOr;

impl Post {
    /// Refusal 12. The later clauses rely on the ranges, so those come first.
    pub fn judge(&self) -> Result<(), u8> {
        let good = self.numbers_are_in_range()
            && self.roles_have_posts()
            && self.serial == self.last_taken(self.lane)
            && self.orders_end_at_last_taken()
            && self.log_is_good();
        if good {
            Ok(())
        } else {
            Err(BAD_RECORD)
        }
    }

    fn numbers_are_in_range(&self) -> bool {
        usize::from(self.lane) < LANES
            && self.serial <= LAST_SERIAL
            && self.last.iter().all(|&last| Serial(last) <= LAST_SERIAL)
            && usize::from(self.logged) <= ORDERS
            // 128 is a power of two: no bit from there on in any place.
            && usize::from(union(&self.log)) < ORDERS
    }

    fn roles_have_posts(&self) -> bool {
        (self.sources | self.dests) & !self.posts == 0
    }

    /// Each order up to the last taken has a stamp; each place beyond is all zero.
    fn orders_end_at_last_taken(&self) -> bool {
        let per_lane = usize::from(LAST_SERIAL.0);
        let stamps = self.stamps.chunks_exact(per_lane);
        let words = self.words.chunks_exact(per_lane);
        let mut lanes = self.last.iter().zip(stamps.zip(words));
        lanes.all(|(&last, (stamps, words))| {
            let (taken, beyond) = stamps.split_at(usize::from(last));
            !taken.contains(&0) && union(beyond) == 0 && union(&words[usize::from(last)..]) == 0
        })
    }

    /// No order twice, none that is not taken, and zero in the unused places.
    fn log_is_good(&self) -> bool {
        let delivered = self.delivered();
        delivered.count_ones() == u32::from(self.logged)
            && delivered & !self.taken() == 0
            && union(&self.log[usize::from(self.logged)..]) == 0
    }

    /// Refusal 21.
    pub(crate) fn judge_membership(&self) -> Result<(), u8> {
        if holds(self.posts, self.lane) {
            Ok(())
        } else {
            Err(NOT_IN_YARD)
        }
    }

    /// Refusals 21 to 24 of an order; the record is good.
    pub(crate) fn judge_order(&self) -> Result<(), u8> {
        self.judge_membership()?;
        if !self.is_source() {
            return Err(NO_SOURCE);
        }
        if self.serial == LAST_SERIAL {
            return Err(LANE_SPENT);
        }
        if self.clock == LAST_STAMP {
            return Err(CLOCK_SPENT);
        }
        Ok(())
    }

    /// Refusals 21, 24, 26 and 28 to 30 of a hearing; record and frame are good.
    pub(crate) fn judge_hearing(&self, frame: &Frame) -> Result<(), u8> {
        self.judge_membership()?;
        let to_be_taken = self.is_to_be_taken(frame);
        if to_be_taken && self.is_source() && self.clock.max(frame.stamp) == LAST_STAMP {
            return Err(CLOCK_SPENT);
        }
        if frame.sender == self.lane {
            return Err(OWN_BROADCAST);
        }
        if self.is_strange(frame) {
            return Err(STRANGER);
        }
        if to_be_taken && !self.is_above_last_taken(frame) {
            return Err(STAMP_NOT_ABOVE);
        }
        if self.is_beyond_own(frame) {
            return Err(BEYOND_OWN);
        }
        Ok(())
    }

    /// An order frame whose serial is the last taken + 1.
    pub(super) fn is_to_be_taken(&self, frame: &Frame) -> bool {
        frame.kind == ORDER && frame.serial.0 == self.last_taken(frame.lane).0 + 1
    }

    /// Condition of 28. A beacon has no lane, and an empty entry belongs to none.
    fn is_strange(&self, frame: &Frame) -> bool {
        !holds(self.posts, frame.sender)
            || (frame.kind == ORDER && !holds(self.sources, frame.lane))
            || (0..)
                .zip(&frame.entries)
                .any(|(lane, entry)| entry.is_some() && !holds(self.sources, lane))
    }

    /// Whether an order to be taken obeys 29; before the first there is no stamp.
    fn is_above_last_taken(&self, frame: &Frame) -> bool {
        let last = self.last_taken(frame.lane);
        last == Serial(0) || frame.stamp > self.order_stamp(frame.lane, last)
    }

    /// Condition of 30: only the entry and the order of this post's own lane.
    fn is_beyond_own(&self, frame: &Frame) -> bool {
        let own = frame.entries[usize::from(self.lane)];
        let entry_beyond = own.is_some() && (own.serial > self.serial || own.stamp > self.clock);
        let own_order = frame.kind == ORDER && frame.lane == self.lane;
        entry_beyond || (own_order && frame.serial > self.serial)
    }
}

/// All bits of all the numbers; looking for a single one is slower.
fn union<T: Copy + Default + BitOr<Output = T>>(numbers: &[T]) -> T {
    let none = T::default();
    numbers.iter().fold(none, |bits, &number| bits | number)
}
