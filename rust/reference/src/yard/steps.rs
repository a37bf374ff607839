//! The single steps in a yard: order, hear and beacon.

use super::air::{whole_air, Air};
use super::{Yard, BAD_LANE, BAD_WORD, BEACONS_ALLOWED, BEACONS_SPENT};
use crate::frame::{Frame, LANES};
use crate::post::{order_place, HearAnswer, OrderAnswer};

impl Yard {
    /// Sends an order of a lane. Refused by 4, 5, 13, 21 to 23.
    pub fn order(&mut self, air: &mut [u8], lane: usize, word: usize) -> Result<OrderAnswer, u8> {
        judge_lane(lane)?;
        let word = u16::try_from(word).map_err(|_| BAD_WORD)?;
        let air = whole_air(air)?;
        let post = &mut self.posts[lane];
        post.judge_order()?;
        let answer = post.send_order(word, &mut air[usize::from(self.frames)]);
        self.first[order_place(post.lane, answer.serial)] = self.frames;
        self.frames += 1;
        Ok(answer)
    }

    /// Lets the post of a lane hear a frame. Refused by 4, 13, 21, 25, 26.
    pub fn hear(&mut self, air: &mut [u8], lane: usize, frame: usize) -> Result<HearAnswer, u8> {
        judge_lane(lane)?;
        let air = whole_air(air)?;
        self.posts[lane].judge_membership()?;
        self.judge_frame(frame)?;
        self.hear_frame(air, lane, frame)
    }

    /// Sends a beacon of a lane. Refused by 4, 13, 21, 27.
    pub fn beacon(&mut self, air: &mut [u8], lane: usize) -> Result<(), u8> {
        judge_lane(lane)?;
        let air = whole_air(air)?;
        self.posts[lane].judge_membership()?;
        self.judge_beacons(lane)?;
        self.send_beacon(air, lane);
        Ok(())
    }

    /// Refusal 27: the post of a lane has no beacon left, whatever others have.
    pub(super) fn judge_beacons(&self, lane: usize) -> Result<(), u8> {
        if self.beacons[lane] < BEACONS_ALLOWED {
            Ok(())
        } else {
            Err(BEACONS_SPENT)
        }
    }

    /// Hears a frame that is on the air. The frame is judged as at a post run
    /// singly, for the air is lent; with frames that the yard's posts have
    /// broadcast, only 26 can come of that.
    pub(super) fn hear_frame(
        &mut self,
        air: &mut Air,
        lane: usize,
        frame: usize,
    ) -> Result<HearAnswer, u8> {
        let frame = Frame::read(&air[frame])?;
        let post = &mut self.posts[lane];
        post.judge_hearing(&frame)?;
        let answer = post.take_in(&frame);
        if let HearAnswer::Taken(_) = answer {
            post.pass_on(&frame, &mut air[usize::from(self.frames)]);
            self.frames += 1;
        }
        Ok(answer)
    }

    /// Sends a beacon that is not refused.
    pub(super) fn send_beacon(&mut self, air: &mut Air, lane: usize) {
        self.posts[lane].send_beacon(&mut air[usize::from(self.frames)]);
        self.frames += 1;
        self.beacons[lane] += 1;
    }
}

/// Refusal 4.
fn judge_lane(lane: usize) -> Result<(), u8> {
    if lane < LANES {
        Ok(())
    } else {
        Err(BAD_LANE)
    }
}
