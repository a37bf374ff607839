//! The steps of a post: order, hear and beacon.

use super::record::Post;
use crate::frame::{Entry, Frame, Serial, Stamp, BEACON, FRAME_LENGTH, NOT_32_BYTES, ORDER};

/// What an order answers.
#[derive(Clone, Copy, Debug, PartialEq, Eq)]
pub struct OrderAnswer {
    pub serial: Serial,
    pub stamp: Stamp,
    /// How many orders were delivered.
    pub count: u8,
}

/// What a hearing answers, with the count delivered.
#[derive(Clone, Copy, Debug, PartialEq, Eq)]
pub enum HearAnswer {
    Taken(u8),
    Again(u8),
    Early(u8),
    Beacon(u8),
}

/// The public steps, for a post run singly, judge everything. The others, which
/// a yard runs too, rely on a step that is not refused.
impl Post {
    /// Sends an order; its frame goes into the buffer. Refused by 6, 12, 21 to 24.
    pub fn order(&mut self, word: u16, buffer: &mut [u8]) -> Result<OrderAnswer, u8> {
        let buffer = frame_buffer(buffer)?;
        self.judge()?;
        self.judge_order()?;
        Ok(self.send_order(word, buffer))
    }

    /// Hears a frame; if it is taken, the broadcast goes into the buffer.
    /// Refused by 6 to 12, 21, 24, 26, 28 to 30.
    pub fn hear(&mut self, frame: &[u8], buffer: &mut [u8]) -> Result<HearAnswer, u8> {
        // A bad buffer is 6 as a bad frame is, so it comes before 7 to 11.
        let buffer = frame_buffer(buffer)?;
        let frame = Frame::read(frame)?;
        self.judge()?;
        self.judge_hearing(&frame)?;
        let answer = self.take_in(&frame);
        if let HearAnswer::Taken(_) = answer {
            self.pass_on(&frame, buffer);
        }
        Ok(answer)
    }

    /// Sends a beacon; its frame goes into the buffer. Refused by 6, 12, 21.
    pub fn beacon(&self, buffer: &mut [u8]) -> Result<(), u8> {
        let buffer = frame_buffer(buffer)?;
        self.judge()?;
        self.judge_membership()?;
        self.send_beacon(buffer);
        Ok(())
    }

    /// The order step.
    pub(crate) fn send_order(&mut self, word: u16, buffer: &mut [u8; FRAME_LENGTH]) -> OrderAnswer {
        self.clock.0 += 1;
        self.serial.0 += 1;
        let (lane, serial, stamp) = (self.lane, self.serial, self.clock);
        self.set_newest_stamp(lane, serial, stamp);
        self.keep(lane, serial, stamp, word);
        let frame = Frame {
            kind: ORDER,
            sender: lane,
            lane,
            serial,
            stamp,
            word,
            entries: self.newest_entries(),
        };
        frame.encode(buffer);
        let count = self.deliver();
        OrderAnswer {
            serial,
            stamp,
            count,
        }
    }

    /// The hear step but for the broadcast, which follows by `pass_on` if the
    /// answer is taken. A delivery in between changes nothing that it tells.
    pub(crate) fn take_in(&mut self, frame: &Frame) -> HearAnswer {
        self.raise_table(&frame.entries);
        let answer = if frame.kind == BEACON {
            HearAnswer::Beacon
        } else if self.is_to_be_taken(frame) {
            self.take(frame);
            HearAnswer::Taken
        } else if frame.serial <= self.last_taken(frame.lane) {
            HearAnswer::Again
        } else {
            HearAnswer::Early
        };
        answer(self.deliver())
    }

    /// Broadcasts an order just taken, under the own lane as sender.
    pub(crate) fn pass_on(&self, frame: &Frame, buffer: &mut [u8; FRAME_LENGTH]) {
        let broadcast = Frame {
            sender: self.lane,
            entries: self.newest_entries(),
            ..*frame
        };
        broadcast.encode(buffer);
    }

    /// The beacon step.
    pub(crate) fn send_beacon(&self, buffer: &mut [u8; FRAME_LENGTH]) {
        let frame = Frame {
            kind: BEACON,
            sender: self.lane,
            lane: 0,
            serial: Serial(0),
            stamp: Stamp(0),
            word: 0,
            entries: self.newest_entries(),
        };
        frame.encode(buffer);
    }

    /// Part 1 of a hearing; an empty entry raises nothing.
    fn raise_table(&mut self, entries: &[Entry]) {
        for (lane, entry) in (0..).zip(entries) {
            let known = self.newest_stamp(lane, entry.serial);
            self.set_newest_stamp(lane, entry.serial, known.max(entry.stamp));
        }
    }

    /// Part 3 of a hearing but for the broadcast: keeps the order, moves a
    /// source's clock.
    fn take(&mut self, frame: &Frame) {
        self.keep(frame.lane, frame.serial, frame.stamp, frame.word);
        if self.is_source() {
            self.clock = Stamp(self.clock.max(frame.stamp).0 + 1);
            self.set_newest_stamp(self.lane, self.serial, self.clock);
        }
    }
}

/// The buffer as a frame's bytes, or refusal 6.
fn frame_buffer(buffer: &mut [u8]) -> Result<&mut [u8; FRAME_LENGTH], u8> {
    buffer.try_into().map_err(|_| NOT_32_BYTES)
}
