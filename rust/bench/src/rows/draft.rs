//! Scripts as they are put together. The second implementation runs each step of
//! a draft at once, so that the numbers of the frames are known.

use drift_reference::frame::{FRAME_LENGTH, LAST_SERIAL};
use drift_reference::post::Post;
use drift_reference::script::run_to_yard;
use drift_reference::yard::{Yard, AIR_LENGTH};

pub const DOCUMENT_YARD: &str = "(yard (0 both) (1 source) (2 dest))\n";

/// Eight posts, each source and dest.
pub const FULL_YARD: &str = "(yard (0 both) (1 both) (2 both) (3 both) \
                             (4 both) (5 both) (6 both) (7 both))\n";

pub fn order_line(lane: usize, word: usize) -> String {
    format!("(order {lane} {word})\n")
}

pub fn hear_line(lane: usize, frame: usize) -> String {
    format!("(hear {lane} {frame})\n")
}

pub fn beacon_line(lane: usize) -> String {
    format!("(beacon {lane})\n")
}

pub const ROLL_LINE: &str = "(roll)\n";

/// A script and the yard after it.
pub struct Draft {
    pub text: String,
    yard: Yard,
    air: Vec<u8>,
}

/// Each step gives the number of the frame that it broadcasts, if it does.
impl Draft {
    pub fn new(yard_line: &str) -> Draft {
        let mut air = vec![0; AIR_LENGTH];
        let (yard, _) = run_to_yard(yard_line.as_bytes(), &mut air).expect("a good yard line");
        Draft {
            text: yard_line.into(),
            yard,
            air,
        }
    }

    pub fn order(&mut self, lane: usize, word: usize) -> usize {
        let frame = self.next_frame();
        self.text += &order_line(lane, word);
        // Some rows are about refused steps, so no step has to succeed.
        let _ = self.yard.order(&mut self.air, lane, word);
        frame
    }

    pub fn hear(&mut self, lane: usize, frame: usize) -> usize {
        let passed_on = self.next_frame();
        self.text += &hear_line(lane, frame);
        let _ = self.yard.hear(&mut self.air, lane, frame);
        passed_on
    }

    pub fn beacon(&mut self, lane: usize) -> usize {
        let frame = self.next_frame();
        self.text += &beacon_line(lane);
        let _ = self.yard.beacon(&mut self.air, lane);
        frame
    }

    pub fn roll(&mut self) {
        self.text += ROLL_LINE;
        let _ = self.yard.roll_call(&mut self.air);
    }

    fn next_frame(&self) -> usize {
        self.yard.frames.into()
    }

    /// The first frame of a lane's first order.
    pub fn first_frame(&self, lane: usize) -> usize {
        let place = usize::from(LAST_SERIAL.0) * lane;
        self.yard.first[place].into()
    }

    /// The post of a lane as it is now.
    pub fn post(&self, lane: usize) -> Post {
        self.yard.posts[lane].clone()
    }

    /// The bytes of a frame on the air.
    pub fn frame(&self, number: usize) -> [u8; FRAME_LENGTH] {
        let start = FRAME_LENGTH * number;
        let bytes = &self.air[start..start + FRAME_LENGTH];
        bytes.try_into().expect("a frame's bytes")
    }
}
