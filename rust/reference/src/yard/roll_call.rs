//! The roll call: hearings and beacons, run one after another.

use super::air::{whole_air, Air};
use super::Yard;
use crate::frame::{Serial, LANES};
use crate::post::{holds, order_place};

impl Yard {
    /// Runs a roll call; gives the number of single steps. Refused by 13, and by
    /// 27 if some source has no beacon left.
    pub fn roll_call(&mut self, air: &mut [u8]) -> Result<u16, u8> {
        let air = whole_air(air)?;
        let sources = self.sources.count_ones() as u16;
        for lane in lanes(self.sources) {
            self.judge_beacons(lane.into())?;
        }
        let orders_heard = self.hear_first_frames(air);
        let first_beacon = usize::from(self.frames);
        for lane in lanes(self.sources) {
            self.send_beacon(air, lane.into());
        }
        let beacons_heard = self.hear_beacons(air, first_beacon);
        Ok(orders_heard + sources + beacons_heard)
    }

    /// Each post hears the first frame of every order of the other lanes.
    fn hear_first_frames(&mut self, air: &mut Air) -> u16 {
        let mut heard = 0;
        for lane in lanes(self.present) {
            for other in lanes(self.sources).filter(|&other| other != lane) {
                for serial in 1..=self.posts[usize::from(other)].serial.0 {
                    let frame = self.first[order_place(other, Serial(serial))];
                    self.roll_hear(air, lane, frame.into());
                    heard += 1;
                }
            }
        }
        heard
    }

    /// Each post hears the sources' beacons, numbered from `first`, except its own.
    fn hear_beacons(&mut self, air: &mut Air, first: usize) -> u16 {
        let mut heard = 0;
        for lane in lanes(self.present) {
            for (frame, other) in (first..).zip(lanes(self.sources)) {
                if other != lane {
                    self.roll_hear(air, lane, frame);
                    heard += 1;
                }
            }
        }
        heard
    }

    /// A hearing of the list. With frames of the yard's posts none is refused;
    /// if one were, it would leave yard and air as they were, and the list go on.
    fn roll_hear(&mut self, air: &mut Air, lane: u8, frame: usize) {
        let _ = self.hear_frame(air, lane.into(), frame);
    }
}

/// The lanes in a set, rising.
fn lanes(set: u8) -> impl Iterator<Item = u8> {
    (0..LANES as u8).filter(move |&lane| holds(set, lane))
}
