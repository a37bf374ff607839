//! The yard: its posts, the frames on the air and the steps that a script asks for.

mod air;
mod roll_call;
mod steps;

use crate::frame::LANES;
use crate::post::{Post, BAD_RECORD, ORDERS};

pub use air::AIR_LENGTH;

/// Refusal 3, as far as a yard knows it: no posts.
pub const BAD_YARD: u8 = 3;
/// Refusal 4: a step's lane over 7.
pub const BAD_LANE: u8 = 4;
/// Refusal 5: a word over 65,535.
pub const BAD_WORD: u8 = 5;
/// Refusal 13: air not 65,536 bytes.
pub const BAD_AIR: u8 = 13;
/// Refusal 25: frame not on the air.
pub const NOT_ON_AIR: u8 = 25;
/// Refusal 27: beacons spent.
pub const BEACONS_SPENT: u8 = 27;

/// Beacons that each post may send in a yard; one run singly has no limit.
pub const BEACONS_ALLOWED: u16 = 128;

/// A yard. The steps keep it such that every record would pass refusal 12.
#[derive(Clone, Debug, PartialEq, Eq)]
pub struct Yard {
    /// The sets have bit i for lane i.
    pub present: u8,
    pub sources: u8,
    pub dests: u8,
    /// A record for each lane; that of a lane without a post never changes.
    pub posts: [Post; LANES],
    /// How many frames have been broadcast.
    pub frames: u16,
    /// How many of them are beacons of each lane's post.
    pub beacons: [u16; LANES],
    /// For each order, at 16 × lane + serial − 1, the number of its first frame.
    pub first: [u16; ORDERS],
}

impl Yard {
    /// A yard before its first step, or refusal 3 or 12.
    pub fn fresh(present: u8, sources: u8, dests: u8) -> Result<Yard, u8> {
        if present == 0 {
            return Err(BAD_YARD);
        }
        if (sources | dests) & !present != 0 {
            return Err(BAD_RECORD);
        }
        Ok(Yard {
            present,
            sources,
            dests,
            posts: std::array::from_fn(|lane| Post::new(lane as u8, present, sources, dests)),
            frames: 0,
            beacons: [0; LANES],
            first: [0; ORDERS],
        })
    }
}
