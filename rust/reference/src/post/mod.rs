//! The post: document 01, "Posts, stamps, serials", "The four steps",
//! and refusals 12 and 21 to 30.

mod deliver;
mod judge;
mod record;
mod steps;

pub(crate) use record::{holds, order_place};
pub use record::{Post, LAST_STAMP, ORDERS, TABLE_LENGTH};
pub use steps::{HearAnswer, OrderAnswer};

/// Refusal 12: a record that no post can have.
pub const BAD_RECORD: u8 = 12;
/// Refusal 21: post not in the yard.
pub const NOT_IN_YARD: u8 = 21;
/// Refusal 22: order at a post that is no source.
pub const NO_SOURCE: u8 = 22;
/// Refusal 23: that lane has sent 16.
pub const LANE_SPENT: u8 = 23;
/// Refusal 24: clock would pass 65,535.
pub const CLOCK_SPENT: u8 = 24;
/// Refusal 26: the post's own broadcast.
pub const OWN_BROADCAST: u8 = 26;
/// Refusal 28: sender not in the yard, or an order or entry of no source.
pub const STRANGER: u8 = 28;
/// Refusal 29: an order to be taken whose stamp is not above the last taken one.
pub const STAMP_NOT_ABOVE: u8 = 29;
/// Refusal 30: the frame claims more of the hearing post than it has done.
pub const BEYOND_OWN: u8 = 30;
