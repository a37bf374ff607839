//! A post run singly, on a record that the host keeps and lends to each step.

use crate::answer::{accepted, Answer};
use crate::raw;

/// Orders that one lane can send.
const ORDERS_PER_LANE: u8 = 16;
/// Orders that all lanes together can send.
pub(crate) const ORDERS: usize = 128;
/// Stamps of the newest-stamp table.
pub(crate) const TABLE_LENGTH: usize = 136;
/// Number of lanes.
pub(crate) const LANES: usize = 8;

/// A post's record: `struct drift_post` of `c/drift.h`, 928 bytes without a gap.
/// Any numbers may stand here: each step judges the record (12).
#[repr(C)]
#[derive(Clone, Copy, Debug, PartialEq, Eq)]
pub struct Post {
    pub lane: u8,
    /// The yard's posts and their roles, as sets: bit i is lane i.
    pub posts: u8,
    pub sources: u8,
    pub dests: u8,
    pub clock: u16,
    /// How many orders the post has sent.
    pub serial: u8,
    /// How many places of the log are in use.
    pub logged: u8,
    /// The last serial taken from each lane.
    pub last: [u8; LANES],
    /// The newest stamps, at 17 × lane + serial; 0 is none.
    pub table: [u16; TABLE_LENGTH],
    /// Stamps and words of the orders taken, at place 16 × lane + serial − 1.
    pub stamps: [u16; ORDERS],
    pub words: [u16; ORDERS],
    /// The places of the orders delivered, in the order of delivery.
    pub log: [u8; ORDERS],
}

const _: () = assert!(size_of::<Post>() == 928 && align_of::<Post>() == 2);

/// What an order answers.
#[derive(Clone, Copy, Debug, PartialEq, Eq)]
pub struct Sent {
    pub serial: u8,
    pub stamp: u16,
    /// How many orders joined the log.
    pub delivered: u8,
}

/// What a hearing answers, each with the number of orders that joined the log.
#[derive(Clone, Copy, Debug, PartialEq, Eq)]
pub enum Heard {
    /// The order is new; the buffer has the frame that passes it on.
    Taken(u8),
    Again(u8),
    Early(u8),
    Beacon(u8),
}

/// An order in a log.
#[derive(Clone, Copy, Debug, PartialEq, Eq)]
pub struct Order {
    pub lane: u8,
    pub serial: u8,
    pub stamp: u16,
    pub word: u16,
}

// SAFETY, for each call: the record is a whole one, every other pointer goes with
// the length of its own slice, none of them overlap since each is borrowed, and
// no function keeps a pointer once it has returned.
impl Post {
    /// All zero: a post of no yard, which each step refuses by 21.
    pub const EMPTY: Post = Post {
        lane: 0,
        posts: 0,
        sources: 0,
        dests: 0,
        clock: 0,
        serial: 0,
        logged: 0,
        last: [0; LANES],
        table: [0; TABLE_LENGTH],
        stamps: [0; ORDERS],
        words: [0; ORDERS],
        log: [0; ORDERS],
    };

    /// A post before its first step, or refusal 12 or 21.
    pub fn fresh(lane: u8, posts: u8, sources: u8, dests: u8) -> Result<Post, u8> {
        let mut post = Post::EMPTY;
        let refusal = unsafe { raw::drift_post_fresh(&mut post, lane, posts, sources, dests) };
        accepted(refusal).map(|()| post)
    }

    /// Sends an order; the frame to broadcast goes into the buffer of 32 bytes.
    /// Refused by 6, 12 and 21 to 24, with record and buffer as they were.
    pub fn order(&mut self, word: u16, buffer: &mut [u8]) -> Result<Sent, u8> {
        let (to, length) = (buffer.as_mut_ptr(), buffer.len());
        Answer(unsafe { raw::drift_post_order(self, word, to, length) }).of_order()
    }

    /// Hears a frame; if it is taken, the frame to broadcast goes into the buffer
    /// of 32 bytes. Refused by 6 to 12, 21, 24, 26 and 28 to 30, with record and
    /// buffer as they were.
    pub fn hear(&mut self, frame: &[u8], buffer: &mut [u8]) -> Result<Heard, u8> {
        let (bytes, bytes_length) = (frame.as_ptr(), frame.len());
        let (to, length) = (buffer.as_mut_ptr(), buffer.len());
        Answer(unsafe { raw::drift_post_hear(self, bytes, bytes_length, to, length) }).of_hearing()
    }

    /// Sends a beacon; the frame to broadcast goes into the buffer of 32 bytes.
    /// Refused by 6, 12 and 21, with the buffer as it was.
    pub fn beacon(&self, buffer: &mut [u8]) -> Result<(), u8> {
        let (to, length) = (buffer.as_mut_ptr(), buffer.len());
        accepted(unsafe { raw::drift_post_beacon(self, to, length) })
    }

    /// The log: the orders delivered, in the order of delivery. In a bad record
    /// what is not a place of an order is left out.
    pub fn logged_orders(&self) -> impl Iterator<Item = Order> + '_ {
        let places = self.log.iter().take(self.logged.into());
        places.filter_map(|&place| {
            Some(Order {
                lane: place / ORDERS_PER_LANE,
                serial: place % ORDERS_PER_LANE + 1,
                stamp: *self.stamps.get(usize::from(place))?,
                word: *self.words.get(usize::from(place))?,
            })
        })
    }
}
