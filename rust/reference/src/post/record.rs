//! A post's record: where its numbers stand, and the fresh one.

use crate::frame::{Entry, Serial, Stamp, LANES, LAST_SERIAL};

/// Orders that one lane can send.
const ORDERS_PER_LANE: usize = LAST_SERIAL.0 as usize;
/// Table values of one lane: serials 0 to 16.
const SERIALS: usize = ORDERS_PER_LANE + 1;
/// Orders that all lanes together can send.
pub const ORDERS: usize = LANES * ORDERS_PER_LANE;
/// Table values of all lanes.
pub const TABLE_LENGTH: usize = LANES * SERIALS;
/// The highest reading of a clock.
pub const LAST_STAMP: Stamp = Stamp(65_535);

/// A post's record. Any numbers may stand here; each step refuses bad ones by 12.
#[derive(Clone, Debug, PartialEq, Eq)]
pub struct Post {
    pub lane: u8,
    /// The sets have bit i for lane i.
    pub posts: u8,
    pub sources: u8,
    pub dests: u8,
    pub clock: Stamp,
    pub serial: Serial,
    /// The last serial taken from each lane.
    pub last: [u8; LANES],
    /// The newest stamps, at 17 × lane + serial; 0 is none.
    pub table: [u16; TABLE_LENGTH],
    /// Stamps and words of the orders taken, at 16 × lane + serial − 1.
    pub stamps: [u16; ORDERS],
    pub words: [u16; ORDERS],
    /// The places of the orders delivered, in the order of delivery.
    pub log: [u8; ORDERS],
    pub logged: u8,
}

impl Post {
    /// The record of all zeros.
    pub const EMPTY: Post = Post {
        lane: 0,
        posts: 0,
        sources: 0,
        dests: 0,
        clock: Stamp(0),
        serial: Serial(0),
        last: [0; LANES],
        table: [0; TABLE_LENGTH],
        stamps: [0; ORDERS],
        words: [0; ORDERS],
        log: [0; ORDERS],
        logged: 0,
    };

    /// A post before its first step, or refusal 12 or 21.
    pub fn fresh(lane: u8, posts: u8, sources: u8, dests: u8) -> Result<Post, u8> {
        let post = Post::new(lane, posts, sources, dests);
        post.judge()?;
        post.judge_membership()?;
        Ok(post)
    }

    /// The fresh record of any lane, not judged.
    pub(crate) fn new(lane: u8, posts: u8, sources: u8, dests: u8) -> Post {
        Post {
            lane,
            posts,
            sources,
            dests,
            ..Post::EMPTY
        }
    }

    pub(super) fn is_source(&self) -> bool {
        holds(self.sources, self.lane)
    }

    pub(super) fn is_dest(&self) -> bool {
        holds(self.dests, self.lane)
    }

    pub(super) fn last_taken(&self, lane: u8) -> Serial {
        Serial(self.last[usize::from(lane)])
    }

    /// The newest stamp known of a lane at one of its serials.
    pub(super) fn newest_stamp(&self, lane: u8, serial: Serial) -> Stamp {
        Stamp(self.table[table_place(lane, serial)])
    }

    pub(super) fn set_newest_stamp(&mut self, lane: u8, serial: Serial, stamp: Stamp) {
        self.table[table_place(lane, serial)] = stamp.0;
    }

    /// The stamp of an order taken.
    pub(super) fn order_stamp(&self, lane: u8, serial: Serial) -> Stamp {
        Stamp(self.stamps[order_place(lane, serial)])
    }

    /// Keeps an order and makes its serial the last taken of its lane.
    pub(super) fn keep(&mut self, lane: u8, serial: Serial, stamp: Stamp, word: u16) {
        let place = order_place(lane, serial);
        self.stamps[place] = stamp.0;
        self.words[place] = word;
        self.last[usize::from(lane)] = serial.0;
    }

    /// Stamp, lane and word of the orders in the log, in the order of delivery.
    pub(crate) fn logged_orders(&self) -> impl Iterator<Item = (Stamp, u8, u16)> + '_ {
        let log = &self.log[..usize::from(self.logged)];
        log.iter().map(|&place| {
            let lane = place / LAST_SERIAL.0;
            let place = usize::from(place);
            (Stamp(self.stamps[place]), lane, self.words[place])
        })
    }

    /// For each lane its entry with the highest stamp, of equals the higher serial.
    pub(super) fn newest_entries(&self) -> [Entry; LANES] {
        let mut newest = [Entry::NONE; LANES];
        for (entry, row) in newest.iter_mut().zip(self.table.chunks_exact(SERIALS)) {
            for (serial, &stamp) in (0..).zip(row) {
                // A lane without stamps keeps "none".
                if stamp != 0 && Stamp(stamp) >= entry.stamp {
                    entry.serial = Serial(serial);
                    entry.stamp = Stamp(stamp);
                }
            }
        }
        newest
    }

    /// The places of the orders taken, as a set. Each last serial is at most 16.
    pub(super) fn taken(&self) -> u128 {
        let mut taken = 0;
        for (lane, &last) in self.last.iter().enumerate() {
            let of_lane = (1u128 << last) - 1;
            taken |= of_lane << (ORDERS_PER_LANE * lane);
        }
        taken
    }

    /// The places in the log, as a set. Each of them is below 128.
    pub(super) fn delivered(&self) -> u128 {
        let log = &self.log[..usize::from(self.logged)];
        log.iter().fold(0, |set, &place| set | 1 << place)
    }
}

/// Whether the lane, 0 to 7, is in the set.
pub(crate) fn holds(set: u8, lane: u8) -> bool {
    set >> lane & 1 == 1
}

/// Place of a lane and serial, 0 to 16, in the table.
fn table_place(lane: u8, serial: Serial) -> usize {
    SERIALS * usize::from(lane) + usize::from(serial.0)
}

/// Place of a lane's order with a serial, 1 to 16.
pub(crate) fn order_place(lane: u8, serial: Serial) -> usize {
    ORDERS_PER_LANE * usize::from(lane) + usize::from(serial.0) - 1
}
