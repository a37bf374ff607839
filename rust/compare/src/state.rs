//! Where the numbers of a yard's state stand, one in each cell.

use crate::layout::{read_row, row_field, write_row, ROW_CELLS};
use crate::report::lane_and_serial;
use drift_reference::frame::LANES;
use drift_reference::post::{Post, ORDERS};
use drift_reference::yard::Yard;

// Cells of a state; the rows of lanes 0 to 7 come last.
const POSTS: usize = 0;
const SOURCES: usize = 1;
pub const FRAMES: usize = 2;
pub const BEACONS: usize = 3;
pub const FIRST: usize = BEACONS + LANES;
pub const ROWS: usize = FIRST + ORDERS;
/// Number of cells of a state.
pub const STATE_CELLS: usize = ROWS + LANES * ROW_CELLS;

const _: () = assert!(STATE_CELLS == 4_483);

/// Writes the yard that a script left.
pub fn write_state(yard: &Yard, state: &mut [u16]) {
    state[POSTS] = yard.present.into();
    state[SOURCES] = yard.sources.into();
    state[FRAMES] = yard.frames;
    state[BEACONS..FIRST].copy_from_slice(&yard.beacons);
    state[FIRST..ROWS].copy_from_slice(&yard.first);
    let rows = state[ROWS..].chunks_exact_mut(ROW_CELLS);
    for (post, row) in yard.posts.iter().zip(rows) {
        write_row(post, known(post), row);
    }
}

/// For each lane the serial up to which its orders are known to be in the log: at
/// a destination as many as are there, elsewhere 0.
fn known(post: &Post) -> [u8; LANES] {
    let mut known = [0; LANES];
    if post.dests >> post.lane & 1 == 1 {
        for place in &post.log[..usize::from(post.logged)] {
            known[usize::from(place / 16)] += 1;
        }
    }
    known
}

/// A state that is looked at.
#[derive(Clone, Copy)]
pub struct State<'a>(pub &'a [u16]);

impl State<'_> {
    /// The record of a lane, 0 to 7.
    pub fn post(self, lane: usize) -> Post {
        read_row(&self.0[ROWS + ROW_CELLS * lane..][..ROW_CELLS])
    }

    pub fn frames(self) -> u16 {
        self.0[FRAMES]
    }

    /// How many beacons the post of each lane has sent.
    pub fn beacons(self) -> [u16; LANES] {
        std::array::from_fn(|lane| self.0[BEACONS + lane])
    }

    /// The number of the first frame of the order at 16 × lane + serial − 1.
    pub fn first(self, place: usize) -> u16 {
        self.0[FIRST + place]
    }
}

/// Name of the number in a cell of a state.
pub fn state_field(at: usize) -> String {
    match at {
        POSTS => "posts".into(),
        SOURCES => "sources".into(),
        FRAMES => "frames".into(),
        BEACONS..FIRST => format!("beacons of lane {}", at - BEACONS),
        FIRST..ROWS => format!("first frame of {}", lane_and_serial(at - FIRST, 16, 1)),
        _ => {
            let (lane, cell) = ((at - ROWS) / ROW_CELLS, (at - ROWS) % ROW_CELLS);
            format!("post {lane}: {}", row_field(cell))
        }
    }
}
