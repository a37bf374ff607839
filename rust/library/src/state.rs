//! The state behind a script, read from its cells.

use crate::post::{LANES, ORDERS, TABLE_LENGTH};
use crate::{Post, STATE_CELLS};

// Where the numbers stand in a state, in cells; those before are single ones.
const BEACONS: usize = 3;
const FIRST: usize = BEACONS + LANES;
const ROWS: usize = FIRST + ORDERS;

// Where they stand in a row; those before are single ones.
const LAST: usize = 6;
const KNOWN: usize = LAST + LANES;
const TABLE: usize = KNOWN + LANES;
const STAMPS: usize = TABLE + TABLE_LENGTH;
const WORDS: usize = STAMPS + ORDERS;
const LOG: usize = WORDS + ORDERS;
const POSTS: usize = LOG + ORDERS;
const ROW_CELLS: usize = POSTS + 1;

const _: () = assert!(ROWS + LANES * ROW_CELLS == STATE_CELLS);

/// The yard that a script leaves.
#[derive(Clone, Debug, PartialEq, Eq)]
pub struct State {
    /// The lanes that have a post, and those that are sources: bit i is lane i.
    pub posts: u8,
    pub sources: u8,
    /// How many frames are on the air, and how many of them are beacons of each
    /// lane's post, which may send 128.
    pub frames: u16,
    pub beacons: [u16; LANES],
    /// The number of each order's first frame, at place 16 × lane + serial − 1;
    /// 0 where there is no order.
    pub first: [u16; ORDERS],
    /// The row of each lane; that of a lane without a post is fresh.
    pub rows: [Row; LANES],
}

/// What the state has of one lane.
#[derive(Clone, Copy, Debug, PartialEq, Eq)]
pub struct Row {
    /// The post's record, as a post run singly has it.
    pub post: Post,
    /// For each lane the serial up to which its orders are known to be in the
    /// log: at a destination how many of them are there, elsewhere 0. This is a
    /// note of the runner's own and no part of the record.
    pub known: [u8; LANES],
}

impl State {
    /// Reads the cells of a state, laid out as `c/drift_script.h` says. Nothing if
    /// there are not `STATE_CELLS` of them, or one has a number that is too large
    /// for what it stands for.
    pub fn read(cells: &[u16]) -> Option<State> {
        let cells: &[u16; STATE_CELLS] = cells.try_into().ok()?;
        let mut rows = [Row::EMPTY; LANES];
        for (row, cells) in rows.iter_mut().zip(cells[ROWS..].chunks_exact(ROW_CELLS)) {
            *row = Row::read(cells)?;
        }
        Some(State {
            posts: narrow(cells[0])?,
            sources: narrow(cells[1])?,
            frames: cells[2],
            beacons: wide_row(&cells[BEACONS..FIRST]),
            first: wide_row(&cells[FIRST..ROWS]),
            rows,
        })
    }

    /// The posts of the yard, in rising lane order.
    pub fn yard_posts(&self) -> impl Iterator<Item = &Post> {
        let is_present = |lane: usize| self.posts >> lane & 1 == 1;
        let rows = self.rows.iter().enumerate();
        rows.filter_map(move |(lane, row)| is_present(lane).then_some(&row.post))
    }
}

impl Row {
    const EMPTY: Row = Row {
        post: Post::EMPTY,
        known: [0; LANES],
    };

    fn read(cells: &[u16]) -> Option<Row> {
        let post = Post {
            lane: narrow(cells[0])?,
            posts: narrow(cells[POSTS])?,
            sources: narrow(cells[1])?,
            dests: narrow(cells[2])?,
            clock: cells[3],
            serial: narrow(cells[4])?,
            logged: narrow(cells[5])?,
            last: narrow_row(&cells[LAST..KNOWN])?,
            table: wide_row(&cells[TABLE..STAMPS]),
            stamps: wide_row(&cells[STAMPS..WORDS]),
            words: wide_row(&cells[WORDS..LOG]),
            log: narrow_row(&cells[LOG..POSTS])?,
        };
        let known = narrow_row(&cells[KNOWN..TABLE])?;
        Some(Row { post, known })
    }
}

/// The number of a cell that stands for a number of one byte.
fn narrow(cell: u16) -> Option<u8> {
    u8::try_from(cell).ok()
}

fn narrow_row<const COUNT: usize>(cells: &[u16]) -> Option<[u8; COUNT]> {
    let mut numbers = [0; COUNT];
    for (number, &cell) in numbers.iter_mut().zip(cells) {
        *number = narrow(cell)?;
    }
    Some(numbers)
}

fn wide_row<const COUNT: usize>(cells: &[u16]) -> [u16; COUNT] {
    cells.try_into().expect("as many cells as numbers")
}

#[cfg(test)]
mod tests {
    use super::{State, STATE_CELLS};
    use crate::Post;

    #[test]
    fn another_number_of_cells_is_no_state() {
        assert!(State::read(&[0; STATE_CELLS]).is_some());
        for count in [0, STATE_CELLS - 1, STATE_CELLS + 1] {
            assert_eq!(State::read(&vec![0; count]), None, "{count}");
        }
    }

    /// Counts, first frames, clock, table, stamps and words have two bytes.
    #[test]
    fn a_number_that_is_too_large_is_no_state() {
        let mut cells = [0; STATE_CELLS];
        let mut wide = 0;
        for at in 0..STATE_CELLS {
            cells[at] = 0x100;
            wide += usize::from(State::read(&cells).is_some());
            cells[at] = 0xFF;
            assert!(State::read(&cells).is_some(), "{at}");
            cells[at] = 0;
        }
        assert_eq!(wide, 1 + 8 + 128 + 8 * (1 + 136 + 128 + 128));
    }

    #[test]
    fn only_the_posts_of_the_yard_are_given() {
        let mut cells = [0; STATE_CELLS];
        cells[0] = 0b1000_0101;
        for lane in 0..8 {
            cells[139 + 543 * lane] = lane as u16;
        }
        let state = State::read(&cells).expect("a state");
        let lanes = state.yard_posts().map(|post: &Post| post.lane);
        assert_eq!(lanes.collect::<Vec<u8>>(), [0, 2, 7]);
    }
}
