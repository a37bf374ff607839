//! Where the numbers of a post stand in its row of a state, one in each cell.

use crate::report::lane_and_serial;
use drift_reference::frame::{Serial, Stamp, LANES};
use drift_reference::post::{Post, ORDERS, TABLE_LENGTH};
use std::array;

// Cells of a row, counted from its start.
pub const LANE: usize = 0;
pub const SOURCES: usize = 1;
pub const DESTS: usize = 2;
pub const CLOCK: usize = 3;
pub const SERIAL: usize = 4;
pub const LOGGED: usize = 5;
pub const LAST: usize = 6;
pub const KNOWN: usize = LAST + LANES;
pub const TABLE: usize = KNOWN + LANES;
pub const STAMPS: usize = TABLE + TABLE_LENGTH;
pub const WORDS: usize = STAMPS + ORDERS;
pub const LOG: usize = WORDS + ORDERS;
pub const POSTS: usize = LOG + ORDERS;
/// Number of cells of a row.
pub const ROW_CELLS: usize = POSTS + 1;

const _: () = assert!(ROW_CELLS == 543);

/// The post of a row. A number that is too large for its range is the largest of
/// its kind, and so too large still.
pub fn read_row(row: &[u16]) -> Post {
    let narrow = |at: usize| u8::try_from(row[at]).unwrap_or(u8::MAX);
    let narrow_from = |start: usize| move |index: usize| narrow(start + index);
    let wide_from = |start: usize| move |index: usize| row[start + index];
    Post {
        lane: narrow(LANE),
        posts: narrow(POSTS),
        sources: narrow(SOURCES),
        dests: narrow(DESTS),
        clock: Stamp(row[CLOCK]),
        serial: Serial(narrow(SERIAL)),
        last: array::from_fn(narrow_from(LAST)),
        table: array::from_fn(wide_from(TABLE)),
        stamps: array::from_fn(wide_from(STAMPS)),
        words: array::from_fn(wide_from(WORDS)),
        log: array::from_fn(narrow_from(LOG)),
        logged: narrow(LOGGED),
    }
}

/// Writes the row of a post, and what it is known to have of each lane in its log.
pub fn write_row(post: &Post, known: [u8; LANES], row: &mut [u16]) {
    row[LANE] = post.lane.into();
    row[SOURCES] = post.sources.into();
    row[DESTS] = post.dests.into();
    row[CLOCK] = post.clock.0;
    row[SERIAL] = post.serial.0.into();
    row[LOGGED] = post.logged.into();
    row[LAST..KNOWN].copy_from_slice(&post.last.map(u16::from));
    row[KNOWN..TABLE].copy_from_slice(&known.map(u16::from));
    row[TABLE..STAMPS].copy_from_slice(&post.table);
    row[STAMPS..WORDS].copy_from_slice(&post.stamps);
    row[WORDS..LOG].copy_from_slice(&post.words);
    row[LOG..POSTS].copy_from_slice(&post.log.map(u16::from));
    row[POSTS] = post.posts.into();
}

/// The cells of a record: those of a row of which nothing is known.
pub fn cells_of(post: &Post) -> [u16; ROW_CELLS] {
    let mut row = [0; ROW_CELLS];
    write_row(post, [0; LANES], &mut row);
    row
}

/// Name of the number in a cell of a row.
pub fn row_field(at: usize) -> String {
    match at {
        LANE => "lane".into(),
        SOURCES => "sources".into(),
        DESTS => "dests".into(),
        CLOCK => "clock".into(),
        SERIAL => "own serial".into(),
        LOGGED => "length of the log".into(),
        LAST..KNOWN => format!("last taken of lane {}", at - LAST),
        KNOWN..TABLE => format!("known of lane {}", at - KNOWN),
        TABLE..STAMPS => format!("table at {}", lane_and_serial(at - TABLE, 17, 0)),
        STAMPS..WORDS => format!("stamp of {}", lane_and_serial(at - STAMPS, 16, 1)),
        WORDS..LOG => format!("word of {}", lane_and_serial(at - WORDS, 16, 1)),
        LOG..POSTS => format!("log at {}", at - LOG),
        _ => "posts".into(),
    }
}
