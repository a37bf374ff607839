//! The numbers of a state stand in C where Rust reads them: `c/state_layout.c` is
//! compiled and run, and what it prints is compared with `drift_library::State`.

mod c_layout;

use c_layout::parts_in_c;
use drift_library::{Row, State, STATE_CELLS};

/// What `c/drift_script.h` says: the parts of a state, then those of a row, each
/// with its first cell and how many it has.
const DOCUMENTED: [(&str, usize, usize); 21] = [
    ("state", 0, 4_483),
    ("posts", 0, 1),
    ("sources", 1, 1),
    ("frames", 2, 1),
    ("beacons", 3, 8),
    ("first", 11, 128),
    ("rows", 139, 8 * 543),
    ("row", 0, 543),
    ("row.lane", 0, 1),
    ("row.sources", 1, 1),
    ("row.dests", 2, 1),
    ("row.clock", 3, 1),
    ("row.serial", 4, 1),
    ("row.logged", 5, 1),
    ("row.last", 6, 8),
    ("row.known", 14, 8),
    ("row.table", 22, 136),
    ("row.stamps", 158, 128),
    ("row.words", 286, 128),
    ("row.log", 414, 128),
    ("row.posts", 542, 1),
];

/// Puts 1 where the cell of a part goes, counted from the part's first.
fn put(state: &mut State, name: &str, at: usize) {
    match name {
        "posts" => state.posts = 1,
        "sources" => state.sources = 1,
        "frames" => state.frames = 1,
        "beacons" => state.beacons[at] = 1,
        "first" => state.first[at] = 1,
        _ => panic!("there is no part {name}"),
    }
}

/// The same in a row.
fn put_in_row(row: &mut Row, name: &str, at: usize) {
    let post = &mut row.post;
    match name {
        "row.lane" => post.lane = 1,
        "row.sources" => post.sources = 1,
        "row.dests" => post.dests = 1,
        "row.clock" => post.clock = 1,
        "row.serial" => post.serial = 1,
        "row.logged" => post.logged = 1,
        "row.last" => post.last[at] = 1,
        "row.known" => row.known[at] = 1,
        "row.table" => post.table[at] = 1,
        "row.stamps" => post.stamps[at] = 1,
        "row.words" => post.words[at] = 1,
        "row.log" => post.log[at] = 1,
        "row.posts" => post.posts = 1,
        _ => panic!("there is no part {name}"),
    }
}

#[test]
fn every_part_stands_in_c_where_it_is_documented() {
    let documented = DOCUMENTED.map(|(name, first, count)| (name.to_string(), first, count));
    assert_eq!(parts_in_c("state_layout"), documented);
    assert_eq!(DOCUMENTED[0].2, STATE_CELLS);
}

/// The cells one after the other, each read as 1 where all others are 0. So no
/// cell is left out, none is read twice, and each is read where C has it.
#[test]
fn every_cell_is_read_in_rust_where_it_stands_in_c() {
    let empty = State::read(&[0; STATE_CELLS]).expect("a state");
    let assert_read = |at: usize, expected: State| {
        let mut cells = [0; STATE_CELLS];
        cells[at] = 1;
        assert_eq!(State::read(&cells), Some(expected), "cell {at}");
    };
    let mut next = 0;
    for (name, first, count) in &DOCUMENTED[1..6] {
        for at in 0..*count {
            let mut expected = empty.clone();
            put(&mut expected, name, at);
            assert_read(first + at, expected);
            next += 1;
        }
    }
    for lane in 0..8 {
        for (name, first, count) in &DOCUMENTED[8..] {
            for at in 0..*count {
                let mut expected = empty.clone();
                put_in_row(&mut expected.rows[lane], name, at);
                assert_read(139 + 543 * lane + first + at, expected);
                next += 1;
            }
        }
    }
    assert_eq!(next, STATE_CELLS);
}
