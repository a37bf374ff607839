//! Tests of the cells of a state, laid out here by hand.

use crate::library::Library;
use crate::second::Second;
use crate::state::{state_field, State, STATE_CELLS};
use drift_reference::post::Post;

/// The first six lines of the script in document 01.
const SCRIPT: &str = "(yard (0 both) (1 source) (2 dest))\n(order 0 417)\n(hear 1 0)\n\
                      (order 1 90)\n(hear 2 1)\n(hear 0 2)\n";

/// The state behind a script, and what was answered.
fn run(script: &str) -> (Vec<u16>, u64) {
    let (mut air, mut state) = (vec![0xEE; 65_536], vec![0xEEEE; 4_483]);
    let mut script = script.as_bytes().to_vec();
    let answer = Second.script_state(&mut script, &mut air, &mut state);
    (state, answer)
}

/// The row of post 0, which has just heard the order of post 1.
fn first_row() -> [u16; 543] {
    let mut row = [0; 543];
    let mut put = |at: usize, values: &[u16]| row[at..at + values.len()].copy_from_slice(values);
    // Lane, sources, dests, clock, own serial, length of the log.
    put(0, &[0, 0b011, 0b101, 4, 1, 2]);
    // Last taken and known, of lanes 0 and 1.
    put(6, &[1, 1]);
    put(14, &[1, 1]);
    // Table, stamps and words of the orders (0, 1) and (1, 1).
    put(22 + 1, &[4]);
    put(22 + 18, &[3]);
    put(158, &[1]);
    put(158 + 16, &[3]);
    put(286, &[417]);
    put(286 + 16, &[90]);
    // The log, and the posts.
    put(414, &[0, 16]);
    put(542, &[0b111]);
    row
}

#[test]
fn a_state_is_written_cell_for_cell() {
    let (state, answer) = run(SCRIPT);
    // Taken, and two orders delivered.
    assert_eq!(answer, 0x02_0200);
    // Three posts, two sources, five frames, no beacon of any lane.
    assert_eq!(state[..11], [0b111, 0b011, 5, 0, 0, 0, 0, 0, 0, 0, 0]);
    // The orders of lanes 0 and 1 are frames 0 and 2.
    let mut first = [0; 128];
    first[16] = 2;
    assert_eq!(state[11..139], first);
    assert_eq!(state[139..682], first_row());
    // Post 1: clock 3, own serial 1, last taken 1 of lanes 0 and 1; no log.
    assert_eq!(state[682..682 + 9], [1, 3, 5, 3, 1, 0, 1, 1, 0]);
    assert_eq!(state[682 + 14..682 + 22], [0; 8]);
    // Post 2 has logged the order of lane 0, and knows it.
    let row = &state[139 + 2 * 543..139 + 3 * 543];
    assert_eq!(row[..9], [2, 3, 5, 0, 0, 1, 1, 0, 0]);
    assert_eq!(row[14..22], [1, 0, 0, 0, 0, 0, 0, 0]);
    // Lanes without a post have a fresh row with the yard's sets.
    for lane in 3..8 {
        let row = &state[139 + 543 * lane..][..543];
        assert_eq!(row[..3], [lane as u16, 3, 5]);
        assert!(row[3..542].iter().all(|&cell| cell == 0));
        assert_eq!(row[542], 7);
    }
}

/// Beacons of steps and of roll calls; those that are refused are not counted.
#[test]
fn the_beacons_of_each_lane_have_a_cell() {
    let yard = "(yard (0 both) (3 source) (6 relay) (7 dest))\n";
    let steps = "(beacon 6)\n(roll)\n(beacon 7)\n(beacon 1)\n(beacon 6)\n(roll)\n(beacon 3)\n";
    let (state, _) = run(&format!("{yard}{steps}"));
    assert_eq!(state[3..11], [2, 0, 0, 3, 0, 0, 2, 1]);
    let noisy = "(beacon 7)\n".repeat(200);
    let (state, answer) = run(&format!("{yard}{steps}{noisy}"));
    assert_eq!(state[3..11], [2, 0, 0, 3, 0, 0, 2, 128]);
    assert_eq!(answer, 27);
}

/// A post that is no destination logs nothing and knows nothing; one that is
/// knows as many orders of each lane as it has logged.
#[test]
fn what_is_known_is_counted_in_the_log() {
    let yard = "(yard (0 both) (3 source) (6 relay) (7 dest))\n";
    let orders = "(order 0 1)\n(order 0 2)\n(order 3 3)\n(order 0 4)\n(roll)\n(order 3 5)\n";
    let (state, _) = run(&format!("{yard}{orders}"));
    for lane in 0..8 {
        let known = &state[139 + 543 * lane + 14..][..8];
        let expected = match lane {
            0 | 7 => [3, 0, 0, 1, 0, 0, 0, 0],
            _ => [0; 8],
        };
        assert_eq!(known, expected, "lane {lane}");
    }
}

#[test]
fn each_answer_is_one_number() {
    let with = |lines: &str| run(&format!("{SCRIPT}{lines}")).1;
    assert_eq!(with("(order 0 9)\n"), 0x0005_0200_0100);
    assert_eq!(with("(hear 0 2)\n"), 0x0300);
    assert_eq!(with("(order 0 1)\n(order 0 1)\n(hear 1 6)\n"), 0x0400);
    assert_eq!(with("(beacon 1)\n(hear 2 5)\n"), 0x0500);
    assert_eq!(with("(beacon 1)\n"), 0x0600);
    assert_eq!(run("(yard (7 relay))\n").1, 0x0700);
    assert_eq!(with("(roll)\n"), 0x000A_0000_0000_0800);
    assert_eq!(with("(hear 2 9)\n"), 25);
}

#[test]
fn a_refused_script_answers_line_and_number_and_leaves_the_state() {
    let longest = "(".repeat(48_001);
    for (script, answer) in [
        (longest.as_str(), 0x0901),
        ("", 0x0001_0000_0000_0903),
        ("(yard (0 both))\n(roll)\n(roll )\n", 0x0003_0000_0000_0902),
        ("(yard (0 both))\n(beacon 8)\n", 0x0002_0000_0000_0904),
        ("(yard (0 both))\n(order 0 65536)\n", 0x0002_0000_0000_0905),
    ] {
        assert_eq!(run(script), (vec![0xEEEE; 4_483], answer), "{script}");
    }
}

#[test]
fn a_state_of_another_length_is_refused_before_the_script() {
    for length in [0, 4_476, 4_482, 4_484] {
        for script in ["(yard (0 both))\n(beacon 0)\n", "(roll)\n", ""] {
            let (mut air, mut state) = (vec![0xEE; 65_536], vec![0xEEEE; length]);
            let mut text = script.as_bytes().to_vec();
            let answer = Second.script_state(&mut text, &mut air, &mut state);
            assert_eq!(answer, 0x0A0C);
            assert_eq!((air, state), (vec![0xEE; 65_536], vec![0xEEEE; length]));
        }
    }
}

#[test]
fn a_state_is_looked_at() {
    let (state, _) = run(&format!("{SCRIPT}(beacon 0)\n(order 1 65535)\n"));
    let state = State(&state);
    assert_eq!(state.frames(), 7);
    assert_eq!(state.beacons(), [1, 0, 0, 0, 0, 0, 0, 0]);
    assert_eq!((state.first(16), state.first(17)), (2, 6));
    let post = state.post(1);
    assert_eq!(
        (post.lane, post.posts, post.sources, post.dests),
        (1, 7, 3, 5)
    );
    assert_eq!(
        (post.words[17], post.serial.0, post.last[1]),
        (65_535, 2, 2)
    );
    // A number that is too large stays too large.
    let mut large = state.0.to_vec();
    large[139 + 543 + 5] = 0x0101;
    assert_eq!(
        State(&large).post(1),
        Post {
            logged: 255,
            ..post
        }
    );
}

/// The library for hosts reads the same records, whatever the cells hold.
#[test]
fn the_library_for_hosts_reads_the_same() {
    let (mut state, _) = run(&format!("{SCRIPT}(roll)\n(order 0 5)\n(beacon 2)\n"));
    for (at, cell) in (0..).zip(&mut state) {
        *cell ^= at % 17;
    }
    let read = drift_library::State::read(&state).expect("a state");
    let own = State(&state);
    assert_eq!((read.frames, read.beacons), (own.frames(), own.beacons()));
    for (lane, row) in read.rows.iter().enumerate() {
        assert_eq!(drift_records::post_of(&row.post), own.post(lane));
    }
    let first: Vec<u16> = (0..128).map(|place| own.first(place)).collect();
    assert_eq!(read.first[..], first);
}

#[test]
fn every_cell_of_a_state_has_its_name() {
    let mut names: Vec<String> = (0..STATE_CELLS).map(state_field).collect();
    for (at, expected) in [
        (0, "posts"),
        (1, "sources"),
        (2, "frames"),
        (3, "beacons of lane 0"),
        (10, "beacons of lane 7"),
        (11, "first frame of lane 0, serial 1"),
        (138, "first frame of lane 7, serial 16"),
        (139, "post 0: lane"),
        (142, "post 0: clock"),
        (144, "post 0: length of the log"),
        (682 + 21, "post 1: known of lane 7"),
        (682 + 22, "post 1: table at lane 0, serial 0"),
        (682 + 157, "post 1: table at lane 7, serial 16"),
        (3_940 + 414, "post 7: log at 0"),
        (4_482, "post 7: posts"),
    ] {
        assert_eq!(names[at], expected);
    }
    names.sort();
    names.dedup();
    assert_eq!(names.len(), STATE_CELLS);
}
