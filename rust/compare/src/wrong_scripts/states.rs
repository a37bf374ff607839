//! Libraries that give wrong states.

use super::assert_noticed;
use crate::answer::Answered;
use crate::layout::{
    CLOCK, DESTS, KNOWN, LANE, LAST, LOG, LOGGED, POSTS, ROW_CELLS, SERIAL, TABLE,
};
use crate::library::Library;
use crate::patched::Patched;
use crate::second::Second;
use crate::state::{State, BEACONS, FIRST, FRAMES, ROWS, STATE_CELLS};

/// A library that gives the right state and then changes it.
pub fn misstates(change: impl Fn(&mut [u16]) + 'static) -> Patched {
    Patched {
        script_state: Box::new(move |script, air, state| {
            let answer = Second.script_state(script, air, state);
            if Answered::read(answer).is_some_and(Answered::has_run) {
                change(state);
            }
            answer
        }),
        ..Patched::default()
    }
}

#[test]
fn wrong_states_are_noticed() {
    // Each cell in turn would take long: these stand for all parts of a state.
    for at in (0..STATE_CELLS).step_by(31).chain(0..FIRST) {
        let name = format!("cell {at} is another");
        assert_noticed(&name, "state", misstates(move |state| state[at] ^= 1));
    }
    let high = misstates(|state| state[ROWS + CLOCK] |= 0x100);
    assert_noticed("a clock has another high byte", "state", high);
    let last = misstates(|state| {
        if State(state).post(7).serial.0 == 16 {
            state[ROWS - 1] ^= 1;
        }
    });
    assert_noticed("the first frame of the last order", "state", last);
    let frames = misstates(|state| {
        if State(state).frames() == 2_048 {
            state[FRAMES] = 2_049;
        }
    });
    assert_noticed("2,048 frames are counted as others", "state", frames);
}

/// The rows of a state, from lane 0.
fn rows(state: &mut [u16]) -> impl Iterator<Item = &mut [u16]> {
    state[ROWS..].chunks_exact_mut(ROW_CELLS)
}

#[test]
fn states_laid_out_in_another_way_are_noticed() {
    let bytes = misstates(|state| {
        for cell in state {
            *cell = cell.swap_bytes();
        }
    });
    assert_noticed("the bytes of a cell are swapped", "state", bytes);
    let counts = misstates(|state| state.swap(FRAMES, BEACONS));
    assert_noticed("frames and beacons are swapped", "state", counts);
    let serial = misstates(|state| rows(state).for_each(|row| row.swap(SERIAL, LOGGED)));
    assert_noticed("own serial and log are swapped", "state", serial);
    let posts = misstates(|state| rows(state).for_each(|row| row[1..].rotate_right(1)));
    assert_noticed("the posts stand after the lane", "state", posts);
    let rows_first = misstates(|state| state.rotate_left(ROWS));
    assert_noticed("the rows come first", "state", rows_first);
    let lanes = misstates(|state| {
        let (one, other) = state[ROWS..].split_at_mut(ROW_CELLS);
        one.swap_with_slice(&mut other[..ROW_CELLS]);
    });
    assert_noticed("the rows of two lanes are swapped", "state", lanes);
    let without_posts = misstates(|state| {
        for row in rows(state).filter(|row| row[POSTS] >> row[LANE] & 1 == 0) {
            row.fill(0);
        }
    });
    assert_noticed("a lane without a post has no row", "state", without_posts);
}

#[test]
fn wrong_counts_of_beacons_are_noticed() {
    let from_lane_7 = misstates(|state| state[BEACONS..FIRST].reverse());
    assert_noticed("the counts stand from lane 7 on", "state", from_lane_7);
    let one_count = misstates(|state| {
        let sent = state[BEACONS..FIRST].iter().sum();
        state[BEACONS..FIRST].fill(0);
        state[BEACONS] = sent;
    });
    assert_noticed("the yard has one count", "state", one_count);
    let last = misstates(|state| {
        let counts = state[BEACONS..FIRST].iter_mut();
        counts.for_each(|count| *count = (*count).min(127));
    });
    assert_noticed("128 beacons are counted as 127", "state", last);
}

#[test]
fn wrong_knowledge_of_the_log_is_noticed() {
    let none = misstates(|state| rows(state).for_each(|row| row[KNOWN..TABLE].fill(0)));
    assert_noticed("nothing is known", "state", none);
    let one_off = misstates(|state| {
        for row in rows(state).filter(|row| row[LOGGED] > 0) {
            row[KNOWN..TABLE].iter_mut().for_each(|known| *known += 1);
        }
    });
    assert_noticed("one order more is known", "state", one_off);
    let taken = misstates(|state| {
        for row in rows(state) {
            row.copy_within(LAST..KNOWN, KNOWN);
        }
    });
    assert_noticed("what is taken is known", "state", taken);
    let elsewhere = misstates(|state| {
        let known: [u16; 8] = std::array::from_fn(|lane| State(state).post(0).last[lane].into());
        for row in rows(state).filter(|row| row[DESTS] >> row[LANE] & 1 == 0) {
            row[KNOWN..TABLE].copy_from_slice(&known);
        }
    });
    assert_noticed(
        "a post that is no destination knows something",
        "state",
        elsewhere,
    );
}

/// A library that writes not all cells: what the state held before shows.
fn keeps(kept: impl Fn(&[u16], usize) -> bool + 'static) -> Patched {
    Patched {
        script_state: Box::new(move |script, air, state| {
            let before = state.to_vec();
            let answer = Second.script_state(script, air, state);
            if Answered::read(answer).is_some_and(Answered::has_run) {
                let right = state.to_vec();
                for at in (0..state.len()).filter(|&at| kept(&right, at)) {
                    state[at] = before[at];
                }
            }
            answer
        }),
        ..Patched::default()
    }
}

#[test]
fn states_that_are_not_written_in_full_are_noticed() {
    let zeros = keeps(|right, at| right[at] == 0);
    assert_noticed("zeros are not written", "state", zeros);
    let last = keeps(|_, at| at == STATE_CELLS - 1);
    assert_noticed("the last cell is not written", "state", last);
    let log = keeps(|right, at| {
        let row = at.saturating_sub(ROWS) / ROW_CELLS * ROW_CELLS + ROWS;
        let end = row + LOG + usize::from(right[row + LOGGED]);
        (end..row + POSTS).contains(&at)
    });
    assert_noticed("the rest of a log is not written", "state", log);
}
