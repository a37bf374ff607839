//! Tests that the check of demand 3 passes right libraries and notices wrong ones.

mod beacons;

use crate::answer::{Answer, Answered};
use crate::layout::{cells_of, CLOCK, LOG, LOGGED, ROW_CELLS, STAMPS, WORDS};
use crate::library::Library;
use crate::list_faults::{Counts, Numbered};
use crate::lists::{check, smallest, Fault, Tally};
use crate::patched::Patched;
use crate::second::Second;
use crate::state::{State, BEACONS, FIRST, FRAMES, ROWS};

const SEED: u64 = 1;
const COUNT: u64 = 60;

fn checked(library: &dyn Library) -> Result<Tally, Box<Fault>> {
    let lists = Numbered {
        seed: SEED,
        first: 0,
        count: COUNT,
    };
    check(library, lists, |_| {})
}

/// What a script left: the state and the last line's answer.
struct Left<'a> {
    state: &'a mut [u16],
    answered: Answered,
}

impl Left<'_> {
    /// The row of a lane.
    fn row(&mut self, lane: usize) -> &mut [u16] {
        &mut self.state[ROWS + ROW_CELLS * lane..][..ROW_CELLS]
    }

    /// Changes it if the last line gave this answer.
    fn change_if(&mut self, answer: Answer, change: fn(&mut Left)) {
        if self.answered.answer == answer {
            change(self);
        }
    }
}

/// A library that changes what its scripts left.
fn misstates(change: impl Fn(&mut Left) + 'static) -> Patched {
    Patched {
        script_state: Box::new(move |script, air, state| {
            let answer = Second.script_state(script, air, state);
            let answered = Answered::read(answer).expect("a right answer");
            let mut left = Left { state, answered };
            change(&mut left);
            left.answered.number()
        }),
        ..Patched::default()
    }
}

/// The fault must be told in these words.
fn assert_noticed(name: &str, words: &str, library: Patched) {
    let fault = checked(&library).expect_err(&format!("not noticed: {name}"));
    assert!(fault.what.contains(words), "{name}\n{fault}");
    println!("{:>6} {name}", fault.number);
}

#[test]
fn the_second_implementation_passes_and_everything_comes() {
    let tally = checked(&Second).expect("demand 3 holds");
    assert_eq!(tally.never_came(), Vec::<String>::new());
    assert!(!Tally::default().never_came().is_empty());
}

/// What is wrong, words of the fault, and the change of what is left.
type Wrong = (&'static str, &'static str, fn(&mut Left));

fn assert_all_noticed(wrong: &[Wrong]) {
    for &(name, words, change) in wrong {
        assert_noticed(name, words, misstates(change));
    }
}

const WRONG_LOGS: [Wrong; 9] = [
    ("all logs have two orders swapped", "begin", |left| {
        for lane in 0..8 {
            let row = left.row(lane);
            if row[LOGGED] >= 2 {
                row.swap(LOG, LOG + 1);
            }
        }
    }),
    ("one log of three is swapped", "begin", |left| {
        let row = left.row(5);
        if row[LOGGED] == 3 {
            row.swap(LOG + 1, LOG + 2);
        }
    }),
    ("an order is logged twice", "begin", |left| {
        let row = left.row(2);
        let length = usize::from(row[LOGGED]);
        if length >= 1 {
            row[LOG + length] = row[LOG + length - 1];
            row[LOGGED] += 1;
        }
    }),
    ("the first order is left out", "begin", |left| {
        let row = left.row(1);
        let length = usize::from(row[LOGGED]);
        if length >= 2 {
            row.copy_within(LOG + 1..LOG + length, LOG);
            row[LOGGED] -= 1;
        }
    }),
    ("the stamp of a logged order", "begin", |left| {
        change_first_logged(left, STAMPS);
    }),
    ("the word of a logged order", "begin", |left| {
        change_first_logged(left, WORDS);
    }),
    ("a log of over 128 orders", "logs 129 orders", |left| {
        left.row(0)[LOGGED] = 129;
    }),
    ("a log of 256 orders", "logs 255 orders", |left| {
        left.row(0)[LOGGED] |= 0x100;
    }),
    ("a log with place 128", "logs place", |left| {
        left.row(0)[LOG] |= 0x80;
    }),
];

/// Changes a number of post 3's first logged order.
fn change_first_logged(left: &mut Left, start: usize) {
    let row = left.row(3);
    if row[LOGGED] > 0 {
        let place = usize::from(row[LOG]);
        row[start + place] ^= 0x40;
    }
}

#[test]
fn wrong_logs_are_noticed() {
    assert_all_noticed(&WRONG_LOGS);
}

#[test]
fn logs_that_are_no_longer_right_later_are_noticed() {
    // Each log begins the list of orders sent, but not that after one more order.
    let hasty = misstates(|left| {
        for lane in 0..8 {
            let mut post = State(left.state).post(lane);
            let taken = (0..128u8).filter(|place| place % 16 < post.last[usize::from(place / 16)]);
            let mut log: Vec<u8> = taken.collect();
            log.sort_by_key(|&place| (post.stamps[usize::from(place)], place));
            // Of one post alone, so that no other log shows it at once.
            if lane == 7 && post.dests >> lane & 1 == 1 {
                post.log[..log.len()].copy_from_slice(&log);
                post.logged = log.len() as u8;
                left.row(lane).copy_from_slice(&cells_of(&post));
            }
        }
    });
    assert_noticed(
        "what is taken is logged at once",
        "does not begin the list",
        hasty,
    );
}

const WRONG_ROLL_CALLS: [Wrong; 6] = [
    (
        "one order is missing",
        "after a roll call post 4 logs",
        |left| {
            let row = left.row(4);
            if row[LOGGED] >= 3 {
                row[LOGGED] -= 1;
            }
        },
    ),
    ("nothing is ever logged", "after a roll call", |left| {
        for lane in 0..8 {
            left.row(lane)[LOGGED] = 0;
        }
    }),
    ("the answer is one off", "a roll call answers", |left| {
        left.change_if(Answer::RollCallRan, |left| left.answered.steps_or_line ^= 1);
    }),
    (
        "a frame too many is counted",
        "new frames, beacons",
        |left| {
            left.change_if(Answer::RollCallRan, |left| left.state[FRAMES] += 1);
        },
    ),
    (
        "the single steps leave another yard",
        "its single steps",
        |left| {
            left.change_if(Answer::RollCallRan, |left| left.state[FIRST] = 1);
        },
    ),
    ("it runs and is refused", "a refused step changed", |left| {
        left.change_if(Answer::RollCallRan, |left| {
            left.answered = Answered::refused(27);
        });
    }),
];

#[test]
fn wrong_roll_calls_are_noticed() {
    assert_all_noticed(&WRONG_ROLL_CALLS);
    let air = Patched {
        script_state: Box::new(|script, air, state| {
            let answer = Second.script_state(script, air, state);
            if script.ends_with(b"(roll)\n") {
                air[65_000] ^= 1;
            }
            answer
        }),
        ..Patched::default()
    };
    assert_noticed("a roll call writes elsewhere", "its single steps", air);
}

const WRONG_ANSWERS: [Wrong; 8] = [
    ("every order has serial 1", "is sent after", |left| {
        left.change_if(Answer::OrderSent, |left| left.answered.serial = 1);
    }),
    ("every order has stamp 1", "", |left| {
        left.change_if(Answer::OrderSent, |left| left.answered.stamp = 1);
    }),
    ("taken is answered again", "new frames, beacons", |left| {
        left.change_if(Answer::Taken, |left| left.answered.answer = Answer::Again);
    }),
    ("a beacon answers taken", "(beacon", |left| {
        left.change_if(Answer::BeaconSent, |left| {
            left.answered.answer = Answer::Taken;
        });
    }),
    // A fresh post that was made has no code.
    ("there is no such answer", "no answer of its code", |left| {
        left.change_if(Answer::Early, |left| {
            left.answered.answer = Answer::FreshMade;
        });
    }),
    ("a refusal has no number", "answers", |left| {
        left.change_if(Answer::Refused, |left| left.answered.refusal = 0);
    }),
    (
        "a refused step changes a clock",
        "a refused step changed",
        |left| {
            left.change_if(Answer::Refused, |left| left.row(6)[CLOCK] ^= 1);
        },
    ),
    (
        "a beacon is sent before the first step",
        "not fresh",
        |left| {
            left.change_if(Answer::NoStep, |left| left.state[BEACONS + 7] = 1);
        },
    ),
];

#[test]
fn wrong_answers_are_noticed() {
    assert_all_noticed(&WRONG_ANSWERS);
    let refused = misstates(|left| {
        left.change_if(Answer::Taken, |left| left.answered = Answered::bad_state());
    });
    let words = "a good script answers: state refused, refusal 12";
    assert_noticed("no state is given", words, refused);
    let unwritten = Patched {
        script_state: Box::new(|script, air, state| {
            let last = state[ROWS - 1];
            let answer = Second.script_state(script, air, state);
            state[ROWS - 1] = last;
            answer
        }),
        ..Patched::default()
    };
    // A refused step or a roll call shows it, whichever comes first.
    assert_noticed("a cell is not written", "", unwritten);
}

#[test]
fn a_fault_shows_the_smallest_list() {
    let missing = misstates(|left| {
        for lane in 0..8 {
            let row = left.row(lane);
            row[LOGGED] -= u16::from(row[LOGGED] == 2);
        }
    });
    let fault = checked(&missing).expect_err("a wrong log");
    let fault = smallest(&missing, fault);
    let text = fault.to_string();
    let lines = fault.script.iter().filter(|&&byte| byte == b'\n').count();
    assert!(lines <= 5, "{text}");
    assert!(text.contains("\n(roll)\n"), "{text}");
    assert!(text.contains("after a roll call post"), "{text}");
}
