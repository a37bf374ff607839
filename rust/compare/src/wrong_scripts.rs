//! Tests that the comparison of scripts passes right libraries and notices wrong
//! ones: wrong printouts, airs, states and answers.

mod answers;
mod states;

use crate::layout::{LOGGED, ROW_CELLS};
use crate::library::Library;
use crate::patched::Patched;
use crate::scripts::{compare, smallest, Found, Tally};
use crate::second::Second;
use crate::state::{State, ROWS};
use states::misstates;

const SEED: u64 = 1;
const COUNT: u64 = 300;

fn compared(library: &dyn Library, count: u64) -> Result<Tally, Box<Found>> {
    compare(library, SEED, 0, count, |_| {})
}

/// What differs must be this.
fn assert_noticed(name: &str, what: &str, library: Patched) {
    let found = compared(&library, COUNT);
    let found = found.expect_err(&format!("not noticed: {name}"));
    assert_eq!(
        found.difference.what(),
        what,
        "{name}\n{}",
        found.difference
    );
    println!("{:>6} {name}", found.before);
}

#[test]
fn the_second_implementation_passes_and_everything_comes() {
    let tally = compared(&Second, 6_000).expect("the same on both sides");
    assert_eq!(tally.never_came(), Vec::<String>::new());
    assert!(tally.total() > 6_000);
}

#[test]
fn what_never_came_is_told() {
    let never = Tally::default().never_came();
    for name in [
        "a script that is bad by 5",
        "answer: early with a delivery",
        "answer: state refused",
        "a script refused at a line over 255",
        "last line: roll: refused by 27",
        "printed: hear: refused by 26",
        "2,048 frames",
        "a beacon sent after another post's was refused by 27",
    ] {
        assert!(never.contains(&name.to_string()), "{name}");
    }
    // The fixed scripts alone do not reach everything.
    let tally = compared(&Second, 0).expect("the same on both sides");
    assert!(!tally.never_came().is_empty());
    assert!(tally.never_came().len() < never.len());
}

/// A library that prints rightly and then changes something.
fn misprints(change: impl Fn(&mut [u8], &mut [u8], &mut usize) + 'static) -> Patched {
    Patched {
        run_script: Box::new(move |script, air, output| {
            let mut length = Second.run_script(script, air, output);
            if length > 0 {
                change(air, output, &mut length);
            }
            length
        }),
        ..Patched::default()
    }
}

#[test]
fn wrong_printouts_are_noticed() {
    let silent = misprints(|_, _, length| *length = 0);
    assert_noticed("nothing is printed", "printout", silent);
    let short = misprints(|_, _, length| *length -= 1);
    assert_noticed("the last line feed is missing", "printout", short);
    let long = misprints(|_, output, length| {
        output[*length] = b'\n';
        *length += 1;
    });
    assert_noticed("a line feed too many", "printout", long);
    let beyond = misprints(|_, output, length| output[*length..].fill(0));
    assert_noticed("the rest of the output is emptied", "printout", beyond);
    let clock = misprints(|_, output, length| {
        let text = &mut output[..*length];
        if let Some(at) = text.windows(8).position(|part| part == b"clock 13") {
            text[at + 7] = b'4';
        }
    });
    assert_noticed("one clock is wrong", "printout", clock);
    let any_output = Patched {
        run_script: Box::new(|script, air, output| {
            let length = output.len().min(131_072);
            Second.run_script(script, air, &mut output[..length])
        }),
        ..Patched::default()
    };
    assert_noticed("a longer output is used", "printout", any_output);
}

/// A library that runs another script.
fn takes_for(change: Reading) -> Patched {
    Patched {
        run_script: Box::new(move |script, air, output| {
            Second.run_script(&mut change(script), air, output)
        }),
        script_state: Box::new(move |script, air, state| {
            Second.script_state(&mut change(script), air, state)
        }),
        ..Patched::default()
    }
}

/// The script that is run in place of the one given.
type Reading = fn(&[u8]) -> Vec<u8>;

const READINGS: [(&str, Reading); 6] = [
    ("48,001 bytes are read", |script| {
        script[..script.len().min(48_000)].to_vec()
    }),
    ("the last line needs no line feed", |script| {
        let mut whole = script.to_vec();
        if script.last().is_some_and(|&byte| byte != b'\n') {
            whole.push(b'\n');
        }
        whole
    }),
    ("CR is left out", |script| {
        let kept = script.iter().filter(|&&byte| byte != b'\r');
        kept.copied().collect()
    }),
    ("a tab is a space", |script| {
        let bytes = script.iter().map(|&byte| match byte {
            b'\t' => b' ',
            _ => byte,
        });
        bytes.collect()
    }),
    ("capitals are small letters", |script| {
        script.to_ascii_lowercase()
    }),
    ("a blank line at the end is left out", |script| {
        script
            .strip_suffix(b"\n\n")
            .map_or(script.to_vec(), |text| [text, b"\n"].concat())
    }),
];

#[test]
fn wrong_readings_of_a_script_are_noticed() {
    for (name, change) in READINGS {
        assert_noticed(name, "printout", takes_for(change));
    }
}

#[test]
fn wrong_airs_are_noticed() {
    let unused = misprints(|air, _, _| {
        if let Some(byte) = air.get_mut(65_535) {
            *byte ^= 1;
        }
    });
    assert_noticed("an unused byte of the air is changed", "air", unused);
    let refused = misprints(|air, output, _| {
        if output.starts_with(b"(bad") && air.len() == 65_536 {
            air[0] = 0;
        }
    });
    assert_noticed("a bad script changes the air", "air", refused);
    let entry = misprints(|air, _, _| {
        if air.len() == 65_536 && air[32..34] == [2, 3] {
            air[63] ^= 1;
        }
    });
    assert_noticed("a beacon of lane 3 has a wrong entry", "air", entry);
    let script = Patched {
        run_script: Box::new(|script, air, output| {
            let length = Second.run_script(script, air, output);
            if let Some(byte) = script.first_mut() {
                *byte = b' ';
            }
            length
        }),
        ..Patched::default()
    };
    assert_noticed("the script is changed", "script", script);
}

#[test]
fn a_difference_shows_the_smallest_script() {
    // The library is wrong where a post logs two orders of lane 1.
    let wrong = misstates(|state| {
        for lane in 0..8 {
            let post = State(state).post(lane);
            let log = &post.log[..usize::from(post.logged)];
            if log.iter().filter(|&&place| place / 16 == 1).count() == 2 {
                state[ROWS + ROW_CELLS * lane + LOGGED] += 1;
            }
        }
    });
    let found = compared(&wrong, 3_000).expect_err("a wrong state");
    assert!(found.difference.case.lines() > 5);
    let found = smallest(&wrong, found);
    let text = found.difference.to_string();
    assert!(found.difference.case.lines() <= 5, "{text}");
    for part in [
        "\n(order 1 0)\n(order 1 0)\n",
        "drift_script_state, air of 65536 bytes and 4483 cells lent",
        "length of the log\n  second implementation 2\n  static library        3\n",
    ] {
        assert!(text.contains(part), "{part}\n{text}");
    }
}

#[test]
fn a_difference_shows_printed_lines_and_frames() {
    let wrong = misprints(|air, output, length| {
        let text = &mut output[..*length];
        if let Some(at) = text.windows(7).position(|part| part == b"(sent 2") {
            text[at + 6] = b'3';
            air[31] = 0xAB;
            air[65] = 0xCD;
        }
    });
    let found = compared(&wrong, 300).expect_err("a wrong printout");
    let text = smallest(&wrong, found).difference.to_string();
    for part in [
        "drift_run_script, air of 65536 bytes and 131072 bytes lent",
        "printed line 1\n  second implementation (post ",
        " (sent 3) (log",
        "frame 0\n  second implementation 01 ",
        " 00 AB\n",
        "frame 2\n  second implementation ",
        "  static library        ",
    ] {
        assert!(text.contains(part), "{part}\n{text}");
    }
}
