//! Tests that the comparison of delivery logs passes right libraries and notices
//! wrong writers and readers.

mod readers;
mod writers;

use crate::csv::{compare, Found, Tally};
use crate::library::{Library, Proved};
use crate::patched::Patched;
use crate::second::Second;

const SEED: u64 = 1;
const COUNT: u64 = 400;

fn compared(library: &dyn Library, count: u64) -> Result<Tally, Box<Found>> {
    compare(library, SEED, 0, count, |_| {})
}

/// The difference must be found in the calls of this function.
fn assert_noticed(name: &str, function: &str, library: Patched) {
    let found = compared(&library, COUNT);
    let found = found.expect_err(&format!("not noticed: {name}"));
    assert_eq!(found.difference.function(), function, "{name}");
    let text = found.difference.to_string();
    assert!(text.contains(function), "{text}");
}

#[test]
fn right_libraries_pass_and_everything_comes() {
    let libraries: [&dyn Library; 2] = [&Second, &Proved];
    for library in libraries {
        let tally = compared(library, 4_000).expect("a right library passes");
        assert_eq!(tally.never_came(), Vec::<String>::new());
        assert!(tally.total() > 12_000);
    }
}

#[test]
fn what_never_came_is_told() {
    let never = Tally::default().never_came();
    for name in [
        "drift_csv_write: refused by 6",
        "drift_csv_read: refused by 1",
        "drift_csv_first_bad: done, or nothing bad",
        "a log written: 0 orders",
        "a file read: 128 orders",
        "first bad record 1, by 31",
        "first bad record 130, by 32",
        "a text of 1,937 bytes",
        "a file bad by a byte order mark",
    ] {
        assert!(never.contains(&name.to_string()), "{name}");
    }
    // No order comes before the first one, so that it could not rise.
    assert!(!never.contains(&"first bad record 2, by 32".to_string()));
}

#[test]
fn a_difference_tells_the_call_and_both_answers() {
    let wrong = Patched {
        csv_read: Box::new(|file, numbers| {
            let answer = Second.csv_read(file, numbers);
            if answer == 256 {
                numbers[2] ^= 1;
            }
            answer
        }),
        ..Patched::default()
    };
    let found = compared(&wrong, 0).expect_err("a wrong reader");
    assert_eq!(found.place(), "a fixed log or file");
    let text = found.difference.to_string();
    for part in [
        "function              drift_csv_read\n",
        "bytes)\nstamp,lane,word\\x0D\n",
        "numbers               (384 numbers)\n",
        "second implementation refusal 0, value 1\n",
        "static library        refusal 0, value 1\n",
        "differs               number 2 of the numbers: second implementation ",
    ] {
        assert!(text.contains(part), "{part}\n{text}");
    }
}
