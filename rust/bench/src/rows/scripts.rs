//! The rows of roll calls and of whole scripts.

use super::draft::{beacon_line, hear_line, order_line, FULL_YARD, ROLL_LINE};
use super::steps::document_orders;
use super::{Job, Row};
use crate::work::Work;
use drift_reference::script::SCRIPT_LIMIT;

type Maker = fn() -> Job;

pub fn rows() -> Vec<Row> {
    let jobs: [(&str, Maker); 10] = [
        ("roll call: document 01's yard, first, 10 steps", || {
            one_more_roll(document_orders().text, 0)
        }),
        ("roll call: document 01's yard, second", || {
            one_more_roll(document_orders().text, 1)
        }),
        (
            "roll call: 128 orders, first, 960 steps (1,024 log items printed)",
            || one_more_roll(full_yard_with_orders(), 0),
        ),
        ("roll call: 128 orders, second, 960 steps", || {
            one_more_roll(full_yard_with_orders(), 1)
        }),
        ("script: document 01's", || whole(document_script())),
        ("script: 128 orders, then hearings", || whole(hearings())),
        (
            "script: 128 orders, 128 full roll calls, refused ones",
            || whole(roll_calls()),
        ),
        ("script: refused hearings", || whole(refused_hearings())),
        ("script: orders and beacons in turn", || {
            whole(orders_and_beacons())
        }),
        ("script: bad last line, only judged", || {
            whole(bad_last_line())
        }),
    ];
    let jobs = jobs.into_iter();
    jobs.map(|(name, job)| Row::new(name.into(), job)).collect()
}

/// A whole script, as it costs all in all.
fn whole(script: String) -> Job {
    Job {
        with: Work::Script(script.into_bytes()),
        without: Work::Nothing,
        operations: 1,
        calls: 1,
    }
}

/// One more roll call after as many as `before` says.
fn one_more_roll(script: String, before: usize) -> Job {
    let without = script + &ROLL_LINE.repeat(before);
    Job {
        with: Work::Script((without.clone() + ROLL_LINE).into_bytes()),
        without: Work::Script(without.into_bytes()),
        operations: 1,
        calls: 4,
    }
}

/// Eight posts, all of them both, and 16 orders of each.
fn full_yard_with_orders() -> String {
    let mut script = String::from(FULL_YARD);
    for n in 0..128 {
        script += &order_line(n % 8, 10_000 + n);
    }
    script
}

/// As many lines as fit, the last of them in full.
fn filled(mut script: String, limit: usize, lines: impl Fn(usize) -> String) -> String {
    for line in (0..).map(lines) {
        if script.len() + line.len() > limit {
            break;
        }
        script += &line;
    }
    script
}

fn document_script() -> String {
    document_orders().text + &hear_line(2, 9)
}

/// Each post in turn hears frame 0, then each frame 1, and so on: taken first,
/// then again, a few refused by 26.
fn hearings() -> String {
    filled(full_yard_with_orders(), SCRIPT_LIMIT, |n| {
        hear_line(n % 8, n / 8)
    })
}

/// After 128 roll calls the beacons of each of the 8 sources are spent.
fn roll_calls() -> String {
    filled(full_yard_with_orders(), SCRIPT_LIMIT, |_| ROLL_LINE.into())
}

fn refused_hearings() -> String {
    filled(FULL_YARD.into(), SCRIPT_LIMIT, |n| hear_line(n % 8, 0))
}

/// 128 orders and 1,024 beacons, 128 of each post; those that come later are refused.
fn orders_and_beacons() -> String {
    filled(FULL_YARD.into(), SCRIPT_LIMIT, |n| match n % 2 {
        0 => order_line(n / 2 % 8, 10_000 + n),
        _ => beacon_line(n / 2 % 8),
    })
}

/// The last line names a lane over 7.
fn bad_last_line() -> String {
    let last = hear_line(8, 0);
    let limit = SCRIPT_LIMIT - last.len();
    filled(full_yard_with_orders(), limit, |n| hear_line(n % 8, n / 8)) + &last
}

#[cfg(test)]
mod tests {
    use super::*;
    use drift_reference::script::{run, run_to_yard, LastAnswer, OUTPUT_LENGTH};
    use drift_reference::yard::{Yard, AIR_LENGTH};

    fn after(script: &str) -> (Yard, LastAnswer) {
        run_to_yard(script.as_bytes(), &mut vec![0; AIR_LENGTH]).expect("a good script")
    }

    fn printout(script: &str) -> String {
        let mut output = vec![0; OUTPUT_LENGTH];
        let length = run(script.as_bytes(), &mut vec![0; AIR_LENGTH], &mut output);
        String::from_utf8(output[..length.expect("printed")].to_vec()).expect("ASCII")
    }

    fn refusals(script: &str, number: u8) -> usize {
        let end = format!(" {number})");
        let printout = printout(script);
        let refused = printout.lines().filter(|line| line.starts_with("(refused"));
        refused.filter(|line| line.ends_with(&end)).count()
    }

    #[test]
    fn roll_calls_have_the_steps_that_they_name() {
        for (script, steps) in [(document_orders().text, 10), (full_yard_with_orders(), 960)] {
            for calls in [1, 2] {
                let (_, answer) = after(&(script.clone() + &ROLL_LINE.repeat(calls)));
                assert_eq!(answer, LastAnswer::Roll(steps));
            }
        }
        let before = printout(&full_yard_with_orders()).matches(" (").count();
        let after = printout(&(full_yard_with_orders() + ROLL_LINE));
        assert_eq!(after.matches(" (").count() - before, 1_024);
    }

    #[test]
    fn the_largest_scripts_are_full() {
        for script in [
            hearings(),
            roll_calls(),
            refused_hearings(),
            orders_and_beacons(),
            bad_last_line(),
        ] {
            assert!((SCRIPT_LIMIT - 16..=SCRIPT_LIMIT).contains(&script.len()));
        }
    }

    #[test]
    fn the_largest_scripts_do_what_their_rows_name() {
        assert_eq!(after(&hearings()).0.frames, 1_024);
        let (yard, last) = after(&roll_calls());
        assert_eq!((yard.beacons, last), ([128; 8], LastAnswer::Refused(27)));
        let lines = refused_hearings().lines().count();
        assert_eq!(refusals(&refused_hearings(), 25), lines - 1);
        let (yard, _) = after(&orders_and_beacons());
        assert_eq!((yard.beacons, yard.frames), ([128; 8], 1_152));
    }

    #[test]
    fn document_script_prints_what_document_01_prints() {
        let expected = "(refused 7 25)\n\
            (post 0 (clock 4) (sent 1) (log (1 0 417) (3 1 90)))\n\
            (post 1 (clock 3) (sent 1) (log))\n\
            (post 2 (clock 0) (sent 0) (log (1 0 417)))\n";
        assert_eq!(printout(&document_script()), expected);
    }
}
