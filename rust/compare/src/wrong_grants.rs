//! Tests that the check of request K2's promise passes right libraries and notices
//! wrong ones.

use crate::grants::{check, smallest, Fault, Tally};
use crate::library::Library;
use crate::list_faults::{Counts, Numbered};
use crate::patched::Patched;
use crate::scripts::step::{read_script, Step, YardLine};
use crate::second::Second;

const SEED: u64 = 1;
const COUNT: u64 = 60;

fn checked(library: &dyn Library) -> Result<Tally, Box<Fault>> {
    let lists = Numbered {
        seed: SEED,
        first: 0,
        count: COUNT,
    };
    check(library, lists, |_| {})
}

#[test]
fn the_second_implementation_passes_and_everything_comes() {
    let tally = checked(&Second).expect("the promise holds");
    assert_eq!(tally.never_came(), Vec::<String>::new());
    assert!(!Tally::default().never_came().is_empty());
}

/// Whether a beacon step is refused, by its lane and the lanes of those before it.
type Rule = fn(YardLine, u32, &[u32]) -> bool;

/// A library that prints the refusals of its beacon steps by a rule of its own.
fn refuses_by(rule: Rule) -> Patched {
    Patched {
        run_script: Box::new(move |script, _, output| {
            let (yard, steps) = read_script(script).expect("a good script");
            let mut before = Vec::new();
            let mut printout = String::new();
            for (line, step) in (2..).zip(steps) {
                let Step::Beacon { lane } = step else {
                    continue;
                };
                if rule(yard, lane, &before) {
                    printout += &format!("(refused {line} 27)\n");
                }
                before.push(lane);
            }
            printout += POSTS;
            output[..printout.len()].copy_from_slice(printout.as_bytes());
            printout.len()
        }),
        ..Patched::default()
    }
}

/// What is printed of the posts, which are not looked at.
const POSTS: &str = "(post 0 (clock 0) (sent 0) (log))\n";

fn count(lanes: &[u32], lane: u32) -> usize {
    lanes.iter().filter(|&&other| other == lane).count()
}

/// Rules by which beacons of one post alter what another is granted.
const WRONG_RULES: [(&str, Rule); 6] = [
    ("the yard has one count of 1,024", |_, _, before| {
        before.len() >= 1_024
    }),
    ("the yard has one count of 128", |_, _, before| {
        before.len() >= 128
    }),
    ("the next lane's count is looked at", |_, lane, before| {
        count(before, (lane + 1) % 8) >= 128
    }),
    ("two lanes share one count", |_, lane, before| {
        count(before, lane) + count(before, lane ^ 1) >= 256
    }),
    (
        "a beacon of another post gives one back",
        |_, lane, before| {
            let others = before.len() - count(before, lane);
            count(before, lane) >= 128 + others / 100
        },
    ),
    (
        "one post's first beacon bars another's",
        |_, lane, before| lane == 3 && before.contains(&5),
    ),
];

#[test]
fn wrong_rules_are_noticed() {
    for (name, rule) in WRONG_RULES {
        let fault = checked(&refuses_by(rule)).expect_err(&format!("not noticed: {name}"));
        assert!(fault.what.contains("of other posts"), "{name}\n{fault}");
        println!("{:>6} {name}", fault.number);
    }
}

/// The promise says nothing of how many beacons a post has.
#[test]
fn other_rules_that_look_at_one_post_alone_pass() {
    let rules: [Rule; 3] = [
        |_, lane, before| count(before, lane) >= 128,
        |_, lane, before| count(before, lane) >= 5,
        |yard, lane, _| yard.posts >> lane & 1 == 0,
    ];
    for rule in rules {
        assert!(checked(&refuses_by(rule)).is_ok());
    }
}

#[test]
fn a_fault_shows_the_smallest_list() {
    let wrong = refuses_by(|_, lane, before| lane != 2 && count(before, 2) >= 3);
    let fault = smallest(&wrong, checked(&wrong).expect_err("a wrong rule"));
    let text = fault.to_string();
    let lines = fault.script.iter().filter(|&&byte| byte == b'\n').count();
    assert_eq!(lines, 5, "{text}");
    assert!(
        text.contains("\n(beacon 2)\n(beacon 2)\n(beacon 2)\n(beacon "),
        "{text}"
    );
    let what = "number 1 answers refused by 27, and sent without the beacons of other posts\n";
    assert!(text.ends_with(what), "{text}");
}

#[test]
fn scripts_that_are_not_run_are_noticed() {
    for (printout, words) in [
        ("(bad 1 3)\n", "a good script is bad at line 1 by 3"),
        ("", "no post is printed"),
        ("(refused 2 27)\n", "no post is printed"),
        (
            "(refused 1 27)\n(post 0)\n",
            "line 1 is refused, and is no step",
        ),
        (
            "(refused 9999 27)\n(post 0)\n",
            "line 9999 is refused, and is no step",
        ),
    ] {
        let wrong = Patched {
            run_script: Box::new(move |_, _, output| {
                output[..printout.len()].copy_from_slice(printout.as_bytes());
                printout.len()
            }),
            ..Patched::default()
        };
        let fault = checked(&wrong).expect_err(printout);
        assert_eq!(fault.what, words);
    }
}
