//! The measured lines give the answers that their row names.

use super::rows;
use crate::work::Work;
use drift_reference::post::HearAnswer;
use drift_reference::script::{run_to_yard, LastAnswer};
use drift_reference::yard::AIR_LENGTH;

fn script(work: Work) -> String {
    match work {
        Work::Script(script) => String::from_utf8(script).expect("ASCII"),
        _ => panic!("not a script"),
    }
}

fn last_answer(script: &str) -> LastAnswer {
    let mut air = vec![0; AIR_LENGTH];
    let (_, answer) = run_to_yard(script.as_bytes(), &mut air).expect("a good script");
    answer
}

/// The answer that every line of the row gives.
fn expected(step: &str, answer: LastAnswer) -> bool {
    use HearAnswer::{Again, Beacon, Early, Taken};
    match step {
        "order" => matches!(answer, LastAnswer::Order(_)),
        "beacon" => answer == LastAnswer::Beacon,
        "hear, taken, none delivered" => answer == LastAnswer::Hear(Taken(0)),
        "hear, taken, one delivered (and printed)" => answer == LastAnswer::Hear(Taken(1)),
        "hear, again" => answer == LastAnswer::Hear(Again(0)),
        "hear, early" => answer == LastAnswer::Hear(Early(0)),
        "hear, beacon" => answer == LastAnswer::Hear(Beacon(0)),
        "hear, refused by 25 (and printed)" => answer == LastAnswer::Refused(25),
        "hear, refused by 26 (and printed)" => answer == LastAnswer::Refused(26),
        _ => panic!("{step} is no step"),
    }
}

#[test]
fn measured_lines_give_the_answers_that_their_row_names() {
    for row in rows() {
        let job = row.job();
        let (with, without) = (script(job.with), script(job.without));
        let added = with.strip_prefix(&without).expect("lines are added");
        let (_, step) = row.name.split_once(": ").expect("yard and step");
        let mut ran = without.clone();
        for line in added.split_inclusive('\n') {
            ran += line;
            let answer = last_answer(&ran);
            assert!(expected(step, answer), "{}: {line}{answer:?}", row.name);
        }
        assert_eq!(job.operations, added.lines().count() as u64);
        assert!(job.operations >= 8, "{}", row.name);
    }
}

/// All orders of a settled yard are logged at all destinations.
#[test]
fn the_yards_are_settled() {
    for (size, orders, dests) in [(super::Size::Small, 2, 2), (super::Size::Large, 64, 8)] {
        let mut air = vec![0; AIR_LENGTH];
        let (yard, _) = run_to_yard(size.settled().text.as_bytes(), &mut air).expect("good");
        let full = yard.posts.iter().filter(|post| post.logged == orders);
        assert_eq!(full.count(), dests);
        assert_eq!(yard.present.count_ones() as usize, size.posts());
        assert_eq!(yard.sources.count_ones() as usize, size.sources());
    }
}
