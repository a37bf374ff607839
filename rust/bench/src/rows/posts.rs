//! The rows of one post run singly, on a record that is lent to each step.
//!
//! The post stands in one of the settled yards of the rows of lines, and hears
//! frames of that yard.

use super::draft::Draft;
use super::steps::{Size, CALLS, FRESH_ORDERS, LINES, SIZES};
use super::{Job, Row};
use crate::side::Records;
use crate::work::{PostStep, Work};
use drift_reference::post::Post;

/// The post before the measured steps, and those.
type Maker = fn(Size) -> (Post, Vec<PostStep>);

const STEPS: [(&str, Maker); 5] = [
    ("order", order),
    ("hear, taken, none delivered", taken_and_kept),
    ("hear, taken, one delivered", taken_and_delivered),
    ("hear, again", again),
    ("beacon", beacon),
];

pub fn rows() -> Vec<Row> {
    let mut rows = Vec::new();
    for (size_name, size) in SIZES {
        for (step, maker) in STEPS {
            let name = format!("one post, {size_name}: {step}");
            rows.push(Row::new(name, move || job(maker(size))));
        }
    }
    rows
}

/// Both works copy the record first, so that this does not count.
fn job((post, steps): (Post, Vec<PostStep>)) -> Job {
    let records = || Box::new(Records::new(&post));
    Job {
        operations: steps.len() as u64,
        with: Work::Post(records(), steps),
        without: Work::Post(records(), Vec::new()),
        calls: CALLS,
    }
}

fn hear(draft: &Draft, frames: &[usize]) -> Vec<PostStep> {
    let heard = frames.iter().map(|&frame| draft.frame(frame));
    heard.map(PostStep::Hear).collect()
}

fn order(size: Size) -> (Post, Vec<PostStep>) {
    let words = (0..FRESH_ORDERS).map(|n| 20_000 + n as u16);
    (size.settled().post(0), words.map(PostStep::Order).collect())
}

/// The other sources have not told a stamp as high as those of the orders.
fn taken_and_kept(size: Size) -> (Post, Vec<PostStep>) {
    let (draft, frames) = size.with_fresh_orders(FRESH_ORDERS);
    (draft.post(1), hear(&draft, &frames))
}

fn taken_and_delivered(size: Size) -> (Post, Vec<PostStep>) {
    let (draft, frames) = size.with_passed_orders();
    (draft.post(size.posts() - 1), hear(&draft, &frames))
}

/// The first order of lane 0, over and over.
fn again(size: Size) -> (Post, Vec<PostStep>) {
    let draft = size.settled();
    let frames = [draft.first_frame(0); LINES];
    (draft.post(size.posts() - 1), hear(&draft, &frames))
}

fn beacon(size: Size) -> (Post, Vec<PostStep>) {
    (size.settled().post(0), vec![PostStep::Beacon; LINES])
}

#[cfg(test)]
mod tests {
    use super::rows;
    use crate::side::{answered, SIDES};

    #[test]
    fn measured_steps_give_the_answers_that_their_row_names() {
        for row in rows() {
            let job = row.job();
            let (_, step) = row.name.split_once(": ").expect("yard and step");
            let expected = match step {
                "order" => answered(1, 0),
                "hear, taken, none delivered" => answered(2, 0),
                "hear, taken, one delivered" => answered(2, 1),
                "hear, again" => answered(3, 0),
                "beacon" => answered(6, 0),
                _ => panic!("{step} is no step"),
            };
            let results = job.with.results(&SIDES[1]);
            assert_eq!(results.len() as u64, job.operations, "{}", row.name);
            for (answer, _) in results {
                assert_eq!(answer, expected, "{}", row.name);
            }
            assert!(job.without.results(&SIDES[1]).is_empty());
        }
    }
}
