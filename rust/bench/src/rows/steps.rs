//! The rows of single steps in a yard: what one more line of a script costs.
//!
//! Both scripts begin with the same settled yard, whose orders have all been
//! taken and logged by a roll call, and with what the measured lines need.

use super::draft::{Draft, DOCUMENT_YARD, FULL_YARD};
use super::{Job, Row};
use crate::work::Work;

/// The measured lines where they do not change what the next one does.
pub(super) const LINES: usize = 64;
/// Orders of lane 0 that are sent to be taken by measured lines; it has sent one.
pub(super) const FRESH_ORDERS: usize = 15;
/// The counted calls.
pub(super) const CALLS: u64 = 4;

/// The yards that the lines are measured in.
#[derive(Clone, Copy)]
pub(super) enum Size {
    /// Document 01's yard: three posts, two orders.
    Small,
    /// Eight posts, all of them both; 64 orders.
    Large,
}

/// The script up to the measured lines, and those.
struct Lines {
    before: String,
    draft: Draft,
}

type Maker = fn(Size) -> Lines;

const STEPS: [(&str, Maker); 9] = [
    ("order", order),
    ("hear, taken, none delivered", taken_and_kept),
    (
        "hear, taken, one delivered (and printed)",
        taken_and_delivered,
    ),
    ("hear, again", again),
    ("hear, early", early),
    ("hear, beacon", hear_beacon),
    ("beacon", beacon),
    ("hear, refused by 25 (and printed)", not_on_air),
    ("hear, refused by 26 (and printed)", own_broadcast),
];

pub(super) const SIZES: [(&str, Size); 2] =
    [("small yard", Size::Small), ("large yard", Size::Large)];

pub fn rows() -> Vec<Row> {
    let mut rows = Vec::new();
    for (size_name, size) in SIZES {
        for (step, maker) in STEPS {
            let name = format!("{size_name}: {step}");
            rows.push(Row::new(name, move || maker(size).job()));
        }
    }
    rows
}

impl Lines {
    /// What is added to the draft from here on is measured.
    fn measured(draft: Draft) -> Lines {
        Lines {
            before: draft.text.clone(),
            draft,
        }
    }

    /// Measures lines that take these turns, over and over.
    fn repeated(
        draft: Draft,
        turns: &[(usize, usize)],
        run: fn(&mut Draft, usize, usize),
    ) -> Lines {
        let mut lines = Lines::measured(draft);
        for &(lane, frame) in turns.iter().cycle().take(LINES) {
            run(&mut lines.draft, lane, frame);
        }
        lines
    }

    fn job(self) -> Job {
        let added = &self.draft.text[self.before.len()..];
        Job {
            operations: added.lines().count() as u64,
            with: Work::Script(self.draft.text.into_bytes()),
            without: Work::Script(self.before.into_bytes()),
            calls: CALLS,
        }
    }
}

impl Size {
    pub(super) fn posts(self) -> usize {
        match self {
            Size::Small => 3,
            Size::Large => 8,
        }
    }

    fn sources(self) -> usize {
        match self {
            Size::Small => 2,
            Size::Large => 8,
        }
    }

    /// The yard in which every order has been taken and logged.
    pub(super) fn settled(self) -> Draft {
        let mut draft = match self {
            Size::Small => document_orders(),
            Size::Large => large_orders(),
        };
        draft.roll();
        draft
    }

    /// A settled yard, with further orders of lane 0: their frames.
    pub(super) fn with_fresh_orders(self, count: usize) -> (Draft, Vec<usize>) {
        let mut draft = self.settled();
        let frames = (0..count).map(|n| draft.order(0, 20_000 + n)).collect();
        (draft, frames)
    }

    /// A settled yard in which further orders of lane 0 have gone from post to
    /// post: the frames for the last one, which have the entries of all sources.
    pub(super) fn with_passed_orders(self) -> (Draft, Vec<usize>) {
        let (mut draft, mut frames) = self.with_fresh_orders(FRESH_ORDERS);
        for frame in &mut frames {
            for post in 1..self.posts() - 1 {
                *frame = draft.hear(post, *frame);
            }
        }
        (draft, frames)
    }
}

/// The first six lines of document 01's script.
pub(super) fn document_orders() -> Draft {
    let mut draft = Draft::new(DOCUMENT_YARD);
    draft.order(0, 417);
    draft.hear(1, 0);
    draft.order(1, 90);
    draft.hear(2, 1);
    draft.hear(0, 2);
    draft
}

/// 64 orders: one of lane 0, which has many left for measured lines, and nine of
/// each other lane.
fn large_orders() -> Draft {
    let mut draft = Draft::new(FULL_YARD);
    draft.order(0, 10_000);
    for turn in 0..9 {
        for lane in 1..8 {
            draft.order(lane, 10_001 + 7 * turn + lane);
        }
    }
    draft
}

fn order(size: Size) -> Lines {
    let mut lines = Lines::measured(size.settled());
    for turn in 0..4 {
        for lane in 0..size.sources() {
            lines.draft.order(lane, 20_000 + turn);
        }
    }
    lines
}

/// The posts hear orders of lane 0 from lane 0 itself. The other sources have
/// not told a stamp as high, so that the orders are not ready.
fn taken_and_kept(size: Size) -> Lines {
    let (draft, frames) = size.with_fresh_orders(FRESH_ORDERS);
    let mut lines = Lines::measured(draft);
    for post in 1..size.posts() {
        for &frame in &frames {
            lines.draft.hear(post, frame);
        }
    }
    lines
}

/// The last post hears each order of lane 0 with the entries of all sources, so
/// that it is ready at once.
fn taken_and_delivered(size: Size) -> Lines {
    let (draft, frames) = size.with_passed_orders();
    let mut lines = Lines::measured(draft);
    for frame in frames {
        lines.draft.hear(size.posts() - 1, frame);
    }
    lines
}

/// Every post hears the first order of every other lane, taken before.
fn again(size: Size) -> Lines {
    let draft = size.settled();
    let mut turns = Vec::new();
    for lane in 0..size.sources() {
        let frame = draft.first_frame(lane);
        let others = (0..size.posts()).filter(|&post| post != lane);
        turns.extend(others.map(|post| (post, frame)));
    }
    Lines::repeated(draft, &turns, hear)
}

/// Two orders of lane 0 are sent, and only the second is heard.
fn early(size: Size) -> Lines {
    let (draft, frames) = size.with_fresh_orders(2);
    heard_by_all_others(size, draft, frames[1])
}

fn hear_beacon(size: Size) -> Lines {
    let mut draft = size.settled();
    let frame = draft.beacon(0);
    heard_by_all_others(size, draft, frame)
}

/// All posts but that of lane 0 hear a frame, once before the measured lines:
/// then these change nothing in the yard.
fn heard_by_all_others(size: Size, mut draft: Draft, frame: usize) -> Lines {
    let turns: Vec<(usize, usize)> = (1..size.posts()).map(|post| (post, frame)).collect();
    for &(post, frame) in &turns {
        draft.hear(post, frame);
    }
    Lines::repeated(draft, &turns, hear)
}

fn beacon(size: Size) -> Lines {
    let turns: Vec<(usize, usize)> = (0..size.posts()).map(|post| (post, 0)).collect();
    Lines::repeated(size.settled(), &turns, |draft, lane, _| {
        draft.beacon(lane);
    })
}

fn not_on_air(size: Size) -> Lines {
    let turns: Vec<(usize, usize)> = (0..size.posts()).map(|post| (post, 2_000)).collect();
    Lines::repeated(size.settled(), &turns, hear)
}

fn own_broadcast(size: Size) -> Lines {
    let draft = size.settled();
    let own = |lane: usize| (lane, draft.first_frame(lane));
    let turns: Vec<(usize, usize)> = (0..size.sources()).map(own).collect();
    Lines::repeated(draft, &turns, hear)
}

fn hear(draft: &mut Draft, lane: usize, frame: usize) {
    draft.hear(lane, frame);
}

#[cfg(test)]
#[path = "steps_tests.rs"]
mod tests;
