//! What scripts must reach, each with a name for the case that none does.

use super::case::{Case, Outcome};
use super::draft::LONGEST_SCRIPT;
use super::printed;
use super::step::{Step, YardLine};
use crate::answer::Answer;
use crate::state::{State, STATE_CELLS};
use drift_reference::frame::LANES;
use drift_reference::script::OUTPUT_LENGTH;
use drift_reference::yard::AIR_LENGTH;

/// A case and the right outcome of it.
pub struct Look<'a> {
    pub case: &'a Case,
    pub outcome: &'a Outcome,
}

pub type Limit = (&'static str, fn(&Look) -> bool);

/// The limits of document 01, and yards of all sizes and roles.
pub const LIMITS: [Limit; 27] = [
    ("the empty script", |look| look.case.script.is_empty()),
    ("a script of 48,000 bytes that runs", |look| {
        look.case.script.len() == LONGEST_SCRIPT && look.state().is_some()
    }),
    ("a script of 48,001 bytes", |look| {
        look.case.script.len() == LONGEST_SCRIPT + 1
    }),
    ("no line feed at the end", |look| {
        look.case.script.last().is_some_and(|&byte| byte != b'\n')
    }),
    ("a printout of over 128,000 bytes", |look| {
        look.outcome.printout.len() > 128_000
    }),
    ("a script refused at line 0", |look| {
        look.bad_line() == Some(0)
    }),
    ("a script refused at line 1", |look| {
        look.bad_line() == Some(1)
    }),
    ("a script refused at line 2", |look| {
        look.bad_line() == Some(2)
    }),
    ("a script refused at a line over 255", |look| {
        look.bad_line() > Some(255)
    }),
    ("16 orders of lane 0", |look| look.has_sent_all(0)),
    ("16 orders of lane 3", |look| look.has_sent_all(3)),
    ("16 orders of lane 7", |look| look.has_sent_all(7)),
    ("a full log", |look| {
        let state = look.state();
        state.is_some_and(|state| (0..8).any(|lane| state.post(lane).logged == 128))
    }),
    ("2,048 frames", |look| {
        look.state().is_some_and(|state| state.frames() == 2_048)
    }),
    ("a roll call of 0 steps", |look| look.steps() == Some(0)),
    ("a roll call of 1 step", |look| look.steps() == Some(1)),
    ("a roll call of 500 steps", |look| {
        look.steps().is_some_and(|steps| steps >= 500)
    }),
    ("a yard of 1 post", |look| look.has_posts(1)),
    ("a yard of 2 posts", |look| look.has_posts(2)),
    ("a yard of 3 posts", |look| look.has_posts(3)),
    ("a yard of 4 posts", |look| look.has_posts(4)),
    ("a yard of 5 posts", |look| look.has_posts(5)),
    ("a yard of 6 or 7 posts", |look| {
        look.has_posts(6) || look.has_posts(7)
    }),
    ("a yard of 8 posts", |look| look.has_posts(8)),
    ("a yard without a source", |look| {
        look.yard().is_some_and(|yard| yard.sources == 0)
    }),
    ("a yard without a destination", |look| {
        look.yard().is_some_and(|yard| yard.dests == 0)
    }),
    ("a yard with a relay", |look| {
        let yard = look.yard();
        yard.is_some_and(|yard| yard.posts & !yard.sources & !yard.dests != 0)
    }),
];

/// The limits of request K2: 128 beacons of each post. Counts only grow, so a post
/// that has some left at the end had some before.
pub const BEACON_LIMITS: [Limit; 12] = [
    ("127 beacons of a post", |look| {
        look.beacons().is_some_and(|sent| sent.contains(&127))
    }),
    ("128 beacons of lane 0", |look| look.spent() & 0x01 != 0),
    ("128 beacons of lane 3", |look| look.spent() & 0x08 != 0),
    ("128 beacons of lane 7", |look| look.spent() & 0x80 != 0),
    ("128 beacons of each of eight posts", |look| {
        look.spent() == 0xFF
    }),
    (
        "a beacon refused by 27 that another post has left",
        |look| look.has_left(look.posts()) && look.refuses_by_27(Step::is_beacon),
    ),
    (
        "a beacon sent after another post's was refused by 27",
        |look| {
            let last = look.last_step().filter(|_| look.has_sent_beacon());
            last.is_some_and(|last| look.refuses_by_27(|step| step.is_beacon() && step != last))
        },
    ),
    ("a roll call with the last beacon of a source", |look| {
        look.steps() > Some(0) && look.spent() & look.sources() != 0
    }),
    (
        "a roll call beside a spent post that is no source",
        |look| look.steps() > Some(0) && look.spent() & !look.sources() != 0,
    ),
    ("a roll call without a source, all beacons spent", |look| {
        look.steps() == Some(0) && look.spent() == 0xFF
    }),
    (
        "a roll call refused by 27, other sources having some left",
        |look| look.has_left(look.sources()) && look.refuses_by_27(|step| step == Step::Roll),
    ),
    (
        "a roll call refused by 27, all of several sources spent",
        |look| {
            let sources = look.sources();
            sources.count_ones() > 1
                && look.spent() & sources == sources
                && look.refuses_by_27(|step| step == Step::Roll)
        },
    ),
];

/// Wrong lengths of what is lent.
pub const LENGTHS: [Limit; 8] = [
    ("an air of no bytes", |look| look.case.air_length == 0),
    ("an air that is too short", |look| {
        look.case.air_length == AIR_LENGTH - 1
    }),
    ("an air that is too long", |look| {
        look.case.air_length == AIR_LENGTH + 1
    }),
    ("an output of another length", |look| {
        look.case.output_length != OUTPUT_LENGTH
    }),
    ("a state of no cells", |look| look.case.state_cells == 0),
    ("a state that is too short", |look| {
        look.case.state_cells == STATE_CELLS - 1
    }),
    ("a state that is too long", |look| {
        look.case.state_cells == STATE_CELLS + 1
    }),
    ("a bad script with a state of another length", |look| {
        look.case.state_cells != STATE_CELLS && look.is_bad()
    }),
];

impl<'a> Look<'a> {
    fn state(&self) -> Option<State<'a>> {
        self.outcome.state.as_deref().map(State)
    }

    /// The yard of a script that ran.
    fn yard(&self) -> Option<YardLine> {
        self.state()?;
        let first = self.case.script.split(|&byte| byte == b'\n').next()?;
        YardLine::read(first)
    }

    /// The posts of a yard that ran, and its sources.
    fn posts(&self) -> u8 {
        self.yard().map_or(0, |yard| yard.posts)
    }

    fn sources(&self) -> u8 {
        self.yard().map_or(0, |yard| yard.sources)
    }

    fn has_posts(&self, number: u32) -> bool {
        self.posts().count_ones() == number
    }

    /// How many beacons each post has sent.
    fn beacons(&self) -> Option<[u16; LANES]> {
        self.state().map(State::beacons)
    }

    /// The posts that have no beacon left.
    fn spent(&self) -> u8 {
        let sent = self.beacons().unwrap_or_default();
        let spent = (0..LANES).filter(|&lane| sent[lane] == 128);
        spent.map(|lane| 1 << lane).sum()
    }

    /// Whether some of the posts have beacons left, and others have none.
    fn has_left(&self, posts: u8) -> bool {
        let spent = self.spent() & posts;
        spent != 0 && spent != posts
    }

    /// Whether the last line is a beacon that was sent.
    fn has_sent_beacon(&self) -> bool {
        self.outcome.answered.answer == Answer::BeaconSent
    }

    /// Whether such a step was refused by 27.
    fn refuses_by_27(&self, is_such: impl Fn(Step) -> bool) -> bool {
        let mut refused = self.refused_steps();
        refused.any(|(step, number)| number == 27 && is_such(step))
    }

    /// The step of the last line.
    pub fn last_step(&self) -> Option<Step> {
        let text = self.case.script.strip_suffix(b"\n")?;
        Step::read(text.rsplit(|&byte| byte == b'\n').next()?)
    }

    /// The refused steps with their numbers, as they are printed.
    pub fn refused_steps(&self) -> impl Iterator<Item = (Step, usize)> + 'a {
        let lines: Vec<&[u8]> = self.case.script.split(|&byte| byte == b'\n').collect();
        printed::refused(&self.outcome.printout).map(move |(line, number)| {
            let step = Step::read(lines[line - 1]).expect("a refused line is a step");
            (step, number)
        })
    }

    fn has_sent_all(&self, lane: usize) -> bool {
        let state = self.state();
        state.is_some_and(|state| state.post(lane).serial.0 == 16)
    }

    /// The steps of the roll call that is the last line.
    fn steps(&self) -> Option<u16> {
        let answered = self.outcome.answered;
        (answered.answer == Answer::RollCallRan).then_some(answered.steps_or_line)
    }

    /// The line at which the script is refused by the state.
    fn bad_line(&self) -> Option<u16> {
        let answered = self.outcome.answered;
        (answered.answer == Answer::ScriptRefused).then_some(answered.steps_or_line)
    }

    fn is_bad(&self) -> bool {
        self.outcome.printout.starts_with(b"(bad ")
    }
}
