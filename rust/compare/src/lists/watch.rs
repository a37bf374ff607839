//! Watches a list of steps: after each one, what demand 3 says of all logs.

use super::moment::{Moment, Order};
use super::tally::Tally;
use crate::answer::{Answer, Answered};
use crate::library::Library;
use crate::random::Random;
use crate::scripts::step::{Step, YardLine};
use crate::state::State;
use drift_reference::frame::LANES;
use drift_reference::yard::AIR_LENGTH;
use std::array;

pub struct Watch<'a> {
    library: &'a dyn Library,
    yard: YardLine,
    script: Vec<u8>,
    /// The air before the first step; its bytes may be anything.
    first_air: Vec<u8>,
    now: Option<Moment>,
    /// The orders sent so far, by stamp and then lane.
    sent: Vec<Order>,
    /// All different logs so far, of any post at any moment.
    logs: Vec<Vec<Order>>,
    tally: &'a mut Tally,
}

impl<'a> Watch<'a> {
    pub fn new(
        library: &'a dyn Library,
        yard: YardLine,
        air: u64,
        tally: &'a mut Tally,
    ) -> Watch<'a> {
        let mut random = Random::new(air);
        let bytes = std::iter::repeat_with(|| random.bits().to_be_bytes()).flatten();
        Watch {
            library,
            yard,
            script: format!("{yard}\n").into_bytes(),
            first_air: bytes.take(AIR_LENGTH).collect(),
            now: None,
            sent: Vec::new(),
            logs: Vec::new(),
            tally,
        }
    }

    pub fn script(&self) -> &[u8] {
        &self.script
    }

    fn now(&self) -> &Moment {
        self.now.as_ref().expect("the list has started")
    }

    pub fn state(&self) -> State<'_> {
        self.now().state()
    }

    pub fn air(&self) -> &[u8] {
        &self.now().air
    }

    /// The fresh yard: no frame on the air yet, no beacon sent, nothing logged.
    pub fn start(&mut self) -> Result<(), String> {
        let now = Moment::after(self.library, &self.script, &self.first_air)?;
        let state = now.state();
        let is_unsent = (state.frames(), state.beacons()) == (0, [0; LANES]);
        let is_fresh = is_unsent && now.air == self.first_air;
        if !is_fresh || now.answered != Some(Answered::of(Answer::NoStep, 0)) {
            return Err("the yard is not fresh".into());
        }
        self.tally.lists += 1;
        self.note_logs(&now)?;
        self.now = Some(now);
        Ok(())
    }

    /// Adds a step to the list and checks all that is said after it.
    pub fn step(&mut self, step: Step) -> Result<(), String> {
        let before = self.now().clone();
        let script_before = self.script.len();
        self.script
            .extend_from_slice(format!("{step}\n").as_bytes());
        let now = Moment::after(self.library, &self.script, &self.first_air)?;
        let answered = now.answered;
        let answered = answered.ok_or(format!("{step}: there is no answer of its code"))?;
        self.tally.add_step(step, answered);
        check_answer(step, answered)?;
        self.check_growth(step, answered, &before, &now)?;
        if let (Step::Order { lane, word }, Answer::OrderSent) = (step, answered.answer) {
            self.note_order(Order {
                stamp: answered.stamp,
                lane: lane as u8,
                serial: answered.serial,
                word: word as u16,
            })?;
        }
        self.note_logs(&now)?;
        if answered.answer == Answer::RollCallRan {
            self.check_roll_call(script_before, &before, &now, answered.steps_or_line)?;
        }
        self.now = Some(now);
        Ok(())
    }

    /// A refused step leaves yard and air; the others broadcast as they answer, and
    /// each beacon is counted at the post that sends it.
    fn check_growth(
        &self,
        step: Step,
        answered: Answered,
        before: &Moment,
        now: &Moment,
    ) -> Result<(), String> {
        if answered.answer == Answer::Refused {
            return match now.has_yard_and_air_of(before) {
                true => Ok(()),
                false => Err("a refused step changed yard or air".into()),
            };
        }
        let newly_taken = now.taken(self.yard).wrapping_sub(before.taken(self.yard));
        let (orders, senders, taken) = match (step, answered.answer) {
            (_, Answer::OrderSent) => (1, 0, 0),
            (_, Answer::Taken) => (0, 0, 1),
            (Step::Beacon { lane }, _) => (0, 1u8.checked_shl(lane).unwrap_or(0), 0),
            (Step::Roll, _) => (0, self.yard.sources, newly_taken),
            _ => (0, 0, 0),
        };
        let beacons: [u32; LANES] = array::from_fn(|lane| u32::from(senders >> lane & 1));
        let right = (orders + senders.count_ones() + taken, beacons, taken);
        let grown = |before: u16, now: u16| u32::from(now).wrapping_sub(before.into());
        let (old, new) = (before.state(), now.state());
        let (sent, sent_now) = (old.beacons(), new.beacons());
        let came = (
            grown(old.frames(), new.frames()),
            array::from_fn(|lane| grown(sent[lane], sent_now[lane])),
            newly_taken,
        );
        match came == right {
            true => Ok(()),
            false => Err(format!(
                "new frames, beacons and orders taken are {came:?}; the steps make {right:?}"
            )),
        }
    }

    /// Each order is sent once, and no two have one stamp and lane.
    fn note_order(&mut self, order: Order) -> Result<(), String> {
        let is_same = |other: &Order| {
            other.lane == order.lane && (other.serial == order.serial || other.stamp == order.stamp)
        };
        if let Some(other) = self.sent.iter().find(|other| is_same(other)) {
            return Err(format!("{order:?} is sent after {other:?}"));
        }
        let place = self.sent.partition_point(|other| *other < order);
        self.sent.insert(place, order);
        // What was logged before must begin the list with the new order too.
        self.logs
            .iter()
            .try_for_each(|log| self.check_begins_sent(log))
    }

    /// Every log begins the list of orders sent, and of two one begins the other.
    fn note_logs(&mut self, now: &Moment) -> Result<(), String> {
        for lane in 0..8 {
            let log = now.log(lane)?;
            self.tally.add_log(log.len(), self.sent.len());
            if self.logs.contains(&log) {
                continue;
            }
            for other in &self.logs {
                self.tally.pairs += 1;
                if !log.starts_with(other) && !other.starts_with(&log) {
                    return Err(format!(
                        "neither log begins the other: {log:?} and {other:?}"
                    ));
                }
            }
            self.check_begins_sent(&log)?;
            self.logs.push(log);
        }
        Ok(())
    }

    fn check_begins_sent(&self, log: &[Order]) -> Result<(), String> {
        match self.sent.starts_with(log) {
            true => Ok(()),
            false => Err(format!(
                "the log {log:?} does not begin the list of orders sent {:?}",
                self.sent
            )),
        }
    }

    /// Every destination has logged all orders; the answer is the number of the
    /// single steps, and those leave the same yard and air.
    fn check_roll_call(
        &mut self,
        script_before: usize,
        before: &Moment,
        now: &Moment,
        answer: u16,
    ) -> Result<(), String> {
        let yard = self.yard;
        for lane in (0..8).filter(|lane| yard.dests >> lane & 1 == 1) {
            let log = now.log(lane)?;
            if log != self.sent {
                return Err(format!(
                    "after a roll call post {lane} logs {log:?}, and sent were {:?}",
                    self.sent
                ));
            }
        }
        let posts = yard.posts.count_ones() as usize;
        let sources = yard.sources.count_ones() as usize;
        let count = (posts - 1) * self.sent.len() + posts * sources;
        if usize::from(answer) != count {
            return Err(format!("a roll call answers {answer} and not {count}"));
        }
        let steps = before.roll_call(yard, &self.sent, now.state().frames());
        let mut single = self.script[..script_before].to_vec();
        for step in &steps {
            single.extend_from_slice(format!("{step}\n").as_bytes());
        }
        let after_single = Moment::after(self.library, &single, &self.first_air)?;
        if steps.len() != count || !now.has_yard_and_air_of(&after_single) {
            return Err("a roll call does not do what its single steps do".into());
        }
        self.tally.add_roll_call(count, self.sent.len());
        Ok(())
    }
}

/// A step gives one of its own answers.
fn check_answer(step: Step, answered: Answered) -> Result<(), String> {
    let is_possible = match (step, answered.answer) {
        (_, Answer::Refused) => answered.refusal != 0,
        (Step::Order { .. }, Answer::OrderSent) => true,
        (Step::Hear { .. }, Answer::Taken | Answer::Again) => true,
        (Step::Hear { .. }, Answer::Early | Answer::BeaconHeard) => true,
        (Step::Beacon { .. }, Answer::BeaconSent) => true,
        (Step::Roll, Answer::RollCallRan) => true,
        _ => false,
    };
    match is_possible {
        true => Ok(()),
        false => Err(format!("{step} answers {answered:?}")),
    }
}
