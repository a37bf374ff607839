//! Demand 3 on random lists of steps: what the logs of a yard promise together.

use super::{lanes, logged, Answer, Random, Step, World};
use drift_reference::post::HearAnswer::{Again, Beacon, Early, Taken};

/// An order: lane, serial, stamp, word.
type Order = (u8, u8, u16, u16);

/// A world and the orders that were sent in it.
struct History {
    world: World,
    sent: Vec<Order>,
}

impl History {
    /// Runs a step and checks everything that is said of the logs.
    fn run(&mut self, step: Step) {
        let before = self.logs();
        let answer = self.world.run(step);
        if let (Step::Order(lane, word), Ok(Answer::Order(order))) = (step, answer) {
            let (serial, stamp) = (order.serial.0, order.stamp.0);
            self.sent.push((lane as u8, serial, stamp, word as u16));
        }
        let after = self.logs();
        for (old, new) in before.iter().zip(&after) {
            assert!(new.starts_with(old), "a log only grows at its end");
        }
        self.check_count(answer, &before, &after, step);
        self.check_logs(&after);
        if let Ok(Answer::Steps(count)) = answer {
            self.check_roll_call(count, &after);
        }
    }

    /// The count delivered is how many orders joined the step's post's log.
    fn check_count(
        &self,
        answer: Result<Answer, u8>,
        before: &[Vec<Order>],
        after: &[Vec<Order>],
        step: Step,
    ) {
        let count = match answer {
            Ok(Answer::Order(order)) => order.count,
            Ok(Answer::Heard(Taken(n) | Again(n) | Early(n) | Beacon(n))) => n,
            Ok(Answer::Sent) | Err(_) => 0,
            Ok(Answer::Steps(_)) => return,
        };
        let (Step::Order(lane, _) | Step::Hear(lane, _) | Step::Beacon(lane)) = step else {
            return;
        };
        for other in 0..8 {
            let joined = after[other].len() - before[other].len();
            let expected = if other == lane { count.into() } else { 0 };
            assert_eq!(joined, expected, "{step:?} at lane {other}");
        }
    }

    /// Only sent orders, each once, lowest stamp first, equal stamps by lower
    /// lane; none but at destinations; and of two logs one begins the other.
    fn check_logs(&self, logs: &[Vec<Order>]) {
        for (lane, log) in logs.iter().enumerate() {
            assert!(log.iter().all(|order| self.sent.contains(order)));
            let keys = log.iter().map(|&(lane, _, stamp, _)| (stamp, lane));
            assert!(keys.is_sorted_by(|one, next| one < next));
            assert!(log.is_empty() || self.world.yard.dests >> lane & 1 == 1);
            for other in logs {
                assert!(other.starts_with(log) || log.starts_with(other));
            }
        }
    }

    /// After a roll call every destination has every order sent before it.
    fn check_roll_call(&self, count: u16, logs: &[Vec<Order>]) {
        let yard = &self.world.yard;
        let [posts, sources] = [yard.present, yard.sources].map(|set| set.count_ones() as usize);
        let expected = (posts - 1) * self.sent.len() + posts * sources;
        assert_eq!(usize::from(count), expected);
        for lane in lanes(yard.dests) {
            assert_eq!(logs[lane].len(), self.sent.len());
        }
    }

    fn logs(&self) -> Vec<Vec<Order>> {
        let posts = self.world.yard.posts.iter();
        posts
            .map(|post| {
                let places = &post.log[..usize::from(post.logged)];
                let serials = places.iter().map(|place| place % 16 + 1);
                let items = serials.zip(logged(post));
                items
                    .map(|(serial, (stamp, lane, word))| (lane, serial, stamp, word))
                    .collect()
            })
            .collect()
    }
}

#[test]
fn random_lists_of_steps() {
    let mut random = Random(3);
    let mut delivered = 0;
    for _ in 0..60 {
        let mut history = History {
            world: random.world(),
            sent: Vec::new(),
        };
        for _ in 0..400 {
            let step = random.step(&history.world);
            history.run(step);
        }
        history.run(Step::Roll);
        delivered += history.logs().iter().map(Vec::len).sum::<usize>();
    }
    assert!(delivered > 2_000, "only {delivered} orders were delivered");
}

/// The same without roll calls but at the end, so that hearings deliver.
#[test]
fn random_hearings_deliver_before_any_roll_call() {
    let mut random = Random(4);
    let mut delivered = 0;
    for _ in 0..40 {
        let mut history = History {
            world: random.world(),
            sent: Vec::new(),
        };
        for _ in 0..600 {
            match random.step(&history.world) {
                Step::Roll => {}
                step => history.run(step),
            }
        }
        delivered += history.logs().iter().map(Vec::len).sum::<usize>();
        history.run(Step::Roll);
    }
    assert!(delivered > 200, "only {delivered} orders were delivered");
}

/// A yard where everybody is both, all orders first, then frames at random.
#[test]
fn a_radio_that_loses_repeats_and_reorders() {
    let mut random = Random(5);
    for _ in 0..6 {
        let mut history = History {
            world: World::fresh(0xFF, 0xFF, 0xFF),
            sent: Vec::new(),
        };
        for word in 0..16 {
            for lane in 0..8 {
                history.run(Step::Order(lane, 8 * word + lane));
            }
        }
        for _ in 0..1_500 {
            let frame = random.below(history.world.yard.frames.into());
            history.run(Step::Hear(random.below(8), frame));
        }
        history.run(Step::Roll);
    }
}
