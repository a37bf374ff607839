//! How much of demand 3 was looked at.

use crate::answer::{Answer, Answered, ANSWERS};
use crate::list_faults::Counts;
use crate::scripts::step::Step;

#[derive(Debug, Default)]
pub struct Tally {
    pub lists: u64,
    answers: [u64; ANSWERS.len()],
    /// Beacon steps and roll calls that are refused by 27.
    spent_beacons: u64,
    spent_roll_calls: u64,
    /// Logs that were read, and of them those that are not empty, and those that
    /// are not yet all orders sent.
    logs: u64,
    filled_logs: u64,
    shorter_logs: u64,
    /// Pairs of different logs of one list.
    pub pairs: u64,
    roll_call_steps: u64,
    orders_in_roll_calls: u64,
    roll_calls_without_orders: u64,
}

impl Tally {
    pub fn add_step(&mut self, step: Step, answered: Answered) {
        self.answers[answered.answer as usize] += 1;
        let is_spent = answered.refusal == 27;
        self.spent_beacons += u64::from(is_spent && step.is_beacon());
        self.spent_roll_calls += u64::from(is_spent && step == Step::Roll);
    }

    pub fn add_log(&mut self, length: usize, sent: usize) {
        self.logs += 1;
        self.filled_logs += u64::from(length > 0);
        self.shorter_logs += u64::from(0 < length && length < sent);
    }

    pub fn add_roll_call(&mut self, steps: usize, orders: usize) {
        self.roll_call_steps += steps as u64;
        self.orders_in_roll_calls += orders as u64;
        self.roll_calls_without_orders += u64::from(orders == 0);
    }

    fn of(&self, answer: Answer) -> u64 {
        self.answers[answer as usize]
    }
}

impl Counts for Tally {
    fn counts(&self) -> Vec<(&'static str, u64)> {
        vec![
            ("lists of steps", self.lists),
            ("steps", self.answers.iter().sum()),
            ("orders sent", self.of(Answer::OrderSent)),
            ("taken", self.of(Answer::Taken)),
            ("again", self.of(Answer::Again)),
            ("early", self.of(Answer::Early)),
            ("beacons heard", self.of(Answer::BeaconHeard)),
            ("beacons sent", self.of(Answer::BeaconSent)),
            ("refused steps", self.of(Answer::Refused)),
            ("beacons refused by 27", self.spent_beacons),
            ("roll calls refused by 27", self.spent_roll_calls),
            ("roll calls", self.of(Answer::RollCallRan)),
            ("their single steps", self.roll_call_steps),
            ("orders logged after them", self.orders_in_roll_calls),
            ("roll calls without orders", self.roll_calls_without_orders),
            ("logs read", self.logs),
            ("logs with orders", self.filled_logs),
            ("logs with some of the orders", self.shorter_logs),
            ("pairs of different logs", self.pairs),
        ]
    }
}
