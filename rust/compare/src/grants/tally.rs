//! How much of request K2's promise was looked at.

use crate::list_faults::Counts;
use crate::scripts::step::Step;

/// More beacon steps than all posts together may send.
const NOISY: usize = 1_024;

#[derive(Debug, Default)]
pub struct Tally {
    lists: u64,
    steps: u64,
    /// The answers to the beacon steps of the posts that are looked at.
    sent: u64,
    spent: u64,
    not_in_yard: u64,
    /// Of them, those after the 27 of another post.
    sent_after_others: u64,
    /// Beacons of other posts.
    spent_by_others: u64,
    noisy_lists: u64,
    shorter: u64,
    longer: u64,
}

impl Tally {
    /// Counts a list, with the refusal or 0 of each step.
    pub fn add_list(&mut self, steps: &[Step], refusals: &[u8], lane: u32) {
        self.lists += 1;
        self.steps += steps.len() as u64;
        let mut spent_by_others = 0;
        for (&step, &refusal) in steps.iter().zip(refusals) {
            match (step, refusal) {
                (Step::Beacon { lane: own }, 0) if own == lane => {
                    self.sent += 1;
                    self.sent_after_others += u64::from(spent_by_others > 0);
                }
                (Step::Beacon { lane: own }, 27) if own == lane => self.spent += 1,
                (Step::Beacon { lane: own }, 21) if own == lane => self.not_in_yard += 1,
                (Step::Beacon { .. }, 27) => spent_by_others += 1,
                _ => {}
            }
        }
        self.spent_by_others += spent_by_others;
        self.noisy_lists += u64::from(of_others(steps, lane) > NOISY);
    }

    /// Counts what was changed in a list.
    pub fn add_change(&mut self, steps: &[Step], changed: &[Step], lane: u32) {
        let (before, after) = (of_others(steps, lane), of_others(changed, lane));
        self.shorter += u64::from(after < before);
        self.longer += u64::from(after > before);
    }
}

/// How many beacon steps of other lanes a list has.
fn of_others(steps: &[Step], lane: u32) -> usize {
    let own = Step::Beacon { lane };
    let others = steps
        .iter()
        .filter(|&&step| step.is_beacon() && step != own);
    others.count()
}

impl Counts for Tally {
    fn counts(&self) -> Vec<(&'static str, u64)> {
        vec![
            ("lists of steps", self.lists),
            ("steps", self.steps),
            ("beacons of a post sent", self.sent),
            ("refused by 27", self.spent),
            ("refused by 21", self.not_in_yard),
            ("sent after another's 27", self.sent_after_others),
            ("others' beacons refused by 27", self.spent_by_others),
            ("over 1,024 beacons of others", self.noisy_lists),
            ("fewer beacons of others", self.shorter),
            ("more beacons of others", self.longer),
        ]
    }
}
