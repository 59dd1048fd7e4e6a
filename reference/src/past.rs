//! The past steps of a network: refusal 30 and what they leave at time 0.

use crate::arrivals::{entered_by, Arrived};
use crate::network::{times, Network};

/// The steps that a network may have, past and present ones together.
const MOST_STEPS: usize = 120;
const LONGEST_STEP: u64 = 60;
/// What may enter a link, beside what stands there: the demand of all steps, and
/// in each past step what 23 movements of 10,000 bring in 60 seconds.
const MOST_DEMAND: u64 = 72_000_000;
const MOST_MOVED_IN_A_STEP: u64 = 13_800_000;

impl Network {
    /// Refusal 30. The lengths come first: arrivals are taken from them.
    pub fn is_acceptable_past(&self) -> bool {
        let are_lengths_acceptable = self
            .past
            .iter()
            .all(|step| (1..=LONGEST_STEP).contains(&step.length));
        are_lengths_acceptable
            && self.past.len() + self.steps.len() <= MOST_STEPS
            && (0..self.links.len()).all(|link| self.is_acceptable_start(link))
    }

    /// A link (from index 0) when the past ends, and what may still enter it.
    fn is_acceptable_start(&self, link: usize) -> bool {
        let left = self.left_at_0(link);
        if self
            .arrived_before_0(link, self.links[link].travel_time)
            .is_below(left)
        {
            return false;
        }
        if self.entered_at_0(link) - left > self.links[link].capacity {
            return false;
        }
        let entered: u64 = self.past.iter().map(|step| step.entered[link]).sum();
        let demand: u64 = self.steps.iter().map(|step| step.demand[link]).sum();
        let most = MOST_DEMAND + MOST_MOVED_IN_A_STEP * self.past.len() as u64;
        entered + self.links[link].waiting + demand <= most
    }

    /// What had entered a link by a boundary of the past, which are counted
    /// from 0, the start of the first past step.
    fn entered_in_past(&self, link: usize, boundary: usize) -> u64 {
        let entered = self.past[..boundary].iter().map(|step| step.entered[link]);
        self.links[link].standing + entered.sum::<u64>()
    }

    /// entered(0) of a link (from index 0).
    pub fn entered_at_0(&self, link: usize) -> u64 {
        self.entered_in_past(link, self.past.len())
    }

    /// left(0) of a link (from index 0).
    pub fn left_at_0(&self, link: usize) -> u64 {
        self.past.iter().map(|step| step.left[link]).sum()
    }

    /// What had entered a link some seconds, at least one, before time 0: what
    /// stood there if the past hadn't begun by then.
    pub fn arrived_before_0(&self, link: usize, seconds: u64) -> Arrived {
        let times = times(self.past.iter().map(|step| step.length));
        let entered = |boundary: usize| self.entered_in_past(link, boundary);
        match times[self.past.len()].checked_sub(seconds) {
            None => Arrived::whole(self.links[link].standing),
            Some(time) => entered_by(time, &times, entered).expect("volumes only add up"),
        }
    }
}
