//! How many calls were answered in each way.
use crate::answer::Answer;

/// One more than the greatest refusal number.
const REFUSALS: usize = 27;

/// Calls that were accepted, in conflict, refused, by the number, and answered false.
#[derive(Default)]
pub struct Tally {
    pub accepted: usize,
    pub conflicts: usize,
    pub refused: [usize; REFUSALS],
    pub falses: usize,
}

impl Tally {
    pub fn add(&mut self, answer: Answer) {
        match answer {
            Answer::Accepted(_) => self.accepted += 1,
            Answer::Conflict(_) => self.conflicts += 1,
            Answer::Refused(number) => self.refused[number as usize] += 1,
            Answer::False => self.falses += 1,
        }
    }

    pub fn refusals(&self) -> usize {
        self.refused.iter().sum()
    }

    pub fn calls(&self) -> usize {
        self.accepted + self.conflicts + self.refusals() + self.falses
    }

    /// Panics where no call of this name was accepted, or none was refused by one of the numbers.
    pub fn expect(&self, call: &str, numbers: &[usize]) {
        assert!(self.accepted > 0, "no {call} was accepted");
        for &number in numbers {
            assert!(self.refused[number] > 0, "no {call} was refused by {number}");
        }
    }
}
