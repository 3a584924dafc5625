//! How often each answer has come up.

use std::collections::BTreeMap;
use std::fmt::{self, Display, Formatter};

use crate::model::Answer;

/// Any number can be counted, also one that is no answer.
#[derive(Default)]
pub struct Tally(BTreeMap<Answer, u64>);

impl Tally {
    pub fn count(&mut self, answer: Answer) {
        *self.0.entry(answer).or_default() += 1;
    }

    pub fn times(&self, answer: Answer) -> u64 {
        self.0.get(&answer).copied().unwrap_or_default()
    }

    /// Has one of these answers not come up? Then it is shown.
    pub fn misses(&self, answers: &[Answer]) -> bool {
        let missed = answers.iter().find(|&&answer| self.times(answer) == 0);
        missed
            .inspect(|answer| println!("answer {answer} was not seen"))
            .is_some()
    }

    pub fn sum(&self) -> u64 {
        self.0.values().sum()
    }
}

/// Those that have come up, each with its count.
impl Display for Tally {
    fn fmt(&self, to: &mut Formatter) -> fmt::Result {
        let counts = self.0.iter();
        let counts: Vec<String> = counts
            .map(|(answer, times)| format!("{answer}: {times}"))
            .collect();
        write!(to, "{}", counts.join(", "))
    }
}
