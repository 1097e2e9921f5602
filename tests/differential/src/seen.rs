//! What a part has seen: how often each thing came, and where the two sides differ.

use crate::answer::Answer;
use crate::case::Case;
use crate::difference::difference_text;
use crate::text;
use std::collections::{BTreeMap, BTreeSet};

/// So many differing cases are looked at for the shortest; the others are only counted.
const LOOKED_AT: u64 = 500;

/// One case in so many is written as text and read back.
const REPLAYED: u64 = 500;

#[derive(Default)]
pub struct Seen {
    /// By a word and a number; for cases the word is their kind and the number their answer.
    counts: BTreeMap<(&'static str, u32), u64>,
    cases: u64,
    differences: u64,
    /// The differing case with the shortest text, with both answers.
    shortest: Option<String>,
    /// What came less often than it must, or was not so.
    shortfalls: BTreeSet<String>,
}

impl Seen {
    /// The answer, if both sides give the same one.
    pub fn compare(&mut self, case: &Case) -> Option<Answer> {
        self.compare_answers(case, case.by_library(), case.by_reference())
    }

    /// The same of the answers that both sides have given to the case.
    pub fn compare_answers(&mut self, case: &Case, library: Answer, reference: Answer) -> Option<Answer> {
        self.count(case.kind(), reference.number);
        self.cases += 1;
        if self.cases.is_multiple_of(REPLAYED) {
            let replayed = text::parse(&case.to_string());
            self.demand(replayed.as_ref() == Ok(case), "the text of a case stands for that case");
        }
        if library == reference {
            return Some(reference);
        }
        self.differences += 1;
        if self.differences <= LOOKED_AT {
            self.keep_shortest(Some(difference_text(case, &library, &reference)));
        }
        None
    }

    fn keep_shortest(&mut self, other: Option<String>) {
        let both = self.shortest.take().into_iter().chain(other);
        self.shortest = both.min_by_key(String::len);
    }

    pub fn count(&mut self, what: &'static str, number: u32) {
        *self.counts.entry((what, number)).or_default() += 1;
    }

    /// Counts each of these that was met.
    pub fn count_met(&mut self, met: &[(&'static str, bool)]) {
        for (what, _) in met.iter().filter(|(_, is_met)| *is_met) {
            self.count(what, 0);
        }
    }

    pub fn times(&self, what: &'static str, number: u32) -> u64 {
        self.counts.get(&(what, number)).copied().unwrap_or_default()
    }

    /// How often it came with any number.
    pub fn total(&self, what: &'static str) -> u64 {
        self.counts
            .range((what, 0)..=(what, u32::MAX))
            .map(|(_, times)| times)
            .sum()
    }

    /// How often it came with each of the numbers.
    pub fn each(&self, what: &'static str, numbers: impl IntoIterator<Item = u32>) -> Vec<u64> {
        numbers.into_iter().map(|number| self.times(what, number)).collect()
    }

    /// It is a failure if it came less often than this with one of the numbers.
    pub fn require(&mut self, what: &'static str, numbers: impl IntoIterator<Item = u32>, least: u64) {
        for number in numbers {
            let times = self.times(what, number);
            if times < least {
                self.shortfalls
                    .insert(format!("{what} {number}: {times} times, and {least} are the least"));
            }
        }
    }

    /// It is a failure if this does not hold.
    pub fn demand(&mut self, holds: bool, what: &str) {
        if !holds {
            self.shortfalls.insert(what.to_string());
        }
    }

    pub fn add(&mut self, other: Seen) {
        for (key, times) in other.counts {
            *self.counts.entry(key).or_default() += times;
        }
        self.cases += other.cases;
        self.differences += other.differences;
        self.keep_shortest(other.shortest);
        self.shortfalls.extend(other.shortfalls);
    }

    /// What is wrong, if anything is. Where the sides differ, what falls short may only follow from that.
    pub fn failures(&self) -> Vec<String> {
        let Some(shortest) = &self.shortest else {
            return self.shortfalls.iter().cloned().collect();
        };
        let (differences, cases) = (self.differences, self.cases);
        vec![format!(
            "library and reference differ in {differences} of {cases} cases; the shortest is\n{shortest}"
        )]
    }
}
