//! Sums over all holds, and the longest of them with their own.

use super::hold::{Detail, Hold, Refusal, PARTS};
use std::cmp::Reverse;
use std::collections::{BTreeMap, BinaryHeap};

/// What all holds come to. Times are microseconds, refused claims a number of them.
#[derive(Clone, Default, Debug)]
pub struct Totals {
    pub could: BTreeMap<u16, i64>,
    pub met: BTreeMap<(Refusal, u16), i64>,
    pub refused: BTreeMap<(Refusal, Option<u16>), i64>,
    pub hours: [[i64; 24]; PARTS],
}

impl Totals {
    pub fn add(&mut self, detail: &Detail) {
        for &(user, time) in &detail.could {
            *self.could.entry(user).or_default() += time;
        }
        for &(met, time) in &detail.met {
            *self.met.entry(met).or_default() += time;
        }
        for &(refused, count) in &detail.refused {
            *self.refused.entry(refused).or_default() += count;
        }
        for (sums, more) in self
            .hours
            .iter_mut()
            .flatten()
            .zip(detail.hours.iter().flatten())
        {
            *sums += more;
        }
    }
}

/// A hold with its details, ordered by its length, then the older first.
struct Kept(Hold, Detail);

impl Kept {
    fn key(&self) -> (i64, Reverse<i64>, Reverse<i64>) {
        (
            self.0.length(),
            Reverse(self.0.start),
            Reverse(self.0.opening),
        )
    }
}

impl PartialEq for Kept {
    fn eq(&self, other: &Kept) -> bool {
        self.key() == other.key()
    }
}

impl Eq for Kept {}

impl PartialOrd for Kept {
    fn partial_cmp(&self, other: &Kept) -> Option<std::cmp::Ordering> {
        Some(self.cmp(other))
    }
}

impl Ord for Kept {
    fn cmp(&self, other: &Kept) -> std::cmp::Ordering {
        self.key().cmp(&other.key())
    }
}

/// The longest holds, no more than a number of them.
pub struct Worst {
    count: usize,
    kept: BinaryHeap<Reverse<Kept>>,
}

impl Worst {
    pub fn new(count: usize) -> Worst {
        Worst {
            count,
            kept: BinaryHeap::new(),
        }
    }

    pub fn offer(&mut self, hold: &Hold, detail: Detail) {
        self.kept.push(Reverse(Kept(*hold, detail)));
        if self.kept.len() > self.count {
            self.kept.pop();
        }
    }

    /// The longest first.
    pub fn into_list(self) -> Vec<(Hold, Detail)> {
        let sorted = self.kept.into_sorted_vec();
        sorted
            .into_iter()
            .map(|Reverse(Kept(hold, detail))| (hold, detail))
            .collect()
    }
}
