//! Holds by period, clerk or shift: how many, how long, and the parts of their time.

use super::calendar::{Shift, Zone, WEEKDAYS};
use super::hold::{Ended, Hold, PARTS};
use crate::names::{Names, Sort};
use std::collections::BTreeMap;

/// By what holds are put together.
#[derive(Clone, PartialEq, Eq, Debug)]
pub enum By {
    Month,
    Week,
    Day,
    Hour,
    Weekday,
    /// The clerk whose claim ended the hold.
    Clerk,
    /// The shift in which it began.
    Shift(Vec<Shift>),
    /// Each hold by itself.
    Opening,
}

impl By {
    pub const NAMES: [&'static str; 8] = [
        "month", "week", "day", "hour", "weekday", "clerk", "shift", "opening",
    ];

    /// One of `NAMES`, with the shifts that `shift` is of.
    pub fn of_name(name: &str, shifts: Vec<Shift>) -> By {
        match name {
            "week" => By::Week,
            "day" => By::Day,
            "hour" => By::Hour,
            "weekday" => By::Weekday,
            "clerk" => By::Clerk,
            "shift" => By::Shift(shifts),
            "opening" => By::Opening,
            _ => By::Month,
        }
    }

    /// Where a hold belongs: what groups are sorted by, and the group's name.
    fn group(&self, hold: &Hold, zone: Zone, names: &Names) -> (i64, String) {
        let at = hold.start;
        match self {
            By::Month => (0, zone.month(at)),
            By::Week => (0, zone.week(at)),
            By::Day => (0, zone.day(at)),
            By::Hour => (0, format!("{:02}:00", zone.hour(at))),
            By::Weekday => (
                zone.weekday(at) as i64,
                WEEKDAYS[zone.weekday(at)].to_string(),
            ),
            By::Clerk => match hold.clerk {
                Some(user) => (user.into(), names.say(Sort::User, user)),
                None => (i64::MAX, "nobody yet".to_string()),
            },
            By::Shift(shifts) => match shifts.iter().position(|shift| shift.has(zone, at)) {
                Some(place) => (place as i64, shifts[place].name.clone()),
                None => (i64::MAX, "no shift".to_string()),
            },
            By::Opening => (hold.opening, hold.opening.to_string()),
        }
    }
}

/// The figures of some holds. Lengths are those of holds that ended; times are microseconds.
#[derive(Clone, PartialEq, Eq, Debug, Default)]
pub struct Figures {
    /// The lengths, rising.
    lengths: Vec<i64>,
    /// Of the holds that ended, by `Part`.
    pub parts: [i64; PARTS],
    pub lying: usize,
    pub longest_lying: i64,
    pub unclaimed: usize,
}

impl Figures {
    pub fn of<'a>(holds: impl Iterator<Item = &'a Hold>) -> Figures {
        let mut figures = Figures::default();
        holds.for_each(|hold| figures.add(hold));
        figures.lengths.sort_unstable();
        figures
    }

    fn add(&mut self, hold: &Hold) {
        match hold.ended {
            Ended::Reached => {
                self.lengths.push(hold.length());
                for (sum, part) in self.parts.iter_mut().zip(hold.parts) {
                    *sum += part;
                }
            }
            Ended::Lying => {
                self.lying += 1;
                self.longest_lying = self.longest_lying.max(hold.length());
            }
            Ended::Unclaimed => self.unclaimed += 1,
        }
    }

    pub fn count(&self) -> usize {
        self.lengths.len()
    }

    /// The shortest length that at least that many hundredths of the holds do not exceed; none where there are no holds.
    pub fn hundredths(&self, part: usize) -> Option<i64> {
        let rank = (self.lengths.len() * part).div_ceil(100);
        self.lengths.get(rank.max(1) - 1).copied()
    }

    pub fn median(&self) -> Option<i64> {
        self.hundredths(50)
    }

    pub fn worst(&self) -> Option<i64> {
        self.lengths.last().copied()
    }

    /// All lengths together: the sum of the parts.
    pub fn whole(&self) -> i64 {
        self.lengths.iter().sum()
    }
}

/// A group and its figures, in their order.
pub fn groups(holds: &[Hold], by: &By, zone: Zone, names: &Names) -> Vec<(String, Figures)> {
    let mut all: BTreeMap<(i64, String), Figures> = BTreeMap::new();
    for hold in holds {
        all.entry(by.group(hold, zone, names))
            .or_default()
            .add(hold);
    }
    let sorted = |((_, name), mut figures): ((i64, String), Figures)| {
        figures.lengths.sort_unstable();
        (name, figures)
    };
    all.into_iter().map(sorted).collect()
}

#[cfg(test)]
mod tests {
    use super::*;

    fn hold(length: i64, ended: Ended) -> Hold {
        Hold {
            opening: 1,
            order: 0,
            pair: 0,
            start: 0,
            end: length,
            clerk: None,
            ended,
            parts: [length, 0, 0, 0, 0],
        }
    }

    #[test]
    fn a_quantile_is_a_hold_that_was_measured() {
        let of = |lengths: &[i64]| {
            let holds: Vec<Hold> = lengths
                .iter()
                .map(|&length| hold(length, Ended::Reached))
                .collect();
            Figures::of(holds.iter())
        };
        assert_eq!(of(&[]).median(), None);
        assert_eq!(
            (
                of(&[7]).median(),
                of(&[9, 7]).median(),
                of(&[9, 1, 7]).median()
            ),
            (Some(7), Some(7), Some(7))
        );
        let ten = of(&[10, 20, 30, 40, 50, 60, 70, 80, 90, 100]);
        let at = |part| ten.hundredths(part).unwrap();
        assert_eq!(
            [at(25), at(50), at(75), at(90), at(100)],
            [30, 50, 80, 90, 100]
        );
        assert_eq!(
            (ten.whole(), ten.parts[0], ten.worst()),
            (550, 550, Some(100))
        );
    }

    #[test]
    fn what_lies_is_counted_apart() {
        let holds = [
            hold(5, Ended::Reached),
            hold(50, Ended::Lying),
            hold(9, Ended::Unclaimed),
            hold(70, Ended::Lying),
        ];
        let figures = Figures::of(holds.iter());
        assert_eq!(
            (
                figures.count(),
                figures.lying,
                figures.longest_lying,
                figures.unclaimed
            ),
            (1, 2, 70, 1)
        );
        assert_eq!(figures.parts[0], 5);
    }
}
