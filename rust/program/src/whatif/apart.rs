//! Which of two desks' differences come by themselves, and which only follow: where a subject, an order or a user is no longer the same on both, what is
//! asked about it may be answered otherwise for that reason alone.

use crate::names::Sort;
use records::Record;
use std::collections::BTreeSet;

/// What is not the same on both desks.
#[derive(Clone, Default, Debug)]
pub struct Apart {
    users: BTreeSet<u16>,
    subjects: BTreeSet<u16>,
    orders: BTreeSet<u16>,
}

/// The user, the subject and the order that a request is about.
fn about(record: &Record) -> (Option<u16>, Option<u16>, Option<u16>) {
    let (a, b) = (record.a(), record.b());
    match record.kind() {
        32..=35 => (Some(a), None, None),
        40 => (Some(b), Some(a), None),
        41..=43 | 56 | 59 => (None, Some(a), None),
        48 | 49 | 58 => (None, None, Some(a)),
        50..=52 | 57 => (None, Some(a), Some(b)),
        _ => (None, None, None),
    }
}

impl Apart {
    /// Whether the request is about something that is not the same on both.
    pub fn touches(&self, record: &Record, user: Option<u16>) -> bool {
        let (named, subject, order) = about(record);
        let has =
            |set: &BTreeSet<u16>, number: Option<u16>| number.is_some_and(|n| set.contains(&n));
        has(&self.users, named.or(user)) || has(&self.subjects, subject) || has(&self.orders, order)
    }

    /// This is not the same from the beginning.
    pub fn begins(&mut self, (sort, number): (Sort, u16)) {
        match sort {
            Sort::User => drop(self.users.insert(number)),
            Sort::Subject => drop(self.subjects.insert(number)),
            Sort::Order => drop(self.orders.insert(number)),
            _ => {}
        }
    }

    /// A request was granted on one and refused on the other: what it would have changed is apart now.
    pub fn answered_apart(&mut self, record: &Record, user: Option<u16>) {
        let (_, subject, order) = about(record);
        match record.kind() {
            32..=35 => self.users.extend(user),
            40..=43 => self.subjects.extend(subject),
            48..=52 => self.orders.extend(order),
            59 => self.users.extend(user),
            _ => {}
        }
    }

    /// A request that ends something was granted here; `gone` says whether it is not there on the other either. Then both are alike again.
    pub fn ended(&mut self, record: &Record, gone: bool) {
        match record.kind() {
            33 if gone => drop(self.users.remove(&record.a())),
            41 if gone => drop(self.subjects.remove(&record.a())),
            49 if gone => drop(self.orders.remove(&record.a())),
            _ => {}
        }
    }
}

#[cfg(test)]
mod tests {
    use super::*;
    use records::Set;

    #[test]
    fn what_follows_from_a_difference_is_told_until_it_ends() {
        let mut apart = Apart::default();
        let (open, claim) = (Record::open_order(7, 0), Record::claim(5, 7, 1));
        assert!(!apart.touches(&open, None));
        apart.answered_apart(&open, None);
        assert!(apart.touches(&claim, Some(300)) && apart.touches(&Record::entries_of(7), None));
        assert!(!apart.touches(&Record::claim(5, 8, 1), Some(300)));
        apart.ended(&Record::end_order(7), false);
        assert!(apart.touches(&claim, Some(300)));
        apart.ended(&Record::end_order(7), true);
        assert!(!apart.touches(&claim, Some(300)));
    }

    #[test]
    fn a_user_is_apart_by_whom_and_by_subject() {
        let mut apart = Apart::default();
        apart.answered_apart(&Record::assign_role(300, 1), Some(300));
        let create = Record::create_subject(5, 300, Set::of(&[1]));
        assert!(apart.touches(&create, Some(300)));
        assert!(apart.touches(&Record::claim(5, 7, 1), Some(300)));
        assert!(!apart.touches(&Record::claim(5, 7, 1), Some(301)));
        apart.answered_apart(&create, Some(300));
        assert!(apart.touches(&Record::destroy_subject(5), None));
    }
}
