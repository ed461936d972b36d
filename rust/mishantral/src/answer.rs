//! The answer to a request.

use core::fmt;
use records::{Record, Reply};

/// The reply to a request, and for a refused claim the rule that refused it.
///
/// It compares with a [`Reply`], whatever the place: `engine.request(&claim) == Reply::Separation`.
#[must_use = "a request that was refused has changed nothing"]
#[derive(Clone, Copy, PartialEq, Eq, Hash, Debug)]
pub struct Answer {
    /// The reply.
    pub reply: Reply,
    /// For BEFORE, SEPARATION, BLOCK and BOUND the place of the first broken rule, from 1 among all rules of its kind in policy
    /// order; for BLOCK, of the block at which the search ends. 0 with every other reply.
    pub place: usize,
}

impl Answer {
    /// Whether the request was granted.
    #[must_use]
    pub const fn is_granted(self) -> bool {
        self.reply.is_granted()
    }

    /// The rule that the claim would break, if the answer has its place.
    ///
    /// ```
    /// use mishantral::{Answer, Record, Reply, Set};
    ///
    /// let policy = [
    ///     Record::task(0, 0),
    ///     Record::task(1, 0),
    ///     Record::task_set(1, Set::of(&[0, 1])),
    /// ];
    /// let answer = Answer { reply: Reply::Separation, place: 1 };
    /// let rule = answer.rule().unwrap();
    /// assert_eq!(rule.record(&policy).unwrap().to_string(), "task set 1 of 0 1");
    /// assert_eq!(Answer::from(Reply::Count).rule(), None);
    /// ```
    #[must_use]
    pub fn rule(self) -> Option<Rule> {
        let kind = self.reply.rule_kind()?;
        let place = self.place;
        (place != 0).then_some(Rule { kind, place })
    }
}

/// An answer without a rule.
impl From<Reply> for Answer {
    fn from(reply: Reply) -> Answer {
        Answer { reply, place: 0 }
    }
}

impl From<Answer> for Reply {
    fn from(answer: Answer) -> Reply {
        answer.reply
    }
}

/// Compares only the reply.
impl PartialEq<Reply> for Answer {
    fn eq(&self, reply: &Reply) -> bool {
        self.reply == *reply
    }
}

/// Prints an answer such as `15 SEPARATION (rule 1 of its kind)`.
impl fmt::Display for Answer {
    fn fmt(&self, f: &mut fmt::Formatter) -> fmt::Result {
        match self.place {
            0 => write!(f, "{}", self.reply),
            place => write!(f, "{} (rule {place} of its kind)", self.reply),
        }
    }
}

/// A rule of the loaded policy, by its place.
#[derive(Clone, Copy, PartialEq, Eq, Hash, Debug)]
pub struct Rule {
    /// The kind of its record: 16 a prerequisite, 11 a task set, 12 a block, 15 a binding.
    pub kind: u8,
    /// The place, from 1, among all records of that kind in policy order.
    pub place: usize,
}

impl Rule {
    /// The rule's record among those that were loaded.
    #[must_use]
    pub fn record(self, policy: &[Record]) -> Option<&Record> {
        let before = self.place.checked_sub(1)?;
        let mut rules = policy.iter().filter(|record| record.kind() == self.kind);
        rules.nth(before)
    }
}

#[cfg(test)]
mod tests {
    use super::*;
    use std::string::ToString;

    #[test]
    fn an_answer_says_its_reply_and_its_rule() {
        let answer = |reply, place| Answer { reply, place };
        let shown = answer(Reply::Bound, 12).to_string();
        assert_eq!(shown, "18 BOUND (rule 12 of its kind)");
        assert_eq!(answer(Reply::Count, 0).to_string(), "19 COUNT");
        assert_eq!(answer(Reply::Bound, 12), Reply::Bound);
        assert_ne!(answer(Reply::Bound, 12), answer(Reply::Bound, 11));
    }

    #[test]
    fn a_rule_is_counted_among_those_of_its_kind() {
        let policy = [
            Record::before(0, 1),
            Record::bound(0, 1),
            Record::before(1, 2),
        ];
        let rule = |kind, place| Rule { kind, place }.record(&policy).copied();
        assert_eq!(rule(16, 2), Some(policy[2]));
        assert_eq!(rule(15, 1), Some(policy[1]));
        assert_eq!((rule(15, 2), rule(16, 0), rule(12, 1)), (None, None, None));
    }
}
