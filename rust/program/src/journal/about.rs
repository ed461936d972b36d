//! What a request is about, by the form of its kind: a user, a subject, an order, a task.

use crate::names::Sort;
use records::forms::{parts, Field, Part, FORMS};
use records::Record;
use std::sync::OnceLock;

/// The fields of a kind that have these numbers.
#[derive(Clone, Copy, Default)]
pub struct About {
    user: Option<Field>,
    subject: Option<Field>,
    order: Option<Field>,
    task: Option<Field>,
}

impl About {
    fn of_kind(kind: u8) -> About {
        let mut about = About::default();
        for pattern in FORMS.iter().filter(|(of, _)| *of == kind).map(|(_, p)| *p) {
            let mut before = "";
            for part in parts(pattern) {
                let sort = Sort::of_part(part, kind, before);
                before = if let Part::Word(word) = part {
                    word
                } else {
                    ""
                };
                if let (Part::Number(field, _), Some(sort)) = (part, sort) {
                    about.put(sort, field);
                }
            }
        }
        about
    }

    fn put(&mut self, sort: Sort, field: Field) {
        match sort {
            Sort::User => self.user = Some(field),
            Sort::Subject => self.subject = Some(field),
            Sort::Order => self.order = Some(field),
            Sort::Task => self.task = Some(field),
            _ => {}
        }
    }

    fn field(&self, sort: Sort) -> Option<Field> {
        match sort {
            Sort::User => self.user,
            Sort::Subject => self.subject,
            Sort::Order => self.order,
            _ => self.task,
        }
    }

    /// The number of a sort that a record of this kind has.
    pub fn number(&self, sort: Sort, record: &Record) -> Option<u16> {
        u16::try_from(self.field(sort)?.of(*record)).ok()
    }

    /// The field of a sort, by its name in the tables.
    pub fn column(&self, sort: Sort) -> Option<&'static str> {
        match self.field(sort)? {
            Field::A => Some("a"),
            Field::B => Some("b"),
            Field::C => Some("c"),
            _ => None,
        }
    }
}

/// What requests of a kind are about.
pub fn about(kind: u8) -> About {
    static ALL: OnceLock<Vec<About>> = OnceLock::new();
    ALL.get_or_init(|| (0..=255).map(About::of_kind).collect())[usize::from(kind)]
}

/// The user whom a request names, or whose live subject it names, by the sessions buffer (docs/STATE.md).
pub fn user_of(record: &Record, sessions: &[u64]) -> Option<u16> {
    let about = about(record.kind());
    if about.user.is_some() {
        return about.number(Sort::User, record);
    }
    user_of_subject(about.number(Sort::Subject, record)?, sessions)
}

/// The user of a live subject.
pub fn user_of_subject(subject: u16, sessions: &[u64]) -> Option<u16> {
    let word = *sessions.get(..128)?.get(usize::from(subject))?;
    (word >> 10 & 1 == 1).then_some((word & 1023) as u16)
}

#[cfg(test)]
mod tests {
    use super::*;
    use records::Set;

    #[test]
    fn a_request_is_about_the_user_of_its_subject() {
        let mut sessions = vec![0; 2432];
        sessions[5] = 1 << 10 | 300;
        let of = |record: Record| user_of(&record, &sessions);
        assert_eq!(of(Record::claim(5, 0, 1)), Some(300));
        assert_eq!(of(Record::claim(6, 0, 1)), None);
        assert_eq!(of(Record::claim(500, 0, 1)), None);
        assert_eq!(of(Record::create_subject(5, 301, Set::EMPTY)), Some(301));
        assert_eq!(of(Record::delete_user(7)), Some(7));
        assert_eq!(of(Record::end_order(5)), None);
        assert_eq!(about(50).column(Sort::Order), Some("b"));
        assert_eq!(about(49).column(Sort::Order), Some("a"));
        assert_eq!(about(57).column(Sort::Task), Some("c"));
        assert_eq!(about(56).column(Sort::Task), None);
    }
}
