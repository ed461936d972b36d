//! Prints records and sets: a record as its kind's line if that shows all of it, else by its fields; a set by its members.

use crate::forms::{parts, Field, Part, FORMS, RAW};
use crate::{Record, Set};
use core::fmt;

/// The record that results from reading the line of this pattern.
fn shown(kind: u8, pattern: &'static str, record: Record) -> Record {
    let put = |shown, part| match part {
        Part::Number(field, _) => field.put(shown, field.of(record)),
        Part::Set => Field::M.put(shown, record.m()),
        Part::Word(_) | Part::Bytes => shown,
    };
    parts(pattern).fold(Record::new(kind, 0, 0, 0, 0, 0), put)
}

fn write_part(f: &mut fmt::Formatter, part: Part, record: Record) -> fmt::Result {
    match part {
        Part::Word(word) => f.write_str(word),
        // A large m is a set or noise, so hexadecimal is easier to read.
        Part::Number(Field::M, _) if record.m() > 9 => write!(f, "0x{:x}", record.m()),
        Part::Number(field, _) => write!(f, "{}", field.of(record)),
        Part::Set => write!(f, "{}", Set(record.m())),
        Part::Bytes => Ok(()),
    }
}

/// Prints the record's line in the notation, such as `claim 5 0 1`. If the record has more than its kind's line shows, prints the
/// fields, such as `record 50 0 5 0 1 0`.
impl fmt::Display for Record {
    fn fmt(&self, f: &mut fmt::Formatter) -> fmt::Result {
        let in_words = FORMS.into_iter().find(|&(kind, pattern)| {
            kind != 0 && kind == self.kind() && shown(kind, pattern, *self) == *self
        });
        let pattern = in_words.map_or(RAW, |(_, pattern)| pattern);
        for (before, part) in parts(pattern).enumerate() {
            if before > 0 && part != Part::Word(":") {
                f.write_str(" ")?;
            }
            write_part(f, part, *self)?;
        }
        Ok(())
    }
}

/// Prints the line within `Record(..)`.
impl fmt::Debug for Record {
    fn fmt(&self, f: &mut fmt::Formatter) -> fmt::Result {
        write!(f, "Record({self})")
    }
}

/// Prints the members in ascending order, or `none`.
impl fmt::Display for Set {
    fn fmt(&self, f: &mut fmt::Formatter) -> fmt::Result {
        if *self == Set::EMPTY {
            return f.write_str("none");
        }
        for (before, member) in self.members().enumerate() {
            let space = if before > 0 { " " } else { "" };
            write!(f, "{space}{member}")?;
        }
        Ok(())
    }
}
