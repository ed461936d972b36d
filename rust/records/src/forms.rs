//! The table of the notation: each kind's line; the same pattern reads and writes it.

use crate::Record;
use core::fmt;

/// A record's fields, and the two halves of m that kind 57 has.
#[derive(Clone, Copy, PartialEq, Eq, Debug)]
pub enum Field {
    /// Byte 0.
    Kind,
    /// Byte 1.
    N,
    /// Bytes 2 and 3.
    A,
    /// Bytes 4 and 5.
    B,
    /// Bytes 6 and 7.
    C,
    /// Bytes 8 to 15.
    M,
    /// The lower half of kind 57's m.
    Operation,
    /// The upper half of kind 57's m.
    Object,
}

/// One piece of a pattern. A set or bytes extend to the end of the line.
#[derive(Clone, Copy, PartialEq, Eq, Debug)]
pub enum Part {
    /// A fixed word of the line.
    Word(&'static str),
    /// A field; its name is given if the words before it do not name it.
    Number(Field, &'static str),
    /// The members of m, or `none`.
    Set,
    /// Bytes as two hexadecimal digits each.
    Bytes,
}

/// Each kind and the pattern of its line. The kind is 0 if the line itself contains it.
pub const FORMS: [(u8, &str); 43] = [
    (1, "user <a>"),
    (2, "role <a>"),
    (3, "permission <a> is operation <b> on object <c>"),
    (4, "user <a> has role <b>"),
    (5, "role <a> has permission <b>"),
    (6, "task <a> of template <b>"),
    (7, "task <a> open to role <b>"),
    (8, "task <a> carries permission <b>"),
    (9, "static set <n> of <set>"),
    (10, "dynamic set <n> of <set>"),
    (11, "task set <n> of <set>"),
    (12, "block of partitioning <a> : <set>"),
    (13, "lone-worker ban on template <a>"),
    (14, "task <a> at most <n> times"),
    (15, "task <a> bound to task <b>"),
    (16, "task <a> before task <b>"),
    (17, "role <a> above role <b>"),
    (18, "wall <a> block <b> object <c>"),
    (32, "add user <a>"),
    (32, "add user <a> with roles <set>"),
    (33, "delete user <a>"),
    (34, "assign role <b> to user <a>"),
    (35, "take role <b> from user <a>"),
    (36, "give role <a> permission <b>"),
    (37, "take permission <b> from role <a>"),
    (40, "create subject <a> for user <b> with roles <set>"),
    (41, "destroy subject <a>"),
    (42, "activate role <b> in subject <a>"),
    (43, "deactivate role <b> in subject <a>"),
    (48, "open order <a> of template <b>"),
    (49, "end order <a>"),
    (50, "claim <a=subject> <b=order> <c=task>"),
    (51, "release <a=subject> <b=order> <c=task>"),
    (52, "done <a=subject> <b=order> <c=task>"),
    (56, "check <a=subject> operation <b> object <c>"),
    (
        57,
        "task check <a=subject> <b=order> <c=task> operation <low> object <high>",
    ),
    (58, "entries of order <a>"),
    (59, "commit <a=subject> operation <b> object <c>"),
    (59, "commit <a=subject> <b=operation> <c=object>"),
    (60, "stuck tasks of template <a>"),
    (60, "stuck <a=template>"),
    (0, RAW),
    (0, "bytes <bytes>"),
];

/// The pattern of the line that can show any record.
pub const RAW: &str = "record <kind=kind> <n=n> <a=a> <b=b> <c=c> <m=m>";

/// The parts of a pattern, or of the rest of one.
pub fn parts(pattern: &'static str) -> impl Iterator<Item = Part> {
    pattern.split_terminator(' ').map(part)
}

fn part(piece: &'static str) -> Part {
    let Some(inner) = piece.strip_prefix('<').and_then(|p| p.strip_suffix('>')) else {
        return Part::Word(piece);
    };
    let (field, name) = inner.split_once('=').unwrap_or((inner, ""));
    let field = match field {
        "kind" => Field::Kind,
        "n" => Field::N,
        "a" => Field::A,
        "b" => Field::B,
        "c" => Field::C,
        "m" => Field::M,
        "low" => Field::Operation,
        "high" => Field::Object,
        "set" => return Part::Set,
        _ => return Part::Bytes,
    };
    Part::Number(field, name)
}

/// The piece as the list of forms shows it.
impl fmt::Display for Part {
    fn fmt(&self, f: &mut fmt::Formatter) -> fmt::Result {
        match self {
            Part::Word(word) => f.write_str(word),
            Part::Number(_, "") => f.write_str("NUMBER"),
            Part::Number(_, name) => name
                .chars()
                .try_for_each(|c| write!(f, "{}", c.to_ascii_uppercase())),
            Part::Set => f.write_str("NUMBERS"),
            Part::Bytes => f.write_str("BYTES"),
        }
    }
}

impl Field {
    /// The largest number that fits the field's width; the limits of docs/RULES.md may be smaller.
    pub fn last(self) -> u64 {
        match self {
            Field::Kind | Field::N => u64::from(u8::MAX),
            Field::M => u64::MAX,
            _ => u64::from(u16::MAX),
        }
    }

    /// The field's value in a record.
    pub fn of(self, record: Record) -> u64 {
        match self {
            Field::Kind => record.kind().into(),
            Field::N => record.n().into(),
            Field::A => record.a().into(),
            Field::B => record.b().into(),
            Field::C => record.c().into(),
            Field::M => record.m(),
            Field::Operation => record.m() & 0xffff,
            Field::Object => record.m() >> 16 & 0xffff,
        }
    }

    /// The record with this field, which must still be 0, set to a number that fits.
    pub fn put(self, record: Record, number: u64) -> Record {
        let (kind, n, a, b, c, m) = match self {
            Field::Kind => (number as u8, 0, 0, 0, 0, 0),
            Field::N => (0, number as u8, 0, 0, 0, 0),
            Field::A => (0, 0, number as u16, 0, 0, 0),
            Field::B => (0, 0, 0, number as u16, 0, 0),
            Field::C => (0, 0, 0, 0, number as u16, 0),
            Field::M | Field::Operation => (0, 0, 0, 0, 0, number),
            Field::Object => (0, 0, 0, 0, 0, number << 16),
        };
        let set = Record::new(kind, n, a, b, c, m);
        Record(core::array::from_fn(|i| record.0[i] | set.0[i]))
    }
}
