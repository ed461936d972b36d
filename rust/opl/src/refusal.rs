//! Refusals: which byte of which text, and in words what was expected there and what was found.

use crate::elements::{Progress, Tag};
use crate::names::{Space, LONGEST};
use crate::reasons::{reason, tag_of};
use crate::{Answer, NAMES, TEXT};
use std::fmt::{self, Display, Formatter};

/// One of the two texts.
#[derive(Clone, Copy, PartialEq, Eq, Debug)]
#[repr(u8)]
pub enum Text {
    /// The OPL/XML.
    Policy = 1,
    /// The task lines.
    Tasks = 2,
}

/// Why a policy is not accepted. If both apply, the first one is given.
#[derive(Clone, PartialEq, Eq, Debug)]
pub enum Refusal {
    /// 21 TEXT: a text is not in its grammar.
    Text(Box<Fault>),
    /// 22 NAMES: a name is too long, not declared or above a limit.
    Names(NameFault),
}

/// The first byte at which no text of the grammar can continue like this one.
#[derive(Clone, PartialEq, Eq, Debug)]
pub struct Fault {
    /// The text that is not in its grammar.
    pub text: Text,
    /// The place of the byte, from 1; the place after the last byte if the text ends too early.
    pub place: usize,
    /// What was expected there.
    pub why: Why,
}

/// What was expected at the place.
#[derive(Clone, PartialEq, Eq, Debug)]
pub enum Why {
    /// Bytes, described in words.
    Expected(&'static str),
    /// Another piece of markup.
    Markup(&'static str),
    /// One of these elements, or the end of the open one if it is given.
    Elements(Vec<&'static str>, Option<&'static str>),
    /// The end tag of the open element.
    EndTag(&'static str),
    /// The element needs a child before it ends.
    MissingChild(&'static str, &'static str),
    /// The element has no such attribute.
    UnknownAttribute(&'static str, Vec<&'static str>),
    /// The attribute occurs twice.
    RepeatedAttribute(&'static str),
    /// The element needs an attribute.
    MissingAttribute(&'static str, &'static str),
    /// A name that has at least one byte.
    EmptyName,
    /// A number up to 255.
    Cardinality,
    /// A byte that is allowed in a value.
    Value,
    /// A byte that is allowed in a comment.
    Comment,
    /// The end of the comment: `--` must be followed by `>`.
    DoubleHyphen,
    /// This value and no other.
    Literal(&'static str),
}

/// A name that makes the policy refused.
#[derive(Clone, Copy, PartialEq, Eq, Debug)]
pub struct NameFault {
    /// The text that contains it.
    pub text: Text,
    /// Where the name begins, from 1.
    pub place: usize,
    /// What is wrong with it.
    pub why: NameWhy,
}

/// What is wrong with a name.
#[derive(Clone, Copy, PartialEq, Eq, Debug)]
pub enum NameWhy {
    /// It has more than 64 bytes.
    TooLong(Space),
    /// It is declared nowhere.
    Undeclared(Space),
    /// Its space already has the largest number of names.
    TooMany(Space),
    /// It is the 17th partitioning, which has no name.
    Partitionings,
    /// It is the 17th wall, which has no name.
    Walls,
    /// It is the 17th block of a wall, which has no name.
    WallBlocks,
}

impl Why {
    /// What may come next in an open element.
    pub(crate) fn elements(tag: Tag, progress: Progress) -> Why {
        let element = tag.element();
        let allowed = progress.allowed(&element.content);
        let ends = progress.missing(&element.content).is_none();
        Why::Elements(
            allowed.iter().map(|child| child.element().name).collect(),
            ends.then_some(element.name),
        )
    }

    /// The index of the sort of fault, below [`Why::SORTS`], so that tests can count which sorts occurred.
    pub fn sort(&self) -> usize {
        match self {
            Why::Expected(_) => 0,
            Why::Markup(_) => 1,
            Why::Elements(..) => 2,
            Why::EndTag(_) => 3,
            Why::MissingChild(..) => 4,
            Why::UnknownAttribute(..) => 5,
            Why::RepeatedAttribute(_) => 6,
            Why::MissingAttribute(..) => 7,
            Why::EmptyName => 8,
            Why::Cardinality => 9,
            Why::Value => 10,
            Why::Comment => 11,
            Why::DoubleHyphen => 12,
            Why::Literal(_) => 13,
        }
    }

    /// The number of sorts of fault.
    pub const SORTS: usize = 14;
}

/// A list in words, such as `a, b or c`.
fn either(all: &[String]) -> String {
    match all.split_last() {
        None => String::new(),
        Some((last, [])) => last.clone(),
        Some((last, others)) => format!("{} or {last}", others.join(", ")),
    }
}

impl Display for Why {
    fn fmt(&self, f: &mut Formatter) -> fmt::Result {
        match self {
            Why::Expected(what) | Why::Markup(what) => f.write_str(what),
            Why::Elements(children, end) => {
                let children = children.iter().map(|name| format!("<{name}>"));
                let end = end.map(|name| format!("</{name}>"));
                f.write_str(&either(&children.chain(end).collect::<Vec<_>>()))
            }
            Why::EndTag(name) => write!(f, "</{name}>"),
            Why::MissingChild(element, child) => write!(f, "<{child}>, which <{element}> needs"),
            Why::UnknownAttribute(element, names) if names.is_empty() => {
                write!(f, "no attribute of <{element}>")
            }
            Why::UnknownAttribute(element, names) => {
                let names: Vec<String> = names.iter().map(|name| name.to_string()).collect();
                write!(f, "{} as the attribute of <{element}>", either(&names))
            }
            Why::RepeatedAttribute(name) => write!(f, "no second {name}"),
            Why::MissingAttribute(element, name) => {
                write!(f, "the attribute {name}, which <{element}> needs")
            }
            Why::EmptyName => f.write_str("a name of one byte at least"),
            Why::Cardinality => f.write_str("a number up to 255"),
            Why::Value => f.write_str("a byte of a value, or its closing quote"),
            Why::Comment => f.write_str("a byte of a comment, or \"-->\""),
            Why::DoubleHyphen => f.write_str("no \"--\" within a comment"),
            Why::Literal(value) => write!(f, "the value {value}"),
        }
    }
}

impl Display for NameWhy {
    fn fmt(&self, f: &mut Formatter) -> fmt::Result {
        match self {
            NameWhy::TooLong(space) => {
                write!(f, "a {} of more than {LONGEST} bytes", space.name())
            }
            NameWhy::Undeclared(space @ (Space::Task | Space::Template)) => {
                let name = space.name();
                write!(f, "a {name} that the task lines do not have")
            }
            NameWhy::Undeclared(space) => write!(f, "a {} declared nowhere", space.name()),
            NameWhy::TooMany(space) => {
                write!(f, "more than {} {}s", space.limit(), space.name())
            }
            NameWhy::Partitionings => f.write_str("more than 16 partitionings"),
            NameWhy::Walls => f.write_str("more than 16 walls"),
            NameWhy::WallBlocks => f.write_str("more than 16 blocks in a wall"),
        }
    }
}

/// The byte order mark, which may be at the start of either text.
pub(crate) const MARK: &[u8] = b"\xef\xbb\xbf";

/// Whether the grammar accepts the byte in an XML name.
pub(crate) const fn is_name(byte: u8) -> bool {
    byte.is_ascii_alphanumeric() || matches!(byte, b'_' | b'-' | b'.' | b':' | 0x80..)
}

/// The largest number of bytes of a piece that a message shows.
const SHOWN: usize = 70;

fn shown(bytes: &[u8]) -> String {
    let cut = &bytes[..bytes.len().min(SHOWN)];
    let dots = if cut.len() < bytes.len() { ".." } else { "" };
    let text = String::from_utf8_lossy(cut);
    let printed: String = text
        .chars()
        .map(|c| if c.is_control() { '?' } else { c })
        .collect();
    format!("{printed}{dots}")
}

/// What is at a place, from 1, in words.
pub fn found(text: &[u8], place: usize) -> String {
    let rest = &text[(place - 1).min(text.len())..];
    let run = |from: usize| {
        let length = rest[from..].iter().take_while(|&&b| is_name(b)).count();
        from + length
    };
    match *rest {
        [] => "the end of the text".to_string(),
        [0xff, 0xfe, ..] | [0xfe, 0xff, ..] if place == 1 => {
            "the byte order mark of UTF-16".to_string()
        }
        [0xef, 0xbb, 0xbf, ..] => "a byte order mark".to_string(),
        [b'<', b'!' | b'?', ..] => format!("\"{}\"", shown(&rest[..run(2)])),
        [b'<', b'/', ..] => format!("{}>", shown(&rest[..run(2)])),
        [b'<', ..] if run(1) > 1 => format!("{}>", shown(&rest[..run(1)])),
        [byte, ..] if is_name(byte) => format!("\"{}\"", shown(&rest[..run(0)])),
        [b'\n', ..] => "the end of the line".to_string(),
        [b'\r', ..] => "a carriage return".to_string(),
        [b'\t', ..] => "a tab".to_string(),
        [b' ', ..] => "a space".to_string(),
        [byte @ (..=0x1f | 0x7f), ..] => format!("the byte 0x{byte:02x}"),
        [b'"', ..] => "a double quote".to_string(),
        [byte, ..] => format!("\"{}\"", char::from(byte)),
    }
}

/// The line and column of a place, all from 1. Each character is one column, whatever its number of bytes; a byte order mark at
/// the start does not count.
pub fn line_and_column(text: &[u8], place: usize) -> (usize, usize) {
    let before = &text[..(place - 1).min(text.len())];
    let before = before.strip_prefix(MARK).unwrap_or(before);
    let line = before.split(|&b| b == b'\n').next_back().unwrap_or(&[]);
    let lines = before.iter().filter(|&&b| b == b'\n').count();
    let begins = |b: &&u8| !(0x80..0xc0).contains(*b);
    (lines + 1, line.iter().filter(begins).count() + 1)
}

impl Refusal {
    /// The text that the refusal is about.
    pub fn text(&self) -> Text {
        match self {
            Refusal::Text(fault) => fault.text,
            Refusal::Names(fault) => fault.text,
        }
    }

    /// The place, from 1, that a person should look at. The answer for a program has a place only for TEXT.
    pub fn place(&self) -> usize {
        match self {
            Refusal::Text(fault) => fault.place,
            Refusal::Names(fault) => fault.place,
        }
    }

    /// The answer for a program; it does not contain the place of a name.
    pub fn answer(&self) -> Answer {
        match self {
            Refusal::Text(fault) => Answer {
                reply: TEXT,
                text: fault.text as u8,
                figure: fault.place as u64,
            },
            Refusal::Names(_) => Answer {
                reply: NAMES,
                text: 0,
                figure: 0,
            },
        }
    }

    /// The name of the element that begins where the text was refused, if one does.
    pub fn element<'t>(&self, text: &'t [u8]) -> Option<&'t str> {
        let Refusal::Text(fault) = self else {
            return None;
        };
        let misplaced = matches!(fault.why, Why::Elements(..) | Why::Markup(_));
        let rest = text.get(fault.place - 1..).filter(|_| misplaced)?;
        tag_of(rest)
    }

    /// The refusal in words, for the text that it is about: `line 12, column 7: TEXT: expected .., found ..`, with a reason if a
    /// reader may wonder about it.
    pub fn message(&self, text: &[u8]) -> String {
        let (line, column) = line_and_column(text, self.place());
        let what = match self {
            Refusal::Text(fault) => {
                let found = found(text, fault.place);
                let because = reason(text, fault).map_or(String::new(), |why| format!(": {why}"));
                format!("TEXT: expected {}, found {found}{because}", fault.why)
            }
            Refusal::Names(fault) => match fault.why {
                NameWhy::Partitionings | NameWhy::Walls | NameWhy::WallBlocks => {
                    format!("NAMES: {}", fault.why)
                }
                why => format!("NAMES: {why}, \"{}\"", shown(name_at(text, fault))),
            },
        };
        format!("line {line}, column {column}: {what}")
    }
}

/// The name that a fault is about. It ends at its quote or, in the task lines, at a space or the end of the line.
fn name_at<'t>(text: &'t [u8], fault: &NameFault) -> &'t [u8] {
    let at = (fault.place - 1).min(text.len());
    let rest = &text[at..];
    let quote = at.checked_sub(1).and_then(|before| text.get(before));
    let end = match (fault.text, quote) {
        (Text::Policy, Some(quote)) => rest.iter().position(|b| b == quote),
        _ => rest.iter().position(|&b| b <= b' '),
    };
    &rest[..end.unwrap_or(rest.len())]
}
