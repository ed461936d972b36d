//! Reads lines as records, with names.

pub use crate::attempt::declares;
use crate::attempt::{follow, Attempt};
pub use crate::expected::{either, expected_after, offered, Expected, Wrong};
use crate::expected::{misspelt, wrong};
use crate::names::{shown, Names, Naming};
use crate::tokens::between_quotes;
pub use crate::tokens::{tokens, Token};
use records::forms::Part;
use records::LENGTH;
use std::fmt;

/// The content of a line: a record, whole or truncated, and the names that it gives.
#[derive(Clone, PartialEq, Eq, Debug)]
pub struct Line {
    /// Sixteen bytes, or fewer of a truncated record; `None` if the line only gives a name.
    pub record: Option<Vec<u8>>,
    /// The names that it gives.
    pub namings: Vec<Naming>,
}

impl Line {
    /// The line of a record given as bytes.
    pub fn of(record: &[u8]) -> Line {
        Line {
            record: Some(record.to_vec()),
            namings: Vec::new(),
        }
    }
}

/// Parses these tokens; `None` for a line without words.
pub fn read_tokens(tokens: &[Token], names: &Names) -> Result<Option<Line>, Wrong> {
    let Some(last) = tokens.last() else {
        return Ok(None);
    };
    let end = last.end();
    let open = follow(tokens, names, |_| true).map_err(|(at, open)| {
        let here = || wrong(&open, Some(tokens[at]), end, names);
        misspelt(tokens, at, &open, names).unwrap_or_else(here)
    })?;
    let missing = wrong(&open, None, end, names);
    let whole = open.into_iter().find(Attempt::complete).ok_or(missing)?;
    let record = match whole.part() {
        Some((Part::Bytes, _)) => Some(whole.bytes),
        _ if whole.form.names_alone => None,
        _ => Some(whole.record.0.to_vec()),
    };
    let namings = whole.namings;
    Ok(Some(Line { record, namings }))
}

/// Parses a line; `None` for a line without words.
pub fn read_line(line: &str, names: &Names) -> Result<Option<Line>, Wrong> {
    read_tokens(&tokens(line).0, names)
}

/// The line as text, if it is UTF-8.
pub fn decode(line: &[u8]) -> Result<&str, Wrong> {
    std::str::from_utf8(line).map_err(|why| {
        let before = String::from_utf8_lossy(&line[..why.valid_up_to()]);
        Wrong {
            column: before.chars().count() + 1,
            expected: "text in UTF-8".to_string(),
            found: format!("the byte 0x{:02x}", line[why.valid_up_to()]),
        }
    })
}

/// The lines of a text, numbered from 1, without a byte order mark.
pub fn lines(text: &[u8]) -> impl Iterator<Item = (usize, &[u8])> {
    let text = text.strip_prefix(b"\xef\xbb\xbf").unwrap_or(text);
    (1..).zip(text.split(|&byte| byte == b'\n'))
}

/// An error in a text: the line, from 1, and what is wrong with it.
#[derive(Clone, PartialEq, Eq, Debug)]
pub struct Error {
    /// The line, from 1.
    pub line: usize,
    /// What is wrong there.
    pub wrong: Wrong,
}

impl fmt::Display for Error {
    fn fmt(&self, f: &mut fmt::Formatter) -> fmt::Result {
        let Error { line, wrong } = self;
        write!(f, "line {line}, column {}: {wrong}", wrong.column)
    }
}

impl std::error::Error for Error {}

impl Error {
    /// What is wrong in this line.
    pub fn new(line: usize, wrong: Wrong) -> Error {
        Error { line, wrong }
    }
}

/// The lines of a text that are not empty, each with its number.
pub struct Text {
    /// The number of each line, from 1, and its content.
    pub lines: Vec<(usize, Line)>,
    /// The names known at the end of the text.
    pub names: Names,
}

impl Text {
    /// The records, each with its line number.
    pub fn records(&self) -> impl Iterator<Item = (usize, &[u8])> {
        let records = self
            .lines
            .iter()
            .map(|(number, line)| (*number, &line.record));
        records.filter_map(|(number, record)| Some((number, record.as_deref()?)))
    }

    /// The bytes of all records.
    pub fn bytes(&self) -> Vec<u8> {
        self.records()
            .flat_map(|(_, record)| record)
            .copied()
            .collect()
    }
}

/// The error for a text with two bytes a character, as some editors save it.
fn of_two_bytes() -> Wrong {
    Wrong {
        column: 1,
        expected: "text in UTF-8".to_string(),
        found: "UTF-16: save the file as UTF-8".to_string(),
    }
}

/// Reads a whole text; or gives every error with its line. With `once`, as in a policy, a name is given only once; requests may
/// give it again.
pub fn read(text: &[u8], names: &Names, once: bool) -> Result<Text, Vec<Error>> {
    if text.starts_with(b"\xff\xfe") || text.starts_with(b"\xfe\xff") {
        return Err(vec![Error::new(1, of_two_bytes())]);
    }
    let mut names = names.clone();
    let (mut said, mut errors) = (Vec::new(), Vec::new());
    let mut cut = false;
    for (number, bytes) in lines(text) {
        let read = decode(bytes).and_then(|text| Ok((text, read_line(text, &names)?)));
        let (text, line) = match read {
            Ok((_, None)) => continue,
            Ok((text, Some(line))) => (text, line),
            Err(wrong) => {
                errors.push(Error::new(number, wrong));
                continue;
            }
        };
        errors.extend(give(&mut names, &line.namings, once).map(|wrong| Error::new(number, wrong)));
        if let Some(record) = &line.record {
            if std::mem::replace(&mut cut, record.len() < LENGTH) {
                errors.push(Error::new(number, behind_a_cut_one(text)));
            }
        }
        said.push((number, line));
    }
    let lines = said;
    if errors.is_empty() {
        Ok(Text { lines, names })
    } else {
        Err(errors)
    }
}

/// Records names; returns an error for the first that cannot be given.
pub fn give(names: &mut Names, namings: &[Naming], once: bool) -> Option<Wrong> {
    for naming in namings {
        if !once {
            names.give(naming.sort, naming.number, &naming.name);
        } else if let Err(expected) = names.give_once(naming) {
            return Some(Wrong {
                column: naming.column,
                expected,
                found: between_quotes(&shown(&naming.name)),
            });
        }
    }
    None
}

fn behind_a_cut_one(line: &str) -> Wrong {
    let first = tokens(line).0[0];
    Wrong {
        column: first.column,
        expected: "no record after a cut one".to_string(),
        found: first.found(),
    }
}

#[cfg(test)]
mod tests {
    use super::*;
    use crate::Sort;

    #[test]
    fn names_are_given_and_used() {
        let text = "user 300 clerk_b # the signer\nrole 0 \"the clerk\"\nuser clerk_b has role \"the clerk\"
task 4 sign of template 0 loan\ntask 5 test of template loan\ntask 6 of template 0\ntask 6 file
task set 1 of sign, file\npermission 1 p is operation 2 read on object 9 book\nclaim 5 0 sign";
        let read =
            read(text.as_bytes(), &Names::default(), true).unwrap_or_else(|e| panic!("{e:?}"));
        let bytes: Vec<u8> = read.records().flat_map(|(_, r)| r.to_vec()).collect();
        let numbers = "user 300\nrole 0\nuser 300 has role 0\ntask 4 of template 0\ntask 5 of template 0\ntask 6 of template 0
task set 1 of 4 6\npermission 1 is operation 2 on object 9\nclaim 5 0 4\n";
        assert_eq!(crate::write(&bytes), numbers);
        assert_eq!(read.records().nth(5).unwrap().0, 6);
        assert_eq!(read.names.number(Sort::Object, b"book"), Some(9));
    }

    #[test]
    fn errors_say_what_was_expected() {
        let mut names = Names::default();
        names.give(Sort::User, 300, b"clerk_b");
        let said = |line: &str| {
            let wrong = read_line(line, &names).unwrap_err();
            format!("{}: {wrong}", wrong.column)
        };
        assert_eq!(
            said("user 300 has rolle 0"),
            "14: expected \"role\", found \"rolle\""
        );
        assert_eq!(said("delete user clerk_x"), "13: expected a number up to 1023 or the name of a known user (\"clerk_b\"?), found \"clerk_x\"");
        assert_eq!(said("clam 5 0 1"), "1: expected \"claim\", found \"clam\"");
        assert_eq!(
            said("claim 5"),
            "8: expected the order, a number up to 63, found the end of the line"
        );
        assert_eq!(said("task 4"), "7: expected \"of\", a name for the task, \"open\", \"carries\", \"at\", \"bound\" or \"before\", found the end of the line");
    }

    #[test]
    fn a_policy_names_a_number_once() {
        let wrong = |text: &str| {
            let errors = read(text.as_bytes(), &Names::default(), true)
                .err()
                .unwrap();
            format!("{} {}", errors[0].line, errors[0].wrong)
        };
        assert_eq!(
            wrong("user 1 a\nuser 2 a"),
            "2 expected another name, since a is user 1, found \"a\""
        );
        assert_eq!(
            wrong("task 1 a of template 0\ntask 1 b"),
            "2 expected no further name, since task 1 is a, found \"b\""
        );
    }
}
