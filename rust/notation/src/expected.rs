//! What may come next in a line, in words, and how a wrong line is reported.

use crate::attempt::{follow, Attempt, Form};
use crate::names::{Names, Sort};
use crate::quote::{is_word, name_of};
use crate::tokens::{between_quotes, Token, END};
use std::fmt;

/// An error in a line.
#[derive(Clone, PartialEq, Eq, Debug)]
pub struct Wrong {
    /// The column, from 1, in characters.
    pub column: usize,
    /// What may come there, in words.
    pub expected: String,
    /// What is there, in words.
    pub found: String,
}

impl fmt::Display for Wrong {
    fn fmt(&self, f: &mut fmt::Formatter) -> fmt::Result {
        write!(f, "expected {}, found {}", self.expected, self.found)
    }
}

impl std::error::Error for Wrong {}

/// What may come next in a line.
#[derive(Clone, Copy, PartialEq, Eq, Debug)]
pub enum Expected {
    /// This word.
    Word(&'static str),
    /// A number up to the given one, with its name if it has one; or a name of the sort.
    Number(u64, &'static str, Option<Sort>),
    /// A member of a set, the first or a further one.
    Member(bool, Option<Sort>),
    /// A new name for the number before it.
    Name(Sort),
    /// A byte as two hexadecimal digits.
    Byte,
    /// The end of the line.
    End,
}

impl Expected {
    fn words(self, names: &Names) -> Vec<String> {
        let named = |sort: Option<Sort>| {
            let sort = sort.filter(|&sort| names.has_any(sort));
            sort.map(|sort| format!("the name of a known {}", sort.word()))
        };
        // The range of the field is no help; the limit of the numbered sort is.
        let limit = |last: u64, sort: Option<Sort>| sort.map_or(last, |sort| sort.last().into());
        let (first, second) = match self {
            Expected::Word(word) => (format!("\"{word}\""), None),
            Expected::Number(last, "", sort) => {
                (format!("a number up to {}", limit(last, sort)), named(sort))
            }
            Expected::Number(last, name, sort) => {
                let last = limit(last, sort);
                (format!("the {name}, a number up to {last}"), named(sort))
            }
            Expected::Member(true, sort) => ("a number up to 63".to_string(), named(sort)),
            Expected::Member(false, sort) => (
                "a number up to 63 not named before".to_string(),
                named(sort),
            ),
            Expected::Name(sort) => (format!("a name for the {}", sort.word()), None),
            Expected::Byte => ("a byte as two hexadecimal digits".to_string(), None),
            Expected::End => (END.to_string(), None),
        };
        [Some(first), second].into_iter().flatten().collect()
    }
}

fn expected_by(open: &[Attempt]) -> Vec<Expected> {
    let mut all: Vec<Expected> = Vec::new();
    for expected in open.iter().flat_map(Attempt::expected) {
        if !all.contains(&expected) {
            all.push(expected);
        }
    }
    all
}

/// What may come after these tokens in a request; empty if the tokens are not in the notation.
pub fn expected_after(tokens: &[Token], names: &Names) -> Vec<Expected> {
    let of_requests = |form: &Form| form.kind >= 32 || form.names_alone;
    follow(tokens, names, of_requests).map_or(Vec::new(), |open| expected_by(&open))
}

/// The words that may come next; `known` gives the names of a sort.
pub fn offered(expected: &[Expected], known: impl Fn(Sort) -> Vec<String>) -> Vec<String> {
    let words = expected.iter().flat_map(|&expected| match expected {
        Expected::Word(word) => vec![word.to_string()],
        Expected::Number(_, _, sort) | Expected::Member(_, sort) => sort.map_or(vec![], &known),
        _ => vec![],
    });
    words.collect()
}

/// The edit distance of two words: the number of letters inserted, removed or changed.
fn distance(a: &str, b: &str) -> usize {
    let b: Vec<char> = b.chars().collect();
    let mut row: Vec<usize> = (0..=b.len()).collect();
    for (i, x) in a.chars().enumerate() {
        let mut corner = row[0];
        row[0] = i + 1;
        for (j, y) in b.iter().enumerate() {
            let changed = corner + usize::from(x != *y);
            corner = row[j + 1];
            row[j + 1] = changed.min(row[j] + 1).min(corner + 1);
        }
    }
    row[b.len()]
}

/// A list such as `a, b or c`, without repetitions.
pub fn either(all: &[String]) -> String {
    let mut once: Vec<&String> = Vec::new();
    for word in all {
        if !once.contains(&word) {
            once.push(word);
        }
    }
    match once.split_last() {
        Some((last, [])) => last.to_string(),
        Some((last, others)) => {
            let others: Vec<&str> = others.iter().map(|s| s.as_str()).collect();
            format!("{} or {last}", others.join(", "))
        }
        None => END.to_string(),
    }
}

/// The expected word that this token is nearly equal to.
fn nearest(expected: &[Expected], token: Token, names: &Names) -> Option<String> {
    let offered = offered(expected, |sort| names.words(sort));
    let near = |word: &String| (distance(token.text, word), word.clone());
    let (far, word) = offered.iter().map(near).min()?;
    (far <= 2 && far < token.text.chars().count() && token.number().is_none()).then_some(word)
}

/// The error for a line that fits none of these attempts, at this token or at its end.
pub(crate) fn wrong(open: &[Attempt], token: Option<Token>, end: usize, names: &Names) -> Wrong {
    let expected = expected_by(open);
    let words: Vec<String> = expected.iter().flat_map(|e| e.words(names)).collect();
    let mut text = match words.len() {
        // A list of all words that begin a line is no help.
        MANY.. => FIRST.to_string(),
        _ => either(&words),
    };
    let near = token.and_then(|token| nearest(&expected, token, names));
    // If a word is nearly right, show only that word.
    match near {
        Some(word) if words.len() > 4 => text = between_quotes(&word),
        Some(word) if words.len() > 1 => text += &format!(" ({}?)", between_quotes(&word)),
        _ => {}
    }
    Wrong {
        column: token.map_or(end, |token| token.column),
        expected: text,
        found: token.map_or(END.to_string(), |token| found(&expected, token, names)),
    }
}

/// From this number on, the expected words are not listed: they are those that begin a line.
const MANY: usize = 16;
const FIRST: &str = "the first word of a line, such as \"user\", \"task\", \"open\" or \"claim\"";

/// What is there, and if a name could be meant, why it is none.
fn found(expected: &[Expected], token: Token, names: &Names) -> String {
    let text = token.found();
    let gives = expected.iter().any(|e| matches!(e, Expected::Name(_)));
    if gives && is_word(token.text) {
        return format!("{text}, a word of the notation: as a name it goes between quotes");
    }
    let sorts = expected.iter().filter_map(|&e| match e {
        Expected::Number(_, _, sort) | Expected::Member(_, sort) => sort,
        _ => None,
    });
    let mut unnamed = sorts.filter(|&sort| !names.has_any(sort));
    match unnamed.next() {
        Some(sort) if name_of(token.text).is_some() => {
            let word = sort.word();
            format!("{text}, and no line above names a {word}")
        }
        _ => text,
    }
}

/// A misspelt word that was read as a name, so that only the token after it does not fit: `task 3 off template 0`.
pub(crate) fn misspelt(
    tokens: &[Token],
    at: usize,
    open: &[Attempt],
    names: &Names,
) -> Option<Wrong> {
    let before = at.checked_sub(1)?;
    let name = tokens[before];
    let named = |attempt: &Attempt| attempt.named_at() == Some(name.column);
    if !open.iter().all(named) || nearest(&expected_by(open), tokens[at], names).is_some() {
        return None;
    }
    let earlier = follow(&tokens[..before], names, |_| true).ok()?;
    nearest(&expected_by(&earlier), name, names)?;
    Some(wrong(&earlier, Some(name), 0, names))
}
