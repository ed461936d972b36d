//! A key makes a request one that may be sent again: what the journal has of an account under that key is answered from there, and is not
//! asked a second time.

use super::group::{Asked, More};
use crate::journal::{Recorded, Whose};
use crate::names::{Names, Sort};
use crate::writer;
use std::collections::{HashMap, VecDeque};
use std::sync::Arc;

/// The longest key, in bytes.
pub const LONGEST: usize = 64;

/// A key as it may be: at least a byte, at most 64, and nothing that a terminal would obey.
pub fn key_of(bytes: &[u8]) -> Result<Arc<str>, String> {
    let text = std::str::from_utf8(bytes).ok();
    let fit = |text: &&str| !text.is_empty() && !text.chars().any(char::is_control);
    match text.filter(fit) {
        Some(text) if text.len() <= LONGEST => Ok(text.into()),
        Some(text) => Err(format!(
            "expected a key of at most {LONGEST} bytes, found one of {}",
            text.len()
        )),
        None => Err(format!(
            "expected a key of 1 to {LONGEST} bytes of text in UTF-8"
        )),
    }
}

/// The key that a line begins with, `key=4f1c claim 1 7 sign`, and the line after it, from which columns are counted.
pub fn of_line(line: &[u8]) -> Result<(Option<Arc<str>>, &[u8]), String> {
    let Some(rest) = line.trim_ascii_start().strip_prefix(b"key=") else {
        return Ok((None, line));
    };
    let end = rest.iter().position(u8::is_ascii_whitespace);
    let (key, rest) = rest.split_at(end.unwrap_or(rest.len()));
    let key = key_of(key).map_err(|why| format!("column 1: {why}"))?;
    Ok((Some(key), rest.trim_ascii_start()))
}

/// Puts into a request what was answered under its key; one of another kind is told that the key is taken.
pub fn answered(asked: &mut Asked, before: &Recorded, names: &Names) {
    let (was, is) = (before.bytes.as_ref(), asked.bytes.as_ref());
    if asked.unread.is_none() && was.first() != is.first() {
        let (number, words) = (before.number, writer::line(was, names));
        asked.more = More::Wrong(format!(
            "its key is that of request {number}, {words}: another request needs another key"
        ));
        return;
    }
    asked.more = match (asked.choose, before.bytes.record()) {
        (Some(sort @ (Sort::Order | Sort::Subject)), Some(record)) => {
            More::Chosen(sort, record.a())
        }
        _ => More::Nothing,
    };
    asked.bytes = before.bytes;
    (asked.number, asked.reply, asked.place) = (before.number, before.reply, before.place);
}

/// The keys of a desk without a journal, as long as it lives: the last of them.
#[derive(Default)]
pub struct Remembered {
    by_key: HashMap<Whose, Recorded>,
    order: VecDeque<Whose>,
}

const MOST: usize = 65_536;

impl Remembered {
    pub fn get(&self, whose: &Whose) -> Option<Recorded> {
        self.by_key.get(whose).copied()
    }

    pub fn keep(&mut self, whose: Whose, recorded: Recorded) {
        if self.order.len() == MOST {
            if let Some(oldest) = self.order.pop_front() {
                self.by_key.remove(&oldest);
            }
        }
        self.order.push_back(whose.clone());
        self.by_key.insert(whose, recorded);
    }
}

#[cfg(test)]
mod tests {
    use super::*;

    #[test]
    fn a_line_may_begin_with_its_key() {
        let (key, line) = of_line(b"  key=4f\xc3\xbc  claim 1 7 sign").unwrap();
        assert_eq!(key.as_deref(), Some("4f\u{fc}"));
        assert_eq!(line, b"claim 1 7 sign");
        assert_eq!(of_line(b"claim 1 7 key=3").unwrap().0, None);
        assert_eq!(of_line(b"key=3").unwrap().0.as_deref(), Some("3"));
        let wrong = of_line(b" key= claim 1 7 sign").unwrap_err();
        assert!(wrong.starts_with("column 1: expected a key"), "{wrong}");
        let long = format!("key={} claim 1 7 sign", "k".repeat(65));
        let wrong = of_line(long.as_bytes()).unwrap_err();
        assert!(wrong.contains("at most 64 bytes, found one of 65"));
        assert!(key_of(b"a\x1bb").is_err() && key_of(b"\xff").is_err());
    }

    #[test]
    fn keys_in_memory_do_not_grow_without_end() {
        let mut kept = Remembered::default();
        let whose = |n: usize| -> Whose { ("anna".into(), n.to_string().into()) };
        for n in 0..=MOST {
            let recorded = Recorded {
                number: n as i64,
                bytes: crate::journal::Bytes::of(&[50]),
                reply: 0,
                place: 0,
            };
            kept.keep(whose(n), recorded);
        }
        assert!(kept.get(&whose(0)).is_none());
        assert_eq!(kept.get(&whose(1)).map(|r| r.number), Some(1));
    }
}
