//! Splits a line into tokens: words, numbers, colons, commas and quoted names, each with its place.

use crate::quote::is_quoted;

/// The name of the end of a line in errors.
pub const END: &str = "the end of the line";

/// A word, number, colon, comma or quoted name.
#[derive(Clone, Copy, Debug)]
pub struct Token<'a> {
    /// The token's text in the line.
    pub text: &'a str,
    /// The index of its first byte in the line.
    pub at: usize,
    /// The column, from 1, in characters.
    pub column: usize,
}

impl Token<'_> {
    /// Its value as a number: decimal, or hexadecimal after `0x`.
    pub fn number(self) -> Option<u64> {
        match self.text.strip_prefix("0x") {
            Some(digits) if digits.bytes().all(|b| b.is_ascii_hexdigit()) => {
                u64::from_str_radix(digits, 16).ok()
            }
            _ if self.text.bytes().all(|b| b.is_ascii_digit()) => self.text.parse().ok(),
            _ => None,
        }
    }

    pub(crate) fn byte(self) -> Option<u8> {
        let hex = self.text.len() == 2 && self.text.bytes().all(|b| b.is_ascii_hexdigit());
        hex.then(|| u8::from_str_radix(self.text, 16).ok())?
    }

    /// The token as an error shows it: between quotes.
    pub fn found(self) -> String {
        between_quotes(self.text)
    }

    /// The column after it.
    pub fn end(self) -> usize {
        self.column + self.text.chars().count()
    }
}

/// A token as an error shows it; a quoted name has its quotes already. Control characters are shown escaped, so that a terminal
/// does not obey them.
pub(crate) fn between_quotes(text: &str) -> String {
    let mut shown = String::new();
    for character in text.chars() {
        match character.is_control() {
            true => shown.extend(character.escape_default()),
            false => shown.push(character),
        }
    }
    match is_quoted(text) {
        true => shown,
        false => format!("\"{shown}\""),
    }
}

/// The tokens of a line, and the index where its comment begins, or its end. A name between quotes is one token.
pub fn tokens(line: &str) -> (Vec<Token<'_>>, usize) {
    let mut tokens = Vec::new();
    let mut start: Option<(usize, usize)> = None;
    // `Some` within a quoted name; true after a backslash.
    let mut quoted: Option<bool> = None;
    let mut push = |from: Option<(usize, usize)>, to: usize| {
        tokens.extend(from.map(|(at, column)| Token {
            text: &line[at..to],
            at,
            column,
        }));
    };
    for (index, (at, character)) in line.char_indices().enumerate() {
        let column = index + 1;
        if let Some(escaped) = quoted {
            quoted = (character != '"' || escaped).then_some(character == '\\' && !escaped);
            if quoted.is_none() {
                push(start.take(), at + 1);
            }
            continue;
        }
        match character {
            '"' if start.is_none() => {
                start = Some((at, column));
                quoted = Some(false);
            }
            '#' => {
                push(start.take(), at);
                return (tokens, at);
            }
            ':' | ',' => {
                push(start.take(), at);
                push(Some((at, column)), at + 1);
            }
            blank if blank.is_whitespace() => push(start.take(), at),
            _ => start = start.or(Some((at, column))),
        }
    }
    push(start, line.len());
    (tokens, line.len())
}
