//! How a name appears in a line: unchanged if it cannot be mistaken for anything else, else between double quotes.

use records::forms::{parts, Part, FORMS};
use std::sync::OnceLock;

/// A name between quotes on one line, whatever its bytes: `"`, `\`, control bytes and bytes that are not UTF-8 are escaped.
pub fn quoted(name: &[u8]) -> String {
    let mut text = String::from("\"");
    for piece in name.utf8_chunks() {
        for character in piece.valid().chars() {
            match character {
                '"' | '\\' => text.extend(['\\', character]),
                control if control.is_control() => {
                    let bytes = control.encode_utf8(&mut [0; 4]).to_string();
                    text.extend(bytes.bytes().map(|byte| format!("\\x{byte:02x}")));
                }
                _ => text.push(character),
            }
        }
        let others = piece.invalid().iter();
        text.extend(others.map(|byte| format!("\\x{byte:02x}")));
    }
    text + "\""
}

/// The name with this quoted form.
pub fn unquoted(text: &str) -> Option<Vec<u8>> {
    let mut rest = text.strip_prefix('"')?.strip_suffix('"')?.as_bytes();
    let mut name = Vec::new();
    loop {
        let (byte, behind) = match rest {
            [] => return Some(name),
            [b'\\', b'x', high, low, behind @ ..] => {
                let digit = |byte: u8| char::from(byte).to_digit(16);
                (16 * digit(*high)? as u8 + digit(*low)? as u8, behind)
            }
            [b'\\', byte @ (b'"' | b'\\'), behind @ ..] => (*byte, behind),
            [b'"' | b'\\', ..] => return None,
            [byte, behind @ ..] => (*byte, behind),
        };
        name.push(byte);
        rest = behind;
    }
}

/// Whether a token is a quoted name, or begins as one.
pub(crate) fn is_quoted(text: &str) -> bool {
    text.starts_with('"')
}

/// Whether the text is a word of the notation; such a word is a name only between quotes.
pub(crate) fn is_word(text: &str) -> bool {
    static WORDS: OnceLock<Vec<&'static str>> = OnceLock::new();
    let words = WORDS.get_or_init(|| {
        let all = FORMS.into_iter().flat_map(|(_, pattern)| parts(pattern));
        let words = all.filter_map(|part| match part {
            Part::Word(word) => Some(word),
            _ => None,
        });
        words.chain(["none", "time"]).collect()
    });
    words.contains(&text)
}

/// Whether a name needs no quotes: a letter or `_`, then letters, digits, `_`, `-` and `.`; and not a word of the notation.
pub fn is_bare(text: &str) -> bool {
    let first = text.chars().next();
    let begins = first.is_some_and(|c| c.is_alphabetic() || c == '_');
    let goes_on = |c: char| c.is_alphanumeric() || matches!(c, '_' | '-' | '.');
    begins && text.chars().all(goes_on) && !is_word(text)
}

/// A name as a line shows it: unchanged, or between quotes.
pub fn shown(name: &[u8]) -> String {
    match std::str::from_utf8(name) {
        Ok(text) if is_bare(text) => text.to_string(),
        _ => quoted(name),
    }
}

/// The name that a word of a line gives, if it is a name.
pub fn name_of(text: &str) -> Option<Vec<u8>> {
    if is_bare(text) {
        return Some(text.as_bytes().to_vec());
    }
    unquoted(text).filter(|name| !name.is_empty())
}

#[cfg(test)]
mod tests {
    use super::*;

    #[test]
    fn any_name_can_be_quoted() {
        for name in [
            &b"role:clerk"[..],
            b"",
            b"C:\\Some File.txt",
            b"a\"b # c\n\t\x7f",
            b"\xff\xc3\xa9\xc2\x85",
        ] {
            let text = quoted(name);
            assert!(!text.contains('\n'));
            assert_eq!(unquoted(&text).as_deref(), Some(name), "{text}");
        }
        for wrong in ["a", "\"", "\"a\\\"", "\"a\"b\"", "\"\\n\"", "\"\\x+1\""] {
            assert_eq!(unquoted(wrong), None, "{wrong}");
        }
    }

    #[test]
    fn any_name_is_shown_so_that_it_reads_back() {
        for name in [
            &b"clerk_b"[..],
            b"user:klaus",
            b"of",
            b"a b",
            b"300",
            b"\xff\"\\",
            "Zoë".as_bytes(),
        ] {
            let text = shown(name);
            assert_eq!(name_of(&text).as_deref(), Some(name), "{text}");
        }
        assert_eq!(shown(b"clerk_b"), "clerk_b");
        assert_eq!(shown(b"role"), "\"role\"");
        for wrong in ["300", "of", "none", "\"\"", "\"a", "a:b", "\"\\n\""] {
            assert_eq!(name_of(wrong), None, "{wrong}");
        }
    }
}
