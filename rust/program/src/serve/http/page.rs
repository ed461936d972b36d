//! The page: one file with its style and script inside, served with a policy that lets nothing else run or load.

use super::route::Reply;
use sha2::{Digest, Sha256};
use std::sync::OnceLock;

const PAGE: &str = include_str!("page.html");

/// What stands between two tags.
fn between<'a>(text: &'a str, tag: &str) -> &'a str {
    let (begin, end) = (format!("<{tag}>"), format!("</{tag}>"));
    let inside = text.split_once(&begin).map_or("", |(_, behind)| behind);
    inside.split_once(&end).map_or("", |(inside, _)| inside)
}

const DIGITS: &[u8; 64] = b"ABCDEFGHIJKLMNOPQRSTUVWXYZabcdefghijklmnopqrstuvwxyz0123456789+/";

fn base64(bytes: &[u8]) -> String {
    let mut text = String::new();
    for three in bytes.chunks(3) {
        let word = three
            .iter()
            .fold(0u32, |word, &byte| word << 8 | u32::from(byte));
        let word = word << (8 * (3 - three.len()));
        for at in 0..4 {
            match at <= three.len() {
                true => text.push(char::from(DIGITS[(word >> (18 - 6 * at) & 63) as usize])),
                false => text.push('='),
            }
        }
    }
    text
}

fn hash(text: &str) -> String {
    format!("'sha256-{}'", base64(&Sha256::digest(text.as_bytes())))
}

/// Only this script and this style; pictures, calls and events of this server alone; no frame, no form that sends elsewhere.
fn policy() -> &'static str {
    static POLICY: OnceLock<String> = OnceLock::new();
    POLICY.get_or_init(|| {
        let (script, style) = (hash(between(PAGE, "script")), hash(between(PAGE, "style")));
        format!(
            "default-src 'none'; script-src {script}; style-src {style}; img-src 'self'; connect-src 'self'; form-action 'none'; \
             base-uri 'none'; frame-ancestors 'none'"
        )
    })
}

pub fn page() -> Reply {
    let mut reply = Reply::of("text/html; charset=utf-8", PAGE);
    reply.headers = vec![
        ("content-security-policy", policy()),
        ("referrer-policy", "no-referrer"),
        ("cross-origin-opener-policy", "same-origin"),
    ];
    reply
}

#[cfg(test)]
mod tests {
    use super::*;

    #[test]
    fn bytes_in_base_64() {
        for (bytes, text) in [
            ("", ""),
            ("f", "Zg=="),
            ("fo", "Zm8="),
            ("foo", "Zm9v"),
            ("foob", "Zm9vYg=="),
        ] {
            assert_eq!(base64(bytes.as_bytes()), text);
        }
        let empty = "'sha256-47DEQpj8HBSa+/TImW+5JCeuQeRkm5NMpJWZG3hSuFU='";
        assert_eq!(hash(""), empty);
    }

    /// Nothing is fetched from elsewhere, and nothing is there that the policy forbids.
    #[test]
    fn the_page_is_whole() {
        assert!(between(PAGE, "script").len() > 1000 && between(PAGE, "style").len() > 1000);
        for forbidden in [
            "http:",
            "https:",
            "//",
            " onclick",
            " onload=",
            " style=",
            "innerHTML",
            "eval(",
            "javascript:",
        ] {
            let found = PAGE.match_indices(forbidden).find(|(at, _)| {
                // A comment of the script begins with two slashes and a blank.
                forbidden != "//" || !PAGE[*at..].starts_with("// ")
            });
            assert!(found.is_none(), "{forbidden}: {found:?}");
        }
        assert_eq!(
            (
                PAGE.matches("<script").count(),
                PAGE.matches("<style").count()
            ),
            (1, 1)
        );
    }
}
