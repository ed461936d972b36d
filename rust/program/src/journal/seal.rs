//! A seal: the number of the last request and its sum. Kept where nobody who can write the journal can, it shows every change before it.

use super::chain::{hex, Sum};
use super::found::{self, Found};
use super::links::Links;
use super::shown;
use crate::stop::{Done, Stop, WELL};
use std::io::Write;

#[derive(Clone, Copy, PartialEq, Eq, Debug)]
pub struct Seal {
    pub number: i64,
    pub sum: Sum,
}

impl Seal {
    /// `1234:` and sixty-four hexadecimal digits.
    pub fn of_text(text: &str) -> Result<Seal, String> {
        let wrong = || {
            "a seal is a number, a colon and 64 hexadecimal digits, as `journal FILE --seal` prints it"
                .to_string()
        };
        let (number, digits) = text.trim().split_once(':').ok_or_else(wrong)?;
        let number: i64 = number.parse().map_err(|_| wrong())?;
        let mut sum = Sum::default();
        if number < 0 || digits.len() != 64 || !digits.is_ascii() {
            return Err(wrong());
        }
        for (byte, two) in sum.iter_mut().zip(digits.as_bytes().chunks_exact(2)) {
            let two = std::str::from_utf8(two).map_err(|_| wrong())?;
            *byte = u8::from_str_radix(two, 16).map_err(|_| wrong())?;
        }
        Ok(Seal { number, sum })
    }

    /// That of a journal as it is; none of one whose rows are not chained.
    pub fn of(found: &Found) -> Option<Seal> {
        let number = found.last;
        found.links.head().map(|sum| Seal { number, sum })
    }

    /// Whether the sums are this seal's at its request; none elsewhere.
    pub fn met(&self, number: i64, links: &Links) -> Option<bool> {
        (number == self.number).then(|| links.head() == Some(self.sum))
    }
}

impl std::fmt::Display for Seal {
    fn fmt(&self, f: &mut std::fmt::Formatter) -> std::fmt::Result {
        write!(f, "{}:{}", self.number, hex(&self.sum))
    }
}

/// What is reported of a journal whose rows are not chained.
pub const UNCHAINED: &str =
    "it is of version 2, whose checksums show damage alone: serve it once, which brings it to this version";

/// `journal FILE --seal`.
pub fn print(file: &str, out: &mut dyn Write) -> Done {
    let found = found::found(file, false)?;
    let Some(seal) = Seal::of(&found) else {
        return Err(Stop::Refused(vec![format!("{}: {UNCHAINED}", shown(file))]));
    };
    writeln!(out, "{seal}")?;
    Ok(WELL)
}

#[cfg(test)]
mod tests {
    use super::Seal;

    #[test]
    fn a_seal_is_text_and_reads_back() {
        let seal = Seal {
            number: 17,
            sum: std::array::from_fn(|at| at as u8 * 7),
        };
        assert_eq!(Seal::of_text(&seal.to_string()), Ok(seal));
        for wrong in [
            "",
            "17",
            "17:",
            "x:00",
            &format!("17:{}", "g".repeat(64)),
            &format!("-1:{}", "0".repeat(64)),
        ] {
            assert!(Seal::of_text(wrong).is_err(), "{wrong}");
        }
    }
}
