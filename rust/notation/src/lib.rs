//! Reads and writes records as lines of words (docs/RULES.md): one line a record; `#` begins a comment. The program `mishantral`
//! and `./desk` share this reader and writer.
//!
//! ```
//! let text = b"user 300  # the signer\nuser 300 has role 0\n";
//! let records = notation::read(text).unwrap();
//! assert_eq!(records.len(), 32);
//! assert_eq!(notation::write(&records), "user 300\nuser 300 has role 0\n");
//!
//! let errors = notation::read(b"user 300\nuser 300 has rolle 0\n").unwrap_err();
//! let message = "line 2, column 14: expected \"role\", found \"rolle\"";
//! assert_eq!(errors[0].to_string(), message);
//! ```
//!
//! A text may name what it declares, and use the name in place of the number. [`reader`] and [`writer`] take the known [`Names`],
//! from an earlier text or from a dealer's OPL/XML ([`dealer`]):
//!
//! ```
//! use notation::{reader, writer, Names};
//!
//! let policy = reader::read(b"task 1 sign of template 0", &Names::default(), true).unwrap();
//! let line = reader::read_line("claim 5 0 sign", &policy.names).unwrap().unwrap();
//! let record = line.record.unwrap();
//! assert_eq!(notation::line(&record), "claim 5 0 1");
//! assert_eq!(writer::line(&record, &policy.names), "claim 5 0 sign");
//! ```

mod attempt;
pub mod dealer;
mod expected;
mod explain;
mod figures;
pub mod names;
mod quote;
pub mod reader;
pub mod source;
mod tokens;
pub mod writer;
mod written;

pub use explain::{explain, load};
pub use figures::{figures, stuck, ANSWER};
pub use names::{Names, Sort};
pub use reader::Error;
use records::forms::{parts, FORMS};
pub use records::Reply;
pub use written::{written, WRITER};

/// The bytes of a text's records; or all errors in the text. Names that the text gives are known only within it.
pub fn read(text: &[u8]) -> Result<Vec<u8>, Vec<Error>> {
    reader::read(text, &Names::default(), false).map(|text| text.bytes())
}

/// One record's line, without names.
pub fn line(record: &[u8]) -> String {
    writer::line(record, &Names::default())
}

/// The lines of many records, without names.
pub fn write(records: &[u8]) -> String {
    writer::lines(records, &Names::default())
}

/// Every form of a line, one for each kind and two for any bytes.
pub fn forms() -> String {
    let line = |(_, pattern)| {
        let shown: Vec<String> = parts(pattern).map(|part| part.to_string()).collect();
        shown.join(" ").replace(" :", ":") + "\n"
    };
    FORMS.into_iter().map(line).collect()
}

/// Whether bytes are text rather than records.
///
/// A record in range has a byte of 0 to 3 in the upper half of a, which no text has.
pub fn is_text(bytes: &[u8]) -> bool {
    let control = |b: &u8| b.is_ascii_control() && !matches!(b, b'\t' | b'\n' | b'\r');
    std::str::from_utf8(bytes).is_ok() && !bytes.iter().any(control)
}
