//! Policies and requests as files, by the crate `notation`; what is wrong with one ends the command.

use crate::names::Names;
use crate::reader::Error;
use crate::stop::Stop;
pub use notation::dealer::Sections;
use notation::source;
pub use notation::source::{Format, Policy, Reading, Requests};

/// A file's bytes; `-` is standard input.
pub fn bytes_of(file: &str) -> Result<Vec<u8>, Stop> {
    source::bytes_of(file).map_err(Stop::Wrong)
}

/// `policy.txt: line 2, column 14: expected "role", found "rolle"`, a line an error.
pub fn told(file: &str, errors: Vec<Error>) -> Stop {
    Stop::Wrong(source::told(file, &errors))
}

/// A policy file, with its task lines where it is OPL/XML.
pub fn policy(file: &str, how: &Reading) -> Result<Policy, Stop> {
    source::policy(file, how).map_err(Stop::Wrong)
}

/// A damaged policy file: text where its name or every byte says so, else records, whatever they are.
pub fn damaged(file: &str, format: Option<Format>) -> Result<Policy, Stop> {
    source::damaged(file, format).map_err(Stop::Wrong)
}

/// A policy of text, under the name that errors are reported with.
#[cfg(test)]
pub fn text_policy(file: &str, text: &[u8]) -> Result<Policy, Stop> {
    source::text_policy(file, text).map_err(Stop::Wrong)
}

/// A file of requests, whole: text with the policy's names, or records.
pub fn requests(file: &str, names: &Names) -> Result<Requests, Stop> {
    source::requests(file, names).map_err(Stop::Wrong)
}
