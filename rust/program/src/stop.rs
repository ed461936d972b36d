//! Why a command ends before its time, and the exit statuses.

use std::io;

/// All went well.
pub const WELL: u8 = 0;
/// The policy or the journal was refused, or a test failed.
pub const REFUSED: u8 = 1;
/// Wrong use, a file that cannot be read or written, or text that is not in its notation.
pub const WRONG: u8 = 2;

#[derive(Debug)]
pub enum Stop {
    /// What to tell, a line each; exit status 2.
    Wrong(Vec<String>),
    /// What to tell of a journal that is refused; exit status 1.
    Refused(Vec<String>),
    /// Whoever read the output has stopped reading: nothing is reported.
    Quiet,
}

pub type Done = Result<u8, Stop>;

pub fn wrong<T>(message: impl Into<String>) -> Result<T, Stop> {
    Err(Stop::Wrong(vec![message.into()]))
}

/// A failed write of the output.
impl From<io::Error> for Stop {
    fn from(why: io::Error) -> Stop {
        match why.kind() {
            io::ErrorKind::BrokenPipe => Stop::Quiet,
            _ => Stop::Wrong(vec![format!("the output could not be written: {why}")]),
        }
    }
}
