//! A desk that is to be moved: nobody serves it meanwhile.

use super::files::Locks;
use super::is_database;
use super::postgres::{shown, Held, Reading};
use super::store::place_of;
use crate::stop::Stop;
use std::path::Path;

/// A desk that nobody serves as long as this lives.
pub struct Still {
    what: What,
    shown: String,
}

enum What {
    /// The locks of a file.
    File {
        _locks: Locks,
    },
    Database(Box<Held>),
}

impl Still {
    /// Keeps others from serving a desk, unless somebody does already.
    pub fn take(word: &str) -> Result<Still, Stop> {
        let shown = shown(word);
        let refused = |why: String| Stop::Refused(vec![format!("{shown}: {why}")]);
        let what = match is_database(word) {
            true => {
                let place = place_of(word)?;
                // A desk or tables that are not there are reported as to whoever reads.
                drop(Reading::open(&place)?);
                What::Database(Box::new(Held::take(&place).map_err(refused)?))
            }
            false => {
                let locks = Locks::take(Path::new(word));
                let remedy = "end it first, or try with --dry-run";
                let _locks = locks.map_err(|why| refused(format!("{why}: {remedy}")))?;
                What::File { _locks }
            }
        };
        Ok(Still { what, shown })
    }

    /// That nobody has served it, and that it ends with this request.
    pub fn holds(&mut self, last: i64) -> Result<(), Stop> {
        let held = match &mut self.what {
            What::File { .. } => Ok(()),
            What::Database(held) if held.last != last => Err(format!(
                "it was cut: {} requests were written, and it ends with request {last}",
                held.last
            )),
            What::Database(held) => held.still(),
        };
        held.map_err(|why| self.refused(why))
    }

    /// Lets go of a desk that was moved.
    pub fn end(self) -> Result<(), Stop> {
        let shown = self.shown;
        let ended = match self.what {
            What::File { .. } => Ok(()),
            What::Database(held) => held.end(),
        };
        ended.map_err(|why| {
            let why = format!("{shown}: the desk was moved, and the database has not said that nobody serves it any more: {why}");
            Stop::Refused(vec![why])
        })
    }

    fn refused(&self, why: String) -> Stop {
        Stop::Refused(vec![format!("{}: {why}", self.shown)])
    }
}
