//! Journals in PostgreSQL, where one machine is not enough: the same rows and the same chain as in a file, each with its desk (docs/SERVE.md).

mod begin;
mod columns;
mod migrate;
mod place;
mod read;
mod replicated;
mod tables;
mod take;
mod tls;
mod views;
mod watch;
mod wire;
mod write;

pub use begin::{begin, discard};
pub use place::{is_database, shown, with_desk, Place};
pub use read::Reading;
pub use take::{Held, Takeover};
pub use watch::{Sight, Watch};
pub use write::Journal;

use super::found::Unfit;
use wire::Fault;

impl From<Fault> for Unfit {
    fn from(why: Fault) -> Unfit {
        Unfit(format!("it cannot be read: {}", why.text()))
    }
}
