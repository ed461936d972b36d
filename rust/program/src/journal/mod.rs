//! The journal of a desk: an SQLite file, or tables of PostgreSQL, with the policy, every request with its reply, and snapshots of the state (docs/SERVE.md).
//! A request is in it before its reply is sent; who starts again reads it and is where the desk was.

mod about;
mod append;
mod author;
mod begin;
mod chain;
mod check;
mod checksums;
mod clock;
mod file;
mod files;
mod found;
mod head;
mod links;
mod listing;
mod live;
mod postgres;
mod renew;
mod rows;
mod seal;
mod snapshot;
mod still;
mod store;
mod tables;
mod views;

pub use about::{user_of, user_of_subject};
pub use append::{Failed, Group, Journal, Saved};
pub use author::Author;
pub use begin::{begin, brought, now, Brought, Key, LONGEST_NAME};
pub use check::check;
pub use files::{lock, private};
pub use found::{found, last, of, replay, said, there, Found, Look, Unfit};
pub use listing::{list, moment, time, time_of, Filter};
pub use live::Live;
pub use postgres::{is_database, shown, with_desk, Sight, Takeover, Watch};
pub use seal::{print as print_seal, Seal};
pub use still::Still;
pub use store::{is_there, open, reading, How, Known, Store, Whose, Writes};

use crate::names::Naming;
use records::{Record, LENGTH};
use std::sync::Arc;

/// The version of the tables that is written.
pub const VERSION: i64 = 3;

/// The oldest version that is read. The rows of version 1 lack the account, which nobody can add.
pub const OLDEST: i64 = 2;

/// The layout of the snapshots' buffers (docs/STATE.md): another one is another number.
pub const LAYOUT: i64 = 3;

/// What marks an SQLite file as a journal: "MISH".
pub const APPLICATION: i64 = 0x4d49_5348;

/// A request's bytes: a whole record, or a cut one.
#[derive(Clone, Copy, PartialEq, Eq, Debug)]
pub struct Bytes {
    bytes: [u8; LENGTH],
    length: u8,
}

impl Bytes {
    /// Of at most sixteen bytes; what is after them is left out.
    pub fn of(given: &[u8]) -> Bytes {
        let mut bytes = [0; LENGTH];
        let length = given.len().min(LENGTH);
        bytes[..length].copy_from_slice(&given[..length]);
        Bytes {
            bytes,
            length: length as u8,
        }
    }

    /// The record, where it is whole.
    pub fn record(&self) -> Option<Record> {
        (usize::from(self.length) == LENGTH).then_some(Record(self.bytes))
    }
}

impl AsRef<[u8]> for Bytes {
    fn as_ref(&self) -> &[u8] {
        &self.bytes[..usize::from(self.length)]
    }
}

/// One request and its reply, as the journal has them.
#[derive(Clone, PartialEq, Eq, Debug)]
pub struct Row {
    /// From 1, without a gap.
    pub number: i64,
    /// Microseconds since 1970, UTC, as the clock had it: where the clock was set back, below that of the row before.
    pub at: i64,
    /// The connection that it came by, from 1 at each start.
    pub client: i64,
    /// Who asked: the account that the connection was established as.
    pub account: Arc<str>,
    /// The account that spoke for it, where that was another.
    pub via: Option<Arc<str>>,
    /// The user whom the request names, or whose subject it names.
    pub user: Option<u16>,
    pub bytes: Bytes,
    pub reply: u8,
    pub place: u16,
    /// The number of the request that opened the order that this one is about, where that order is open.
    pub opening: Option<i64>,
    /// The key that its client gave it, by which it is asked once however often it is sent.
    pub key: Option<Arc<str>>,
    /// The row of another journal that a move brought it from.
    pub moved: Option<Moved>,
    /// The names that its line gave, where it was granted.
    pub namings: Vec<Naming>,
}

impl Row {
    /// What a move would bring of it: a row that was moved already keeps its first time and account.
    pub fn origin(&self) -> Moved {
        let (at, account) = match &self.moved {
            Some(moved) => (moved.at, &moved.account),
            None => (self.at, &self.account),
        };
        Moved {
            number: self.number,
            at,
            account: account.clone(),
            opening: self.opening,
        }
    }
}

/// A row of the journal that a desk was moved from.
#[derive(Clone, PartialEq, Eq, Debug)]
pub struct Moved {
    /// Its number there.
    pub number: i64,
    /// When it was asked, and by whom: also where it had been moved there already.
    pub at: i64,
    pub account: Arc<str>,
    /// The opening there.
    pub opening: Option<i64>,
}

/// What a request was answered, as it is told to whoever sends it again by its key.
#[derive(Clone, Copy, PartialEq, Eq, Debug)]
pub struct Recorded {
    pub number: i64,
    pub bytes: Bytes,
    pub reply: u8,
    pub place: u16,
}

impl Recorded {
    pub fn of(row: &Row) -> Recorded {
        Recorded {
            number: row.number,
            bytes: row.bytes,
            reply: row.reply,
            place: row.place,
        }
    }
}

/// What an account may not ask: it was not put to the engine.
#[derive(Clone, PartialEq, Eq, Debug)]
pub struct Barred {
    pub at: i64,
    pub client: i64,
    pub account: Arc<str>,
    pub via: Option<Arc<str>>,
    /// The record's bytes; none for a question or a connection.
    pub record: Option<Bytes>,
    /// The same in words.
    pub asked: String,
    pub why: String,
}
