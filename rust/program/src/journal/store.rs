//! What the rest of the program needs of a journal, wherever it is kept: in an SQLite file, or in PostgreSQL.

use super::found::{Found, Unfit};
use super::head::Head;
use super::links::Kept;
use super::postgres::{self, is_database, Place, Takeover};
use super::rows::Step;
use super::snapshot::Snapshot;
use super::{file, Barred, Failed, Group, Journal, Key, Live, Recorded, Row, Saved};
use crate::names::Sort;
use crate::source::Policy;
use crate::stop::Stop;
use mishantral::State;
use std::collections::{BTreeSet, HashMap};
use std::sync::Arc;

/// Who is told each row and note.
pub type Steps<'a> = &'a mut dyn FnMut(Step) -> Result<(), Unfit>;

/// Who is told what was barred, each with the request that it is behind.
pub type Bars<'a> = &'a mut dyn FnMut(i64, Barred) -> Result<(), Unfit>;

/// A journal that is read. All that it tells is of one state, whatever is written meanwhile.
pub trait Store {
    /// What stands before the first request, compared with its sum.
    fn head(&self) -> Result<Head, Unfit>;

    /// Tells the rows behind one, with all that belongs to each. What comes back is a request that the other tables know of, and that is not
    /// there: of a journal that was cut.
    fn each(&self, version: i64, after: i64, tell: Steps) -> Result<Option<i64>, Unfit>;

    /// The last snapshot before a request.
    fn snapshot_before(&self, request: i64) -> Result<Option<Snapshot>, Unfit>;

    /// The snapshot after a request.
    fn snapshot_after(&self, request: i64) -> Result<Option<Snapshot>, Unfit>;

    /// After which requests there are snapshots.
    fn snapshots(&self) -> Result<Vec<i64>, Unfit>;

    /// The sum of a request and its time.
    fn kept(&self, number: i64) -> Result<Option<(Kept, i64)>, Unfit>;

    /// The last request; 0 where there is none.
    fn last(&self) -> Result<i64, Unfit>;

    /// The first request at a time or later.
    fn first_since(&self, at: i64) -> Result<Option<i64>, Unfit>;

    /// The requests that gave a name to one of a sort.
    fn gave(&self, sort: Sort, name: &[u8]) -> Result<BTreeSet<i64>, Unfit>;

    /// The name that an opening of an order was given, by the request that opened it.
    fn name_of_opening(&self, opening: i64) -> Result<Option<Vec<u8>>, Unfit>;

    /// When the clock was set: behind which request, and from which time to which.
    fn jumps(&self) -> Result<Vec<(i64, i64, i64)>, Unfit>;

    /// Tells what was barred from one time to another.
    fn barred(&self, since: i64, until: i64, tell: Bars) -> Result<(), Unfit>;

    /// The granted requests from one on that open, end or work on orders, without the names that they give.
    fn worked(&self, first: i64) -> Result<Vec<Row>, Unfit>;

    /// The last so many requests that were refused, in their order.
    fn refused(&self, count: i64) -> Result<Vec<Row>, Unfit>;

    /// The keys that a move brought.
    fn moved_keys(&self) -> Result<Vec<Key>, Unfit>;

    /// Whether the store finds its own tables sound.
    fn sound(&self) -> Result<(), Unfit>;
}

/// An account and a key of its own.
pub type Whose = (Arc<str>, Arc<str>);

/// What accounts were answered under their keys.
pub type Known = HashMap<Whose, Recorded>;

/// A journal that one server writes.
pub trait Writes: Send {
    /// The time of a group that is written now.
    fn time(&mut self) -> i64;

    /// Writes a group, whole or not at all.
    fn write(&mut self, group: &Group) -> Result<(), Failed>;

    /// What these accounts were answered under these keys since a time.
    fn known(&mut self, keyed: &[Whose], since: i64) -> Result<Known, Failed>;

    /// What is to be looked after while nobody asks.
    fn looked_after(&mut self) -> Result<(), Failed>;

    /// Takes a snapshot of the desk as it stands: what comes last at an end that was asked for.
    fn finish(&mut self, state: &State, live: &Live) -> Result<(), Failed>;
}

/// The place in a database that a word names.
pub fn place_of(word: &str) -> Result<Place, Stop> {
    let wrong = |why: String| Stop::Wrong(vec![format!("{}: {why}", postgres::shown(word))]);
    Place::of(word).map_err(wrong)
}

/// Opens a journal for reading alone.
pub fn reading(word: &str) -> Result<Box<dyn Store>, Stop> {
    if is_database(word) {
        return Ok(Box::new(postgres::Reading::open(&place_of(word)?)?));
    }
    super::there(word)?;
    let file = file::File::open(word);
    let file = file.map_err(|Unfit(why)| Stop::Refused(vec![format!("{word}: {why}")]))?;
    Ok(Box::new(file))
}

/// Whether a journal is there.
pub fn is_there(word: &str) -> Result<bool, Stop> {
    if !is_database(word) {
        return Ok(std::path::Path::new(word).exists());
    }
    let place = place_of(word)?;
    let shown = place.shown.clone();
    let there = postgres::Reading::is_there(&place);
    there.map_err(|why| Stop::Wrong(vec![format!("{shown}: it cannot be opened: {why}")]))
}

/// How a journal is to be written.
#[derive(Clone)]
pub struct How {
    /// A snapshot is taken after so many requests.
    pub every: i64,
    pub saved: Saved,
    /// The policy that it must be of.
    pub policy: Option<Policy>,
    pub takeover: Takeover,
}

/// Reads a journal, and opens it for writing where it is fit and nobody else writes it.
pub fn open(word: &str, how: &How) -> Result<(Box<dyn Writes>, Found), Stop> {
    if is_database(word) {
        let (journal, found) = postgres::Journal::open(&place_of(word)?, how)?;
        return Ok((Box::new(journal), found));
    }
    let (journal, found) = Journal::open(word, how.every, how.saved, how.policy.as_ref())?;
    Ok((Box::new(journal), found))
}
