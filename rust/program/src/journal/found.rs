//! A journal read: the last snapshot, and what follows it asked again, every reply compared with the one that was given. Nothing is
//! written here: a journal that is refused stays as it is.

use super::about::user_of;
use super::head::Head;
use super::links::{Kept, Links};
use super::rows::Step;
use super::snapshot::Snapshot;
use super::store::{reading, Store};
use super::{shown, Live, Row};
use crate::source::Policy;
use crate::stop::Stop;
use mishantral::Engine;

/// A desk as its journal leaves it.
pub struct Found {
    pub policy: Policy,
    /// The names that hold, and the openings of the orders that are open.
    pub live: Live,
    pub engine: Engine,
    /// The version of its tables.
    pub version: i64,
    /// The last request, the sums so far and its time.
    pub last: i64,
    pub links: Links,
    pub at: i64,
    /// The last snapshot that was used, and how many requests were asked again after it.
    pub snapshot: i64,
    pub replayed: i64,
    /// Whether its last snapshot has another layout, so that everything was asked again.
    pub relaid: bool,
}

/// Why a journal is refused.
pub struct Unfit(pub String);

impl From<rusqlite::Error> for Unfit {
    fn from(why: rusqlite::Error) -> Unfit {
        use rusqlite::ErrorCode::{CannotOpen, DatabaseCorrupt, NotADatabase};
        match why.sqlite_error_code() {
            Some(DatabaseCorrupt) => Unfit(format!("it is damaged: {why}")),
            Some(NotADatabase) => Unfit("it is no journal, or its head is damaged".to_string()),
            Some(CannotOpen) => Unfit(format!("it cannot be opened: {why}")),
            _ => Unfit(format!("it cannot be read: {why}")),
        }
    }
}

pub fn unfit<T>(why: impl Into<String>) -> Result<T, Unfit> {
    Err(Unfit(why.into()))
}

/// Reads a journal: from its last snapshot, or where `whole` from the load on.
pub fn found(file: &str, whole: bool) -> Result<Found, Stop> {
    read(file, whole, &mut |_: &Row, _: &Found| Ok(()))
}

/// Asks a whole journal again from its load on; `look` sees each row, and the desk after it.
pub fn replay(file: &str, look: &mut dyn FnMut(&Row, &Found)) -> Result<Found, Stop> {
    read(file, true, &mut |row: &Row, found: &Found| {
        look(row, found);
        Ok(())
    })
}

fn read(file: &str, whole: bool, look: &mut dyn Look) -> Result<Found, Stop> {
    let store = reading(file)?;
    let read = of(&*store, whole, look);
    read.map_err(|Unfit(why)| Stop::Refused(vec![format!("{}: {why}", shown(file))]))
}

/// The number of the last request; nothing is asked again for that.
pub fn last(file: &str) -> Result<i64, Stop> {
    let last = reading(file)?.last();
    last.map_err(|Unfit(why)| Stop::Refused(vec![format!("{}: {why}", shown(file))]))
}

/// Whoever looks on while a journal is asked again.
pub trait Look {
    /// A row is about to be asked. The engine is as the rows before it left it; what is tried out on it must be taken back.
    fn before(&mut self, _row: &Row, _engine: &mut Engine) -> Result<(), Unfit> {
        Ok(())
    }

    /// A row was asked, and answered as it had been.
    fn after(&mut self, row: &Row, found: &Found) -> Result<(), Unfit>;
}

impl<F: FnMut(&Row, &Found) -> Result<(), Unfit>> Look for F {
    fn after(&mut self, row: &Row, found: &Found) -> Result<(), Unfit> {
        self(row, found)
    }
}

/// A journal that is not there is a wrong name, and no journal that is refused.
pub fn there(file: &str) -> Result<(), Stop> {
    match std::fs::metadata(file) {
        Ok(_) => Ok(()),
        Err(why) => Err(Stop::Wrong(vec![format!(
            "{file}: it cannot be opened: {why}"
        )])),
    }
}

/// The same of an open one; `look` sees each row that is asked again.
pub fn of(store: &dyn Store, whole: bool, look: &mut dyn Look) -> Result<Found, Unfit> {
    let mut found = Found::loaded(store.head()?)?;
    if !whole {
        found.skip(store)?;
    }
    found.behind(store, look)?;
    if found.replayed == 0 && found.last > 0 {
        found.at = store.kept(found.last)?.map_or(0, |(_, at)| at);
    }
    Ok(found)
}

impl Found {
    /// The desk as its policy was loaded.
    fn loaded(head: Head) -> Result<Found, Unfit> {
        let Head {
            version,
            policy,
            links,
        } = head;
        let mut engine = Engine::new();
        if let Err(refused) = engine.load(&policy.bytes) {
            return unfit(format!("its policy is refused now: {refused}"));
        }
        Ok(Found {
            live: Live::new(policy.names.clone()),
            policy,
            engine,
            version,
            last: 0,
            links,
            at: 0,
            snapshot: 0,
            replayed: 0,
            relaid: false,
        })
    }

    /// Goes on from the last snapshot, where its layout is the library's.
    fn skip(&mut self, store: &dyn Store) -> Result<(), Unfit> {
        let Some(taken) = store.snapshot_before(i64::MAX)? else {
            return Ok(());
        };
        taken.bound(store)?;
        if !taken.fits() {
            self.relaid = true;
            return Ok(());
        }
        self.engine = Engine::from_state(taken.state()?);
        self.live = taken.live()?;
        let Snapshot { after, row_sum, .. } = taken;
        (self.last, self.snapshot) = (after, after);
        self.links = Links::behind(row_sum);
        Ok(())
    }

    /// Asks every request again that is after this one.
    fn behind(&mut self, store: &dyn Store, look: &mut dyn Look) -> Result<(), Unfit> {
        let known = store.each(self.version, self.last, &mut |step| match step {
            Step::Note(note) => {
                self.links.note(&note);
                Ok(())
            }
            Step::Row(row, kept) => {
                look.before(&row, &mut self.engine)?;
                self.follow(&row, kept)?;
                self.at = row.at;
                look.after(&row, self)
            }
        })?;
        let last = self.last;
        match known {
            None => Ok(()),
            Some(known) => unfit(format!(
                "it was cut: it ends with request {last}, and its other tables know of request {known}"
            )),
        }
    }

    /// It must be of a policy, where one is given; or what is reported.
    pub fn of_policy(&self, policy: Option<&Policy>) -> Result<(), String> {
        let other = |given: &&Policy| given.bytes != self.policy.bytes;
        match policy.filter(other) {
            None => Ok(()),
            Some(given) => Err(format!(
                "it is of another policy than {}: it was begun with {}",
                given.file, self.policy.file
            )),
        }
    }

    /// Asks one request again: it must be the next, as it was written, and be answered as it was.
    fn follow(&mut self, row: &Row, kept: Kept) -> Result<(), Unfit> {
        let number = row.number;
        if number != self.last + 1 {
            return unfit(format!(
                "it is damaged: request {} is missing",
                self.last + 1
            ));
        }
        if self.links.row(row) != kept {
            return unfit(format!(
                "it is damaged: request {number} does not have its checksum"
            ));
        }
        let record = row.bytes.record();
        let whose = record.and_then(|record| user_of(&record, &self.engine.state().sessions));
        let before = record.and_then(|record| self.live.opening(&record));
        let answer = self.engine.request(row.bytes.as_ref());
        let (reply, place) = (answer.reply.number(), answer.place as u16);
        if let (true, Some(record)) = (answer.is_granted(), record) {
            self.live.granted(number, &record, &row.namings);
        }
        let opening = before.or_else(|| self.live.opening(&record?));
        if (reply, place, whose) != (row.reply, row.place, row.user) {
            let line = notation::line(row.bytes.as_ref());
            let now = (reply, place);
            let then = (row.reply, row.place);
            return unfit(format!(
                "request {number}, {line}: the engine answers {}, and had answered {}: this is not the library that it was written with",
                said(now), said(then)
            ));
        }
        if opening != row.opening {
            return unfit(format!(
                "request {number}: it is of opening {opening:?}, and had been of {:?}",
                row.opening
            ));
        }
        self.last = number;
        self.replayed += 1;
        Ok(())
    }
}

/// `15 SEPARATION, rule 1`.
pub fn said((reply, place): (u8, u16)) -> String {
    let name = records::Reply::from_number(reply.into()).map_or("", |reply| reply.name());
    let rule = if place == 0 {
        String::new()
    } else {
        format!(", rule {place}")
    };
    format!("{reply} {name}{rule}")
}
