//! Writing a journal: groups of requests with their replies, one transaction each, and snapshots among them.

use super::begin::{fields, now, PROGRAM};
use super::chain::{Chain, Note, Start, Sum};
use super::clock::Clock;
use super::file::reading;
use super::files::{self, Identity, Locks, Reserve};
use super::found::Unfit;
use super::links::{Kept, Links};
use super::rows::record;
use super::snapshot::Snapshot;
use super::store::Writes;
use super::{
    found, head, renew, tables, Barred, Bytes, Found, Known, Live, Recorded, Row, Whose, VERSION,
};
use crate::report::report;
use crate::source::Policy;
use crate::stop::Stop;
use mishantral::State;
use rusqlite::{params, Connection, ErrorCode, OpenFlags, OptionalExtension, Statement};
use std::path::{Path, PathBuf};
use std::sync::Arc;

/// How sure a reply is of its place on the disk.
#[derive(Clone, Copy, PartialEq, Eq, Debug)]
pub enum Saved {
    /// Before a reply is sent the disk has said that it has it: nothing answered is lost when the power fails.
    Full,
    /// The system has it: nothing answered is lost when the program is killed; the last of it may be when the power fails.
    Normal,
    /// As `Full`, and a standby of the database has it too: nothing answered is lost with a machine.
    Replicated,
}

/// Why a group was not written.
#[derive(Debug)]
pub enum Failed {
    /// There is no room, or another program keeps the file to itself: nothing of it is in the journal, and the next group may be tried.
    NotDone(String),
    /// What the file holds is not known until it is read again.
    Lost(String),
}

/// A journal that one server writes.
pub struct Journal {
    connection: Connection,
    file: PathBuf,
    identity: Identity,
    reserve: Reserve,
    /// Held as long as this lives: a journal has one writer.
    _locks: Locks,
    last: i64,
    chain: Chain,
    clock: Clock,
    /// A snapshot is taken after that many requests.
    every: i64,
    snapshot: i64,
    /// The size at which a log that does not shrink is reported next.
    large: u64,
}

/// What a group brings to the journal.
pub struct Group<'a> {
    pub rows: &'a [Row],
    pub barred: &'a [Barred],
    /// The desk after it.
    pub state: &'a State,
    pub live: &'a Live,
}

impl Journal {
    /// Reads a journal, and opens it for writing where it is fit, of the policy if one is given, and nobody else writes it.
    pub fn open(
        file: &str,
        every: i64,
        saved: Saved,
        policy: Option<&Policy>,
    ) -> Result<(Journal, Found), Stop> {
        let refused = |why: String| Stop::Refused(vec![format!("{file}: {why}")]);
        if saved == Saved::Replicated {
            return Err(Stop::Wrong(vec![format!(
                "{file}: --saved replicated: a file has no standby; a journal in PostgreSQL has (docs/SCALE.md)"
            )]));
        }
        let path = Path::new(file);
        // Where it is none, no file is made beside it.
        let read = reading(file);
        let read = read.map_err(|why| refused(format!("it cannot be opened: {why}")))?;
        let locks = Locks::take(path).map_err(refused)?;
        let version = head::version(&read).map_err(|Unfit(why)| refused(why))?;
        drop(read);
        // What an earlier version wrote is asked again from its load on before it is written again.
        let found = found(file, version < VERSION)?;
        found.of_policy(policy).map_err(refused)?;
        let unwritten = |why: String| refused(format!("it cannot be written: {why}"));
        guarded(path).map_err(unwritten)?;
        let opened = opened(file, saved);
        let connection = opened.map_err(|why| unwritten(why.to_string()))?;
        let chain = match &found.links {
            Links::Chain(chain) => chain.clone(),
            Links::Checksums(_) => {
                renew::renewed(&connection, &found).map_err(|Unfit(why)| unwritten(why))?
            }
        };
        let identity = Identity::of(path).map_err(refused)?;
        let (reserve, none) = Reserve::make(path);
        none.iter().for_each(report);
        let limits = limited(&connection, &reserve);
        limits.map_err(|why| unwritten(why.to_string()))?;
        let mut journal = Journal {
            connection,
            file: path.to_path_buf(),
            identity,
            large: 4 * reserve.bytes(),
            reserve,
            _locks: locks,
            last: found.last,
            chain,
            clock: Clock::after(found.at),
            every,
            snapshot: found.snapshot,
        };
        let started = journal.started(&found);
        started.map_err(|why| unwritten(why.to_string()))?;
        Ok((journal, found))
    }

    /// Writes that it was started, so that what cannot be written shows before anyone is answered; and a snapshot, where the last one is of no
    /// use to this program.
    fn started(&mut self, found: &Found) -> rusqlite::Result<()> {
        let start = Start {
            at: now(),
            program: PROGRAM.to_string(),
        };
        let act = self.connection.unchecked_transaction()?;
        act.execute(
            tables::INSERT_START,
            params![start.at, self.last, start.program],
        )?;
        if (found.relaid || found.version < VERSION) && self.last > 0 {
            keep(
                &self.connection,
                self.last,
                self.chain.head(),
                found.engine.state(),
                &found.live,
            )?;
            self.snapshot = self.last;
            report(format!(
                "{}: it was written by another version of the program: {} requests were asked anew, all answered as before",
                self.file.display(),
                self.last
            ));
        }
        act.commit()?;
        self.chain.note(&Note::Start(start));
        Ok(())
    }

    fn tried(&mut self, group: &Group) -> Result<(), Failed> {
        match self.wrote(group) {
            Ok((last, chain, snapshot)) => {
                (self.last, self.chain, self.snapshot) = (last, chain, snapshot);
                self.clock.jump = None;
                Ok(())
            }
            Err(why) => {
                if !self.connection.is_autocommit() {
                    let _ = self.connection.execute_batch("ROLLBACK");
                }
                Err(failed(&why))
            }
        }
    }

    fn wrote(&self, group: &Group) -> rusqlite::Result<(i64, Chain, i64)> {
        let run = |sql| self.connection.prepare_cached(sql)?.execute([]);
        run("BEGIN IMMEDIATE")?;
        let mut chain = self.chain.clone();
        // What was barred stands after the last request of the group before.
        self.notes(group.barred, &mut chain)?;
        rows(&self.connection, group.rows, &mut chain)?;
        let last = group.rows.last().map_or(self.last, |row| row.number);
        let taken = last - self.snapshot >= self.every;
        if taken {
            keep(
                &self.connection,
                last,
                chain.head(),
                group.state,
                group.live,
            )?;
        }
        run("COMMIT")?;
        Ok((last, chain, if taken { last } else { self.snapshot }))
    }

    /// What was barred, and that the clock was set.
    fn notes(&self, barred: &[Barred], chain: &mut Chain) -> rusqlite::Result<()> {
        for one in barred {
            let mut insert = self.connection.prepare_cached(tables::INSERT_BARRED)?;
            let record = one.record.as_ref().map(|record| record.as_ref());
            insert.execute(params![
                one.at,
                self.last,
                one.client,
                &*one.account,
                one.via.as_deref(),
                record,
                one.asked,
                one.why
            ])?;
            chain.note(&Note::Barred(one.clone()));
        }
        if let Some(jump) = self.clock.jump {
            let mut insert = self.connection.prepare_cached(tables::INSERT_CLOCK)?;
            insert.execute(params![self.last, jump.expected, jump.found])?;
            chain.note(&Note::Clock(jump));
        }
        Ok(())
    }

    /// Gives the reserve up for moving the log into the journal; whether that made room.
    fn freed(&mut self) -> bool {
        let before = self.identity.kept().unwrap_or(0);
        self.reserve.give_up();
        let moved = self.truncated();
        let after = self.identity.kept().unwrap_or(before);
        let again = self.reserve.fill();
        if moved && after < before {
            let left = if again.is_ok() {
                ""
            } else {
                ", and none of it is left"
            };
            report(format!(
                "{}: the disk is full: {} bytes of log were moved into the journal with the room of the reserve{left}",
                self.file.display(),
                before - after
            ));
        }
        moved && after < before
    }

    /// Moves the log into the journal and cuts it off, unless somebody reads.
    fn truncated(&self) -> bool {
        let sql = "PRAGMA wal_checkpoint(TRUNCATE)";
        let patience = |seconds| {
            let time = std::time::Duration::from_secs(seconds);
            self.connection.busy_timeout(time)
        };
        let _ = patience(0);
        let busy = self.connection.query_row(sql, [], |r| r.get::<_, i64>(0));
        let _ = patience(PATIENCE);
        busy == Ok(0)
    }

    /// A log that a reader kept from being used again is cut off when that one is gone; until then it is reported.
    fn watched(&mut self, log: u64) {
        if log <= 2 * self.reserve.bytes() {
            self.large = 4 * self.reserve.bytes();
            return;
        }
        if log >= self.large && !self.truncated() {
            report(format!(
                "{}: its log has {log} bytes: a program that reads the journal keeps it from being shortened",
                self.file.display()
            ));
            self.large = 2 * log;
        }
    }

    /// The last request that an account sent with a key: here, or in the journal that the desk was moved from.
    fn recorded(&self, (account, key): &Whose, since: i64) -> rusqlite::Result<Option<Recorded>> {
        let mut select = self.connection.prepare_cached(tables::KNOWN)?;
        let found = select.query_row(params![&**account, &**key, since], |r| {
            let cut: Option<Vec<u8>> = r.get(7)?;
            let bytes = match cut {
                Some(cut) => Bytes::of(&cut),
                None => Bytes::of(&record(r, 1)?.0),
            };
            let (number, reply, place) = (r.get(0)?, r.get(8)?, r.get(9)?);
            Ok(Recorded {
                number,
                bytes,
                reply,
                place,
            })
        });
        found.optional()
    }
}

impl Writes for Journal {
    /// The time of a group that is written now.
    fn time(&mut self) -> i64 {
        self.clock.time()
    }

    /// Writes a group. Where the disk is full, the log is moved into the journal with the room of the reserve, and the group tried once more.
    fn write(&mut self, group: &Group) -> Result<(), Failed> {
        let mut done = self.tried(group);
        if matches!(done, Err(Failed::NotDone(_))) && self.freed() {
            done = self.tried(group);
        }
        done?;
        // What was written into files that are no longer the journal's is lost, and nobody is answered.
        let log = self.identity.kept().map_err(Failed::Lost)?;
        self.watched(log);
        Ok(())
    }

    /// What these accounts were answered under these keys since a time.
    fn known(&mut self, keyed: &[Whose], since: i64) -> Result<Known, Failed> {
        let mut known = Known::new();
        for whose in keyed {
            let recorded = self.recorded(whose, since);
            if let Some(recorded) = recorded.map_err(|why| failed(&why))? {
                known.insert(whose.clone(), recorded);
            }
        }
        Ok(known)
    }

    /// What is to be looked at while nobody asks: the files, and the log.
    fn looked_after(&mut self) -> Result<(), Failed> {
        let log = self.identity.kept().map_err(Failed::Lost)?;
        if log > 2 * self.reserve.bytes() && self.truncated() {
            self.large = 4 * self.reserve.bytes();
        }
        Ok(())
    }

    /// Takes a snapshot of the desk as it stands, and moves the log into the journal: what comes last at an end that was asked for.
    fn finish(&mut self, state: &State, live: &Live) -> Result<(), Failed> {
        let done = match self.last > self.snapshot {
            true => keep(&self.connection, self.last, self.chain.head(), state, live),
            false => Ok(()),
        };
        done.map_err(|why| failed(&why))?;
        self.truncated();
        self.identity.kept().map(drop).map_err(Failed::Lost)
    }
}

/// Takes a snapshot of the desk after a request.
pub fn keep(
    connection: &Connection,
    after: i64,
    sum: Sum,
    state: &State,
    live: &Live,
) -> rusqlite::Result<()> {
    let taken = Snapshot::of(after, Kept::Sum(sum), state, live);
    let [policy, sessions, orders, openings] = &taken.blobs;
    let mut insert = connection.prepare_cached(tables::INSERT_SNAPSHOT)?;
    insert.execute(params![
        after,
        taken.layout,
        &sum[..],
        policy,
        sessions,
        orders,
        openings,
        taken.names,
        &taken.sum()[..]
    ])?;
    Ok(())
}

/// Writes rows, each with its sum.
pub fn rows(connection: &Connection, rows: &[Row], chain: &mut Chain) -> rusqlite::Result<()> {
    let mut insert = connection.prepare_cached(tables::INSERT)?;
    let mut before: Option<&Row> = None;
    for row in rows {
        bound(&mut insert, row, before, chain.row(row))?;
        insert.raw_execute()?;
        before = Some(row);
        for naming in &row.namings {
            let mut insert = connection.prepare_cached(tables::INSERT_NAME)?;
            let (sort, name) = (naming.sort.word(), &naming.name);
            insert.execute(params![row.number, sort, naming.number, name])?;
        }
        if let Some(moved) = &row.moved {
            let mut insert = connection.prepare_cached(tables::INSERT_MOVED)?;
            let account = &*moved.account;
            insert.execute(params![
                row.number,
                moved.number,
                moved.at,
                account,
                moved.opening
            ])?;
        }
    }
    Ok(())
}

/// Binds a row's columns. What is as in the row before stays bound: most of a group's rows have one time, client and account.
pub fn bound(
    insert: &mut Statement,
    row: &Row,
    before: Option<&Row>,
    sum: Sum,
) -> rusqlite::Result<()> {
    insert.raw_bind_parameter(1, row.number)?;
    if before.is_none_or(|b| (b.at, b.client) != (row.at, row.client)) {
        insert.raw_bind_parameter(2, row.at)?;
        insert.raw_bind_parameter(3, row.client)?;
    }
    let same = |b: &Row| Arc::ptr_eq(&b.account, &row.account) && b.via == row.via;
    if !before.is_some_and(same) {
        insert.raw_bind_parameter(4, &*row.account)?;
        insert.raw_bind_parameter(5, row.via.as_deref())?;
    }
    insert.raw_bind_parameter(6, row.user)?;
    let record = row.bytes.record();
    let cut = |row: &Row| row.bytes.record().is_none();
    if record.is_none() || before.is_none_or(cut) {
        let bytes = record.is_none().then_some(row.bytes.as_ref());
        insert.raw_bind_parameter(13, bytes)?;
    }
    for (at, field) in (7..).zip(record.map_or([None; 6], |r| fields(&r).map(Some))) {
        insert.raw_bind_parameter(at, field)?;
    }
    insert.raw_bind_parameter(14, row.reply)?;
    insert.raw_bind_parameter(15, row.place)?;
    insert.raw_bind_parameter(16, row.opening)?;
    if row.key.is_some() || before.is_none_or(|b| b.key.is_some()) {
        insert.raw_bind_parameter(17, row.key.as_deref())?;
    }
    insert.raw_bind_parameter(18, &sum[..])
}

fn failed(why: &rusqlite::Error) -> Failed {
    match why.sqlite_error_code() {
        Some(ErrorCode::DiskFull) => Failed::NotDone("the disk is full".to_string()),
        Some(ErrorCode::DatabaseBusy) => {
            Failed::NotDone("another program keeps the journal to itself".to_string())
        }
        _ => Failed::Lost(why.to_string()),
    }
}

/// Makes the files private and looks at their folder; what is to be known of it is reported.
fn guarded(file: &Path) -> Result<(), String> {
    files::linked_once(file)?;
    let risk = files::folder(file)?;
    let changed = files::tightened(file).map_err(|why| why.to_string())?;
    risk.iter().chain(&changed).for_each(report);
    Ok(())
}

/// How many seconds another program's lock is waited for.
const PATIENCE: u64 = 10;

/// Opens it for writing.
fn opened(file: &str, saved: Saved) -> rusqlite::Result<Connection> {
    let flags = OpenFlags::SQLITE_OPEN_READ_WRITE | OpenFlags::SQLITE_OPEN_NO_MUTEX;
    let connection = Connection::open_with_flags(file, flags)?;
    connection.busy_timeout(std::time::Duration::from_secs(PATIENCE))?;
    connection.pragma_update(
        None,
        "synchronous",
        match saved {
            Saved::Full | Saved::Replicated => "FULL",
            Saved::Normal => "NORMAL",
        },
    )?;
    // A desk reads its journal at its start alone: a small cache is enough.
    connection.pragma_update(None, "cache_size", -512)?;
    Ok(connection)
}

/// The log is moved into the journal before it is larger than the reserve, and cut to that when it is used again.
fn limited(connection: &Connection, reserve: &Reserve) -> rusqlite::Result<()> {
    let set = |name: &str, value: u64| {
        let sql = format!("PRAGMA {name} = {value}");
        connection.query_row(&sql, [], |_| Ok(()))
    };
    set("wal_autocheckpoint", reserve.pages())?;
    set("journal_size_limit", reserve.bytes())
}
