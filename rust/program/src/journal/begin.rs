//! A new journal: made whole beside its place, and put there by its name alone, so that a journal that is there is whole.

use super::about::about;
use super::append::{keep, rows};
use super::chain::{Chain, Sum};
use super::files::{self, Locks};
use super::views::VIEWS;
use super::{head, postgres};
use super::{tables, Live, Row, APPLICATION, VERSION};
use crate::desk::Desk;
use crate::names::{Naming, Sort};
use crate::source::Policy;
use crate::stop::{wrong, Stop};
use mishantral::{Refused, State};
use records::forms::{parts, FORMS};
use records::{Record, Reply};
use rusqlite::{params, Connection};
use std::fs::{self, File};
use std::path::{Path, PathBuf};

/// The program's version, as journals keep it.
pub const PROGRAM: &str = env!("CARGO_PKG_VERSION");

/// A journal's file with something after its name, as SQLite has its own files.
pub fn beside(file: &Path, behind: &str) -> PathBuf {
    let mut name = file.as_os_str().to_owned();
    name.push(behind);
    PathBuf::from(name)
}

/// Microseconds since 1970.
pub fn now() -> i64 {
    let since = std::time::SystemTime::now().duration_since(std::time::UNIX_EPOCH);
    since.map_or(0, |since| since.as_micros() as i64)
}

/// The longest name that a journal takes, in bytes.
pub const LONGEST_NAME: usize = 64;

/// What a move brings into a new journal, after its head.
pub struct Brought<'a> {
    /// The journal that the desk was moved from, its last request, and the sum of that where rows are chained there.
    pub from: &'a str,
    pub number: i64,
    pub sum: Option<Sum>,
    pub keys: &'a [Key],
    pub rows: &'a [Row],
    /// The desk after these rows.
    pub state: &'a State,
    pub live: &'a Live,
}

/// A key that a request of another journal had, with what that one was answered.
#[derive(Clone, PartialEq, Eq, Debug)]
pub struct Key {
    pub account: String,
    pub key: String,
    pub number: i64,
    pub at: i64,
    pub record: Vec<u8>,
    pub reply: u8,
    pub place: u16,
}

/// Makes a journal of an accepted policy, where there is none, in a file or in a database. A refused policy is reported by the caller.
pub fn begin(file: &str, policy: &Policy) -> Result<Result<(), Refused>, Stop> {
    if let Err(refused) = Desk::open(policy) {
        return Ok(Err(refused));
    }
    whole(file, policy, None).map(Ok)
}

/// Makes a journal with what a move brings, where there is none.
pub fn brought(file: &str, policy: &Policy, brought: &Brought) -> Result<(), Stop> {
    whole(file, policy, Some(brought))
}

/// Whole, or not there.
fn whole(file: &str, policy: &Policy, brought: Option<&Brought>) -> Result<(), Stop> {
    if let Some(long) = namings(policy).iter().find(|n| n.name.len() > LONGEST_NAME) {
        let (word, number, length) = (long.sort.word(), long.number, long.name.len());
        return wrong(format!(
            "{}: the name of {word} {number} has {length} bytes: a journal takes {LONGEST_NAME}",
            policy.file
        ));
    }
    if postgres::is_database(file) {
        let made =
            postgres::Place::of(file).and_then(|place| postgres::begin(&place, policy, brought));
        let shown = postgres::shown(file);
        return made.map_err(|why| Stop::Wrong(vec![format!("{shown}: it cannot be made: {why}")]));
    }
    let (place, new) = (Path::new(file), beside(Path::new(file), ".new"));
    // Whoever begins one at the same time waits for none of it.
    let _lock = Locks::take(place).map_err(|why| Stop::Refused(vec![format!("{file}: {why}")]))?;
    if place.exists() {
        return wrong(format!("{file}: it is there already"));
    }
    let away = || {
        for behind in ["", "-wal", "-shm", "-journal"] {
            let _ = fs::remove_file(beside(&new, behind));
        }
    };
    away();
    let done = made(&new, policy, brought).and_then(|()| put(&new, place));
    done.map_err(|why| {
        away();
        Stop::Wrong(vec![format!("{file}: it cannot be made: {why}")])
    })
}

/// Puts a whole journal into its place, by its name alone.
fn put(new: &Path, place: &Path) -> Result<(), String> {
    let failed = |why: std::io::Error| why.to_string();
    let made = File::open(new).and_then(|made| made.sync_all());
    made.map_err(failed)?;
    fs::rename(new, place).map_err(failed)?;
    let folder = File::open(files::folder_of(place)).and_then(|folder| folder.sync_all());
    folder.map_err(failed)
}

fn made(new: &Path, policy: &Policy, brought: Option<&Brought>) -> Result<(), String> {
    files::private(new).map_err(|why| why.to_string())?;
    filled(new, policy, brought).map_err(|why| why.to_string())?;
    // What is in a log beside it would be lost with the name.
    match fs::metadata(beside(new, "-wal")).map_or(0, |log| log.len()) {
        0 => Ok(()),
        _ => Err("its log could not be moved into it".to_string()),
    }
}

/// Without a log as long as it is filled: a disk that gets full then shows at once. The log's mode comes last, and is one page.
fn filled(new: &Path, policy: &Policy, brought: Option<&Brought>) -> rusqlite::Result<()> {
    let mut connection = Connection::open(new)?;
    connection.pragma_update(None, "synchronous", "FULL")?;
    let act = connection.transaction()?;
    act.pragma_update(None, "application_id", APPLICATION)?;
    act.pragma_update(None, "user_version", VERSION)?;
    declared(&act, policy)?;
    match brought {
        None => drop(sealed(&act)?),
        Some(brought) => moved_in(&act, brought)?,
    }
    act.commit()?;
    let sound: String = connection.query_row("PRAGMA integrity_check(1)", [], |r| r.get(0))?;
    let mode: String = connection.query_row("PRAGMA journal_mode = WAL", [], |r| r.get(0))?;
    if (sound.as_str(), mode.as_str()) != ("ok", "wal") {
        let why = format!("{sound}; the log's mode is {mode}");
        return Err(rusqlite::Error::InvalidParameterName(why));
    }
    connection.close().map_err(|(_, why)| why)
}

/// Tables, views and the policy.
fn declared(act: &Connection, policy: &Policy) -> rusqlite::Result<()> {
    act.execute_batch(tables::NEW)?;
    act.execute_batch(tables::KEPT)?;
    act.execute_batch(VIEWS)?;
    words(act)?;
    let [policy_words, sessions_words, orders_words] = lengths();
    act.execute(
        "INSERT INTO journal VALUES (1, ?1, ?2, ?3, ?4, ?5, ?6, ?7, NULL, NULL, NULL, x'')",
        params![
            VERSION,
            PROGRAM,
            policy_words,
            sessions_words,
            orders_words,
            now(),
            policy.file
        ],
    )?;
    for (place, record) in policy.records().iter().enumerate() {
        let line = policy.lines.get(place).map(|&line| line as i64);
        let [kind, n, a, b, c, m] = fields(record);
        act.execute(
            "INSERT INTO policy VALUES (?1, ?2, ?3, ?4, ?5, ?6, ?7, ?8, ?9)",
            params![
                place as i64 + 1,
                line,
                kind,
                n,
                a,
                b,
                c,
                m,
                policy.line(place)
            ],
        )?;
    }
    for naming in namings(policy) {
        let Naming {
            sort, number, name, ..
        } = &naming;
        act.execute(tables::INSERT_NAME, params![0, sort.word(), number, name])?;
    }
    Ok(())
}

/// What a move brings: where from, the keys, and requests that were granted, with a snapshot after them.
fn moved_in(act: &Connection, brought: &Brought) -> rusqlite::Result<()> {
    let sum = brought.sum.as_ref().map(|sum| &sum[..]);
    act.execute(
        "UPDATE journal SET moved_from = ?1, moved_number = ?2, moved_sum = ?3",
        params![brought.from, brought.number, sum],
    )?;
    for one in brought.keys {
        act.execute(
            "INSERT OR IGNORE INTO moved_key VALUES (?1, ?2, ?3, ?4, ?5, ?6, ?7)",
            params![
                one.account,
                one.key,
                one.number,
                one.at,
                one.record,
                one.reply,
                one.place
            ],
        )?;
    }
    let mut chain = Chain::behind(sealed(act)?);
    rows(act, brought.rows, &mut chain)?;
    match brought.rows.last() {
        None => Ok(()),
        Some(last) => keep(act, last.number, chain.head(), brought.state, brought.live),
    }
}

/// Gives the head its sum, which the sums of all requests are after.
pub fn sealed(act: &Connection) -> rusqlite::Result<Sum> {
    let sum = head::sum(act)?;
    act.execute("UPDATE journal SET sum = ?1", [&sum[..]])?;
    Ok(sum)
}

/// The kinds of requests: each with its line, and which fields are the subject, the order and the task.
pub fn kinds() -> impl Iterator<Item = (u8, String, [Option<&'static str>; 3])> {
    let requests = FORMS.into_iter().filter(|&(kind, _)| kind >= 32);
    requests.map(|(kind, pattern)| {
        let line: Vec<String> = parts(pattern).map(|part| part.to_string()).collect();
        let of = |sort| about(kind).column(sort);
        let columns = [of(Sort::Subject), of(Sort::Order), of(Sort::Task)];
        (kind, line.join(" "), columns)
    })
}

/// The replies' names and the kinds' lines, for those who read with SQL.
fn words(act: &Connection) -> rusqlite::Result<()> {
    for reply in Reply::ALL {
        act.execute(
            "INSERT INTO reply VALUES (?1, ?2)",
            params![reply.number(), reply.name()],
        )?;
    }
    for (kind, line, [subject, order, task]) in kinds() {
        act.execute(
            "INSERT OR REPLACE INTO kind VALUES (?1, ?2, ?3, ?4, ?5)",
            params![kind, line, subject, order, task],
        )?;
    }
    Ok(())
}

/// A record's fields as the tables have them: m as a signed number.
pub fn fields(record: &Record) -> [i64; 6] {
    let [a, b, c] = [record.a(), record.b(), record.c()].map(i64::from);
    [
        record.kind().into(),
        record.n().into(),
        a,
        b,
        c,
        record.m() as i64,
    ]
}

/// The buffers' lengths in words, which the library says.
pub fn lengths() -> [i64; 3] {
    let state = State::zeroed();
    [&state.policy, &state.sessions, &state.orders].map(|buffer| buffer.len() as i64)
}

/// The names that a policy gives, each sort by number.
pub fn namings(policy: &Policy) -> Vec<Naming> {
    let of = |sort: Sort| {
        let named = policy
            .names
            .of_sort(sort)
            .map(move |(number, _)| (sort, number));
        named.collect::<Vec<(Sort, u16)>>()
    };
    let one = |(sort, number)| {
        let name = policy.names.name(sort, number)?.to_vec();
        let column = 0;
        Some(Naming {
            sort,
            number,
            name,
            column,
        })
    };
    Sort::ALL.into_iter().flat_map(of).filter_map(one).collect()
}
