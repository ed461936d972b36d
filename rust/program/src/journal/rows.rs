//! Rows as the tables have them, of any version: requests, with the names that they gave and what they were moved from, and notes.

use super::begin::Key;
use super::chain::{Note, Start};
use super::clock::Jump;
use super::found::{unfit, Unfit};
use super::links::Kept;
use super::{head, Barred, Bytes, Moved, Row};
use crate::names::{Naming, Sort};
use records::Record;
use rusqlite::{Connection, Rows};
use std::collections::BTreeMap;

/// What a journal says, in its order.
pub enum Step {
    /// What stands between the request before it and the next one.
    Note(Note),
    /// A request with its reply, and the sum that it has.
    Row(Row, Kept),
}

/// Tells the rows of a table of requests after one, with all that belongs to each. What comes back is a request that the other tables know
/// of, and that is not there: of a journal that was cut.
pub fn each(
    act: &Connection,
    (version, table): (i64, &str),
    after: i64,
    tell: &mut dyn FnMut(Step) -> Result<(), Unfit>,
) -> Result<Option<i64>, Unfit> {
    let mut select = act.prepare(&select(version, table))?;
    let mut rows = select.query([after])?;
    // Names are read beside their requests, so that memory does not grow with them.
    let mut names = act.prepare(GIVEN)?;
    let mut names = names.query([after])?;
    let mut name = naming_of(&mut names)?;
    let mut notes = act.prepare(NOTES)?;
    let mut notes = notes.query([after])?;
    let mut note = note_of(&mut notes)?;
    let mut moved = moved(act, version, after)?;
    let mut last = after;
    loop {
        while let Some((_, one)) = note.take_if(|(after, _)| *after == last) {
            tell(Step::Note(one))?;
            note = note_of(&mut notes)?;
        }
        let Some(columns) = rows.next()? else {
            break;
        };
        let (mut row, kept) = row(columns)?;
        last = row.number;
        while let Some((_, naming)) = name.take_if(|(request, _)| *request == last) {
            row.namings.push(naming);
            name = naming_of(&mut names)?;
        }
        row.moved = moved.remove(&last);
        tell(Step::Row(row, kept))?;
    }
    let later = [
        note.map(|(after, _)| after),
        name.map(|(request, _)| request),
        moved.keys().next().copied(),
    ];
    Ok(later.into_iter().flatten().max())
}

/// The requests after one, as `row` takes them.
fn select(version: i64, table: &str) -> String {
    let key = if version < 3 { "NULL" } else { "key" };
    format!(
        "SELECT number, at, client, account, via, user, kind, n, a, b, c, m, cut, reply, place, opening, {key}, sum \
         FROM {table} WHERE number > ?1 ORDER BY number"
    )
}

/// The rows that a condition picks, without their keys: so it is the same whatever the version.
pub fn rows_of(act: &Connection, picked: &str, value: i64) -> Result<Vec<Row>, Unfit> {
    let all = select(2, "request");
    let columns = all.split(" WHERE ").next().unwrap_or_default();
    let mut select = act.prepare(&format!("{columns} WHERE {picked}"))?;
    let mut rows = select.query([value])?;
    let mut all = Vec::new();
    while let Some(columns) = rows.next()? {
        all.push(row(columns)?.0);
    }
    Ok(all)
}

/// A row of `select`, without its namings and what it was moved from, and the sum that it has.
fn row(columns: &rusqlite::Row) -> Result<(Row, Kept), Unfit> {
    let cut: Option<Vec<u8>> = columns.get(12)?;
    let bytes = match cut {
        Some(cut) => Bytes::of(&cut),
        None => Bytes::of(&record(columns, 6)?.0),
    };
    let row = Row {
        number: columns.get(0)?,
        at: columns.get(1)?,
        client: columns.get(2)?,
        account: columns.get::<_, String>(3)?.into(),
        via: columns.get::<_, Option<String>>(4)?.map(Into::into),
        user: columns.get(5)?,
        bytes,
        reply: columns.get(13)?,
        place: columns.get(14)?,
        opening: columns.get(15)?,
        key: columns.get::<_, Option<String>>(16)?.map(Into::into),
        moved: None,
        namings: Vec::new(),
    };
    Ok((row, Kept::of(columns.get_ref(17)?)?))
}

/// Six columns as a record.
pub fn record(columns: &rusqlite::Row, from: usize) -> rusqlite::Result<Record> {
    let m: i64 = columns.get(from + 5)?;
    Ok(Record::new(
        columns.get(from)?,
        columns.get(from + 1)?,
        columns.get(from + 2)?,
        columns.get(from + 3)?,
        columns.get(from + 4)?,
        m as u64,
    ))
}

/// The names that requests after one gave, in their order.
const GIVEN: &str =
    "SELECT request, sort, number, name FROM name WHERE request > ?1 ORDER BY request, rowid";

/// The next name, with the request that gave it.
fn naming_of(rows: &mut Rows) -> Result<Option<(i64, Naming)>, Unfit> {
    let Some(columns) = rows.next()? else {
        return Ok(None);
    };
    Ok(Some((columns.get(0)?, naming(columns)?)))
}

pub fn naming(columns: &rusqlite::Row) -> Result<Naming, Unfit> {
    let word: String = columns.get(1)?;
    let Some(sort) = Sort::of_word(&word) else {
        return unfit(format!("it is damaged: a name of {word:?}"));
    };
    Ok(Naming {
        sort,
        number: columns.get(2)?,
        name: columns.get(3)?,
        column: 0,
    })
}

/// What requests after one were moved from, by request: a move's requests alone, which are a desk's present.
fn moved(act: &Connection, version: i64, after: i64) -> Result<BTreeMap<i64, Moved>, Unfit> {
    let mut all = BTreeMap::new();
    if version < 3 {
        return Ok(all);
    }
    let select = "SELECT request, number, at, account, opening FROM moved_from WHERE request > ?1";
    let mut rows = act.prepare(select)?;
    let mut rows = rows.query([after])?;
    while let Some(columns) = rows.next()? {
        let moved = Moved {
            number: columns.get(1)?,
            at: columns.get(2)?,
            account: columns.get::<_, String>(3)?.into(),
            opening: columns.get(4)?,
        };
        all.insert(columns.get(0)?, moved);
    }
    Ok(all)
}

/// The keys that a move brought into a journal.
pub fn moved_keys(act: &Connection) -> Result<Vec<Key>, Unfit> {
    if head::version(act)? < 3 {
        return Ok(Vec::new());
    }
    let select = "SELECT account, key, number, at, record, reply, place FROM moved_key";
    let mut select = act.prepare(select)?;
    let rows = select.query_map([], |r| {
        Ok(Key {
            account: r.get(0)?,
            key: r.get(1)?,
            number: r.get(2)?,
            at: r.get(3)?,
            record: r.get(4)?,
            reply: r.get(5)?,
            place: r.get(6)?,
        })
    })?;
    Ok(rows.collect::<Result<_, _>>()?)
}

/// What stands between requests, from after one on, as `note` takes it: each sort in its order.
const NOTES: &str = "
SELECT after, 0 AS sort, id, at, program, NULL, NULL, NULL, NULL, NULL FROM start WHERE after >= ?1
UNION ALL SELECT after, 1, id, at, account, client, via, record, asked, why FROM barred WHERE after >= ?1
UNION ALL SELECT after, 2, id, expected, NULL, found, NULL, NULL, NULL, NULL FROM clock WHERE after >= ?1
ORDER BY after, sort, id";

/// What was barred from one time to another, as `note_of` takes it.
pub const BARRED: &str = "SELECT after, 1, id, at, account, client, via, record, asked, why FROM barred WHERE at >= ?1 AND at < ?2 ORDER BY id";

/// The next note, with the request that it is after.
pub fn note_of(rows: &mut Rows) -> Result<Option<(i64, Note)>, Unfit> {
    let Some(columns) = rows.next()? else {
        return Ok(None);
    };
    let note = match columns.get::<_, i64>(1)? {
        0 => Note::Start(Start {
            at: columns.get(3)?,
            program: columns.get(4)?,
        }),
        1 => {
            let record: Option<Vec<u8>> = columns.get(7)?;
            Note::Barred(Barred {
                at: columns.get(3)?,
                client: columns.get(5)?,
                account: columns.get::<_, String>(4)?.into(),
                via: columns.get::<_, Option<String>>(6)?.map(Into::into),
                record: record.map(|bytes| Bytes::of(&bytes)),
                asked: columns.get(8)?,
                why: columns.get(9)?,
            })
        }
        _ => Note::Clock(Jump {
            expected: columns.get(3)?,
            found: columns.get(5)?,
        }),
    };
    Ok(Some((columns.get(0)?, note)))
}
