//! A desk's journal in a database, read: one state of it, whatever is written meanwhile, and a part at a time.

use super::migrate;
use super::place::Place;
use super::wire::{Values, Wire};
use crate::journal::chain::{Hash, Note, Of, Start, Sum};
use crate::journal::clock::Jump;
use crate::journal::found::{unfit, Unfit};
use crate::journal::head::Head;
use crate::journal::links::{Kept, Links};
use crate::journal::rows::Step;
use crate::journal::snapshot::Snapshot;
use crate::journal::store::{Bars, Steps, Store};
use crate::journal::{Barred, Bytes, Key, Moved, Row, VERSION};
use crate::names::{Naming, Sort};
use crate::reader;
use crate::source::Policy;
use crate::stop::Stop;
use records::Record;
use std::cell::RefCell;
use std::collections::BTreeSet;
use tokio_postgres::Row as Columns;

/// So many requests are read at once.
const PAGE: i64 = 4_096;

pub struct Reading {
    wire: RefCell<Wire>,
    desk: String,
}

/// Whether a desk is there, with tables that this program reads.
const THERE: &str = "SELECT desk FROM journal ORDER BY desk = $1 DESC, desk LIMIT 20";

impl Reading {
    /// Opens a desk's journal for reading alone. One that is not there is a wrong name.
    pub fn open(place: &Place) -> Result<Reading, Stop> {
        let (shown, desk) = (&place.shown, &place.desk);
        let wrong = |why: String| Stop::Wrong(vec![format!("{shown}: {why}")]);
        let cannot = |why: String| wrong(format!("it cannot be opened: {why}"));
        let mut wire = Wire::connect(place).map_err(|why| cannot(why.text()))?;
        if !migrate::checked(&mut wire).map_err(cannot)? {
            return Err(wrong(
                "there are no journals in this database: serve POLICY begins one".to_string(),
            ));
        }
        let set = "SET idle_in_transaction_session_timeout = '1h'; BEGIN ISOLATION LEVEL REPEATABLE READ READ ONLY";
        wire.batch(set).map_err(|why| cannot(why.text()))?;
        let there = wire.rows(THERE, &[desk]);
        let there = there.map_err(|why| cannot(why.text()))?;
        let names: Vec<String> = there.iter().map(|row| row.get(0)).collect();
        match names.first() == Some(desk) {
            true => Ok(Reading {
                wire: RefCell::new(wire),
                desk: desk.clone(),
            }),
            false => Err(wrong(format!(
                "there is no desk {desk} here; there are: {}",
                names.join(", ")
            ))),
        }
    }

    /// Whether a desk is there. The tables are made where they are missing.
    pub fn is_there(place: &Place) -> Result<bool, String> {
        let mut wire = Wire::connect(place).map_err(|why| why.text())?;
        migrate::migrated(&mut wire)?;
        let there = wire.rows(THERE, &[&place.desk]);
        let there = there.map_err(|why| why.text())?;
        let first: Option<String> = there.first().map(|row| row.get(0));
        Ok(first.as_ref() == Some(&place.desk))
    }

    fn rows(&self, sql: &'static str, values: Values) -> Result<Vec<Columns>, Unfit> {
        Ok(self.wire.borrow_mut().rows(sql, values)?)
    }

    fn row(&self, sql: &'static str, values: Values) -> Result<Option<Columns>, Unfit> {
        Ok(self.rows(sql, values)?.into_iter().next())
    }

    /// The names that requests from one to another gave, in their order.
    fn names(&self, from: i64, to: i64) -> Result<Vec<(i64, Naming)>, Unfit> {
        let rows = self.rows(
            "SELECT request, sort, number, name FROM name WHERE desk = $1 AND request >= $2 AND request <= $3 ORDER BY request, id",
            &[&self.desk, &from, &to],
        )?;
        rows.iter()
            .map(|row| Ok((row.get(0), naming(row)?)))
            .collect()
    }

    /// What stands behind the requests from one to another.
    fn notes(&self, from: i64, to: i64) -> Result<Vec<(i64, Note)>, Unfit> {
        let rows = self.rows(NOTES, &[&self.desk, &from, &to])?;
        Ok(rows.iter().map(|row| (row.get(0), note(row))).collect())
    }

    fn moved(&self, from: i64, to: i64) -> Result<Vec<(i64, Moved)>, Unfit> {
        let rows = self.rows(
            "SELECT request, number, at, account, opening FROM moved_from WHERE desk = $1 AND request > $2 AND request <= $3 ORDER BY request",
            &[&self.desk, &from, &to],
        )?;
        let one = |row: &Columns| {
            let moved = Moved {
                number: row.get(1),
                at: row.get(2),
                account: row.get::<_, String>(3).into(),
                opening: row.get(4),
            };
            (row.get(0), moved)
        };
        Ok(rows.iter().map(one).collect())
    }

    /// The sum of what stands before the first request, from the tables as they are.
    pub fn head_sum(wire: &mut Wire, desk: &str) -> Result<Sum, Unfit> {
        let mut hash = Hash::of(Of::Head);
        for select in [HEAD, POLICY, NAMES, KEYS] {
            for row in wire.rows(select, &[&desk])? {
                hash = hash.number(row.len() as i64);
                for column in 0..row.len() {
                    let text: Option<String> = row.get(column);
                    hash = hash.maybe_text(text.as_deref().map(str::as_bytes));
                }
            }
            hash = hash.number(0);
        }
        Ok(hash.whole())
    }
}

/// The rows that the head's sum is over, each value as text.
const HEAD: &str = "
SELECT version::text, program, policy_words::text, sessions_words::text, orders_words::text, at::text, file, moved_from, moved_number::text,
    encode(moved_sum, 'hex') FROM journal WHERE desk = $1";
const POLICY: &str = "
SELECT place::text, line::text, kind::text, n::text, a::text, b::text, c::text, m::text, words FROM policy WHERE desk = $1 ORDER BY policy.place";
const NAMES: &str = "
SELECT sort, number::text, encode(name, 'hex') FROM name WHERE desk = $1 AND request = 0 ORDER BY id";
const KEYS: &str = "
SELECT account, key, number::text, at::text, encode(record, 'hex'), reply::text, place::text FROM moved_key WHERE desk = $1
ORDER BY account COLLATE \"C\", key COLLATE \"C\"";

const NOTES: &str = "
SELECT after, 0 AS sort, id, at, program AS a, NULL::bigint AS n, NULL AS b, NULL::bytea AS record, NULL AS c, NULL AS d
    FROM start WHERE desk = $1 AND after >= $2 AND after <= $3
UNION ALL SELECT after, 1, id, at, account, client, via, record, asked, why FROM barred WHERE desk = $1 AND after >= $2 AND after <= $3
UNION ALL SELECT after, 2, id, expected, NULL, found, NULL, NULL, NULL, NULL FROM clock WHERE desk = $1 AND after >= $2 AND after <= $3
ORDER BY after, sort, id";

const REQUESTS: &str = r#"
SELECT number, at, client, account, via, "user", kind, n, a, b, c, m, cut, reply, place, opening, key, sum
FROM request WHERE desk = $1 AND number > $2 ORDER BY number LIMIT $3"#;

const WORKED: &str = r#"
SELECT number, at, client, account, via, "user", kind, n, a, b, c, m, cut, reply, place, opening, key, sum
FROM request WHERE desk = $1 AND number >= $2 AND reply = 0 AND kind BETWEEN 48 AND 52 ORDER BY number"#;

const REFUSED: &str = r#"
SELECT number, at, client, account, via, "user", kind, n, a, b, c, m, cut, reply, place, opening, key, sum
FROM request WHERE desk = $1 AND reply <> 0 ORDER BY number DESC LIMIT $2"#;

/// A number that another program cannot have written there.
fn small<T: TryFrom<i64>>(number: i64) -> Result<T, Unfit> {
    T::try_from(number).or_else(|_| unfit(format!("it is damaged: {number} stands there")))
}

/// The columns of a record, or the bytes of a cut one.
pub fn bytes(row: &Columns, from: usize) -> Result<Bytes, Unfit> {
    let cut: Option<Vec<u8>> = row.get(from + 6);
    if let Some(cut) = cut {
        return Ok(Bytes::of(&cut));
    }
    Ok(Bytes::of(&record(row, from)?.0))
}

fn record(row: &Columns, from: usize) -> Result<Record, Unfit> {
    let (Some(kind), Some(n)) = (
        row.get::<_, Option<i16>>(from),
        row.get::<_, Option<i16>>(from + 1),
    ) else {
        return unfit("it is damaged: a request without a record");
    };
    let field = |at: usize| small::<u16>(row.get::<_, Option<i32>>(at).unwrap_or(-1).into());
    let m: Option<i64> = row.get(from + 5);
    Ok(Record::new(
        small(kind.into())?,
        small(n.into())?,
        field(from + 2)?,
        field(from + 3)?,
        field(from + 4)?,
        m.unwrap_or(0) as u64,
    ))
}

fn row(columns: &Columns) -> Result<(Row, Kept), Unfit> {
    let user: Option<i32> = columns.get(5);
    let row = Row {
        number: columns.get(0),
        at: columns.get(1),
        client: columns.get(2),
        account: columns.get::<_, String>(3).into(),
        via: columns.get::<_, Option<String>>(4).map(Into::into),
        user: user.map(|user| small(user.into())).transpose()?,
        bytes: bytes(columns, 6)?,
        reply: small(columns.get::<_, i16>(13).into())?,
        place: small(columns.get::<_, i32>(14).into())?,
        opening: columns.get(15),
        key: columns.get::<_, Option<String>>(16).map(Into::into),
        moved: None,
        namings: Vec::new(),
    };
    Ok((row, Kept::Sum(sum(columns.get(17))?)))
}

fn sum(bytes: Vec<u8>) -> Result<Sum, Unfit> {
    Sum::try_from(&bytes[..]).or_else(|_| unfit("it is damaged: a sum does not have 32 bytes"))
}

fn naming(row: &Columns) -> Result<Naming, Unfit> {
    let word: String = row.get(1);
    let Some(sort) = Sort::of_word(&word) else {
        return unfit(format!("it is damaged: a name of {word:?}"));
    };
    Ok(Naming {
        sort,
        number: small(row.get::<_, i32>(2).into())?,
        name: row.get(3),
        column: 0,
    })
}

fn note(row: &Columns) -> Note {
    match row.get::<_, i32>(1) {
        0 => Note::Start(Start {
            at: row.get(3),
            program: row.get(4),
        }),
        1 => {
            let record: Option<Vec<u8>> = row.get(7);
            Note::Barred(Barred {
                at: row.get(3),
                client: row.get(5),
                account: row.get::<_, String>(4).into(),
                via: row.get::<_, Option<String>>(6).map(Into::into),
                record: record.map(|bytes| Bytes::of(&bytes)),
                asked: row.get(8),
                why: row.get(9),
            })
        }
        _ => Note::Clock(Jump {
            expected: row.get(3),
            found: row.get(5),
        }),
    }
}

/// Those of a list that belong to a request, which stand at its front.
fn taken<T>(all: &mut std::iter::Peekable<std::vec::IntoIter<(i64, T)>>, of: i64) -> Vec<T> {
    let mut some = Vec::new();
    while let Some((_, one)) = all.next_if(|(request, _)| *request == of) {
        some.push(one);
    }
    some
}

impl Store for Reading {
    fn head(&self) -> Result<Head, Unfit> {
        let select = "SELECT version, file, sum FROM journal WHERE desk = $1";
        let Some(said) = self.row(select, &[&self.desk])? else {
            return unfit("it is damaged: its head is missing");
        };
        let version: i64 = said.get(0);
        if version != VERSION {
            return unfit(format!(
                "it is of version {version}, and this program reads version {VERSION} in a database"
            ));
        }
        let mut policy = Policy {
            file: said.get(1),
            ..Policy::default()
        };
        let select = "SELECT line, kind, n, a, b, c, m FROM policy WHERE desk = $1 ORDER BY place";
        for row in self.rows(select, &[&self.desk])? {
            policy.bytes.extend(record(&row, 1)?.0);
            let line: Option<i64> = row.get(0);
            policy.lines.extend(line.map(|line| line as usize));
        }
        let names: Vec<Naming> = self.names(0, 0)?.into_iter().map(|(_, n)| n).collect();
        reader::give(&mut policy.names, &names, false);
        let head = Reading::head_sum(&mut self.wire.borrow_mut(), &self.desk)?;
        if head != sum(said.get(2))? {
            return unfit("it is damaged: its policy does not have its checksum");
        }
        Ok(Head {
            version,
            policy,
            links: Links::chain(head),
        })
    }

    fn each(&self, _version: i64, after: i64, tell: Steps) -> Result<Option<i64>, Unfit> {
        let mut last = after;
        loop {
            let rows = self.rows(REQUESTS, &[&self.desk, &last, &PAGE])?;
            let to = rows.last().map_or(i64::MAX, |row| row.get::<_, i64>(0) - 1);
            let mut notes = self.notes(last, to)?.into_iter().peekable();
            let mut names = self
                .names(last + 1, to.saturating_add(1))?
                .into_iter()
                .peekable();
            let mut moved = self
                .moved(last, to.saturating_add(1))?
                .into_iter()
                .peekable();
            for note in taken(&mut notes, last) {
                tell(Step::Note(note))?;
            }
            if rows.is_empty() {
                let later = [
                    notes.next().map(|(after, _)| after),
                    names.next().map(|(request, _)| request),
                    moved.next().map(|(request, _)| request),
                ];
                return Ok(later.into_iter().flatten().max());
            }
            for columns in &rows {
                let (mut row, kept) = row(columns)?;
                let number = row.number;
                row.namings = taken(&mut names, number);
                row.moved = taken(&mut moved, number).pop();
                last = number;
                tell(Step::Row(row, kept))?;
                // Those behind the last row of a part come with the next part.
                if number <= to {
                    for note in taken(&mut notes, number) {
                        tell(Step::Note(note))?;
                    }
                }
            }
        }
    }

    fn snapshot_before(&self, request: i64) -> Result<Option<Snapshot>, Unfit> {
        let select = "SELECT after, version, row_sum, policy, sessions, orders, openings, names, sum FROM snapshot \
             WHERE desk = $1 AND after < $2 ORDER BY after DESC LIMIT 1";
        let row = self.row(select, &[&self.desk, &request])?;
        row.map(|row| snapshot(&row)).transpose()
    }

    fn snapshot_after(&self, request: i64) -> Result<Option<Snapshot>, Unfit> {
        let select = "SELECT after, version, row_sum, policy, sessions, orders, openings, names, sum FROM snapshot \
             WHERE desk = $1 AND after = $2";
        let row = self.row(select, &[&self.desk, &request])?;
        row.map(|row| snapshot(&row)).transpose()
    }

    fn snapshots(&self) -> Result<Vec<i64>, Unfit> {
        let select = "SELECT after FROM snapshot WHERE desk = $1 ORDER BY after";
        let rows = self.rows(select, &[&self.desk])?;
        Ok(rows.iter().map(|row| row.get(0)).collect())
    }

    fn kept(&self, number: i64) -> Result<Option<(Kept, i64)>, Unfit> {
        let select = "SELECT sum, at FROM request WHERE desk = $1 AND number = $2";
        let Some(row) = self.row(select, &[&self.desk, &number])? else {
            return Ok(None);
        };
        Ok(Some((Kept::Sum(sum(row.get(0))?), row.get(1))))
    }

    fn last(&self) -> Result<i64, Unfit> {
        let select = "SELECT coalesce(max(number), 0) FROM request WHERE desk = $1";
        let row = self.row(select, &[&self.desk])?;
        Ok(row.map_or(0, |row| row.get(0)))
    }

    fn first_since(&self, at: i64) -> Result<Option<i64>, Unfit> {
        let select = "SELECT min(number) FROM request WHERE desk = $1 AND at >= $2";
        let row = self.row(select, &[&self.desk, &at])?;
        Ok(row.and_then(|row| row.get(0)))
    }

    fn gave(&self, sort: Sort, name: &[u8]) -> Result<BTreeSet<i64>, Unfit> {
        let select = "SELECT request FROM name WHERE desk = $1 AND sort = $2 AND name = $3";
        let rows = self.rows(select, &[&self.desk, &sort.word(), &name])?;
        Ok(rows.iter().map(|row| row.get(0)).collect())
    }

    fn name_of_opening(&self, opening: i64) -> Result<Option<Vec<u8>>, Unfit> {
        let select = "SELECT name FROM name WHERE desk = $1 AND request = $2 AND sort = 'order'";
        let row = self.row(select, &[&self.desk, &opening])?;
        Ok(row.map(|row| row.get(0)))
    }

    fn jumps(&self) -> Result<Vec<(i64, i64, i64)>, Unfit> {
        let select = "SELECT after, expected, found FROM clock WHERE desk = $1 ORDER BY id";
        let rows = self.rows(select, &[&self.desk])?;
        let one = |row: &Columns| (row.get(0), row.get(1), row.get(2));
        Ok(rows.iter().map(one).collect())
    }

    fn barred(&self, since: i64, until: i64, tell: Bars) -> Result<(), Unfit> {
        let select =
            "SELECT after, 1, id, at, account, client, via, record, asked, why FROM barred \
             WHERE desk = $1 AND at >= $2 AND at < $3 ORDER BY id";
        for row in self.rows(select, &[&self.desk, &since, &until])? {
            if let Note::Barred(barred) = note(&row) {
                tell(row.get(0), barred)?;
            }
        }
        Ok(())
    }

    fn worked(&self, first: i64) -> Result<Vec<Row>, Unfit> {
        let rows = self.rows(WORKED, &[&self.desk, &first])?;
        rows.iter().map(|columns| Ok(row(columns)?.0)).collect()
    }

    fn refused(&self, count: i64) -> Result<Vec<Row>, Unfit> {
        let rows = self.rows(REFUSED, &[&self.desk, &count])?;
        let rows = rows.iter().rev();
        rows.map(|columns| Ok(row(columns)?.0)).collect()
    }

    fn moved_keys(&self) -> Result<Vec<Key>, Unfit> {
        let select =
            "SELECT account, key, number, at, record, reply, place FROM moved_key WHERE desk = $1";
        let rows = self.rows(select, &[&self.desk])?;
        let one = |row: &Columns| {
            Ok(Key {
                account: row.get(0),
                key: row.get(1),
                number: row.get(2),
                at: row.get(3),
                record: row.get(4),
                reply: small(row.get::<_, i16>(5).into())?,
                place: small(row.get::<_, i32>(6).into())?,
            })
        };
        rows.iter().map(one).collect()
    }

    fn sound(&self) -> Result<(), Unfit> {
        Ok(())
    }
}

/// A snapshot, where its sum is right.
fn snapshot(row: &Columns) -> Result<Snapshot, Unfit> {
    let taken = Snapshot {
        after: row.get(0),
        layout: row.get(1),
        row_sum: Kept::Sum(sum(row.get(2))?),
        blobs: [row.get(3), row.get(4), row.get(5), row.get(6)],
        names: row.get(7),
    };
    match taken.sum() == sum(row.get(8))? {
        true => Ok(taken),
        false => unfit(format!(
            "it is damaged: the snapshot after request {} does not have its checksum",
            taken.after
        )),
    }
}
