//! What the journal must have: for each connection, what it sent, in order and once, at least as far as it was answered.
//! It is read with SQL, not with the program that wrote it.

use crate::client::{name_of, Life};
use records::Record;
use rusqlite::{Connection, OpenFlags};
use std::collections::BTreeMap;
use std::path::Path;

/// How many requests were met.
#[derive(Clone, Copy, Default, Debug)]
pub struct Met {
    pub answered: u64,
    /// Sent and not answered, and in the journal.
    pub kept: u64,
    /// Sent and not answered, and not in the journal.
    pub gone: u64,
    /// Told that they were not done, and not in the journal.
    pub not_done: u64,
}

impl Met {
    pub fn add(&mut self, other: Met) {
        self.answered += other.answered;
        self.kept += other.kept;
        self.gone += other.gone;
        self.not_done += other.not_done;
    }
}

/// A row: its number, its record, its reply and the rule's place.
type Row = (i64, Record, u8, u16);

/// The rows of each start and connection.
type Rows = BTreeMap<(i64, i64), Vec<Row>>;

/// The rows after a number, by start and connection.
fn rows(journal: &Path, after: i64) -> rusqlite::Result<(Rows, i64)> {
    let sql = Connection::open_with_flags(journal, OpenFlags::SQLITE_OPEN_READ_ONLY)?;
    let act = sql.unchecked_transaction()?;
    let mut starts: Vec<(i64, i64)> = Vec::new();
    let mut select = act.prepare("SELECT id, after FROM start ORDER BY id")?;
    let mut found = select.query([])?;
    while let Some(row) = found.next()? {
        starts.push((row.get(0)?, row.get(1)?));
    }
    let mut all = Rows::new();
    let mut last = after;
    let mut select = act.prepare(
        "SELECT number, client, kind, n, a, b, c, m, reply, place FROM request WHERE number > ?1 ORDER BY number",
    )?;
    let mut found = select.query([after])?;
    while let Some(row) = found.next()? {
        let number: i64 = row.get(0)?;
        assert_eq!(number, last + 1, "numbers have no gap");
        last = number;
        // The last start before it.
        let behind = starts.partition_point(|&(_, after)| after < number);
        let start = starts[behind - 1].0;
        // A cut record has no fields; nobody whose life is compared sends one.
        if row.get::<_, Option<u8>>(2)?.is_none() {
            continue;
        }
        let m: i64 = row.get(7)?;
        let record = Record::new(
            row.get(2)?,
            row.get(3)?,
            row.get(4)?,
            row.get(5)?,
            row.get(6)?,
            m as u64,
        );
        let entry = (number, record, row.get(8)?, row.get(9)?);
        all.entry((start, row.get(1)?)).or_default().push(entry);
    }
    Ok((all, last))
}

/// Compares what these lives know with the journal after a number; the last number, or what is wrong. Nobody else was there.
pub fn compared(journal: &Path, after: i64, lives: &[Life]) -> Result<(Met, i64), String> {
    among(journal, after, lives, false)
}

/// The same of a whole journal where there were others, who have no lives.
pub fn compared_among(journal: &Path, lives: &[Life]) -> Result<(Met, i64), String> {
    among(journal, 0, lives, true)
}

fn among(journal: &Path, after: i64, lives: &[Life], others: bool) -> Result<(Met, i64), String> {
    let (all, last) =
        rows(journal, after).map_err(|why| format!("the journal cannot be read: {why}"))?;
    let mut of_life: BTreeMap<u32, &Vec<Row>> = BTreeMap::new();
    for (whose, rows) in &all {
        let Some(id) = name_of(&rows[0].1) else {
            match others {
                true => continue,
                false => return Err(format!("connection {whose:?} does not begin with its name")),
            }
        };
        if of_life.insert(id, rows).is_some() {
            return Err(format!("life {id} is there twice"));
        }
    }
    let mut met = Met::default();
    for life in lives {
        let rows = of_life.remove(&life.id).map_or(&[][..], |rows| rows);
        met.add(one(life, rows).map_err(|why| format!("life {}: {why}", life.id))?);
    }
    match of_life.keys().next() {
        Some(id) => Err(format!("the journal has life {id}, which nobody lived")),
        None => Ok((met, last)),
    }
}

fn one(life: &Life, rows: &[Row]) -> Result<Met, String> {
    let mut met = Met::default();
    let mut rows = rows.iter();
    for (sent, reply) in life.sent.iter().zip(&life.answered) {
        if reply.not_done {
            met.not_done += 1;
            continue;
        }
        let given = (reply.number, *sent, reply.reply, reply.place);
        match rows.next() {
            Some(row) if *row == given => met.answered += 1,
            Some(row) => {
                return Err(format!(
                    "{given:?} was answered, and the journal has {row:?}"
                ))
            }
            None => return Err(format!("{given:?} was answered, and is lost")),
        }
    }
    for sent in &life.sent[life.answered.len()..] {
        match rows.next() {
            Some(row) if row.1 == *sent => met.kept += 1,
            Some(row) => return Err(format!("{sent:?} was sent, and the journal has {row:?}")),
            None => met.gone += 1,
        }
    }
    match rows.next() {
        Some(row) => Err(format!("the journal has {row:?}, which was not sent")),
        None => Ok(met),
    }
}
