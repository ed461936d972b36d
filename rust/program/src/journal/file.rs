//! A journal in an SQLite file, read.

use super::found::{unfit, Unfit};
use super::head::{head, Head};
use super::links::Kept;
use super::rows::{each, moved_keys, note_of, rows_of, BARRED};
use super::snapshot::{snapshot_after, snapshot_before, Snapshot};
use super::store::{Bars, Steps, Store};
use super::{chain::Note, Key, Row};
use crate::names::Sort;
use rusqlite::{Connection, OpenFlags, OptionalExtension};
use std::collections::BTreeSet;

pub struct File {
    connection: Connection,
    name: String,
}

/// Opens a file for reading alone.
pub fn reading(file: &str) -> rusqlite::Result<Connection> {
    let flags = OpenFlags::SQLITE_OPEN_READ_ONLY | OpenFlags::SQLITE_OPEN_NO_MUTEX;
    let connection = Connection::open_with_flags(file, flags)?;
    connection.busy_timeout(std::time::Duration::from_secs(10))?;
    Ok(connection)
}

impl File {
    pub fn open(file: &str) -> Result<File, Unfit> {
        let connection = reading(file)?;
        // One reading of one state, whatever is written meanwhile.
        connection.execute_batch("BEGIN")?;
        Ok(File {
            connection,
            name: file.to_string(),
        })
    }
}

impl Store for File {
    fn head(&self) -> Result<Head, Unfit> {
        head(&self.connection, &self.name)
    }

    fn each(&self, version: i64, after: i64, tell: Steps) -> Result<Option<i64>, Unfit> {
        each(&self.connection, (version, "request"), after, tell)
    }

    fn snapshot_before(&self, request: i64) -> Result<Option<Snapshot>, Unfit> {
        snapshot_before(&self.connection, request)
    }

    fn snapshot_after(&self, request: i64) -> Result<Option<Snapshot>, Unfit> {
        snapshot_after(&self.connection, request)
    }

    fn snapshots(&self) -> Result<Vec<i64>, Unfit> {
        let sql = "SELECT after FROM snapshot ORDER BY after";
        let mut select = self.connection.prepare(sql)?;
        let rows = select.query_map([], |r| r.get(0))?;
        Ok(rows.collect::<Result<_, _>>()?)
    }

    fn kept(&self, number: i64) -> Result<Option<(Kept, i64)>, Unfit> {
        let sql = "SELECT sum, at FROM request WHERE number = ?1";
        let mut select = self.connection.prepare_cached(sql)?;
        let kept = select.query_row([number], |r| Ok((Kept::of(r.get_ref(0)?), r.get(1)?)));
        match kept.optional()? {
            Some((kept, at)) => Ok(Some((kept?, at))),
            None => Ok(None),
        }
    }

    fn last(&self) -> Result<i64, Unfit> {
        let last = "SELECT coalesce(max(number), 0) FROM request";
        Ok(self.connection.query_row(last, [], |r| r.get(0))?)
    }

    fn first_since(&self, at: i64) -> Result<Option<i64>, Unfit> {
        let first = "SELECT min(number) FROM request WHERE at >= ?1";
        Ok(self.connection.query_row(first, [at], |r| r.get(0))?)
    }

    fn gave(&self, sort: Sort, name: &[u8]) -> Result<BTreeSet<i64>, Unfit> {
        let select = "SELECT request FROM name WHERE sort = ?1 AND name = ?2";
        let mut select = self.connection.prepare(select)?;
        let rows = select.query_map((sort.word(), name), |r| r.get(0))?;
        Ok(rows.collect::<Result<_, _>>()?)
    }

    fn name_of_opening(&self, opening: i64) -> Result<Option<Vec<u8>>, Unfit> {
        let sql = "SELECT name FROM name WHERE request = ?1 AND sort = 'order'";
        let mut select = self.connection.prepare_cached(sql)?;
        Ok(select.query_row([opening], |r| r.get(0)).optional()?)
    }

    fn jumps(&self) -> Result<Vec<(i64, i64, i64)>, Unfit> {
        let sql = "SELECT after, expected, found FROM clock ORDER BY id";
        let mut select = self.connection.prepare(sql)?;
        let rows = select.query_map([], |r| Ok((r.get(0)?, r.get(1)?, r.get(2)?)))?;
        Ok(rows.collect::<Result<_, _>>()?)
    }

    fn barred(&self, since: i64, until: i64, tell: Bars) -> Result<(), Unfit> {
        let mut select = self.connection.prepare(BARRED)?;
        let mut rows = select.query([since, until])?;
        while let Some((after, note)) = note_of(&mut rows)? {
            if let Note::Barred(barred) = note {
                tell(after, barred)?;
            }
        }
        Ok(())
    }

    fn worked(&self, first: i64) -> Result<Vec<Row>, Unfit> {
        let behind = "number >= ?1 AND reply = 0 AND kind BETWEEN 48 AND 52 ORDER BY number";
        rows_of(&self.connection, behind, first)
    }

    fn refused(&self, count: i64) -> Result<Vec<Row>, Unfit> {
        let behind = "reply <> 0 ORDER BY number DESC LIMIT ?1";
        let mut rows = rows_of(&self.connection, behind, count)?;
        rows.reverse();
        Ok(rows)
    }

    fn moved_keys(&self) -> Result<Vec<Key>, Unfit> {
        moved_keys(&self.connection)
    }

    fn sound(&self) -> Result<(), Unfit> {
        let sql = "PRAGMA integrity_check(1)";
        let sound: String = self.connection.query_row(sql, [], |r| r.get(0))?;
        match sound.as_str() {
            "ok" => Ok(()),
            sound => unfit(format!("it is damaged: {sound}")),
        }
    }
}
