//! What a forger writes who knows docs/SERVE.md: every sum of a journal again, with SQL and SHA-256 alone, by none of the program's code.

use rusqlite::types::Value;
use rusqlite::Connection;
use sha2::{Digest, Sha256};

type Sum = [u8; 32];

/// Values in the order of docs/SERVE.md.
struct Bytes(Vec<u8>);

impl Bytes {
    fn of(sort: u8) -> Bytes {
        Bytes(vec![sort])
    }

    fn number(mut self, number: i64) -> Bytes {
        self.0.extend(number.to_le_bytes());
        self
    }

    fn text(self, text: &[u8]) -> Bytes {
        let mut all = self.number(text.len() as i64);
        all.0.extend(text);
        all
    }

    fn raw(mut self, sum: &[u8]) -> Bytes {
        self.0.extend(sum);
        self
    }

    /// A column: a number, a text or bytes with their length, -1 where there is none.
    fn value(self, value: &Value) -> Bytes {
        match value {
            Value::Null => self.number(-1),
            Value::Integer(number) => self.number(*number),
            Value::Text(text) => self.text(text.as_bytes()),
            Value::Blob(bytes) => self.text(bytes),
            Value::Real(_) => panic!("no column is of that sort"),
        }
    }

    fn sum(self) -> Sum {
        Sha256::digest(&self.0).into()
    }
}

fn values(sql: &Connection, select: &str, number: i64) -> Vec<Vec<Value>> {
    let mut select = sql.prepare(select).unwrap();
    let width = select.column_count();
    let rows = select.query_map([number], |r| (0..width).map(|at| r.get(at)).collect());
    rows.unwrap().map(|row| row.unwrap()).collect()
}

/// The sums of the notes after a request: starts, barred, clock.
fn notes(sql: &Connection, after: i64) -> [Option<Sum>; 3] {
    [
        "SELECT at, program FROM start WHERE after = ?1 ORDER BY id",
        "SELECT at, client, account, via, record, asked, why FROM barred WHERE after = ?1 ORDER BY id",
        "SELECT expected, found FROM clock WHERE after = ?1 ORDER BY id",
    ]
    .map(|select| (select, values(sql, select, after)))
    .into_iter()
    .enumerate()
    .map(|(sort, (_, rows))| {
        rows.iter().fold(None, |before: Option<Sum>, row| {
            let bytes = Bytes::of(3).raw(&before.unwrap_or_default()).number(sort as i64);
            Some(row.iter().fold(bytes, Bytes::value).sum())
        })
    })
    .collect::<Vec<_>>()
    .try_into()
    .unwrap()
}

/// The bytes of a request's record.
fn record(columns: &[Value]) -> Value {
    let [kind, n, a, b, c, m, cut] = columns else {
        panic!("a record has seven columns");
    };
    if *cut != Value::Null {
        return cut.clone();
    }
    let of = |value: &Value| match value {
        Value::Integer(number) => *number,
        other => panic!("{other:?}"),
    };
    let mut bytes = vec![of(kind) as u8, of(n) as u8];
    for field in [a, b, c] {
        bytes.extend((of(field) as u16).to_le_bytes());
    }
    bytes.extend(of(m).to_le_bytes());
    Value::Blob(bytes)
}

/// A request's sum after that of the one before it.
fn row(sql: &Connection, number: i64, before: &[u8]) -> Sum {
    let select = "SELECT number, at, client, account, via, user, kind, n, a, b, c, m, cut, reply + 256 * place, opening, key \
         FROM request WHERE number = ?1";
    let columns = values(sql, select, number).remove(0);
    let notes = notes(sql, number - 1);
    let which = (0..3).map(|sort| i64::from(notes[sort].is_some()) << sort);
    let mut bytes = Bytes::of(2).raw(before).number(which.sum());
    bytes = notes.iter().flatten().fold(bytes, |all, sum| all.raw(sum));
    bytes = columns[..6].iter().fold(bytes, Bytes::value);
    bytes = bytes.value(&record(&columns[6..13]));
    bytes = columns[13..].iter().fold(bytes, Bytes::value);
    let moved = "SELECT number, at, account, opening FROM moved_from WHERE request = ?1";
    bytes = match values(sql, moved, number).first() {
        None => bytes.number(-1),
        Some(moved) => moved.iter().fold(bytes, Bytes::value),
    };
    let names = "SELECT sort, number, name FROM name WHERE request = ?1 ORDER BY rowid";
    let names = values(sql, names, number);
    bytes = bytes.number(names.len() as i64);
    names.iter().flatten().fold(bytes, Bytes::value).sum()
}

/// Gives every request, and every snapshot, the sum that it should have as the tables stand.
pub fn chained(sql: &Connection) {
    let one = |select: &str| -> Vec<u8> { sql.query_row(select, [], |r| r.get(0)).unwrap() };
    let mut sum = one("SELECT sum FROM journal");
    let last = "SELECT coalesce(max(number), 0) FROM request";
    let last: i64 = sql.query_row(last, [], |r| r.get(0)).unwrap();
    for number in 1..=last {
        sum = row(sql, number, &sum).to_vec();
        let update = "UPDATE request SET sum = ?2 WHERE number = ?1";
        sql.execute(update, (number, &sum)).unwrap();
        let update = "UPDATE snapshot SET row_sum = ?2 WHERE after = ?1";
        sql.execute(update, (number, &sum)).unwrap();
    }
    snapshots(sql);
}

/// Gives every snapshot its sum.
pub fn snapshots(sql: &Connection) {
    let select = "SELECT after, row_sum, version, policy, sessions, orders, openings, names FROM snapshot WHERE after > ?1";
    for columns in values(sql, select, 0) {
        let (Value::Integer(after), Value::Blob(row_sum)) = (&columns[0], &columns[1]) else {
            panic!("a snapshot is after a request");
        };
        let bytes = Bytes::of(4).number(*after).raw(row_sum);
        let sum = columns[2..].iter().fold(bytes, Bytes::value).sum();
        let update = "UPDATE snapshot SET sum = ?2 WHERE after = ?1";
        sql.execute(update, (after, &sum[..])).unwrap();
    }
}
