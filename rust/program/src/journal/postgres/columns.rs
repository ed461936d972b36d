//! A group by column, as the statement that writes it takes it.

use crate::journal::begin::fields;
use crate::journal::chain::{Chain, Sum};
use crate::journal::clock::Jump;
use crate::journal::links::Kept;
use crate::journal::snapshot::Snapshot;
use crate::journal::{Barred, Row};
use tokio_postgres::types::ToSql;

/// A group with its sums.
pub struct Sealed<'a> {
    pub last: i64,
    pub rows: Vec<(&'a Row, Sum)>,
    pub barred: Vec<&'a Barred>,
    pub jump: Option<Jump>,
    /// The sums after it.
    pub chain: Chain,
    pub snapshot: Option<Snapshot>,
}

/// The rows by column.
#[derive(Default)]
pub struct Columns<'a> {
    number: Vec<i64>,
    at: Vec<i64>,
    client: Vec<i64>,
    account: Vec<&'a str>,
    via: Vec<Option<&'a str>>,
    user: Vec<Option<i32>>,
    kind: Vec<Option<i16>>,
    n: Vec<Option<i16>>,
    a: Vec<Option<i32>>,
    b: Vec<Option<i32>>,
    c: Vec<Option<i32>>,
    m: Vec<Option<i64>>,
    cut: Vec<Option<&'a [u8]>>,
    reply: Vec<i16>,
    place: Vec<i32>,
    opening: Vec<Option<i64>>,
    key: Vec<Option<&'a str>>,
    sum: Vec<&'a [u8]>,
}

impl<'a> Columns<'a> {
    pub fn of(rows: &'a [(&'a Row, Sum)]) -> Columns<'a> {
        let mut all = Columns::default();
        for (row, sum) in rows {
            all.number.push(row.number);
            all.at.push(row.at);
            all.client.push(row.client);
            all.account.push(&row.account);
            all.via.push(row.via.as_deref());
            all.user.push(row.user.map(i32::from));
            let record = row.bytes.record();
            let fields = record.map(|record| fields(&record));
            all.kind.push(fields.map(|f| f[0] as i16));
            all.n.push(fields.map(|f| f[1] as i16));
            all.a.push(fields.map(|f| f[2] as i32));
            all.b.push(fields.map(|f| f[3] as i32));
            all.c.push(fields.map(|f| f[4] as i32));
            all.m.push(fields.map(|f| f[5]));
            let cut = record.is_none().then_some(row.bytes.as_ref());
            all.cut.push(cut);
            all.reply.push(row.reply.into());
            all.place.push(row.place.into());
            all.opening.push(row.opening);
            all.key.push(row.key.as_deref());
            all.sum.push(&sum[..]);
        }
        all
    }

    pub fn add<'v>(&'v self, values: &mut Vec<&'v (dyn ToSql + Sync)>) {
        let all: [&'v (dyn ToSql + Sync); 18] = [
            &self.number,
            &self.at,
            &self.client,
            &self.account,
            &self.via,
            &self.user,
            &self.kind,
            &self.n,
            &self.a,
            &self.b,
            &self.c,
            &self.m,
            &self.cut,
            &self.reply,
            &self.place,
            &self.opening,
            &self.key,
            &self.sum,
        ];
        values.extend(all);
    }
}

/// Names that requests gave.
#[derive(Default)]
struct Names<'a> {
    request: Vec<i64>,
    sort: Vec<&'a str>,
    number: Vec<i32>,
    name: Vec<&'a [u8]>,
}

/// What requests were moved from.
#[derive(Default)]
struct Moves<'a> {
    request: Vec<i64>,
    number: Vec<i64>,
    at: Vec<i64>,
    account: Vec<&'a str>,
    opening: Vec<Option<i64>>,
}

/// What was barred.
#[derive(Default)]
struct Bars<'a> {
    at: Vec<i64>,
    client: Vec<i64>,
    account: Vec<&'a str>,
    via: Vec<Option<&'a str>>,
    record: Vec<Option<&'a [u8]>>,
    asked: Vec<&'a str>,
    why: Vec<&'a str>,
}

/// A snapshot, or none.
#[derive(Default)]
struct Snapshots<'a> {
    after: Vec<i64>,
    layout: Vec<i64>,
    row_sum: Vec<Vec<u8>>,
    blobs: [Vec<&'a [u8]>; 4],
    names: Vec<&'a str>,
    sum: Vec<Vec<u8>>,
}

/// What a group has beside its rows.
#[derive(Default)]
pub struct More<'a> {
    names: Names<'a>,
    moves: Moves<'a>,
    bars: Bars<'a>,
    /// A clock that was set: the times that were expected, and found.
    clock: [Vec<i64>; 2],
    snapshots: Snapshots<'a>,
}

impl<'a> More<'a> {
    pub fn of(group: &'a Sealed<'a>) -> More<'a> {
        let mut more = More::default();
        for (row, _) in &group.rows {
            more.of_row(row);
        }
        for one in &group.barred {
            more.bars.at.push(one.at);
            more.bars.client.push(one.client);
            more.bars.account.push(&one.account);
            more.bars.via.push(one.via.as_deref());
            let record = one.record.as_ref().map(|record| record.as_ref());
            more.bars.record.push(record);
            more.bars.asked.push(&one.asked);
            more.bars.why.push(&one.why);
        }
        if let Some(jump) = group.jump {
            more.clock = [vec![jump.expected], vec![jump.found]];
        }
        if let Some(taken) = &group.snapshot {
            more.of_snapshot(taken);
        }
        more
    }

    fn of_row(&mut self, row: &'a Row) {
        for naming in &row.namings {
            self.names.request.push(row.number);
            self.names.sort.push(naming.sort.word());
            self.names.number.push(naming.number.into());
            self.names.name.push(&naming.name);
        }
        if let Some(moved) = &row.moved {
            self.moves.request.push(row.number);
            self.moves.number.push(moved.number);
            self.moves.at.push(moved.at);
            self.moves.account.push(&moved.account);
            self.moves.opening.push(moved.opening);
        }
    }

    fn of_snapshot(&mut self, taken: &'a Snapshot) {
        self.snapshots.after.push(taken.after);
        self.snapshots.layout.push(taken.layout);
        if let Kept::Sum(sum) = taken.row_sum {
            self.snapshots.row_sum.push(sum.to_vec());
        }
        for (column, blob) in self.snapshots.blobs.iter_mut().zip(&taken.blobs) {
            column.push(blob);
        }
        self.snapshots.names.push(&taken.names);
        self.snapshots.sum.push(taken.sum().to_vec());
    }

    pub fn is_empty(&self) -> bool {
        self.names.request.is_empty()
            && self.moves.request.is_empty()
            && self.bars.at.is_empty()
            && self.clock[0].is_empty()
            && self.snapshots.after.is_empty()
    }

    pub fn add<'v>(&'v self, values: &mut Vec<&'v (dyn ToSql + Sync)>) {
        let (n, v, b, s) = (&self.names, &self.moves, &self.bars, &self.snapshots);
        let [expected, found] = &self.clock;
        let [policy, sessions, orders, openings] = &s.blobs;
        let all: [&'v (dyn ToSql + Sync); 27] = [
            &n.request, &n.sort, &n.number, &n.name, //
            &v.request, &v.number, &v.at, &v.account, &v.opening, //
            &b.at, &b.client, &b.account, &b.via, &b.record, &b.asked, &b.why, //
            expected, found, //
            &s.after, &s.layout, &s.row_sum, policy, sessions, orders, openings, &s.names, &s.sum,
        ];
        values.extend(all);
    }
}
