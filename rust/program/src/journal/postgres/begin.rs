//! A desk's journal begun in a database: whole, or not there.

use super::columns::Sealed;
use super::migrate;
use super::place::Place;
use super::read::Reading;
use super::wire::Wire;
use super::write::written;
use crate::journal::begin::{fields, lengths, namings, now, PROGRAM};
use crate::journal::chain::{Chain, Sum};
use crate::journal::found::{unfit, Unfit};
use crate::journal::links::Kept;
use crate::journal::snapshot::Snapshot;
use crate::journal::{Brought, Key, Row, VERSION};
use crate::source::Policy;

/// Makes the journal of an accepted policy, where there is none, with what a move brings.
pub fn begin(place: &Place, policy: &Policy, brought: Option<&Brought>) -> Result<(), String> {
    let mut wire = Wire::connect(place).map_err(|why| why.text())?;
    migrate::migrated(&mut wire)?;
    wire.batch("BEGIN").map_err(|why| why.text())?;
    let filled = filled(&mut wire, &place.desk, policy, brought).map_err(|Unfit(why)| why);
    match filled {
        Ok(()) => wire.batch("COMMIT").map_err(|why| why.text()),
        Err(why) => {
            let _ = wire.batch("ROLLBACK");
            Err(why)
        }
    }
}

/// Removes a journal that was not finished.
pub fn discard(place: &Place) -> Result<(), String> {
    let mut wire = Wire::connect(place).map_err(|why| why.text())?;
    let all = wire.batch("BEGIN").and_then(|()| {
        for delete in DELETES {
            wire.execute(delete, &[&place.desk])?;
        }
        wire.batch("COMMIT")
    });
    all.map_err(|why| why.text())
}

const DELETES: [&str; 11] = [
    "DELETE FROM writer WHERE desk = $1",
    "DELETE FROM start WHERE desk = $1",
    "DELETE FROM name WHERE desk = $1",
    "DELETE FROM clock WHERE desk = $1",
    "DELETE FROM barred WHERE desk = $1",
    "DELETE FROM snapshot WHERE desk = $1",
    "DELETE FROM moved_key WHERE desk = $1",
    "DELETE FROM moved_from WHERE desk = $1",
    "DELETE FROM request WHERE desk = $1",
    "DELETE FROM policy WHERE desk = $1",
    "DELETE FROM journal WHERE desk = $1",
];

fn filled(
    wire: &mut Wire,
    desk: &str,
    policy: &Policy,
    brought: Option<&Brought>,
) -> Result<(), Unfit> {
    declared(wire, desk, policy)?;
    if let Some(brought) = brought {
        moved_in(wire, desk, brought)?;
    }
    let sum = Reading::head_sum(wire, desk)?;
    wire.execute(
        "UPDATE journal SET sum = $2 WHERE desk = $1",
        &[&desk, &&sum[..]],
    )?;
    match brought {
        Some(brought) if !brought.rows.is_empty() => rows(wire, desk, brought, Chain::behind(sum)),
        _ => Ok(()),
    }
}

/// The policy, with nobody who serves it.
fn declared(wire: &mut Wire, desk: &str, policy: &Policy) -> Result<(), Unfit> {
    let [policy_words, sessions_words, orders_words] = lengths();
    wire.execute(
        "INSERT INTO journal (desk, version, program, policy_words, sessions_words, orders_words, at, file, sum) \
         VALUES ($1, $2, $3, $4, $5, $6, $7, $8, '')",
        &[
            &desk,
            &VERSION,
            &PROGRAM,
            &policy_words,
            &sessions_words,
            &orders_words,
            &now(),
            &policy.file,
        ],
    )?;
    for (place, record) in policy.records().iter().enumerate() {
        let line = policy.lines.get(place).map(|&line| line as i64);
        let [kind, n, a, b, c, m] = fields(record);
        wire.execute(
            "INSERT INTO policy VALUES ($1, $2, $3, $4, $5, $6, $7, $8, $9, $10)",
            &[
                &desk,
                &(place as i64 + 1),
                &line,
                &(kind as i16),
                &(n as i16),
                &(a as i32),
                &(b as i32),
                &(c as i32),
                &m,
                &policy.line(place),
            ],
        )?;
    }
    for naming in namings(policy) {
        wire.execute(
            "INSERT INTO name (desk, request, sort, number, name) VALUES ($1, 0, $2, $3, $4)",
            &[
                &desk,
                &naming.sort.word(),
                &i32::from(naming.number),
                &naming.name,
            ],
        )?;
    }
    wire.execute(
        "INSERT INTO writer (desk, start, last, groups, beat, server, backend, ended) VALUES ($1, 0, 0, 0, clock_timestamp(), '', 0, true)",
        &[&desk],
    )?;
    Ok(())
}

/// Where a desk was moved from, and the keys that its requests had.
fn moved_in(wire: &mut Wire, desk: &str, brought: &Brought) -> Result<(), Unfit> {
    let sum = brought.sum.as_ref().map(|sum| &sum[..]);
    wire.execute(
        "UPDATE journal SET moved_from = $2, moved_number = $3, moved_sum = $4 WHERE desk = $1",
        &[&desk, &brought.from, &brought.number, &sum],
    )?;
    for keys in brought.keys.chunks(PART) {
        let (accounts, names) = (texts(keys, |k| &k.account), texts(keys, |k| &k.key));
        let number: Vec<i64> = keys.iter().map(|k| k.number).collect();
        let at: Vec<i64> = keys.iter().map(|k| k.at).collect();
        let record: Vec<&[u8]> = keys.iter().map(|k| &k.record[..]).collect();
        let reply: Vec<i16> = keys.iter().map(|k| k.reply.into()).collect();
        let place: Vec<i32> = keys.iter().map(|k| k.place.into()).collect();
        wire.execute(
            "INSERT INTO moved_key SELECT $1, u.* FROM unnest($2::text[], $3::text[], $4::bigint[], $5::bigint[], $6::bytea[], \
             $7::smallint[], $8::integer[]) AS u ON CONFLICT DO NOTHING",
            &[&desk, &accounts, &names, &number, &at, &record, &reply, &place],
        )?;
    }
    Ok(())
}

/// So many keys are written at once.
const PART: usize = 4_096;

fn texts<'a>(keys: &'a [Key], of: impl Fn(&'a Key) -> &'a String) -> Vec<&'a str> {
    keys.iter().map(|key| of(key).as_str()).collect()
}

/// The requests that a move brings, and a snapshot after them: as the first group of a desk that nobody has served.
fn rows(wire: &mut Wire, desk: &str, brought: &Brought, chain: Chain) -> Result<(), Unfit> {
    let mut chain = chain;
    let rows: Vec<(&Row, Sum)> = brought.rows.iter().map(|r| (r, chain.row(r))).collect();
    let last = brought.rows.len() as i64;
    let sum = Kept::Sum(chain.head());
    let group = Sealed {
        last,
        rows,
        barred: Vec::new(),
        jump: None,
        chain,
        snapshot: Some(Snapshot::of(last, sum, brought.state, brought.live)),
    };
    match written(wire, desk, (0, 0), &group)? {
        true => Ok(()),
        false => unfit("somebody else begins it"),
    }
}
