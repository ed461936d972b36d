//! The tables made and changed, each step once. Whoever only reads compares, and changes nothing.

use super::tables::MIGRATIONS;
use super::wire::{Fault, Wire};
use crate::journal::begin::{kinds, PROGRAM};
use records::Reply;
use sha2::{Digest, Sha256};

const MADE: &str = "SELECT to_regclass('mishantral.migration') IS NOT NULL";
const DONE: &str = "SELECT number, sum FROM migration ORDER BY number";
const NOTE: &str = "INSERT INTO migration (number, sum, program) VALUES ($1, $2, $3)";
/// Two servers that begin at once: one makes the tables, the other finds them.
const ALONE: &str = "SELECT pg_advisory_xact_lock(1296651080)";

fn sum(migration: &str) -> String {
    let sum = Sha256::digest(migration.as_bytes());
    sum.iter().map(|byte| format!("{byte:02x}")).collect()
}

/// Whether the tables are there, and are those of this program; or why they are not.
pub fn checked(wire: &mut Wire) -> Result<bool, String> {
    let made = wire.row(MADE, &[]).map_err(|why| why.text())?;
    if !made.is_some_and(|row| row.get(0)) {
        return Ok(false);
    }
    let done = done(wire)?;
    match done < MIGRATIONS.len() {
        true => Err(format!(
            "its tables are of step {done}, and this program needs step {}: serve a desk of it once, which brings them there",
            MIGRATIONS.len()
        )),
        false => Ok(true),
    }
}

/// How many steps were done; each must be the one that this program has.
fn done(wire: &mut Wire) -> Result<usize, String> {
    let rows = wire.rows(DONE, &[]).map_err(|why| why.text())?;
    for (at, row) in rows.iter().enumerate() {
        let (number, kept): (i32, String) = (row.get(0), row.get(1));
        let Some(known) = MIGRATIONS.get(at) else {
            return Err(format!(
                "its tables are of step {number}, and this program knows {} steps: it is older than they are",
                MIGRATIONS.len()
            ));
        };
        if number as usize != at + 1 || sum(known) != kept {
            return Err(format!(
                "its tables were made by another program: step {number} is not the one that this program has"
            ));
        }
    }
    Ok(rows.len())
}

/// Makes what is missing of the tables.
pub fn migrated(wire: &mut Wire) -> Result<(), String> {
    if matches!(checked(wire), Ok(true)) {
        return Ok(());
    }
    let made = wire.batch("BEGIN").map_err(|why| why.text());
    let made = made.and_then(|()| steps(wire));
    let ended = match made {
        Ok(()) => wire.batch("COMMIT").map_err(|why| why.text()),
        Err(why) => {
            let _ = wire.batch("ROLLBACK");
            Err(why)
        }
    };
    ended.map_err(|why| format!("its tables cannot be made: {why}"))
}

fn steps(wire: &mut Wire) -> Result<(), String> {
    let told = |why: Fault| why.text();
    wire.row(ALONE, &[]).map_err(told)?;
    wire.batch(
        "CREATE SCHEMA IF NOT EXISTS mishantral; \
         CREATE TABLE IF NOT EXISTS migration (number integer PRIMARY KEY, sum text NOT NULL, at timestamptz NOT NULL DEFAULT now(), program text NOT NULL)",
    )
    .map_err(told)?;
    let done = done(wire)?;
    for (number, migration) in (1i32..).zip(MIGRATIONS).skip(done) {
        wire.batch(migration).map_err(told)?;
        wire.execute(NOTE, &[&number, &sum(migration), &PROGRAM])
            .map_err(told)?;
    }
    words(wire).map_err(told)
}

/// The replies' names and the kinds' lines, for those who read with SQL.
fn words(wire: &mut Wire) -> Result<(), Fault> {
    for reply in Reply::ALL {
        let (number, name) = (reply.number() as i32, reply.name());
        wire.execute(
            "INSERT INTO reply VALUES ($1, $2) ON CONFLICT (number) DO UPDATE SET name = excluded.name",
            &[&number, &name],
        )?;
    }
    for (kind, line, [subject, order, task]) in kinds() {
        let kind = i32::from(kind);
        wire.execute(
            "INSERT INTO kind VALUES ($1, $2, $3, $4, $5) ON CONFLICT (number) DO UPDATE SET words = excluded.words",
            &[&kind, &line, &subject, &order, &task],
        )?;
    }
    Ok(())
}

#[cfg(test)]
mod tests {
    use super::*;

    /// Databases have these sums: a step that was changed, if only in a comment, would be refused by all of them. What is to change is a new step.
    #[test]
    fn a_step_that_has_landed_stays_as_it_is() {
        let landed = [
            "b5472c9dc64ba099b8d760ed5cb53824eca028f1879088ff2a77adbbc51757bd",
            "ab8661b4efe7de24fc201a2c44f249383d8c6da94d9769318b96879e6fce5695",
            "4a9a2c29d7bb330febae7c6516545596c25c95a0dbf10ec3edb55938984a27c7",
        ];
        assert_eq!(MIGRATIONS.map(sum), landed);
    }
}
