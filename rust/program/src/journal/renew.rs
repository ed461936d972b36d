//! A journal of version 2 brought to this version, in one transaction: whoever is killed meanwhile leaves it as it was. Every request has been asked
//! again by then. The rows are the same, chained; the snapshots go, since a new one is taken at once.

use super::append::bound;
use super::begin::sealed;
use super::chain::Chain;
use super::found::{unfit, Found, Unfit};
use super::rows::{each, Step};
use super::views::VIEWS;
use super::{tables, VERSION};
use rusqlite::Connection;

/// What the tables of version 2 are called while they are read.
const OLD: &str = "
DROP VIEW IF EXISTS hold; DROP VIEW IF EXISTS opening; DROP VIEW IF EXISTS answered; DROP VIEW IF EXISTS rule;
DROP INDEX IF EXISTS name_number;
DROP TABLE snapshot;
ALTER TABLE journal RENAME TO journal_2;
ALTER TABLE request RENAME TO request_2;
";

const COPY: &str = "
INSERT INTO journal SELECT id, 3, program, policy_words, sessions_words, orders_words, at, file, NULL, NULL, NULL, x'' FROM journal_2;
DROP TABLE journal_2;
";

/// Brings it to this version; the chain after its last request.
pub fn renewed(connection: &Connection, found: &Found) -> Result<Chain, Unfit> {
    let act = connection.unchecked_transaction()?;
    act.execute_batch(OLD)?;
    act.execute_batch(tables::NEW)?;
    act.execute_batch(COPY)?;
    act.execute_batch(VIEWS)?;
    act.pragma_update(None, "user_version", VERSION)?;
    let mut chain = Chain::behind(sealed(&act)?);
    let mut insert = act.prepare(tables::INSERT)?;
    let mut last = 0;
    each(&act, (found.version, "request_2"), 0, &mut |step| {
        match step {
            Step::Note(note) => chain.note(&note),
            Step::Row(row, _) => {
                last = row.number;
                // The names that it gave are there already.
                bound(&mut insert, &row, None, chain.row(&row))?;
                insert.raw_execute()?;
            }
        }
        Ok(())
    })?;
    drop(insert);
    if last != found.last {
        return unfit("another program wrote into it meanwhile");
    }
    act.execute_batch("DROP TABLE request_2")?;
    act.commit()?;
    Ok(chain)
}
