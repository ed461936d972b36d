//! What stands before the first request, and its sum: version, policy in records and words, names, the words by which people read, and what a move
//! brought. The sum is over the tables as they are, so that whatever stands there is covered.

use super::chain::{Hash, Of, Sum};
use super::checksums;
use super::found::{unfit, Unfit};
use super::links::Links;
use super::rows::{naming, record};
use super::{APPLICATION, OLDEST, VERSION};
use crate::names::{Names, Naming};
use crate::reader;
use crate::source::Policy;
use rusqlite::types::ValueRef;
use rusqlite::{Connection, OptionalExtension};

/// The rows that the head's sum is over. A view or a trigger of somebody else's would show people what is not there.
const HEAD: [&str; 6] = [
    "SELECT version, program, policy_words, sessions_words, orders_words, at, file, moved_from, moved_number, moved_sum FROM journal",
    "SELECT place, line, kind, n, a, b, c, m, words FROM policy ORDER BY place",
    "SELECT sort, number, name FROM name WHERE request = 0 ORDER BY rowid",
    "SELECT number, name, NULL, NULL, NULL FROM reply UNION ALL SELECT number, words, subject, ordr, task FROM kind ORDER BY 1, 2",
    "SELECT name, sql FROM sqlite_master WHERE type IN ('view', 'trigger') ORDER BY name",
    "SELECT account, key, number, at, record, reply, place FROM moved_key ORDER BY account, key",
];

/// The sum of the head, from the tables of a journal of this version.
pub fn sum(act: &Connection) -> rusqlite::Result<Sum> {
    let mut hash = Hash::of(Of::Head);
    for select in HEAD {
        let mut select = act.prepare(select)?;
        let width = select.column_count();
        let mut rows = select.query([])?;
        while let Some(row) = rows.next()? {
            hash = hash.number(width as i64);
            for column in 0..width {
                hash = match row.get_ref(column)? {
                    ValueRef::Null => hash.number(0),
                    ValueRef::Integer(number) => hash.number(1).number(number),
                    ValueRef::Real(number) => hash.number(2).number(number.to_bits() as i64),
                    ValueRef::Text(text) => hash.number(3).text(text),
                    ValueRef::Blob(bytes) => hash.number(4).text(bytes),
                };
            }
        }
        hash = hash.number(0);
    }
    Ok(hash.whole())
}

/// How a journal begins.
pub struct Head {
    pub version: i64,
    pub policy: Policy,
    /// What the first request's sum is after.
    pub links: Links,
}

/// The version of a journal, where it is one that this program reads.
pub fn version(act: &Connection) -> Result<i64, Unfit> {
    let pragma = |name: &str| {
        let sql = format!("SELECT {name} FROM pragma_{name}");
        act.query_row(&sql, [], |r| r.get::<_, i64>(0))
    };
    if pragma("application_id")? != APPLICATION {
        return unfit("it is an SQLite file, and no journal");
    }
    match pragma("user_version")? {
        version @ OLDEST..=VERSION => Ok(version),
        version => unfit(format!(
            "it is of version {version}, and this program reads versions {OLDEST} to {VERSION}"
        )),
    }
}

/// The head, with everything that says which journal this is compared first.
pub fn head(act: &Connection, journal: &str) -> Result<Head, Unfit> {
    let version = version(act)?;
    let select = "SELECT policy_words, sessions_words, orders_words, file FROM journal";
    let said = act.query_row(select, [], |r| {
        let words: [i64; 3] = [r.get(0)?, r.get(1)?, r.get(2)?];
        Ok((words, r.get::<_, String>(3)?))
    });
    let Some((words, file)) = said.optional()? else {
        return unfit("it is damaged: its head is missing");
    };
    let policy = policy(act, file)?;
    let links = match version {
        2 => {
            let sum = checksums::head(&policy, words);
            let kept: i64 = act.query_row("SELECT sum FROM journal", [], |r| r.get(0))?;
            (sum == kept).then_some(Links::Checksums(checksums::first(sum)))
        }
        _ => {
            let sum = sum(act)?;
            let kept: Vec<u8> = act.query_row("SELECT sum FROM journal", [], |r| r.get(0))?;
            (sum[..] == kept[..]).then_some(Links::chain(sum))
        }
    };
    let Some(links) = links else {
        return unfit(format!(
            "it is damaged: the policy in {journal} does not have its checksum"
        ));
    };
    Ok(Head {
        version,
        policy,
        links,
    })
}

fn policy(act: &Connection, file: String) -> Result<Policy, Unfit> {
    let mut policy = Policy {
        file,
        bytes: Vec::new(),
        lines: Vec::new(),
        names: Names::default(),
        ..Policy::default()
    };
    let mut rows = act.prepare("SELECT line, kind, n, a, b, c, m FROM policy ORDER BY place")?;
    let mut rows = rows.query([])?;
    while let Some(columns) = rows.next()? {
        policy.bytes.extend(record(columns, 1)?.0);
        let line: Option<i64> = columns.get(0)?;
        policy.lines.extend(line.map(|line| line as usize));
    }
    reader::give(&mut policy.names, &names_of_policy(act)?, false);
    Ok(policy)
}

/// The names that the policy gave.
fn names_of_policy(act: &Connection) -> Result<Vec<Naming>, Unfit> {
    let mut rows = act
        .prepare("SELECT request, sort, number, name FROM name WHERE request = 0 ORDER BY rowid")?;
    let mut rows = rows.query([])?;
    let mut all = Vec::new();
    while let Some(columns) = rows.next()? {
        all.push(naming(columns)?);
    }
    Ok(all)
}
