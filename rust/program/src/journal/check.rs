//! `journal FILE --check`: the whole journal from its load on. Every row has its sum and its place, every request is asked again and answered
//! as it was, every snapshot is the state that the requests before it lead to, SQLite finds its own file sound; and where a seal is
//! given, the journal is the one that was sealed.

use super::found::{self, unfit, Found, Unfit};
use super::seal::{Seal, UNCHAINED};
use super::store::{reading, Store};
use super::{shown, Row};
use crate::stop::{Done, Stop, WELL};
use mishantral::Engine;
use std::io::Write;

pub fn check(file: &str, seal: Option<&Seal>, out: &mut dyn Write) -> Done {
    let store = reading(file)?;
    let file = &shown(file);
    let checked = whole(&*store, seal);
    let Checked {
        requests,
        snapshots,
        other,
    } = checked.map_err(|Unfit(why)| Stop::Refused(vec![format!("{file}: {why}")]))?;
    writeln!(
        out,
        "{file}: sound: {requests} requests asked anew from the load on, all answered as before; {snapshots} snapshots are the states that they lead to"
    )?;
    if other > 0 {
        writeln!(
            out,
            "{file}: {other} snapshots have another layout, and were not compared"
        )?;
    }
    if let Some(seal) = seal {
        let number = seal.number;
        writeln!(
            out,
            "{file}: it has its seal: nothing up to request {number} was changed or cut since"
        )?;
    }
    Ok(WELL)
}

struct Checked {
    requests: i64,
    snapshots: usize,
    /// Snapshots of another layout.
    other: usize,
}

fn whole(store: &dyn Store, seal: Option<&Seal>) -> Result<Checked, Unfit> {
    store.sound()?;
    if let Some(seal) = seal {
        begins(store, seal)?;
    }
    let kept = store.snapshots()?;
    let mut next = kept.iter().copied().peekable();
    let (mut same, mut other) = (0, 0);
    let found = found::of(store, true, &mut |row: &Row, found: &Found| {
        if seal.and_then(|seal| seal.met(row.number, &found.links)) == Some(false) {
            return unfit(changed(row.number));
        }
        if next.peek() == Some(&row.number) {
            next.next();
            match compared(store, row.number, found)? {
                true => same += 1,
                false => other += 1,
            }
        }
        Ok(())
    })?;
    if same + other != kept.len() {
        return unfit("it is damaged: a snapshot is after no request");
    }
    let (last, number) = (found.last, seal.map_or(0, |seal| seal.number));
    if last < number {
        return unfit(format!(
            "it was cut: the seal is of request {number}, and it ends with request {last}"
        ));
    }
    Ok(Checked {
        requests: last,
        snapshots: same,
        other,
    })
}

fn changed(number: i64) -> String {
    format!("it was changed: request {number} does not have the sum of the seal, so that something up to it is not as it was")
}

/// A seal of a journal without requests is of its head.
fn begins(store: &dyn Store, seal: &Seal) -> Result<(), Unfit> {
    let head = store.head()?;
    if head.links.head().is_none() {
        return unfit(UNCHAINED);
    }
    match seal.met(0, &head.links) {
        Some(false) => unfit(changed(0)),
        _ => Ok(()),
    }
}

/// The snapshot after a request must be the desk there: the engine's state as the tables read, the names and the openings. One of another
/// layout is not compared.
fn compared(store: &dyn Store, after: i64, found: &Found) -> Result<bool, Unfit> {
    let Some(taken) = store.snapshot_after(after)? else {
        return Ok(false);
    };
    taken.bound(store)?;
    let fits = taken.fits();
    let live = taken.live()?;
    let same = (!fits || Engine::from_state(taken.state()?) == found.engine)
        && live.openings == found.live.openings
        && taken.names == found.live.text();
    match same {
        true => Ok(fits),
        false => unfit(format!(
            "the snapshot after request {after} is not the state that its requests lead to"
        )),
    }
}
