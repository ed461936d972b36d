//! What a desk's thread says those who look on: how far it is, its figures, since when tasks are held or done, and the last refusals.
//! It decides nothing: what is allowed is asked of the engine.

use super::meter::{Meter, OfDesk};
use crate::journal::{self, Barred, Failed, Found, Live, Row};
use crate::names::Names;
use crate::report::{log, Level};
use crate::writer;
use serde_json::json;
use std::collections::VecDeque;
use std::sync::{Arc, Mutex, MutexGuard, PoisonError};
use std::time::Duration;
use tokio::sync::watch;

/// How many refusals are kept in mind.
pub const REFUSALS: usize = 50;

const ORDERS: usize = 64;

/// An entry of an order, with its times.
#[derive(Clone, PartialEq, Eq, Debug)]
pub struct Entry {
    pub user: Option<u16>,
    pub task: u16,
    subject: u16,
    pub claimed: i64,
    pub done: Option<i64>,
}

/// A request that the engine refused.
#[derive(Clone, PartialEq, Eq, Debug)]
pub struct Refusal {
    pub number: i64,
    pub at: i64,
    pub account: Arc<str>,
    pub user: Option<u16>,
    /// The request, with the names of its time.
    pub request: String,
    pub reply: u8,
    pub place: u16,
}

/// What was seen of the orders that are open, and the last refusals.
pub struct Seen {
    /// When each order was opened, and its entries in their order.
    orders: [(i64, Vec<Entry>); ORDERS],
    pub refusals: VecDeque<Refusal>,
}

impl Default for Seen {
    fn default() -> Seen {
        Seen {
            orders: std::array::from_fn(|_| (0, Vec::new())),
            refusals: VecDeque::new(),
        }
    }
}

impl Seen {
    /// What a journal says of the orders that are open now.
    pub fn read(file: &str, live: &Live) -> Seen {
        let mut seen = Seen::default();
        let first = live.openings.iter().copied().filter(|&o| o != 0).min();
        // A journal that cannot be read here fails elsewhere, and says so there.
        let Ok(store) = journal::reading(file) else {
            return seen;
        };
        if let Ok(rows) = store.worked(first.unwrap_or(i64::MAX)) {
            rows.iter().for_each(|row| seen.granted(row));
        }
        if let Ok(rows) = store.refused(REFUSALS as i64) {
            seen.refusals = rows.iter().map(|row| refusal(row, &live.names)).collect();
        }
        seen
    }

    /// When an order was opened, where that is known.
    pub fn opened(&self, order: u16) -> Option<i64> {
        let (at, _) = self.orders.get(usize::from(order))?;
        Some(*at).filter(|at| *at != 0)
    }

    /// The entries of an order, as the engine has them.
    pub fn entries(&self, order: u16) -> &[Entry] {
        let order = self.orders.get(usize::from(order));
        order.map_or(&[], |(_, entries)| entries)
    }

    fn granted(&mut self, row: &Row) {
        let Some(record) = row.bytes.record() else {
            return;
        };
        let order = match record.kind() {
            48 | 49 => record.a(),
            50..=52 => record.b(),
            _ => return,
        };
        let Some((opened, entries)) = self.orders.get_mut(usize::from(order)) else {
            return;
        };
        let (subject, task) = (record.a(), record.c());
        let held = |e: &Entry| (e.task, e.subject, e.done) == (task, subject, None);
        let at = entries.iter().position(held);
        match (record.kind(), at) {
            (48, _) => (*opened, *entries) = (row.at, Vec::new()),
            (49, _) => (*opened, *entries) = (0, Vec::new()),
            (50, _) => entries.push(Entry {
                user: row.user,
                task,
                subject,
                claimed: row.at,
                done: None,
            }),
            (51, Some(at)) => drop(entries.remove(at)),
            (52, Some(at)) => entries[at].done = Some(row.at),
            _ => {}
        }
    }

    fn follow(&mut self, rows: &[Row], names: &Names) {
        for row in rows.iter().filter(|row| row.reply == 0) {
            self.granted(row);
        }
        let refused = rows.iter().rev().filter(|row| row.reply != 0);
        let mut last: Vec<Refusal> = refused
            .take(REFUSALS)
            .map(|row| refusal(row, names))
            .collect();
        last.reverse();
        self.refusals.extend(last);
        let over = self.refusals.len().saturating_sub(REFUSALS);
        self.refusals.drain(..over);
    }
}

fn refusal(row: &Row, names: &Names) -> Refusal {
    Refusal {
        number: row.number,
        at: row.at,
        account: row.account.clone(),
        user: row.user,
        request: writer::line(row.bytes.as_ref(), names),
        reply: row.reply,
        place: row.place,
    }
}

pub struct Feed {
    name: String,
    /// The number of the last request that was answered: whoever watches it is woken.
    pub last: watch::Sender<i64>,
    figures: Mutex<OfDesk>,
    /// None where nobody looks on.
    seen: Option<Mutex<Seen>>,
}

impl Feed {
    pub fn new(name: &str, meter: &Meter, last: i64, seen: Option<Seen>) -> Feed {
        let figures = meter.of_desk(name);
        figures.last.set(last);
        Feed {
            name: name.to_string(),
            last: watch::channel(last).0,
            figures: Mutex::new(figures),
            seen: seen.map(Mutex::new),
        }
    }

    /// The desk was taken over: what is seen of it is what its journal says.
    pub fn taken(&self, place: Option<&str>, found: &Found) {
        if let (Some(mut seen), Some(place)) = (self.seen(), place) {
            *seen = Seen::read(place, &found.live);
        }
        self.figures().last.set(found.last);
        self.last.send_replace(found.last);
    }

    fn figures(&self) -> MutexGuard<'_, OfDesk> {
        self.figures.lock().unwrap_or_else(PoisonError::into_inner)
    }

    pub fn seen(&self) -> Option<MutexGuard<'_, Seen>> {
        let seen = self.seen.as_ref()?;
        Some(seen.lock().unwrap_or_else(PoisonError::into_inner))
    }

    /// The journal was asked to keep that many requests, and took so long.
    pub fn wrote(&self, took: Duration, requests: usize, how: &Result<(), Failed>) {
        let figures = self.figures();
        figures.write.observe(took.as_secs_f64());
        if how.is_err() {
            figures.not_done.inc_by(requests as u64);
        }
    }

    /// These were answered, and these barred.
    pub fn answered(&self, rows: &[Row], barred: &[Barred], names: &Names) {
        for one in barred {
            let fields = [
                ("desk", json!(self.name)),
                ("account", json!(&*one.account)),
                ("via", json!(one.via.as_deref())),
                ("asked", json!(one.asked)),
                ("why", json!(one.why)),
            ];
            log(Level::Info, "barred", &fields);
        }
        let mut figures = self.figures();
        figures.barred.inc_by(barred.len() as u64);
        let Some(last) = rows.last() else {
            return;
        };
        for row in rows {
            figures.count(row.bytes.as_ref().first().copied().unwrap_or(0), row.reply);
        }
        figures.group.observe(rows.len() as f64);
        figures.last.set(last.number);
        drop(figures);
        if let Some(mut seen) = self.seen() {
            seen.follow(rows, names);
        }
        self.last.send_replace(last.number);
    }
}

#[cfg(test)]
mod tests {
    use super::*;
    use crate::journal::Bytes;
    use records::Record;

    fn row(number: i64, record: Record, reply: u8) -> Row {
        Row {
            number,
            at: number * 10,
            client: 1,
            account: "anna".into(),
            via: None,
            user: Some(300),
            bytes: Bytes::of(&record.0),
            reply,
            place: 0,
            opening: None,
            key: None,
            moved: None,
            namings: Vec::new(),
        }
    }

    #[test]
    fn entries_have_the_times_of_their_requests() {
        let feed = Feed::new("", &Meter::new().unwrap(), 0, Some(Seen::default()));
        let watched = feed.last.subscribe();
        let rows = [
            row(1, Record::open_order(7, 0), 0),
            row(2, Record::claim(1, 7, 0), 0),
            row(3, Record::claim(1, 7, 2), 0),
            row(4, Record::done(1, 7, 0), 0),
            row(5, Record::claim(1, 7, 1), 15),
            row(6, Record::release(1, 7, 2), 0),
        ];
        feed.answered(&rows, &[], &Names::default());
        assert_eq!(*watched.borrow(), 6);
        let seen = feed.seen().unwrap();
        assert_eq!((seen.opened(7), seen.opened(8)), (Some(10), None));
        let [only] = seen.entries(7) else {
            panic!("{:?}", seen.entries(7));
        };
        assert_eq!((only.task, only.claimed, only.done), (0, 20, Some(40)));
        assert_eq!(seen.refusals.len(), 1);
        assert_eq!(seen.refusals[0].request, "claim 1 7 1");
        drop(seen);
        let many: Vec<Row> = (7..200)
            .map(|n| row(n, Record::claim(1, 7, 1), 15))
            .collect();
        feed.answered(&many, &[], &Names::default());
        feed.answered(&[row(200, Record::end_order(7), 0)], &[], &Names::default());
        let seen = feed.seen().unwrap();
        assert_eq!((seen.refusals.len(), seen.opened(7)), (REFUSALS, None));
        assert_eq!(seen.refusals.back().unwrap().number, 199);
    }
}
