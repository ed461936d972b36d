//! Where a desk's present comes from: the requests of its journal by which each thing came to be as it is, and the keys that requests had.

use crate::carry::Thing;
use crate::journal::{Key, Moved, Row};
use crate::told::{Entry, Told};
use records::Record;
use std::collections::BTreeMap;

/// The requests by which an entry was claimed and done.
struct EntryOf {
    claim: Moved,
    done: Option<Moved>,
}

#[derive(Default)]
pub struct Origins {
    things: BTreeMap<Thing, Moved>,
    /// By order, in the order of `Told`'s entries.
    entries: BTreeMap<u16, Vec<EntryOf>>,
    /// The keys that requests had, the last ones last.
    pub keys: Vec<Key>,
}

impl Origins {
    /// A row that was answered as it had been; `told` is the desk before it.
    pub fn row(&mut self, row: &Row, told: &Told) {
        if let Some(key) = &row.key {
            self.keys.push(Key {
                account: row.account.to_string(),
                key: key.to_string(),
                number: row.number,
                at: row.at,
                record: row.bytes.as_ref().to_vec(),
                reply: row.reply,
                place: row.place,
            });
        }
        if let (0, Some(record)) = (row.reply, row.bytes.record()) {
            self.granted(row, &record, told);
        }
    }

    fn granted(&mut self, row: &Row, record: &Record, told: &Told) {
        let (a, origin) = (record.a(), row.origin());
        match record.kind() {
            32 => drop(self.things.insert(Thing::User(a), origin)),
            33 => {
                let of = |thing: &Thing| matches!(thing, Thing::User(u) | Thing::Commit(u, _) if *u == a);
                self.things.retain(|thing, _| !of(thing));
            }
            40 => drop(self.things.insert(Thing::Session(a), origin)),
            48 => {
                self.things.insert(Thing::Opening(a), origin);
                self.entries.insert(a, Vec::new());
            }
            50..=52 => self.worked(record, origin, told),
            59 => {
                if let Some(user) = told.user_of(a) {
                    let thing = Thing::Commit(user, record.c());
                    self.things.entry(thing).or_insert(origin);
                }
            }
            _ => {}
        }
    }

    fn worked(&mut self, record: &Record, origin: Moved, told: &Told) {
        let (subject, order, task) = (record.a(), record.b(), record.c());
        let held = |e: &Entry| e.task == task && e.holder == Some(subject);
        let at = told.entries(order).iter().position(held);
        let Some(entries) = self.entries.get_mut(&order) else {
            return;
        };
        match (record.kind(), at) {
            (50, _) => entries.push(EntryOf {
                claim: origin,
                done: None,
            }),
            (51, Some(at)) => drop(entries.remove(at)),
            (_, Some(at)) => entries[at].done = Some(origin),
            _ => {}
        }
    }

    /// The row that a thing came from; none where the policy brought it.
    pub fn of(&self, thing: Thing) -> Option<Moved> {
        let entry = |order: u16, at: usize| self.entries.get(&order)?.get(at);
        match thing {
            Thing::Claim(order, at) => Some(entry(order, at)?.claim.clone()),
            Thing::Done(order, at) => entry(order, at)?.done.clone(),
            thing => self.things.get(&thing).cloned(),
        }
    }
}
