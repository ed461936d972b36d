//! `move`: a desk's present brought into a new journal with another policy, by ordinary requests, each granted by the engine (docs/CHANGING.md). All of
//! it moves, or nothing is written. The old journal is read and stays as it is; the new one is whole or absent.

mod origins;
mod tell;
#[cfg(test)]
mod trials;

use crate::carry::{carry, Carried, Request, Thing, Users};
use crate::check::refusal;
use crate::journal::{self, user_of, Brought, Bytes, Found, Key, Live, Row, Seal, Still, Unfit};
use crate::names::{Naming, Sort};
use crate::progress::Progress;
use crate::source::Policy;
use crate::stop::{wrong, Done, Stop, REFUSED, WELL};
use crate::told::Told;
use mishantral::Engine;
use origins::Origins;
use std::cmp::Reverse;
use std::collections::BTreeSet;
use std::io::Write;
use std::sync::Arc;

pub struct Options<'a> {
    pub journal: &'a str,
    /// The new journal.
    pub to: Option<&'a str>,
    pub dry_run: bool,
    /// Orders that stay behind, by number or name, with commas between.
    pub leave: Option<&'a str>,
    pub users: Users,
    pub json: bool,
}

/// A desk as its journal leaves it, with where everything came from.
struct Present {
    found: Found,
    /// The tables of its policy when it was loaded, and now.
    loaded: Told,
    now: Told,
    origins: Origins,
}

impl Present {
    /// Asks a whole journal again.
    fn read(file: &str) -> Result<Present, Stop> {
        let mut progress = Progress::over(file, "move")?;
        let mut tables: Option<(Told, Told)> = None;
        let mut origins = Origins::default();
        let found = journal::replay(file, &mut |row, found| {
            progress.at(row.number);
            let loaded = || Told::loaded(&found.policy.records());
            let (_, now) = tables.get_or_insert_with(|| (loaded(), loaded()));
            origins.row(row, now);
            if let (0, Some(record)) = (row.reply, row.bytes.record()) {
                now.granted(&record);
            }
        });
        progress.end();
        let found = found?;
        let loaded = || Told::loaded(&found.policy.records());
        let (loaded, now) = tables.unwrap_or_else(|| (loaded(), loaded()));
        let keys = journal::reading(file)?.moved_keys();
        let refused =
            |Unfit(why): Unfit| Stop::Refused(vec![format!("{}: {why}", journal::shown(file))]);
        origins.keys.extend(keys.map_err(refused)?);
        // Of a key that was used again, the last use counts: whoever writes them takes the first.
        origins
            .keys
            .sort_by_key(|key| Reverse((key.at, key.number)));
        Ok(Present {
            found,
            loaded,
            now,
            origins,
        })
    }

    /// The orders of a list.
    fn orders(&self, list: &str) -> Result<BTreeSet<u16>, Stop> {
        let mut all = BTreeSet::new();
        for word in list.split(',').map(str::trim).filter(|w| !w.is_empty()) {
            let named = || self.found.live.names.given(Sort::Order, word);
            let number = word.parse().ok().or_else(named);
            match number.filter(|number| self.now.orders.contains_key(number)) {
                Some(number) => drop(all.insert(number)),
                None => return wrong(format!("--leave: there is no open order {word:?}")),
            }
        }
        Ok(all)
    }
}

/// What a move comes to.
struct Outcome<'a> {
    options: &'a Options<'a>,
    policy: &'a Policy,
    present: &'a Present,
    left: BTreeSet<u16>,
    carried: Carried,
}

pub fn moving(options: &Options, policy: &Policy, out: &mut dyn Write) -> Done {
    if let Err(refused) = Engine::new().load(&policy.bytes) {
        return Err(Stop::Refused(refusal(policy, refused)));
    }
    let (file, to) = (options.journal, options.to.unwrap_or_default());
    if !options.dry_run && journal::is_there(to)? {
        return wrong(format!("{}: it is there already", journal::shown(to)));
    }
    // Whoever serves the old desk meanwhile would answer what is not moved.
    let still = (!options.dry_run).then(|| Still::take(file));
    let still = still.transpose()?;
    let present = Present::read(file)?;
    let left = present.orders(options.leave.unwrap_or_default())?;
    let mut now = present.now.clone();
    now.orders.retain(|order, _| !left.contains(order));
    let names = &present.found.live.names;
    let carried = carry(&now, &present.loaded, names, policy, options.users);
    let carried = carried.map_err(|refused| Stop::Refused(refusal(policy, refused)))?;
    let outcome = Outcome {
        options,
        policy,
        present: &present,
        left,
        carried,
    };
    let stays = !outcome.carried.obstacles.is_empty();
    if let Some(mut still) = still.filter(|_| !stays) {
        still.holds(present.found.last)?;
        outcome.write(to)?;
        still.end()?;
    }
    match options.json {
        true => outcome.object(out)?,
        false => outcome.words(out)?,
    }
    Ok(if stays { REFUSED } else { WELL })
}

impl Outcome<'_> {
    /// The name that a request gives: an order's, a session's or an added user's.
    fn named(&self, request: &Request) -> Vec<Naming> {
        let (sort, number) = match request.of {
            Some(Thing::Opening(order)) => (Sort::Order, order),
            Some(Thing::Session(subject)) => (Sort::Subject, subject),
            Some(Thing::User(user)) => (Sort::User, user),
            _ => return Vec::new(),
        };
        // As it is on the new desk: a name that the new policy gives to another is not brought.
        let brought = self.carried.desk.names.name(sort, number);
        let naming = |name: &[u8]| Naming {
            sort,
            number,
            name: name.to_vec(),
            column: 0,
        };
        brought.map(naming).into_iter().collect()
    }

    /// The requests as rows of the new journal.
    fn rows(&self) -> (Vec<Row>, Engine, Live) {
        let mut engine = Engine::new();
        let loaded = engine.load(&self.policy.bytes);
        debug_assert!(loaded.is_ok());
        let mut live = Live::new(self.policy.names.clone());
        let (at, account): (i64, Arc<str>) = (journal::now(), crate::serve::own_account().into());
        let mut rows = Vec::new();
        for (number, request) in (1..).zip(&self.carried.requests) {
            let record = &request.record;
            let user = user_of(record, &engine.state().sessions);
            let before = live.opening(record);
            let answer = engine.request(record);
            debug_assert!(answer.is_granted());
            let namings = self.named(request);
            live.granted(number, record, &namings);
            rows.push(Row {
                number,
                at,
                // The clients of a server are counted from 1.
                client: 0,
                account: account.clone(),
                via: None,
                user,
                bytes: Bytes::of(&record.0),
                reply: answer.reply.number(),
                place: answer.place as u16,
                opening: before.or_else(|| live.opening(record)),
                key: None,
                moved: request.of.and_then(|thing| self.present.origins.of(thing)),
                namings,
            });
        }
        (rows, engine, live)
    }

    fn write(&self, to: &str) -> Result<(), Stop> {
        let (rows, engine, live) = self.rows();
        let keys: &[Key] = &self.present.origins.keys;
        journal::brought(
            to,
            self.policy,
            &Brought {
                from: &journal::shown(self.options.journal),
                number: self.present.found.last,
                sum: Seal::of(&self.present.found).map(|seal| seal.sum),
                keys,
                rows: &rows,
                state: engine.state(),
                live: &live,
            },
        )
    }
}
