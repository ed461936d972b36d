//! Writing a desk's journal in a database. A group, the fence that lets its server alone write it, and the commit are one statement.
//!
//! Where the connection breaks meanwhile nobody knows whether the group is there. Then the server takes the desk from itself, by a connection of
//! its own: from then on nothing of the old one can be written, and how many groups there are says whether this one is among them.

use super::columns::{Columns, More, Sealed};
use super::place::Place;
use super::read::{bytes, Reading};
use super::tables::{BEAT, END, KNOWN, NEXT, RETAKE, WRITE, WRITE_ALL};
use super::take::{free, take, Having, Taken, PAUSE};
use super::wire::{Fault, Wire};
use super::{migrate, replicated};
use crate::journal::chain::{Chain, Note, Sum};
use crate::journal::clock::Clock;
use crate::journal::found::{self, Unfit};
use crate::journal::links::{Kept, Links};
use crate::journal::snapshot::Snapshot;
use crate::journal::store::{How, Known, Whose, Writes};
use crate::journal::{Failed, Found, Group, Live, Recorded, Row, Saved};
use crate::report::report;
use crate::stop::Stop;
use mishantral::State;
use std::time::{Duration, Instant};
use tokio_postgres::error::SqlState;
use tokio_postgres::types::ToSql;

/// How long a database that is gone is waited for; then the desk ends.
const PATIENCE: Duration = Duration::from_secs(60);

pub struct Journal {
    wire: Wire,
    place: Place,
    saved: Saved,
    /// Which start this is: the fence's number.
    start: i64,
    last: i64,
    /// How many groups there are.
    groups: i64,
    chain: Chain,
    clock: Clock,
    /// A snapshot is taken after that many requests.
    every: i64,
    snapshot: i64,
}

/// Connects to a database that is set as it is asked for.
pub fn connected(place: &Place, saved: Saved) -> Result<Wire, String> {
    let mut wire = Wire::connect(place).map_err(|why| why.text())?;
    replicated::set(&mut wire, saved)?;
    replicated::checked(&mut wire, saved)?;
    migrate::migrated(&mut wire)?;
    Ok(wire)
}

/// Writes a group with its sums after a request, where the desk is of this start: whether the fence let it through.
pub fn written(
    wire: &mut Wire,
    desk: &str,
    (start, before): (i64, i64),
    group: &Sealed,
) -> Result<bool, Fault> {
    let Sealed { last, rows, .. } = group;
    let columns = Columns::of(rows);
    let mut values: Vec<&(dyn ToSql + Sync)> = vec![&desk, &start, &before, last];
    columns.add(&mut values);
    let more = More::of(group);
    let sql = match more.is_empty() {
        true => WRITE,
        false => {
            more.add(&mut values);
            WRITE_ALL
        }
    };
    let counts = wire.committed(sql, &values)?;
    let counts = counts.first().map(|row| (row.get(0), row.get(1)));
    match counts {
        Some((1i64, inserted)) if inserted == rows.len() as i64 => Ok(true),
        Some((0, 0)) => Ok(false),
        other => Err(Fault::Doubt(format!(
            "{} rows were to be written, and the database says {other:?}",
            rows.len()
        ))),
    }
}

impl Journal {
    /// Takes a desk that nobody serves, and reads it. A server that had it and is gone without a word is waited for as long as it may be silent.
    pub fn open(place: &Place, how: &How) -> Result<(Journal, Found), Stop> {
        let refused = |why: String| Stop::Refused(vec![format!("{}: {why}", place.shown)]);
        let mut wire = connected(place, how.saved).map_err(refused)?;
        let (desk, silent) = (&place.desk, how.takeover.silent);
        let remedy = "--standby waits until that is silent";
        let taken = free(&mut wire, desk, silent, remedy, |wire, having, silent| {
            take(wire, place, having, &how.takeover, silent)
        });
        let taken = taken.map_err(refused)?;
        Journal::taken(wire, place, how, taken)
    }

    /// Reads a desk that was taken.
    pub fn taken(
        wire: Wire,
        place: &Place,
        how: &How,
        taken: Taken,
    ) -> Result<(Journal, Found), Stop> {
        let refused = |why: String| Stop::Refused(vec![format!("{}: {why}", place.shown)]);
        let reading = Reading::open(place)?;
        let found = found::of(&reading, false, &mut |_: &Row, _: &Found| Ok(()));
        let fit = found.map_err(|Unfit(why)| refused(why)).and_then(|found| {
            found.of_policy(how.policy.as_ref()).map_err(refused)?;
            match (found.last == taken.last, &found.links) {
                (true, Links::Chain(chain)) => Ok((chain.clone(), found)),
                _ => Err(refused(format!(
                    "it was cut: {} requests were written, and it ends with request {}",
                    taken.last, found.last
                ))),
            }
        });
        let mut wire = wire;
        let (chain, found) = match fit {
            Ok(fit) => fit,
            Err(why) => {
                // Nobody need wait for a server that does not serve it.
                let _ = wire.committed(END, &[&place.desk, &taken.start]);
                return Err(why);
            }
        };
        let mut journal = Journal {
            wire,
            place: place.clone(),
            saved: how.saved,
            start: taken.start,
            last: taken.last,
            groups: taken.groups,
            chain,
            clock: Clock::after(found.at),
            every: how.every,
            snapshot: found.snapshot,
        };
        if found.relaid {
            let kept = journal.keep(found.engine.state(), &found.live);
            kept.map_err(|why| match why {
                Failed::NotDone(why) | Failed::Lost(why) => refused(why),
            })?;
        }
        Ok((journal, found))
    }

    /// The group with its sums, as the tables take it: whether the fence let it through.
    fn wrote(&mut self, group: &Sealed) -> Result<bool, Fault> {
        written(
            &mut self.wire,
            &self.place.desk,
            (self.start, self.last),
            group,
        )
    }

    /// Writes a group until it is there, or is known not to be.
    fn put(&mut self, group: &Sealed) -> Result<(), Failed> {
        loop {
            match self.wrote(group) {
                Ok(true) => break,
                Ok(false) => return Err(self.lost()),
                Err(Fault::Refused(code, why)) => return Err(failed(&code, &why)),
                Err(Fault::Doubt(why)) => {
                    let groups = self.retaken(&why)?;
                    match groups - self.groups {
                        0 => continue,
                        1 => break,
                        _ => return Err(self.lost()),
                    }
                }
            }
        }
        self.groups += 1;
        self.last = group.last;
        self.chain = group.chain.clone();
        if let Some(taken) = &group.snapshot {
            self.snapshot = taken.after;
        }
        Ok(())
    }

    /// Connects again and takes the desk from itself: how many groups there are, of which none is on its way any more.
    fn retaken(&mut self, why: &str) -> Result<i64, Failed> {
        report(format!(
            "{}: {why}; nobody is answered until it is known what was written",
            self.place.shown
        ));
        let began = Instant::now();
        // A try that broke off may have been done.
        let mut mine = vec![self.start];
        loop {
            match self.retake(&mut mine) {
                Ok(Some(groups)) => return Ok(groups),
                Ok(None) => return Err(self.lost()),
                Err(Fault::Refused(_, why)) => return Err(Failed::Lost(why)),
                Err(Fault::Doubt(why)) if began.elapsed() > PATIENCE => {
                    let seconds = PATIENCE.as_secs();
                    return Err(Failed::Lost(format!(
                        "the database could not be reached for {seconds} s: {why}"
                    )));
                }
                Err(Fault::Doubt(_)) => std::thread::sleep(PAUSE),
            }
        }
    }

    fn retake(&mut self, mine: &mut Vec<i64>) -> Result<Option<i64>, Fault> {
        let mut wire = Wire::connect(&self.place)?;
        replicated::set(&mut wire, self.saved).map_err(Fault::Doubt)?;
        let next = wire.row(NEXT, &[])?.map(|row| row.get::<_, i64>(0));
        let start = next.ok_or(Fault::Doubt(
            "there is no number for this start".to_string(),
        ))?;
        mine.push(start);
        let rows = wire.committed(RETAKE, &[&self.place.desk, mine, &start])?;
        self.wire = wire;
        let Some(row) = rows.first() else {
            return Ok(None);
        };
        self.start = start;
        Ok(Some(row.get(1)))
    }

    /// Somebody else has the desk.
    fn lost(&mut self) -> Failed {
        let desk = &self.place.desk;
        let by = match Having::of(&mut self.wire, desk) {
            Ok(having) => having.server,
            Err(_) => "another server".to_string(),
        };
        Failed::Lost(format!(
            "desk {desk} is served by {by} now, which took it over: this server writes nothing any more"
        ))
    }

    /// A snapshot of the desk as it stands.
    fn keep(&mut self, state: &State, live: &Live) -> Result<(), Failed> {
        let sum = Kept::Sum(self.chain.head());
        let group = Sealed {
            last: self.last,
            rows: Vec::new(),
            barred: Vec::new(),
            jump: None,
            chain: self.chain.clone(),
            snapshot: Some(Snapshot::of(self.last, sum, state, live)),
        };
        self.put(&group)
    }
}

impl Writes for Journal {
    fn time(&mut self) -> i64 {
        self.clock.time()
    }

    fn write(&mut self, group: &Group) -> Result<(), Failed> {
        let mut chain = self.chain.clone();
        for one in group.barred {
            chain.note(&Note::Barred(one.clone()));
        }
        if let Some(jump) = self.clock.jump {
            chain.note(&Note::Clock(jump));
        }
        let rows: Vec<(&Row, Sum)> = group.rows.iter().map(|r| (r, chain.row(r))).collect();
        let last = group.rows.last().map_or(self.last, |row| row.number);
        let taken = last - self.snapshot >= self.every;
        let sum = Kept::Sum(chain.head());
        let sealed = Sealed {
            last,
            rows,
            barred: group.barred.iter().collect(),
            jump: self.clock.jump,
            chain,
            snapshot: taken.then(|| Snapshot::of(last, sum, group.state, group.live)),
        };
        self.put(&sealed)?;
        self.clock.jump = None;
        Ok(())
    }

    fn known(&mut self, keyed: &[Whose], since: i64) -> Result<Known, Failed> {
        let accounts: Vec<&str> = keyed.iter().map(|(account, _)| &**account).collect();
        let keys: Vec<&str> = keyed.iter().map(|(_, key)| &**key).collect();
        let rows = loop {
            let desk = self.place.desk.clone();
            let values: [&(dyn ToSql + Sync); 4] = [&desk, &accounts, &keys, &since];
            match self.wire.rows(KNOWN, &values) {
                Ok(rows) => break rows,
                Err(Fault::Refused(code, why)) => return Err(failed(&code, &why)),
                Err(Fault::Doubt(why)) => drop(self.retaken(&why)?),
            }
        };
        let mut known = Known::new();
        for row in &rows {
            let whose: (String, String) = (row.get(0), row.get(1));
            let recorded = Recorded {
                number: row.get(2),
                bytes: bytes(row, 3).map_err(|Unfit(why)| Failed::Lost(why))?,
                reply: row.get::<_, i16>(10) as u8,
                place: row.get::<_, i32>(11) as u16,
            };
            known.insert((whose.0.into(), whose.1.into()), recorded);
        }
        Ok(known)
    }

    /// Lets others know that the desk is served.
    fn looked_after(&mut self) -> Result<(), Failed> {
        let values: [&(dyn ToSql + Sync); 2] = [&self.place.desk.clone(), &self.start];
        match self.wire.committed(BEAT, &values) {
            Ok(rows) if rows.is_empty() => Err(self.lost()),
            Ok(_) => Ok(()),
            // Where there is no room, requests are told so.
            Err(Fault::Refused(code, why)) => match failed(&code, &why) {
                Failed::NotDone(_) => Ok(()),
                lost => Err(lost),
            },
            Err(Fault::Doubt(why)) => match self.retaken(&why)? == self.groups {
                true => Ok(()),
                false => Err(self.lost()),
            },
        }
    }

    fn finish(&mut self, state: &State, live: &Live) -> Result<(), Failed> {
        if self.last > self.snapshot {
            self.keep(state, live)?;
        }
        let values: [&(dyn ToSql + Sync); 2] = [&self.place.desk.clone(), &self.start];
        let ended = self.wire.committed(END, &values);
        ended.map(drop).map_err(|why| Failed::Lost(why.text()))
    }
}

fn failed(code: &SqlState, why: &str) -> Failed {
    match code.code() {
        "53100" => Failed::NotDone("the database's disk is full".to_string()),
        // No room, a lock that was not had in time, a statement that somebody cancelled: nothing was done.
        code if code.starts_with("53") || matches!(code, "55P03" | "57014" | "40001" | "40P01") => {
            Failed::NotDone(why.to_string())
        }
        _ => Failed::Lost(why.to_string()),
    }
}
