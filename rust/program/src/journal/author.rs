//! A journal whose requests come at times that the caller chooses: what simulated desks leave, and what tests read.

use super::append::Failed;
use super::postgres;
use super::store::{open, How, Writes};
use super::{begin, is_database, shown, user_of, Bytes, Group, Live, Row, Saved, Takeover};
use crate::names::Naming;
use crate::source::Policy;
use crate::stop::{wrong, Stop};
use mishantral::{Answer, Engine};
use records::Record;
use std::sync::Arc;
use std::time::Duration;

/// So many requests go into one transaction.
const GROUP: usize = 4_096;
const SNAPSHOT: i64 = 100_000;
/// Who asks in a journal that nobody's requests are in.
const ACCOUNT: &str = "simulated";

pub struct Author {
    file: String,
    journal: Box<dyn Writes>,
    engine: Engine,
    live: Live,
    account: Arc<str>,
    rows: Vec<Row>,
    last: i64,
    at: i64,
}

impl Author {
    /// Begins a journal of an accepted policy, where there is none.
    pub fn begin(file: &str, policy: &Policy) -> Result<Author, Stop> {
        if let Err(refused) = begin(file, policy)? {
            let file = &policy.file;
            return Err(Stop::Refused(vec![format!(
                "{file}: the policy is refused: {refused}"
            )]));
        }
        let how = How {
            every: SNAPSHOT,
            saved: Saved::Normal,
            policy: None,
            takeover: Takeover {
                server: ACCOUNT.to_string(),
                silent: Duration::from_secs(5),
                share: None,
            },
        };
        let (journal, found) = open(file, &how)?;
        Ok(Author {
            file: shown(file),
            journal,
            engine: found.engine,
            live: found.live,
            account: ACCOUNT.into(),
            rows: Vec::new(),
            last: 0,
            at: i64::MIN,
        })
    }

    /// Asks at a time, which is not before the last one.
    pub fn ask(&mut self, at: i64, record: &Record, namings: &[Naming]) -> Result<Answer, Stop> {
        self.at = at.max(self.at);
        self.last += 1;
        let user = user_of(record, &self.engine.state().sessions);
        let before = self.live.opening(record);
        let answer = self.engine.request(record);
        let granted = answer.is_granted();
        let namings = if granted { namings } else { &[] };
        if granted {
            self.live.granted(self.last, record, namings);
        }
        self.rows.push(Row {
            number: self.last,
            at: self.at,
            client: 1,
            account: self.account.clone(),
            via: None,
            user,
            bytes: Bytes::of(&record.0),
            reply: answer.reply.number(),
            place: answer.place as u16,
            opening: before.or_else(|| self.live.opening(record)),
            key: None,
            moved: None,
            namings: namings.to_vec(),
        });
        if self.rows.len() == GROUP {
            self.write()?;
        }
        Ok(answer)
    }

    /// What a claim would be answered; it is not in the journal.
    pub fn tried(&mut self, claim: &Record) -> Answer {
        let answer = self.engine.request(claim);
        if answer.is_granted() {
            let release = Record::release(claim.a(), claim.b(), claim.c());
            let taken_back = self.engine.request(&release);
            debug_assert!(taken_back.is_granted());
        }
        answer
    }

    /// Removes a journal that was not finished.
    pub fn discard(file: &str) {
        if is_database(file) {
            let _ = postgres::Place::of(file).and_then(|place| postgres::discard(&place));
            return;
        }
        for behind in ["", "-wal", "-shm", "-reserve", ".lock"] {
            let _ = std::fs::remove_file(format!("{file}{behind}"));
        }
    }

    pub fn engine(&self) -> &Engine {
        &self.engine
    }

    fn write(&mut self) -> Result<(), Stop> {
        let written = self.journal.write(&Group {
            rows: &self.rows,
            barred: &[],
            state: self.engine.state(),
            live: &self.live,
        });
        self.rows.clear();
        self.done(written)
    }

    fn done(&self, written: Result<(), Failed>) -> Result<(), Stop> {
        match written {
            Ok(()) => Ok(()),
            Err(Failed::NotDone(why) | Failed::Lost(why)) => {
                wrong(format!("{}: it cannot be written: {why}", self.file))
            }
        }
    }

    /// Writes what is left; how many requests there were.
    pub fn finish(mut self) -> Result<i64, Stop> {
        self.write()?;
        let finished = self.journal.finish(self.engine.state(), &self.live);
        self.done(finished)?;
        Ok(self.last)
    }
}
