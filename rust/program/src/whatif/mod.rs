//! `whatif`: the requests of a journal under another policy. Which replies would be others, by kind, reply and rule; whom that concerns; which
//! orders would not have been opened. Nothing is written.

mod apart;
mod tell;

use crate::carry::{carry, Users};
use crate::check::refusal;
use crate::journal::{self, Found, Row};
use crate::names::Names;
use crate::progress::Progress;
use crate::source::Policy;
use crate::stop::{Done, Stop, REFUSED, WELL};
use crate::told::Told;
use crate::writer;
use apart::Apart;
use mishantral::Engine;
use records::Record;
use std::collections::{BTreeMap, BTreeSet};
use std::io::Write;

pub struct Options<'a> {
    pub journal: &'a str,
    /// Requests from this time on are compared, microseconds since 1970.
    pub since: i64,
    /// No request is compared; the desk as it is now is brought under the other policy.
    pub present: bool,
    /// How many examples of each difference are reported.
    pub examples: usize,
    pub json: bool,
}

/// A reply's number and the place of its rule, or 0.
type Reply = (u8, u16);

const GRANTED: u8 = records::Reply::Granted.number();
const UNKNOWN: u8 = records::Reply::Unknown.number();

/// What differs: the kind of the requests, the reply that was given, and the one that would be.
#[derive(Clone, Copy, PartialEq, Eq, PartialOrd, Ord, Debug)]
struct Sort {
    kind: u8,
    was: Reply,
    would_be: Reply,
}

/// A request that would be answered otherwise.
#[derive(Clone, Debug)]
struct Example {
    number: i64,
    at: i64,
    user: Option<String>,
    line: String,
}

/// The requests of one sort.
#[derive(Clone, Default, Debug)]
struct Same {
    /// Those that come by themselves, and those that may only follow from an earlier one.
    first: u64,
    following: u64,
    examples: Vec<Example>,
    users: BTreeSet<u16>,
}

/// All that differs.
#[derive(Clone, Default, Debug)]
struct Outcome {
    /// The requests of the journal, and those that were compared.
    asked: u64,
    compared: u64,
    /// How many requests brought the desk under the other policy, where that begins later than the journal; and what they could not.
    brought: Option<usize>,
    obstacles: Vec<String>,
    sorts: BTreeMap<Sort, Same>,
    /// Orders that were opened and would not have been: the request, and what it said.
    not_opened: Vec<Example>,
}

struct Comparison<'a> {
    options: &'a Options<'a>,
    policy: &'a Policy,
    engine: Engine,
    /// The tables of the journal's desk, as long as its requests are not compared yet: when it was loaded, and now.
    before: Option<(Told, Told)>,
    apart: Apart,
    outcome: Outcome,
}

impl Comparison<'_> {
    fn row(&mut self, row: &Row, found: &Found) {
        self.outcome.asked += 1;
        let record = row.bytes.record();
        if self.options.present || row.at < self.options.since {
            let tables = || Told::loaded(&found.policy.records());
            let (_, now) = self.before.get_or_insert_with(|| (tables(), tables()));
            if let Some(record) = record.filter(|_| row.reply == GRANTED) {
                now.granted(&record);
            }
            return;
        }
        if let Some((loaded, now)) = self.before.take() {
            self.bring(&now, &loaded, &found.live.names);
        }
        let answer = self.engine.request(row.bytes.as_ref());
        let would_be = (answer.reply.number(), answer.place as u16);
        let was = (row.reply, row.place);
        self.outcome.compared += 1;
        if was != would_be {
            self.differs(row, would_be, &found.live.names);
        }
        if let Some(record) = record {
            self.follow(&record, row.user, was.0, would_be.0);
        }
    }

    /// Brings the desk as it is by now under the other policy.
    fn bring(&mut self, now: &Told, loaded: &Told, names: &Names) {
        let Ok(carried) = carry(now, loaded, names, self.policy, Users::AsNow) else {
            return;
        };
        self.engine = carried.desk.engine().clone();
        self.outcome.brought = Some(carried.requests.len());
        for obstacle in carried.obstacles {
            self.apart.begins(obstacle.of);
            self.outcome.obstacles.push(obstacle.words);
        }
    }

    fn differs(&mut self, row: &Row, would_be: Reply, names: &Names) {
        let record = row.bytes.record();
        let sort = Sort {
            kind: record.map_or(0, |record| record.kind()),
            was: (row.reply, row.place),
            would_be,
        };
        let follows = record.is_some_and(|record| self.apart.touches(&record, row.user));
        let example = || Example {
            number: row.number,
            at: row.at,
            user: row
                .user
                .map(|user| names.shown(crate::names::Sort::User, user)),
            line: writer::line(row.bytes.as_ref(), names),
        };
        let same = self.outcome.sorts.entry(sort).or_default();
        same.users.extend(row.user);
        match follows {
            true => same.following += 1,
            false => {
                same.first += 1;
                if same.examples.len() < self.options.examples {
                    same.examples.push(example());
                }
            }
        }
        if sort.kind == 48 && sort.was.0 == 0 {
            self.outcome.not_opened.push(example());
        }
    }

    /// Keeps in mind what is no longer the same on both desks.
    fn follow(&mut self, record: &Record, user: Option<u16>, was: u8, would_be: u8) {
        if (was == GRANTED) != (would_be == GRANTED) {
            self.apart.answered_apart(record, user);
        }
        if was == GRANTED {
            // UNKNOWN to what ends something says that it is not there: so both are without it.
            self.apart
                .ended(record, matches!(would_be, GRANTED | UNKNOWN));
        }
    }
}

pub fn whatif(options: &Options, policy: &Policy, out: &mut dyn Write) -> Done {
    let mut engine = Engine::new();
    if let Err(refused) = engine.load(&policy.bytes) {
        return Err(Stop::Refused(refusal(policy, refused)));
    }
    let mut comparison = Comparison {
        options,
        policy,
        engine,
        before: None,
        apart: Apart::default(),
        outcome: Outcome::default(),
    };
    let mut progress = Progress::over(options.journal, "whatif")?;
    let found = journal::replay(options.journal, &mut |row, found| {
        progress.at(row.number);
        comparison.row(row, found);
    });
    progress.end();
    let found = found?;
    if options.present {
        let tables = || Told::loaded(&found.policy.records());
        let before = comparison.before.take();
        let (loaded, now) = before.unwrap_or_else(|| (tables(), tables()));
        comparison.bring(&now, &loaded, &found.live.names);
    }
    let told = tell::Told {
        old: &found.policy,
        new: policy,
        names: &found.live.names,
        outcome: &comparison.outcome,
    };
    match (options.json, options.present) {
        (true, _) => told.objects(out)?,
        (false, true) => told.present(options.journal, out)?,
        (false, false) => told.words(out)?,
    }
    let stays = options.present && !comparison.outcome.obstacles.is_empty();
    Ok(if stays { REFUSED } else { WELL })
}
