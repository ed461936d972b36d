//! The one thread that has a desk's engine: it takes all requests that wait, asks the engine, writes them with their replies into the
//! journal in one transaction, and only then hands the replies back.

use super::account::Who;
use super::feed::Feed;
use super::form;
use super::keys::{self, Remembered};
use crate::journal::{
    user_of, Barred, Bytes, Failed, Group, Known, Live, Recorded, Row, Whose, Writes,
};
use crate::names::{Naming, Sort};
use crate::writer;
use mishantral::{Engine, ANSWER};
use records::Record;
use std::sync::atomic::{AtomicU64, Ordering};
use std::sync::mpsc::{Receiver, RecvTimeoutError, SyncSender};
use std::sync::{Arc, RwLock};
use std::time::{Duration, Instant};
use tokio::sync::oneshot;

/// A request on its way.
#[derive(Debug)]
pub struct Asked {
    pub bytes: Bytes,
    /// The names that its line gives.
    pub namings: Vec<Naming>,
    /// Of a line: its text, and how often names had changed when it was read. Where they have changed since, it is read again.
    pub line: Option<(Box<[u8]>, u64)>,
    /// The server chooses the number of this sort: the lowest that is free.
    pub choose: Option<Sort>,
    /// By which it may be sent again.
    pub key: Option<Arc<str>>,
    /// Why it could not be read: it is asked for by its key alone.
    pub unread: Option<String>,
    /// Its number among the desk's requests; 0 until it is answered.
    pub number: i64,
    pub reply: u8,
    pub place: u16,
    /// What is said beside the reply, or in its place.
    pub more: More,
}

/// What is said beside a reply, or in its place.
#[derive(Debug, Default)]
pub enum More {
    #[default]
    Nothing,
    /// The number that the server chose.
    Chosen(Sort, u16),
    /// The figures of a question that was granted.
    Figures(Box<[u64; ANSWER]>),
    /// It was not put to the engine, since it cannot be meant so.
    Wrong(String),
    /// It was not put to the engine, since the account may not ask it.
    Barred(String),
}

impl Asked {
    pub fn of(bytes: &[u8], namings: Vec<Naming>) -> Asked {
        Asked {
            bytes: Bytes::of(bytes),
            namings,
            line: None,
            choose: None,
            key: None,
            unread: None,
            number: 0,
            reply: 0,
            place: 0,
            more: More::Nothing,
        }
    }
}

/// What one client asks at once. It goes back to the client, answered.
#[derive(Debug)]
pub struct Batch {
    pub client: i64,
    pub who: Arc<Who>,
    pub asked: Vec<Asked>,
    /// Why those without a number were not done.
    pub failed: Option<String>,
    pub back: Back,
}

/// Whom a batch goes back to: a client's thread, or a task that waits for it.
#[derive(Debug)]
pub enum Back {
    Thread(SyncSender<Batch>),
    Task(Option<oneshot::Sender<Batch>>),
}

impl Batch {
    /// A client that has gone is not told.
    fn hand_back(mut self) {
        match &mut self.back {
            Back::Thread(to) => {
                let to = to.clone();
                let _ = to.send(self);
            }
            Back::Task(to) => {
                let _ = to.take().map(|to| to.send(self));
            }
        }
    }
}

/// What a desk's thread is asked for.
pub enum Waiting {
    Requests(Batch),
    /// A copy of the engine as it stands, for questions that take their time.
    Look(SyncSender<Engine>),
    /// What an account may not ask is kept in the journal; then it is said whether it is there.
    Barred(Box<Barred>, SyncSender<bool>),
    /// The desk ends: what waits after this is not done.
    End,
}

/// A desk that is served.
pub struct Served {
    pub engine: Engine,
    /// None where nothing is to survive.
    pub journal: Option<Box<dyn Writes>>,
    /// The names and openings as of the last request that was asked.
    pub live: Live,
    /// The names as of the last answered request, which clients' lines are read with.
    pub shared: Arc<RwLock<Live>>,
    /// How many requests go into one transaction at most.
    pub most: usize,
    /// How many requests there were.
    pub last: i64,
    /// How many requests this and other desks have answered since the start.
    pub answered: Arc<AtomicU64>,
    /// How often the journal is looked after.
    pub pulse: Duration,
    /// For how long a key is honoured, in microseconds.
    pub keys: i64,
    /// The keys of a desk without a journal.
    pub remembered: Remembered,
    /// What those who look on are reported.
    pub feed: Arc<Feed>,
}

/// What waits, taken at once.
#[derive(Default)]
struct Taken {
    group: Vec<Batch>,
    looks: Vec<SyncSender<Engine>>,
    barred: Vec<(Box<Barred>, SyncSender<bool>)>,
    ends: bool,
}

impl Taken {
    /// Takes one that waits; how many requests it has.
    fn take(&mut self, one: Waiting) -> usize {
        match one {
            Waiting::Requests(batch) => {
                let count = batch.asked.len();
                self.group.push(batch);
                return count;
            }
            Waiting::Look(to) => self.looks.push(to),
            Waiting::Barred(barred, to) => self.barred.push((barred, to)),
            Waiting::End => self.ends = true,
        }
        0
    }

    fn hand_back(&mut self) {
        self.group.drain(..).for_each(Batch::hand_back);
    }
}

/// Serves until it is asked to end, or until the journal fails; then it says why.
pub fn work(mut desk: Served, waiting: Receiver<Waiting>) -> Result<(), String> {
    let (mut taken, mut looked) = (Taken::default(), Instant::now());
    loop {
        if looked.elapsed() >= desk.pulse {
            desk.looked_after()?;
            looked = Instant::now();
        }
        let first = match waiting.recv_timeout(desk.pulse) {
            Ok(first) => first,
            Err(RecvTimeoutError::Timeout) => continue,
            Err(RecvTimeoutError::Disconnected) => Waiting::End,
        };
        let (mut next, mut count) = (Some(first), 0);
        while let Some(one) = next.take() {
            count += taken.take(one);
            if count < desk.most && !taken.ends {
                next = waiting.try_recv().ok();
            }
        }
        desk.answer(&mut taken.group)?;
        desk.answered.fetch_add(count as u64, Ordering::Relaxed);
        taken.hand_back();
        for (barred, to) in taken.barred.drain(..) {
            let _ = to.send(desk.keep(*barred)?);
        }
        for look in taken.looks.drain(..) {
            let _ = look.send(desk.engine.clone());
        }
        if taken.ends {
            return desk.end(&waiting);
        }
    }
}

/// Tells whoever asks a desk that is not here why it is not answered.
pub fn refused(one: Waiting, why: &str) {
    match one {
        Waiting::Requests(mut batch) => {
            batch.failed = Some(why.to_string());
            batch.hand_back();
        }
        Waiting::Barred(_, to) => drop(to.send(false)),
        Waiting::Look(_) | Waiting::End => {}
    }
}

impl Served {
    /// Whoever waits is told that nothing is done any more; then a snapshot is taken.
    fn end(&mut self, waiting: &Receiver<Waiting>) -> Result<(), String> {
        let mut taken = Taken::default();
        while let Ok(one) = waiting.try_recv() {
            taken.take(one);
        }
        for batch in &mut taken.group {
            batch.failed = Some("the desk is ending".to_string());
        }
        taken.hand_back();
        let (state, live) = (self.engine.state(), &self.live);
        let done = self
            .journal
            .as_mut()
            .map(|journal| journal.finish(state, live));
        match done {
            Some(Err(Failed::Lost(why) | Failed::NotDone(why))) => Err(why),
            _ => Ok(()),
        }
    }

    /// Keeps what an account may not ask; whether there was room for it.
    fn keep(&mut self, mut barred: Barred) -> Result<bool, String> {
        let Some(journal) = &mut self.journal else {
            return Ok(true);
        };
        barred.at = journal.time();
        let kept = std::slice::from_ref(&barred);
        self.feed.answered(&[], kept, &self.live.names);
        let group = Group {
            rows: &[],
            barred: &[barred],
            state: self.engine.state(),
            live: &self.live,
        };
        match journal.write(&group) {
            Ok(()) => Ok(true),
            Err(Failed::NotDone(_)) => Ok(false),
            Err(Failed::Lost(why)) => Err(why),
        }
    }

    fn looked_after(&mut self) -> Result<(), String> {
        match self.journal.as_mut().map(|journal| journal.looked_after()) {
            Some(Err(Failed::Lost(why) | Failed::NotDone(why))) => Err(why),
            _ => Ok(()),
        }
    }

    /// Answers a group, at most `most` requests a transaction. Where it cannot be written, as on a full disk, the rest of the group is not done.
    fn answer(&mut self, group: &mut [Batch]) -> Result<(), String> {
        let mut places: Vec<(usize, usize)> = Vec::new();
        for (at, batch) in group.iter().enumerate() {
            places.extend((0..batch.asked.len()).map(|request| (at, request)));
        }
        for part in places.chunks(self.most.max(1)) {
            match self.answer_part(group, part) {
                Ok(()) => {}
                Err(Failed::Lost(why)) => return Err(why),
                Err(Failed::NotDone(why)) => {
                    for batch in group.iter_mut() {
                        batch.failed = Some(why.clone());
                    }
                    return Ok(());
                }
            }
        }
        Ok(())
    }

    /// Asks, writes, and then numbers: what has no number was not done.
    fn answer_part(&mut self, group: &mut [Batch], part: &[(usize, usize)]) -> Result<(), Failed> {
        let kept = self.journal.is_some();
        let before = kept.then(|| (self.engine.clone(), self.live.openings));
        let changes = self.live.changes;
        let at = self.journal.as_mut().map_or(0, |journal| journal.time());
        let mut known = self.known(group, part, at)?;
        let mut again: Vec<(usize, usize, Recorded)> = Vec::new();
        let mut rows: Vec<Row> = Vec::with_capacity(part.len());
        let mut places: Vec<(usize, usize)> = Vec::with_capacity(part.len());
        let mut barred: Vec<Barred> = Vec::new();
        for &(batch, request) in part {
            let number = self.last + 1 + rows.len() as i64;
            let Batch {
                client, who, asked, ..
            } = &mut group[batch];
            let (client, asked) = (*client, &mut asked[request]);
            let (account, via) = (who.account.clone(), who.via.clone());
            let whose = asked.key.clone().map(|key| (account.clone(), key));
            if let Some(recorded) = whose.as_ref().and_then(|whose| known.get(whose)) {
                again.push((batch, request, *recorded));
                continue;
            }
            if let Err(why) = self.settled(asked) {
                asked.more = More::Wrong(why);
                continue;
            }
            if let Err(why) = self.may(who, &asked.bytes) {
                let asked_for = writer::line(asked.bytes.as_ref(), &self.live.names);
                barred.push(Barred {
                    at,
                    client,
                    account,
                    via,
                    record: Some(asked.bytes),
                    asked: asked_for,
                    why: why.clone(),
                });
                asked.more = More::Barred(why);
                continue;
            }
            let (user, opening) = self.asks(asked, number);
            places.push((batch, request));
            if let Some(whose) = whose {
                known.insert(whose, recorded(number, asked));
            }
            rows.push(Row {
                number,
                at,
                client,
                account,
                via,
                user,
                bytes: asked.bytes,
                reply: asked.reply,
                place: asked.place,
                opening,
                key: asked.key.clone(),
                moved: None,
                // A name holds where its request was granted.
                namings: match asked.reply {
                    0 => asked.namings.clone(),
                    _ => Vec::new(),
                },
            });
        }
        if let (Some(journal), Some((engine, openings))) = (&mut self.journal, before) {
            let group = Group {
                rows: &rows,
                barred: &barred,
                state: self.engine.state(),
                live: &self.live,
            };
            let nothing = rows.is_empty() && barred.is_empty();
            let began = Instant::now();
            let written = match nothing {
                true => Ok(()),
                false => journal.write(&group),
            };
            self.feed.wrote(began.elapsed(), part.len(), &written);
            if let Err(why) = written {
                self.engine = engine;
                self.live.openings = openings;
                if self.live.changes != changes {
                    self.live.names = self.shared_names();
                    self.live.changes = changes;
                }
                return Err(why);
            }
        }
        for (row, &(batch, request)) in rows.iter().zip(&places) {
            group[batch].asked[request].number = row.number;
        }
        self.last += rows.len() as i64;
        if self.live.changes != changes {
            self.publish(&rows);
        }
        self.feed.answered(&rows, &barred, &self.live.names);
        for (batch, request, recorded) in again {
            keys::answered(
                &mut group[batch].asked[request],
                &recorded,
                &self.live.names,
            );
        }
        if !kept {
            for row in rows {
                if let Some(key) = row.key.clone() {
                    let recorded = Recorded::of(&row);
                    self.remembered.keep((row.account, key), recorded);
                }
            }
        }
        Ok(())
    }

    /// What is known under the keys of these requests.
    fn known(
        &mut self,
        group: &[Batch],
        part: &[(usize, usize)],
        at: i64,
    ) -> Result<Known, Failed> {
        let mut keyed: Vec<Whose> = Vec::new();
        for &(batch, request) in part {
            let Batch { who, asked, .. } = &group[batch];
            let key = asked[request].key.clone();
            keyed.extend(key.map(|key| (who.account.clone(), key)));
        }
        if keyed.is_empty() {
            return Ok(Known::new());
        }
        match &mut self.journal {
            Some(journal) => journal.known(&keyed, at - self.keys),
            None => {
                let one = |whose: Whose| Some((whose.clone(), self.remembered.get(&whose)?));
                Ok(keyed.into_iter().filter_map(one).collect())
            }
        }
    }

    /// Whether an account may ask this, beside the engine, so that nothing changes between the two.
    fn may(&self, who: &Who, bytes: &Bytes) -> Result<(), String> {
        match bytes.record() {
            Some(record) => who.may(&record, &self.live, &self.engine.state().sessions),
            None => Ok(()),
        }
    }

    fn shared_names(&self) -> crate::names::Names {
        let shared = self.shared.read().unwrap_or_else(|e| e.into_inner());
        shared.names.clone()
    }

    /// Names hold for everyone from the reply on that gives or ends them.
    fn publish(&self, rows: &[Row]) {
        let mut shared = self.shared.write().unwrap_or_else(|e| e.into_inner());
        for row in rows.iter().filter(|row| row.reply == 0) {
            if let Some(record) = row.bytes.record() {
                shared.granted(row.number, &record, &row.namings);
            }
        }
    }

    /// What a request says by the names that hold now, with the number that the server chooses; or what is wrong with it.
    fn settled(&self, asked: &mut Asked) -> Result<(), String> {
        if let Some(why) = asked.unread.take() {
            return Err(why);
        }
        if let Some((line, changes)) = asked.line.take() {
            if changes != self.live.changes {
                let again = form::of_line(&line, &self.live)?;
                let again = again.ok_or("the line says nothing")?;
                (asked.bytes, asked.namings) = (again.bytes, again.namings);
                asked.choose = again.choose;
            }
        }
        if let (Some(sort), Some(record)) = (asked.choose, asked.bytes.record()) {
            let number = self.free(sort)?;
            let record = Record::new(
                record.kind(),
                record.n(),
                number,
                record.b(),
                record.c(),
                record.m(),
            );
            asked.bytes = Bytes::of(&record.0);
            for naming in asked.namings.iter_mut().filter(|n| n.sort == sort) {
                naming.number = number;
            }
            asked.more = More::Chosen(sort, number);
        }
        match asked.namings.iter().find_map(|n| self.live.taken(n)) {
            Some(taken) => Err(taken),
            None => Ok(()),
        }
    }

    /// The lowest number of a sort that is free (docs/STATE.md).
    fn free(&self, sort: Sort) -> Result<u16, String> {
        let state = self.engine.state();
        let is_free = |number: &u16| match sort {
            Sort::Order => state.orders[1] >> number & 1 == 0,
            _ => state.sessions[usize::from(*number)] >> 10 & 1 == 0,
        };
        let mut all = 0..=sort.last();
        all.find(is_free).ok_or_else(|| {
            let word = sort.word();
            format!(
                "there is no {word} left: all {} are in use",
                sort.last() + 1
            )
        })
    }

    /// Puts a request to the engine: whom it is about, and which opening.
    fn asks(&mut self, asked: &mut Asked, number: i64) -> (Option<u16>, Option<i64>) {
        let record = asked.bytes.record();
        let user = record.and_then(|record| user_of(&record, &self.engine.state().sessions));
        let before = record.and_then(|record| self.live.opening(&record));
        let answer = self.engine.request(asked.bytes.as_ref());
        (asked.reply, asked.place) = (answer.reply.number(), answer.place as u16);
        let Some(record) = record else {
            return (None, None);
        };
        if answer.is_granted() {
            self.live.granted(number, &record, &asked.namings);
            if matches!(record.kind(), 58 | 60) {
                let mut figures = Box::new([0; ANSWER]);
                let _ = self.engine.question(&record, figures.as_mut());
                asked.more = More::Figures(figures);
            }
        }
        (user, before.or_else(|| self.live.opening(&record)))
    }
}

/// What a request is answered under its key from now on.
fn recorded(number: i64, asked: &Asked) -> Recorded {
    Recorded {
        number,
        bytes: asked.bytes,
        reply: asked.reply,
        place: asked.place,
    }
}
