//! The journal asked again, with an eye on every order that lies. What a claim would be answered is asked of the replayed engine itself, by
//! making the claim and taking it back; no rule is judged here. It is asked only where something changed on which the answer rests:
//!
//! | What changed | Asked again |
//! |---|---|
//! | a subject came, went, or changed its active roles | that subject, for every order that lies |
//! | a claim, release or done in an order | every live subject, for that order |
//! | the ledger became full, or no longer is | every live subject, for every order that lies |
//!
//! and only once time has passed: what changed back within the same moment is part of no hold.

use super::calendar::Zone;
use super::hold::{add, Ended, Hold, Lie, Part, Refusal, View};
use super::pairs::Pairs;
use super::totals::{Totals, Worst};
use crate::journal::{Found, Look, Row, Unfit};
use crate::names::{Names, Sort};
use mishantral::{Engine, Reply};
use records::Record;

/// How many entries the ledger has.
const LEDGER: usize = 2_048;

/// What ends a hold.
#[derive(Clone, Copy, PartialEq, Eq, Debug)]
pub enum End {
    Claim,
    Done,
}

/// What is measured.
pub struct Asked {
    pub pairs: Pairs,
    pub end: End,
    /// Holds that began in this range.
    pub since: i64,
    pub until: i64,
    pub zone: Zone,
    /// How many of the longest are kept with their details.
    pub worst: usize,
}

/// Those signed in: the user of each live subject.
struct Seats {
    users: [u16; 128],
    live: u128,
}

fn members(set: u128) -> impl Iterator<Item = usize> {
    let mut rest = set;
    std::iter::from_fn(move || {
        let first = (rest != 0).then_some(rest.trailing_zeros() as usize)?;
        rest &= rest - 1;
        Some(first)
    })
}

/// A claim of the second task that is held.
#[derive(Clone, Copy)]
struct Claim {
    at: i64,
    user: Option<u16>,
}

/// An open order of a template that is measured.
struct Track {
    opening: i64,
    order: u16,
    pair: usize,
    /// The second task has been done once: the rest of this opening is not measured.
    measured: bool,
    claim: Option<Claim>,
    /// The hold under way, and one that would take its place if the claim were released: the first task was done again meanwhile.
    now: Option<Lie>,
    next: Option<Lie>,
    /// Claims that were refused since the task is held.
    late: Vec<(i64, Refusal, Option<u16>)>,
    /// What each live subject's claim would be answered, where it is not stale.
    answers: Box<[(u8, u16); 128]>,
    stale: u128,
    /// What the answers come to, where it is fresh.
    view: View,
    fresh: bool,
}

impl Track {
    fn new(opening: i64, order: u16, pair: usize) -> Track {
        Track {
            opening,
            order,
            pair,
            measured: false,
            claim: None,
            now: None,
            next: None,
            late: Vec::new(),
            answers: Box::new([(0, 0); 128]),
            stale: u128::MAX,
            view: View::held(),
            fresh: false,
        }
    }

    /// Whether its second task is free, and the time counts.
    fn waits(&self) -> bool {
        self.now.is_some() && self.claim.is_none() && !self.measured
    }

    /// The time up to a change belongs to the view so far.
    fn until(&mut self, at: i64, zone: Zone) {
        if self.waits() {
            if let Some(now) = &mut self.now {
                now.until(at, &self.view, zone);
            }
        }
    }

    /// The time up to a moment was on the desk before the move.
    fn before(&mut self, at: i64, zone: Zone) {
        if self.waits() {
            if let Some(now) = &mut self.now {
                now.until(at, &View::before(), zone);
            }
        }
    }

    /// Asks what is stale, and makes the view of it.
    fn look(&mut self, engine: &mut Engine, seats: &Seats, task: u16) -> Result<(), Unfit> {
        for subject in members(self.stale & seats.live) {
            let (subject, order) = (subject as u16, self.order);
            let answer = engine.request(&Record::claim(subject, order, task));
            if answer.is_granted()
                && !engine
                    .request(&Record::release(subject, order, task))
                    .is_granted()
            {
                return Err(Unfit(format!(
                    "a claim of task {task} of order {order} could not be taken back"
                )));
            }
            self.answers[usize::from(subject)] = (answer.reply.number(), answer.place as u16);
        }
        self.stale = 0;
        self.view.could.clear();
        self.view.met.clear();
        for subject in members(seats.live) {
            let ((reply, place), user) = (self.answers[subject], seats.users[subject]);
            if reply == Reply::Granted.number() {
                if !self.view.could.contains(&user) {
                    self.view.could.push(user);
                }
                continue;
            }
            let met = (Refusal { reply, place, task }, user);
            if !self.view.met.contains(&met) {
                self.view.met.push(met);
            }
        }
        self.view.part = match (seats.live, &self.view.could[..]) {
            (0, _) => Part::Absent,
            (_, []) => Part::Nobody,
            _ => Part::Somebody,
        };
        if self.view.part == Part::Somebody {
            self.view.met.clear();
        }
        self.fresh = true;
        Ok(())
    }

    /// The second task is no longer held: the hold goes on, the time while it was held being part of it.
    fn released(&mut self, at: i64, zone: Zone) {
        self.claim = None;
        if let Some(next) = self.next.take() {
            self.now = Some(next);
        }
        if let Some(now) = &mut self.now {
            now.until(at, &View::held(), zone);
            let meanwhile = self
                .late
                .drain(..)
                .filter(|(number, ..)| *number > now.request);
            for (_, refusal, user) in meanwhile {
                add(&mut now.detail.refused, (refusal, user), 1);
            }
        }
        self.late.clear();
    }
}

/// A claim or a done that a move brought, as it was on the desk before.
struct Earlier {
    /// Its number there.
    number: i64,
    at: i64,
    /// Its number here.
    row: i64,
    record: Record,
    user: Option<u16>,
}

/// The measuring of one journal.
pub struct Measure<'a> {
    asked: &'a Asked,
    /// The time of the last request; it stays where the server's clock was set back.
    clock: i64,
    seats: Seats,
    tracks: Vec<Option<Track>>,
    /// Entries by order, and all of them.
    entries: [usize; 64],
    in_use: usize,
    /// Whether some order that lies is not fresh.
    stale: bool,
    /// What a move brought, which is looked at when all of it is there.
    earlier: Vec<Earlier>,
    pub holds: Vec<Hold>,
    pub totals: Totals,
    pub worst: Worst,
    /// The policy's names, and those that users were given since.
    pub names: Names,
    /// Sees each request before it is asked: how far it is.
    progress: &'a mut dyn FnMut(i64),
}

impl<'a> Measure<'a> {
    pub fn new(asked: &'a Asked, names: Names, progress: &'a mut dyn FnMut(i64)) -> Measure<'a> {
        Measure {
            asked,
            clock: i64::MIN,
            seats: Seats {
                users: [0; 128],
                live: 0,
            },
            tracks: (0..64).map(|_| None).collect(),
            entries: [0; 64],
            in_use: 0,
            stale: false,
            earlier: Vec::new(),
            holds: Vec::new(),
            totals: Totals::default(),
            worst: Worst::new(asked.worst),
            names,
            progress,
        }
    }

    /// Whether a hold that began then is asked for.
    fn is_asked(&self, start: i64) -> bool {
        (self.asked.since..self.asked.until).contains(&start)
    }

    /// Subjects of the set must be asked again, for every order that lies.
    fn changed(&mut self, subjects: u128, at: i64) {
        for track in self.tracks.iter_mut().flatten() {
            track.until(at, self.asked.zone);
            track.stale |= subjects;
            track.fresh = false;
        }
        self.stale = true;
    }

    /// The entries of an order have changed.
    fn entered(&mut self, order: u16, count: usize, at: i64) {
        let was_full = self.in_use == LEDGER;
        let before = self.entries[usize::from(order)];
        self.in_use = self.in_use + count - before;
        self.entries[usize::from(order)] = count;
        if was_full != (self.in_use == LEDGER) {
            self.changed(u128::MAX, at);
        }
    }

    /// A hold is over, or lasts to the end of the journal.
    fn close(&mut self, track: &mut Track, end: i64, ended: Ended) {
        let clerk = track.claim.and_then(|claim| claim.user);
        let Some(lie) = track.now.take().filter(|lie| self.is_asked(lie.start)) else {
            return;
        };
        let hold = Hold {
            opening: track.opening,
            order: track.order,
            pair: track.pair,
            start: lie.start,
            end,
            clerk: clerk.filter(|_| ended == Ended::Reached),
            ended,
            parts: lie.parts,
        };
        self.totals.add(&lie.detail);
        self.worst.offer(&hold, lie.detail);
        self.holds.push(hold);
    }

    /// What a move brought counts by its time on the desk before, in the order of that desk: entries may have been entered here in another.
    fn moved(&mut self) {
        let mut earlier = std::mem::take(&mut self.earlier);
        if earlier.is_empty() {
            return;
        }
        earlier.sort_by_key(|one| one.number);
        let zone = self.asked.zone;
        for one in earlier {
            if let Some(Some(track)) = self.tracks.get_mut(usize::from(one.record.b())) {
                track.before(one.at, zone);
            }
            self.worked(&one.record, one.at, one.user, one.row);
        }
        let moved_at = self.clock;
        for track in self.tracks.iter_mut().flatten() {
            track.before(moved_at, zone);
        }
    }

    /// A granted claim, release or done.
    fn worked(&mut self, record: &Record, at: i64, user: Option<u16>, number: i64) {
        let (order, task) = (record.b(), record.c());
        let count = self.entries[usize::from(order)];
        match record.kind() {
            50 => self.entered(order, count + 1, at),
            51 => self.entered(order, count - 1, at),
            _ => {}
        }
        let Some(mut track) = self.tracks[usize::from(order)].take() else {
            return;
        };
        let zone = self.asked.zone;
        track.until(at, zone);
        let pair = self.asked.pairs.0[track.pair];
        if task == pair.to && !track.measured {
            match record.kind() {
                50 => track.claim = Some(Claim { at, user }),
                51 => track.released(at, zone),
                _ => self.reached(&mut track, at),
            }
        } else if task == pair.from && record.kind() == 52 && !track.measured {
            let lie = Some(Lie::new(at, number));
            match track.claim {
                None => track.now = lie,
                Some(_) => track.next = lie,
            }
        }
        track.stale = u128::MAX;
        track.fresh = false;
        self.stale = true;
        self.tracks[usize::from(order)] = Some(track);
    }

    /// The second task is done.
    fn reached(&mut self, track: &mut Track, at: i64) {
        let Some(claim) = track.claim else {
            return;
        };
        let end = match self.asked.end {
            End::Claim => claim.at,
            End::Done => {
                if let Some(now) = &mut track.now {
                    now.until(at, &View::held(), self.asked.zone);
                    for (_, refusal, user) in track.late.drain(..) {
                        add(&mut now.detail.refused, (refusal, user), 1);
                    }
                }
                at
            }
        };
        self.close(track, end, Ended::Reached);
        (track.measured, track.claim, track.next) = (true, None, None);
        track.late.clear();
    }

    fn refused(&mut self, record: &Record, row: &Row) {
        let Some(Some(track)) = self.tracks.get_mut(usize::from(record.b())) else {
            return;
        };
        let task = record.c();
        if task != self.asked.pairs.0[track.pair].to || track.measured {
            return;
        }
        let refusal = Refusal {
            reply: row.reply,
            place: row.place,
            task,
        };
        if track.claim.is_some() {
            track.late.push((row.number, refusal, row.user));
        } else if let Some(now) = &mut track.now {
            add(&mut now.detail.refused, (refusal, row.user), 1);
        }
    }

    fn granted(&mut self, record: &Record, row: &Row) {
        let (a, b, at) = (record.a(), record.b(), self.clock);
        match record.kind() {
            40 => {
                self.changed(1 << a, at);
                self.seats.users[usize::from(a)] = b;
                self.seats.live |= 1 << a;
            }
            41 => {
                self.changed(1 << a, at);
                self.seats.live &= !(1 << a);
            }
            42 | 43 => self.changed(1 << a, at),
            48 => {
                let pair = self.asked.pairs.of_template(b);
                self.tracks[usize::from(a)] = pair.map(|pair| Track::new(row.number, a, pair));
            }
            49 => {
                if let Some(mut track) = self.tracks[usize::from(a)].take() {
                    track.until(at, self.asked.zone);
                    self.close(&mut track, at, Ended::Unclaimed);
                }
                self.entered(a, 0, at);
            }
            50..=52 => match &row.moved {
                Some(moved) => self.earlier.push(Earlier {
                    number: moved.number,
                    at: moved.at,
                    row: row.number,
                    record: *record,
                    user: row.user,
                }),
                None => self.worked(record, at, row.user, row.number),
            },
            _ => {}
        }
    }

    /// The journal is at its end: what lies, lies up to its last request.
    pub fn finish(&mut self) {
        self.moved();
        let last = self.clock;
        for order in 0..self.tracks.len() {
            let Some(mut track) = self.tracks[order].take() else {
                continue;
            };
            track.until(last, self.asked.zone);
            match (track.claim, self.asked.end) {
                (Some(claim), End::Claim) => self.close(&mut track, claim.at, Ended::Reached),
                (Some(_), End::Done) => {
                    if let Some(now) = &mut track.now {
                        now.until(last, &View::held(), self.asked.zone);
                        for (_, refusal, user) in track.late.drain(..) {
                            add(&mut now.detail.refused, (refusal, user), 1);
                        }
                    }
                    self.close(&mut track, last, Ended::Lying);
                }
                (None, _) => self.close(&mut track, last, Ended::Lying),
            }
        }
    }
}

impl Look for Measure<'_> {
    /// Time has passed since the last change: what the orders that lie have stood at meanwhile is asked now.
    fn before(&mut self, row: &Row, engine: &mut Engine) -> Result<(), Unfit> {
        (self.progress)(row.number);
        // The requests of a move come from no client.
        if row.client != 0 {
            self.moved();
        }
        if row.at <= self.clock {
            return Ok(());
        }
        self.clock = row.at;
        if !std::mem::take(&mut self.stale) {
            return Ok(());
        }
        let asked = self.asked;
        let in_range = |track: &Track| {
            let start = track.now.as_ref().map(|lie| lie.start);
            start.is_some_and(|start| (asked.since..asked.until).contains(&start))
        };
        for track in self.tracks.iter_mut().flatten() {
            if !track.fresh && track.waits() && in_range(track) {
                track.look(engine, &self.seats, asked.pairs.0[track.pair].to)?;
            }
        }
        Ok(())
    }

    fn after(&mut self, row: &Row, _found: &Found) -> Result<(), Unfit> {
        for naming in &row.namings {
            // Who was deleted since keeps the name under which the report has him.
            if naming.sort == Sort::User {
                self.names.give(naming.sort, naming.number, &naming.name);
            }
        }
        if let Some(record) = row.bytes.record() {
            match (row.reply, record.kind()) {
                (0, _) => self.granted(&record, row),
                (_, 50) => self.refused(&record, row),
                _ => {}
            }
        }
        Ok(())
    }
}
