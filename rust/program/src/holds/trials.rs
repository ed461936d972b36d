//! Holds of random journals, against a second computation that is slow and written apart: it finds the claim that ends a hold by looking through
//! the opening's requests, and asks a copy of the engine for every live subject between every two requests.

use super::calendar::Zone;
use super::figures::By;
use super::hold::{Ended, Part, PARTS};
use super::measure::{Asked, End};
use super::pairs::{Pair, Pairs};
use super::report::Report;
use crate::journal::{reading, Author};
use crate::names::Names;
use crate::source::Policy;
use crate::told::Told;
use mishantral::Engine;
use random::Random;
use records::{Record, Set};
use std::collections::BTreeMap;
use std::path::PathBuf;

/// A request as the journal has it.
#[derive(Clone, Copy)]
struct Asking {
    at: i64,
    record: Record,
    reply: u8,
    place: u16,
    user: Option<u16>,
}

type Answer = (u8, u16);

/// A hold with its details, sorted, so that two computations compare.
#[derive(PartialEq, Eq, Debug, Default)]
struct Found {
    opening: i64,
    start: i64,
    end: i64,
    ended: &'static str,
    clerk: Option<u16>,
    parts: [i64; PARTS],
    could: BTreeMap<u16, i64>,
    met: BTreeMap<(Answer, u16), i64>,
    refused: BTreeMap<(Answer, Option<u16>), i64>,
}

fn word(ended: Ended) -> &'static str {
    match ended {
        Ended::Reached => "reached",
        Ended::Lying => "lying",
        Ended::Unclaimed => "unclaimed",
    }
}

/// By the program.
fn by_program(report: &Report) -> Vec<Found> {
    let mut all: Vec<Found> = Vec::new();
    for (hold, detail) in &report.worst {
        assert_eq!(hold.parts.iter().sum::<i64>(), hold.length());
        all.push(Found {
            opening: hold.opening,
            start: hold.start,
            end: hold.end,
            ended: word(hold.ended),
            clerk: hold.clerk,
            parts: hold.parts,
            could: detail.could.iter().copied().collect(),
            met: detail
                .met
                .iter()
                .map(|&((r, user), time)| (((r.reply, r.place), user), time))
                .collect(),
            refused: detail
                .refused
                .iter()
                .map(|&((r, user), count)| (((r.reply, r.place), user), count))
                .collect(),
        });
    }
    all.sort_by_key(|found| (found.opening, found.start));
    all
}

/// Slowly, and by the definition alone.
struct Slow<'a> {
    policy: &'a [Record],
    asked: &'a [Asking],
    /// The engine after each request.
    after: &'a [Engine],
    end: End,
}

impl Slow<'_> {
    fn granted(&self, at: usize, kind: u8, order: u16, task: u16) -> bool {
        let Asking { record, reply, .. } = self.asked[at];
        reply == 0 && record.kind() == kind && record.b() == order && record.c() == task
    }

    fn all(&self, pair: Pair) -> Vec<Found> {
        let opens = |&at: &usize| {
            let Asking { record, reply, .. } = self.asked[at];
            reply == 0 && record.kind() == 48 && record.b() == pair.template
        };
        let openings = (0..self.asked.len()).filter(opens);
        openings.filter_map(|at| self.opening(at, pair)).collect()
    }

    fn opening(&self, opened: usize, pair: Pair) -> Option<Found> {
        let order = self.asked[opened].record.a();
        let ends = |at: &usize| {
            let Asking { record, reply, .. } = self.asked[*at];
            reply == 0 && record.kind() == 49 && record.a() == order
        };
        let ended = (opened..self.asked.len()).find(ends);
        let last = self.asked.len() - 1;
        let span = opened..=ended.unwrap_or(last);
        let done = span
            .clone()
            .find(|&at| self.granted(at, 52, order, pair.to));
        // The claim that led to it; or the one that is held at the end.
        let before = opened..done.unwrap_or(*span.end() + 1);
        let claim = before
            .clone()
            .rev()
            .find(|&at| self.granted(at, 50, order, pair.to));
        let claim = claim
            .filter(|&at| !(at..before.end).any(|later| self.granted(later, 51, order, pair.to)));
        let until = claim.unwrap_or(*span.end() + 1);
        let start = (opened..until)
            .rev()
            .find(|&at| self.granted(at, 52, order, pair.from))?;
        let (end, how) = match (claim, done, self.end) {
            (Some(claim), _, End::Claim) => (claim, Ended::Reached),
            (Some(_), Some(done), End::Done) => (done, Ended::Reached),
            _ => (
                ended.unwrap_or(last),
                if ended.is_some() {
                    Ended::Unclaimed
                } else {
                    Ended::Lying
                },
            ),
        };
        let mut found = Found {
            opening: opened as i64 + 1,
            start: self.asked[start].at,
            end: self.asked[end].at,
            ended: word(how),
            clerk: claim
                .filter(|_| how == Ended::Reached)
                .and_then(|at| self.asked[at].user),
            ..Found::default()
        };
        for at in start..end {
            self.between(at, order, pair.to, &mut found);
        }
        for asking in &self.asked[start..=end] {
            let Asking {
                record,
                reply,
                place,
                user,
                ..
            } = *asking;
            if record.kind() == 50 && reply != 0 && record.b() == order && record.c() == pair.to {
                *found.refused.entry(((reply, place), user)).or_default() += 1;
            }
        }
        Some(found)
    }

    /// The time between a request and the next one.
    fn between(&self, at: usize, order: u16, task: u16, found: &mut Found) {
        let time = self.asked[at + 1].at - self.asked[at].at;
        if time == 0 {
            return;
        }
        let engine = &self.after[at];
        let told = Told::read(self.policy, engine.state());
        let held = told
            .entries(order)
            .iter()
            .any(|entry| entry.task == task && entry.holder.is_some());
        if held {
            found.parts[Part::Held as usize] += time;
            return;
        }
        if told.subjects.is_empty() {
            found.parts[Part::Absent as usize] += time;
            return;
        }
        let mut answers: BTreeMap<(u16, Answer), ()> = BTreeMap::new();
        for (&subject, session) in &told.subjects {
            let answer = engine.clone().request(&Record::claim(subject, order, task));
            answers.insert(
                (session.user, (answer.reply.number(), answer.place as u16)),
                (),
            );
        }
        let could: Vec<u16> = answers
            .keys()
            .filter(|(_, answer)| answer.0 == 0)
            .map(|(user, _)| *user)
            .collect();
        if could.is_empty() {
            found.parts[Part::Nobody as usize] += time;
            for &(user, answer) in answers.keys() {
                *found.met.entry((answer, user)).or_default() += time;
            }
        } else {
            found.parts[Part::Somebody as usize] += time;
            for user in could {
                *found.could.entry(user).or_default() += time;
            }
        }
    }
}

fn set(random: &mut Random, of: usize) -> Set {
    Set(random.word() & ((1 << of) - 1))
}

const USERS: usize = 5;
const ROLES: usize = 3;
const TASKS: usize = 6;

/// Two templates of three tasks with rules; records that a load would refuse are left out.
fn policy(random: &mut Random) -> Vec<Record> {
    let mut all: Vec<Record> = (0..USERS as u16)
        .map(|user| Record::user(298 + user))
        .collect();
    all.extend((0..ROLES as u16).map(Record::role));
    all.extend((0..TASKS as u16).map(|task| Record::task(task, task / 3)));
    for role in 0..ROLES as u16 {
        all.extend(
            (0..USERS as u16)
                .filter(|_| random.chance(2, 3))
                .map(|user| Record::user_has_role(298 + user, role)),
        );
        all.extend(
            (0..TASKS as u16)
                .filter(|_| random.chance(2, 3))
                .map(|task| Record::task_open_to(task, role)),
        );
    }
    for _ in 0..random.below(7) {
        let (a, b) = (random.below(TASKS) as u16, random.below(TASKS) as u16);
        let tasks = Set(set(random, 3).0 << (3 * random.below(2)));
        all.push(match random.below(8) {
            0 | 1 => Record::task_set(1, tasks),
            2 => Record::block(random.below(2) as u16, tasks),
            3 => Record::lone_worker_ban(random.below(2) as u16),
            4 => Record::bound(a, b),
            5 => Record::at_most(a, 1 + random.below(2) as u8),
            6 => Record::role_above(random.below(ROLES) as u16, random.below(ROLES) as u16),
            _ => Record::before(a.min(b), a.max(b)),
        });
    }
    let mut kept = Vec::new();
    for record in all {
        kept.push(record);
        if Engine::new().load_records(&kept).is_err() {
            kept.pop();
        }
    }
    kept
}

/// Any request, most of them refused.
fn any_request(random: &mut Random) -> Record {
    let subject = random.below(4) as u16;
    let user = 298 + random.below(USERS) as u16;
    let order = random.below(3) as u16;
    let task = random.below(TASKS) as u16;
    let role = random.below(ROLES) as u16;
    match random.below(20) {
        0..=2 => Record::create_subject(subject, user, set(random, ROLES)),
        3 => Record::destroy_subject(subject),
        4 => Record::activate_role(subject, role),
        5 => Record::deactivate_role(subject, role),
        6..=8 => Record::open_order(order, random.below(2) as u16),
        9 => Record::assign_role(user, role),
        10 => Record::take_role(user, role),
        11 => Record::check(subject, 0, 0),
        12 => Record::done(subject, order, task),
        _ => Record::claim(subject, order, task),
    }
}

/// The next requests of a desk: of those that hold a task most are done with it soon, all leave now and then, and orders end.
fn requests(random: &mut Random, policy: &[Record], engine: &Engine) -> Vec<Record> {
    let told = Told::read(policy, engine.state());
    let held = told.orders.iter().flat_map(|(&order, of)| {
        let held = of
            .entries
            .iter()
            .filter_map(move |entry| Some((entry.holder?, order, entry.task)));
        held.collect::<Vec<(u16, u16, u16)>>()
    });
    let held: Vec<(u16, u16, u16)> = held.collect();
    match random.below(24) {
        0..=4 if !held.is_empty() => {
            let (subject, order, task) = random.pick(&held);
            vec![Record::done(subject, order, task)]
        }
        5 if !held.is_empty() => {
            let (subject, order, task) = random.pick(&held);
            vec![Record::release(subject, order, task)]
        }
        6 => {
            let releases = held
                .iter()
                .map(|&(subject, order, task)| Record::release(subject, order, task));
            releases
                .chain((0..4).map(Record::destroy_subject))
                .collect()
        }
        7 => vec![Record::end_order(random.below(3) as u16)],
        8..=15 if !told.subjects.is_empty() && !told.orders.is_empty() => {
            let subjects: Vec<u16> = told.subjects.keys().copied().collect();
            let orders: Vec<u16> = told.orders.keys().copied().collect();
            let (subject, order) = (random.pick(&subjects), random.pick(&orders));
            let task = 3 * told.orders[&order].template + random.below(3) as u16;
            vec![Record::claim(subject, order, task)]
        }
        _ => vec![any_request(random)],
    }
}

fn policy_of(records: &[Record]) -> Policy {
    Policy {
        file: "policy.txt".to_string(),
        bytes: records.iter().flat_map(|record| record.0).collect(),
        lines: Vec::new(),
        names: Names::default(),
        ..Policy::default()
    }
}

struct Room(PathBuf);

impl Room {
    fn new(name: &str) -> Room {
        let room =
            std::env::temp_dir().join(format!("mishantral-holds-{name}-{}", std::process::id()));
        let _ = std::fs::remove_dir_all(&room);
        std::fs::create_dir_all(&room).unwrap();
        Room(room)
    }

    fn file(&self, name: &str) -> String {
        self.0.join(name).to_str().unwrap().to_string()
    }
}

impl Drop for Room {
    fn drop(&mut self) {
        let _ = std::fs::remove_dir_all(&self.0);
    }
}

/// Writes a journal of what `next` gives, some requests at a time with the pause before each, until it gives none; what they were answered.
fn written_by(
    file: &str,
    records: &[Record],
    next: &mut dyn FnMut(&Engine) -> Vec<(i64, Record)>,
) -> (Vec<Asking>, Vec<Engine>) {
    let mut author = Author::begin(file, &policy_of(records)).unwrap();
    let (mut at, mut asked, mut after) = (1_750_000_000_000_000, Vec::new(), Vec::new());
    loop {
        let requests = next(author.engine());
        if requests.is_empty() {
            break;
        }
        for (pause, record) in requests {
            at += pause;
            let user = crate::journal::user_of(&record, &author.engine().state().sessions);
            let answer = author.ask(at, &record, &[]).unwrap();
            let (reply, place) = (answer.reply.number(), answer.place as u16);
            asked.push(Asking {
                at,
                record,
                reply,
                place,
                user,
            });
            after.push(author.engine().clone());
        }
    }
    author.finish().unwrap();
    (asked, after)
}

fn written(file: &str, records: &[Record], requests: &[(i64, Record)]) -> Vec<Asking> {
    let mut all = Some(requests.to_vec());
    written_by(file, records, &mut |_| all.take().unwrap_or_default()).0
}

fn measured(file: &str, pairs: Vec<Pair>, end: End, since: i64, until: i64) -> Report {
    let asked = Asked {
        pairs: Pairs(pairs),
        end,
        since,
        until,
        zone: Zone(0),
        worst: usize::MAX,
    };
    let store = reading(file).unwrap_or_else(|why| panic!("{why:?}"));
    let report = super::replayed(&*store, &asked, &By::Day);
    report.unwrap_or_else(|unfit| panic!("{}", unfit.0))
}

fn rounds(few: usize) -> usize {
    let times = std::env::var("MISHANTRAL_ROUNDS").ok();
    few * times.and_then(|times| times.parse().ok()).unwrap_or(1)
}

#[test]
fn parts_of_random_journals_are_those_of_a_slow_computation() {
    let room = Room::new("random");
    let (mut seen, mut ends, mut longest) = ([0; PARTS], BTreeMap::new(), 0);
    for seed in 0..rounds(40) as u64 {
        let mut random = Random::new(seed);
        let records = policy(&mut random);
        let pause = |random: &mut Random| match random.below(4) {
            0 => 0,
            1 => random.below(10) as i64,
            _ => random.below(4_000_000_000) as i64,
        };
        let mut left = 250;
        let mut next = |engine: &Engine| {
            left -= 1;
            let some = if left > 0 {
                requests(&mut random, &records, engine)
            } else {
                Vec::new()
            };
            some.into_iter()
                .map(|record| (pause(&mut random), record))
                .collect()
        };
        let file = room.file(&format!("{seed}.db"));
        let (asked, after) = written_by(&file, &records, &mut next);
        let (first, second) = (random.below(3) as u16, 1 + random.below(2) as u16);
        let (from, to) = (first, (first + second) % 3);
        let pairs = [0, 1].map(|template| Pair {
            template,
            from: 3 * template + from,
            to: 3 * template + to,
        });
        for end in [End::Claim, End::Done] {
            let slow = Slow {
                policy: &records,
                asked: &asked,
                after: &after,
                end,
            };
            let mut slowly: Vec<Found> = pairs.iter().flat_map(|&pair| slow.all(pair)).collect();
            slowly.sort_by_key(|found| (found.opening, found.start));
            let report = measured(&file, pairs.to_vec(), end, i64::MIN, i64::MAX);
            assert_eq!(
                by_program(&report),
                slowly,
                "seed {seed}, {end:?}, {pairs:?}"
            );
            for found in &slowly {
                seen.iter_mut()
                    .zip(found.parts)
                    .for_each(|(seen, part)| *seen += i32::from(part > 0));
                *ends.entry((end == End::Done, found.ended)).or_insert(0) += 1;
                longest = longest.max(found.end - found.start);
            }
            // A range takes those that began in it.
            let middle = asked[asked.len() / 2].at;
            let late = measured(&file, pairs.to_vec(), end, middle, i64::MAX);
            let early = measured(&file, pairs.to_vec(), end, i64::MIN, middle);
            let (late, early) = (by_program(&late), by_program(&early));
            assert!(
                late.iter().all(|found| found.start >= middle)
                    && early.iter().all(|found| found.start < middle)
            );
            let mut both: Vec<Found> = early.into_iter().chain(late).collect();
            both.sort_by_key(|found| (found.opening, found.start));
            assert_eq!(both, slowly, "seed {seed}, by range");
        }
    }
    // Each part and each ending did occur, so that the comparison says something of it; none of these journals was moved.
    let (moved, here) = seen.split_last().unwrap();
    assert!(
        *moved == 0 && here.iter().all(|&count| count > 20),
        "{seen:?}"
    );
    assert_eq!(ends.len(), 6, "{ends:?}");
    assert!(longest > 0);
}

/// Two tasks, the first before the second, one role; users 300 and 301.
fn small() -> Vec<Record> {
    let mut all = vec![Record::user(300), Record::user(301), Record::role(0)];
    all.extend([300, 301].map(|user| Record::user_has_role(user, 0)));
    all.extend([0, 1].map(|task| Record::task(task, 0)));
    all.extend([0, 1].map(|task| Record::task_open_to(task, 0)));
    all.push(Record::before(0, 1));
    all
}

const PAIR: Pair = Pair {
    template: 0,
    from: 0,
    to: 1,
};

#[test]
fn a_full_ledger_is_why_nobody_could() {
    let room = Room::new("full");
    let file = room.file("full.db");
    let clerk = Set::of(&[0]);
    let mut requests = vec![(0, Record::create_subject(1, 300, clerk))];
    requests.extend([0, 1].map(|order| (1, Record::open_order(order, 0))));
    // Order 1 fills the ledger; order 0 lies from its one entry on.
    requests.extend([Record::claim(1, 0, 0), Record::done(1, 0, 0)].map(|record| (1, record)));
    for _ in 0..2_046 {
        requests.extend([Record::claim(1, 1, 0), Record::done(1, 1, 0)].map(|record| (1, record)));
    }
    // With the last entry it is full for 100, until that is released; then 7 more, and the claim.
    requests.extend([
        (1, Record::claim(1, 1, 0)),
        (100, Record::release(1, 1, 0)),
        (7, Record::claim(1, 0, 1)),
    ]);
    let asked = written(&file, &small(), &requests);
    assert!(asked.iter().all(|asking| asking.reply == 0));
    let report = measured(&file, vec![PAIR], End::Claim, i64::MIN, i64::MAX);
    let hold = report.holds.iter().find(|hold| hold.order == 0).unwrap();
    assert_eq!(hold.parts, [100, 2 * 2_046 + 1 + 7, 0, 0, 0]);
    let (_, detail) = report
        .worst
        .iter()
        .find(|(worst, _)| worst.order == 0)
        .unwrap();
    assert_eq!(detail.met.len(), 1);
    let ((refusal, user), time) = detail.met[0];
    assert_eq!((refusal.reply, user, time), (20, 300, 100));
}

#[test]
fn the_last_test_before_the_claim_that_was_kept_counts() {
    let room = Room::new("last");
    let file = room.file("last.db");
    let clerk = Set::of(&[0]);
    let requests = [
        (0, Record::create_subject(1, 300, clerk)),
        (0, Record::create_subject(2, 301, clerk)),
        (0, Record::open_order(7, 0)),
        (0, Record::claim(1, 7, 0)),
        (10, Record::done(1, 7, 0)),
        (100, Record::claim(2, 7, 1)),
        // Tested again while it is held, and then released: the hold begins here.
        (5, Record::claim(1, 7, 0)),
        (5, Record::done(1, 7, 0)),
        (30, Record::claim(1, 7, 1)),
        (10, Record::release(2, 7, 1)),
        (60, Record::claim(1, 7, 1)),
        (500, Record::done(1, 7, 1)),
        // What follows the first signature is not measured.
        (1, Record::claim(1, 7, 0)),
        (1, Record::done(1, 7, 0)),
        (9, Record::claim(1, 7, 1)),
        (9, Record::done(1, 7, 1)),
        (9, Record::end_order(7)),
        // The number comes again.
        (9, Record::open_order(7, 0)),
        (1, Record::claim(1, 7, 0)),
        (1, Record::done(1, 7, 0)),
        (40, Record::destroy_subject(1)),
        (2, Record::destroy_subject(2)),
        (8, Record::create_subject(3, 301, Set::EMPTY)),
    ];
    let asked = written(&file, &small(), &requests);
    let refused: Vec<usize> = (0..asked.len())
        .filter(|&at| asked[at].reply != 0)
        .collect();
    assert_eq!(refused, [8]);
    let report = measured(&file, vec![PAIR], End::Claim, i64::MIN, i64::MAX);
    let found = by_program(&report);
    assert_eq!(found.len(), 2);
    let first = &found[0];
    assert_eq!(
        (first.opening, first.end - first.start, first.clerk),
        (3, 100, Some(300))
    );
    assert_eq!(first.parts, [0, 60, 0, 40, 0]);
    assert_eq!(first.could, BTreeMap::from([(300, 60), (301, 60)]));
    assert_eq!(first.refused, BTreeMap::from([(((5, 0), Some(300)), 1)]));
    let second = &found[1];
    assert_eq!(
        (second.opening, second.ended, second.parts),
        (18, "lying", [0, 42, 8, 0, 0])
    );
    let done = measured(&file, vec![PAIR], End::Done, i64::MIN, i64::MAX);
    let done = by_program(&done);
    assert_eq!(
        (done[0].end - done[0].start, done[0].parts),
        (600, [0, 60, 0, 540, 0])
    );
}
