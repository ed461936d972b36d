//! A desk played through: orders come in, clerks of the shift on duty claim what the engine grants them, work, and are done. What comes of it is a
//! journal, in which every request was answered by the engine.

use super::orders::Arrival;
use super::roster::Duty;
use crate::holds::next_time;
use crate::journal::Author;
use crate::names::{Naming, Sort};
use crate::stop::{wrong, Stop};
use mishantral::{Answer, Engine, Reply};
use random::Random;
use records::{Record, Set};
use std::cmp::Reverse;
use std::collections::{BTreeMap, BinaryHeap, VecDeque};

const SECOND: i64 = 1_000_000;
const MINUTE: i64 = 60 * SECOND;
const DAY: i64 = 24 * 60 * MINUTE;
/// How long a task takes where nothing says it, in minutes.
const USUAL: f64 = 10.0;

/// What is played.
pub struct Plan {
    pub policy: Vec<Record>,
    pub duties: Vec<Duty>,
    pub arrivals: Vec<Arrival>,
    /// Minutes by task, where the order does not say it.
    pub minutes: BTreeMap<u16, f64>,
    /// Minutes until somebody notices that an order came in or went on.
    pub notice: f64,
    /// Tasks that are claimed before all others.
    pub prefer: Vec<u16>,
    /// The newest order first, instead of the oldest.
    pub newest: bool,
    pub seed: u64,
}

/// Someone on the roster.
struct Clerk {
    user: u16,
    /// The live subject, while signed in.
    subject: Option<u16>,
    /// The task at hand.
    at_work: Option<(usize, u16)>,
    /// Whether the shift is over: who is at work finishes it first.
    leaves: bool,
    free_since: i64,
}

/// An order that came in.
struct Order {
    number: u16,
    /// Tasks that nobody has claimed yet, and how many are not done.
    free: Vec<u16>,
    left: usize,
    /// From when on those who are free notice it.
    noticed: i64,
    /// Claims that a clerk has tried in vain: nobody tries one twice.
    tried: Vec<(usize, u16)>,
}

#[derive(Clone, Copy, PartialEq, Eq, PartialOrd, Ord)]
enum Event {
    Done(usize),
    Ends(usize),
    Begins(usize),
    Arrives(usize),
    /// A clerk is at the desk.
    Comes(usize),
    /// Somebody notices an order.
    Noticed,
}

/// What came of it.
#[derive(Clone, Default, Debug)]
pub struct Played {
    pub requests: i64,
    pub ended: usize,
    pub lying: usize,
    /// Orders that came while all 64 numbers were in use.
    pub waited: usize,
    /// By user: tasks done, and microseconds at work.
    pub load: BTreeMap<u16, (usize, i64)>,
}

pub struct Desk<'a> {
    plan: &'a Plan,
    author: Author,
    random: Random,
    events: BinaryHeap<Reverse<(i64, Event)>>,
    clerks: Vec<Clerk>,
    /// By shift: which clerks are its own.
    of_shift: Vec<Vec<usize>>,
    orders: BTreeMap<usize, Order>,
    numbers: Vec<u16>,
    subjects: Vec<u16>,
    waiting: VecDeque<usize>,
    played: Played,
}

impl<'a> Desk<'a> {
    pub fn new(plan: &'a Plan, author: Author) -> Desk<'a> {
        let (mut clerks, mut of_shift) = (Vec::new(), Vec::new());
        for duty in &plan.duties {
            let first = clerks.len();
            clerks.extend(duty.clerks.iter().map(|&user| Clerk {
                user,
                subject: None,
                at_work: None,
                leaves: false,
                free_since: 0,
            }));
            of_shift.push((first..clerks.len()).collect());
        }
        Desk {
            plan,
            author,
            random: Random::new(plan.seed),
            events: BinaryHeap::new(),
            clerks,
            of_shift,
            orders: BTreeMap::new(),
            numbers: (0..64).rev().collect(),
            subjects: (0..128).rev().collect(),
            waiting: VecDeque::new(),
            played: Played::default(),
        }
    }

    fn plan_event(&mut self, at: i64, event: Event) {
        self.events.push(Reverse((at, event)));
    }

    /// Plays from the first order's day to a day after the last order came.
    pub fn play(mut self) -> Result<Played, Stop> {
        let (Some(first), Some(last)) = (self.plan.arrivals.first(), self.plan.arrivals.last())
        else {
            return wrong("there is no order to play");
        };
        let (first, last) = (first.at - first.at.rem_euclid(DAY) - DAY, last.at + DAY);
        for (shift, duty) in self.plan.duties.iter().enumerate() {
            let begins = next_time(first, duty.shift.from);
            self.events.push(Reverse((begins, Event::Begins(shift))));
        }
        for (place, arrival) in self.plan.arrivals.iter().enumerate() {
            self.events
                .push(Reverse((arrival.at, Event::Arrives(place))));
        }
        while let Some(Reverse((at, event))) = self.events.pop() {
            if at > last {
                break;
            }
            self.happens(at, event)?;
        }
        self.played.lying = self.orders.len() + self.waiting.len();
        self.played.requests = self.author.finish()?;
        Ok(self.played)
    }

    fn happens(&mut self, at: i64, event: Event) -> Result<(), Stop> {
        match event {
            Event::Begins(shift) => {
                for place in self.of_shift[shift].clone() {
                    let comes = at + self.random.below(5 * 60) as i64 * SECOND;
                    self.plan_event(comes, Event::Comes(place));
                }
                let duty = &self.plan.duties[shift].shift;
                let (ends, again) = (
                    next_time(at + 1, duty.to % DAY),
                    next_time(at + 1, duty.from),
                );
                self.plan_event(ends, Event::Ends(shift));
                self.plan_event(again, Event::Begins(shift));
            }
            Event::Comes(place) => self.signs_in(place, at)?,
            Event::Ends(shift) => {
                for place in self.of_shift[shift].clone() {
                    self.clerks[place].leaves = true;
                    self.signs_out(place, at)?;
                }
            }
            Event::Arrives(place) => {
                self.waiting.push_back(place);
                self.played.waited += usize::from(self.numbers.is_empty());
            }
            Event::Done(place) => self.is_done(place, at)?,
            Event::Noticed => {}
        }
        self.opens(at)?;
        self.gives_out(at)
    }

    fn must(&mut self, at: i64, record: &Record, namings: &[Naming]) -> Result<(), Stop> {
        let answer = self.author.ask(at, record, namings)?;
        match answer.is_granted() {
            true => Ok(()),
            false => wrong(format!(
                "the desk refused what it must grant: {}: {answer}",
                notation::line(&record.0)
            )),
        }
    }

    /// With all of the clerk's roles, or those that a dynamic set leaves, by number.
    fn signs_in(&mut self, place: usize, at: i64) -> Result<(), Stop> {
        let user = self.clerks[place].user;
        if self.clerks[place].subject.is_some() {
            self.clerks[place].leaves = false;
            return Ok(());
        }
        let Some(subject) = self.subjects.pop() else {
            return wrong("128 clerks are signed in, and there are no more subjects");
        };
        let assigned = self
            .plan
            .policy
            .iter()
            .filter(|r| r.kind() == 4 && r.a() == user);
        let roles: Vec<u8> = assigned.map(|r| r.b() as u8).collect();
        let granted = |engine: &Engine, roles: Set| {
            engine
                .clone()
                .request(&Record::create_subject(subject, user, roles))
                .is_granted()
        };
        let mut active = Set::EMPTY;
        for role in roles {
            if granted(self.author.engine(), active.with(role)) {
                active = active.with(role);
            }
        }
        self.must(at, &Record::create_subject(subject, user, active), &[])?;
        let clerk = &mut self.clerks[place];
        (clerk.subject, clerk.leaves, clerk.free_since) = (Some(subject), false, at);
        Ok(())
    }

    fn signs_out(&mut self, place: usize, at: i64) -> Result<(), Stop> {
        let clerk = &mut self.clerks[place];
        if !clerk.leaves || clerk.at_work.is_some() {
            return Ok(());
        }
        let Some(subject) = clerk.subject.take() else {
            return Ok(());
        };
        self.subjects.push(subject);
        self.subjects
            .sort_unstable_by_key(|&subject| Reverse(subject));
        self.must(at, &Record::destroy_subject(subject), &[])
    }

    /// Opens the orders that wait, as far as there are numbers.
    fn opens(&mut self, at: i64) -> Result<(), Stop> {
        while let (Some(&place), Some(&number)) = (self.waiting.front(), self.numbers.last()) {
            self.waiting.pop_front();
            self.numbers.pop();
            let arrival = &self.plan.arrivals[place];
            let template = arrival.template;
            let naming = arrival.name.as_ref().map(|name| Naming {
                sort: Sort::Order,
                number,
                name: name.as_bytes().to_vec(),
                column: 1,
            });
            let naming: Vec<Naming> = naming.into_iter().collect();
            self.must(at, &Record::open_order(number, template), &naming)?;
            let tasks = self
                .plan
                .policy
                .iter()
                .filter(|r| r.kind() == 6 && r.b() == template);
            let free: Vec<u16> = tasks.map(Record::a).collect();
            let order = Order {
                number,
                left: free.len(),
                free,
                noticed: self.noticed(at),
                tried: Vec::new(),
            };
            self.orders.insert(place, order);
        }
        Ok(())
    }

    fn is_done(&mut self, place: usize, at: i64) -> Result<(), Stop> {
        let Some((arrival, task)) = self.clerks[place].at_work.take() else {
            return Ok(());
        };
        let (number, subject) = (
            self.orders[&arrival].number,
            self.clerks[place].subject.unwrap_or_default(),
        );
        self.must(at, &Record::done(subject, number, task), &[])?;
        self.clerks[place].free_since = at;
        self.played
            .load
            .entry(self.clerks[place].user)
            .or_default()
            .0 += 1;
        let noticed = self.noticed(at);
        if let Some(order) = self.orders.get_mut(&arrival) {
            (order.left, order.noticed) = (order.left - 1, noticed);
            order.tried.clear();
            if order.left == 0 {
                self.orders.remove(&arrival);
                self.must(at, &Record::end_order(number), &[])?;
                self.numbers.push(number);
                self.numbers.sort_unstable_by_key(|&number| Reverse(number));
                self.played.ended += 1;
            }
        }
        self.signs_out(place, at)
    }

    /// Those who are free, the one first who is it longest, take what the engine grants: tasks that are preferred, then by order and task.
    fn gives_out(&mut self, at: i64) -> Result<(), Stop> {
        let mut free: Vec<usize> = (0..self.clerks.len())
            .filter(|&place| self.is_free(place))
            .collect();
        free.sort_by_key(|&place| (self.clerks[place].free_since, place));
        if free.is_empty() || self.orders.is_empty() {
            return Ok(());
        }
        let mut work: Vec<(bool, i64, usize, u16)> = Vec::new();
        for (&arrival, order) in self.orders.iter().filter(|(_, order)| order.noticed <= at) {
            let came = if self.plan.newest {
                -(arrival as i64)
            } else {
                arrival as i64
            };
            work.extend(
                order
                    .free
                    .iter()
                    .map(|&task| (!self.plan.prefer.contains(&task), came, arrival, task)),
            );
        }
        work.sort_unstable();
        for (_, _, arrival, task) in work {
            if free.is_empty() {
                break;
            }
            if let Some(taken) = self.taken(arrival, task, &free, at)? {
                free.retain(|&place| place != taken);
            }
        }
        Ok(())
    }

    fn is_free(&self, place: usize) -> bool {
        let clerk = &self.clerks[place];
        clerk.subject.is_some() && clerk.at_work.is_none() && !clerk.leaves
    }

    /// The first of those free whose claim is granted has the task. A clerk whom a rule refuses tries once, and it is in the journal.
    fn taken(
        &mut self,
        arrival: usize,
        task: u16,
        free: &[usize],
        at: i64,
    ) -> Result<Option<usize>, Stop> {
        let number = self.orders[&arrival].number;
        for &place in free {
            if self.orders[&arrival].tried.contains(&(place, task)) {
                continue;
            }
            let subject = self.clerks[place].subject.unwrap_or_default();
            let claim = Record::claim(subject, number, task);
            let answer = self.author.tried(&claim);
            let by_rule = !matches!(
                answer.reply,
                Reply::Granted | Reply::Before | Reply::NoRole | Reply::Taken
            );
            if answer.is_granted() || by_rule {
                let asked: Answer = self.author.ask(at, &claim, &[])?;
                debug_assert_eq!(asked, answer);
            }
            if !answer.is_granted() {
                if by_rule || answer.reply == Reply::NoRole {
                    self.orders
                        .entry(arrival)
                        .and_modify(|order| order.tried.push((place, task)));
                }
                continue;
            }
            self.begins(arrival, task, place, at);
            return Ok(Some(place));
        }
        Ok(None)
    }

    /// Minutes, more or less: from half of them to half as much again.
    fn about(&mut self, minutes: f64) -> i64 {
        let part = 500 + self.random.below(1_000) as i64;
        (minutes * MINUTE as f64) as i64 * part / 1_000
    }

    /// When somebody notices what happens now.
    fn noticed(&mut self, at: i64) -> i64 {
        let noticed = at + self.about(self.plan.notice);
        self.plan_event(noticed, Event::Noticed);
        noticed
    }

    fn begins(&mut self, arrival: usize, task: u16, place: usize, at: i64) {
        let given = self.plan.arrivals[arrival]
            .minutes
            .iter()
            .find(|(of, _)| *of == task);
        let usual = self.plan.minutes.get(&task).copied().unwrap_or(USUAL);
        let minutes = given.map_or(usual, |(_, minutes)| *minutes);
        let time = self.about(minutes);
        if let Some(order) = self.orders.get_mut(&arrival) {
            order.free.retain(|&free| free != task);
            order.tried.clear();
        }
        self.clerks[place].at_work = Some((arrival, task));
        self.played
            .load
            .entry(self.clerks[place].user)
            .or_default()
            .1 += time;
        self.plan_event(at + time, Event::Done(place));
    }
}
