//! What a search stands on: a desk, an order, and people. It is made once, and asked for all of them or for some of each class.

use super::budget::{Meter, Spent};
use super::lack::Lack;
use super::people::{free_subjects, People};
use super::plan;
use super::probe::Probe;
use super::search::{Dead, Outcome, Part, Search, Task};
use super::{Verdict, Why};
use crate::desk::Desk;
use crate::told::{Entry, Order};
use records::{Record, Set};
use std::collections::BTreeSet;

/// As many entries as the ledger has.
const LEDGER: usize = 2048;

/// What is done with a task that is held now.
#[derive(Clone, Copy, Debug)]
pub struct Held {
    pub task: u16,
    pub subject: u16,
    pub user: u16,
    /// Else it is released.
    pub done: bool,
}

/// What came of it.
pub enum Found {
    /// Who does what, and what is done with what is held.
    Parts(Vec<Part>, Vec<Held>),
    Never(Why),
    Open(Spent),
}

pub struct Ground<'a> {
    pub desk: &'a Desk,
    pub order: u16,
    pub people: People,
    template: u16,
    tasks: u64,
    held: Vec<Held>,
    /// More people than subjects that are free: not all of them could sign in.
    crowded: bool,
}

/// The tasks of a template as a set.
pub fn tasks_of(desk: &Desk, template: u16) -> u64 {
    let tasks = desk.told.tasks_of(template);
    tasks.fold(0, |all, task| all | 1 << task)
}

/// Tasks that are not done and wait for each other, or for such ones.
fn circle(desk: &Desk, tasks: u64, done: u64) -> Vec<u16> {
    let mut left: BTreeSet<u16> = Set(tasks & !done).members().map(u16::from).collect();
    loop {
        let waits = |task: &u16| {
            let mut rules = desk.told.rules_of(16);
            rules.any(|(_, rule)| rule.b() == *task && left.contains(&rule.a()))
        };
        let stay: BTreeSet<u16> = left.iter().copied().filter(waits).collect();
        if stay.len() == left.len() {
            return left.into_iter().collect();
        }
        left = stay;
    }
}

fn done_of(order: &Order) -> u64 {
    let done = order.entries.iter().filter(|entry| entry.holder.is_none());
    done.fold(0, |all, entry| all | 1 << entry.task)
}

impl<'a> Ground<'a> {
    /// These users for an order that is open.
    pub fn of(
        desk: &'a Desk,
        order: u16,
        users: &[u16],
        meter: &mut Meter,
    ) -> Result<Ground<'a>, Spent> {
        let Some(opened) = desk.told.orders.get(&order) else {
            return Err(Spent::Gone);
        };
        let held = opened.entries.iter().filter_map(|entry| {
            Some(Held {
                task: entry.task,
                subject: entry.holder?,
                user: entry.user,
                done: true,
            })
        });
        let held: Vec<Held> = held.collect();
        let tasks = tasks_of(desk, opened.template);
        // What is held now could not be asked for.
        let mut engine = desk.engine().clone();
        for held in &held {
            let _ = engine.request(&Record::release(held.subject, order, held.task));
        }
        let people = People::of((desk, &engine), users, order, tasks, meter)?;
        let mut sign_in = people.all.iter().filter(|p| p.subjects.is_empty());
        let free = free_subjects(&desk.told).count();
        Ok(Ground {
            crowded: free < 64 && sign_in.nth(free).is_some(),
            desk,
            order,
            people,
            template: opened.template,
            tasks,
            held,
        })
    }

    fn opened(&self) -> &Order {
        &self.desk.told.orders[&self.order]
    }

    /// Whether all of them together can finish it.
    pub fn verdict(&self, meter: &mut Meter) -> Verdict {
        match self.found(&self.people.counts(), usize::MAX, meter) {
            Found::Parts(parts, held) => match self.plan(&parts, &held) {
                Some(steps) => Verdict::Plan(steps),
                None => Verdict::Open(Spent::Subjects),
            },
            Found::Never(_) if self.crowded => Verdict::Open(Spent::Subjects),
            Found::Never(why) => Verdict::Never(why),
            Found::Open(spent) => Verdict::Open(spent),
        }
    }

    /// The requests of a way to finish it, each granted by a copy of the engine.
    pub fn plan(&self, parts: &[Part], held: &[Held]) -> Option<Vec<Record>> {
        plan::plan(self.desk, &self.people, self.order, held, parts)
    }

    /// Whether that many of each class can finish it, of whom that many may be at work.
    pub fn found(&self, counts: &[usize], most: usize, meter: &mut Meter) -> Found {
        let opened = self.opened();
        let circle = circle(self.desk, self.tasks, done_of(opened));
        if !circle.is_empty() {
            return Found::Never(Why::Circle(circle));
        }
        for held in &self.held {
            let there = |class: &usize| {
                let mut people = self.people.classes[*class].people.iter();
                counts[*class] > 0 && people.any(|&p| self.people.all[p].user == held.user)
            };
            if !(0..counts.len()).any(|class| there(&class)) {
                let (task, subject) = (held.task, held.subject);
                return Found::Never(Why::Held { task, subject });
            }
        }
        let mut furthest = None;
        // What is held is done, or else released: every choice of it, all done first.
        for choice in 0..1u64 << self.held.len().min(20) {
            let mut held = self.held.clone();
            for (place, held) in held.iter_mut().enumerate() {
                held.done = choice & 1 << place == 0;
            }
            match self.searched(&held, counts, most, meter) {
                Outcome::Plan(parts) => return Found::Parts(parts, held),
                Outcome::Open(spent) => return Found::Open(spent),
                Outcome::Never(dead) => {
                    let left = |dead: &Dead| dead.left.count_ones();
                    let further = |(than, _): &(Dead, Vec<Held>)| {
                        dead.as_ref().is_some_and(|dead| left(dead) < left(than))
                    };
                    if furthest.as_ref().is_none_or(further) {
                        furthest = dead.map(|dead| (dead, held)).or(furthest);
                    }
                }
            }
        }
        if self.entries_in_use() + self.left(&self.held).count_ones() as usize > LEDGER {
            return Found::Never(Why::Full);
        }
        let lack = furthest.and_then(|(dead, held)| Lack::of(self, counts, &held, &dead));
        match lack {
            Some(lack) => Found::Never(Why::Lack(Box::new(lack))),
            None => Found::Never(Why::Nobody),
        }
    }

    fn entries_in_use(&self) -> usize {
        let orders = self.desk.told.orders.values();
        orders.map(|order| order.entries.len()).sum()
    }

    /// The tasks that are not done when what is held is dealt with so.
    fn left(&self, held: &[Held]) -> u64 {
        let done = held.iter().filter(|held| held.done);
        let done = done.fold(0, |all, held| all | 1u64 << held.task);
        self.tasks & !done_of(self.opened()) & !done
    }

    fn searched(&self, held: &[Held], counts: &[usize], most: usize, meter: &mut Meter) -> Outcome {
        let left = self.left(held);
        if self.entries_in_use() + left.count_ones() as usize > LEDGER {
            return Outcome::Never(None);
        }
        let gone = |entry: &&Entry| {
            let mut released = held.iter().filter(|held| !held.done);
            entry.holder.is_some() && released.any(|held| held.task == entry.task)
        };
        let entries: Vec<Entry> = self
            .opened()
            .entries
            .iter()
            .filter(|entry| !gone(entry))
            .copied()
            .collect();
        // Whoever releases a task may have no entry any more.
        let mut people = self.people.clone();
        for class in &mut people.classes {
            let user = people.all[class.people[0]].user;
            let mine = entries.iter().filter(|entry| entry.user == user);
            class.has = mine.fold(0, |has, entry| has | 1 << entry.task);
        }
        let more = (left.count_ones() as usize).min(people.all.len());
        let told = &self.desk.told;
        let Some((probe, strangers)) = Probe::of(told, self.template, &entries, more) else {
            return Outcome::Open(Spent::Gone);
        };
        let task = Task {
            told,
            template: self.template,
            tasks: self.tasks,
            left,
            people: &people,
            counts,
            most,
        };
        Search::new(task, meter).run(probe, strangers)
    }
}
