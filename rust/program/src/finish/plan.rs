//! A plan: what is held first, then the tasks as their prerequisites let them, each step granted by a copy of the engine.

use super::people::{create, free_subjects, People};
use super::search::Part;
use super::Held;
use crate::desk::Desk;
use mishantral::{Answer, Engine};
use records::{Record, Reply, Set};

/// A copy of the engine on which steps are made, and the steps.
#[derive(Clone)]
pub struct Making {
    pub engine: Engine,
    pub steps: Vec<Record>,
    order: u16,
}

/// The subjects of those at work; one who signs in has a new one. Nothing where no subject is free.
pub fn subjects(desk: &Desk, people: &People, parts: &[Part]) -> Option<Vec<Vec<u16>>> {
    let mut free = free_subjects(&desk.told);
    let of = |part: &Part| {
        let live = people.all[part.person].subjects.clone();
        match live.is_empty() {
            true => free.next().map(|subject| vec![subject]),
            false => Some(live),
        }
    };
    parts.iter().map(of).collect()
}

/// The requests that finish the order, every one of them granted on a copy; none where a step is not.
pub fn plan(
    desk: &Desk,
    people: &People,
    order: u16,
    held: &[Held],
    parts: &[Part],
) -> Option<Vec<Record>> {
    let mut making = Making::new(desk.engine().clone(), order);
    let subjects = subjects(desk, people, parts)?;
    making.begin(people, held, parts, &subjects)?;
    let mut left: Vec<(usize, u16)> = Vec::new();
    for (place, part) in parts.iter().enumerate() {
        let tasks = Set(part.tasks).members();
        left.extend(tasks.map(|task| (place, u16::from(task))));
    }
    left.sort_by_key(|&(_, task)| task);
    while !left.is_empty() {
        let before = left.len();
        let mut waiting = Vec::new();
        for (place, task) in left {
            match making.worked(&subjects[place], parts[place].roles, task) {
                Ok(()) => {}
                Err((answer, _)) if answer == Reply::Before => waiting.push((place, task)),
                Err(_) => return None,
            }
        }
        left = waiting;
        // Prerequisites that go in a circle are found before anything is searched.
        if left.len() == before {
            return None;
        }
    }
    making.step(Record::end_order(order))?;
    Some(making.steps)
}

impl Making {
    pub fn new(engine: Engine, order: u16) -> Making {
        Making {
            engine,
            steps: Vec::new(),
            order,
        }
    }

    fn step(&mut self, record: Record) -> Option<()> {
        self.engine.request(&record).is_granted().then_some(())?;
        self.steps.push(record);
        Some(())
    }

    /// Those at work sign in, and what is held is done or released.
    pub fn begin(
        &mut self,
        people: &People,
        held: &[Held],
        parts: &[Part],
        subjects: &[Vec<u16>],
    ) -> Option<()> {
        for (part, subjects) in parts.iter().zip(subjects) {
            let person = &people.all[part.person];
            if person.subjects.is_empty() {
                self.step(create(subjects[0], person.user))?;
            }
        }
        for held in held {
            self.step(match held.done {
                true => Record::done(held.subject, self.order, held.task),
                false => Record::release(held.subject, self.order, held.task),
            })?;
        }
        Some(())
    }

    /// Has a task claimed and done in one of these subjects, with one of these roles made active where that is needed; or the request that is
    /// refused, with its answer, and then nothing has changed.
    pub fn worked(
        &mut self,
        subjects: &[u16],
        roles: u64,
        task: u16,
    ) -> Result<(), (Answer, Record)> {
        let first = *subjects.first().unwrap_or(&0);
        let mut refused = (
            Answer::from(Reply::NoRole),
            Record::claim(first, self.order, task),
        );
        for &subject in subjects {
            match self.done(subject, None, task) {
                Err((answer, _)) if answer == Reply::NoRole => {}
                done => return done,
            }
        }
        for role in Set(roles).members().map(u16::from) {
            match self.done(first, Some(role), task) {
                Err((answer, step)) => match answer.reply {
                    Reply::NoRole | Reply::Taken | Reply::NotAssigned => {}
                    Reply::Dynamic => refused = (answer, step),
                    _ => return Err((answer, step)),
                },
                Ok(()) => return Ok(()),
            }
        }
        Err(refused)
    }

    fn done(&mut self, subject: u16, role: Option<u16>, task: u16) -> Result<(), (Answer, Record)> {
        let mut copy = self.clone();
        let activate = role.map(|role| Record::activate_role(subject, role));
        let work = [
            Record::claim(subject, self.order, task),
            Record::done(subject, self.order, task),
        ];
        for step in activate.into_iter().chain(work) {
            let answer = copy.engine.request(&step);
            if !answer.is_granted() {
                return Err((answer, step));
            }
            copy.steps.push(step);
        }
        *self = copy;
        Ok(())
    }

    /// Makes those of these roles active that are not.
    pub fn activate(&mut self, subject: u16, roles: u64) {
        for role in Set(roles).members() {
            let _ = self
                .engine
                .request(&Record::activate_role(subject, role.into()));
        }
    }
}
