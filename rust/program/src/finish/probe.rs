//! The rules alone: an engine that is passed the tasks of one template, one role that opens them all, and the rules about them, but no
//! prerequisites. What it answers to a claim is what the rules say of the entries that there are, whoever the clerks may be.

use super::budget::{Meter, Spent};
use crate::told::{Entry, Told};
use mishantral::Engine;
use records::{Record, Set};
use std::collections::BTreeSet;

/// The one order, the one subject and the one role of a probe.
const ORDER: u16 = 0;
const SUBJECT: u16 = 0;
const ROLE: u16 = 0;

#[derive(Clone)]
pub struct Probe {
    engine: Engine,
}

impl Probe {
    /// An engine with these entries, all of them done, and that many users more, who have none and are named. Nothing where the engine refuses
    /// what it was told before, which no state does that came by requests.
    pub fn of(
        told: &Told,
        template: u16,
        entries: &[Entry],
        more: usize,
    ) -> Option<(Probe, Vec<u16>)> {
        let working: BTreeSet<u16> = entries.iter().map(|entry| entry.user).collect();
        let others = (0..1024).filter(|user| !working.contains(user));
        let strangers: Vec<u16> = others.take(more).collect();
        let users = working.iter().chain(&strangers).copied();
        let mut policy: Vec<Record> = users.clone().map(Record::user).collect();
        policy.push(Record::role(ROLE));
        policy.extend(users.map(|user| Record::user_has_role(user, ROLE)));
        let tasks: Vec<u16> = told.tasks_of(template).collect();
        policy.extend(tasks.iter().map(|&task| Record::task(task, template)));
        policy.extend(tasks.iter().map(|&task| Record::task_open_to(task, ROLE)));
        let all = tasks.iter().fold(0u64, |all, task| all | 1 << task);
        let rules = told.rules.iter().map(|(_, rule)| *rule);
        policy.extend(rules.filter(|rule| about(rule, template, all)));
        let mut engine = Engine::new();
        engine.load_records(&policy).ok()?;
        let mut probe = Probe { engine };
        probe.granted(&[Record::open_order(ORDER, template)])?;
        for entry in entries {
            probe = probe.taken(entry.user, 1 << entry.task)?;
        }
        Some((probe, strangers))
    }

    fn granted(&mut self, steps: &[Record]) -> Option<()> {
        let mut steps = steps.iter();
        let all = steps.all(|step| self.engine.request(step).is_granted());
        all.then_some(())
    }

    /// A copy in which the user has done these tasks.
    pub fn taken(&self, user: u16, tasks: u64) -> Option<Probe> {
        let mut copy = self.clone();
        copy.granted(&[Record::create_subject(
            SUBJECT,
            user,
            Set::of(&[ROLE as u8]),
        )])?;
        for task in Set(tasks).members().map(u16::from) {
            copy.granted(&[
                Record::claim(SUBJECT, ORDER, task),
                Record::done(SUBJECT, ORDER, task),
            ])?;
        }
        copy.granted(&[Record::destroy_subject(SUBJECT)])?;
        Some(copy)
    }

    /// Which of these units, each tasks that go together, the user may take now.
    pub fn allowed(
        &mut self,
        user: u16,
        units: &[u64],
        asked: u64,
        meter: &mut Meter,
    ) -> Result<u64, Spent> {
        let mut allowed = 0;
        let signs_in = Record::create_subject(SUBJECT, user, Set::of(&[ROLE as u8]));
        let _ = self.engine.request(&signs_in);
        for unit in Set(asked).members() {
            if self.claimed(units[usize::from(unit)], meter)? {
                allowed |= 1 << unit;
            }
        }
        let _ = self.engine.request(&Record::destroy_subject(SUBJECT));
        Ok(allowed)
    }

    /// Whether all of these tasks are granted one after the other; they are released again.
    fn claimed(&mut self, tasks: u64, meter: &mut Meter) -> Result<bool, Spent> {
        let mut held = Vec::new();
        let mut all = true;
        for task in Set(tasks).members().map(u16::from) {
            meter.one()?;
            let claim = Record::claim(SUBJECT, ORDER, task);
            all = self.engine.request(&claim).is_granted();
            if !all {
                break;
            }
            held.push(task);
        }
        for task in held {
            let _ = self.engine.request(&Record::release(SUBJECT, ORDER, task));
        }
        Ok(all)
    }
}

/// A rule about tasks of a template that a claim is judged by, prerequisites left out.
fn about(rule: &Record, template: u16, tasks: u64) -> bool {
    let has = |task: u16| tasks & 1 << task != 0;
    match rule.kind() {
        11 | 12 => rule.m() & tasks != 0,
        13 => rule.a() == template,
        14 => has(rule.a()),
        15 => has(rule.a()),
        _ => false,
    }
}
