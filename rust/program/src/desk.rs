//! A desk: the engine with a policy loaded, what its answers have told, and questions put to copies of it.

use crate::names::{Names, Sort};
use crate::reader::{self, Line};
use crate::source::Policy;
use crate::told::Told;
use mishantral::{Answer, Engine, Refused, ANSWER};
use records::{Record, Reply, Set, LENGTH};
use std::collections::BTreeMap;

pub struct Desk {
    pub policy: Policy,
    /// The policy's names, and those that requests gave.
    pub names: Names,
    pub told: Told,
    engine: Engine,
}

/// Someone who could claim a task now.
#[derive(Clone, Copy, PartialEq, Eq, Debug)]
pub struct Candidate {
    pub user: u16,
    /// The live subject that could; none where the user would need a new one with this role active.
    pub subject: Option<u16>,
    pub role: Option<u16>,
}

/// Those who could, and how many others with a role for the task would be refused with what.
#[derive(Clone, Default, Debug)]
pub struct Candidates {
    pub who: Vec<Candidate>,
    pub refused: BTreeMap<Reply, usize>,
}

/// A record's sixteen bytes, if it has as many.
pub fn whole(bytes: &[u8]) -> Option<Record> {
    <[u8; LENGTH]>::try_from(bytes).ok().map(Record)
}

impl Desk {
    /// Loads the policy into a new engine.
    pub fn open(policy: &Policy) -> Result<Desk, Refused> {
        let mut engine = Engine::new();
        engine.load(&policy.bytes)?;
        Ok(Desk {
            told: Told::loaded(&policy.records()),
            names: policy.names.clone(),
            policy: policy.clone(),
            engine,
        })
    }

    /// A desk whose engine has been at work: what it holds is read from its state.
    pub fn at(policy: &Policy, names: Names, engine: Engine) -> Desk {
        Desk {
            told: Told::read(&policy.records(), engine.state()),
            names,
            policy: policy.clone(),
            engine,
        }
    }

    /// A desk whose engine holds this policy, which was not loaded but kept of a damaged file.
    pub fn mended(policy: Policy, engine: Engine) -> Desk {
        Desk {
            told: Told::loaded(&policy.records()),
            names: policy.names.clone(),
            policy,
            engine,
        }
    }

    /// The reply to a pile, whose own replies are written to a buffer from a place on.
    pub fn pile(&mut self, records: &[u8], answers: &mut [u8], at: usize) -> Reply {
        let reply = self.engine.pile_bytes(records, answers, at);
        if reply.is_granted() {
            let granted = answers[at..].iter().map(|reply| *reply == 0);
            for (record, granted) in records.chunks(LENGTH).zip(granted) {
                if let (true, Some(record)) = (granted, whole(record)) {
                    self.told.granted(&record);
                }
            }
        }
        reply
    }

    pub fn engine(&self) -> &Engine {
        &self.engine
    }

    /// The engine's answer; what a granted request changes is kept in mind.
    pub fn ask(&mut self, record: &[u8]) -> Answer {
        let answer = self.engine.request(record);
        if let (true, Some(record)) = (answer.is_granted(), whole(record)) {
            self.told.granted(&record);
        }
        answer
    }

    /// Takes a line: the engine's answer to its record. The names that it gives are given where the record is granted, or where
    /// there is none.
    pub fn take(&mut self, line: &Line) -> Option<Answer> {
        let answer = line.record.as_deref().map(|record| self.ask(record));
        if answer.is_none_or(Answer::is_granted) {
            reader::give(&mut self.names, &line.namings, false);
        }
        answer
    }

    /// The figures of a question that is granted.
    pub fn figures(&self, record: &[u8]) -> Option<[u64; ANSWER]> {
        let mut answer = [0; ANSWER];
        let reply = self.engine.question(record, &mut answer);
        reply.is_granted().then_some(answer)
    }

    /// The figures in words, `2 entries, done test`.
    pub fn say_figures(&self, record: &[u8]) -> Option<String> {
        let task = |task: u16| self.names.shown(Sort::Task, task);
        notation::figures(record, &self.figures(record)?, task)
    }

    /// The tasks of a template that can never be claimed because of prerequisites.
    pub fn stuck(&self, template: u16) -> impl Iterator<Item = u16> {
        let answer = self.engine.stuck_tasks(template);
        let stuck = answer.map_or(Set::EMPTY, |answer| answer.stuck);
        stuck.members().map(u16::from)
    }

    /// The answer to one request, of any bytes, on a copy.
    pub fn tried_bytes(&self, record: &[u8]) -> Answer {
        self.engine.clone().request(record)
    }

    /// The answers to these requests one after the other, on a copy; the last of them.
    pub fn tried(&self, records: &[Record]) -> Answer {
        let mut copy = self.engine.clone();
        let mut last = Answer::from(Reply::Granted);
        for record in records {
            last = copy.request(record);
            if !last.is_granted() {
                break;
            }
        }
        last
    }

    /// Who could claim this task of this order now, by the engine's answers on copies: subjects that are live, and users without one
    /// that could, in a new one with one of their roles; and of the others who have a role for it, what they would be answered.
    pub fn candidates(&self, order: u16, task: u16) -> Candidates {
        let mut all = Candidates::default();
        for (&subject, session) in &self.told.subjects {
            let claim = Record::claim(subject, order, task);
            if self.tried(&[claim]).is_granted() {
                all.who.push(Candidate {
                    user: session.user,
                    subject: Some(subject),
                    role: None,
                });
            }
        }
        let mut subjects = 0..=Sort::Subject.last();
        let Some(free) = subjects.find(|s| !self.told.subjects.contains_key(s)) else {
            return all;
        };
        for &user in self.told.users.keys() {
            if all.who.iter().any(|c| c.user == user) {
                continue;
            }
            let mut refused = None;
            let could = |&role: &u8| {
                let create = Record::create_subject(free, user, Set::of(&[role]));
                let answer = self.tried(&[create, Record::claim(free, order, task)]);
                refused = Some(answer.reply).filter(|reply| !reply.is_granted());
                answer.is_granted()
            };
            let may = self.told.may_activate(user);
            let role = self.told.opening(may, task).members().find(could);
            all.who.extend(role.map(|role| Candidate {
                user,
                subject: None,
                role: Some(role.into()),
            }));
            if let Some(reply) = refused {
                *all.refused.entry(reply).or_default() += 1;
            }
        }
        all
    }

    pub fn say(&self, sort: Sort, number: u16) -> String {
        self.names.say(sort, number)
    }

    /// `subject 5 of clerk_a`, or its name.
    pub fn say_subject(&self, subject: u16) -> String {
        let whose = self.told.user_of(subject);
        let whose = whose.map_or(String::new(), |user| {
            format!(" of {}", self.say(Sort::User, user))
        });
        format!("{}{whose}", self.say(Sort::Subject, subject))
    }

    /// `clerk_a and clerk_b`, of a sort.
    pub fn say_all(&self, sort: Sort, numbers: impl IntoIterator<Item = u16>) -> String {
        let all: Vec<String> = numbers.into_iter().map(|n| self.say(sort, n)).collect();
        joined(&all)
    }

    /// The members of a set, or `none`.
    pub fn say_set(&self, sort: Sort, set: Set) -> String {
        match set {
            Set::EMPTY => "none".to_string(),
            set => self.say_all(sort, set.members().map(u16::from)),
        }
    }
}

/// `a, b and c`.
pub fn joined(all: &[String]) -> String {
    match all.split_last() {
        None => "none".to_string(),
        Some((last, [])) => last.clone(),
        Some((last, others)) => format!("{} and {last}", others.join(", ")),
    }
}
