//! Those who are to finish an order: the users who are signed in, or a list of users, of whom those who are not sign in first. Those who are
//! alike to every rule are one class, with what its members may have open to them.

use super::budget::{Meter, Spent};
use crate::desk::Desk;
use crate::names::Sort;
use crate::told::Told;
use mishantral::{Engine, State};
use records::{Record, Reply, Set};
use std::collections::BTreeMap;

/// One of them.
#[derive(Clone, Debug)]
pub struct Person {
    pub user: u16,
    /// The live subjects of the user; none where the user signs in first.
    pub subjects: Vec<u16>,
    /// The tasks of the order that the user has entries in.
    pub has: u64,
}

/// Roles that one may have active together, and the tasks that they open.
#[derive(Clone, PartialEq, Eq, Debug)]
pub struct Skill {
    pub roles: u64,
    pub opens: u64,
}

/// Those who are alike to every rule: the same roles assigned, the same roles active and former in their sessions, and no entry in the order.
/// Someone with an entry is a class alone.
#[derive(Clone, Debug)]
pub struct Class {
    /// Places in the list of people.
    pub people: Vec<usize>,
    pub has: u64,
    pub skills: Vec<Skill>,
}

/// What a class has in common: the assigned roles, and the active and former roles of each live subject.
type Alike = (u64, Vec<(u64, u64)>);

#[derive(Clone)]
pub struct People {
    pub all: Vec<Person>,
    pub classes: Vec<Class>,
}

impl People {
    /// The users who are signed in.
    pub fn signed_in(desk: &Desk) -> Vec<u16> {
        let mut users: Vec<u16> = desk.told.subjects.values().map(|s| s.user).collect();
        users.sort();
        users.dedup();
        users
    }

    /// These users for these tasks of an order; those of one class stand in the order of the list.
    ///
    /// `engine` is the desk's without what is held in the order.
    pub fn of(
        (desk, engine): (&Desk, &Engine),
        users: &[u16],
        order: u16,
        tasks: u64,
        meter: &mut Meter,
    ) -> Result<People, Spent> {
        let told = &desk.told;
        let mut met = std::collections::BTreeSet::new();
        let declared = users
            .iter()
            .filter(|&&user| told.users.contains_key(&user) && met.insert(user));
        let person = |&user: &u16| {
            let live = told.subjects.iter().filter(|(_, s)| s.user == user);
            let mine = told.entries(order).iter().filter(|e| e.user == user);
            Person {
                user,
                subjects: live.map(|(&subject, _)| subject).collect(),
                has: mine.fold(0, |has, entry| has | 1 << entry.task),
            }
        };
        let mut people = People {
            all: declared.map(person).collect(),
            classes: Vec::new(),
        };
        people.classify((desk, engine), order, tasks, meter)?;
        Ok(people)
    }

    fn classify(
        &mut self,
        (desk, engine): (&Desk, &Engine),
        order: u16,
        tasks: u64,
        meter: &mut Meter,
    ) -> Result<(), Spent> {
        let state = engine.state();
        let free = free(&desk.told);
        let mut known: BTreeMap<Alike, Vec<Skill>> = BTreeMap::new();
        let mut together: BTreeMap<Alike, usize> = BTreeMap::new();
        for (place, person) in self.all.iter().enumerate() {
            let alike = alike(state, person);
            if person.has == 0 {
                if let Some(&class) = together.get(&alike) {
                    self.classes[class].people.push(place);
                    continue;
                }
            }
            let skills = match known.get(&alike) {
                Some(skills) => skills.clone(),
                None => Skills::of((desk, engine), person, (order, tasks, free), meter)?,
            };
            known.insert(alike.clone(), skills.clone());
            if person.has == 0 {
                together.insert(alike, self.classes.len());
            }
            self.classes.push(Class {
                people: vec![place],
                has: person.has,
                skills,
            });
        }
        Ok(())
    }

    /// The class of a person.
    pub fn class_of(&self, person: usize) -> Option<usize> {
        let mut classes = self.classes.iter();
        classes.position(|class| class.people.contains(&person))
    }

    /// How many there are of each class.
    pub fn counts(&self) -> Vec<usize> {
        self.classes
            .iter()
            .map(|class| class.people.len())
            .collect()
    }
}

/// A subject for a user, without an active role.
pub fn create(subject: u16, user: u16) -> Record {
    Record::create_subject(subject, user, Set::EMPTY)
}

/// The subjects that are not live.
pub fn free_subjects(told: &Told) -> impl Iterator<Item = u16> + '_ {
    (0..=Sort::Subject.last()).filter(|subject| !told.subjects.contains_key(subject))
}

/// Roles whose activation no rule minds: those that, with all roles below them, are in no dynamic set.
pub fn free(told: &Told) -> u64 {
    let sets = told.rules_of(10).fold(0, |all, (_, rule)| all | rule.m());
    let minded = |role: &u8| told.down(Set::of(&[*role])).0 & sets != 0;
    let roles = told.roles.members().filter(|role| !minded(role));
    roles.fold(0, |all, role| all | 1 << role)
}

/// The roles assigned to a user (docs/STATE.md).
fn assigned(state: &State, user: u16) -> u64 {
    let word = state.policy.get(1032 + usize::from(user));
    word.copied().unwrap_or(0)
}

/// The roles active in a subject, and with them those that it has had.
fn session(state: &State, subject: u16) -> (u64, u64) {
    let word = |table: usize| state.sessions.get(table + usize::from(subject)).copied();
    let active = word(128).unwrap_or(0);
    (active, active | word(256).unwrap_or(0))
}

fn alike(state: &State, person: &Person) -> Alike {
    let sessions = person
        .subjects
        .iter()
        .map(|&subject| session(state, subject));
    let mut sessions: Vec<(u64, u64)> = sessions.collect();
    sessions.sort();
    (assigned(state, person.user), sessions)
}

/// The search for what may be active together in one class.
struct Skills<'a, 'b> {
    subjects: Vec<u16>,
    order: u16,
    tasks: u64,
    /// Roles that open more than what is open anyway, and what each opens.
    roles: Vec<(u8, u64)>,
    found: Vec<Skill>,
    meter: &'a mut Meter<'b>,
}

impl<'a, 'b> Skills<'a, 'b> {
    fn of(
        (desk, engine): (&Desk, &Engine),
        person: &Person,
        (order, tasks, free): (u16, u64, u64),
        meter: &'a mut Meter<'b>,
    ) -> Result<Vec<Skill>, Spent> {
        let mut engine = engine.clone();
        let mut subjects = person.subjects.clone();
        if subjects.is_empty() {
            let Some(subject) = free_subjects(&desk.told).next() else {
                return Ok(Vec::new());
            };
            if !engine.request(&create(subject, person.user)).is_granted() {
                return Ok(Vec::new());
            }
            subjects.push(subject);
        }
        let may = desk.told.may_activate(person.user).0;
        for role in Set(may & free).members() {
            let _ = engine.request(&Record::activate_role(subjects[0], role.into()));
        }
        let mut skills = Skills {
            subjects,
            order,
            tasks,
            roles: Vec::new(),
            found: Vec::new(),
            meter,
        };
        let anyway = skills.opened(&mut engine)?;
        for role in Set(may & !free).members() {
            let mut copy = engine.clone();
            let activate = Record::activate_role(skills.subjects[0], role.into());
            if copy.request(&activate).is_granted() {
                let opens = skills.opened(&mut copy)?;
                if opens & !anyway != 0 {
                    skills.roles.push((role, opens));
                }
            }
        }
        skills.widen(&engine, 0, may & free, anyway)?;
        Ok(skills.found)
    }

    /// The tasks that these subjects' active roles open: a claim of any other is refused with NO ROLE, before any rule is asked.
    fn opened(&mut self, engine: &mut Engine) -> Result<u64, Spent> {
        let mut opens = 0;
        for task in Set(self.tasks).members() {
            for &subject in &self.subjects {
                self.meter.one()?;
                let claim = Record::claim(subject, self.order, task.into());
                let answer = engine.request(&claim);
                if answer.is_granted() {
                    let _ = engine.request(&Record::release(subject, self.order, task.into()));
                }
                if answer != Reply::NoRole {
                    opens |= 1 << task;
                    break;
                }
            }
        }
        Ok(opens)
    }

    /// Every choice of further roles that the engine activates together, but those that open no more than one found before.
    fn widen(&mut self, engine: &Engine, at: usize, roles: u64, opens: u64) -> Result<(), Spent> {
        let most = self.roles[at..].iter().fold(opens, |all, (_, o)| all | o);
        if self.found.iter().any(|skill| most & !skill.opens == 0) {
            return Ok(());
        }
        let Some(&(role, more)) = self.roles.get(at) else {
            self.found.retain(|skill| skill.opens & !opens != 0);
            self.found.push(Skill { roles, opens });
            return Ok(());
        };
        self.meter.one()?;
        let mut with = engine.clone();
        let activate = Record::activate_role(self.subjects[0], role.into());
        if with.request(&activate).is_granted() {
            self.widen(&with, at + 1, roles | 1 << role, opens | more)?;
        }
        self.widen(engine, at + 1, roles, opens)
    }
}
