//! The tables as the answers tell them: the records of an accepted load, and the requests that were granted. No rule is judged here;
//! explanations take from these tables whose an entry is, and ask the engine for everything else.

use records::{Record, Set};
use std::collections::BTreeMap;

#[derive(Clone, PartialEq, Eq, Debug)]
pub struct Session {
    pub user: u16,
    pub active: Set,
    /// Every role that it has had active.
    pub had: Set,
}

/// A granted claim that was neither released nor ended with its order.
#[derive(Clone, Copy, PartialEq, Eq, Debug)]
pub struct Entry {
    pub user: u16,
    pub task: u16,
    /// The subject that holds it; none where it is done.
    pub holder: Option<u16>,
}

#[derive(Clone, PartialEq, Eq, Debug)]
pub struct Order {
    pub template: u16,
    pub entries: Vec<Entry>,
}

#[derive(Clone, Default, Debug)]
pub struct Told {
    pub users: BTreeMap<u16, Set>,
    pub roles: Set,
    /// Operation and object.
    pub permissions: BTreeMap<u16, (u16, u16)>,
    /// Role and permission.
    pub allowed: Vec<(u16, u16)>,
    /// A task's template.
    pub tasks: BTreeMap<u16, u16>,
    /// The roles that a task is open to.
    pub open: BTreeMap<u16, Set>,
    /// Task and permission.
    pub carried: Vec<(u16, u16)>,
    /// Senior and junior roles, with the places of their records in the policy, from 0.
    pub above: Vec<(usize, (u16, u16))>,
    /// Records of kinds 9 to 16 and 18 with their places in the policy, from 0.
    pub rules: Vec<(usize, Record)>,
    pub subjects: BTreeMap<u16, Session>,
    pub orders: BTreeMap<u16, Order>,
    /// Users and the objects of the commits that they were granted.
    pub commits: Vec<(u16, u16)>,
}

fn with(set: &mut Set, member: u16) {
    *set = Set(set.0 | 1u64.checked_shl(member.into()).unwrap_or(0));
}

fn without(set: &mut Set, member: u16) {
    *set = Set(set.0 & !1u64.checked_shl(member.into()).unwrap_or(0));
}

impl Told {
    /// The tables after a load of these records was accepted.
    pub fn loaded(policy: &[Record]) -> Told {
        let mut told = Told::default();
        for (place, record) in policy.iter().enumerate() {
            told.declared(place, record);
        }
        told
    }

    fn declared(&mut self, place: usize, record: &Record) {
        let (a, b) = (record.a(), record.b());
        match record.kind() {
            1 => drop(self.users.insert(a, Set::EMPTY)),
            2 => with(&mut self.roles, a),
            3 => drop(self.permissions.insert(a, (b, record.c()))),
            4 => with(self.users.entry(a).or_default(), b),
            5 => self.allowed.push((a, b)),
            6 => drop(self.tasks.insert(a, b)),
            7 => with(self.open.entry(a).or_default(), b),
            8 => self.carried.push((a, b)),
            17 => self.above.push((place, (a, b))),
            _ => self.rules.push((place, *record)),
        }
    }

    /// The tables after this request was granted.
    pub fn granted(&mut self, record: &Record) {
        let (a, b, m) = (record.a(), record.b(), Set(record.m()));
        match record.kind() {
            32 => drop(self.users.insert(a, m)),
            33 => {
                self.users.remove(&a);
                self.commits.retain(|&(user, _)| user != a);
            }
            34 => with(self.users.entry(a).or_default(), b),
            35 => without(self.users.entry(a).or_default(), b),
            36 => self.allowed.push((a, b)),
            37 => self.allowed.retain(|&pair| pair != (a, b)),
            40 => {
                let (user, active, had) = (b, m, m);
                self.subjects.insert(a, Session { user, active, had });
            }
            41 => drop(self.subjects.remove(&a)),
            42 | 43 => {
                if let Some(subject) = self.subjects.get_mut(&a) {
                    if record.kind() == 42 {
                        with(&mut subject.active, b);
                        with(&mut subject.had, b);
                    } else {
                        without(&mut subject.active, b);
                    }
                }
            }
            48 => {
                let (template, entries) = (b, Vec::new());
                self.orders.insert(a, Order { template, entries });
            }
            49 => drop(self.orders.remove(&a)),
            50..=52 => self.worked(record),
            59 => {
                let user = self.user_of(a);
                self.commits.extend(user.map(|user| (user, record.c())));
            }
            _ => {}
        }
    }

    fn worked(&mut self, record: &Record) {
        let (subject, task) = (record.a(), record.c());
        let user = self.user_of(subject);
        let Some(order) = self.orders.get_mut(&record.b()) else {
            return;
        };
        let held = |e: &Entry| e.task == task && e.holder == Some(subject);
        let at = order.entries.iter().position(held);
        match (record.kind(), at, user) {
            (50, _, Some(user)) => order.entries.push(Entry {
                user,
                task,
                holder: Some(subject),
            }),
            (51, Some(at), _) => drop(order.entries.remove(at)),
            (52, Some(at), _) => order.entries[at].holder = None,
            _ => {}
        }
    }

    pub fn user_of(&self, subject: u16) -> Option<u16> {
        self.subjects.get(&subject).map(|subject| subject.user)
    }

    pub fn roles_of(&self, user: u16) -> Set {
        self.users.get(&user).copied().unwrap_or_default()
    }

    /// The roles and all roles below them.
    pub fn down(&self, roles: Set) -> Set {
        let mut all = roles;
        loop {
            let before = all;
            for &(_, (senior, junior)) in &self.above {
                if all.has(senior as u8) {
                    with(&mut all, junior);
                }
            }
            if all == before {
                return all;
            }
        }
    }

    /// The roles that a user may activate: those assigned, and those below them.
    pub fn may_activate(&self, user: u16) -> Set {
        self.down(self.roles_of(user))
    }

    /// Those of these roles that open the task, by themselves or by a role below.
    pub fn opening(&self, roles: Set, task: u16) -> Set {
        let open = self.open_to(task);
        let opens = |role: &u8| self.down(Set::of(&[*role])).0 & open.0 != 0;
        roles.members().filter(opens).collect()
    }

    pub fn open_to(&self, task: u16) -> Set {
        self.open.get(&task).copied().unwrap_or_default()
    }

    /// The entries of an order.
    pub fn entries(&self, order: u16) -> &[Entry] {
        self.orders.get(&order).map_or(&[], |order| &order.entries)
    }

    /// The rules of a kind in policy order, with their places in the policy.
    pub fn rules_of(&self, kind: u8) -> impl Iterator<Item = (usize, Record)> + '_ {
        let of_kind = move |(_, rule): &&(usize, Record)| rule.kind() == kind;
        self.rules.iter().filter(of_kind).copied()
    }

    pub fn tasks_of(&self, template: u16) -> impl Iterator<Item = u16> + '_ {
        let of = self.tasks.iter().filter(move |(_, &t)| t == template);
        of.map(|(&task, _)| task)
    }
}
