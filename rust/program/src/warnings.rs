//! What planning would want to know of an accepted policy: tasks that nobody opens, roles that nobody has, tasks that wait for each
//! other, rules that together let the clerks there are finish no order, and walls that part what one task carries.
//!
//! Which tasks wait for ever is the engine's own answer (kind 60). Whether the others can be done is asked of the search of `finish`, with all
//! clerks of the policy; which rules stand in the way, of `clash`.

use crate::clash::{begun, reason, walls, Setting};
use crate::desk::{joined, Desk};
use crate::finish::{not_settled, Budget, Meter, Spent, TRIES};
use crate::names::Sort;
use crate::source::Policy;
use records::{Record, Set};
use std::collections::BTreeSet;

/// The warnings, by their places in the policy.
pub fn warnings(desk: &Desk) -> Vec<String> {
    let mut found = Found {
        desk,
        all: Vec::new(),
        shut: BTreeSet::new(),
    };
    found.roles();
    found.tasks();
    found.circles();
    found.templates();
    found.all.extend(walls(desk));
    found.all.sort();
    let line = |(place, text): (usize, String)| {
        let head = desk.policy.head(place);
        format!("{head}: warning: {text}")
    };
    found.all.into_iter().map(line).collect()
}

/// What was found, with its places in the policy.
struct Found<'a> {
    desk: &'a Desk,
    all: Vec<(usize, String)>,
    /// Tasks that nobody may claim.
    shut: BTreeSet<u16>,
}

impl Found<'_> {
    /// Tells of what the record of this kind declares.
    fn tell(&mut self, kind: u8, number: u16, text: String) {
        let declares = |r: &Record| r.kind() == kind && r.a() == number;
        let place = self.desk.policy.records().iter().position(declares);
        self.all.push((place.unwrap_or(0), text));
    }

    fn roles(&mut self) {
        for role in self.desk.told.roles.members() {
            let told = &self.desk.told;
            let mut users = told.users.keys();
            if !users.any(|&user| told.may_activate(user).has(role)) {
                let text = format!("no user has {}", self.desk.say(Sort::Role, role.into()));
                self.tell(2, role.into(), text);
            }
        }
    }

    fn tasks(&mut self) {
        let desk = self.desk;
        for &task in desk.told.tasks.keys() {
            let (open, said) = (desk.told.open_to(task), desk.say(Sort::Task, task));
            let text = if open == Set::EMPTY {
                format!("{said} is open to no role, so nobody can claim it")
            } else if clerks(desk, task).is_empty() {
                let roles = desk.say_set(Sort::Role, open);
                format!(
                    "{said} is open to {roles} alone, which no user has, so nobody can claim it"
                )
            } else {
                continue;
            };
            self.shut.insert(task);
            self.tell(6, task, text);
        }
    }

    fn circles(&mut self) {
        for template in templates(self.desk) {
            let waiting: Vec<u16> = self.desk.stuck(template).collect();
            if let Some(&first) = waiting.first() {
                let tasks = self.desk.say_all(Sort::Task, waiting.iter().copied());
                let template = self.desk.say(Sort::Template, template);
                let text = format!(
                    "{template}: prerequisites that go in a circle leave {tasks} waiting for ever"
                );
                self.tell(6, first, text);
            }
        }
    }

    /// The rules that let no order of a template be finished, whoever of the policy's clerks does what.
    fn templates(&mut self) {
        for template in templates(self.desk) {
            let mut tasks = self.desk.told.tasks_of(template);
            if tasks.all(|task| self.shut.contains(&task)) {
                continue;
            }
            let budget = Budget::of_tries(TRIES);
            let mut meter = Meter::new(TRIES, &budget);
            if let Err(spent) = self.template(template, &mut meter) {
                let template_said = self.desk.say(Sort::Template, template);
                let text = format!("{template_said}: {}", not_settled(spent, meter.tries));
                let first = self.desk.told.tasks_of(template).next();
                self.tell(6, first.unwrap_or(0), text);
            }
        }
    }

    fn template(&mut self, template: u16, meter: &mut Meter) -> Result<(), Spent> {
        let shut: Vec<u16> = self
            .desk
            .told
            .tasks_of(template)
            .filter(|task| self.shut.contains(task))
            .collect();
        let policy = opened(self.desk, &shut);
        let Some(desk) = policy.and_then(|policy| begun(&policy, template)) else {
            return Ok(());
        };
        let users: Vec<u16> = desk.told.users.keys().copied().collect();
        let setting = Setting {
            desk: &desk,
            order: 0,
            users: &users,
        };
        if setting.finishes(meter)? {
            return Ok(());
        }
        let clash = setting.clash(meter)?;
        let records = desk.policy.records();
        for core in clash.into_iter().flat_map(|clash| clash.cores) {
            // Circles are reported by the engine's own answer.
            if !core.iter().all(|&place| records[place].kind() == 16) {
                self.core(template, &core, &users);
            }
        }
        Ok(())
    }

    fn core(&mut self, template: u16, core: &[usize], users: &[u16]) {
        let desk = self.desk;
        let Some((&first, others)) = core.split_first() else {
            return;
        };
        let with = |&place: &usize| {
            format!(
                "{} ({})",
                desk.policy.line(place),
                desk.policy.place_within(place)
            )
        };
        let others: Vec<String> = others.iter().map(with).collect();
        let others = match others.is_empty() {
            true => String::new(),
            false => format!(" clashes with {}", joined(&others)),
        };
        let rule = desk.policy.line(first);
        let (why, template) = (
            reason(desk, core, users),
            desk.say(Sort::Template, template),
        );
        let text = format!("{rule}{others}: {why}; no order of {template} can be finished");
        self.all.push((first, text));
    }
}

/// The policy with a clerk more, who may do these tasks, which nobody else may, and no other.
fn opened(desk: &Desk, shut: &[u16]) -> Option<Policy> {
    let mut policy = desk.policy.clone();
    if shut.is_empty() {
        return Some(policy);
    }
    let role = (0..64).find(|role| !desk.told.roles.has(*role))?;
    let user = (0..1024).find(|user| !desk.told.users.contains_key(user))?;
    let mut more = vec![
        Record::role(role.into()),
        Record::user(user),
        Record::user_has_role(user, role.into()),
    ];
    more.extend(
        shut.iter()
            .map(|&task| Record::task_open_to(task, role.into())),
    );
    policy.bytes.extend(more.iter().flat_map(|record| record.0));
    if !policy.lines.is_empty() {
        policy.lines.extend(more.iter().map(|_| 0));
    }
    Some(policy)
}

fn templates(desk: &Desk) -> BTreeSet<u16> {
    desk.told.tasks.values().copied().collect()
}

/// The users who have a role that opens the task, or one above such a role.
fn clerks(desk: &Desk, task: u16) -> Vec<u16> {
    let (told, open) = (&desk.told, desk.told.open_to(task));
    let may = |user: &u16| told.may_activate(*user).0 & open.0 != 0;
    told.users.keys().copied().filter(may).collect()
}
