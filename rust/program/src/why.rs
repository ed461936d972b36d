//! Why a request was refused, in words: the rule by its place in the engine's answer, the entries that it met and whose they are, and
//! who could claim now, by the engine's answers on copies of its state.

use crate::desk::{joined, whole, Candidate, Candidates, Desk};
use crate::names::Sort;
use crate::reader::declares;
use crate::told::{Entry, Session};
use crate::writer::numbers;
use mishantral::Answer;
use records::forms::{Field, FORMS};
use records::{Record, Reply, Set, LENGTH};

/// A rule of the policy: its place among the policy's records, from 0, and its record.
type Rule = (usize, Record);

#[derive(Default)]
pub struct Why {
    pub rule: Option<Rule>,
    pub because: Vec<String>,
    /// A task, and who could claim it now.
    pub could: Option<(u16, Candidates)>,
    /// The order and the task of which it helps to know who could claim it.
    pub claimable: Option<(u16, u16)>,
}

impl Why {
    pub fn because(reason: impl Into<String>) -> Why {
        Why {
            because: vec![reason.into()],
            ..Why::default()
        }
    }

    pub fn all(because: Vec<String>) -> Why {
        Why {
            because,
            ..Why::default()
        }
    }

    fn by(mut self, rule: Option<Rule>) -> Why {
        self.rule = rule;
        self
    }

    /// The explanation, a line each.
    pub fn lines(&self, desk: &Desk) -> Vec<String> {
        let rule = self.rule.map(|(place, _)| {
            let (line, place) = (desk.policy.line(place), desk.policy.place(place));
            format!("{line} ({place})")
        });
        let could = self.could.as_ref().map(|(task, candidates)| {
            let task = desk.say(Sort::Task, *task);
            match &candidates.who[..] {
                [] => format!(
                    "{task}: nobody could claim it now{}",
                    say_refused(candidates)
                ),
                who => format!(
                    "{task} could be claimed now by {}",
                    say_candidates(desk, who)
                ),
            }
        });
        let because = self.because.iter().cloned();
        rule.into_iter().chain(because).chain(could).collect()
    }
}

/// As many candidates as one reads.
const FEW: usize = 6;

/// What those who have a role for the task would be answered.
fn say_refused(candidates: &Candidates) -> String {
    let one = |(reply, &count): (&Reply, &usize)| match count {
        1 => format!("1 clerk would get {}", reply.name()),
        _ => format!("{count} clerks would get {}", reply.name()),
    };
    match &candidates.refused.iter().map(one).collect::<Vec<String>>()[..] {
        [] => String::new(),
        all => format!("; with a role for it, {}", joined(all)),
    }
}

fn say_candidates(desk: &Desk, who: &[Candidate]) -> String {
    let one = |c: &Candidate| match (c.subject, c.role) {
        (Some(subject), _) => desk.say_subject(subject),
        (None, Some(role)) => {
            let (user, role) = (desk.say(Sort::User, c.user), desk.say(Sort::Role, role));
            format!("{user} in a new subject with {role}")
        }
        _ => desk.say(Sort::User, c.user),
    };
    let mut all: Vec<String> = who.iter().take(FEW).map(one).collect();
    if who.len() > FEW {
        all.push(format!("{} more", who.len() - FEW));
    }
    joined(&all)
}

/// Why the engine, as it stands, gave this record this answer, and who could claim instead.
pub fn why(desk: &Desk, bytes: &[u8], answer: Answer) -> Why {
    let mut why = reason(desk, bytes, answer);
    why.could = why
        .claimable
        .map(|(order, task)| (task, desk.candidates(order, task)));
    why
}

/// Why alone, for those who ask much: who could claim instead is not looked for.
pub fn reason(desk: &Desk, bytes: &[u8], answer: Answer) -> Why {
    let Some(record) = whole(bytes) else {
        return Why::because(format!(
            "a record has {LENGTH} bytes, and this has {}",
            bytes.len()
        ));
    };
    match answer.reply {
        Reply::Shape => shape(record),
        Reply::Range => range(record),
        Reply::Unknown => Why::all(unknown(desk, record)),
        Reply::Taken => taken(desk, record),
        Reply::InUse => in_use(desk, record),
        Reply::NotAssigned => not_assigned(desk, record),
        Reply::Static => role_limit(desk, record, 9),
        Reply::Dynamic => role_limit(desk, record, 10),
        Reply::NotYours => Why::because(holder(desk, record.b(), record.c())),
        Reply::Denied => denied(desk, record),
        Reply::Wall => wall(desk, record),
        Reply::NoRole => no_role(desk, record),
        Reply::Before | Reply::Separation | Reply::Block | Reply::Bound => {
            claim_rule(desk, record, answer)
        }
        Reply::Alone => alone(desk, record),
        Reply::Count => count(desk, record),
        Reply::Full => {
            Why::because("all 2048 ledger entries are in use: an order that is ended frees its own")
        }
        _ => Why::default(),
    }
}

/// Whether the notation has a line for this kind.
pub fn has_line(kind: u8) -> bool {
    kind != 0 && FORMS.iter().any(|&(of, _)| of == kind)
}

fn shape(record: Record) -> Why {
    Why::because(match record.kind() {
        kind if !has_line(kind) => format!("there is no request of kind {kind}"),
        ..=31 => "it is a record of a policy, not a request".to_string(),
        _ => "a field that the kind does not use is not zero".to_string(),
    })
}

pub fn range(record: Record) -> Why {
    let beyond = numbers(&record.0)
        .into_iter()
        .filter(|(sort, _, n)| *n > sort.last());
    Why::all(
        beyond
            .map(|(sort, _, n)| format!("{} {n}: the largest is {}", sort.word(), sort.last()))
            .collect(),
    )
}

pub fn is_known(desk: &Desk, sort: Sort, number: u16) -> bool {
    let told = &desk.told;
    match sort {
        Sort::User => told.users.contains_key(&number),
        Sort::Role => u8::try_from(number).is_ok_and(|role| told.roles.has(role)),
        Sort::Permission => told.permissions.contains_key(&number),
        Sort::Task => told.tasks.contains_key(&number),
        Sort::Subject => told.subjects.contains_key(&number),
        Sort::Order => told.orders.contains_key(&number),
        _ => true,
    }
}

/// What a record names that is not there; else what it asks for that is not there.
pub fn unknown(desk: &Desk, record: Record) -> Vec<String> {
    let kind = record.kind();
    let declared =
        |&(_, field, _): &(Sort, Field, u16)| !declares(kind, field) || field == Field::M;
    let absent = numbers(&record.0).into_iter().filter(declared);
    let absent = absent.filter(|&(sort, _, number)| !is_known(desk, sort, number));
    let mut all: Vec<String> = absent
        .map(|(sort, _, number)| {
            let is_not = match sort {
                Sort::Subject => "is not live",
                Sort::Order => "is not open",
                _ => "is not declared",
            };
            format!("{} {is_not}", desk.say(sort, number))
        })
        .collect();
    if all.is_empty() {
        all.extend(not_there(desk, record));
    }
    all
}

fn not_there(desk: &Desk, record: Record) -> Option<String> {
    let (a, b) = (record.a(), record.b());
    let user = || desk.say(Sort::User, a);
    Some(match record.kind() {
        35 => format!("{} does not have {}", user(), desk.say(Sort::Role, b)),
        37 => {
            let permission = desk.say(Sort::Permission, b);
            format!("{} does not have {permission}", desk.say(Sort::Role, a))
        }
        43 => {
            let role = desk.say(Sort::Role, b);
            format!("{role} is not active in {}", desk.say_subject(a))
        }
        13 | 60 => format!("{} has no task", desk.say(Sort::Template, a)),
        48 => format!("{} has no task", desk.say(Sort::Template, b)),
        50..=52 | 57 => {
            let template = desk.told.orders.get(&b)?.template;
            let (order, task) = (desk.say(Sort::Order, b), desk.say(Sort::Task, record.c()));
            let tasks = desk.say_all(Sort::Task, desk.told.tasks_of(template));
            let template = desk.say(Sort::Template, template);
            format!("{order} is of {template}, whose tasks are {tasks}; {task} is none of them")
        }
        _ => return None,
    })
}

fn taken(desk: &Desk, record: Record) -> Why {
    let (a, b) = (record.a(), record.b());
    let pair =
        |one: Sort, other: Sort| format!("{} has {} already", desk.say(one, a), desk.say(other, b));
    let reason = match record.kind() {
        32 => format!("{} is declared already", desk.say(Sort::User, a)),
        34 => pair(Sort::User, Sort::Role),
        36 => pair(Sort::Role, Sort::Permission),
        40 => format!("{} is live already", desk.say_subject(a)),
        42 => format!(
            "{} is active already in {}",
            desk.say(Sort::Role, b),
            desk.say_subject(a)
        ),
        48 => format!("{} is open already", desk.say(Sort::Order, a)),
        50 => holder(desk, b, record.c()),
        _ => return Why::default(),
    };
    Why::because(reason)
}

/// Who holds a task of an order.
fn holder(desk: &Desk, order: u16, task: u16) -> String {
    let held = desk
        .told
        .entries(order)
        .iter()
        .find(|e| e.task == task && e.holder.is_some());
    let (task, order) = (desk.say(Sort::Task, task), desk.say(Sort::Order, order));
    match held.and_then(|entry| entry.holder) {
        Some(subject) => format!("{task} of {order} is held by {}", desk.say_subject(subject)),
        None => format!("nobody holds {task} of {order}"),
    }
}

/// `test (done)`, `sign (held in subject 5)`.
fn say_entry(desk: &Desk, entry: &Entry) -> String {
    let task = desk.say(Sort::Task, entry.task);
    format!("{task} ({})", state_of(desk, entry))
}

fn state_of(desk: &Desk, entry: &Entry) -> String {
    match entry.holder {
        Some(subject) => format!("held in {}", desk.say(Sort::Subject, subject)),
        None => "done".to_string(),
    }
}

/// `clerk_a has test (done) and sign (held in subject 5)`, of these entries.
fn say_entries(desk: &Desk, user: u16, entries: &[Entry]) -> String {
    let all: Vec<String> = entries.iter().map(|e| say_entry(desk, e)).collect();
    format!("{} has {}", desk.say(Sort::User, user), joined(&all))
}

fn in_use(desk: &Desk, record: Record) -> Why {
    let (a, user) = (record.a(), || desk.say(Sort::User, record.a()));
    Why::all(match record.kind() {
        33 => {
            let live = subjects(desk, a, |_| true).into_iter();
            let live = live.map(|s| format!("{} has {} live", user(), desk.say(Sort::Subject, s)));
            let entries = entries_of(desk, |e| e.user == a).into_iter();
            live.chain(entries.map(|e| format!("{} has an entry: {e}", user())))
                .collect()
        }
        35 => {
            // What would stand no longer at or below an assigned role.
            let assigned = desk.told.roles_of(a);
            let left = Set(assigned.0 & !1u64.checked_shl(record.b().into()).unwrap_or(0));
            let lost = desk.told.down(assigned).0 & !desk.told.down(left).0;
            let active = subjects(desk, a, |s| s.active.0 & lost != 0).into_iter();
            let line = |s: u16| {
                let roles = Set(desk.told.subjects[&s].active.0 & lost);
                let verb = if roles.members().count() == 1 {
                    "is"
                } else {
                    "are"
                };
                let roles = desk.say_set(Sort::Role, roles);
                format!("{roles} {verb} active in {}", desk.say_subject(s))
            };
            active.map(line).collect()
        }
        41 => {
            let held = entries_of(desk, |e| e.holder == Some(a)).into_iter();
            held.map(|e| format!("{} holds a task: {e}", desk.say_subject(a)))
                .collect()
        }
        _ => {
            let held = desk.told.entries(a).iter().filter(|e| e.holder.is_some());
            held.map(|e| holder(desk, a, e.task)).collect()
        }
    })
}

/// The live subjects of a user that are picked.
fn subjects(desk: &Desk, user: u16, pick: impl Fn(&Session) -> bool) -> Vec<u16> {
    let all = desk.told.subjects.iter();
    let picked = all.filter(|(_, s)| s.user == user && pick(s));
    picked.map(|(&subject, _)| subject).collect()
}

/// The entries that are picked, of all orders: `test (done) of order 0`.
fn entries_of(desk: &Desk, pick: impl Fn(&Entry) -> bool) -> Vec<String> {
    let all = desk
        .told
        .orders
        .iter()
        .flat_map(|(&order, opened)| opened.entries.iter().map(move |e| (order, e)));
    let picked = all.filter(|(_, entry)| pick(entry));
    picked
        .map(|(order, e)| format!("{} of {}", say_entry(desk, e), desk.say(Sort::Order, order)))
        .collect()
}

fn not_assigned(desk: &Desk, record: Record) -> Why {
    let (user, asked) = match record.kind() {
        40 => (record.b(), Set(record.m())),
        _ => (
            desk.told.user_of(record.a()).unwrap_or_default(),
            Set::of(&[record.b() as u8]),
        ),
    };
    let roles = desk.told.roles_of(user);
    let may = desk.told.may_activate(user);
    let missing = desk.say_set(Sort::Role, Set(asked.0 & !may.0));
    let (user, roles) = (desk.say(Sort::User, user), desk.say_set(Sort::Role, roles));
    Why::because(format!(
        "{user} is not assigned {missing}; assigned: {roles}"
    ))
}

/// The first set of a kind that these roles, with those below them, exceed, and the roles of it.
fn exceeded(desk: &Desk, kind: u8, roles: Set) -> Option<(Rule, Set)> {
    let roles = desk.told.down(roles);
    let mut sets = desk
        .told
        .rules_of(kind)
        .map(|(place, rule)| ((place, rule), Set(rule.m() & roles.0)));
    sets.find(|((_, rule), of_set)| of_set.0.count_ones() > u32::from(rule.n()))
}

/// STATIC and DYNAMIC: which set, and which roles of it the user would have.
pub fn role_limit(desk: &Desk, record: Record, kind: u8) -> Why {
    let (told, a, b) = (&desk.told, record.a(), record.b());
    let one = Set(1u64.checked_shl(b.into()).unwrap_or(0));
    let (user, before, added) = match record.kind() {
        32 => (a, Set::EMPTY, Set(record.m())),
        4 | 34 => (a, told.roles_of(a), one),
        40 => (b, had_by(desk, b), Set(record.m())),
        _ => {
            let user = told.user_of(a).unwrap_or_default();
            (user, had_by(desk, user), one)
        }
    };
    let Some((rule, roles)) = exceeded(desk, kind, Set(before.0 | added.0)) else {
        return Why::default();
    };
    let name = desk.say(Sort::User, user);
    let limit = rule.1.n();
    let would = say_with_seniors(desk, roles, Set(before.0 | added.0));
    let mut because = vec![if kind == 9 {
        format!("{name} would be assigned {would}, and may have {limit} of these")
    } else {
        format!("{name} would have had {would} active, and may have {limit} of these over all live subjects")
    }];
    if kind == 10 {
        for (&subject, session) in told.subjects.iter().filter(|(_, s)| s.user == user) {
            let met = Set(told.down(session.had).0 & rule.1.m());
            if met != Set::EMPTY {
                let met = desk.say_set(Sort::Role, met);
                because.push(format!(
                    "{} has had {met} active; destroying it forgets that",
                    desk.say(Sort::Subject, subject)
                ));
            }
        }
    }
    Why::all(because).by(Some(rule))
}

/// These roles, each that is not among those had by name with what it stands below: `clerk (below lead)`.
pub fn say_with_seniors(desk: &Desk, roles: Set, by_name: Set) -> String {
    let one = |role: u8| {
        let said = desk.say(Sort::Role, role.into());
        if by_name.has(role) {
            return said;
        }
        let stands_above = |senior: &u8| desk.told.down(Set::of(&[*senior])).has(role);
        let seniors: Set = by_name.members().filter(stands_above).collect();
        format!("{said} (below {})", desk.say_set(Sort::Role, seniors))
    };
    joined(&roles.members().map(one).collect::<Vec<String>>())
}

fn had_by(desk: &Desk, user: u16) -> Set {
    let of_user = desk.told.subjects.values().filter(|s| s.user == user);
    Set(of_user.fold(0, |all, s| all | s.had.0))
}

fn denied(desk: &Desk, record: Record) -> Why {
    let told = &desk.told;
    let pair = match record.kind() {
        56 | 59 => (record.b(), record.c()),
        _ => ((record.m() & 0xffff) as u16, (record.m() >> 16) as u16),
    };
    let named = told.permissions.iter().find(|(_, &p)| p == pair);
    let Some((&permission, _)) = named else {
        let (operation, object) = (
            desk.say(Sort::Operation, pair.0),
            desk.say(Sort::Object, pair.1),
        );
        return Why::because(format!(
            "no permission is declared for {operation} on {object}"
        ));
    };
    let said = desk.say(Sort::Permission, permission);
    let list = |sort: Sort, pairs: &[(u16, u16)]| {
        let with = pairs.iter().filter(|(_, p)| *p == permission);
        desk.say_all(sort, with.map(|&(of, _)| of))
    };
    Why::all(match record.kind() {
        56 | 59 => {
            let subject = record.a();
            let active = told.subjects.get(&subject).map_or(Set::EMPTY, |s| s.active);
            let active = desk.say_set(Sort::Role, active);
            let roles = list(Sort::Role, &told.allowed);
            vec![
                format!("it takes {said}, which these roles have: {roles}"),
                format!("active in {}: {active}", desk.say_subject(subject)),
            ]
        }
        _ => {
            let task = desk.say(Sort::Task, record.c());
            let tasks = list(Sort::Task, &told.carried);
            vec![format!(
                "it takes {said}, which {task} does not carry; tasks that do: {tasks}"
            )]
        }
    })
}

/// The record that puts the object behind a wall, and what its user has committed to on the other side.
fn wall(desk: &Desk, record: Record) -> Why {
    let told = &desk.told;
    let user = told.user_of(record.a()).unwrap_or_default();
    let of = |object: u16| told.rules_of(18).filter(move |(_, r)| r.c() == object);
    let commits = || told.commits.iter().filter(move |(of, _)| *of == user);
    for rule in of(record.c()) {
        let apart = |r: &Record| r.a() == rule.1.a() && r.b() != rule.1.b();
        let committed = commits().find_map(|&(_, object)| of(object).find(|(_, r)| apart(r)));
        if let Some((_, other)) = committed {
            let (user, object) = (
                desk.say(Sort::User, user),
                desk.say(Sort::Object, other.c()),
            );
            let (wall, block) = (other.a(), other.b());
            return Why::because(format!(
                "{user} has committed to {object}, in block {block} of wall {wall}"
            ))
            .by(Some(rule));
        }
    }
    Why::default()
}

fn no_role(desk: &Desk, record: Record) -> Why {
    let (subject, task) = (record.a(), record.c());
    let session = desk.told.subjects.get(&subject);
    let active = session.map_or(Set::EMPTY, |s| s.active);
    let open = desk.told.open_to(task);
    let mut because = vec![
        format!(
            "{} is open to: {}",
            desk.say(Sort::Task, task),
            desk.say_set(Sort::Role, open)
        ),
        format!(
            "active in {}: {}",
            desk.say_subject(subject),
            desk.say_set(Sort::Role, active)
        ),
    ];
    if let Some(session) = session {
        let assigned = desk.told.roles_of(session.user);
        let could = desk
            .told
            .opening(desk.told.may_activate(session.user), task);
        let by_name = Set(could.0 & assigned.0);
        let user = desk.say(Sort::User, session.user);
        if by_name != Set::EMPTY {
            let roles = desk.say_set(Sort::Role, by_name);
            because.push(format!(
                "{user} is assigned {roles}, which can be activated"
            ));
        } else if could != Set::EMPTY {
            let roles = say_with_seniors(desk, could, assigned);
            because.push(format!("{user} can activate {roles}"));
        }
    }
    Why {
        claimable: Some((record.b(), task)),
        ..Why::all(because)
    }
}

/// The entries of an order that a rule met, for a claim of a task by a user.
struct Claim<'a> {
    desk: &'a Desk,
    user: u16,
    order: u16,
    task: u16,
}

impl Claim<'_> {
    fn of(desk: &Desk, record: Record) -> Claim<'_> {
        Claim {
            desk,
            user: desk.told.user_of(record.a()).unwrap_or_default(),
            order: record.b(),
            task: record.c(),
        }
    }

    fn entries(&self, pick: impl Fn(&Entry) -> bool) -> Vec<Entry> {
        let all = self.desk.told.entries(self.order).iter();
        all.filter(|e| pick(e)).copied().collect()
    }

    /// The user's entries in these tasks other than the claimed one.
    fn own(&self, tasks: Set) -> Vec<Entry> {
        self.entries(|e| e.user == self.user && e.task != self.task && tasks.has(e.task as u8))
    }

    /// What a rule met: entries, or for a prerequisite their absence.
    fn met(&self, rule: Record) -> String {
        let desk = self.desk;
        match rule.kind() {
            16 => {
                let first = desk.say(Sort::Task, rule.a());
                match &self.entries(|e| e.task == rule.a())[..] {
                    [] => format!(
                        "{first} has no entry in {}",
                        desk.say(Sort::Order, self.order)
                    ),
                    all => format!("{first} is not done: {}", holders(desk, all)),
                }
            }
            15 => {
                let other = if rule.a() == self.task {
                    rule.b()
                } else {
                    rule.a()
                };
                let theirs = self.entries(|e| e.task == other && e.user != self.user);
                let whose = theirs.first().map_or(self.user, |e| e.user);
                say_entries(desk, whose, &theirs)
            }
            _ => say_entries(desk, self.user, &self.own(Set(rule.m()))),
        }
    }
}

/// `clerk_a (held in subject 5), clerk_b (done)`.
fn holders(desk: &Desk, entries: &[Entry]) -> String {
    let one = |e: &Entry| format!("{} ({})", desk.say(Sort::User, e.user), state_of(desk, e));
    joined(&entries.iter().map(one).collect::<Vec<String>>())
}

/// BEFORE, SEPARATION, BLOCK, BOUND: the rule is the one at the place that the engine told.
fn claim_rule(desk: &Desk, record: Record, answer: Answer) -> Why {
    let claim = Claim::of(desk, record);
    let placed = answer.rule().and_then(|rule| {
        let mut of_kind = desk.told.rules_of(rule.kind);
        of_kind.nth(rule.place - 1)
    });
    let Some((place, rule)) = placed else {
        return Why::default();
    };
    // Nobody may claim a task whose prerequisite is not done; who may do that one is what helps.
    let task = if rule.kind() == 16 {
        rule.a()
    } else {
        claim.task
    };
    let held = claim.entries(|e| e.task == task && e.holder.is_some());
    Why {
        rule: Some((place, rule)),
        because: vec![claim.met(rule)],
        claimable: held.is_empty().then_some((claim.order, task)),
        ..Why::default()
    }
}

fn alone(desk: &Desk, record: Record) -> Why {
    let claim = Claim::of(desk, record);
    let template = desk.told.orders.get(&claim.order).map(|o| o.template);
    let mut bans = desk.told.rules_of(13);
    let rule = bans.find(|(_, rule)| Some(rule.a()) == template);
    let own = claim.entries(|e| e.user == claim.user);
    let reason = format!("{}: every other task", say_entries(desk, claim.user, &own));
    Why {
        claimable: Some((claim.order, claim.task)),
        ..Why::because(reason).by(rule)
    }
}

fn count(desk: &Desk, record: Record) -> Why {
    let claim = Claim::of(desk, record);
    let rule = desk
        .told
        .rules_of(14)
        .find(|(_, rule)| rule.a() == claim.task);
    let all = claim.entries(|e| e.task == claim.task);
    let task = desk.say(Sort::Task, claim.task);
    let reason = format!("{task} has {} entries: {}", all.len(), holders(desk, &all));
    Why::because(reason).by(rule)
}

#[cfg(test)]
mod tests {
    use super::*;
    use crate::source::text_policy;
    use std::collections::BTreeMap;

    const POLICIES: [&str; 5] = [
        include_str!("../../../examples/named.txt"),
        include_str!("../../../examples/loan/policy.txt"),
        include_str!("../../../examples/stuck_order/policy.txt"),
        include_str!("../../../examples/team_lead/policy.txt"),
        include_str!("../../../examples/price_books/policy.txt"),
    ];

    /// What the place must be: that of the first rule that the told entries break, in the order of docs/RULES.md.
    impl Claim<'_> {
        fn first_broken(&self, reply: Reply) -> Option<Rule> {
            let kind = reply.rule_kind()?;
            let broken = |&(_, rule): &Rule| match kind {
                16 => {
                    let done = |e: &Entry| e.task == rule.a() && e.holder.is_none();
                    rule.b() == self.task && self.entries(done).is_empty()
                }
                11 => {
                    let own = self.own(Set(rule.m()));
                    let tasks = own.iter().fold(0u64, |all, e| all | 1 << e.task);
                    has(rule, self.task) && tasks.count_ones() >= rule.n().into()
                }
                _ => {
                    let pair = [(rule.a(), rule.b()), (rule.b(), rule.a())];
                    let other = pair.into_iter().find(|(one, _)| *one == self.task);
                    other.is_some_and(|(_, other)| {
                        let theirs = |e: &Entry| e.task == other && e.user != self.user;
                        !self.entries(theirs).is_empty()
                    })
                }
            };
            match kind {
                12 => self.first_block(),
                _ => self.desk.told.rules_of(kind).find(broken),
            }
        }

        fn first_block(&self) -> Option<Rule> {
            let blocks: Vec<Rule> = self.desk.told.rules_of(12).collect();
            let own = |block: Record| {
                blocks
                    .iter()
                    .any(|&(_, b)| b.a() == block.a() && has(b, self.task))
            };
            let met = |&&(_, block): &&Rule| {
                own(block) && !has(block, self.task) && !self.own(Set(block.m())).is_empty()
            };
            blocks
                .iter()
                .filter(met)
                .min_by_key(|(place, block)| (block.a(), *place))
                .copied()
        }
    }

    fn has(rule: Record, task: u16) -> bool {
        Set(rule.m()).has(task as u8)
    }

    /// Numbers that repeat.
    struct Random(u64);

    impl Random {
        fn below(&mut self, end: u64) -> u64 {
            self.0 ^= self.0 << 13;
            self.0 ^= self.0 >> 7;
            self.0 ^= self.0 << 17;
            self.0 % end
        }

        fn pick(&mut self, from: &[u16]) -> u16 {
            from[self.below(from.len() as u64) as usize]
        }
    }

    fn request(random: &mut Random, desk: &Desk) -> Record {
        let with_one = |numbers: Vec<u16>, other: u16| [numbers, vec![other]].concat();
        let users = with_one(desk.told.users.keys().copied().collect(), 9);
        let tasks = with_one(desk.told.tasks.keys().copied().collect(), 50);
        let templates: Vec<u16> = desk.told.tasks.values().copied().chain([14]).collect();
        let (user, task) = (random.pick(&users), random.pick(&tasks));
        let template = random.pick(&templates);
        let (subject, order) = (random.below(6) as u16, random.below(3) as u16);
        let (role, roles) = (random.below(5) as u16, Set(random.below(32)));
        let walled = desk.told.rules_of(18).next().is_some();
        if walled && random.below(4) == 0 {
            let object = 7 + random.below(3) as u16;
            return match random.below(2) {
                0 => Record::check(subject, 2, object),
                _ => Record::commit(subject, 2, object),
            };
        }
        match random.below(29) {
            0 => Record::add_user_with(user, roles),
            1 => Record::delete_user(user),
            2 => Record::assign_role(user, role),
            3 => Record::take_role(user, role),
            4 => Record::destroy_subject(subject),
            5 | 6 => Record::activate_role(subject, role),
            7 => Record::deactivate_role(subject, role),
            8 | 9 => Record::open_order(order, template),
            10 => Record::end_order(order),
            11 => Record::check(subject, role, task),
            12 => Record::task_check(subject, order, task, role, user),
            13 => Record::give_permission(role, 1),
            14 => Record::take_permission(role, 1),
            15 => Record::user(1024 + user),
            16 | 17 => Record::create_subject(subject, user, roles),
            18 => Record::create_subject(subject, user, desk.told.roles_of(user)),
            19 => Record::release(subject, order, task),
            22 => Record::delete_user(1024 + user),
            20 | 21 => Record::done(subject, order, task),
            _ => Record::claim(subject, order, task),
        }
    }

    /// Every refusal is explained; who is said to be able to claim is granted the claim, and nobody who is live is left out; a rule is
    /// the one whose place the engine told.
    #[test]
    fn explanations_are_the_engines() {
        let mut met: BTreeMap<Reply, usize> = BTreeMap::new();
        for (seed, text) in (1u64..).zip(POLICIES) {
            let policy = text_policy("policy.txt", text.as_bytes()).unwrap();
            let mut desk = Desk::open(&policy).unwrap();
            let mut random = Random(seed.wrapping_mul(0x9e37_79b9_7f4a_7c15));
            for _ in 0..6_000 {
                let record = request(&mut random, &desk);
                let answer = desk.ask(&record.0);
                *met.entry(answer.reply).or_default() += 1;
                if answer.is_granted() {
                    continue;
                }
                let why = why(&desk, &record.0, answer);
                let said = why.lines(&desk);
                assert!(!said.is_empty(), "{answer}: {record}");
                if answer.reply.rule_kind().is_some() {
                    let broken = Claim::of(&desk, record).first_broken(answer.reply);
                    assert_eq!(why.rule, broken, "{answer}: {record}");
                }
                let Some((task, could)) = why.could else {
                    continue;
                };
                for &subject in desk.told.subjects.keys() {
                    let claim = Record::claim(subject, record.b(), task);
                    let named = could.who.iter().any(|c| c.subject == Some(subject));
                    assert_eq!(desk.tried(&[claim]).is_granted(), named, "{claim}");
                }
            }
        }
        let claims = [
            Reply::NoRole,
            Reply::Before,
            Reply::Separation,
            Reply::Block,
            Reply::Alone,
            Reply::Bound,
            Reply::Count,
        ];
        let others = [
            Reply::Shape,
            Reply::Range,
            Reply::Unknown,
            Reply::Taken,
            Reply::InUse,
            Reply::NotAssigned,
        ];
        let last = [
            Reply::Static,
            Reply::Dynamic,
            Reply::NotYours,
            Reply::Denied,
            Reply::Wall,
        ];
        for reply in claims.into_iter().chain(others).chain(last) {
            assert!(met.contains_key(&reply), "{reply} was not met: {met:?}");
        }
    }
}
