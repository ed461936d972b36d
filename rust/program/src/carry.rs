//! A desk's present brought under another policy, by ordinary requests, each asked of the engine and granted: users and their roles, what the
//! walls bind them to, the open orders with their entries, the sessions.
//!
//! Done entries come first, each by a subject of its own that is destroyed at once, so that dynamic sets meet one role alone; then the sessions with
//! all roles that they have had; then what they hold. The order of entry on the old desk may be no order of entry under the new rules. Of the claim
//! rules only BEFORE looks at the order, and more done entries never make it refuse: so entries are entered, again and again, as long as one is
//! granted, and what a claim rule refuses then no order of entry would grant. Roles that a user no longer has are assigned for a moment, in a few
//! ways; where static sets stand in the way of each of these, other ways may be left, and the obstacle is reported as not settled.

use crate::desk::Desk;
use crate::names::{Names, Sort};
use crate::source::Policy;
use crate::told::{Entry, Order, Session, Told};
use crate::why::why;
use crate::writer;
use mishantral::{Answer, Refused};
use records::{Record, Reply, Set};
use std::collections::{BTreeMap, BTreeSet};

/// What could not be brought over.
#[derive(Clone, PartialEq, Eq, Debug)]
pub struct Obstacle {
    /// The user, subject or order that is not as it was.
    pub of: (Sort, u16),
    /// What stands in the way, in words.
    pub words: String,
}

/// What a request brings over.
#[derive(Clone, Copy, PartialEq, Eq, PartialOrd, Ord, Debug)]
pub enum Thing {
    User(u16),
    /// What a user is bound to by a commit to an object.
    Commit(u16, u16),
    Opening(u16),
    Session(u16),
    /// An entry of an order, by its place among the order's entries.
    Claim(u16, usize),
    Done(u16, usize),
}

/// A request that was granted; those that only prepare another bring nothing over.
#[derive(Clone, Copy, PartialEq, Eq, Debug)]
pub struct Request {
    pub record: Record,
    pub of: Option<Thing>,
}

/// Whose users and roles the new desk has.
#[derive(Clone, Copy, PartialEq, Eq, Debug)]
pub enum Users {
    /// Those of the old desk, with all that was changed since its load.
    AsNow,
    /// Those of the new policy.
    FromPolicy,
}

/// The desk under the other policy, and how it came there.
pub struct Carried {
    pub desk: Desk,
    pub requests: Vec<Request>,
    pub obstacles: Vec<Obstacle>,
}

/// The number of the subject by which done entries are entered; no session is there by then.
const HAND: u16 = 0;

/// Brings the present over. `loaded` are the tables of the old policy when it was loaded; `names` those of the old desk.
pub fn carry(
    present: &Told,
    loaded: &Told,
    names: &Names,
    policy: &Policy,
    users: Users,
) -> Result<Carried, Refused> {
    let mut carried = Carried {
        desk: Desk::open(policy)?,
        requests: Vec::new(),
        obstacles: Vec::new(),
    };
    if users == Users::AsNow {
        carried.users(present, names);
        carried.permissions(present, loaded);
    }
    carried.keep_names(names);
    carried.commits(present);
    for (&number, order) in &present.orders {
        carried.done(number, order);
    }
    for (&subject, session) in &present.subjects {
        carried.session(subject, session);
    }
    for (&number, order) in &present.orders {
        carried.held(number, order);
    }
    Ok(carried)
}

fn without(set: Set, other: Set) -> impl Iterator<Item = u16> {
    Set(set.0 & !other.0).members().map(u16::from)
}

impl Carried {
    /// The old desk's names, where the new policy gives neither the number another name nor the name another number.
    fn keep_names(&mut self, names: &Names) {
        for sort in Sort::ALL {
            for (number, _) in names.of_sort(sort) {
                let name = names.name(sort, number).unwrap_or_default();
                let new = &mut self.desk.names;
                if new.name(sort, number).is_none() && new.number(sort, name).is_none() {
                    new.give(sort, number, name);
                }
            }
        }
    }

    /// Asks; what is refused stands in the way.
    fn ask(&mut self, record: Record, of: (Sort, u16), thing: Option<Thing>) -> bool {
        let answer = self.desk.ask(&record.0);
        if answer.is_granted() {
            self.requests.push(Request { record, of: thing });
            return true;
        }
        let lines = why(&self.desk, &record.0, answer).lines(&self.desk);
        let line = writer::line(&record.0, &self.desk.names);
        let because = lines
            .first()
            .map_or(String::new(), |line| format!(": {line}"));
        let settled = match answer.reply {
            Reply::Static => NOT_SETTLED,
            _ => "",
        };
        self.hinder(
            of,
            format!("{line} is refused, {}{because}{settled}", answer.reply),
        );
        false
    }

    fn hinder(&mut self, of: (Sort, u16), words: String) {
        let whose = self.desk.say(of.0, of.1);
        let words = format!("{whose}: {words}");
        self.obstacles.push(Obstacle { of, words });
    }

    /// Asks the first of these ways that is granted whole; else says the refusal that came furthest. `thing` says what a request brings over.
    fn first_way(
        &mut self,
        ways: impl IntoIterator<Item = Vec<Record>>,
        thing: &dyn Fn(&Record) -> Option<Thing>,
    ) -> Result<(), Option<Answer>> {
        let mut furthest: Option<Answer> = None;
        for way in ways {
            let answer = self.desk.tried(&way);
            if answer.is_granted() {
                for record in way {
                    let _ = self.desk.ask(&record.0);
                    let of = thing(&record);
                    self.requests.push(Request { record, of });
                }
                return Ok(());
            }
            if furthest.is_none_or(|before| before.reply < answer.reply) {
                furthest = Some(answer);
            }
        }
        Err(furthest)
    }

    /// The users of the present, each with the roles that it has. One that the new policy has without the name that it has on the desk is deleted
    /// and added again, since only the request that adds a user names it.
    fn users(&mut self, present: &Told, names: &Names) {
        let there: Vec<u16> = self.desk.told.users.keys().copied().collect();
        let nameless = |new: &Names, user: u16| {
            let name = names.name(Sort::User, user);
            let free = |name: &[u8]| new.number(Sort::User, name).is_none();
            new.name(Sort::User, user).is_none() && name.is_some_and(free)
        };
        for user in there {
            if !present.users.contains_key(&user) || nameless(&self.desk.names, user) {
                self.ask(Record::delete_user(user), (Sort::User, user), None);
            }
        }
        for (&user, &roles) in &present.users {
            let (of, thing) = ((Sort::User, user), Some(Thing::User(user)));
            let Some(&has) = self.desk.told.users.get(&user) else {
                self.ask(Record::add_user_with(user, roles), of, thing);
                continue;
            };
            for role in without(has, roles) {
                self.ask(Record::take_role(user, role), of, None);
            }
            for role in without(roles, has) {
                self.ask(Record::assign_role(user, role), of, None);
            }
        }
    }

    /// What roles were given and what was taken from them since the load.
    fn permissions(&mut self, present: &Told, loaded: &Told) {
        let pairs = |told: &Told| told.allowed.iter().copied().collect::<BTreeSet<_>>();
        let (now, then, new) = (pairs(present), pairs(loaded), pairs(&self.desk.told));
        for &(role, permission) in now.difference(&then).filter(|pair| !new.contains(pair)) {
            self.ask(
                Record::give_permission(role, permission),
                (Sort::Role, role),
                None,
            );
        }
        for &(role, permission) in then.difference(&now).filter(|pair| new.contains(pair)) {
            self.ask(
                Record::take_permission(role, permission),
                (Sort::Role, role),
                None,
            );
        }
    }

    /// Requests by a subject of its own, with one role of the user's; or with one that is assigned only for that; or with one that is assigned while the
    /// user's own are put aside, where a static set does not allow it beside them.
    fn by_hand(
        &self,
        user: u16,
        roles: impl Iterator<Item = u8>,
        requests: &[Record],
    ) -> Vec<Vec<Record>> {
        let may = self.desk.told.may_activate(user);
        let way = |role: u8| {
            let mut way = vec![Record::create_subject(HAND, user, Set::of(&[role]))];
            way.extend(requests);
            way.push(Record::destroy_subject(HAND));
            way
        };
        let (own, lent): (Vec<u8>, Vec<u8>) = roles.partition(|&role| may.has(role));
        let mut ways: Vec<Vec<Record>> = own.into_iter().map(way).collect();
        ways.extend(lent.iter().map(|&role| lending(user, role, way(role))));
        ways.extend(lent.iter().map(|&role| {
            let own = self.desk.told.roles_of(user);
            aside(user, own, lending(user, role, way(role)))
        }));
        ways
    }

    /// By each role and each permission on the object; where the role has not got that permission any more, it is given only for that.
    fn ways_to_commit(&self, user: u16, object: u16) -> Vec<Vec<Record>> {
        let told = &self.desk.told;
        let (mut own, mut lent) = (Vec::new(), Vec::new());
        for (&permission, &(operation, _)) in
            told.permissions.iter().filter(|(_, pair)| pair.1 == object)
        {
            let commit = Record::commit(HAND, operation, object);
            own.extend(self.by_hand(user, told.roles.members(), &[commit]));
            for role in told.roles.members() {
                let number = u16::from(role);
                for mut way in self.by_hand(user, std::iter::once(role), &[commit]) {
                    way.insert(0, Record::give_permission(number, permission));
                    way.push(Record::take_permission(number, permission));
                    lent.push(way);
                }
            }
        }
        own.extend(lent);
        own
    }

    /// What the walls bind users to. Objects in no wall bind nothing.
    fn commits(&mut self, present: &Told) {
        let mut seen = BTreeSet::new();
        for &(user, object) in &present.commits {
            let told = &self.desk.told;
            let walled = told.rules_of(18).any(|(_, wall)| wall.c() == object);
            if !walled || !seen.insert((user, object)) {
                continue;
            }
            let ways = self.ways_to_commit(user, object);
            let thing =
                |record: &Record| (record.kind() == 59).then_some(Thing::Commit(user, object));
            if let Err(answer) = self.first_way(ways, &thing) {
                let object = self.desk.say(Sort::Object, object);
                let reply = refused_with(answer);
                self.hinder(
                    (Sort::User, user),
                    format!("the commit to {object} is refused{reply}"),
                );
            }
        }
    }

    /// An order with its done entries.
    fn done(&mut self, number: u16, order: &Order) {
        if !self.ask(
            Record::open_order(number, order.template),
            (Sort::Order, number),
            Some(Thing::Opening(number)),
        ) {
            return;
        }
        let done = order.entries.iter().enumerate();
        let mut left: Vec<(usize, &Entry)> = done.filter(|(_, e)| e.holder.is_none()).collect();
        let mut refused = BTreeMap::new();
        loop {
            let before = left.len();
            left.retain(|&(at, entry)| match self.entered(number, at, entry) {
                Ok(()) => false,
                Err(answer) => {
                    refused.insert(at, answer);
                    true
                }
            });
            if left.len() == before {
                break;
            }
        }
        for (at, entry) in left {
            self.not_entered(number, entry, refused.get(&at).copied().flatten());
        }
    }

    /// One done entry.
    fn entered(&mut self, order: u16, at: usize, entry: &Entry) -> Result<(), Option<Answer>> {
        let task = entry.task;
        let requests = [
            Record::claim(HAND, order, task),
            Record::done(HAND, order, task),
        ];
        let opening = self.desk.told.opening(self.desk.told.roles, task);
        let ways = self.by_hand(entry.user, opening.members(), &requests);
        self.first_way(ways, &|record| match record.kind() {
            50 => Some(Thing::Claim(order, at)),
            52 => Some(Thing::Done(order, at)),
            _ => None,
        })
    }

    /// A session with every role that it has had, of which those that are not active now are put down again: all at once, or one after the other
    /// with the user's own roles put aside meanwhile.
    fn session(&mut self, subject: u16, session: &Session) {
        let (user, of) = (session.user, (Sort::Subject, subject));
        let thing = |record: &Record| (record.kind() == 40).then_some(Thing::Session(subject));
        let told = &self.desk.told;
        let lent: Vec<u16> = without(session.had, told.may_activate(user)).collect();
        let former = without(session.had, session.active);
        let mut at_once: Vec<Record> = lent.iter().map(|&r| Record::assign_role(user, r)).collect();
        at_once.push(Record::create_subject(subject, user, session.had));
        at_once.extend(former.map(|role| Record::deactivate_role(subject, role)));
        at_once.extend(lent.iter().map(|&role| Record::take_role(user, role)));
        let ways = [at_once.clone(), self.one_by_one(subject, session)];
        if self.first_way(ways, &thing).is_ok() {
            return;
        }
        // What is refused is reported, and what is granted of it is there for what comes after.
        for record in at_once {
            let there = self.desk.told.subjects.contains_key(&subject);
            let has = self.desk.told.roles_of(user).has(record.b() as u8);
            match record.kind() {
                43 if !there => {}
                35 if !has => {}
                _ => drop(self.ask(record, of, thing(&record))),
            }
        }
    }

    fn one_by_one(&self, subject: u16, session: &Session) -> Vec<Record> {
        let user = session.user;
        let own = self.desk.told.roles_of(user);
        let mut formerly = vec![Record::create_subject(subject, user, Set::EMPTY)];
        for role in without(session.had, session.active) {
            formerly.extend([
                Record::assign_role(user, role),
                Record::activate_role(subject, role),
                Record::deactivate_role(subject, role),
                Record::take_role(user, role),
            ]);
        }
        let mut way = aside(user, own, formerly);
        let active = session.active.members().map(u16::from);
        way.extend(active.map(|role| Record::activate_role(subject, role)));
        way
    }

    /// What is held in an order, each by its holder: with a role that it has had, where none that is active opens the task any more.
    fn held(&mut self, of: u16, order: &Order) {
        if !self.desk.told.orders.contains_key(&of) {
            return;
        }
        for (at, entry) in order.entries.iter().enumerate() {
            let Some(holder) = entry.holder else { continue };
            let claim = Record::claim(holder, of, entry.task);
            let mut ways = vec![vec![claim]];
            if let Some(session) = self.desk.told.subjects.get(&holder) {
                ways.extend(self.taken_up(holder, session, claim));
            }
            let thing = |record: &Record| (record.kind() == 50).then_some(Thing::Claim(of, at));
            if let Err(answer) = self.first_way(ways, &thing) {
                self.not_entered(of, entry, answer);
            }
        }
    }

    /// A claim with a role that a session has had, taken up for that alone.
    fn taken_up(&self, holder: u16, session: &Session, claim: Record) -> Vec<Vec<Record>> {
        let told = &self.desk.told;
        let had = Set(session.had.0 & !session.active.0);
        let may = told.may_activate(session.user);
        let way = |role: u8| {
            let number = u16::from(role);
            let way = vec![
                Record::activate_role(holder, number),
                claim,
                Record::deactivate_role(holder, number),
            ];
            match may.has(role) {
                true => way,
                false => lending(session.user, role, way),
            }
        };
        told.opening(had, claim.c()).members().map(way).collect()
    }

    fn not_entered(&mut self, order: u16, entry: &Entry, answer: Option<Answer>) {
        let (user, task) = (
            self.desk.say(Sort::User, entry.user),
            self.desk.say(Sort::Task, entry.task),
        );
        let rule = answer.and_then(|answer| {
            let policy = &self.desk.policy;
            policy.rule(answer.reply, answer.place)
        });
        let because = match (rule, answer.map(|answer| answer.reply)) {
            (Some(rule), _) => format!(" would break {rule}"),
            (_, Some(Reply::Static)) => format!(" is refused{}{NOT_SETTLED}", refused_with(answer)),
            _ => format!(" is refused{}", refused_with(answer)),
        };
        let words = format!("the entry of {user} for {task}{because}");
        self.hinder((Sort::Order, order), words);
    }
}

/// What is reported where the ways that were tried are not all there are.
const NOT_SETTLED: &str = " (not settled: another order of requests may get there)";

/// These requests, with a role that the user has meanwhile.
fn lending(user: u16, role: u8, requests: Vec<Record>) -> Vec<Record> {
    let role = role.into();
    let mut all = vec![Record::assign_role(user, role)];
    all.extend(requests);
    all.push(Record::take_role(user, role));
    all
}

/// These requests, while the user has none of these roles.
fn aside(user: u16, roles: Set, requests: Vec<Record>) -> Vec<Record> {
    let roles = || roles.members().map(u16::from);
    let taken = roles().map(|role| Record::take_role(user, role));
    let mut all: Vec<Record> = taken.collect();
    all.extend(requests);
    all.extend(roles().map(|role| Record::assign_role(user, role)));
    all
}

/// `, 11 NO ROLE`; where there was no way to ask, nobody's role opens it.
fn refused_with(answer: Option<Answer>) -> String {
    let reply = answer.map_or(Reply::NoRole, |answer| answer.reply);
    format!(", {reply}")
}

#[cfg(test)]
pub mod tests;
