//! The board: open orders with their tasks, who holds them and since when, who may claim each now, and what the others would be answered.

use crate::desk::Desk;
use crate::finish::Budget;
use crate::journal::{time, Live};
use crate::names::Sort;
use crate::serve::account::Who;
use crate::serve::feed::{Refusal, Seen};
use crate::source::Policy;
use crate::told;
use mishantral::Answer;
use records::{Record, Reply};
use serde_json::{json, Map, Value};
use std::collections::BTreeMap;

/// A name as people have it: none where it has none.
pub fn name(desk: &Desk, sort: Sort, number: u16) -> Option<String> {
    let name = desk.names.name(sort, number)?;
    Some(String::from_utf8_lossy(name).into_owned())
}

/// What each live subject's claim of a task would be answered now. Refusals change nothing, so that a copy is needed after a grant alone.
pub fn claims(desk: &Desk, order: u16, task: u16) -> Vec<(u16, Answer)> {
    let mut copy = desk.engine().clone();
    let mut all = Vec::with_capacity(desk.told.subjects.len());
    for &subject in desk.told.subjects.keys() {
        let answer = copy.request(&Record::claim(subject, order, task));
        if answer.is_granted() {
            copy = desk.engine().clone();
        }
        all.push((subject, answer));
    }
    all
}

/// Those whose claim would be granted, and the others by what they would be answered.
fn split(desk: &Desk, claims: Vec<(u16, Answer)>) -> (Vec<u16>, Vec<Value>) {
    let (mut may, mut refused) = (Vec::new(), BTreeMap::<(u8, usize), Vec<u16>>::new());
    for (subject, answer) in claims {
        match answer.is_granted() {
            true => may.push(subject),
            false => {
                let why = (answer.reply.number(), answer.place);
                refused.entry(why).or_default().push(subject);
            }
        }
    }
    let one = |((reply, place), subjects): ((u8, usize), Vec<u16>)| {
        let mut object = said(&desk.policy, reply, place);
        object.insert("subjects".to_string(), json!(subjects));
        Value::Object(object)
    };
    (may, refused.into_iter().map(one).collect())
}

/// A reply with its name, its rule, and the rule in words.
pub fn said(policy: &Policy, reply: u8, place: usize) -> Map<String, Value> {
    let known = Reply::from_number(reply.into());
    let mut object = Map::new();
    object.insert("reply".to_string(), json!(reply));
    object.insert(
        "name".to_string(),
        json!(known.map_or("", |reply| reply.name())),
    );
    object.insert("rule".to_string(), json!(place));
    if let Some(rule) = known.and_then(|reply| policy.rule(reply, place)) {
        object.insert("rule_words".to_string(), json!(rule));
    }
    object
}

/// Times of the open orders' entries, as they were seen.
pub struct Times<'a>(pub Option<&'a Seen>);

impl Times<'_> {
    fn opened(&self, order: u16) -> Option<String> {
        self.0?.opened(order).map(time)
    }

    /// Since when an entry is as it is: the same place in the order's list, if that is the same entry.
    fn since(&self, order: u16, at: usize, entry: &told::Entry) -> Option<String> {
        let seen = self.0?.entries(order).get(at)?;
        let is_same = seen.task == entry.task
            && seen.user == Some(entry.user)
            && seen.done.is_none() == entry.holder.is_some();
        let at = seen.done.unwrap_or(seen.claimed);
        (is_same && at != 0).then(|| time(at))
    }
}

/// The board without what differs by account; `complete` is false where the budget was spent before all claims were tried.
pub fn board(desk: &Desk, live: &Live, times: &Times, last: i64, budget: &Budget) -> Value {
    let mut complete = true;
    let mut orders = Vec::new();
    for (&number, order) in &desk.told.orders {
        let mut tasks = Vec::new();
        for task in desk.told.tasks_of(order.template) {
            complete &= budget.spent(0).is_none();
            tasks.push(of_task(desk, number, task, order, times, complete));
        }
        orders.push(json!({
            "number": number, "name": name(desk, Sort::Order, number),
            "template": order.template, "template_name": name(desk, Sort::Template, order.template),
            "opening": live.openings[usize::from(number) % live.openings.len()],
            "opened": times.opened(number), "tasks": tasks,
        }));
    }
    json!({
        "last": last, "complete": complete, "orders": orders, "templates": templates(desk), "subjects": subjects(desk),
    })
}

fn of_task(
    desk: &Desk,
    order: u16,
    task: u16,
    opened: &told::Order,
    times: &Times,
    try_claims: bool,
) -> Value {
    let mut entries = Vec::new();
    let of_this = |(_, entry): &(usize, &told::Entry)| entry.task == task;
    for (at, entry) in opened.entries.iter().enumerate().filter(of_this) {
        entries.push(json!({
            "state": if entry.holder.is_some() { "held" } else { "done" },
            "user": entry.user, "user_name": name(desk, Sort::User, entry.user), "subject": entry.holder,
            "since": times.since(order, at, entry),
        }));
    }
    let of_this = || opened.entries.iter().filter(|entry| entry.task == task);
    let state = match (of_this().any(|e| e.holder.is_some()), of_this().next()) {
        (true, _) => "held",
        (_, Some(_)) => "done",
        _ => "free",
    };
    let mut object = json!({ "number": task, "name": name(desk, Sort::Task, task), "state": state, "entries": entries });
    if try_claims {
        let (may, refused) = split(desk, claims(desk, order, task));
        (object["may_claim"], object["refused"]) = (json!(may), Value::Array(refused));
    }
    object
}

fn templates(desk: &Desk) -> Vec<Value> {
    let mut numbers: Vec<u16> = desk.told.tasks.values().copied().collect();
    numbers.sort();
    numbers.dedup();
    let task = |task: u16| json!({ "number": task, "name": name(desk, Sort::Task, task) });
    let one = |&number: &u16| {
        let tasks: Vec<Value> = desk.told.tasks_of(number).map(task).collect();
        json!({ "number": number, "name": name(desk, Sort::Template, number), "tasks": tasks })
    };
    numbers.iter().map(one).collect()
}

fn subjects(desk: &Desk) -> Vec<Value> {
    let role = |role: u8| json!({ "number": role, "name": name(desk, Sort::Role, role.into()) });
    let one = |(&number, session): (&u16, &told::Session)| {
        let roles: Vec<Value> = session.active.members().map(role).collect();
        json!({
            "number": number, "name": name(desk, Sort::Subject, number), "user": session.user,
            "user_name": name(desk, Sort::User, session.user), "roles": roles,
        })
    };
    desk.told.subjects.iter().map(one).collect()
}

/// Who asks, and what that account may: the users whom it is, with their roles.
pub fn you(who: &Who, desk: &Desk) -> Value {
    let is = |user: &&u16| who.is_user(**user, &desk.names);
    let role = |role: u8| json!({ "number": role, "name": name(desk, Sort::Role, role.into()) });
    let one = |&user: &u16| {
        let roles: Vec<Value> = desk.told.may_activate(user).members().map(role).collect();
        json!({ "number": user, "name": name(desk, Sort::User, user), "roles": roles })
    };
    let users: Vec<Value> = desk.told.users.keys().filter(is).map(one).collect();
    json!({
        "account": &*who.account, "users": users, "everyone": who.rights.everyone, "administers": who.rights.administers,
        "reads": who.rights.reads || who.rights.everyone,
    })
}

/// A refusal in words, the last first.
pub fn refusal(policy: &Policy, names: &crate::names::Names, refusal: &Refusal) -> Value {
    let mut object = said(policy, refusal.reply, refusal.place.into());
    let user = refusal.user;
    let shown = user.and_then(|user| names.name(Sort::User, user));
    object.insert("number".to_string(), json!(refusal.number));
    object.insert(
        "time".to_string(),
        json!((refusal.at != 0).then(|| time(refusal.at))),
    );
    object.insert("account".to_string(), json!(&*refusal.account));
    object.insert("user".to_string(), json!(user));
    object.insert(
        "user_name".to_string(),
        json!(shown.map(String::from_utf8_lossy)),
    );
    object.insert("request".to_string(), json!(refusal.request));
    Value::Object(object)
}
