//! The searches: who may do this now, with which of them this may be done, what may be done with it.

use super::super::body;
use super::super::look;
use super::super::problem::Problem;
use super::super::route::{Asked, Reply};
use super::read::{read, Evaluation, Open};
use super::{decide, form, kept, may_ask, SPENT};
use crate::desk::Desk;
use crate::finish::Budget;
use crate::names::{Names, Sort};
use hyper::Body;
use serde_json::{json, Value};
use std::collections::BTreeSet;

fn results(all: Vec<Value>) -> Value {
    json!({ "results": all, "page": { "next_token": "" } })
}

/// The id of a number: its name, where that cannot be taken for a number.
fn id(names: &Names, sort: Sort, number: u16) -> String {
    let name = names
        .name(sort, number)
        .and_then(|name| std::str::from_utf8(name).ok());
    let name = name.filter(|name| name.parse::<u64>().is_err() && !name.starts_with('"'));
    name.map_or(number.to_string(), String::from)
}

/// The ids of these numbers, each once.
fn ids(names: &Names, sort: Sort, numbers: impl Iterator<Item = u16>) -> Vec<String> {
    let numbers: BTreeSet<u16> = numbers.collect();
    let each = numbers.into_iter();
    each.map(|number| id(names, sort, number)).collect()
}

fn one_of(pointer: &str, kind: &str, known: [&str; 2]) -> Result<(), Problem> {
    let [one, other] = known;
    match known.contains(&kind) {
        true => Ok(()),
        false => Err(Problem::wrong_at(
            pointer,
            format!("{one:?} or {other:?} is expected"),
        )),
    }
}

/// What is found of each, as long as the question has time.
fn each<T>(
    budget: &Budget,
    all: impl IntoIterator<Item = T>,
    find: impl Fn(T) -> Option<Value>,
) -> Result<Vec<Value>, Problem> {
    let mut found = Vec::new();
    for one in all {
        if budget.spent(0).is_some() {
            return Err(Problem::too_many(SPENT));
        }
        found.extend(find(one));
    }
    Ok(found)
}

/// Who may do this now.
pub async fn search_subject(call: &Asked, body: Body) -> Result<Reply, Problem> {
    let value = body::json(call, body).await?;
    let asked = read(&value, &Value::Null, "", Open::Subject)?;
    one_of("/subject/type", &asked.subject.kind, ["user", "subject"])?;
    let found = look::asked(call, move |desk, budget| {
        let Ok(form) = form(&desk, &asked.action, &asked.resource, asked.task.as_deref()) else {
            return Ok(results(Vec::new()));
        };
        let mut all = each(budget, &desk.told.subjects, |(&subject, session)| {
            let (sort, number) = match asked.subject.kind.as_str() {
                "user" => (Sort::User, session.user),
                _ => (Sort::Subject, subject),
            };
            let shown = || json!({ "type": sort.word(), "id": id(&desk.names, sort, number) });
            let granted = desk.tried(&[form(subject)]).is_granted();
            granted.then(shown)
        })?;
        // A user may in several subjects.
        let mut seen = BTreeSet::new();
        all.retain(|one| seen.insert(one.to_string()));
        Ok(results(all))
    });
    Ok(Reply::json(found.await?))
}

/// A search of what one may do: all that it could be, and how each is shown.
struct Search {
    open: Open,
    candidates: fn(&Desk, &Evaluation) -> Vec<Evaluation>,
    shown: fn(&Evaluation) -> Value,
}

impl Search {
    async fn found(self, call: &Asked, body: Body) -> Result<Reply, Problem> {
        let value = body::json(call, body).await?;
        let asked = read(&value, &Value::Null, "", self.open)?;
        one_of("/resource/type", &asked.resource.kind, ["task", "object"])?;
        let who = call.who.clone();
        let found = look::asked(call, move |desk, budget| {
            may_ask(&who, &desk, &asked.subject).map_err(Problem::barred)?;
            let granted = |one: Evaluation| {
                let granted = decide(&desk, &one, false).granted;
                granted.then(|| (self.shown)(&one))
            };
            each(budget, (self.candidates)(&desk, &asked), granted).map(results)
        });
        kept(call, "a search", found.await).await
    }
}

/// Every id of a type of resource that a request could be about.
fn resources(desk: &Desk, kind: &str) -> Vec<String> {
    let names = &desk.names;
    if kind == "object" {
        let objects = desk.told.permissions.values().map(|pair| pair.1);
        return ids(names, Sort::Object, objects);
    }
    let mut all = Vec::new();
    for (&number, order) in &desk.told.orders {
        let order_id = id(names, Sort::Order, number);
        let tasks = desk.told.tasks_of(order.template);
        all.extend(tasks.map(|task| format!("{order_id}/{}", id(names, Sort::Task, task))));
    }
    all
}

/// With which of them may this user do this now.
pub async fn search_resource(call: &Asked, body: Body) -> Result<Reply, Problem> {
    let search = Search {
        open: Open::Resource,
        candidates: |desk, asked| {
            let ids = resources(desk, &asked.resource.kind).into_iter();
            let with = |id| {
                let mut one = asked.clone();
                one.resource.id = id;
                one
            };
            ids.map(with).collect()
        },
        shown: |one| json!({ "type": one.resource.kind, "id": one.resource.id }),
    };
    search.found(call, body).await
}

/// What may this user do with this now.
pub async fn search_action(call: &Asked, body: Body) -> Result<Reply, Problem> {
    let search = Search {
        open: Open::Action,
        candidates: |desk, asked| {
            let names = match asked.resource.kind.as_str() {
                "task" => ["claim", "release", "done"].map(String::from).to_vec(),
                _ => {
                    let operations = desk.told.permissions.values().map(|pair| pair.0);
                    ids(&desk.names, Sort::Operation, operations)
                }
            };
            let with = |name| {
                let mut one = asked.clone();
                one.action.name = name;
                one
            };
            names.into_iter().map(with).collect()
        },
        shown: |one| json!({ "name": one.action.name }),
    };
    search.found(call, body).await
}
