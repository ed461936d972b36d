//! OpenID AuthZEN 1.0: may this user do this now? It is asked of a copy of the engine: nothing changes, and nothing enters the journal but
//! what an account may not ask. A decision is true exactly when the request, sent at that moment, would be granted (docs/HTTP.md).

mod read;
mod search;

use super::board;
use super::body;
use super::look;
use super::problem::Problem;
use super::route::{shown, Asked, Reply};
use crate::desk::Desk;
use crate::names::{Names, Sort};
use crate::serve::account::Who;
use crate::why::reason;
use hyper::Body;
use mishantral::Answer;
use read::{read, text, Action, Entity, Evaluation, Open};
use records::{Record, Reply as Answered};
pub use search::{search_action, search_resource, search_subject};
use serde_json::{json, Value};

/// A decision, and what it was decided by.
struct Decision {
    granted: bool,
    reply: u8,
    place: usize,
    /// The session whose request it is.
    subject: Option<u16>,
    why: Vec<String>,
}

/// The number of a word, or what to say where there is none.
fn number(names: &Names, sort: Sort, word: &str) -> Result<u16, String> {
    let named = || names.number(sort, word.as_bytes());
    let number = names.given(sort, word).or_else(named);
    number.ok_or_else(|| format!("there is no {} {word:?}", sort.word()))
}

/// An order and a task of `order/task`.
fn order_and_task(names: &Names, id: &str) -> Result<(u16, u16), String> {
    let both = |at: usize| {
        let order = number(names, Sort::Order, &id[..at]).ok()?;
        Some((order, number(names, Sort::Task, &id[at + 1..]).ok()?))
    };
    let found = id.match_indices('/').find_map(|(at, _)| both(at));
    found.ok_or_else(|| format!("there is no open order and task {id:?}: an id is ORDER/TASK"))
}

/// The live sessions that a subject stands for.
fn sessions(desk: &Desk, subject: &Entity) -> Result<Vec<u16>, String> {
    match subject.kind.as_str() {
        "user" => {
            let user = number(&desk.names, Sort::User, &subject.id)?;
            let own = desk.told.subjects.iter().filter(|(_, s)| s.user == user);
            let own: Vec<u16> = own.map(|(&subject, _)| subject).collect();
            match own.is_empty() {
                true => Err(format!("{} is not signed in", desk.say(Sort::User, user))),
                false => Ok(own),
            }
        }
        "subject" => Ok(vec![number(&desk.names, Sort::Subject, &subject.id)?]),
        other => Err(format!(
            "a subject is of type \"user\" or \"subject\", not {other:?}"
        )),
    }
}

/// The user whom a subject stands for, where there is one.
fn user(desk: &Desk, subject: &Entity) -> Option<u16> {
    match subject.kind.as_str() {
        "user" => number(&desk.names, Sort::User, &subject.id).ok(),
        _ => {
            let subject = number(&desk.names, Sort::Subject, &subject.id).ok()?;
            desk.told.user_of(subject)
        }
    }
}

/// The request of a session: its kind and numbers.
type Form = Box<dyn Fn(u16) -> Record>;

/// The request that an action on a resource is.
fn form(
    desk: &Desk,
    action: &Action,
    resource: &Entity,
    task: Option<&str>,
) -> Result<Form, String> {
    let names = &desk.names;
    match (resource.kind.as_str(), action.name.as_str()) {
        ("task", name) => {
            let (order, task) = order_and_task(names, &resource.id)?;
            match name {
                "claim" => Ok(Box::new(move |s| Record::claim(s, order, task))),
                "release" => Ok(Box::new(move |s| Record::release(s, order, task))),
                "done" => Ok(Box::new(move |s| Record::done(s, order, task))),
                _ => Err(format!(
                    "with a task one can claim, release or done, not {name:?}"
                )),
            }
        }
        ("object", name) => {
            let object = number(names, Sort::Object, &resource.id)?;
            let (commits, word) = match (name, &action.operation) {
                ("commit", Some(operation)) => (true, operation.as_str()),
                ("check", Some(operation)) => (false, operation.as_str()),
                (name, _) => (false, name),
            };
            let operation = number(names, Sort::Operation, word)?;
            Ok(
                match task.map(|id| order_and_task(names, id)).transpose()? {
                    _ if commits => Box::new(move |s| Record::commit(s, operation, object)),
                    Some((order, task)) => {
                        Box::new(move |s| Record::task_check(s, order, task, operation, object))
                    }
                    None => Box::new(move |s| Record::check(s, operation, object)),
                },
            )
        }
        (other, _) => Err(format!(
            "a resource is of type \"task\" or \"object\", not {other:?}"
        )),
    }
}

/// Decides by the engine's answer to each session's request: the first that is granted, else the first that is refused.
fn decide(desk: &Desk, asked: &Evaluation, explain: bool) -> Decision {
    let unknown = |why: String| Decision {
        granted: false,
        reply: Answered::Unknown.number(),
        place: 0,
        subject: None,
        why: vec![why],
    };
    let form = match form(desk, &asked.action, &asked.resource, asked.task.as_deref()) {
        Ok(form) => form,
        Err(why) => return unknown(why),
    };
    let sessions = match sessions(desk, &asked.subject) {
        Ok(sessions) => sessions,
        Err(why) => return unknown(why),
    };
    let mut first: Option<(u16, Answer)> = None;
    for subject in sessions {
        let answer = desk.tried(&[form(subject)]);
        if answer.is_granted() {
            return Decision {
                granted: true,
                reply: 0,
                place: 0,
                subject: Some(subject),
                why: Vec::new(),
            };
        }
        first.get_or_insert((subject, answer));
    }
    let Some((subject, answer)) = first else {
        return unknown("nobody is signed in".to_string());
    };
    let why = match explain {
        true => reason(desk, &form(subject).0, answer).lines(desk),
        false => Vec::new(),
    };
    Decision {
        granted: false,
        reply: answer.reply.number(),
        place: answer.place,
        subject: Some(subject),
        why,
    }
}

fn told(desk: &Desk, decision: &Decision) -> Value {
    let mut context = board::said(&desk.policy, decision.reply, decision.place);
    context.insert("subject".to_string(), json!(decision.subject));
    if !decision.why.is_empty() {
        context.insert(
            "reason_user".to_string(),
            json!({ "en": decision.why.join("; ") }),
        );
    }
    json!({ "decision": decision.granted, "context": context })
}

/// Whether an account may ask about a user: about itself, or where it may read or speak for everyone about all.
fn may_ask(who: &Who, desk: &Desk, subject: &Entity) -> Result<(), String> {
    let own = user(desk, subject).is_some_and(|user| who.is_user(user, &desk.names));
    match own || who.rights.everyone || who.rights.reads {
        true => Ok(()),
        false => Err(format!(
            "{} may not ask about {} {:?}",
            who.account, subject.kind, subject.id
        )),
    }
}

const SPENT: &str = "what a question may take is spent: ask for less at once";

/// The answer to one evaluation, or why the account may not ask it.
fn evaluated(desk: &Desk, who: &Who, asked: &Evaluation) -> Result<Value, Problem> {
    may_ask(who, desk, &asked.subject).map_err(Problem::barred)?;
    Ok(told(desk, &decide(desk, asked, true)))
}

/// Has the journal keep what was barred.
async fn kept(call: &Asked, what: &str, answer: Result<Value, Problem>) -> Result<Reply, Problem> {
    if let Err(problem) = &answer {
        if problem.kind == "barred" && !look::keep(call, what, &problem.detail).await {
            return Err(Problem::not_done("it could not be kept in the journal"));
        }
    }
    answer.map(Reply::json)
}

pub async fn evaluation(call: &Asked, body: Body) -> Result<Reply, Problem> {
    let value = body::json(call, body).await?;
    let asked = read(&value, &Value::Null, "", Open::Nothing)?;
    let who = call.who.clone();
    let answer = look::asked(call, move |desk, _| evaluated(&desk, &who, &asked));
    kept(call, "an evaluation", answer.await).await
}

/// When a list of evaluations is decided.
#[derive(Clone, Copy, PartialEq, Eq)]
enum Until {
    End,
    FirstDeny,
    FirstPermit,
}

fn until(value: &Value) -> Result<Until, Problem> {
    let Some(options) = value.get("options") else {
        return Ok(Until::End);
    };
    let at = "/options";
    if options.get("evaluations_semantic").is_none() {
        return Ok(Until::End);
    }
    match text(options, "evaluations_semantic", at)?.as_str() {
        "execute_all" => Ok(Until::End),
        "deny_on_first_deny" => Ok(Until::FirstDeny),
        "permit_on_first_permit" => Ok(Until::FirstPermit),
        other => Err(Problem::wrong_at(
            "/options/evaluations_semantic",
            format!(
                "{other:?}: execute_all, deny_on_first_deny or permit_on_first_permit is expected"
            ),
        )),
    }
}

/// One that cannot be asked is denied, and says why.
fn not_asked(problem: &Problem) -> Value {
    let mut error = json!({ "status": problem.status.as_u16(), "message": problem.detail });
    if let Some(pointer) = &problem.pointer {
        error["pointer"] = json!(pointer);
    }
    json!({ "decision": false, "context": { "error": error } })
}

pub async fn evaluations(call: &Asked, body: Body) -> Result<Reply, Problem> {
    let value = body::json(call, body).await?;
    let until = until(&value)?;
    let list = match value.get("evaluations") {
        None => Vec::new(),
        Some(Value::Array(list)) => list.clone(),
        Some(_) => {
            return Err(Problem::wrong_at(
                "/evaluations",
                "\"evaluations\" is a list",
            ))
        }
    };
    let who = call.who.clone();
    if list.is_empty() {
        let asked = read(&value, &Value::Null, "", Open::Nothing)?;
        let answer = look::asked(call, move |desk, _| evaluated(&desk, &who, &asked));
        return kept(call, "an evaluation", answer.await).await;
    }
    let answer = look::asked(call, move |desk, budget| {
        let mut all = Vec::new();
        for (at, one) in list.iter().enumerate() {
            if budget.spent(0).is_some() {
                return Err(Problem::too_many(SPENT));
            }
            let asked = read(one, &value, &format!("/evaluations/{at}"), Open::Nothing);
            let answer = asked.and_then(|asked| evaluated(&desk, &who, &asked));
            let answer = answer.unwrap_or_else(|problem| not_asked(&problem));
            let granted = answer["decision"] == json!(true);
            all.push(answer);
            if until
                == if granted {
                    Until::FirstPermit
                } else {
                    Until::FirstDeny
                }
            {
                break;
            }
        }
        Ok(json!({ "evaluations": all }))
    });
    let answer = answer.await?;
    let barred = |one: &Value| one["context"]["error"]["status"] == json!(403);
    if let Some(one) = answer["evaluations"]
        .as_array()
        .into_iter()
        .flatten()
        .find(|one| barred(one))
    {
        let why = one["context"]["error"]["message"]
            .as_str()
            .unwrap_or_default();
        if !look::keep(call, "evaluations", why).await {
            return Err(Problem::not_done("it could not be kept in the journal"));
        }
    }
    Ok(Reply::json(answer))
}

/// Where the calls are, for whoever asks by this host; `desk` where it is one of several.
pub fn discovery(base: &str, desk: Option<&str>) -> Reply {
    let under = desk.map_or(base.to_string(), |desk| {
        format!("{base}/v1/desks/{}", shown(desk))
    });
    Reply::json(json!({
        "policy_decision_point": under,
        "access_evaluation_endpoint": format!("{under}/access/v1/evaluation"),
        "access_evaluations_endpoint": format!("{under}/access/v1/evaluations"),
        "search_subject_endpoint": format!("{under}/access/v1/search/subject"),
        "search_resource_endpoint": format!("{under}/access/v1/search/resource"),
        "search_action_endpoint": format!("{under}/access/v1/search/action"),
    }))
}
