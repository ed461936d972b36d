//! `POST /v1/desks/{desk}/requests`: one request or many, as lines of the notation or records in hexadecimal digits. They go the way of
//! those that come by a socket.

use super::body::{self, Kind, Query};
use super::look;
use super::problem::{self, Problem};
use super::route::{Asked as Call, Reply};
use crate::names::Sort;
use crate::serve::account::Who;
use crate::serve::door::Door;
use crate::serve::form::{self, Shown};
use crate::serve::group::{Asked, Back, Batch, More, Waiting};
use crate::serve::keys;
use crate::serve::question;
use hyper::Body;
use records::Reply as Answer;
use serde_json::{json, Value};
use std::sync::Arc;
use tokio::sync::oneshot;

/// How many requests go to the desk in one batch at most.
const MOST: usize = 1024;

/// One request as it was sent.
struct Sent {
    said: Result<form::Said, Problem>,
    /// By which it may be sent again.
    key: form::Key,
    /// What comes back with its reply.
    id: Option<Value>,
    /// Its line in a text, from 1.
    line: u32,
    /// Where it is in the body.
    pointer: Option<Box<str>>,
}

/// What one request was answered; the record that was asked, where it was refused.
struct Told {
    object: Value,
    refused: Option<Vec<u8>>,
}

/// Answers them in their order.
pub async fn answered(call: &Call, body: Body) -> Result<Reply, Problem> {
    let query = Query::read(call.query.as_deref(), &["why"])?;
    let why = query.flag("why")?;
    let kind = body::kind(&call.headers, true)?;
    let bytes = body::whole(call, body).await?;
    let (sent, single) = match kind {
        Kind::Lines => (of_lines(&bytes), false),
        Kind::Json => of_json(&bytes)?,
    };
    let mut told = asked(call, sent).await?;
    if why {
        explain(call, &mut told).await?;
    }
    let mut objects: Vec<Value> = told.into_iter().map(|told| told.object).collect();
    match (single, objects.pop()) {
        (true, Some(only)) => single_reply(only),
        (_, last) => {
            objects.extend(last);
            Ok(Reply::json(json!({ "replies": objects })))
        }
    }
}

/// A request that came alone is answered with its reply, or with the problem that it has.
fn single_reply(object: Value) -> Result<Reply, Problem> {
    let text = |name: &str| object[name].as_str().map(String::from);
    if let Some(why) = text("barred") {
        return Err(Problem::barred(why));
    }
    if let Some(why) = text("not_done") {
        return Err(Problem::not_done(why));
    }
    if let Some(why) = text("wrong") {
        let place = |name: &str| object[name].as_u64().map(|n| n as u32);
        return Err(Problem {
            place: place("line").zip(place("column")),
            pointer: text("pointer").map(Into::into),
            ..Problem::wrong(why)
        });
    }
    Ok(Reply::json(object))
}

fn of_lines(bytes: &[u8]) -> Vec<Sent> {
    let bytes = bytes.strip_prefix(b"\xef\xbb\xbf").unwrap_or(bytes);
    let lines = bytes.split(|&byte| byte == b'\n').enumerate();
    lines
        .filter_map(|(at, line)| one_of_lines(at as u32 + 1, line))
        .collect()
}

/// A line of a text; blank lines and comments say nothing, and are not answered.
fn one_of_lines(number: u32, line: &[u8]) -> Option<Sent> {
    let line = line.strip_suffix(b"\r").unwrap_or(line);
    let wrong = |why: &str| Err(problem::of_line(number, why));
    let (key, said) = match (keys::of_line(line), std::str::from_utf8(line)) {
        (_, Err(why)) => {
            let before = String::from_utf8_lossy(&line[..why.valid_up_to()]);
            let column = before.chars().count() + 1;
            let why = format!("column {column}: the line is no text in UTF-8");
            (None, wrong(&why))
        }
        (Err(why), _) => (None, wrong(&why)),
        (Ok((key, rest)), Ok(_)) => {
            let text = String::from_utf8_lossy(rest).into_owned();
            if key.is_none() && crate::reader::tokens(&text).0.is_empty() {
                return None;
            }
            (key, Ok(form::Said::Line(text)))
        }
    };
    Some(Sent {
        said,
        key,
        id: None,
        line: number,
        pointer: None,
    })
}

const EXPECTED: &str = "an object with \"request\", a line, or \"record\", its hexadecimal digits; or with \"requests\", a list of these";

/// The requests of a body, and whether it is one that came alone.
fn of_json(bytes: &[u8]) -> Result<(Vec<Sent>, bool), Problem> {
    let value: Value = serde_json::from_slice(bytes).map_err(|why| Problem::no_json(&why))?;
    let Value::Object(mut object) = value else {
        return Err(Problem::wrong_at("", format!("expected {EXPECTED}")));
    };
    let Some(list) = object.remove("requests") else {
        let said = of_value(&Value::Object(object), "");
        return match said.said {
            Err(problem) => Err(problem),
            Ok(_) => Ok((vec![said], true)),
        };
    };
    if let Some(name) = object.keys().next() {
        return Err(Problem::wrong_at(
            &format!("/{name}"),
            format!("there is no {name:?} beside \"requests\""),
        ));
    }
    let Value::Array(list) = list else {
        return Err(Problem::wrong_at("/requests", "\"requests\" is a list"));
    };
    let one = |(at, value): (usize, &Value)| of_value(value, &format!("/requests/{at}"));
    Ok((list.iter().enumerate().map(one).collect(), false))
}

fn of_value(value: &Value, at: &str) -> Sent {
    let id = value.get("id").cloned();
    let (said, key) = match key(value, at) {
        Ok(key) => (said(value, at), key),
        Err(problem) => (Err(problem), None),
    };
    Sent {
        said,
        key,
        id,
        line: 1,
        pointer: Some(at.into()),
    }
}

fn key(value: &Value, at: &str) -> Result<form::Key, Problem> {
    let wrong = |why: String| Problem::wrong_at(&format!("{at}/key"), why);
    match value.get("key") {
        None => Ok(None),
        Some(Value::String(key)) => keys::key_of(key.as_bytes()).map(Some).map_err(wrong),
        Some(_) => Err(wrong("\"key\" is a text".to_string())),
    }
}

fn said(value: &Value, at: &str) -> Result<form::Said, Problem> {
    if let Value::String(line) = value {
        return one_line(line, at);
    }
    let Value::Object(object) = value else {
        return Err(Problem::wrong_at(at, format!("expected {EXPECTED}")));
    };
    let known = ["request", "record", "id", "key"];
    if let Some(name) = object.keys().find(|name| !known.contains(&name.as_str())) {
        let detail = format!("there is no {name:?} in a request");
        return Err(Problem::wrong_at(&format!("{at}/{name}"), detail));
    }
    match (object.get("request"), object.get("record")) {
        (Some(Value::String(line)), None) => one_line(line, &format!("{at}/request")),
        (None, Some(Value::String(digits))) => {
            let bytes = form::bytes_of(digits);
            let bytes = bytes.map_err(|why| Problem::wrong_at(&format!("{at}/record"), why))?;
            Ok(form::Said::Record(bytes))
        }
        (Some(_), None) => Err(Problem::wrong_at(
            &format!("{at}/request"),
            "\"request\" is a text",
        )),
        (None, Some(_)) => Err(Problem::wrong_at(
            &format!("{at}/record"),
            "\"record\" is a text",
        )),
        _ => Err(Problem::wrong_at(at, format!("expected {EXPECTED}"))),
    }
}

fn one_line(line: &str, at: &str) -> Result<form::Said, Problem> {
    match line.contains('\n') {
        true => Err(Problem::wrong_at(at, "a request is one line")),
        false => Ok(form::Said::Line(line.to_string())),
    }
}

/// A request to be asked; or what is wrong with it, by the names that hold now.
fn read(sent: &Sent, said: form::Said, door: &Door) -> Result<Asked, Problem> {
    let keyed = |asked: Asked| Asked {
        key: sent.key.clone(),
        ..asked
    };
    let line = match said {
        form::Said::Record(bytes) => return Ok(keyed(Asked::of(&bytes, Vec::new()))),
        form::Said::Line(line) => line,
    };
    let told = |why: &str| Problem {
        pointer: sent.pointer.clone(),
        ..problem::of_line(sent.line, why)
    };
    if question::of_line(line.as_bytes()).is_some() {
        return Err(told(
            "column 1: it is a question, which has a path of its own (docs/HTTP.md)",
        ));
    }
    match form::of_line(line.as_bytes(), &door.live()) {
        Ok(Some(asked)) => Ok(keyed(asked)),
        Ok(None) => Err(told("column 1: the request is empty")),
        // Names may have ended since it was first sent: what is known under its key is answered all the same.
        Err(why) if sent.key.is_some() => Ok(keyed(Asked {
            choose: form::choice_of(line.as_bytes()),
            unread: Some(why),
            ..Asked::of(&[], Vec::new())
        })),
        Err(why) => Err(told(&why)),
    }
}

/// Has all of them answered. What follows a line that gives names is read when that is answered.
async fn asked(call: &Call, sent: Vec<Sent>) -> Result<Vec<Told>, Problem> {
    let mut told: Vec<Told> = Vec::with_capacity(sent.len());
    let mut waiting: Vec<Asked> = Vec::new();
    // Where each waiting one stands among those told, with what comes back with it.
    let mut places: Vec<(usize, Option<Value>)> = Vec::new();
    for mut sent in sent {
        let said = std::mem::replace(&mut sent.said, Err(Problem::wrong("")));
        let one = said.and_then(|said| read(&sent, said, &call.door));
        let mut gives = false;
        let object = match one {
            Ok(one) => {
                gives = !one.namings.is_empty();
                places.push((told.len(), sent.id));
                waiting.push(one);
                Value::Null
            }
            Err(problem) => of_problem(&problem, sent.id),
        };
        told.push(Told {
            object,
            refused: None,
        });
        if gives || waiting.len() == MOST {
            answer(call, &mut waiting, &mut places, &mut told).await?;
        }
    }
    answer(call, &mut waiting, &mut places, &mut told).await?;
    Ok(told)
}

/// What is wrong with one of many.
fn of_problem(problem: &Problem, id: Option<Value>) -> Value {
    let mut object = json!({ "status": 400, "wrong": problem.detail });
    if let Some((line, column)) = problem.place {
        (object["line"], object["column"]) = (json!(line), json!(column));
    }
    if let Some(pointer) = &problem.pointer {
        object["pointer"] = json!(pointer);
    }
    if let Some(id) = id {
        object["id"] = id;
    }
    object
}

async fn answer(
    call: &Call,
    waiting: &mut Vec<Asked>,
    places: &mut Vec<(usize, Option<Value>)>,
    told: &mut [Told],
) -> Result<(), Problem> {
    if waiting.is_empty() {
        return Ok(());
    }
    let asked = std::mem::take(waiting);
    let batch = batch(&call.door, &call.who, call.client, asked).await?;
    let live = call.door.live();
    for (asked, (at, id)) in batch.asked.iter().zip(places.drain(..)) {
        let shown = Shown::Object(id);
        let bytes = form::reply(asked, &shown, batch.failed.as_deref(), &live);
        let object = serde_json::from_slice(&bytes).unwrap_or_default();
        let refused = asked.number != 0 && asked.reply != 0;
        let rule = Answer::from_number(asked.reply.into()).filter(|_| refused && asked.place != 0);
        let words = rule.and_then(|reply| call.door.policy.rule(reply, asked.place.into()));
        told[at] = Told {
            object: with_status(object, words, chosen(asked)),
            refused: refused.then(|| asked.bytes.as_ref().to_vec()),
        };
    }
    Ok(())
}

/// The number that the server chose, for those who take it by one name whatever it is.
fn chosen(asked: &Asked) -> Option<(Sort, u16)> {
    match &asked.more {
        More::Chosen(sort, number) if asked.reply == 0 && asked.number != 0 => {
            Some((*sort, *number))
        }
        _ => None,
    }
}

fn with_status(mut object: Value, rule: Option<String>, chosen: Option<(Sort, u16)>) -> Value {
    let has = |name: &str| object.get(name).is_some();
    let status = match (has("wrong"), has("barred"), has("not_done")) {
        (true, ..) => 400,
        (_, true, _) => 403,
        (.., true) => 503,
        _ => 200,
    };
    object["status"] = json!(status);
    if let Some(rule) = rule {
        object["rule_words"] = json!(rule);
    }
    if let Some((sort, number)) = chosen {
        object[sort.word()] = json!(number);
    }
    object
}

/// Sends a batch to the desk and waits for it.
async fn batch(
    door: &Arc<Door>,
    who: &Arc<Who>,
    client: i64,
    asked: Vec<Asked>,
) -> Result<Batch, Problem> {
    let ended = || {
        Problem::ended(
            door.ended()
                .unwrap_or_else(|| "the desk has ended".to_string()),
        )
    };
    let (to, from) = oneshot::channel();
    let batch = Batch {
        client,
        who: who.clone(),
        asked,
        failed: None,
        back: Back::Task(Some(to)),
    };
    door.to
        .send(Waiting::Requests(batch))
        .map_err(|_| ended())?;
    from.await.map_err(|_| ended())
}

/// Says why each refused one was refused, as the desk is now.
async fn explain(call: &Call, told: &mut [Told]) -> Result<(), Problem> {
    let refused: Vec<(usize, Vec<u8>)> = told
        .iter_mut()
        .enumerate()
        .filter_map(|(at, told)| Some((at, told.refused.take()?)))
        .collect();
    if refused.is_empty() {
        return Ok(());
    }
    let records = refused.iter().map(|(_, bytes)| bytes.clone()).collect();
    let why = look::explained(call, records).await?;
    for ((at, _), why) in refused.iter().zip(why) {
        told[*at].object["why"] = json!(why);
    }
    Ok(())
}
