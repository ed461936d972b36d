//! What is asked and changes nothing: the board, who may claim, whether orders can be finished, why a request is refused.

use super::board::{self, Times};
use super::body::Query;
use super::problem::Problem;
use super::route::{shown, Asked, Reply};
use crate::desk::Desk;
use crate::finish::{self, Budget};
use crate::journal::Barred;
use crate::names::{Names, Sort};
use crate::serve::door::Door;
use crate::serve::question::{Gone, Pool};
use crate::stop::Stop;
use crate::why::{reason, why};
use serde_json::{json, Map, Value};
use std::collections::BTreeMap;
use std::sync::atomic::Ordering;
use std::sync::Arc;
use tokio::sync::{oneshot, Mutex};
use tokio::task::spawn_blocking;

/// What was last found of a desk: the number of the last request by then, and what was found.
type Found = Mutex<Option<(i64, Arc<Value>)>>;

#[derive(Default)]
struct Cache {
    board: Found,
    finish: Found,
}

/// What was found of each desk, for all who ask before its next request.
pub struct Caches(BTreeMap<String, Cache>);

impl Caches {
    pub fn new<'a>(desks: impl Iterator<Item = &'a String>) -> Caches {
        Caches(desks.map(|name| (name.clone(), Cache::default())).collect())
    }
}

/// Whoever waits for an answer has gone when this goes.
struct Waits {
    gone: Gone,
    pool: Pool,
    answered: bool,
}

impl Drop for Waits {
    fn drop(&mut self) {
        if !self.answered {
            self.gone.store(true, Ordering::Relaxed);
            self.pool.forget_gone();
        }
    }
}

/// Has a question answered by the pool, of a copy of the desk as it stands, within what a question may take.
pub async fn asked<T: Send + 'static>(
    call: &Asked,
    work: impl FnOnce(Desk, &Budget) -> Result<T, Problem> + Send + 'static,
) -> Result<T, Problem> {
    let pool = &call.hall.house.pool;
    let turn = pool.turn(&call.who.account).map_err(Problem::too_many)?;
    let (to, from) = oneshot::channel();
    let gone = Gone::default();
    let mut waits = Waits {
        gone: gone.clone(),
        pool: pool.clone(),
        answered: false,
    };
    let (door, inside) = (call.door.clone(), gone.clone());
    pool.put(turn, gone, move |pool| {
        let budget = pool.budget(&inside);
        let gone = |why| Problem::ended(door.elsewhere().or(door.ended()).unwrap_or(why));
        let desk = Pool::look(&door).map_err(gone);
        let desk = desk.map(|engine| Desk::at(&door.policy, door.names(), engine));
        let _ = to.send(desk.and_then(|desk| work(desk, &budget)));
    });
    let answer = from.await;
    waits.answered = true;
    answer.unwrap_or_else(|_| Err(Problem::ended("the desk has ended")))
}

/// The same, found once for all who ask before the next request.
async fn once(
    call: &Asked,
    pick: impl Fn(&Cache) -> &Found,
    work: impl FnOnce(Desk, &Budget, i64) -> Result<Value, Problem> + Send + 'static,
) -> Result<Arc<Value>, Problem> {
    let Some(cache) = call.hall.caches.0.get(&call.door.name) else {
        return Err(Problem::not_found("there is no such desk"));
    };
    let mut found = pick(cache).lock().await;
    let last = *call.door.feed.last.borrow();
    if let Some((at, value)) = &*found {
        if *at == last {
            return Ok(value.clone());
        }
    }
    let value = asked(call, move |desk, budget| work(desk, budget, last)).await?;
    let value = Arc::new(value);
    *found = Some((last, value.clone()));
    Ok(value)
}

/// An account that may ask nothing is told so, and the journal keeps that it came.
pub async fn known(call: &Asked) -> Result<(), Problem> {
    let Err(why) = call.who.may_question() else {
        return Ok(());
    };
    if call.door.is_news(&call.who.account) {
        keep(call, "to connect", &why).await;
    }
    Err(Problem::barred(why))
}

/// Has the journal keep what an account may not ask.
pub async fn keep(call: &Asked, asked: &str, why: &str) -> bool {
    let barred = Barred {
        at: 0,
        client: call.client,
        account: call.who.account.clone(),
        via: call.who.via.clone(),
        record: None,
        asked: asked.to_string(),
        why: why.to_string(),
    };
    let door = call.door.clone();
    spawn_blocking(move || door.keep(barred))
        .await
        .unwrap_or(false)
}

/// Whether the account may read the journal; that it may not is kept.
pub async fn may_read(call: &Asked, asked: &str) -> Result<(), Problem> {
    let Err(why) = call.who.may_read() else {
        return Ok(());
    };
    match keep(call, asked, &why).await {
        true => Err(Problem::barred(why)),
        false => Err(Problem::not_done("it could not be kept in the journal")),
    }
}

pub async fn board(call: &Asked) -> Result<Reply, Problem> {
    Query::read(call.query.as_deref(), &[])?;
    let door = call.door.clone();
    let board = once(
        call,
        |cache| &cache.board,
        move |desk, budget, last| {
            let (live, seen) = (door.live().clone(), door.feed.seen());
            let times = Times(seen.as_deref());
            let mut board = board::board(&desk, &live, &times, last, budget);
            board["desk"] = json!(shown(&door.name));
            Ok(board)
        },
    );
    let mut board = Value::clone(&*board.await?);
    let who = call.who.clone();
    let engine = look(&call.door).await?;
    let desk = Desk::at(&call.door.policy, call.door.names(), engine);
    board["you"] = board::you(&who, &desk);
    board["refusals"] = Value::Array(refusals(call, &desk.names));
    Ok(Reply::json(board))
}

async fn look(door: &Arc<Door>) -> Result<mishantral::Engine, Problem> {
    let asked = door.clone();
    let looked = spawn_blocking(move || Pool::look(&asked)).await;
    let looked = looked.unwrap_or_else(|_| Err("the desk has ended".to_string()));
    looked.map_err(|why| Problem::ended(door.elsewhere().or(door.ended()).unwrap_or(why)))
}

/// The last refusals: a clerk's own, or for who may read the journal all.
fn refusals(call: &Asked, names: &Names) -> Vec<Value> {
    let all = call.who.may_read().is_ok();
    let Some(seen) = call.door.feed.seen() else {
        return Vec::new();
    };
    let own = |user: Option<u16>| user.is_some_and(|user| call.who.is_user(user, names));
    let picked = seen.refusals.iter().rev();
    picked
        .filter(|refusal| all || own(refusal.user) || refusal.account == call.who.account)
        .map(|refusal| board::refusal(&call.door.policy, names, refusal))
        .collect()
}

/// The number that a word of a path stands for.
pub fn number(desk: &Desk, sort: Sort, word: &str) -> Result<u16, Problem> {
    let named = || desk.names.number(sort, word.as_bytes());
    let number = desk.names.given(sort, word).or_else(named);
    number.ok_or_else(|| Problem::not_found(format!("there is no {} {word:?}", sort.word())))
}

/// The objects that a command writes, a line each.
fn objects(done: Result<u8, Stop>, out: &[u8]) -> Result<Vec<Value>, Problem> {
    if let Err(Stop::Wrong(lines) | Stop::Refused(lines)) = done {
        return Err(Problem::wrong(lines.join("; ")));
    }
    let text = String::from_utf8_lossy(out);
    let lines = text.lines();
    Ok(lines
        .filter_map(|line| serde_json::from_str(line).ok())
        .collect())
}

fn finished(
    desk: &Desk,
    order: Option<&str>,
    list: Option<&str>,
    budget: &Budget,
) -> Result<Vec<Value>, Problem> {
    let mut out = Vec::new();
    let json = true;
    let options = finish::Options { list, budget, json };
    let done = match order {
        Some(order) => {
            let order = number(desk, Sort::Order, order)?.to_string();
            finish::finish_one(desk, &order, &options, &mut out)
        }
        None => finish::finish_all(desk, &options, &mut out),
    };
    let mut all = objects(done, &out)?;
    for one in &mut all {
        let order = one["order"].as_u64().and_then(|n| u16::try_from(n).ok());
        let name = order.and_then(|order| board::name(desk, Sort::Order, order));
        if order.is_some() {
            one["order_name"] = json!(name);
        }
    }
    Ok(all)
}

pub async fn finish(call: &Asked) -> Result<Reply, Problem> {
    let query = Query::read(call.query.as_deref(), &["with"])?;
    let (list, order) = (query.text("with").map(String::from), call.words[0].clone());
    let found = asked(call, move |desk, budget| {
        finished(&desk, Some(&order), list.as_deref(), budget)
    });
    let first = found.await?.into_iter().next();
    Ok(Reply::json(first.unwrap_or_default()))
}

pub async fn finish_all(call: &Asked) -> Result<Reply, Problem> {
    let query = Query::read(call.query.as_deref(), &["with"])?;
    if let Some(list) = query.text("with").map(String::from) {
        let found = asked(call, move |desk, budget| {
            finished(&desk, None, Some(&list), budget)
        });
        return Ok(Reply::json(orders(found.await?)));
    }
    let found = once(
        call,
        |cache| &cache.finish,
        |desk, budget, _| Ok(orders(finished(&desk, None, None, budget)?)),
    );
    Ok(Reply::json(Value::clone(&*found.await?)))
}

/// What was found of each order, and how many were not looked at.
fn orders(found: Vec<Value>) -> Value {
    let (orders, rest): (Vec<Value>, Vec<Value>) = found
        .into_iter()
        .partition(|one| one.get("order").is_some());
    let left = rest
        .first()
        .map_or(json!(0), |rest| rest["not_looked_at"].clone());
    json!({ "orders": orders, "not_looked_at": left })
}

pub async fn who(call: &Asked) -> Result<Reply, Problem> {
    Query::read(call.query.as_deref(), &[])?;
    let (order, task) = (call.words[0].clone(), call.words[1].clone());
    let found = asked(call, move |desk, budget| {
        let order = number(&desk, Sort::Order, &order)?;
        let task = number(&desk, Sort::Task, &task)?;
        Ok(who_of(&desk, order, task, budget))
    });
    Ok(Reply::json(found.await?))
}

/// Who may claim a task now, and why the others that are signed in may not.
fn who_of(desk: &Desk, order: u16, task: u16, budget: &Budget) -> Value {
    let (mut may, mut others) = (Vec::new(), Vec::new());
    for (subject, answer) in board::claims(desk, order, task) {
        let user = desk.told.user_of(subject);
        let mut object = Map::new();
        object.insert("subject".to_string(), json!(subject));
        object.insert("user".to_string(), json!(user));
        object.insert("who".to_string(), json!(desk.say_subject(subject)));
        if answer.is_granted() {
            may.push(Value::Object(object));
            continue;
        }
        object.extend(board::said(
            &desk.policy,
            answer.reply.number(),
            answer.place,
        ));
        if budget.spent(0).is_none() {
            // Who could instead is what this whole answer says.
            let claim = records::Record::claim(subject, order, task);
            let because = reason(desk, &claim.0, answer);
            object.insert("because".to_string(), json!(because.lines(desk)));
        }
        others.push(Value::Object(object));
    }
    json!({ "order": order, "task": task, "who": may, "others": others })
}

/// Why each of these records is refused, as the desk is now.
pub async fn explained(call: &Asked, records: Vec<Vec<u8>>) -> Result<Vec<Vec<String>>, Problem> {
    let one = |desk: &Desk, record: &[u8]| {
        let answer = desk.tried_bytes(record);
        match answer.is_granted() {
            true => vec!["it would be granted now".to_string()],
            false => why(desk, record, answer).lines(desk),
        }
    };
    asked(call, move |desk, budget| {
        let spent = || vec!["what a question may take is spent".to_string()];
        let each = records.iter().map(|record| match budget.spent(0) {
            None => one(&desk, record),
            Some(_) => spent(),
        });
        Ok(each.collect())
    })
    .await
}
