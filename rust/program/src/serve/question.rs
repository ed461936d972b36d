//! Questions among a client's lines, asked of a copy of the engine: `who ORDER TASK`, `finish ORDER`, `finish all`, `why REQUEST`.
//!
//! They are answered by a few threads of their own, each with a budget of time and memory; of one account few wait at a time, and they
//! take but a part of each minute. So nobody's questions keep others from their requests.

use super::account::Who;
use super::door::Door;
use super::form;
use super::group::Waiting;
use crate::desk::Desk;
use crate::finish::{self, Budget, Options};
use crate::journal::{said, Live};
use crate::names::Sort;
use crate::reader;
use crate::stop::{Done, Stop};
use crate::why::why;
use mishantral::Engine;
use nix::poll::{poll, PollFd, PollFlags};
use serde_json::{json, Value};
use std::collections::{BTreeMap, VecDeque};
use std::os::fd::AsRawFd;
use std::os::unix::net::UnixStream;
use std::sync::atomic::{AtomicBool, AtomicU64, Ordering};
use std::sync::mpsc::{sync_channel, RecvTimeoutError};
use std::sync::{Arc, Condvar, Mutex, MutexGuard, PoisonError};
use std::thread;
use std::time::{Duration, Instant};

/// What is asked.
#[derive(Clone, PartialEq, Eq, Debug)]
pub enum Asks {
    Who(String, String),
    Finish(String),
    FinishAll,
    /// A request, and why it is answered as it would be now.
    Why(String),
    /// Rows of the journal, picked as `journal` picks them.
    Journal(Vec<String>),
}

/// The question of a line, if it is one; or how it is asked.
pub fn of_line(line: &[u8]) -> Option<Result<Asks, &'static str>> {
    let text = std::str::from_utf8(line).ok()?;
    let tokens = reader::tokens(text).0;
    let words: Vec<&str> = tokens.iter().map(|token| token.text).collect();
    Some(match words[..] {
        ["who", order, task] => Ok(Asks::Who(order.to_string(), task.to_string())),
        ["who", ..] => Err("who ORDER TASK"),
        ["finish", "all"] => Ok(Asks::FinishAll),
        ["finish", order] => Ok(Asks::Finish(order.to_string())),
        ["finish", ..] => Err("finish ORDER, or finish all"),
        ["why"] => Err("why REQUEST, as: why claim 1 7 sign"),
        ["why", ..] => Ok(Asks::Why(text[tokens[1].at..].to_string())),
        ["journal", ..] => Ok(Asks::Journal(
            words[1..].iter().map(|w| w.to_string()).collect(),
        )),
        _ => return None,
    })
}

/// How many questions wait at most, of everyone and of one account.
const MOST: usize = 64;
const MOST_EACH: usize = 4;

/// What the questions of one account may take of each minute.
const MINUTE: Duration = Duration::from_secs(60);
const A_MINUTE: Duration = Duration::from_secs(20);

/// How often it is looked whether a client is still there.
const LOOK: Duration = Duration::from_millis(200);

/// How far the pool's threads stand back: the system gives them what nobody else on the machine wants.
const NICE: i32 = 19;

/// What each question may take.
#[derive(Clone, Copy, Debug)]
pub struct Allowed {
    pub seconds: u64,
    pub bytes: usize,
}

/// Whether the one who asked has gone.
pub type Gone = Arc<AtomicBool>;

struct Job {
    work: Box<dyn FnOnce(&Pool) + Send>,
    gone: Gone,
    turn: Turn,
}

/// A place among the questions of an account, which is free again when this goes.
pub struct Turn {
    pool: Pool,
    account: Arc<str>,
}

impl Turn {
    /// What a question took counts for its account.
    pub fn took(&self, time: Duration) {
        if let Some(account) = self.pool.inside().accounts.get_mut(&self.account) {
            account.taken += time;
        }
    }
}

impl Drop for Turn {
    fn drop(&mut self) {
        if let Some(account) = self.pool.inside().accounts.get_mut(&self.account) {
            account.waiting -= 1;
        }
    }
}

/// What an account's questions take.
struct Account {
    since: Instant,
    taken: Duration,
    waiting: usize,
}

struct Inside {
    jobs: VecDeque<Job>,
    accounts: BTreeMap<Arc<str>, Account>,
}

#[derive(Clone)]
pub struct Pool {
    inside: Arc<(Mutex<Inside>, Condvar)>,
    allowed: Allowed,
    /// How many requests the desks have answered.
    pub answered: Arc<AtomicU64>,
}

/// Why there is no answer.
pub enum Unanswered {
    Wrong(String),
    /// The client has gone.
    Gone,
}

impl Pool {
    /// The threads that answer; fewer than asked for where there is none to be had.
    pub fn new(allowed: Allowed) -> std::io::Result<Pool> {
        let inside = Inside {
            jobs: VecDeque::new(),
            accounts: BTreeMap::new(),
        };
        let pool = Pool {
            inside: Arc::new((Mutex::new(inside), Condvar::new())),
            allowed,
            answered: Arc::default(),
        };
        let cores = thread::available_parallelism().map_or(1, usize::from);
        for _ in 0..(cores / 2).clamp(1, 4) {
            let pool = pool.clone();
            let work = move || {
                // On Linux this holds for the thread that asks, alone. Whoever may not stand back still rests (finish/budget.rs).
                let _ = rustix::process::nice(NICE);
                pool.work()
            };
            thread::Builder::new()
                .name("questions".to_string())
                .spawn(work)?;
        }
        Ok(pool)
    }

    fn inside(&self) -> MutexGuard<'_, Inside> {
        self.inside.0.lock().unwrap_or_else(PoisonError::into_inner)
    }

    fn work(&self) {
        loop {
            let mut inside = self.inside();
            let job = loop {
                match inside.jobs.pop_front() {
                    Some(job) => break job,
                    None => {
                        let waited = self.inside.1.wait(inside);
                        inside = waited.unwrap_or_else(PoisonError::into_inner);
                    }
                }
            };
            drop(inside);
            if job.gone.load(Ordering::Relaxed) {
                continue;
            }
            let began = Instant::now();
            (job.work)(self);
            job.turn.took(began.elapsed());
        }
    }

    /// A copy of a desk's engine as it stands.
    pub fn look(door: &Door) -> Result<Engine, String> {
        let ended = || "the desk has ended".to_string();
        let (to, from) = sync_channel(1);
        door.to.send(Waiting::Look(to)).map_err(|_| ended())?;
        from.recv().map_err(|_| ended())
    }

    /// What a question may take.
    pub fn budget(&self, gone: &Gone) -> Budget {
        let Allowed { seconds, bytes } = self.allowed;
        let (gone, answered) = (gone.clone(), self.answered.clone());
        Budget::of_question(finish::TRIES, seconds, bytes, gone, answered)
    }

    /// A place for a question of an account; or why there is none.
    pub fn turn(&self, account: &Arc<str>) -> Result<Turn, String> {
        self.admit(account)?;
        Ok(Turn {
            pool: self.clone(),
            account: account.clone(),
        })
    }

    /// Has the pool's threads do this, in its turn; not where `gone` is set by then.
    pub fn put(&self, turn: Turn, gone: Gone, work: impl FnOnce(&Pool) + Send + 'static) {
        let work = Box::new(work);
        self.inside().jobs.push_back(Job { work, gone, turn });
        self.inside.1.notify_one();
    }

    /// What waits for nobody goes.
    pub fn forget_gone(&self) {
        let mut inside = self.inside();
        let (gone, there): (Vec<Job>, Vec<Job>) = inside
            .jobs
            .drain(..)
            .partition(|job| job.gone.load(Ordering::Relaxed));
        inside.jobs = there.into();
        drop(inside);
        // Their turns end only now: they look inside too.
        drop(gone);
    }

    /// Asks, and waits for the answer as long as the client is there.
    pub fn ask(
        &self,
        who: &Who,
        door: &Arc<Door>,
        asks: Asks,
        json: bool,
        client: &UnixStream,
    ) -> Result<String, Unanswered> {
        let turn = self.turn(&who.account).map_err(Unanswered::Wrong)?;
        let (back, from) = sync_channel(1);
        let gone = Gone::default();
        let (door, inside) = (door.clone(), gone.clone());
        self.put(turn, gone.clone(), move |pool| {
            let engine = Pool::look(&door);
            let budget = pool.budget(&inside);
            let _ = back.send(engine.and_then(|e| answer(&door, e, &asks, json, &budget)));
        });
        loop {
            match from.recv_timeout(LOOK) {
                Ok(answer) => return answer.map_err(Unanswered::Wrong),
                Err(RecvTimeoutError::Disconnected) => break,
                Err(RecvTimeoutError::Timeout) if has_gone(client) => break,
                Err(RecvTimeoutError::Timeout) => {}
            }
        }
        gone.store(true, Ordering::Relaxed);
        self.forget_gone();
        Err(Unanswered::Gone)
    }

    /// Whether an account may ask a further question now; or why not.
    fn admit(&self, name: &Arc<str>) -> Result<(), String> {
        let mut inside = self.inside();
        if inside.jobs.len() >= MOST {
            return Err(format!("{MOST} questions wait already: ask again later"));
        }
        let now = Instant::now();
        // What nobody waits for and nobody used for a minute is forgotten.
        let old = |account: &Account| now.duration_since(account.since) >= MINUTE;
        inside
            .accounts
            .retain(|_, account| account.waiting > 0 || !old(account));
        let account = inside.accounts.entry(name.clone()).or_insert(Account {
            since: now,
            taken: Duration::ZERO,
            waiting: 0,
        });
        if old(account) {
            (account.since, account.taken) = (now, Duration::ZERO);
        }
        if account.waiting >= MOST_EACH {
            return Err(format!(
                "{MOST_EACH} questions of {name} wait already: ask again when they are answered"
            ));
        }
        if account.taken >= A_MINUTE {
            let left = MINUTE.saturating_sub(now.duration_since(account.since));
            return Err(format!(
                "the questions of {name} have taken {} s of this minute: ask again in {} s",
                account.taken.as_secs(),
                left.as_secs() + 1
            ));
        }
        account.waiting += 1;
        Ok(())
    }
}

/// Whether a client has gone altogether: one that only sends no more still waits for its answers.
fn has_gone(client: &UnixStream) -> bool {
    let mut looked = [PollFd::new(client.as_raw_fd(), PollFlags::empty())];
    let there = poll(&mut looked, 0);
    let gone = PollFlags::POLLHUP | PollFlags::POLLERR;
    there.is_ok() && looked[0].revents().is_some_and(|e| e.intersects(gone))
}

/// The answer, on one line.
pub fn answer(
    door: &Door,
    engine: Engine,
    asks: &Asks,
    json: bool,
    budget: &Budget,
) -> Result<String, String> {
    let mut desk = Desk::at(&door.policy, door.names(), engine);
    let mut out = Vec::new();
    let options = Options {
        list: None,
        budget,
        json,
    };
    let done: Done = match asks {
        Asks::Who(order, task) => finish::who(&desk, order, task, json, &mut out),
        Asks::Finish(order) => finish::finish_one(&desk, order, &options, &mut out),
        Asks::FinishAll => finish::finish_all(&desk, &options, &mut out),
        Asks::Why(line) => return explained(&mut desk, line, json),
        Asks::Journal(_) => return Err("the journal is read, and not asked".to_string()),
    };
    if let Err(Stop::Wrong(lines) | Stop::Refused(lines)) = done {
        return Err(lines.join("; "));
    }
    let text = String::from_utf8_lossy(&out);
    if json {
        let lines = text.lines();
        let objects = lines.filter_map(|line| serde_json::from_str::<Value>(line).ok());
        return Ok(Value::Array(objects.collect()).to_string());
    }
    let lines: Vec<&str> = text.lines().map(str::trim).collect();
    Ok(lines.join("; ").replace(":; ", ": "))
}

/// A record with the lowest number of its sort that is free.
fn numbered(desk: &Desk, sort: Sort, record: &[u8]) -> Vec<u8> {
    let in_use = |number: &u16| match sort {
        Sort::Order => desk.told.orders.contains_key(number),
        _ => desk.told.subjects.contains_key(number),
    };
    let number = (0..=sort.last()).find(|n| !in_use(n)).unwrap_or(0);
    let mut record = record.to_vec();
    record[2..4].copy_from_slice(&number.to_le_bytes());
    record
}

/// What a request would be answered now, and why.
fn explained(desk: &mut Desk, line: &str, json: bool) -> Result<String, String> {
    let read = form::of_line(line.as_bytes(), &Live::new(desk.names.clone()))?;
    let asked = read.ok_or("it is no request")?;
    let (record, choose) = (asked.bytes.as_ref().to_vec(), asked.choose);
    let record = choose.map_or(record.clone(), |sort| numbered(desk, sort, &record));
    let answer = desk.tried_bytes(&record);
    let (reply, place) = (answer.reply, answer.place as u16);
    let why = match answer.is_granted() {
        true => Vec::new(),
        false => why(desk, &record, answer).lines(desk),
    };
    if json {
        let (number, name) = (reply.number(), reply.name());
        return Ok(json!({"reply": number, "name": name, "rule": place, "why": why}).to_string());
    }
    let said = said((reply.number(), place));
    Ok(match why.is_empty() {
        true => said,
        false => format!("{said}: {}", why.join("; ")),
    })
}

#[cfg(test)]
mod tests {
    use super::*;

    #[test]
    fn a_question_is_a_question_or_tells_how_it_is_asked() {
        let of = |line: &str| of_line(line.as_bytes());
        let who = Asks::Who("mill".to_string(), "sign".to_string());
        assert_eq!(of("who mill sign # now"), Some(Ok(who)));
        assert_eq!(of("who mill"), Some(Err("who ORDER TASK")));
        assert_eq!(of("finish all"), Some(Ok(Asks::FinishAll)));
        assert_eq!(of("finish"), Some(Err("finish ORDER, or finish all")));
        let why = Asks::Why("claim 1 7 sign".to_string());
        assert_eq!(of("why claim 1 7 sign"), Some(Ok(why)));
        assert_eq!(of("whoever 7"), None);
        assert_eq!(of("claim 1 7 sign"), None);
    }

    #[test]
    fn an_account_has_few_questions_at_a_time() {
        let pool = Pool::new(Allowed {
            seconds: 1,
            bytes: 1 << 20,
        })
        .unwrap();
        let (anna, bert): (Arc<str>, Arc<str>) = ("anna".into(), "bert".into());
        for _ in 0..MOST_EACH {
            assert_eq!(pool.admit(&anna), Ok(()));
        }
        assert!(pool.admit(&anna).unwrap_err().contains("wait already"));
        assert_eq!(pool.admit(&bert), Ok(()));
        {
            let mut inside = pool.inside();
            let bert = inside.accounts.get_mut(&bert).unwrap();
            (bert.waiting, bert.taken) = (0, A_MINUTE);
        }
        assert!(pool.admit(&bert).unwrap_err().contains("of this minute"));
    }
}
