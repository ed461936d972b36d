//! `serve`: desks on a socket. Many clients, one engine a desk; every request is in the desk's journal before it is answered.
//! docs/SERVE.md tells the forms, the journal's tables and what is promised when something fails.

mod accept;
mod access;
mod account;
mod client;
mod door;
mod feed;
mod form;
mod greeting;
mod group;
mod http;
mod input;
mod keys;
mod listen;
mod meter;
mod places;
mod question;
mod standby;

pub use account::own_account;
pub use http::{decoded, Tls, Wanted as Http};
pub use listen::Socket;
pub use question::Allowed;

use crate::journal::{self, Found, How, Live, Saved, Sight, Takeover, Watch, Writes};
use crate::names::Sort;
use crate::report::{self, failed, log, report, Level};
use crate::source::Policy;
use crate::stop::{wrong, Done, Stop, REFUSED, WELL};
use accept::House;
use access::{Access, Whose as User};
use account::Gate;
use door::Door;
use feed::{Feed, Seen};
use group::{Served, Waiting};
use meter::Meter;
use mishantral::Engine;
use nix::sys::signal::{SigSet, Signal};
use nix::unistd::Uid;
use places::{Limits, Places};
use question::Pool;
use serde_json::json;
use standby::Standby;
use std::collections::BTreeMap;
use std::io::Write;
use std::sync::atomic::{AtomicU64, Ordering};
use std::sync::mpsc::{channel, Receiver};
use std::sync::{Arc, RwLock};
use std::thread;
use std::time::{Duration, Instant};

/// A desk to serve.
pub struct Wanted {
    pub name: String,
    /// None where nothing is to survive; then the policy says what is served.
    pub journal: Option<String>,
    /// It is the only one.
    pub alone: bool,
}

pub struct Options {
    pub desks: Vec<Wanted>,
    pub policy: Option<Policy>,
    /// Where clients come: a socket, HTTP, or both.
    pub socket: Option<Socket>,
    pub http: Option<Http>,
    /// The access file; without one the server's own account and root speak for everyone, and nobody else comes in.
    pub access: Option<String>,
    /// How many requests go into one transaction at most.
    pub group: usize,
    /// After how many requests a snapshot is taken.
    pub snapshot: i64,
    pub saved: Saved,
    /// How desks are taken that another server had.
    pub takeover: Takeover,
    /// Desks that another server has are watched, and taken over when that is silent.
    pub standby: bool,
    /// For how long a key is honoured, in microseconds.
    pub keys: i64,
    /// How many clients there may be at once, and of one account.
    pub clients: usize,
    pub clients_each: Option<usize>,
    /// For how long a connection is kept on which nothing moves.
    pub patience: Duration,
    /// What a question may take.
    pub questions: Allowed,
    /// Where one desk ends, all do.
    pub together: bool,
    /// What is told on standard error, and how.
    pub log: report::How,
}

pub fn serve(options: &Options, out: &mut dyn Write) -> Done {
    // Nobody may read what is told here; that ends nothing.
    let mut tell = |line: &str| drop(writeln!(out, "{line}").and_then(|()| out.flush()));
    let ends = ends_asked_for().map_err(|why| cannot("the signals cannot be waited for", &why))?;
    report::written(options.log);
    report::in_background().map_err(|why| threads(&why))?;
    let pool = Pool::new(options.questions).map_err(|why| threads(&why))?;
    let meter = Meter::new().map_err(|why| cannot("the figures cannot be kept", &why))?;
    let gate = gate(options)?;
    let (mut desks, mut served) = (BTreeMap::new(), Vec::new());
    for wanted in &options.desks {
        if desks.contains_key(&wanted.name) {
            return wrong(format!("desk {}: it is named twice", wanted.name));
        }
        let (door, desk, waiting, line) = opened(options, wanted, &pool.answered, &meter)?;
        tell(&line);
        unknown_users(&gate, &door);
        desks.insert(wanted.name.clone(), door.clone());
        served.push((door, desk, waiting));
    }
    let listening = options.socket.as_ref().map(listen::listen).transpose()?;
    let by_http = |wanted: &Http| http::open(wanted, options.access.is_some());
    let by_http = options.http.as_ref().map(by_http).transpose()?;
    let connections = options.http.as_ref().map_or(0, |wanted| wanted.connections);
    let (clients, told) = accept::descriptors(options.clients, desks.len(), connections);
    told.iter().for_each(report);
    let each = options.clients_each.unwrap_or(clients.div_ceil(2));
    let limits = Limits { all: clients, each };
    let places = Places::new("clients", limits);
    let (patience, meter) = (options.patience, Arc::new(meter));
    let house = Arc::new(House::new(desks, gate, pool, places, patience, meter));
    let (ended, came) = channel();
    for (door, desk, waiting) in served {
        let ended = ended.clone();
        let work = move || {
            let why = match desk {
                Desk::Here(served) => group::work(*served, waiting),
                Desk::Elsewhere(standing) => {
                    let (standby, begin) = *standing;
                    match standby.until_taken(&waiting) {
                        Ok(Some((journal, found))) => {
                            let served = begin.served(door.journal.as_deref(), journal, found);
                            door.is_at(None);
                            group::work(served, waiting)
                        }
                        Ok(None) => Ok(()),
                        Err(why) => Err(why),
                    }
                }
            };
            let _ = ended.send((door, why));
        };
        started(work)?;
    }
    let mut at = Vec::new();
    let serving = by_http.map(|opened| {
        at.push(opened.told());
        http::start(opened, &house).map_err(|why| threads(&why))
    });
    let serving = serving.transpose()?.map(Arc::new);
    let listening = listening.map(Arc::new);
    if let Some(accepting) = listening.clone() {
        let taking = house.clone();
        started(move || accept::accept(&accepting.listener, &taking))?;
    }
    let (waiting, by_http) = (house.clone(), serving.clone());
    started(move || {
        if ends.wait().is_ok() {
            listening.iter().for_each(|listening| listening.remove());
            by_http.iter().for_each(|serving| serving.close());
            close(&waiting);
        }
    })?;
    at.extend(options.socket.as_ref().map(|socket| socket.path.clone()));
    for (name, door) in &house.desks {
        let last = *door.feed.last.borrow();
        let fields = [
            ("desk", json!(http::shown(name))),
            ("journal", json!(door.journal)),
            ("last", json!(last)),
        ];
        log(Level::Info, "desk", &fields);
    }
    log(Level::Info, "serving", &[("at", json!(at.join(" and ")))]);
    tell(&format!("serving on {}", at.join(" and ")));
    let status = until_all_end(&house, &came, options.together);
    serving.iter().for_each(|serving| serving.close());
    answered(&house, serving.as_deref());
    log(Level::Info, "ended", &[("status", json!(status))]);
    Ok(status)
}

fn started(work: impl FnOnce() + Send + 'static) -> Result<(), Stop> {
    let started = thread::Builder::new().spawn(work);
    started.map(drop).map_err(|why| threads(&why))
}

/// Replies that are on their way are sent, if that takes no longer than two seconds.
fn answered(house: &House, serving: Option<&http::Serving>) {
    let began = Instant::now();
    let left = || house.places.taken() + serving.map_or(0, |serving| serving.connections());
    while left() > 0 && began.elapsed() < Duration::from_secs(2) {
        thread::sleep(Duration::from_millis(5));
    }
}

/// A desk that has ended, and how.
type Ended = (Arc<Door>, Result<(), String>);

/// Waits until every desk has ended: one whose journal failed alone, the others go on unless they are to end together.
fn until_all_end(house: &Arc<House>, came: &Receiver<Ended>, together: bool) -> u8 {
    let mut status = WELL;
    for (door, how) in came.iter().take(house.desks.len()) {
        let called = match door.name.as_str() {
            "" => "the desk".to_string(),
            name => format!("desk {name}"),
        };
        match how {
            Ok(()) => door.end(&format!("{called} has ended")),
            Err(why) => {
                status = REFUSED;
                let why = format!("{called} has ended, since its journal failed: {why}");
                failed(&why);
                door.end(&why);
                if together {
                    close(house);
                }
            }
        }
    }
    status
}

/// No further client comes, and every desk ends when it has answered what it is at.
fn close(house: &House) {
    house.closing.store(true, Ordering::Relaxed);
    for door in house.desks.values() {
        let _ = door.to.send(Waiting::End);
    }
}

/// The signals that ask for an end, which no thread takes but the one that waits for them.
fn ends_asked_for() -> nix::Result<SigSet> {
    let mut ends = SigSet::empty();
    ends.add(Signal::SIGTERM);
    ends.add(Signal::SIGINT);
    ends.thread_block()?;
    Ok(ends)
}

fn gate(options: &Options) -> Result<Gate, Stop> {
    match &options.access {
        Some(file) => Access::read(file).map(Gate::Listed),
        None => Ok(Gate::Owner(Uid::effective())),
    }
}

/// A user whom the access file names and nobody has declared is told: it may be added later, or be a slip.
fn unknown_users(gate: &Gate, door: &Door) {
    let Gate::Listed(access) = gate else {
        return;
    };
    let names = door.names();
    for (account, whose) in access.users() {
        let User::Name(name) = whose else {
            continue;
        };
        if names.number(Sort::User, name).is_none() {
            let name = String::from_utf8_lossy(name);
            report(format!(
                "account {account} is user {name}, and there is no such user now"
            ));
        }
    }
}

fn cannot(what: &str, why: &dyn std::fmt::Display) -> Stop {
    Stop::Wrong(vec![format!("{what}: {why}")])
}

fn threads(why: &std::io::Error) -> Stop {
    cannot("a thread cannot be started", why)
}

/// A desk's work: at once, or when it was taken over.
enum Desk {
    Here(Box<Served>),
    Elsewhere(Box<(Standby, Begin)>),
}

/// What a desk's work begins with, beside its journal.
struct Begin {
    shared: Arc<RwLock<Live>>,
    most: usize,
    answered: Arc<AtomicU64>,
    pulse: Duration,
    keys: i64,
    feed: Arc<Feed>,
}

impl Begin {
    /// The work at a desk that was taken over.
    fn served(self, place: Option<&str>, journal: Box<dyn Writes>, found: Found) -> Served {
        *self.shared.write().unwrap_or_else(|e| e.into_inner()) = found.live.clone();
        self.feed.taken(place, &found);
        self.of(found.engine, Some(journal), found.live, found.last)
    }

    fn of(self, engine: Engine, journal: Option<Box<dyn Writes>>, live: Live, last: i64) -> Served {
        Served {
            engine,
            journal,
            live,
            shared: self.shared,
            most: self.most,
            last,
            answered: self.answered,
            pulse: self.pulse,
            keys: self.keys,
            remembered: Default::default(),
            feed: self.feed,
        }
    }
}

type Opened = (Arc<Door>, Desk, Receiver<Waiting>, String);

/// Reads a desk's journal, which is begun where there is none.
fn opened(
    options: &Options,
    wanted: &Wanted,
    answered: &Arc<AtomicU64>,
    meter: &Meter,
) -> Result<Opened, Stop> {
    let start = match &wanted.journal {
        Some(place) => from_journal(options, wanted, place)?,
        None => without(options)?,
    };
    let shared = Arc::new(RwLock::new(start.live.clone()));
    let last = match &start.whose {
        Whose::Ours(_, _, last) => *last,
        Whose::Anothers(..) => 0,
    };
    let seen = options.http.as_ref().map(|_| match &wanted.journal {
        Some(place) => Seen::read(place, &start.live),
        None => Seen::default(),
    });
    let feed = Arc::new(Feed::new(http::shown(&wanted.name), meter, last, seen));
    let begin = Begin {
        shared: shared.clone(),
        most: options.group,
        answered: answered.clone(),
        pulse: (options.takeover.silent / 4).min(Duration::from_secs(1)),
        keys: options.keys,
        feed: feed.clone(),
    };
    let (to, waiting) = channel();
    let (name, place) = (wanted.name.clone(), wanted.journal.clone());
    let door = Arc::new(Door::new(name, to, shared, start.policy, place, feed));
    let desk = match start.whose {
        Whose::Ours(engine, journal, last) => {
            Desk::Here(Box::new(begin.of(*engine, journal, start.live, last)))
        }
        Whose::Anothers(watched, server) => {
            let (watch, how) = *watched;
            door.is_at(Some(server));
            let door = door.clone();
            let standby = Standby { watch, how, door };
            Desk::Elsewhere(Box::new((standby, begin)))
        }
    };
    Ok((door, desk, waiting, start.line))
}

/// A desk as it is found at a start.
struct Start {
    policy: Policy,
    live: Live,
    whose: Whose,
    /// What is told of it.
    line: String,
}

enum Whose {
    Ours(Box<Engine>, Option<Box<dyn Writes>>, i64),
    /// Another server's, of this name.
    Anothers(Box<(Watch, How)>, String),
}

fn from_journal(options: &Options, wanted: &Wanted, place: &str) -> Result<Start, Stop> {
    let begun = !journal::is_there(place)?;
    if begun {
        let Some(policy) = &options.policy else {
            return wrong(format!(
                "{}: there is no journal, and no policy to begin one with",
                journal::shown(place)
            ));
        };
        if let Err(refused) = journal::begin(place, policy)? {
            return Err(Stop::Refused(crate::check::refusal(policy, refused)));
        }
    }
    // Of several desks, those that are there may have policies of their own: POLICY is for the missing ones.
    let alone = wanted.name.is_empty() || wanted.alone;
    let how = How {
        every: options.snapshot,
        saved: options.saved,
        policy: options.policy.clone().filter(|_| alone),
        takeover: options.takeover.clone(),
    };
    let name = if wanted.name.is_empty() {
        place
    } else {
        &wanted.name
    };
    let (journal, found) = match options.standby {
        false => journal::open(place, &how)?,
        true => match stood_by(place, name, how)? {
            Ok(here) => here,
            Err(start) => return Ok(*start),
        },
    };
    let line = match begun {
        true => format!("{name}: begun"),
        false => format!(
            "{name}: {} requests, {} of them asked anew, all answered as before",
            found.last, found.replayed
        ),
    };
    Ok(Start {
        policy: found.policy,
        live: found.live,
        whose: Whose::Ours(Box::new(found.engine), Some(journal), found.last),
        line,
    })
}

/// Takes a desk that nobody serves; one that another server has is watched from now on.
fn stood_by(place: &str, name: &str, how: How) -> Result<Result<standby::Here, Box<Start>>, Stop> {
    if !journal::is_database(place) {
        return wrong(format!(
            "{place}: --standby: a journal in a file has one server; one in PostgreSQL may have more (docs/SCALE.md)"
        ));
    }
    let mut watch = Watch::new(place)?;
    let refused = |why: String| Stop::Refused(vec![format!("{}: {why}", journal::shown(place))]);
    let server = match watch.look(&how)? {
        Sight::Taken(taken) => {
            let (journal, found) = *taken;
            return Ok(Ok((Box::new(journal), found)));
        }
        Sight::Nothing(why) => return Err(refused(why)),
        Sight::Elsewhere(server) => server,
    };
    let head = journal::reading(place)?.head();
    let policy = head.map_err(|journal::Unfit(why)| refused(why))?.policy;
    Ok(Err(Box::new(Start {
        live: Live::new(policy.names.clone()),
        policy,
        line: format!("{name}: standing by; it is served by {server}"),
        whose: Whose::Anothers(Box::new((watch, how)), server),
    })))
}

fn without(options: &Options) -> Result<Start, Stop> {
    let Some(policy) = &options.policy else {
        return wrong("a policy or a journal is needed");
    };
    let mut engine = Engine::new();
    if let Err(refused) = engine.load(&policy.bytes) {
        return Err(Stop::Refused(crate::check::refusal(policy, refused)));
    }
    Ok(Start {
        policy: policy.clone(),
        live: Live::new(policy.names.clone()),
        whose: Whose::Ours(Box::new(engine), None, 0),
        line: format!("{}: without a journal: nothing survives", policy.file),
    })
}
