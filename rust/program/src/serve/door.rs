//! What clients have of a desk: the way to its thread, the names to read lines with, and that it has ended.

use super::account::Who;
use super::feed::Feed;
use super::group::Waiting;
use crate::journal::{Barred, Live};
use crate::names::Names;
use crate::source::Policy;
use records::Record;
use std::collections::BTreeMap;
use std::net::Shutdown;
use std::os::unix::net::UnixStream;
use std::sync::mpsc::{sync_channel, Sender};
use std::sync::{Arc, Mutex, MutexGuard, PoisonError, RwLock, RwLockReadGuard};
use std::time::{Duration, Instant};

pub struct Door {
    pub name: String,
    pub to: Sender<Waiting>,
    /// The names as of the last answered request, which clients' lines are read with.
    pub live: Arc<RwLock<Live>>,
    pub policy: Policy,
    /// The journal's file; none where nothing survives.
    pub journal: Option<String>,
    /// What the desk's thread says.
    pub feed: Arc<Feed>,
    inside: Mutex<Inside>,
}

#[derive(Default)]
struct Inside {
    /// Why the desk has ended.
    ended: Option<String>,
    /// The server that has it, where that is another.
    elsewhere: Option<String>,
    /// The clients that are there, by number.
    clients: BTreeMap<i64, Arc<UnixStream>>,
    /// When the journal last kept that an account without authority came.
    strangers: BTreeMap<Arc<str>, Instant>,
}

/// How often it is kept that the same stranger came, so that nobody fills a disk by coming.
const MINUTE: Duration = Duration::from_secs(60);

/// What is reported of a desk that another server has.
fn served_by(name: &str, server: &str) -> String {
    format!("desk {name} is served by {server}")
}

/// A client that is at a desk as long as this lives.
pub struct Entered {
    door: Arc<Door>,
    number: i64,
}

impl Drop for Entered {
    fn drop(&mut self) {
        self.door.inside().clients.remove(&self.number);
    }
}

impl Door {
    pub fn new(
        name: String,
        to: Sender<Waiting>,
        live: Arc<RwLock<Live>>,
        policy: Policy,
        journal: Option<String>,
        feed: Arc<Feed>,
    ) -> Door {
        Door {
            name,
            to,
            live,
            policy,
            journal,
            feed,
            inside: Mutex::default(),
        }
    }

    fn inside(&self) -> MutexGuard<'_, Inside> {
        self.inside.lock().unwrap_or_else(PoisonError::into_inner)
    }

    pub fn live(&self) -> RwLockReadGuard<'_, Live> {
        self.live.read().unwrap_or_else(PoisonError::into_inner)
    }

    pub fn names(&self) -> Names {
        self.live().names.clone()
    }

    /// A client comes in; or why it cannot.
    pub fn enter(
        self: &Arc<Door>,
        number: i64,
        stream: &Arc<UnixStream>,
    ) -> Result<Entered, String> {
        let mut inside = self.inside();
        if let Some(why) = &inside.ended {
            return Err(why.clone());
        }
        if let Some(server) = &inside.elsewhere {
            return Err(served_by(&self.name, server));
        }
        inside.clients.insert(number, stream.clone());
        let door = self.clone();
        Ok(Entered { door, number })
    }

    /// Another server has the desk, or this one has it from now on.
    pub fn is_at(&self, server: Option<String>) {
        self.inside().elsewhere = server;
    }

    /// Where the desk is, as those are told who ask for it here; none where it is here.
    pub fn elsewhere(&self) -> Option<String> {
        let inside = self.inside();
        let server = inside.elsewhere.as_ref()?;
        Some(served_by(&self.name, server))
    }

    pub fn ended(&self) -> Option<String> {
        self.inside().ended.clone()
    }

    /// The desk has ended: whoever is there reads no further, is told and leaves.
    pub fn end(&self, why: &str) {
        let mut inside = self.inside();
        inside.ended.get_or_insert_with(|| why.to_string());
        for stream in inside.clients.values() {
            let _ = stream.shutdown(Shutdown::Read);
        }
    }

    /// Whether it is to be kept that this stranger came: once a minute.
    pub fn is_news(&self, account: &Arc<str>) -> bool {
        let (mut inside, now) = (self.inside(), Instant::now());
        let strangers = &mut inside.strangers;
        strangers.retain(|_, at| now.duration_since(*at) < MINUTE);
        match strangers.contains_key(account) {
            true => false,
            false => strangers.insert(account.clone(), now).is_none(),
        }
    }

    /// Whether an account may make a request, as the desk is now; or why not.
    pub fn may(&self, who: &Who, record: Record) -> Result<(), String> {
        let (to, from) = sync_channel(1);
        let ended = |_| "the desk has ended".to_string();
        self.to.send(Waiting::Look(to)).map_err(|_| ended(()))?;
        let engine = from.recv().map_err(|_| ended(()))?;
        who.may(&record, &self.live(), &engine.state().sessions)
    }

    /// Has the journal keep what an account may not ask; whether it is there.
    pub fn keep(&self, barred: Barred) -> bool {
        let (to, kept) = sync_channel(1);
        let sent = self.to.send(Waiting::Barred(Box::new(barred), to));
        sent.is_ok() && kept.recv() == Ok(true)
    }
}
