//! Clients taken, a thread each, as far as the machine bears them. Who cannot be taken is told so, and nobody waits for it.

use super::account::{peer, Gate};
use super::client;
use super::door::Door;
use super::meter::Meter;
use super::places::{Place, Places, Whose};
use super::question::Pool;
use crate::report::report;
use nix::sys::resource::{getrlimit, setrlimit, Resource};
use nix::unistd::Uid;
use std::collections::BTreeMap;
use std::fs::File;
use std::io::{self, Write};
use std::os::unix::net::{UnixListener, UnixStream};
use std::sync::atomic::{AtomicBool, AtomicI64, Ordering};
use std::sync::Arc;
use std::thread;
use std::time::Duration;

/// A client's thread needs little.
const STACK: usize = 1 << 20;

/// Memory that must be left when a client is taken, and what each client that is there may still take.
const LEFT: usize = 16 << 20;
const EACH: usize = 1 << 19;

/// Descriptors for the server itself, and for each desk.
const OWN: u64 = 24;
const OF_A_DESK: u64 = 10;

/// What every client's thread has.
pub struct House {
    pub desks: BTreeMap<String, Arc<Door>>,
    pub gate: Gate,
    pub pool: Pool,
    /// No further client comes.
    pub closing: AtomicBool,
    pub places: Arc<Places>,
    /// A client that takes no replies for so long is left, and so is a connection of HTTP on which nothing moves.
    pub patience: Duration,
    pub meter: Arc<Meter>,
    /// How many clients have come.
    came: AtomicI64,
}

impl House {
    pub fn new(
        desks: BTreeMap<String, Arc<Door>>,
        gate: Gate,
        pool: Pool,
        places: Arc<Places>,
        patience: Duration,
        meter: Arc<Meter>,
    ) -> House {
        House {
            desks,
            gate,
            pool,
            closing: AtomicBool::new(false),
            places,
            patience,
            meter,
            came: AtomicI64::new(0),
        }
    }

    /// The number of a client that comes, from 1.
    pub fn next_client(&self) -> i64 {
        self.came.fetch_add(1, Ordering::Relaxed) + 1
    }

    /// A place for a client; or why there is none.
    fn place(&self, uid: Uid) -> Result<Place, String> {
        let place = self.places.take(Whose::User(uid.as_raw()))?;
        match has_room(LEFT + self.places.taken() * EACH) {
            true => Ok(place),
            false => Err("the server has no memory left for a further client".to_string()),
        }
    }
}

/// Whether so many bytes could be had.
fn has_room(bytes: usize) -> bool {
    Vec::<u8>::new().try_reserve_exact(bytes).is_ok()
}

/// Tells a client why it cannot be taken, and leaves it. It is told what fits into its connection at once.
fn turned_away(mut stream: UnixStream, why: &str) {
    let _ = stream.set_nonblocking(true);
    let _ = writeln!(stream, "wrong: {why}");
}

/// Takes clients until the house is closing.
pub fn accept(listener: &UnixListener, house: &Arc<House>) {
    // A descriptor to spare: where none is left, a client is taken with it and told.
    let spare = || File::open("/dev/null").ok();
    let mut spared = spare();
    loop {
        let taken = listener.accept();
        if house.closing.load(Ordering::Relaxed) {
            return;
        }
        match taken {
            Ok((stream, _)) => {
                take(stream, house.next_client(), house);
            }
            // The system looks for a free descriptor before it waits for a client: whether there is one by then shows afterwards.
            Err(why) if is_full(&why) => {
                drop(spared.take());
                let taken = listener.accept();
                spared = spare();
                match (taken, &spared) {
                    (Ok((stream, _)), Some(_)) => {
                        take(stream, house.next_client(), house);
                    }
                    (Ok((stream, _)), None) => {
                        let told = "the server has no descriptor left for a further client";
                        turned_away(stream, told);
                        report(format!("a client could not be taken: {why}"));
                        spared = spare();
                    }
                    (Err(_), _) => thread::sleep(Duration::from_millis(50)),
                }
            }
            Err(why) => {
                report(format!("a client could not be taken: {why}"));
                thread::sleep(Duration::from_millis(100));
            }
        }
    }
}

fn is_full(why: &io::Error) -> bool {
    use nix::errno::Errno;
    let why = why.raw_os_error();
    why == Some(Errno::EMFILE as i32) || why == Some(Errno::ENFILE as i32)
}

fn take(stream: UnixStream, number: i64, house: &Arc<House>) {
    let uid = match peer(&stream) {
        Ok(uid) => uid,
        Err(why) => {
            return turned_away(
                stream,
                &format!("the system does not say who you are: {why}"),
            )
        }
    };
    let place = match house.place(uid) {
        Ok(place) => place,
        Err(why) => return turned_away(stream, &why),
    };
    let stream = Arc::new(stream);
    let (kept, inside) = (stream.clone(), house.clone());
    let work = move || {
        let _place = place;
        let _ = client::serve(&stream, number, uid, &inside);
    };
    let started = thread::Builder::new().stack_size(STACK).spawn(work);
    if let Err(why) = started {
        let _ = writeln!(
            &*kept,
            "wrong: the server has no thread left for a further client: {why}"
        );
    }
}

/// Raises how many descriptors may be open as far as the system lets it; the clients that there may be by that, and what to tell.
pub fn descriptors(clients: usize, desks: usize, http: usize) -> (usize, Option<String>) {
    let own = OWN + OF_A_DESK * desks as u64 + http as u64;
    let wanted = own + clients as u64;
    let Ok((mut soft, hard)) = getrlimit(Resource::RLIMIT_NOFILE) else {
        return (clients, None);
    };
    let more = wanted.min(hard);
    if soft < more && setrlimit(Resource::RLIMIT_NOFILE, more, hard).is_ok() {
        soft = more;
    }
    if soft >= wanted {
        return (clients, None);
    }
    let fewer = soft.saturating_sub(own).max(1) as usize;
    let told = format!(
        "{clients} clients need {wanted} open files, and {soft} may be open (ulimit -n): {fewer} clients are taken"
    );
    (fewer, Some(told))
}
