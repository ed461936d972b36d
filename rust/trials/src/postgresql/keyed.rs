//! Clients that send again what was not answered, with its key, to whichever server has the desk; and what the journal must have of them.

use super::base::psql;
use crate::client::Requests;
use records::{Record, LENGTH};
use std::collections::BTreeMap;
use std::io::{self, Read, Write};
use std::os::unix::net::UnixStream;
use std::path::PathBuf;
use std::sync::atomic::{AtomicBool, Ordering};
use std::sync::{Arc, Mutex, PoisonError};
use std::thread::{self, JoinHandle};
use std::time::{Duration, Instant};

/// How long a request is sent again and again.
const PATIENCE: Duration = Duration::from_secs(180);

/// A request, and the answer that it was given: number, reply, place.
#[derive(Clone)]
pub struct Sent {
    pub key: String,
    pub record: Record,
    pub answer: (i64, u8, u16),
}

/// What one client sent and was answered, in its order.
#[derive(Default)]
pub struct Told {
    pub sent: Vec<Sent>,
    /// How often it connected, and how many requests it sent again.
    pub connected: u64,
    pub again: u64,
    /// The longest that an answer took.
    pub worst: Duration,
}

/// Clients at work.
pub struct Crowd {
    over: Arc<AtomicBool>,
    clients: Vec<JoinHandle<Result<Told, String>>>,
    /// When the last answer came.
    pub last: Arc<Mutex<Instant>>,
}

impl Crowd {
    /// So many clients, who find the desk at one of these sockets.
    pub fn new(sockets: &[PathBuf], clients: usize, seed: u64, name: &str) -> Crowd {
        let over = Arc::new(AtomicBool::new(false));
        let last = Arc::new(Mutex::new(Instant::now()));
        let one = |at: usize| {
            let (sockets, over, last) = (sockets.to_vec(), over.clone(), last.clone());
            let name = format!("{name}-{at}");
            thread::spawn(move || lived(&sockets, &name, seed + at as u64, at, &over, &last))
        };
        Crowd {
            clients: (0..clients).map(one).collect(),
            over,
            last,
        }
    }

    /// Waits until an answer comes that is later than a moment; when it came.
    pub fn answered_after(&self, moment: Instant) -> Option<Duration> {
        while moment.elapsed() < PATIENCE {
            let last = *self.last.lock().unwrap_or_else(PoisonError::into_inner);
            if last > moment {
                return Some(last - moment);
            }
            thread::sleep(Duration::from_millis(1));
        }
        None
    }

    /// Ends when every request is answered.
    pub fn end(self) -> Result<Vec<Told>, String> {
        self.over.store(true, Ordering::Relaxed);
        let mut all = Vec::new();
        for client in self.clients {
            all.push(client.join().map_err(|_| "a client failed".to_string())??);
        }
        Ok(all)
    }
}

/// Connects to whoever has the desk, in the form with keys.
fn connected(sockets: &[PathBuf]) -> io::Result<UnixStream> {
    let mut why = io::Error::other("no socket");
    for socket in sockets {
        let asked = UnixStream::connect(socket).and_then(|mut stream| {
            // A server that is stopped takes connections, and says nothing.
            stream.set_read_timeout(Some(Duration::from_millis(500)))?;
            stream.write_all(b"keyed\n")?;
            let mut told = [0; 6];
            stream.read_exact(&mut told)?;
            stream.set_read_timeout(Some(Duration::from_secs(2)))?;
            match &told == b"keyed\n" {
                true => Ok(stream),
                false => Err(io::Error::other("it is not there")),
            }
        });
        match asked {
            Ok(stream) => return Ok(stream),
            Err(failed) => why = failed,
        }
    }
    Err(why)
}

fn lived(
    sockets: &[PathBuf],
    name: &str,
    seed: u64,
    at: usize,
    over: &AtomicBool,
    last: &Mutex<Instant>,
) -> Result<Told, String> {
    let mut requests = Requests::new(seed, at as u16);
    let mut told = Told::default();
    let mut stream: Option<UnixStream> = None;
    let depth = 1 + at % 7;
    while !over.load(Ordering::Relaxed) {
        let from = told.sent.len();
        for _ in 0..depth {
            told.sent.push(Sent {
                key: format!("{name}-{}", told.sent.len()),
                record: requests.next(),
                answer: (0, 0, 0),
            });
        }
        let (mut next, began) = (from, Instant::now());
        while next < told.sent.len() {
            if began.elapsed() > PATIENCE {
                return Err(format!("{} was never answered", told.sent[next].key));
            }
            if stream.is_none() {
                let Ok(there) = connected(sockets) else {
                    thread::sleep(Duration::from_millis(5));
                    continue;
                };
                stream = Some(there);
                // Whoever connects for the first time sends nothing again.
                if told.connected > 0 {
                    told.again += (told.sent.len() - next) as u64;
                }
                told.connected += 1;
            }
            let done = asked(&mut stream, &mut told.sent[next..]);
            next += done.unwrap_or(0);
        }
        told.worst = told.worst.max(began.elapsed());
        *last.lock().unwrap_or_else(PoisonError::into_inner) = Instant::now();
    }
    Ok(told)
}

/// Sends requests and takes their answers, as many as come; the connection is gone where it broke.
fn asked(stream: &mut Option<UnixStream>, all: &mut [Sent]) -> io::Result<usize> {
    let Some(mut there) = stream.take() else {
        return Ok(0);
    };
    let mut bytes = Vec::new();
    for one in all.iter() {
        bytes.extend(one.record.0);
        bytes.push(one.key.len() as u8);
        bytes.extend(one.key.as_bytes());
    }
    there.write_all(&bytes)?;
    for (at, one) in all.iter_mut().enumerate() {
        let mut reply = [0; LENGTH];
        if there.read_exact(&mut reply).is_err() {
            return Ok(at);
        }
        // Not done: it is sent again.
        if reply[1] != 0 {
            return Ok(at);
        }
        let number = i64::from_le_bytes(reply[8..].try_into().unwrap_or_default());
        one.answer = (number, reply[0], u16::from_le_bytes([reply[2], reply[3]]));
    }
    *stream = Some(there);
    Ok(all.len())
}

/// How many requests were answered, and how many were sent again.
#[derive(Clone, Copy, Default)]
pub struct Met {
    pub answered: u64,
    pub again: u64,
    pub worst: Duration,
}

impl Met {
    /// In words.
    pub fn said(&self) -> String {
        let Met {
            answered,
            again,
            worst,
        } = self;
        format!(
            "{answered} requests answered, each in the journal once, in order and with its reply; {again} were sent again with their keys; the longest wait was {:.1} s",
            worst.as_secs_f64()
        )
    }

    pub fn add(&mut self, other: Met) {
        self.answered += other.answered;
        self.again += other.again;
        self.worst = self.worst.max(other.worst);
    }
}

/// Each request that was answered is in the journal once, with the answer that was given, and a client's requests are there in their order.
/// Whatever else is there was sent by nobody. It is read with SQL, by psql.
pub fn compared(address: &str, desk: &str, after: i64, all: &[Told]) -> Result<(Met, i64), String> {
    let sql = format!(
        "SELECT key, number, kind, n, a, b, c, m, reply, place FROM mishantral.request WHERE desk = '{desk}' AND number > {after} ORDER BY number"
    );
    let text = psql(address, &sql)?;
    let mut rows: BTreeMap<&str, (Record, (i64, u8, u16))> = BTreeMap::new();
    let mut last = after;
    for line in text.lines() {
        let mut words = line.split('|');
        let key = words.next().unwrap_or_default();
        let number: Vec<i64> = words.filter_map(|word| word.parse().ok()).collect();
        let [number, kind, n, a, b, c, m, reply, place] = number[..] else {
            return Err(format!("the journal has {line:?}"));
        };
        if number != last + 1 {
            return Err(format!("request {} is missing", last + 1));
        }
        last = number;
        let record = Record::new(kind as u8, n as u8, a as u16, b as u16, c as u16, m as u64);
        let row = (record, (number, reply as u8, place as u16));
        if rows.insert(key, row).is_some() {
            return Err(format!("{key} is there twice"));
        }
    }
    let mut met = Met::default();
    for told in all {
        let mut before = 0;
        for one in &told.sent {
            match rows.remove(one.key.as_str()) {
                None => return Err(format!("{} was answered, and is lost", one.key)),
                Some(row) if row != (one.record, one.answer) => {
                    return Err(format!(
                        "{} was answered {:?}, and the journal has {row:?}",
                        one.key, one.answer
                    ))
                }
                Some(_) if one.answer.0 <= before => {
                    return Err(format!("{} is not in its order", one.key))
                }
                Some(_) => before = one.answer.0,
            }
            met.answered += 1;
        }
        met.again += told.again;
        met.worst = met.worst.max(told.worst);
    }
    match rows.keys().next() {
        Some(key) => Err(format!("the journal has {key}, which nobody sent")),
        None => Ok((met, last)),
    }
}
