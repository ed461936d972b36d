//! A client that sends records and keeps what it sent and what it was answered.

use random::Random;
use records::{Record, Set, LENGTH};
use std::io::{self, Read, Write};
use std::os::unix::net::UnixStream;

/// A reply: the request's number, the reply, the rule's place.
#[derive(Clone, Copy, PartialEq, Eq, Debug)]
pub struct Reply {
    pub number: i64,
    pub reply: u8,
    pub place: u16,
    /// It was not done, and the server said so.
    pub not_done: bool,
}

/// What one connection sent and was answered, in order.
#[derive(Default)]
pub struct Life {
    /// Its first request names it.
    pub id: u32,
    pub sent: Vec<Record>,
    pub answered: Vec<Reply>,
}

/// The request that names a life: a check of a subject that is never live.
pub fn named(id: u32) -> Record {
    Record::check(127, id as u16, (id >> 16) as u16)
}

/// The life that a record names.
pub fn name_of(record: &Record) -> Option<u32> {
    let is = record.kind() == 56 && record.a() == 127;
    is.then_some(u32::from(record.b()) | u32::from(record.c()) << 16)
}

/// Requests of a clerk pair with an order of its own: most are sensible, some are refused.
pub struct Requests {
    random: Random,
    at: u16,
}

impl Requests {
    pub fn new(seed: u64, client: u16) -> Requests {
        Requests {
            random: Random::new(seed),
            at: client % 63,
        }
    }

    pub fn next(&mut self) -> Record {
        let subject = 2 * self.at + self.random.below(2) as u16;
        let (order, task) = (self.at, self.random.below(5) as u16);
        match self.random.below(40) {
            0 | 1 => Record::create_subject(subject, subject, Set::of(&[0])),
            2 => Record::destroy_subject(subject),
            3 | 4 => Record::open_order(order, 0),
            5 | 6 => Record::end_order(order),
            7 => Record::release(subject, order, task),
            8..=20 => Record::claim(subject, order, task),
            21..=33 => Record::done(subject, order, task),
            _ => Record::check(subject, 1, task),
        }
    }
}

pub struct Client {
    stream: UnixStream,
}

impl Client {
    pub fn new(stream: UnixStream) -> Client {
        Client { stream }
    }

    pub fn send(&mut self, records: &[Record]) -> io::Result<()> {
        let bytes: Vec<u8> = records.iter().flat_map(|record| record.0).collect();
        self.stream.write_all(&bytes)
    }

    pub fn reply(&mut self) -> io::Result<Reply> {
        let mut bytes = [0; LENGTH];
        self.stream.read_exact(&mut bytes)?;
        Ok(Reply {
            reply: bytes[0],
            not_done: bytes[1] != 0,
            place: u16::from_le_bytes([bytes[2], bytes[3]]),
            number: i64::from_le_bytes(bytes[8..].try_into().unwrap_or_default()),
        })
    }

    /// Asks until the server is gone, or `over`: that many requests at a time.
    pub fn live(
        mut self,
        id: u32,
        requests: &mut Requests,
        depth: usize,
        over: &dyn Fn() -> bool,
    ) -> Life {
        let mut life = Life {
            id,
            ..Life::default()
        };
        let mut batch = vec![named(id)];
        while !over() {
            life.sent.extend(&batch);
            if self.send(&batch).is_err() {
                return life;
            }
            for _ in 0..batch.len() {
                match self.reply() {
                    Ok(reply) => life.answered.push(reply),
                    Err(_) => return life,
                }
            }
            batch = (0..depth).map(|_| requests.next()).collect();
        }
        life
    }
}
