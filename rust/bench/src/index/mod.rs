//! A second plain engine, written for speed alone. It measures how fast the rules can be answered.
//!
//! A perfect hash, built in the load, finds a pair of operation and object by one multiplication and one probe. One table of
//! masks checks a record's form, because every limit is a power of two. Whatever a request needs is computed when tables change:
//! a subject's active roles with all roles below them, an order's held and done tasks, the holder of each, and the blocks of an
//! object in all walls in one word. Replies are selected without branches where a branch could not be predicted.
//!
//! The caller lends no buffers, so no call answers ROOM. The engine shares no code with `rust/plain`.

mod blocks;
mod forms;
mod limits;
mod orders;
mod perfect;
mod policy;
mod sessions;

use differential::{Answer, Desk};
use forms::{Record, POLICY, REQUESTS};
use orders::Orders;
use policy::Policy;
use sessions::Sessions;

/// The replies by number, as in document 01.
mod reply {
    pub const GRANTED: u32 = 0;
    pub const ROOM: u32 = 1;
    pub const SHAPE: u32 = 2;
    pub const RANGE: u32 = 3;
    pub const UNKNOWN: u32 = 4;
    pub const TAKEN: u32 = 5;
    pub const IN_USE: u32 = 6;
    pub const RULE: u32 = 7;
    pub const NOT_ASSIGNED: u32 = 8;
    pub const STATIC: u32 = 9;
    pub const DYNAMIC: u32 = 10;
    pub const NO_ROLE: u32 = 11;
    pub const NOT_YOURS: u32 = 12;
    pub const DENIED: u32 = 13;
    pub const BEFORE: u32 = 14;
    pub const SEPARATION: u32 = 15;
    pub const BLOCK: u32 = 16;
    pub const ALONE: u32 = 17;
    pub const BOUND: u32 = 18;
    pub const COUNT: u32 = 19;
    pub const FULL: u32 = 20;
    pub const LOOP: u32 = 23;
    pub const WALL: u32 = 24;
}
use reply::*;

/// The one-member set of role, task or template `i`.
fn bit(i: usize) -> u64 {
    1 << (i & 63)
}

/// Whether the set has `i`.
fn has(set: u64, i: usize) -> bool {
    set >> (i & 63) & 1 != 0
}

/// The members of a set, in ascending order.
fn members(mut set: u64) -> impl Iterator<Item = usize> {
    std::iter::from_fn(move || {
        let lowest = (set != 0).then(|| set.trailing_zeros() as usize)?;
        set &= set - 1;
        Some(lowest)
    })
}

/// The first of two replies that is not GRANTED; selected without a branch.
fn or_else(first: u32, then: u32) -> u32 {
    if first != GRANTED {
        first
    } else {
        then
    }
}

/// `reply` if it applies, else GRANTED.
fn when(applies: bool, reply: u32) -> u32 {
    if applies {
        reply
    } else {
        GRANTED
    }
}

/// A policy, its sessions and its orders.
#[derive(Clone)]
pub struct Index {
    policy: Box<Policy>,
    sessions: Box<Sessions>,
    orders: Box<Orders>,
}

impl Default for Index {
    fn default() -> Self {
        Self::new()
    }
}

impl Index {
    /// An engine without a policy.
    pub fn new() -> Index {
        Index {
            policy: Box::new(Policy::empty()),
            sessions: Box::new(Sessions::empty()),
            orders: Box::new(Orders::empty()),
        }
    }

    fn clear(&mut self) {
        self.policy.clear();
        self.sessions.clear();
        self.orders.clear();
    }

    /// Loads a policy. Returns the reply, and the place of the refused record, or 0.
    fn load(&mut self, policy: &[u8]) -> (u32, usize) {
        self.clear();
        for (before, bytes) in policy.chunks(16).enumerate() {
            let reply = match POLICY.judge(bytes) {
                Ok(record) => self.policy.take(record),
                Err(reply) => reply,
            };
            if reply != GRANTED {
                self.clear();
                return (reply, before + 1);
            }
        }
        self.policy.finish();
        (GRANTED, 0)
    }

    /// The reply to a request, plus 256 times its place. The access check comes first and is inlined here, so that it need not
    /// save registers.
    #[inline(always)]
    fn request(&mut self, bytes: &[u8]) -> u32 {
        match REQUESTS.judge(bytes) {
            Ok(record) if record.kind() == 56 => self.sessions.check(&self.policy, record),
            Ok(record) => self.serve(record),
            Err(reply) => reply,
        }
    }

    #[inline(never)]
    fn serve(&mut self, r: Record) -> u32 {
        let (policy, sessions, orders) =
            (&mut *self.policy, &mut *self.sessions, &mut *self.orders);
        match r.kind() {
            50 => orders.claim(policy, sessions, r),
            51 => orders.release(sessions, r),
            52 => orders.finish(sessions, r),
            57 => orders.task_check(policy, sessions, r),
            48 => orders.open(policy, r.a(), r.b()),
            49 => orders.end(r.a()),
            32 => policy.join(r.a(), r.m()),
            33 => delete_user(policy, sessions, orders, r.a()),
            34 => policy.assign(r.a(), r.b()),
            35 => sessions.take_role(policy, r.a(), r.b()),
            36 => policy.give(r.a(), r.b()),
            37 => policy.withdraw(r.a(), r.b()),
            40 => sessions.create(policy, r.a(), r.b(), r.m()),
            41 => destroy_subject(sessions, orders, r.a()),
            42 => sessions.activate(policy, r.a(), r.b()),
            43 => sessions.deactivate(policy, r.a(), r.b()),
            58 => when(!orders.is_open(r.a()), UNKNOWN),
            59 => sessions.commit(policy, r),
            60 => when(policy.tasks_of[r.a()] == 0, UNKNOWN),
            _ => SHAPE,
        }
    }

    fn figures(&self, record: &[u8]) -> Result<Vec<u64>, u32> {
        if !matches!(record.first(), Some(58 | 60)) {
            return Err(SHAPE);
        }
        let r = REQUESTS.judge(record)?;
        match r.kind() {
            58 => self.orders.figures(r.a()),
            _ => self.policy.stuck(r.a()),
        }
    }
}

fn delete_user(policy: &mut Policy, sessions: &mut Sessions, orders: &Orders, user: usize) -> u32 {
    let used = sessions.has_subject(user) || orders.has_entry(user);
    let reply = or_else(when(!policy.is_user(user), UNKNOWN), when(used, IN_USE));
    if reply == GRANTED {
        policy.remove(user);
        sessions.forget(user);
    }
    reply
}

fn destroy_subject(sessions: &mut Sessions, orders: &Orders, subject: usize) -> u32 {
    let live = sessions.is_live(subject);
    let reply = or_else(
        when(!live, UNKNOWN),
        when(orders.holds_any(subject), IN_USE),
    );
    if reply == GRANTED {
        sessions.destroy(subject);
    }
    reply
}

impl Desk for Index {
    fn name(&self) -> &'static str {
        crate::race::INDEX
    }

    fn load(&mut self, policy: &[u8]) -> Answer {
        let (reply, place) = Index::load(self, policy);
        (reply as u8, place)
    }

    fn request(&mut self, record: &[u8]) -> Answer {
        let answer = Index::request(self, record);
        (answer as u8, (answer >> 8) as usize)
    }

    fn copy(&self) -> Box<dyn Desk> {
        Box::new(self.clone())
    }

    fn question(&self, record: &[u8], answer: &mut [u64]) -> u8 {
        if answer.len() != 66 {
            return ROOM as u8;
        }
        match self.figures(record) {
            Ok(figures) => {
                answer.fill(0);
                answer[..figures.len()].copy_from_slice(&figures);
                GRANTED as u8
            }
            Err(reply) => reply as u8,
        }
    }
}
