//! The rules (docs/RULES.md) in plain Rust, written from document 01 alone and separately from the proved engine.
//! It is the oracle of the differential test and, because it is written for speed, the baseline of the benchmark.
//!
//! The caller lends no state buffers here, so `load` and `request` never answer ROOM. In all else the engine follows the rules.
//!
//! ```
//! use plain::{encode, Engine, OrderLists, Reply};
//!
//! let mut engine = Engine::<OrderLists>::new();
//! let user_300 = encode(1, 0, 300, 0, 0, 0);
//! assert_eq!(engine.load(&user_300), (Reply::Granted, 0));
//! let add_user_300 = encode(32, 0, 300, 0, 0, 0);
//! assert_eq!(engine.request(&add_user_300), (Reply::Taken, 0));
//! ```

mod ledger;
mod orders;
mod permissions;
mod policy;
mod record;
mod reply;
mod sessions;
mod walls;
mod written;

pub use ledger::{Entry, FlatLedger, Ledger, OrderLists, View, ENTRIES};
pub use record::encode;
pub use reply::Reply;

use orders::Orders;
use policy::Policy;
use record::{decode, Call, Record};
use reply::{refuse, Outcome, Refusal};
use sessions::Sessions;

/// The length of a record in bytes.
pub const RECORD: usize = 16;

/// The largest number of records in a pile.
pub const PILE: usize = 4096;

/// The number of words in the answer to a question.
pub const ANSWER: usize = 66;

/// A policy, its sessions and its orders; `L` stores the entries.
#[derive(Clone, PartialEq, Debug)]
pub struct Engine<L = OrderLists> {
    policy: Box<Policy>,
    sessions: Box<Sessions>,
    orders: Orders<L>,
}

impl<L: Ledger> Default for Engine<L> {
    fn default() -> Self {
        Self::new()
    }
}

fn refusal(outcome: Outcome) -> Refusal {
    outcome.err().unwrap_or(Reply::Granted.into())
}

impl<L: Ledger> Engine<L> {
    /// An engine without a policy.
    pub fn new() -> Self {
        Engine {
            policy: Box::new(Policy::EMPTY),
            sessions: Box::new(Sessions::EMPTY),
            orders: Orders::empty(),
        }
    }

    fn clear(&mut self) {
        *self.policy = Policy::EMPTY;
        *self.sessions = Sessions::EMPTY;
        self.orders.clear();
    }

    /// Loads a policy. Returns the reply, and the place of the refused record (from 1), or 0.
    pub fn load(&mut self, policy: &[u8]) -> (Reply, usize) {
        self.clear();
        for (before, record) in policy.chunks(RECORD).enumerate() {
            let reply = self.policy_record(record);
            if reply != Reply::Granted {
                self.clear();
                return (reply, before + 1);
            }
        }
        (Reply::Granted, 0)
    }

    /// Adds one further policy record, as one step of a load; a refused record changes nothing.
    pub fn policy_record(&mut self, record: &[u8]) -> Reply {
        refusal(decode(record, Call::Load).and_then(|r| self.policy.take(r))).reply
    }

    /// Answers one request. Returns the reply, and for BEFORE, SEPARATION, BLOCK and BOUND the place of the first broken rule,
    /// from 1 among all rules of its kind in policy order. For BLOCK this is the block at which the search ends. For other
    /// replies the place is 0.
    pub fn request(&mut self, record: &[u8]) -> (Reply, usize) {
        let Refusal { reply, place } =
            refusal(decode(record, Call::Request).and_then(|r| self.serve(r)));
        (reply, usize::from(place))
    }

    /// Answers a pile of requests in sequence and continues after a refused one. Each reply is one byte of `answers`, from index
    /// `at` on. ROOM and SHAPE are answered before any request runs, and then nothing is written.
    ///
    /// ```
    /// use plain::{encode, Engine, OrderLists, Reply};
    ///
    /// let add_user_300 = encode(32, 0, 300, 0, 0, 0);
    /// let mut answers = [99; 4];
    /// let mut engine = Engine::<OrderLists>::new();
    /// let pile = [add_user_300, add_user_300].concat();
    /// assert_eq!(engine.pile(&pile, &mut answers, 1), Reply::Granted);
    /// assert_eq!(answers, [99, 0, 5, 99]);
    /// assert_eq!(engine.pile(&pile, &mut answers, 3), Reply::Room);
    /// ```
    pub fn pile(&mut self, records: &[u8], answers: &mut [u8], at: usize) -> Reply {
        let records = records.chunks_exact(RECORD);
        let Some(answers) = answers.get_mut(at..) else {
            return Reply::Room;
        };
        if records.len() > answers.len() || records.len() > PILE {
            return Reply::Room;
        }
        if !records.remainder().is_empty() {
            return Reply::Shape;
        }
        for (record, answer) in records.zip(answers) {
            *answer = self.request(record).0.number();
        }
        Reply::Granted
    }

    /// Answers a question and, if it is granted, writes its figures to `answer`. For kind 58 the figures are the number of the
    /// order's entries and the set of its done tasks. For kind 60 they are the set of the template's stuck tasks, the number of
    /// free tasks, and the free tasks in an order in which they can be claimed. All other words become 0. The reply is ROOM if
    /// `answer` does not have the right length, then SHAPE if the kind is not a question, then the reply of the same request.
    ///
    /// ```
    /// use plain::{encode, Engine, OrderLists, Reply, ANSWER};
    ///
    /// let mut engine = Engine::<OrderLists>::new();
    /// engine.load(&encode(6, 0, 0, 0, 0, 0));
    /// engine.request(&encode(48, 0, 5, 0, 0, 0));
    /// let mut answer = [99; ANSWER];
    /// assert_eq!(engine.question(&encode(58, 0, 5, 0, 0, 0), &mut answer), Reply::Granted);
    /// assert_eq!(answer, [0; ANSWER]);
    /// assert_eq!(engine.question(&encode(58, 0, 6, 0, 0, 0), &mut answer), Reply::Unknown);
    /// assert_eq!(engine.question(&encode(49, 0, 5, 0, 0, 0), &mut answer), Reply::Shape);
    /// ```
    pub fn question(&self, record: &[u8], answer: &mut [u64]) -> Reply {
        if answer.len() != ANSWER {
            return Reply::Room;
        }
        if !matches!(record.first(), Some(58 | 60)) {
            return Reply::Shape;
        }
        let figures = decode(record, Call::Request).and_then(|r| match r.kind {
            58 => self.orders.figures(r.a as u8),
            _ => self.policy.stuck(usize::from(r.a)),
        });
        match figures {
            Ok(figures) => {
                answer.fill(0);
                answer[..figures.len()].copy_from_slice(&figures);
                Reply::Granted
            }
            Err(refusal) => refusal.reply,
        }
    }

    /// The current policy as records that load again. Kinds ascend. Records of kinds 1 to 8, 13, 14 and 17 ascend by a and then
    /// b; rules of the other kinds keep their order in the policy.
    ///
    /// ```
    /// use plain::{encode, Engine, OrderLists};
    ///
    /// let [role_1, role_0] = [1, 0].map(|role| encode(2, 0, role, 0, 0, 0));
    /// let mut engine = Engine::<OrderLists>::new();
    /// engine.load(&[role_1, role_0].concat());
    /// engine.request(&encode(32, 0, 300, 0, 0, 2));
    /// let written = [encode(1, 0, 300, 0, 0, 0), role_0, role_1, encode(4, 0, 300, 1, 0, 0)];
    /// assert_eq!(engine.written(), written.concat());
    /// ```
    pub fn written(&self) -> Vec<u8> {
        self.policy.written()
    }

    /// Writes the policy to the start of `output`. Returns the reply and the number of records written. ROOM if they do not fit;
    /// then nothing is written.
    pub fn write(&self, output: &mut [u8]) -> (Reply, usize) {
        let written = self.written();
        match output.get_mut(..written.len()) {
            Some(front) => front.copy_from_slice(&written),
            None => return (Reply::Room, 0),
        }
        (Reply::Granted, written.len() / RECORD)
    }

    /// Mends a damaged policy file. Keeps each record that a load would accept after those already kept, and writes the kept
    /// records to the start of `output`. For each dropped record, writes its place (from 1) and the number of its refusal to
    /// `report`. Returns the reply and the number of records kept; the engine then holds exactly these records. ROOM if the
    /// output is shorter than the file, or if the report has fewer entries than the file's whole records plus one; then nothing
    /// is written.
    ///
    /// ```
    /// use plain::{encode, Engine, OrderLists, Reply};
    ///
    /// let user_300 = encode(1, 0, 300, 0, 0, 0);
    /// let damaged = [&user_300[..], &user_300, &[1, 0, 5]].concat();
    /// let (mut output, mut report) = ([99; 35], [(7, 7); 4]);
    /// let mut engine = Engine::<OrderLists>::new();
    /// assert_eq!(engine.mend(&damaged, &mut output, &mut report), (Reply::Granted, 1));
    /// assert_eq!(output[..17], [&user_300[..], &[99]].concat());
    /// assert_eq!(report, [(2, 5), (3, 2), (7, 7), (7, 7)]);
    /// assert_eq!(engine.mend(&damaged, &mut output[..34], &mut report).0, Reply::Room);
    /// ```
    pub fn mend(
        &mut self,
        file: &[u8],
        output: &mut [u8],
        report: &mut [(u64, u64)],
    ) -> (Reply, usize) {
        if output.len() < file.len() || report.len() <= file.len() / RECORD {
            return (Reply::Room, 0);
        }
        self.clear();
        let (mut kept, mut dropped) = (0, 0);
        for (before, record) in file.chunks(RECORD).enumerate() {
            match self.policy_record(record) {
                Reply::Granted => {
                    output[kept * RECORD..][..RECORD].copy_from_slice(record);
                    kept += 1;
                }
                refusal => {
                    report[dropped] = (before as u64 + 1, refusal.number().into());
                    dropped += 1;
                }
            }
        }
        (Reply::Granted, kept)
    }

    /// All entries, in no particular order.
    pub fn entries(&self) -> Vec<Entry> {
        self.orders.ledger.entries()
    }

    fn serve(&mut self, r: Record) -> Outcome {
        let (policy, sessions, orders) = (&mut self.policy, &mut self.sessions, &mut self.orders);
        let (a, b) = (usize::from(r.a), usize::from(r.b));
        match r.kind {
            32 => policy.join(a, r.m),
            33 => self.delete_user(r.a),
            34 => policy.assign(a, b),
            35 => sessions.take_role(policy, r.a, b),
            36 => policy.give(a, b),
            37 => policy.take_permission(a, b),
            40 => sessions.create(policy, a, r.b, r.m),
            41 => self.destroy_subject(a),
            42 => sessions.activate(policy, a, b),
            43 => sessions.deactivate(policy, a, b),
            48 => orders.open(policy, a, r.b as u8),
            49 => orders.end(r.a as u8),
            50 => orders.claim(policy, sessions, r),
            51 => orders.release(policy, sessions, r),
            52 => orders.finish(policy, sessions, r),
            56 => sessions.check(policy, a, r.b, r.c),
            57 => orders.task_check(policy, sessions, r),
            58 => orders.figures(r.a as u8).map(|_| ()),
            59 => sessions.commit(policy, a, r.b, r.c),
            _ => policy.stuck(a).map(|_| ()),
        }
    }

    fn delete_user(&mut self, user: u16) -> Outcome {
        self.sessions.may_delete(&self.policy, user)?;
        refuse(Reply::InUse, self.orders.ledger.any_of_user(user))?;
        self.policy.is_user[usize::from(user)] = false;
        self.policy.assigned[usize::from(user)] = 0;
        self.sessions.forget(user);
        Ok(())
    }

    fn destroy_subject(&mut self, subject: usize) -> Outcome {
        self.sessions.user_of(subject)?;
        refuse(Reply::InUse, self.orders.ledger.any_held_by(subject as u8))?;
        self.sessions.destroy(subject);
        Ok(())
    }
}
