//! The engine on the linked library, which owns the three buffers.

#[cfg(mishantral_pile)]
use crate::lent::flat;
use crate::lent::{answered, bytes, loaded, reply_of, shown, zeroed};
#[cfg(mishantral_pile)]
use crate::library::mishantral_pile;
use crate::library::{mishantral_load, mishantral_question, mishantral_request, mishantral_words};
#[cfg(mishantral_settled_request)]
use crate::library::{mishantral_settle, mishantral_settled_request};
use crate::{Answer, Record, Refused, Reply, Set};
use alloc::boxed::Box;
#[cfg(mishantral_pile)]
use alloc::vec;
use alloc::vec::Vec;
use core::fmt;

/// A call that takes bytes and may change the state.
type Call = fn(&[u8], &mut [u64], &mut [u64], &mut [u64]) -> u64;

/// The request for a settled state: it does not check the links of the orders buffer. On any other state it stays within the
/// buffers, and a refusal changes nothing; but its answers may differ from those of the empty engine, as which such a state
/// reads.
#[cfg(mishantral_settled_request)]
const SETTLED_REQUEST: Call = mishantral_settled_request;
#[cfg(not(mishantral_settled_request))]
const SETTLED_REQUEST: Call = mishantral_request;

/// The number of words in the answer to a question.
pub const ANSWER: usize = 66;

/// The largest number of records in a pile.
#[cfg(mishantral_pile)]
pub const PILE: usize = 4096;

/// The three buffers that the library works on. Every content is a state; docs/STATE.md defines its meaning. Buffers of other
/// lengths are answered with ROOM and not written to.
///
/// Its `request` accepts any content, and therefore checks the links of the orders buffer at each call. An [`Engine`], which owns
/// its buffers, checks them once.
#[derive(Clone, PartialEq, Eq)]
pub struct State {
    /// Users, roles, permissions, tasks and rules.
    pub policy: Box<[u64]>,
    /// Subjects and their active roles.
    pub sessions: Box<[u64]>,
    /// Open orders and their entries.
    pub orders: Box<[u64]>,
}

impl State {
    /// Buffers of the fixed lengths, all zero.
    pub fn zeroed() -> State {
        let buffer = |group| zeroed(mishantral_words(group));
        State {
            policy: buffer(0),
            sessions: buffer(1),
            orders: buffer(2),
        }
    }

    /// As [`Engine::load`].
    pub fn load(&mut self, policy: &[u8]) -> Result<(), Refused> {
        loaded(self.call(mishantral_load, policy))
    }

    /// As [`Engine::request`], for any content.
    pub fn request<R: AsRef<[u8]> + ?Sized>(&mut self, record: &R) -> Answer {
        answered(self.call(mishantral_request, record.as_ref()))
    }

    /// As [`Engine::question`], for any content.
    pub fn question<R: AsRef<[u8]> + ?Sized>(&self, record: &R, answer: &mut [u64]) -> Reply {
        let record = record.as_ref();
        reply_of(mishantral_question(
            record,
            answer,
            &self.policy,
            &self.sessions,
            &self.orders,
        ))
    }

    /// Clears a state whose links are broken, because it reads as the empty engine. Returns whether the buffers have their
    /// lengths and the links are now sound.
    #[cfg(mishantral_settled_request)]
    fn settle(&mut self) -> bool {
        let settled = mishantral_settle(&mut self.policy, &mut self.sessions, &mut self.orders);
        answered(settled).is_granted()
    }

    /// As above; false, because a library without that call checks the links at each request.
    #[cfg(not(mishantral_settled_request))]
    fn settle(&mut self) -> bool {
        false
    }

    /// The library's answer to these bytes.
    fn call(&mut self, call: Call, bytes: &[u8]) -> u64 {
        call(
            bytes,
            &mut self.policy,
            &mut self.sessions,
            &mut self.orders,
        )
    }
}

impl fmt::Debug for State {
    fn fmt(&self, f: &mut fmt::Formatter) -> fmt::Result {
        f.debug_struct("State")
            .field("policy", &shown(&self.policy))
            .field("sessions", &shown(&self.sessions))
            .field("orders", &shown(&self.orders))
            .finish()
    }
}

/// What the engine reports about an open order.
#[derive(Clone, Copy, PartialEq, Eq, Hash, Debug)]
pub struct Figures {
    /// The number of entries, held and done together.
    pub entries: usize,
    /// The tasks with a done entry.
    pub done: Set,
}

/// Which tasks of a template their prerequisites allow to be claimed, and which never.
#[derive(Clone, PartialEq, Eq, Hash, Debug)]
pub struct StuckTasks {
    /// The tasks that can never be claimed because of prerequisites: those that wait for each other, and those that wait for such
    /// tasks.
    pub stuck: Set,
    /// The other tasks, in an order in which they can be claimed: each after its prerequisites, and at each position the lowest
    /// number that is possible there.
    pub free: Vec<u8>,
}

/// A policy, its sessions and its orders.
///
/// ```
/// use mishantral::{Engine, Record, Reply, Set};
///
/// let mut engine = Engine::new();
/// engine.load_records(&[
///     Record::user(300),
///     Record::role(0),
///     Record::user_has_role(300, 0),
/// ])?;
/// let with_role_0 = Record::create_subject(5, 300, Set::of(&[0]));
/// assert_eq!(engine.request(&with_role_0), Reply::Granted);
/// assert_eq!(engine.request(&with_role_0), Reply::Taken);
///
/// let refused = engine.load_records(&[Record::user(1024)]).unwrap_err();
/// assert_eq!(refused.to_string(), "3 RANGE at record 1");
/// # Ok::<(), mishantral::Refused>(())
/// ```
#[derive(Clone, PartialEq, Eq, Debug)]
pub struct Engine {
    state: State,
    /// Whether the state is settled: its buffers have their lengths, and its links are sound. Every call preserves this.
    settled: bool,
}

impl Default for Engine {
    fn default() -> Engine {
        Engine::new()
    }
}

impl Engine {
    /// An engine without a policy, which grants only requests that add users.
    pub fn new() -> Engine {
        let mut engine = Engine::from_state(State::zeroed());
        engine.load(&[]).expect("an empty policy is accepted");
        engine
    }

    /// Continues from a state, such as one from `state`. A state whose links are broken reads as the empty engine, and is
    /// cleared.
    pub fn from_state(mut state: State) -> Engine {
        let settled = state.settle();
        Engine { state, settled }
    }

    /// The state, to inspect or to copy.
    pub fn state(&self) -> &State {
        &self.state
    }

    /// The state, taken out of the engine.
    pub fn into_state(self) -> State {
        self.state
    }

    /// Loads a policy's bytes and replaces everything before. A refused load leaves the engine empty.
    pub fn load(&mut self, policy: &[u8]) -> Result<(), Refused> {
        self.state.load(policy)
    }

    /// As `load`, with records.
    pub fn load_records(&mut self, policy: &[Record]) -> Result<(), Refused> {
        self.load(&bytes(policy))
    }

    /// Answers one request: a [`Record`], or bytes of any length. A refused request changes nothing. If a rule refuses a claim,
    /// the answer has the rule's place:
    ///
    /// ```
    /// use mishantral::{Engine, Record, Reply, Set};
    ///
    /// let policy = [
    ///     Record::user(300),
    ///     Record::role(0),
    ///     Record::user_has_role(300, 0),
    ///     Record::task(0, 0),
    ///     Record::task(1, 0),
    ///     Record::task_open_to(0, 0),
    ///     Record::task_open_to(1, 0),
    ///     Record::task_set(1, Set::of(&[0, 1])),
    /// ];
    /// let mut engine = Engine::new();
    /// engine.load_records(&policy)?;
    /// assert!(engine.request(&Record::create_subject(5, 300, Set::of(&[0]))).is_granted());
    /// assert!(engine.request(&Record::open_order(0, 0)).is_granted());
    /// assert!(engine.request(&Record::claim(5, 0, 0)).is_granted());
    ///
    /// let answer = engine.request(&Record::claim(5, 0, 1));
    /// assert_eq!(answer, Reply::Separation);
    /// let rule = answer.rule().unwrap();
    /// assert_eq!(rule.record(&policy), Some(&policy[7]));
    /// # Ok::<(), mishantral::Refused>(())
    /// ```
    pub fn request<R: AsRef<[u8]> + ?Sized>(&mut self, record: &R) -> Answer {
        if !self.settled {
            return self.state.request(record);
        }
        answered(self.state.call(SETTLED_REQUEST, record.as_ref()))
    }

    /// The number of entries of an open order, and which of its tasks are done: kind 58 with its figures. UNKNOWN if the order is
    /// not open, RANGE if its number is above 63.
    ///
    /// ```
    /// use mishantral::{Engine, Figures, Record, Reply, Set};
    ///
    /// let mut engine = Engine::new();
    /// engine.load_records(&[
    ///     Record::user(300),
    ///     Record::role(0),
    ///     Record::user_has_role(300, 0),
    ///     Record::task(0, 0),
    ///     Record::task(1, 0),
    ///     Record::task_open_to(0, 0),
    ///     Record::task_open_to(1, 0),
    /// ])?;
    /// for request in [
    ///     Record::create_subject(5, 300, Set::of(&[0])),
    ///     Record::open_order(7, 0),
    ///     Record::claim(5, 7, 0),
    ///     Record::done(5, 7, 0),
    ///     Record::claim(5, 7, 1),
    /// ] {
    ///     assert_eq!(engine.request(&request), Reply::Granted);
    /// }
    /// let done = Set::of(&[0]);
    /// assert_eq!(engine.figures(7), Ok(Figures { entries: 2, done }));
    /// assert_eq!(engine.figures(8), Err(Reply::Unknown));
    /// # Ok::<(), mishantral::Refused>(())
    /// ```
    pub fn figures(&self, order: u16) -> Result<Figures, Reply> {
        let [entries, done, ..] = self.answered(Record::entries_of(order))?;
        Ok(Figures {
            entries: entries as usize,
            done: Set(done),
        })
    }

    /// The tasks of a template that can never be claimed because of prerequisites, and an order in which the others can be
    /// claimed: kind 60 with its figures. UNKNOWN if the template has no task, RANGE if its number is above 15.
    ///
    /// ```
    /// use mishantral::{Engine, Record, Reply, Set};
    ///
    /// let mut engine = Engine::new();
    /// let tasks = (1..=6).map(|task| Record::task(task, 0));
    /// let rules = [(4, 5), (5, 6), (6, 4), (3, 1)];
    /// let rules = rules.map(|(first, second)| Record::before(first, second));
    /// engine.load_records(&tasks.chain(rules).collect::<Vec<Record>>())?;
    /// let answer = engine.stuck_tasks(0).unwrap();
    /// assert_eq!(answer.stuck, Set::of(&[4, 5, 6]));
    /// assert_eq!(answer.free, [2, 3, 1]);
    /// assert_eq!(engine.stuck_tasks(1), Err(Reply::Unknown));
    /// # Ok::<(), mishantral::Refused>(())
    /// ```
    pub fn stuck_tasks(&self, template: u16) -> Result<StuckTasks, Reply> {
        let [stuck, free, list @ ..] = self.answered(Record::stuck_tasks(template))?;
        let free = list.iter().take(free as usize);
        Ok(StuckTasks {
            stuck: Set(stuck),
            free: free.map(|task| *task as u8).collect(),
        })
    }

    /// Answers any question. If the reply is [`Reply::Granted`], writes its figures to `answer`, which must have [`ANSWER`]
    /// words; words that the question does not use become 0. For kind 58 the figures are the number of entries and the set of
    /// done tasks. For kind 60 they are the set of stuck tasks, the number of free tasks, and the free tasks in an order in which
    /// they can be claimed.
    ///
    /// The reply is ROOM if `answer` has another length, then SHAPE if the record is not a question, then the refusals of
    /// [`request`](Engine::request); in these cases nothing is written.
    pub fn question<R: AsRef<[u8]> + ?Sized>(&self, record: &R, answer: &mut [u64]) -> Reply {
        self.state.question(record, answer)
    }

    /// The figures of a question, or its refusal.
    fn answered(&self, question: Record) -> Result<[u64; ANSWER], Reply> {
        let mut answer = [0; ANSWER];
        match self.question(&question, &mut answer) {
            Reply::Granted => Ok(answer),
            refused => Err(refused),
        }
    }

    /// Answers up to 4,096 requests in one call, in sequence, and continues after a refused one. Writes the number of each reply
    /// to `answers` from index `at` on; the other bytes do not change. Replies and state are the same as with single requests.
    ///
    /// The reply is ROOM if `at` is past the end of `answers`, if there is not a byte for each record from there on, or if there
    /// are more than 4,096 records. Then no request is carried out and nothing is written.
    ///
    /// ```
    /// use mishantral::{Engine, Record, Reply};
    ///
    /// let mut engine = Engine::new();
    /// let mut answers = [99; 4];
    /// let pile = [Record::add_user(300), Record::add_user(300)];
    /// assert_eq!(engine.pile(&pile, &mut answers, 1), Reply::Granted);
    /// assert_eq!(answers, [99, Reply::Granted.number(), Reply::Taken.number(), 99]);
    /// assert_eq!(engine.pile(&pile, &mut answers, 3), Reply::Room);
    /// ```
    #[cfg(mishantral_pile)]
    pub fn pile(&mut self, records: &[Record], answers: &mut [u8], at: usize) -> Reply {
        self.pile_bytes(flat(records), answers, at)
    }

    /// As `pile`, with bytes; after ROOM the reply is SHAPE if their length is not a multiple of 16.
    #[cfg(mishantral_pile)]
    pub fn pile_bytes(&mut self, records: &[u8], answers: &mut [u8], at: usize) -> Reply {
        let State {
            policy,
            sessions,
            orders,
        } = &mut self.state;
        let at = at as u64;
        reply_of(mishantral_pile(
            records, answers, at, policy, sessions, orders,
        ))
    }

    /// The replies to any number of requests, made in sequence in piles.
    ///
    /// ```
    /// use mishantral::{Engine, Record, Reply};
    ///
    /// let twice = [Record::add_user(300), Record::add_user(300)];
    /// assert_eq!(Engine::new().requests(&twice), [Reply::Granted, Reply::Taken]);
    /// ```
    #[cfg(mishantral_pile)]
    pub fn requests(&mut self, records: &[Record]) -> Vec<Reply> {
        // If a buffer of the state has another length, a pile is answered with ROOM and writes nothing; so is each of its
        // requests.
        let mut replies = vec![Reply::Room.number(); records.len()];
        for (pile, answers) in records.chunks(PILE).zip(replies.chunks_mut(PILE)) {
            let _ = self.pile(pile, answers, 0);
        }
        replies.into_iter().map(|n| reply_of(n.into())).collect()
    }
}
