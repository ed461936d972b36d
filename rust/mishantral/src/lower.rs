//! The lower part alone, for dealers: policy, roles and sessions, without orders. It has two lent buffers.
//!
//! It accepts every policy kind, and answers requests 32 to 37, 40 to 43 and 56; other kinds are answered with SHAPE. It exists
//! only if the lower part's archive was found when this crate was built: through the environment variable
//! `MISHANTRAL_LOWER_ARCHIVE`, or as `target/native/libmishantral_lower.a` of the repository.

use crate::lent::{answered, bytes, loaded, shown, zeroed};
#[cfg(mishantral_lower_write)]
use crate::lent::{counted, written};
#[cfg(mishantral_lower_write)]
use crate::library::mishantral_lower_write;
use crate::library::{mishantral_lower_load, mishantral_lower_request, mishantral_lower_words};
use crate::{Record, Refused, Reply};
use alloc::boxed::Box;
#[cfg(mishantral_lower_write)]
use alloc::vec::Vec;
use core::fmt;

/// A call that takes bytes and may change the state.
type Call = fn(&[u8], &mut [u64], &mut [u64]) -> u64;

/// The two buffers that the library works on. Every content is a state; docs/STATE.md defines its meaning. Buffers of other
/// lengths are answered with ROOM and not written to.
#[derive(Clone, PartialEq, Eq)]
pub struct State {
    /// Users, roles, permissions, tasks and rules.
    pub policy: Box<[u64]>,
    /// Subjects and their active roles.
    pub sessions: Box<[u64]>,
}

impl State {
    /// Buffers of the fixed lengths, all zero.
    pub fn zeroed() -> State {
        let buffer = |group| zeroed(mishantral_lower_words(group));
        State {
            policy: buffer(0),
            sessions: buffer(1),
        }
    }

    /// The library's answer to these bytes.
    fn call(&mut self, call: Call, bytes: &[u8]) -> u64 {
        call(bytes, &mut self.policy, &mut self.sessions)
    }
}

impl fmt::Debug for State {
    fn fmt(&self, f: &mut fmt::Formatter) -> fmt::Result {
        f.debug_struct("State")
            .field("policy", &shown(&self.policy))
            .field("sessions", &shown(&self.sessions))
            .finish()
    }
}

/// A policy and its sessions.
///
/// ```
/// use mishantral::{lower, Record, Reply, Set};
///
/// let mut engine = lower::Engine::new();
/// engine.load_records(&[
///     Record::user(300),
///     Record::role(0),
///     Record::user_has_role(300, 0),
/// ])?;
/// let with_role_0 = Record::create_subject(5, 300, Set::of(&[0]));
/// assert_eq!(engine.request(&with_role_0), Reply::Granted);
/// assert_eq!(engine.request(&Record::open_order(0, 0)), Reply::Shape);
/// # Ok::<(), mishantral::Refused>(())
/// ```
#[derive(Clone, PartialEq, Eq, Debug)]
pub struct Engine {
    state: State,
}

impl Default for Engine {
    fn default() -> Engine {
        Engine::new()
    }
}

impl Engine {
    /// An engine without a policy, which grants only requests that add users.
    pub fn new() -> Engine {
        let mut engine = Engine::from_state(State::zeroed());
        engine.load(&[]).expect("an empty policy is accepted");
        engine
    }

    /// Continues from a state, such as one from `state`.
    pub fn from_state(state: State) -> Engine {
        Engine { state }
    }

    /// The state, to inspect or to copy.
    pub fn state(&self) -> &State {
        &self.state
    }

    /// The state, taken out of the engine.
    pub fn into_state(self) -> State {
        self.state
    }

    /// Loads a policy's bytes and replaces everything before. A refused load leaves the engine empty.
    pub fn load(&mut self, policy: &[u8]) -> Result<(), Refused> {
        loaded(self.state.call(mishantral_lower_load, policy))
    }

    /// As `load`, with records.
    pub fn load_records(&mut self, policy: &[Record]) -> Result<(), Refused> {
        self.load(&bytes(policy))
    }

    /// Answers one request: a [`Record`], or bytes of any length. A refused request changes nothing. There are no claims here, so
    /// no answer has a rule's place.
    pub fn request<R: AsRef<[u8]> + ?Sized>(&mut self, record: &R) -> Reply {
        answered(self.state.call(mishantral_lower_request, record.as_ref())).reply
    }

    /// The current policy, after all requests since the load, as records that load again; they are the same as those of the whole
    /// engine.
    ///
    /// ```
    /// use mishantral::{lower, Record, Set};
    ///
    /// let mut engine = lower::Engine::new();
    /// engine.load_records(&[Record::role(1), Record::role(0)])?;
    /// assert!(engine.request(&Record::add_user_with(300, Set::of(&[1]))).is_granted());
    /// let policy = [Record::user(300), Record::role(0), Record::role(1), Record::user_has_role(300, 1)];
    /// assert_eq!(engine.write_policy(), Ok(policy.map(|record| record.0).concat()));
    /// # Ok::<(), mishantral::Refused>(())
    /// ```
    #[cfg(mishantral_lower_write)]
    pub fn write_policy(&self) -> Result<Vec<u8>, Reply> {
        written(|output| self.write_into(output))
    }

    /// As `write_policy`, into a buffer: returns the number of records written to its start. ROOM if they do not fit; then
    /// nothing is written.
    #[cfg(mishantral_lower_write)]
    pub fn write_into(&self, output: &mut [u8]) -> Result<usize, Reply> {
        let (policy, sessions) = (&self.state.policy, &self.state.sessions);
        counted(mishantral_lower_write(output, policy, sessions))
    }
}
