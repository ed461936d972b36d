//! Writes the policy out (document 02, Ask 8): its tables as records that load again.

use crate::lent::{counted, written};
use crate::library::mishantral_write;
use crate::{Engine, Reply, State};
use alloc::vec::Vec;

impl State {
    /// As [`Engine::write_into`], for any content.
    pub fn write_into(&self, output: &mut [u8]) -> Result<usize, Reply> {
        let (policy, sessions, orders) = (&self.policy, &self.sessions, &self.orders);
        counted(mishantral_write(output, policy, sessions, orders))
    }
}

impl Engine {
    /// The current policy, after all requests since the load, as records: kinds ascend, declarations and assignments ascend by
    /// number, and rules keep the order of the policy. Loading them gives the same policy, without sessions and orders. The same
    /// policy always gives the same bytes.
    ///
    /// ROOM only if a buffer of a state that the engine was made [from](Engine::from_state) has another length.
    ///
    /// ```
    /// use mishantral::{Engine, Record, Set};
    ///
    /// let mut engine = Engine::new();
    /// engine.load_records(&[Record::role(1), Record::role(0), Record::user(300)])?;
    /// assert!(engine.request(&Record::assign_role(300, 1)).is_granted());
    /// assert!(engine.request(&Record::add_user_with(44, Set::of(&[0, 1]))).is_granted());
    ///
    /// let policy = engine.write_policy().unwrap();
    /// let records = policy.chunks(16).map(|r| Record(r.try_into().unwrap()));
    /// let lines: Vec<String> = records.map(|record| record.to_string()).collect();
    /// assert_eq!(lines, [
    ///     "user 44",
    ///     "user 300",
    ///     "role 0",
    ///     "role 1",
    ///     "user 44 has role 0",
    ///     "user 44 has role 1",
    ///     "user 300 has role 1",
    /// ]);
    ///
    /// let mut again = Engine::new();
    /// again.load(&policy)?;
    /// assert_eq!(again.write_policy(), Ok(policy));
    /// # Ok::<(), mishantral::Refused>(())
    /// ```
    pub fn write_policy(&self) -> Result<Vec<u8>, Reply> {
        written(|output| self.write_into(output))
    }

    /// As `write_policy`, into a buffer: returns the number of records written to its start. The bytes after them do not change.
    /// ROOM if they do not fit; then nothing is written. Room for [`WRITTEN`](crate::WRITTEN) records always suffices.
    pub fn write_into(&self, output: &mut [u8]) -> Result<usize, Reply> {
        self.state().write_into(output)
    }
}
