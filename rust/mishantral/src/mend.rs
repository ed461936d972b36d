//! Mends a damaged policy file (document 02, Ask 12): keeps what the load would accept, and reports the rest.

use crate::lent::{counted, reply_of};
use crate::library::mishantral_mend;
use crate::{Engine, Reply, State, LENGTH};
use alloc::vec;
use alloc::vec::Vec;
use core::fmt;

/// An entry of a report as the library writes it: the place of a dropped record, and the number of the reply that refuses it.
#[repr(C)]
#[derive(Clone, Copy, PartialEq, Eq, Hash, Default, Debug)]
pub struct Entry {
    /// The place, from 1, among the records of the file.
    pub place: u64,
    /// The reply's number.
    pub reply: u64,
}

/// A record that was dropped.
#[derive(Clone, Copy, PartialEq, Eq, Hash, Debug)]
pub struct Dropped {
    /// The place, from 1, among the records of the file.
    pub place: usize,
    /// The reply with which a load would refuse it after the records kept before it.
    pub reply: Reply,
}

/// Prints a line such as `record 17: 5 TAKEN`.
impl fmt::Display for Dropped {
    fn fmt(&self, f: &mut fmt::Formatter) -> fmt::Result {
        write!(f, "record {}: {}", self.place, self.reply)
    }
}

/// The result of mending a file.
#[derive(Clone, PartialEq, Eq, Debug)]
pub struct Mended {
    /// An engine with the kept policy.
    pub engine: Engine,
    /// The kept records, which load.
    pub records: Vec<u8>,
    /// The dropped records, in the order of the file.
    pub dropped: Vec<Dropped>,
}

impl State {
    /// Mends a file. Returns the number of records kept, which are written to the start of `output`. Each other record is
    /// reported by an entry of `report`, from its start on. Bytes and entries after the last written ones do not change. The
    /// state then holds the kept policy.
    ///
    /// ROOM if a buffer of the state has another length, the output is shorter than the file, or the report has fewer entries
    /// than the file's length / 16, rounded down, plus one. Then nothing is written.
    pub fn mend(
        &mut self,
        file: &[u8],
        output: &mut [u8],
        report: &mut [Entry],
    ) -> Result<usize, Reply> {
        let (policy, sessions, orders) = (&mut self.policy, &mut self.sessions, &mut self.orders);
        counted(mishantral_mend(
            file, output, report, policy, sessions, orders,
        ))
    }
}

impl Engine {
    /// Mends a damaged policy file: keeps each record that a load would accept after those already kept, and drops the rest. The
    /// kept records always load; a file that loads is kept as it is.
    ///
    /// ```
    /// use mishantral::{Dropped, Engine, Record, Reply};
    ///
    /// let mut file = [Record::user(300), Record::role(0), Record::user(300)].map(|r| r.0).concat();
    /// file.extend(&Record::user_has_role(300, 0).0);
    /// file.extend([1, 0, 5]); // the card failed within a record
    /// let mended = Engine::mend(&file);
    /// assert_eq!(mended.dropped, [
    ///     Dropped { place: 3, reply: Reply::Taken },
    ///     Dropped { place: 5, reply: Reply::Shape },
    /// ]);
    /// assert_eq!(mended.dropped[0].to_string(), "record 3: 5 TAKEN");
    ///
    /// let mut again = Engine::new();
    /// again.load(&mended.records)?;
    /// assert_eq!(again, mended.engine);
    /// # Ok::<(), mishantral::Refused>(())
    /// ```
    pub fn mend(file: &[u8]) -> Mended {
        let mut state = State::zeroed();
        let mut records = vec![0; file.len()];
        let mut report = vec![Entry::default(); file.len() / LENGTH + 1];
        let kept = state.mend(file, &mut records, &mut report);
        let kept = kept.expect("state, output and report have their lengths");
        records.truncate(kept * LENGTH);
        report.truncate(file.len().div_ceil(LENGTH) - kept);
        Mended {
            engine: Engine::from_state(state),
            records,
            dropped: report.into_iter().map(Dropped::from).collect(),
        }
    }
}

impl From<Entry> for Dropped {
    fn from(entry: Entry) -> Dropped {
        Dropped {
            place: usize::try_from(entry.place).expect("a place is below the input's length"),
            reply: reply_of(entry.reply),
        }
    }
}
