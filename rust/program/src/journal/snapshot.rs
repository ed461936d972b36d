//! A desk as it was after a request. Requests and replies are the truth, and a snapshot saves asking them again: one whose buffers have another
//! layout than the library's is left aside.

use super::begin::lengths;
use super::chain::{Hash, Of};
use super::checksums::Checksum;
use super::found::{unfit, Unfit};
use super::links::Kept;
use super::store::Store;
use super::{Live, LAYOUT};
use mishantral::State;
use rusqlite::Connection;

pub struct Snapshot {
    pub after: i64,
    /// The layout of its buffers.
    pub layout: i64,
    /// The sum of the request that it is after.
    pub row_sum: Kept,
    /// The three buffers and the openings, words little-endian.
    pub blobs: [Vec<u8>; 4],
    pub names: String,
}

/// The columns of a snapshot, as `snapshot_of` takes them.
const COLUMNS: &str = "after, version, row_sum, policy, sessions, orders, openings, names, sum";

/// The last snapshot before a request.
pub fn snapshot_before(act: &Connection, request: i64) -> Result<Option<Snapshot>, Unfit> {
    let last =
        format!("SELECT {COLUMNS} FROM snapshot WHERE after < ?1 ORDER BY after DESC LIMIT 1");
    one(act, &last, request)
}

/// The snapshot after a request.
pub fn snapshot_after(act: &Connection, request: i64) -> Result<Option<Snapshot>, Unfit> {
    one(
        act,
        &format!("SELECT {COLUMNS} FROM snapshot WHERE after = ?1"),
        request,
    )
}

fn one(act: &Connection, select: &str, request: i64) -> Result<Option<Snapshot>, Unfit> {
    let mut select = act.prepare_cached(select)?;
    let mut rows = select.query([request])?;
    rows.next()?.map(snapshot_of).transpose()
}

/// A snapshot, where its sum is right.
fn snapshot_of(columns: &rusqlite::Row) -> Result<Snapshot, Unfit> {
    let blobs = [
        columns.get(3)?,
        columns.get(4)?,
        columns.get(5)?,
        columns.get(6)?,
    ];
    let taken = Snapshot {
        after: columns.get(0)?,
        layout: columns.get(1)?,
        row_sum: Kept::of(columns.get_ref(2)?)?,
        blobs,
        names: columns.get(7)?,
    };
    let right = match taken.row_sum {
        Kept::Checksum(row) => taken.checksum(row) == columns.get::<_, i64>(8)?,
        Kept::Sum(_) => taken.sum()[..] == columns.get::<_, Vec<u8>>(8)?[..],
    };
    match right {
        true => Ok(taken),
        false => unfit(format!(
            "it is damaged: the snapshot after request {} does not have its checksum",
            taken.after
        )),
    }
}

impl Snapshot {
    pub fn of(after: i64, row_sum: Kept, state: &State, live: &Live) -> Snapshot {
        let openings: Vec<u64> = live.openings.iter().map(|&o| o as u64).collect();
        Snapshot {
            after,
            layout: LAYOUT,
            row_sum,
            blobs: [
                blob(&state.policy),
                blob(&state.sessions),
                blob(&state.orders),
                blob(&openings),
            ],
            names: live.text(),
        }
    }

    /// What it is after, its buffers and its names.
    pub fn sum(&self) -> [u8; 32] {
        let hash = Hash::of(Of::Snapshot).number(self.after);
        let hash = match &self.row_sum {
            Kept::Checksum(sum) => hash.number((*sum).into()),
            Kept::Sum(sum) => hash.sum(sum),
        };
        let hash = hash.number(self.layout);
        let hash = self.blobs.iter().fold(hash, |hash, blob| hash.text(blob));
        hash.text(self.names.as_bytes()).whole()
    }

    /// The same as version 2 has it.
    fn checksum(&self, row: u32) -> i64 {
        let head = Checksum::new().number(self.after).number(row.into());
        let sum = self.blobs.iter().fold(head, |sum, blob| sum.text(blob));
        sum.text(self.names.as_bytes()).whole()
    }

    /// Whether its buffers are laid out as the library's are.
    pub fn fits(&self) -> bool {
        let words = |at: usize| (self.blobs[at].len() / 8) as i64;
        self.layout == LAYOUT && [words(0), words(1), words(2)] == lengths()
    }

    /// It must be bound to the request that it is after.
    pub fn bound(&self, store: &dyn Store) -> Result<(), Unfit> {
        let after = self.after;
        let Some((kept, _)) = store.kept(after)? else {
            return unfit(format!(
                "it was cut: there is a snapshot after request {after}, and no such request"
            ));
        };
        match kept == self.row_sum {
            true => Ok(()),
            false => unfit(format!(
                "it is damaged: the snapshot after request {after} is of another request"
            )),
        }
    }

    fn words(&self, blob: usize, words: &mut [u64]) -> Result<(), Unfit> {
        let (after, blob) = (self.after, &self.blobs[blob]);
        if blob.len() != 8 * words.len() {
            return unfit(format!(
                "the snapshot after request {after} has not the buffers' lengths"
            ));
        }
        for (word, bytes) in words.iter_mut().zip(blob.chunks_exact(8)) {
            *word = u64::from_le_bytes(bytes.try_into().unwrap_or_default());
        }
        Ok(())
    }

    pub fn state(&self) -> Result<State, Unfit> {
        let mut state = State::zeroed();
        self.words(0, &mut state.policy)?;
        self.words(1, &mut state.sessions)?;
        self.words(2, &mut state.orders)?;
        Ok(state)
    }

    pub fn live(&self) -> Result<Live, Unfit> {
        let names = Live::names_of(&self.names);
        let Some(names) = names else {
            return unfit(format!(
                "it is damaged: the names of the snapshot after request {}",
                self.after
            ));
        };
        let mut live = Live::new(names);
        let mut words = [0; 64];
        self.words(3, &mut words)?;
        live.openings = words.map(|word| word as i64);
        Ok(live)
    }
}

/// A buffer's words as bytes, little-endian.
fn blob(words: &[u64]) -> Vec<u8> {
    words.iter().flat_map(|word| word.to_le_bytes()).collect()
}
