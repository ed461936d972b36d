//! The chain: the sum of each row is SHA-256 over all that the row says, after the sum of the row before it. Whoever changes, removes or moves a
//! row has to write every later sum again, and then the last one is another: a seal that is kept elsewhere shows it (docs/SERVE.md).
//!
//! Starts, what was barred and a clock that was set stand between two requests: the sum of the next request covers them.

use super::clock::Jump;
use super::{Barred, Row};
use sha2::{Digest, Sha256};

/// A sum, as the tables keep it.
pub type Sum = [u8; 32];

/// Sixty-four hexadecimal digits.
pub fn hex(sum: &Sum) -> String {
    sum.iter().map(|byte| format!("{byte:02x}")).collect()
}

/// What a sum is of: two things of different sorts never have the same bytes.
#[derive(Clone, Copy)]
pub enum Of {
    Head = 1,
    Request = 2,
    Note = 3,
    Snapshot = 4,
}

/// Values on their way into a sum. Texts have their length before them, so that no two lists of values give the same bytes.
pub struct Hash(Sha256);

impl Hash {
    pub fn of(what: Of) -> Hash {
        Hash(Sha256::new_with_prefix([what as u8]))
    }

    pub fn number(mut self, number: i64) -> Hash {
        self.0.update(number.to_le_bytes());
        self
    }

    /// A number that is never negative, or none.
    pub fn maybe(self, number: Option<i64>) -> Hash {
        self.number(number.unwrap_or(-1))
    }

    pub fn text(self, text: &[u8]) -> Hash {
        let mut hash = self.number(text.len() as i64);
        hash.0.update(text);
        hash
    }

    pub fn maybe_text(self, text: Option<&[u8]>) -> Hash {
        match text {
            Some(text) => self.text(text),
            None => self.number(-1),
        }
    }

    pub fn sum(mut self, sum: &Sum) -> Hash {
        self.0.update(sum);
        self
    }

    pub fn whole(self) -> Sum {
        self.0.finalize().into()
    }
}

/// A start of the server.
#[derive(Clone, PartialEq, Eq, Debug)]
pub struct Start {
    pub at: i64,
    pub program: String,
}

/// What stands between two requests.
#[derive(Clone, Debug)]
pub enum Note {
    Start(Start),
    Barred(Barred),
    Clock(Jump),
}

/// The sums so far: that of the last request, and those of each sort of notes after it.
#[derive(Clone, Debug)]
pub struct Chain {
    head: Sum,
    notes: [Option<Sum>; 3],
}

impl Chain {
    pub fn behind(head: Sum) -> Chain {
        Chain {
            head,
            notes: [None; 3],
        }
    }

    /// The sum of the last request, or of what stands before the first one.
    pub fn head(&self) -> Sum {
        self.head
    }

    /// Takes a note in. Each sort has a sum of its own: the order of two notes of different sorts is not kept by the tables.
    pub fn note(&mut self, note: &Note) {
        let sort = match note {
            Note::Start(_) => 0,
            Note::Barred(_) => 1,
            Note::Clock(_) => 2,
        };
        let before = self.notes[sort].unwrap_or_default();
        let hash = Hash::of(Of::Note).sum(&before).number(sort as i64);
        let hash = match note {
            Note::Start(start) => hash.number(start.at).text(start.program.as_bytes()),
            Note::Clock(jump) => hash.number(jump.expected).number(jump.found),
            Note::Barred(one) => hash
                .number(one.at)
                .number(one.client)
                .text(one.account.as_bytes())
                .maybe_text(one.via.as_deref().map(str::as_bytes))
                .maybe_text(one.record.as_ref().map(|record| record.as_ref()))
                .text(one.asked.as_bytes())
                .text(one.why.as_bytes()),
        };
        self.notes[sort] = Some(hash.whole());
    }

    /// Takes a row in; its sum.
    pub fn row(&mut self, row: &Row) -> Sum {
        let mut hash = Hash::of(Of::Request).sum(&self.head);
        let which = |sort: usize| i64::from(self.notes[sort].is_some()) << sort;
        hash = hash.number(which(0) | which(1) | which(2));
        hash = self.notes.iter().flatten().fold(hash, Hash::sum);
        hash = hash
            .number(row.number)
            .number(row.at)
            .number(row.client)
            .text(row.account.as_bytes())
            .maybe_text(row.via.as_deref().map(str::as_bytes))
            .maybe(row.user.map(i64::from))
            .text(row.bytes.as_ref())
            .number(i64::from(row.reply) | i64::from(row.place) << 8)
            .maybe(row.opening)
            .maybe_text(row.key.as_deref().map(str::as_bytes))
            .maybe(row.moved.as_ref().map(|moved| moved.number));
        if let Some(moved) = &row.moved {
            let account = moved.account.as_bytes();
            hash = hash.number(moved.at).text(account).maybe(moved.opening);
        }
        hash = hash.number(row.namings.len() as i64);
        for naming in &row.namings {
            let sort = naming.sort.word().as_bytes();
            hash = hash.text(sort).number(naming.number.into());
            hash = hash.text(&naming.name);
        }
        *self = Chain::behind(hash.whole());
        self.head
    }
}
