//! The sums of a journal as it is read, whichever its version has: a chain, or the checksums of version 2.

use super::chain::{Chain, Note, Sum};
use super::found::{unfit, Unfit};
use super::{checksums, Row};
use rusqlite::types::ValueRef;

/// A sum as a table has it.
#[derive(Clone, Copy, PartialEq, Eq, Debug)]
pub enum Kept {
    Checksum(u32),
    Sum(Sum),
}

impl Kept {
    pub fn of(column: ValueRef) -> Result<Kept, Unfit> {
        let kept = match column {
            ValueRef::Integer(number) => u32::try_from(number).ok().map(Kept::Checksum),
            ValueRef::Blob(bytes) => Sum::try_from(bytes).ok().map(Kept::Sum),
            _ => None,
        };
        kept.map_or_else(|| unfit("it is damaged: a sum does not have 32 bytes"), Ok)
    }
}

/// Where the sums are at.
#[derive(Clone, Debug)]
pub enum Links {
    Checksums(u32),
    Chain(Chain),
}

impl Links {
    pub fn chain(head: Sum) -> Links {
        Links::Chain(Chain::behind(head))
    }

    /// Goes on after a row that has this sum.
    pub fn behind(kept: Kept) -> Links {
        match kept {
            Kept::Checksum(sum) => Links::Checksums(sum),
            Kept::Sum(sum) => Links::chain(sum),
        }
    }

    /// Takes a row in; its sum.
    pub fn row(&mut self, row: &Row) -> Kept {
        match self {
            Links::Checksums(sum) => {
                *sum = checksums::of_row(*sum, row);
                Kept::Checksum(*sum)
            }
            Links::Chain(chain) => Kept::Sum(chain.row(row)),
        }
    }

    /// The checksums of version 2 leave notes out.
    pub fn note(&mut self, note: &Note) {
        if let Links::Chain(chain) = self {
            chain.note(note);
        }
    }

    /// The sum of the last row, where it is one of a chain.
    pub fn head(&self) -> Option<Sum> {
        match self {
            Links::Checksums(_) => None,
            Links::Chain(chain) => Some(chain.head()),
        }
    }
}
