//! Compares engines over random cases: every reply, every place, and afterwards what the public calls reveal about the tables.
//!
//! The plain engine with both of its ledgers and a slow engine always take part. The proved library takes part if its archive was
//! found when the crate `mishantral` was built.

mod candidates;
mod cases;
mod command;
mod compare;
mod coverage;
mod damage;
mod desks;
#[cfg(mishantral_engine)]
mod garbage;
#[cfg(mishantral_engine)]
mod links;
mod pools;
mod slow;
mod walk;

pub use cases::{Case, Mend, Pile, Question, Step};
pub use command::command;
pub use compare::{compare, Failure};
pub use coverage::{possible, Coverage};
pub use desks::{checked, plain, proved, Answer, Desk, Difference, Mended, Panel, Written};
#[cfg(mishantral_engine)]
pub use garbage::garbage;
#[cfg(mishantral_engine)]
pub use links::{damages, links, Links};
pub use slow::{Place, Slow, Walling};

/// Whether the proved library takes part.
pub const PROVED: bool = cfg!(mishantral_engine);

/// Whether the proved library of the lower part takes part.
pub const PROVED_LOWER: bool = cfg!(mishantral_lower);

/// Whether the proved library has a call for piles.
pub const PILED: bool = cfg!(mishantral_pile);

/// Whether the proved library has a call that writes the policy out.
pub const WRITES: bool = cfg!(mishantral_write);
/// Whether the proved library has a call that mends a file.
pub const MENDS: bool = cfg!(mishantral_mend);

/// Whether the proved library has a request for settled states besides the one that accepts any content.
pub const SETTLED: bool = cfg!(mishantral_settled_request);

/// The default seed.
pub const SEED: u64 = 1;
/// The default number of cases.
pub const CASES: u64 = 400;
