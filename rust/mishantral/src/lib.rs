//! The proved policy engine for Rust, without dependencies and without std; it needs only an allocator.
//!
//! [`Record`] has a constructor for each kind (docs/RULES.md), and [`Reply`] has each reply's number and name. `Engine` owns the
//! state that the library works on. It loads a policy and answers requests with an [`Answer`]: the reply and, for a claim that a
//! rule refuses, the rule. `Engine::figures` gives the figures of an order, and `Engine::stuck_tasks` the tasks of a template
//! that can never be claimed. `Engine::write_policy` writes the current policy out, and `Engine::mend` mends a damaged policy
//! file. `lower::Engine` is the lower part alone, without orders. `Policy` is a dealer's OPL/XML as records, with the dealer's
//! names by number.
//!
//! `Engine` exists only if the proved library's archive was found when this crate was built: through the environment variable
//! `MISHANTRAL_ARCHIVE`, or as `target/native/libmishantral.a` of the repository, where `tools/archive` makes it. `lower` needs a
//! second archive, which `tools/archive lower` makes.
#![no_std]

extern crate alloc;
#[cfg(test)]
extern crate std;

pub use records::{Record, Reply, Set, LENGTH};

mod answer;
pub use answer::{Answer, Rule};

mod refused;
pub use refused::Refused;

#[cfg(any(mishantral_engine, mishantral_lower))]
mod lent;
#[cfg(any(mishantral_engine, mishantral_lower))]
mod library;

#[cfg(mishantral_engine)]
mod engine;
#[cfg(mishantral_pile)]
pub use engine::PILE;
#[cfg(mishantral_engine)]
pub use engine::{Engine, Figures, State, StuckTasks, ANSWER};

#[cfg(all(test, mishantral_pile, mishantral_settled_request))]
mod any_content;

#[cfg(mishantral_mend)]
mod mend;
#[cfg(mishantral_mend)]
pub use mend::{Dropped, Entry, Mended};
#[cfg(mishantral_write)]
mod write;

/// The largest number of records that writing a policy out can give, whatever the state holds.
#[cfg(any(mishantral_write, mishantral_lower_write))]
pub const WRITTEN: usize = 108_528;

#[cfg(mishantral_lower)]
pub mod lower;

#[cfg(any(mishantral_opl, test))]
mod names;
#[cfg(mishantral_opl)]
pub mod opl;
#[cfg(mishantral_opl)]
pub use {names::Space, opl::Policy};
