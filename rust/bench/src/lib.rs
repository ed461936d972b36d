//! The proved library timed against two plain engines, on the same streams of records, in one run.
//! Every reply is compared in every pass. The engines come from the crate `differential`.

mod dealt;
mod figures;
mod index;
mod kinds;
mod libxml2;
mod numbers;
mod orders;
mod policies;
mod race;
mod reading;
mod report;
mod stack;
mod workloads;

pub use figures::{only, Effort, Figures};
pub use index::Index;
pub use kinds::kinds;
pub use race::Race;
pub use reading::{reading_table, readings};
pub use report::{page, plot, table};
pub use workloads::{checks, day, day_among, load, Workload};
