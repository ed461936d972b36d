//! Compares readers of OPL/XML over random texts of the grammar and over damaged ones: every figure of the answer, every byte of
//! the output and every name by its number.
//!
//! The plain reader (crate `opl`) and a slow one, which takes content models from the DTD's text, always take part; the proved
//! one does if the library is linked. To compare a further reader, add a [`Reader`] from a closure or, with [`Reader::exported`],
//! from a library's function:
//!
//! ```
//! use opl_differential::{readers, run, Reader};
//!
//! let mut all = readers();
//! all.push(Reader::new("third", |policy, tasks, output| {
//!     opl::translate(policy, tasks, output)
//! }));
//! let met = run(&all, 1, 100).unwrap();
//! assert!(met.texts >= 100);
//! ```

mod compare;
mod damage;
mod dtd;
mod run;
mod slow;
mod texts;

pub use compare::{compare, compare_names, readers, readers_of, Exported, Reader, Translate};
pub use damage::{blows, mangled, struck, Blow};
pub use dtd::{DTD, WIDE_DTD};
pub use run::{run, run_sections, Met, Run};
pub use texts::{Style, Texts};
