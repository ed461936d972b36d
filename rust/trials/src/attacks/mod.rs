//! What an attack of the served desk found, each tried again with the outcome that is wanted: fifteen faults, by number.

mod crowd;
mod disks;
mod files;
mod questions;
mod rows;
mod servers;

use std::path::Path;

/// What came of a trial: its figures, or that it could not be tried here; or what was not kept.
pub type Came = Result<String, String>;

/// A fault: its number, what happens, and the trial.
pub type Fault = (u8, &'static str, fn(&Path) -> Came);

pub const FAULTS: [Fault; 15] = [
    (
        1,
        "50 clients ask `finish all` on 64 hard orders",
        questions::questions,
    ),
    (2, "other accounts lock the journal's files", files::modes),
    (
        3,
        "journal, log or index taken away under load",
        files::taken,
    ),
    (
        4,
        "a journal begun on a disk that is nearly full",
        disks::begun,
    ),
    (5, "the log fills a small disk", disks::log),
    (6, "standard output and error closed", servers::closed),
    (7, "the clock 10 years forward for one request", rows::clock),
    (8, "100,000 names, and long ones", rows::names),
    (
        9,
        "more clients than descriptors, all of one account",
        crowd::limits,
    ),
    (10, "a reader that stays in its transaction", disks::reader),
    (11, "two servers race for a stale socket", servers::race),
    (12, "one desk of two ends", servers::one_ends),
    (13, "every first byte of a record", rows::first_bytes),
    (14, "no memory for a further client", crowd::memory),
    (15, "no descriptor for a further client", crowd::descriptors),
];

/// An error as text.
fn text(why: impl std::fmt::Display) -> String {
    why.to_string()
}

/// Whether root runs this, who may mount disks and be other accounts.
fn is_root() -> bool {
    let id = std::process::Command::new("id").arg("-u").output();
    id.is_ok_and(|id| id.stdout == b"0\n")
}

/// An outcome that is wanted.
fn wanted(holds: bool, what: impl Into<String>) -> Result<(), String> {
    match holds {
        true => Ok(()),
        false => Err(what.into()),
    }
}
