//! `staff`: a roster and a policy tried out before anybody waits. It says what the clerks of each shift can finish and how many of them may be
//! away (docs/STAFF.md); `--simulate` plays orders that come in, and leaves a journal.

mod chart;
mod orders;
mod outlook;
mod planning;
mod roster;
mod simulate;
mod tell;
#[cfg(test)]
mod trials;

pub use planning::planned;
/// What is asked of a plan.
pub use planning::Options as Planning;

use crate::holds::length;
use crate::journal::{shown, Author};
use crate::names::Sort;
use crate::source::{self, Policy};
use crate::stop::{wrong, Done, Stop, WELL};
use simulate::{Desk, Plan, Played};
use std::collections::BTreeMap;
use std::io::Write;

/// What is asked for on the command line.
pub struct Options<'a> {
    pub orders: &'a str,
    pub roster: &'a str,
    /// The journal that is made; there must be none yet.
    pub journal: &'a str,
    /// `test=20,sign=6`.
    pub minutes: Option<&'a str>,
    /// `oldest`, `newest`, or tasks.
    pub prefer: Option<&'a str>,
    /// Minutes until somebody notices what came in or went on.
    pub notice: f64,
    pub seed: u64,
}

fn text_of(file: &str) -> Result<String, Stop> {
    let bytes = source::bytes_of(file)?;
    String::from_utf8(bytes).or_else(|_| wrong(format!("{file}: it is no text in UTF-8")))
}

fn plan(policy: &Policy, options: &Options) -> Result<Plan, Stop> {
    let (records, names) = (policy.records(), &policy.names);
    let (roster, orders) = (text_of(options.roster)?, text_of(options.orders)?);
    let duties = roster::read(options.roster, &roster, &records, names).map_err(Stop::Wrong)?;
    let arrivals = orders::read(options.orders, &orders, &records, names).map_err(Stop::Wrong)?;
    let task = |option: &str, word: &str| match names.given(Sort::Task, word) {
        Some(task) => Ok(task),
        None => wrong(format!("{option}: there is no task {word:?}")),
    };
    let mut minutes = BTreeMap::new();
    for part in options.minutes.into_iter().flat_map(|text| text.split(',')) {
        let Some((word, number)) = part.split_once('=') else {
            return wrong(format!("--minutes {part}: TASK=MINUTES is expected"));
        };
        let number = orders::minutes(number).or_else(|why| wrong(format!("--minutes: {why}")))?;
        minutes.insert(task("--minutes", word.trim())?, number);
    }
    let words = options.prefer.unwrap_or("oldest");
    let preferred = match words {
        "oldest" | "newest" => Vec::new(),
        _ => words
            .split(',')
            .map(|word| task("--prefer", word.trim()))
            .collect::<Result<_, _>>()?,
    };
    Ok(Plan {
        policy: records,
        duties,
        arrivals,
        minutes,
        notice: options.notice,
        prefer: preferred,
        newest: words == "newest",
        seed: options.seed,
    })
}

pub fn simulate(policy: &Policy, options: &Options, out: &mut dyn Write) -> Done {
    let plan = plan(policy, options)?;
    let author = Author::begin(options.journal, policy)?;
    let played = Desk::new(&plan, author).play();
    let played = played.inspect_err(|_| Author::discard(options.journal))?;
    report(&plan, policy, options, &played, out)?;
    Ok(WELL)
}

fn report(
    plan: &Plan,
    policy: &Policy,
    options: &Options,
    played: &Played,
    out: &mut dyn Write,
) -> std::io::Result<()> {
    let (orders, requests) = (plan.arrivals.len(), played.requests);
    let (ended, lying) = (played.ended, played.lying);
    writeln!(out, "{}: {orders} orders, {ended} ended, {lying} still open; {requests} requests, each answered by the engine", shown(options.journal))?;
    if played.waited > 0 {
        writeln!(
            out,
            "{} orders came while all 64 order numbers were in use, and waited for one",
            played.waited
        )?;
    }
    for (&user, &(tasks, time)) in &played.load {
        writeln!(
            out,
            "  {:<16}  {tasks:>7} tasks  {:>14} at work",
            policy.names.say(Sort::User, user),
            length(time)
        )?;
    }
    Ok(())
}
