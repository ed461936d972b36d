//! `holds`: how long orders lie between two tasks, and why (docs/HOLDS.md). The journal is asked anew from its load on; what could have been
//! claimed meanwhile is the engine's own answer.

mod calendar;
mod charts;
mod figures;
mod hold;
mod measure;
mod objects;
mod pairs;
mod report;
mod text;
mod totals;
mod words;

#[cfg(test)]
mod trials;

pub use calendar::{length, moment, next_time, shifts, Shift, Zone};
pub use charts::{picture, Panel, Picture};
pub use figures::By;
pub use measure::End;
pub use objects::object;
pub use text::csv;
pub use words::Words;

use crate::journal::{self, Store, Unfit};
use crate::progress::Progress;
use crate::stop::{wrong, Done, Stop, WELL};
use measure::{Asked, Measure};
use pairs::Pairs;
use report::Report;
use std::fs;
use std::io::Write;

/// What is asked for on the command line.
pub struct Options<'a> {
    pub from: &'a str,
    pub to: &'a str,
    pub end: End,
    pub by: By,
    pub since: Option<&'a str>,
    pub until: Option<&'a str>,
    pub zone: Zone,
    /// How many of the longest holds are shown.
    pub worst: usize,
    pub form: Form,
    /// A picture, and the file that it goes to.
    pub plot: Option<(&'a str, Picture<'a>)>,
}

#[derive(Clone, Copy, PartialEq, Eq, Debug)]
pub enum Form {
    Text,
    Csv,
    Json,
}

/// Measures a journal.
pub fn measured(file: &str, options: &Options) -> Result<Report, Stop> {
    let refused =
        |Unfit(why): Unfit| Stop::Refused(vec![format!("{}: {why}", journal::shown(file))]);
    let store = &*journal::reading(file)?;
    let policy = store.head().map_err(refused)?.policy;
    let asked = Asked {
        pairs: Pairs::read(options.from, options.to, &policy.records(), &policy.names)?,
        end: options.end,
        since: journal::time_of(options.since, i64::MIN)?,
        until: journal::time_of(options.until, i64::MAX)?,
        zone: options.zone,
        worst: options.worst,
    };
    let report = replayed(store, &asked, &options.by).map_err(refused)?;
    Ok(report)
}

fn replayed(store: &dyn Store, asked: &Asked, by: &By) -> Result<Report, Unfit> {
    let mut progress = Progress::new("holds", store.last()?);
    let mut at = |number| progress.at(number);
    let names = store.head()?.policy.names;
    let mut measure = Measure::new(asked, names, &mut at);
    let found = journal::of(store, true, &mut measure);
    measure.finish();
    let Measure {
        holds,
        totals,
        worst,
        names,
        ..
    } = measure;
    progress.end();
    let mut report = Report::new(found?, names, asked, by, holds, totals, worst);
    for name in report.wanted() {
        let named = store.name_of_opening(name)?;
        report.name(name, named.map(|name| crate::names::shown(&name)));
    }
    Ok(report)
}

/// Puts a file into its place whole, or leaves what was there.
fn put(file: &str, bytes: &[u8]) -> Result<(), Stop> {
    let new = format!("{file}.new");
    let written = fs::write(&new, bytes).and_then(|()| fs::rename(&new, file));
    written.or_else(|why| {
        let _ = fs::remove_file(&new);
        wrong(format!("{file}: it cannot be written: {why}"))
    })
}

pub fn holds(file: &str, options: &Options, out: &mut dyn Write) -> Done {
    let report = measured(file, options)?;
    if let Some((file, wanted)) = &options.plot {
        put(file, charts::picture(&report, wanted).as_bytes())?;
    }
    match options.form {
        Form::Text => text::write(&report, out)?,
        Form::Csv => text::csv(&report, out)?,
        Form::Json => writeln!(out, "{}", objects::object(&report))?,
    }
    Ok(WELL)
}
