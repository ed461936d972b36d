//! `convert`: between records, text and OPL/XML.

use crate::names::Names;
use crate::reader;
use crate::report::report;
use crate::source::{Policy, Requests};
use crate::stop::{Done, Stop, WELL};
use crate::writer;
use notation::dealer::{self, Remedy, Unsaid, Way, Written};
use std::io::Write;

/// What is written.
#[derive(Clone, Copy, PartialEq, Eq, Debug)]
pub enum To {
    Records,
    /// Text with names, or with numbers alone.
    Text {
        numbers: bool,
    },
}

pub fn policy(policy: &Policy, to: To, out: &mut dyn Write) -> Done {
    match to {
        To::Records => out.write_all(&policy.bytes)?,
        To::Text { numbers } => {
            let names = if numbers {
                Names::default()
            } else {
                policy.names.clone()
            };
            out.write_all(writer::policy(&policy.bytes, &names).as_bytes())?;
        }
    }
    out.flush()?;
    Ok(WELL)
}

/// Requests, with the names of the policy that they are for and those that they give.
pub fn requests(requests: &Requests, names: &Names, to: To, out: &mut dyn Write) -> Done {
    let mut names = names.clone();
    for line in requests {
        reader::give(&mut names, &line.namings, false);
        let Some(record) = &line.record else { continue };
        match to {
            To::Records => out.write_all(record)?,
            To::Text { numbers: true } => {
                writeln!(out, "{}", writer::line(record, &Names::default()))?
            }
            To::Text { numbers: false } => writeln!(out, "{}", writer::line(record, &names))?,
        }
    }
    out.flush()?;
    Ok(WELL)
}

/// A policy as OPL/XML and task lines; or all that cannot be said so.
pub fn opl(policy: &Policy, numbers: bool, way: Way) -> Result<Written, Stop> {
    let none = Names::default();
    let names = if numbers { &none } else { &policy.names };
    let written = dealer::write(&policy.bytes, names, way);
    let written = written.map_err(|unsaid| Stop::Refused(untold(policy, &unsaid)))?;
    let changed = written.renumbered.iter();
    let changed: Vec<String> = changed
        .map(|(space, count)| format!("{count} of a {}", space.name()))
        .collect();
    if !changed.is_empty() {
        let changed = changed.join(", ");
        report(format!(
            "{}: a reader gives other numbers than these: {changed}",
            policy.file
        ));
    }
    Ok(written)
}

/// What cannot be said, a line each, and what would help.
fn untold(policy: &Policy, unsaid: &[Unsaid]) -> Vec<String> {
    let line = |unsaid: &Unsaid| match unsaid.record {
        None => format!(
            "{}: OPL/XML cannot express this: {}",
            policy.file, unsaid.why
        ),
        Some(at) => {
            let (head, line) = (policy.head(at), policy.line(at));
            format!(
                "{head}: OPL/XML cannot express this: {line}: {}",
                unsaid.why
            )
        }
    };
    let mut lines: Vec<String> = unsaid.iter().map(line).collect();
    if unsaid.iter().any(|u| u.remedy == Some(Remedy::AllSections)) {
        lines.push("--all-sections writes senior roles and walls too".to_string());
    }
    if unsaid.iter().any(|u| u.remedy == Some(Remedy::Renumber)) {
        lines.push(
            "--renumber writes it with its names, and lets a reader give the numbers".to_string(),
        );
    }
    lines
}
