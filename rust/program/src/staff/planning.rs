//! `staff` without `--simulate`: what the clerks of each shift can finish, of each template from nothing and of each open order of a journal.

use super::outlook::{outlook, Finish, Outlook, Question};
use super::{chart, roster, tell, text_of};
use crate::clash::begun;
use crate::desk::Desk;
use crate::finish::Budget;
use crate::names::Sort;
use crate::source::Policy;
use crate::stop::{wrong, Done, Stop, REFUSED, WELL};
use records::{Record, LENGTH};
use std::collections::BTreeSet;
use std::io::{stderr, IsTerminal, Write};

/// What is asked for on the command line.
pub struct Options<'a> {
    /// `night=300-319,325`, one or more.
    pub shift: &'a [String],
    /// A file of shifts.
    pub shifts: Option<&'a str>,
    pub template: Option<&'a str>,
    pub absent: Option<usize>,
    pub tries: u64,
    pub plan: bool,
    pub json: bool,
    /// The picture's file.
    pub plot: Option<&'a str>,
}

/// Who is there.
pub struct Shift {
    pub name: String,
    /// As the file has them.
    pub hours: Option<String>,
    pub clerks: Vec<u16>,
}

/// What is to be finished: an order of a template from nothing, or one that is open.
pub struct Row {
    pub name: String,
    pub template: u16,
    pub order: Option<u16>,
    desk: Desk,
}

fn shifts(desk: &Desk, options: &Options) -> Result<Vec<Shift>, Stop> {
    // Users may have come and gone since the load.
    let now = crate::files::written(desk.engine())?;
    let records: Vec<Record> = now
        .chunks_exact(LENGTH)
        .filter_map(crate::desk::whole)
        .collect();
    let names = &desk.names;
    let mut all = Vec::new();
    if let Some(file) = options.shifts {
        let duties = roster::read(file, &text_of(file)?, &records, names).map_err(Stop::Wrong)?;
        all.extend(duties.into_iter().map(|duty| Shift {
            hours: Some(duty.shift.hours()),
            name: duty.shift.name,
            clerks: duty.clerks,
        }));
    }
    for word in options.shift {
        let Some((name, words)) = word.split_once('=') else {
            return wrong(format!(
                "--shift {word}: NAME=CLERKS is expected, as night=300-319,325"
            ));
        };
        let clerks = roster::clerks(words, &records, names);
        let clerks = clerks.or_else(|why| wrong(format!("--shift {word}: {why}")))?;
        if clerks.is_empty() {
            return wrong(format!("--shift {word}: nobody comes for {name}"));
        }
        all.push(Shift {
            name: name.to_string(),
            hours: None,
            clerks,
        });
    }
    if all.is_empty() {
        let clerks = desk.told.users.keys().copied().collect();
        all.push(Shift {
            name: "all clerks".to_string(),
            hours: None,
            clerks,
        });
    }
    for shift in &mut all {
        shift.clerks.sort();
        shift.clerks.dedup();
    }
    Ok(all)
}

/// The templates, or the one that is asked for.
fn templates(desk: &Desk, options: &Options) -> Result<Vec<u16>, Stop> {
    let all: BTreeSet<u16> = desk.told.tasks.values().copied().collect();
    let Some(word) = options.template else {
        return Ok(all.into_iter().collect());
    };
    let template = desk.names.given(Sort::Template, word);
    match template.filter(|template| all.contains(template)) {
        Some(template) => Ok(vec![template]),
        None => wrong(format!(
            "--template {word}: there is no template {word:?} with a task"
        )),
    }
}

fn rows(policy: &Policy, journal: Option<&Desk>, options: &Options) -> Result<Vec<Row>, Stop> {
    let first = match Desk::open(policy) {
        Ok(desk) => desk,
        Err(refused) => return Err(Stop::Refused(crate::check::refusal(policy, refused))),
    };
    let mut rows = Vec::new();
    for template in templates(&first, options)? {
        let Some(desk) = begun(policy, template) else {
            continue;
        };
        let name = desk.say(Sort::Template, template);
        rows.push(Row {
            name,
            template,
            order: None,
            desk,
        });
    }
    if let Some(desk) = journal {
        let wanted = templates(desk, options)?;
        let orders = desk
            .told
            .orders
            .iter()
            .filter(|(_, order)| wanted.contains(&order.template));
        for (&order, opened) in orders {
            let copy = Desk::at(&desk.policy, desk.names.clone(), desk.engine().clone());
            let name = desk.say(Sort::Order, order);
            rows.push(Row {
                name,
                template: opened.template,
                order: Some(order),
                desk: copy,
            });
        }
    }
    match rows.is_empty() {
        true => wrong(format!("{}: there is no template with a task", policy.file)),
        false => Ok(rows),
    }
}

/// Says on a terminal which of how many is at work.
fn progress(at: usize, whole: usize, what: &str) {
    if stderr().is_terminal() {
        let bar = format!(
            "{}{}",
            "#".repeat(30 * at / whole),
            "-".repeat(30 - 30 * at / whole)
        );
        let _ = write!(stderr(), "\r\x1b[Kstaff  [{bar}]  {at} of {whole}, {what}");
    }
}

fn progress_ends() {
    if stderr().is_terminal() {
        let _ = write!(stderr(), "\r\x1b[K");
    }
}

/// What each shift can finish, told in words or as objects.
pub fn planned(
    policy: &Policy,
    journal: Option<&Desk>,
    options: &Options,
    out: &mut dyn Write,
) -> Done {
    let rows = rows(policy, journal, options)?;
    let shifts = shifts(journal.unwrap_or(&rows[0].desk), options)?;
    let budget = Budget::of_tries(options.tries);
    let question = Question {
        budget: &budget,
        absent: options.absent,
    };
    let (mut found, whole) = (Vec::new(), rows.len() * shifts.len());
    for row in &rows {
        let mut fields = Vec::new();
        for shift in &shifts {
            progress(
                found.len() * shifts.len() + fields.len(),
                whole,
                &format!("{}, {}", row.name, shift.name),
            );
            fields.push(outlook(
                &row.desk,
                row.order.unwrap_or(0),
                &shift.clerks,
                &question,
            ));
        }
        found.push(fields);
    }
    progress_ends();
    match options.json {
        true => objects(&rows, &shifts, &found, out)?,
        false => words(policy, &rows, &shifts, &found, options, out)?,
    }
    if let Some(file) = options.plot {
        let picture = drawn(policy, &rows, &shifts, &found);
        if let Err(why) = std::fs::write(file, picture) {
            return wrong(format!("{file}: it cannot be written: {why}"));
        }
    }
    let enough = |outlook: &Outlook| match &outlook.finish {
        Finish::Yes(able) => options.absent.is_none_or(|absent| able.away.any >= absent),
        _ => false,
    };
    Ok(if found.iter().flatten().all(enough) {
        WELL
    } else {
        REFUSED
    })
}

fn objects(
    rows: &[Row],
    shifts: &[Shift],
    found: &[Vec<Outlook>],
    out: &mut dyn Write,
) -> std::io::Result<()> {
    for (row, fields) in rows.iter().zip(found) {
        for (shift, outlook) in shifts.iter().zip(fields) {
            writeln!(out, "{}", tell::object(&row.desk, row, shift, outlook))?;
        }
    }
    Ok(())
}

fn column(shift: &Shift) -> String {
    let hours = shift
        .hours
        .as_ref()
        .map_or(String::new(), |hours| format!(" {hours}"));
    let count = shift.clerks.len();
    format!(
        "{}{hours}, {count} {}",
        shift.name,
        if count == 1 { "clerk" } else { "clerks" }
    )
}

fn words(
    policy: &Policy,
    rows: &[Row],
    shifts: &[Shift],
    found: &[Vec<Outlook>],
    options: &Options,
    out: &mut dyn Write,
) -> std::io::Result<()> {
    let head = [policy.file.clone()]
        .into_iter()
        .chain(shifts.iter().map(column));
    let mut table: Vec<Vec<String>> = vec![head.collect()];
    for (row, fields) in rows.iter().zip(found) {
        let fields = fields.iter().map(tell::field);
        table.push([row.name.clone()].into_iter().chain(fields).collect());
    }
    for line in tell::table(&table) {
        writeln!(out, "{line}")?;
    }
    writeln!(
        out,
        "K: how many clerks of the shift may be away, whoever they are"
    )?;
    for (row, fields) in rows.iter().zip(found) {
        for (shift, outlook) in shifts.iter().zip(fields) {
            let lines = tell::lines(&row.desk, row, shift, outlook, options.plan);
            writeln!(out, "\n{}", lines.join("\n"))?;
        }
    }
    Ok(())
}

fn drawn(policy: &Policy, rows: &[Row], shifts: &[Shift], found: &[Vec<Outlook>]) -> String {
    let columns: Vec<String> = shifts.iter().map(column).collect();
    let rows = rows
        .iter()
        .zip(found)
        .map(|(row, fields)| (row.name.clone(), fields.iter().collect()));
    chart::picture(&policy.file, &columns, &rows.collect::<Vec<_>>())
}
