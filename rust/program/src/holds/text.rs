//! The report as a table for people, and as CSV.

use super::calendar::{length, SECOND};
use super::figures::{By, Figures};
use super::hold::{Detail, Ended, Hold, Part, PARTS};
use super::report::{by_refusal, Report};
use crate::desk::joined;
use std::io::{self, Write};

/// As many names as one reads.
const FEW: usize = 4;

fn share(part: i64, whole: i64) -> String {
    match whole {
        0 => "-".to_string(),
        _ => format!("{:.0} %", 100.0 * part as f64 / whole as f64),
    }
}

fn of(time: Option<i64>) -> String {
    time.map_or("-".to_string(), length)
}

/// The parts that the report's holds have at all.
fn parts(report: &Report) -> Vec<Part> {
    let some = |part: Part| {
        report
            .holds
            .iter()
            .any(|hold| hold.parts[part as usize] > 0)
    };
    let always = |part: &Part| !matches!(part, Part::Held | Part::Before);
    let all = Part::ALL.into_iter();
    all.filter(|part| always(part) || some(*part)).collect()
}

fn row(name: &str, figures: &Figures, parts: &[Part]) -> Vec<String> {
    let quartiles = match (figures.hundredths(25), figures.hundredths(75)) {
        (Some(low), Some(high)) => format!("{} to {}", length(low), length(high)),
        _ => "-".to_string(),
    };
    let (median, ninety, worst) = (figures.median(), figures.hundredths(90), figures.worst());
    let mut row = vec![
        name.to_string(),
        figures.count().to_string(),
        of(median),
        quartiles,
        of(ninety),
        of(worst),
    ];
    row.extend(
        parts
            .iter()
            .map(|&part| share(figures.parts[part as usize], figures.whole())),
    );
    row.push(figures.lying.to_string());
    row
}

/// Columns of one width, the first to the left and the others to the right.
fn table(rows: &[Vec<String>], out: &mut dyn Write) -> io::Result<()> {
    let columns = rows.first().map_or(0, Vec::len);
    let widest = |column: usize| {
        rows.iter()
            .map(|row| row[column].chars().count())
            .max()
            .unwrap_or(0)
    };
    let widths: Vec<usize> = (0..columns).map(widest).collect();
    for row in rows {
        let (first, rest) = (&row[0], row[1..].iter().zip(&widths[1..]));
        let rest: String = rest
            .map(|(cell, &width)| format!("  {cell:>width$}"))
            .collect();
        writeln!(out, "{first:<width$}{rest}", width = widths[0])?;
    }
    Ok(())
}

pub fn write(report: &Report, out: &mut dyn Write) -> io::Result<()> {
    let all = &report.all;
    writeln!(
        out,
        "{}: {}; {} still lying, {} ended unclaimed; {} requests asked anew",
        report.between(),
        counted(all.count()),
        all.lying,
        all.unclaimed,
        report.requests
    )?;
    if report.holds.is_empty() {
        return Ok(());
    }
    let parts = parts(report);
    let head = ["begun", "holds", "median", "quartiles", "90 %", "worst"];
    let head = head
        .into_iter()
        .chain(parts.iter().map(|part| part.words()))
        .chain(["lying"]);
    let mut rows = vec![head.map(String::from).collect::<Vec<String>>()];
    rows[0][0] = first_column(&report.by).to_string();
    match report.by {
        By::Opening => {}
        _ => rows.extend(
            report
                .groups
                .iter()
                .map(|(name, figures)| row(name, figures, &parts)),
        ),
    }
    rows.push(row("all", all, &parts));
    writeln!(out)?;
    table(&rows, out)?;
    if report.by == By::Opening {
        each(report, out)?;
    }
    why(report, out)?;
    refused(report, out)?;
    worst(report, out)
}

/// `1 hold`, `7 holds`.
fn counted(holds: usize) -> String {
    match holds {
        1 => "1 hold".to_string(),
        _ => format!("{holds} holds"),
    }
}

fn first_column(by: &By) -> &'static str {
    match by {
        By::Clerk => "claimed by",
        By::Opening => "",
        _ => "begun",
    }
}

fn each(report: &Report, out: &mut dyn Write) -> io::Result<()> {
    let head = ["opened by", "order", "begun", "hold", "", "claimed by"].map(String::from);
    let mut rows = vec![head.to_vec()];
    for hold in &report.holds {
        let clerk = hold.clerk.map_or("-".to_string(), |user| report.user(user));
        let how = say_parts(&hold.parts);
        let (opened, begun) = (
            format!("request {}", hold.opening),
            report.zone.moment(hold.start),
        );
        rows.push(vec![
            opened,
            report.order(hold),
            begun,
            length(hold.length()),
            how,
            clerk,
        ]);
    }
    writeln!(out)?;
    table(&rows, out)
}

/// `anna 3 h 10 min, bert 12.0 s and 3 more`.
fn few(all: &[(String, String)]) -> String {
    let mut shown: Vec<String> = all
        .iter()
        .take(FEW)
        .map(|(name, sum)| format!("{name} {sum}"))
        .collect();
    if all.len() > FEW {
        shown.push(format!("{} more", all.len() - FEW));
    }
    joined(&shown)
}

fn why(report: &Report, out: &mut dyn Write) -> io::Result<()> {
    let sum = |part: Part| {
        report
            .holds
            .iter()
            .map(|hold| hold.parts[part as usize])
            .sum::<i64>()
    };
    let whole: i64 = Part::ALL.into_iter().map(sum).sum();
    let lying = match report.all.lying + report.all.unclaimed {
        0 => String::new(),
        count => format!(", with {count} that were not claimed"),
    };
    writeln!(out, "\nwhy they lay{lying}: {} in all", length(whole))?;
    for part in parts(report) {
        let time = sum(part);
        let mut line = format!(
            "  {:<16}  {:>5}  {}",
            part.words(),
            share(time, whole),
            length(time)
        );
        if part == Part::Somebody && !report.totals.could.is_empty() {
            let mut could: Vec<(u16, i64)> = report
                .totals
                .could
                .iter()
                .map(|(&user, &time)| (user, time))
                .collect();
            could.sort_by_key(|&(user, time)| (-time, user));
            let could: Vec<(String, String)> = could
                .into_iter()
                .map(|(user, time)| (report.user(user), length(time)))
                .collect();
            line += &format!(": {}", few(&could));
        }
        writeln!(out, "{line}")?;
        if part == Part::Nobody {
            met(report, out)?;
        }
    }
    Ok(())
}

/// The rules that those signed in would have met while nobody could.
fn met(report: &Report, out: &mut dyn Write) -> io::Result<()> {
    let sums = report.totals.met.iter().map(|(&key, &time)| (key, time));
    for (refusal, _, users) in by_refusal(sums) {
        let users: Vec<(String, String)> = users
            .into_iter()
            .map(|(user, time)| (report.user(user), length(time)))
            .collect();
        writeln!(out, "    {}: {}", report.say_refusal(refusal), few(&users))?;
    }
    Ok(())
}

fn refused(report: &Report, out: &mut dyn Write) -> io::Result<()> {
    let sums = report
        .totals
        .refused
        .iter()
        .map(|(&key, &count)| (key, count));
    let all = by_refusal(sums);
    let count: i64 = all.iter().map(|(_, count, _)| count).sum();
    writeln!(out, "\nclaims refused meanwhile: {count}")?;
    for (refusal, count, users) in all {
        let name = |user: Option<u16>| {
            user.map_or("a subject that is not live".to_string(), |user| {
                report.user(user)
            })
        };
        let users: Vec<(String, String)> = users
            .into_iter()
            .map(|(user, count)| (name(user), count.to_string()))
            .collect();
        writeln!(
            out,
            "  {count:>7}  {}: {}",
            report.say_refusal(refusal),
            few(&users)
        )?;
    }
    Ok(())
}

/// `nobody could 15 h 20 min, somebody could 20 min 00 s`.
fn say_parts(parts: &[i64; PARTS]) -> String {
    let some = Part::ALL
        .into_iter()
        .filter(|&part| parts[part as usize] > 0);
    let some: Vec<String> = some
        .map(|part| format!("{} {}", part.words(), length(parts[part as usize])))
        .collect();
    some.join(", ")
}

fn worst(report: &Report, out: &mut dyn Write) -> io::Result<()> {
    if report.worst.is_empty() {
        return Ok(());
    }
    writeln!(out, "\nthe longest")?;
    for (hold, detail) in &report.worst {
        let (order, begun) = (report.order(hold), report.zone.moment(hold.start));
        let how = match hold.ended {
            Ended::Reached => "",
            Ended::Lying => ", still lying",
            Ended::Unclaimed => ", ended unclaimed",
        };
        let time = length(hold.length());
        writeln!(
            out,
            "  {time:>12}  {order} (opened by request {}), from {begun}{how}: {}",
            hold.opening,
            reason(report, hold, detail)
        )?;
    }
    Ok(())
}

/// The parts of one hold, with the rule that most of those signed in would have met longest.
fn reason(report: &Report, hold: &Hold, detail: &Detail) -> String {
    let met = by_refusal(detail.met.iter().copied());
    let rule = met
        .first()
        .map(|(refusal, ..)| format!(" ({})", report.say_refusal(*refusal)));
    format!("{}{}", say_parts(&hold.parts), rule.unwrap_or_default())
}

/// A field between quotes where it needs them.
fn field(text: &str) -> String {
    match text.contains([',', '"', '\n', '\r']) {
        true => format!("\"{}\"", text.replace('"', "\"\"")),
        false => text.to_string(),
    }
}

/// Seconds, to the microsecond.
fn seconds(time: i64) -> String {
    format!("{}.{:06}", time / SECOND, time % SECOND)
}

/// A row a group, or with `--by opening` a row a hold; times in seconds, to the microsecond.
pub fn csv(report: &Report, out: &mut dyn Write) -> io::Result<()> {
    if report.by == By::Opening {
        return csv_each(report, out);
    }
    let parts: Vec<String> = Part::ALL
        .iter()
        .map(|part| format!("{}_s", part.key()))
        .collect();
    writeln!(out, "group,holds,median_s,quarter_s,three_quarters_s,ninety_percent_s,worst_s,{},lying,ended_unclaimed", parts.join(","))?;
    let all = ("all".to_string(), report.all.clone());
    for (name, figures) in report.groups.iter().chain([&all]) {
        let times = [
            figures.median(),
            figures.hundredths(25),
            figures.hundredths(75),
            figures.hundredths(90),
            figures.worst(),
        ];
        let times = times
            .map(|time| time.map_or(String::new(), seconds))
            .join(",");
        let parts = figures.parts.map(seconds).join(",");
        let (name, count) = (field(name), figures.count());
        writeln!(
            out,
            "{name},{count},{times},{parts},{},{}",
            figures.lying, figures.unclaimed
        )?;
    }
    Ok(())
}

fn csv_each(report: &Report, out: &mut dyn Write) -> io::Result<()> {
    let parts: Vec<String> = Part::ALL
        .iter()
        .map(|part| format!("{}_s", part.key()))
        .collect();
    writeln!(
        out,
        "opening,order,name,begun,ended,hold_s,{},clerk,end",
        parts.join(",")
    )?;
    for hold in &report.holds {
        let (begun, ended) = (report.zone.moment(hold.start), report.zone.moment(hold.end));
        let clerk = hold.clerk.map_or(String::new(), |user| report.user(user));
        let (order, name) = (hold.order, field(&report.order(hold)));
        let (parts, length) = (hold.parts.map(seconds).join(","), seconds(hold.length()));
        writeln!(
            out,
            "{},{order},{name},{begun},{ended},{length},{parts},{},{}",
            hold.opening,
            field(&clerk),
            end(hold)
        )?;
    }
    Ok(())
}

/// How a hold ended, as CSV and JSON have it.
pub fn end(hold: &Hold) -> &'static str {
    match hold.ended {
        Ended::Reached => "reached",
        Ended::Lying => "lying",
        Ended::Unclaimed => "unclaimed",
    }
}
