//! What is read from the journal: its rows, and the holds measured from it.

use super::body::Query;
use super::look::may_read;
use super::problem::Problem;
use super::route::{Asked, Reply};
use super::rows::Rows;
use crate::holds::{self, Picture, Words};
use crate::journal::{self, Filter};
use crate::serve::question::Turn;
use crate::stop::Stop;
use hyper::header::ACCEPT;
use std::time::Instant;
use tokio::task::spawn_blocking;

/// The type that is accepted most, of those that are offered.
fn accepted(call: &Asked, offered: &[&'static str]) -> Result<&'static str, Problem> {
    let all = call
        .headers
        .get_all(ACCEPT)
        .iter()
        .filter_map(|value| value.to_str().ok());
    let all: Vec<&str> = all.flat_map(|value| value.split(',')).collect();
    if all.is_empty() {
        return Ok(offered[0]);
    }
    let weight = |kind: &str| {
        let of = |entry: &&str| {
            let mut parts = entry.split(';').map(str::trim);
            let range = parts.next().unwrap_or("").to_ascii_lowercase();
            let main = range
                .strip_suffix("/*")
                .is_some_and(|main| kind.starts_with(&format!("{main}/")));
            let exact = match (range == kind, main, range == "*/*") {
                (true, ..) => 3,
                (_, true, _) => 2,
                (.., true) => 1,
                _ => return None,
            };
            let q = parts.find_map(|part| part.strip_prefix("q=")?.parse::<f32>().ok());
            Some((exact, (q.unwrap_or(1.0) * 1000.0) as u32))
        };
        all.iter().filter_map(of).max().map_or(0, |(_, q)| q)
    };
    // Of equals the first that is offered.
    let best = offered.iter().rev().max_by_key(|kind| weight(kind));
    best.copied()
        .filter(|kind| weight(kind) > 0)
        .ok_or_else(|| Problem::not_acceptable(&offered.join(", ")))
}

const HOLDS: [&str; 12] = [
    "from", "to", "end", "by", "shifts", "zone", "since", "until", "worst", "panels", "title",
    "top",
];

pub async fn holds(call: Asked) -> Result<Reply, Problem> {
    let query = Query::read(call.query.as_deref(), &HOLDS)?;
    let kind = accepted(&call, &["application/json", "text/csv", "image/svg+xml"])?;
    may_read(&call, "holds").await?;
    let file = journal_of(&call)?;
    let turn = turn(&call)?;
    let measured = spawn_blocking(move || {
        let began = Instant::now();
        let measured = measured(&file, &query, kind);
        turn.took(began.elapsed());
        measured
    });
    let text = measured
        .await
        .unwrap_or_else(|_| Err(Problem::failed("holds could not be measured")))?;
    Ok(Reply::of(kind, text))
}

fn turn(call: &Asked) -> Result<Turn, Problem> {
    let pool = &call.hall.house.pool;
    pool.turn(&call.who.account).map_err(Problem::too_many)
}

fn journal_of(call: &Asked) -> Result<String, Problem> {
    let journal = call.door.journal.clone();
    journal.ok_or_else(|| Problem::not_found("this desk has no journal"))
}

fn stopped(stop: Stop) -> Problem {
    match stop {
        Stop::Wrong(lines) => Problem::wrong(lines.join("; ")),
        Stop::Refused(lines) => Problem::failed(lines.join("; ")),
        Stop::Quiet => Problem::failed("nobody reads"),
    }
}

fn measured(file: &str, query: &Query, kind: &str) -> Result<String, Problem> {
    let asked = Words {
        word: &|name| query.text(name),
        said: |name, value| format!("{name}={}", value.trim_matches('\'')),
    };
    let names = query.text("panels").unwrap_or("").split(',');
    let names: Vec<&str> = names.filter(|name| !name.is_empty()).collect();
    let picture = Picture {
        panels: asked.panels(&names).map_err(Problem::wrong)?,
        title: query.text("title"),
        top: top(query)?,
    };
    let mut options = asked.options().map_err(Problem::wrong)?;
    options.worst = query.number("worst")?.unwrap_or(10).min(1000) as usize;
    let report = holds::measured(file, &options).map_err(stopped)?;
    Ok(match kind {
        "image/svg+xml" => holds::picture(&report, &picture),
        "text/csv" => {
            let mut out = Vec::new();
            holds::csv(&report, &mut out).map_err(|why| Problem::failed(why.to_string()))?;
            String::from_utf8_lossy(&out).into_owned()
        }
        _ => holds::object(&report).to_string(),
    })
}

/// Up to where the axis of time goes, in hours.
fn top(query: &Query) -> Result<Option<f64>, Problem> {
    let Some(word) = query.text("top") else {
        return Ok(None);
    };
    let hours = word.parse::<f64>().ok();
    let hours = hours.filter(|hours| *hours > 0.0 && *hours < 100_000.0);
    let wrong = || Problem::wrong(format!("top={word}: a number of hours is expected"));
    hours.map(Some).ok_or_else(wrong)
}

const JOURNAL: [&str; 10] = [
    "order", "opening", "user", "task", "account", "reply", "since", "until", "last", "barred",
];

pub async fn journal(call: Asked) -> Result<Reply, Problem> {
    let query = Query::read(call.query.as_deref(), &JOURNAL)?;
    let opening = query.number("opening")?;
    let filter = Filter {
        opening: opening.map(|n| n.min(i64::MAX as u64) as i64),
        last: query.number("last")?.map(|n| n.min(1 << 40) as usize),
        barred: query.flag("barred")?,
        json: true,
        ..Filter::of_texts(|name| query.text(name).map(String::from))
    };
    may_read(&call, "journal").await?;
    let (file, turn) = (journal_of(&call)?, turn(&call)?);
    let (rows, first) = Rows::new(call.door.policy.clone());
    let place = call.place;
    spawn_blocking(move || {
        let (began, _place) = (Instant::now(), place);
        let mut rows = rows;
        let listed = journal::list(&file, &filter, &mut rows);
        rows.end(listed.map(drop).map_err(stopped));
        turn.took(began.elapsed());
    });
    let body = first
        .await
        .unwrap_or_else(|_| Err(Problem::failed("the journal could not be read")))?;
    Ok(Reply::of("application/x-ndjson", body))
}
