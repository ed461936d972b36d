//! The report as one JSON object. Times are microseconds.

use super::figures::{By, Figures};
use super::hold::{Detail, Hold, Part, Refusal, PARTS};
use super::report::{by_refusal, reply_name, Report};
use super::text::end;
use crate::names::Sort;
use serde_json::{json, Map, Value};

fn parts(parts: &[i64; PARTS]) -> Value {
    let all = Part::ALL
        .into_iter()
        .map(|part| (format!("{}_us", part.key()), json!(parts[part as usize])));
    Value::Object(all.collect::<Map<String, Value>>())
}

fn figures(figures: &Figures) -> Value {
    json!({
        "holds": figures.count(),
        "median_us": figures.median(), "quarter_us": figures.hundredths(25), "three_quarters_us": figures.hundredths(75),
        "ninety_percent_us": figures.hundredths(90), "worst_us": figures.worst(),
        "parts": parts(&figures.parts),
        "lying": figures.lying, "longest_lying_us": figures.longest_lying, "ended_unclaimed": figures.unclaimed,
    })
}

fn refusal(report: &Report, refusal: Refusal) -> Map<String, Value> {
    let mut all = Map::new();
    all.insert("reply".to_string(), json!(refusal.reply));
    all.insert("name".to_string(), json!(reply_name(refusal.reply)));
    all.insert("place".to_string(), json!(refusal.place));
    all.insert(
        "task".to_string(),
        json!(report.names.shown(Sort::Task, refusal.task)),
    );
    if let Some(at) = report.rule(refusal) {
        all.insert("rule".to_string(), json!(report.policy.line(at)));
        all.insert("where".to_string(), json!(report.policy.place(at)));
    }
    all
}

fn could(report: &Report, all: impl Iterator<Item = (u16, i64)>) -> Value {
    let one = |(user, time)| json!({"user": user, "name": report.user(user), "us": time});
    all.map(one).collect()
}

fn met(report: &Report, sums: impl Iterator<Item = ((Refusal, u16), i64)>) -> Value {
    let one = |(of, _, users): (Refusal, i64, Vec<(u16, i64)>)| {
        let mut object = refusal(report, of);
        object.insert("clerks".to_string(), could(report, users.into_iter()));
        Value::Object(object)
    };
    by_refusal(sums).into_iter().map(one).collect()
}

fn refused(report: &Report, sums: impl Iterator<Item = ((Refusal, Option<u16>), i64)>) -> Value {
    let one = |(of, count, users): (Refusal, i64, Vec<(Option<u16>, i64)>)| {
        let clerk = |(user, count): (Option<u16>, i64)| json!({"user": user, "name": user.map(|user| report.user(user)), "claims": count});
        let mut object = refusal(report, of);
        object.insert("claims".to_string(), json!(count));
        object.insert("clerks".to_string(), users.into_iter().map(clerk).collect());
        Value::Object(object)
    };
    by_refusal(sums).into_iter().map(one).collect()
}

fn hold(report: &Report, hold: &Hold) -> Value {
    json!({
        "opening": hold.opening, "order": hold.order, "name": report.order(hold),
        "begun": report.zone.moment(hold.start), "begun_us": hold.start, "ended": report.zone.moment(hold.end), "ended_us": hold.end,
        "hold_us": hold.length(), "parts": parts(&hold.parts), "end": end(hold),
        "clerk": hold.clerk, "clerk_name": hold.clerk.map(|user| report.user(user)),
    })
}

fn with_detail(report: &Report, of: &Hold, detail: &Detail) -> Value {
    let mut object = hold(report, of);
    object["could"] = could(report, detail.could.iter().copied());
    object["met"] = met(report, detail.met.iter().copied());
    object["refused"] = refused(report, detail.refused.iter().copied());
    object
}

pub fn object(report: &Report) -> Value {
    let totals = &report.totals;
    let group = |(name, of): &(String, Figures)| {
        let mut object = figures(of);
        object["group"] = json!(name);
        object
    };
    let pairs: Value = report.pairs.0.iter().map(|pair| {
        let task = |task| report.names.shown(Sort::Task, task);
        json!({"template": report.names.shown(Sort::Template, pair.template), "from": task(pair.from), "to": task(pair.to)})
    }).collect();
    let mut object = json!({
        "between": pairs, "end": report.ends(), "requests": report.requests, "last": report.zone.moment(report.last),
        "all": figures(&report.all),
        "could": could(report, totals.could.iter().map(|(&user, &time)| (user, time))),
        "met": met(report, totals.met.iter().map(|(&key, &time)| (key, time))),
        "refused": refused(report, totals.refused.iter().map(|(&key, &count)| (key, count))),
        "worst": report.worst.iter().map(|(hold, detail)| with_detail(report, hold, detail)).collect::<Value>(),
    });
    match report.by {
        By::Opening => object["each"] = report.holds.iter().map(|of| hold(report, of)).collect(),
        _ => object["groups"] = report.groups.iter().map(group).collect(),
    }
    object
}
