//! How what differs is told.

use super::{Example, Outcome, Reply, Same, Sort};
use crate::journal::{said, time};
use crate::names::{self, Names};
use crate::source::Policy;
use records::forms::{parts, Part, FORMS};
use serde_json::{json, Value};
use std::io::{self, Write};

pub struct Told<'a> {
    pub old: &'a Policy,
    pub new: &'a Policy,
    /// Those of the journal at its end.
    pub names: &'a Names,
    pub outcome: &'a Outcome,
}

fn rule(policy: &Policy, (reply, place): Reply) -> Option<String> {
    let reply = records::Reply::from_number(reply.into())?;
    policy.rule(reply, place.into())
}

/// The words that requests of a kind begin with: `claim`, `open order`.
fn words_of(kind: u8) -> String {
    let form = FORMS.into_iter().find(|&(of, _)| of == kind && kind != 0);
    let Some((_, pattern)) = form else {
        return format!("requests of kind {kind}");
    };
    let words = parts(pattern).map_while(|part| match part {
        Part::Word(word) => Some(word),
        _ => None,
    });
    words.collect::<Vec<_>>().join(" ")
}

fn times(count: u64) -> String {
    match count {
        1 => "once".to_string(),
        count => format!("{count} times"),
    }
}

/// How many differ by themselves and how many follow from those, where there are any of both.
fn shares(first: u64, following: u64) -> String {
    let (own, from) = match first {
        1 => ("itself", "it"),
        _ => ("themselves", "these"),
    };
    match following {
        0 => String::new(),
        1 => format!(", {first} by {own} and 1 that follows from {from}"),
        _ => format!(", {first} by {own} and {following} that follow from {from}"),
    }
}

impl Told<'_> {
    fn differ(&self) -> (u64, u64) {
        let all = self.outcome.sorts.values();
        all.fold((0, 0), |(first, following), same| {
            (first + same.first, following + same.following)
        })
    }

    fn clerks(&self, same: &Same) -> Vec<String> {
        let users = same.users.iter();
        users
            .map(|&user| self.names.shown(names::Sort::User, user))
            .collect()
    }

    pub fn words(&self, out: &mut dyn Write) -> io::Result<()> {
        let (first, following) = self.differ();
        let Outcome {
            asked, compared, ..
        } = self.outcome;
        let of = match asked == compared {
            true => format!("{asked} requests"),
            false => format!("{compared} of {asked} requests"),
        };
        let answered = match first + following {
            0 => "all would be answered as they were".to_string(),
            differ => format!(
                "{differ} would be answered otherwise{}",
                shares(first, following)
            ),
        };
        writeln!(out, "{of} under {}: {answered}", self.new.file)?;
        if let Some(requests) = self.outcome.brought {
            writeln!(
                out,
                "the desk as it was by then was brought under it by {requests} requests"
            )?;
        }
        for words in &self.outcome.obstacles {
            writeln!(out, "  not brought over: {words}")?;
        }
        for (sort, same) in &self.outcome.sorts {
            self.sort(sort, same, out)?;
        }
        if !self.outcome.not_opened.is_empty() {
            writeln!(out, "\norders that would not have been opened:")?;
        }
        for example in &self.outcome.not_opened {
            writeln!(out, "  {}", line(example))?;
        }
        Ok(())
    }

    /// Whether the desk as it is now fits under the other policy.
    pub fn present(&self, journal: &str, out: &mut dyn Write) -> io::Result<()> {
        let (new, requests) = (&self.new.file, self.outcome.brought.unwrap_or_default());
        let whole = match self.outcome.obstacles.len() {
            0 => "all of it".to_string(),
            1 => "all but one thing".to_string(),
            many => format!("all but {many} things"),
        };
        writeln!(
            out,
            "{journal} as it is now, under {new}: {requests} requests would bring {whole} over"
        )?;
        for words in &self.outcome.obstacles {
            writeln!(out, "  not brought over: {words}")?;
        }
        Ok(())
    }

    fn sort(&self, sort: &Sort, same: &Same, out: &mut dyn Write) -> io::Result<()> {
        let (words, was, would_be) = (words_of(sort.kind), said(sort.was), said(sort.would_be));
        let count = match (same.first, same.following) {
            (first, 0) => times(first),
            (0, following) => format!("{}, all following from others", times(following)),
            (first, following) => format!(
                "{}, and {} following from others",
                times(first),
                times(following)
            ),
        };
        writeln!(out, "\n{words}: {was}, would be {would_be}: {count}")?;
        if let Some(rule) = rule(self.old, sort.was) {
            writeln!(out, "  was refused by {rule}")?;
        }
        if let Some(rule) = rule(self.new, sort.would_be) {
            writeln!(out, "  would be refused by {rule}")?;
        }
        for example in &same.examples {
            writeln!(out, "  {}", line(example))?;
        }
        let clerks = self.clerks(same);
        match clerks.is_empty() {
            true => Ok(()),
            false => writeln!(out, "  clerks: {}", clerks.join(", ")),
        }
    }

    pub fn objects(&self, out: &mut dyn Write) -> io::Result<()> {
        let example = |example: &Example| -> Value {
            let Example {
                number,
                at,
                user,
                line,
            } = example;
            json!({"number": number, "at": at, "time": time(*at), "user": user, "request": line})
        };
        let reply = |policy: &Policy, of: Reply| {
            let name = records::Reply::from_number(of.0.into()).map(|reply| reply.name());
            json!({"reply": of.0, "name": name, "rule": of.1, "rule_words": rule(policy, of)})
        };
        for (sort, same) in &self.outcome.sorts {
            let examples: Vec<Value> = same.examples.iter().map(example).collect();
            let object = json!({
                "kind": sort.kind, "was": reply(self.old, sort.was), "would_be": reply(self.new, sort.would_be),
                "first": same.first, "following": same.following, "clerks": self.clerks(same), "examples": examples,
            });
            writeln!(out, "{object}")?;
        }
        let (first, following) = self.differ();
        let not_opened: Vec<Value> = self.outcome.not_opened.iter().map(example).collect();
        let whole = json!({
            "requests": self.outcome.compared, "of": self.outcome.asked, "first": first, "following": following,
            "brought": self.outcome.brought, "not_brought": self.outcome.obstacles, "not_opened": not_opened,
        });
        writeln!(out, "{whole}")
    }
}

/// `request 1523, 2026-11-03 07:12:44, anna: claim am mill_7 sign`.
fn line(example: &Example) -> String {
    let time = time(example.at);
    let second = time.split('.').next().unwrap_or(&time);
    let user = example
        .user
        .as_ref()
        .map_or(String::new(), |user| format!(", {user}"));
    format!(
        "request {}, {second}{user}: {}",
        example.number, example.line
    )
}

#[cfg(test)]
mod tests {
    use super::shares;

    #[test]
    fn shares_are_told_where_there_are_both() {
        assert_eq!(shares(4, 0), "");
        assert_eq!(shares(1, 1), ", 1 by itself and 1 that follows from it");
        let many = ", 2 by themselves and 3 that follow from these";
        assert_eq!(shares(2, 3), many);
    }
}
