//! `diff`: what changes from one policy to another, in words: records added, dropped and changed, rules whose place is another, and names.
//!
//! Records are compared by numbers, which is what the engine and journals know; or by names, where numbers have no meaning of their own, as
//! in OPL/XML, whose reader gives them.

use crate::check::refusal;
use crate::desk::Desk;
use crate::names::{Names, Sort};
use crate::source::Policy;
use crate::stop::{Done, REFUSED, WELL};
use crate::writer;
use records::{Record, Reply, LENGTH};
use serde_json::{json, Value};
use std::collections::{BTreeMap, BTreeSet};
use std::io::Write;

/// By what records are the same.
#[derive(Clone, Copy, PartialEq, Eq, Debug)]
pub enum By {
    Numbers,
    Names,
}

impl By {
    pub const NAMES: [&'static str; 2] = ["numbers", "names"];

    /// The one that is asked for; else by names where both policies are OPL/XML.
    pub fn of(word: Option<&str>, old: &Policy, new: &Policy) -> By {
        match word {
            Some("names") => By::Names,
            None if old.is_dealt() && new.is_dealt() => By::Names,
            _ => By::Numbers,
        }
    }
}

/// A record's place in a policy, from 0.
type Place = usize;

/// One difference.
#[derive(Clone, PartialEq, Eq, Debug)]
pub enum Change {
    Added(Place),
    Dropped(Place),
    /// The same thing with another value, as `task 4 at most 3 times`: the old place and the new one.
    Changed(Place, Place),
    /// A rule of a kind whose places replies tell: its old and its new place in the policy, and among the rules of its kind, from 1.
    Moved(Place, Place, usize, usize),
    /// A number with another name; none where it has none.
    Renamed(Sort, u16, Option<Vec<u8>>, Option<Vec<u8>>),
    /// A name with another number.
    Renumbered(Sort, Vec<u8>, u16, u16),
}

/// The kinds of which replies tell the place.
fn has_place(kind: u8) -> bool {
    let kinds = Reply::ALL.iter().filter_map(|reply| reply.rule_kind());
    kinds.into_iter().any(|of| of == kind)
}

/// What a record is about, where it gives that a value: records of one kind that agree in this are the same thing changed.
fn about(record: &Record) -> Option<(u8, u64)> {
    let (kind, a, c, m) = (record.kind(), record.a(), record.c(), record.m());
    let about = match kind {
        // A permission's pair, a task's template, a task's limit.
        3 | 6 | 14 => a.into(),
        // The number of a set with the same members.
        9..=11 => m,
        // The block of a wall's object.
        18 => u64::from(a) << 16 | u64::from(c),
        _ => return None,
    };
    Some((kind, about))
}

/// Each record's key, and how often it stood before, so that a record that stands twice is two.
fn keys(policy: &Policy, by: By) -> Vec<(Vec<u8>, usize)> {
    let mut seen: BTreeMap<Vec<u8>, usize> = BTreeMap::new();
    let key = |record: &[u8]| match by {
        By::Numbers => record.to_vec(),
        By::Names => writer::line(record, &policy.names).into_bytes(),
    };
    let counted = |key: Vec<u8>| {
        let count = seen.entry(key.clone()).or_default();
        *count += 1;
        (key, *count)
    };
    policy.bytes.chunks(LENGTH).map(key).map(counted).collect()
}

/// Each place's place among the records of its kind, from 1.
fn of_kind(policy: &Policy) -> Vec<usize> {
    let mut counts = [0; 256];
    let count = |record: &[u8]| {
        let count = &mut counts[usize::from(record[0])];
        *count += 1;
        *count
    };
    policy.bytes.chunks(LENGTH).map(count).collect()
}

/// Joins what was dropped with what was added, where both are about one thing.
fn changed(
    old: &Policy,
    new: &Policy,
    dropped: &mut Vec<Place>,
    added: &mut Vec<Place>,
) -> Vec<Change> {
    let (before, after) = (old.records(), new.records());
    let mut changes = Vec::new();
    added.retain(|&to| {
        let what = after.get(to).and_then(about);
        let same = |&from: &Place| what.is_some() && before.get(from).and_then(about) == what;
        match dropped.iter().position(same) {
            None => true,
            Some(at) => {
                changes.push(Change::Changed(dropped.remove(at), to));
                false
            }
        }
    });
    changes
}

fn renamed(old: &Names, new: &Names) -> Vec<Change> {
    let mut changes = Vec::new();
    for sort in Sort::ALL {
        let numbers = old.of_sort(sort).chain(new.of_sort(sort));
        let numbers: BTreeSet<u16> = numbers.map(|(number, _)| number).collect();
        for number in numbers {
            let (before, after) = (old.name(sort, number), new.name(sort, number));
            if before != after {
                let owned = |name: Option<&[u8]>| name.map(<[u8]>::to_vec);
                changes.push(Change::Renamed(sort, number, owned(before), owned(after)));
            }
        }
    }
    changes
}

fn renumbered(old: &Names, new: &Names) -> Vec<Change> {
    let mut changes = Vec::new();
    for sort in Sort::ALL {
        for (before, _) in old.of_sort(sort) {
            let name = old.name(sort, before).unwrap_or_default();
            if let Some(after) = new.number(sort, name).filter(|&after| after != before) {
                changes.push(Change::Renumbered(sort, name.to_vec(), before, after));
            }
        }
    }
    changes
}

/// All differences, by kind and then by place; names at the end.
pub fn changes(old: &Policy, new: &Policy, by: By) -> Vec<Change> {
    let (before, after) = (keys(old, by), keys(new, by));
    let place_of: BTreeMap<_, Place> = before.iter().zip(0..).collect();
    let there: BTreeSet<_> = after.iter().collect();
    let gone = |place: &Place| !there.contains(&before[*place]);
    let mut dropped: Vec<Place> = (0..before.len()).filter(gone).collect();
    let mut added = Vec::new();
    let mut all = Vec::new();
    let (ranks_before, ranks_after) = (of_kind(old), of_kind(new));
    for (to, key) in after.iter().enumerate() {
        match place_of.get(key) {
            None => added.push(to),
            Some(&from) => {
                let (was, is) = (ranks_before[from], ranks_after[to]);
                if was != is && has_place(new.bytes[to * LENGTH]) {
                    all.push(Change::Moved(from, to, was, is));
                }
            }
        }
    }
    all.extend(changed(old, new, &mut dropped, &mut added));
    all.extend(dropped.into_iter().map(Change::Dropped));
    all.extend(added.into_iter().map(Change::Added));
    all.sort_by_key(|change| match *change {
        Change::Dropped(at) => (old.bytes[at * LENGTH], at, 0),
        Change::Changed(_, at) => (new.bytes[at * LENGTH], at, 1),
        Change::Added(at) => (new.bytes[at * LENGTH], at, 2),
        Change::Moved(_, at, ..) => (new.bytes[at * LENGTH], at, 3),
        Change::Renamed(..) | Change::Renumbered(..) => (u8::MAX, 0, 4),
    });
    all.extend(match by {
        By::Numbers => renamed(&old.names, &new.names),
        By::Names => renumbered(&old.names, &new.names),
    });
    all
}

/// Both policies, which a change is reported of.
struct Told<'a> {
    old: &'a Policy,
    new: &'a Policy,
}

impl Told<'_> {
    fn line(&self, change: &Change) -> String {
        let (old, new) = (self.old, self.new);
        match change {
            Change::Added(at) => format!("+ {} ({})", new.line(*at), new.place(*at)),
            Change::Dropped(at) => format!("- {} ({})", old.line(*at), old.place(*at)),
            Change::Changed(from, to) => format!(
                "~ {} ({}), was {} ({})",
                new.line(*to),
                new.place(*to),
                old.line(*from),
                old.place(*from)
            ),
            Change::Moved(_, to, was, is) => format!(
                "> {} ({}), rule {is} of its kind, was {was}",
                new.line(*to),
                new.place(*to)
            ),
            Change::Renamed(sort, number, before, after) => {
                let (word, before, after) = (sort.word(), named(before), named(after));
                format!("= {word} {number}: {after}, was {before}")
            }
            Change::Renumbered(sort, name, before, after) => {
                let (word, name) = (sort.word(), crate::names::shown(name));
                format!("= {word} {name}: number {after}, was {before}")
            }
        }
    }

    fn object(&self, change: &Change) -> Value {
        let (old, new) = (self.old, self.new);
        let at = |policy: &Policy, place: Place| {
            let (file, line, column) = (
                policy.file_of(place),
                policy.line_of(place),
                policy.column_of(place),
            );
            json!({"file": file, "record": place + 1, "line": line, "column": column, "text": policy.line(place)})
        };
        let text = |name: &Option<Vec<u8>>| name.as_deref().map(crate::names::shown);
        match change {
            Change::Added(to) => json!({"change": "added", "new": at(new, *to)}),
            Change::Dropped(from) => json!({"change": "dropped", "old": at(old, *from)}),
            Change::Changed(from, to) => {
                json!({"change": "changed", "old": at(old, *from), "new": at(new, *to)})
            }
            Change::Moved(from, to, was, is) => {
                json!({"change": "moved", "old": at(old, *from), "new": at(new, *to), "old_rule": was, "new_rule": is})
            }
            Change::Renamed(sort, number, before, after) => {
                json!({"change": "renamed", "sort": sort.word(), "number": number, "old": text(before), "new": text(after)})
            }
            Change::Renumbered(sort, name, before, after) => {
                json!({"change": "renumbered", "sort": sort.word(), "name": crate::names::shown(name), "old": before, "new": after})
            }
        }
    }
}

fn named(name: &Option<Vec<u8>>) -> String {
    let shown = name.as_deref().map(crate::names::shown);
    shown.unwrap_or_else(|| "no name".to_string())
}

fn counted(count: usize) -> String {
    format!("{count} {}", if count == 1 { "record" } else { "records" })
}

pub fn diff(old: &Policy, new: &Policy, by: By, as_json: bool, out: &mut dyn Write) -> Done {
    let told = Told { old, new };
    let all = changes(old, new, by);
    for change in &all {
        match as_json {
            true => writeln!(out, "{}", told.object(change))?,
            false => writeln!(out, "{}", told.line(change))?,
        }
    }
    for policy in [old, new] {
        if let Err(refused) = Desk::open(policy) {
            let lines = refusal(policy, refused);
            match as_json {
                true => writeln!(out, "{}", json!({"refused": policy.file, "because": lines}))?,
                false => writeln!(out, "! {}", lines.join("\n  "))?,
            }
        }
    }
    if !as_json {
        let records = |policy: &Policy| counted(policy.bytes.len().div_ceil(LENGTH));
        let differ = match all.len() {
            0 => "no difference".to_string(),
            1 => "1 difference".to_string(),
            many => format!("{many} differences"),
        };
        let (from, to) = (records(old), records(new));
        writeln!(out, "{}, {from}; {}, {to}: {differ}", old.file, new.file)?;
    }
    Ok(if all.is_empty() { WELL } else { REFUSED })
}

#[cfg(test)]
mod tests {
    use super::*;
    use crate::source::text_policy;

    fn told(old: &str, new: &str, by: By) -> Vec<String> {
        let policy = |name, text: &str| text_policy(name, text.as_bytes()).unwrap();
        let (old, new) = (policy("old.txt", old), policy("new.txt", new));
        let told = Told {
            old: &old,
            new: &new,
        };
        let all = changes(&old, &new, by);
        all.iter().map(|change| told.line(change)).collect()
    }

    const OLD: &str =
        "user 1 anna\nuser 2 bert\nrole 0\ntask 0 test of template 0\ntask 1 sign of template 0
task test before task sign\ntask set 1 of test sign\ntask sign at most 2 times\n";

    #[test]
    fn what_is_the_same_has_no_difference() {
        assert_eq!(told(OLD, OLD, By::Numbers), [""; 0]);
        assert_eq!(told(OLD, OLD, By::Names), [""; 0]);
        // The order of what is declared has no meaning.
        let other = OLD.replacen(
            "user 1 anna\nuser 2 bert\n",
            "user 2 bert\nuser 1 anna\n",
            1,
        );
        assert_eq!(told(OLD, &other, By::Numbers), [""; 0]);
    }

    #[test]
    fn records_come_go_and_change() {
        let new = OLD
            .replace("user 2 bert\n", "user 3 clara\n")
            .replace("2 times", "3 times");
        assert_eq!(
            told(OLD, &new, By::Numbers),
            [
                "- user bert (old.txt, line 2)",
                "+ user clara (new.txt, line 2)",
                "~ task sign at most 3 times (new.txt, line 8), was task sign at most 2 times (old.txt, line 8)",
                "= user 2: no name, was bert",
                "= user 3: clara, was no name",
            ]
        );
    }

    #[test]
    fn the_place_of_a_rule_is_told() {
        let new = OLD.replace(
            "task test before task sign\n",
            "task 2 of template 0\ntask 2 before task sign\ntask test before task sign\n",
        );
        assert_eq!(
            told(OLD, &new, By::Numbers),
            [
                "+ task 2 of template 0 (new.txt, line 6)",
                "+ task 2 before task sign (new.txt, line 7)",
                "> task test before task sign (new.txt, line 8), rule 2 of its kind, was 1",
            ]
        );
    }

    #[test]
    fn names_may_be_what_is_compared() {
        let new = OLD.replace("user 1 anna", "user 7 anna");
        assert_eq!(told(OLD, &new, By::Names), ["= user anna: number 7, was 1"]);
        let new = OLD.replace("anna", "hanna");
        assert_eq!(told(OLD, &new, By::Numbers), ["= user 1: hanna, was anna"]);
    }

    #[test]
    fn a_record_that_stands_twice_is_two() {
        assert_eq!(
            told("user 1\nuser 1\n", "user 1\n", By::Numbers),
            ["- user 1 (old.txt, line 2)"]
        );
    }
}
