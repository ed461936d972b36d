//! What was measured, ready to be written in any form: figures by group, sums by rule and clerk, the longest holds, and words for them.

use super::calendar::Zone;
use super::figures::{groups, By, Figures};
use super::hold::{Detail, Hold, Refusal};
use super::measure::{Asked, End};
use super::pairs::{Pair, Pairs};
use super::totals::{Totals, Worst};
use crate::journal::Found;
use crate::names::{Names, Sort};
use crate::source::Policy;
use mishantral::Answer;
use records::Reply;
use std::collections::BTreeMap;

pub struct Report {
    pub policy: Policy,
    pub names: Names,
    pub pairs: Pairs,
    pub end: End,
    pub zone: Zone,
    pub by: By,
    /// How many requests were asked again, and the time of the last of them.
    pub requests: i64,
    pub last: i64,
    pub holds: Vec<Hold>,
    pub all: Figures,
    pub groups: Vec<(String, Figures)>,
    pub totals: Totals,
    /// The longest first.
    pub worst: Vec<(Hold, Detail)>,
    /// By the request that opened the order.
    openings: BTreeMap<i64, String>,
}

impl Report {
    pub fn new(
        found: Found,
        names: Names,
        asked: &Asked,
        by: &By,
        holds: Vec<Hold>,
        totals: Totals,
        worst: Worst,
    ) -> Report {
        Report {
            pairs: asked.pairs.clone(),
            end: asked.end,
            zone: asked.zone,
            by: by.clone(),
            requests: found.last,
            last: found.at,
            all: Figures::of(holds.iter()),
            groups: groups(&holds, by, asked.zone, &names),
            holds,
            totals,
            worst: worst.into_list(),
            openings: BTreeMap::new(),
            names,
            policy: found.policy,
        }
    }

    /// The openings whose names are shown.
    pub fn wanted(&self) -> Vec<i64> {
        let worst = self.worst.iter().map(|(hold, _)| hold.opening);
        match self.by {
            By::Opening => self.holds.iter().map(|hold| hold.opening).collect(),
            _ => worst.collect(),
        }
    }

    pub fn name(&mut self, opening: i64, name: Option<String>) {
        self.openings.extend(name.map(|name| (opening, name)));
    }

    /// The name that this opening of an order was given, or the order's number.
    pub fn order(&self, hold: &Hold) -> String {
        let name = self.openings.get(&hold.opening).cloned();
        name.unwrap_or_else(|| format!("order {}", hold.order))
    }

    pub fn user(&self, user: u16) -> String {
        self.names.say(Sort::User, user)
    }

    /// `sign claimed`, or `sign done`.
    pub fn ends(&self) -> &'static str {
        match self.end {
            End::Claim => "claimed",
            End::Done => "done",
        }
    }

    /// `test done to sign claimed`, of each pair.
    pub fn between(&self) -> String {
        let task = |task| self.names.shown(Sort::Task, task);
        let one = |pair: &Pair| {
            format!(
                "{} done to {} {}",
                task(pair.from),
                task(pair.to),
                self.ends()
            )
        };
        self.pairs
            .0
            .iter()
            .map(one)
            .collect::<Vec<String>>()
            .join(", ")
    }

    /// The policy's record that a refusal is about, from 0: by the place of the engine's answer, or where that has none, the one limit of
    /// the task and the one ban of its template.
    pub fn rule(&self, refusal: Refusal) -> Option<usize> {
        let records = self.policy.records();
        let reply = Reply::from_number(refusal.reply.into())?;
        let place = usize::from(refusal.place);
        if let Some(rule) = (Answer { reply, place }).rule() {
            let of_kind = records
                .iter()
                .enumerate()
                .filter(|(_, record)| record.kind() == rule.kind);
            return of_kind.map(|(at, _)| at).nth(rule.place.checked_sub(1)?);
        }
        let template = self
            .pairs
            .0
            .iter()
            .find(|pair| pair.to == refusal.task)?
            .template;
        let (kind, number) = match reply {
            Reply::Count => (14, refusal.task),
            Reply::Alone => (13, template),
            _ => return None,
        };
        records
            .iter()
            .position(|record| record.kind() == kind && record.a() == number)
    }

    /// `SEPARATION, task set 1 of test sign (policy.txt, line 11)`.
    pub fn say_refusal(&self, refusal: Refusal) -> String {
        let name = reply_name(refusal.reply);
        match self.rule(refusal) {
            Some(at) => format!(
                "{name}, {} ({})",
                self.policy.line(at),
                self.policy.place(at)
            ),
            None => format!("{name}, {}", self.names.say(Sort::Task, refusal.task)),
        }
    }
}

pub fn reply_name(reply: u8) -> &'static str {
    Reply::from_number(reply.into()).map_or("", |reply| reply.name())
}

/// Refusals with their sums, and each with those whom it met.
pub type ByRefusal<U> = Vec<(Refusal, i64, Vec<(U, i64)>)>;

/// Sums by refusal, each with its users, the largest first in both.
pub fn by_refusal<U: Copy + Ord>(sums: impl Iterator<Item = ((Refusal, U), i64)>) -> ByRefusal<U> {
    let mut all: BTreeMap<Refusal, Vec<(U, i64)>> = BTreeMap::new();
    for ((refusal, user), sum) in sums {
        all.entry(refusal).or_default().push((user, sum));
    }
    let mut all: ByRefusal<U> = all
        .into_iter()
        .map(|(refusal, mut users)| {
            users.sort_by_key(|&(user, sum)| (-sum, user));
            (refusal, users.iter().map(|(_, sum)| sum).sum(), users)
        })
        .collect();
    all.sort_by_key(|&(refusal, sum, _)| (-sum, refusal));
    all
}
