//! Counts how often each kind was answered with each reply, which pairs the rules allow (docs/RULES.md, "The order of checks"),
//! and the places that refused claims reported.

use crate::cases::Mend;
use crate::damage::damages;
use records::Reply::{self, *};
use std::collections::{BTreeMap, BTreeSet};

/// The counts of kinds with replies, and of replies with places.
#[derive(Clone, Default)]
pub struct Coverage {
    seen: BTreeMap<(u8, u8), u64>,
    places: BTreeMap<(u8, usize), u64>,
    piles: BTreeMap<u8, u64>,
    /// Questions by kind; `None` counts records without a kind and kinds that are not questions.
    questions: BTreeMap<(Option<u8>, u8), u64>,
    /// The properties of figures that were seen.
    figures: BTreeSet<&'static str>,
    writes: BTreeMap<u8, u64>,
    /// How many records of each kind were written.
    rows: BTreeMap<u8, u64>,
    mends: BTreeMap<u8, u64>,
    /// How often each refusal was reported, and each damage was mended.
    reported: BTreeMap<u8, u64>,
    damages: BTreeMap<&'static str, u64>,
    /// The results of mending that were seen.
    mended: BTreeSet<&'static str>,
}

/// A possible result of mending, and a test for it on the file, the number of kept records and the report.
type Came = (&'static str, fn(&[u8], usize, &[(u64, u64)]) -> bool);

const CAME: [Came; 4] = [
    ("nothing dropped of some records", |_, kept, report| {
        kept > 0 && report.is_empty()
    }),
    ("nothing kept of some records", |_, kept, report| {
        kept == 0 && !report.is_empty()
    }),
    ("records kept behind a dropped one", |_, kept, report| {
        report.iter().any(|(place, _)| (*place as usize) < kept)
    }),
    ("a cut record behind whole ones", |file, kept, report| {
        kept > 0 && file.len() % 16 != 0 && report.len() == 1
    }),
];

/// The refusals that a report can contain: those of one step of a load.
const REPORTED: [Reply; 8] = [Shape, Range, Unknown, Taken, Rule, Static, Full, Loop];

/// A property of figures that shows most about them, the kind of question, and a test for it on the words of the answer.
type Telling = (&'static str, u8, fn(&[u64]) -> bool);

const TELLING: [Telling; 4] = [
    ("entries, some done and some not", 58, |words| {
        words[0] > u64::from(words[1].count_ones()) && words[1] != 0
    }),
    ("stuck tasks and free ones", 60, |words| {
        words[0] != 0 && words[1] > 1
    }),
    (
        "free tasks alone, not in the order of their numbers",
        60,
        |words| words[0] == 0 && !words[2..2 + words[1] as usize].is_sorted(),
    ),
    ("stuck tasks alone", 60, |words| {
        words[0] != 0 && words[1] == 0
    }),
];

/// The kinds that are questions.
const QUESTIONS: [u8; 2] = [58, 60];

/// The replies that report a rule's place, and the largest possible place.
const PLACED: [(Reply, usize); 4] = [(Before, 64), (Separation, 32), (Block, 64), (Bound, 64)];

/// The possible replies to a kind in a state that a load and requests made, in the order of checks.
pub fn possible(kind: u8) -> Option<Vec<Reply>> {
    let more: &[Reply] = match kind {
        1..=3 | 6 => &[Taken],
        4 | 32 | 34 => &[Unknown, Taken, Static],
        5 | 7 | 8 | 13 | 36 | 48 => &[Unknown, Taken],
        9 => &[Unknown, Taken, Rule, Static, Full],
        10..=12 | 15 | 16 => &[Unknown, Taken, Rule, Full],
        14 => &[Unknown, Taken, Rule],
        17 => &[Unknown, Taken, Rule, Loop, Static, Full],
        18 => &[Taken, Rule, Full],
        33 | 35 | 41 | 49 => &[Unknown, InUse],
        37 | 43 | 58 | 60 => &[Unknown],
        40 | 42 => &[Unknown, Taken, NotAssigned, Dynamic],
        50 => &[
            Unknown, Taken, NoRole, Before, Separation, Block, Alone, Bound, Count, Full,
        ],
        51 | 52 => &[Unknown, NotYours],
        56 | 59 => &[Unknown, Denied, Wall],
        57 => &[Unknown, NotYours, Denied],
        _ => return None,
    };
    let range: &[Reply] = if (9..=11).contains(&kind) {
        &[]
    } else {
        &[Range]
    };
    Some([&[Granted, Shape], range, more].concat())
}

impl Coverage {
    /// Counts one answer.
    pub fn add(&mut self, kind: u8, reply: u8) {
        *self.seen.entry((kind, reply)).or_default() += 1;
    }

    /// Counts one place of a request's answer.
    pub fn add_place(&mut self, reply: u8, place: usize) {
        *self.places.entry((reply, place)).or_default() += 1;
    }

    /// Counts one pile's reply.
    pub fn add_pile(&mut self, reply: u8) {
        *self.piles.entry(reply).or_default() += 1;
    }

    /// Counts one question's reply; all kinds that are not questions are counted together.
    pub fn add_question(&mut self, kind: Option<u8>, reply: u8) {
        let kind = kind.filter(|kind| QUESTIONS.contains(kind));
        *self.questions.entry((kind, reply)).or_default() += 1;
    }

    /// Counts the answer to a granted question.
    pub fn add_figures(&mut self, kind: u8, words: &[u64]) {
        let like = TELLING.iter().filter(|t| t.1 == kind && t.2(words));
        self.figures.extend(like.map(|(name, _, _)| name));
    }

    /// The properties of figures that were not seen.
    pub fn missing_figures(&self) -> Vec<&'static str> {
        let all = TELLING.iter().map(|(name, _, _)| *name);
        all.filter(|name| !self.figures.contains(name)).collect()
    }

    /// The possible replies to questions: ROOM for the answer's length, then those of the request; for other kinds ROOM and
    /// SHAPE.
    fn possible_questions() -> Vec<(Option<u8>, Reply)> {
        let asks = QUESTIONS.into_iter().flat_map(|kind| {
            let replies = possible(kind).unwrap_or_default().into_iter();
            replies.chain([Room]).map(move |reply| (Some(kind), reply))
        });
        asks.chain([(None, Room), (None, Shape)]).collect()
    }

    /// The possible pairs of question and reply that were not seen.
    pub fn missing_questions(&self) -> Vec<(Option<u8>, Reply)> {
        let unseen = |(kind, reply): &(Option<u8>, Reply)| {
            !self.questions.contains_key(&(*kind, reply.number()))
        };
        Coverage::possible_questions()
            .into_iter()
            .filter(unseen)
            .collect()
    }

    /// The pairs of question and reply that were seen but are not possible.
    pub fn surprising_questions(&self) -> Vec<(Option<u8>, u8)> {
        let expected = |(kind, reply): &&(Option<u8>, u8)| {
            let all = Coverage::possible_questions();
            all.iter().any(|(k, r)| (*k, r.number()) == (*kind, *reply))
        };
        self.questions
            .keys()
            .filter(|q| !expected(q))
            .copied()
            .collect()
    }

    /// The possible replies to piles that were not seen.
    pub fn missing_piles(&self) -> Vec<Reply> {
        let unseen = |reply: &Reply| !self.piles.contains_key(&reply.number());
        [Granted, Room, Shape].into_iter().filter(unseen).collect()
    }

    /// Counts one reply to a call that writes the policy out.
    pub fn add_write(&mut self, reply: u8) {
        *self.writes.entry(reply).or_default() += 1;
    }

    /// Counts the records that were written.
    pub fn add_rows(&mut self, policy: &[u8]) {
        for record in policy.chunks(16) {
            *self.rows.entry(record[0]).or_default() += 1;
        }
    }

    /// Counts a file that was mended.
    pub fn add_mend(&mut self, reply: u8, mend: &Mend, kept: usize, report: &[(u64, u64)]) {
        *self.mends.entry(reply).or_default() += 1;
        if reply != Granted.number() {
            return;
        }
        *self.damages.entry(mend.damage).or_default() += 1;
        for (_, refusal) in report {
            *self.reported.entry(*refusal as u8).or_default() += 1;
        }
        let came = CAME
            .iter()
            .filter(|(_, seen)| seen(&mend.file, kept, report));
        self.mended.extend(came.map(|(name, _)| name));
    }

    /// What was not seen of writing and mending: replies, written kinds, damages, reported refusals and results.
    pub fn missing_files(&self) -> Vec<String> {
        let replies = |of: &str, seen: &BTreeMap<u8, u64>, all: &[Reply]| -> Vec<String> {
            let unseen = all.iter().filter(|r| !seen.contains_key(&r.number()));
            unseen.map(|r| format!("{of} {}", r.name())).collect()
        };
        let kinds = (1..=18).filter(|kind| !self.rows.contains_key(kind));
        let damages = damages().filter(|name| !self.damages.contains_key(name));
        let came = CAME.iter().filter(|(name, _)| !self.mended.contains(name));
        [
            replies("write", &self.writes, &[Granted, Room]),
            kinds.map(|kind| format!("kind {kind} written")).collect(),
            replies("mend", &self.mends, &[Granted, Room]),
            replies("report", &self.reported, &REPORTED),
            damages.map(String::from).collect(),
            came.map(|(name, _)| name.to_string()).collect(),
        ]
        .concat()
    }

    /// The reported refusals that are not possible.
    pub fn surprising_reports(&self) -> Vec<u8> {
        let expected = |reply: &&u8| REPORTED.iter().any(|r| r.number() == **reply);
        self.reported
            .keys()
            .filter(|r| !expected(r))
            .copied()
            .collect()
    }

    /// Adds the counts of another `Coverage`.
    pub fn join(&mut self, other: &Coverage) {
        for (pair, count) in &other.seen {
            *self.seen.entry(*pair).or_default() += count;
        }
        for (pair, count) in &other.places {
            *self.places.entry(*pair).or_default() += count;
        }
        for (reply, count) in &other.piles {
            *self.piles.entry(*reply).or_default() += count;
        }
        for (question, count) in &other.questions {
            *self.questions.entry(*question).or_default() += count;
        }
        self.figures.extend(&other.figures);
        let numbers = [
            (&mut self.writes, &other.writes),
            (&mut self.rows, &other.rows),
            (&mut self.mends, &other.mends),
            (&mut self.reported, &other.reported),
        ];
        for (all, more) in numbers {
            for (number, count) in more {
                *all.entry(*number).or_default() += count;
            }
        }
        for (damage, count) in &other.damages {
            *self.damages.entry(damage).or_default() += count;
        }
        self.mended.extend(&other.mended);
    }

    /// How often a reply had a place of at least `least`.
    fn placed(&self, reply: Reply, least: usize) -> u64 {
        let range = (reply.number(), least)..=(reply.number(), usize::MAX);
        self.places.range(range).map(|(_, count)| count).sum()
    }

    /// The replies that report a rule's place but were not seen with place 1, or not with a place above 1.
    pub fn missing_places(&self) -> Vec<Reply> {
        let unseen = |reply: &Reply| {
            !self.places.contains_key(&(reply.number(), 1)) || self.placed(*reply, 2) == 0
        };
        PLACED
            .map(|(reply, _)| reply)
            .into_iter()
            .filter(unseen)
            .collect()
    }

    /// The places that were seen but are not possible: 0 for a broken rule, a place above the number of rules, or any place with
    /// another reply.
    pub fn surprising_places(&self) -> Vec<(u8, usize)> {
        let expected = |(reply, place): &(u8, usize)| {
            let placed = PLACED.iter().find(|(r, _)| r.number() == *reply);
            placed.map_or(*place == 0, |(_, most)| (1..=*most).contains(place))
        };
        self.places
            .keys()
            .filter(|p| !expected(p))
            .copied()
            .collect()
    }

    /// The pairs of kind and reply that are possible and were not seen.
    pub fn missing(&self) -> Vec<(u8, Reply)> {
        let all = (0..=255).filter_map(|kind| Some((kind, possible(kind)?)));
        let pairs = all.flat_map(|(kind, replies)| replies.into_iter().map(move |r| (kind, r)));
        pairs
            .filter(|(kind, reply)| !self.seen.contains_key(&(*kind, reply.number())))
            .collect()
    }

    /// The pairs that were seen and are not possible.
    pub fn surprising(&self) -> Vec<(u8, u8)> {
        let expected = |(kind, reply): &(u8, u8)| match possible(*kind) {
            Some(replies) => replies.iter().any(|r| r.number() == *reply),
            None => *reply == Shape.number(),
        };
        self.seen.keys().filter(|p| !expected(p)).copied().collect()
    }

    /// One line for each kind with the count of each reply, then one line for each reply that reports a rule's place.
    pub fn table(&self) -> String {
        let mut lines: BTreeMap<u8, String> = BTreeMap::new();
        for ((kind, reply), count) in &self.seen {
            if possible(*kind).is_some() {
                let name = Reply::from_number((*reply).into()).map_or("?", Reply::name);
                *lines.entry(*kind).or_default() += &format!("  {name} {count}");
            }
        }
        let line = |(kind, replies): (u8, String)| format!("kind {kind:>2}:{replies}\n");
        let lines = lines.into_iter().map(line);
        let named = |(reply, count): (&u8, &u64)| {
            let name = Reply::from_number((*reply).into()).map_or("?", Reply::name);
            format!("  {name} {count}")
        };
        let line = |of: String, replies: String| of + &replies + "\n";
        let replies = |of: &str, seen: &BTreeMap<u8, u64>| -> String {
            line(of.to_string(), seen.iter().map(named).collect())
        };
        let kinds = self
            .rows
            .iter()
            .map(|(kind, count)| format!("  {kind}: {count}"));
        let damages = self.damages.iter();
        let damages = damages.map(|(name, count)| format!("  {name} {count}"));
        let lines = lines.chain([
            replies("piles:", &self.piles),
            replies("policies written out:", &self.writes),
            line("records written by kind:".to_string(), kinds.collect()),
            replies("files mended:", &self.mends),
            replies("refusals reported:", &self.reported),
            line("damages mended:".to_string(), damages.collect()),
        ]);
        let questions = QUESTIONS.into_iter().map(Some).chain([None]).map(|kind| {
            let of = kind.map_or("questions of other kinds:".to_string(), |kind| {
                format!("questions of kind {kind}:")
            });
            let replies = self.questions.iter().filter(|((k, _), _)| *k == kind);
            line(
                of,
                replies
                    .map(|((_, reply), count)| named((reply, count)))
                    .collect(),
            )
        });
        let lines = lines.chain(questions);
        lines
            .chain(PLACED.iter().map(|p| self.places_of(p.0)))
            .collect()
    }

    /// One line such as `places of BLOCK: 1 in 20, above in 31, largest 9`.
    fn places_of(&self, reply: Reply) -> String {
        let (all, above) = (self.placed(reply, 1), self.placed(reply, 2));
        let last = self.places.range(..=(reply.number(), usize::MAX)).last();
        let largest = last.map_or(0, |((_, place), _)| *place);
        let (name, first) = (reply.name(), all - above);
        format!("places of {name}: 1 in {first}, above in {above}, largest {largest}\n")
    }
}
