//! Random desks moved under random changed policies: what was moved answers every further request as a fresh desk with the same orders does, and
//! the new journal is as sound as any.

use super::*;
use crate::carry::tests::{answers, policy, request};
use crate::desk::Desk;
use crate::journal::Author;
use mishantral::State;
use random::Random;
use records::{Record, Set};
use std::collections::BTreeMap;

fn folder(name: &str) -> std::path::PathBuf {
    let folder = std::env::temp_dir().join(format!("mishantral-{name}-{}", std::process::id()));
    let _ = std::fs::remove_dir_all(&folder);
    std::fs::create_dir_all(&folder).unwrap();
    folder
}

/// Where a journal is kept: in a file, and every second time in a database, where there is one (tools/postgresql).
fn place(folder: &std::path::Path, name: &str, round: usize) -> String {
    match std::env::var("MISHANTRAL_POSTGRESQL") {
        Ok(base) if round % 2 == 1 => format!("{base}#{name}-{}", std::process::id()),
        _ => format!("{}/{name}.db", folder.display()),
    }
}

/// All that a journal is, to be compared: a file's bytes, or the seal over all rows of a database.
fn content(word: &str) -> Vec<u8> {
    std::fs::read(word).unwrap_or_else(|_| {
        let found = journal::found(word, false).unwrap_or_else(|_| panic!("{word}"));
        Seal::of(&found).unwrap().to_string().into_bytes()
    })
}

/// A policy with some of its rules dropped and some of another's added after them.
fn changed(random: &mut Random, of: &Policy) -> Policy {
    let other = policy(random);
    let rule = |record: &Record| matches!(record.kind(), 9..=16);
    let mut kept: Vec<Record> = Vec::new();
    for record in of.records() {
        if !rule(&record) || random.chance(3, 4) {
            kept.push(record);
        }
    }
    for record in other.records().into_iter().filter(rule) {
        kept.push(record);
        if random.chance(1, 2) || Engine::new().load_records(&kept).is_err() {
            kept.pop();
        }
    }
    Policy {
        file: "changed".to_string(),
        bytes: kept.iter().flat_map(|record| record.0).collect(),
        lines: Vec::new(),
        names: of.names.clone(),
        dealt: None,
    }
}

/// A journal of a desk at work, a request a second, and the times of what it answered.
fn worked(random: &mut Random, file: &str, policy: &Policy) {
    let mut author = Author::begin(file, policy).unwrap();
    let mut told = Told::loaded(&policy.records());
    for second in 0..150 {
        let mut record = request(random);
        if record.kind() == 40 {
            let roles = Set(record.m() & told.may_activate(record.b()).0);
            record = Record::create_subject(record.a(), record.b(), roles);
        }
        let answer = author.ask(second * 1_000_000, &record, &[]).unwrap();
        if answer.is_granted() {
            told.granted(&record);
        }
    }
    author.finish().unwrap();
}

fn options<'a>(journal: &'a str, to: &'a str) -> Options<'a> {
    Options {
        journal,
        to: Some(to),
        dry_run: false,
        leave: None,
        users: Users::AsNow,
        json: true,
    }
}

/// The desk as a journal leaves it.
fn desk(file: &str) -> Desk {
    let found = journal::found(file, true).unwrap_or_else(|_| panic!("{file}: it is refused"));
    Desk::at(&found.policy, found.live.names, found.engine)
}

/// A template, and entries in no order: user, task, holder.
type Content = (u16, Vec<(u16, u16, Option<u16>)>);

/// What each order holds.
fn entries(told: &Told) -> BTreeMap<u16, Content> {
    let of = |(&number, order): (&u16, &crate::told::Order)| {
        let mut all: Vec<_> = order
            .entries
            .iter()
            .map(|e| (e.user, e.task, e.holder))
            .collect();
        all.sort_unstable();
        (number, (order.template, all))
    };
    told.orders.iter().map(of).collect()
}

/// A fresh desk with the other policy and the same users, sessions and orders, by the words of its buffers alone (docs/STATE.md): no request of the
/// move brought it there. The policies differ in their rules alone.
fn fresh(stood: &Desk, other: &Policy, left: &[u16]) -> Desk {
    let mut old = stood.engine().clone();
    for &order in left {
        for entry in stood.told.entries(order) {
            if let Some(holder) = entry.holder {
                let release = Record::release(holder, order, entry.task);
                assert!(old.request(&release).is_granted());
            }
        }
        assert!(old.request(&Record::end_order(order)).is_granted());
    }
    let mut new = Engine::new();
    new.load(&other.bytes).unwrap();
    let mut state = State::zeroed();
    state.policy.copy_from_slice(&new.state().policy[..]);
    // Users, their roles, and the roles that have each permission.
    for words in [8..2056, 2312..2568] {
        state.policy[words.clone()].copy_from_slice(&old.state().policy[words]);
    }
    state.sessions.copy_from_slice(&old.state().sessions[..]);
    state.orders.copy_from_slice(&old.state().orders[..]);
    Desk::at(other, stood.names.clone(), Engine::from_state(state))
}

#[test]
fn what_moved_answers_as_a_fresh_desk_with_the_same_orders() {
    let folder = folder("moved");
    let rounds: usize = std::env::var("MISHANTRAL_ROUNDS").map_or(1, |n| n.parse().unwrap());
    let mut random = Random::new(77);
    let (mut whole, mut hindered, mut left, mut asked) = (0, 0, 0, 0);
    for round in 0..40 * rounds {
        let name = |what: &str| place(&folder, &format!("{what}{round}"), round);
        let (old, new, rest) = (name("old"), name("new"), name("rest"));
        let was = policy(&mut random);
        worked(&mut random, &old, &was);
        let other = changed(&mut random, &was);
        let before = content(&old);
        let mut said = Vec::new();
        let mut to = &new;
        let mut status = moving(&options(&old, &new), &other, &mut said).unwrap();
        let object: serde_json::Value = serde_json::from_slice(&said).unwrap();
        let obstacles = object["obstacles"].as_array().unwrap();
        let mut behind: Vec<u16> = Vec::new();
        if status == REFUSED {
            hindered += 1;
            let is_there = journal::is_there(&new).ok();
            assert_eq!(is_there, Some(false), "round {round}: it was written");
            // Where orders alone stand in the way, they can be left.
            if !obstacles.iter().all(|one| one["of"] == "order") {
                continue;
            }
            behind = obstacles
                .iter()
                .map(|one| one["number"].as_u64().unwrap() as u16)
                .collect();
            let list = behind
                .iter()
                .map(u16::to_string)
                .collect::<Vec<_>>()
                .join(",");
            let leaving = Options {
                leave: Some(&list),
                ..options(&old, &rest)
            };
            status = moving(&leaving, &other, &mut Vec::new()).unwrap();
            to = &rest;
            left += 1;
        }
        assert_eq!(status, WELL, "round {round}: {obstacles:?}");
        whole += 1;
        assert!(
            content(&old) == before,
            "round {round}: the old journal was changed"
        );
        let (mut moved, stood) = (desk(to), desk(&old));
        let mut expected = entries(&stood.told);
        expected.retain(|order, _| !behind.contains(order));
        assert_eq!(entries(&moved.told), expected, "round {round}");
        assert_eq!(moved.told.subjects, stood.told.subjects, "round {round}");
        assert_eq!(moved.told.users, stood.told.users, "round {round}");
        let mut fresh = fresh(&stood, &other, &behind);
        let (by_move, by_words) = (answers(&moved), answers(&fresh));
        let first = by_move
            .iter()
            .zip(&by_words)
            .find(|(one, other)| one != other);
        assert_eq!(first, None, "round {round}");
        for _ in 0..60 {
            let record = request(&mut random);
            let (one, other) = (moved.ask(&record.0), fresh.ask(&record.0));
            assert_eq!(one, other, "round {round}: {record}");
            asked += 1;
        }
        let mut sound = Vec::new();
        journal::check(to, None, &mut sound).unwrap_or_else(|_| panic!("round {round}: not sound"));
    }
    std::fs::remove_dir_all(&folder).unwrap();
    eprintln!("{whole} moved, {left} of them with orders left, {hindered} hindered, {asked} requests asked");
    assert!(
        whole >= 15 * rounds && hindered >= 3 * rounds,
        "{whole} moved, {hindered} hindered"
    );
}
