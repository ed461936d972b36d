//! Policies at the limits, measured: 64 tasks under every kind of rule, and up to 1,024 clerks in 40 groups alike; the search beside an answer-set solver
//! on the same questions. Run by hand, as it takes minutes; docs/STAFF.md has its table:
//!
//!     cargo test --release limits -- --ignored --nocapture
//!
//! MISHANTRAL_SECONDS is what the solver may take for each question, 60 where it is missing.

use super::trials::{program, solved_within};
use super::{Asked, Budget, Verdict, TRIES};
use crate::clash::begun;
use crate::desk::Desk;
use crate::names::Names;
use crate::source::Policy;
use mishantral::Engine;
use random::Random;
use records::{Record, Set};
use std::time::Instant;

const TASKS: usize = 64;
const GROUPS: usize = 40;

/// A policy that some crew can finish, and who comes.
pub struct Family {
    pub name: &'static str,
    /// How many clerks the rules were made for, each of a group of its own, and how many there are, in 40 groups alike.
    crew: usize,
    clerks: usize,
    /// How many of that crew are away.
    pub away: usize,
    /// How many further roles a task is open to.
    open: usize,
}

/// Some of that many, as a set.
fn some(random: &mut Random, of: usize, count: usize) -> Set {
    let mut set = 0u64;
    while (set.count_ones() as usize) < count.min(of) {
        set |= 1 << random.below(of);
    }
    Set(set)
}

/// The tasks of each clerk of a crew.
fn shared_out(random: &mut Random, crew: usize) -> Vec<u64> {
    let mut shares = vec![0u64; crew];
    for task in 0..TASKS {
        let clerk = if task < crew {
            task
        } else {
            random.below(crew)
        };
        shares[clerk] |= 1 << task;
    }
    shares
}

/// A group has the role of its number and two more; a task is open to the role of the clerk who does it in the crew, and to some more.
fn declared(random: &mut Random, family: &Family, shares: &[u64]) -> Vec<Record> {
    let mut all: Vec<Record> = (0..family.clerks as u16).map(Record::user).collect();
    all.extend((0..GROUPS as u16).map(Record::role));
    all.extend((0..TASKS as u16).map(|task| Record::task(task, 0)));
    let groups: Vec<u64> = (0..GROUPS)
        .map(|group| 1 << group | some(random, GROUPS, 2).0)
        .collect();
    for user in 0..family.clerks {
        let roles = Set(groups[user % GROUPS]).members();
        all.extend(roles.map(|role| Record::user_has_role(user as u16, role.into())));
    }
    for (clerk, share) in shares.iter().enumerate() {
        for task in Set(*share).members() {
            let roles = 1 << clerk | some(random, GROUPS, family.open).0;
            all.extend(
                Set(roles)
                    .members()
                    .map(|role| Record::task_open_to(task.into(), role.into())),
            );
        }
    }
    all
}

/// Rules of every kind, as many as there may be or nearly, that let the crew do its shares.
fn records(random: &mut Random, family: &Family) -> Vec<Record> {
    let shares = shared_out(random, family.crew);
    let mut all = declared(random, family, &shares);
    let mut sets = 0;
    while sets < 32 {
        let count = 4 + random.below(6);
        let set = some(random, TASKS, count);
        let n = shares
            .iter()
            .map(|share| (share & set.0).count_ones())
            .max()
            .unwrap_or(1);
        if n <= 2 {
            all.push(Record::task_set(n as u8, set));
            sets += 1;
        }
    }
    for partitioning in 0..16 {
        let third: Vec<usize> = (0..family.crew).map(|_| random.below(3)).collect();
        for block in 0..3 {
            let clerks = (0..family.crew).filter(|&clerk| third[clerk] == block);
            let tasks = clerks.fold(0, |all, clerk| all | shares[clerk]);
            let tasks: Vec<u8> = Set(tasks)
                .members()
                .filter(|_| random.chance(1, 3))
                .collect();
            if !tasks.is_empty() {
                all.push(Record::block(partitioning, Set::of(&tasks)));
            }
        }
    }
    for share in &shares {
        let tasks: Vec<u8> = Set(*share).members().collect();
        let pairs = tasks.windows(2).filter(|_| random.chance(1, 4));
        all.extend(pairs.map(|two| Record::bound(two[0].into(), two[1].into())));
    }
    for _ in 0..64 {
        let two: Vec<u8> = some(random, TASKS, 2).members().collect();
        all.push(Record::before(two[0].into(), two[1].into()));
    }
    for _ in 0..16 {
        all.push(Record::dynamic_set(1, some(random, GROUPS, 3)));
    }
    all.push(Record::lone_worker_ban(0));
    all
}

/// Each policy loads, but for rules that stand twice.
pub fn desk(random: &mut Random, family: &Family) -> Option<Desk> {
    let mut kept: Vec<Record> = Vec::new();
    for record in records(random, family) {
        if !kept.contains(&record) {
            kept.push(record);
        }
    }
    Engine::new().load_records(&kept).ok()?;
    let policy = Policy {
        file: family.name.to_string(),
        bytes: kept.iter().flat_map(|record| record.0).collect(),
        lines: Vec::new(),
        names: Names::default(),
        dealt: None,
    };
    begun(&policy, 0)
}

pub const FAMILIES: [Family; 16] = [
    family("1,024 clerks", 20, 1024, 0, 2),
    family("1,024 clerks, one role a task", 20, 1024, 0, 0),
    family("120 clerks", 20, 120, 0, 2),
    family("40 clerks", 20, 40, 0, 2),
    family("the crew of 30", 30, 30, 0, 2),
    family("the crew of 20", 20, 20, 0, 2),
    family("the crew of 10", 10, 10, 0, 2),
    family("the crew of 30, one away", 30, 30, 1, 2),
    family("the crew of 20, one away", 20, 20, 1, 2),
    family("the crew of 10, one away", 10, 10, 1, 2),
    family("the crew of 16, many roles", 16, 16, 0, 16),
    family("the crew of 12, many roles", 12, 12, 0, 16),
    family("the crew of 8, many roles", 8, 8, 0, 16),
    family("so, of 16, one away", 16, 16, 1, 16),
    family("so, of 12, one away", 12, 12, 1, 16),
    family("so, of 8, one away", 8, 8, 1, 16),
];

const fn family(
    name: &'static str,
    crew: usize,
    clerks: usize,
    away: usize,
    open: usize,
) -> Family {
    Family {
        name,
        crew,
        clerks,
        away,
        open,
    }
}

fn seconds() -> u64 {
    let given = std::env::var("MISHANTRAL_SECONDS").ok();
    given.and_then(|seconds| seconds.parse().ok()).unwrap_or(60)
}

#[test]
#[ignore = "it takes minutes: a measurement, run by hand"]
fn limits() {
    println!("family                         seed  verdict      tries       s  solver       s");
    for family in &FAMILIES {
        for seed in 1..=3 {
            let mut random = Random::new(seed);
            let Some(desk) = desk(&mut random, family) else {
                continue;
            };
            let users: Vec<u16> = desk.told.users.keys().copied().skip(family.away).collect();
            let budget = Budget::of_tries(TRIES);
            let began = Instant::now();
            let asked = Asked {
                desk: &desk,
                order: 0,
                users: &users,
                bound: TRIES,
                budget: &budget,
            };
            let (verdict, tries) = asked.verdict();
            let took = began.elapsed().as_secs_f64();
            let verdict = match verdict {
                Verdict::Plan(_) => Some(true),
                Verdict::Never(_) => Some(false),
                _ => None,
            };
            let began = Instant::now();
            let solved = solved_within(&program(&desk, &users), seconds());
            let other = began.elapsed().as_secs_f64();
            let word = |verdict: Option<bool>| match verdict {
                Some(true) => "yes",
                Some(false) => "no",
                None => "not settled",
            };
            println!(
                "{:<29}  {seed:>4}  {:<11}  {tries:>7}  {took:>6.2}  {:<11}  {other:>6.2}",
                family.name,
                word(verdict),
                word(solved)
            );
            if let (Some(verdict), Some(solved)) = (verdict, solved) {
                assert_eq!(verdict, solved, "{}", family.name);
            }
        }
    }
}
