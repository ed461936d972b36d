//! Verdicts, crews, absences, clashes and remedies compared, on small random policies: with every set of clerks and every set of rules tried by every
//! sequence of requests, and with an answer-set solver where there is one.

use super::outlook::{outlook, Finish, Outlook, Question};
use crate::clash::{begun, without, Crew, Setting};
use crate::desk::Desk;
use crate::finish::limits::{self, FAMILIES};
use crate::finish::trials::{by_force, policy, program, rounds, solved, told, Size};
use crate::finish::{Budget, Meter, TRIES};
use crate::names::Names;
use crate::source::Policy;
use mishantral::Engine;
use random::Random;
use records::Record;
use std::collections::BTreeSet;

/// A policy with an order open. With `open`, every task is open to a role that the first user has, and others have now and then, so that what stands in
/// the way is rules.
fn desk(random: &mut Random, size: &Size, open: bool) -> Option<Desk> {
    let mut records = policy(random, size);
    if open {
        let users = (0..size.users as u16).filter(|&user| user == 0 || random.chance(1, 2));
        let has: Vec<Record> = users.map(|user| Record::user_has_role(user, 0)).collect();
        let tasks = (0..size.tasks as u16).map(|task| Record::task_open_to(task, 0));
        for record in has.into_iter().chain(tasks) {
            records.push(record);
            if Engine::new().load_records(&records).is_err() {
                records.pop();
            }
        }
    }
    let policy = Policy {
        file: "random".to_string(),
        bytes: records.iter().flat_map(|record| record.0).collect(),
        lines: Vec::new(),
        names: Names::default(),
        dealt: None,
    };
    begun(&policy, 0)
}

/// The sets of some numbers, small ones first.
fn sets(of: &[usize]) -> Vec<Vec<usize>> {
    let mut all: Vec<Vec<usize>> = (0..1usize << of.len())
        .map(|bits| {
            (0..of.len())
                .filter(|at| bits >> at & 1 == 1)
                .map(|at| of[at])
                .collect()
        })
        .collect();
    all.sort_by_key(Vec::len);
    all
}

/// Every set of users that a crew stands for.
fn meant(crew: &Crew) -> Vec<BTreeSet<u16>> {
    let mut all = vec![BTreeSet::new()];
    for (count, users) in crew {
        let places: Vec<usize> = (0..users.len()).collect();
        let mut next = Vec::new();
        for some in sets(&places)
            .into_iter()
            .filter(|some| some.len() == *count)
        {
            for set in &all {
                let mut set: BTreeSet<u16> = set.clone();
                set.extend(some.iter().map(|&at| users[at]));
                next.push(set);
            }
        }
        all = next;
    }
    all
}

/// What some way to judge says of every set of users; nothing where it does not judge one of them.
fn judged(
    desk: &Desk,
    judge: &dyn Fn(&Desk, &[u16]) -> Option<bool>,
) -> Option<Vec<(BTreeSet<u16>, bool)>> {
    let users: Vec<u16> = desk.told.users.keys().copied().collect();
    let places: Vec<usize> = (0..users.len()).collect();
    let one = |some: Vec<usize>| {
        let some: Vec<u16> = some.into_iter().map(|at| users[at]).collect();
        let verdict = judge(desk, &some)?;
        Some((some.into_iter().collect(), verdict))
    };
    sets(&places).into_iter().map(one).collect()
}

/// Compares crews and absences; whether all clerks together can.
fn compare(desk: &Desk, verdicts: &[(BTreeSet<u16>, bool)]) -> bool {
    let users: Vec<u16> = desk.told.users.keys().copied().collect();
    let budget = Budget::of_tries(TRIES);
    let question = Question {
        budget: &budget,
        absent: None,
    };
    let all = verdicts.last().is_some_and(|(_, can)| *can);
    let found = outlook(desk, 0, &users, &question);
    let Finish::Yes(able) = &found.finish else {
        assert!(
            !all && matches!(found.finish, Finish::No(_)),
            "{}",
            told(desk, &users)
        );
        return false;
    };
    assert!(all, "{}", told(desk, &users));
    let can = || {
        verdicts
            .iter()
            .filter(|(_, can)| *can)
            .map(|(some, _)| some)
    };
    let fewest = can().map(BTreeSet::len).min().unwrap_or(0);
    let smallest: BTreeSet<BTreeSet<u16>> =
        can().filter(|some| some.len() == fewest).cloned().collect();
    assert!(
        able.crews.least && able.crews.whole && able.crews.size == fewest,
        "{}",
        told(desk, &users)
    );
    let crews: BTreeSet<BTreeSet<u16>> = able.crews.all.iter().flat_map(meant).collect();
    assert_eq!(crews, smallest, "{}", told(desk, &users));
    // Any K may be away where every set of the others can.
    let stopped = verdicts
        .iter()
        .filter(|(_, can)| !can)
        .map(|(some, _)| users.len() - some.len())
        .min();
    let stopped = stopped.expect("nobody finishes nothing");
    assert!(
        able.away.settled && able.away.any + 1 == stopped,
        "{} for {stopped}: {}",
        able.away.any,
        told(desk, &users)
    );
    let stops = able.away.stops.as_ref().expect("it was asked for");
    for away in meant(&stops.away) {
        let left: BTreeSet<u16> = users
            .iter()
            .copied()
            .filter(|user| !away.contains(user))
            .collect();
        assert!(
            away.len() == stopped && verdicts.contains(&(left, false)),
            "{}",
            told(desk, &users)
        );
    }
    assert!(!stops.because.is_empty() && !stops.short.is_empty());
    true
}

fn size(random: &mut Random, most: usize) -> Size {
    Size {
        users: 1 + random.below(most),
        roles: 1 + random.below(3),
        tasks: 1 + random.below(most),
    }
}

#[test]
fn crews_and_absences_are_those_of_every_set_of_clerks() {
    let mut random = Random::new(11);
    let (mut yes, mut no) = (0, 0);
    for _ in 0..rounds(60) {
        let size = size(&mut random, 3);
        let Some(desk) = desk(&mut random, &size, false) else {
            continue;
        };
        let Some(verdicts) = judged(&desk, &|desk, users| by_force(desk, users)) else {
            continue;
        };
        match compare(&desk, &verdicts) {
            true => yes += 1,
            false => no += 1,
        }
    }
    assert!(yes > 9 && no > 9, "{yes} {no}");
}

#[test]
fn crews_and_absences_are_those_of_a_solver() {
    let mut random = Random::new(12);
    let (mut yes, mut no) = (0, 0);
    if solved("a.").is_none() {
        eprintln!("there is no clingo here: nothing was compared");
        return;
    }
    for _ in 0..rounds(20) {
        let size = size(&mut random, 5);
        let Some(desk) = desk(&mut random, &size, false) else {
            continue;
        };
        let verdicts = judged(&desk, &|desk, users| solved(&program(desk, users)));
        match compare(&desk, &verdicts.expect("the solver judges all")) {
            true => yes += 1,
            false => no += 1,
        }
    }
    assert!(yes > 2 && no > 2, "{yes} {no}");
}

/// The rules whose removal is thought of, by their places.
fn rules(desk: &Desk) -> Vec<usize> {
    let records = desk.policy.records();
    let is_rule = |at: &usize| matches!(records[*at].kind(), 10..=13 | 15 | 16);
    (0..records.len()).filter(is_rule).collect()
}

#[test]
fn clashes_are_those_of_every_set_of_rules() {
    let mut random = Random::new(13);
    let (mut some, mut none) = (0, 0);
    for _ in 0..rounds(160) {
        let size = size(&mut random, 3);
        let many = random.chance(3, 4);
        let Some(desk) = desk(&mut random, &size, many) else {
            continue;
        };
        let users: Vec<u16> = desk.told.users.keys().copied().collect();
        let forced = |gone: &[usize]| {
            let desk = without(&desk, &gone.iter().copied().collect())?;
            by_force(&desk, &users)
        };
        if forced(&[]) != Some(false) {
            continue;
        }
        let all = rules(&desk);
        let budget = Budget::of_tries(TRIES);
        let mut meter = Meter::new(TRIES, &budget);
        let setting = Setting {
            desk: &desk,
            order: 0,
            users: &users,
        };
        let clash = setting.clash(&mut meter).expect("it is small");
        let Some(verdicts) = sets(&all)
            .into_iter()
            .map(|gone| Some((forced(&gone)?, gone)))
            .collect::<Option<Vec<(bool, Vec<usize>)>>>()
        else {
            continue;
        };
        let fewest = verdicts
            .iter()
            .filter(|(can, _)| *can)
            .map(|(_, gone)| gone.len())
            .min();
        let says = told(&desk, &users);
        let Some(clash) = clash else {
            assert_eq!(fewest, None, "{says}");
            none += 1;
            continue;
        };
        some += 1;
        assert_eq!(Some(clash.fewest.len()), fewest, "{says}");
        let can = |gone: &[usize]| {
            let gone: BTreeSet<usize> = gone.iter().copied().collect();
            verdicts
                .iter()
                .any(|(can, set)| *can && set.iter().copied().collect::<BTreeSet<usize>>() == gone)
        };
        assert!(can(&clash.fewest), "{says}");
        let single: Vec<usize> = all.iter().copied().filter(|&place| can(&[place])).collect();
        let mut any = clash.any.clone();
        any.sort();
        assert_eq!(any, single, "{says}");
        for core in &clash.cores {
            let others = |kept: &[usize]| {
                all.iter()
                    .copied()
                    .filter(|place| !kept.contains(place))
                    .collect::<Vec<usize>>()
            };
            assert!(!can(&others(core)), "{core:?}: {says}");
            for left_out in core {
                let fewer: Vec<usize> = core
                    .iter()
                    .copied()
                    .filter(|place| place != left_out)
                    .collect();
                assert!(can(&others(&fewer)), "{core:?} without {left_out}: {says}");
            }
            assert!(!crate::clash::reason(&desk, core, &users).is_empty());
        }
    }
    assert!(some > 9 && none > 4, "{some} {none}");
}

#[test]
fn what_is_said_to_be_enough_is_enough() {
    let mut random = Random::new(14);
    let mut seen = [0; 3];
    for _ in 0..rounds(120) {
        let size = size(&mut random, 4);
        let Some(desk) = desk(&mut random, &size, false) else {
            continue;
        };
        let all: Vec<u16> = desk.told.users.keys().copied().collect();
        let users: Vec<u16> = all
            .iter()
            .copied()
            .filter(|_| random.chance(1, 2))
            .collect();
        let budget = Budget::of_tries(TRIES);
        let mut meter = Meter::new(TRIES, &budget);
        let setting = Setting {
            desk: &desk,
            order: 0,
            users: &users,
        };
        if setting.finishes(&mut meter) != Ok(false) {
            continue;
        }
        let more = crate::clash::more(&setting, &mut meter);
        assert!(!more.open);
        for crew in &more.clerks {
            for set in meant(crew) {
                let with: Vec<u16> = users.iter().copied().chain(set).collect();
                assert_ne!(
                    by_force(&desk, &with),
                    Some(false),
                    "{}",
                    told(&desk, &with)
                );
                seen[0] += 1;
            }
        }
        // No other clerk alone is enough where fewer are said, and none where nothing is said.
        let least = more
            .clerks
            .iter()
            .map(|crew| crew.iter().map(|(count, _)| count).sum::<usize>())
            .min();
        let others: Vec<usize> = all
            .iter()
            .filter(|user| !users.contains(user))
            .map(|&user| user.into())
            .collect();
        for set in sets(&others)
            .into_iter()
            .filter(|set| least.is_none_or(|least| set.len() < least))
        {
            let with: Vec<u16> = users
                .iter()
                .copied()
                .chain(set.into_iter().map(|user| user as u16))
                .collect();
            assert_ne!(by_force(&desk, &with), Some(true), "{}", told(&desk, &with));
        }
        for (role, who) in &more.roles {
            for &user in who {
                let mut engine = desk.engine().clone();
                assert!(engine
                    .request(&Record::assign_role(user, *role))
                    .is_granted());
                let desk = Desk::at(&desk.policy, Names::default(), engine);
                assert_ne!(
                    by_force(&desk, &users),
                    Some(false),
                    "{}",
                    told(&desk, &users)
                );
                seen[1] += 1;
            }
        }
        for new in &more.new {
            let mut engine = desk.engine().clone();
            let mut with = users.clone();
            for (at, &roles) in new.iter().enumerate() {
                assert!(engine
                    .request(&Record::add_user_with(900 + at as u16, roles))
                    .is_granted());
                with.push(900 + at as u16);
            }
            let desk = Desk::at(&desk.policy, Names::default(), engine);
            assert_ne!(
                by_force(&desk, &with),
                Some(false),
                "{}",
                told(&desk, &with)
            );
            seen[2] += 1;
        }
    }
    assert!(seen.iter().all(|&count| count > 2), "{seen:?}");
}

/// Crews and absences of policies at the limits, measured; run by hand as `finish::limits` is.
#[test]
#[ignore = "it takes minutes: a measurement, run by hand"]
fn limits_of_crews_and_absences() {
    println!(
        "family                         seed  says                      crew    tries       s"
    );
    for family in &FAMILIES {
        for seed in 1..=3 {
            let mut random = Random::new(seed);
            let Some(desk) = limits::desk(&mut random, family) else {
                continue;
            };
            let users: Vec<u16> = desk.told.users.keys().copied().skip(family.away).collect();
            let budget = Budget::of_tries(TRIES);
            let question = Question {
                budget: &budget,
                absent: None,
            };
            let began = std::time::Instant::now();
            let found: Outlook = outlook(&desk, 0, &users, &question);
            let took = began.elapsed().as_secs_f64();
            let crew = match &found.finish {
                Finish::Yes(able) if able.crews.least => format!("{}", able.crews.size),
                Finish::Yes(able) => format!("<= {}", able.crews.size),
                _ => "-".to_string(),
            };
            println!(
                "{:<29}  {seed:>4}  {:<24}  {crew:>5}  {:>7}  {took:>6.2}",
                family.name,
                super::tell::field(&found),
                found.tries
            );
        }
    }
}
