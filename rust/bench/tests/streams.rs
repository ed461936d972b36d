//! The timed streams: all engines agree on them, every pass gets the same answers, and they have the expected numbers of grants
//! and refusals.

use bench::{checks, day, day_among, kinds, load, Race, Workload};

/// How many records of a workload get each reply, after some passes on which all engines agreed.
fn replies(workload: &Workload) -> [usize; 25] {
    let mut race = Race::new(workload).expect("all engines take what comes before");
    race.run(3).expect("all engines agree");
    let mut counts = [0; 25];
    for &reply in race.replies() {
        counts[usize::from(reply)] += 1;
    }
    counts
}

fn seen(workload: &Workload) -> Vec<usize> {
    let counts = replies(workload);
    (0..25).filter(|&reply| counts[reply] > 0).collect()
}

const GRANTED: usize = 0;

#[test]
fn checks_are_granted_and_denied() {
    for permissions in [16, 64, 256] {
        let counts = replies(&checks(permissions));
        let (granted, denied) = (counts[GRANTED], counts[13]);
        assert_eq!(granted + denied, 4096);
        assert!(granted > 1500 && denied > 1500, "{counts:?}");
    }
}

#[test]
fn orders_are_mostly_granted_and_every_rule_refuses() {
    for workload in [day(), day_among(10), day_among(100), day_among(1000)] {
        let counts = replies(&workload);
        assert!(4 * counts[GRANTED] > 3 * workload.length(), "{counts:?}");
        let refusals = [4, 5, 6, 11, 12, 14, 15, 18, 19];
        assert_eq!(seen(&workload)[1..], refusals, "{}", workload.name);
    }
}

#[test]
fn the_largest_policy_is_accepted() {
    let workload = load();
    assert_eq!(workload.length(), 4096);
    let mut used: Vec<u8> = workload.policy.iter().map(|record| record.kind()).collect();
    used.sort_unstable();
    used.dedup();
    assert_eq!(used, (1..=18).collect::<Vec<u8>>());
    Race::new(&workload)
        .and_then(|mut race| race.run(2))
        .unwrap();
}

#[test]
fn kinds_are_granted_but_where_refusals_are_timed() {
    for workload in kinds() {
        let expected: &[usize] = match workload.name.as_str() {
            "56 check, by a role 32 below the active one" => &[GRANTED, 13],
            "56 the same, 16 walls of these objects" => &[GRANTED, 24],
            "57 task check" => &[GRANTED, 12, 13],
            "refused by SHAPE or RANGE" => &[2, 3],
            _ => &[GRANTED],
        };
        assert_eq!(seen(&workload), expected, "{}", workload.name);
    }
}
