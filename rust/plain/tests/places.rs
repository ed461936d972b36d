//! Which rule a refused claim reports: the place of the first broken one, from 1 among all rules of its kind in policy order.

mod common;
use common::*;
use plain::Reply::{self, *};

/// Users 300 and 301 with subjects 5 and 6; tasks 0 to 9 of template 0, and 10 and 11 of template 1, open to their role; order 0
/// of template 0; and the rules.
fn desk(rules: &[Bytes]) -> Both {
    let mut policy = vec![user(300), user(301), role(0)];
    policy.extend([has_role(300, 0), has_role(301, 0)]);
    policy.extend((0..12).map(|t| task(t, u16::from(t > 9))));
    policy.extend((0..12).map(|t| open_to(t, 0)));
    policy.extend_from_slice(rules);
    let opening = [create(5, 300, &[0]), create(6, 301, &[0]), open(0, 0)];
    ready(&policy, &opening)
}

/// The answer to the last request; all requests before it must be granted.
fn last(rules: &[Bytes], requests: &[Bytes]) -> (Reply, usize) {
    let mut both = desk(rules);
    let (asked, before) = requests.split_last().unwrap();
    for request in before {
        assert_eq!(both.answer(request), (Granted, 0));
    }
    both.answer(asked)
}

#[test]
fn rules_about_other_tasks_count() {
    let rules = [before(2, 3), before(0, 1)];
    assert_eq!(last(&rules, &[claim(5, 0, 1)]), (Before, 2));
    let rules = [task_set(1, &[2, 3]), task_set(1, &[0, 1])];
    let both_tasks = [claim(5, 0, 0), claim(5, 0, 1)];
    assert_eq!(last(&rules, &both_tasks), (Separation, 2));
    let rules = [bound(2, 3), bound(10, 11), bound(1, 0)];
    let two_users = [claim(5, 0, 0), claim(6, 0, 1)];
    assert_eq!(last(&rules, &two_users), (Bound, 3));
}

#[test]
fn rules_of_other_kinds_do_not_count() {
    let rules = [
        bound(2, 3),
        task_set(1, &[4, 5]),
        block(0, &[6, 7]),
        before(0, 1),
    ];
    assert_eq!(last(&rules, &[claim(5, 0, 1)]), (Before, 1));
}

#[test]
fn a_rule_that_is_kept_is_passed_over_and_of_several_broken_the_first_is_told() {
    let rules = [before(0, 3), before(1, 3), before(2, 3)];
    let claims = [claim(5, 0, 0), done(5, 0, 0), claim(5, 0, 3)];
    assert_eq!(last(&rules, &claims), (Before, 2));
    let rules = [
        task_set(2, &[0, 1, 2]),
        task_set(1, &[1, 2]),
        task_set(1, &[0, 2]),
    ];
    let claims = [claim(5, 0, 1), claim(5, 0, 2)];
    assert_eq!(last(&rules, &claims), (Separation, 2));
    let claims = [claim(5, 0, 0), claim(5, 0, 1), claim(5, 0, 2)];
    assert_eq!(last(&rules, &claims), (Separation, 1));
    let rules = [bound(0, 2), bound(2, 1), bound(3, 2)];
    let claims = [claim(6, 0, 1), claim(6, 0, 3), claim(5, 0, 2)];
    assert_eq!(last(&rules, &claims), (Bound, 2));
}

#[test]
fn a_block_is_counted_among_the_blocks_of_all_partitionings() {
    let rules = [block(7, &[4]), block(3, &[0]), block(3, &[1])];
    let claims = [claim(5, 0, 1), claim(5, 0, 0)];
    assert_eq!(last(&rules, &claims), (Block, 3));
}

#[test]
fn the_search_goes_by_partitioning_and_then_by_block() {
    // Partitioning 9 comes first in the policy, partitioning 2 in the search.
    let rules = [
        block(9, &[0]),
        block(9, &[1]),
        block(2, &[0]),
        block(2, &[2]),
        block(2, &[1, 3]),
    ];
    let claims = [claim(5, 0, 1), claim(5, 0, 0)];
    assert_eq!(last(&rules, &claims), (Block, 5));
    // Two blocks of one partitioning conflict: the first in policy order is reported.
    let mut both = desk(&[block(1, &[3]), block(1, &[2]), block(1, &[0])]);
    both.request(&claim(5, 0, 2));
    assert_eq!(both.answer(&claim(5, 0, 3)), (Block, 2));
    // A partitioning without the task is skipped, whatever D has there.
    let rules = [
        block(0, &[1]),
        block(0, &[2]),
        block(4, &[0]),
        block(4, &[1]),
    ];
    assert_eq!(last(&rules, &claims), (Block, 4));
}

#[test]
fn the_last_of_as_many_rules_as_there_is_room_for_has_its_place() {
    let pairs = (0..10).flat_map(|a| (0..10).map(move |b| (a, b)));
    let about_others = pairs.filter(|(a, b)| a != b && *b != 1);
    let rules = about_others.take(63).chain([(0, 1)]);
    let rules: Vec<Bytes> = rules.map(|(a, b)| before(a, b)).collect();
    assert_eq!(last(&rules, &[claim(5, 0, 1)]), (Before, 64));
}

#[test]
fn every_other_reply_has_place_0() {
    let rules = [at_most(0, 1), ban(1), task_set(1, &[2, 3])];
    let again = [claim(5, 0, 0), done(5, 0, 0), claim(5, 0, 0)];
    assert_eq!(last(&rules, &again), (Count, 0));
    assert_eq!(last(&rules, &[claim(5, 0, 0), claim(6, 0, 0)]), (Taken, 0));
    assert_eq!(
        last(&rules, &[open(1, 1), claim(5, 1, 10), claim(5, 1, 11)]),
        (Alone, 0)
    );
    assert_eq!(last(&rules, &[release(5, 0, 0)]), (NotYours, 0));
    assert_eq!(last(&rules, &[claim(5, 0, 2)[..9].to_vec()]), (Shape, 0));
}
