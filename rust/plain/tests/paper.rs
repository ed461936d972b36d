//! The listing of docs/RULES.md, its cases "At the edges", and the misreadings that it warns of.

mod common;
use common::*;
use plain::Reply::{self, *};

#[test]
fn the_listing() {
    let policy = [
        user(300),
        user(301),
        role(0),
        has_role(300, 0),
        has_role(301, 0),
        task(0, 0),
        task(1, 0),
        open_to(0, 0),
        open_to(1, 0),
        task_set(1, &[0, 1]),
        before(0, 1),
    ];
    assert_eq!(policy.len(), 11);
    let asked = [
        (create(5, 300, &[0]), (0, 0)),
        (create(6, 301, &[0]), (0, 0)),
        (open(0, 0), (0, 0)),
        (claim(5, 0, 1), (14, 1)),
        (claim(5, 0, 0), (0, 0)),
        (claim(6, 0, 1), (14, 1)),
        (done(5, 0, 0), (0, 0)),
        (claim(5, 0, 1), (15, 1)),
        (claim(6, 0, 1), (0, 0)),
        (end(0), (6, 0)),
        (done(6, 0, 1), (0, 0)),
        (end(0), (0, 0)),
        (end(0), (4, 0)),
    ];
    let (requests, told): (Vec<_>, Vec<_>) = asked.into_iter().unzip();
    assert_eq!(answers(&policy, &requests), told);
}

#[test]
fn an_empty_policy_is_accepted() {
    assert_eq!(Both::new().load(&[]), (Granted, 0));
}

#[test]
fn user_1023_is_accepted_and_1024_is_range() {
    let mut both = Both::new();
    assert_eq!(both.load(&[user(1023)]), (Granted, 0));
    assert_eq!(both.load(&[user(1024)]), (Range, 1));
    assert_eq!(both.request(&add_user(1023)), Granted);
    assert_eq!(both.request(&add_user(1024)), Range);
}

/// Two users, each with one role of a pair, two tasks, and subjects 1 and 2.
fn two_people(first: u16, second: u16, rules: &[Bytes]) -> Both {
    let mut policy = vec![
        user(first),
        user(second),
        role(0),
        role(1),
        has_role(first, 0),
        has_role(second, 0),
        task(0, 0),
        task(1, 0),
        open_to(0, 0),
        open_to(1, 0),
    ];
    policy.extend_from_slice(rules);
    let requests = [
        create(1, first, &[0]),
        create(2, second, &[0]),
        open(0, 0),
        claim(1, 0, 0),
        done(1, 0, 0),
    ];
    ready(&policy, &requests)
}

fn are_different_people(one: u16, other: u16) {
    let people = |rules: &[Bytes]| two_people(one, other, rules);
    assert_eq!(
        people(&[task_set(1, &[0, 1])]).request(&claim(1, 0, 1)),
        Separation
    );
    assert_eq!(
        people(&[task_set(1, &[0, 1])]).request(&claim(2, 0, 1)),
        Granted
    );
    let blocks = [block(0, &[0]), block(0, &[1])];
    assert_eq!(people(&blocks).request(&claim(1, 0, 1)), Block);
    assert_eq!(people(&blocks).request(&claim(2, 0, 1)), Granted);
    assert_eq!(people(&[ban(0)]).request(&claim(1, 0, 1)), Alone);
    assert_eq!(people(&[ban(0)]).request(&claim(2, 0, 1)), Granted);
    assert_eq!(people(&[bound(1, 0)]).request(&claim(1, 0, 1)), Granted);
    assert_eq!(people(&[bound(1, 0)]).request(&claim(2, 0, 1)), Bound);

    let mut both = people(&[static_set(1, &[0, 1])]);
    assert_eq!(both.request(&assign(one, 1)), Static);
    assert_eq!(both.request(&take_role(one, 0)), InUse);
    assert_eq!(both.request(&destroy(2)), Granted);
    assert_eq!(both.request(&take_role(other, 0)), Granted);
    assert_eq!(both.request(&assign(other, 1)), Granted);
    assert_eq!(both.request(&create(2, other, &[0])), NotAssigned);
    assert_eq!(both.request(&delete_user(other)), Granted);
    assert_eq!(both.request(&create(3, other, &[])), Unknown);
    assert_eq!(both.request(&create(3, one, &[])), Granted);
    assert_eq!(both.request(&delete_user(one)), InUse);
    assert_eq!(both.request(&add_user(one)), Taken);
    assert_eq!(both.request(&add_user(other)), Granted);

    let mut both = people(&[dynamic_set(1, &[0, 1])]);
    assert_eq!(both.request(&destroy(2)), Granted);
    assert_eq!(both.request(&assign(one, 1)), Granted);
    assert_eq!(both.request(&assign(other, 1)), Granted);
    assert_eq!(both.request(&create(3, one, &[1])), Dynamic);
    assert_eq!(both.request(&create(3, other, &[1])), Granted);
}

#[test]
fn users_44_and_300_and_255_and_256_are_different_people_to_every_rule() {
    for (one, other) in [(44, 300), (300, 44), (255, 256), (256, 255)] {
        are_different_people(one, other);
    }
}

#[test]
fn a_set_of_2_takes_n_1_alone() {
    let first = [role(0), role(1), task(0, 0), task(1, 0)];
    for make in [static_set, dynamic_set, task_set] {
        for (n, expected) in [(0, (Rule, 5)), (1, (Granted, 0)), (2, (Rule, 5))] {
            let policy = [&first[..], &[make(n, &[0, 1])]].concat();
            assert_eq!(Both::new().load(&policy), expected, "n = {n}");
        }
    }
}

#[test]
fn blocks_of_one_partitioning_share_no_task() {
    let tasks = [task(0, 0), task(1, 0), task(2, 0)];
    let blocks = [block(4, &[0, 1]), block(4, &[1, 2])];
    let policy = [&tasks[..], &blocks].concat();
    assert_eq!(Both::new().load(&policy), (Rule, 5));
    let apart = [&tasks[..], &[block(4, &[0, 1]), block(5, &[1, 2])]].concat();
    assert_eq!(Both::new().load(&apart), (Granted, 0));
}

#[test]
fn a_binding_is_taken_in_either_order() {
    let policy = [task(2, 0), task(3, 0), bound(3, 2), bound(2, 3)];
    assert_eq!(Both::new().load(&policy), (Taken, 4));
}

/// Users 300 and 301 with role 0 and subjects 5 and 6, and tasks 0 to 2 of template 0, open as order 0.
fn order(rules: &[Bytes]) -> Both {
    let mut policy = vec![user(300), user(301), role(0), role(1)];
    policy.extend([300, 301].map(|u| has_role(u, 0)));
    policy.extend([0, 1, 2].map(|t| task(t, 0)));
    policy.extend([0, 1, 2].map(|t| open_to(t, 0)));
    policy.extend_from_slice(rules);
    let requests = [create(5, 300, &[0]), create(6, 301, &[0]), open(0, 0)];
    ready(&policy, &requests)
}

fn expect(both: &mut Both, asked: &[(Bytes, Reply)]) {
    for (at, (record, reply)) in asked.iter().enumerate() {
        assert_eq!(both.request(record), *reply, "request {}", at + 1);
    }
}

#[test]
fn a_count_limit_of_2() {
    let mut both = order(&[at_most(0, 2)]);
    expect(
        &mut both,
        &[
            (claim(5, 0, 0), Granted),
            (done(5, 0, 0), Granted),
            (claim(6, 0, 0), Granted),
            (claim(5, 0, 0), Taken),
            (claim(6, 0, 0), Taken),
            (release(6, 0, 0), Granted),
            (claim(5, 0, 0), Granted),
            (done(5, 0, 0), Granted),
            (claim(5, 0, 0), Count),
            (claim(6, 0, 0), Count),
        ],
    );
}

#[test]
fn a_held_prerequisite_is_not_done() {
    let mut both = order(&[before(0, 1)]);
    expect(
        &mut both,
        &[
            (claim(5, 0, 0), Granted),
            (claim(6, 0, 1), Before),
            (done(5, 0, 0), Granted),
            (claim(6, 0, 1), Granted),
        ],
    );
}

#[test]
fn a_dynamic_set_counts_over_all_subjects_of_a_user() {
    let mut both = order(&[dynamic_set(1, &[0, 1])]);
    expect(
        &mut both,
        &[
            (assign(300, 1), Granted),
            (create(7, 300, &[]), Granted),
            (activate(7, 1), Dynamic),
            (create(8, 300, &[1]), Dynamic),
            (activate(7, 0), Granted),
            (deactivate(5, 0), Granted),
            (activate(7, 1), Dynamic),
            (deactivate(7, 0), Granted),
            (activate(7, 1), Dynamic),
            (destroy(5), Granted),
            (activate(7, 1), Dynamic),
            (destroy(7), Granted),
            (create(7, 300, &[1]), Granted),
        ],
    );
}

#[test]
fn two_open_claims_together_keep_a_set() {
    let mut both = order(&[task_set(1, &[0, 1])]);
    expect(
        &mut both,
        &[(claim(5, 0, 0), Granted), (claim(5, 0, 1), Separation)],
    );
}

#[test]
fn a_repeated_task_counts_once_in_a_task_set() {
    let mut both = order(&[task_set(2, &[0, 1, 2])]);
    expect(
        &mut both,
        &[
            (claim(5, 0, 0), Granted),
            (done(5, 0, 0), Granted),
            (claim(5, 0, 0), Granted),
            (done(5, 0, 0), Granted),
            (claim(5, 0, 1), Granted),
            (claim(5, 0, 2), Separation),
            (done(5, 0, 1), Granted),
            (claim(5, 0, 1), Granted),
        ],
    );
}

#[test]
fn a_binding_holds_from_both_sides() {
    for rule in [bound(0, 1), bound(1, 0)] {
        let mut both = order(&[rule]);
        expect(
            &mut both,
            &[
                (claim(5, 0, 0), Granted),
                (claim(6, 0, 1), Bound),
                (claim(5, 0, 1), Granted),
                (release(5, 0, 0), Granted),
                (claim(6, 0, 0), Bound),
            ],
        );
    }
}

#[test]
fn a_number_returns_only_without_entries_and_without_its_roles() {
    let mut both = order(&[]);
    expect(
        &mut both,
        &[
            (claim(5, 0, 0), Granted),
            (done(5, 0, 0), Granted),
            (destroy(5), Granted),
            (delete_user(300), InUse),
            (end(0), Granted),
            (delete_user(300), Granted),
            (create(5, 300, &[]), Unknown),
            (add_user(300), Granted),
            (create(5, 300, &[0]), NotAssigned),
            (create(5, 300, &[]), Granted),
        ],
    );
}

#[test]
fn a_banned_template_with_one_task_is_free_of_the_ban() {
    let mut both = order(&[task(9, 3), open_to(9, 0), ban(3)]);
    expect(
        &mut both,
        &[
            (open(1, 3), Granted),
            (claim(5, 1, 9), Granted),
            (done(5, 1, 9), Granted),
            (claim(5, 1, 9), Granted),
        ],
    );
}

#[test]
fn rules_look_at_one_order_alone() {
    let rules = [task_set(1, &[0, 1]), at_most(0, 1), bound(0, 1)];
    let mut both = order(&rules);
    expect(
        &mut both,
        &[
            (open(1, 0), Granted),
            (claim(5, 0, 0), Granted),
            (claim(6, 1, 0), Granted),
            (done(5, 0, 0), Granted),
            (end(0), Granted),
            (open(0, 0), Granted),
            (claim(6, 0, 0), Granted),
        ],
    );
}

#[test]
fn the_2048th_entry_is_granted_and_the_next_is_full_until_an_end() {
    let mut both = order(&[]);
    assert_eq!(both.quick(&open(1, 0)), Granted);
    for entry in 0..2048 {
        let instance = u16::from(entry % 2 == 1);
        assert_eq!(both.quick(&claim(5, instance, 0)), Granted, "{entry}");
        assert_eq!(both.quick(&done(5, instance, 0)), Granted, "{entry}");
    }
    expect(
        &mut both,
        &[
            (claim(5, 0, 0), Full),
            (end(1), Granted),
            (claim(5, 0, 0), Granted),
            (release(5, 0, 0), Granted),
        ],
    );
    for entry in 0..1024 {
        assert_eq!(both.quick(&claim(6, 0, 1)), Granted, "{entry}");
        assert_eq!(both.quick(&done(6, 0, 1)), Granted, "{entry}");
    }
    assert_eq!(both.request(&claim(5, 0, 2)), Full);
}
