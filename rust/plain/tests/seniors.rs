//! Senior roles: kind 17 with its refusals in order, and each place where a role counts with the roles below it.

mod common;
use common::*;
use plain::Reply::*;

/// Lead (2) is above clerk (1), which is above helper (0); role 3 is unrelated. User 300 is a lead, 301 a clerk.
fn base() -> Vec<Bytes> {
    let mut policy = vec![user(300), user(301)];
    policy.extend((0..4).map(role));
    policy.extend([has_role(300, 2), has_role(301, 1)]);
    policy.extend([above(2, 1), above(1, 0)]);
    policy
}

fn loads(more: &[Bytes], expected: plain::Reply) {
    let policy = [base(), more.to_vec()].concat();
    let place = if expected == Granted { 0 } else { policy.len() };
    assert_eq!(Both::new().load(&policy), (expected, place), "{more:?}");
}

#[test]
fn a_record_is_refused_in_the_order_of_checks() {
    loads(&[above(64, 0)], Range);
    loads(&[above(0, 64)], Range);
    loads(&[above(2, 9)], Unknown);
    loads(&[above(9, 9)], Unknown);
    loads(&[above(2, 1)], Taken);
    loads(&[above(3, 3)], Rule);
    loads(&[above(1, 2)], Loop);
    loads(&[above(0, 2)], Loop); // through a role between
    loads(&[above(2, 0)], Granted); // allowed, although it is above already through a role between
    loads(&[above(3, 2)], Granted);
    let set = static_set(1, &[0, 3]);
    loads(&[set.clone(), above(0, 3)], Static);
    loads(&[set.clone(), above(3, 0)], Granted); // nobody has role 3
    loads(&[set, above(3, 2), above(1, 3)], Loop);
}

#[test]
fn there_may_be_64_of_them() {
    let mut policy: Vec<Bytes> = (0..64).map(role).collect();
    policy.extend((1..64).map(|junior| above(0, junior)));
    policy.push(above(1, 2));
    let full = [above(1, 3)];
    let place = policy.len() + 1;
    assert_eq!(Both::new().load(&policy), (Granted, 0));
    assert_eq!(
        Both::new().load(&[&policy[..], &full].concat()),
        (Full, place)
    );
    // Checked after the other refusals.
    for (record, reply) in [
        (above(1, 2), Taken),
        (above(3, 3), Rule),
        (above(2, 1), Loop),
    ] {
        let all = [&policy[..], &[record]].concat();
        assert_eq!(Both::new().load(&all), (reply, place));
    }
}

#[test]
fn static_sets_count_what_stands_below() {
    loads(&[static_set(1, &[0, 2])], Static); // the lead is a helper too
    loads(&[static_set(1, &[0, 3])], Granted);
    let set = static_set(1, &[0, 3]);
    loads(&[set.clone(), has_role(300, 3)], Static);
    let mut both = ready(&[base(), vec![set]].concat(), &[]);
    assert_eq!(both.request(&assign(301, 3)), Static);
    assert_eq!(both.request(&join(302, &[1, 3])), Static);
    assert_eq!(both.request(&join(302, &[3])), Granted);
    assert_eq!(both.request(&assign(302, 2)), Static);
    // Only the members in the record count, without roles below them.
    loads(&[static_set(2, &[0, 2])], Rule);
}

#[test]
fn a_role_below_an_assigned_one_may_be_activated() {
    let mut both = ready(&base(), &[create(5, 300, &[0]), create(6, 301, &[])]);
    assert_eq!(both.request(&activate(5, 1)), Granted);
    assert_eq!(both.request(&activate(5, 1)), Taken); // active by its number
    assert_eq!(both.request(&activate(5, 2)), Granted);
    assert_eq!(both.request(&activate(5, 3)), NotAssigned);
    assert_eq!(both.request(&activate(6, 2)), NotAssigned);
    assert_eq!(both.request(&create(7, 301, &[0, 2])), NotAssigned);
    assert_eq!(both.request(&deactivate(6, 0)), Unknown);
    assert_eq!(both.request(&take_role(300, 1)), Unknown); // not assigned by its number
    assert_eq!(both.request(&assign(300, 1)), Granted);
}

#[test]
fn a_role_is_in_use_while_one_that_it_alone_gives_is_active() {
    let mut both = ready(&base(), &[create(5, 300, &[0])]);
    assert_eq!(both.request(&take_role(300, 2)), InUse);
    assert_eq!(both.request(&assign(300, 1)), Granted);
    assert_eq!(both.request(&take_role(300, 2)), Granted); // the clerk is also above the helper
    assert_eq!(both.request(&take_role(300, 1)), InUse);
    assert_eq!(both.request(&deactivate(5, 0)), Granted);
    assert_eq!(both.request(&take_role(300, 1)), Granted);
}

#[test]
fn dynamic_sets_count_what_stands_below() {
    let policy = [base(), vec![has_role(300, 3), dynamic_set(1, &[0, 3])]].concat();
    let mut both = ready(&policy, &[create(5, 300, &[3])]);
    assert_eq!(both.request(&activate(5, 2)), Dynamic);
    assert_eq!(both.request(&create(6, 300, &[1])), Dynamic);
    assert_eq!(both.request(&destroy(5)), Granted);
    assert_eq!(both.request(&create(6, 300, &[2])), Granted);
    assert_eq!(both.request(&activate(6, 3)), Dynamic);
}

#[test]
fn permissions_and_tasks_of_juniors_are_the_seniors() {
    let more = [
        permission(7, 40, 50),
        has_permission(0, 7),
        task(0, 0),
        open_to(0, 0),
        task(1, 0),
        open_to(1, 2),
    ];
    let opening = [create(5, 300, &[2]), create(6, 301, &[1]), open(0, 0)];
    let mut both = ready(&[base(), more.to_vec()].concat(), &opening);
    assert_eq!(both.request(&check(5, 40, 50)), Granted);
    assert_eq!(both.request(&claim(6, 0, 1)), NoRole);
    assert_eq!(both.request(&claim(5, 0, 1)), Granted);
    assert_eq!(both.request(&claim(6, 0, 0)), Granted);
    assert_eq!(both.request(&deactivate(5, 2)), Granted);
    assert_eq!(both.request(&check(5, 40, 50)), Denied);
    assert_eq!(both.request(&take_permission(0, 7)), Granted);
    assert_eq!(both.request(&check(6, 40, 50)), Denied);
}
