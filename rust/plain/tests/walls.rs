//! Walls: kind 18 with its refusals in order, and what a commit binds.

mod common;
use common::*;
use plain::Reply::*;

#[test]
fn a_record_is_refused_in_the_order_of_checks() {
    let loads = |policy: &[Bytes], expected: plain::Reply| {
        let place = if expected == Granted { 0 } else { policy.len() };
        assert_eq!(Both::new().load(policy), (expected, place), "{policy:?}");
    };
    loads(&[wall(16, 0, 7)], Range);
    loads(&[wall(0, 16, 7)], Range);
    loads(&[wall(0, 1, 7), wall(0, 1, 7)], Taken);
    loads(&[wall(0, 1, 7), wall(0, 2, 7)], Rule);
    loads(&[wall(0, 1, 7), wall(1, 2, 7)], Granted); // in another wall
    loads(&[wall(0, 1, 7), wall(0, 2, 263)], Granted); // an object with the same lower byte
    loads(&[wall(0, 1, 7), wall(1, 1, 7), wall(0, 0, 7)], Rule);
    let full: Vec<Bytes> = (0..257).map(|i| wall(i % 16, i % 5, i)).collect();
    loads(&full[..256], Granted);
    loads(&full, Full);
    loads(&[&full[..256], &[wall(0, 1, 0)]].concat(), Rule);
    loads(&[&full[..256], &[wall(0, 0, 0)]].concat(), Taken);
}

/// Everyone may read objects 7, 8, 9 and 20. Wall 0 has 7 and 8 in two blocks; wall 1 has 7 and 9.
fn books() -> Both {
    let mut policy = vec![user(44), user(300), role(0)];
    policy.extend([has_role(44, 0), has_role(300, 0)]);
    for (number, object) in [7, 8, 9, 20].into_iter().enumerate() {
        let number = number as u16;
        policy.extend([permission(number, 1, object), has_permission(0, number)]);
    }
    policy.extend([wall(0, 1, 7), wall(0, 2, 8), wall(1, 5, 7), wall(1, 6, 9)]);
    let mut both = Both::new();
    assert_eq!(both.load(&policy), (Granted, 0));
    both
}

fn asked(requests: &[(Bytes, plain::Reply)]) {
    let mut both = books();
    for (request, reply) in requests {
        assert_eq!(both.request(request), *reply, "{request:?}");
    }
}

#[test]
fn a_commit_binds_the_user_in_every_wall() {
    asked(&[
        (create(5, 300, &[0]), Granted),
        (create(6, 300, &[0]), Granted),
        (create(7, 44, &[0]), Granted),
        (check(5, 1, 7), Granted),
        (check(5, 1, 8), Granted),
        (commit(5, 1, 7), Granted),
        (check(5, 1, 8), Wall),
        (commit(6, 1, 8), Wall),
        (check(6, 1, 9), Wall),
        (commit(6, 1, 7), Granted),
        (commit(6, 1, 20), Granted),
        (check(5, 2, 8), Denied),
        (commit(9, 1, 8), Unknown),
        (commit(128, 1, 8), Range),
        (commit(7, 1, 9), Granted),
        (check(7, 1, 7), Wall),
        (commit(7, 1, 8), Granted),
    ]);
}

#[test]
fn a_deleted_user_is_free() {
    asked(&[
        (create(5, 300, &[0]), Granted),
        (commit(5, 1, 7), Granted),
        (destroy(5), Granted),
        (create(5, 300, &[0]), Granted),
        (check(5, 1, 8), Wall),
        (destroy(5), Granted),
        (delete_user(300), Granted),
        (join(300, &[0]), Granted),
        (create(5, 300, &[0]), Granted),
        (commit(5, 1, 8), Granted),
        (check(5, 1, 7), Wall),
    ]);
}
