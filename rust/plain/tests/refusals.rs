//! Every refusal of each kind, one at a time, next to a similar record that is granted.

mod common;
use common::*;
use plain::Reply::{self, *};

/// Two users, roles 0 to 3, two permissions, tasks 0 to 3 of template 0 and 10, 11 of template 1.
fn base() -> Vec<Bytes> {
    let mut policy = vec![user(300), user(301)];
    policy.extend((0..4).map(role));
    policy.extend([permission(7, 40, 50), permission(8, 41, 50)]);
    policy.extend([(300, 0), (300, 1), (301, 0)].map(|(u, r)| has_role(u, r)));
    policy.extend([has_permission(0, 7)]);
    policy.extend((0..4).map(|t| task(t, 0)));
    policy.extend([task(10, 1), task(11, 1)]);
    policy.extend([0, 1, 2, 3, 10, 11].map(|t| open_to(t, 0)));
    policy.extend([carries(0, 8)]);
    policy
}

/// Loads the base policy and further records, and checks the reply to the last one.
fn loads(more: &[Bytes], expected: Reply) {
    let policy = [base(), more.to_vec()].concat();
    let place = if expected == Granted { 0 } else { policy.len() };
    let got = Both::new().load(&policy);
    assert_eq!(got, (expected, place), "{more:?}");
}

#[test]
fn declarations_are_taken_by_their_numbers() {
    loads(&[user(300)], Taken);
    loads(&[role(3)], Taken);
    loads(&[permission(7, 1, 1)], Taken);
    loads(&[permission(9, 40, 50)], Taken);
    loads(&[permission(9, 50, 40)], Granted);
    loads(&[permission(9, 40, 51)], Granted);
    loads(&[permission(0, 0, 0), permission(9, 0, 0)], Taken);
    loads(
        &[permission(0, 65535, 65535), permission(1, 65535, 0)],
        Granted,
    );
    loads(&[task(0, 0)], Taken);
    loads(&[task(0, 1)], Taken);
}

#[test]
fn pairs_are_unknown_on_either_side_and_taken_as_a_pair() {
    loads(&[has_role(999, 0)], Unknown);
    loads(&[has_role(300, 9)], Unknown);
    loads(&[has_role(300, 0)], Taken);
    loads(&[has_role(301, 1)], Granted);
    loads(&[has_permission(9, 7)], Unknown);
    loads(&[has_permission(0, 9)], Unknown);
    loads(&[has_permission(0, 7)], Taken);
    loads(&[has_permission(1, 7), has_permission(0, 8)], Granted);
    loads(&[open_to(9, 0)], Unknown);
    loads(&[open_to(0, 9)], Unknown);
    loads(&[open_to(0, 0)], Taken);
    loads(&[open_to(0, 1)], Granted);
    loads(&[carries(9, 7)], Unknown);
    loads(&[carries(0, 9)], Unknown);
    loads(&[carries(0, 8)], Taken);
    loads(&[carries(1, 8), carries(0, 7)], Granted);
}

#[test]
fn sets_need_declared_members_and_an_n_below_their_number() {
    for make in [static_set, dynamic_set] {
        loads(&[make(1, &[2, 9])], Unknown);
        loads(&[make(1, &[])], Rule);
        loads(&[make(1, &[2])], Rule);
        loads(&[make(0, &[2, 3])], Rule);
        loads(&[make(2, &[2, 3])], Rule);
        loads(&[make(255, &[2, 3])], Rule);
        loads(&[make(1, &[2, 3]), make(1, &[2, 3])], Taken);
        loads(&[make(1, &[1, 2, 3]), make(2, &[1, 2, 3])], Granted);
    }
    loads(&[static_set(1, &[2, 3]), dynamic_set(1, &[2, 3])], Granted);
    loads(&[task_set(1, &[0, 9])], Unknown);
    loads(&[task_set(1, &[])], Rule);
    loads(&[task_set(1, &[0])], Rule);
    loads(&[task_set(0, &[0, 1])], Rule);
    loads(&[task_set(2, &[0, 1])], Rule);
    loads(&[task_set(1, &[0, 10])], Rule);
    loads(&[task_set(1, &[0, 1]), task_set(1, &[0, 1])], Taken);
    loads(&[task_set(1, &[0, 1, 2]), task_set(2, &[0, 1, 2])], Granted);
}

#[test]
fn a_static_set_holds_from_both_sides() {
    loads(&[static_set(1, &[0, 1])], Static);
    loads(&[static_set(2, &[0, 1, 2])], Granted);
    loads(&[static_set(2, &[0, 1, 2]), has_role(300, 2)], Static);
    loads(&[static_set(1, &[1, 2]), has_role(300, 2)], Static);
    loads(&[static_set(1, &[1, 2]), has_role(301, 2)], Granted);
    loads(&[dynamic_set(1, &[0, 1])], Granted);
}

#[test]
fn blocks_are_of_one_template_and_share_nothing() {
    loads(&[block(0, &[0, 9])], Unknown);
    loads(&[block(0, &[])], Rule);
    loads(&[block(0, &[0, 10])], Rule);
    loads(&[block(0, &[0]), block(0, &[10])], Rule);
    loads(&[block(0, &[0]), block(1, &[10])], Granted);
    loads(
        &[block(0, &[0, 1]), block(0, &[2]), block(0, &[1, 3])],
        Rule,
    );
    loads(&[block(0, &[0, 1]), block(0, &[0, 1])], Taken);
    loads(&[block(0, &[0, 1]), block(1, &[0, 1])], Granted);
    loads(
        &[block(0, &[0, 1]), block(0, &[2]), block(0, &[3])],
        Granted,
    );
}

#[test]
fn bans_and_limits() {
    loads(&[ban(2)], Unknown);
    loads(&[ban(1)], Granted);
    loads(&[ban(1), ban(1)], Taken);
    loads(&[ban(1), task(12, 1)], Granted);
    loads(&[at_most(9, 1)], Unknown);
    loads(&[at_most(0, 0)], Rule);
    loads(&[at_most(0, 255)], Granted);
    loads(&[at_most(0, 1), at_most(0, 2)], Taken);
    loads(&[at_most(0, 1), at_most(0, 0)], Taken);
}

#[test]
fn bindings_and_prerequisites() {
    for make in [bound, before] {
        loads(&[make(0, 9)], Unknown);
        loads(&[make(9, 0)], Unknown);
        loads(&[make(9, 9)], Unknown);
        loads(&[make(0, 0)], Rule);
        loads(&[make(0, 10)], Rule);
        loads(&[make(0, 1), make(0, 1)], Taken);
        loads(&[make(0, 1), make(0, 2), make(1, 2)], Granted);
    }
    loads(&[bound(0, 1), bound(1, 0)], Taken);
    loads(&[before(0, 1), before(1, 0)], Granted);
}

/// All these records are accepted, and one more is refused because there is no room for it.
fn fills(records: Vec<Bytes>, more: Bytes) {
    loads(&records, Granted);
    loads(&[records, vec![more]].concat(), Full);
}

#[test]
fn bindings_and_prerequisites_have_room_for_64_each() {
    for make in [bound, before] {
        let tasks = 20..32;
        let all = tasks.clone().flat_map(|i| (i + 1..32).map(move |j| (i, j)));
        let rules = all.take(64).map(|(i, j)| make(i, j));
        let records = tasks.map(|t| task(t, 5)).chain(rules).collect();
        fills(records, make(0, 1));
    }
}

#[test]
fn blocks_have_room_for_64_over_all_partitionings() {
    let tasks = (20..36).map(|t| task(t, 5));
    let blocks = (0..4).flat_map(|p| (20..36).map(move |t| block(p, &[t])));
    fills(tasks.chain(blocks).collect(), block(9, &[0]));
}

#[test]
fn each_sort_of_set_has_room_for_32() {
    let members: Vec<u32> = (20..60).collect();
    let with_sets = |declare: fn(u16) -> Bytes, make: fn(u8, &[u32]) -> Bytes| {
        let sets = (1..=32).map(|n| make(n, &members));
        (20..60).map(declare).chain(sets).collect()
    };
    fills(with_sets(role, static_set), static_set(1, &[2, 3]));
    fills(with_sets(role, dynamic_set), dynamic_set(1, &[2, 3]));
    fills(with_sets(|t| task(t, 5), task_set), task_set(1, &[0, 1]));
}

/// Checks the reply to one request after the base policy with some rules and granted requests.
fn asks(rules: &[Bytes], granted: &[Bytes], last: Bytes, expected: Reply) {
    let policy = [base(), rules.to_vec()].concat();
    let mut both = ready(&policy, granted);
    assert_eq!(both.request(&last), expected, "{last:?}");
}

#[test]
fn users_come_and_go() {
    asks(&[], &[], add_user(300), Taken);
    asks(&[], &[], add_user(999), Granted);
    asks(&[], &[], delete_user(999), Unknown);
    asks(&[], &[], delete_user(300), Granted);
    asks(&[], &[create(5, 300, &[])], delete_user(300), InUse);
    asks(&[], &[create(5, 300, &[])], delete_user(301), Granted);
    let entered = [create(5, 300, &[0]), open(0, 0), claim(5, 0, 0)];
    asks(&[], &entered, delete_user(300), InUse);
    let finished = [&entered[..], &[done(5, 0, 0), destroy(5)]].concat();
    asks(&[], &finished, delete_user(300), InUse);
    let ended = [&finished[..], &[end(0)]].concat();
    asks(&[], &ended, delete_user(300), Granted);
}

#[test]
fn roles_are_assigned_and_taken_back() {
    asks(&[], &[], assign(999, 0), Unknown);
    asks(&[], &[], assign(300, 9), Unknown);
    asks(&[], &[], assign(300, 0), Taken);
    asks(&[], &[], assign(300, 2), Granted);
    asks(&[static_set(1, &[1, 2])], &[], assign(300, 2), Static);
    asks(&[static_set(1, &[1, 2])], &[], assign(301, 2), Granted);
    asks(
        &[static_set(1, &[1, 2])],
        &[take_role(300, 1)],
        assign(300, 2),
        Granted,
    );
    asks(&[], &[], take_role(999, 0), Unknown);
    asks(&[], &[], take_role(300, 9), Unknown);
    asks(&[], &[], take_role(300, 2), Unknown);
    asks(&[], &[], take_role(300, 1), Granted);
    asks(&[], &[create(5, 300, &[0, 1])], take_role(300, 1), InUse);
    asks(&[], &[create(5, 300, &[0])], take_role(300, 1), Granted);
    asks(&[], &[create(5, 301, &[0])], take_role(300, 0), Granted);
    let dropped = [create(5, 300, &[0, 1]), deactivate(5, 1)];
    asks(&[], &dropped, take_role(300, 1), Granted);
}

#[test]
fn permissions_are_given_and_taken_back() {
    asks(&[], &[], give(9, 7), Unknown);
    asks(&[], &[], give(0, 9), Unknown);
    asks(&[], &[], give(0, 7), Taken);
    asks(&[], &[], give(0, 8), Granted);
    asks(&[], &[], take_permission(9, 7), Unknown);
    asks(&[], &[], take_permission(0, 9), Unknown);
    asks(&[], &[], take_permission(1, 7), Unknown);
    asks(&[], &[], take_permission(0, 7), Granted);
    asks(&[], &[create(5, 300, &[0])], take_permission(0, 7), Granted);
}

#[test]
fn subjects_are_created() {
    asks(&[], &[], create(5, 999, &[]), Unknown);
    asks(&[], &[], create(5, 300, &[0, 9]), Unknown);
    asks(&[], &[], create(5, 300, &[]), Granted);
    asks(&[], &[], create(5, 300, &[0, 1]), Granted);
    asks(&[], &[], create(5, 300, &[0, 2]), NotAssigned);
    asks(&[], &[create(5, 300, &[])], create(5, 301, &[]), Taken);
    asks(&[], &[create(5, 300, &[])], create(6, 300, &[0]), Granted);
    let apart = [dynamic_set(1, &[0, 1])];
    asks(&apart, &[], create(5, 300, &[0, 1]), Dynamic);
    asks(
        &apart,
        &[create(5, 300, &[0])],
        create(6, 300, &[1]),
        Dynamic,
    );
    asks(
        &apart,
        &[create(5, 300, &[0])],
        create(6, 300, &[0]),
        Granted,
    );
    asks(
        &apart,
        &[create(5, 301, &[0])],
        create(6, 300, &[1]),
        Granted,
    );
}

#[test]
fn subjects_are_destroyed() {
    asks(&[], &[], destroy(5), Unknown);
    asks(&[], &[create(5, 300, &[0])], destroy(5), Granted);
    let holding = [
        create(5, 300, &[0]),
        create(6, 300, &[0]),
        open(0, 0),
        claim(5, 0, 0),
    ];
    asks(&[], &holding, destroy(5), InUse);
    asks(&[], &holding, destroy(6), Granted);
    let finished = [&holding[..], &[done(5, 0, 0)]].concat();
    asks(&[], &finished, destroy(5), Granted);
    let released = [&holding[..], &[release(5, 0, 0)]].concat();
    asks(&[], &released, destroy(5), Granted);
}

#[test]
fn roles_become_active_and_rest() {
    let live = [create(5, 300, &[0])];
    asks(&[], &live, activate(6, 1), Unknown);
    asks(&[], &live, activate(5, 9), Unknown);
    asks(&[], &live, activate(5, 0), Taken);
    asks(&[], &live, activate(5, 1), Granted);
    asks(&[], &live, activate(5, 2), NotAssigned);
    let apart = [dynamic_set(1, &[0, 1])];
    asks(&apart, &live, activate(5, 1), Dynamic);
    let two = [create(5, 300, &[0]), create(6, 300, &[])];
    asks(&apart, &two, activate(6, 1), Dynamic);
    asks(&apart, &two, activate(6, 0), Granted);
    asks(&[], &live, deactivate(6, 0), Unknown);
    asks(&[], &live, deactivate(5, 9), Unknown);
    asks(&[], &live, deactivate(5, 1), Unknown);
    asks(&[], &live, deactivate(5, 0), Granted);
    let holding = [create(5, 300, &[0]), open(0, 0), claim(5, 0, 0)];
    asks(&[], &holding, deactivate(5, 0), Granted);
}

#[test]
fn orders_open_and_end() {
    asks(&[], &[], open(0, 2), Unknown);
    asks(&[], &[], open(0, 1), Granted);
    asks(&[], &[open(0, 0)], open(0, 1), Taken);
    asks(&[], &[open(0, 0)], open(63, 0), Granted);
    asks(&[], &[], end(0), Unknown);
    asks(&[], &[open(0, 0)], end(1), Unknown);
    asks(&[], &[open(0, 0)], end(0), Granted);
    let holding = [create(5, 300, &[0]), open(0, 0), open(1, 0), claim(5, 0, 0)];
    asks(&[], &holding, end(0), InUse);
    asks(&[], &holding, end(1), Granted);
    let finished = [&holding[..], &[done(5, 0, 0)]].concat();
    asks(&[], &finished, end(0), Granted);
}

fn at_work() -> Vec<Bytes> {
    let mut requests = vec![create(5, 300, &[0]), create(6, 301, &[0])];
    requests.extend([create(7, 300, &[1]), create(8, 300, &[0])]);
    requests.extend([open(0, 0), open(1, 1), claim(5, 0, 0)]);
    requests
}

#[test]
fn claims_and_what_follows_name_known_things() {
    for make in [claim, release, done] {
        asks(&[], &at_work(), make(9, 0, 1), Unknown);
        asks(&[], &at_work(), make(5, 2, 1), Unknown);
        asks(&[], &at_work(), make(5, 0, 9), Unknown);
        asks(&[], &at_work(), make(5, 0, 10), Unknown);
        asks(&[], &at_work(), make(5, 1, 1), Unknown);
    }
    for (s, i, t) in [(9, 0, 0), (5, 2, 0), (5, 0, 9), (5, 0, 10), (5, 1, 0)] {
        asks(&[], &at_work(), task_check(s, i, t, 41, 50), Unknown);
    }
}

#[test]
fn a_task_has_one_holder_and_it_is_the_subject() {
    for subject in [5, 6, 8] {
        asks(&[], &at_work(), claim(subject, 0, 0), Taken);
    }
    asks(&[], &at_work(), claim(7, 0, 1), NoRole);
    asks(&[], &at_work(), claim(8, 0, 1), Granted);
    for make in [release, done] {
        asks(&[], &at_work(), make(5, 0, 0), Granted);
        asks(&[], &at_work(), make(5, 0, 1), NotYours);
        asks(&[], &at_work(), make(6, 0, 0), NotYours);
        asks(&[], &at_work(), make(8, 0, 0), NotYours);
        let finished = [at_work(), vec![done(5, 0, 0)]].concat();
        asks(&[], &finished, make(5, 0, 0), NotYours);
    }
    asks(&[], &at_work(), task_check(5, 0, 0, 41, 50), Granted);
    asks(&[], &at_work(), task_check(5, 0, 1, 41, 50), NotYours);
    asks(&[], &at_work(), task_check(8, 0, 0, 41, 50), NotYours);
    asks(&[], &at_work(), task_check(5, 0, 0, 40, 50), Denied);
    asks(&[], &at_work(), task_check(5, 0, 0, 50, 41), Denied);
    asks(&[], &at_work(), task_check(5, 0, 0, 9, 9), Denied);
}

#[test]
fn access_checks() {
    let live = [create(5, 300, &[0]), create(6, 300, &[1])];
    asks(&[], &live, check(9, 40, 50), Unknown);
    asks(&[], &live, check(5, 40, 50), Granted);
    asks(&[], &live, check(6, 40, 50), Denied);
    asks(&[], &live, check(5, 41, 50), Denied);
    asks(&[], &live, check(5, 50, 40), Denied);
    asks(&[], &live, check(5, 9, 9), Denied);
    let taken = [&live[..], &[take_permission(0, 7)]].concat();
    asks(&[], &taken, check(5, 40, 50), Denied);
    let given = [&live[..], &[give(1, 8)]].concat();
    asks(&[], &given, check(6, 41, 50), Granted);
    let resting = [&live[..], &[deactivate(5, 0)]].concat();
    asks(&[], &resting, check(5, 40, 50), Denied);
}

/// Checks the reply to a claim in order 0 with tasks 0 to 3, after these claims of subject 5 (user 300) and 6 (user 301).
fn claims(rules: &[Bytes], made: &[Bytes], last: Bytes, expected: Reply) {
    let live = vec![create(5, 300, &[0]), create(6, 301, &[0]), open(0, 0)];
    asks(rules, &[live, made.to_vec()].concat(), last, expected);
}

#[test]
fn before_asks_for_a_done_entry_of_anyone() {
    let rules = [before(0, 2), before(1, 2)];
    let first = [claim(5, 0, 0), done(5, 0, 0)];
    let both = [&first[..], &[claim(6, 0, 1), done(6, 0, 1)]].concat();
    claims(&rules, &[], claim(5, 0, 2), Before);
    claims(&rules, &first, claim(5, 0, 2), Before);
    claims(&rules, &both, claim(5, 0, 2), Granted);
    let again = [&both[..], &[claim(5, 0, 0)]].concat();
    claims(&rules, &again, claim(5, 0, 2), Granted);
    claims(&rules, &[], claim(5, 0, 3), Granted);
}

#[test]
fn separation_counts_the_users_other_tasks_of_the_set() {
    let rules = [task_set(2, &[0, 1, 2])];
    let two = [claim(5, 0, 0), claim(5, 0, 1)];
    claims(&rules, &two, claim(5, 0, 2), Separation);
    claims(&rules, &two, claim(6, 0, 2), Granted);
    claims(&rules, &two, claim(5, 0, 3), Granted);
    let released = [&two[..], &[release(5, 0, 1)]].concat();
    claims(&rules, &released, claim(5, 0, 2), Granted);
    let later = [task_set(3, &[0, 1, 2, 3]), task_set(1, &[1, 3])];
    claims(&later, &[claim(5, 0, 1)], claim(5, 0, 3), Separation);
}

#[test]
fn block_looks_at_the_other_blocks_of_the_tasks_partitionings() {
    let rules = [block(2, &[0, 1]), block(2, &[2])];
    claims(&rules, &[claim(5, 0, 0)], claim(5, 0, 1), Granted);
    claims(&rules, &[claim(5, 0, 0)], claim(5, 0, 2), Block);
    claims(&rules, &[claim(5, 0, 2)], claim(5, 0, 1), Block);
    claims(&rules, &[claim(6, 0, 0)], claim(5, 0, 2), Granted);
    claims(&rules, &[claim(5, 0, 0)], claim(5, 0, 3), Granted);
    claims(&rules, &[claim(5, 0, 3)], claim(5, 0, 2), Granted);
    let second = [
        block(2, &[0]),
        block(9, &[0]),
        block(9, &[3]),
        block(9, &[1]),
    ];
    claims(&second, &[claim(5, 0, 3)], claim(5, 0, 1), Block);
    claims(&second, &[claim(5, 0, 3)], claim(5, 0, 0), Block);
}

#[test]
fn alone_asks_for_every_other_task_of_a_banned_template() {
    let three = [claim(5, 0, 0), claim(5, 0, 1), claim(5, 0, 2)];
    claims(&[ban(0)], &three, claim(5, 0, 3), Alone);
    claims(&[ban(0)], &three[..2], claim(5, 0, 3), Granted);
    claims(&[ban(0)], &three, claim(6, 0, 3), Granted);
    claims(&[ban(1)], &three, claim(5, 0, 3), Granted);
}

#[test]
fn bound_asks_for_another_user_on_the_other_side() {
    let rules = [bound(0, 1), bound(2, 0)];
    claims(&rules, &[claim(6, 0, 1)], claim(5, 0, 0), Bound);
    claims(&rules, &[claim(6, 0, 2)], claim(5, 0, 0), Bound);
    claims(&rules, &[claim(6, 0, 0)], claim(5, 0, 2), Bound);
    claims(&rules, &[claim(6, 0, 1)], claim(5, 0, 2), Granted);
    claims(&rules, &[claim(5, 0, 1)], claim(5, 0, 0), Granted);
    let of_both = [claim(5, 0, 1), done(5, 0, 1), claim(6, 0, 1)];
    claims(&rules, &of_both, claim(5, 0, 0), Bound);
    let of_itself = [claim(6, 0, 0), done(6, 0, 0)];
    claims(&rules, &of_itself, claim(5, 0, 0), Granted);
}

#[test]
fn count_asks_for_entries_of_anyone() {
    let once = [claim(6, 0, 0), done(6, 0, 0)];
    claims(&[at_most(0, 1)], &once, claim(5, 0, 0), Count);
    claims(&[at_most(0, 1)], &once, claim(6, 0, 0), Count);
    claims(&[at_most(0, 2)], &once, claim(5, 0, 0), Granted);
    claims(&[at_most(1, 1)], &once, claim(5, 0, 0), Granted);
    let released = [claim(6, 0, 0), release(6, 0, 0)];
    claims(&[at_most(0, 1)], &released, claim(5, 0, 0), Granted);
}
