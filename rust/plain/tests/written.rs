//! Ask 8 of document 02, the policy written out, and Ask 12, a damaged file mended.

mod common;
use common::*;
use plain::Reply::*;
use plain::{Engine, OrderLists};

/// One record of everything that a policy can have, in the order in which it is written.
fn in_order() -> Vec<Bytes> {
    vec![
        user(44),
        user(300),
        role(0),
        role(1),
        role(63),
        permission(7, 65535, 2),
        has_role(44, 0),
        has_role(300, 0),
        has_role(300, 63),
        has_permission(0, 7),
        has_permission(1, 7),
        task(0, 3),
        task(1, 3),
        open_to(0, 0),
        open_to(0, 1),
        carries(1, 7),
        static_set(1, &[0, 1]),
        dynamic_set(1, &[0, 63]),
        dynamic_set(1, &[0, 1]),
        task_set(1, &[0, 1]),
        block(9, &[1]),
        block(2, &[0]),
        ban(3),
        at_most(1, 255),
        bound(1, 0),
        before(1, 0),
        before(0, 1),
        above(1, 0),
        above(63, 0),
        above(63, 1),
    ]
}

fn loaded(policy: &[Bytes]) -> Engine<OrderLists> {
    let mut engine = Engine::new();
    assert_eq!(engine.load(&policy.concat()), (Granted, 0));
    engine
}

/// The policy without its static set: some user has a role above two members of that set, so a load would refuse it.
fn policy() -> Vec<Bytes> {
    let mut all = in_order();
    all.retain(|r| r[0] != 9);
    all
}

#[test]
fn kinds_rise_and_rules_keep_their_order() {
    let mut shuffled = policy();
    let rank = |r: &Bytes| {
        [2, 6, 1, 3, 17, 16, 12, 10, 15, 14, 13, 11, 8, 7, 5, 4]
            .iter()
            .position(|k| *k == r[0])
    };
    shuffled.sort_by_key(rank);
    // The kinds that are written in sorted order are loaded in reverse.
    let sorted = |r: &Bytes| matches!(r[0], 1..=8 | 13 | 14 | 17);
    let (mut others, rules): (Vec<Bytes>, Vec<Bytes>) = shuffled.into_iter().partition(sorted);
    others.reverse();
    others.sort_by_key(rank);
    let mut all = others;
    all.extend(rules);
    assert_eq!(loaded(&all).written(), policy().concat());
    let with_static: Vec<Bytes> = in_order().into_iter().filter(|r| r[0] != 17).collect();
    assert_eq!(loaded(&with_static).written(), with_static.concat());
}

#[test]
fn requests_are_written_and_sessions_and_orders_are_not() {
    let mut engine = loaded(&[
        role(0),
        role(1),
        user(5),
        permission(3, 1, 2),
        task(0, 0),
        open_to(0, 0),
    ]);
    let steps = [
        add_user(1023),
        assign(1023, 1),
        assign(5, 0),
        assign(5, 1),
        take_role(5, 1),
        give(1, 3),
        give(0, 3),
        take_permission(1, 3),
        create(9, 5, &[0]),
        open(0, 0),
        claim(9, 0, 0),
        add_user(6),
        delete_user(6),
    ];
    for step in &steps {
        assert_eq!(engine.request(step).0, Granted, "{step:?}");
    }
    let written = [
        user(5),
        user(1023),
        role(0),
        role(1),
        permission(3, 1, 2),
        has_role(5, 0),
        has_role(1023, 1),
        has_permission(0, 3),
        task(0, 0),
        open_to(0, 0),
    ];
    assert_eq!(engine.written(), written.concat());
    let again = loaded(&written);
    assert_eq!(again.written(), written.concat());
    assert!(again.entries().is_empty());
}

#[test]
fn a_short_output_is_room_and_nothing_is_written() {
    let engine = loaded(&in_order()[..5]);
    let mut output = [7; 100];
    assert_eq!(engine.write(&mut output[..79]), (Room, 0));
    assert_eq!(output, [7; 100]);
    assert_eq!(engine.write(&mut output[..80]), (Granted, 5));
    assert_eq!(output[..80], in_order()[..5].concat());
    assert_eq!(output[80..], [7; 20]);
    assert_eq!(Engine::<OrderLists>::new().write(&mut []), (Granted, 0));
}

#[test]
fn what_a_load_would_accept_is_kept_and_the_rest_reported() {
    let file = [
        user(300),
        has_role(300, 0), // 2: UNKNOWN, the role comes later
        role(0),
        user(300),                 // 4: TAKEN
        user(1024),                // 5: RANGE
        record(99, 0, 0, 0, 0, 0), // 6: SHAPE
        has_role(300, 0),
        static_set(1, &[0]), // 8: RULE
        role(1),
        role(2),
        above(1, 0),
        above(0, 1), // 12: LOOP
        static_set(1, &[0, 2]),
        has_role(300, 2), // 14: STATIC
        add_user(7),      // SHAPE, not a policy kind
    ];
    let mut bytes = file.concat();
    bytes.extend([1, 0, 7]);
    let mut engine = loaded(&[user(9)]);
    assert_eq!(engine.request(&add_user(10)).0, Granted);
    let (mut output, mut report) = (vec![9; bytes.len() + 3], vec![(8, 8); 18]);
    assert_eq!(engine.mend(&bytes, &mut output, &mut report), (Granted, 7));
    let dropped = [
        (2, 4),
        (4, 5),
        (5, 3),
        (6, 2),
        (8, 7),
        (12, 23),
        (14, 9),
        (15, 2),
        (16, 2),
    ];
    assert_eq!(report[..9], dropped);
    assert_eq!(report[9..], [(8, 8); 9]);
    let kept = [1, 3, 7, 9, 10, 11, 13].map(|place| file[place - 1].clone());
    assert_eq!(output[..112], kept.concat());
    assert_eq!(output[112..], vec![9; bytes.len() + 3 - 112]);
    assert_eq!(engine, loaded(&kept));
}

#[test]
fn a_file_that_loads_comes_out_the_same() {
    let file = policy().concat();
    let (mut output, mut report) = (vec![0; file.len()], vec![(1, 1); file.len() / 16 + 1]);
    let mut engine = Engine::<OrderLists>::new();
    let kept = engine.mend(&file, &mut output, &mut report);
    assert_eq!(kept, (Granted, file.len() / 16));
    assert_eq!(output, file);
    assert_eq!(report, vec![(1, 1); file.len() / 16 + 1]);
}

#[test]
fn no_room_and_nothing_is_written() {
    for (length, output, report) in [
        (33, 32, 3),
        (33, 33, 2),
        (32, 32, 2),
        (0, 0, 0),
        (15, 15, 0),
    ] {
        let file = &[user(1), user(2), user(3)].concat()[..length];
        let before = loaded(&[user(300)]);
        let mut engine = before.clone();
        let (mut out, mut entries) = (vec![5; output], vec![(6, 6); report]);
        assert_eq!(engine.mend(file, &mut out, &mut entries), (Room, 0));
        assert_eq!((out, entries), (vec![5; output], vec![(6, 6); report]));
        assert_eq!(engine, before);
    }
    let mut engine = loaded(&[user(300)]);
    assert_eq!(engine.mend(&[], &mut [], &mut [(0, 0)]), (Granted, 0));
    assert_eq!(engine, Engine::new());
}
