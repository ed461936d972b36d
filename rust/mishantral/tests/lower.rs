//! The lower part through its wrapper: a check by active roles, ROOM, and the kinds that it does not answer.
#![cfg(mishantral_lower)]

use mishantral::lower::{Engine, State};
use mishantral::{Record, Refused, Reply, Set};

/// A clerk with a role that may do operation 1 on object 7.
fn clerk() -> Engine {
    let mut engine = Engine::new();
    let policy = [
        Record::user(300),
        Record::role(0),
        Record::permission(0, 1, 7),
        Record::user_has_role(300, 0),
        Record::role_has_permission(0, 0),
    ];
    engine.load_records(&policy).unwrap();
    engine
}

#[test]
fn a_clerk_opens_the_price_book() {
    let mut engine = clerk();
    let check = Record::check(5, 1, 7);
    assert_eq!(engine.request(&check), Reply::Unknown);
    let create = Record::create_subject(5, 300, Set::of(&[0]));
    assert_eq!(engine.request(&create), Reply::Granted);
    assert_eq!(engine.request(&check), Reply::Granted);
    assert_eq!(engine.request(&Record::check(5, 1, 8)), Reply::Denied);
}

#[test]
fn orders_are_not_of_the_lower_part() {
    let mut engine = clerk();
    let before = engine.clone();
    for record in [
        Record::open_order(0, 0),
        Record::end_order(0),
        Record::claim(5, 0, 0),
        Record::release(5, 0, 0),
        Record::done(5, 0, 0),
        Record::task_check(5, 0, 0, 1, 7),
    ] {
        assert_eq!(engine.request(&record), Reply::Shape, "{record}");
    }
    assert_eq!(engine, before);
}

#[test]
fn a_refused_load_leaves_the_engine_empty() {
    let mut engine = clerk();
    let twice = [Record::user(3), Record::user(3)];
    let refused = Refused {
        reply: Reply::Taken,
        place: 2,
    };
    assert_eq!(engine.load_records(&twice), Err(refused));
    assert_eq!(engine, Engine::new());
}

#[test]
fn other_lengths_are_room_and_nothing_is_written() {
    let right = State::zeroed();
    for (policy, sessions) in [(1, 0), (0, 1)] {
        let mut state = right.clone();
        state.policy = vec![7; right.policy.len() + policy].into();
        state.sessions = vec![7; right.sessions.len() + sessions].into();
        let mut engine = Engine::from_state(state.clone());
        assert_eq!(engine.load(&[]).unwrap_err().reply, Reply::Room);
        assert_eq!(engine.request(&Record::add_user(300)), Reply::Room);
        assert_eq!(engine.into_state(), state);
    }
}

#[cfg(mishantral_lower_write)]
#[test]
fn the_policy_is_written_as_it_is_now() {
    let mut engine = clerk();
    let create = Record::create_subject(5, 300, Set::of(&[0]));
    for step in [create, Record::add_user(7), Record::assign_role(7, 0)] {
        assert_eq!(engine.request(&step), Reply::Granted);
    }
    let written = engine.write_policy().unwrap();
    let expected = [
        Record::user(7),
        Record::user(300),
        Record::role(0),
        Record::permission(0, 1, 7),
        Record::user_has_role(7, 0),
        Record::user_has_role(300, 0),
        Record::role_has_permission(0, 0),
    ];
    assert_eq!(written, expected.map(|record| record.0).concat());
    let mut output = vec![9; written.len() - 1];
    assert_eq!(engine.write_into(&mut output), Err(Reply::Room));
    assert!(output.iter().all(|byte| *byte == 9));
    let mut state = engine.into_state();
    state.sessions = state.sessions[1..].into();
    let odd = Engine::from_state(state);
    assert_eq!(odd.write_policy(), Err(Reply::Room));
}
