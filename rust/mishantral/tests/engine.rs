//! The linked library through the safe engine: the listing of docs/RULES.md, ROOM, and refusals as values.
#![cfg(mishantral_engine)]

use mishantral::{Engine, Record, Refused, Reply, Set, State, ANSWER};

fn listing_policy() -> Vec<Record> {
    vec![
        Record::user(300),
        Record::user(301),
        Record::role(0),
        Record::user_has_role(300, 0),
        Record::user_has_role(301, 0),
        Record::task(0, 0),
        Record::task(1, 0),
        Record::task_open_to(0, 0),
        Record::task_open_to(1, 0),
        Record::task_set(1, Set::of(&[0, 1])),
        Record::before(0, 1),
    ]
}

#[test]
fn the_listing() {
    let mut engine = Engine::new();
    engine.load_records(&listing_policy()).unwrap();
    let asked = [
        (Record::create_subject(5, 300, Set::of(&[0])), (0, 0)),
        (Record::create_subject(6, 301, Set::of(&[0])), (0, 0)),
        (Record::open_order(0, 0), (0, 0)),
        (Record::claim(5, 0, 1), (14, 1)),
        (Record::claim(5, 0, 0), (0, 0)),
        (Record::claim(6, 0, 1), (14, 1)),
        (Record::done(5, 0, 0), (0, 0)),
        (Record::claim(5, 0, 1), (15, 1)),
        (Record::claim(6, 0, 1), (0, 0)),
        (Record::end_order(0), (6, 0)),
        (Record::done(6, 0, 1), (0, 0)),
        (Record::end_order(0), (0, 0)),
        (Record::end_order(0), (4, 0)),
    ];
    for (at, (record, told)) in asked.into_iter().enumerate() {
        let answer = engine.request(&record);
        let numbers = (answer.reply.number(), answer.place);
        assert_eq!(numbers, told, "request {}", at + 1);
    }
}

#[test]
fn a_refused_load_is_a_value_and_leaves_the_engine_empty() {
    let mut engine = Engine::new();
    let mut policy = listing_policy();
    policy.push(Record::user(300));
    let refused = Refused {
        reply: Reply::Taken,
        place: 12,
    };
    assert_eq!(engine.load_records(&policy), Err(refused));
    assert_eq!(engine, Engine::new());
    assert_eq!(engine.request(&Record::add_user(300)), Reply::Granted);
}

#[test]
fn a_refused_request_changes_no_word() {
    let mut engine = Engine::new();
    engine.load_records(&listing_policy()).unwrap();
    let before = engine.clone();
    assert_eq!(engine.request(&Record::add_user(300)), Reply::Taken);
    assert_eq!(engine.request(&[1, 2, 3]), Reply::Shape);
    assert_eq!(engine.request(&Vec::new()), Reply::Shape);
    assert_eq!(engine, before);
}

#[test]
fn other_lengths_are_room_and_nothing_is_written() {
    let right = State::zeroed();
    for group in 0..3 {
        for longer in [false, true] {
            let mut state = right.clone();
            let buffers = [&mut state.policy, &mut state.sessions, &mut state.orders];
            let buffer = buffers.into_iter().nth(group).unwrap();
            let words = if longer {
                buffer.len() + 1
            } else {
                buffer.len() - 1
            };
            *buffer = vec![0x5555_5555_5555_5555; words].into();
            let mut engine = Engine::from_state(state.clone());
            let room = Refused {
                reply: Reply::Room,
                place: 0,
            };
            assert_eq!(engine.load(&[1, 2, 3]), Err(room));
            assert_eq!(engine.request(&Record::add_user(300)), Reply::Room);
            assert_eq!(engine.request(&[0; 3]), Reply::Room);
            assert_eq!(engine.into_state(), state);
        }
    }
}

#[test]
fn a_state_goes_on_where_it_was_kept() {
    let mut engine = Engine::new();
    engine.load_records(&listing_policy()).unwrap();
    let mut again = Engine::from_state(engine.state().clone());
    assert_eq!(again.request(&Record::add_user(301)), Reply::Taken);
}

#[test]
fn a_lead_counts_as_a_clerk() {
    let mut engine = Engine::new();
    let (clerk, lead, signer) = (0, 1, 2);
    let mut policy = vec![Record::user(300), Record::user(301)];
    policy.extend([clerk, lead, signer].map(Record::role));
    policy.extend([
        Record::user_has_role(300, lead),
        Record::task(0, 0),
        Record::task_open_to(0, clerk),
        Record::static_set(1, Set::of(&[0, 2])),
        Record::role_above(lead, clerk),
    ]);
    engine.load_records(&policy).unwrap();
    let asked = [
        (
            Record::create_subject(5, 300, Set::of(&[1])),
            Reply::Granted,
        ),
        (Record::open_order(0, 0), Reply::Granted),
        (Record::claim(5, 0, 0), Reply::Granted),
        (Record::activate_role(5, clerk), Reply::Granted),
        (Record::assign_role(300, signer), Reply::Static),
        (Record::take_role(300, lead), Reply::InUse),
        (Record::take_role(300, clerk), Reply::Unknown),
    ];
    for (record, reply) in asked {
        assert_eq!(engine.request(&record), reply, "{record}");
    }
    policy.push(Record::role_above(clerk, lead));
    let refused = engine.load_records(&policy).unwrap_err();
    assert_eq!(refused.to_string(), "23 LOOP at record 11");
}

#[test]
fn a_question_is_answered_with_figures() {
    let mut engine = Engine::new();
    engine.load_records(&listing_policy()).unwrap();
    let mut told = |record: Record| {
        assert!(engine.request(&record).is_granted(), "{record}");
        engine.figures(0).map(|f| (f.entries, f.done))
    };
    let subject = |subject, user| Record::create_subject(subject, user, Set::of(&[0]));
    assert_eq!(told(subject(5, 300)), Err(Reply::Unknown));
    assert_eq!(told(subject(6, 301)), Err(Reply::Unknown));
    assert_eq!(told(Record::open_order(0, 0)), Ok((0, Set::EMPTY)));
    assert_eq!(told(Record::claim(5, 0, 0)), Ok((1, Set::EMPTY)));
    assert_eq!(told(Record::done(5, 0, 0)), Ok((1, Set::of(&[0]))));
    assert_eq!(told(Record::claim(6, 0, 1)), Ok((2, Set::of(&[0]))));
    assert_eq!(told(Record::entries_of(0)), Ok((2, Set::of(&[0]))));
    assert_eq!(told(Record::done(6, 0, 1)), Ok((2, Set::of(&[0, 1]))));
    assert_eq!(told(Record::end_order(0)), Err(Reply::Unknown));
    assert_eq!(engine.figures(64), Err(Reply::Range));
}

#[test]
fn a_question_with_a_buffer_of_another_length_is_room_and_nothing_is_written() {
    let right = State::zeroed();
    for group in 0..4 {
        let (mut state, mut answer) = (right.clone(), vec![7; ANSWER]);
        let buffers = [&mut state.policy, &mut state.sessions, &mut state.orders];
        match buffers.into_iter().nth(group) {
            Some(buffer) => *buffer = vec![7; buffer.len() - 1].into(),
            None => answer.push(7),
        }
        let (before, words) = (state.clone(), answer.len());
        for record in [
            Record::entries_of(0),
            Record::stuck_tasks(16),
            Record::end_order(0),
        ] {
            assert_eq!(state.question(&record, &mut answer), Reply::Room);
        }
        assert_eq!((state, answer), (before, vec![7; words]));
    }
}

#[cfg(mishantral_pile)]
#[test]
fn a_pile_with_a_buffer_of_another_length_is_room_and_nothing_is_written() {
    let right = State::zeroed();
    for group in 0..3 {
        let mut state = right.clone();
        let buffers = [&mut state.policy, &mut state.sessions, &mut state.orders];
        let buffer = buffers.into_iter().nth(group).unwrap();
        *buffer = vec![7; buffer.len() + 1].into();
        let mut engine = Engine::from_state(state.clone());
        let mut answers = [9; 2];
        let pile = [Record::add_user(300); 2];
        assert_eq!(engine.pile(&pile, &mut answers, 0), Reply::Room);
        assert_eq!(engine.pile_bytes(&[0; 3], &mut answers, 0), Reply::Room);
        assert_eq!(answers, [9; 2]);
        assert_eq!(engine.requests(&pile), [Reply::Room; 2]);
        assert_eq!(engine.into_state(), state);
    }
}

#[cfg(mishantral_pile)]
#[test]
fn more_records_than_a_pile_takes_are_made_in_piles() {
    let records: Vec<Record> = (0..9000).map(|k| Record::add_user(k % 1024)).collect();
    let mut engine = Engine::new();
    let replies = engine.requests(&records);
    let mut one_by_one = Engine::new();
    for (record, reply) in records.iter().zip(replies) {
        assert_eq!(one_by_one.request(record), reply);
    }
    assert_eq!(engine, one_by_one);
}
