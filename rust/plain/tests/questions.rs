//! Questions by their figures: what is answered, what is refused, and that the answer is written only if the question is granted.

mod common;
use common::*;
use plain::Reply::*;
use plain::{Engine, OrderLists, ANSWER};

/// Two clerks with subjects 5 and 6, tasks 0 to 3 open to them, and orders 0 and 1.
fn desk() -> Both {
    let mut policy = vec![user(300), user(301), role(0)];
    policy.extend([has_role(300, 0), has_role(301, 0)]);
    policy.extend((0..4).map(|t| task(t, 0)));
    policy.extend((0..4).map(|t| open_to(t, 0)));
    let opening = [create(5, 300, &[0]), create(6, 301, &[0])];
    let orders = [open(0, 0), open(1, 0)];
    ready(&policy, &[opening, orders].concat())
}

/// The number of entries and the done tasks; all other words are 0.
fn figures(both: &mut Both, instance: u16) -> (u64, u64) {
    let (reply, answer) = both.question(&entries_of(instance), 99);
    assert_eq!(reply, Granted);
    assert_eq!(answer[2..], [0; ANSWER - 2]);
    (answer[0], answer[1])
}

#[test]
fn held_and_done_entries_count_and_done_ones_are_told() {
    let mut both = desk();
    let steps = [
        (claim(5, 0, 0), (1, 0)),
        (claim(6, 0, 3), (2, 0)),
        (done(5, 0, 0), (2, set(&[0]))),
        (claim(5, 0, 0), (3, set(&[0]))), // once more: now held and done before
        (release(5, 0, 0), (2, set(&[0]))),
        (done(6, 0, 3), (2, set(&[0, 3]))),
        (claim(6, 0, 0), (3, set(&[0, 3]))),
        (done(6, 0, 0), (3, set(&[0, 3]))), // one entry more, but no further done task
    ];
    for (request, told) in steps {
        assert_eq!(both.request(&request), Granted);
        assert_eq!(figures(&mut both, 0), told, "{request:?}");
        assert_eq!(figures(&mut both, 1), (0, 0));
    }
    assert_eq!(both.request(&end(0)), Granted);
    assert_eq!(both.question(&entries_of(0), 7), (Unknown, [7; ANSWER]));
    assert_eq!(both.request(&open(0, 0)), Granted);
    assert_eq!(figures(&mut both, 0), (0, 0));
}

#[test]
fn a_refused_question_writes_nothing() {
    let mut both = desk();
    let cut = entries_of(0)[..15].to_vec();
    let refused = [
        (entries_of(2), Unknown),
        (entries_of(64), Range),
        (record(58, 0, 0, 1, 0, 0), Shape),
        (record(58, 0, 64, 0, 0, 1), Shape),
        (cut, Shape),
        (Vec::new(), Shape),
        // Kinds that are not questions, whatever else is wrong with the record.
        (end(0), Shape),
        (end(64), Shape),
        (user(1), Shape),
        (check(5, 0, 0), Shape),
    ];
    for (record, reply) in refused {
        assert_eq!(both.question(&record, 7), (reply, [7; ANSWER]));
    }
}

#[test]
fn an_answer_of_another_length_is_room_before_all_else() {
    let engine = Engine::<OrderLists>::new();
    for length in [0, 1, 2, 65, 67] {
        for record in [entries_of(0), stuck_tasks(16), end(0), Vec::new()] {
            let mut answer = vec![7; length];
            assert_eq!(engine.question(&record, &mut answer), Room);
            assert_eq!(answer, vec![7; length]);
        }
    }
}

#[test]
fn a_question_is_a_request_too() {
    let mut both = desk();
    assert_eq!(both.answer(&entries_of(1)), (Granted, 0));
    assert_eq!(both.answer(&entries_of(2)), (Unknown, 0));
    assert_eq!(both.answer(&entries_of(64)), (Range, 0));
    assert_eq!(both.answer(&stuck_tasks(0)), (Granted, 0));
    assert_eq!(both.answer(&stuck_tasks(1)), (Unknown, 0));
    assert_eq!(both.answer(&stuck_tasks(16)), (Range, 0));
}

/// The stuck tasks and the free ones of template 0 with these prerequisites; all other words are 0.
fn stuck(prerequisites: &[(u16, u16)]) -> (u64, Vec<u64>) {
    let mut policy: Vec<Bytes> = (0..8).map(|t| task(t, 0)).collect();
    policy.extend([task(62, 9), task(63, 9), before(62, 63), before(63, 62)]);
    policy.extend(prerequisites.iter().map(|&(a, b)| before(a, b)));
    let (reply, answer) = ready(&policy, &[]).question(&stuck_tasks(0), 99);
    let free = 2 + answer[1] as usize;
    assert_eq!((reply, &answer[free..]), (Granted, &[0; ANSWER][free..]));
    (answer[0], answer[2..free].to_vec())
}

#[test]
fn tasks_of_a_circle_and_those_behind_it_are_stuck() {
    assert_eq!(stuck(&[]), (0, (0..8).collect()));
    let circle = [(4, 5), (5, 6), (6, 4)];
    assert_eq!(stuck(&circle), (set(&[4, 5, 6]), vec![0, 1, 2, 3, 7]));
    let behind = [&circle[..], &[(6, 0), (0, 1), (2, 4)]].concat();
    let of_both = set(&[0, 1, 4, 5, 6]);
    assert_eq!(stuck(&behind), (of_both, vec![2, 3, 7]));
    let all: Vec<(u16, u16)> = (0..8).map(|t| (t, (t + 1) % 8)).collect();
    assert_eq!(stuck(&all), (0xff, vec![]));
}

#[test]
fn free_tasks_stand_as_low_as_they_may() {
    let down: Vec<(u16, u16)> = (0..7).map(|t| (t + 1, t)).collect();
    assert_eq!(stuck(&down), (0, (0..8).rev().collect()));
    let late = [(7, 0), (3, 1)];
    assert_eq!(stuck(&late), (0, vec![2, 3, 1, 4, 5, 6, 7, 0]));
}

#[test]
fn a_template_may_have_as_many_tasks_as_there_are() {
    let mut policy: Vec<Bytes> = (0..64).map(|t| task(t, 3)).collect();
    policy.extend((0..63).map(|t| before(t + 1, t)));
    let mut both = ready(&policy, &[]);
    let (reply, answer) = both.question(&stuck_tasks(3), 99);
    let expected: Vec<u64> = [0, 64].into_iter().chain((0..64).rev()).collect();
    assert_eq!((reply, &answer[..]), (Granted, &expected[..]));
    assert_eq!(both.question(&stuck_tasks(4), 7), (Unknown, [7; ANSWER]));
    assert_eq!(both.question(&stuck_tasks(16), 7), (Range, [7; ANSWER]));
    let unused = record(60, 0, 16, 0, 0, 1);
    assert_eq!(both.question(&unused, 7), (Shape, [7; ANSWER]));
}
