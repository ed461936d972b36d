//! The settled request and the pile on buffers of any content: they answer from the published table, stay within the buffers, and
//! a refusal changes no word. This is proved; here the compiled library is tested against it, with guard words around the
//! buffers.

use crate::library::{
    mishantral_load, mishantral_pile, mishantral_settled_request, mishantral_words,
};
use crate::{Record, Reply, Set};
use random::Random;
use std::vec;
use std::vec::Vec;

/// The number of guard words before and after each buffer, and their value.
const AROUND: usize = 64;
const GUARD: u64 = 0xa5a5_5a5a_c3c3_3c3c;

/// Three buffers of the fixed lengths between guards.
#[derive(Clone, PartialEq)]
struct Guarded([Vec<u64>; 3]);

impl Guarded {
    fn of(mut word: impl FnMut() -> u64) -> Guarded {
        Guarded([0, 1, 2].map(|group| {
            let length = mishantral_words(group) as usize;
            let mut buffer = vec![GUARD; length + 2 * AROUND];
            buffer[AROUND..AROUND + length].fill_with(&mut word);
            buffer
        }))
    }

    /// The buffers; the one with this number is one word shorter.
    fn lent(&mut self, short: Option<usize>) -> [&mut [u64]; 3] {
        let mut number = 0;
        self.0.each_mut().map(|buffer| {
            let end = buffer.len() - AROUND - usize::from(short == Some(number));
            number += 1;
            &mut buffer[AROUND..end]
        })
    }

    fn settled_request(&mut self, record: &[u8]) -> (u64, u64) {
        let [policy, sessions, orders] = self.lent(None);
        let number = mishantral_settled_request(record, policy, sessions, orders);
        (number % 256, number / 256)
    }

    fn guards_stay(&self) -> bool {
        let mut around = self.0.iter().flat_map(|buffer| {
            let (before, rest) = buffer.split_at(AROUND);
            before.iter().chain(&rest[rest.len() - AROUND..])
        });
        around.all(|&word| word == GUARD)
    }
}

/// A desk in use: two clerks, three tasks with rules, and some orders with entries.
fn desk(random: &mut Random) -> Guarded {
    let mut policy: Vec<Record> = vec![Record::role(0)];
    for user in [300, 301] {
        policy.extend([Record::user(user), Record::user_has_role(user, 0)]);
    }
    for task in 0..3 {
        policy.extend([Record::task(task, 0), Record::task_open_to(task, 0)]);
    }
    policy.extend([
        Record::task_set(1, Set::of(&[0, 1])),
        Record::at_most(2, 200),
    ]);
    let bytes: Vec<u8> = policy.iter().flat_map(|record| record.0).collect();
    let mut desk = Guarded::of(|| 0);
    let [policy, sessions, orders] = desk.lent(None);
    assert_eq!(mishantral_load(&bytes, policy, sessions, orders), 0);
    for (subject, user) in [(5, 300), (6, 301)] {
        let created = desk.settled_request(&Record::create_subject(subject, user, Set::of(&[0])).0);
        assert_eq!(created, (0, 0));
    }
    for _ in 0..200 {
        desk.settled_request(&asked(random).0);
    }
    desk
}

/// A random request, mostly with numbers that the desk knows.
fn asked(random: &mut Random) -> Record {
    let (subject, order) = (5 + random.below(2) as u16, random.below(4) as u16);
    let task = random.below(3) as u16;
    match random.below(12) {
        0 => Record::open_order(order, 0),
        1 => Record::end_order(order),
        2..=5 => Record::claim(subject, order, task),
        6 | 7 => Record::release(subject, order, task),
        8 | 9 => Record::done(subject, order, task),
        10 => Record::delete_user(300),
        _ => Record(random.bytes()),
    }
}

/// The desk with some words of its orders buffer overwritten, so that links lead anywhere; sometimes random words only.
fn content(random: &mut Random, desk: &Guarded) -> Guarded {
    if random.chance(1, 4) {
        return Guarded::of(|| random.word());
    }
    let mut damaged = desk.clone();
    let [_, _, orders] = damaged.lent(None);
    for _ in 0..1 + random.below(40) {
        let (anywhere, figures, any) =
            (random.below(orders.len()), random.below(300), random.word());
        orders[random.pick(&[anywhere, figures])] = random.pick(&[any, any % 4096, u64::MAX, 0]);
    }
    damaged
}

#[test]
fn a_settled_request_answers_any_content() {
    let mut random = Random::new(9);
    let desk = desk(&mut random);
    for _ in 0..3_000 {
        let mut state = content(&mut random, &desk);
        for _ in 0..10 {
            let (before, record) = (state.clone(), asked(&mut random));
            let (reply, place) = state.settled_request(&record.0);
            assert!(Reply::from_number(reply).is_some(), "{reply} to {record}");
            assert!(place <= 64, "{place} at {record}");
            assert!(state.guards_stay(), "{record}");
            assert!(
                reply == 0 || state == before,
                "{reply} to {record} changed a word"
            );
        }
    }
}

#[test]
fn a_buffer_of_another_length_is_room() {
    let mut random = Random::new(11);
    let desk = desk(&mut random);
    for short in 0..3 {
        let mut state = desk.clone();
        let [policy, sessions, orders] = state.lent(Some(short));
        let number = mishantral_settled_request(&asked(&mut random).0, policy, sessions, orders);
        assert_eq!(number, u64::from(Reply::Room.number()));
        assert!(state == desk);
    }
}

#[test]
fn a_pile_of_refused_requests_changes_no_word() {
    let mut random = Random::new(10);
    let desk = desk(&mut random);
    let (mut refused, mut granted) = (0, 0);
    for _ in 0..2_000 {
        let mut state = content(&mut random, &desk);
        let before = state.clone();
        let pile: Vec<u8> = (0..random.below(8))
            .flat_map(|_| asked(&mut random).0)
            .collect();
        let mut answers = vec![0xff; pile.len() / 16];
        let [policy, sessions, orders] = state.lent(None);
        assert_eq!(
            mishantral_pile(&pile, &mut answers, 0, policy, sessions, orders),
            0
        );
        assert!(state.guards_stay());
        match answers.iter().all(|&answer| answer != 0) {
            true => {
                refused += 1;
                assert!(state == before, "refused requests changed a word");
            }
            false => granted += 1,
        }
    }
    assert!(
        refused > 100 && granted > 100,
        "{refused} and {granted} are few"
    );
}
