//! An order's entries, read through the links of the buffer from the oldest on, are its granted claims without the released ones,
//! in the same order: after random requests, and after the same requests in piles. docs/STATE.md defines the words of the buffer.
#![cfg(mishantral_engine)]

use mishantral::{Engine, Record, Reply, Set, State};
use random::Random;

const ORDERS: u16 = 3;
const TASKS: u16 = 4;
const SUBJECTS: u16 = 5;

/// Five users with a subject each; four tasks of one template, which anyone may claim any number of times.
fn policy() -> Vec<Record> {
    let mut records = vec![Record::role(0)];
    for user in 0..SUBJECTS {
        records.extend([
            Record::user(300 + user),
            Record::user_has_role(300 + user, 0),
        ]);
    }
    for task in 0..TASKS {
        records.extend([Record::task(task, 0), Record::task_open_to(task, 0)]);
    }
    records
}

/// An entry: its user, its task, and the subject that holds it, if it is held.
type Entry = (u16, u16, Option<u16>);

/// The entries of an order as its links give them, the oldest first.
fn linked(state: &State, order: u16) -> Vec<Entry> {
    let chain = state.orders[66 + usize::from(order)];
    let (mut at, count) = ((chain % 4096) as usize, chain / 4096 % 4096);
    let mut entries = Vec::new();
    for _ in 0..count {
        let word = state.orders[195 + at];
        let part = |from: u32, bits: u32| (word >> from & ((1 << bits) - 1)) as u16;
        let holder = (part(6, 1) == 0).then(|| part(13, 7));
        entries.push((part(20, 10), part(7, 6), holder));
        at = usize::from(part(32, 12));
    }
    entries.reverse();
    entries
}

/// Updates the expected entries after a granted request: a claim adds one at the end, a release removes one.
fn told(orders: &mut [Vec<Entry>], [kind, order, subject, task]: [u16; 4]) {
    let entries = &mut orders[usize::from(order)];
    let own = |entry: &Entry| entry.1 == task && entry.2 == Some(subject);
    match kind {
        49 => entries.clear(),
        50 => entries.push((300 + subject, task, Some(subject))),
        51 => entries.retain(|entry| !own(entry)),
        52 => entries
            .iter_mut()
            .filter(|entry| own(entry))
            .for_each(|entry| entry.2 = None),
        _ => {}
    }
}

/// A random request about an order, most often a claim.
fn some_request(random: &mut Random) -> ([u16; 4], Record) {
    let kind = random.pick(&[50, 50, 50, 50, 51, 51, 52, 52, 49, 48]);
    let [order, subject, task] =
        [ORDERS, SUBJECTS, TASKS].map(|below| random.below(below.into()) as u16);
    let record = match kind {
        48 => Record::open_order(order, 0),
        49 => Record::end_order(order),
        50 => Record::claim(subject, order, task),
        51 => Record::release(subject, order, task),
        _ => Record::done(subject, order, task),
    };
    ([kind, order, subject, task], record)
}

#[test]
fn entries_stand_in_the_order_of_the_claims() {
    let mut random = Random::new(29);
    for piled in [false, true] {
        let mut engine = Engine::new();
        engine.load_records(&policy()).unwrap();
        for subject in 0..SUBJECTS {
            let create = Record::create_subject(subject, 300 + subject, Set::of(&[0]));
            assert_eq!(engine.request(&create), Reply::Granted);
        }
        let (mut orders, mut longest) = (vec![Vec::new(); ORDERS.into()], 0);
        for _ in 0..4_000 {
            let asked: Vec<_> = (0..if piled { 7 } else { 1 })
                .map(|_| some_request(&mut random))
                .collect();
            let records: Vec<Record> = asked.iter().map(|(_, record)| *record).collect();
            let replies = match piled {
                true => engine.requests(&records),
                false => vec![engine.request(&records[0]).reply],
            };
            for ((fields, _), reply) in asked.iter().zip(replies) {
                if reply == Reply::Granted {
                    told(&mut orders, *fields);
                }
            }
            for order in 0..ORDERS {
                let entries = &orders[usize::from(order)];
                longest = longest.max(entries.len());
                assert_eq!(&linked(engine.state(), order), entries, "order {order}");
            }
        }
        assert!(longest > 20, "{longest}");
    }
}
