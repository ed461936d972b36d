//! Records by the words of docs/RULES.md, and an engine with each of the two ledgers, run side by side.
#![allow(dead_code)] // each test file uses its own part

use plain::{encode, Engine, FlatLedger, OrderLists, Reply, ANSWER};

pub type Bytes = Vec<u8>;

pub fn record(kind: u8, n: u8, a: u16, b: u16, c: u16, m: u64) -> Bytes {
    encode(kind, n, a, b, c, m).to_vec()
}

fn ab(kind: u8, a: u16, b: u16) -> Bytes {
    record(kind, 0, a, b, 0, 0)
}

pub fn set(members: &[u32]) -> u64 {
    members.iter().fold(0, |all, &i| all | 1 << i)
}

pub fn user(a: u16) -> Bytes {
    ab(1, a, 0)
}
pub fn role(a: u16) -> Bytes {
    ab(2, a, 0)
}
pub fn permission(a: u16, operation: u16, object: u16) -> Bytes {
    record(3, 0, a, operation, object, 0)
}
pub fn has_role(user: u16, role: u16) -> Bytes {
    ab(4, user, role)
}
pub fn has_permission(role: u16, permission: u16) -> Bytes {
    ab(5, role, permission)
}
pub fn task(task: u16, template: u16) -> Bytes {
    ab(6, task, template)
}
pub fn open_to(task: u16, role: u16) -> Bytes {
    ab(7, task, role)
}
pub fn carries(task: u16, permission: u16) -> Bytes {
    ab(8, task, permission)
}
pub fn static_set(n: u8, roles: &[u32]) -> Bytes {
    record(9, n, 0, 0, 0, set(roles))
}
pub fn dynamic_set(n: u8, roles: &[u32]) -> Bytes {
    record(10, n, 0, 0, 0, set(roles))
}
pub fn task_set(n: u8, tasks: &[u32]) -> Bytes {
    record(11, n, 0, 0, 0, set(tasks))
}
pub fn block(partitioning: u16, tasks: &[u32]) -> Bytes {
    record(12, 0, partitioning, 0, 0, set(tasks))
}
pub fn ban(template: u16) -> Bytes {
    ab(13, template, 0)
}
pub fn at_most(task: u16, n: u8) -> Bytes {
    record(14, n, task, 0, 0, 0)
}
pub fn bound(a: u16, b: u16) -> Bytes {
    ab(15, a, b)
}
pub fn before(a: u16, b: u16) -> Bytes {
    ab(16, a, b)
}

pub fn above(a: u16, b: u16) -> Bytes {
    ab(17, a, b)
}

pub fn wall(wall: u16, block: u16, object: u16) -> Bytes {
    record(18, 0, wall, block, object, 0)
}

pub fn add_user(a: u16) -> Bytes {
    ab(32, a, 0)
}
pub fn join(a: u16, roles: &[u32]) -> Bytes {
    record(32, 0, a, 0, 0, set(roles))
}
pub fn delete_user(a: u16) -> Bytes {
    ab(33, a, 0)
}
pub fn assign(user: u16, role: u16) -> Bytes {
    ab(34, user, role)
}
pub fn take_role(user: u16, role: u16) -> Bytes {
    ab(35, user, role)
}
pub fn give(role: u16, permission: u16) -> Bytes {
    ab(36, role, permission)
}
pub fn take_permission(role: u16, permission: u16) -> Bytes {
    ab(37, role, permission)
}
pub fn create(subject: u16, user: u16, roles: &[u32]) -> Bytes {
    record(40, 0, subject, user, 0, set(roles))
}
pub fn destroy(subject: u16) -> Bytes {
    ab(41, subject, 0)
}
pub fn activate(subject: u16, role: u16) -> Bytes {
    ab(42, subject, role)
}
pub fn deactivate(subject: u16, role: u16) -> Bytes {
    ab(43, subject, role)
}
pub fn open(instance: u16, template: u16) -> Bytes {
    ab(48, instance, template)
}
pub fn end(instance: u16) -> Bytes {
    ab(49, instance, 0)
}
pub fn claim(subject: u16, instance: u16, task: u16) -> Bytes {
    record(50, 0, subject, instance, task, 0)
}
pub fn release(subject: u16, instance: u16, task: u16) -> Bytes {
    record(51, 0, subject, instance, task, 0)
}
pub fn done(subject: u16, instance: u16, task: u16) -> Bytes {
    record(52, 0, subject, instance, task, 0)
}
pub fn check(subject: u16, operation: u16, object: u16) -> Bytes {
    record(56, 0, subject, operation, object, 0)
}
pub fn task_check(subject: u16, instance: u16, task: u16, operation: u16, object: u16) -> Bytes {
    let m = u64::from(operation) | u64::from(object) << 16;
    record(57, 0, subject, instance, task, m)
}

pub fn entries_of(instance: u16) -> Bytes {
    ab(58, instance, 0)
}

pub fn commit(subject: u16, operation: u16, object: u16) -> Bytes {
    record(59, 0, subject, operation, object, 0)
}

pub fn stuck_tasks(template: u16) -> Bytes {
    ab(60, template, 0)
}

/// An engine with each ledger; the two must always agree.
pub struct Both {
    flat: Engine<FlatLedger>,
    lists: Engine<OrderLists>,
}

impl Both {
    pub fn new() -> Both {
        Both {
            flat: Engine::new(),
            lists: Engine::new(),
        }
    }

    pub fn load(&mut self, policy: &[Bytes]) -> (Reply, usize) {
        let bytes = policy.concat();
        let answer = self.flat.load(&bytes);
        assert_eq!(answer, self.lists.load(&bytes), "the two ledgers differ");
        if answer.0 != Reply::Granted {
            assert!(self.flat == Engine::new() && self.lists == Engine::new());
        }
        answer
    }

    /// The reply on which both agree.
    pub fn request(&mut self, record: &[u8]) -> Reply {
        self.answer(record).0
    }

    /// The reply and the place on which both agree. Also checks that a refusal and a granted check change nothing.
    pub fn answer(&mut self, record: &[u8]) -> (Reply, usize) {
        let before = (self.flat.clone(), self.lists.clone());
        let (reply, place) = self.flat.request(record);
        let other = self.lists.request(record);
        assert_eq!((reply, place), other, "the two differ on {record:?}");
        let about_a_rule = matches!(reply.number(), 14..=16 | 18);
        assert_eq!(place != 0, about_a_rule, "place {place} with {reply:?}");
        if reply != Reply::Granted || matches!(record.first(), Some(56..=58 | 60)) {
            assert!(before == (self.flat.clone(), self.lists.clone()));
        }
        let mut entries = [self.flat.entries(), self.lists.entries()];
        entries.iter_mut().for_each(|e| e.sort());
        assert_eq!(entries[0], entries[1], "the two ledgers' entries differ");
        (reply, place)
    }

    /// The reply of both to a question, and the answer buffer afterwards; the buffer is filled with `before` first.
    pub fn question(&mut self, record: &[u8], before: u64) -> (Reply, [u64; ANSWER]) {
        let (mut answer, mut other) = ([before; ANSWER], [before; ANSWER]);
        let reply = self.flat.question(record, &mut answer);
        assert_eq!(reply, self.lists.question(record, &mut other));
        assert_eq!(answer, other, "the two differ on {record:?}");
        (reply, answer)
    }

    /// As `request`, without the comparison of states, for long runs.
    pub fn quick(&mut self, record: &[u8]) -> Reply {
        let answer = self.flat.request(record);
        assert_eq!(answer, self.lists.request(record), "the two ledgers differ");
        answer.0
    }
}

/// Both engines after a policy and requests, all of which must be granted.
pub fn ready(policy: &[Bytes], requests: &[Bytes]) -> Both {
    let mut both = Both::new();
    let (reply, place) = both.load(policy);
    assert_eq!((reply, place), (Reply::Granted, 0), "the policy's load");
    for (at, request) in requests.iter().enumerate() {
        assert_eq!(both.quick(request), Reply::Granted, "request {}", at + 1);
    }
    both
}

/// The replies to the requests, in sequence.
pub fn replies(policy: &[Bytes], requests: &[Bytes]) -> Vec<Reply> {
    let mut both = ready(policy, &[]);
    requests.iter().map(|r| both.request(r)).collect()
}

/// The reply numbers and places, in sequence.
pub fn answers(policy: &[Bytes], requests: &[Bytes]) -> Vec<(u8, usize)> {
    let mut both = ready(policy, &[]);
    let answer = |r: &Bytes| both.answer(r);
    let numbers = |(reply, place): (Reply, usize)| (reply.number(), place);
    requests.iter().map(answer).map(numbers).collect()
}
