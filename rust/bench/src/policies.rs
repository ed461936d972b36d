//! The policies of the workloads. Each is built record by record with the plain engine, which reports at once if a record would
//! be refused.

use plain::{Engine, Reply};
use random::Random;
use records::{Record, Set};
use std::collections::BTreeSet;

pub const USERS: u16 = 1024;
pub const ROLES: u16 = 64;
pub const PERMISSIONS: u16 = 256;
pub const SUBJECTS: u16 = 128;

/// The largest number of policy records that the desk program accepts.
pub const LARGEST: usize = 4096;

/// A policy whose records so far are accepted.
#[derive(Default)]
pub struct Policy {
    engine: Engine,
    pub records: Vec<Record>,
}

impl Policy {
    /// Adds a record; returns false if it would be refused.
    fn offer(&mut self, record: Record) -> bool {
        let accepted = self.engine.policy_record(&record.0) == Reply::Granted;
        if accepted {
            self.records.push(record);
        }
        accepted
    }

    fn add(&mut self, record: Record) {
        assert!(self.offer(record), "refused in a policy: {record:?}");
    }

    fn add_all(&mut self, records: impl IntoIterator<Item = Record>) {
        records.into_iter().for_each(|record| self.add(record));
    }

    /// Adds records for `count` random numbers below `end` that are accepted, and returns the numbers.
    fn some(
        &mut self,
        random: &mut Random,
        count: u16,
        end: u16,
        record: impl Fn(u16) -> Record,
    ) -> Vec<u16> {
        let mut taken = Vec::new();
        while taken.len() < usize::from(count) {
            let number = random.below(usize::from(end)) as u16;
            if self.offer(record(number)) {
                taken.push(number);
            }
        }
        taken
    }
}

/// The user of a subject: the numbers are spread out, and most are above 255.
pub const fn user_of(subject: u16) -> u16 {
    8 * subject + 3
}

fn pair_of(a: u16, b: u16) -> Set {
    Set::of(&[a as u8, b as u8])
}

/// Users, roles, permissions and their relations.
pub struct People {
    pub policy: Policy,
    /// The operation and object of each permission.
    pub pairs: Vec<(u16, u16)>,
    /// The permissions of each role.
    pub permissions_of: Vec<Vec<u16>>,
    /// The roles of each subject's user.
    pub roles_of: Vec<Vec<u16>>,
}

/// Different pairs of operation and object, spread over all 16-bit numbers.
fn scattered_pairs(random: &mut Random, count: u16) -> Vec<(u16, u16)> {
    let mut pairs = BTreeSet::new();
    let mut in_order = Vec::new();
    while in_order.len() < usize::from(count) {
        let pair = (random.word() as u16, random.word() as u16);
        if pairs.insert(pair) {
            in_order.push(pair);
        }
    }
    in_order
}

impl People {
    /// All users and roles, eight static sets, and this number of permissions, of which each role has a sixteenth. Users with a
    /// subject have three roles, the others one.
    pub fn new(random: &mut Random, permissions: u16) -> People {
        let mut policy = Policy::default();
        policy.add_all((0..USERS).map(Record::user));
        policy.add_all((0..ROLES).map(Record::role));
        policy.add_all((0..8).map(|i| Record::static_set(1, pair_of(i, i + 32))));
        let pairs = scattered_pairs(random, permissions);
        let numbered = (0..).zip(&pairs);
        policy.add_all(numbered.map(|(p, &(o, b))| Record::permission(p, o, b)));
        let give = |role| {
            let record = |permission| Record::role_has_permission(role, permission);
            policy.some(random, permissions / 16, permissions, record)
        };
        let permissions_of = (0..ROLES).map(give).collect();
        let subjects_user = |user| user % 8 == user_of(0);
        let mut roles_of = Vec::new();
        for user in 0..USERS {
            let count = if subjects_user(user) { 3 } else { 1 };
            let record = |role| Record::user_has_role(user, role);
            let assigned = policy.some(random, count, ROLES, record);
            if subjects_user(user) {
                roles_of.push(assigned);
            }
        }
        People {
            policy,
            pairs,
            permissions_of,
            roles_of,
        }
    }
}

/// Tasks of all templates, and rules of all kinds over them.
fn add_tasks(policy: &mut Policy) {
    policy.add_all((0..64).map(|task| Record::task(task, task / 4)));
    policy.add_all((0..64).map(|task| Record::task_open_to(task, task)));
    policy.add_all((0..64).map(|task| Record::task_carries(task, 3 * task)));
    policy.add_all((0..16).map(|t| Record::task_set(1, pair_of(4 * t, 4 * t + 1))));
    policy.add_all((0..16).flat_map(|t| {
        let block = |at| Record::block(t, pair_of(4 * t + at, 4 * t + at + 1));
        [block(0), block(2)]
    }));
    policy.add_all((0..16).map(Record::lone_worker_ban));
    policy.add_all((0..64).map(|task| Record::at_most(task, 2)));
    policy.add_all((0..16).map(|t| Record::bound(4 * t, 4 * t + 2)));
    policy.add_all((0..16).map(|t| Record::before(4 * t, 4 * t + 3)));
    policy.add_all((0..8).map(|i| Record::dynamic_set(1, pair_of(i, i + 32))));
    // Only roles that are in no set.
    policy.add_all((0..16).map(|i| Record::role_above(40 + i, 8 + i)));
    policy.add_all((0..16).map(|i| Record::wall(i, i / 2, 100 + i)));
}

/// A policy of 4,096 records of every kind: users, roles and permissions as in `People`, tasks and rules, and assignments to fill
/// the rest.
pub fn largest(random: &mut Random) -> Vec<Record> {
    let mut policy = People::new(random, PERMISSIONS).policy;
    add_tasks(&mut policy);
    while policy.records.len() < LARGEST {
        let user = random.below(usize::from(USERS)) as u16;
        let role = random.below(usize::from(ROLES)) as u16;
        policy.offer(Record::user_has_role(user, role));
    }
    policy.records
}

/// The template of most orders, with five tasks.
pub const ORDER: u16 = 0;
pub const ORDER_TASKS: u16 = 5;
/// The first and the last task are bound to one clerk.
pub const FIRST_TASK: u16 = 0;
pub const LAST_TASK: u16 = 4;
/// A template of one task without a rule, of which an order may have any number of entries.
pub const LOG: u16 = 1;
pub const LOG_TASK: u16 = 5;
/// A template of sixteen tasks without a rule.
pub const WIDE: u16 = 2;
pub const WIDE_TASKS: std::ops::Range<u16> = 6..22;
/// A template with all rules, in policies that have rules; its first eight tasks have no prerequisites.
pub const RULED: u16 = 3;
pub const RULED_TASKS: std::ops::Range<u16> = 22..64;

/// The permission that every task carries, and its pair.
pub const CARRIED: u16 = 200;
pub const CARRIED_PAIR: (u16, u16) = (40_000, 517);

/// Roles: the clerks' two, one that opens no task, and one that nobody has.
pub const CLERK: u16 = 0;
pub const CASHIER: u16 = 1;
pub const GUEST: u16 = 2;
pub const UNASSIGNED: u16 = 20;

/// Every sixteenth subject is a guest, for whom no task is open.
pub const fn is_guest(subject: u16) -> bool {
    subject % 16 == 15
}

/// A desk with users, roles, tasks and orders. A template of five tasks has a task set, a binding, two prerequisites and a limit.
pub fn desk() -> Policy {
    let mut policy = Policy::default();
    policy.add_all((0..ROLES).map(Record::role));
    policy.add(Record::permission(CARRIED, CARRIED_PAIR.0, CARRIED_PAIR.1));
    for subject in 0..SUBJECTS {
        policy.add(Record::user(user_of(subject)));
        let roles = [CLERK, CASHIER, GUEST].into_iter();
        policy.add_all(roles.map(|role| Record::user_has_role(user_of(subject), role)));
    }
    let templates = [
        (ORDER, 0..ORDER_TASKS),
        (LOG, LOG_TASK..LOG_TASK + 1),
        (WIDE, WIDE_TASKS),
        (RULED, RULED_TASKS),
    ];
    for (template, tasks) in templates {
        policy.add_all(tasks.map(|task| Record::task(task, template)));
    }
    policy.add_all(
        (0..64).map(|task| Record::task_open_to(task, [CLERK, CASHIER][task as usize % 2])),
    );
    policy.add_all((0..64).map(|task| Record::task_carries(task, CARRIED)));
    policy.add(Record::task_set(1, Set::of(&[1, 2, 3])));
    policy.add(Record::bound(FIRST_TASK, LAST_TASK));
    policy.add(Record::at_most(FIRST_TASK, 1));
    policy.add_all([Record::before(0, 1), Record::before(2, 3)]);
    policy
}

/// The role at the lower end of the clerks' chain of roles, which has a permission.
pub const LOWEST: u16 = 34;

/// The desk with as many senior roles as possible: the clerk above a chain of 32 roles, the cashier above a chain of 29, and
/// three more. The lowest role of the first chain has the permission that tasks carry.
pub fn desk_of_seniors() -> Policy {
    let mut policy = desk();
    let chain = |top: u16, first: u16, last: u16| {
        let senior = move |junior| if junior == first { top } else { junior - 1 };
        (first..=last).map(move |junior| Record::role_above(senior(junior), junior))
    };
    policy.add_all(chain(CLERK, 3, LOWEST));
    policy.add_all(chain(CASHIER, LOWEST + 1, ROLES - 1));
    policy
        .add_all([(CLERK, 10), (CLERK, 20), (CASHIER, 40)].map(|(a, b)| Record::role_above(a, b)));
    policy.add(Record::role_has_permission(LOWEST, CARRIED));
    policy
}

/// The number of objects in the walls; each is in all walls.
pub const WALLED: u16 = 16;

/// The operation and object of a walled object's permission.
pub const fn walled_pair(object: u16) -> (u16, u16) {
    (7, 300 + 37 * object)
}

/// The desk with permissions for the objects of walls, which clerks have.
pub fn desk_of_books() -> Policy {
    let mut policy = desk();
    for object in 0..WALLED {
        let (operation, number) = walled_pair(object);
        policy.add(Record::permission(object, operation, number));
        policy.add(Record::role_has_permission(CLERK, object));
    }
    policy
}

/// The same desk with as many objects in walls as possible, on alternating sides of each wall.
pub fn desk_of_walls() -> Policy {
    let mut policy = desk_of_books();
    let every = (0..16).flat_map(|wall| (0..WALLED).map(move |object| (wall, object)));
    policy.add_all(every.map(|(wall, o)| Record::wall(wall, o % 2, walled_pair(o).1)));
    policy
}

/// The desk with as many rules of every kind as possible.
pub fn desk_of_all_rules() -> Policy {
    let mut policy = desk();
    let unused = |i: u16| pair_of(3 + i, 4 + i);
    policy.add_all((0..32).map(|i| Record::static_set(1, unused(i))));
    policy.add_all((0..32).map(|i| Record::dynamic_set(1, unused(i))));
    let first = RULED_TASKS.start;
    policy.add_all((0..31).map(|i| Record::task_set(1, pair_of(first + i, first + i + 1))));
    policy.add_all((0..16).flat_map(|partitioning| {
        let block = move |i: u16| Set::of(&[(first + partitioning + 4 * i) as u8]);
        (0..4).map(move |i| Record::block(partitioning, block(i)))
    }));
    policy.add(Record::lone_worker_ban(RULED));
    let other = |i: u16| first + 21 + (i % 21 + i / 21) % 21;
    policy.add_all((0..63).map(|i| Record::bound(first + i % 21, other(i))));
    policy.add_all((0..62).map(|i| Record::before(first + i % 31, first + 32 + i % 10)));
    policy
}
