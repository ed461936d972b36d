//! Random records over a case's numbers: sensible ones, and damaged copies of them.

use crate::pools::Pools;
use random::Random;
use records::{Record, Set};

/// Some members of a pool of roles or tasks; rarely also a number outside the pool.
fn members(random: &mut Random, pool: &[u16]) -> Set {
    let count = random.pick(&[0, 1, 1, 2, 2, 2, 2, 3, 3, 4, 6]);
    let mut set = Set::EMPTY;
    for _ in 0..count {
        set = set.with(random.pick(pool) as u8);
    }
    if random.chance(1, 40) {
        set = set.with(random.below(64) as u8);
    }
    set
}

/// A value of n that mostly fits a set.
fn limit(random: &mut Random, members: Set) -> u8 {
    let count = members.0.count_ones() as usize;
    match random.below(12) {
        0 => 0,
        1 => count as u8,
        2 => random.word() as u8,
        _ => 1 + random.below(count.max(2) - 1) as u8,
    }
}

impl Pools {
    /// A record that declares something.
    pub fn declaration(&self, random: &mut Random) -> Record {
        match random.below(4) {
            0 => Record::user(random.pick(&self.users)),
            1 => Record::role(random.pick(&self.roles)),
            2 => Record::task(random.pick(&self.tasks), random.pick(&self.templates)),
            _ => self.permission(random),
        }
    }

    fn permission(&self, random: &mut Random) -> Record {
        let (operation, object) = (random.pick(&self.operations), random.pick(&self.objects));
        Record::permission(random.pick(&self.permissions), operation, object)
    }

    /// A record that relates two declared things.
    pub fn relation(&self, random: &mut Random) -> Record {
        let (user, role) = (random.pick(&self.users), random.pick(&self.roles));
        let (task, permission) = (random.pick(&self.tasks), random.pick(&self.permissions));
        match random.below(6) {
            0 | 1 => Record::user_has_role(user, role),
            2 => Record::role_has_permission(role, permission),
            3 | 4 => Record::task_open_to(task, role),
            _ => Record::task_carries(task, permission),
        }
    }

    /// A record of a rule.
    pub fn rule(&self, random: &mut Random) -> Record {
        let (one, other) = (random.pick(&self.tasks), random.pick(&self.tasks));
        let tasks = members(random, &self.tasks);
        let roles = members(random, &self.roles);
        let (senior, junior) = (random.pick(&self.roles), random.pick(&self.roles));
        match random.below(20) {
            0 | 1 => Record::static_set(limit(random, roles), roles),
            2 | 3 => Record::dynamic_set(limit(random, roles), roles),
            4 | 5 => Record::task_set(limit(random, tasks), tasks),
            6..=8 => Record::block(random.pick(&self.partitionings), tasks),
            9 => Record::lone_worker_ban(random.pick(&self.templates)),
            10 | 11 => Record::at_most(one, random.pick(&[0, 1, 1, 1, 2, 2, 3, 255])),
            12 | 13 => Record::bound(one, other),
            14 | 15 => Record::before(one, other),
            16..=18 => Record::role_above(senior, junior),
            _ => self.wall(random),
        }
    }

    /// A record that puts an object into a block of a wall.
    pub fn wall(&self, random: &mut Random) -> Record {
        let (wall, block) = (random.pick(&self.walls), random.pick(&self.blocks));
        Record::wall(wall, block, random.pick(&self.objects))
    }

    /// A request about users, roles and permissions.
    pub fn people(&self, random: &mut Random) -> Record {
        let (user, role) = (random.pick(&self.users), random.pick(&self.roles));
        let permission = random.pick(&self.permissions);
        match random.below(10) {
            0 if random.chance(1, 3) => Record::add_user(user),
            0 => Record::add_user_with(user, members(random, &self.roles)),
            1 => Record::delete_user(user),
            2..=4 => Record::assign_role(user, role),
            5 | 6 => Record::take_role(user, role),
            7 | 8 => Record::give_permission(role, permission),
            _ => Record::take_permission(role, permission),
        }
    }

    /// A request about subjects.
    pub fn session(&self, random: &mut Random) -> Record {
        let (subject, role) = (random.pick(&self.subjects), random.pick(&self.roles));
        let (operation, object) = (random.pick(&self.operations), random.pick(&self.objects));
        match random.below(11) {
            0..=3 => {
                let roles = members(random, &self.roles);
                Record::create_subject(subject, random.pick(&self.users), roles)
            }
            4 if random.chance(1, 2) => Record::destroy_subject(subject),
            4..=6 => Record::activate_role(subject, role),
            7 => Record::deactivate_role(subject, role),
            8 | 9 => Record::check(subject, operation, object),
            _ => Record::commit(subject, operation, object),
        }
    }

    /// A request about orders.
    pub fn order(&self, random: &mut Random) -> Record {
        let subject = random.pick(&self.subjects);
        let (order, task) = self.order_and_task(random);
        let (operation, object) = (random.pick(&self.operations), random.pick(&self.objects));
        match random.below(40) {
            0..=2 => Record::open_order(order, random.pick(&self.templates)),
            3 => Record::end_order(order),
            4..=23 => Record::claim(subject, order, task),
            24..=28 => Record::release(subject, order, task),
            29..=35 => Record::done(subject, order, task),
            36 => self.question(random),
            _ => Record::task_check(subject, order, task, operation, object),
        }
    }

    /// A question, answered with figures.
    pub fn question(&self, random: &mut Random) -> Record {
        match random.below(2) {
            0 => Record::entries_of(random.pick(&self.orders)),
            _ => Record::stuck_tasks(random.pick(&self.templates)),
        }
    }

    pub fn request(&self, random: &mut Random) -> Record {
        match random.below(10) {
            0 => self.people(random),
            1..=3 => self.session(random),
            _ => self.order(random),
        }
    }
}

/// Numbers at and beyond the limits (docs/RULES.md, "Numbers").
const BEYOND: [u16; 10] = [16, 64, 65, 128, 129, 256, 1023, 1024, 1025, u16::MAX];

/// The record with one fault in its sixteen bytes.
pub fn damaged(random: &mut Random, record: Record) -> Record {
    let mut bytes = record.0;
    match random.below(8) {
        0 => bytes[random.below(16)] ^= 1 << random.below(8),
        1 => bytes[random.below(16)] = random.word() as u8,
        2 => bytes[0] = random.below(64) as u8,
        _ => {
            let at = random.pick(&[2, 2, 2, 4, 6]);
            let number = random.pick(&BEYOND);
            bytes[at..at + 2].copy_from_slice(&number.to_le_bytes());
        }
    }
    Record(bytes)
}

/// The record with another length.
pub fn other_length(random: &mut Random, record: Record) -> Vec<u8> {
    let length = random.pick(&[0, 1, 2, 8, 15, 17, 31, 32, 48]);
    record.0.into_iter().cycle().take(length).collect()
}
