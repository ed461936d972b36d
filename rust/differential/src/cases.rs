//! Random cases: loads and requests in several styles, generated from one seed.

use crate::candidates::{damaged, other_length};
use crate::damage::spoilt;
use crate::pools::Pools;
use plain::{Engine, OrderLists};
use random::Random;
use records::{Record, Set, LENGTH};

/// One call to the engines.
#[derive(Clone, PartialEq, Debug)]
pub enum Step {
    /// A load, with the policy's bytes.
    Load(Vec<u8>),
    /// A request, with its bytes.
    Request(Vec<u8>),
    /// Requests in one call.
    Pile(Pile),
    /// A question that is answered with figures.
    Question(Question),
    /// The policy written out to an output with this many bytes more than it needs, or fewer if the number is negative.
    Write(i64),
    /// A damaged file mended.
    Mend(Mend),
}

/// A file to mend, and the sizes of the output and the report.
#[derive(Clone, PartialEq, Debug)]
pub struct Mend {
    /// The file.
    pub file: Vec<u8>,
    /// The name of the damage that was done to it.
    pub damage: &'static str,
    /// How many bytes longer than the file the output is; negative if it is shorter.
    pub spare: i64,
    /// How many entries the report has beyond those required; negative if it has fewer.
    pub entries: i64,
}

impl Mend {
    /// The output buffer before the call.
    pub fn output(&self) -> Vec<u8> {
        junk(self.file.len() as i64 + self.spare)
    }

    /// The report buffer before the call.
    pub fn report(&self) -> Vec<(u64, u64)> {
        let entries = (self.file.len() / LENGTH) as i64 + 1 + self.entries;
        (0..entries.max(0) as u64)
            .map(|k| (!k, k << 32 | 7))
            .collect()
    }
}

/// This number of bytes of junk, as earlier contents of a buffer.
pub fn junk(length: i64) -> Vec<u8> {
    let byte = |k: i64| (k * 37 + 11) as u8 | 0x40;
    (0..length.max(0)).map(byte).collect()
}

/// A question: its bytes, and the answer buffer before the call.
#[derive(Clone, PartialEq, Debug)]
pub struct Question {
    /// The record, or bytes of another length.
    pub record: Vec<u8>,
    /// The words of the answer buffer.
    pub answer: Vec<u64>,
}

impl Question {
    /// The record, with an answer buffer of the right length that holds junk.
    pub fn of(record: Record) -> Question {
        Question {
            record: record.0.to_vec(),
            answer: vec![0x5555_5555_5555_5555; plain::ANSWER],
        }
    }
}

/// Requests in one call: their bytes, the answer buffer before the call, and the index of the first reply.
#[derive(Clone, PartialEq, Debug)]
pub struct Pile {
    /// The records, of which the last may be truncated.
    pub records: Vec<u8>,
    /// The contents of the answer buffer.
    pub buffer: Vec<u8>,
    /// The index of the first reply.
    pub at: usize,
}

/// A sequence of steps, and the numbers that they use.
pub struct Case {
    /// Loads and requests, in sequence.
    pub steps: Vec<Step>,
    /// The numbers, which the checks after the case ask about.
    pub pools: Pools,
}

/// A policy that is accepted, and the records that were refused while it was built.
#[derive(Default)]
struct Policy {
    accepted: Vec<Record>,
    refused: Vec<Refused>,
}

/// A refused record, the number of accepted records before it, and the refusal.
struct Refused {
    after: usize,
    record: Record,
    reply: plain::Reply,
}

impl Policy {
    /// Tries the records in sequence.
    fn of(attempts: Vec<Record>) -> Policy {
        let mut engine = Engine::<OrderLists>::new();
        let mut policy = Policy::default();
        for record in attempts {
            let reply = engine.policy_record(&record.0);
            if reply == plain::Reply::Granted {
                policy.accepted.push(record);
            } else {
                policy.refused.push(Refused {
                    after: policy.accepted.len(),
                    record,
                    reply,
                });
            }
        }
        policy
    }

    fn bytes(records: &[Record]) -> Vec<u8> {
        records.iter().flat_map(|record| record.0).collect()
    }

    /// Loads that are refused, for different kinds or different reasons.
    fn bad_loads(&mut self, random: &mut Random, most: usize) -> Vec<Step> {
        shuffle(random, &mut self.refused);
        let mut chosen: Vec<&Refused> = Vec::new();
        for refused in &self.refused {
            let alike = |other: &&Refused| {
                (other.record.kind(), other.reply) == (refused.record.kind(), refused.reply)
            };
            if chosen.len() < most && !chosen.iter().any(alike) {
                chosen.push(refused);
            }
        }
        let bad = chosen.into_iter().map(|r| self.bad_load(random, r));
        bad.collect()
    }

    /// A load with the refused record; rarely truncated, or followed by the remaining good records.
    fn bad_load(&self, random: &mut Random, refused: &Refused) -> Step {
        let (before, behind) = self.accepted.split_at(refused.after);
        let mut bytes = Policy::bytes(before);
        bytes.extend(refused.record.0);
        match random.below(12) {
            0 | 1 => bytes.extend(Policy::bytes(behind)),
            2 => bytes.truncate(bytes.len() - 1 - random.below(15)),
            _ => {}
        }
        Step::Load(bytes)
    }

    fn load(&self) -> Step {
        Step::Load(Policy::bytes(&self.accepted))
    }

    /// Some of the roles that the policy gives a user.
    fn roles_of(&self, random: &mut Random, user: u16) -> Set {
        let given = self
            .accepted
            .iter()
            .filter(|r| r.kind() == 4 && r.a() == user);
        given.fold(Set::EMPTY, |roles, record| {
            if random.chance(2, 3) {
                roles.with(record.b() as u8)
            } else {
                roles
            }
        })
    }

    /// The start of the day: subjects with roles of their users, and orders.
    fn opening(&self, random: &mut Random, pools: &Pools) -> Vec<Step> {
        let mut records = Vec::new();
        for &subject in &pools.subjects {
            let user = random.pick(&pools.users);
            let roles = self.roles_of(random, user);
            records.push(Record::create_subject(subject, user, roles));
        }
        for (place, &order) in pools.orders.iter().enumerate() {
            records.push(Record::open_order(order, pools.template_at(random, place)));
        }
        records
            .into_iter()
            .map(|r| Step::Request(r.0.to_vec()))
            .collect()
    }
}

fn shuffle<T>(random: &mut Random, list: &mut [T]) {
    for last in (1..list.len()).rev() {
        list.swap(last, random.below(last + 1));
    }
}

/// Declarations of everything in the pools; rarely with something left out.
fn declarations(random: &mut Random, pools: &Pools) -> Vec<Record> {
    let mut all: Vec<Record> = Vec::new();
    all.extend(pools.users.iter().map(|&user| Record::user(user)));
    all.extend(pools.roles.iter().map(|&role| Record::role(role)));
    for (place, &task) in pools.tasks.iter().enumerate() {
        all.push(Record::task(task, pools.template_at(random, place)));
    }
    for &permission in &pools.permissions {
        let (operation, object) = (random.pick(&pools.operations), random.pick(&pools.objects));
        all.push(Record::permission(permission, operation, object));
    }
    all.retain(|_| !random.chance(1, 25));
    shuffle(random, &mut all);
    all
}

fn policy(random: &mut Random, pools: &Pools, relations: usize, rules: usize) -> Policy {
    let mut attempts = declarations(random, pools);
    attempts.extend((0..rules / 4).map(|_| pools.rule(random)));
    attempts.extend((0..relations).map(|_| pools.relation(random)));
    attempts.extend((0..rules).map(|_| pools.rule(random)));
    attempts.extend((0..3).map(|_| pools.declaration(random)));
    if random.chance(1, 5) {
        shuffle(random, &mut attempts);
    }
    let spoilt = attempts.len() / 10;
    for _ in 0..spoilt {
        let record = random.pick(&attempts);
        let again = random.chance(1, 3);
        let spoilt = if again {
            record
        } else {
            damaged(random, record)
        };
        attempts.insert(random.below(attempts.len()), spoilt);
    }
    Policy::of(attempts)
}

fn requests(random: &mut Random, pools: &Pools, count: usize) -> Vec<Step> {
    let mut one = || {
        let record = pools.request(random);
        Step::Request(match random.below(40) {
            0 => damaged(random, record).0.to_vec(),
            1 if random.chance(1, 4) => other_length(random, record),
            2 if random.chance(1, 4) => pools.rule(random).0.to_vec(),
            _ => record.0.to_vec(),
        })
    };
    (0..count).map(|_| one()).collect()
}

/// A day of a small desk, sometimes with a second load in the middle.
fn day(random: &mut Random, pools: Pools, rules: usize, count: usize) -> Case {
    let mut steps = Vec::new();
    for _ in 0..random.pick(&[1, 1, 1, 2]) {
        let relations = 10 + random.below(60);
        let mut policy = policy(random, &pools, relations, rules);
        steps.extend(policy.bad_loads(random, 9));
        if random.chance(19, 20) {
            steps.push(policy.load());
        }
        if random.chance(9, 10) {
            steps.extend(policy.opening(random, &pools));
        }
        steps.extend(requests(random, &pools, count));
    }
    Case { steps, pools }
}

/// Rules over the tasks of one template. Each allows most claims, so that rules late in the lists are often the first that a
/// claim breaks.
fn claim_rules(random: &mut Random, pools: &Pools) -> Vec<Record> {
    let mut tasks = pools.tasks.clone();
    let mut rules = Vec::new();
    for &partitioning in &pools.partitionings {
        shuffle(random, &mut tasks);
        let blocks = tasks[..6].chunks(2);
        let set = |block: &[u16]| block.iter().map(|&task| task as u8).collect();
        rules.extend(blocks.map(|block| Record::block(partitioning, set(block))));
    }
    for _ in 0..random.below(10) {
        shuffle(random, &mut tasks);
        let members = tasks[..4].iter().map(|&task| task as u8).collect();
        rules.push(Record::task_set(2 + random.below(2) as u8, members));
    }
    // Prerequisites lead from lower to higher tasks, so that some task can always be claimed first.
    for _ in 0..random.below(10) {
        let (one, other) = (random.pick(&tasks), random.pick(&tasks));
        rules.push(Record::before(one.min(other), one.max(other)));
    }
    for _ in 0..random.below(8) {
        rules.push(Record::bound(random.pick(&tasks), random.pick(&tasks)));
    }
    shuffle(random, &mut rules);
    rules.truncate(4 + random.below(rules.len()));
    rules
}

/// A desk where everyone may take every task, except for the claim rules.
fn claims(random: &mut Random) -> Case {
    let pools = Pools::for_claims(random);
    let role = pools.roles[0];
    let mut attempts: Vec<Record> = vec![Record::role(role)];
    for &user in &pools.users {
        attempts.extend([Record::user(user), Record::user_has_role(user, role)]);
    }
    for &task in &pools.tasks {
        let of_template = Record::task(task, pools.templates[0]);
        attempts.extend([of_template, Record::task_open_to(task, role)]);
    }
    attempts.extend(claim_rules(random, &pools));
    let mut steps = vec![Policy::of(attempts).load()];
    let mut ask = |record: Record| steps.push(Step::Request(record.0.to_vec()));
    for &subject in &pools.subjects {
        let user = random.pick(&pools.users);
        ask(Record::create_subject(
            subject,
            user,
            Set::EMPTY.with(role as u8),
        ));
    }
    for _ in 0..6 {
        for &order in &pools.orders {
            ask(Record::end_order(order));
            ask(Record::open_order(order, pools.templates[0]));
        }
        (0..80).for_each(|_| ask(pools.order(random)));
    }
    Case { steps, pools }
}

/// A desk where everyone may access every object, except for walls: checks, commits, and users who are added and deleted.
fn walls(random: &mut Random) -> Case {
    let pools = Pools::for_walls(random);
    let (role, operation) = (pools.roles[0], pools.operations[0]);
    let mut attempts: Vec<Record> = vec![Record::role(role)];
    for &user in &pools.users {
        attempts.extend([Record::user(user), Record::user_has_role(user, role)]);
    }
    for (&permission, &object) in pools.permissions.iter().zip(&pools.objects) {
        attempts.push(Record::permission(permission, operation, object));
        attempts.push(Record::role_has_permission(role, permission));
    }
    let count = random.pick(&[2, 6, 12, 600]);
    attempts.extend((0..count).map(|_| pools.wall(random)));
    let mut policy = Policy::of(attempts);
    let mut steps = policy.bad_loads(random, 3);
    steps.push(policy.load());
    let mut ask = |record: Record| steps.push(Step::Request(record.0.to_vec()));
    let roles = Set::EMPTY.with(role as u8);
    for _ in 0..6 {
        for &subject in &pools.subjects {
            let user = random.pick(&pools.users);
            ask(Record::create_subject(subject, user, roles));
        }
        for _ in 0..random.pick(&[10, 40]) {
            let (subject, object) = (random.pick(&pools.subjects), random.pick(&pools.objects));
            ask(match random.below(16) {
                0 => pools.session(random),
                1 => Record::give_permission(role, random.pick(&pools.permissions)),
                2 => Record::take_permission(role, random.pick(&pools.permissions)),
                3..=9 => Record::check(subject, operation, object),
                _ => Record::commit(subject, operation, object),
            });
        }
        for &subject in &pools.subjects {
            if random.chance(1, 2) {
                ask(Record::destroy_subject(subject));
            }
        }
        for &user in &pools.users {
            if random.chance(1, 2) {
                ask(Record::delete_user(user));
                ask(Record::add_user_with(user, roles));
            }
        }
    }
    Case { steps, pools }
}

/// A ledger filled to its last entry by a task without rules, and requests around that point.
fn filled(random: &mut Random) -> Case {
    let mut pools = Pools::few(random);
    let rules = random.below(10);
    let mut policy = policy(random, &pools, 60, rules);
    let (user, role, template) = (1000, pools.roles[0], 14);
    let (task, subject, orders) = (62, 126, [60, 61]);
    let filler = [
        Record::user(user),
        Record::role(role),
        Record::user_has_role(user, role),
        Record::task(task, template),
        Record::task_open_to(task, role),
    ];
    let all = [policy.accepted, filler.to_vec()].concat();
    policy = Policy::of(all);
    let mut steps = vec![policy.load()];
    steps.extend(requests(random, &pools, 60));
    let opening = [
        Record::create_subject(subject, user, Set::EMPTY.with(role as u8)),
        Record::open_order(orders[0], template),
        Record::open_order(orders[1], template),
    ];
    steps.extend(opening.map(|record| Step::Request(record.0.to_vec())));
    for _ in 0..2048 + random.below(4) {
        let order = random.pick(&orders);
        let pair = [
            Record::claim(subject, order, task),
            Record::done(subject, order, task),
        ];
        steps.extend(pair.map(|record| Step::Request(record.0.to_vec())));
    }
    pools.users.push(user);
    pools.tasks.push(task);
    pools.templates.push(template);
    pools.subjects.push(subject);
    pools.orders.extend(orders);
    steps.extend(requests(random, &pools, 300));
    Case { steps, pools }
}

/// Random bytes.
fn noise(random: &mut Random) -> Case {
    let pools = Pools::few(random);
    let mut bytes = |most: usize| -> Vec<u8> {
        let length = random.below(most);
        (0..length).map(|_| random.word() as u8).collect()
    };
    let mut steps: Vec<Step> = (0..20).map(|_| Step::Load(bytes(200))).collect();
    steps.extend((0..200).map(|_| Step::Request(bytes(33))));
    Case { steps, pools }
}

/// A pile of these records, with a buffer that mostly has room for it.
fn pile(random: &mut Random, mut records: Vec<u8>) -> Pile {
    if random.chance(1, 10) {
        let cut = 1 + random.below(15);
        records.truncate(records.len().saturating_sub(cut));
    }
    let (at, behind) = (random.below(5), random.below(3));
    let length = at + records.len() / LENGTH + behind;
    let length = length.saturating_sub(random.pick(&[0, 0, 0, 0, 0, 1, 3, 9]));
    let buffer = (0..length).map(|_| random.word() as u8).collect();
    Pile {
        records,
        buffer,
        at,
    }
}

/// The steps, with consecutive requests grouped into piles.
fn piled(random: &mut Random, steps: Vec<Step>) -> Vec<Step> {
    let mut piled = Vec::new();
    let mut waiting = Vec::new();
    let mut room = 0;
    for step in steps {
        match step {
            Step::Request(record) if record.len() == LENGTH && waiting.len() < room => {
                waiting.extend(record);
            }
            step => {
                piled.push(Step::Pile(pile(random, std::mem::take(&mut waiting))));
                room = LENGTH * random.pick(&[0, 1, 2, 10, 200]);
                piled.push(step);
            }
        }
    }
    piled.push(Step::Pile(pile(random, waiting)));
    piled
}

/// A question, mostly a sensible one with an answer buffer of the right length.
fn question(random: &mut Random, pools: &Pools) -> Question {
    let record = pools.question(random);
    let record = match random.below(12) {
        0 => other_length(random, record),
        1 | 2 => damaged(random, record).0.to_vec(),
        3 => pools.request(random).0.to_vec(),
        _ => record.0.to_vec(),
    };
    let length = random.pick(&[66, 66, 66, 66, 66, 66, 66, 65, 67, 2, 0]);
    let answer = vec![random.word(); length];
    Question { record, answer }
}

/// The steps, with questions between them.
fn asked(random: &mut Random, pools: &Pools, steps: Vec<Step>) -> Vec<Step> {
    let mut all = Vec::new();
    for step in steps {
        all.push(step);
        if random.chance(1, 8) {
            all.push(Step::Question(question(random, pools)));
        }
    }
    all
}

/// How much more room there is than needed; mostly enough.
fn spare(random: &mut Random) -> i64 {
    random.pick(&[0, 0, 0, 0, 1, 16, 40, -1])
}

/// The file, damaged in some way or not at all, as a file to mend.
fn mend(random: &mut Random, mut file: Vec<u8>) -> Mend {
    let damage = spoilt(random, &mut file);
    Mend {
        file,
        damage,
        spare: spare(random),
        entries: spare(random),
    }
}

/// The steps, with files mended before loads or in place of them; the files are made from the bytes of those loads.
fn mended(random: &mut Random, steps: Vec<Step>) -> Vec<Step> {
    let mut all = Vec::new();
    for step in steps {
        let Step::Load(policy) = &step else {
            all.push(step);
            continue;
        };
        let mending = Step::Mend(mend(random, policy.clone()));
        match random.below(6) {
            0 | 1 => all.push(step),
            2 => all.push(mending),
            _ => all.extend([mending, step]),
        }
    }
    all
}

/// The steps, with the policy written out after some of them.
fn written(random: &mut Random, mut steps: Vec<Step>) -> Vec<Step> {
    for _ in 0..1 + random.below(4) {
        let at = random.below(steps.len() + 1);
        steps.insert(at, Step::Write(spare(random)));
    }
    steps
}

impl Case {
    /// The case with this number for this seed. One in two has questions, one in four has piles, one in three mends files, and
    /// one in two writes the policy out.
    pub fn random(seed: u64, number: u64) -> Case {
        let mut random = Random::new(seed ^ number.wrapping_mul(0xd134_2543_de82_ef95));
        let mut case = Case::of_requests(&mut random, number);
        if random.chance(1, 2) {
            case.steps = asked(&mut random, &case.pools, case.steps);
        }
        if random.chance(1, 4) {
            case.steps = piled(&mut random, case.steps);
        }
        if random.chance(1, 3) {
            case.steps = mended(&mut random, case.steps);
        }
        if random.chance(1, 2) {
            case.steps = written(&mut random, case.steps);
        }
        case
    }

    /// Loads and requests, each in one call.
    fn of_requests(random: &mut Random, number: u64) -> Case {
        let count = random.pick(&[5, 50, 150, 300, 600]);
        match number % 40 {
            7 => filled(random),
            17 => {
                let pools = Pools::crowd(random);
                day(random, pools, 60, 1000)
            }
            27 => noise(random),
            n if n % 8 == 6 => walls(random),
            n if n % 8 == 5 => claims(random),
            n if n % 8 == 3 => {
                let pools = Pools::for_rules(random);
                day(random, pools, 1600, count)
            }
            _ => {
                let pools = Pools::few(random);
                let rules = random.below(16);
                day(random, pools, rules, count)
            }
        }
    }
}
