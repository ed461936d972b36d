//! Workloads of one or two request kinds each, mostly pairs of requests that undo each other, at a desk with 96 subjects and 100
//! entries.

use crate::policies::*;
use crate::workloads::{a_clerk, clerks, entries, Timed, Workload, LENGTH, WORKED_ON};
use records::{Record, Set};

const SUBJECTS_LIVE: u16 = 96;
const ENTRIES: usize = 100;

/// The numbers below `end` in rotation.
fn turn(number: usize, end: u16) -> u16 {
    number as u16 % end
}

fn at_desk(name: &str, policy: Policy, more: Vec<Record>, stream: Vec<Record>) -> Workload {
    Workload {
        name: String::from(name),
        policy: policy.records,
        setup: [clerks(SUBJECTS_LIVE), entries(ENTRIES), more].concat(),
        timed: Timed::Requests(stream),
    }
}

fn pairs(pair: fn(usize) -> [Record; 2]) -> Vec<Record> {
    (0..LENGTH / 2).flat_map(pair).collect()
}

fn add_and_delete(number: usize) -> [Record; 2] {
    let user = user_of(turn(number, SUBJECTS)) + 1;
    [Record::add_user(user), Record::delete_user(user)]
}

fn assign_and_take(number: usize) -> [Record; 2] {
    let user = user_of(turn(number, SUBJECTS));
    let (assign, take) = (Record::assign_role, Record::take_role);
    [assign(user, UNASSIGNED), take(user, UNASSIGNED)]
}

fn give_and_take(number: usize) -> [Record; 2] {
    let role = turn(number, ROLES);
    let (give, take) = (Record::give_permission, Record::take_permission);
    [give(role, CARRIED), take(role, CARRIED)]
}

fn create_and_destroy(number: usize) -> [Record; 2] {
    let subject = SUBJECTS_LIVE + turn(number, SUBJECTS - SUBJECTS_LIVE);
    let roles = Set::of(&[CLERK as u8, CASHIER as u8]);
    let user = user_of(turn(number, SUBJECTS));
    let create = Record::create_subject(subject, user, roles);
    [create, Record::destroy_subject(subject)]
}

fn activate_and_deactivate(number: usize) -> [Record; 2] {
    let subject = a_clerk(number);
    let (activate, deactivate) = (Record::activate_role, Record::deactivate_role);
    [activate(subject, GUEST), deactivate(subject, GUEST)]
}

fn open_and_end(number: usize) -> [Record; 2] {
    let order = turn(number, WORKED_ON);
    [Record::open_order(order, ORDER), Record::end_order(order)]
}

fn open_all(template: u16) -> Vec<Record> {
    let open = |order| Record::open_order(order, template);
    (0..WORKED_ON).map(open).collect()
}

fn claim_and_release(number: usize) -> [Record; 2] {
    let (subject, order) = (a_clerk(number), turn(number, WORKED_ON));
    let task = RULED_TASKS.start + turn(number / 8, 8);
    let (claim, release) = (Record::claim, Record::release);
    [claim(subject, order, task), release(subject, order, task)]
}

/// Checks of held tasks: most are granted, some are for a pair that the task does not carry, some are by another subject.
fn task_checks() -> Workload {
    let holds = |order: u16| (2 * order, order, FIRST_TASK);
    let held = (0..WORKED_ON).map(|order| {
        let (subject, order, task) = holds(order);
        Record::claim(subject, order, task)
    });
    let more = open_all(ORDER).into_iter().chain(held).collect();
    let stream = (0..LENGTH).map(|number| {
        let (subject, order, task) = holds(turn(number * 5, WORKED_ON));
        let (operation, object) = CARRIED_PAIR;
        let check = |subject, object| Record::task_check(subject, order, task, operation, object);
        match number * 7 % 16 {
            0 | 1 => check(subject, object + 1),
            2 => check(subject + 1, object),
            _ => check(subject, object),
        }
    });
    at_desk("57 task check", desk(), more, stream.collect())
}

/// Access checks that need a role far below the active one: half of them are granted.
fn checks_of_seniors() -> Workload {
    let stream = (0..LENGTH).map(|number| {
        let (operation, object) = CARRIED_PAIR;
        let object = object + turn(number * 7 % 16, 2);
        Record::check(a_clerk(number), operation, object)
    });
    let name = "56 check, by a role 32 below the active one";
    at_desk(name, desk_of_seniors(), Vec::new(), stream.collect())
}

/// Each clerk's commit to an object on one side of the walls.
fn committed(subject: u16) -> Record {
    let (operation, object) = walled_pair(2 * (subject % 8));
    Record::commit(subject, operation, object)
}

/// Access checks of objects; every other object is in the walls, if the policy has any.
fn checks_of_books(name: &str, policy: Policy) -> Workload {
    let stream = (0..LENGTH).map(|number| {
        let (operation, object) = walled_pair(turn(number * 7, WALLED));
        Record::check(a_clerk(number), operation, object)
    });
    let more = (0..96).map(|number| committed(a_clerk(number))).collect();
    at_desk(name, policy, more, stream.collect())
}

/// Commits on the side to which each clerk is bound.
fn commits() -> Workload {
    let stream = (0..LENGTH).map(|number| committed(a_clerk(number)));
    let name = "59 commit, 16 walls of 16 objects";
    at_desk(name, desk_of_walls(), Vec::new(), stream.collect())
}

/// A thousand held tasks: the task that has been held longest is released and claimed again.
fn oldest_first() -> Workload {
    let held = || {
        let every = WIDE_TASKS.flat_map(|task| (0..64).map(move |order| (order, task)));
        every.take(1000).enumerate()
    };
    let claim = |(number, (order, task))| Record::claim(a_clerk(number), order, task);
    let again = |(number, (order, task))| {
        let (claim, release) = (Record::claim, Record::release);
        let subject = a_clerk(number);
        [release(subject, order, task), claim(subject, order, task)]
    };
    let open = (0..64).map(|order| Record::open_order(order, WIDE));
    Workload {
        name: String::from("51, 50 release the oldest of 1,000 entries, claim it again"),
        policy: desk().records,
        setup: [
            clerks(SUBJECTS_LIVE),
            open.chain(held().map(claim)).collect(),
        ]
        .concat(),
        timed: Timed::Requests(held().flat_map(again).collect()),
    }
}

fn ill_formed(number: usize) -> [Record; 2] {
    let user = 1024 + turn(number, 1024);
    [Record::new(99, 0, user, 0, 0, 0), Record::add_user(user)]
}

/// Every kind except the access check, which has a separate table; but the access check with senior roles and with walls is here.
pub fn kinds() -> Vec<Workload> {
    let plainly = |name, pair| at_desk(name, desk(), Vec::new(), pairs(pair));
    let all_rules = |name, pair| at_desk(name, desk_of_all_rules(), Vec::new(), pairs(pair));
    let seniors = |name, pair| at_desk(name, desk_of_seniors(), Vec::new(), pairs(pair));
    let claims = |name, policy| at_desk(name, policy, open_all(RULED), pairs(claim_and_release));
    vec![
        plainly("32, 33 add a user, delete it", add_and_delete),
        plainly("34, 35 assign a role, take it back", assign_and_take),
        all_rules("34, 35 the same, 32 static sets", assign_and_take),
        seniors("34, 35 the same, 64 roles above others", assign_and_take),
        plainly("36, 37 give a permission, take it back", give_and_take),
        plainly("40, 41 create a subject, destroy it", create_and_destroy),
        all_rules("40, 41 the same, 32 dynamic sets", create_and_destroy),
        seniors("40, 41 the same, 64 roles above others", create_and_destroy),
        plainly(
            "42, 43 activate a role, deactivate it",
            activate_and_deactivate,
        ),
        all_rules("42, 43 the same, 32 dynamic sets", activate_and_deactivate),
        plainly("48, 49 open an order, end it", open_and_end),
        claims("50, 51 claim a task, release it", desk()),
        claims(
            "50, 51 the same, as many rules as there is room for",
            desk_of_all_rules(),
        ),
        claims("50, 51 the same, 64 roles above others", desk_of_seniors()),
        oldest_first(),
        checks_of_seniors(),
        checks_of_books("56 check of 16 objects", desk_of_books()),
        checks_of_books("56 the same, 16 walls of these objects", desk_of_walls()),
        commits(),
        task_checks(),
        plainly("refused by SHAPE or RANGE", ill_formed),
    ]
}
