//! What the public calls reveal about the tables. After a case, every engine gets the same requests about everything that the
//! case could have changed. Each group of requests runs on copies of the engines.

use crate::cases::{Question, Step};
use crate::desks::{Difference, Panel};
use crate::pools::Pools;
use records::{Record, Set};

/// The request that the engines answered differently, after those made before it on the same copies.
pub struct Found {
    pub asked: Vec<Step>,
    pub difference: Difference,
}

type Walked = Result<(), Box<Found>>;

/// Makes all requests in sequence on one copy of the panel.
fn ask(panel: &Panel, records: impl IntoIterator<Item = Record>) -> Walked {
    let mut copy = panel.copy();
    let mut asked = Vec::new();
    for record in records {
        asked.push(Step::Request(record.0.to_vec()));
        if let Err(difference) = copy.request(&record.0) {
            return Err(Box::new(Found { asked, difference }));
        }
    }
    Ok(())
}

/// Puts questions to the panel, which they do not change.
fn ask_figures(panel: &Panel, records: impl IntoIterator<Item = Record>) -> Walked {
    for question in records.into_iter().map(Question::of) {
        if let Err(difference) = panel.question(&question) {
            let asked = vec![Step::Question(question)];
            return Err(Box::new(Found { asked, difference }));
        }
    }
    Ok(())
}

/// The numbers, and one that is not among them.
fn and_one_more(numbers: &[u16], last: u16) -> Vec<u16> {
    let other = (0..=last).rev().find(|n| !numbers.contains(n));
    let few = &numbers[..numbers.len().min(12)];
    few.iter().copied().chain(other).collect()
}

fn pairs<'a>(one: &'a [u16], other: &'a [u16]) -> impl Iterator<Item = (u16, u16)> + 'a {
    one.iter().flat_map(|&a| other.iter().map(move |&b| (a, b)))
}

fn people(panel: &Panel, pools: &Pools) -> Walked {
    let users = and_one_more(&pools.users, 1023);
    let roles = and_one_more(&pools.roles, 63);
    let permissions = and_one_more(&pools.permissions, 255);
    ask(panel, (0..1024).map(Record::add_user))?;
    ask(panel, users.iter().map(|&u| Record::delete_user(u)))?;
    ask(
        panel,
        pairs(&users, &roles).map(|(u, r)| Record::assign_role(u, r)),
    )?;
    ask(
        panel,
        pairs(&users, &roles).map(|(u, r)| Record::take_role(u, r)),
    )?;
    let given = pairs(&roles, &permissions);
    ask(panel, given.map(|(r, p)| Record::give_permission(r, p)))?;
    let given = pairs(&roles, &permissions);
    ask(panel, given.map(|(r, p)| Record::take_permission(r, p)))
}

fn sessions(panel: &Panel, pools: &Pools) -> Walked {
    let subjects = and_one_more(&pools.subjects, 127);
    let roles = and_one_more(&pools.roles, 63);
    let active = || pairs(&subjects, &roles);
    let user = pools.users[0];
    let live = |s| Record::create_subject(s, user, Set::EMPTY);
    ask(panel, (0..128).map(live))?;
    ask(panel, (0..128).map(Record::destroy_subject))?;
    ask(panel, active().map(|(s, r)| Record::activate_role(s, r)))?;
    ask(panel, active().map(|(s, r)| Record::deactivate_role(s, r)))?;
    let each_with = |(u, r): (u16, u16)| {
        let roles = Set::EMPTY.with(r as u8);
        [
            Record::create_subject(127, u, roles),
            Record::destroy_subject(127),
        ]
    };
    let users = and_one_more(&pools.users, 1023);
    ask(panel, pairs(&users, &roles).flat_map(each_with))?;
    let checks = subjects.iter().flat_map(|&s| {
        let asked = pairs(&pools.operations, &pools.objects);
        asked.map(move |(operation, object)| Record::check(s, operation, object))
    });
    ask(panel, checks)
}

fn orders(panel: &Panel, pools: &Pools) -> Walked {
    let subjects = and_one_more(&pools.subjects, 127);
    let orders = and_one_more(&pools.orders, 63);
    let tasks = and_one_more(&pools.tasks, 63);
    let all = |make: fn(u16, u16, u16) -> Record| -> Vec<Record> {
        let of = subjects.iter().flat_map(|&s| {
            let named = pairs(&orders, &tasks);
            named.map(move |(order, task)| make(s, order, task))
        });
        of.collect()
    };
    let template = pools.templates[0];
    ask_figures(panel, (0..65).map(Record::entries_of))?;
    ask_figures(panel, (0..17).map(Record::stuck_tasks))?;
    ask(
        panel,
        (0..64).map(|order| Record::open_order(order, template)),
    )?;
    ask(panel, (0..64).map(Record::end_order))?;
    // The claimed task is released at once, so that it does not affect the next claim.
    let claim = |r: Record| [r, Record::release(r.a(), r.b(), r.c())];
    ask(panel, all(Record::claim).into_iter().flat_map(claim))?;
    ask(panel, all(Record::release))?;
    // All held tasks are completed. Then every prerequisite, set and limit is tested again, and all orders end.
    let finished = [all(Record::done), all(Record::claim), all(Record::done)].concat();
    let end = orders.iter().map(|&order| Record::end_order(order));
    ask(panel, finished.into_iter().chain(end))?;
    let pair = (pools.operations[0], pools.objects[0]);
    let carried = |r: Record| Record::task_check(r.a(), r.b(), r.c(), pair.0, pair.1);
    ask(panel, all(Record::claim).into_iter().map(carried))
}

/// Counts the free entries: repeats the first claim that can be repeated until it is refused.
pub fn count_free(panel: &Panel, pools: &Pools) -> Walked {
    for &subject in &pools.subjects {
        for (order, task) in pairs(&pools.orders, &pools.tasks) {
            let claim = Record::claim(subject, order, task);
            let done = Record::done(subject, order, task);
            let mut copy = panel.copy();
            let granted = |answer| matches!(answer, Ok((0, _)));
            let repeats =
                (0..3).all(|_| granted(copy.request(&claim.0)) && granted(copy.request(&done.0)));
            if repeats {
                return ask(panel, (0..2050).flat_map(|_| [claim, done]));
            }
        }
    }
    Ok(())
}

pub fn walk(panel: &Panel, pools: &Pools) -> Walked {
    people(panel, pools)?;
    sessions(panel, pools)?;
    orders(panel, pools)
}
