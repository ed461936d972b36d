//! Open orders, their entries, and the rules that a claim must keep.

use super::forms::Record;
use super::policy::{Policy, TaskRules};
use super::sessions::Sessions;
use super::{bit, has, or_else, reply::*, when};

const ENTRIES: usize = 2048;
const NOBODY: u8 = u8::MAX;

/// An order and its entries. Its held and done tasks are kept as sets, so an entry is only a user and a task.
#[derive(Clone)]
struct Order {
    /// The tasks of its template; empty if the order is not open.
    tasks: u64,
    held: u64,
    done: u64,
    entries: Vec<Entry>,
    holder: [u8; 64],
}

#[derive(Clone, Copy, PartialEq)]
struct Entry(u16);

impl Entry {
    fn new(user: u16, task: usize) -> Entry {
        Entry(user << 6 | task as u16)
    }

    fn user(self) -> u16 {
        self.0 >> 6
    }

    fn task(self) -> usize {
        usize::from(self.0 & 63)
    }
}

/// What the entries of an order say about a claim.
#[derive(Default)]
struct View {
    mine: u64,
    others: u64,
    count: u32,
}

impl Order {
    fn closed() -> Order {
        Order {
            tasks: 0,
            held: 0,
            done: 0,
            entries: Vec::with_capacity(16),
            holder: [NOBODY; 64],
        }
    }

    fn close(&mut self) {
        self.tasks = 0;
        self.held = 0;
        self.done = 0;
        self.entries.clear();
    }

    fn view(&self, user: u16, task: usize) -> View {
        let mut view = View::default();
        for entry in &self.entries {
            let (of, own) = (bit(entry.task()), entry.user() == user);
            view.mine |= if own { of } else { 0 };
            view.others |= if own { 0 } else { of };
            view.count += u32::from(entry.task() == task);
        }
        view
    }

    /// UNKNOWN if the subject is not live or the task is not of the open order.
    fn unknown(&self, sessions: &Sessions, subject: usize, task: usize) -> u32 {
        when(
            !(sessions.is_live(subject) & has(self.tasks, task)),
            UNKNOWN,
        )
    }

    /// UNKNOWN, then NOT YOURS.
    fn hold_reply(&self, sessions: &Sessions, subject: usize, task: usize) -> u32 {
        let yours = has(self.held, task) & (usize::from(self.holder[task & 63]) == subject);
        or_else(
            self.unknown(sessions, subject, task),
            when(!yours, NOT_YOURS),
        )
    }
}

#[derive(Clone)]
pub struct Orders {
    orders: Vec<Order>,
    in_use: usize,
    of_user: [u16; 1024],
    held_by: [u16; 128],
}

impl Orders {
    pub fn empty() -> Orders {
        Orders {
            orders: vec![Order::closed(); 64],
            in_use: 0,
            of_user: [0; 1024],
            held_by: [0; 128],
        }
    }

    pub fn clear(&mut self) {
        self.orders.iter_mut().for_each(Order::close);
        self.in_use = 0;
        self.of_user = [0; 1024];
        self.held_by = [0; 128];
    }

    pub fn is_open(&self, order: usize) -> bool {
        self.orders[order].tasks != 0
    }

    pub fn has_entry(&self, user: usize) -> bool {
        self.of_user[user] != 0
    }

    pub fn holds_any(&self, subject: usize) -> bool {
        self.held_by[subject] != 0
    }

    /// Kind 48: opens an order.
    pub fn open(&mut self, policy: &Policy, order: usize, template: usize) -> u32 {
        let tasks = policy.tasks_of[template];
        let open = self.is_open(order);
        let reply = or_else(when(tasks == 0, UNKNOWN), when(open, TAKEN));
        if reply == GRANTED {
            self.orders[order].tasks = tasks;
        }
        reply
    }

    /// Kind 49: ends an order.
    pub fn end(&mut self, order: usize) -> u32 {
        let o = &mut self.orders[order];
        let reply = or_else(when(o.tasks == 0, UNKNOWN), when(o.held != 0, IN_USE));
        if reply == GRANTED {
            self.in_use -= o.entries.len();
            for entry in &o.entries {
                self.of_user[usize::from(entry.user())] -= 1;
            }
            o.close();
        }
        reply
    }

    /// Kind 50: a subject claims a task.
    pub fn claim(&mut self, policy: &Policy, sessions: &Sessions, r: Record) -> u32 {
        let (subject, task) = (r.a(), r.c());
        let order = &mut self.orders[r.b()];
        let rules = &policy.rules[task & 63];
        let closed_to = rules.open_to & sessions.acting(subject) == 0;
        let first = or_else(
            order.unknown(sessions, subject, task),
            when(has(order.held, task), TAKEN),
        );
        let then = or_else(
            when(closed_to, NO_ROLE),
            when(rules.needs & !order.done != 0, BEFORE),
        );
        let reply = or_else(first, then);
        if reply != GRANTED {
            return with_place(policy, reply, order.done, task);
        }
        let user = sessions.user_of(subject);
        if rules.asks {
            let reply = ruled(policy, rules, &order.view(user, task), task);
            if reply != GRANTED {
                return reply;
            }
        }
        if self.in_use == ENTRIES {
            return FULL;
        }
        order.held |= bit(task);
        order.holder[task & 63] = subject as u8;
        order.entries.push(Entry::new(user, task));
        self.in_use += 1;
        self.of_user[usize::from(user)] += 1;
        self.held_by[subject] += 1;
        GRANTED
    }

    /// Kind 51: a subject gives back a task that it holds.
    pub fn release(&mut self, sessions: &Sessions, r: Record) -> u32 {
        let (subject, task) = (r.a(), r.c());
        let order = &mut self.orders[r.b()];
        let reply = order.hold_reply(sessions, subject, task);
        if reply == GRANTED {
            let user = sessions.user_of(subject);
            let entry = Entry::new(user, task);
            let newest = order.entries.iter().rposition(|&e| e == entry);
            order
                .entries
                .swap_remove(newest.expect("a held task has an entry"));
            order.held &= !bit(task);
            self.in_use -= 1;
            self.of_user[usize::from(user)] -= 1;
            self.held_by[subject] -= 1;
        }
        reply
    }

    /// Kind 52: a subject completes a task that it holds.
    pub fn finish(&mut self, sessions: &Sessions, r: Record) -> u32 {
        let (subject, task) = (r.a(), r.c());
        let order = &mut self.orders[r.b()];
        let reply = order.hold_reply(sessions, subject, task);
        if reply == GRANTED {
            order.held &= !bit(task);
            order.done |= bit(task);
            self.held_by[subject] -= 1;
        }
        reply
    }

    /// Kind 57: whether the task that the subject holds carries the permission.
    pub fn task_check(&self, policy: &Policy, sessions: &Sessions, r: Record) -> u32 {
        let task = r.c();
        let (found, carriers) = policy.carriers.probe(r.m() as u32);
        let reply = self.orders[r.b()].hold_reply(sessions, r.a(), task);
        or_else(reply, when(!(found & has(carriers, task)), DENIED))
    }

    /// Kind 58: the number of entries of an open order, and the set of its done tasks.
    pub fn figures(&self, order: usize) -> Result<Vec<u64>, u32> {
        let o = &self.orders[order];
        match self.is_open(order) {
            true => Ok(vec![o.entries.len() as u64, o.done]),
            false => Err(UNKNOWN),
        }
    }
}

/// The claim rules that depend on entries, in the order in which they are checked.
fn ruled(policy: &Policy, rules: &TaskRules, view: &View, task: usize) -> u32 {
    let crowded = policy.task_sets.crowded(task, view.mine & !bit(task));
    if crowded != 0 {
        return SEPARATION | crowded << 8;
    }
    let block = when(rules.other_blocks & view.mine != 0, BLOCK);
    let alone = rules.alone != 0 && rules.alone & !view.mine == 0;
    let bound = when(rules.bound_with & view.others != 0, BOUND);
    let full = rules.limit != 0 && view.count >= u32::from(rules.limit);
    let first = or_else(block, when(alone, ALONE));
    let reply = or_else(first, or_else(bound, when(full, COUNT)));
    match reply {
        GRANTED => GRANTED,
        BLOCK => BLOCK | left_block(policy, task, view.mine) << 8,
        BOUND => BOUND | broken_binding(policy, task, view.others) << 8,
        reply => reply,
    }
}

/// The place, from 1, of the first row for which `fault` is true.
fn place<T>(rows: &[T], fault: impl Fn(&T) -> bool) -> u32 {
    rows.iter().position(fault).map_or(0, |at| at as u32 + 1)
}

/// Adds the place of the first missing prerequisite if the reply is BEFORE.
#[cold]
fn with_place(policy: &Policy, reply: u32, done: u64, task: usize) -> u32 {
    let missing = |&(before, after): &(usize, usize)| after == task && !has(done, before);
    match reply {
        BEFORE => BEFORE | place(&policy.prerequisites, missing) << 8,
        reply => reply,
    }
}

#[cold]
fn broken_binding(policy: &Policy, task: usize, others: u64) -> u32 {
    place(&policy.bindings, |&(one, other)| {
        (one == task && has(others, other)) || (other == task && has(others, one))
    })
}

/// The place of the block at which the search of document 01 ends: partitionings by number, blocks in policy order.
#[cold]
fn left_block(policy: &Policy, task: usize, mine: u64) -> u32 {
    let having = (0..16).filter(|&partitioning| has(policy.in_blocks[partitioning], task));
    let mut places = having.map(|partitioning| {
        place(&policy.blocks, |&(of, tasks)| {
            of == partitioning && !has(tasks, task) && tasks & mine != 0
        })
    });
    places.find(|&place| place != 0).unwrap_or(0)
}

#[cfg(test)]
mod tests {
    use super::super::members;
    use super::Entry;

    #[test]
    fn an_entry_keeps_every_user_and_task() {
        for user in [0, 44, 300, 1023] {
            for task in members(!0) {
                let entry = Entry::new(user, task);
                assert_eq!((entry.user(), entry.task()), (user, task));
            }
        }
    }
}
