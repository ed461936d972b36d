//! Open instances, their entries, and the rules that a claim must keep.

use crate::ledger::{Ledger, View, ENTRIES};
use crate::policy::{bit, Policy};
use crate::record::Record;
use crate::reply::{refuse, refuse_at, Outcome, Refusal, Reply};
use crate::sessions::Sessions;

#[derive(Clone, PartialEq, Debug)]
pub(crate) struct Orders<L> {
    template: [Option<u8>; 64],
    pub ledger: L,
}

/// The subject, instance and task that a record of kind 50, 51, 52 or 57 names.
struct Named {
    subject: u8,
    instance: u8,
    task: u8,
    user: u16,
    template: u8,
}

impl<L: Ledger> Orders<L> {
    pub fn empty() -> Self {
        Orders {
            template: [None; 64],
            ledger: L::empty(),
        }
    }

    pub fn clear(&mut self) {
        self.template = [None; 64];
        self.ledger.clear();
    }

    /// Kind 48: opens an order.
    pub fn open(&mut self, policy: &Policy, instance: usize, template: u8) -> Outcome {
        let no_task = policy.tasks_of[usize::from(template)] == 0;
        refuse(Reply::Unknown, no_task)?;
        refuse(Reply::Taken, self.template[instance].is_some())?;
        self.template[instance] = Some(template);
        Ok(())
    }

    /// Kind 49: ends an order.
    pub fn end(&mut self, instance: u8) -> Outcome {
        let open = &mut self.template[usize::from(instance)];
        refuse(Reply::Unknown, open.is_none())?;
        refuse(Reply::InUse, self.ledger.any_held(instance))?;
        *open = None;
        self.ledger.end(instance);
        Ok(())
    }

    /// What the record names. Refuses with UNKNOWN unless the subject is live, the instance is open and the task is of its
    /// template.
    fn named(&self, policy: &Policy, sessions: &Sessions, r: Record) -> Result<Named, Refusal> {
        let user = sessions.user_of(usize::from(r.a))?;
        let template = self.template[usize::from(r.b)].ok_or(Reply::Unknown)?;
        let of_it = policy.is_task_of(usize::from(r.c), template);
        refuse(Reply::Unknown, !of_it)?;
        Ok(Named {
            subject: r.a as u8,
            instance: r.b as u8,
            task: r.c as u8,
            user,
            template,
        })
    }

    /// Kind 50: a subject claims a task.
    pub fn claim(&mut self, policy: &Policy, sessions: &Sessions, r: Record) -> Outcome {
        let by = self.named(policy, sessions, r)?;
        let view = self.ledger.view(by.instance, by.user, by.task);
        let task = usize::from(by.task);
        refuse(Reply::Taken, view.held & bit(task) != 0)?;
        let acting = sessions.acting(usize::from(by.subject));
        refuse(Reply::NoRole, acting & policy.of_task[task].open_to == 0)?;
        claim_rules(policy, by.template, task, view)?;
        refuse(Reply::Full, self.ledger.in_use() == ENTRIES)?;
        self.ledger.enter(by.instance, by.user, by.task, by.subject);
        Ok(())
    }

    /// Kind 51: a subject gives back a task that it holds.
    pub fn release(&mut self, policy: &Policy, sessions: &Sessions, r: Record) -> Outcome {
        let by = self.named(policy, sessions, r)?;
        let released = self.ledger.release(by.instance, by.task, by.subject);
        refuse(Reply::NotYours, !released)
    }

    /// Kind 52: a subject completes a task that it holds.
    pub fn finish(&mut self, policy: &Policy, sessions: &Sessions, r: Record) -> Outcome {
        let by = self.named(policy, sessions, r)?;
        let finished = self.ledger.finish(by.instance, by.task, by.subject);
        refuse(Reply::NotYours, !finished)
    }

    /// Kind 57: whether the task that the subject holds carries the permission.
    pub fn task_check(&self, policy: &Policy, sessions: &Sessions, r: Record) -> Outcome {
        let by = self.named(policy, sessions, r)?;
        let holds = self.ledger.holds(by.instance, by.task, by.subject);
        refuse(Reply::NotYours, !holds)?;
        let (operation, object) = (r.m as u16, (r.m >> 16) as u16);
        let carrying = policy
            .permissions
            .find(operation, object)
            .map_or(0, |permission| policy.permissions.carried_by[permission]);
        refuse(Reply::Denied, carrying & bit(usize::from(by.task)) == 0)
    }

    /// Kind 58: the number of entries of an open order, and the set of its done tasks.
    pub fn figures(&self, instance: u8) -> Result<Vec<u64>, Refusal> {
        let open = self.template[usize::from(instance)].is_some();
        refuse(Reply::Unknown, !open)?;
        let (entries, done) = self.ledger.figures(instance);
        Ok(vec![entries as u64, done])
    }
}

/// The six claim rules, in the order in which they are checked.
fn claim_rules(policy: &Policy, template: u8, task: usize, view: View) -> Outcome {
    let rules = &policy.of_task[task];
    let mine_other = view.mine & !bit(task);
    refuse_at(Reply::Before, rules.needs & !view.done != 0, || {
        first(policy.prerequisites.rows(), |&(before, after)| {
            after == task && view.done & bit(before) == 0
        })
    })?;
    let separated = separated(policy, rules.sets, mine_other);
    refuse_at(Reply::Separation, separated != 0, || separated)?;
    refuse_at(Reply::Block, rules.other_blocks & view.mine != 0, || {
        left_block(policy, task, view.mine)
    })?;
    let banned = policy.banned & 1 << template != 0;
    let tasks = policy.tasks_of[usize::from(template)];
    let governed = banned && tasks.count_ones() >= 2;
    let rest = tasks & !bit(task);
    refuse(Reply::Alone, governed && rest & !view.mine == 0)?;
    refuse_at(Reply::Bound, rules.bound_with & view.others != 0, || {
        first(policy.bindings.rows(), |&(one, other)| {
            (one == task && view.others & bit(other) != 0)
                || (other == task && view.others & bit(one) != 0)
        })
    })?;
    refuse(
        Reply::Count,
        rules.limit != 0 && view.count >= u32::from(rules.limit),
    )
}

/// The place, from 1, of the first broken rule.
#[cold]
fn first<T>(rules: &[T], broken: impl Fn(&T) -> bool) -> usize {
    rules.iter().position(broken).map_or(0, |before| before + 1)
}

/// The place, from 1, of the first of these task sets that has n or more members in `mine_other`; 0 if there is none.
fn separated(policy: &Policy, sets: u32, mine_other: u64) -> usize {
    let mut left = sets;
    while left != 0 {
        let before = left.trailing_zeros() as usize;
        let set = policy.task_sets.rows()[before];
        if (set.members & mine_other).count_ones() >= u32::from(set.n) {
            return before + 1;
        }
        left &= left - 1;
    }
    0
}

/// The place, from 1 among all blocks, of the block that a BLOCK refusal reports. The search takes the first partitioning that
/// has the task in one block and a task of `mine` in another, and returns the first such other block.
#[cold]
fn left_block(policy: &Policy, task: usize, mine: u64) -> usize {
    let blocks = policy.blocks.rows();
    let places = (0..16).filter(|&partitioning| policy.in_blocks[partitioning] & bit(task) != 0);
    let of = |partitioning| {
        first(blocks, |&(of, tasks)| {
            of == partitioning && tasks & bit(task) == 0 && tasks & mine != 0
        })
    };
    places.map(of).find(|&place| place != 0).unwrap_or(0)
}
