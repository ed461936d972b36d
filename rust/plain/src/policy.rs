//! The policy's tables and the eighteen kinds of record that fill them in a load.
//! Rules about tasks are also indexed by task, so that a claim tests a mask instead of scanning a list. The roles at or below
//! each role are stored too.

use crate::permissions::Permissions;
use crate::record::Record;
use crate::reply::{refuse, Outcome, Refusal, Reply};
use crate::walls::Walls;

/// The one-member set of role or task `i`.
pub(crate) const fn bit(i: usize) -> u64 {
    1 << i
}

/// The members of a set, in ascending order.
pub(crate) fn members(mut set: u64) -> impl Iterator<Item = usize> {
    std::iter::from_fn(move || {
        let lowest = (set != 0).then(|| set.trailing_zeros() as usize)?;
        set &= set - 1;
        Some(lowest)
    })
}

/// The rules of one kind in policy order, at most `MAX`.
#[derive(Clone, PartialEq, Debug)]
pub(crate) struct Rules<T, const MAX: usize> {
    rows: [T; MAX],
    used: usize,
}

impl<T: Copy + PartialEq, const MAX: usize> Rules<T, MAX> {
    const fn none(blank: T) -> Self {
        Rules {
            rows: [blank; MAX],
            used: 0,
        }
    }

    pub fn rows(&self) -> &[T] {
        &self.rows[..self.used]
    }

    fn has(&self, rule: T) -> bool {
        self.rows().contains(&rule)
    }

    fn full(&self) -> bool {
        self.used == MAX
    }

    fn push(&mut self, rule: T) {
        self.rows[self.used] = rule;
        self.used += 1;
    }
}

/// A static, dynamic or task set: at most `n` of `members`.
#[derive(Clone, Copy, PartialEq, Debug)]
pub(crate) struct AtMost {
    pub n: u8,
    pub members: u64,
}

impl AtMost {
    const BLANK: AtMost = AtMost { n: 0, members: 0 };

    fn ill_made(self) -> bool {
        self.n == 0 || u32::from(self.n) >= self.members.count_ones()
    }

    pub fn broken_by(self, roles: u64) -> bool {
        (self.members & roles).count_ones() > u32::from(self.n)
    }
}

/// What the rules require of a claim of one task.
#[derive(Clone, Copy, PartialEq, Debug)]
pub(crate) struct TaskRules {
    /// The roles that open it.
    pub open_to: u64,
    /// The tasks required before it.
    pub needs: u64,
    /// The task sets that contain it, as bits by their place.
    pub sets: u32,
    /// The tasks of the other blocks, over all partitionings that have this task in a block.
    pub other_blocks: u64,
    /// The tasks bound to it, on either side of the binding.
    pub bound_with: u64,
    /// The largest number of entries; 0 if there is no limit.
    pub limit: u8,
}

const FREE_TASK: TaskRules = TaskRules {
    open_to: 0,
    needs: 0,
    sets: 0,
    other_blocks: 0,
    bound_with: 0,
    limit: 0,
};

#[derive(Clone, PartialEq, Debug)]
pub(crate) struct Policy {
    pub is_user: [bool; 1024],
    /// Empty for a number that is not a user.
    pub assigned: [u64; 1024],
    pub roles: u64,
    pub permissions: Permissions,
    pub tasks: u64,
    pub template_of: [u8; 64],
    pub tasks_of: [u64; 16],
    pub of_task: [TaskRules; 64],
    pub banned: u16,
    pub static_sets: Rules<AtMost, 32>,
    pub dynamic_sets: Rules<AtMost, 32>,
    pub task_sets: Rules<AtMost, 32>,
    pub blocks: Rules<(usize, u64), 64>,
    /// The tasks of all blocks of each partitioning.
    pub in_blocks: [u64; 16],
    pub bindings: Rules<(usize, usize), 64>,
    pub prerequisites: Rules<(usize, usize), 64>,
    /// The pairs of senior and junior role, as the records state them.
    pub seniorities: Rules<(usize, usize), 64>,
    /// For each role, the role itself and all roles below it.
    down_of: [u64; 64],
    pub walls: Walls,
}

/// The value of `down_of` without senior roles: each role alone.
const ALONE: [u64; 64] = {
    let mut down_of = [0; 64];
    let mut role = 0;
    while role < 64 {
        down_of[role] = bit(role);
        role += 1;
    }
    down_of
};

/// These roles and all roles below them, by the given table.
fn down(down_of: &[u64; 64], roles: u64) -> u64 {
    members(roles).fold(0, |all, role| all | down_of[role])
}

impl Policy {
    pub const EMPTY: Policy = Policy {
        is_user: [false; 1024],
        assigned: [0; 1024],
        roles: 0,
        permissions: Permissions::NONE,
        tasks: 0,
        template_of: [0; 64],
        tasks_of: [0; 16],
        of_task: [FREE_TASK; 64],
        banned: 0,
        static_sets: Rules::none(AtMost::BLANK),
        dynamic_sets: Rules::none(AtMost::BLANK),
        task_sets: Rules::none(AtMost::BLANK),
        blocks: Rules::none((0, 0)),
        in_blocks: [0; 16],
        bindings: Rules::none((0, 0)),
        prerequisites: Rules::none((0, 0)),
        seniorities: Rules::none((0, 0)),
        down_of: ALONE,
        walls: Walls::NONE,
    };

    pub fn has_role(&self, role: usize) -> bool {
        self.roles & bit(role) != 0
    }

    fn has_task(&self, task: usize) -> bool {
        self.tasks & bit(task) != 0
    }

    /// Whether the task is declared and belongs to this template.
    pub fn is_task_of(&self, task: usize, template: u8) -> bool {
        self.tasks_of[usize::from(template)] & bit(task) != 0
    }

    /// These roles and all roles below them.
    pub fn down(&self, roles: u64) -> u64 {
        if self.seniorities.rows().is_empty() {
            roles
        } else {
            down(&self.down_of, roles)
        }
    }

    /// Whether roles, with all below them, break a static set.
    pub fn breaks_static(&self, roles: u64) -> bool {
        let counted = self.down(roles);
        self.static_sets.rows().iter().any(|s| s.broken_by(counted))
    }

    /// Whether roles, with all below them, break a dynamic set.
    pub fn breaks_dynamic(&self, roles: u64) -> bool {
        let counted = self.down(roles);
        let mut sets = self.dynamic_sets.rows().iter();
        sets.any(|s| s.broken_by(counted))
    }

    /// The template of these tasks; `None` if they belong to several, or if there are none.
    fn one_template(&self, tasks: u64) -> Option<u8> {
        let first = members(tasks).next()?;
        let template = self.template_of[first];
        (tasks & !self.tasks_of[usize::from(template)] == 0).then_some(template)
    }

    /// Adds one policy record, whose form is already checked.
    pub fn take(&mut self, r: Record) -> Outcome {
        let (a, b) = (usize::from(r.a), usize::from(r.b));
        let set = AtMost {
            n: r.n,
            members: r.m,
        };
        match r.kind {
            1 => self.user(a),
            2 => self.role(a),
            3 => self.permission(a, r.b, r.c),
            4 => self.assign(a, b),
            5 => self.give(a, b),
            6 => self.task(a, r.b as u8),
            7 => self.open(a, b),
            8 => self.carry(a, b),
            9 => self.static_set(set),
            10 => self.dynamic_set(set),
            11 => self.task_set(set),
            12 => self.block(a, r.m),
            13 => self.ban(a),
            14 => self.at_most(a, r.n),
            15 => self.bind(a, b),
            16 => self.before(a, b),
            17 => self.above(a, b),
            _ => self.walls.take(a, b as u8, r.c),
        }
    }

    fn user(&mut self, user: usize) -> Outcome {
        refuse(Reply::Taken, self.is_user[user])?;
        self.is_user[user] = true;
        Ok(())
    }

    /// Kind 32: adds a user with roles, all or nothing.
    pub fn join(&mut self, user: usize, roles: u64) -> Outcome {
        refuse(Reply::Unknown, roles & !self.roles != 0)?;
        refuse(Reply::Taken, self.is_user[user])?;
        refuse(Reply::Static, self.breaks_static(roles))?;
        self.is_user[user] = true;
        self.assigned[user] = roles;
        Ok(())
    }

    fn role(&mut self, role: usize) -> Outcome {
        refuse(Reply::Taken, self.has_role(role))?;
        self.roles |= bit(role);
        Ok(())
    }

    fn permission(&mut self, permission: usize, operation: u16, object: u16) -> Outcome {
        let pair_taken = self.permissions.find(operation, object).is_some();
        refuse(Reply::Taken, self.permissions.has(permission) || pair_taken)?;
        self.permissions.declare(permission, operation, object);
        Ok(())
    }

    /// Kinds 4 and 34: assigns a role to a user.
    pub fn assign(&mut self, user: usize, role: usize) -> Outcome {
        refuse(Reply::Unknown, !self.is_user[user] || !self.has_role(role))?;
        let now = self.assigned[user];
        refuse(Reply::Taken, now & bit(role) != 0)?;
        refuse(Reply::Static, self.breaks_static(now | bit(role)))?;
        self.assigned[user] = now | bit(role);
        Ok(())
    }

    /// Kinds 5 and 36: gives a role a permission.
    pub fn give(&mut self, role: usize, permission: usize) -> Outcome {
        let known = self.has_role(role) && self.permissions.has(permission);
        refuse(Reply::Unknown, !known)?;
        let roles = &mut self.permissions.given_to[permission];
        refuse(Reply::Taken, *roles & bit(role) != 0)?;
        *roles |= bit(role);
        Ok(())
    }

    /// Kind 37: takes a permission back from a role.
    pub fn take_permission(&mut self, role: usize, permission: usize) -> Outcome {
        let roles = &mut self.permissions.given_to[permission];
        refuse(Reply::Unknown, *roles & bit(role) == 0)?;
        *roles &= !bit(role);
        Ok(())
    }

    fn task(&mut self, task: usize, template: u8) -> Outcome {
        refuse(Reply::Taken, self.has_task(task))?;
        self.tasks |= bit(task);
        self.template_of[task] = template;
        self.tasks_of[usize::from(template)] |= bit(task);
        Ok(())
    }

    fn open(&mut self, task: usize, role: usize) -> Outcome {
        refuse(Reply::Unknown, !self.has_task(task) || !self.has_role(role))?;
        let roles = &mut self.of_task[task].open_to;
        refuse(Reply::Taken, *roles & bit(role) != 0)?;
        *roles |= bit(role);
        Ok(())
    }

    fn carry(&mut self, task: usize, permission: usize) -> Outcome {
        let known = self.has_task(task) && self.permissions.has(permission);
        refuse(Reply::Unknown, !known)?;
        let tasks = &mut self.permissions.carried_by[permission];
        refuse(Reply::Taken, *tasks & bit(task) != 0)?;
        *tasks |= bit(task);
        Ok(())
    }

    fn static_set(&mut self, set: AtMost) -> Outcome {
        refuse(Reply::Unknown, set.members & !self.roles != 0)?;
        refuse(Reply::Taken, self.static_sets.has(set))?;
        refuse(Reply::Rule, set.ill_made())?;
        let mut assigned = self.assigned.iter();
        let broken = assigned.any(|&roles| set.broken_by(self.down(roles)));
        refuse(Reply::Static, broken)?;
        refuse(Reply::Full, self.static_sets.full())?;
        self.static_sets.push(set);
        Ok(())
    }

    fn dynamic_set(&mut self, set: AtMost) -> Outcome {
        refuse(Reply::Unknown, set.members & !self.roles != 0)?;
        refuse(Reply::Taken, self.dynamic_sets.has(set))?;
        refuse(Reply::Rule, set.ill_made())?;
        refuse(Reply::Full, self.dynamic_sets.full())?;
        self.dynamic_sets.push(set);
        Ok(())
    }

    fn task_set(&mut self, set: AtMost) -> Outcome {
        refuse(Reply::Unknown, set.members & !self.tasks != 0)?;
        refuse(Reply::Taken, self.task_sets.has(set))?;
        let mixed = self.one_template(set.members).is_none();
        refuse(Reply::Rule, set.ill_made() || mixed)?;
        refuse(Reply::Full, self.task_sets.full())?;
        for task in members(set.members) {
            self.of_task[task].sets |= 1 << self.task_sets.rows().len();
        }
        self.task_sets.push(set);
        Ok(())
    }

    fn block(&mut self, partitioning: usize, tasks: u64) -> Outcome {
        refuse(Reply::Unknown, tasks & !self.tasks != 0)?;
        refuse(Reply::Taken, self.blocks.has((partitioning, tasks)))?;
        let earlier = self.in_blocks[partitioning];
        let shared = earlier & tasks != 0;
        let mixed = self.one_template(earlier | tasks).is_none();
        refuse(Reply::Rule, tasks == 0 || shared || mixed)?;
        refuse(Reply::Full, self.blocks.full())?;
        for task in members(tasks) {
            self.of_task[task].other_blocks |= earlier;
        }
        for task in members(earlier) {
            self.of_task[task].other_blocks |= tasks;
        }
        self.in_blocks[partitioning] |= tasks;
        self.blocks.push((partitioning, tasks));
        Ok(())
    }

    fn ban(&mut self, template: usize) -> Outcome {
        refuse(Reply::Unknown, self.tasks_of[template] == 0)?;
        refuse(Reply::Taken, self.banned & 1 << template != 0)?;
        self.banned |= 1 << template;
        Ok(())
    }

    fn at_most(&mut self, task: usize, n: u8) -> Outcome {
        refuse(Reply::Unknown, !self.has_task(task))?;
        refuse(Reply::Taken, self.of_task[task].limit != 0)?;
        refuse(Reply::Rule, n == 0)?;
        self.of_task[task].limit = n;
        Ok(())
    }

    /// Whether two tasks cannot be in one binding or prerequisite.
    fn ill_paired(&self, a: usize, b: usize) -> bool {
        a == b || self.template_of[a] != self.template_of[b]
    }

    fn bind(&mut self, a: usize, b: usize) -> Outcome {
        refuse(Reply::Unknown, !self.has_task(a) || !self.has_task(b))?;
        let taken = self.bindings.has((a, b)) || self.bindings.has((b, a));
        refuse(Reply::Taken, taken)?;
        refuse(Reply::Rule, self.ill_paired(a, b))?;
        refuse(Reply::Full, self.bindings.full())?;
        self.of_task[a].bound_with |= bit(b);
        self.of_task[b].bound_with |= bit(a);
        self.bindings.push((a, b));
        Ok(())
    }

    fn above(&mut self, a: usize, b: usize) -> Outcome {
        refuse(Reply::Unknown, !self.has_role(a) || !self.has_role(b))?;
        refuse(Reply::Taken, self.seniorities.has((a, b)))?;
        refuse(Reply::Rule, a == b)?;
        refuse(Reply::Loop, self.down_of[b] & bit(a) != 0)?;
        let mut raised = self.down_of;
        for below in raised.iter_mut().filter(|below| **below & bit(a) != 0) {
            *below |= self.down_of[b];
        }
        let breaks = |&roles: &u64| {
            let counted = down(&raised, roles);
            self.static_sets.rows().iter().any(|s| s.broken_by(counted))
        };
        refuse(Reply::Static, self.assigned.iter().any(breaks))?;
        refuse(Reply::Full, self.seniorities.full())?;
        self.down_of = raised;
        self.seniorities.push((a, b));
        Ok(())
    }

    /// Kind 60: the tasks of the template that can never be claimed because of prerequisites, the number of the other tasks, and
    /// those in an order in which they can be claimed. At each position this order has the lowest number that is possible there.
    pub fn stuck(&self, template: usize) -> Result<Vec<u64>, Refusal> {
        let tasks = self.tasks_of[template];
        refuse(Reply::Unknown, tasks == 0)?;
        let (mut left, mut free) = (tasks, Vec::new());
        while let Some(next) = members(left).find(|&t| self.of_task[t].needs & left == 0) {
            left &= !bit(next);
            free.push(next as u64);
        }
        Ok([vec![left, free.len() as u64], free].concat())
    }

    fn before(&mut self, a: usize, b: usize) -> Outcome {
        refuse(Reply::Unknown, !self.has_task(a) || !self.has_task(b))?;
        refuse(Reply::Taken, self.prerequisites.has((a, b)))?;
        refuse(Reply::Rule, self.ill_paired(a, b))?;
        refuse(Reply::Full, self.prerequisites.full())?;
        self.of_task[b].needs |= bit(a);
        self.prerequisites.push((a, b));
        Ok(())
    }
}
