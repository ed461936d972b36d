//! The policy's tables, and the eighteen kinds of record that fill them in a load.

use super::blocks::Blocks;
use super::forms::Record;
use super::limits::{exceeds, ill_made, Limits};
use super::perfect::Perfect;
use super::{bit, has, members, or_else, reply::*, when};

/// What the rules require of a claim of one task.
#[derive(Clone, Copy, Default)]
pub struct TaskRules {
    /// The roles that open it.
    pub open_to: u64,
    /// The tasks required before it.
    pub needs: u64,
    /// The tasks of the other blocks, over all partitionings that have this task in a block.
    pub other_blocks: u64,
    /// The tasks bound to it, on either side of the binding.
    pub bound_with: u64,
    /// The other tasks of its template, if the template has a lone-worker ban; else empty.
    pub alone: u64,
    /// The largest number of entries; 0 if there is no limit.
    pub limit: u8,
    /// Whether a rule depends on the entries of the order.
    pub asks: bool,
}

/// A list of at most 64 pairs of tasks or roles, in policy order.
type Pairs = Vec<(usize, usize)>;

#[derive(Clone)]
pub struct Policy {
    users: [bool; 1024],
    pub assigned: [u64; 1024],
    pub roles: u64,
    permissions: [bool; 256],
    pair: [u32; 256],
    given_to: [u64; 256],
    carried_by: [u64; 256],
    /// All pairs of operation and object, and the permission of each.
    pairs: Vec<u32>,
    of_pair: Vec<usize>,
    /// For each pair, the roles that have its permission and the tasks that carry it.
    pub holders: Perfect<u64>,
    pub carriers: Perfect<u64>,
    tasks: u64,
    template_of: [usize; 64],
    pub tasks_of: [u64; 16],
    banned: u64,
    pub rules: [TaskRules; 64],
    static_sets: Limits,
    pub dynamic_sets: Limits,
    pub task_sets: Limits,
    pub blocks: Vec<(usize, u64)>,
    /// The tasks of all blocks of each partitioning.
    pub in_blocks: [u64; 16],
    pub bindings: Pairs,
    pub prerequisites: Pairs,
    seniorities: Pairs,
    /// The roles that have a role below them, and for each role all roles below it.
    seniors: u64,
    below: [u64; 64],
    /// The objects that are in walls, and the block of each in every wall.
    objects: Vec<u32>,
    blocks_of: Vec<Blocks>,
    walled: usize,
    pub walls: Perfect<Blocks>,
}

impl Policy {
    pub fn empty() -> Policy {
        Policy {
            users: [false; 1024],
            assigned: [0; 1024],
            roles: 0,
            permissions: [false; 256],
            pair: [0; 256],
            given_to: [0; 256],
            carried_by: [0; 256],
            pairs: Vec::with_capacity(256),
            of_pair: Vec::with_capacity(256),
            holders: Perfect::empty(),
            carriers: Perfect::empty(),
            tasks: 0,
            template_of: [0; 64],
            tasks_of: [0; 16],
            banned: 0,
            rules: [TaskRules::default(); 64],
            static_sets: Limits::empty(),
            dynamic_sets: Limits::empty(),
            task_sets: Limits::empty(),
            blocks: Vec::with_capacity(64),
            in_blocks: [0; 16],
            bindings: Vec::with_capacity(64),
            prerequisites: Vec::with_capacity(64),
            seniorities: Vec::with_capacity(64),
            seniors: 0,
            below: [0; 64],
            objects: Vec::with_capacity(256),
            blocks_of: Vec::with_capacity(256),
            walled: 0,
            walls: Perfect::empty(),
        }
    }

    /// Empties all tables but keeps the allocated memory.
    pub fn clear(&mut self) {
        self.users = [false; 1024];
        self.assigned = [0; 1024];
        self.permissions = [false; 256];
        self.given_to = [0; 256];
        self.carried_by = [0; 256];
        self.tasks_of = [0; 16];
        self.rules = [TaskRules::default(); 64];
        self.in_blocks = [0; 16];
        self.below = [0; 64];
        for word in [
            &mut self.roles,
            &mut self.tasks,
            &mut self.banned,
            &mut self.seniors,
        ] {
            *word = 0;
        }
        for limits in [
            &mut self.static_sets,
            &mut self.dynamic_sets,
            &mut self.task_sets,
        ] {
            limits.clear();
        }
        for pairs in [
            &mut self.bindings,
            &mut self.prerequisites,
            &mut self.seniorities,
        ] {
            pairs.clear();
        }
        self.blocks.clear();
        self.pairs.clear();
        self.of_pair.clear();
        self.objects.clear();
        self.blocks_of.clear();
        self.walled = 0;
        self.finish();
    }

    /// Builds the tables that requests look up, after the last policy record.
    pub fn finish(&mut self) {
        let (given, carried, of_pair) = (&self.given_to, &self.carried_by, &self.of_pair);
        self.holders.build(&self.pairs, |at| given[of_pair[at]]);
        self.carriers.build(&self.pairs, |at| carried[of_pair[at]]);
        let blocks = &self.blocks_of;
        self.walls.build(&self.objects, |at| blocks[at]);
        for task in members(self.tasks) {
            let template = self.template_of[task];
            let banned = has(self.banned, template);
            let rules = &mut self.rules[task];
            rules.alone = if banned {
                self.tasks_of[template] & !bit(task)
            } else {
                0
            };
            let sets = self.task_sets.having[task];
            let asked = sets | rules.other_blocks | rules.alone | rules.bound_with;
            rules.asks = asked | u64::from(rules.limit) != 0;
        }
    }

    pub fn has_walls(&self) -> bool {
        self.walled != 0
    }

    pub fn is_user(&self, user: usize) -> bool {
        self.users[user]
    }

    /// These roles and all roles below them.
    pub fn down(&self, roles: u64) -> u64 {
        let above = members(roles & self.seniors);
        above.fold(roles, |all, role| all | self.below[role])
    }

    /// Adds one policy record, whose form is already checked.
    pub fn take(&mut self, r: Record) -> u32 {
        let (a, b) = (r.a(), r.b());
        match r.kind() {
            1 => self.user(a),
            2 => self.role(a),
            3 => self.permission(a, r.pair()),
            4 => self.assign(a, b),
            5 => self.give_unseen(a, b),
            6 => self.task(a, b),
            7 => self.open(a, b),
            8 => self.carry(a, b),
            9 => self.static_set(r.n(), r.m()),
            10 => self.dynamic_set(r.n(), r.m()),
            11 => self.task_set(r.n(), r.m()),
            12 => self.block(a, r.m()),
            13 => self.ban(a),
            14 => self.at_most(a, r.n()),
            15 => self.bind(a, b),
            16 => self.before(a, b),
            17 => self.above(a, b),
            18 => self.wall(a, b, r.c() as u32),
            _ => SHAPE,
        }
    }

    fn user(&mut self, user: usize) -> u32 {
        let reply = when(self.users[user], TAKEN);
        self.users[user] = true;
        reply
    }

    fn role(&mut self, role: usize) -> u32 {
        let reply = when(has(self.roles, role), TAKEN);
        self.roles |= bit(role);
        reply
    }

    fn permission(&mut self, permission: usize, pair: u32) -> u32 {
        if self.permissions[permission] || self.pairs.contains(&pair) {
            return TAKEN;
        }
        self.permissions[permission] = true;
        self.pair[permission] = pair;
        self.pairs.push(pair);
        self.of_pair.push(permission);
        GRANTED
    }

    /// Kind 32: adds a user with roles, all or nothing.
    pub fn join(&mut self, user: usize, roles: u64) -> u32 {
        let known = roles & !self.roles == 0;
        let reply = or_else(when(!known, UNKNOWN), when(self.users[user], TAKEN));
        if reply != GRANTED {
            return reply;
        }
        let counted = self.down(roles);
        if self.static_sets.broken(counted, counted) {
            return STATIC;
        }
        self.users[user] = true;
        self.assigned[user] = roles;
        GRANTED
    }

    /// Kind 33 after its checks: deletes a user.
    pub fn remove(&mut self, user: usize) {
        self.users[user] = false;
        self.assigned[user] = 0;
    }

    /// Kinds 4 and 34: assigns a role to a user.
    pub fn assign(&mut self, user: usize, role: usize) -> u32 {
        let known = self.users[user] & has(self.roles, role);
        let now = self.assigned[user];
        let reply = or_else(when(!known, UNKNOWN), when(has(now, role), TAKEN));
        if reply != GRANTED {
            return reply;
        }
        let new = self.down(bit(role));
        if self.static_sets.broken(self.down(now) | new, new) {
            return STATIC;
        }
        self.assigned[user] = now | bit(role);
        GRANTED
    }

    /// Kind 5: gives a role a permission, before the tables for requests exist.
    fn give_unseen(&mut self, role: usize, permission: usize) -> u32 {
        let known = has(self.roles, role) & self.permissions[permission];
        let roles = &mut self.given_to[permission];
        let reply = or_else(when(!known, UNKNOWN), when(has(*roles, role), TAKEN));
        *roles |= when(reply == GRANTED, 1) as u64 * bit(role);
        reply
    }

    /// Kind 36: gives a role a permission.
    pub fn give(&mut self, role: usize, permission: usize) -> u32 {
        let reply = self.give_unseen(role, permission);
        if reply == GRANTED {
            *self.holders.row(self.pair[permission]) |= bit(role);
        }
        reply
    }

    /// Kind 37: takes a permission back from a role.
    pub fn withdraw(&mut self, role: usize, permission: usize) -> u32 {
        if !has(self.given_to[permission], role) {
            return UNKNOWN;
        }
        self.given_to[permission] &= !bit(role);
        *self.holders.row(self.pair[permission]) &= !bit(role);
        GRANTED
    }

    fn task(&mut self, task: usize, template: usize) -> u32 {
        if has(self.tasks, task) {
            return TAKEN;
        }
        self.tasks |= bit(task);
        self.template_of[task] = template;
        self.tasks_of[template] |= bit(task);
        GRANTED
    }

    fn open(&mut self, task: usize, role: usize) -> u32 {
        let known = has(self.tasks, task) & has(self.roles, role);
        let roles = &mut self.rules[task].open_to;
        let reply = or_else(when(!known, UNKNOWN), when(has(*roles, role), TAKEN));
        *roles |= when(reply == GRANTED, 1) as u64 * bit(role);
        reply
    }

    fn carry(&mut self, task: usize, permission: usize) -> u32 {
        let known = has(self.tasks, task) & self.permissions[permission];
        let tasks = &mut self.carried_by[permission];
        let reply = or_else(when(!known, UNKNOWN), when(has(*tasks, task), TAKEN));
        *tasks |= when(reply == GRANTED, 1) as u64 * bit(task);
        reply
    }

    /// UNKNOWN, TAKEN or RULE for a set of roles or tasks.
    fn set_reply(known: u64, sets: &Limits, n: u8, of: u64) -> u32 {
        let first = when(of & !known != 0, UNKNOWN);
        let then = or_else(when(sets.has(n, of), TAKEN), when(ill_made(n, of), RULE));
        or_else(first, then)
    }

    fn static_set(&mut self, n: u8, roles: u64) -> u32 {
        let reply = Self::set_reply(self.roles, &self.static_sets, n, roles);
        if reply != GRANTED {
            return reply;
        }
        let broken = |&assigned: &u64| exceeds(n, roles, self.down(assigned));
        if self.assigned.iter().any(broken) {
            return STATIC;
        }
        Self::add(&mut self.static_sets, n, roles)
    }

    fn dynamic_set(&mut self, n: u8, roles: u64) -> u32 {
        let reply = Self::set_reply(self.roles, &self.dynamic_sets, n, roles);
        if reply != GRANTED {
            return reply;
        }
        Self::add(&mut self.dynamic_sets, n, roles)
    }

    fn task_set(&mut self, n: u8, tasks: u64) -> u32 {
        let reply = Self::set_reply(self.tasks, &self.task_sets, n, tasks);
        let reply = or_else(reply, when(self.mixed(tasks), RULE));
        if reply != GRANTED {
            return reply;
        }
        Self::add(&mut self.task_sets, n, tasks)
    }

    fn add(sets: &mut Limits, n: u8, members: u64) -> u32 {
        if sets.full() {
            return FULL;
        }
        sets.add(n, members);
        GRANTED
    }

    /// Whether these tasks belong to more than one template.
    fn mixed(&self, tasks: u64) -> bool {
        let first = self.template_of[tasks.trailing_zeros() as usize & 63];
        tasks & !self.tasks_of[first] != 0
    }

    fn block(&mut self, partitioning: usize, tasks: u64) -> u32 {
        let earlier = self.in_blocks[partitioning];
        let ill = tasks == 0 || earlier & tasks != 0 || self.mixed(earlier | tasks);
        let taken = self.blocks.contains(&(partitioning, tasks));
        let first = or_else(when(tasks & !self.tasks != 0, UNKNOWN), when(taken, TAKEN));
        let then = or_else(when(ill, RULE), when(self.blocks.len() == 64, FULL));
        let reply = or_else(first, then);
        if reply != GRANTED {
            return reply;
        }
        for task in members(tasks) {
            self.rules[task].other_blocks |= earlier;
        }
        for task in members(earlier) {
            self.rules[task].other_blocks |= tasks;
        }
        self.in_blocks[partitioning] |= tasks;
        self.blocks.push((partitioning, tasks));
        GRANTED
    }

    fn ban(&mut self, template: usize) -> u32 {
        let known = self.tasks_of[template] != 0;
        let taken = has(self.banned, template);
        let reply = or_else(when(!known, UNKNOWN), when(taken, TAKEN));
        if reply == GRANTED {
            self.banned |= bit(template);
        }
        reply
    }

    fn at_most(&mut self, task: usize, n: u8) -> u32 {
        let limit = &mut self.rules[task].limit;
        let then = or_else(when(*limit != 0, TAKEN), when(n == 0, RULE));
        let reply = or_else(when(!has(self.tasks, task), UNKNOWN), then);
        if reply == GRANTED {
            *limit = n;
        }
        reply
    }

    /// UNKNOWN, TAKEN, RULE or FULL for a pair of tasks.
    fn pair_reply(&self, a: usize, b: usize, taken: bool, count: usize) -> u32 {
        let known = has(self.tasks, a) & has(self.tasks, b);
        let ill = a == b || self.template_of[a] != self.template_of[b];
        let first = or_else(when(!known, UNKNOWN), when(taken, TAKEN));
        or_else(first, or_else(when(ill, RULE), when(count == 64, FULL)))
    }

    fn bind(&mut self, a: usize, b: usize) -> u32 {
        let bindings = &self.bindings;
        let taken = bindings.contains(&(a, b)) || bindings.contains(&(b, a));
        let reply = self.pair_reply(a, b, taken, bindings.len());
        if reply == GRANTED {
            self.rules[a].bound_with |= bit(b);
            self.rules[b].bound_with |= bit(a);
            self.bindings.push((a, b));
        }
        reply
    }

    fn before(&mut self, a: usize, b: usize) -> u32 {
        let steps = &self.prerequisites;
        let reply = self.pair_reply(a, b, steps.contains(&(a, b)), steps.len());
        if reply == GRANTED {
            self.rules[b].needs |= bit(a);
            self.prerequisites.push((a, b));
        }
        reply
    }

    fn above(&mut self, a: usize, b: usize) -> u32 {
        let known = has(self.roles, a) & has(self.roles, b);
        let taken = self.seniorities.contains(&(a, b));
        let first = or_else(when(!known, UNKNOWN), when(taken, TAKEN));
        let looped = has(self.below[b], a);
        let reply = or_else(first, or_else(when(a == b, RULE), when(looped, LOOP)));
        if reply != GRANTED {
            return reply;
        }
        let lower = self.below[b] | bit(b);
        let above = |role: &usize| *role == a || has(self.below[*role], a);
        let higher = (0..64).filter(above).fold(0, |all, role| all | bit(role));
        if self.breaks(higher, lower) {
            return STATIC;
        }
        if self.seniorities.len() == 64 {
            return FULL;
        }
        members(higher).for_each(|role| self.below[role] |= lower);
        self.seniors |= higher;
        self.seniorities.push((a, b));
        GRANTED
    }

    /// Whether a static set would break for a user with one of the `higher` roles if the `lower` roles were below each of them.
    fn breaks(&self, higher: u64, lower: u64) -> bool {
        let none = members(lower).all(|role| self.static_sets.having[role] == 0);
        let mut concerned = self.assigned.iter().map(|&roles| self.down(roles));
        !none
            && concerned.any(|now| now & higher != 0 && self.static_sets.broken(now | lower, lower))
    }

    fn wall(&mut self, wall: usize, block: usize, object: u32) -> u32 {
        let new = Blocks::of(wall, block);
        let at = self.objects.iter().position(|&known| known == object);
        let old = at.map_or(Blocks::default(), |at| self.blocks_of[at]);
        let fault = if old.apart(new) { RULE } else { TAKEN };
        let reply = or_else(when(old.meets(new), fault), when(self.walled == 256, FULL));
        if reply != GRANTED {
            return reply;
        }
        match at {
            Some(at) => self.blocks_of[at] = old.over(new),
            None => {
                self.objects.push(object);
                self.blocks_of.push(new);
            }
        }
        self.walled += 1;
        GRANTED
    }

    /// Kind 60: the stuck tasks, the number of free tasks, and the free tasks in an order in which they can be claimed.
    pub fn stuck(&self, template: usize) -> Result<Vec<u64>, u32> {
        let tasks = self.tasks_of[template];
        if tasks == 0 {
            return Err(UNKNOWN);
        }
        let (mut left, mut free) = (tasks, Vec::new());
        while let Some(next) = members(left).find(|&task| self.rules[task].needs & left == 0) {
            left &= !bit(next);
            free.push(next as u64);
        }
        Ok([vec![left, free.len() as u64], free].concat())
    }
}
