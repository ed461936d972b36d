//! Subjects and their active roles, and the blocks of walls that users are bound to.

use super::blocks::Blocks;
use super::forms::Record;
use super::policy::Policy;
use super::{bit, has, members, or_else, reply::*, when};

/// The user of a number that is not a live subject.
const NOBODY: u16 = u16::MAX;

#[derive(Clone)]
pub struct Sessions {
    user: [u16; 128],
    active: [u64; 128],
    /// The active roles and all roles below them.
    acting: [u64; 128],
    /// Every role that the subject has had active.
    had: [u64; 128],
    /// The live subjects of each user.
    subjects_of: [[u64; 2]; 1024],
    bound: [Blocks; 1024],
}

impl Sessions {
    pub fn empty() -> Sessions {
        Sessions {
            user: [NOBODY; 128],
            active: [0; 128],
            acting: [0; 128],
            had: [0; 128],
            subjects_of: [[0; 2]; 1024],
            bound: [Blocks::default(); 1024],
        }
    }

    pub fn clear(&mut self) {
        *self = Sessions::empty();
    }

    pub fn is_live(&self, subject: usize) -> bool {
        self.user[subject] != NOBODY
    }

    /// The user of a subject; for a subject that is not live, a number that no user has.
    pub fn user_of(&self, subject: usize) -> u16 {
        self.user[subject]
    }

    pub fn acting(&self, subject: usize) -> u64 {
        self.acting[subject]
    }

    pub fn has_subject(&self, user: usize) -> bool {
        self.subjects_of[user] != [0; 2]
    }

    /// Forgets the blocks that the user is bound to, when the user is deleted.
    pub fn forget(&mut self, user: usize) {
        self.bound[user] = Blocks::default();
    }

    /// The union of a column over the user's subjects.
    fn over(&self, column: &[u64; 128], user: usize) -> u64 {
        let [low, high] = self.subjects_of[user];
        let low = members(low).fold(0, |all, subject| all | column[subject]);
        members(high).fold(low, |all, subject| all | column[64 + subject])
    }

    fn set_active(&mut self, policy: &Policy, subject: usize, roles: u64) {
        self.active[subject] = roles;
        self.acting[subject] = policy.down(roles);
    }

    /// NOT ASSIGNED, then DYNAMIC, if these roles became active as well.
    fn may_act(&self, policy: &Policy, user: usize, roles: u64) -> u32 {
        if roles & !policy.down(policy.assigned[user]) != 0 {
            return NOT_ASSIGNED;
        }
        let new = policy.down(roles);
        let counted = policy.down(self.over(&self.had, user)) | new;
        when(policy.dynamic_sets.broken(counted, new), DYNAMIC)
    }

    /// Kind 35: takes a role back from a user.
    pub fn take_role(&self, policy: &mut Policy, user: usize, role: usize) -> u32 {
        let assigned = policy.assigned[user];
        if !has(assigned, role) {
            return UNKNOWN;
        }
        let left = assigned & !bit(role);
        let lost = policy.down(assigned) & !policy.down(left);
        if self.over(&self.active, user) & lost != 0 {
            return IN_USE;
        }
        policy.assigned[user] = left;
        GRANTED
    }

    /// Kind 40: creates a subject of a user with active roles.
    pub fn create(&mut self, policy: &Policy, subject: usize, user: usize, roles: u64) -> u32 {
        let known = policy.is_user(user) & (roles & !policy.roles == 0);
        let first = or_else(when(!known, UNKNOWN), when(self.is_live(subject), TAKEN));
        if first != GRANTED {
            return first;
        }
        let reply = self.may_act(policy, user, roles);
        if reply == GRANTED {
            self.user[subject] = user as u16;
            self.set_active(policy, subject, roles);
            self.had[subject] = roles;
            self.subjects_of[user][subject / 64] |= bit(subject);
        }
        reply
    }

    /// Kind 41 after its checks: destroys a subject.
    pub fn destroy(&mut self, subject: usize) {
        let user = usize::from(self.user[subject]);
        self.subjects_of[user][subject / 64] &= !bit(subject);
        self.user[subject] = NOBODY;
        self.active[subject] = 0;
        self.acting[subject] = 0;
        self.had[subject] = 0;
    }

    /// Kind 42: activates a role.
    pub fn activate(&mut self, policy: &Policy, subject: usize, role: usize) -> u32 {
        let known = self.is_live(subject) & has(policy.roles, role);
        let active = self.active[subject];
        let first = or_else(when(!known, UNKNOWN), when(has(active, role), TAKEN));
        if first != GRANTED {
            return first;
        }
        let user = usize::from(self.user[subject]);
        let reply = self.may_act(policy, user, bit(role));
        if reply == GRANTED {
            self.set_active(policy, subject, active | bit(role));
            self.had[subject] |= bit(role);
        }
        reply
    }

    /// Kind 43: deactivates a role.
    pub fn deactivate(&mut self, policy: &Policy, subject: usize, role: usize) -> u32 {
        let active = self.active[subject];
        if !self.is_live(subject) | !has(active, role) {
            return UNKNOWN;
        }
        self.set_active(policy, subject, active & !bit(role));
        GRANTED
    }

    /// Kind 56, the access check: UNKNOWN, DENIED or WALL.
    #[inline(always)]
    pub fn check(&self, policy: &Policy, r: Record) -> u32 {
        let (found, holders) = policy.holders.probe(r.pair());
        let subject = r.a() & 127;
        let user = self.user[subject];
        let denied = !found | (holders & self.acting[subject] == 0);
        let reply = or_else(when(user == NOBODY, UNKNOWN), when(denied, DENIED));
        if !policy.has_walls() {
            return reply;
        }
        let (walled, blocks) = policy.walls.probe(r.c() as u32);
        let apart = walled & self.bound[usize::from(user) & 1023].apart(blocks);
        or_else(reply, when(apart, WALL))
    }

    /// Kind 59: if the access check grants, binds the user to the object's block in every wall that has the object.
    pub fn commit(&mut self, policy: &Policy, r: Record) -> u32 {
        let reply = self.check(policy, r);
        let (walled, blocks) = policy.walls.probe(r.c() as u32);
        if reply == GRANTED && walled {
            let bound = &mut self.bound[usize::from(self.user[r.a()])];
            *bound = blocks.over(*bound);
        }
        reply
    }
}
