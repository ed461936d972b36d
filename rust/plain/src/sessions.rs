//! Subjects and their active roles: the requests of the lower part (docs/RULES.md, "Roles and sessions").
//! What kinds 33 and 41 check about entries is checked by the engine in `lib.rs`.

use crate::policy::{bit, Policy};
use crate::reply::{refuse, Outcome, Refusal, Reply};

/// The user of a number that is not a live subject.
const NOBODY: u16 = u16::MAX;

#[derive(Clone, PartialEq, Debug)]
pub(crate) struct Sessions {
    user: [u16; 128],
    /// Empty for a number that is not a live subject.
    active: [u64; 128],
    /// The active roles and all roles below them.
    acting: [u64; 128],
    /// Every role that the subject has had active.
    had: [u64; 128],
    /// The block that each user is bound to in each wall.
    bound: [[u8; 16]; 1024],
}

/// The block of a user who is bound to none.
const FREE: u8 = u8::MAX;

impl Sessions {
    pub const EMPTY: Sessions = Sessions {
        user: [NOBODY; 128],
        active: [0; 128],
        acting: [0; 128],
        had: [0; 128],
        bound: [[FREE; 16]; 1024],
    };

    /// The user of a live subject.
    pub fn user_of(&self, subject: usize) -> Result<u16, Refusal> {
        let user = self.user[subject];
        refuse(Reply::Unknown, user == NOBODY)?;
        Ok(user)
    }

    /// The active roles of a subject with all roles below them.
    pub fn acting(&self, subject: usize) -> u64 {
        self.acting[subject]
    }

    fn set_active(&mut self, policy: &Policy, subject: usize, roles: u64) {
        self.active[subject] = roles;
        self.acting[subject] = policy.down(roles);
    }

    /// The union of the column `roles` over the user's subjects.
    fn over(&self, roles: &[u64; 128], user: u16) -> u64 {
        let subjects = self.user.iter().zip(roles);
        subjects.fold(0, |all, (&u, &roles)| {
            all | if u == user { roles } else { 0 }
        })
    }

    /// Kind 33 without the check of the user's entries: whether the user may be deleted.
    pub fn may_delete(&self, policy: &Policy, user: u16) -> Outcome {
        refuse(Reply::Unknown, !policy.is_user[usize::from(user)])?;
        refuse(Reply::InUse, self.user.contains(&user))
    }

    /// Kind 35: takes a role back from a user.
    pub fn take_role(&self, policy: &mut Policy, user: u16, role: usize) -> Outcome {
        let assigned = policy.assigned[usize::from(user)];
        refuse(Reply::Unknown, assigned & bit(role) == 0)?;
        let left = assigned & !bit(role);
        let lost = policy.down(assigned) & !policy.down(left);
        refuse(Reply::InUse, self.over(&self.active, user) & lost != 0)?;
        policy.assigned[usize::from(user)] = left;
        Ok(())
    }

    /// Kind 40: creates a subject of a user with active roles.
    pub fn create(&mut self, policy: &Policy, subject: usize, user: u16, roles: u64) -> Outcome {
        let known = policy.is_user[usize::from(user)] && roles & !policy.roles == 0;
        refuse(Reply::Unknown, !known)?;
        refuse(Reply::Taken, self.user[subject] != NOBODY)?;
        self.may_act(policy, user, roles)?;
        self.user[subject] = user;
        self.set_active(policy, subject, roles);
        self.had[subject] = roles;
        Ok(())
    }

    /// Kind 41 after its checks: destroys a subject.
    pub fn destroy(&mut self, subject: usize) {
        self.user[subject] = NOBODY;
        self.active[subject] = 0;
        self.acting[subject] = 0;
        self.had[subject] = 0;
    }

    /// Kind 42: activates a role.
    pub fn activate(&mut self, policy: &Policy, subject: usize, role: usize) -> Outcome {
        let user = self.user_of(subject)?;
        refuse(Reply::Unknown, !policy.has_role(role))?;
        refuse(Reply::Taken, self.active[subject] & bit(role) != 0)?;
        self.may_act(policy, user, bit(role))?;
        self.set_active(policy, subject, self.active[subject] | bit(role));
        self.had[subject] |= bit(role);
        Ok(())
    }

    /// Kind 43: deactivates a role.
    pub fn deactivate(&mut self, policy: &Policy, subject: usize, role: usize) -> Outcome {
        self.user_of(subject)?;
        refuse(Reply::Unknown, self.active[subject] & bit(role) == 0)?;
        self.set_active(policy, subject, self.active[subject] & !bit(role));
        Ok(())
    }

    /// Whether the user may also have these roles active: NOT ASSIGNED, then DYNAMIC.
    fn may_act(&self, policy: &Policy, user: u16, roles: u64) -> Outcome {
        let assigned = policy.down(policy.assigned[usize::from(user)]);
        refuse(Reply::NotAssigned, roles & !assigned != 0)?;
        let then = self.over(&self.had, user) | roles;
        refuse(Reply::Dynamic, policy.breaks_dynamic(then))
    }

    /// Kind 56: the access check.
    pub fn check(&self, policy: &Policy, subject: usize, operation: u16, object: u16) -> Outcome {
        let user = self.user_of(subject)?;
        let having = policy
            .permissions
            .find(operation, object)
            .map_or(0, |permission| policy.permissions.given_to[permission]);
        refuse(Reply::Denied, having & self.acting[subject] == 0)?;
        if policy.walls.is_empty() {
            return Ok(());
        }
        let bound = &self.bound[usize::from(user)];
        let mut blocks = policy.walls.of(object);
        let apart = blocks.any(|(wall, block)| bound[wall] != FREE && bound[wall] != block);
        refuse(Reply::Wall, apart)
    }

    /// Kind 59: if the access check grants, binds the user to the object's block in every wall that has the object.
    pub fn commit(
        &mut self,
        policy: &Policy,
        subject: usize,
        operation: u16,
        object: u16,
    ) -> Outcome {
        self.check(policy, subject, operation, object)?;
        let bound = &mut self.bound[usize::from(self.user[subject])];
        for (wall, block) in policy.walls.of(object) {
            bound[wall] = block;
        }
        Ok(())
    }

    /// Forgets the blocks that the user is bound to, when kind 33 deletes the user.
    pub fn forget(&mut self, user: u16) {
        self.bound[usize::from(user)] = [FREE; 16];
    }
}
