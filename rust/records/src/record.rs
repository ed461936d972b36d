//! A record's sixteen bytes, with a constructor for each kind (docs/RULES.md, "Numbers").
//! Any sixteen bytes are a record here; only the engine decides whether they are valid.

use crate::Set;

/// The length of a record in bytes.
pub const LENGTH: usize = 16;

/// A record: byte 0 kind; byte 1 n; bytes 2-3 a; 4-5 b; 6-7 c; 8-15 m; little-endian, without a header.
///
/// It prints as its line in the notation, such as `claim 5 0 1`.
#[derive(Clone, Copy, PartialEq, Eq, Hash)]
#[repr(transparent)]
pub struct Record(pub [u8; LENGTH]);

impl AsRef<[u8]> for Record {
    fn as_ref(&self) -> &[u8] {
        &self.0
    }
}

impl From<[u8; LENGTH]> for Record {
    fn from(bytes: [u8; LENGTH]) -> Record {
        Record(bytes)
    }
}

const fn record(kind: u8, n: u8, [a, b, c]: [u16; 3], m: u64) -> Record {
    let ([a0, a1], [b0, b1], [c0, c1]) = (a.to_le_bytes(), b.to_le_bytes(), c.to_le_bytes());
    let [m0, m1, m2, m3, m4, m5, m6, m7] = m.to_le_bytes();
    Record([
        kind, n, a0, a1, b0, b1, c0, c1, m0, m1, m2, m3, m4, m5, m6, m7,
    ])
}

/// Access to the fields.
impl Record {
    /// A record with these fields, valid or not.
    pub const fn new(kind: u8, n: u8, a: u16, b: u16, c: u16, m: u64) -> Record {
        record(kind, n, [a, b, c], m)
    }

    /// The kind, byte 0.
    pub const fn kind(&self) -> u8 {
        self.0[0]
    }

    /// The field n, byte 1.
    pub const fn n(&self) -> u8 {
        self.0[1]
    }

    const fn half(&self, at: usize) -> u16 {
        u16::from_le_bytes([self.0[at], self.0[at + 1]])
    }

    /// The field a, bytes 2 and 3.
    pub const fn a(&self) -> u16 {
        self.half(2)
    }

    /// The field b, bytes 4 and 5.
    pub const fn b(&self) -> u16 {
        self.half(4)
    }

    /// The field c, bytes 6 and 7.
    pub const fn c(&self) -> u16 {
        self.half(6)
    }

    /// The field m, bytes 8 to 15.
    pub const fn m(&self) -> u64 {
        let [.., m0, m1, m2, m3, m4, m5, m6, m7] = self.0;
        u64::from_le_bytes([m0, m1, m2, m3, m4, m5, m6, m7])
    }
}

/// Kinds 1 to 18: the records of a policy.
impl Record {
    /// Declares a user.
    pub const fn user(user: u16) -> Record {
        record(1, 0, [user, 0, 0], 0)
    }

    /// Declares a role.
    pub const fn role(role: u16) -> Record {
        record(2, 0, [role, 0, 0], 0)
    }

    /// Declares a permission: this operation on this object.
    pub const fn permission(permission: u16, operation: u16, object: u16) -> Record {
        record(3, 0, [permission, operation, object], 0)
    }

    /// Assigns the role to the user.
    pub const fn user_has_role(user: u16, role: u16) -> Record {
        record(4, 0, [user, role, 0], 0)
    }

    /// Gives the role the permission.
    pub const fn role_has_permission(role: u16, permission: u16) -> Record {
        record(5, 0, [role, permission, 0], 0)
    }

    /// Declares a task of a template.
    pub const fn task(task: u16, template: u16) -> Record {
        record(6, 0, [task, template, 0], 0)
    }

    /// Opens the task to the role: who has the role active may claim the task.
    pub const fn task_open_to(task: u16, role: u16) -> Record {
        record(7, 0, [task, role, 0], 0)
    }

    /// Makes the task carry the permission: who holds the task has the permission.
    pub const fn task_carries(task: u16, permission: u16) -> Record {
        record(8, 0, [task, permission, 0], 0)
    }

    /// A user may be assigned at most n of these roles.
    pub const fn static_set(n: u8, roles: Set) -> Record {
        record(9, n, [0; 3], roles.0)
    }

    /// A user's live subjects may have had at most n of these roles active, counted together.
    pub const fn dynamic_set(n: u8, roles: Set) -> Record {
        record(10, n, [0; 3], roles.0)
    }

    /// In an order, a user may have entries in at most n of these tasks.
    pub const fn task_set(n: u8, tasks: Set) -> Record {
        record(11, n, [0; 3], tasks.0)
    }

    /// In an order, a user may have entries in only one block of the partitioning.
    pub const fn block(partitioning: u16, tasks: Set) -> Record {
        record(12, 0, [partitioning, 0, 0], tasks.0)
    }

    /// No user may have entries in every task of an order of this template.
    pub const fn lone_worker_ban(template: u16) -> Record {
        record(13, 0, [template, 0, 0], 0)
    }

    /// The task may have at most n entries in an order.
    pub const fn at_most(task: u16, n: u8) -> Record {
        record(14, n, [task, 0, 0], 0)
    }

    /// In an order, all entries of both tasks belong to one user.
    pub const fn bound(task: u16, to: u16) -> Record {
        record(15, 0, [task, to, 0], 0)
    }

    /// In an order, the first task must be done before the second is claimed.
    pub const fn before(first: u16, second: u16) -> Record {
        record(16, 0, [first, second, 0], 0)
    }

    /// Puts the senior role above the junior one: it counts with the junior role and with all roles below that.
    ///
    /// ```
    /// # use records::Record;
    /// assert_eq!(Record::role_above(5, 2).to_string(), "role 5 above role 2");
    /// ```
    pub const fn role_above(senior: u16, junior: u16) -> Record {
        record(17, 0, [senior, junior, 0], 0)
    }

    /// Puts the object into a block of the wall: who commits to it may not access other blocks of the wall.
    ///
    /// ```
    /// # use records::Record;
    /// assert_eq!(Record::wall(0, 1, 7).to_string(), "wall 0 block 1 object 7");
    /// ```
    pub const fn wall(wall: u16, block: u16, object: u16) -> Record {
        record(18, 0, [wall, block, object], 0)
    }
}

/// Kinds 32 to 60: requests.
impl Record {
    /// Adds a user, who has no roles yet.
    pub const fn add_user(user: u16) -> Record {
        record(32, 0, [user, 0, 0], 0)
    }

    /// Adds a user with roles, all or nothing.
    ///
    /// ```
    /// # use records::{Record, Set};
    /// let joins = Record::add_user_with(300, Set::of(&[0, 2]));
    /// assert_eq!(joins.to_string(), "add user 300 with roles 0 2");
    /// assert_eq!(Record::add_user_with(300, Set::EMPTY), Record::add_user(300));
    /// ```
    pub const fn add_user_with(user: u16, roles: Set) -> Record {
        record(32, 0, [user, 0, 0], roles.0)
    }

    /// Deletes a user, and the user's assignments.
    pub const fn delete_user(user: u16) -> Record {
        record(33, 0, [user, 0, 0], 0)
    }

    /// Assigns the role to the user.
    pub const fn assign_role(user: u16, role: u16) -> Record {
        record(34, 0, [user, role, 0], 0)
    }

    /// Takes the role back from the user.
    pub const fn take_role(user: u16, role: u16) -> Record {
        record(35, 0, [user, role, 0], 0)
    }

    /// Gives the role the permission.
    pub const fn give_permission(role: u16, permission: u16) -> Record {
        record(36, 0, [role, permission, 0], 0)
    }

    /// Takes the permission back from the role.
    pub const fn take_permission(role: u16, permission: u16) -> Record {
        record(37, 0, [role, permission, 0], 0)
    }

    /// Creates a subject (a session) for the user, with these roles active.
    pub const fn create_subject(subject: u16, user: u16, roles: Set) -> Record {
        record(40, 0, [subject, user, 0], roles.0)
    }

    /// Destroys the subject.
    pub const fn destroy_subject(subject: u16) -> Record {
        record(41, 0, [subject, 0, 0], 0)
    }

    /// Activates a role of the user in the subject.
    pub const fn activate_role(subject: u16, role: u16) -> Record {
        record(42, 0, [subject, role, 0], 0)
    }

    /// Deactivates the role in the subject.
    pub const fn deactivate_role(subject: u16, role: u16) -> Record {
        record(43, 0, [subject, role, 0], 0)
    }

    /// Opens an order (an instance) of the template.
    pub const fn open_order(order: u16, template: u16) -> Record {
        record(48, 0, [order, template, 0], 0)
    }

    /// Ends the order, and removes its entries.
    pub const fn end_order(order: u16) -> Record {
        record(49, 0, [order, 0, 0], 0)
    }

    /// The subject claims the task of the order.
    pub const fn claim(subject: u16, order: u16, task: u16) -> Record {
        record(50, 0, [subject, order, task], 0)
    }

    /// The subject gives back a task that it holds.
    pub const fn release(subject: u16, order: u16, task: u16) -> Record {
        record(51, 0, [subject, order, task], 0)
    }

    /// The subject has done a task that it holds.
    pub const fn done(subject: u16, order: u16, task: u16) -> Record {
        record(52, 0, [subject, order, task], 0)
    }

    /// Asks whether the subject may do this operation on this object through its active roles.
    pub const fn check(subject: u16, operation: u16, object: u16) -> Record {
        record(56, 0, [subject, operation, object], 0)
    }

    /// Asks whether the subject may do this operation on this object through the task that it holds.
    pub const fn task_check(
        subject: u16,
        order: u16,
        task: u16,
        operation: u16,
        object: u16,
    ) -> Record {
        let m = operation as u64 + 65_536 * object as u64;
        record(57, 0, [subject, order, task], m)
    }

    /// Asks how many entries the order has, and which of its tasks are done. The engine's call for questions gives the figures.
    pub const fn entries_of(order: u16) -> Record {
        record(58, 0, [order, 0, 0], 0)
    }

    /// As the check; if it is granted, the subject's user is bound to the object's block in every wall that has the object.
    ///
    /// ```
    /// # use records::Record;
    /// assert_eq!(Record::commit(5, 2, 7).to_string(), "commit 5 operation 2 object 7");
    /// ```
    pub const fn commit(subject: u16, operation: u16, object: u16) -> Record {
        record(59, 0, [subject, operation, object], 0)
    }

    /// Asks which tasks of the template can never be claimed because of prerequisites. The engine's call for questions gives the
    /// figures.
    pub const fn stuck_tasks(template: u16) -> Record {
        record(60, 0, [template, 0, 0], 0)
    }
}
