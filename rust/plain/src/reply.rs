//! The replies (docs/RULES.md, "The replies"), by name and number.

/// The reply to a record. The numbers are also the order of the checks, except that LOOP comes after RULE, and WALL after DENIED.
#[derive(Clone, Copy, PartialEq, Eq, PartialOrd, Ord, Debug)]
#[repr(u8)]
pub enum Reply {
    /// Accepted, or granted.
    Granted = 0,
    /// A lent state buffer does not have its fixed length; nothing is written.
    Room = 1,
    /// Not 16 bytes, a kind not of this call, an unused field not zero, or m of kind 57 too large.
    Shape = 2,
    /// A number above its limit.
    Range = 3,
    /// Something named is not declared, not open or not live, or a pair to take back is absent.
    Unknown = 4,
    /// Declared, assigned, active, live, open or held already, or a repeated policy record.
    Taken = 5,
    /// The user, role, subject or order is still in use.
    InUse = 6,
    /// A rule record is malformed.
    Rule = 7,
    /// A role to activate is not the user's.
    NotAssigned = 8,
    /// A static set would be broken.
    Static = 9,
    /// A dynamic set would be broken.
    Dynamic = 10,
    /// No active role of the subject opens the task.
    NoRole = 11,
    /// The subject does not hold the task.
    NotYours = 12,
    /// No active role has the permission, or the task does not carry it.
    Denied = 13,
    /// Some task required before this one has no done entry in the order.
    Before = 14,
    /// The user has n or more other tasks of a task set.
    Separation = 15,
    /// The user has a task of another block of a partitioning.
    Block = 16,
    /// The user has every other task of a template that is banned for lone workers.
    Alone = 17,
    /// A task bound to this one has an entry of another user.
    Bound = 18,
    /// The task has as many entries as its limit allows.
    Count = 19,
    /// No ledger entry is free, or the rule limit of that kind is reached.
    Full = 20,
    /// The role that is to become the junior one is already above the other.
    Loop = 23,
    /// In some wall the user is bound to a block other than the object's.
    Wall = 24,
}

impl Reply {
    /// The reply's number.
    pub const fn number(self) -> u8 {
        self as u8
    }
}

/// A refusal, and the place of the rule that it is about: from 1 among all rules of its kind in policy order, or 0.
#[derive(Clone, Copy, PartialEq, Eq, Debug)]
pub(crate) struct Refusal {
    pub reply: Reply,
    pub place: u8,
}

impl From<Reply> for Refusal {
    fn from(reply: Reply) -> Refusal {
        Refusal { reply, place: 0 }
    }
}

/// The result of one check, or of a whole record.
pub(crate) type Outcome = Result<(), Refusal>;

/// One line of the table of replies: refuses with `reply` if `applies`.
#[inline(always)]
pub(crate) fn refuse(reply: Reply, applies: bool) -> Outcome {
    if applies {
        Err(reply.into())
    } else {
        Ok(())
    }
}

/// As `refuse`, for a rule that reports its place. The place is searched only after the rule is found broken.
#[inline(always)]
pub(crate) fn refuse_at(reply: Reply, applies: bool, place: impl FnOnce() -> usize) -> Outcome {
    if applies {
        let place = place() as u8;
        Err(Refusal { reply, place })
    } else {
        Ok(())
    }
}
