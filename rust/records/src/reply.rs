//! The replies (docs/RULES.md, "The replies"), by number and name.

use core::fmt;

/// The reply to a record. The checks run in the order of these numbers, except that LOOP comes after RULE and WALL after DENIED.
/// The first check that applies gives the reply.
///
/// Later versions may add replies.
#[must_use = "a record that was refused has changed nothing"]
#[non_exhaustive]
#[derive(Clone, Copy, PartialEq, Eq, PartialOrd, Ord, Hash, Debug)]
#[repr(u8)]
pub enum Reply {
    /// Accepted, or granted.
    Granted = 0,
    /// A lent buffer does not have its fixed length, or the output is too short; nothing is written.
    Room = 1,
    /// Not 16 bytes, a kind not of this call, an unused field not zero, or m of kind 57 too large.
    Shape = 2,
    /// A number above its limit.
    Range = 3,
    /// Something named is not declared, not open or not live, or a pair to take back is absent.
    Unknown = 4,
    /// Declared, assigned, active, live, open or held already, or a repeated policy record.
    Taken = 5,
    /// The user, role, subject or order is still in use.
    InUse = 6,
    /// A rule record is malformed.
    Rule = 7,
    /// A role to activate is not the user's.
    NotAssigned = 8,
    /// A static set would be broken.
    Static = 9,
    /// A dynamic set would be broken.
    Dynamic = 10,
    /// No active role of the subject opens the task.
    NoRole = 11,
    /// The subject does not hold the task.
    NotYours = 12,
    /// No active role has the permission, or the task does not carry it.
    Denied = 13,
    /// Some task required before this one has no done entry in the order.
    Before = 14,
    /// The user has n or more other tasks of a task set.
    Separation = 15,
    /// The user has a task of another block of a partitioning.
    Block = 16,
    /// The user has every other task of a template that is banned for lone workers.
    Alone = 17,
    /// A task bound to this one has an entry of another user.
    Bound = 18,
    /// The task has as many entries as its limit allows.
    Count = 19,
    /// No ledger entry is free, or the rule limit of that kind is reached.
    Full = 20,
    /// A dealer's text is not in its grammar.
    Text = 21,
    /// A dealer's name is too long, not declared or above a limit.
    Names = 22,
    /// The role that is to become the junior one is already above the other.
    Loop = 23,
    /// In some wall the user is bound to a block other than the object's.
    Wall = 24,
}

use Reply::*;

impl Reply {
    /// All replies, in the order of their numbers.
    pub const ALL: &'static [Reply] = &[
        Granted,
        Room,
        Shape,
        Range,
        Unknown,
        Taken,
        InUse,
        Rule,
        NotAssigned,
        Static,
        Dynamic,
        NoRole,
        NotYours,
        Denied,
        Before,
        Separation,
        Block,
        Alone,
        Bound,
        Count,
        Full,
        Text,
        Names,
        Loop,
        Wall,
    ];

    /// The reply's number in docs/RULES.md.
    pub const fn number(self) -> u8 {
        self as u8
    }

    /// The reply with this number, if there is one.
    pub fn from_number(number: u64) -> Option<Reply> {
        let at = usize::try_from(number).ok()?;
        Reply::ALL.get(at).copied()
    }

    /// The reply's name in docs/RULES.md.
    pub const fn name(self) -> &'static str {
        match self {
            Granted => "GRANTED",
            Room => "ROOM",
            Shape => "SHAPE",
            Range => "RANGE",
            Unknown => "UNKNOWN",
            Taken => "TAKEN",
            InUse => "IN USE",
            Rule => "RULE",
            NotAssigned => "NOT ASSIGNED",
            Static => "STATIC",
            Dynamic => "DYNAMIC",
            NoRole => "NO ROLE",
            NotYours => "NOT YOURS",
            Denied => "DENIED",
            Before => "BEFORE",
            Separation => "SEPARATION",
            Block => "BLOCK",
            Alone => "ALONE",
            Bound => "BOUND",
            Count => "COUNT",
            Full => "FULL",
            Text => "TEXT",
            Names => "NAMES",
            Loop => "LOOP",
            Wall => "WALL",
        }
    }

    /// The policy kind of the rule that refused a claim, for replies that report a place: prerequisites (16) for BEFORE, task
    /// sets (11) for SEPARATION, blocks (12) for BLOCK, bindings (15) for BOUND.
    #[must_use]
    pub const fn rule_kind(self) -> Option<u8> {
        match self {
            Before => Some(16),
            Separation => Some(11),
            Block => Some(12),
            Bound => Some(15),
            _ => None,
        }
    }

    /// Whether the record was accepted or granted.
    #[must_use]
    pub const fn is_granted(self) -> bool {
        matches!(self, Granted)
    }
}

/// Prints the number and the name, such as `14 BEFORE`.
impl fmt::Display for Reply {
    fn fmt(&self, f: &mut fmt::Formatter) -> fmt::Result {
        write!(f, "{} {}", self.number(), self.name())
    }
}
