//! A load that was refused, as an error.

use core::fmt;
use records::Reply;

/// Why a load was refused, and at which record. The engine is then empty.
#[derive(Clone, Copy, PartialEq, Eq, Debug)]
pub struct Refused {
    /// The refusal.
    pub reply: Reply,
    /// The place of the record, from 1; 0 if the reply is ROOM, which concerns no record.
    pub place: usize,
}

impl fmt::Display for Refused {
    fn fmt(&self, f: &mut fmt::Formatter) -> fmt::Result {
        match self.place {
            0 => write!(f, "{}", self.reply),
            place => write!(f, "{} at record {place}", self.reply),
        }
    }
}

impl core::error::Error for Refused {}

#[cfg(test)]
mod tests {
    use super::*;
    use std::string::ToString;

    #[test]
    fn a_refusal_says_its_reply_and_place() {
        let refused = |reply, place| Refused { reply, place }.to_string();
        assert_eq!(refused(Reply::Rule, 9), "7 RULE at record 9");
        assert_eq!(refused(Reply::Room, 0), "1 ROOM");
    }
}
