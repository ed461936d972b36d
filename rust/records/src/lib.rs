//! Records and replies (docs/RULES.md, "Numbers" and "The replies") as bytes, names, words and numbers. No rule of the engine is
//! here.
//!
//! ```
//! use records::{Record, Reply, Set};
//!
//! let claim = Record::claim(5, 0, 1);
//! assert_eq!(claim.0[0], 50);
//! assert_eq!(claim.to_string(), "claim 5 0 1");
//! let tasks: Set = [0, 1].into_iter().collect();
//! assert_eq!(Record::task_set(1, tasks).to_string(), "task set 1 of 0 1");
//! assert_eq!(Reply::Before.to_string(), "14 BEFORE");
//! ```
//!
//! The crate needs neither std nor an allocator.
#![no_std]

#[cfg(test)]
extern crate std;

pub mod forms;
mod record;
mod reply;
mod set;
mod words;

pub use record::{Record, LENGTH};
pub use reply::Reply;
pub use set::Set;

#[cfg(test)]
mod tests {
    use super::*;
    use std::{format, string::ToString, vec::Vec};

    #[test]
    fn fields_stand_where_the_rules_put_them() {
        let record = Record::new(0x11, 0x22, 0x3344, 0x5566, 0x7788, 0x99aa_bbcc_ddee_ff00);
        let bytes = [
            0x11, 0x22, 0x44, 0x33, 0x66, 0x55, 0x88, 0x77, 0x00, 0xff, 0xee, 0xdd, 0xcc, 0xbb,
            0xaa, 0x99,
        ];
        assert_eq!(record.0, bytes);
        let fields = (record.a(), record.b(), record.c(), record.m());
        assert_eq!((record.kind(), record.n()), (0x11, 0x22));
        assert_eq!(fields, (0x3344, 0x5566, 0x7788, 0x99aa_bbcc_ddee_ff00));
    }

    #[test]
    fn a_task_check_packs_operation_and_object() {
        assert_eq!(Record::task_check(5, 0, 1, 40, 50).m(), 40 + 65_536 * 50);
    }

    #[test]
    fn replies_have_their_numbers() {
        for (number, reply) in Reply::ALL.iter().enumerate() {
            assert_eq!(usize::from(reply.number()), number);
            assert_eq!(Reply::from_number(number as u64), Some(*reply));
        }
        assert_eq!(Reply::from_number(Reply::ALL.len() as u64), None);
        assert_eq!(Reply::from_number(256), None);
        assert_eq!(Reply::Before.to_string(), "14 BEFORE");
    }

    #[test]
    fn sets_have_members() {
        let set = Set::of(&[63, 0, 5]);
        assert_eq!(set.members().collect::<Vec<u8>>(), [0, 5, 63]);
        assert_eq!([5, 63, 0, 5].into_iter().collect::<Set>(), set);
        assert!(set.has(63) && !set.has(62) && !set.has(64));
        assert_eq!(format!("{set:?}"), "{0, 5, 63}");
        assert_eq!(set.to_string(), "0 5 63");
        assert_eq!(Set::EMPTY.to_string(), "none");
    }

    #[test]
    fn records_print_in_words_or_by_their_fields() {
        assert_eq!(Record::claim(5, 0, 1).to_string(), "claim 5 0 1");
        assert_eq!(format!("{:?}", Record::end_order(0)), "Record(end order 0)");
        let beyond = Record::new(50, 1, 5, 0, 1, 0);
        assert_eq!(beyond.to_string(), "record 50 1 5 0 1 0");
    }
}
