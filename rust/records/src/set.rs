//! A set of roles or tasks.

use core::fmt;

/// A set of roles or tasks: bit i is set if number i is a member.
#[derive(Clone, Copy, PartialEq, Eq, Hash, Default)]
pub struct Set(pub u64);

impl Set {
    /// The set without members.
    pub const EMPTY: Set = Set(0);

    /// The set of these numbers.
    ///
    /// # Panics
    /// If a number is above 63.
    pub const fn of(numbers: &[u8]) -> Set {
        let mut set = Set::EMPTY;
        let mut at = 0;
        while at < numbers.len() {
            set = set.with(numbers[at]);
            at += 1;
        }
        set
    }

    /// The set with one further member.
    ///
    /// # Panics
    /// If the number is above 63.
    pub const fn with(self, number: u8) -> Set {
        assert!(number < 64, "a role or task is numbered 0 to 63");
        Set(self.0 | 1 << number)
    }

    /// Whether the number is in the set.
    pub const fn has(self, number: u8) -> bool {
        number < 64 && self.0 >> number & 1 == 1
    }

    /// The members of the set, in ascending order.
    pub fn members(self) -> impl Iterator<Item = u8> {
        (0..64).filter(move |&number| self.has(number))
    }
}

/// The set of these numbers.
///
/// # Panics
/// If a number is above 63.
impl FromIterator<u8> for Set {
    fn from_iter<I: IntoIterator<Item = u8>>(numbers: I) -> Set {
        numbers.into_iter().fold(Set::EMPTY, Set::with)
    }
}

impl fmt::Debug for Set {
    fn fmt(&self, f: &mut fmt::Formatter) -> fmt::Result {
        f.debug_set().entries(self.members()).finish()
    }
}
