//! The seven spaces of names. A name's number is the number of names of its space that were declared before it.

use std::collections::HashMap;
use std::hash::{BuildHasherDefault, Hasher};

/// The longest name, in bytes.
pub const LONGEST: usize = 64;

/// A space of names; each space has separate numbers.
#[derive(Clone, Copy, PartialEq, Eq, PartialOrd, Ord, Hash, Debug)]
#[repr(u8)]
pub enum Space {
    /// Declared by `user`.
    User,
    /// Declared by `role`.
    Role,
    /// Declared by `permission`.
    Permission,
    /// Declared by `operation`, in a permission.
    Operation,
    /// Declared by `object`, in a permission.
    Object,
    /// Declared by a task line, as its first name.
    Task,
    /// Declared by a task line, as its second name.
    Template,
}

impl Space {
    /// All, in the order of their numbers.
    pub const ALL: [Space; 7] = [
        Space::User,
        Space::Role,
        Space::Permission,
        Space::Operation,
        Space::Object,
        Space::Task,
        Space::Template,
    ];

    /// The largest number of names in the space.
    pub const fn limit(self) -> usize {
        match self {
            Space::User => 1_024,
            Space::Role | Space::Task => 64,
            Space::Permission => 256,
            Space::Operation | Space::Object => 65_536,
            Space::Template => 16,
        }
    }

    /// The name of the space, such as `role`.
    pub const fn name(self) -> &'static str {
        match self {
            Space::User => "user",
            Space::Role => "role",
            Space::Permission => "permission",
            Space::Operation => "operation",
            Space::Object => "object",
            Space::Task => "task",
            Space::Template => "template",
        }
    }
}

/// A hash that multiplies eight bytes at a time: names are short, and few.
#[derive(Default)]
struct Quick(u64);

impl Quick {
    fn add(&mut self, word: u64) {
        let mixed = (self.0 ^ word).wrapping_mul(0x9e37_79b9_7f4a_7c15);
        self.0 = mixed ^ mixed >> 32;
    }
}

impl Hasher for Quick {
    #[inline]
    fn write(&mut self, bytes: &[u8]) {
        let mut rest = bytes;
        while let Some((&word, behind)) = rest.split_first_chunk() {
            self.add(u64::from_le_bytes(word));
            rest = behind;
        }
        match bytes.last_chunk() {
            Some(&word) => self.add(u64::from_le_bytes(word)),
            None => self.add(rest.iter().fold(0, |word, &b| word << 8 | u64::from(b))),
        }
    }

    #[inline]
    fn write_usize(&mut self, number: usize) {
        self.add(number as u64);
    }

    fn finish(&self) -> u64 {
        self.0
    }
}

/// A name that occurred, by the order of first occurrence in its space.
pub(crate) type Met = u32;

/// The number of a name that is not declared yet.
const UNDECLARED: u32 = u32::MAX;

/// One space's names while the texts are read: a use may come before its declaration.
#[derive(Clone, Default, Debug)]
pub(crate) struct Names<'t> {
    met: HashMap<&'t [u8], Met, BuildHasherDefault<Quick>>,
    /// The number of each name that occurred.
    numbers: Vec<u32>,
    /// The place of each name's first occurrence, for messages.
    places: Vec<usize>,
    declared: Vec<&'t [u8]>,
}

impl<'t> Names<'t> {
    #[inline]
    pub fn meet(&mut self, name: &'t [u8], place: usize) -> Met {
        *self.met.entry(name).or_insert_with(|| {
            self.numbers.push(UNDECLARED);
            self.places.push(place);
            (self.numbers.len() - 1) as Met
        })
    }

    /// Records a declaration of the name. Of two declarations the first gives the number.
    #[inline]
    pub fn declare(&mut self, name: &'t [u8], place: usize) -> Met {
        let met = self.meet(name, place);
        let number = &mut self.numbers[met as usize];
        if *number == UNDECLARED {
            *number = self.declared.len() as u32;
            self.declared.push(name);
        }
        met
    }

    /// The number of a declared name, in a space that is within its limit.
    #[inline]
    pub fn number(&self, met: Met) -> u16 {
        self.numbers[met as usize] as u16
    }

    /// The declared names, by number.
    pub fn declared(&self) -> &[&'t [u8]] {
        &self.declared
    }

    pub fn find(&self, name: &[u8]) -> Option<u16> {
        let met = *self.met.get(name)?;
        (self.numbers[met as usize] != UNDECLARED).then(|| self.number(met))
    }

    /// The place of the first name that is never declared.
    pub fn undeclared(&self) -> Option<usize> {
        let met = self.numbers.iter().position(|&n| n == UNDECLARED)?;
        Some(self.places[met])
    }
}

#[cfg(test)]
mod tests {
    use super::*;

    #[test]
    fn numbers_go_by_first_declaration() {
        let mut names = Names::default();
        let late = names.meet(b"late", 3);
        assert_eq!(names.undeclared(), Some(3));
        let first = names.declare(b"first", 9);
        assert_eq!(names.declare(b"late", 15), late);
        assert_eq!(names.declare(b"first", 20), first);
        assert_eq!((names.number(first), names.number(late)), (0, 1));
        assert_eq!(names.declared(), [&b"first"[..], b"late"]);
        assert_eq!((names.find(b"late"), names.find(b"Late")), (Some(1), None));
        assert_eq!(names.undeclared(), None);
    }

    #[test]
    fn many_names_of_any_length_are_told_apart() {
        let name = |i: usize| [&vec![b'x'; i % 70][..], i.to_string().as_bytes()].concat();
        let all: Vec<Vec<u8>> = (0..5_000).map(name).collect();
        let mut names = Names::default();
        for (number, name) in all.iter().enumerate() {
            assert_eq!(names.find(name), None);
            let met = names.declare(name, 1);
            assert_eq!(usize::from(names.number(met)), number);
        }
        for (number, name) in all.iter().enumerate() {
            assert_eq!(names.find(name).map(usize::from), Some(number));
        }
    }
}
