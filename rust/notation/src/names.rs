//! Names for numbers: what a policy declares may have a name, which lines may use and output shows. The engine never sees names.

pub use crate::quote::{is_bare, name_of, quoted, shown, unquoted};
use records::forms::Part;
use std::collections::BTreeMap;

/// A sort of numbers, which may have names.
#[derive(Clone, Copy, PartialEq, Eq, PartialOrd, Ord, Debug)]
pub enum Sort {
    /// A user, that is a clerk.
    User,
    /// A role, which users are assigned and subjects have active.
    Role,
    /// A permission: an operation on an object.
    Permission,
    /// The operation of a permission.
    Operation,
    /// The object of a permission.
    Object,
    /// A task: a step of a template.
    Task,
    /// A template, of which orders are opened.
    Template,
    /// A partitioning: blocks of tasks, of which a user works in one.
    Partitioning,
    /// A subject: a session of a user.
    Subject,
    /// An order: an instance of a template.
    Order,
}

use Sort::*;

impl Sort {
    /// All sorts.
    pub const ALL: [Sort; 10] = [
        User,
        Role,
        Permission,
        Operation,
        Object,
        Task,
        Template,
        Partitioning,
        Subject,
        Order,
    ];

    /// The word that precedes its numbers in a line.
    pub fn word(self) -> &'static str {
        match self {
            User => "user",
            Role => "role",
            Permission => "permission",
            Operation => "operation",
            Object => "object",
            Task => "task",
            Template => "template",
            Partitioning => "partitioning",
            Subject => "subject",
            Order => "order",
        }
    }

    /// The sort with this word.
    pub fn of_word(word: &str) -> Option<Sort> {
        Sort::ALL.into_iter().find(|sort| sort.word() == word)
    }

    /// The largest number (docs/RULES.md, "Numbers").
    pub fn last(self) -> u16 {
        match self {
            User => 1023,
            Role | Task | Order => 63,
            Permission => 255,
            Operation | Object => 65535,
            Template | Partitioning => 15,
            Subject => 127,
        }
    }

    /// The sort of a number in a line, by its part, the line's kind and the word before it.
    pub fn of_part(part: Part, kind: u8, before: &str) -> Option<Sort> {
        match (part, kind) {
            (Part::Number(_, ""), _) => Sort::of_word(before),
            (Part::Number(_, name), _) => Sort::of_word(name),
            (Part::Set, 11 | 12) => Some(Task),
            (Part::Set, _) => Some(Role),
            _ => None,
        }
    }
}

/// A name that a line gives to a number.
#[derive(Clone, PartialEq, Eq, Debug)]
pub struct Naming {
    /// The sort of the number.
    pub sort: Sort,
    /// The number that is named.
    pub number: u16,
    /// The name.
    pub name: Vec<u8>,
    /// The column of the name in its line, from 1.
    pub column: usize,
}

/// The names of each sort.
#[derive(Clone, Default, Debug)]
pub struct Names {
    numbers: BTreeMap<(Sort, Vec<u8>), u16>,
    names: BTreeMap<(Sort, u16), Vec<u8>>,
}

impl Names {
    /// Gives a number a name, and removes the previous name of the number and the previous number of the name.
    pub fn give(&mut self, sort: Sort, number: u16, name: &[u8]) {
        if let Some(before) = self.names.insert((sort, number), name.to_vec()) {
            self.numbers.remove(&(sort, before));
        }
        if let Some(before) = self.numbers.insert((sort, name.to_vec()), number) {
            if before != number {
                self.names.remove(&(sort, before));
            }
        }
    }

    /// Removes a number's name; returns whether it had one.
    pub fn end(&mut self, sort: Sort, number: u16) -> bool {
        let Some(name) = self.names.remove(&(sort, number)) else {
            return false;
        };
        self.numbers.remove(&(sort, name));
        true
    }

    /// As `give`, for a policy, where a name has one number and a number has one name; the error explains a conflict.
    pub fn give_once(&mut self, naming: &Naming) -> Result<(), String> {
        let Naming { sort, number, .. } = *naming;
        let (word, name) = (sort.word(), shown(&naming.name));
        if let Some(other) = self.number(sort, &naming.name).filter(|&n| n != number) {
            return Err(format!("another name, since {name} is {word} {other}"));
        }
        if let Some(other) = self.name(sort, number).filter(|&n| n != naming.name) {
            let other = shown(other);
            return Err(format!("no further name, since {word} {number} is {other}"));
        }
        self.give(sort, number, &naming.name);
        Ok(())
    }

    /// The number of a name.
    pub fn number(&self, sort: Sort, name: &[u8]) -> Option<u16> {
        self.numbers.get(&(sort, name.to_vec())).copied()
    }

    /// The name of a number.
    pub fn name(&self, sort: Sort, number: u16) -> Option<&[u8]> {
        self.names.get(&(sort, number)).map(Vec::as_slice)
    }

    /// The number that a word means: a number, or a name.
    pub fn given(&self, sort: Sort, word: &str) -> Option<u16> {
        let named = || self.number(sort, &name_of(word)?);
        word.parse().ok().or_else(named)
    }

    /// The number's name as a line shows it, or the number.
    pub fn shown(&self, sort: Sort, number: u16) -> String {
        self.name(sort, number).map_or(number.to_string(), shown)
    }

    /// The number in a sentence: its name, or `user 300`.
    pub fn say(&self, sort: Sort, number: u16) -> String {
        self.name(sort, number)
            .map_or(format!("{} {number}", sort.word()), shown)
    }

    /// The names of a sort as lines show them, by number.
    pub fn of_sort(&self, sort: Sort) -> impl Iterator<Item = (u16, String)> + '_ {
        let all = self.names.range((sort, 0)..=(sort, u16::MAX));
        all.map(|(&(_, number), name)| (number, shown(name)))
    }

    /// Only the names of a sort, without numbers.
    pub fn words(&self, sort: Sort) -> Vec<String> {
        self.of_sort(sort).map(|(_, name)| name).collect()
    }

    /// Whether some number of the sort has a name.
    pub fn has_any(&self, sort: Sort) -> bool {
        self.of_sort(sort).next().is_some()
    }
}

#[cfg(test)]
mod tests {
    use super::*;

    #[test]
    fn a_name_stands_for_one_number() {
        let mut names = Names::default();
        names.give(User, 1, b"a");
        names.give(User, 2, b"a");
        assert_eq!(
            (names.number(User, b"a"), names.name(User, 1)),
            (Some(2), None)
        );
        names.give(User, 2, b"b");
        assert_eq!(
            (names.number(User, b"a"), names.shown(User, 2)),
            (None, "b".to_string())
        );
        let naming = |number, name: &[u8]| Naming {
            sort: User,
            number,
            name: name.to_vec(),
            column: 1,
        };
        assert!(names.give_once(&naming(3, b"b")).is_err());
        assert!(names.give_once(&naming(2, b"c")).is_err());
        assert!(names.give_once(&naming(2, b"b")).is_ok());
        assert_eq!(names.say(User, 3), "user 3");
    }
}
