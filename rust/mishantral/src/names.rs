//! The dealer's names by number. The proved reader returns only records. The names follow from the texts, because the elements
//! that declare names and the task lines are in the order of their records. rust/opl_differential compares the result with
//! readers that number names themselves.

use crate::LENGTH;
use alloc::boxed::Box;
use alloc::vec::Vec;

/// A space of names in a dealer's texts; each space has separate numbers.
#[derive(Clone, Copy, PartialEq, Eq, Hash, Debug)]
#[repr(u8)]
pub enum Space {
    /// Declared by `user`.
    User,
    /// Declared by `role`.
    Role,
    /// Declared by `permission`.
    Permission,
    /// Declared by `operation`, in a permission.
    Operation,
    /// Declared by `object`, in a permission, and by `partition_object`, in a wall.
    Object,
    /// Declared by a task line, as its first name.
    Task,
    /// Declared by a task line, as its second name.
    Template,
}

impl Space {
    /// All, in the order of their numbers.
    pub const ALL: [Space; 7] = [
        Space::User,
        Space::Role,
        Space::Permission,
        Space::Operation,
        Space::Object,
        Space::Task,
        Space::Template,
    ];

    /// The name of the space, such as `role`. For a space of the policy text this is the element that declares its names.
    pub const fn word(self) -> &'static str {
        match self {
            Space::User => "user",
            Space::Role => "role",
            Space::Permission => "permission",
            Space::Operation => "operation",
            Space::Object => "object",
            Space::Task => "task",
            Space::Template => "template",
        }
    }

    /// The offset of a declared number in its record.
    const fn field(self) -> usize {
        match self {
            Space::User | Space::Role | Space::Permission | Space::Task => 2,
            Space::Operation | Space::Template => 4,
            Space::Object => 6,
        }
    }
}

/// A declared name, and the kind of the record that its declaration yields.
#[derive(Clone, Copy, PartialEq, Eq, Debug)]
struct Declared<'t> {
    space: Space,
    kind: u8,
    name: &'t [u8],
}

/// The names of one space.
#[derive(Clone, Default, PartialEq, Eq, Debug)]
struct Named {
    by_number: Vec<Box<[u8]>>,
    /// The numbers, sorted by name.
    sorted: Vec<u16>,
}

impl Named {
    /// Adds a declaration. Numbers follow the first declarations: a number is either the next one, or already has its name.
    fn declare(&mut self, number: u16, name: &[u8]) {
        if usize::from(number) == self.by_number.len() {
            self.by_number.push(name.into());
            self.sorted.push(number);
        }
    }

    fn sort(&mut self) {
        let names = &self.by_number;
        self.sorted
            .sort_unstable_by_key(|&number| &names[usize::from(number)]);
    }
}

/// The names of all spaces.
#[derive(Clone, Default, PartialEq, Eq, Debug)]
pub(crate) struct Names([Named; 7]);

impl Names {
    /// The names in texts that the reader accepted with these records.
    pub fn told(xml: &[u8], tasks: &[u8], records: &[u8]) -> Names {
        let mut declared: [Vec<Declared>; 7] = Default::default();
        for one in (Tags { rest: xml }) {
            declared[one.space as usize].push(one);
        }
        let lines = tasks.strip_prefix(b"\xef\xbb\xbf").unwrap_or(tasks);
        for line in lines.split(|&b| b == b'\n').filter(|line| !line.is_empty()) {
            let line = line.strip_suffix(b"\r").unwrap_or(line);
            let names = line.split(|&b| b == b' ');
            for (space, name) in [Space::Task, Space::Template].into_iter().zip(names) {
                let kind = TASK;
                declared[space as usize].push(Declared { space, kind, name });
            }
        }
        Names(Space::ALL.map(|space| Names::numbered(space, &declared[space as usize], records)))
    }

    /// Assigns numbers to names: the records of each kind are in the order of their declarations, so each declaration takes the
    /// next record of its kind.
    fn numbered(space: Space, declared: &[Declared], records: &[u8]) -> Named {
        let of_kind = |kind: u8| records.chunks_exact(LENGTH).filter(move |r| r[0] == kind);
        let mut left = KINDS.map(|kind| (kind, of_kind(kind)));
        let mut named = Named::default();
        for one in declared {
            let its_own = left.iter_mut().find(|(kind, _)| *kind == one.kind);
            let Some(record) = its_own.and_then(|(_, records)| records.next()) else {
                continue;
            };
            let at = space.field();
            named.declare(u16::from_le_bytes([record[at], record[at + 1]]), one.name);
        }
        named.sort();
        named
    }

    pub fn all(&self, space: Space) -> impl ExactSizeIterator<Item = &[u8]> {
        self.0[space as usize]
            .by_number
            .iter()
            .map(|name| &name[..])
    }

    pub fn name(&self, space: Space, number: u16) -> Option<&[u8]> {
        let name = self.0[space as usize].by_number.get(usize::from(number))?;
        Some(name)
    }

    pub fn number(&self, space: Space, name: &[u8]) -> Option<u16> {
        let Named { by_number, sorted } = &self.0[space as usize];
        let name_of = |&number: &u16| &by_number[usize::from(number)][..];
        let found = sorted.binary_search_by_key(&name, name_of).ok()?;
        Some(sorted[found])
    }
}

/// The elements of an accepted policy text that declare names, in text order, each with its name. In such a text a `<` begins a
/// tag, the declaration, the DOCTYPE or a comment, and only a comment contains further ones.
struct Tags<'t> {
    rest: &'t [u8],
}

fn position(text: &[u8], piece: &[u8]) -> usize {
    let found = text.windows(piece.len()).position(|window| window == piece);
    found.unwrap_or(text.len())
}

/// Splits the text before the first byte for which `ends` is true.
fn cut(text: &[u8], ends: impl Fn(&u8) -> bool) -> (&[u8], &[u8]) {
    text.split_at(text.iter().position(ends).unwrap_or(text.len()))
}

fn is_white(byte: &u8) -> bool {
    matches!(byte, b' ' | b'\t' | b'\n' | b'\r')
}

/// The kinds of the records that declarations yield: users, roles, permissions, tasks and objects of walls.
const KINDS: [u8; 5] = [1, 2, 3, TASK, 18];
/// The kind of a task's record.
const TASK: u8 = 6;

/// The space whose names an element declares, and the kind of the record that it yields or belongs to.
fn declares(element: &[u8]) -> Option<(Space, u8)> {
    Some(match element {
        b"user" => (Space::User, 1),
        b"role" => (Space::Role, 2),
        b"permission" => (Space::Permission, 3),
        b"operation" => (Space::Operation, 3),
        b"object" => (Space::Object, 3),
        b"partition_object" => (Space::Object, 18),
        _ => return None,
    })
}

/// The value of the attribute `.._id`, from after the element's name; every element that declares a name has one.
fn id(tag: &[u8]) -> Option<&[u8]> {
    let mut rest = tag;
    loop {
        let (_, attribute) = cut(rest, |b| !is_white(b));
        let (name, behind) = cut(attribute, |b| {
            is_white(b) || matches!(b, b'=' | b'>' | b'/')
        });
        if name.is_empty() {
            return None;
        }
        let (_, quoted) = cut(behind, |b| matches!(b, b'"' | b'\''));
        let (&quote, within) = quoted.split_first()?;
        let (value, end) = cut(within, |&b| b == quote);
        if name.ends_with(b"_id") {
            return Some(value);
        }
        rest = &end[1.min(end.len())..];
    }
}

impl<'t> Iterator for Tags<'t> {
    type Item = Declared<'t>;

    fn next(&mut self) -> Option<Declared<'t>> {
        loop {
            let (_, tag) = cut(self.rest, |&b| b == b'<');
            let (_, inside) = tag.split_first()?;
            if let Some(comment) = inside.strip_prefix(b"!--") {
                self.rest = &comment[position(comment, b"-->")..];
                continue;
            }
            let (name, behind) = cut(inside, |b| is_white(b) || matches!(b, b'>' | b'/'));
            self.rest = behind;
            if let (Some((space, kind)), Some(name)) = (declares(name), id(behind)) {
                return Some(Declared { space, kind, name });
            }
        }
    }
}

#[cfg(test)]
mod tests {
    use super::*;
    use std::vec;

    #[test]
    fn names_are_those_of_the_elements_that_declare_them() {
        let xml = b"<?xml version='1.0'?><!-- <user user_id='no'/> --><users><user user_id='a>b' /><user\n user_id = \"c'\"/>
            <role role_description='role_id=\"x\"' role_id='r'></role><user_assignment user_id='no' role_id='no'/><!---><user user_id='no'/>--></users>";
        let tags = Tags { rest: xml };
        let told: Vec<_> = tags.map(|one| (one.space, one.kind, one.name)).collect();
        let expected = vec![
            (Space::User, 1, &b"a>b"[..]),
            (Space::User, 1, b"c'"),
            (Space::Role, 2, b"r"),
        ];
        assert_eq!(told, expected);
    }

    /// Objects are numbered in text order over walls and permissions, while records are ordered by kind.
    #[test]
    fn objects_are_declared_by_permissions_and_by_walls() {
        let xml = b"<partition_object object_id='a'/><object object_id='b'/><partition_object object_id='b'/>
            <object object_id='a'/><partition_object object_id='c'/>";
        let record = |kind: u8, c: u8| {
            let mut bytes = [0; LENGTH];
            (bytes[0], bytes[6]) = (kind, c);
            bytes
        };
        let records = [(3, 1), (3, 0), (18, 0), (18, 1), (18, 2)];
        let records = records.map(|(kind, c)| record(kind, c)).concat();
        let names = Names::told(xml, b"", &records);
        let objects: Vec<&[u8]> = names.all(Space::Object).collect();
        assert_eq!(objects, [b"a", b"b", b"c"]);
    }

    #[test]
    fn numbers_are_those_of_the_records() {
        let record = |kind: u8, a: u8, b: u8| {
            let mut bytes = [0; LENGTH];
            bytes[..5].copy_from_slice(&[kind, 0, a, 0, b]);
            bytes
        };
        let records = [
            record(6, 0, 0),
            record(6, 1, 0),
            record(6, 0, 0),
            record(6, 2, 1),
        ];
        let records = records.concat();
        let marked = Names::told(b"", b"\xef\xbb\xbfz t\r\ny t\nz t\r\nx s\r\n", &records);
        let names = Names::told(b"", b"z t\ny t\nz t\nx s", &records);
        assert_eq!(names, marked);
        assert_eq!(names.name(Space::Task, 1), Some(&b"y"[..]));
        assert_eq!(names.all(Space::Task).len(), 3);
        assert_eq!(names.number(Space::Task, b"x"), Some(2));
        assert_eq!(names.number(Space::Template, b"s"), Some(1));
        assert_eq!(names.number(Space::Template, b"z"), None);
        assert_eq!(names.name(Space::User, 0), None);
    }
}
