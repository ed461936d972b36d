//! What the elements state, in text order, and the records for it.

use crate::names::{Met, Names, Space, LONGEST};
use crate::refusal::{NameFault, NameWhy, Text};

/// The length of a record in bytes.
pub const RECORD: usize = 16;

/// The highest kind of policy record that OPL/XML yields.
const KINDS: usize = 18;

/// The largest number of partitionings.
const PARTITIONINGS: u32 = 16;

/// The largest number of walls, and of blocks in a wall.
const WALLS: u32 = 16;

/// A record whose numbers are not known yet: up to three names. For a rule over a set, b and c are the range of its members in
/// `members`, and a block also has its partitioning.
#[derive(Clone, Copy, Default, Debug)]
struct Said {
    n: u8,
    a: Met,
    b: Met,
    c: Met,
}

/// An accepted policy: its records and its names.
#[derive(Clone, Default, Debug)]
pub struct Policy<'t> {
    spaces: [Names<'t>; 7],
    /// The records by kind.
    said: [Vec<Said>; KINDS + 1],
    members: Vec<Met>,
    partitionings: u32,
    walls: u32,
    /// The number of blocks of the latest wall.
    wall_blocks: u32,
    /// The first name that is too long or above a limit.
    fault: Option<NameFault>,
}

/// A name in one of the texts, and its place from 1.
#[derive(Clone, Copy)]
pub(crate) struct Name<'t> {
    pub bytes: &'t [u8],
    pub text: Text,
    pub place: usize,
}

impl<'t> Policy<'t> {
    fn refuse(&mut self, text: Text, place: usize, why: NameWhy) {
        self.fault.get_or_insert(NameFault { text, place, why });
    }

    /// Records a use of the name. A name that is too long refuses the policy, whatever its number.
    #[inline]
    pub(crate) fn used(&mut self, space: Space, name: Name<'t>) -> Met {
        if name.bytes.len() > LONGEST {
            self.refuse(name.text, name.place, NameWhy::TooLong(space));
        }
        self.spaces[space as usize].meet(name.bytes, name.place)
    }

    #[inline]
    pub(crate) fn declared(&mut self, space: Space, name: Name<'t>) -> Met {
        if name.bytes.len() > LONGEST {
            self.refuse(name.text, name.place, NameWhy::TooLong(space));
        }
        let names = &mut self.spaces[space as usize];
        let met = names.declare(name.bytes, name.place);
        if names.declared().len() > space.limit() {
            self.refuse(name.text, name.place, NameWhy::TooMany(space));
        }
        met
    }

    #[inline]
    fn say(&mut self, kind: usize, n: u8, a: Met, b: Met, c: Met) {
        self.said[kind].push(Said { n, a, b, c });
    }

    /// Adds a record of one or two names.
    #[inline]
    pub(crate) fn record(&mut self, kind: usize, n: u8, a: Met, b: Met) {
        self.say(kind, n, a, b, 0);
    }

    pub(crate) fn permission(&mut self, permission: Met) {
        self.say(3, 0, permission, 0, 0);
    }

    pub(crate) fn operation(&mut self, operation: Met) {
        if let Some(permission) = self.said[3].last_mut() {
            permission.b = operation;
        }
    }

    pub(crate) fn object(&mut self, object: Met) {
        if let Some(permission) = self.said[3].last_mut() {
            permission.c = object;
        }
    }

    /// Adds a rule over a set, without members yet.
    pub(crate) fn set(&mut self, kind: usize, n: u8) {
        let at = self.members.len() as Met;
        self.say(kind, n, 0, at, at);
    }

    /// Adds a block to the latest partitioning.
    pub(crate) fn block(&mut self) {
        let at = self.members.len() as Met;
        self.say(12, 0, self.partitionings.wrapping_sub(1), at, at);
    }

    /// Adds a member to the latest rule of this kind.
    #[inline]
    pub(crate) fn member(&mut self, kind: usize, member: Met) {
        self.members.push(member);
        if let Some(set) = self.said[kind].last_mut() {
            set.c = self.members.len() as Met;
        }
    }

    pub(crate) fn partitioning(&mut self, place: usize) {
        self.partitionings += 1;
        if self.partitionings > PARTITIONINGS {
            self.refuse(Text::Policy, place, NameWhy::Partitionings);
        }
    }

    pub(crate) fn wall(&mut self, place: usize) {
        (self.walls, self.wall_blocks) = (self.walls + 1, 0);
        if self.walls > WALLS {
            self.refuse(Text::Policy, place, NameWhy::Walls);
        }
    }

    /// Adds a block to the latest wall.
    pub(crate) fn wall_block(&mut self, place: usize) {
        self.wall_blocks += 1;
        if self.wall_blocks > WALLS {
            self.refuse(Text::Policy, place, NameWhy::WallBlocks);
        }
    }

    /// Adds an object to the latest block.
    pub(crate) fn walled(&mut self, object: Met) {
        let (wall, block) = (self.walls, self.wall_blocks);
        self.say(18, 0, wall.wrapping_sub(1), block.wrapping_sub(1), object);
    }

    /// Why the names refuse the policy, if they do. Only the task lines declare names of tasks and templates.
    pub(crate) fn name_fault(&self) -> Option<NameFault> {
        let undeclared = || {
            let first = |space: Space| Some((self.spaces[space as usize].undeclared()?, space));
            let (place, space) = Space::ALL
                .into_iter()
                .filter_map(first)
                .min_by_key(|f| f.0)?;
            Some(NameFault {
                text: Text::Policy,
                place,
                why: NameWhy::Undeclared(space),
            })
        };
        self.fault.or_else(undeclared)
    }

    /// The number of records.
    pub fn count(&self) -> usize {
        self.said.iter().map(Vec::len).sum()
    }

    /// The records, kinds ascending, each kind in text order.
    pub fn records(&self) -> Vec<u8> {
        let mut records = vec![0; RECORD * self.count()];
        let written = self.write(&mut records);
        debug_assert!(written);
        records
    }

    /// Writes the records to the start of the output; writes nothing and returns false if they do not fit.
    pub fn write(&self, output: &mut [u8]) -> bool {
        if output.len() / RECORD < self.count() {
            return false;
        }
        let mut places = output.chunks_exact_mut(RECORD);
        for kind in 1..=KINDS {
            for (said, place) in self.said[kind].iter().zip(&mut places) {
                place.copy_from_slice(&self.bytes(kind, said));
            }
        }
        true
    }

    fn number(&self, space: Space, met: Met) -> u16 {
        self.spaces[space as usize].number(met)
    }

    fn members(&self, space: Space, said: &Said) -> u64 {
        let members = &self.members[said.b as usize..said.c as usize];
        let bit = |&met: &Met| 1 << self.number(space, met);
        members.iter().map(bit).fold(0, |set, bit: u64| set | bit)
    }

    /// The bytes of a record: byte 0 kind; byte 1 n; bytes 2-3 a; 4-5 b; 6-7 c; 8-15 m; little-endian.
    #[inline]
    fn bytes(&self, kind: usize, said: &Said) -> [u8; RECORD] {
        use Space::{Object, Operation, Permission, Role, Task, Template, User};
        let one = |space| [self.number(space, said.a), 0, 0];
        let two = |a, b| [self.number(a, said.a), self.number(b, said.b), 0];
        let (fields, m) = match kind {
            1 => (one(User), 0),
            2 => (one(Role), 0),
            3 => {
                let [a, b, _] = two(Permission, Operation);
                ([a, b, self.number(Object, said.c)], 0)
            }
            4 => (two(User, Role), 0),
            5 => (two(Role, Permission), 0),
            6 => (two(Task, Template), 0),
            7 => (two(Task, Role), 0),
            8 => (two(Task, Permission), 0),
            9 | 10 => ([0; 3], self.members(Role, said)),
            11 => ([0; 3], self.members(Task, said)),
            12 => ([said.a as u16, 0, 0], self.members(Task, said)),
            13 => (one(Template), 0),
            14 => (one(Task), 0),
            15 | 16 => (two(Task, Task), 0),
            17 => (two(Role, Role), 0),
            _ => {
                let object = self.number(Object, said.c);
                ([said.a as u16, said.b as u16, object], 0)
            }
        };
        let mut bytes = [0; RECORD];
        bytes[..2].copy_from_slice(&[kind as u8, said.n]);
        for (at, field) in fields.into_iter().enumerate() {
            bytes[2 + 2 * at..][..2].copy_from_slice(&field.to_le_bytes());
        }
        bytes[8..].copy_from_slice(&u64::to_le_bytes(m));
        bytes
    }

    /// The declared names of a space, by number.
    pub fn names(&self, space: Space) -> &[&'t [u8]] {
        self.spaces[space as usize].declared()
    }

    /// The number of a declared name.
    pub fn number_of(&self, space: Space, name: &[u8]) -> Option<u16> {
        self.spaces[space as usize].find(name)
    }
}
