//! The opposite direction: writes records and names as OPL/XML and task lines that read back to the same records. If something
//! cannot be expressed, all of it is reported and nothing is written.

use crate::names::{Space, LONGEST};
use crate::policy::RECORD;
use crate::xml::Xml;
use std::collections::{BTreeMap, BTreeSet};

/// How records are written.
#[derive(Clone, Copy, Default, Debug)]
pub struct Way {
    /// Also use sections 6.2 and 6.6: senior roles and walls.
    pub all_sections: bool,
    /// Allow numbers to change, because a reader numbers names in the order of their declarations.
    pub renumber: bool,
}

/// Texts that read back to these records.
#[derive(Clone, Debug)]
pub struct Written {
    /// The OPL/XML.
    pub policy: Vec<u8>,
    /// The task lines.
    pub tasks: Vec<u8>,
    /// The records that reading both texts gives: kinds ascend, and the declarations of users, roles, permissions, tasks and
    /// walls are in the order of their numbers.
    pub records: Vec<u8>,
    /// How many numbers of each space changed.
    pub renumbered: BTreeMap<Space, usize>,
}

/// Something that OPL/XML cannot express.
#[derive(Clone, PartialEq, Eq, Debug)]
pub struct Unsaid {
    /// The index of the record, from 0; `None` if it concerns names or numbers of several records.
    pub record: Option<usize>,
    /// The reason, in words.
    pub why: String,
    /// The option with which it could be expressed, if there is one.
    pub remedy: Option<Remedy>,
}

/// An option that would help.
#[derive(Clone, Copy, PartialEq, Eq, Debug)]
pub enum Remedy {
    /// `Way::all_sections`.
    AllSections,
    /// `Way::renumber`.
    Renumber,
}

/// The fields of a record.
#[derive(Clone, Copy, PartialEq, Eq, Debug)]
pub(crate) struct Fields {
    /// The index of the record in the input.
    pub at: usize,
    pub kind: u8,
    pub n: u8,
    /// The fields a, b and c.
    pub of: [u16; 3],
    pub m: u64,
}

impl Fields {
    fn read(at: usize, bytes: &[u8; RECORD]) -> Fields {
        let field = |from: usize| u16::from_le_bytes([bytes[from], bytes[from + 1]]);
        let m = bytes[8..]
            .iter()
            .rev()
            .fold(0, |m, &byte| m << 8 | u64::from(byte));
        Fields {
            at,
            kind: bytes[0],
            n: bytes[1],
            of: [field(2), field(4), field(6)],
            m,
        }
    }

    fn bytes(&self) -> [u8; RECORD] {
        let mut bytes = [0; RECORD];
        bytes[..2].copy_from_slice(&[self.kind, self.n]);
        for (at, field) in self.of.into_iter().enumerate() {
            bytes[2 + 2 * at..][..2].copy_from_slice(&field.to_le_bytes());
        }
        bytes[8..].copy_from_slice(&self.m.to_le_bytes());
        bytes
    }

    /// The members of its set.
    pub fn members(&self) -> impl Iterator<Item = u16> + use<> {
        let m = self.m;
        (0..64).filter(move |bit| m >> bit & 1 == 1)
    }
}

/// The fields of a kind: whether it uses n, how many of a, b and c it uses, whether it uses m, and the spaces of the names in
/// these.
struct Form {
    n: bool,
    of: &'static [Option<Space>],
    m: Option<Space>,
}

fn form(kind: u8) -> Option<Form> {
    use Space::{Object, Operation, Permission, Role, Task, Template, User};
    let plain = |of| Form {
        n: false,
        of,
        m: None,
    };
    Some(match kind {
        1 => plain(&[Some(User)]),
        2 => plain(&[Some(Role)]),
        3 => plain(&[Some(Permission), Some(Operation), Some(Object)]),
        4 => plain(&[Some(User), Some(Role)]),
        5 => plain(&[Some(Role), Some(Permission)]),
        6 => plain(&[Some(Task), Some(Template)]),
        7 => plain(&[Some(Task), Some(Role)]),
        8 => plain(&[Some(Task), Some(Permission)]),
        9 | 10 => Form {
            n: true,
            of: &[],
            m: Some(Role),
        },
        11 => Form {
            n: true,
            of: &[],
            m: Some(Task),
        },
        12 => Form {
            n: false,
            of: &[None],
            m: Some(Task),
        },
        13 => plain(&[Some(Template)]),
        14 => Form {
            n: true,
            of: &[Some(Task)],
            m: None,
        },
        15 | 16 => plain(&[Some(Task), Some(Task)]),
        17 => plain(&[Some(Role), Some(Role)]),
        18 => plain(&[None, None, Some(Object)]),
        _ => return None,
    })
}

/// Whether a field of a kind declares a name: a reader numbers names by these elements.
fn declares(kind: u8, field: usize) -> bool {
    matches!((kind, field), (1 | 2, 0) | (3, _) | (6, _) | (18, 2))
}

/// The records that can be expressed, in the order in which a reader gives them, and what cannot be expressed.
struct Judge {
    way: Way,
    all: Vec<Fields>,
    unsaid: Vec<Unsaid>,
}

impl Judge {
    fn tell(&mut self, record: Option<usize>, why: impl Into<String>, remedy: Option<Remedy>) {
        let why = why.into();
        self.unsaid.push(Unsaid {
            record,
            why,
            remedy,
        });
    }

    fn read(&mut self, records: &[u8]) {
        let (whole, left) = records.as_chunks::<RECORD>();
        for (at, bytes) in whole.iter().enumerate() {
            let fields = Fields::read(at, bytes);
            match self.misfit(&fields) {
                None => self.all.push(fields),
                Some((why, remedy)) => self.tell(Some(at), why, remedy),
            }
        }
        if !left.is_empty() {
            let why = format!(
                "a record has {RECORD} bytes, and {} are left over",
                left.len()
            );
            self.tell(Some(whole.len()), why, None);
        }
        self.all.sort_by_key(|fields| {
            let by_number = match fields.kind {
                1 | 2 | 3 | 6 => [fields.of[0], 0],
                18 => [fields.of[0], fields.of[1]],
                _ => [0, 0],
            };
            (fields.kind, by_number)
        });
    }

    /// Why a record cannot be expressed, whatever the other records are.
    fn misfit(&self, fields: &Fields) -> Option<(String, Option<Remedy>)> {
        let Some(form) = form(fields.kind) else {
            let kind = fields.kind;
            let why = match kind {
                32.. => "it is a request, and no part of a policy".to_string(),
                _ => format!("there is no policy record of kind {kind}"),
            };
            return Some((why, None));
        };
        if !self.way.all_sections {
            let other = match fields.kind {
                17 => Some("senior roles are of section 6.2"),
                18 => Some("walls are of section 6.6"),
                _ => None,
            };
            if let Some(why) = other {
                let why = format!("{why}, which is left out");
                return Some((why, Some(Remedy::AllSections)));
            }
        }
        let unused = fields.of[form.of.len()..].iter().any(|&field| field != 0);
        if unused || !form.n && fields.n != 0 || form.m.is_none() && fields.m != 0 {
            let kind = fields.kind;
            return Some((
                format!("a field that kind {kind} does not use is not zero"),
                None,
            ));
        }
        if form.m.is_some() && fields.m == 0 {
            return Some(("a set without members has no element".to_string(), None));
        }
        let most = [
            (12, 0, "partitionings"),
            (18, 0, "walls"),
            (18, 1, "blocks of a wall"),
        ];
        let above = most
            .iter()
            .find(|(kind, at, _)| *kind == fields.kind && fields.of[*at] > 15);
        above.map(|(_, _, what)| (format!("there are 16 {what}, 0 to 15"), None))
    }

    /// Checks that blocks of a partitioning are together and partitionings ascend, because a reply reports the place of a block.
    fn partitionings(&mut self) {
        let mut last = 0;
        let blocks: Vec<Fields> = self.all.iter().filter(|f| f.kind == 12).copied().collect();
        for block in blocks {
            if block.of[0] < last {
                let why = format!(
                    "blocks of partitioning {} stand before blocks of partitioning {last}: partitionings are numbered as they stand",
                    block.of[0]
                );
                self.tell(Some(block.at), why, None);
            }
            last = last.max(block.of[0]);
        }
    }
}

/// The declared numbers of each space, in the order in which a reader reads their names.
#[derive(Default)]
struct Numbers(BTreeMap<Space, Vec<u16>>);

impl Numbers {
    fn of(records: &[Fields]) -> Numbers {
        let mut numbers = Numbers::default();
        for fields in records {
            let Some(form) = form(fields.kind) else {
                continue;
            };
            for (at, space) in form.of.iter().enumerate() {
                if let Some(space) = space.filter(|_| declares(fields.kind, at)) {
                    let met = numbers.0.entry(space).or_default();
                    if !met.contains(&fields.of[at]) {
                        met.push(fields.of[at]);
                    }
                }
            }
        }
        numbers
    }

    fn all(&self, space: Space) -> &[u16] {
        self.0.get(&space).map_or(&[], Vec::as_slice)
    }

    /// The number that a reader gives.
    fn anew(&self, space: Space, number: u16) -> Option<u16> {
        let place = self.all(space).iter().position(|&other| other == number)?;
        Some(place as u16)
    }

    /// The record as a reader numbers it; the error is the first number that is not declared.
    fn turned(&self, fields: &Fields) -> Result<Fields, (Space, u16)> {
        let (form, mut turned) = (form(fields.kind).expect("a policy kind"), *fields);
        let anew = |space, number| self.anew(space, number).ok_or((space, number));
        for (at, space) in form.of.iter().enumerate() {
            if let Some(space) = space {
                turned.of[at] = anew(*space, fields.of[at])?;
            }
        }
        if let Some(space) = form.m {
            turned.m = 0;
            for member in fields.members() {
                turned.m |= 1 << anew(space, member)?;
            }
        }
        Ok(turned)
    }

    /// How many numbers of each space change.
    fn changed(&self) -> BTreeMap<Space, usize> {
        let count =
            |numbers: &Vec<u16>| (0..).zip(numbers).filter(|(new, old)| new != *old).count();
        let all = self
            .0
            .iter()
            .map(|(&space, numbers)| (space, count(numbers)));
        all.filter(|(_, changed)| *changed > 0).collect()
    }
}

/// The part of a name that these texts cannot contain, if there is one.
fn unfit(space: Space, name: &[u8]) -> Option<&'static str> {
    let of_line = matches!(space, Space::Task | Space::Template);
    let has = |of: fn(&u8) -> bool| name.iter().any(of);
    if name.is_empty() || name.len() > LONGEST {
        return Some("has no byte, or more than 64");
    }
    if of_line && has(|&b| b <= b' ') {
        return Some("has white space or a control byte, and stands in a task line");
    }
    if has(|&b| b < b' ' && !b"\t\n\r".contains(&b)) {
        return Some("has a control byte");
    }
    if has(|&b| b == b'<' || b == b'&') {
        return Some("has < or &, and references are not read");
    }
    if has(|&b| b == b'"') && has(|&b| b == b'\'') {
        return Some("has both quotes, and references are not read");
    }
    std::str::from_utf8(name).is_err().then_some("is not UTF-8")
}

/// The names of everything declared, by space and number.
pub(crate) type Named = BTreeMap<(Space, u16), Vec<u8>>;

/// The prefixes that document 000 uses for names.
fn prefix(space: Space) -> &'static str {
    match space {
        Space::Template => "wf_template",
        other => other.name(),
    }
}

/// A name for each declared number: the given one, else one made of its space and number.
fn names(
    numbers: &Numbers,
    name: &dyn Fn(Space, u16) -> Option<Vec<u8>>,
    judge: &mut Judge,
) -> Named {
    let mut named = Named::new();
    for (&space, all) in &numbers.0 {
        let mut taken: BTreeSet<Vec<u8>> = BTreeSet::new();
        for &number in all {
            let Some(given) = name(space, number) else {
                continue;
            };
            let word = space.name();
            if let Some(why) = unfit(space, &given) {
                judge.tell(None, format!("{word} {number}: its name {why}"), None);
            }
            if !taken.insert(given.clone()) {
                judge.tell(
                    None,
                    format!("{word} {number}: another {word} has its name"),
                    None,
                );
            }
            named.insert((space, number), given);
        }
        for &number in all {
            let mut made = format!("{}:{number}", prefix(space)).into_bytes();
            while !named.contains_key(&(space, number)) && !taken.insert(made.clone()) {
                made.push(b'_');
            }
            named.entry((space, number)).or_insert(made);
        }
    }
    named
}

/// Writes records with the names that `name` gives their numbers. A number without a name is named by its space and number, as in
/// `user:300`.
pub fn write(
    records: &[u8],
    name: &dyn Fn(Space, u16) -> Option<Vec<u8>>,
    way: Way,
) -> Result<Written, Vec<Unsaid>> {
    let mut judge = Judge {
        way,
        all: Vec::new(),
        unsaid: Vec::new(),
    };
    judge.read(records);
    judge.partitionings();
    let numbers = Numbers::of(&judge.all);
    let renumbered = numbers.changed();
    if !way.renumber {
        for (space, count) in &renumbered {
            let word = space.name();
            let why = format!(
                "{count} of {} {word}s: a reader numbers {word}s from 0 on in the order of their declarations, and these have other numbers",
                numbers.all(*space).len()
            );
            judge.tell(None, why, Some(Remedy::Renumber));
        }
    }
    let mut turned = Vec::new();
    for fields in judge.all.clone() {
        match numbers.turned(&fields) {
            Ok(fields) => turned.extend(fields.bytes()),
            Err((space, number)) => {
                let why = format!("no record declares {} {number}", space.name());
                judge.tell(Some(fields.at), why, None);
            }
        }
    }
    let named = names(&numbers, name, &mut judge);
    if !judge.unsaid.is_empty() {
        judge.unsaid.sort_by_key(|unsaid| unsaid.record);
        return Err(judge.unsaid);
    }
    let (policy, tasks) = Xml::texts(&judge.all, &named);
    Ok(Written {
        policy,
        tasks,
        records: turned,
        renumbered,
    })
}
