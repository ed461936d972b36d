//! The rules (docs/RULES.md) once more, as sets and lists without derived data: each rule scans everything that it is about.
//! It shares no code with the plain engine, so that the two check each other.

use records::{Record, Reply, Reply::*, Set};
use std::collections::{BTreeMap, BTreeSet};

type Numbers = BTreeSet<u16>;
type Pairs = BTreeSet<(u16, u16)>;

/// The result of mending a file: the reply, the number of records kept, and the output and the report after the call.
pub type Mended = (Reply, usize, Vec<u8>, Vec<(u64, u64)>);

#[derive(Clone)]
pub(crate) struct Entry {
    pub instance: u16,
    pub user: u16,
    pub task: u16,
    /// The subject that claimed the task; `None` if the task is done.
    pub holder: Option<u16>,
}

/// A place in the rules where a role counts with all roles below it.
#[derive(Clone, Copy, PartialEq, Eq, Debug)]
pub enum Place {
    /// The check that a new junior role is not already above the senior one (17).
    Loop,
    /// Static sets, when one role is put above another (17).
    Raise,
    /// A static set that follows the assignments in the policy (9).
    StaticSet,
    /// Static sets, when a user is assigned a role or joins with roles (4, 32, 34).
    Assign,
    /// Which roles a user loses when a role is taken back (35).
    TakeBack,
    /// Which roles may be activated (40, 42).
    Activate,
    /// Dynamic sets (40, 42).
    Dynamic,
    /// Which tasks an active role opens (50).
    Open,
    /// Which permissions an active role has (56).
    Permit,
}

impl Place {
    /// All places.
    pub const ALL: [Place; 9] = [
        Place::Loop,
        Place::Raise,
        Place::StaticSet,
        Place::Assign,
        Place::TakeBack,
        Place::Activate,
        Place::Dynamic,
        Place::Open,
        Place::Permit,
    ];
}

/// A deliberate error about walls.
#[derive(Clone, Copy, PartialEq, Eq, Debug)]
pub enum Walling {
    /// A commit binds the subject instead of its user.
    OfSubjects,
    /// WALL is given before DENIED.
    BeforeDenied,
    /// A check binds, as a commit does.
    ByChecks,
    /// A commit binds only in the lowest wall that has the object.
    LowestWall,
    /// A deleted user stays bound.
    Kept,
}

impl Walling {
    /// All of them.
    pub const ALL: [Walling; 5] = [
        Walling::OfSubjects,
        Walling::BeforeDenied,
        Walling::ByChecks,
        Walling::LowestWall,
        Walling::Kept,
    ];
}

/// A granted commit: subject, user and object.
#[derive(Clone, Copy)]
struct Commit {
    subject: u16,
    user: u16,
    object: u16,
}

/// The engine: sets, pairs and lists, each as the rules name them.
#[derive(Clone, Default)]
pub struct Slow {
    /// A place where this engine ignores the roles below others, to test that the comparison finds it.
    forgotten: Option<Place>,
    /// A deliberate error about walls, to test that the comparison finds it.
    walling: Option<Walling>,
    users: Numbers,
    roles: Numbers,
    permissions: BTreeMap<u16, (u16, u16)>,
    user_roles: Pairs,
    role_permissions: Pairs,
    tasks: BTreeMap<u16, u16>,
    open_to: Pairs,
    carries: Pairs,
    static_sets: Vec<(u8, Numbers)>,
    dynamic_sets: Vec<(u8, Numbers)>,
    task_sets: Vec<(u8, Numbers)>,
    blocks: Vec<(u16, Numbers)>,
    bans: Numbers,
    limits: BTreeMap<u16, u8>,
    bindings: Vec<(u16, u16)>,
    prerequisites: Vec<(u16, u16)>,
    /// Pairs of senior and junior role.
    above: Pairs,
    /// Wall, block and object.
    walls: Vec<(u16, u16, u16)>,
    /// All commits of users who are still declared.
    commits: Vec<Commit>,
    subjects: BTreeMap<u16, (u16, Numbers)>,
    /// Every role that a live subject has had active.
    had: BTreeMap<u16, Numbers>,
    instances: BTreeMap<u16, u16>,
    entries: Vec<Entry>,
}

fn numbers(m: u64) -> Numbers {
    Set(m).members().map(u16::from).collect()
}

fn overlap(one: &Numbers, other: &Numbers) -> usize {
    one.intersection(other).count()
}

fn broken(sets: &[(u8, Numbers)], roles: &Numbers) -> bool {
    sets.iter()
        .any(|(n, members)| overlap(members, roles) > usize::from(*n))
}

/// The first reply whose check applies, else GRANTED.
fn first(checks: &[(Reply, bool)]) -> Reply {
    let applies = checks.iter().find(|(_, applies)| *applies);
    applies.map_or(Granted, |(reply, _)| *reply)
}

/// The places, from 1, of all broken rules of a kind.
fn places<T>(rules: &[T], broken: impl Fn(&T) -> bool) -> Vec<usize> {
    let numbered = rules.iter().enumerate();
    let of_broken = |(before, rule)| broken(rule).then_some(before + 1);
    numbered.filter_map(of_broken).collect()
}

/// The same for a check without a place.
fn unplaced(applies: bool) -> Vec<usize> {
    if applies {
        vec![0]
    } else {
        Vec::new()
    }
}

/// The largest values of a, b and c of a kind, if it uses them, and whether it uses n and m.
type Form = ([Option<u16>; 3], bool, bool);

fn form(kind: u8) -> Option<Form> {
    let any = u16::MAX;
    Some(match kind {
        1 | 33 => ([Some(1023), None, None], false, false),
        32 => ([Some(1023), None, None], false, true),
        2 => ([Some(63), None, None], false, false),
        3 => ([Some(255), Some(any), Some(any)], false, false),
        4 | 34 | 35 => ([Some(1023), Some(63), None], false, false),
        5 | 8 | 36 | 37 => ([Some(63), Some(255), None], false, false),
        6 | 48 => ([Some(63), Some(15), None], false, false),
        7 | 15..=17 => ([Some(63), Some(63), None], false, false),
        9..=11 => ([None, None, None], true, true),
        12 => ([Some(15), None, None], false, true),
        13 | 60 => ([Some(15), None, None], false, false),
        18 => ([Some(15), Some(15), Some(any)], false, false),
        14 => ([Some(63), None, None], true, false),
        40 => ([Some(127), Some(1023), None], false, true),
        41 => ([Some(127), None, None], false, false),
        42 | 43 => ([Some(127), Some(63), None], false, false),
        49 | 58 => ([Some(63), None, None], false, false),
        50..=52 => ([Some(127), Some(63), Some(63)], false, false),
        56 | 59 => ([Some(127), Some(any), Some(any)], false, false),
        57 => ([Some(127), Some(63), Some(63)], false, true),
        _ => return None,
    })
}

/// The record if its form is right; else SHAPE or RANGE.
fn well_formed(bytes: &[u8], policy: bool) -> Result<Record, Reply> {
    let bytes: [u8; 16] = bytes.try_into().map_err(|_| Shape)?;
    let r = Record(bytes);
    let (limits, n, m) = form(r.kind()).ok_or(Shape)?;
    let fields = [(r.a(), limits[0]), (r.b(), limits[1]), (r.c(), limits[2])];
    let unused = fields.iter().any(|(f, last)| last.is_none() && *f != 0);
    let large = r.kind() == 57 && r.m() >= 1 << 32;
    let extra = !n && r.n() != 0 || !m && r.m() != 0 || large;
    if policy != (r.kind() <= 18) || unused || extra {
        return Err(Shape);
    }
    let beyond = |(f, last): &(u16, Option<u16>)| last.is_some_and(|last| *f > last);
    if fields.iter().any(beyond) {
        return Err(Range);
    }
    Ok(r)
}

impl Slow {
    /// An engine that ignores the roles below others at one place.
    pub fn forgetting(place: Place) -> Slow {
        Slow {
            forgotten: Some(place),
            ..Slow::default()
        }
    }

    /// An engine with an error about walls.
    pub fn walling(walling: Walling) -> Slow {
        Slow {
            walling: Some(walling),
            ..Slow::default()
        }
    }

    fn empty(&mut self) {
        *self = Slow {
            forgotten: self.forgotten,
            walling: self.walling,
            ..Slow::default()
        };
    }

    /// The roles and all roles below them.
    fn down(&self, place: Place, roles: &Numbers) -> Numbers {
        let mut all = roles.clone();
        if self.forgotten == Some(place) {
            return all;
        }
        loop {
            let below = self.above.iter().filter(|(senior, _)| all.contains(senior));
            let juniors: Numbers = below.map(|(_, junior)| *junior).collect();
            if juniors.is_subset(&all) {
                return all;
            }
            all.extend(juniors);
        }
    }

    /// Whether roles, with those below them, break a static set.
    fn breaks_static(&self, place: Place, roles: &Numbers) -> bool {
        broken(&self.static_sets, &self.down(place, roles))
    }

    /// Loads a policy: the reply, and the place of the refused record from 1, or 0.
    pub fn load(&mut self, policy: &[u8]) -> (Reply, usize) {
        self.empty();
        for (before, bytes) in policy.chunks(16).enumerate() {
            let reply = match well_formed(bytes, true) {
                Ok(record) => self.policy_record(record),
                Err(reply) => reply,
            };
            if reply != Granted {
                self.empty();
                return (reply, before + 1);
            }
        }
        (Granted, 0)
    }

    /// The policy as records, kinds ascending. Sets and maps are already ordered by a and then b; rules keep their order.
    fn rows(&self) -> Vec<Record> {
        let set = |members: &Numbers| members.iter().map(|m| *m as u8).collect::<Set>();
        let sets = |kind: u8, rules: &[(u8, Numbers)]| -> Vec<Record> {
            let row = |(n, m): &(u8, Numbers)| Record::new(kind, *n, 0, 0, 0, set(m).0);
            rules.iter().map(row).collect()
        };
        let pairs = |kind: u8, pairs: &mut dyn Iterator<Item = (u16, u16)>| -> Vec<Record> {
            let row = |(a, b)| Record::new(kind, 0, a, b, 0, 0);
            pairs.map(row).collect()
        };
        let alone = |kind: u8, numbers: &Numbers| pairs(kind, &mut numbers.iter().map(|a| (*a, 0)));
        let declared = self.permissions.iter();
        let declared = declared.map(|(a, (b, c))| Record::permission(*a, *b, *c));
        let blocks = self.blocks.iter().map(|(p, m)| Record::block(*p, set(m)));
        let limits = self.limits.iter().map(|(t, n)| Record::at_most(*t, *n));
        let walls = self.walls.iter().map(|(w, b, o)| Record::wall(*w, *b, *o));
        [
            alone(1, &self.users),
            alone(2, &self.roles),
            declared.collect(),
            pairs(4, &mut self.user_roles.iter().copied()),
            pairs(5, &mut self.role_permissions.iter().copied()),
            pairs(6, &mut self.tasks.iter().map(|(t, j)| (*t, *j))),
            pairs(7, &mut self.open_to.iter().copied()),
            pairs(8, &mut self.carries.iter().copied()),
            sets(9, &self.static_sets),
            sets(10, &self.dynamic_sets),
            sets(11, &self.task_sets),
            blocks.collect(),
            alone(13, &self.bans),
            limits.collect(),
            pairs(15, &mut self.bindings.iter().copied()),
            pairs(16, &mut self.prerequisites.iter().copied()),
            pairs(17, &mut self.above.iter().copied()),
            walls.collect(),
        ]
        .concat()
    }

    /// Writes the policy out: the reply, the number of records, and the output after the call.
    pub fn write(&self, output: &[u8]) -> (Reply, usize, Vec<u8>) {
        let rows = self.rows();
        if 16 * rows.len() > output.len() {
            return (Room, 0, output.to_vec());
        }
        let behind = &output[16 * rows.len()..];
        let written = rows.iter().flat_map(|r| r.0).chain(behind.iter().copied());
        (Granted, rows.len(), written.collect())
    }

    /// Mends a file: the reply, the number of records kept, and the output and the report after the call.
    pub fn mend(&mut self, file: &[u8], output: &[u8], report: &[(u64, u64)]) -> Mended {
        let whole = file.len() / 16;
        if output.len() < file.len() || report.len() < whole + 1 {
            return (Room, 0, output.to_vec(), report.to_vec());
        }
        self.empty();
        let (mut kept, mut dropped) = (Vec::new(), Vec::new());
        for (bytes, place) in file.chunks(16).zip(1..) {
            let judged = well_formed(bytes, true);
            match judged.map_or_else(|refused| refused, |record| self.policy_record(record)) {
                Granted => kept.push(bytes),
                refused => dropped.push((place, u64::from(refused.number()))),
            }
        }
        let number = kept.len();
        let (kept, count) = (kept.concat(), dropped.len());
        let output = [&kept, &output[kept.len()..]].concat();
        (
            Granted,
            number,
            output,
            [dropped, report[count..].to_vec()].concat(),
        )
    }

    /// Answers one request: the reply, and the place of the rule that refused it, from 1, or 0.
    pub fn request(&mut self, bytes: &[u8]) -> (Reply, usize) {
        match well_formed(bytes, false) {
            Ok(record) => self.serve(record),
            Err(reply) => (reply, 0),
        }
    }

    /// Answers a question: its reply, and the answer buffer after the call.
    pub fn question(&self, bytes: &[u8], answer: &[u64]) -> (Reply, Vec<u64>) {
        let no_question = !matches!(bytes.first(), Some(58 | 60));
        let judged = first(&[(Room, answer.len() != 66), (Shape, no_question)]);
        let asked = match judged {
            Granted => well_formed(bytes, false),
            refused => Err(refused),
        };
        let judge = |record| match self.judge_question(record) {
            Granted => Ok(self.figures(record)),
            refused => Err(refused),
        };
        match asked.and_then(judge) {
            Ok(mut figures) => {
                figures.resize(66, 0);
                (Granted, figures)
            }
            Err(reply) => (reply, answer.to_vec()),
        }
    }

    fn judge_question(&self, r: Record) -> Reply {
        let unknown = match r.kind() {
            58 => !self.instances.contains_key(&r.a()),
            _ => self.tasks_of(r.a()).is_empty(),
        };
        first(&[(Unknown, unknown)])
    }

    /// The figures of a granted question, without the zeros after them.
    fn figures(&self, r: Record) -> Vec<u64> {
        if r.kind() == 60 {
            return self.stuck_and_free(r.a());
        }
        let entries = self.entries.iter().filter(|e| e.instance == r.a());
        let done = entries.clone().filter(|e| e.holder.is_none());
        let done: Set = done.map(|e| e.task as u8).collect();
        vec![entries.count() as u64, done.0]
    }

    /// The prerequisites of a task.
    fn required(&self, task: u16) -> Numbers {
        let before = self.prerequisites.iter().filter(|(_, b)| *b == task);
        before.map(|(a, _)| *a).collect()
    }

    /// The tasks of a template that can be claimed at some time: those without prerequisites, those whose prerequisites are all
    /// such tasks, and so on.
    fn free(&self, template: u16) -> Numbers {
        let tasks = self.tasks_of(template);
        let mut free = Numbers::new();
        for _ in 0..tasks.len() {
            let more = tasks.iter().filter(|t| self.required(**t).is_subset(&free));
            free = more.copied().collect();
        }
        free
    }

    fn stuck_and_free(&self, template: u16) -> Vec<u64> {
        let (tasks, free) = (self.tasks_of(template), self.free(template));
        let stuck: Set = tasks.difference(&free).map(|t| *t as u8).collect();
        let mut list: Vec<u16> = Vec::new();
        while list.len() < free.len() {
            let earlier: Numbers = list.iter().copied().collect();
            let may = |t: &&u16| !earlier.contains(*t) && self.required(**t).is_subset(&earlier);
            let lowest = free.iter().find(may);
            list.push(*lowest.expect("a free task can stand in the list"));
        }
        let list = list.iter().map(|t| u64::from(*t));
        [stuck.0, free.len() as u64]
            .into_iter()
            .chain(list)
            .collect()
    }

    /// The engine with these open orders and templates, and these entries.
    #[cfg(mishantral_engine)]
    pub(crate) fn with_orders(self, orders: Vec<(u16, u16)>, entries: Vec<Entry>) -> Slow {
        Slow {
            instances: orders.into_iter().collect(),
            entries,
            ..self
        }
    }

    /// Answers a pile: its reply, and the answer buffer after the call.
    pub fn pile(&mut self, records: &[u8], answers: &[u8], at: usize) -> (Reply, Vec<u8>) {
        let whole = records.len() / 16;
        let past_the_end = at > answers.len();
        let reply = first(&[
            (Room, past_the_end),
            (Room, at.saturating_add(whole) > answers.len()),
            (Room, whole > 4096),
            (Shape, records.len() != 16 * whole),
        ]);
        if reply != Granted {
            return (reply, answers.to_vec());
        }
        let (before, behind) = (&answers[..at], &answers[at + whole..]);
        let replies = records.chunks(16).map(|r| self.request(r).0.number());
        let replies: Vec<u8> = replies.collect();
        (Granted, [before, &replies, behind].concat())
    }

    fn roles_of(&self, user: u16) -> Numbers {
        let of_user = |(u, role): &(u16, u16)| (*u == user).then_some(*role);
        self.user_roles.iter().filter_map(of_user).collect()
    }

    /// The union of the active roles of the user's subjects.
    fn active_of(&self, user: u16) -> Numbers {
        let of_user = self.subjects.values().filter(|(u, _)| *u == user);
        of_user.flat_map(|(_, roles)| roles.clone()).collect()
    }

    /// What a dynamic set counts: the roles that the user's live subjects have had active.
    fn had_by(&self, user: u16) -> Numbers {
        let of_user = self.subjects.iter().filter(|(_, (u, _))| *u == user);
        of_user.flat_map(|(s, _)| self.had[s].clone()).collect()
    }

    fn with(mut roles: Numbers, role: u16) -> Numbers {
        roles.insert(role);
        roles
    }

    fn tasks_of(&self, template: u16) -> Numbers {
        let of_it = |(task, of): (&u16, &u16)| (*of == template).then_some(*task);
        self.tasks.iter().filter_map(of_it).collect()
    }

    fn undeclared(&self, members: &Numbers, tasks: bool) -> bool {
        members.iter().any(|i| {
            if tasks {
                !self.tasks.contains_key(i)
            } else {
                !self.roles.contains(i)
            }
        })
    }

    fn several_templates(&self, members: &Numbers) -> bool {
        let templates: Numbers = members.iter().map(|t| self.tasks[t]).collect();
        templates.len() > 1
    }

    fn policy_record(&mut self, r: Record) -> Reply {
        let reply = match r.kind() {
            1..=8 => self.judge_declaration(r),
            9..=12 => self.judge_set(r),
            17 => self.judge_seniority(r.a(), r.b()),
            18 => self.judge_wall(r.a(), r.b(), r.c()),
            _ => self.judge_rule(r),
        };
        if reply == Granted {
            self.enter(r);
        }
        reply
    }

    fn judge_declaration(&self, r: Record) -> Reply {
        let (a, b) = (r.a(), r.b());
        let (user, role) = (self.users.contains(&a), self.roles.contains(&b));
        let task = self.tasks.contains_key(&a);
        let permission = self.permissions.contains_key(&b);
        match r.kind() {
            1 => first(&[(Taken, user)]),
            2 => first(&[(Taken, self.roles.contains(&a))]),
            3 => {
                let pair = self.permissions.values().any(|p| *p == (b, r.c()));
                first(&[(Taken, self.permissions.contains_key(&a) || pair)])
            }
            4 => self.judge_assignment(a, b),
            5 => self.judge_giving(a, b),
            6 => first(&[(Taken, task)]),
            7 => first(&[
                (Unknown, !task || !role),
                (Taken, self.open_to.contains(&(a, b))),
            ]),
            _ => first(&[
                (Unknown, !task || !permission),
                (Taken, self.carries.contains(&(a, b))),
            ]),
        }
    }

    fn judge_assignment(&self, user: u16, role: u16) -> Reply {
        let then = Slow::with(self.roles_of(user), role);
        first(&[
            (
                Unknown,
                !self.users.contains(&user) || !self.roles.contains(&role),
            ),
            (Taken, self.user_roles.contains(&(user, role))),
            (Static, self.breaks_static(Place::Assign, &then)),
        ])
    }

    fn judge_giving(&self, role: u16, permission: u16) -> Reply {
        let known = self.roles.contains(&role) && self.permissions.contains_key(&permission);
        first(&[
            (Unknown, !known),
            (Taken, self.role_permissions.contains(&(role, permission))),
        ])
    }

    fn judge_set(&self, r: Record) -> Reply {
        let members = numbers(r.m());
        let tasks = r.kind() > 10;
        if self.undeclared(&members, tasks) {
            return Unknown;
        }
        let mixed = tasks && self.several_templates(&members);
        if r.kind() == 12 {
            return self.judge_block(r.a(), members, mixed);
        }
        let n = usize::from(r.n());
        let rules = match r.kind() {
            9 => &self.static_sets,
            10 => &self.dynamic_sets,
            _ => &self.task_sets,
        };
        let ill_made = n < 1 || n >= members.len() || mixed;
        let counted = |user: &u16| self.down(Place::StaticSet, &self.roles_of(*user));
        let too_many = |user: &u16| overlap(&counted(user), &members) > n;
        first(&[
            (Taken, rules.contains(&(r.n(), members.clone()))),
            (Rule, ill_made),
            (Static, r.kind() == 9 && self.users.iter().any(too_many)),
            (Full, rules.len() == 32),
        ])
    }

    fn judge_block(&self, partitioning: u16, members: Numbers, mixed: bool) -> Reply {
        let earlier = self.blocks.iter().filter(|(p, _)| *p == partitioning);
        let clash = |(_, other): &(u16, Numbers)| {
            let both: Numbers = other.union(&members).copied().collect();
            overlap(other, &members) > 0 || self.several_templates(&both)
        };
        let ill_made = members.is_empty() || mixed || earlier.clone().any(clash);
        first(&[
            (Taken, earlier.clone().any(|(_, other)| *other == members)),
            (Rule, ill_made),
            (Full, self.blocks.len() == 64),
        ])
    }

    fn judge_rule(&self, r: Record) -> Reply {
        let (a, b) = (r.a(), r.b());
        let task = |t| self.tasks.contains_key(&t);
        let ill_paired = a == b || self.tasks.get(&a) != self.tasks.get(&b);
        match r.kind() {
            13 => first(&[
                (Unknown, self.tasks_of(a).is_empty()),
                (Taken, self.bans.contains(&a)),
            ]),
            14 => first(&[
                (Unknown, !task(a)),
                (Taken, self.limits.contains_key(&a)),
                (Rule, r.n() == 0),
            ]),
            15 => first(&[
                (Unknown, !task(a) || !task(b)),
                (
                    Taken,
                    self.bindings.contains(&(a, b)) || self.bindings.contains(&(b, a)),
                ),
                (Rule, ill_paired),
                (Full, self.bindings.len() == 64),
            ]),
            _ => first(&[
                (Unknown, !task(a) || !task(b)),
                (Taken, self.prerequisites.contains(&(a, b))),
                (Rule, ill_paired),
                (Full, self.prerequisites.len() == 64),
            ]),
        }
    }

    fn judge_seniority(&self, senior: u16, junior: u16) -> Reply {
        let known = self.roles.contains(&senior) && self.roles.contains(&junior);
        let below = self.down(Place::Loop, &Numbers::from([junior]));
        let mut raised = self.clone();
        raised.above.extend([(senior, junior)]);
        let breaks = |user: &u16| raised.breaks_static(Place::Raise, &self.roles_of(*user));
        first(&[
            (Unknown, !known),
            (Taken, self.above.contains(&(senior, junior))),
            (Rule, senior == junior),
            (Loop, below.contains(&senior)),
            (Static, self.users.iter().any(breaks)),
            (Full, self.above.len() == 64),
        ])
    }

    fn judge_wall(&self, wall: u16, block: u16, object: u16) -> Reply {
        let mut walls = self.walls.iter();
        first(&[
            (Taken, self.walls.contains(&(wall, block, object))),
            (Rule, walls.any(|(w, _, o)| (*w, *o) == (wall, object))),
            (Full, self.walls.len() == 256),
        ])
    }

    /// Whether some wall has the two objects in different blocks.
    fn apart(&self, committed: u16, object: u16) -> bool {
        let mut of_committed = self.walls.iter().filter(|(_, _, o)| *o == committed);
        let apart = |(w, b, _): &(u16, u16, u16)| {
            let mut walls = self.walls.iter();
            walls.any(|(wall, block, o)| (wall, *o) == (w, object) && block != b)
        };
        match self.walling {
            Some(Walling::LowestWall) => of_committed.min().is_some_and(apart),
            _ => of_committed.any(apart),
        }
    }

    /// DENIED and WALL of a check, for a subject's active roles.
    fn judge_check(&self, r: Record, user: u16, active: &Numbers) -> Reply {
        let acting = self.down(Place::Permit, active);
        let has = |p: &u16| {
            let mut acting = acting.iter();
            acting.any(|r| self.role_permissions.contains(&(*r, *p)))
        };
        let walled = |c: &Commit| {
            let whose = match self.walling {
                Some(Walling::OfSubjects) => c.subject == r.a(),
                _ => c.user == user,
            };
            whose && self.apart(c.object, r.c())
        };
        let mut checks = [
            (Denied, !self.permissions_of(r.b(), r.c()).any(|p| has(&p))),
            (Wall, self.commits.iter().any(walled)),
        ];
        if self.walling == Some(Walling::BeforeDenied) {
            checks.reverse();
        }
        first(&checks)
    }

    /// Adds what an accepted policy record states.
    fn enter(&mut self, r: Record) {
        let (n, a, b) = (r.n(), r.a(), r.b());
        let members = numbers(r.m());
        match r.kind() {
            1 => self.users.extend([a]),
            2 => self.roles.extend([a]),
            3 => self.permissions.extend([(a, (b, r.c()))]),
            4 => self.user_roles.extend([(a, b)]),
            5 => self.role_permissions.extend([(a, b)]),
            6 => self.tasks.extend([(a, b)]),
            7 => self.open_to.extend([(a, b)]),
            8 => self.carries.extend([(a, b)]),
            9 => self.static_sets.push((n, members)),
            10 => self.dynamic_sets.push((n, members)),
            11 => self.task_sets.push((n, members)),
            12 => self.blocks.push((a, members)),
            13 => self.bans.extend([a]),
            14 => self.limits.extend([(a, n)]),
            15 => self.bindings.push((a, b)),
            16 => self.prerequisites.push((a, b)),
            17 => self.above.extend([(a, b)]),
            _ => self.walls.push((a, b, r.c())),
        }
    }

    fn serve(&mut self, r: Record) -> (Reply, usize) {
        let (reply, place) = match r.kind() {
            32..=37 => (self.judge_roles(r), 0),
            40..=43 | 56 | 59 => (self.judge_sessions(r), 0),
            48 | 49 => (self.judge_orders(r), 0),
            50 => self.judge_claim(r),
            58 | 60 => (self.judge_question(r), 0),
            _ => (self.judge_holder(r), 0),
        };
        if reply == Granted {
            self.act(r);
        }
        (reply, place)
    }

    fn judge_roles(&self, r: Record) -> Reply {
        let (a, b) = (r.a(), r.b());
        let user = self.users.contains(&a);
        match r.kind() {
            32 => {
                let roles = numbers(r.m());
                first(&[
                    (Unknown, !roles.iter().all(|role| self.roles.contains(role))),
                    (Taken, user),
                    (Static, self.breaks_static(Place::Assign, &roles)),
                ])
            }
            33 => {
                let live = self.subjects.values().any(|(u, _)| *u == a);
                let entered = |e: &Entry| e.user == a && self.instances.contains_key(&e.instance);
                let used = live || self.entries.iter().any(entered);
                first(&[(Unknown, !user), (InUse, used)])
            }
            34 => self.judge_assignment(a, b),
            35 => {
                let assigned = self.roles_of(a);
                let left: Numbers = assigned.iter().copied().filter(|r| *r != b).collect();
                let now = self.down(Place::TakeBack, &assigned);
                let then = self.down(Place::TakeBack, &left);
                let mut active = self.active_of(a).into_iter();
                first(&[
                    (Unknown, !self.user_roles.contains(&(a, b))),
                    (
                        InUse,
                        active.any(|r| now.contains(&r) && !then.contains(&r)),
                    ),
                ])
            }
            36 => self.judge_giving(a, b),
            _ => first(&[(Unknown, !self.role_permissions.contains(&(a, b)))]),
        }
    }

    /// NOT ASSIGNED and DYNAMIC, for further roles that a user's subject would have active.
    fn judge_active(&self, user: u16, roles: &Numbers) -> [(Reply, bool); 2] {
        let then = self.had_by(user).union(roles).copied().collect();
        let counted = self.down(Place::Dynamic, &then);
        let may = self.down(Place::Activate, &self.roles_of(user));
        [
            (NotAssigned, !roles.is_subset(&may)),
            (Dynamic, broken(&self.dynamic_sets, &counted)),
        ]
    }

    fn judge_sessions(&self, r: Record) -> Reply {
        let (a, b) = (r.a(), r.b());
        if r.kind() == 40 {
            let roles = numbers(r.m());
            let [assigned, dynamic] = self.judge_active(b, &roles);
            let unknown = !self.users.contains(&b) || self.undeclared(&roles, false);
            let live = self.subjects.contains_key(&a);
            return first(&[(Unknown, unknown), (Taken, live), assigned, dynamic]);
        }
        let Some((user, active)) = self.subjects.get(&a) else {
            return Unknown;
        };
        match r.kind() {
            41 => {
                let held = self.entries.iter().any(|e| e.holder == Some(a));
                first(&[(InUse, held)])
            }
            42 => {
                let [assigned, dynamic] = self.judge_active(*user, &Numbers::from([b]));
                first(&[
                    (Unknown, !self.roles.contains(&b)),
                    (Taken, active.contains(&b)),
                    assigned,
                    dynamic,
                ])
            }
            43 => first(&[(Unknown, !active.contains(&b))]),
            _ => self.judge_check(r, *user, active),
        }
    }

    fn permissions_of(&self, operation: u16, object: u16) -> impl Iterator<Item = u16> + '_ {
        let of_pair =
            move |(p, pair): (&u16, &(u16, u16))| (*pair == (operation, object)).then_some(*p);
        self.permissions.iter().filter_map(of_pair)
    }

    fn judge_orders(&self, r: Record) -> Reply {
        let open = self.instances.contains_key(&r.a());
        if r.kind() == 48 {
            let no_task = self.tasks_of(r.b()).is_empty();
            return first(&[(Unknown, no_task), (Taken, open)]);
        }
        let held = |e: &Entry| e.instance == r.a() && e.holder.is_some();
        first(&[(Unknown, !open), (InUse, self.entries.iter().any(held))])
    }

    /// The subject's user, if everything that the record names is known.
    fn named(&self, r: Record) -> Option<u16> {
        let (user, _) = self.subjects.get(&r.a())?;
        let template = self.instances.get(&r.b())?;
        (self.tasks.get(&r.c())? == template).then_some(*user)
    }

    fn judge_holder(&self, r: Record) -> Reply {
        if self.named(r).is_none() {
            return Unknown;
        }
        let holds = |e: &Entry| (e.instance, e.task, e.holder) == (r.b(), r.c(), Some(r.a()));
        let yours = self.entries.iter().any(holds);
        let (operation, object) = (r.m() % 65_536, r.m() / 65_536);
        let carried = self
            .permissions_of(operation as u16, object as u16)
            .any(|p| self.carries.contains(&(r.c(), p)));
        first(&[(NotYours, !yours), (Denied, r.kind() == 57 && !carried)])
    }

    fn judge_claim(&self, r: Record) -> (Reply, usize) {
        let (subject, task) = (r.a(), r.c());
        let Some(user) = self.named(r) else {
            return (Unknown, 0);
        };
        let order: Vec<&Entry> = self
            .entries
            .iter()
            .filter(|e| e.instance == r.b())
            .collect();
        let held = order.iter().any(|e| e.task == task && e.holder.is_some());
        let acting = self.down(Place::Open, &self.subjects[&subject].1);
        let opened = acting
            .iter()
            .any(|role| self.open_to.contains(&(task, *role)));
        let mut checks = vec![(Taken, unplaced(held)), (NoRole, unplaced(!opened))];
        checks.extend(self.claim_rules(&order, user, task));
        checks.push((Full, unplaced(self.entries.len() == 2048)));
        let answers = checks.iter().filter_map(|(reply, broken)| {
            let place = broken.first()?;
            Some((*reply, *place))
        });
        answers.into_iter().next().unwrap_or((Granted, 0))
    }

    /// Each claim rule with the places of all broken ones, in the order of checks.
    fn claim_rules(&self, order: &[&Entry], user: u16, task: u16) -> [(Reply, Vec<usize>); 6] {
        let of_user = |e: &&&Entry| e.user == user;
        let d: Numbers = order.iter().filter(of_user).map(|e| e.task).collect();
        let done: Numbers = order
            .iter()
            .filter(|e| e.holder.is_none())
            .map(|e| e.task)
            .collect();
        let mut others = d.clone();
        others.remove(&task);
        let template = self.tasks[&task];
        let mut rest = self.tasks_of(template);
        let governed = self.bans.contains(&template) && rest.len() > 1;
        rest.remove(&task);
        let of_another = |t: u16| order.iter().any(|e| e.task == t && e.user != user);
        let count = order.iter().filter(|e| e.task == task).count();
        let separated = |(n, members): &(u8, Numbers)| {
            members.contains(&task) && overlap(members, &others) >= usize::from(*n)
        };
        let too_often = |n: &u8| count >= usize::from(*n);
        let apart =
            |(x, y): &(u16, u16)| (*x == task && of_another(*y)) || (*y == task && of_another(*x));
        let early = |(x, y): &(u16, u16)| *y == task && !done.contains(x);
        let limited = self.limits.get(&task).is_some_and(too_often);
        [
            (Before, places(&self.prerequisites, early)),
            (Separation, places(&self.task_sets, separated)),
            (Block, self.other_blocks(task, &d)),
            (Alone, unplaced(governed && rest.is_subset(&d))),
            (Bound, places(&self.bindings, apart)),
            (Count, unplaced(limited)),
        ]
    }

    /// The other blocks that contain a task of D, in partitionings that have the claimed task in a block: by partitioning, then
    /// in policy order.
    fn other_blocks(&self, task: u16, d: &Numbers) -> Vec<usize> {
        let has_task = |p: u16| {
            self.blocks
                .iter()
                .any(|(of, m)| *of == p && m.contains(&task))
        };
        let met = |(p, m): &(u16, Numbers)| has_task(*p) && !m.contains(&task) && overlap(m, d) > 0;
        let mut found = places(&self.blocks, met);
        found.sort_by_key(|place| (self.blocks[place - 1].0, *place));
        found
    }

    /// Applies a granted request.
    fn act(&mut self, r: Record) {
        let (a, b) = (r.a(), r.b());
        match r.kind() {
            32 => {
                self.users.extend([a]);
                self.user_roles
                    .extend(numbers(r.m()).into_iter().map(|role| (a, role)));
            }
            33 => {
                self.users.retain(|user| *user != a);
                self.user_roles.retain(|(user, _)| *user != a);
                let kept = self.walling == Some(Walling::Kept);
                self.commits.retain(|commit| kept || commit.user != a);
            }
            34 => self.user_roles.extend([(a, b)]),
            35 => self.user_roles.retain(|pair| *pair != (a, b)),
            36 => self.role_permissions.extend([(a, b)]),
            37 => self.role_permissions.retain(|pair| *pair != (a, b)),
            40 => {
                self.subjects.extend([(a, (b, numbers(r.m())))]);
                self.had.extend([(a, numbers(r.m()))]);
            }
            41 => {
                self.subjects.retain(|subject, _| *subject != a);
                self.had.retain(|subject, _| *subject != a);
            }
            56 if self.walling != Some(Walling::ByChecks) => {}
            56 | 59 => self.commits.push(Commit {
                subject: a,
                user: self.subjects[&a].0,
                object: r.c(),
            }),
            42 => {
                self.active(a).extend([b]);
                self.had.entry(a).or_default().extend([b]);
            }
            43 => self.active(a).retain(|role| *role != b),
            48 => self.instances.extend([(a, b)]),
            49 => {
                self.instances.retain(|instance, _| *instance != a);
                self.entries.retain(|e| e.instance != a);
            }
            _ => self.act_on_entry(r),
        }
    }

    /// The active roles of a live subject.
    fn active(&mut self, subject: u16) -> &mut Numbers {
        &mut self.subjects.get_mut(&subject).expect("it is live").1
    }

    fn act_on_entry(&mut self, r: Record) {
        let (subject, instance, task) = (r.a(), r.b(), r.c());
        let holds = |e: &Entry| (e.instance, e.task, e.holder) == (instance, task, Some(subject));
        match r.kind() {
            50 => self.entries.push(Entry {
                instance,
                user: self.subjects[&subject].0,
                task,
                holder: Some(subject),
            }),
            51 => self.entries.retain(|e| !holds(e)),
            52 => {
                let held = self.entries.iter_mut().filter(|e| holds(e));
                held.for_each(|e| e.holder = None);
            }
            _ => {}
        }
    }
}
