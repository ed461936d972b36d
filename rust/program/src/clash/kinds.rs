//! Clashes by their names: the kinds of conflict that a planner knows, as far as the rules of this engine can come to them.

use crate::desk::{joined, Desk};
use crate::names::Sort;
use mishantral::{Engine, Reply};
use records::{Record, Set};

/// Tasks that some bindings hold together, as sets.
fn bound(rules: &[Record]) -> Vec<u64> {
    let mut units: Vec<u64> = Vec::new();
    for rule in rules.iter().filter(|rule| rule.kind() == 15) {
        let mut unit = 1u64 << rule.a() | 1 << rule.b();
        units.retain(|other| {
            let meets = other & unit != 0;
            unit |= if meets { *other } else { 0 };
            !meets
        });
        units.push(unit);
    }
    units
}

/// Why these records, by their places in the policy, let nobody of these users finish an order; in one line.
pub fn reason(desk: &Desk, core: &[usize], users: &[u16]) -> String {
    let records = desk.policy.records();
    let rules: Vec<Record> = core
        .iter()
        .filter_map(|&at| records.get(at))
        .copied()
        .collect();
    let has = |kind: u8| rules.iter().any(|rule| rule.kind() == kind);
    let units = bound(&rules);
    let in_bindings = units.iter().fold(0, |all, unit| all | unit);
    let tasks = || desk.say_set(Sort::Task, Set(in_bindings));
    if rules.iter().all(|rule| rule.kind() == 16) {
        return "prerequisites in a circle: each waits for another for ever".to_string();
    }
    if has(15) && has(11) {
        return in_set(desk, &rules, &units);
    }
    match (has(15), has(12), has(13), has(10)) {
        (true, true, _, _) => format!(
            "a binding across blocks: one clerk must do {}, and nobody may work in both blocks",
            tasks()
        ),
        (true, _, true, _) => format!(
            "a binding inside a lone worker's template: {} go to one clerk, and nobody may do all tasks",
            tasks()
        ),
        (true, _, _, true) => format!(
            "bound tasks whose roles exclude each other{}: one clerk must do {}, and the dynamic set lets no session have the roles for them; \
             signing out in between helps",
            by_senior(senior(desk, &rules)),
            tasks()
        ),
        (true, ..) => apart(desk, in_bindings, users),
        (_, true, ..) => "the blocks need more clerks with these roles than there are".to_string(),
        (_, _, true, _) => alone(desk, &rules, core),
        (_, _, _, true) => format!(
            "roles that exclude each other in one session{}: too few are there to have each role; signing out in between helps",
            by_senior(senior(desk, &rules))
        ),
        _ if has(11) => in_set_alone(&rules),
        _ => "together they let nobody finish".to_string(),
    }
}

/// Whether a dynamic set among these counts roles that come with roles above them: more of it than are assigned by name.
fn senior(desk: &Desk, rules: &[Record]) -> bool {
    let told = &desk.told;
    let more = |set: &Record| {
        let counts = |roles: Set| (roles.0 & set.m()).count_ones();
        told.users
            .values()
            .any(|&roles| counts(told.down(roles)) > counts(roles))
    };
    rules.iter().filter(|rule| rule.kind() == 10).any(more)
}

fn by_senior(senior: bool) -> &'static str {
    match senior {
        true => " by a senior role",
        false => "",
    }
}

/// A task set, or several, and bindings.
fn in_set(desk: &Desk, rules: &[Record], units: &[u64]) -> String {
    for set in rules.iter().filter(|rule| rule.kind() == 11) {
        for unit in units {
            let (both, n) = (unit & set.m(), set.n());
            if both.count_ones() <= n.into() {
                continue;
            }
            let tasks = desk.say_set(Sort::Task, Set(both));
            return match n {
                1 => format!(
                    "a binding inside a task set of 1: one clerk must do {tasks}, and may do one of them"
                ),
                _ => format!(
                    "a limit below what a binding needs: one clerk must do {tasks}, and may do {n} of them"
                ),
            };
        }
    }
    "bound tasks and task sets need more clerks with these roles than there are".to_string()
}

fn in_set_alone(rules: &[Record]) -> String {
    let sets: Vec<&Record> = rules.iter().filter(|rule| rule.kind() == 11).collect();
    match sets[..] {
        [set] => {
            let (members, n) = (set.m().count_ones(), u32::from(set.n()));
            format!(
                "a limit below what a set needs: {members} tasks, {n} for one clerk, take {} clerks or more with roles for them",
                members.div_ceil(n.max(1))
            )
        }
        _ => "the task sets need more clerks with these roles than there are".to_string(),
    }
}

/// A lone-worker ban, by itself or with others.
fn alone(desk: &Desk, rules: &[Record], core: &[usize]) -> String {
    let template = rules
        .iter()
        .find(|rule| rule.kind() == 13)
        .map_or(0, Record::a);
    let of = |task: u16| desk.told.tasks.get(&task) == Some(&template);
    let mut before = desk.told.rules_of(16).filter(|(_, rule)| of(rule.a()));
    if core.len() > 1 {
        return "a lone-worker ban: together with the others it needs more clerks than there are"
            .to_string();
    }
    match before.next() {
        Some((place, rule)) => format!(
            "a prerequisite inside a lone worker's template: {} comes behind {} ({}), and whoever has done all the rest may not do it; \
             one clerk alone has roles for all",
            desk.say(Sort::Task, rule.b()),
            desk.say(Sort::Task, rule.a()),
            desk.policy.place_within(place)
        ),
        None => "a lone worker's template: one clerk alone has roles for its tasks, and may not do all".to_string(),
    }
}

/// Bound tasks for which nobody has the roles: whether a static set keeps everybody from having them.
fn apart(desk: &Desk, tasks: u64, users: &[u16]) -> String {
    let told = &desk.told;
    let names = desk.say_set(Sort::Task, Set(tasks));
    let (mut met, mut senior) = (Vec::new(), false);
    for &user in users {
        let may = told.may_activate(user).0;
        let missing = Set(tasks).members().map(u16::from);
        let missing: Vec<u16> = missing
            .filter(|&task| told.open_to(task).0 & may == 0)
            .collect();
        if given(desk.engine(), user, desk, &missing) {
            return format!(
                "one clerk must do {names}, and nobody there has roles for all of them"
            );
        }
        for role in missing
            .iter()
            .flat_map(|&task| told.open_to(task).members())
        {
            if desk.tried(&[Record::assign_role(user, role.into())]) == Reply::Static {
                let (set, below) = static_set(desk, user, role);
                senior |= below;
                met.extend(set);
            }
        }
    }
    met.sort();
    met.dedup();
    let sets: Vec<String> = met
        .iter()
        .map(|&place| crate::clash::at(desk, place))
        .collect();
    match sets.is_empty() {
        true => format!("one clerk must do {names}, and nobody there has roles for all of them"),
        false => format!(
            "bound tasks whose roles exclude each other{}: one clerk must do {names}, and {} lets nobody have the roles for them",
            by_senior(senior),
            joined(&sets)
        ),
    }
}

/// Whether the engine gives a user a role for each of these tasks, on a copy.
fn given(engine: &Engine, user: u16, desk: &Desk, tasks: &[u16]) -> bool {
    let Some((&task, others)) = tasks.split_first() else {
        return true;
    };
    let open = desk.told.open_to(task);
    let opens = |role: u8| {
        let mut copy = engine.clone();
        let answer = copy.request(&Record::assign_role(user, role.into()));
        (answer.is_granted() || answer == Reply::Taken) && given(&copy, user, desk, others)
    };
    open.members().any(opens)
}

/// The static set that keeps a role from a user, and whether roles below others count in it.
fn static_set(desk: &Desk, user: u16, role: u8) -> (Option<usize>, bool) {
    let told = &desk.told;
    let named = Set(told.roles_of(user).0 | 1 << role);
    let counted = told.down(named);
    let broken = |roles: Set, set: &Record| (roles.0 & set.m()).count_ones() > set.n().into();
    let set = told.rules_of(9).find(|(_, set)| broken(counted, set));
    let senior = set.is_some_and(|(_, set)| !broken(named, &set));
    (set.map(|(place, _)| place), senior)
}

/// Walls that part the operations of one task: whoever commits the one may not commit the other. Shown on an engine, by someone who may do both.
pub fn walls(desk: &Desk) -> Vec<(usize, String)> {
    let told = &desk.told;
    let mut all = Vec::new();
    for &task in told.tasks.keys() {
        let carried = told.carried.iter().filter(|(of, _)| *of == task);
        let pairs: Vec<(u16, u16)> = carried
            .filter_map(|(_, p)| told.permissions.get(p))
            .copied()
            .collect();
        let apart = parted(desk, &pairs).find(|&(_, _, one, other)| shown(desk, one, other));
        if let Some((first, second, one, other)) = apart {
            let say = |(operation, object): (u16, u16)| {
                let names = &desk.names;
                format!(
                    "{} on {}",
                    names.shown(Sort::Operation, operation),
                    names.shown(Sort::Object, object)
                )
            };
            all.push((
                second,
                format!(
                    "a wall parts the operations of {}: whoever commits {} may not commit {} ({})",
                    desk.say(Sort::Task, task),
                    say(one),
                    say(other),
                    crate::clash::at(desk, first)
                ),
            ));
        }
    }
    all
}

/// Two pairs whose objects stand in two blocks of one wall, with the places of the records that put them there.
fn parted<'a>(
    desk: &'a Desk,
    pairs: &'a [(u16, u16)],
) -> impl Iterator<Item = (usize, usize, (u16, u16), (u16, u16))> + 'a {
    let in_wall = move |object: u16| desk.told.rules_of(18).filter(move |(_, r)| r.c() == object);
    let two = pairs
        .iter()
        .enumerate()
        .flat_map(move |(at, &one)| pairs[at + 1..].iter().map(move |&other| (one, other)));
    two.flat_map(move |(one, other)| {
        in_wall(one.1).flat_map(move |(first, a)| {
            let others = in_wall(other.1).filter(move |(_, b)| b.a() == a.a() && b.b() != a.b());
            others.map(move |(second, _)| (first.min(second), first.max(second), one, other))
        })
    })
}

/// Whether someone of the policy, in a new session, is granted the first commit and refused the second with WALL.
fn shown(desk: &Desk, one: (u16, u16), other: (u16, u16)) -> bool {
    let mut fresh = Engine::new();
    if fresh.load(&desk.policy.bytes).is_err() {
        return false;
    }
    let commit = |(operation, object): (u16, u16)| Record::commit(0, operation, object);
    let meets = |&user: &u16| {
        let mut engine = fresh.clone();
        let _ = engine.request(&Record::create_subject(0, user, Set::EMPTY));
        for role in desk.told.may_activate(user).members() {
            let _ = engine.request(&Record::activate_role(0, role.into()));
        }
        engine.request(&commit(one)).is_granted() && engine.request(&commit(other)) == Reply::Wall
    };
    desk.told.users.keys().any(meets)
}
