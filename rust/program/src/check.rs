//! `check`: a policy is accepted, with warnings, or its refused record is shown with what it clashes with.

use crate::desk::{whole, Desk};
use crate::names::Sort;
use crate::reader::declares;
use crate::source::Policy;
use crate::stop::{Done, REFUSED, WELL};
use crate::warnings::warnings;
use crate::why::{has_line, is_known, range, role_limit, say_with_seniors, unknown, Why};
use crate::writer::numbers;
use mishantral::Refused;
use records::{Record, Reply, Set, LENGTH};
use serde_json::{json, Value};
use std::io::Write;

/// Loads the policy and says the verdict; with `strict` a warning is a refusal.
pub fn check(policy: Policy, strict: bool, as_json: bool, out: &mut dyn Write) -> Done {
    let desk = match Desk::open(&policy) {
        Ok(desk) => desk,
        Err(refused) if as_json => {
            writeln!(out, "{}", refused_object(&policy, refused))?;
            return Ok(REFUSED);
        }
        Err(refused) => {
            for line in refusal(&policy, refused) {
                writeln!(out, "{line}")?;
            }
            return Ok(REFUSED);
        }
    };
    let warned = [policy.warnings(), &warnings(&desk)].concat();
    let status = match strict && !warned.is_empty() {
        true => REFUSED,
        false => WELL,
    };
    if as_json {
        let (file, contents) = (&policy.file, contents(&desk));
        let object =
            json!({"file": file, "accepted": true, "contents": contents, "warnings": warned});
        writeln!(out, "{object}")?;
        return Ok(status);
    }
    for warning in &warned {
        writeln!(out, "{warning}")?;
    }
    writeln!(
        out,
        "{}: accepted: {}{}",
        policy.file,
        contents(&desk),
        counted_warnings(warned.len())
    )?;
    Ok(status)
}

/// The refused record as an object: its place, from 1, its line, its reply, and what it clashes with.
fn refused_object(policy: &Policy, Refused { reply, place }: Refused) -> Value {
    let mut object = json!({
        "file": policy.file, "accepted": false, "reply": reply.number(), "name": reply.name(), "record": place,
    });
    if let Some(before) = place.checked_sub(1) {
        object["file"] = json!(policy.file_of(before));
        object["line"] = json!(policy.line_of(before));
        object["column"] = json!(policy.column_of(before));
        object["refused"] = json!(policy.line(before));
        object["because"] = json!(clashes(policy, before, reply));
    }
    object
}

fn counted_warnings(count: usize) -> String {
    match count {
        0 => String::new(),
        _ => format!("; {}", counted(count, "warning", "warnings")),
    }
}

fn counted(count: usize, one: &str, many: &str) -> String {
    format!("{count} {}", if count == 1 { one } else { many })
}

fn contents(desk: &Desk) -> String {
    let told = &desk.told;
    let mut templates: Vec<u16> = told.tasks.values().copied().collect();
    templates.sort_unstable();
    templates.dedup();
    format!(
        "{}, {}, {} of {}, {}",
        counted(told.users.len(), "user", "users"),
        counted(told.roles.members().count(), "role", "roles"),
        counted(told.tasks.len(), "task", "tasks"),
        counted(templates.len(), "template", "templates"),
        counted(told.rules.len() + told.above.len(), "rule", "rules"),
    )
}

/// The refused record with its place, its reply and, indented, what it clashes with.
pub fn refusal(policy: &Policy, refused: Refused) -> Vec<String> {
    let Refused { reply, place } = refused;
    let Some(before) = place.checked_sub(1) else {
        return vec![format!("{}: {reply}", policy.file)];
    };
    let (head, line) = (policy.head(before), policy.line(before));
    let mut lines = vec![format!("{head}: {reply}: {line}")];
    lines.extend(
        clashes(policy, before, reply)
            .into_iter()
            .map(|line| format!("  {line}")),
    );
    lines
}

/// What a refused record of a policy clashes with, in words.
pub fn clashes(policy: &Policy, before: usize, reply: Reply) -> Vec<String> {
    let bytes = policy.bytes.chunks(LENGTH).nth(before).unwrap_or_default();
    let Some(record) = whole(bytes) else {
        let left = bytes.len();
        return vec![format!(
            "a record has {LENGTH} bytes, and {left} are left over"
        )];
    };
    // What comes before a refused record was accepted, and so loads.
    let earlier = Policy {
        bytes: policy.bytes[..before * LENGTH].to_vec(),
        ..policy.clone()
    };
    let Ok(desk) = Desk::open(&earlier) else {
        return Vec::new();
    };
    match reply {
        Reply::Shape => vec![shape(record)],
        Reply::Range => range(record).because,
        Reply::Unknown => undeclared(policy, &desk, before, record),
        Reply::Taken => repeated(policy, before, record),
        Reply::Rule => ill_made(&desk, record),
        Reply::Loop => vec![chain(&desk, record.b(), record.a())],
        Reply::Static if record.kind() == 4 => role_limit(&desk, record, 9).lines(&desk),
        Reply::Static if record.kind() == 17 => raised(&desk, record),
        Reply::Static => exceeding(&desk, record),
        Reply::Full => vec![format!(
            "a policy has at most {} of these",
            limit(record.kind())
        )],
        _ => Why::default().lines(&desk),
    }
}

fn shape(record: Record) -> String {
    match record.kind() {
        kind if !has_line(kind) => format!("there is no policy record of kind {kind}"),
        32.. => "it is a request: are policy and requests swapped?".to_string(),
        kind => format!("a field that kind {kind} does not use is not zero"),
    }
}

/// What is not declared, and where it is declared later.
fn undeclared(policy: &Policy, desk: &Desk, before: usize, record: Record) -> Vec<String> {
    let mut lines = unknown(desk, record);
    let records = policy.records();
    for (sort, field, number) in numbers(&record.0) {
        if declares(record.kind(), field) || is_known(desk, sort, number) {
            continue;
        }
        let declared = |r: &Record| r.a() == number && r.kind() == declaring(sort);
        if let Some(later) = records.iter().skip(before + 1).position(declared) {
            let at = policy.place_within(before + 1 + later);
            let what = desk.say(sort, number);
            lines.push(format!(
                "{what} is declared later, at {at}: a record uses what is declared before it"
            ));
        }
    }
    lines
}

/// The kind that declares a sort.
fn declaring(sort: Sort) -> u8 {
    match sort {
        Sort::User => 1,
        Sort::Role => 2,
        Sort::Permission => 3,
        _ => 6,
    }
}

/// The earlier record of which this is a repetition (docs/RULES.md, "The replies").
fn repeated(policy: &Policy, before: usize, record: Record) -> Vec<String> {
    let pair = |r: &Record| (r.a().min(r.b()), r.a().max(r.b()));
    let same = |other: &Record| {
        other.kind() == record.kind()
            && match record.kind() {
                1 | 2 | 6 | 13 | 14 => other.a() == record.a(),
                3 => other.a() == record.a() || (other.b(), other.c()) == (record.b(), record.c()),
                15 => pair(other) == pair(&record),
                _ => *other == record,
            }
    };
    let records = policy.records();
    let earlier = records.iter().take(before).position(same);
    let line = |at: usize| {
        let says = policy.line(at);
        format!("{} has it already: {says}", policy.place_within(at))
    };
    earlier.map(line).into_iter().collect()
}

/// Why a rule is ill made (docs/RULES.md, "The replies").
fn ill_made(desk: &Desk, record: Record) -> Vec<String> {
    let (n, set) = (record.n(), Set(record.m()));
    let members = set.members().count();
    let tasks: Vec<u16> = match record.kind() {
        11 | 12 => set.members().map(u16::from).collect(),
        15 | 16 => vec![record.a(), record.b()],
        _ => Vec::new(),
    };
    let mut lines = Vec::new();
    if matches!(record.kind(), 9..=11) && !(1..members).contains(&n.into()) {
        lines.push(format!(
            "its number must be 1 or more and below the number of its members, {members}"
        ));
    }
    if record.kind() == 12 && members == 0 {
        lines.push("a block has a task".to_string());
    }
    if record.kind() == 14 && n == 0 {
        lines.push("its number must be 1 or more".to_string());
    }
    if matches!(record.kind(), 15 | 16) && record.a() == record.b() {
        lines.push("the tasks must be two".to_string());
    }
    if record.kind() == 17 {
        lines.push("the roles must be two".to_string());
    }
    if record.kind() == 18 {
        lines.extend(other_block(desk, record));
    }
    let template = |task: &u16| desk.told.tasks.get(task).copied();
    if let Some(other) = tasks.iter().find(|t| template(t) != template(&tasks[0])) {
        let of = |task: &u16| {
            let template = desk.say(Sort::Template, template(task).unwrap_or_default());
            format!("{} is of {template}", desk.say(Sort::Task, *task))
        };
        lines.push(format!(
            "its tasks must be of one template: {}, {}",
            of(&tasks[0]),
            of(other)
        ));
    }
    if record.kind() == 12 {
        lines.extend(meeting_block(desk, record));
    }
    lines
}

/// The earlier block of the partitioning that does not go with this one.
fn meeting_block(desk: &Desk, record: Record) -> Option<String> {
    let template = |set: Set| {
        set.members()
            .next()
            .and_then(|t| desk.told.tasks.get(&t.into()))
    };
    let mut blocks = desk
        .told
        .rules_of(12)
        .filter(|(_, block)| block.a() == record.a());
    let met = |(_, block): &(usize, Record)| {
        block.m() & record.m() != 0 || template(Set(block.m())) != template(Set(record.m()))
    };
    let (place, block) = blocks.find(met)?;
    let shared = Set(block.m() & record.m());
    let (at, line) = (desk.policy.place_within(place), desk.policy.line(place));
    Some(match shared {
        Set::EMPTY => format!("{at} has a block of another template: {line}"),
        shared => format!("{at} has {} too: {line}", desk.say_set(Sort::Task, shared)),
    })
}

/// The record that puts the object into another block of the wall.
fn other_block(desk: &Desk, record: Record) -> Option<String> {
    let same = |(_, r): &(usize, Record)| (r.a(), r.c()) == (record.a(), record.c());
    let (place, _) = desk.told.rules_of(18).find(same)?;
    let (at, line) = (desk.policy.place_within(place), desk.policy.line(place));
    Some(format!(
        "an object stands in one block of a wall; {at} says: {line}"
    ))
}

/// How one role comes to stand above another: `line 9: lead above clerk, line 10: clerk above helper`.
fn chain(desk: &Desk, senior: u16, junior: u16) -> String {
    let told = &desk.told;
    let leads = |role: u16| told.down(Set::of(&[role as u8])).has(junior as u8);
    let (mut at, mut steps) = (senior, Vec::new());
    while at != junior {
        let mut below = told.above.iter().filter(|(_, (a, _))| *a == at);
        let Some((place, (_, next))) = below.find(|(_, (_, b))| leads(*b)) else {
            break;
        };
        steps.push(format!(
            "{}: {}",
            desk.policy.place_within(*place),
            desk.policy.line(*place)
        ));
        at = *next;
    }
    let (senior, junior) = (desk.say(Sort::Role, senior), desk.say(Sort::Role, junior));
    format!(
        "{senior} stands above {junior} already ({})",
        steps.join(", ")
    )
}

/// The users whose roles would break a static set if one role stood above another.
fn raised(desk: &Desk, record: Record) -> Vec<String> {
    let mut told = desk.told.clone();
    told.above.push((0, (record.a(), record.b())));
    let mut lines = Vec::new();
    for (&user, &roles) in &told.users {
        let counted = told.down(roles);
        let broken = told
            .rules_of(9)
            .find(|(_, set)| (counted.0 & set.m()).count_ones() > set.n().into());
        if let Some((place, set)) = broken {
            let (user, roles) = (
                desk.say(Sort::User, user),
                desk.say_set(Sort::Role, Set(counted.0 & set.m())),
            );
            let (at, line) = (desk.policy.place_within(place), desk.policy.line(place));
            lines.push(format!("{user} would have {roles}; {at} says: {line}"));
        }
    }
    lines.truncate(6);
    lines
}

/// The users who have more roles of a static set than it would allow.
fn exceeding(desk: &Desk, record: Record) -> Vec<String> {
    let of_set = |roles: &Set| Set(desk.told.down(*roles).0 & record.m());
    let too_many = desk
        .told
        .users
        .iter()
        .filter(|(_, roles)| of_set(roles).0.count_ones() > record.n().into());
    let line = |(&user, roles): (&u16, &Set)| {
        format!(
            "{} has {}",
            desk.say(Sort::User, user),
            say_with_seniors(desk, of_set(roles), *roles)
        )
    };
    too_many.map(line).take(6).collect()
}

/// How many rules of a kind there may be (docs/RULES.md, "Numbers").
fn limit(kind: u8) -> usize {
    match kind {
        9..=11 => 32,
        18 => 256,
        _ => 64,
    }
}

#[cfg(test)]
mod tests {
    use super::*;
    use crate::names::Names;
    use std::collections::BTreeMap;

    /// A number below an end, from a state that repeats.
    fn below(state: &mut u64, end: u64) -> u64 {
        *state ^= *state << 13;
        *state ^= *state >> 7;
        *state ^= *state << 17;
        *state % end
    }

    fn record(state: &mut u64) -> Record {
        let mut small = || below(state, 5) as u16;
        let (a, b, c, kind) = (small(), small(), small(), small());
        let (n, set) = (small() as u8, Set(below(state, 32)));
        match below(state, 22) + u64::from(kind == 0) * 23 {
            0 | 1 => Record::user(a),
            2 => Record::role(a),
            3 => Record::permission(a, b, c),
            4 => Record::user_has_role(a, b),
            5 => Record::role_has_permission(a, b),
            6 | 7 => Record::task(a, b / 3),
            8 => Record::task_open_to(a, b),
            9 => Record::task_carries(a, b),
            10 => Record::static_set(n, set),
            11 => Record::dynamic_set(n, set),
            12 => Record::task_set(n, set),
            13 => Record::block(a / 3, set),
            14 => Record::lone_worker_ban(a),
            15 => Record::at_most(a, n),
            16 => Record::bound(a, b),
            17 => Record::before(a, b),
            18 => Record::new(a as u8 * 20, n, b, c, 0, 0),
            19 | 20 => Record::role_above(a, b),
            21 => Record::wall(a, b, c),
            _ => Record::user(1020 + 2 * a),
        }
    }

    /// Whatever record a load refuses, it is said what it clashes with.
    #[test]
    fn every_refusal_of_a_policy_is_explained() {
        let mut state = 7;
        let mut met: BTreeMap<(u8, Reply), usize> = BTreeMap::new();
        for _ in 0..60 {
            let mut kept: Vec<u8> = Vec::new();
            for _ in 0..400 {
                let record = record(&mut state);
                let policy = Policy {
                    file: "policy.rec".to_string(),
                    bytes: [&kept[..], &record.0].concat(),
                    lines: Vec::new(),
                    names: Names::default(),
                    ..Policy::default()
                };
                let Err(refused) = Desk::open(&policy) else {
                    kept = policy.bytes;
                    continue;
                };
                assert_eq!(refused.place, kept.len() / LENGTH + 1);
                let said = refusal(&policy, refused);
                assert!(said.len() > 1, "{said:?}");
                *met.entry((record.kind(), refused.reply)).or_default() += 1;
            }
        }
        let replies = [
            Reply::Shape,
            Reply::Range,
            Reply::Unknown,
            Reply::Taken,
            Reply::Rule,
            Reply::Loop,
            Reply::Static,
        ];
        for reply in replies {
            assert!(
                met.keys().any(|(_, of)| *of == reply),
                "{reply} was not met"
            );
        }
        let kinds: Vec<u8> = met.keys().map(|(kind, _)| *kind).collect();
        assert!((1..=18).all(|kind| kinds.contains(&kind)), "{met:?}");
    }
}
