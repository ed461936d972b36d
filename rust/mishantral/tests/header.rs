//! include/mishantral.h agrees with this crate: the numbers of all replies and kinds, the names of replies, the lengths, the
//! limits and the version.

use mishantral::{Record, Reply, Set};
use std::collections::BTreeMap;

const HEADER: &str = include_str!("../../../include/mishantral.h");

/// The numbered names of the header: `MISHANTRAL_NAME = 7`.
fn constants() -> BTreeMap<String, u8> {
    let named = HEADER.lines().filter_map(|line| {
        let (name, rest) = line.trim().strip_prefix("MISHANTRAL_")?.split_once(" = ")?;
        let digits = rest.split(|c: char| !c.is_ascii_digit()).next()?;
        Some((name.to_string(), digits.parse().ok()?))
    });
    named.collect()
}

/// The value of a macro of the header: `#define MISHANTRAL_NAME 7`.
fn defined(name: &str) -> &'static str {
    let start = format!("#define MISHANTRAL_{name} ");
    let mut lines = HEADER.lines().filter_map(|line| line.strip_prefix(&start));
    lines
        .next()
        .unwrap_or_else(|| panic!("{name} is not there"))
}

#[cfg(any(mishantral_engine, mishantral_lower))]
fn number(name: &str) -> usize {
    defined(name).parse().unwrap()
}

#[test]
fn replies_have_one_number() {
    let constants = constants();
    for reply in Reply::ALL {
        let name = reply.name().replace(' ', "_");
        assert_eq!(constants.get(&name), Some(&reply.number()), "{name}");
    }
}

#[test]
fn kinds_have_one_number() {
    let none = Set::EMPTY;
    let kinds = [
        ("USER", Record::user(0)),
        ("ROLE", Record::role(0)),
        ("PERMISSION", Record::permission(0, 0, 0)),
        ("USER_HAS_ROLE", Record::user_has_role(0, 0)),
        ("ROLE_HAS_PERMISSION", Record::role_has_permission(0, 0)),
        ("TASK", Record::task(0, 0)),
        ("TASK_OPEN_TO", Record::task_open_to(0, 0)),
        ("TASK_CARRIES", Record::task_carries(0, 0)),
        ("STATIC_SET", Record::static_set(0, none)),
        ("DYNAMIC_SET", Record::dynamic_set(0, none)),
        ("TASK_SET", Record::task_set(0, none)),
        ("BLOCK_OF", Record::block(0, none)),
        ("LONE_WORKER_BAN", Record::lone_worker_ban(0)),
        ("AT_MOST", Record::at_most(0, 0)),
        ("BOUND_TO", Record::bound(0, 0)),
        ("BEFORE_TASK", Record::before(0, 0)),
        ("ROLE_ABOVE", Record::role_above(0, 0)),
        ("WALLED", Record::wall(0, 0, 0)),
        ("ADD_USER", Record::add_user(0)),
        ("DELETE_USER", Record::delete_user(0)),
        ("ASSIGN_ROLE", Record::assign_role(0, 0)),
        ("TAKE_ROLE", Record::take_role(0, 0)),
        ("GIVE_PERMISSION", Record::give_permission(0, 0)),
        ("TAKE_PERMISSION", Record::take_permission(0, 0)),
        ("CREATE_SUBJECT", Record::create_subject(0, 0, none)),
        ("DESTROY_SUBJECT", Record::destroy_subject(0)),
        ("ACTIVATE_ROLE", Record::activate_role(0, 0)),
        ("DEACTIVATE_ROLE", Record::deactivate_role(0, 0)),
        ("OPEN_ORDER", Record::open_order(0, 0)),
        ("END_ORDER", Record::end_order(0)),
        ("CLAIM", Record::claim(0, 0, 0)),
        ("RELEASE", Record::release(0, 0, 0)),
        ("DONE", Record::done(0, 0, 0)),
        ("CHECK", Record::check(0, 0, 0)),
        ("TASK_CHECK", Record::task_check(0, 0, 0, 0, 0)),
        ("ENTRIES_OF", Record::entries_of(0)),
        ("COMMIT", Record::commit(0, 0, 0)),
        ("STUCK_TASKS", Record::stuck_tasks(0)),
    ];
    let constants = constants();
    for (name, record) in kinds {
        assert_eq!(constants.get(name), Some(&record.kind()), "{name}");
    }
    let beside = ["POLICY", "SESSIONS", "ORDERS", "ANSWER", "OPL_SCRATCH"];
    assert_eq!(
        constants.len(),
        kinds.len() + Reply::ALL.len() + beside.len()
    );
}

#[test]
fn replies_have_one_name() {
    for reply in Reply::ALL {
        let (constant, name) = (reply.name().replace(' ', "_"), reply.name());
        let case = format!("    case MISHANTRAL_{constant}: return \"{name}\";");
        assert!(HEADER.lines().any(|line| line == case), "{case}");
    }
    let cases = HEADER.lines().filter(|l| l.contains(": return \""));
    assert_eq!(cases.count(), Reply::ALL.len() + 1);
}

#[test]
fn a_reply_that_says_a_place_has_the_kind_of_its_rules() {
    let constants = constants();
    let is_case = |l: &&str| l.contains("case MISHANTRAL_") && l.contains(": return MISHANTRAL_");
    let mut cases = 0;
    for line in HEADER.lines().filter(is_case) {
        let line = line.trim().trim_end_matches(';').replace("MISHANTRAL_", "");
        let (reply, kind) = line.split_once(": return ").unwrap();
        let name = reply.strip_prefix("case ").unwrap();
        let reply = Reply::from_number(constants[name].into()).unwrap();
        assert_eq!(reply.rule_kind(), Some(constants[kind]), "{line}");
        cases += 1;
    }
    let placed = Reply::ALL.iter().filter(|r| r.rule_kind().is_some());
    assert_eq!(cases, placed.count());
}

#[test]
fn the_version_is_one() {
    let parts = ["MAJOR", "MINOR", "PATCH"].map(|part| defined(&format!("VERSION_{part}")));
    let version = env!("CARGO_PKG_VERSION");
    assert_eq!(defined("VERSION"), format!("{version:?}"));
    assert_eq!(parts.join("."), version);
}

#[cfg(mishantral_engine)]
#[test]
fn buffers_have_the_lengths_that_the_library_tells() {
    let state = mishantral::State::zeroed();
    assert_eq!(number("POLICY_WORDS"), state.policy.len());
    assert_eq!(number("SESSIONS_WORDS"), state.sessions.len());
    assert_eq!(number("ORDERS_WORDS"), state.orders.len());
    assert_eq!(number("ANSWER_WORDS"), mishantral::ANSWER);
    let engine = mishantral::Engine::from_state(state);
    let mut answer = vec![0; number("ANSWER_WORDS") + 1];
    let reply = engine.question(&Record::end_order(0), &mut answer);
    assert_eq!(reply, Reply::Room);
    let reply = engine.question(&Record::end_order(0), &mut answer[1..]);
    assert_eq!(reply, Reply::Shape);
}

#[cfg(mishantral_opl)]
#[test]
fn the_scratch_has_the_length_that_the_library_tells() {
    let words = mishantral::opl::scratch_words();
    assert_eq!(number("OPL_WORDS"), words);
}

#[cfg(mishantral_lower)]
#[test]
fn the_lower_part_has_the_same_lengths() {
    let state = mishantral::lower::State::zeroed();
    assert_eq!(number("POLICY_WORDS"), state.policy.len());
    assert_eq!(number("SESSIONS_WORDS"), state.sessions.len());
}

/// For each sort of number, the last one is in range and the next is not.
#[cfg(mishantral_engine)]
#[test]
fn limits_are_those_of_the_library() {
    let none = Set::EMPTY;
    type Named = fn(u16) -> Record;
    let with: [(&str, Named); 10] = [
        ("LAST_USER", Record::add_user),
        ("LAST_ROLE", |role| Record::give_permission(role, 0)),
        ("LAST_PERMISSION", |p| Record::give_permission(0, p)),
        ("LAST_TASK", |task| Record::claim(0, 0, task)),
        ("LAST_TEMPLATE", |template| Record::open_order(0, template)),
        ("LAST_PARTITIONING", |p| Record::block(p, Set::EMPTY)),
        ("LAST_WALL", |wall| Record::wall(wall, 0, 0)),
        ("LAST_BLOCK", |block| Record::wall(0, block, 0)),
        ("LAST_SUBJECT", Record::destroy_subject),
        ("LAST_ORDER", Record::end_order),
    ];
    assert_eq!(number("RECORD_BYTES"), Record::block(0, none).0.len());
    #[cfg(mishantral_pile)]
    assert_eq!(number("MOST_PILED"), mishantral::PILE);
    #[cfg(mishantral_write)]
    assert_eq!(number("MOST_WRITTEN"), mishantral::WRITTEN);
    for (name, record) in with {
        let mut engine = mishantral::Engine::new();
        let mut reply = |record: Record| match record.kind() {
            12 | 18 => match engine.load_records(&[record]) {
                Ok(()) => Reply::Granted,
                Err(refused) => refused.reply,
            },
            _ => engine.request(&record).reply,
        };
        let last = number(name) as u16;
        assert_ne!(reply(record(last)), Reply::Range, "{name}");
        assert_eq!(reply(record(last + 1)), Reply::Range, "{name}");
    }
}

/// For each kind of rule, the largest number is accepted, and one more is FULL.
#[cfg(mishantral_engine)]
#[test]
fn rules_have_the_limits_of_the_library() {
    // Pairs of members from 0 to 63, so that no two rules are equal.
    let pair = |i: u16| Set::of(&[(i / 60) as u8, (2 + i % 60) as u8]);
    type Rule = fn(Set, u16) -> Record;
    let kinds: [(&str, Rule); 8] = [
        ("MOST_STATIC_SETS", |set, _| Record::static_set(1, set)),
        ("MOST_DYNAMIC_SETS", |set, _| Record::dynamic_set(1, set)),
        ("MOST_TASK_SETS", |set, _| Record::task_set(1, set)),
        ("MOST_BLOCKS", |_, i| {
            Record::block(i / 60, Set::of(&[(i % 60) as u8]))
        }),
        ("MOST_BINDINGS", |set, _| two(set, Record::bound)),
        ("MOST_PREREQUISITES", |set, _| two(set, Record::before)),
        ("MOST_SENIORITIES", |set, _| two(set, Record::role_above)),
        ("MOST_WALLED", |_, i| Record::wall(i % 16, i % 7, i)),
    ];
    let declared = (0..64).flat_map(|i| [Record::role(i), Record::task(i, 0)]);
    let declared: Vec<Record> = declared.collect();
    for (name, rule) in kinds {
        let most = number(name);
        let rules = (0..=most as u16).map(|i| rule(pair(i), i));
        let all: Vec<Record> = declared.iter().copied().chain(rules).collect();
        let mut engine = mishantral::Engine::new();
        let (good, place) = (&all[..all.len() - 1], all.len());
        engine.load_records(good).expect(name);
        let full = mishantral::Refused {
            reply: Reply::Full,
            place,
        };
        assert_eq!(engine.load_records(&all), Err(full), "{name}");
    }
}

/// The largest number of entries is granted, and one more is FULL.
#[cfg(mishantral_engine)]
#[test]
fn entries_have_the_limit_of_the_library() {
    let mut engine = mishantral::Engine::new();
    let policy = [
        Record::user(300),
        Record::role(0),
        Record::user_has_role(300, 0),
        Record::task(0, 0),
        Record::task_open_to(0, 0),
    ];
    engine.load_records(&policy).unwrap();
    let (claim, done) = (Record::claim(5, 0, 0), Record::done(5, 0, 0));
    let opening = [
        Record::create_subject(5, 300, Set::of(&[0])),
        Record::open_order(0, 0),
    ];
    let entries = (0..number("MOST_ENTRIES")).flat_map(|_| [claim, done]);
    for record in opening.into_iter().chain(entries) {
        assert_eq!(engine.request(&record), Reply::Granted);
    }
    assert_eq!(engine.request(&claim), Reply::Full);
}

/// A rule about the two members of a set.
#[cfg(mishantral_engine)]
fn two(set: Set, rule: fn(u16, u16) -> Record) -> Record {
    let members: Vec<u16> = set.members().map(u16::from).collect();
    rule(members[0], members[1])
}
