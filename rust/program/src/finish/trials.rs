//! The verdicts compared, on small random desks: with every sequence of requests tried, and with an answer-set solver where there is one.

use super::people::People;
use super::{Asked, Verdict, TRIES};
use crate::desk::Desk;
use crate::names::Names;
use crate::source::Policy;
use crate::told::Told;
use mishantral::Engine;
use random::Random;
use records::{Record, Set};
use std::collections::{BTreeSet, VecDeque};
use std::io::Write;
use std::process::{Command, Stdio};

/// So many desks, or as many times that as MISHANTRAL_ROUNDS says.
pub fn rounds(few: usize) -> usize {
    let times = std::env::var("MISHANTRAL_ROUNDS").ok();
    few * times.and_then(|times| times.parse().ok()).unwrap_or(1)
}

/// How large a desk may be.
pub struct Size {
    pub users: usize,
    pub roles: usize,
    pub tasks: usize,
}

fn set(random: &mut Random, of: usize) -> Set {
    Set(random.word() & ((1 << of) - 1))
}

/// A policy with one template; records that a load would refuse are left out.
pub fn policy(random: &mut Random, size: &Size) -> Vec<Record> {
    let (users, roles, tasks) = (size.users as u16, size.roles as u16, size.tasks as u16);
    let mut all: Vec<Record> = (0..users).map(Record::user).collect();
    all.extend((0..roles).map(Record::role));
    all.extend((0..tasks).map(|task| Record::task(task, 0)));
    for user in 0..users {
        all.extend(
            (0..roles)
                .filter(|_| random.chance(1, 2))
                .map(|role| Record::user_has_role(user, role)),
        );
    }
    if random.chance(1, 3) {
        let (senior, junior) = (random.below(size.roles), random.below(size.roles));
        all.push(Record::role_above(senior as u16, junior as u16));
    }
    for task in 0..tasks {
        all.extend(
            (0..roles)
                .filter(|_| random.chance(1, 2))
                .map(|role| Record::task_open_to(task, role)),
        );
    }
    let task = |random: &mut Random| random.below(size.tasks) as u16;
    for _ in 0..random.below(6) {
        let (a, b) = (task(random), task(random));
        all.push(match random.below(8) {
            0 | 1 => Record::task_set(1 + random.below(2) as u8, set(random, size.tasks)),
            2 => Record::block(random.below(2) as u16, set(random, size.tasks)),
            3 => Record::lone_worker_ban(0),
            4 => Record::bound(a, b),
            5 => Record::at_most(a, 1 + random.below(2) as u8),
            6 => Record::dynamic_set(1, set(random, size.roles)),
            // Now and then prerequisites go in a circle.
            _ if random.chance(1, 12) => Record::before(a, b),
            _ => Record::before(a.min(b), a.max(b)),
        });
    }
    let mut kept = Vec::new();
    for record in all {
        kept.push(record);
        if Engine::new().load_records(&kept).is_err() {
            kept.pop();
        }
    }
    kept
}

/// A desk with an order open, some signed in, and some work done.
fn desk(random: &mut Random, size: &Size) -> Desk {
    let records = policy(random, size);
    let policy = Policy {
        file: "random".to_string(),
        bytes: records.iter().flat_map(|record| record.0).collect(),
        lines: Vec::new(),
        names: Names::default(),
        ..Policy::default()
    };
    let mut desk = Desk::open(&policy).expect("what was kept loads");
    let _ = desk.ask(&Record::open_order(0, 0).0);
    for user in 0..size.users as u16 {
        if random.chance(3, 4) {
            let roles = Set(set(random, size.roles).0 & desk.told.roles_of(user).0);
            let _ = desk.ask(&Record::create_subject(user, user, roles).0);
        }
    }
    for _ in 0..random.below(8) {
        let (subject, task) = (
            random.below(size.users) as u16,
            random.below(size.tasks) as u16,
        );
        let _ = desk.ask(
            &match random.below(5) {
                0 | 1 => Record::claim(subject, 0, task),
                2 | 3 => Record::done(subject, 0, task),
                _ => Record::activate_role(subject, random.below(size.roles) as u16),
            }
            .0,
        );
    }
    desk
}

/// Those signed in, or now and then a list.
fn users(random: &mut Random, desk: &Desk) -> Vec<u16> {
    match random.chance(1, 3) {
        true => desk
            .told
            .users
            .keys()
            .copied()
            .filter(|_| random.chance(2, 3))
            .collect(),
        false => People::signed_in(desk),
    }
}

/// Where a copy stands: entries and active roles, however it came there.
fn standing(policy: &[Record], engine: &Engine) -> String {
    let told = Told::read(policy, engine.state());
    let mut entries = told.entries(0).to_vec();
    entries.sort_by_key(|e| (e.task, e.user, e.holder));
    format!("{entries:?} {:?}", told.subjects)
}

/// Whether all tasks are done and none is held.
fn is_finished(told: &Told) -> bool {
    let entries = told.entries(0);
    let done = |task: u16| entries.iter().any(|e| e.task == task && e.holder.is_none());
    told.tasks.keys().all(|&task| done(task)) && entries.iter().all(|e| e.holder.is_none())
}

/// Whether these users can finish the order by any sequence of requests; nothing where there are too many.
pub fn by_force(desk: &Desk, users: &[u16]) -> Option<bool> {
    let policy = desk.policy.records();
    let mut engine = desk.engine().clone();
    for (&user, free) in users.iter().zip(100..) {
        if !desk.told.subjects.values().any(|s| s.user == user) {
            let _ = engine.request(&Record::create_subject(free, user, Set::EMPTY));
        }
    }
    let mut met = BTreeSet::from([standing(&policy, &engine)]);
    let mut open = VecDeque::from([engine]);
    while let Some(engine) = open.pop_front() {
        let told = Told::read(&policy, engine.state());
        if is_finished(&told) {
            return Some(true);
        }
        let mine = told
            .subjects
            .iter()
            .filter(|(_, s)| users.contains(&s.user));
        for (&subject, _) in mine {
            let roles = told
                .roles
                .members()
                .map(|role| Record::activate_role(subject, role.into()));
            let work = told.tasks.keys().flat_map(|&task| {
                let again = told.entries(0).iter().filter(|e| e.task == task).count() > 1;
                let claim = (!again).then_some(Record::claim(subject, 0, task));
                let others = [
                    Record::release(subject, 0, task),
                    Record::done(subject, 0, task),
                ];
                claim.into_iter().chain(others)
            });
            for step in roles.chain(work) {
                let mut copy = engine.clone();
                if copy.request(&step).is_granted() && met.insert(standing(&policy, &copy)) {
                    open.push_back(copy);
                }
            }
        }
        if met.len() > 4_000 {
            return None;
        }
    }
    Some(false)
}

pub fn told(desk: &Desk, users: &[u16]) -> String {
    let lines: Vec<String> = desk
        .policy
        .records()
        .iter()
        .map(Record::to_string)
        .collect();
    format!(
        "{}\n{:?}\n{:?}\nusers {users:?}",
        lines.join("\n"),
        desk.told.subjects,
        desk.told.orders
    )
}

/// The verdict, whose plan finishes the order.
fn verdict(desk: &Desk, users: &[u16]) -> bool {
    match (Asked {
        desk,
        order: 0,
        users,
        bound: TRIES,
        budget: &super::Budget::of_tries(TRIES),
    })
    .verdict()
    .0
    {
        Verdict::Plan(steps) => {
            let (end, work) = steps.split_last().expect("a plan ends the order");
            let mut engine = desk.engine().clone();
            assert!(work.iter().all(|step| engine.request(step).is_granted()));
            assert!(
                is_finished(&Told::read(&desk.policy.records(), engine.state())),
                "{}",
                told(desk, users)
            );
            assert!(engine.request(end).is_granted());
            true
        }
        Verdict::Never(_) => false,
        Verdict::Open(_) => panic!("too small to be open: {}", told(desk, users)),
        Verdict::Closed => panic!("the order is open"),
    }
}

#[test]
fn verdicts_are_those_of_every_sequence() {
    let mut random = Random::new(1);
    let (mut yes, mut no) = (0, 0);
    for _ in 0..rounds(120) {
        let size = Size {
            users: 1 + random.below(3),
            roles: 1 + random.below(3),
            tasks: 1 + random.below(4),
        };
        let desk = desk(&mut random, &size);
        if desk.told.orders.is_empty() {
            continue;
        }
        let users = users(&mut random, &desk);
        let Some(forced) = by_force(&desk, &users) else {
            continue;
        };
        assert_eq!(verdict(&desk, &users), forced, "{}", told(&desk, &users));
        match forced {
            true => yes += 1,
            false => no += 1,
        }
    }
    assert!(yes > 12 && no > 12, "{yes} {no}");
}

/// The desk as facts, and what finishing means, for an answer-set solver: who does what is left, and nothing else.
pub fn program(desk: &Desk, users: &[u16]) -> String {
    let told = &desk.told;
    let mut text = String::from(RULES);
    let mut fact = |line: String| text += &(line + ".\n");
    for &user in users {
        fact(format!("user({user})"));
        told.may_activate(user)
            .members()
            .for_each(|role| fact(format!("has({user},{role})")));
    }
    for role in told.roles.members() {
        told.down(Set::of(&[role]))
            .members()
            .for_each(|below| fact(format!("below({role},{below})")));
    }
    for session in told.subjects.values() {
        session
            .had
            .members()
            .for_each(|role| fact(format!("on({},{role})", session.user)));
    }
    for &task in told.tasks.keys() {
        fact(format!("task({task})"));
        told.opening(told.roles, task)
            .members()
            .for_each(|role| fact(format!("opens({task},{role})")));
    }
    for entry in told.entries(0) {
        let held = if entry.holder.is_some() {
            "held"
        } else {
            "done"
        };
        fact(format!("{held}({},{})", entry.task, entry.user));
    }
    for (at, (_, rule)) in told.rules.iter().enumerate() {
        let (n, a, b) = (rule.n(), rule.a(), rule.b());
        match rule.kind() {
            10 | 11 => {
                fact(format!("limit({at},{},{n})", rule.kind()));
                Set(rule.m())
                    .members()
                    .for_each(|member| fact(format!("of({at},{member})")));
            }
            12 => Set(rule.m())
                .members()
                .for_each(|task| fact(format!("block({a},{at},{task})"))),
            13 => fact("ban".to_string()),
            15 => fact(format!("bound({a},{b})")),
            16 => fact(format!("before({a},{b})")),
            _ => {}
        }
    }
    text
}

const RULES: &str = "
isdone(T) :- done(T,_).
{ keep(T,U) } :- held(T,U).
:- held(T,U), not user(U).
needs(T) :- task(T), not isdone(T), not keep(T,_).
1 { does(T,U) : user(U) } 1 :- needs(T).
1 { by(T,U,R) : has(U,R), opens(T,R) } 1 :- does(T,U).
entry(T,U) :- done(T,U).
entry(T,U) :- keep(T,U).
entry(T,U) :- does(T,U).
on(U,R) :- by(_,U,R).
:- limit(S,10,N), user(U), #count { J : on(U,R), below(R,J), of(S,J) } > N.
:- limit(S,11,N), user(U), #count { T : entry(T,U), of(S,T) } > N.
:- block(P,B,T), block(P,C,V), B != C, entry(T,U), entry(V,U).
:- ban, user(U), #count { T : task(T) } > 1, entry(T,U) : task(T).
:- bound(A,B), entry(A,U), entry(B,V), U != V.
waits(T) :- task(T), not isdone(T).
1 { at(T,1..N) } 1 :- waits(T), N = #count { V : task(V) }.
:- before(A,B), waits(A), waits(B), at(A,X), at(B,Y), X >= Y.
#defined held/2. #defined done/2. #defined limit/3. #defined of/2. #defined block/3. #defined ban/0. #defined bound/2.
#defined before/2. #defined has/2. #defined opens/2. #defined user/1. #defined on/2. #defined below/2.
#show.
";

/// Whether the solver finds an answer; nothing where there is no solver.
pub fn solved(program: &str) -> Option<bool> {
    solved_within(program, 0)
}

/// The same, and nothing where it takes longer than so many seconds; 0 is no limit.
pub fn solved_within(program: &str, seconds: u64) -> Option<bool> {
    let mut clingo = Command::new("clingo");
    clingo
        .args(["--verbose=0", &format!("--time-limit={seconds}"), "-"])
        .stdin(Stdio::piped())
        .stdout(Stdio::piped())
        .stderr(Stdio::piped());
    let mut child = clingo.spawn().ok()?;
    child.stdin.take()?.write_all(program.as_bytes()).ok()?;
    let output = child.wait_with_output().ok()?;
    let text = String::from_utf8_lossy(&output.stdout).into_owned();
    if text.contains("UNSATISFIABLE") {
        return Some(false);
    }
    if seconds > 0 && !text.contains("SATISFIABLE") {
        return None;
    }
    assert!(
        text.contains("SATISFIABLE"),
        "{text}{}",
        String::from_utf8_lossy(&output.stderr)
    );
    Some(true)
}

#[test]
fn verdicts_are_those_of_a_solver() {
    let mut random = Random::new(2);
    let (mut yes, mut no) = (0, 0);
    for _ in 0..rounds(100) {
        let size = Size {
            users: 2 + random.below(6),
            roles: 1 + random.below(4),
            tasks: 2 + random.below(7),
        };
        let desk = desk(&mut random, &size);
        if desk.told.orders.is_empty() {
            continue;
        }
        let users = users(&mut random, &desk);
        let program = program(&desk, &users);
        let Some(solved) = solved(&program) else {
            eprintln!("there is no clingo here: nothing was compared");
            return;
        };
        assert_eq!(
            verdict(&desk, &users),
            solved,
            "{}\n{program}",
            told(&desk, &users)
        );
        match solved {
            true => yes += 1,
            false => no += 1,
        }
    }
    assert!(yes > 12 && no > 12, "{yes} {no}");
}

/// Where there is no plan, each refusal is told with its reason.
#[test]
fn every_refusal_has_its_reason() {
    let mut random = Random::new(4);
    let budget = super::Budget::of_tries(TRIES);
    let mut replies = BTreeSet::new();
    for _ in 0..rounds(400) {
        let size = Size {
            users: 1 + random.below(4),
            roles: 1 + random.below(4),
            tasks: 1 + random.below(4),
        };
        let desk = desk(&mut random, &size);
        let options = super::Options {
            list: None,
            budget: &budget,
            json: false,
        };
        let mut out = Vec::new();
        let _ = super::finish_one(&desk, "0", &options, &mut out);
        let text = String::from_utf8(out).unwrap();
        for line in text.lines().filter(|line| line.starts_with("  ")) {
            let bare = line.trim_end().ends_with(':');
            assert!(!bare, "{text}\n{}", told(&desk, &[]));
            replies.extend(line.split(": ").nth(1).map(String::from));
        }
    }
    assert!(replies.contains("10 DYNAMIC"), "{replies:?}");
}

/// Every verdict that there is none is explained, and the tables that a state tells are those that the answers told.
#[test]
fn states_tell_what_answers_told() {
    let mut random = Random::new(3);
    for _ in 0..300 {
        let size = Size {
            users: 4,
            roles: 3,
            tasks: 5,
        };
        let desk = desk(&mut random, &size);
        let read = Told::read(&desk.policy.records(), desk.engine().state());
        assert_eq!(
            (&read.users, &read.subjects, &read.orders),
            (&desk.told.users, &desk.told.subjects, &desk.told.orders)
        );
    }
}
