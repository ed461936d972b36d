//! For every kind and every combination of refusals that can apply together, the reply has the lowest number.

mod common;
use common::*;
use plain::Reply::{self, *};

/// The faults that a trial has, all at the same time.
#[derive(Clone, Copy)]
struct Wrong<'a>(&'a [Reply]);

impl Wrong<'_> {
    fn is(self, reply: Reply) -> bool {
        self.0.contains(&reply)
    }

    fn any(self, replies: &[Reply]) -> bool {
        replies.iter().any(|&r| self.is(r))
    }

    /// `wrong` if the trial has the fault `reply`, else `right`.
    fn pick<T>(self, reply: Reply, wrong: T, right: T) -> T {
        if self.is(reply) {
            wrong
        } else {
            right
        }
    }

    /// The records if the trial has the fault `reply`, else none.
    fn when(self, reply: Reply, records: &[Bytes]) -> Vec<Bytes> {
        self.pick(reply, records, &[]).to_vec()
    }
}

/// An accepted policy, granted requests, and the record under test: the policy's next, or a request.
struct Trial {
    policy: Vec<Bytes>,
    requests: Vec<Bytes>,
    last: Bytes,
}

impl Trial {
    fn of(policy: &[Vec<Bytes>], last: Bytes) -> Trial {
        Trial {
            policy: policy.concat(),
            requests: Vec::new(),
            last,
        }
    }

    fn after(mut self, requests: &[Vec<Bytes>]) -> Trial {
        self.requests = requests.concat();
        self
    }

    fn reply(self) -> Reply {
        let mut both = ready(&self.policy, &self.requests);
        if self.last[0] > 16 {
            return both.request(&self.last);
        }
        let policy = [self.policy, vec![self.last]].concat();
        let (reply, place) = both.load(&policy);
        assert_eq!(place, if reply == Granted { 0 } else { policy.len() });
        reply
    }
}

/// Sets a field that the record's kind does not use.
fn bend(record: &mut Bytes) {
    let byte = match record[0] {
        9..=11 => 2,
        14 => 4,
        57 => 15,
        _ => 1,
    };
    record[byte] = 1;
}

/// Tries all combinations of SHAPE and the given conditions, except those that contain a group of `apart`, whose conditions
/// cannot apply together.
fn in_order(conditions: &[Reply], apart: &[&[Reply]], build: impl Fn(Wrong) -> Trial) {
    let all = [&[Shape], conditions].concat();
    for chosen in 0..1_u32 << all.len() {
        let at = |i: &usize| chosen & 1 << i != 0;
        let wrong: Vec<Reply> = (0..all.len()).filter(at).map(|i| all[i]).collect();
        let impossible = apart.iter().any(|g| g.iter().all(|r| wrong.contains(r)));
        // Filling 2,048 entries is slow: pairs and triples with FULL are enough.
        let dear = all.len() > 8 && wrong.contains(&Full) && wrong.len() > 3;
        if impossible || dear {
            continue;
        }
        let mut trial = build(Wrong(&wrong));
        if wrong.contains(&Shape) {
            bend(&mut trial.last);
        }
        let lowest = wrong.iter().min().copied().unwrap_or(Granted);
        let kind = trial.last[0];
        assert_eq!(trial.reply(), lowest, "kind {kind}, wrong: {wrong:?}");
    }
}

#[test]
fn kind_1() {
    in_order(&[Range, Taken], &[&[Range, Taken]], |w| {
        Trial::of(
            &[w.when(Taken, &[user(300)])],
            user(w.pick(Range, 1024, 300)),
        )
    });
}

#[test]
fn kind_32() {
    let conditions = [Range, Unknown, Taken, Static];
    in_order(&conditions, &[&[Range, Taken]], |w| {
        let declared = vec![role(0), role(1), static_set(1, &[0, 1])];
        let mut roles = w.pick(Static, vec![0, 1], vec![0]);
        roles.extend(w.pick(Unknown, vec![63], vec![]));
        Trial::of(
            &[declared, w.when(Taken, &[user(300)])],
            join(w.pick(Range, 1024, 300), &roles),
        )
    });
}

#[test]
fn kind_2() {
    in_order(&[Range, Taken], &[&[Range, Taken]], |w| {
        Trial::of(&[w.when(Taken, &[role(3)])], role(w.pick(Range, 64, 3)))
    });
}

#[test]
fn kind_3() {
    in_order(&[Range, Taken], &[&[Range, Taken]], |w| {
        let number = w.pick(Range, 256, 7);
        Trial::of(
            &[w.when(Taken, &[permission(7, 40, 50)])],
            permission(number, 41, 50),
        )
    });
    in_order(&[Range, Taken], &[], |w| {
        let number = w.pick(Range, 256, 8);
        Trial::of(
            &[w.when(Taken, &[permission(7, 40, 50)])],
            permission(number, 40, 50),
        )
    });
}

#[test]
fn kinds_4_and_34() {
    let apart: &[&[Reply]] = &[
        &[Range, Taken],
        &[Range, Static],
        &[Unknown, Taken],
        &[Unknown, Static],
        &[Taken, Static],
    ];
    for make in [has_role, assign] {
        in_order(&[Range, Unknown, Taken, Static], apart, |w| {
            let people = vec![user(300), role(0), role(1), has_role(300, 0)];
            let sets = w.when(Static, &[static_set(1, &[0, 1])]);
            let taken = w.when(Taken, &[has_role(300, 1)]);
            let last = make(w.pick(Range, 1024, 300), w.pick(Unknown, 2, 1));
            Trial::of(&[people, sets, taken], last)
        });
    }
}

/// Kinds that relate two declared numbers.
fn pairs(first: Bytes, second: Bytes, beyond: u16, make: &[fn(u16, u16) -> Bytes]) {
    let apart: &[&[Reply]] = &[&[Range, Taken], &[Unknown, Taken]];
    for joined in make {
        in_order(&[Range, Unknown, Taken], apart, |w| {
            let declared = vec![first.clone(), second.clone()];
            let taken = w.when(Taken, &[make[0](7, 7)]);
            let last = joined(w.pick(Range, beyond, 7), w.pick(Unknown, 8, 7));
            Trial::of(&[declared, taken], last)
        });
    }
}

#[test]
fn kinds_5_and_36() {
    pairs(role(7), permission(7, 40, 50), 64, &[has_permission, give]);
}

#[test]
fn kind_6() {
    in_order(&[Range, Taken], &[], |w| {
        Trial::of(
            &[w.when(Taken, &[task(0, 1)])],
            task(0, w.pick(Range, 16, 0)),
        )
    });
}

#[test]
fn kinds_7_and_8() {
    pairs(task(7, 0), role(7), 64, &[open_to]);
    pairs(task(7, 0), permission(7, 40, 50), 64, &[carries]);
}

/// `count` sets with n = 1 over the numbers 2 to 9.
fn other_sets(count: usize, make: fn(u8, &[u32]) -> Bytes) -> Vec<Bytes> {
    let several = (1_u32..256).filter(|mask| mask.count_ones() > 1);
    let sets = several.map(|mask| (0..8).filter(move |i| mask & 1 << i != 0).map(|i| i + 2));
    let made = sets.map(|numbers| make(1, &numbers.collect::<Vec<u32>>()));
    made.take(count).collect()
}

/// Kinds 9, 10 and 11, over roles or tasks 0 to 9.
fn sets(declare: fn(u16) -> Bytes, make: fn(u8, &[u32]) -> Bytes, conditions: &[Reply]) {
    let apart: &[&[Reply]] = &[&[Unknown, Taken], &[Taken, Rule], &[Taken, Static]];
    in_order(conditions, apart, |w| {
        let declared = (0..10).map(declare).collect();
        let people = vec![user(300), has_role(300, 0), has_role(300, 1)];
        let taken = w.when(Taken, &[make(1, &[0, 1])]);
        let others = w.pick(Full, 32 - taken.len(), 0);
        let members: &[u32] = w.pick(Unknown, &[0, 1, 63], &[0, 1]);
        let before = [
            declared,
            w.when(Static, &people),
            taken,
            other_sets(others, make),
        ];
        Trial::of(&before, make(w.pick(Rule, 0, 1), members))
    });
}

#[test]
fn kinds_9_10_and_11() {
    sets(role, static_set, &[Unknown, Taken, Rule, Static, Full]);
    sets(role, dynamic_set, &[Unknown, Taken, Rule, Full]);
    sets(|i| task(i, 0), task_set, &[Unknown, Taken, Rule, Full]);
}

#[test]
fn kind_12() {
    let apart: &[&[Reply]] = &[&[Range, Taken], &[Unknown, Taken]];
    in_order(&[Range, Unknown, Taken, Rule, Full], apart, |w| {
        let tasks = (0..32).map(|t| task(t, 0)).chain([task(40, 1)]).collect();
        // A repeated block shares its tasks with itself, so it breaks RULE as well.
        let taken = w.when(Taken, &[block(0, &[0])]);
        let others = (1..3).flat_map(|p| (0..32).map(move |t| block(p, &[t])));
        let others = others.take(w.pick(Full, 64 - taken.len(), 0)).collect();
        let mut members = vec![0];
        if w.is(Rule) && !w.is(Taken) {
            members.push(40);
        }
        if w.is(Unknown) {
            members.push(63);
        }
        let last = block(w.pick(Range, 16, 0), &members);
        Trial::of(&[tasks, taken, others], last)
    });
}

#[test]
fn kind_13() {
    let apart: &[&[Reply]] = &[&[Range, Taken], &[Unknown, Taken]];
    in_order(&[Range, Unknown, Taken], apart, |w| {
        let template = w.pick(Unknown, 4, 3);
        Trial::of(
            &[vec![task(0, 3)], w.when(Taken, &[ban(3)])],
            ban(w.pick(Range, 16, template)),
        )
    });
}

#[test]
fn kind_14() {
    let apart: &[&[Reply]] = &[&[Range, Taken], &[Unknown, Taken]];
    in_order(&[Range, Unknown, Taken, Rule], apart, |w| {
        let limited = w.pick(Unknown, 4, 3);
        Trial::of(
            &[vec![task(3, 0)], w.when(Taken, &[at_most(3, 5)])],
            at_most(w.pick(Range, 64, limited), w.pick(Rule, 0, 2)),
        )
    });
}

#[test]
fn kinds_15_and_16() {
    let apart: &[&[Reply]] = &[&[Range, Taken], &[Unknown, Taken], &[Taken, Rule]];
    for (make, earlier) in [
        (bound as fn(_, _) -> _, bound(1, 0)),
        (before, before(0, 1)),
    ] {
        in_order(&[Range, Unknown, Taken, Rule, Full], apart, |w| {
            let tasks = (0..13).map(|t| task(t, 0)).chain([task(20, 1)]).collect();
            let taken = w.when(Taken, std::slice::from_ref(&earlier));
            let others = (1..13).flat_map(|i| (i + 1..13).map(move |j| make(i, j)));
            let others = others.take(w.pick(Full, 64 - taken.len(), 0)).collect();
            let (a, b) = match (w.is(Unknown), w.is(Rule)) {
                (true, true) => (63, 63),
                (true, false) => (0, 63),
                (false, true) => (0, 20),
                (false, false) => (0, 1),
            };
            Trial::of(&[tasks, taken, others], make(w.pick(Range, 64, a), b))
        });
    }
}

/// Users 300 and 301 with role 0 and subjects 5 and 6, and tasks 0 to 3 of template 0, 10 of template 1.
fn desk() -> Vec<Bytes> {
    let mut policy = vec![user(300), user(301), role(0), role(1), role(2)];
    policy.extend([permission(7, 40, 50), permission(8, 41, 50)]);
    policy.extend([300, 301].map(|u| has_role(u, 0)));
    policy.extend([(0, 0), (1, 0), (2, 0), (3, 0), (10, 1)].map(|(t, of)| task(t, of)));
    policy.extend([0, 1, 2, 3, 10].map(|t| open_to(t, 0)));
    policy
}

fn subjects() -> Vec<Bytes> {
    vec![create(5, 300, &[0]), create(6, 301, &[0]), open(0, 0)]
}

fn finished(subject: u16, instance: u16, task: u16) -> Vec<Bytes> {
    vec![
        claim(subject, instance, task),
        done(subject, instance, task),
    ]
}

const IN_USE_APART: &[&[Reply]] = &[&[Range, InUse], &[Unknown, InUse]];

#[test]
fn kind_33() {
    let entry = [subjects(), finished(5, 0, 0), vec![destroy(5)]].concat();
    for reason in [vec![create(9, 300, &[])], entry] {
        in_order(&[Range, Unknown, InUse], IN_USE_APART, |w| {
            let deleted = w.pick(Unknown, 999, 300);
            Trial::of(&[desk()], delete_user(w.pick(Range, 1024, deleted)))
                .after(&[w.when(InUse, &reason)])
        });
    }
}

#[test]
fn kind_35() {
    in_order(&[Range, Unknown, InUse], IN_USE_APART, |w| {
        let last = take_role(w.pick(Range, 1024, 300), w.pick(Unknown, 1, 0));
        Trial::of(&[desk()], last).after(&[w.when(InUse, &[create(9, 300, &[0])])])
    });
}

#[test]
fn kind_37() {
    in_order(&[Range, Unknown], &[], |w| {
        let last = take_permission(w.pick(Range, 64, 0), w.pick(Unknown, 8, 7));
        Trial::of(&[desk(), vec![has_permission(0, 7)]], last)
    });
}

#[test]
fn kind_40() {
    let conditions = [Range, Unknown, Taken, NotAssigned, Dynamic];
    in_order(&conditions, &[&[Range, Taken]], |w| {
        let more = vec![has_role(300, 1)];
        let sets = w.when(Dynamic, &[dynamic_set(1, &[0, 1])]);
        let mut roles = vec![1];
        if w.is(Unknown) {
            roles.push(63);
        }
        if w.is(NotAssigned) {
            roles.push(2);
        }
        let last = create(w.pick(Range, 128, 9), 300, &roles);
        let live = w.when(Taken, &[create(9, 301, &[])]);
        Trial::of(&[desk(), more, sets], last).after(&[vec![create(5, 300, &[0])], live])
    });
}

#[test]
fn kind_41() {
    in_order(&[Range, Unknown, InUse], IN_USE_APART, |w| {
        let subject = w.pick(Unknown, 7, 5);
        let held = w.when(InUse, &[claim(5, 0, 0)]);
        Trial::of(&[desk()], destroy(w.pick(Range, 128, subject))).after(&[subjects(), held])
    });
}

#[test]
fn kind_42() {
    let apart: &[&[Reply]] = &[
        &[Range, Taken],
        &[Range, NotAssigned],
        &[Range, Dynamic],
        &[Unknown, Taken],
        &[Unknown, Dynamic],
        &[Taken, NotAssigned],
        &[Taken, Dynamic],
    ];
    let conditions = [Range, Unknown, Taken, NotAssigned, Dynamic];
    in_order(&conditions, apart, |w| {
        let assigned = w.pick(NotAssigned, vec![], vec![has_role(300, 1)]);
        let sets = w.when(Dynamic, &[dynamic_set(1, &[0, 1])]);
        let active = w.when(Taken, &[activate(5, 1)]);
        let last = activate(w.pick(Range, 128, 5), w.pick(Unknown, 63, 1));
        Trial::of(&[desk(), assigned, sets], last).after(&[subjects(), active])
    });
}

#[test]
fn kind_43() {
    in_order(&[Range, Unknown], &[], |w| {
        let last = deactivate(w.pick(Range, 128, 5), w.pick(Unknown, 1, 0));
        Trial::of(&[desk()], last).after(&[subjects()])
    });
}

#[test]
fn kind_48() {
    in_order(&[Range, Unknown, Taken], &[], |w| {
        let template = w.pick(Unknown, 9, 0);
        let last = open(w.pick(Taken, 0, 3), w.pick(Range, 16, template));
        Trial::of(&[desk()], last).after(&[subjects()])
    });
}

#[test]
fn kind_49() {
    in_order(&[Range, Unknown, InUse], IN_USE_APART, |w| {
        let instance = w.pick(Unknown, 3, 0);
        let held = w.when(InUse, &[claim(5, 0, 0)]);
        Trial::of(&[desk()], end(w.pick(Range, 64, instance))).after(&[subjects(), held])
    });
}

#[test]
fn kinds_51_and_52() {
    for make in [release, done] {
        in_order(&[Range, Unknown, NotYours], &[], |w| {
            let holder = w.pick(NotYours, 6, 5);
            let last = make(w.pick(Range, 128, 5), w.pick(Unknown, 3, 0), 0);
            Trial::of(&[desk()], last).after(&[subjects(), vec![claim(holder, 0, 0)]])
        });
    }
}

#[test]
fn kind_56() {
    in_order(&[Range, Unknown, Denied], &[], |w| {
        let given = w.pick(Denied, vec![], vec![has_permission(0, 7)]);
        let subject = w.pick(Unknown, 7, 5);
        let last = check(w.pick(Range, 128, subject), 40, 50);
        Trial::of(&[desk(), given], last).after(&[subjects()])
    });
}

#[test]
fn kind_57() {
    in_order(&[Range, Unknown, NotYours, Denied], &[], |w| {
        let carried = w.pick(Denied, vec![], vec![carries(0, 7)]);
        let holder = w.pick(NotYours, 6, 5);
        let last = task_check(w.pick(Range, 128, 5), w.pick(Unknown, 3, 0), 0, 40, 50);
        Trial::of(&[desk(), carried], last).after(&[subjects(), vec![claim(holder, 0, 0)]])
    });
}

/// The entries that make a claim of task 0 by subject 5 fail in the given ways. Task 1 is required, task 2 is in a set with task
/// 0 and in another block, task 3 is bound to task 0.
fn entries(w: Wrong) -> Vec<Bytes> {
    let mut made = Vec::new();
    if w.any(&[Separation, Block, Alone]) {
        made.extend(finished(5, 0, 2));
    }
    if w.is(Alone) {
        let held = w.is(Before);
        made.extend(finished(5, 0, 1).into_iter().take(if held { 1 } else { 2 }));
        made.extend(finished(5, 0, 3));
    }
    if w.is(Bound) {
        made.extend(finished(6, 0, 3));
    }
    if w.any(&[Taken, Count]) {
        let held = w.is(Taken);
        made.extend(finished(6, 0, 0).into_iter().take(if held { 1 } else { 2 }));
    }
    if w.is(Full) {
        let used = made.iter().filter(|r| r[0] == 50).count();
        made.push(open(1, 1));
        made.extend((used..2048).flat_map(|_| finished(6, 1, 10)));
    }
    made.extend(w.when(NoRole, &[deactivate(5, 0)]));
    made
}

#[test]
fn kind_50() {
    let conditions = [
        Range, Unknown, Taken, NoRole, Before, Separation, Block, Alone, Bound, Count, Full,
    ];
    let of_the_user = [NoRole, Separation, Block, Alone, Bound];
    let nobody = of_the_user.map(|r| [[Range, r], [Unknown, r]]).concat();
    let mut apart: Vec<&[Reply]> = nobody.iter().map(|pair| &pair[..]).collect();
    // An entry of task 0 implies that its prerequisite is done, and that all entries of task 3 are that user's.
    apart.extend([&[Taken, Before][..], &[Before, Count]]);
    apart.extend([&[Taken, Alone, Bound][..], &[Alone, Bound, Count]]);
    in_order(&conditions, &apart, |w| {
        let rules = [
            w.when(Before, &[before(1, 0)]),
            w.when(Separation, &[task_set(1, &[0, 2])]),
            w.when(Block, &[block(4, &[0]), block(4, &[2])]),
            w.when(Alone, &[ban(0)]),
            w.when(Bound, &[bound(3, 0)]),
            w.when(Count, &[at_most(0, 1)]),
        ];
        let subject = w.pick(Unknown, 7, 5);
        let last = claim(w.pick(Range, 128, subject), 0, 0);
        Trial::of(&[desk(), rules.concat()], last).after(&[subjects(), entries(w)])
    });
}
