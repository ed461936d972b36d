//! Writing out and mending at their limits on all engines: every length of the output and the report around what is needed, the
//! largest possible policy, and every truncation of a file.

use differential::{plain, proved, Mend, Panel};
use plain::{Engine, OrderLists};
use records::{Record, Set};

fn bytes(records: &[Record]) -> Vec<u8> {
    records.iter().flat_map(|record| record.0).collect()
}

/// A little of everything, in the order in which it is written.
fn policy() -> Vec<Record> {
    let both = Set::of(&[0, 1]);
    vec![
        Record::user(44),
        Record::user(300),
        Record::role(0),
        Record::role(1),
        Record::role(63),
        Record::permission(255, 65535, 2),
        Record::user_has_role(44, 0),
        Record::user_has_role(300, 63),
        Record::role_has_permission(63, 255),
        Record::task(0, 3),
        Record::task(1, 3),
        Record::task_open_to(1, 63),
        Record::task_carries(0, 255),
        Record::static_set(1, both),
        Record::dynamic_set(2, Set::of(&[0, 1, 63])),
        Record::dynamic_set(1, both),
        Record::task_set(1, both),
        Record::block(9, Set::of(&[1])),
        Record::block(2, Set::of(&[0])),
        Record::lone_worker_ban(3),
        Record::at_most(1, 255),
        Record::bound(1, 0),
        Record::before(1, 0),
        Record::before(0, 1),
        Record::role_above(63, 0),
    ]
}

fn loaded(mut panel: Panel, policy: &[u8]) -> Panel {
    assert_eq!(panel.load(policy).unwrap(), (0, 0));
    panel
}

/// All engines except the slow one, which would take minutes for 100,000 records.
fn quick() -> Panel {
    let mut desks = vec![plain("lists", Engine::<OrderLists>::new())];
    desks.extend(proved());
    Panel::of(desks)
}

#[test]
fn every_length_of_the_output_around_what_is_needed() {
    let policy = bytes(&policy());
    let panel = loaded(Panel::all(), &policy);
    for length in (0..40).chain(policy.len() - 20..policy.len() + 20) {
        let before = vec![0xa5; length];
        let (reply, records, output) = panel.write(&before).unwrap();
        if length < policy.len() {
            assert_eq!((reply, records, output), (1, 0, before));
            continue;
        }
        assert_eq!((reply, records), (0, policy.len() / 16));
        let behind = vec![0xa5; length - policy.len()];
        assert_eq!(output, [&policy[..], &behind].concat());
    }
    assert_eq!(Panel::all().write(&[]).unwrap(), (0, 0, vec![]));
}

/// As much of everything as a load accepts.
fn largest() -> Vec<u8> {
    let mut all: Vec<Record> = (0..1024).map(Record::user).collect();
    all.extend((0..64).map(Record::role));
    all.extend((0..256).map(|p| Record::permission(p, p, 65535 - p)));
    let pairs = |ends: (u16, u16), make: fn(u16, u16) -> Record| {
        (0..ends.0).flat_map(move |a| (0..ends.1).map(move |b| make(a, b)))
    };
    all.extend(pairs((1024, 64), Record::user_has_role));
    all.extend(pairs((64, 256), Record::role_has_permission));
    all.extend((0..64).map(|t| Record::task(t, 0)));
    all.extend(pairs((64, 64), Record::task_open_to));
    all.extend(pairs((64, 256), Record::task_carries));
    // There are no static sets: every user has all roles, so each would be broken.
    let members = |k: u8| Set(!(1 << k));
    all.extend((0..32).map(|k| Record::dynamic_set(1 + k, members(k))));
    all.extend((0..32).map(|k| Record::task_set(1 + k, members(k))));
    all.extend((0..64).map(|t| Record::block(15, Set::of(&[t]))));
    all.push(Record::lone_worker_ban(0));
    all.extend((0..64).map(|t| Record::at_most(t, 255)));
    all.extend((0..63).map(|t| Record::bound(t + 1, t)));
    all.push(Record::bound(0, 63));
    all.extend((0..63).map(|t| Record::before(t, t + 1)));
    all.push(Record::before(63, 0));
    all.extend((1..64).map(|r| Record::role_above(r, r - 1)));
    all.push(Record::role_above(63, 0));
    let mut all = bytes(&all);
    let above = all.len() - 2 * 16;
    // Senior roles are written by a and then b: (63, 0) before (63, 62).
    let (one, other) = all[above..].split_at_mut(16);
    one.swap_with_slice(other);
    all
}

#[test]
fn the_largest_policy_is_written_as_it_was_loaded() {
    let policy = largest();
    let panel = loaded(quick(), &policy);
    let (reply, records, output) = panel.write(&vec![7; policy.len() + 1]).unwrap();
    assert_eq!((reply, records), (0, policy.len() / 16));
    assert_eq!(output[..policy.len()], policy);
    assert_eq!(output[policy.len()..], [7]);
    assert_eq!(panel.write(&vec![7; policy.len() - 1]).unwrap().0, 1);
}

fn mend(file: &[u8], spare: i64, entries: i64) -> Mend {
    Mend {
        file: file.to_vec(),
        damage: "",
        spare,
        entries,
    }
}

#[test]
fn every_length_of_output_and_report_around_what_is_needed() {
    let policy = bytes(&policy());
    for length in [0, 1, 15, 16, 17, 32, 47, 400] {
        for (spare, entries) in [
            (0, 0),
            (-1, 0),
            (0, -1),
            (1, 0),
            (0, 1),
            (20, 5),
            (-1, -1),
            (-16, 3),
        ] {
            let mend = mend(&policy[..length], spare, entries);
            let mut panel = loaded(Panel::all(), &bytes(&[Record::user(5)]));
            let (reply, kept, output, report) = panel.mend(&mend).unwrap();
            // An output cannot be shorter than 0 bytes.
            let room = (mend.output().len() >= length) && mend.report().len() > length / 16;
            assert_eq!(reply, u8::from(!room), "{length} {spare} {entries}");
            let whole = if room { length / 16 } else { 0 };
            assert_eq!(kept, whole);
            assert_eq!(output[..16 * whole], policy[..16 * whole]);
            assert_eq!(output[16 * whole..], mend.output()[16 * whole..]);
            let cut = usize::from(room && length % 16 != 0);
            assert_eq!(report[cut..], mend.report()[cut..]);
            assert_eq!(report[..cut], [(length as u64 / 16 + 1, 2)][..cut]);
            let there = panel.request(&Record::add_user(5).0).unwrap().0;
            assert_eq!(there, if room { 0 } else { 5 });
        }
    }
}

#[test]
fn every_place_of_a_file_is_spoilt_once() {
    let records = policy();
    let file = bytes(&records);
    for place in 0..records.len() {
        let mut spoilt = file.clone();
        spoilt[16 * place] = 200;
        let (reply, kept, output, report) = Panel::all().mend(&mend(&spoilt, 0, 0)).unwrap();
        assert_eq!(reply, 0);
        assert_eq!(report[0], (place as u64 + 1, 2));
        // Records that refer to the damaged record are UNKNOWN; all others are kept.
        let dropped: Vec<usize> = report[..records.len() - kept]
            .iter()
            .map(|(at, _)| *at as usize)
            .collect();
        assert!(
            report[1..dropped.len()]
                .iter()
                .all(|(_, reply)| *reply == 4),
            "{report:?}"
        );
        let left = (1..=records.len()).filter(|at| !dropped.contains(at));
        let left: Vec<Record> = left.map(|at| records[at - 1]).collect();
        assert_eq!(output[..16 * kept], bytes(&left));
    }
}

#[test]
fn a_large_file_is_mended() {
    let policy = largest();
    let twice = [&policy[..], &policy].concat();
    let (reply, kept, output, report) = quick().mend(&mend(&twice, 0, 0)).unwrap();
    assert_eq!((reply, kept), (0, policy.len() / 16));
    assert_eq!(output[..policy.len()], policy);
    assert!(report[..kept].iter().all(|(_, reply)| *reply == 5));
}
