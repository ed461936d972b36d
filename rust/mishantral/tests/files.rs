//! The policy written out and files mended, through the safe engine: room, what does not change, and states of any content.
#![cfg(any(mishantral_write, mishantral_mend))]

use mishantral::{Engine, Record, Reply, Set, State};

fn policy() -> Vec<Record> {
    vec![
        Record::user(300),
        Record::role(0),
        Record::role(1),
        Record::user_has_role(300, 0),
        Record::task(0, 0),
        Record::task_open_to(0, 0),
        Record::static_set(1, Set::of(&[0, 1])),
    ]
}

fn bytes(records: &[Record]) -> Vec<u8> {
    records.iter().flat_map(|record| record.0).collect()
}

fn loaded() -> Engine {
    let mut engine = Engine::new();
    engine.load_records(&policy()).unwrap();
    engine
}

/// States with one buffer of a wrong length.
fn odd() -> [State; 3] {
    let less = |buffer: &[u64]| buffer[1..].into();
    let state = loaded().into_state();
    let (mut one, mut other, mut third) = (state.clone(), state.clone(), state);
    one.policy = less(&one.policy);
    other.sessions = less(&other.sessions);
    third.orders = less(&third.orders);
    [one, other, third]
}

#[cfg(mishantral_write)]
mod write {
    use super::*;
    use mishantral::WRITTEN;

    #[test]
    fn what_is_written_is_the_policy_without_sessions_and_orders() {
        let mut engine = loaded();
        let steps = [
            Record::create_subject(5, 300, Set::of(&[0])),
            Record::open_order(0, 0),
            Record::claim(5, 0, 0),
            Record::add_user_with(7, Set::of(&[1])),
        ];
        for step in &steps {
            assert_eq!(engine.request(step), Reply::Granted);
        }
        let before = engine.clone();
        let written = engine.write_policy().unwrap();
        assert_eq!(engine, before);
        let mut expected = policy();
        expected.insert(0, Record::user(7));
        expected.insert(4, Record::user_has_role(7, 1));
        assert_eq!(written, bytes(&expected));
        let mut again = Engine::new();
        again.load(&written).unwrap();
        assert_eq!(again.write_policy(), Ok(written));
    }

    #[test]
    fn an_output_too_short_is_room_and_nothing_is_written() {
        let (engine, all) = (loaded(), bytes(&policy()));
        let mut output = vec![7; all.len() + 5];
        let short = engine.write_into(&mut output[..all.len() - 1]);
        assert_eq!(short, Err(Reply::Room));
        assert_eq!(output, vec![7; all.len() + 5]);
        assert_eq!(engine.write_into(&mut output), Ok(policy().len()));
        assert_eq!(output, [&all[..], &[7; 5]].concat());
        assert_eq!(Engine::new().write_into(&mut []), Ok(0));
    }

    #[test]
    fn a_buffer_without_its_length_is_room() {
        for state in odd() {
            let mut output = [7; 1000];
            assert_eq!(state.write_into(&mut output), Err(Reply::Room));
            assert_eq!(output, [7; 1000]);
            assert_eq!(Engine::from_state(state).write_policy(), Err(Reply::Room));
        }
    }

    /// A policy buffer that is all ones, except the words of the permissions, reads as the largest possible policy
    /// (docs/STATE.md).
    #[test]
    fn there_is_always_enough_room() {
        let mut state = State::zeroed();
        state.policy.fill(u64::MAX);
        state.policy[2056..2312].fill(0x1_ffff_ffff);
        let mut output = vec![0; WRITTEN * 16];
        assert_eq!(state.write_into(&mut output), Ok(WRITTEN));
        let short = state.write_into(&mut output[1..]);
        assert_eq!(short, Err(Reply::Room));
        let written = Engine::from_state(state).write_policy().unwrap();
        assert_eq!(written, output);
    }

    /// Links that are not sound read as the empty engine, including an empty policy.
    #[test]
    fn broken_links_are_written_as_nothing() {
        let mut state = loaded().into_state();
        state.orders[0] = 2049;
        assert_eq!(state.write_into(&mut []), Ok(0));
    }
}

#[cfg(mishantral_mend)]
mod mend {
    use super::*;
    use mishantral::{Dropped, Entry};

    #[test]
    fn a_file_that_loads_comes_out_the_same() {
        let mended = Engine::mend(&bytes(&policy()));
        assert_eq!(mended.records, bytes(&policy()));
        assert_eq!(mended.dropped, []);
        assert_eq!(mended.engine, loaded());
        let nothing = Engine::mend(&[]);
        assert_eq!(nothing.engine, Engine::new());
        assert!(nothing.records.is_empty() && nothing.dropped.is_empty());
    }

    #[test]
    fn a_spoilt_record_and_what_rests_on_it_are_dropped() {
        let mut file = bytes(&policy());
        file[16] ^= 0x40; // role 0 is no longer a valid record
        file.truncate(16 * 7 - 1);
        let mended = Engine::mend(&file);
        let dropped = |place, reply| Dropped { place, reply };
        let expected = [
            dropped(2, Reply::Shape),
            dropped(4, Reply::Unknown),
            dropped(6, Reply::Unknown),
            dropped(7, Reply::Shape),
        ];
        assert_eq!(mended.dropped, expected);
        let kept = [Record::user(300), Record::role(1), Record::task(0, 0)];
        assert_eq!(mended.records, bytes(&kept));
    }

    #[test]
    fn what_is_behind_the_last_one_stays() {
        let file = bytes(&[Record::user(1), Record::user(1), Record::user(2)]);
        let mut state = loaded().into_state();
        let junk = Entry { place: 9, reply: 9 };
        let (mut output, mut report) = (vec![7; 50], vec![junk; 5]);
        assert_eq!(state.mend(&file, &mut output, &mut report), Ok(2));
        assert_eq!(output, [&file[..16], &file[32..], &[7; 18]].concat());
        let taken = Entry { place: 2, reply: 5 };
        assert_eq!(report, [taken, junk, junk, junk, junk]);
        let mut expected = Engine::new();
        expected.load(&output[..32]).unwrap();
        assert_eq!(Engine::from_state(state), expected);
    }

    #[test]
    fn no_room_and_nothing_is_written() {
        let file = bytes(&[Record::user(1), Record::user(2)]);
        let junk = Entry { place: 9, reply: 9 };
        let refused = |mut state: State, output: usize, report: usize| {
            let before = state.clone();
            let (mut output, mut report) = (vec![7; output], vec![junk; report]);
            let answer = state.mend(&file, &mut output, &mut report);
            assert_eq!(answer, Err(Reply::Room));
            assert!(output.iter().all(|byte| *byte == 7));
            assert!(report.iter().all(|entry| *entry == junk));
            assert_eq!(state, before);
        };
        refused(loaded().into_state(), 31, 3);
        refused(loaded().into_state(), 32, 2);
        refused(loaded().into_state(), 0, 0);
        for state in odd() {
            refused(state, 32, 3);
        }
    }
}
