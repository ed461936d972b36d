//! The proved library on a state that no load made: it always answers, a refusal or a check changes no word, and a load gives the
//! same result whatever the state was.

use crate::cases::{Case, Step};
use crate::compare::compare;
use crate::desks::{Answer, Desk, Panel};
use mishantral::{Engine, State};
use plain::OrderLists;
use random::Random;

/// A random word of a style of garbage.
fn word(random: &mut Random, style: usize) -> u64 {
    match style {
        0 => random.word(),
        1 => u64::MAX,
        2 => random.word() >> random.below(64),
        3 => random.below(4) as u64,
        _ => 1 << random.below(64),
    }
}

/// A state full of garbage, or the state after a day with some of its words changed.
fn spoilt(random: &mut Random, after: Engine) -> State {
    let style = random.below(5);
    let part = random.pick(&[1, 1, 20, 500]);
    let mut state = after.into_state();
    for buffer in [&mut state.policy, &mut state.sessions, &mut state.orders] {
        for at in 0..buffer.len() {
            if random.chance(1, part) {
                buffer[at] = word(random, style);
            }
        }
    }
    state
}

/// Runs the step, and again on a copy: both must have the same result.
fn twice(engine: &mut Engine, step: &Step) -> Answer {
    let mut copy = engine.clone();
    let take = |engine: &mut Engine| match step {
        Step::Load(policy) => Desk::load(engine, policy),
        Step::Request(record) => Desk::request(engine, record),
        Step::Pile(pile) => {
            let mut buffer = pile.buffer.clone();
            (Desk::pile(engine, &pile.records, &mut buffer, pile.at), 0)
        }
        Step::Question(question) => {
            let mut answer = question.answer.clone();
            let reply = Desk::question(engine, &question.record, &mut answer);
            assert!(reply == 0 || answer == question.answer);
            (reply, 0)
        }
        Step::Write(_) => {
            let mut output = vec![0x55; 16 * 108_528];
            let written = Desk::write(engine, &mut output).unwrap_or_default();
            assert!(written.0 == 0, "there is room for every policy");
            written
        }
        Step::Mend(mend) => {
            let (mut output, mut report) = (mend.output(), mend.report());
            Desk::mend(engine, &mend.file, &mut output, &mut report)
        }
    };
    let answer = take(engine);
    assert_eq!(take(&mut copy), answer, "a call has two answers");
    assert_eq!(*engine, copy, "a call leaves two states");
    answer
}

/// Runs one case on garbage. A panic or a crash is the failure; a difference after a load is reported.
pub fn garbage(seed: u64, number: u64) -> Result<(), String> {
    let mut random = Random::new(seed ^ number.wrapping_mul(0x9e37_79b9_7f4a_7c15));
    let case = Case::random(seed, number);
    let mut engine = Engine::new();
    for step in case.steps.iter().take(400) {
        twice(&mut engine, step);
    }
    let state = spoilt(&mut random, engine);
    let mut engine = Engine::from_state(state.clone());
    for step in &case.steps {
        let kind = match step {
            Step::Request(record) => record.first(),
            Step::Question(_) => Some(&58),
            Step::Write(_) => {
                let before = engine.clone();
                twice(&mut engine, step);
                assert_eq!(engine, before, "writing changed the state");
                continue;
            }
            Step::Load(_) | Step::Pile(_) | Step::Mend(_) => continue,
        };
        let before = engine.clone();
        let (reply, place) = twice(&mut engine, step);
        let about_a_rule = matches!(reply, 14..=16 | 18);
        assert!(
            about_a_rule == (place != 0) && place <= 64,
            "{reply} with place {place}"
        );
        let only_asks = matches!(kind, Some(56..=58 | 60));
        if reply != 0 || only_asks {
            assert_eq!(engine, before, "a refusal changed the state");
        }
    }
    let plain = plain::Engine::<OrderLists>::new();
    let panel = Panel::of(vec![
        Box::new(Engine::from_state(state)),
        crate::desks::plain("lists", plain),
    ]);
    // A load and a mended file give the same result whatever the state was.
    let mending =
        |step: &&Step| matches!(step, Step::Mend(mend) if mend.spare.min(mend.entries) >= 0);
    let first = case.steps.iter().find(mending).cloned();
    let emptied = vec![first.unwrap_or(Step::Load(Vec::new()))];
    let case = Case {
        steps: [emptied, case.steps].concat(),
        pools: case.pools,
    };
    match compare(&panel, &case, false) {
        Ok(_) => Ok(()),
        Err(failure) => Err(format!("after garbage:\n{}", failure.report())),
    }
}
