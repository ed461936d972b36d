//! The figures of questions in words. For a listing, its requests are repeated on an engine that gives figures: the proved
//! library if it is linked, else the plain engine.

use crate::names::{Names, Sort};
use crate::reader::Line;
use records::{Record, Reply, Set, LENGTH};

#[cfg(mishantral_engine)]
type Engine = mishantral::Engine;
#[cfg(not(mishantral_engine))]
type Engine = plain::Engine;

/// The number of words in a question's answer.
pub const ANSWER: usize = 66;

/// The figures of a question in words, `2 entries, done 0 3` or `stuck 4 5, free 2 0`; `task` gives the name of a task. `None` if
/// the record is not a question.
pub fn figures(
    record: &[u8],
    answer: &[u64; ANSWER],
    task: impl Fn(u16) -> String,
) -> Option<String> {
    let named = |numbers: &[u16]| match numbers {
        [] => "none".to_string(),
        all => all.iter().map(|t| task(*t)).collect::<Vec<_>>().join(" "),
    };
    let tasks = |set: u64| named(&Set(set).members().map(u16::from).collect::<Vec<_>>());
    match record.first()? {
        58 => {
            let entries = if answer[0] == 1 { "entry" } else { "entries" };
            let (number, done) = (answer[0], tasks(answer[1]));
            Some(format!("{number} {entries}, done {done}"))
        }
        60 => {
            let free = answer[2..].iter().take(answer[1] as usize);
            let free: Vec<u16> = free.map(|task| *task as u16).collect();
            Some(format!("stuck {}, free {}", tasks(answer[0]), named(&free)))
        }
        _ => None,
    }
}

/// Whether some of the requests are questions.
fn has_questions(requests: &[Line]) -> bool {
    let asks = |line: &Line| {
        let record = line.record.as_deref().unwrap_or_default();
        record.len() == LENGTH && matches!(record[0], 58 | 60)
    };
    requests.iter().any(asks)
}

/// An engine that repeats the requests that a desk program answered.
pub(crate) struct Again(Engine);

impl Again {
    /// The engine with the policy loaded, if some of the requests are questions.
    pub fn with(policy: Option<&[u8]>, requests: &[Line]) -> Option<Again> {
        let mut engine = Engine::new();
        let policy = policy.filter(|_| has_questions(requests))?;
        load(&mut engine, policy).then_some(Again(engine))
    }

    /// Makes a request; returns whether its reply is the listing's.
    pub fn request(&mut self, record: &[u8], reply: Reply) -> bool {
        request(&mut self.0, record) == reply.number()
    }

    /// The figures of a granted question.
    pub fn question(&self, record: &[u8]) -> Option<[u64; ANSWER]> {
        let mut answer = [0; ANSWER];
        let reply = self.0.question(record, &mut answer);
        (reply.number() == 0).then_some(answer)
    }
}

/// One line for each template with tasks that their prerequisites make impossible; empty if the policy is refused.
pub fn stuck(policy: &[u8], names: &Names) -> Vec<String> {
    let mut again = Again(Engine::new());
    if !load(&mut again.0, policy) {
        return Vec::new();
    }
    let told = |template: u16| {
        let question = Record::stuck_tasks(template).0;
        let answer = again.question(&question).filter(|answer| answer[0] != 0)?;
        let figures = figures(&question, &answer, |task| names.shown(Sort::Task, task))?;
        let template = names.shown(Sort::Template, template);
        Some(format!(
            "template {template}: prerequisites leave tasks waiting for ever: {figures}"
        ))
    };
    (0..=15).filter_map(told).collect()
}

#[cfg(mishantral_engine)]
fn load(engine: &mut Engine, policy: &[u8]) -> bool {
    engine.load(policy).is_ok()
}

#[cfg(not(mishantral_engine))]
fn load(engine: &mut Engine, policy: &[u8]) -> bool {
    engine.load(policy).0.number() == 0
}

#[cfg(mishantral_engine)]
fn request(engine: &mut Engine, record: &[u8]) -> u8 {
    engine.request(record).reply.number()
}

#[cfg(not(mishantral_engine))]
fn request(engine: &mut Engine, record: &[u8]) -> u8 {
    engine.request(record).0.number()
}
