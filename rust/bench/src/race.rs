//! Times one workload on several engines in turn, and compares every reply of every pass.

use crate::index::Index;
use crate::workloads::{Timed, Workload, LENGTH};
use differential::{checked, plain, proved, Desk};
use plain::{Engine, FlatLedger, OrderLists};
use std::time::{Duration, Instant};

/// The engines' names, in the order of the tables.
pub const PROVED: &str = "proved";
pub const CHECKED: &str = "checked";
pub const LISTS: &str = "lists";
pub const INDEX: &str = "index";
pub const FLAT: &str = "flat";

struct Runner {
    desk: Box<dyn Desk>,
    best: Duration,
}

/// The best time of an engine, in nanoseconds a record.
pub struct Best {
    pub engine: &'static str,
    pub nanoseconds: f64,
}

/// A workload with engines that are ready to run it.
pub struct Race<'a> {
    /// The workload.
    pub workload: &'a Workload,
    policy: Vec<u8>,
    /// The timed requests as bytes, if they go in piles.
    piled: Vec<u8>,
    expected: Vec<u8>,
    runners: Vec<Runner>,
}

/// The engines for a workload. The plain engine takes part with both ledgers only if the workload looks at entries.
fn engines(workload: &Workload) -> Vec<Box<dyn Desk>> {
    let mut desks = vec![
        plain(LISTS, Engine::<OrderLists>::new()),
        Box::new(Index::new()),
    ];
    if workload.asks_entries() {
        desks.push(plain(FLAT, Engine::<FlatLedger>::new()));
    }
    desks.extend(match workload.timed {
        Timed::Checked(_) => checked(),
        _ => proved(),
    });
    desks
}

impl<'a> Race<'a> {
    /// Engines that have loaded the workload's policy and answered its setup requests. The plain engine defines the expected
    /// replies.
    pub fn new(workload: &'a Workload) -> Result<Race<'a>, String> {
        let mut race = Race {
            workload,
            policy: workload.policy_bytes(),
            piled: match &workload.timed {
                Timed::Piles(stream) => stream.iter().flat_map(|record| record.0).collect(),
                _ => Vec::new(),
            },
            expected: Vec::new(),
            runners: Vec::new(),
        };
        for mut desk in engines(workload) {
            race.prepare(&mut *desk)?;
            let best = Duration::MAX;
            race.runners.push(Runner { desk, best });
        }
        race.expect();
        Ok(race)
    }

    fn prepare(&self, desk: &mut dyn Desk) -> Result<(), String> {
        let (name, of) = (desk.name(), &self.workload.name);
        let (reply, place) = desk.load(&self.policy);
        if reply != 0 {
            return Err(format!(
                "{of}: {name} refuses record {place} of the policy with {reply}"
            ));
        }
        let mut replies = vec![0; self.workload.setup.len()];
        desk.answer_all(&self.workload.setup, &mut replies);
        match replies.iter().position(|&reply| reply != 0) {
            Some(at) => Err(format!(
                "{of}: {name} refuses request {} before the timed ones with {}",
                at + 1,
                replies[at]
            )),
            None => Ok(()),
        }
    }

    fn expect(&mut self) {
        if let Timed::Requests(stream) | Timed::Piles(stream) | Timed::Checked(stream) =
            &self.workload.timed
        {
            self.expected = vec![0; stream.len()];
            let first = &mut self.runners[0];
            first.desk.answer_all(stream, &mut self.expected);
        }
    }

    /// The replies of a pass, as the plain engine gives them; empty for a load.
    pub fn replies(&self) -> &[u8] {
        &self.expected
    }

    /// Runs this number of passes on every engine, one engine after the other in each pass.
    pub fn run(&mut self, passes: usize) -> Result<(), String> {
        let mut replies = vec![0; self.expected.len()];
        for _ in 0..passes {
            for runner in &mut self.runners {
                replies.fill(u8::MAX);
                let taken = match &self.workload.timed {
                    Timed::Load => time_load(&mut *runner.desk, &self.policy)?,
                    Timed::Requests(stream) | Timed::Checked(stream) => {
                        let begin = Instant::now();
                        runner.desk.answer_all(stream, &mut replies);
                        begin.elapsed()
                    }
                    Timed::Piles(_) => time_piles(&mut *runner.desk, &self.piled, &mut replies)?,
                };
                runner.best = runner.best.min(taken);
                let name = runner.desk.name();
                self.workload.compare(name, &replies, &self.expected)?;
            }
        }
        Ok(())
    }

    /// Each engine's best time.
    pub fn best(&self) -> Vec<Best> {
        let length = self.workload.length() as f64;
        let best = |runner: &Runner| Best {
            engine: runner.desk.name(),
            nanoseconds: runner.best.as_nanos() as f64 / length,
        };
        self.runners.iter().map(best).collect()
    }
}

/// Answers the records in piles of 4,096, with the rest in a last pile.
fn time_piles(desk: &mut dyn Desk, records: &[u8], replies: &mut [u8]) -> Result<Duration, String> {
    let begin = Instant::now();
    let piles = records.chunks(16 * LENGTH).zip(replies.chunks_mut(LENGTH));
    for (pile, answers) in piles {
        let reply = desk.pile(pile, answers, 0);
        if reply != 0 {
            return Err(format!("{} answers a pile with {reply}", desk.name()));
        }
    }
    Ok(begin.elapsed())
}

fn time_load(desk: &mut dyn Desk, policy: &[u8]) -> Result<Duration, String> {
    let begin = Instant::now();
    let answer = desk.load(policy);
    let taken = begin.elapsed();
    match answer {
        (0, 0) => Ok(taken),
        _ => Err(format!("{} answers a load with {answer:?}", desk.name())),
    }
}

impl Workload {
    fn compare(&self, engine: &str, replies: &[u8], expected: &[u8]) -> Result<(), String> {
        let mut both = replies.iter().zip(expected);
        match both.position(|(reply, expected)| reply != expected) {
            None => Ok(()),
            Some(at) => Err(format!(
                "{}: {engine} answers record {} with {}, the plain engine with {}",
                self.name,
                at + 1,
                replies[at],
                expected[at]
            )),
        }
    }
}

#[cfg(test)]
mod tests {
    use crate::workloads::checks;

    #[test]
    fn a_reply_that_differs_is_an_error() {
        let workload = checks(16);
        assert_eq!(workload.compare("proved", &[0, 13], &[0, 13]), Ok(()));
        let difference = workload.compare("proved", &[0, 0], &[0, 13]).unwrap_err();
        let said =
            "checks, 16 permissions: proved answers record 2 with 0, the plain engine with 13";
        assert_eq!(difference, said);
    }
}
