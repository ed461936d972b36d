//! Runs many texts on all readers, and counts what occurred.

use crate::compare::{compare, compare_names, Reader};
use crate::damage::{blows, mangled, struck};
use crate::texts::Texts;
use opl::{Refusal, Sections, Why, ACCEPTED, RECORD};
use random::Random;
use std::fmt;

/// What occurred in a run.
#[derive(Default)]
pub struct Met {
    /// The number of pairs of texts.
    pub texts: u64,
    /// The number of bytes in all texts.
    pub bytes: u64,
    /// The number of accepted pairs.
    pub accepted: u64,
    /// The number refused with ROOM.
    pub no_room: u64,
    /// The number refused with NAMES.
    pub names: u64,
    /// The number refused because of their task lines.
    pub tasks: u64,
    /// The number of refused policy texts, by the sort of fault.
    pub faults: [u64; Why::SORTS],
    /// The number of records, by kind.
    pub kinds: [u64; 19],
}

impl Met {
    /// Whether everything that these sections allow occurred.
    pub fn everything(&self, sections: Sections) -> bool {
        let others = [self.accepted, self.no_room, self.names, self.tasks];
        let kinds = match sections {
            Sections::Asked => &self.kinds[1..=16],
            Sections::All => &self.kinds[1..=18],
        };
        others
            .iter()
            .chain(&self.faults)
            .chain(kinds)
            .all(|&count| count > 0)
    }
}

impl fmt::Display for Met {
    fn fmt(&self, f: &mut fmt::Formatter) -> fmt::Result {
        writeln!(f, "{} texts of {} bytes:", self.texts, self.bytes)?;
        writeln!(f, "{:>8} accepted", self.accepted)?;
        writeln!(f, "{:>8} ROOM", self.no_room)?;
        writeln!(f, "{:>8} NAMES", self.names)?;
        writeln!(f, "{:>8} TEXT, task lines", self.tasks)?;
        writeln!(f, "{:>8} TEXT, policy:", self.faults.iter().sum::<u64>())?;
        writeln!(f, "         by sort {:?}", self.faults)?;
        write!(f, "         records by kind {:?}", &self.kinds[1..])
    }
}

/// The readers under comparison, and the random numbers that generate texts.
pub struct Run<'r> {
    readers: &'r [Reader],
    sections: Sections,
    random: Random,
    /// What occurred so far.
    pub met: Met,
}

/// With `each_byte`, texts up to this length are damaged at each byte.
const SMALL: usize = 2_500;

impl<'r> Run<'r> {
    /// A run over texts of these sections, repeatable by its seed.
    pub fn new(readers: &'r [Reader], seed: u64, sections: Sections) -> Run<'r> {
        Run {
            readers,
            sections,
            random: Random::new(seed),
            met: Met::default(),
        }
    }

    /// Compares the readers with an output of about the needed size, and counts.
    pub fn check(&mut self, texts: &Texts) -> Result<(), String> {
        self.met.texts += 1;
        self.met.bytes += (texts.policy.len() + texts.tasks.len()) as u64;
        let read = opl::read_sections(&texts.policy, &texts.tasks, self.sections);
        let needed = read.as_ref().map_or(2, |read| read.count()) * RECORD;
        let room = match self.random.below(10) {
            0 => needed.saturating_sub(1),
            1 => self.random.below(needed + 1),
            2..5 => needed,
            _ => needed + self.random.below(40),
        };
        let answer = compare(self.readers, texts, room)?;
        match read {
            Ok(read) if answer.reply == ACCEPTED => {
                self.met.accepted += 1;
                for record in read.records().chunks(RECORD) {
                    self.met.kinds[usize::from(record[0])] += 1;
                }
                compare_names(texts, self.sections)?;
            }
            Ok(_) => self.met.no_room += 1,
            Err(Refusal::Names(_)) => self.met.names += 1,
            Err(Refusal::Text(fault)) if fault.text == opl::Text::Tasks => self.met.tasks += 1,
            Err(Refusal::Text(fault)) => self.met.faults[fault.why.sort()] += 1,
        }
        Ok(())
    }

    /// Checks a text of the grammar and damaged copies of it; with `each_byte`, damaged at each byte.
    pub fn case(&mut self, each_byte: bool) -> Result<(), String> {
        let texts = Texts::of_sections(&mut self.random, self.sections);
        self.check(&texts)?;
        for _ in 0..20 {
            let policy = mangled(&mut self.random, &texts.policy);
            let tasks = texts.tasks.clone();
            self.check(&Texts { policy, tasks })?;
        }
        let length = texts.policy.len();
        if each_byte && length <= SMALL {
            (0..length).try_for_each(|place| self.strike(&texts, place))?;
        } else {
            for _ in 0..5 {
                let place = self.random.below(length);
                self.strike(&texts, place)?;
            }
        }
        for _ in 0..if texts.tasks.is_empty() { 0 } else { 4 } {
            let place = self.random.below(texts.tasks.len());
            self.strike_lines(&texts, place)?;
        }
        Ok(())
    }

    fn strike(&mut self, texts: &Texts, place: usize) -> Result<(), String> {
        for blow in blows(&mut self.random) {
            let policy = struck(&texts.policy, place, blow);
            let tasks = texts.tasks.clone();
            self.check(&Texts { policy, tasks })?;
        }
        Ok(())
    }

    fn strike_lines(&mut self, texts: &Texts, place: usize) -> Result<(), String> {
        for blow in blows(&mut self.random) {
            let tasks = struck(&texts.tasks, place, blow);
            let policy = texts.policy.clone();
            self.check(&Texts { policy, tasks })?;
        }
        Ok(())
    }
}

/// Compares at least `texts` texts of Ask 4's sections; one case of 64 is damaged at each byte.
pub fn run(readers: &[Reader], seed: u64, texts: u64) -> Result<Met, String> {
    run_sections(readers, seed, texts, Sections::Asked)
}

/// As `run`, for these sections.
pub fn run_sections(
    readers: &[Reader],
    seed: u64,
    texts: u64,
    sections: Sections,
) -> Result<Met, String> {
    let mut run = Run::new(readers, seed, sections);
    let mut case = 0;
    while run.met.texts < texts {
        run.case(case % 64 == 0)?;
        case += 1;
    }
    Ok(run.met)
}
