//! All measurements of a run: the time of every workload, the stack that calls use, and the size of the state.

use crate::race::{Race, CHECKED, FLAT, INDEX, LISTS, PROVED};
use crate::reading::{reading_stack, readings, Reading};
use crate::workloads::{checks, day, day_among, load, Workload};
use crate::{kinds, stack};
use differential::proved;

/// How often each workload is measured. Noise on a machine comes in phases, so every sweep measures every workload once.
#[derive(Clone, Copy, PartialEq, Eq)]
pub struct Effort {
    /// The number of sweeps over all workloads.
    pub sweeps: usize,
    /// The number of passes of each engine in a sweep.
    pub passes: usize,
}

impl Effort {
    /// The effort for the figures of docs/BENCH.md.
    pub const FULL: Effort = Effort {
        sweeps: 40,
        passes: 10,
    };
    /// Enough to see that all replies agree.
    pub const QUICK: Effort = Effort {
        sweeps: 1,
        passes: 2,
    };

    /// How often each engine runs each stream.
    pub fn repeats(self) -> usize {
        self.sweeps * self.passes
    }
}

/// The best times of one workload, in nanoseconds a record.
#[derive(Clone)]
pub struct Line {
    pub name: String,
    pub records: usize,
    /// How many of them are granted.
    pub granted: usize,
    pub proved: Option<f64>,
    pub lists: f64,
    pub index: f64,
    pub flat: Option<f64>,
}

/// Workloads that differ in one number.
pub struct Growth {
    pub counts: Vec<usize>,
    pub lines: Vec<Line>,
}

/// The most stack that calls of the proved library use, in bytes.
pub struct Stack {
    pub load: usize,
    pub requests: usize,
}

/// All figures of the page.
pub struct Figures {
    /// The main table.
    pub main: Vec<Line>,
    /// How times grow with the number of entries of other orders.
    pub entries: Growth,
    /// How times grow with the number of permissions.
    pub permissions: Growth,
    /// A line for each kind of request.
    pub kinds: Vec<Line>,
    /// Requests in piles, if the library has that call; each line follows the line of the same requests in single calls.
    pub piles: Vec<Line>,
    /// Requests by the call that accepts any content of the state, if the library has a separate call for settled states.
    pub checked: Vec<Line>,
    /// A line for each text of OPL/XML.
    pub readings: Vec<Reading>,
    /// The stack, if the library is linked.
    pub stack: Option<Stack>,
    /// The stack that reading OPL/XML uses, if the library is linked.
    pub reading_stack: Option<usize>,
    /// The sizes of the three lent buffers, in bytes.
    pub state: Option<[usize; 3]>,
}

/// The numbers in which the growing workloads differ.
const ENTRIES: [usize; 3] = [10, 100, 1000];
const PERMISSIONS: [u16; 3] = [16, 64, 256];

fn line(race: &Race) -> Line {
    let best = race.best();
    let of = |engine| {
        best.iter()
            .find(|b| b.engine == engine)
            .map(|b| b.nanoseconds)
    };
    let refused = race.replies().iter().filter(|&&reply| reply != 0).count();
    let records = race.workload.length();
    Line {
        name: race.workload.name.clone(),
        records,
        granted: records - refused,
        proved: of(PROVED).or(of(CHECKED)),
        lists: of(LISTS).expect("the plain engine always takes part"),
        index: of(INDEX).expect("the engine with the perfect index always takes part"),
        flat: of(FLAT),
    }
}

/// The lines of all workloads, in order; an error if two engines disagree.
fn race_all(workloads: &[Workload], effort: Effort) -> Result<Vec<Line>, String> {
    let mut races = workloads
        .iter()
        .map(Race::new)
        .collect::<Result<Vec<Race>, String>>()?;
    for _ in 0..effort.sweeps {
        for race in &mut races {
            race.run(effort.passes)?;
        }
    }
    Ok(races.iter().map(line).collect())
}

fn stack(workloads: &[Workload]) -> Option<Stack> {
    let mut desk = proved()?;
    let mut most = Stack {
        load: 0,
        requests: 0,
    };
    for workload in workloads {
        let policy = workload.policy_bytes();
        let loading = stack::used_by(|| {
            desk.load(&policy);
        });
        let requests = workload.requests();
        let mut replies = vec![0; requests.len()];
        let asking = stack::used_by(|| desk.answer_all(&requests, &mut replies));
        most.load = most.load.max(loading);
        most.requests = most.requests.max(asking);
    }
    Some(most)
}

#[cfg(mishantral_engine)]
fn state() -> Option<[usize; 3]> {
    let state = mishantral::State::zeroed();
    let buffers = [&state.policy, &state.sessions, &state.orders];
    Some(buffers.map(|words| std::mem::size_of_val(&words[..])))
}

#[cfg(not(mishantral_engine))]
fn state() -> Option<[usize; 3]> {
    None
}

/// Every workload, in the order of the page.
fn workloads() -> Vec<Workload> {
    let mut all = vec![day(), load()];
    all.extend(ENTRIES.map(day_among));
    all.extend(PERMISSIONS.map(checks));
    all.extend(kinds());
    if piled() {
        all.extend([checks(256).in_piles(), day().in_piles()]);
    }
    if differential::SETTLED {
        let (checks, growth) = (checks(256), ENTRIES.map(day_among));
        let streams = [checks, day()].into_iter().chain(growth);
        all.extend(streams.map(Workload::of_any_content));
    }
    all
}

/// Whether piles are timed: a library without a call for them has nothing to time.
fn piled() -> bool {
    differential::PILED || !differential::PROVED
}

/// The lines of the workloads whose names contain these words.
pub fn only(words: &str, effort: Effort) -> Result<Vec<Line>, String> {
    let mut chosen = workloads();
    chosen.retain(|workload| workload.name.contains(words));
    if chosen.is_empty() {
        return Err(format!("no stream has {words:?} in its name"));
    }
    race_all(&chosen, effort)
}

impl Figures {
    /// Measures everything.
    pub fn measure(effort: Effort) -> Result<Figures, String> {
        let workloads = workloads();
        let mut lines = race_all(&workloads, effort)?.into_iter();
        let mut take = |count| lines.by_ref().take(count).collect::<Vec<Line>>();
        let mut main = take(2);
        let entries = Growth {
            counts: ENTRIES.to_vec(),
            lines: take(ENTRIES.len()),
        };
        let permissions = Growth {
            counts: PERMISSIONS.map(usize::from).to_vec(),
            lines: take(PERMISSIONS.len()),
        };
        main.splice(..0, permissions.lines.last().cloned());
        let kinds = take(kinds().len());
        let alone = main[..2].iter().cloned();
        let piled = take(if piled() { 2 } else { 0 });
        let piles = alone.zip(piled).flat_map(|(alone, piled)| [alone, piled]);
        Ok(Figures {
            piles: piles.collect(),
            checked: take(workloads.len()),
            main,
            entries,
            permissions,
            kinds,
            readings: readings(effort)?,
            stack: stack(&workloads),
            reading_stack: reading_stack(),
            state: state(),
        })
    }
}
