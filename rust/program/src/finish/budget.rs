//! What a search may take: claims tried, time, memory. A served desk gives each question little of them, ends it when its client has gone,
//! and lets requests go first.

use std::cell::Cell;
use std::sync::atomic::{AtomicBool, AtomicU64, Ordering};
use std::sync::Arc;
use std::time::{Duration, Instant};

/// What is spent.
#[derive(Clone, Copy, PartialEq, Eq, Debug)]
pub enum Spent {
    Tries,
    /// So many seconds.
    Time(u64),
    /// So many bytes.
    Room(usize),
    /// Nobody waits for the answer any more.
    Gone,
    /// There are too few free subjects for all who would have to sign in.
    Subjects,
}

/// How long a search works before it looks whether others are at work, and how often as long it rests then.
const SLICE: Duration = Duration::from_millis(2);
const RESTS: u32 = 4;

pub struct Budget {
    /// How many claims are tried at most.
    pub tries: u64,
    /// When it is over, and how many seconds it has.
    until: Option<(Instant, u64)>,
    /// How many bytes a search may keep of where it stood.
    room: usize,
    gone: Option<Arc<AtomicBool>>,
    /// How many requests the desks have answered: where it rises, a search rests.
    answered: Option<Arc<AtomicU64>>,
    slice: Cell<(Instant, u64)>,
}

impl Budget {
    pub fn of_tries(tries: u64) -> Budget {
        Budget {
            tries,
            until: None,
            room: usize::MAX,
            gone: None,
            answered: None,
            slice: Cell::new((Instant::now(), 0)),
        }
    }

    /// The budget of a question to a served desk.
    pub fn of_question(
        tries: u64,
        seconds: u64,
        room: usize,
        gone: Arc<AtomicBool>,
        answered: Arc<AtomicU64>,
    ) -> Budget {
        let now = Instant::now();
        let count = answered.load(Ordering::Relaxed);
        Budget {
            tries,
            until: Some((now + Duration::from_secs(seconds), seconds)),
            room,
            gone: Some(gone),
            answered: Some(answered),
            slice: Cell::new((now, count)),
        }
    }

    /// What is spent, of a search that keeps that many bytes. It is asked often, and rests where others are at work.
    pub fn spent(&self, kept: usize) -> Option<Spent> {
        if kept > self.room {
            return Some(Spent::Room(self.room));
        }
        if let Some((until, seconds)) = self.until {
            self.rested();
            if Instant::now() >= until {
                return Some(Spent::Time(seconds));
            }
        }
        let gone = |gone: &Arc<AtomicBool>| gone.load(Ordering::Relaxed);
        self.gone.as_ref().is_some_and(gone).then_some(Spent::Gone)
    }

    fn rested(&self) {
        let (began, before) = self.slice.get();
        let Some(answered) = &self.answered else {
            return;
        };
        if began.elapsed() < SLICE {
            return;
        }
        if answered.load(Ordering::Relaxed) != before {
            std::thread::sleep(SLICE * RESTS);
        }
        self.slice
            .set((Instant::now(), answered.load(Ordering::Relaxed)));
    }
}

/// How many claims are tried between two looks at the budget.
const BETWEEN: u64 = 16;

/// What a search has taken so far.
pub struct Meter<'a> {
    pub tries: u64,
    bound: u64,
    budget: &'a Budget,
    /// How many bytes it keeps.
    pub kept: usize,
}

impl<'a> Meter<'a> {
    pub fn new(bound: u64, budget: &'a Budget) -> Meter<'a> {
        Meter {
            tries: 0,
            bound,
            budget,
            kept: 0,
        }
    }

    /// One claim more.
    pub fn one(&mut self) -> Result<(), Spent> {
        self.tries += 1;
        if self.tries > self.bound {
            return Err(Spent::Tries);
        }
        let look = self.tries.is_multiple_of(BETWEEN);
        match look.then(|| self.budget.spent(self.kept)).flatten() {
            Some(spent) => Err(spent),
            None => Ok(()),
        }
    }
}

#[cfg(test)]
mod tests {
    use super::*;

    #[test]
    fn a_question_ends_by_time_memory_or_when_nobody_waits() {
        let (gone, answered) = (Arc::new(AtomicBool::new(false)), Arc::default());
        let budget =
            |seconds| Budget::of_question(9, seconds, 1000, gone.clone(), Arc::clone(&answered));
        let some = budget(60);
        assert_eq!(some.spent(1000), None);
        assert_eq!(some.spent(1001), Some(Spent::Room(1000)));
        assert_eq!(budget(0).spent(0), Some(Spent::Time(0)));
        gone.store(true, Ordering::Relaxed);
        assert_eq!(some.spent(0), Some(Spent::Gone));
        assert_eq!(Budget::of_tries(9).spent(usize::MAX), None);
    }

    #[test]
    fn a_question_rests_while_others_are_answered() {
        let answered = Arc::new(AtomicU64::new(0));
        let budget = Budget::of_question(9, 60, 1000, Arc::default(), answered.clone());
        std::thread::sleep(SLICE);
        answered.fetch_add(1, Ordering::Relaxed);
        let began = Instant::now();
        assert_eq!(budget.spent(0), None);
        assert!(began.elapsed() >= SLICE * RESTS);
        std::thread::sleep(SLICE);
        let began = Instant::now();
        assert_eq!(budget.spent(0), None);
        assert!(began.elapsed() < SLICE * RESTS);
    }
}
