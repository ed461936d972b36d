//! One hold: an order that lies, from a task that is done to the next one. Its time is split into parts, which add up to it exactly.

use super::calendar::Zone;

/// Why an order lay during some of its time. At each moment it is exactly one of these.
#[derive(Clone, Copy, PartialEq, Eq, PartialOrd, Ord, Debug)]
pub enum Part {
    /// Some were signed in, and the engine would have refused the claim of each.
    Nobody,
    /// The engine would have granted the claim of somebody who was signed in.
    Somebody,
    /// Nobody was signed in.
    Absent,
    /// Somebody held the task: with `--end done`, or where the claim was released later.
    Held,
    /// It lay on the desk that this one was moved from, whose journal says more.
    Before,
}

/// How many parts there are.
pub const PARTS: usize = Part::ALL.len();

impl Part {
    pub const ALL: [Part; 5] = [
        Part::Nobody,
        Part::Somebody,
        Part::Absent,
        Part::Held,
        Part::Before,
    ];

    pub fn words(self) -> &'static str {
        match self {
            Part::Nobody => "nobody could",
            Part::Somebody => "somebody could",
            Part::Absent => "nobody signed in",
            Part::Held => "held",
            Part::Before => "before the move",
        }
    }

    /// Its name in CSV and JSON.
    pub fn key(self) -> &'static str {
        match self {
            Part::Nobody => "nobody_could",
            Part::Somebody => "somebody_could",
            Part::Absent => "nobody_signed_in",
            Part::Held => "held",
            Part::Before => "before_move",
        }
    }
}

/// How a hold ended.
#[derive(Clone, Copy, PartialEq, Eq, Debug)]
pub enum Ended {
    /// The second task was claimed, or done where that is measured.
    Reached,
    /// It lies at the end of the journal.
    Lying,
    /// The order was ended before.
    Unclaimed,
}

/// A hold that is over, or that lasts to the end of the journal. Times are microseconds since 1970.
#[derive(Clone, Copy, PartialEq, Eq, Debug)]
pub struct Hold {
    /// The request that opened the order: order numbers come again, and this does not.
    pub opening: i64,
    pub order: u16,
    /// Which pair of tasks.
    pub pair: usize,
    pub start: i64,
    pub end: i64,
    /// Who claimed the second task.
    pub clerk: Option<u16>,
    pub ended: Ended,
    /// By `Part`.
    pub parts: [i64; PARTS],
}

impl Hold {
    pub fn length(&self) -> i64 {
        self.end - self.start
    }
}

/// What a claim was refused with, or would have been: the reply, the rule's place, and the task.
#[derive(Clone, Copy, PartialEq, Eq, PartialOrd, Ord, Debug)]
pub struct Refusal {
    pub reply: u8,
    pub place: u16,
    pub task: u16,
}

/// How an order stands between two changes of the desk.
#[derive(Clone, Debug)]
pub struct View {
    pub part: Part,
    /// Those whose claim would be granted, each user once.
    pub could: Vec<u16>,
    /// Where nobody could: what each would be answered, each user with each answer once.
    pub met: Vec<(Refusal, u16)>,
}

impl View {
    /// The task is held.
    pub fn held() -> View {
        View::of(Part::Held)
    }

    /// The order lay on the desk before the move.
    pub fn before() -> View {
        View::of(Part::Before)
    }

    fn of(part: Part) -> View {
        View {
            part,
            could: Vec::new(),
            met: Vec::new(),
        }
    }
}

/// Sums by key, for few keys.
pub type Sums<K> = Vec<(K, i64)>;

pub fn add<K: PartialEq>(sums: &mut Sums<K>, key: K, more: i64) {
    match sums.iter_mut().find(|(of, _)| *of == key) {
        Some((_, sum)) => *sum += more,
        None => sums.push((key, more)),
    }
}

/// Who could and which rules stood in the way, for how long; and which claims were refused meanwhile.
#[derive(Clone, Default, Debug)]
pub struct Detail {
    pub could: Sums<u16>,
    pub met: Sums<(Refusal, u16)>,
    pub refused: Sums<(Refusal, Option<u16>)>,
    /// The time by part and hour of the day.
    pub hours: [[i64; 24]; PARTS],
}

/// A hold under way.
#[derive(Clone, Debug)]
pub struct Lie {
    pub start: i64,
    /// The request by which it began.
    pub request: i64,
    /// Up to here its time is split.
    pub since: i64,
    pub parts: [i64; PARTS],
    pub detail: Detail,
}

impl Lie {
    pub fn new(start: i64, request: i64) -> Lie {
        Lie {
            start,
            request,
            since: start,
            parts: [0; PARTS],
            detail: Detail::default(),
        }
    }

    /// Adds the time up to `at`, all of which is as the view says.
    pub fn until(&mut self, at: i64, view: &View, zone: Zone) {
        let time = at - self.since;
        if time <= 0 {
            return;
        }
        let part = view.part as usize;
        self.parts[part] += time;
        for &user in &view.could {
            add(&mut self.detail.could, user, time);
        }
        for &met in &view.met {
            add(&mut self.detail.met, met, time);
        }
        zone.by_hour(self.since, at, &mut self.detail.hours[part]);
        self.since = at;
    }
}
