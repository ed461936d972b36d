//! The workloads: a policy, the requests before the measurement, and the stream of records that is timed.
//! Every stream leaves the tables as it found them, so that it can be repeated.

use crate::numbers::grouped;
use crate::orders;
use crate::policies::*;
use random::Random;
use records::{Record, Set};

/// One seed for all workloads, so that every run of the program times the same records.
const SEED: u64 = 56;
pub(crate) const LENGTH: usize = 4096;
/// How many orders are worked on while the ledger grows; the other orders have the entries.
pub(crate) const WORKED_ON: u16 = 8;

/// What is timed.
pub enum Timed {
    /// The load of the policy.
    Load,
    /// Requests.
    Requests(Vec<Record>),
    /// Requests in piles of 4,096.
    Piles(Vec<Record>),
    /// Requests by the call that accepts any content of the state.
    Checked(Vec<Record>),
}

/// A stream of records that is timed, and what comes before it.
pub struct Workload {
    /// Its name in the tables.
    pub name: String,
    /// The policy that is loaded first, or timed.
    pub policy: Vec<Record>,
    /// Requests before the timed ones, all of which are granted.
    pub setup: Vec<Record>,
    /// What is timed.
    pub timed: Timed,
}

impl Workload {
    /// How many records a pass has.
    pub fn length(&self) -> usize {
        match &self.timed {
            Timed::Load => self.policy.len(),
            Timed::Requests(stream) | Timed::Piles(stream) | Timed::Checked(stream) => stream.len(),
        }
    }

    /// The same workload with its requests in piles.
    pub fn in_piles(self) -> Workload {
        let timed = match self.timed {
            Timed::Requests(stream) => Timed::Piles(stream),
            timed => timed,
        };
        Workload {
            name: format!("{}, in piles", self.name),
            timed,
            ..self
        }
    }

    /// The same workload by the call that accepts any content of the state.
    pub fn of_any_content(self) -> Workload {
        let timed = match self.timed {
            Timed::Requests(stream) => Timed::Checked(stream),
            timed => timed,
        };
        Workload {
            name: format!("{}, any content", self.name),
            timed,
            ..self
        }
    }

    /// Whether a timed request depends on entries.
    pub fn asks_entries(&self) -> bool {
        let kinds = [33, 41, 49, 50, 51, 52, 57];
        match &self.timed {
            Timed::Load => false,
            Timed::Requests(stream) | Timed::Piles(stream) | Timed::Checked(stream) => {
                stream.iter().any(|r| kinds.contains(&r.kind()))
            }
        }
    }

    /// The policy's bytes.
    pub fn policy_bytes(&self) -> Vec<u8> {
        self.policy.iter().flat_map(|record| record.0).collect()
    }

    /// All requests, including the setup.
    pub fn requests(&self) -> Vec<Record> {
        match &self.timed {
            Timed::Load => self.setup.clone(),
            Timed::Requests(stream) | Timed::Piles(stream) | Timed::Checked(stream) => {
                [&self.setup[..], stream].concat()
            }
        }
    }
}

/// The workload that loads 4,096 records.
pub fn load() -> Workload {
    Workload {
        name: String::from("load of 4,096 records"),
        policy: largest(&mut Random::new(SEED)),
        setup: Vec::new(),
        timed: Timed::Load,
    }
}

fn set_of(roles: &[u16]) -> Set {
    let with = |set: Set, &role: &u16| set.with(role as u8);
    roles.iter().fold(Set::EMPTY, with)
}

/// Access checks: some are granted, some denied, and a tenth are for a pair that is not declared.
pub fn checks(permissions: u16) -> Workload {
    let mut random = Random::new(SEED);
    let people = People::new(&mut random, permissions);
    let active = |s: u16| &people.roles_of[usize::from(s)][..1 + usize::from(s % 3)];
    let create = |s| Record::create_subject(s, user_of(s), set_of(active(s)));
    let setup = (0..SUBJECTS).map(create).collect();
    let stream = (0..LENGTH).map(|_| {
        let subject = random.below(usize::from(SUBJECTS)) as u16;
        let (operation, object) = match random.below(10) {
            0 => (random.word() as u16, random.word() as u16),
            1..=4 => random.pick(&people.pairs),
            _ => {
                let role = random.pick(active(subject));
                let permission = random.pick(&people.permissions_of[usize::from(role)]);
                people.pairs[usize::from(permission)]
            }
        };
        Record::check(subject, operation, object)
    });
    let stream = stream.collect();
    Workload {
        name: format!("checks, {permissions} permissions"),
        policy: people.policy.records,
        setup,
        timed: Timed::Requests(stream),
    }
}

/// The clerks' subjects below `live`.
pub(crate) fn clerks(live: u16) -> Vec<Record> {
    let create = |subject| {
        let roles: &[u16] = match is_guest(subject) {
            true => &[GUEST],
            false => &[CLERK, CASHIER],
        };
        Record::create_subject(subject, user_of(subject), set_of(roles))
    };
    (0..live).map(create).collect()
}

/// A subject that is not a guest.
pub(crate) fn a_clerk(number: usize) -> u16 {
    let subject = (number % 96) as u16;
    subject - u16::from(is_guest(subject))
}

/// This number of done entries, spread over the orders that are not worked on.
pub(crate) fn entries(count: usize) -> Vec<Record> {
    let others = (WORKED_ON..64).take(count.min(56));
    let spread = others.clone().cycle().take(count).enumerate();
    let open = others.map(|order| Record::open_order(order, LOG));
    let work = spread.flat_map(|(number, order)| {
        let subject = a_clerk(number);
        let claim = Record::claim(subject, order, LOG_TASK);
        [claim, Record::done(subject, order, LOG_TASK)]
    });
    open.chain(work).collect()
}

/// A day of a desk with 64 orders.
pub fn day() -> Workload {
    let (policy, setup) = (desk().records, clerks(SUBJECTS));
    let stream = orders::run(SEED, 64, 4 * LENGTH, &policy, &setup);
    Workload {
        name: String::from("orders, 64 side by side"),
        policy,
        setup,
        timed: Timed::Requests(stream),
    }
}

/// The same day with eight orders, while other orders have this number of entries.
pub fn day_among(count: usize) -> Workload {
    let (policy, setup) = (desk().records, [clerks(SUBJECTS), entries(count)].concat());
    let stream = orders::run(SEED, usize::from(WORKED_ON), LENGTH, &policy, &setup);
    Workload {
        name: format!("orders, 8 among {} entries of others", grouped(count)),
        policy,
        setup,
        timed: Timed::Requests(stream),
    }
}
