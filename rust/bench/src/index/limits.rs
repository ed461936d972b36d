//! Static, dynamic and task sets: at most n of their members.

use super::{bit, members};

const MOST: usize = 32;

#[derive(Clone, Copy, PartialEq)]
struct Limit {
    n: u8,
    members: u64,
}

#[derive(Clone)]
pub struct Limits {
    rows: Vec<Limit>,
    /// The sets that contain each role or task, as bits by their place.
    pub having: [u64; 64],
}

impl Limits {
    pub fn empty() -> Limits {
        Limits {
            rows: Vec::with_capacity(MOST),
            having: [0; 64],
        }
    }

    pub fn clear(&mut self) {
        self.rows.clear();
        self.having = [0; 64];
    }

    pub fn has(&self, n: u8, members: u64) -> bool {
        self.rows.contains(&Limit { n, members })
    }

    pub fn full(&self) -> bool {
        self.rows.len() == MOST
    }

    pub fn add(&mut self, n: u8, of: u64) {
        for member in members(of) {
            self.having[member] |= bit(self.rows.len());
        }
        self.rows.push(Limit { n, members: of });
    }

    /// Whether a set is broken that contains one of the `new` roles; `counted` includes the new ones.
    pub fn broken(&self, counted: u64, new: u64) -> bool {
        let asked = members(new).fold(0, |all, role| all | self.having[role]);
        members(asked).any(|place| {
            let limit = self.rows[place];
            exceeds(limit.n, limit.members, counted)
        })
    }

    /// The place, from 1, of the first set with the task that has n or more members in `others`; 0 if there is none.
    pub fn crowded(&self, task: usize, others: u64) -> u32 {
        let crowded = |&place: &usize| {
            let limit = self.rows[place];
            (limit.members & others).count_ones() >= u32::from(limit.n)
        };
        let found = members(self.having[task & 63]).find(crowded);
        found.map_or(0, |place| place as u32 + 1)
    }
}

/// Whether `roles` has more than n of the members.
pub fn exceeds(n: u8, members: u64, roles: u64) -> bool {
    (members & roles).count_ones() > u32::from(n)
}

/// Whether n is not a valid limit for this number of members.
pub fn ill_made(n: u8, members: u64) -> bool {
    n == 0 || u32::from(n) >= members.count_ones()
}
