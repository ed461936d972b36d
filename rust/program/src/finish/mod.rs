//! `finish`: whether those signed in, or a list of users, can still finish an order; with a plan whose every step the engine grants on a
//! copy of the state, or why there is none. And `who`: whose claim would be granted now. `check` and `staff` ask the same search.

mod budget;
mod ground;
mod lack;
#[cfg(test)]
pub mod limits;
mod people;
mod plan;
mod probe;
mod search;
mod seats;
mod tell;
#[cfg(test)]
pub mod trials;

pub use budget::{Budget, Meter, Spent};
pub use ground::{Found, Ground, Held};
pub use lack::Lack;
pub use search::Part;
pub use tell::{because, few, finish_all, finish_one, in_short, not_settled, who, Options};

use crate::desk::Desk;
use records::{Record, Set};

/// How many claims are tried at most, where nothing else is said.
pub const TRIES: u64 = 5_000_000;

/// Whom one would need is searched for with this part of the bound for each.
const PART: u64 = 8;

/// Whether an order can be finished.
pub enum Verdict {
    /// These requests finish it.
    Plan(Vec<Record>),
    Never(Why),
    /// What a search may take was spent.
    Open(Spent),
    /// The order is not open.
    Closed,
}

/// Why nobody of those asked for can.
pub enum Why {
    /// Tasks that wait for each other.
    Circle(Vec<u16>),
    /// A task that is held by someone who is not among them.
    Held { task: u16, subject: u16 },
    /// A task that nobody can do.
    Lack(Box<Lack>),
    /// There is nobody.
    Nobody,
    /// The ledger has no entries left for that many tasks.
    Full,
}

/// What is asked.
pub struct Asked<'a> {
    pub desk: &'a Desk,
    pub order: u16,
    pub users: &'a [u16],
    /// How many claims are tried at most.
    pub bound: u64,
    pub budget: &'a Budget,
}

impl Asked<'_> {
    /// The verdict, and how many claims were tried.
    pub fn verdict(&self) -> (Verdict, u64) {
        if !self.desk.told.orders.contains_key(&self.order) {
            return (Verdict::Closed, 0);
        }
        let mut meter = Meter::new(self.bound, self.budget);
        let verdict = match Ground::of(self.desk, self.order, self.users, &mut meter) {
            Ok(ground) => ground.verdict(&mut meter),
            Err(spent) => Verdict::Open(spent),
        };
        (verdict, meter.tries)
    }

    /// The users beside them of whom one more would be enough, those who are alike together; and whether all were settled.
    pub fn needed(&self) -> (Vec<Vec<u16>>, bool) {
        let others = self
            .desk
            .told
            .users
            .keys()
            .filter(|user| !self.users.contains(user));
        let others: Vec<u16> = others.copied().collect();
        let (mut enough, mut settled) = (Vec::new(), true);
        let mut classes: std::collections::BTreeMap<_, Vec<u16>> = Default::default();
        for &user in &others {
            classes.entry(self.alike(user)).or_default().push(user);
        }
        for alike in classes.into_values() {
            let mut users = self.users.to_vec();
            users.push(alike[0]);
            if self.budget.spent(0).is_some() {
                return (enough, false);
            }
            let (verdict, _) = Asked {
                users: &users,
                bound: self.bound / PART,
                ..*self
            }
            .verdict();
            match verdict {
                Verdict::Plan(_) => enough.push(alike),
                Verdict::Open(_) => settled = false,
                _ => {}
            }
        }
        (enough, settled)
    }

    /// What users have in common of whom one is asked for: roles and, where they are signed in or have entries in the order, who they are.
    fn alike(&self, user: u16) -> (u64, Option<u16>) {
        let told = &self.desk.told;
        let here = told.subjects.values().any(|session| session.user == user);
        let mut entries = told.entries(self.order).iter();
        let known = here || entries.any(|entry| entry.user == user);
        (told.roles_of(user).0, known.then_some(user))
    }

    /// The roles of which a new clerk, who is not declared, would be enough.
    pub fn needed_role(&self) -> Vec<u16> {
        let told = &self.desk.told;
        let Some(user) = (0..1024).find(|user| !told.users.contains_key(user)) else {
            return Vec::new();
        };
        let enough = |role: &u8| {
            if self.budget.spent(0).is_some() {
                return false;
            }
            let mut engine = self.desk.engine().clone();
            let add = Record::add_user_with(user, Set::of(&[*role]));
            if !engine.request(&add).is_granted() {
                return false;
            }
            let desk = Desk::at(&self.desk.policy, self.desk.names.clone(), engine);
            let mut users = self.users.to_vec();
            users.push(user);
            let asked = Asked {
                desk: &desk,
                users: &users,
                bound: self.bound / PART,
                ..*self
            };
            matches!(asked.verdict().0, Verdict::Plan(_))
        };
        told.roles.members().filter(enough).map(u16::from).collect()
    }
}
