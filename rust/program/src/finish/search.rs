//! Whether some people can finish an order: every way to give the tasks out is tried, up to a bound. Two questions decide a way, and the engine
//! answers both: which tasks one user may have together, whoever that is (`probe`), and which tasks are open to whom (`people`).
//!
//! So the search builds shares, each the tasks of one clerk who is not named yet, and looks for clerks for all shares together
//! (`seats`). What is left out changes no answer, by the rules of claims (docs/RULES.md):
//! - all of them but BEFORE are about the entries that there are, and an entry more never makes a refused claim a granted one. So a task that is
//!   done is not done again, a claim is followed by done at once, and the order in which tasks are done is left to BEFORE, for which the plan is made;
//! - an entry changes what others may claim through bindings alone. Tasks bound together are given out as one;
//! - a rule says users apart by their entries alone. So clerks without an entry are named when the shares are known;
//! - where the search stood before, as far as the rules and clerks that are left can tell, it does not go again.

use super::budget::{Meter, Spent};
use super::people::{Class, People};
use super::probe::Probe;
use super::seats::Seats;
use crate::told::Told;
use records::Set;
use std::collections::{HashMap, HashSet};

/// What one person does.
#[derive(Clone, Debug)]
pub struct Part {
    pub person: usize,
    pub tasks: u64,
    /// The roles that the person has active for it.
    pub roles: u64,
}

/// Where the search came furthest: these tasks, which go together, nobody can take beside what has been given out.
#[derive(Clone, Debug)]
pub struct Dead {
    pub tasks: u64,
    pub left: u64,
    pub parts: Vec<Part>,
}

pub enum Outcome {
    Plan(Vec<Part>),
    Never(Option<Dead>),
    Open(Spent),
}

/// What the search is about: the tasks that are left, and the clerks.
pub struct Task<'a> {
    pub told: &'a Told,
    pub template: u16,
    /// All tasks of the template, and those that are not done.
    pub tasks: u64,
    pub left: u64,
    pub people: &'a People,
    /// How many of each class may be asked, and how many clerks may be at work.
    pub counts: &'a [usize],
    pub most: usize,
}

/// The tasks of one clerk.
#[derive(Clone)]
struct Share {
    /// Who stands for the clerk in the probe.
    user: u16,
    /// The class of a clerk who has entries already.
    fixed: Option<usize>,
    units: u64,
    /// The units that the rules leave to it, and those that some clerk for all of it has open.
    allowed: u64,
    able: u64,
    /// The skills that have all of it, by a number of their list: what is left to its clerk depends on them.
    fits: u32,
}

pub struct Search<'a, 'b> {
    task: Task<'a>,
    /// Tasks that go together, as they are bound.
    units: Vec<u64>,
    /// For each unit, the units that a task set or a partitioning names with it.
    near: Vec<u64>,
    banned: bool,
    /// The units that each skill of each class opens whole.
    skills: Vec<Vec<u64>>,
    strangers: Vec<u16>,
    seats: Seats,
    failed: HashSet<Vec<u64>>,
    lists: HashMap<Vec<u32>, u32>,
    /// How often the search ended at a unit: such units are given out early.
    weight: Vec<u64>,
    dead: Option<(Dead, u32)>,
    pub meter: &'a mut Meter<'b>,
}

/// Tasks that bindings hold together.
fn units(told: &Told, left: u64) -> Vec<u64> {
    let mut units: Vec<u64> = Set(left).members().map(|task| 1 << task).collect();
    for (_, rule) in told.rules_of(15) {
        let both = 1u64 << rule.a() | 1 << rule.b();
        let (meet, mut apart): (Vec<u64>, Vec<u64>) =
            units.into_iter().partition(|unit| unit & both != 0);
        apart.extend(meet.into_iter().reduce(|one, other| one | other));
        units = apart;
    }
    units.sort();
    units
}

/// For each unit those that some task set or partitioning has beside it.
fn near(told: &Told, units: &[u64]) -> Vec<u64> {
    let sets = told.rules_of(11).map(|(_, rule)| rule.m());
    let mut rules: Vec<u64> = sets.collect();
    for partitioning in 0..16 {
        let blocks = told.rules_of(12).filter(|(_, b)| b.a() == partitioning);
        rules.push(blocks.fold(0, |all, (_, block)| all | block.m()));
    }
    let named = |rule: u64| {
        let met = units
            .iter()
            .enumerate()
            .filter(|(_, unit)| *unit & rule != 0);
        met.fold(0u64, |all, (place, _)| all | 1 << place)
    };
    let named: Vec<u64> = rules.into_iter().map(named).collect();
    let beside = |place: usize| {
        let with = named.iter().filter(|rule| *rule & 1 << place != 0);
        with.fold(0, |all, rule| all | rule)
    };
    (0..units.len()).map(beside).collect()
}

impl<'a, 'b> Search<'a, 'b> {
    pub fn new(task: Task<'a>, meter: &'a mut Meter<'b>) -> Search<'a, 'b> {
        let units = units(task.told, task.left);
        let whole = |opens: u64| {
            let open = units
                .iter()
                .enumerate()
                .filter(|(_, unit)| *unit & !opens == 0);
            open.fold(0u64, |all, (place, _)| all | 1 << place)
        };
        let skills = |class: &Class| class.skills.iter().map(|s| whole(s.opens)).collect();
        let skills: Vec<Vec<u64>> = task.people.classes.iter().map(skills).collect();
        let mut bans = task.told.rules_of(13);
        Search {
            near: near(task.told, &units),
            banned: bans.any(|(_, ban)| ban.a() == task.template),
            seats: Seats::of(&task.people.classes, task.counts, &skills),
            skills,
            weight: vec![1; units.len()],
            units,
            task,
            strangers: Vec::new(),
            failed: HashSet::new(),
            lists: HashMap::new(),
            dead: None,
            meter,
        }
    }

    pub fn run(&mut self, probe: Probe, strangers: Vec<u16>) -> Outcome {
        self.strangers = strangers;
        match self.begun(probe) {
            Ok(Some(parts)) => Outcome::Plan(parts),
            Ok(None) => Outcome::Never(self.dead.take().map(|(dead, _)| dead)),
            Err(spent) => Outcome::Open(spent),
        }
    }

    fn begun(&mut self, mut probe: Probe) -> Result<Option<Vec<Part>>, Spent> {
        let all = match self.units.len() {
            64 => u64::MAX,
            some => (1 << some) - 1,
        };
        let mut shares = Vec::new();
        for (place, class) in self.task.people.classes.iter().enumerate() {
            if class.has == 0 || self.task.counts[place] == 0 {
                continue;
            }
            let user = self.task.people.all[class.people[0]].user;
            let allowed = probe.allowed(user, &self.units, all, self.meter)?;
            let able = self.skills[place]
                .iter()
                .fold(0, |able, skill| able | skill);
            shares.push(Share {
                user,
                fixed: Some(place),
                units: 0,
                allowed,
                able,
                fits: 0,
            });
        }
        let allowed = match self.strangers.first() {
            Some(&user) => probe.allowed(user, &self.units, all, self.meter)?,
            None => 0,
        };
        let new = Share {
            user: 0,
            fixed: None,
            units: 0,
            allowed,
            able: self.seats.able(0),
            fits: 0,
        };
        self.given_out(&probe, shares, &new, Seats::none(), all)
    }

    fn tasks_of(&self, units: u64) -> u64 {
        let members = Set(units).members().map(usize::from);
        members.fold(0, |all, unit| all | self.units[unit])
    }

    /// Where the search stands, as far as what is left can tell.
    fn standing(&self, shares: &[Share], left: u64) -> Vec<u64> {
        let members = Set(left).members().map(usize::from);
        let touched = members.fold(0, |all, unit| all | self.near[unit]);
        let tasks = self.tasks_of(left);
        let mut all: Vec<[u64; 2]> = Vec::with_capacity(shares.len());
        for share in shares.iter().filter(|share| share.units != 0) {
            let has = share
                .fixed
                .map_or(0, |class| self.task.people.classes[class].has);
            let has = has | self.tasks_of(share.units);
            // A lone worker is one who can still come to have every task.
            let alone = self.banned && self.task.tasks & !(has | tasks) == 0;
            let seen = if alone {
                share.units
            } else {
                share.units & touched
            };
            let who = share.fixed.map_or(0, |class| class as u64 + 1);
            all.push([seen, u64::from(share.fits) << 16 | who]);
        }
        all.sort_unstable();
        let mut standing = vec![left];
        standing.extend(all.into_iter().flatten());
        standing
    }

    /// The unit to give out next, few ways and many failures first; and how many ways there are for it.
    fn next(&self, shares: &[Share], new: &Share, left: u64) -> (usize, u64) {
        let at_work = shares.iter().filter(|share| share.units != 0).count();
        let more = at_work < self.task.most;
        let mut best: Option<(usize, u64)> = None;
        for unit in Set(left).members().map(usize::from) {
            let bit = 1 << unit;
            let open = |share: &&Share| {
                share.allowed & share.able & bit != 0 && (share.units != 0 || more)
            };
            let ways = shares.iter().filter(open).count() as u64;
            let ways = ways + u64::from(more && new.allowed & new.able & bit != 0);
            let better = best
                .is_none_or(|(than, fewest)| ways * self.weight[than] < fewest * self.weight[unit]);
            if better {
                best = Some((unit, ways));
            }
            if ways == 0 {
                break;
            }
        }
        best.unwrap_or((0, 0))
    }

    /// Gives out the units that are left.
    fn given_out(
        &mut self,
        probe: &Probe,
        shares: Vec<Share>,
        new: &Share,
        seated: Vec<usize>,
        left: u64,
    ) -> Result<Option<Vec<Part>>, Spent> {
        if left == 0 {
            return Ok(Some(self.parts(&shares, &seated)));
        }
        let standing = self.standing(&shares, left);
        if self.failed.contains(&standing) {
            return Ok(None);
        }
        let (unit, ways) = self.next(&shares, new, left);
        let mut tried = 0;
        for place in self
            .order(&shares, new, unit, left)
            .into_iter()
            .take(ways as usize)
        {
            let Some(more) = self.given(&shares, new, &seated, unit, place) else {
                continue;
            };
            let (mut shares, place, seated) = more;
            tried += 1;
            let left = left & !(1 << unit);
            let user = shares[place].user;
            let Some(mut after) = probe.taken(user, self.units[unit]) else {
                continue;
            };
            let asked = shares[place].allowed & shares[place].able & left;
            shares[place].allowed = after.allowed(user, &self.units, asked, self.meter)?;
            let found = self.given_out(&after, shares, new, seated, left)?;
            if found.is_some() {
                return Ok(found);
            }
        }
        if tried == 0 {
            self.weight[unit] += 1;
            self.keep(unit, &shares, &seated, left);
        }
        self.meter.kept += 64 + 8 * standing.len();
        self.failed.insert(standing);
        Ok(None)
    }

    /// The places of the shares that a unit may go to; one past the last is a share more. Where there are clerks for every unit, a clerk
    /// more is tried first: what is each in other hands no separation minds.
    fn order(&self, shares: &[Share], new: &Share, unit: usize, left: u64) -> Vec<usize> {
        let at_work = shares.iter().filter(|share| share.units != 0).count();
        let more = at_work < self.task.most;
        let bit = 1 << unit;
        let open = |share: &Share| share.allowed & share.able & bit != 0;
        let some = shares.iter().enumerate();
        let some = some.filter(|(_, share)| open(share) && (share.units != 0 || more));
        let mut places: Vec<usize> = some.map(|(place, _)| place).collect();
        let people: usize = self.task.counts.iter().sum();
        let plenty = people.min(self.task.most) >= at_work + left.count_ones() as usize;
        if more && open(new) {
            match plenty {
                true => places.insert(0, shares.len()),
                false => places.push(shares.len()),
            }
        }
        places
    }

    /// The shares with a unit more in one of them, where there are clerks for all of them.
    fn given(
        &mut self,
        shares: &[Share],
        new: &Share,
        seated: &[usize],
        unit: usize,
        place: usize,
    ) -> Option<(Vec<Share>, usize, Vec<usize>)> {
        let mut shares = shares.to_vec();
        let mut seated = seated.to_vec();
        if place == shares.len() {
            let strangers = shares.iter().filter(|share| share.fixed.is_none()).count();
            shares.push(Share {
                user: *self.strangers.get(strangers)?,
                ..new.clone()
            });
        }
        seated.resize(shares.len(), Seats::STANDS);
        let share = &mut shares[place];
        share.units |= 1 << unit;
        let units = share.units;
        match share.fixed {
            Some(class) => {
                let skills = self.skills[class].iter().enumerate();
                let fitting = skills.filter(|(_, skill)| units & !**skill == 0);
                let (list, opens): (Vec<u32>, Vec<u64>) =
                    fitting.map(|(at, &skill)| (at as u32, skill)).unzip();
                share.able = opens.into_iter().fold(0, |able, skill| able | skill);
                share.fits = self.listed(list);
                (share.able != 0).then_some(())?;
            }
            None => {
                share.able = self.seats.able(units);
                share.fits = self.listed(self.seats.fitting(units));
                let wants: Vec<Option<u64>> = shares
                    .iter()
                    .map(|share| share.fixed.is_none().then_some(share.units))
                    .collect();
                self.seats.seat(&wants, &mut seated, place).then_some(())?;
            }
        }
        Some((shares, place, seated))
    }

    /// The number of a list of those who fit: the same list, the same number.
    fn listed(&mut self, list: Vec<u32>) -> u32 {
        let next = self.lists.len() as u32;
        self.meter.kept += 4 * list.len();
        *self.lists.entry(list).or_insert(next)
    }

    /// Who does what: the clerks of each class are taken as they come.
    fn parts(&self, shares: &[Share], seated: &[usize]) -> Vec<Part> {
        let mut used = vec![0; self.task.people.classes.len()];
        let mut parts = Vec::new();
        for (place, share) in shares.iter().enumerate() {
            if share.units == 0 {
                continue;
            }
            let class = share.fixed.unwrap_or_else(|| seated[place]);
            let skills = self.skills[class].iter();
            let skill = skills.clone().position(|skill| share.units & !skill == 0);
            let of = &self.task.people.classes[class];
            let person = of.people[used[class]];
            used[class] += 1;
            parts.push(Part {
                person,
                tasks: self.tasks_of(share.units),
                roles: skill.map_or(0, |skill| of.skills[skill].roles),
            });
        }
        parts
    }

    /// Keeps where nobody can go on, where fewer tasks are left than where it was kept before.
    fn keep(&mut self, unit: usize, shares: &[Share], seated: &[usize], left: u64) {
        let over = self.tasks_of(left);
        let count = over.count_ones();
        if self.dead.as_ref().is_some_and(|(_, least)| *least <= count) {
            return;
        }
        let dead = Dead {
            tasks: self.units[unit],
            left: over,
            parts: self.parts(shares, seated),
        };
        self.dead = Some((dead, count));
    }
}
