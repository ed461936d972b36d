//! Which rules clash: where an order cannot be finished, smallest sets of records that together let nobody, the fewest records without which it
//! could be, and whom or what one would need. Every set is tried: an engine is passed the policy without it, and the search of `finish` asks that.

mod kinds;
mod least;
mod more;

pub use kinds::{reason, walls};
pub use least::{least, Demand};
pub use more::{more, Crew, More};

use crate::desk::Desk;
use crate::files::written;
use crate::finish::{Found, Ground, Meter, Spent};
use crate::source::Policy;
use mishantral::Engine;
use records::{Record, LENGTH};
use std::collections::BTreeSet;

/// An order of a desk, and who is to finish it.
#[derive(Clone, Copy)]
pub struct Setting<'a> {
    pub desk: &'a Desk,
    pub order: u16,
    pub users: &'a [u16],
}

/// What stands in the way.
pub struct Clash {
    /// Sets of records, by their places in the policy: each set lets nobody finish, and without any one member of it the rest of it would not.
    pub cores: Vec<Vec<usize>>,
    /// The fewest records without which it can be finished: without all but one of them it cannot.
    pub fewest: Vec<usize>,
    /// Where one record is enough: every such record of the policy.
    pub any: Vec<usize>,
}

/// A record and where it stands: `task set 1 of test sign (policy.txt, line 12)`.
pub fn at(desk: &Desk, place: usize) -> String {
    format!("{} ({})", desk.policy.line(place), desk.policy.place(place))
}

/// A desk at which nothing has happened but that an order of this template was opened.
pub fn begun(policy: &Policy, template: u16) -> Option<Desk> {
    let mut engine = Engine::new();
    engine.load(&policy.bytes).ok()?;
    let opened = engine.request(&Record::open_order(0, template));
    let desk = || Desk::at(policy, policy.names.clone(), engine);
    opened.is_granted().then(desk)
}

/// The desk as it is, under its policy without these records.
pub fn without(desk: &Desk, places: &BTreeSet<usize>) -> Option<Desk> {
    let records = desk.policy.records();
    let gone: Vec<Record> = places
        .iter()
        .filter_map(|&at| records.get(at))
        .copied()
        .collect();
    let now = written(desk.engine()).ok()?;
    let now = now.chunks_exact(LENGTH).filter_map(crate::desk::whole);
    let kept: Vec<Record> = now.filter(|record| !gone.contains(record)).collect();
    let mut engine = Engine::new();
    engine.load_records(&kept).ok()?;
    let mut state = desk.engine().state().clone();
    state.policy = engine.state().policy.clone();
    let policy = desk.policy.keeping(|at| !places.contains(&at));
    Some(Desk::at(
        &policy,
        desk.names.clone(),
        Engine::from_state(state),
    ))
}

impl Setting<'_> {
    /// Whether they can finish the order.
    pub fn finishes(&self, meter: &mut Meter) -> Result<bool, Spent> {
        let ground = Ground::of(self.desk, self.order, self.users, meter)?;
        match ground.found(&ground.people.counts(), usize::MAX, meter) {
            Found::Parts(parts, held) => Ok(ground.plan(&parts, &held).is_some()),
            Found::Never(_) => Ok(false),
            Found::Open(spent) => Err(spent),
        }
    }

    /// The same without these records.
    pub fn finishes_without(
        &self,
        places: &BTreeSet<usize>,
        meter: &mut Meter,
    ) -> Result<bool, Spent> {
        match without(self.desk, places) {
            Some(desk) => Setting {
                desk: &desk,
                ..*self
            }
            .finishes(meter),
            None => Ok(false),
        }
    }

    fn template(&self) -> u16 {
        let order = self.desk.told.orders.get(&self.order);
        order.map_or(0, |order| order.template)
    }

    /// The records that only ever refuse claims of this template: rules about its tasks, and dynamic sets. Without one of them nobody can do less. A
    /// role above another is none of them, since it lets people do more.
    fn rules(&self) -> Vec<usize> {
        let (told, template) = (&self.desk.told, self.template());
        let of = |task: u16| told.tasks.get(&task) == Some(&template);
        let first = |set: u64| of(set.trailing_zeros() as u16);
        let about = |rule: &Record| match rule.kind() {
            10 => true,
            11 | 12 => first(rule.m()),
            13 => rule.a() == template,
            15 | 16 => of(rule.a()),
            _ => false,
        };
        let rules = told.rules.iter().filter(|(_, rule)| about(rule));
        rules.map(|(place, _)| *place).collect()
    }

    /// A smallest part of these rules that still lets nobody finish, with no others: parts of them are left out, large ones first.
    fn core(&self, rules: &[usize], meter: &mut Meter) -> Result<Vec<usize>, Spent> {
        let all: BTreeSet<usize> = self.rules().into_iter().collect();
        let mut kept = rules.to_vec();
        let mut size = kept.len().div_ceil(2).max(1);
        loop {
            let mut at = 0;
            while at < kept.len() {
                let end = (at + size).min(kept.len());
                let some: Vec<usize> = kept[..at].iter().chain(&kept[end..]).copied().collect();
                let gone = all.iter().filter(|place| !some.contains(place));
                match self.finishes_without(&gone.copied().collect(), meter)? {
                    true => at = end,
                    false => kept = some,
                }
            }
            if size == 1 {
                return Ok(kept);
            }
            size = size.div_ceil(2);
        }
    }

    /// What stands in the way of those who cannot finish the order; nothing where it is no rule.
    pub fn clash(&self, meter: &mut Meter) -> Result<Option<Clash>, Spent> {
        let rules = self.rules();
        let all: BTreeSet<usize> = rules.iter().copied().collect();
        if !self.finishes_without(&all, meter)? {
            return Ok(None);
        }
        let (mut cores, mut demands): (Vec<Vec<usize>>, Vec<Demand>) = (Vec::new(), Vec::new());
        loop {
            let Some(taken) = least(&demands, rules.len()) else {
                return Err(Spent::Tries);
            };
            let (gone, stay): (Vec<usize>, Vec<usize>) =
                (0..rules.len()).partition(|&at| taken[at] > 0);
            let places = |some: &[usize]| some.iter().map(|&at| rules[at]).collect::<Vec<usize>>();
            let fewest = places(&gone);
            if self.finishes_without(&fewest.iter().copied().collect(), meter)? {
                let any = match fewest.len() {
                    1 => self.any(&cores, meter)?,
                    _ => Vec::new(),
                };
                return Ok(Some(Clash { cores, fewest, any }));
            }
            let core = self.core(&places(&stay), meter)?;
            let members = (0..rules.len()).filter(|&at| core.contains(&rules[at]));
            demands.push(members.map(|at| (at, 1)).collect());
            cores.push(core);
        }
    }

    /// The records each of which alone stands in the way.
    fn any(&self, cores: &[Vec<usize>], meter: &mut Meter) -> Result<Vec<usize>, Spent> {
        let mut any = Vec::new();
        for &place in cores.first().into_iter().flatten() {
            if self.finishes_without(&BTreeSet::from([place]), meter)? {
                any.push(place);
            }
        }
        Ok(any)
    }
}
