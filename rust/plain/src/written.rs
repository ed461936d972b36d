//! The policy's tables as records (document 02, Ask 8). Kinds ascend. Records of kinds 1 to 8, 13, 14 and 17 ascend by a and then
//! b; rules of the other kinds keep their order in the policy.

use crate::policy::{members, AtMost, Policy};
use crate::record::encode;

/// The records of a kind that has only a and b, in the order of `rows`.
fn pairs(kind: u8, rows: impl Iterator<Item = (usize, usize)>) -> impl Iterator<Item = [u8; 16]> {
    rows.map(move |(a, b)| encode(kind, 0, a as u16, b as u16, 0, 0))
}

/// Each number below `end`, paired with each member of its set.
fn each(end: usize, set: impl Fn(usize) -> u64) -> impl Iterator<Item = (usize, usize)> {
    (0..end).flat_map(move |a| {
        let set = set(a);
        members(set).map(move |b| (a, b))
    })
}

/// The pairs of role or task and permission, from a table by permission, ordered by role or task.
fn turned(of_permission: &[u64; 256]) -> impl Iterator<Item = (usize, usize)> + '_ {
    let has = move |a: usize| move |p: &usize| of_permission[*p] >> a & 1 == 1;
    (0..64).flat_map(move |a| (0..256).filter(has(a)).map(move |p| (a, p)))
}

fn sets(kind: u8, rows: &[AtMost]) -> impl Iterator<Item = [u8; 16]> + '_ {
    rows.iter()
        .map(move |set| encode(kind, set.n, 0, 0, 0, set.members))
}

impl Policy {
    /// All records, concatenated.
    pub fn written(&self) -> Vec<u8> {
        let alone = |kind, numbers: &mut dyn Iterator<Item = usize>| -> Vec<[u8; 16]> {
            pairs(kind, numbers.map(|a| (a, 0))).collect()
        };
        let permissions = (0..256).filter(|p| self.permissions.has(*p));
        let mut seniorities = self.seniorities.rows().to_vec();
        seniorities.sort_unstable();
        let limited = members(self.tasks).filter(|t| self.of_task[*t].limit != 0);
        let mut all = alone(1, &mut (0..1024).filter(|u| self.is_user[*u]));
        all.extend(alone(2, &mut members(self.roles)));
        all.extend(permissions.map(|p| {
            let (operation, object) = self.permissions.pair_of(p);
            encode(3, 0, p as u16, operation, object, 0)
        }));
        all.extend(pairs(4, each(1024, |u| self.assigned[u])));
        all.extend(pairs(5, turned(&self.permissions.given_to)));
        let template = |t| (t, usize::from(self.template_of[t]));
        all.extend(pairs(6, members(self.tasks).map(template)));
        all.extend(pairs(7, each(64, |t| self.of_task[t].open_to)));
        all.extend(pairs(8, turned(&self.permissions.carried_by)));
        all.extend(sets(9, self.static_sets.rows()));
        all.extend(sets(10, self.dynamic_sets.rows()));
        all.extend(sets(11, self.task_sets.rows()));
        let blocks = self.blocks.rows().iter();
        all.extend(blocks.map(|(p, tasks)| encode(12, 0, *p as u16, 0, 0, *tasks)));
        all.extend(alone(13, &mut members(self.banned.into())));
        all.extend(limited.map(|t| encode(14, self.of_task[t].limit, t as u16, 0, 0, 0)));
        all.extend(pairs(15, self.bindings.rows().iter().copied()));
        all.extend(pairs(16, self.prerequisites.rows().iter().copied()));
        all.extend(pairs(17, seniorities.into_iter()));
        let walls = self.walls.rows();
        all.extend(walls.map(|(wall, block, object)| encode(18, 0, wall, block, object, 0)));
        all.into_flattened()
    }
}
