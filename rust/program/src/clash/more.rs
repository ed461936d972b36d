//! Whom one would need: further clerks of the policy, roles for those who are there, or new clerks.

use super::least::{least, Demand};
use super::Setting;
use crate::desk::Desk;
use crate::finish::{Found, Ground, Meter, Spent};
use records::{Record, Set};

/// Clerks by class: that many of these users.
pub type Crew = Vec<(usize, Vec<u16>)>;

/// What would be enough.
#[derive(Default)]
pub struct More {
    /// The number of users needed out of some: each list by itself is enough, and is as short as can be.
    pub clerks: Vec<Crew>,
    /// A role, and users of whom one would have to have it.
    pub roles: Vec<(u16, Vec<u16>)>,
    /// The roles of new clerks: each list is enough by itself.
    pub new: Vec<Vec<Set>>,
    /// Where clerks, roles or new clerks were not settled.
    pub open: bool,
}

/// New clerks of one role are tried up to this number.
const NEW: usize = 3;

pub fn more(setting: &Setting, meter: &mut Meter) -> More {
    let mut more = More::default();
    match clerks(setting, meter) {
        Ok(clerks) => more.clerks = clerks,
        Err(_) => more.open = true,
    }
    match roles(setting, meter) {
        Ok(roles) => more.roles = roles,
        Err(_) => more.open = true,
    }
    if more.clerks.is_empty() && more.roles.is_empty() {
        match new(setting, meter) {
            Ok(new) => more.new = new,
            Err(_) => more.open = true,
        }
    }
    more
}

/// A question about how many of each class; it is asked of one ground.
struct Counted<'a> {
    ground: Ground<'a>,
    /// Those who are there, and how many more there are, by class.
    there: Vec<usize>,
    others: Vec<usize>,
}

impl Counted<'_> {
    fn finishes(&self, more: &[usize], meter: &mut Meter) -> Result<bool, Spent> {
        let counts: Vec<usize> = self.there.iter().zip(more).map(|(a, b)| a + b).collect();
        match self.ground.found(&counts, usize::MAX, meter) {
            Found::Parts(..) => Ok(true),
            Found::Never(_) => Ok(false),
            Found::Open(spent) => Err(spent),
        }
    }

    /// As many more of each class as still do not help, beginning with some that do not.
    fn widened(&self, more: &[usize], meter: &mut Meter) -> Result<Vec<usize>, Spent> {
        let mut more = more.to_vec();
        for class in 0..more.len() {
            let (before, all) = (more[class], self.others[class]);
            for count in [all].into_iter().chain((before + 1..all).rev()) {
                if count <= before {
                    break;
                }
                more[class] = count;
                if !self.finishes(&more, meter)? {
                    break;
                }
                more[class] = before;
            }
        }
        Ok(more)
    }

    /// As few more as are enough; nothing where all are not.
    fn fewest(&self, meter: &mut Meter) -> Result<Option<Vec<usize>>, Spent> {
        if !self.finishes(&self.others, meter)? {
            return Ok(None);
        }
        let mut demands: Vec<Demand> = Vec::new();
        loop {
            let Some(more) = least(&demands, self.others.len()) else {
                return Err(Spent::Tries);
            };
            if self.finishes(&more, meter)? {
                return Ok(Some(more));
            }
            let enough = self.widened(&more, meter)?;
            let short = (0..enough.len()).filter(|&class| enough[class] < self.others[class]);
            demands.push(short.map(|class| (class, enough[class] + 1)).collect());
        }
    }

    /// The users of a class that are not there yet.
    fn others_of(&self, class: usize) -> Vec<u16> {
        let people = &self.ground.people;
        let others = people.classes[class].people.iter().skip(self.there[class]);
        others.map(|&person| people.all[person].user).collect()
    }
}

/// A ground of those who are there and of some more, who come after them.
fn counted<'a>(
    desk: &'a Desk,
    setting: &Setting,
    more: &[u16],
    meter: &mut Meter,
) -> Result<Counted<'a>, Spent> {
    let mut users = setting.users.to_vec();
    users.extend(more);
    let ground = Ground::of(desk, setting.order, &users, meter)?;
    let (mut there, mut others) = (Vec::new(), Vec::new());
    for class in &ground.people.classes {
        let of = |person: &&usize| setting.users.contains(&ground.people.all[**person].user);
        let count = class.people.iter().filter(of).count();
        there.push(count);
        others.push(class.people.len() - count);
    }
    Ok(Counted {
        ground,
        there,
        others,
    })
}

/// Clerks of the policy who are not there.
fn clerks(setting: &Setting, meter: &mut Meter) -> Result<Vec<Crew>, Spent> {
    let users = setting.desk.told.users.keys();
    let more: Vec<u16> = users
        .filter(|user| !setting.users.contains(user))
        .copied()
        .collect();
    if more.is_empty() {
        return Ok(Vec::new());
    }
    let counted = counted(setting.desk, setting, &more, meter)?;
    let Some(fewest) = counted.fewest(meter)? else {
        return Ok(Vec::new());
    };
    let of = |more: &[usize]| {
        let some = (0..more.len()).filter(|&class| more[class] > 0);
        some.map(|class| (more[class], counted.others_of(class)))
            .collect::<Vec<_>>()
    };
    if fewest.iter().sum::<usize>() != 1 {
        return Ok(vec![of(&fewest)]);
    }
    let mut all = Vec::new();
    for class in (0..fewest.len()).filter(|&class| counted.others[class] > 0) {
        let mut one = vec![0; fewest.len()];
        one[class] = 1;
        if counted.finishes(&one, meter)? {
            all.push(of(&one));
        }
    }
    Ok(all)
}

/// Roles of which one more, given to one of those who are there, is enough, where the engine assigns it.
fn roles(setting: &Setting, meter: &mut Meter) -> Result<Vec<(u16, Vec<u16>)>, Spent> {
    let told = &setting.desk.told;
    let ground = Ground::of(setting.desk, setting.order, setting.users, meter)?;
    let mut all = Vec::new();
    for role in told.roles.members().map(u16::from) {
        let mut users = Vec::new();
        for class in &ground.people.classes {
            let of = |&person: &usize| ground.people.all[person].user;
            let mut engine = setting.desk.engine().clone();
            let assign = Record::assign_role(of(&class.people[0]), role);
            if !engine.request(&assign).is_granted() {
                continue;
            }
            let desk = Desk::at(&setting.desk.policy, setting.desk.names.clone(), engine);
            if (Setting {
                desk: &desk,
                ..*setting
            })
            .finishes(meter)?
            {
                users.extend(class.people.iter().map(of));
            }
        }
        if !users.is_empty() {
            users.sort();
            all.push((role, users));
        }
    }
    Ok(all)
}

/// A desk with new users, who have these roles; nothing where the engine adds one of them not.
fn joined(setting: &Setting, roles: &[Set]) -> Option<(Desk, Vec<u16>)> {
    let told = &setting.desk.told;
    let mut free = (0..1024).filter(|user| !told.users.contains_key(user));
    let mut engine = setting.desk.engine().clone();
    let mut users = Vec::new();
    for &roles in roles {
        let user = free.next()?;
        let add = Record::add_user_with(user, roles);
        engine.request(&add).is_granted().then_some(())?;
        users.push(user);
    }
    let desk = Desk::at(&setting.desk.policy, setting.desk.names.clone(), engine);
    Some((desk, users))
}

/// New clerks: one with one role, one with two, or as few as can be with one each.
fn new(setting: &Setting, meter: &mut Meter) -> Result<Vec<Vec<Set>>, Spent> {
    let told = &setting.desk.told;
    let tasks: Vec<u16> = told.tasks_of(setting.template()).collect();
    let opens = |role: &u8| tasks.iter().any(|&task| told.open_to(task).has(*role));
    let roles: Vec<u8> = told.roles.members().filter(opens).collect();
    let singles = roles.iter().map(|&role| Set::of(&[role]));
    let pairs = roles.iter().enumerate().flat_map(|(at, &one)| {
        let others = roles[at + 1..].iter();
        others.map(move |&other| Set::of(&[one, other]))
    });
    for sets in [singles.collect::<Vec<Set>>(), pairs.collect()] {
        let mut enough = Vec::new();
        for set in sets {
            let Some((desk, users)) = joined(setting, &[set]) else {
                continue;
            };
            let mut with = setting.users.to_vec();
            with.extend(users);
            let with = Setting {
                desk: &desk,
                users: &with,
                ..*setting
            };
            if with.finishes(meter)? {
                enough.push(vec![set]);
            }
        }
        if !enough.is_empty() {
            return Ok(enough);
        }
    }
    several(setting, &roles, meter)
}

fn several(setting: &Setting, roles: &[u8], meter: &mut Meter) -> Result<Vec<Vec<Set>>, Spent> {
    let sets: Vec<Set> = roles
        .iter()
        .flat_map(|&role| [Set::of(&[role]); NEW])
        .collect();
    let Some((desk, users)) = joined(setting, &sets) else {
        return Ok(Vec::new());
    };
    let counted = counted(&desk, setting, &users, meter)?;
    let Some(fewest) = counted.fewest(meter)? else {
        return Ok(Vec::new());
    };
    let some = (0..fewest.len()).flat_map(|class| {
        let users = counted.others_of(class).into_iter().take(fewest[class]);
        users
            .map(|user| desk.told.roles_of(user))
            .collect::<Vec<Set>>()
    });
    Ok(vec![some.collect()])
}
