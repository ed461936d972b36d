//! Clerks for shares: each share of tasks gets a clerk of its own whose roles open them all, by augmenting paths.

use super::people::Class;

pub struct Seats {
    /// The units that each skill opens, of each class whose clerks are free to be named; with how many of them there are.
    classes: Vec<(usize, usize, Vec<u64>)>,
}

fn fits(skills: &[u64], units: u64) -> bool {
    skills.iter().any(|skill| units & !skill == 0)
}

impl Seats {
    /// A share without a clerk that is looked for.
    pub const STANDS: usize = usize::MAX;

    /// The classes without entries, of whom that many may be asked.
    pub fn of(classes: &[Class], counts: &[usize], skills: &[Vec<u64>]) -> Seats {
        let some = classes.iter().enumerate();
        let some = some.filter(|(place, class)| class.has == 0 && counts[*place] > 0);
        let seats = some.map(|(place, _)| (place, counts[place], skills[place].clone()));
        Seats {
            classes: seats.collect(),
        }
    }

    pub fn none() -> Vec<usize> {
        Vec::new()
    }

    /// The units of which each could be added to these, for some clerk.
    pub fn able(&self, units: u64) -> u64 {
        let skills = self.classes.iter().flat_map(|(_, _, skills)| skills);
        let fitting = skills.filter(|skill| units & !**skill == 0);
        fitting.fold(0, |able, skill| able | skill)
    }

    /// The skills of the classes that have all of these units, as a list of numbers.
    pub fn fitting(&self, units: u64) -> Vec<u32> {
        let mut list = Vec::new();
        for (place, _, skills) in &self.classes {
            for (skill, opens) in skills.iter().enumerate() {
                if units & !opens == 0 {
                    list.push((*place as u32) << 16 | skill as u32);
                }
            }
        }
        list
    }

    /// Finds a clerk for one share, where others may be given to other clerks. Shares that want nobody are `None`.
    pub fn seat(&self, wants: &[Option<u64>], seated: &mut [usize], share: usize) -> bool {
        let Some(units) = wants[share] else {
            return true;
        };
        let now = self
            .classes
            .iter()
            .find(|(place, _, _)| *place == seated[share]);
        if now.is_some_and(|(_, _, skills)| fits(skills, units)) {
            return true;
        }
        seated[share] = Seats::STANDS;
        let mut asked = vec![false; self.classes.len()];
        self.moved(wants, seated, share, &mut asked)
    }

    fn moved(
        &self,
        wants: &[Option<u64>],
        seated: &mut [usize],
        share: usize,
        asked: &mut [bool],
    ) -> bool {
        let units = wants[share].unwrap_or(0);
        for (index, (place, count, skills)) in self.classes.iter().enumerate() {
            if asked[index] || !fits(skills, units) {
                continue;
            }
            asked[index] = true;
            let there: Vec<usize> = (0..seated.len())
                .filter(|&other| seated[other] == *place && wants[other].is_some())
                .collect();
            let free = there.len() < *count;
            let freed = free
                || there
                    .iter()
                    .any(|&other| self.moved(wants, seated, other, asked));
            if freed {
                seated[share] = *place;
                return true;
            }
        }
        false
    }
}
