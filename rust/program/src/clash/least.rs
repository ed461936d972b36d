//! The least of what meets every demand. A demand names sorts with numbers: that many of one of these sorts, or more, must be taken. What must be
//! met comes to light one demand after the other, as the least that meets those known is tried and is not enough.

/// One of these: a sort, and how many of it.
pub type Demand = Vec<(usize, usize)>;

/// As many steps as the least is looked for.
const STEPS: usize = 1_000_000;

struct Looking<'a> {
    demands: &'a [Demand],
    best: Option<Vec<usize>>,
    steps: usize,
}

fn cost(taken: &[usize]) -> usize {
    taken.iter().sum()
}

impl Looking<'_> {
    fn look(&mut self, taken: &mut Vec<usize>) {
        self.steps += 1;
        let best = self.best.as_ref().map_or(usize::MAX, |best| cost(best));
        if self.steps > STEPS || cost(taken) >= best {
            return;
        }
        let met = |demand: &&Demand| demand.iter().any(|&(sort, n)| taken[sort] >= n);
        let Some(open) = self.demands.iter().find(|demand| !met(demand)) else {
            self.best = Some(taken.clone());
            return;
        };
        let mut ways = open.clone();
        ways.sort_by_key(|&(sort, n)| n - taken[sort]);
        for (sort, n) in ways {
            let before = std::mem::replace(&mut taken[sort], n);
            self.look(taken);
            taken[sort] = before;
        }
    }
}

/// How many of each sort, as few as can be, meet all demands; nothing where none do, or where that takes too long.
pub fn least(demands: &[Demand], sorts: usize) -> Option<Vec<usize>> {
    let mut looking = Looking {
        demands,
        best: None,
        steps: 0,
    };
    looking.look(&mut vec![0; sorts]);
    looking.best.filter(|_| looking.steps <= STEPS)
}

#[cfg(test)]
mod tests {
    use super::*;
    use random::Random;

    #[test]
    fn the_least_is_that_of_all_that_there_are() {
        let mut random = Random::new(5);
        for _ in 0..300 {
            let sorts = 1 + random.below(4);
            let mut demands: Vec<Demand> = Vec::new();
            for _ in 0..random.below(6) {
                let mut demand = Vec::new();
                for sort in 0..sorts {
                    if random.chance(1, 2) {
                        demand.push((sort, 1 + random.below(3)));
                    }
                }
                demands.push(demand);
            }
            let all = (0..4usize.pow(sorts as u32)).map(|mut number| {
                let digit = |_| {
                    let digit = number % 4;
                    number /= 4;
                    digit
                };
                (0..sorts).map(digit).collect::<Vec<usize>>()
            });
            let meets = |taken: &Vec<usize>| {
                let met = |demand: &Demand| demand.iter().any(|&(sort, n)| taken[sort] >= n);
                demands.iter().all(met)
            };
            let fewest = all.filter(meets).map(|taken| cost(&taken)).min();
            let found = least(&demands, sorts);
            assert!(found.as_ref().is_none_or(meets));
            assert_eq!(found.map(|taken| cost(&taken)), fewest, "{demands:?}");
        }
    }
}
