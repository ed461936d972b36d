//! What a planner asks of an order and a shift: can it be finished, by which smallest crews, and how many may be away. All of it is asked of the
//! one search, of more and fewer of each class of clerks who are alike.

use crate::clash::{least, Clash, Crew, Demand, More, Setting};
use crate::desk::Desk;
use crate::finish::{
    because, in_short, not_settled, Budget, Found, Ground, Held, Meter, Part, Spent, Why,
};
use crate::writer;
use std::collections::BTreeSet;

/// As many smallest crews are reported.
pub const CREWS: usize = 20;

/// What is found of an order and a shift.
pub struct Outlook {
    pub finish: Finish,
    pub tries: u64,
}

pub enum Finish {
    Yes(Box<Able>),
    No(Box<Unable>),
    /// Why it is not settled.
    Open(String),
}

/// It can be finished.
pub struct Able {
    /// The requests of a smallest crew, each granted by the engine.
    pub plan: Vec<String>,
    pub crews: Crews,
    pub away: Away,
}

#[derive(Default)]
pub struct Crews {
    /// How many clerks a smallest crew has, and whether it is settled that no smaller one would do.
    pub size: usize,
    pub least: bool,
    pub all: Vec<Crew>,
    /// Whether these are all.
    pub whole: bool,
}

/// How many may be away.
pub struct Away {
    /// Any N of them may be.
    pub any: usize,
    /// A smallest absence that stops it; none where more were not asked for, or it is not settled.
    pub stops: Option<Stops>,
    pub settled: bool,
}

/// An absence, and why it stops it, in short and in full.
pub struct Stops {
    pub away: Crew,
    pub short: String,
    pub because: Vec<String>,
}

/// It cannot.
pub struct Unable {
    pub because: Vec<String>,
    /// The rules that stand in the way; none where it is no rule.
    pub clash: Option<Clash>,
    pub more: More,
    pub open: Option<String>,
    /// Tasks wait for each other: no clerk helps.
    pub circle: bool,
}

/// What is asked of each order and shift.
pub struct Question<'a> {
    pub budget: &'a Budget,
    /// Whether any N may be away; all if it is missing.
    pub absent: Option<usize>,
}

/// The work on one order and shift.
struct Work<'a, 'b> {
    ground: Ground<'a>,
    counts: Vec<usize>,
    question: &'b Question<'b>,
    tries: u64,
}

pub fn outlook(desk: &Desk, order: u16, users: &[u16], question: &Question) -> Outlook {
    let mut meter = Meter::new(question.budget.tries, question.budget);
    let (finish, tries) = match Ground::of(desk, order, users, &mut meter) {
        Err(spent) => (Finish::Open(not_settled(spent, meter.tries)), 0),
        Ok(ground) => {
            let counts = ground.people.counts();
            let mut work = Work {
                ground,
                counts,
                question,
                tries: 0,
            };
            let finish = work.finish(desk, order, users);
            (finish, work.tries)
        }
    };
    Outlook {
        finish,
        tries: tries + meter.tries,
    }
}

/// How many of each class are at work.
fn at_work(ground: &Ground, parts: &[Part]) -> Vec<usize> {
    let mut crew = vec![0; ground.people.classes.len()];
    for part in parts {
        if let Some(class) = ground.people.class_of(part.person) {
            crew[class] += 1;
        }
    }
    crew
}

impl Work<'_, '_> {
    fn finish(&mut self, desk: &Desk, order: u16, users: &[u16]) -> Finish {
        let budget = self.question.budget;
        let mut meter = Meter::new(budget.tries, budget);
        let found = self.ground.found(&self.counts, usize::MAX, &mut meter);
        self.tries += meter.tries;
        match found {
            Found::Open(spent) => Finish::Open(not_settled(spent, meter.tries)),
            Found::Never(why) => Finish::No(Box::new(self.unable(desk, order, users, &why))),
            Found::Parts(parts, held) => self.able(parts, held),
        }
    }

    fn able(&mut self, parts: Vec<Part>, held: Vec<Held>) -> Finish {
        let budget = self.question.budget;
        let mut meter = Meter::new(budget.tries, budget);
        let (crews, parts, held) = self.crews(parts, held, &mut meter);
        let Some(plan) = self.ground.plan(&parts, &held) else {
            return Finish::Open(not_settled(Spent::Subjects, meter.tries));
        };
        let mut other = Meter::new(budget.tries, budget);
        let away = self.away(&parts, &held, &mut other);
        self.tries += meter.tries + other.tries;
        let names = &self.ground.desk.names;
        let plan = plan
            .iter()
            .map(|step| writer::line(&step.0, names))
            .collect();
        Finish::Yes(Box::new(Able { plan, crews, away }))
    }

    /// The smallest crews, and who does what in one of them.
    fn crews(
        &self,
        parts: Vec<Part>,
        held: Vec<Held>,
        meter: &mut Meter,
    ) -> (Crews, Vec<Part>, Vec<Held>) {
        let mut best = (parts, held);
        let mut crews = Crews::default();
        loop {
            crews.size = best.0.len();
            if crews.size == 0 {
                crews.least = true;
                break;
            }
            match self.ground.found(&self.counts, crews.size - 1, meter) {
                Found::Parts(parts, held) => best = (parts, held),
                Found::Never(_) => {
                    crews.least = true;
                    break;
                }
                Found::Open(_) => break,
            }
        }
        crews.whole = crews.least && self.every_crew(&mut crews, meter);
        (crews, best.0, best.1)
    }

    /// All crews of a size: another than one found has fewer of one of its classes.
    fn every_crew(&self, crews: &mut Crews, meter: &mut Meter) -> bool {
        let (mut met, mut known) = (BTreeSet::new(), BTreeSet::new());
        let mut open = vec![self.counts.clone()];
        while let Some(counts) = open.pop() {
            if !met.insert(counts.clone()) {
                continue;
            }
            let crew = match self.ground.found(&counts, crews.size, meter) {
                Found::Parts(parts, _) => at_work(&self.ground, &parts),
                Found::Never(_) => continue,
                Found::Open(_) => return false,
            };
            if known.insert(crew.clone()) {
                if known.len() > CREWS {
                    return false;
                }
                crews.all.push(self.crew(&crew));
            }
            for class in (0..crew.len()).filter(|&class| crew[class] > 0) {
                let mut fewer = counts.clone();
                fewer[class] = crew[class] - 1;
                open.push(fewer);
            }
        }
        crews.all.sort();
        true
    }

    /// So many of each class, as users.
    fn crew(&self, counts: &[usize]) -> Crew {
        let people = &self.ground.people;
        let some = (0..counts.len()).filter(|&class| counts[class] > 0);
        let of = |class: usize| {
            let users = people.classes[class]
                .people
                .iter()
                .map(|&person| people.all[person].user);
            (counts[class], users.collect())
        };
        some.map(of).collect()
    }

    /// A crew that is enough, and of which nobody can be left out; those who hold a task are in it.
    fn needed(
        &self,
        parts: &[Part],
        held: &[Held],
        meter: &mut Meter,
    ) -> Result<Vec<usize>, Spent> {
        let with_holders = |parts: &[Part], held: &[Held]| {
            let mut crew = at_work(&self.ground, parts);
            for held in held {
                let people = &self.ground.people;
                let person = people
                    .all
                    .iter()
                    .position(|person| person.user == held.user);
                let class = person.and_then(|person| people.class_of(person));
                class
                    .into_iter()
                    .for_each(|class| crew[class] = crew[class].max(1));
            }
            crew
        };
        let mut crew = with_holders(parts, held);
        for class in 0..crew.len() {
            while crew[class] > 0 {
                let mut fewer = crew.clone();
                fewer[class] -= 1;
                match self.ground.found(&fewer, usize::MAX, meter) {
                    Found::Parts(parts, held) => crew = with_holders(&parts, &held),
                    Found::Never(_) => break,
                    Found::Open(spent) => return Err(spent),
                }
            }
        }
        Ok(crew)
    }

    /// What an absence must do to a crew: leave some class of it too few.
    fn demand(&self, needed: &[usize]) -> Demand {
        let some = (0..needed.len()).filter(|&class| needed[class] > 0);
        some.map(|class| (class, self.counts[class] - needed[class] + 1))
            .collect()
    }

    /// Those who are left, without that many of each class.
    fn left(&self, absent: &[usize]) -> Vec<usize> {
        let all = self.counts.iter().zip(absent);
        all.map(|(all, absent)| all - absent).collect()
    }

    /// The demands of crews of which each has other classes than those before.
    fn apart(
        &self,
        parts: &[Part],
        held: &[Held],
        meter: &mut Meter,
    ) -> Result<Vec<Demand>, Spent> {
        let mut demands = vec![self.demand(&self.needed(parts, held, meter)?)];
        let mut gone = vec![0; self.counts.len()];
        while let Some(last) = demands.last() {
            last.iter().for_each(|&(class, n)| gone[class] = n);
            match self.ground.found(&self.left(&gone), usize::MAX, meter) {
                Found::Parts(parts, held) => {
                    let needed = self.needed(&parts, &held, meter)?;
                    demands.push(self.demand(&needed));
                }
                Found::Never(_) => break,
                Found::Open(spent) => return Err(spent),
            }
        }
        Ok(demands)
    }

    /// The smallest absence that stops it.
    fn away(&self, parts: &[Part], held: &[Held], meter: &mut Meter) -> Away {
        let mut away = Away {
            any: 0,
            stops: None,
            settled: false,
        };
        let Ok(mut demands) = self.apart(parts, held, meter) else {
            return away;
        };
        while let Some(absent) = least(&demands, self.counts.len()) {
            let count: usize = absent.iter().sum();
            away.any = count - 1;
            if self.question.absent.is_some_and(|asked| count > asked) {
                away.settled = true;
                return away;
            }
            match self.ground.found(&self.left(&absent), usize::MAX, meter) {
                Found::Parts(parts, held) => match self.needed(&parts, &held, meter) {
                    Ok(needed) => demands.push(self.demand(&needed)),
                    Err(_) => return away,
                },
                Found::Never(why) => {
                    let desk = self.ground.desk;
                    away.stops = Some(Stops {
                        away: self.crew(&absent),
                        short: in_short(desk, &why),
                        because: because(desk, &why),
                    });
                    away.settled = true;
                    return away;
                }
                Found::Open(_) => return away,
            }
        }
        away
    }

    fn unable(&mut self, desk: &Desk, order: u16, users: &[u16], why: &Why) -> Unable {
        let budget = self.question.budget;
        let setting = Setting { desk, order, users };
        let mut meter = Meter::new(budget.tries, budget);
        let clash = setting.clash(&mut meter);
        let open = clash
            .as_ref()
            .err()
            .map(|&spent| not_settled(spent, meter.tries));
        let mut other = Meter::new(budget.tries, budget);
        let more = match why {
            Why::Circle(_) => More::default(),
            _ => crate::clash::more(&setting, &mut other),
        };
        self.tries += meter.tries + other.tries;
        Unable {
            because: because(desk, why),
            clash: clash.unwrap_or(None),
            more,
            open,
            circle: matches!(why, Why::Circle(_)),
        }
    }
}
