//! A long run of a desk's orders: small teams open them, work on them, end them and open them again, all in parallel.
//! The plain engine answers while the run is generated, so that what clerks do next depends on what was granted.

use crate::policies::{FIRST_TASK, LAST_TASK, ORDER, ORDER_TASKS, SUBJECTS};
use plain::{Engine, Reply};
use random::Random;
use records::Record;

/// How many subjects work on an order.
const TEAM: usize = 8;

/// What the team knows about its order.
#[derive(Clone, Default)]
struct Order {
    open: bool,
    holder: [Option<u16>; ORDER_TASKS as usize],
    done: [bool; ORDER_TASKS as usize],
    /// Who has the first or the last task, which are bound to each other.
    bound: Option<u16>,
}

impl Order {
    fn held(&self) -> Option<(u16, u16)> {
        let mut tasks = (0..).zip(self.holder);
        tasks.find_map(|(task, holder)| Some((holder?, task)))
    }

    fn next_task(&self) -> Option<u16> {
        let free = |&task: &u16| {
            let task = usize::from(task);
            self.holder[task].is_none() && !self.done[task]
        };
        (0..ORDER_TASKS).find(free)
    }

    /// Records a granted request of the order.
    fn note(&mut self, record: &Record) {
        let (subject, task) = (record.a(), record.c());
        let at = usize::from(task);
        match record.kind() {
            48 => self.open = true,
            49 => *self = Order::default(),
            50 => self.holder[at] = Some(subject),
            51 => self.holder[at] = None,
            _ => {
                self.holder[at] = None;
                self.done[at] = true;
            }
        }
        if record.kind() == 50 && [FIRST_TASK, LAST_TASK].contains(&task) {
            self.bound = Some(subject);
        }
    }
}

/// The state of a run while it is generated.
struct Run {
    random: Random,
    engine: Engine,
    orders: Vec<Order>,
    records: Vec<Record>,
}

impl Run {
    fn ask(&mut self, record: Record) {
        if self.engine.request(&record.0).0 == Reply::Granted {
            let order = if record.kind() < 50 {
                record.a()
            } else {
                record.b()
            };
            self.orders[usize::from(order)].note(&record);
        }
        self.records.push(record);
    }

    fn clerk(&mut self, order: usize) -> u16 {
        ((order * 2 + self.random.below(TEAM)) % usize::from(SUBJECTS)) as u16
    }

    /// A request that advances the order.
    fn sensible(&mut self, number: usize) -> Record {
        let order = self.orders[number].clone();
        let named = number as u16;
        if !order.open {
            return Record::open_order(named, ORDER);
        }
        let next = order.next_task();
        if let Some((subject, task)) = order.held() {
            if next.is_none() || self.random.chance(4, 5) {
                let gives_up = self.random.chance(1, 8);
                let make = if gives_up {
                    Record::release
                } else {
                    Record::done
                };
                return make(subject, named, task);
            }
        }
        let Some(task) = next else {
            return Record::end_order(named);
        };
        let is_bound = task == FIRST_TASK || task == LAST_TASK;
        let anyone = self.clerk(number);
        Record::claim(
            order.bound.filter(|_| is_bound).unwrap_or(anyone),
            named,
            task,
        )
    }

    /// A request of a team member that ignores the state of the order.
    fn careless(&mut self, order: usize) -> Record {
        let subject = self.clerk(order);
        let task = self.random.below(usize::from(ORDER_TASKS)) as u16;
        let order = order as u16;
        match self.random.below(8) {
            0 => Record::end_order(order),
            1 => Record::release(subject, order, task),
            2 => Record::done(subject, order, task),
            _ => Record::claim(subject, order, task),
        }
    }

    fn step(&mut self) {
        let order = self.random.below(self.orders.len());
        let record = if self.random.chance(1, 8) {
            self.careless(order)
        } else {
            self.sensible(order)
        };
        self.ask(record);
    }

    /// Finishes all held tasks and ends every order, so that the run can be repeated from its start.
    fn close(&mut self) {
        for number in 0..self.orders.len() {
            while let Some((subject, task)) = self.orders[number].held() {
                self.ask(Record::done(subject, number as u16, task));
            }
            if self.orders[number].open {
                self.ask(Record::end_order(number as u16));
            }
        }
    }
}

/// A run of `steps` steps over the orders below `orders`, at a desk with this policy and after these requests.
pub fn run(
    seed: u64,
    orders: usize,
    steps: usize,
    policy: &[Record],
    setup: &[Record],
) -> Vec<Record> {
    let mut engine = Engine::new();
    for record in policy {
        engine.policy_record(&record.0);
    }
    for record in setup {
        engine.request(&record.0);
    }
    let mut run = Run {
        random: Random::new(seed),
        engine,
        orders: vec![Order::default(); orders],
        records: Vec::new(),
    };
    for _ in 0..steps {
        run.step();
    }
    run.close();
    run.records
}
