//! The numbers that a random case uses: few of each, so that records often refer to the same things.

use random::Random;

pub struct Pools {
    pub users: Vec<u16>,
    pub roles: Vec<u16>,
    pub permissions: Vec<u16>,
    pub tasks: Vec<u16>,
    pub templates: Vec<u16>,
    pub partitionings: Vec<u16>,
    pub subjects: Vec<u16>,
    pub orders: Vec<u16>,
    pub operations: Vec<u16>,
    pub objects: Vec<u16>,
    pub walls: Vec<u16>,
    pub blocks: Vec<u16>,
}

/// Different numbers up to `last`, often near the edges or with equal lower bytes.
fn some(random: &mut Random, count: usize, last: u16) -> Vec<u16> {
    let edges = [0, 1, 44, 255, 256, 300, last - 1, last];
    let mut numbers = Vec::new();
    while numbers.len() < count.min(usize::from(last) + 1) {
        let number = if random.chance(1, 3) {
            random.pick(&edges).min(last)
        } else {
            random.below(usize::from(last) + 1) as u16
        };
        if !numbers.contains(&number) {
            numbers.push(number);
        }
    }
    numbers
}

impl Pools {
    /// The template that the task or order at an index of its pool mostly has.
    pub fn template_at(&self, random: &mut Random, place: usize) -> u16 {
        if random.chance(1, 10) {
            random.pick(&self.templates)
        } else {
            self.templates[place % self.templates.len()]
        }
    }

    /// An order and a task, mostly of one template.
    pub fn order_and_task(&self, random: &mut Random) -> (u16, u16) {
        let order = random.below(self.orders.len());
        let lanes = self.templates.len();
        let alike = self.tasks.iter().skip(order % lanes).step_by(lanes);
        let alike: Vec<u16> = alike.copied().collect();
        let task = if alike.is_empty() || random.chance(1, 8) {
            random.pick(&self.tasks)
        } else {
            random.pick(&alike)
        };
        (self.orders[order], task)
    }

    /// A handful of each.
    pub fn few(random: &mut Random) -> Pools {
        let mut of = |least: usize, most: usize, last: u16| {
            let count = least + random.below(most - least + 1);
            some(random, count, last)
        };
        Pools {
            users: of(2, 6, 1023),
            roles: of(2, 6, 63),
            permissions: of(1, 5, 255),
            tasks: of(2, 9, 63),
            templates: of(1, 3, 15),
            partitionings: of(1, 3, 15),
            subjects: of(2, 8, 127),
            orders: of(1, 4, 63),
            operations: of(1, 3, u16::MAX),
            objects: of(1, 3, u16::MAX),
            walls: of(1, 3, 15),
            blocks: of(1, 3, 15),
        }
    }

    /// One template and many roles and tasks, for as many rules as possible.
    pub fn for_rules(random: &mut Random) -> Pools {
        Pools {
            roles: some(random, 14, 63),
            tasks: some(random, 20, 63),
            templates: some(random, 1, 15),
            partitionings: some(random, 16, 15),
            ..Pools::few(random)
        }
    }

    /// One template, one role and a dozen tasks, for claims that only a rule refuses.
    pub fn for_claims(random: &mut Random) -> Pools {
        Pools {
            roles: some(random, 1, 63),
            tasks: some(random, 12, 63),
            templates: some(random, 1, 15),
            partitionings: some(random, 4, 15),
            subjects: some(random, 8, 127),
            ..Pools::few(random)
        }
    }

    /// One role that may do everything, and more objects, some with equal lower bytes or lowest bits.
    pub fn for_walls(random: &mut Random) -> Pools {
        let count = random.pick(&[4, 8, 20]);
        let mut objects = some(random, count, u16::MAX);
        objects.extend([objects[0] ^ 256, objects[1] ^ 64]);
        objects.dedup();
        Pools {
            roles: some(random, 1, 63),
            permissions: some(random, objects.len(), 255),
            operations: some(random, 1, u16::MAX),
            walls: some(random, if count > 8 { 16 } else { 3 }, 15),
            objects,
            ..Pools::few(random)
        }
    }

    /// As many of each as possible.
    pub fn crowd(random: &mut Random) -> Pools {
        Pools {
            users: (0..1024).collect(),
            roles: (0..64).collect(),
            permissions: (0..256).collect(),
            operations: some(random, 16, u16::MAX),
            objects: some(random, 16, u16::MAX),
            ..Pools::few(random)
        }
    }
}
