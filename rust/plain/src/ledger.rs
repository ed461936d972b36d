//! The entries of orders, stored in one of two ways: one dense list, or one list for each order.
//! Both give the same answers; they differ in how many entries a query scans.

use crate::policy::bit;

/// The largest number of entries.
pub const ENTRIES: usize = 2048;

/// One entry: which user has which task of which instance, and through which subject while it is held.
#[derive(Clone, Copy, PartialEq, Eq, PartialOrd, Ord, Debug)]
pub struct Entry {
    /// The order.
    pub instance: u8,
    /// Whose entry it is.
    pub user: u16,
    /// The task.
    pub task: u8,
    /// The subject that claimed the task; `None` if the task is done.
    pub holder: Option<u8>,
}

/// What the entries of one instance say about a claim of one task by one user.
#[derive(Clone, Copy, Default)]
pub struct View {
    /// The tasks held by someone.
    pub held: u64,
    /// The tasks with a done entry.
    pub done: u64,
    /// The tasks with an entry of the user; document 01 calls this set D.
    pub mine: u64,
    /// The tasks with an entry of another user.
    pub others: u64,
    /// How many entries the task itself has, of any user.
    pub count: u32,
}

impl View {
    #[inline(always)]
    fn add(&mut self, user: u16, task: u8, entry_user: u16, entry_task: u8, held: bool) {
        let of = bit(usize::from(entry_task));
        if held {
            self.held |= of;
        } else {
            self.done |= of;
        }
        if entry_user == user {
            self.mine |= of;
        } else {
            self.others |= of;
        }
        self.count += u32::from(entry_task == task);
    }
}

/// A store of entries. The tests and the benchmark compare the two implementations.
pub trait Ledger: Clone + PartialEq + std::fmt::Debug {
    /// A ledger without entries.
    fn empty() -> Self;
    /// Removes all entries.
    fn clear(&mut self);
    /// How many entries there are.
    fn in_use(&self) -> usize;
    /// What the rules need to know of the order to judge a claim.
    fn view(&self, instance: u8, user: u16, task: u8) -> View;
    /// Whether a task of the order is held.
    fn any_held(&self, instance: u8) -> bool;
    /// Whether the user has an entry, held or done.
    fn any_of_user(&self, user: u16) -> bool;
    /// Whether the subject holds a task.
    fn any_held_by(&self, subject: u8) -> bool;
    /// Whether the subject holds the task.
    fn holds(&self, instance: u8, task: u8, subject: u8) -> bool;
    /// Adds a held entry, if there is room for it.
    fn enter(&mut self, instance: u8, user: u16, task: u8, subject: u8);
    /// Removes the entry that the subject holds; returns false if it holds none.
    fn release(&mut self, instance: u8, task: u8, subject: u8) -> bool;
    /// Marks the entry that the subject holds as done; returns false if it holds none.
    fn finish(&mut self, instance: u8, task: u8, subject: u8) -> bool;
    /// Removes all entries of the instance.
    fn end(&mut self, instance: u8);
    /// The number of entries of the instance, and the set of its tasks that have a done entry.
    fn figures(&self, instance: u8) -> (usize, u64);
    /// All entries, in no particular order.
    fn entries(&self) -> Vec<Entry>;
}

/// All entries in one dense list: every query scans all entries in use.
#[derive(Clone, PartialEq, Debug)]
pub struct FlatLedger {
    entries: Vec<Packed>,
}

/// An entry packed into one word: task, instance, user, subject, and whether it is held.
#[derive(Clone, Copy, PartialEq, Debug)]
struct Packed(u32);

impl Packed {
    const HELD: u32 = 1 << 31;

    fn held(instance: u8, user: u16, task: u8, subject: u8) -> Packed {
        Packed(Self::HELD | u32::from(subject) << 22 | Self::done(instance, user, task).0)
    }

    fn done(instance: u8, user: u16, task: u8) -> Packed {
        Packed(u32::from(user) << 12 | u32::from(instance) << 6 | u32::from(task))
    }

    fn task(self) -> u8 {
        self.0 as u8 & 63
    }

    fn instance(self) -> u8 {
        (self.0 >> 6) as u8 & 63
    }

    fn user(self) -> u16 {
        (self.0 >> 12) as u16 & 1023
    }

    fn holder(self) -> Option<u8> {
        self.is_held().then_some((self.0 >> 22) as u8 & 127)
    }

    fn is_held(self) -> bool {
        self.0 & Self::HELD != 0
    }

    /// Whether this entry says that the subject holds this task of this instance.
    fn is_held_by(self, instance: u8, task: u8, subject: u8) -> bool {
        self.instance() == instance && self.task() == task && self.holder() == Some(subject)
    }
}

impl FlatLedger {
    fn place(&self, instance: u8, task: u8, subject: u8) -> Option<usize> {
        self.entries
            .iter()
            .position(|e| e.is_held_by(instance, task, subject))
    }
}

impl Ledger for FlatLedger {
    fn empty() -> Self {
        FlatLedger {
            entries: Vec::with_capacity(ENTRIES),
        }
    }

    fn clear(&mut self) {
        self.entries.clear();
    }

    fn in_use(&self) -> usize {
        self.entries.len()
    }

    fn view(&self, instance: u8, user: u16, task: u8) -> View {
        let mut view = View::default();
        for e in &self.entries {
            if e.instance() == instance {
                view.add(user, task, e.user(), e.task(), e.is_held());
            }
        }
        view
    }

    fn any_held(&self, instance: u8) -> bool {
        let of_it = |e: &Packed| e.instance() == instance && e.is_held();
        self.entries.iter().any(of_it)
    }

    fn any_of_user(&self, user: u16) -> bool {
        self.entries.iter().any(|e| e.user() == user)
    }

    fn any_held_by(&self, subject: u8) -> bool {
        self.entries.iter().any(|e| e.holder() == Some(subject))
    }

    fn holds(&self, instance: u8, task: u8, subject: u8) -> bool {
        self.place(instance, task, subject).is_some()
    }

    fn enter(&mut self, instance: u8, user: u16, task: u8, subject: u8) {
        self.entries
            .push(Packed::held(instance, user, task, subject));
    }

    fn release(&mut self, instance: u8, task: u8, subject: u8) -> bool {
        let place = self.place(instance, task, subject);
        place.map(|at| self.entries.swap_remove(at)).is_some()
    }

    fn finish(&mut self, instance: u8, task: u8, subject: u8) -> bool {
        let place = self.place(instance, task, subject);
        if let Some(at) = place {
            self.entries[at] = Packed::done(instance, self.entries[at].user(), task);
        }
        place.is_some()
    }

    fn end(&mut self, instance: u8) {
        self.entries.retain(|e| e.instance() != instance);
    }

    fn figures(&self, instance: u8) -> (usize, u64) {
        let of_it = self.entries.iter().filter(|e| e.instance() == instance);
        let done = of_it.clone().filter(|e| !e.is_held());
        let done = done.fold(0, |all, e| all | bit(usize::from(e.task())));
        (of_it.count(), done)
    }

    fn entries(&self) -> Vec<Entry> {
        let unpack = |e: &Packed| Entry {
            instance: e.instance(),
            user: e.user(),
            task: e.task(),
            holder: e.holder(),
        };
        self.entries.iter().map(unpack).collect()
    }
}

/// One list for each order with its done tasks, and counts by user and by subject: a query scans at most one order.
#[derive(Clone, PartialEq, Debug)]
pub struct OrderLists {
    orders: Vec<Vec<Entry>>,
    done: [u64; 64],
    in_use: usize,
    of_user: Box<[u16; 1024]>,
    held_by: [u16; 128],
}

impl OrderLists {
    fn order(&self, instance: u8) -> &[Entry] {
        &self.orders[usize::from(instance)]
    }

    fn place(&self, instance: u8, task: u8, subject: u8) -> Option<usize> {
        self.order(instance)
            .iter()
            .position(|e| e.task == task && e.holder == Some(subject))
    }
}

impl Ledger for OrderLists {
    fn empty() -> Self {
        OrderLists {
            orders: vec![Vec::new(); 64],
            done: [0; 64],
            in_use: 0,
            of_user: Box::new([0; 1024]),
            held_by: [0; 128],
        }
    }

    fn clear(&mut self) {
        self.orders.iter_mut().for_each(Vec::clear);
        self.done.fill(0);
        self.in_use = 0;
        self.of_user.fill(0);
        self.held_by.fill(0);
    }

    fn in_use(&self) -> usize {
        self.in_use
    }

    fn view(&self, instance: u8, user: u16, task: u8) -> View {
        let mut view = View::default();
        for e in self.order(instance) {
            view.add(user, task, e.user, e.task, e.holder.is_some());
        }
        view
    }

    fn any_held(&self, instance: u8) -> bool {
        self.order(instance).iter().any(|e| e.holder.is_some())
    }

    fn any_of_user(&self, user: u16) -> bool {
        self.of_user[usize::from(user)] != 0
    }

    fn any_held_by(&self, subject: u8) -> bool {
        self.held_by[usize::from(subject)] != 0
    }

    fn holds(&self, instance: u8, task: u8, subject: u8) -> bool {
        self.place(instance, task, subject).is_some()
    }

    fn enter(&mut self, instance: u8, user: u16, task: u8, subject: u8) {
        self.orders[usize::from(instance)].push(Entry {
            instance,
            user,
            task,
            holder: Some(subject),
        });
        self.in_use += 1;
        self.of_user[usize::from(user)] += 1;
        self.held_by[usize::from(subject)] += 1;
    }

    fn release(&mut self, instance: u8, task: u8, subject: u8) -> bool {
        let Some(at) = self.place(instance, task, subject) else {
            return false;
        };
        let entry = self.orders[usize::from(instance)].swap_remove(at);
        self.in_use -= 1;
        self.of_user[usize::from(entry.user)] -= 1;
        self.held_by[usize::from(subject)] -= 1;
        true
    }

    fn finish(&mut self, instance: u8, task: u8, subject: u8) -> bool {
        let Some(at) = self.place(instance, task, subject) else {
            return false;
        };
        self.orders[usize::from(instance)][at].holder = None;
        self.done[usize::from(instance)] |= bit(usize::from(task));
        self.held_by[usize::from(subject)] -= 1;
        true
    }

    fn figures(&self, instance: u8) -> (usize, u64) {
        (self.order(instance).len(), self.done[usize::from(instance)])
    }

    fn end(&mut self, instance: u8) {
        self.done[usize::from(instance)] = 0;
        for entry in self.orders[usize::from(instance)].drain(..) {
            self.in_use -= 1;
            self.of_user[usize::from(entry.user)] -= 1;
            if let Some(subject) = entry.holder {
                self.held_by[usize::from(subject)] -= 1;
            }
        }
    }

    fn entries(&self) -> Vec<Entry> {
        self.orders.concat()
    }
}
