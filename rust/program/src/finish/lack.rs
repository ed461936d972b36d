//! Why nobody can go on, where the search came furthest: what it had given out is done on a copy of the engine, without prerequisites, and
//! everybody is asked there.

use super::ground::{Ground, Held};
use super::people::{create, free, free_subjects};
use super::plan::{self, Making};
use super::search::Dead;
use mishantral::{Answer, Engine};
use records::{Record, Set};

/// Where prerequisites are counted in the policy buffer (docs/STATE.md): a copy with 0 there is without them.
const PREREQUISITES: usize = 6;

/// Why nobody can do a task.
#[derive(Clone)]
pub struct Lack {
    /// The task, or tasks that are bound together.
    pub tasks: u64,
    /// The tasks that are left over there, these among them.
    pub left: u64,
    pub refused: Vec<Refusal>,
}

/// What some are answered.
#[derive(Clone)]
pub struct Refusal {
    pub answer: Answer,
    pub task: u16,
    /// What one of them, in a subject, asks for, and how many they are.
    pub record: Record,
    pub count: usize,
    /// The copy on which that one asks.
    pub engine: Engine,
}

impl Lack {
    pub fn of(ground: &Ground, counts: &[usize], held: &[Held], dead: &Dead) -> Option<Lack> {
        let (desk, people) = (ground.desk, &ground.people);
        let mut state = desk.engine().state().clone();
        state.policy[PREREQUISITES] = 0;
        let mut making = Making::new(Engine::from_state(state), ground.order);
        let subjects = plan::subjects(desk, people, &dead.parts)?;
        making.begin(people, held, &dead.parts, &subjects)?;
        for (part, subjects) in dead.parts.iter().zip(&subjects) {
            for task in Set(part.tasks).members() {
                making.worked(subjects, part.roles, task.into()).ok()?;
            }
        }
        let mut lack = Lack {
            tasks: dead.tasks,
            left: dead.left,
            refused: Vec::new(),
        };
        let may = |person: usize| desk.told.may_activate(people.all[person].user).0;
        for (part, subjects) in dead.parts.iter().zip(&subjects) {
            lack.ask(
                making.clone(),
                subjects,
                (may(part.person), free(&desk.told)),
                1,
            );
        }
        let taken: Vec<u16> = subjects.iter().flatten().copied().collect();
        let mut unused = free_subjects(&desk.told).filter(|subject| !taken.contains(subject));
        for (class, &count) in people.classes.iter().zip(counts) {
            let at_work = |person: &&usize| dead.parts.iter().any(|part| part.person == **person);
            let others = class.people[..count]
                .iter()
                .filter(|person| !at_work(person));
            let others: Vec<usize> = others.copied().collect();
            let Some(&first) = others.first() else {
                continue;
            };
            let mut there = making.clone();
            let mut subjects = people.all[first].subjects.clone();
            if subjects.is_empty() {
                let Some(subject) = unused.next() else {
                    break;
                };
                let _ = there
                    .engine
                    .request(&create(subject, people.all[first].user));
                subjects.push(subject);
            }
            lack.ask(
                there,
                &subjects,
                (may(first), free(&desk.told)),
                others.len(),
            );
        }
        Some(lack)
    }

    /// Asks somebody, with roles that no rule minds active, for the tasks one after the other, and keeps the first refusal, with those who get the same.
    fn ask(&mut self, mut there: Making, subjects: &[u16], (may, free): (u64, u64), count: usize) {
        there.activate(subjects[0], may & free);
        for task in Set(self.tasks).members().map(u16::from) {
            let before = there.engine.clone();
            let Err((answer, record)) = there.worked(subjects, may, task) else {
                continue;
            };
            let same = |of: &&mut Refusal| of.answer == answer && of.task == task;
            if let Some(same) = self.refused.iter_mut().find(same) {
                same.count += count;
                return;
            }
            self.refused.push(Refusal {
                answer,
                task,
                record,
                count,
                engine: before,
            });
            return;
        }
    }
}
