//! How a move is reported.

use super::Outcome;
use crate::carry::Users;
use crate::journal;
use crate::names::Sort;
use crate::told::Told;
use records::Set;
use serde_json::{json, Value};
use std::io::{self, Write};

/// `1 order`, `3 orders`.
fn count(number: usize, word: &str) -> String {
    match number {
        1 => format!("1 {word}"),
        number => format!("{number} {word}s"),
    }
}

impl Outcome<'_> {
    /// Where the users of the desk and those of the new policy differ.
    fn differences(&self) -> Vec<String> {
        let (now, new) = (&self.present.now, Told::loaded(&self.policy.records()));
        let desk = &self.carried.desk;
        let roles = |set: Set| match set.members().count() {
            0 => "no role".to_string(),
            _ => desk.say_set(Sort::Role, set),
        };
        let file = &self.policy.file;
        let mut all = Vec::new();
        for (&user, &has) in &now.users {
            let who = desk.say(Sort::User, user);
            match new.users.get(&user) {
                None => all.push(format!("{who}: {} on the desk, not in {file}", roles(has))),
                Some(&other) if other != has => all.push(format!(
                    "{who}: {} on the desk, {} in {file}",
                    roles(has),
                    roles(other)
                )),
                Some(_) => {}
            }
        }
        for (&user, &has) in new
            .users
            .iter()
            .filter(|(user, _)| !now.users.contains_key(user))
        {
            let who = desk.say(Sort::User, user);
            all.push(format!("{who}: not on the desk, {} in {file}", roles(has)));
        }
        all
    }

    /// Names of the old desk that the new one has not, because the new policy gives the number or the name otherwise.
    fn names_lost(&self) -> Vec<String> {
        // As the new journal has them: explanations here know the old names besides.
        let (_, _, live) = self.rows();
        let (old, new) = (&self.present.found.live.names, &live.names);
        let mut lost = Vec::new();
        for sort in [Sort::User, Sort::Subject, Sort::Order] {
            for (number, name) in old.of_sort(sort) {
                let there = match sort {
                    Sort::User => self.carried.desk.told.users.contains_key(&number),
                    Sort::Subject => self.carried.desk.told.subjects.contains_key(&number),
                    _ => self.carried.desk.told.orders.contains_key(&number),
                };
                let has = new.name(sort, number);
                if there && has != old.name(sort, number) {
                    let now = has.map_or("has no name".to_string(), |_| {
                        format!("is {}", new.shown(sort, number))
                    });
                    lost.push(format!("{} {number}, {name} until now, {now}", sort.word()));
                }
            }
        }
        lost
    }

    pub fn words(&self, out: &mut dyn Write) -> io::Result<()> {
        let (old, new) = (journal::shown(self.options.journal), &self.policy.file);
        let obstacles = &self.carried.obstacles;
        if !obstacles.is_empty() {
            let stand = match obstacles.len() {
                1 => "one thing stands".to_string(),
                many => format!("{many} things stand"),
            };
            writeln!(
                out,
                "{old} cannot be moved under {new}: {stand} in the way; nothing was written"
            )?;
            for obstacle in obstacles {
                writeln!(out, "  {}", obstacle.words)?;
            }
            let orders: Vec<String> = self.hindered().iter().map(u16::to_string).collect();
            if !orders.is_empty() {
                let list = orders.join(",");
                writeln!(out, "  --leave {list} would leave these orders on {old}")?;
            }
        } else {
            let told = &self.carried.desk.told;
            let moved = match self.options.dry_run {
                true => "can be moved".to_string(),
                false => {
                    let into = journal::shown(self.options.to.unwrap_or_default());
                    format!("was moved into {into}")
                }
            };
            let (orders, sessions) = (told.orders.len(), told.subjects.len());
            writeln!(
                out,
                "{old} {moved} under {new}: {}, {} and {}, by {}, each granted",
                count(orders, "order"),
                count(sessions, "session"),
                count(told.users.len(), "user"),
                count(self.carried.requests.len(), "request")
            )?;
        }
        self.notes(out)
    }

    fn notes(&self, out: &mut dyn Write) -> io::Result<()> {
        let new = &self.policy.file;
        let differences = self.differences();
        if !differences.is_empty() {
            let whose = match self.options.users {
                Users::AsNow => format!("users and roles are those of the desk now (--users from-policy takes those of {new})"),
                Users::FromPolicy => format!("users and roles are those of {new} (--users as-now takes those of the desk)"),
            };
            writeln!(out, "{whose}; they differ:")?;
        }
        for one in differences {
            writeln!(out, "  {one}")?;
        }
        for one in self.names_lost() {
            writeln!(out, "name not kept: {one}")?;
        }
        let names = &self.present.found.live.names;
        for &order in &self.left {
            let order = names.say(Sort::Order, order);
            writeln!(
                out,
                "{order} stays on {}: serve it until that is ended",
                journal::shown(self.options.journal)
            )?;
        }
        Ok(())
    }

    /// The orders that stand in the way.
    fn hindered(&self) -> Vec<u16> {
        let all = self.carried.obstacles.iter();
        let mut orders: Vec<u16> = all
            .filter(|obstacle| obstacle.of.0 == Sort::Order)
            .map(|obstacle| obstacle.of.1)
            .collect();
        orders.dedup();
        orders
    }

    pub fn object(&self, out: &mut dyn Write) -> io::Result<()> {
        let told = &self.carried.desk.told;
        let obstacles: Vec<Value> = self
            .carried
            .obstacles
            .iter()
            .map(|one| json!({"of": one.of.0.word(), "number": one.of.1, "words": one.words}))
            .collect();
        let moved = obstacles.is_empty() && !self.options.dry_run;
        let whole = json!({
            "from": journal::shown(self.options.journal), "to": self.options.to.map(journal::shown), "policy": self.policy.file, "moved": moved,
            "orders": told.orders.keys().collect::<Vec<_>>(), "sessions": told.subjects.len(), "users": told.users.len(),
            "requests": self.carried.requests.len(), "left": self.left, "obstacles": obstacles,
            "differences": self.differences(), "names_lost": self.names_lost(),
        });
        writeln!(out, "{whole}")
    }
}
