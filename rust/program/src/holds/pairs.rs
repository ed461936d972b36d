//! Between which tasks orders are measured: one pair for each template.

use crate::names::{Names, Sort};
use crate::stop::{wrong, Stop};
use records::Record;

/// A task whose end starts the clock, and one whose claim stops it, of one template.
#[derive(Clone, Copy, PartialEq, Eq, Debug)]
pub struct Pair {
    pub template: u16,
    pub from: u16,
    pub to: u16,
}

/// At most one pair a template, by template.
#[derive(Clone, PartialEq, Eq, Debug)]
pub struct Pairs(pub Vec<Pair>);

impl Pairs {
    pub fn of_template(&self, template: u16) -> Option<usize> {
        self.0.iter().position(|pair| pair.template == template)
    }

    /// From lists of tasks, by name or number with commas between.
    pub fn read(from: &str, to: &str, policy: &[Record], names: &Names) -> Result<Pairs, Stop> {
        let (from, to) = (
            tasks("--from", from, policy, names)?,
            tasks("--to", to, policy, names)?,
        );
        let say = |sort, number| names.say(sort, number);
        let lone = |one: &[(u16, u16)], others: &[(u16, u16)]| {
            let alone = |(template, _): &&(u16, u16)| others.iter().all(|(of, _)| of != template);
            one.iter().find(alone).copied()
        };
        for (option, found) in [("--to", lone(&from, &to)), ("--from", lone(&to, &from))] {
            if let Some((template, task)) = found {
                let (task, template) = (say(Sort::Task, task), say(Sort::Template, template));
                return wrong(format!(
                    "{task} is of {template}, and {option} names no task of that template"
                ));
            }
        }
        let pair = |&(template, from): &(u16, u16)| {
            let (_, to) = *to.iter().find(|(of, _)| *of == template)?;
            Some(Pair { template, from, to })
        };
        let mut pairs: Vec<Pair> = from.iter().filter_map(pair).collect();
        if let Some(same) = pairs.iter().find(|pair| pair.from == pair.to) {
            return wrong(format!(
                "--from and --to are the same task, {}",
                say(Sort::Task, same.from)
            ));
        }
        pairs.sort_by_key(|pair| pair.template);
        Ok(Pairs(pairs))
    }
}

/// Each task of a list with its template.
fn tasks(
    option: &str,
    list: &str,
    policy: &[Record],
    names: &Names,
) -> Result<Vec<(u16, u16)>, Stop> {
    let mut all: Vec<(u16, u16)> = Vec::new();
    for word in list.split(',').map(str::trim) {
        let declared = |task: u16| policy.iter().find(|r| r.kind() == 6 && r.a() == task);
        let task = names.given(Sort::Task, word);
        let Some(declared) = task.and_then(declared) else {
            let known: Vec<String> = policy
                .iter()
                .filter(|r| r.kind() == 6)
                .map(|r| names.shown(Sort::Task, r.a()))
                .collect();
            let known = if known.is_empty() {
                "there is none".to_string()
            } else {
                known.join(", ")
            };
            return wrong(format!(
                "{option}: there is no task {word:?} in the policy; its tasks: {known}"
            ));
        };
        let (task, template) = (declared.a(), declared.b());
        if let Some((_, other)) = all.iter().find(|(of, _)| *of == template) {
            let [task, other] = [task, *other].map(|task| names.say(Sort::Task, task));
            let template = names.say(Sort::Template, template);
            return wrong(format!(
                "{option}: {other} and {task} are both of {template}; name one task a template"
            ));
        }
        all.push((template, task));
    }
    Ok(all)
}

#[cfg(test)]
mod tests {
    use super::*;

    #[test]
    fn tasks_pair_by_template() {
        let policy: Vec<Record> = [(0, 0), (1, 0), (2, 1), (3, 1), (4, 2)]
            .map(|(task, template)| Record::task(task, template))
            .to_vec();
        let mut names = Names::default();
        names.give(Sort::Task, 1, b"sign");
        let read = |from, to| Pairs::read(from, to, &policy, &names);
        let pair = |template, from, to| Pair { template, from, to };
        assert_eq!(
            read("2,0", "sign, 3").unwrap().0,
            [pair(0, 0, 1), pair(1, 2, 3)]
        );
        for (from, to, why) in [
            ("0", "0", "the same task"),
            ("0,1", "1", "one task a template"),
            ("0", "3", "--to names no task of that template"),
            ("0", "sign,3", "--from names no task of that template"),
            ("7", "sign", "its tasks: 0, sign, 2, 3, 4"),
            ("0", "sgin", "there is no task \"sgin\""),
        ] {
            let Err(Stop::Wrong(lines)) = read(from, to) else {
                panic!("{from} {to}");
            };
            assert!(lines[0].contains(why), "{lines:?}");
        }
    }
}
