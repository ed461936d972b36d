//! What `who` and `finish` say, in words and as objects.

use super::lack::{Lack, Refusal};
use super::people::People;
use super::{Asked, Budget, Spent, Verdict, Why};
use crate::desk::{joined, Desk};
use crate::names::Sort;
use crate::stop::{Done, Stop, REFUSED, WELL};
use crate::why::why;
use crate::writer;
use records::{Record, Set};
use serde_json::{json, Value};
use std::io::Write;

/// As many names as one reads.
const FEW: usize = 6;

pub fn few(desk: &Desk, sort: Sort, numbers: &[u16]) -> String {
    let mut all: Vec<String> = numbers
        .iter()
        .take(FEW)
        .map(|&n| desk.say(sort, n))
        .collect();
    if numbers.len() > FEW {
        all.push(format!("{} more", numbers.len() - FEW));
    }
    joined(&all)
}

/// What is found of one order.
pub struct Finding {
    order: u16,
    /// `yes`, `no` or `open`.
    verdict: &'static str,
    plan: Vec<String>,
    because: Vec<String>,
    needed: Vec<String>,
    tries: u64,
}

impl Finding {
    pub fn of(asked: &Asked) -> Finding {
        let (verdict, tries) = asked.verdict();
        let desk = asked.desk;
        let mut finding = Finding {
            order: asked.order,
            verdict: "no",
            plan: Vec::new(),
            because: Vec::new(),
            needed: Vec::new(),
            tries,
        };
        match verdict {
            Verdict::Plan(steps) => {
                finding.verdict = "yes";
                let line = |step: &Record| writer::line(&step.0, &desk.names);
                finding.plan = steps.iter().map(line).collect();
            }
            Verdict::Open(spent) => {
                finding.verdict = "open";
                finding.because = vec![not_settled(spent, tries)];
            }
            Verdict::Closed => {
                finding.because = vec![format!(
                    "{} is not open",
                    desk.say(Sort::Order, asked.order)
                )]
            }
            Verdict::Never(why) => {
                finding.because = because(desk, &why);
                if !matches!(why, Why::Circle(_)) {
                    finding.needed = needed(asked);
                }
            }
        }
        finding
    }

    pub fn is_yes(&self) -> bool {
        self.verdict == "yes"
    }

    fn object(&self) -> Value {
        json!({
            "order": self.order, "finish": self.verdict, "plan": self.plan, "because": self.because, "needed": self.needed,
            "tries": self.tries,
        })
    }

    fn lines(&self, desk: &Desk, who: &str) -> Vec<String> {
        let order = desk.say(Sort::Order, self.order);
        let (head, rest) = match self.verdict {
            "yes" => (format!("{order} can be finished by {who}:"), &self.plan),
            "open" => (
                format!("{order}: it is not settled whether {who} can finish it:"),
                &self.because,
            ),
            _ => (
                format!("{order} cannot be finished by {who}:"),
                &self.because,
            ),
        };
        let needed = self.needed.iter();
        let rest = rest.iter().chain(needed).map(|line| format!("  {line}"));
        [head].into_iter().chain(rest).collect()
    }
}

/// Why it is not settled.
pub fn not_settled(spent: Spent, tries: u64) -> String {
    let why = match spent {
        Spent::Tries => "which is the bound (--tries)".to_string(),
        Spent::Time(seconds) => format!("and the {seconds} s that a question has are over"),
        Spent::Room(bytes) => format!("and the {bytes} bytes that a question has are used"),
        Spent::Gone => "and nobody waits for the answer any more".to_string(),
        Spent::Subjects => "and too few subjects are free for all to sign in".to_string(),
    };
    format!("{tries} claims were tried, {why}: whether it can be finished is not settled")
}

/// The same in few words: `nobody can do sign`.
pub fn in_short(desk: &Desk, why: &Why) -> String {
    match why {
        Why::Lack(lack) => {
            let tasks: Vec<u16> = Set(lack.tasks).members().map(u16::from).collect();
            let both = if tasks.len() > 1 {
                " for one clerk"
            } else {
                ""
            };
            format!("nobody can do {}{both}", few(desk, Sort::Task, &tasks))
        }
        _ => because(desk, why).join("; "),
    }
}

/// Why nobody can: which task, which rule, and what it met.
pub fn because(desk: &Desk, why: &Why) -> Vec<String> {
    match why {
        Why::Circle(tasks) => {
            let tasks = few(desk, Sort::Task, tasks);
            vec![format!(
                "{tasks}: prerequisites that go in a circle leave them waiting for ever"
            )]
        }
        Why::Held { task, subject } => vec![format!(
            "{} is held by {}, who is not among them",
            desk.say(Sort::Task, *task),
            desk.say_subject(*subject)
        )],
        Why::Full => vec!["the ledger has no entries left for the tasks of this order".to_string()],
        Why::Nobody => vec!["nobody is there to do it".to_string()],
        Why::Lack(lack) => lacking(desk, lack),
    }
}

fn lacking(desk: &Desk, lack: &Lack) -> Vec<String> {
    let members = |tasks: u64| Set(tasks).members().map(u16::from).collect::<Vec<u16>>();
    let others = members(lack.left & !lack.tasks);
    let left = match others[..] {
        [] => String::new(),
        _ => format!(", with {} left over too", few(desk, Sort::Task, &others)),
    };
    let tasks = few(desk, Sort::Task, &members(lack.tasks));
    let bound = match lack.tasks.count_ones() {
        1 => "",
        _ => ", which are bound together",
    };
    let mut lines = vec![format!(
        "nobody of them can do {tasks}{bound}, however the rest is given out{left}"
    )];
    lines.extend(
        lack.refused
            .iter()
            .map(|refusal| refused(desk, lack, refusal)),
    );
    lines
}

fn refused(desk: &Desk, lack: &Lack, refusal: &Refusal) -> String {
    let there = Desk::at(&desk.policy, desk.names.clone(), refusal.engine.clone());
    let answer = refusal.answer;
    let mut met = why(&there, &refusal.record.0, answer);
    met.could = None;
    let whose = there.say_subject(refusal.record.a());
    let alike = match refusal.count {
        1 => String::new(),
        count => format!(" and {} more", count - 1),
    };
    let task = match lack.tasks.count_ones() {
        1 => String::new(),
        _ => format!(", {}", desk.say(Sort::Task, refusal.task)),
    };
    let said = format!("{whose}{alike}{task}: {}", answer.reply);
    match met.lines(&there).join("; ").as_str() {
        "" => said,
        reasons => format!("{said}: {reasons}"),
    }
}

/// Whom one would need.
fn needed(asked: &Asked) -> Vec<String> {
    let desk = asked.desk;
    let (enough, settled) = asked.needed();
    let mut all: Vec<u16> = enough.into_iter().flatten().collect();
    all.sort();
    let mut lines = match &all[..] {
        [] => Vec::new(),
        [one] => vec![format!(
            "with {} it can be finished",
            desk.say(Sort::User, *one)
        )],
        all => vec![format!(
            "with one of {} it can be finished",
            few(desk, Sort::User, all)
        )],
    };
    if lines.is_empty() {
        let roles = asked.needed_role();
        lines.push(match &roles[..] {
            [] => "no one clerk more is enough".to_string(),
            all => format!(
                "a further clerk would be enough, with role {}",
                either(desk, all)
            ),
        });
    }
    if !settled {
        lines.push("of some clerks it is not settled, since the bound was reached".to_string());
    }
    lines
}

fn either(desk: &Desk, roles: &[u16]) -> String {
    let all: Vec<String> = roles
        .iter()
        .map(|&role| desk.names.shown(Sort::Role, role))
        .collect();
    crate::reader::either(&all)
}

/// The users a plan may use: those of a list, or those who are signed in; and how they are called.
fn users(desk: &Desk, list: Option<&str>) -> Result<(Vec<u16>, String), Stop> {
    let Some(list) = list else {
        return Ok((People::signed_in(desk), "those signed in".to_string()));
    };
    let mut users = Vec::new();
    for word in list
        .split(',')
        .map(str::trim)
        .filter(|word| !word.is_empty())
    {
        let user = desk.names.given(Sort::User, word);
        match user.filter(|user| desk.told.users.contains_key(user)) {
            Some(user) => users.push(user),
            None => return crate::stop::wrong(format!("there is no user {word:?}")),
        }
    }
    users.sort();
    users.dedup();
    let who = few(desk, Sort::User, &users);
    Ok((users, who))
}

/// How it is asked and shown.
pub struct Options<'a> {
    pub list: Option<&'a str>,
    pub budget: &'a Budget,
    pub json: bool,
}

/// One order: the plan, or why there is none.
pub fn finish_one(desk: &Desk, word: &str, options: &Options, out: &mut dyn Write) -> Done {
    let Some(order) = desk.names.given(Sort::Order, word) else {
        return crate::stop::wrong(format!("there is no order {word:?}"));
    };
    let (users, who) = users(desk, options.list)?;
    let finding = Finding::of(&Asked {
        desk,
        order,
        users: &users,
        bound: options.budget.tries,
        budget: options.budget,
    });
    match options.json {
        true => writeln!(out, "{}", finding.object())?,
        false => writeln!(out, "{}", finding.lines(desk, &who).join("\n"))?,
    }
    Ok(if finding.is_yes() { WELL } else { REFUSED })
}

/// Every open order: those that will lie, and why.
pub fn finish_all(desk: &Desk, options: &Options, out: &mut dyn Write) -> Done {
    let (users, who) = users(desk, options.list)?;
    let (mut can, mut lie) = (0, 0);
    let mut left = desk.told.orders.len();
    for &order in desk.told.orders.keys() {
        if options.budget.spent(0).is_some() {
            break;
        }
        left -= 1;
        let finding = Finding::of(&Asked {
            desk,
            order,
            users: &users,
            bound: options.budget.tries,
            budget: options.budget,
        });
        match finding.is_yes() {
            true => can += 1,
            false => lie += 1,
        }
        match (options.json, finding.is_yes()) {
            (true, _) => writeln!(out, "{}", finding.object())?,
            (false, true) => {}
            (false, false) => writeln!(out, "{}", finding.lines(desk, &who).join("\n"))?,
        }
    }
    if left > 0 {
        let why = "what a question may take is spent";
        match options.json {
            true => writeln!(out, "{}", json!({"not_looked_at": left, "because": why}))?,
            false => writeln!(out, "{left} open orders were not looked at: {why}")?,
        }
        lie += left;
    }
    if !options.json {
        writeln!(out, "{can} open orders can be finished by {who}, each by itself; {lie} cannot, or are not settled")?;
    }
    Ok(if lie == 0 { WELL } else { REFUSED })
}

/// The live subjects whose claim would be granted now.
pub fn who(desk: &Desk, order: &str, task: &str, json: bool, out: &mut dyn Write) -> Done {
    let number = |sort: Sort, word: &str| {
        let number = desk.names.given(sort, word);
        number.ok_or_else(|| Stop::Wrong(vec![format!("there is no {} {word:?}", sort.word())]))
    };
    let (order, task) = (number(Sort::Order, order)?, number(Sort::Task, task)?);
    let found = desk.candidates(order, task);
    let live: Vec<u16> = found
        .who
        .iter()
        .filter_map(|candidate| candidate.subject)
        .collect();
    if json {
        let one = |&subject: &u16| json!({"subject": subject, "user": desk.told.user_of(subject), "who": desk.say_subject(subject)});
        let who: Vec<Value> = live.iter().map(one).collect();
        writeln!(out, "{}", json!({"order": order, "task": task, "who": who}))?;
        return Ok(if live.is_empty() { REFUSED } else { WELL });
    }
    for &subject in &live {
        writeln!(out, "{}", desk.say_subject(subject))?;
    }
    if live.is_empty() {
        let all = crate::why::Why {
            could: Some((task, found)),
            ..Default::default()
        };
        writeln!(
            out,
            "nobody who is signed in; {}",
            all.lines(desk).join("; ")
        )?;
    }
    Ok(if live.is_empty() { REFUSED } else { WELL })
}
