//! The prompt of `run` on a terminal: a line is edited, kept in a history and completed with the words and names that may stand there.

use crate::desk::Desk;
use crate::names::{Names, Sort};
use crate::reader::{expected_after, offered, read_line, tokens};
use crate::run::Listing;
use crate::stop::{Done, Stop, WELL};
use rustyline::completion::Completer;
use rustyline::error::ReadlineError;
use rustyline::highlight::Highlighter;
use rustyline::hint::Hinter;
use rustyline::validate::Validator;
use rustyline::{CompletionType, Config, Context, Editor, Helper};
use std::path::PathBuf;

/// What the prompt takes beside requests.
const COMMANDS: [(&str, &str); 7] = [
    ("help", "this text"),
    ("forms", "every line of the notation"),
    (
        "who ORDER TASK",
        "who could claim the task of the order now",
    ),
    (
        "finish ORDER",
        "whether those signed in can finish the order, and how",
    ),
    (
        "show",
        "users, live subjects and open orders with their entries",
    ),
    ("policy", "the policy's lines"),
    ("quit", "ends the desk, as does the end of input (Ctrl-D)"),
];

/// Completes a line by what is there at the moment.
#[derive(Default)]
pub struct Completion {
    names: Names,
    /// What is declared, live or open of each sort, by name or number.
    known: Vec<(Sort, Vec<String>)>,
}

impl Completer for Completion {
    type Candidate = String;

    fn complete(
        &self,
        line: &str,
        at: usize,
        _: &Context,
    ) -> rustyline::Result<(usize, Vec<String>)> {
        Ok(self.completed(&line[..at]))
    }
}

impl Hinter for Completion {
    type Hint = String;
}
impl Highlighter for Completion {}
impl Validator for Completion {}
impl Helper for Completion {}

impl Completion {
    fn of(desk: &Desk) -> Completion {
        let (told, names) = (&desk.told, desk.names.clone());
        let shown = |sort: Sort, numbers: &mut dyn Iterator<Item = u16>| {
            let words = numbers.map(|number| names.shown(sort, number));
            (sort, words.collect::<Vec<String>>())
        };
        let known = vec![
            shown(Sort::User, &mut told.users.keys().copied()),
            shown(Sort::Role, &mut told.roles.members().map(u16::from)),
            shown(Sort::Permission, &mut told.permissions.keys().copied()),
            shown(
                Sort::Operation,
                &mut told.permissions.values().map(|pair| pair.0),
            ),
            shown(
                Sort::Object,
                &mut told.permissions.values().map(|pair| pair.1),
            ),
            shown(Sort::Task, &mut told.tasks.keys().copied()),
            shown(Sort::Template, &mut told.tasks.values().copied()),
            shown(Sort::Subject, &mut told.subjects.keys().copied()),
            shown(Sort::Order, &mut told.orders.keys().copied()),
        ];
        Completion { names, known }
    }

    fn words(&self, sort: Sort) -> Vec<String> {
        let known = self.known.iter().find(|(of, _)| *of == sort);
        known.map_or(self.names.words(sort), |(_, words)| words.clone())
    }

    /// Where the last word of a line begins, and what it may become.
    pub fn completed(&self, line: &str) -> (usize, Vec<String>) {
        let (mut before, end) = tokens(line);
        if end < line.len() {
            return (line.len(), Vec::new());
        }
        let last = before
            .last()
            .copied()
            .filter(|t| t.at + t.text.len() == line.len());
        let (start, begun) = last.map_or((line.len(), ""), |token| (token.at, token.text));
        if last.is_some() {
            before.pop();
        }
        let mut words = offered(&expected_after(&before, &self.names), |sort| {
            self.words(sort)
        });
        match &before[..] {
            [] => words.extend(
                COMMANDS
                    .iter()
                    .filter_map(|(c, _)| c.split(' ').next())
                    .map(String::from),
            ),
            [who] if matches!(who.text, "who" | "finish") => words.extend(self.words(Sort::Order)),
            [who, _] if who.text == "who" => words.extend(self.words(Sort::Task)),
            _ => {}
        }
        words.retain(|word| word.starts_with(begun));
        words.sort();
        words.dedup();
        let words = words.into_iter().map(|word| word + " ").collect();
        (start, words)
    }
}

/// Where the history is kept between runs.
fn history() -> Option<PathBuf> {
    let home = || std::env::var_os("HOME").map(|home| PathBuf::from(home).join(".local/state"));
    let state = std::env::var_os("XDG_STATE_HOME").filter(|dir| !dir.is_empty());
    let folder = state.map(PathBuf::from).or_else(home)?.join("mishantral");
    std::fs::create_dir_all(&folder).ok()?;
    Some(folder.join("history"))
}

/// Answers line after line until the end of input.
pub fn talk(desk: &mut Desk, listing: &mut Listing) -> Done {
    let config = Config::builder()
        .completion_type(CompletionType::List)
        .auto_add_history(true)
        .build();
    let mut editor: Editor<Completion> = Editor::with_config(config);
    editor.set_helper(Some(Completion::of(desk)));
    let history = history();
    if let Some(file) = &history {
        let _ = editor.load_history(file);
    }
    writeln!(
        listing.out,
        "Requests, one per line; \"help\" explains more, Tab completes, Ctrl-D ends."
    )?;
    loop {
        listing.out.flush()?;
        match editor.readline("> ") {
            Ok(line) => {
                if !said(desk, &line, listing)? {
                    break;
                }
                editor.set_helper(Some(Completion::of(desk)));
            }
            Err(ReadlineError::Interrupted) => continue,
            Err(ReadlineError::Eof) => break,
            Err(why) => {
                return Err(Stop::Wrong(vec![format!(
                    "the terminal cannot be read: {why}"
                )]))
            }
        }
    }
    if let Some(file) = &history {
        let _ = editor.save_history(file);
    }
    Ok(WELL)
}

/// Answers one line; whether to go on.
pub fn said(desk: &mut Desk, line: &str, listing: &mut Listing) -> Result<bool, Stop> {
    let words: Vec<&str> = tokens(line).0.iter().map(|t| t.text).collect();
    let text = match words[..] {
        [] => String::new(),
        ["quit" | "exit"] => return Ok(false),
        ["help"] => help(),
        ["forms"] => notation::forms(),
        ["show"] => state(desk),
        ["policy"] => crate::writer::policy(&desk.policy.bytes, &desk.policy.names),
        ["who", order, task] => who(desk, order, task),
        ["finish", order] => finish(desk, order)?,
        _ => return request(desk, line, listing).map(|()| true),
    };
    listing.out.write_all(text.as_bytes())?;
    Ok(true)
}

fn request(desk: &mut Desk, line: &str, listing: &mut Listing) -> Result<(), Stop> {
    match read_line(line, &desk.names) {
        Ok(None) => {}
        Ok(Some(said)) => listing.answer(desk, &said)?,
        Err(wrong) => {
            // The prompt takes two columns.
            writeln!(listing.out, "{:>1$}", "^", wrong.column + 2)?;
            writeln!(listing.out, "{wrong}")?;
        }
    }
    Ok(())
}

fn help() -> String {
    let mut text = String::from("A request is a line of the notation, as: claim 5 0 1 (subject, order, task). Beside requests:\n");
    for (command, says) in COMMANDS {
        text += &format!("  {command:<15} {says}\n");
    }
    text
}

fn who(desk: &Desk, order: &str, task: &str) -> String {
    let number = |sort: Sort, word: &str| desk.names.given(sort, word);
    let (Some(order), Some(task)) = (number(Sort::Order, order), number(Sort::Task, task)) else {
        return "who ORDER TASK: an order and a task, by number or name\n".to_string();
    };
    let all = crate::why::Why {
        could: Some((task, desk.candidates(order, task))),
        ..crate::why::Why::default()
    };
    all.lines(desk).concat() + "\n"
}

fn finish(desk: &Desk, order: &str) -> Result<String, Stop> {
    let mut text = Vec::new();
    let budget = crate::finish::Budget::of_tries(crate::finish::TRIES);
    let options = crate::finish::Options {
        list: None,
        budget: &budget,
        json: false,
    };
    match crate::finish::finish_one(desk, order, &options, &mut text) {
        Err(Stop::Wrong(lines)) => Ok(lines.join("\n") + "\n"),
        done => done.map(|_| String::from_utf8_lossy(&text).into_owned()),
    }
}

/// Users, subjects and orders as the answers have told them.
fn state(desk: &Desk) -> String {
    let mut text = String::new();
    for (&user, &roles) in &desk.told.users {
        let roles = desk.say_set(Sort::Role, roles);
        text += &format!("user {}: {roles}\n", desk.names.shown(Sort::User, user));
    }
    for (&subject, session) in &desk.told.subjects {
        let (user, roles) = (
            desk.say(Sort::User, session.user),
            desk.say_set(Sort::Role, session.active),
        );
        text += &format!(
            "subject {} of {user}: {roles}\n",
            desk.names.shown(Sort::Subject, subject)
        );
    }
    for (&order, opened) in &desk.told.orders {
        let template = desk.say(Sort::Template, opened.template);
        text += &format!(
            "order {} of {template}\n",
            desk.names.shown(Sort::Order, order)
        );
        for entry in &opened.entries {
            let (task, user) = (
                desk.say(Sort::Task, entry.task),
                desk.say(Sort::User, entry.user),
            );
            let state = entry
                .holder
                .map_or("done by".to_string(), |_| "held by".to_string());
            text += &format!("  {task} {state} {user}\n");
        }
    }
    text
}

#[cfg(test)]
mod tests {
    use super::*;

    #[test]
    fn words_and_names_are_completed() {
        let mut names = Names::default();
        names.give(Sort::User, 300, b"clerk_a");
        names.give(Sort::User, 301, b"clerk_b");
        names.give(Sort::Role, 0, b"signer");
        names.give(Sort::Task, 4, b"sign");
        let known = vec![(Sort::Subject, vec!["5".to_string()])];
        let completion = Completion { names, known };
        let offers = |line: &str| completion.completed(line).1;
        assert_eq!(offers("cl"), ["claim "]);
        assert_eq!(
            offers("create subject 5 for user cl"),
            ["clerk_a ", "clerk_b "]
        );
        assert_eq!(
            offers("create subject 5 for user clerk_a with roles "),
            ["none ", "signer "]
        );
        assert_eq!(offers("claim 5 0 "), ["sign "]);
        assert_eq!(offers("claim "), ["5 "]);
        assert_eq!(offers("ta"), ["take ", "task "]);
        assert_eq!(offers("task "), ["check "]);
        assert_eq!(offers("who 0 s"), ["sign "]);
        assert_eq!(offers("nonsense "), [""; 0]);
        assert_eq!(offers("claim 5 # cl"), [""; 0]);
        assert_eq!(completion.completed("delete user clerk_").0, 12);
    }
}
