//! `ask`: lines to a desk that is served, and its replies; and `journal --socket`, which reads a journal through the desk.
//!
//! Each request is sent with a key of its own. Where the connection is lost, what was not answered is sent again, to whichever of the
//! servers has the desk by then: what had been done is answered as it was, and nothing is done twice.

mod again;

use crate::report::report;
use crate::stop::{wrong, Done, Stop, REFUSED, WELL, WRONG};
use again::Keys;
use serde_json::{json, Value};
use std::io::{self, BufRead, BufReader, Read, Write};
use std::os::unix::net::UnixStream;
use std::time::{Duration, Instant};

/// How a desk is asked, and its replies shown.
pub struct Options<'a> {
    /// The servers of the desk: whoever has it answers.
    pub sockets: &'a [String],
    pub desk: Option<&'a str>,
    /// The account that a gateway speaks for.
    pub account: Option<&'a str>,
    pub json: bool,
    /// A refusal is explained.
    pub why: bool,
    /// A refusal is exit status 1.
    pub strict: bool,
    /// How long a server that is gone is looked for again.
    pub retry: Duration,
}

impl Options<'_> {
    /// The servers, as messages name them.
    fn shown(&self) -> String {
        self.sockets.join(", ")
    }
}

/// A connection to a desk that has taken what is said first.
struct Asked {
    stream: UnixStream,
    replies: BufReader<UnixStream>,
}

fn failed(options: &Options) -> impl Fn(io::Error) -> Stop {
    let sockets = options.shown();
    move |why| Stop::Wrong(vec![format!("{sockets}: {why}")])
}

/// Connects to the first server that has the desk; or what each said.
fn connected(options: &Options) -> Result<Asked, Stop> {
    let mut told = Vec::new();
    for socket in options.sockets {
        match greeted(options, socket) {
            Ok(asked) => return Ok(asked),
            Err(why) => told.push(format!("{socket}: {why}")),
        }
    }
    Err(Stop::Wrong(told))
}

/// The same, again and again, of servers that are gone or are taking the desk over.
fn again(options: &Options) -> Result<Asked, Stop> {
    let began = Instant::now();
    loop {
        let came = connected(options);
        if came.is_ok() || began.elapsed() >= options.retry {
            return came;
        }
        std::thread::sleep(Duration::from_millis(50));
    }
}

/// Why a socket cannot be reached, and what helps.
fn unreached(why: io::Error) -> String {
    match why.kind() {
        io::ErrorKind::PermissionDenied => format!(
            "{why}: the socket's mode lets only its owner connect, unless `serve` has --socket-mode and --socket-group"
        ),
        io::ErrorKind::NotFound | io::ErrorKind::ConnectionRefused => {
            format!("{why}: no desk is served there")
        }
        _ => why.to_string(),
    }
}

/// Connects, and says who, which desk and in which form.
fn greeted(options: &Options, socket: &str) -> Result<Asked, String> {
    let failed = |why: io::Error| why.to_string();
    let stream = UnixStream::connect(socket).map_err(unreached)?;
    // A server that is stopped takes connections, and says nothing: another one may have the desk.
    let patience = (options.sockets.len() > 1).then_some(Duration::from_secs(5));
    stream.set_read_timeout(patience).map_err(failed)?;
    let mut replies = BufReader::new(stream.try_clone().map_err(failed)?);
    let account = options.account.map(|account| format!("as {account}"));
    let desk = options.desk.map(|desk| format!("desk {desk}"));
    let first = account.into_iter().chain(desk);
    for line in first.chain(["lines".to_string()]) {
        // One that was told something else already may be gone.
        let _ = writeln!(&stream, "{line}");
        let mut told = String::new();
        replies.read_line(&mut told).map_err(failed)?;
        if told.trim_end() != line {
            let told = told.trim_end();
            let told = told.strip_prefix("wrong: ").unwrap_or(told);
            return Err(match told {
                "" => ENDED.to_string(),
                told => told.to_string(),
            });
        }
    }
    stream.set_read_timeout(None).map_err(failed)?;
    Ok(Asked { stream, replies })
}

const ENDED: &str = "the server ended the connection";

/// What a reply comes to.
#[derive(Clone, Copy, PartialEq, Eq)]
enum Came {
    Granted,
    Refused,
    /// It was not put to the engine, or not done.
    Not,
    /// An answer to a question.
    Answer,
}

/// Whether a line of replies is the last of its request: rows of a journal are followed by how many there were.
fn is_row(line: &str, question: bool) -> bool {
    question
        && match serde_json::from_str::<Value>(line) {
            Ok(object) => object.get("answer").is_none() && came(line) == Came::Answer,
            Err(_) => !line.ends_with(" rows of the journal") && came(line) == Came::Answer,
        }
}

fn came(line: &str) -> Came {
    if let Ok(Value::Object(object)) = serde_json::from_str(line) {
        let not = ["wrong", "barred", "not_done"];
        // A row of a journal has a time, and is no reply.
        return match object.get("reply").filter(|_| !object.contains_key("time")) {
            Some(reply) if *reply == 0 => Came::Granted,
            Some(_) => Came::Refused,
            None if object.contains_key("time") => Came::Answer,
            None if not.iter().any(|key| object.contains_key(*key)) => Came::Not,
            None => Came::Answer,
        };
    }
    if ["wrong: ", "barred: ", "not done: "]
        .iter()
        .any(|word| line.starts_with(word))
    {
        return Came::Not;
    }
    let mut words = line.split(' ');
    let number = words.next().and_then(|word| word.parse::<u64>().ok());
    match (
        number,
        words.next().and_then(|word| word.parse::<u8>().ok()),
    ) {
        (Some(_), Some(0)) => Came::Granted,
        (Some(_), Some(_)) => Came::Refused,
        _ => Came::Answer,
    }
}

/// The worst that came, as an exit status.
fn status(before: u8, came: Came, strict: bool) -> u8 {
    match came {
        Came::Not => WRONG,
        Came::Refused if strict => before.max(REFUSED),
        _ => before,
    }
}

/// A line as it is sent.
fn sent(line: &str, json: bool) -> String {
    match json && !line.trim_start().starts_with('{') {
        true => json!({ "request": line }).to_string(),
        false => line.to_string(),
    }
}

/// Whether a line, or the request of an object, is a question, which changes nothing and has no key.
fn is_question(line: &str) -> bool {
    let word = line.split_whitespace().next().unwrap_or_default();
    matches!(word, "who" | "finish" | "why" | "journal")
}

/// Whether a line asks for nothing.
fn is_blank(line: &str) -> bool {
    let line = line.trim_start_matches('\u{feff}').trim_start();
    line.is_empty() || line.starts_with('#')
}

/// What is asked, a line each: those of the command, or standard input's.
type Lines = Box<dyn Iterator<Item = io::Result<String>> + Send>;

pub fn ask(options: &Options, lines: &[String], out: &mut dyn Write) -> Done {
    let asked = connected(options)?;
    let given = !lines.is_empty();
    let lines: Vec<String> = lines
        .iter()
        .flat_map(|word| word.lines().map(String::from))
        .collect();
    let from_input = || {
        let mut line = String::new();
        match io::stdin().read_line(&mut line) {
            Ok(0) => None,
            Ok(_) => Some(Ok(line.trim_end_matches(['\n', '\r']).to_string())),
            Err(why) => Some(Err(why)),
        }
    };
    let all: Lines = match given {
        true => Box::new(lines.into_iter().map(Ok)),
        false => Box::new(std::iter::from_fn(from_input)),
    };
    let keys = Keys::new().map_err(|why| Stop::Wrong(vec![format!("/dev/urandom: {why}")]))?;
    match options.why {
        true => one_by_one(options, asked, keys, all, out),
        false => again::at_once(options, asked, keys, all, out),
    }
}

/// Each line waits for its reply, and a refusal for its explanation.
fn one_by_one(
    options: &Options,
    mut asked: Asked,
    mut keys: Keys,
    lines: Lines,
    out: &mut dyn Write,
) -> Done {
    let failed = failed(options);
    let mut worst = WELL;
    for line in lines {
        let line = line.map_err(|why| Stop::Wrong(vec![format!("standard input: {why}")]))?;
        if is_blank(&line) {
            continue;
        }
        let keyed = keys.keyed(&line, options.json);
        let replies = match asked.answered(&keyed) {
            Ok(replies) => replies,
            // Gone: it is sent again, with the same key.
            Err(_) => {
                asked = again(options)?;
                asked.answered(&keyed).map_err(&failed)?
            }
        };
        let (last, rows) = replies.split_last().ok_or(Stop::Quiet)?;
        for row in rows {
            writeln!(out, "{row}")?;
        }
        worst = status(worst, came(last), options.strict);
        match (came(last), options.json) {
            (Came::Refused, false) => {
                writeln!(out, "{last}")?;
                for reason in asked.reasons(&line).map_err(&failed)? {
                    writeln!(out, "    {reason}")?;
                }
            }
            (Came::Refused, true) => {
                let reasons = asked.reasons(&line).map_err(&failed)?;
                let mut object: Value = serde_json::from_str(last).unwrap_or_default();
                object["why"] = json!(reasons);
                writeln!(out, "{object}")?;
            }
            _ => writeln!(out, "{last}")?,
        }
        out.flush()?;
    }
    Ok(worst)
}

impl Asked {
    fn answered(&mut self, line: &str) -> io::Result<Vec<String>> {
        writeln!(&self.stream, "{line}")?;
        let question = again::is_listing(line);
        let mut all = Vec::new();
        loop {
            let mut reply = String::new();
            if self.replies.read_line(&mut reply)? == 0 || again::is_end(&reply) {
                return Err(io::Error::other(ENDED));
            }
            let reply = reply.trim_end().to_string();
            let more = is_row(&reply, question);
            all.push(reply);
            if !more {
                return Ok(all);
            }
        }
    }

    /// Why a line is refused, as the desk explains it now.
    fn reasons(&mut self, line: &str) -> io::Result<Vec<String>> {
        let line = match serde_json::from_str::<Value>(line) {
            Ok(object) => object["request"].as_str().unwrap_or_default().to_string(),
            Err(_) => line.to_string(),
        };
        let line = again::without_key(&line);
        let told = self.answered(&sent(&format!("why {line}"), true))?;
        let last = told.last().map_or("", String::as_str);
        let object: Value = serde_json::from_str(last).unwrap_or_default();
        let why = object["answer"]["why"].as_array().cloned();
        let one = |why: &Value| why.as_str().map(String::from);
        Ok(why.unwrap_or_default().iter().filter_map(one).collect())
    }
}

/// Reads a journal through its desk: for accounts that may read it and cannot open its file.
pub fn journal(options: &Options, filter: &[(&str, String)], out: &mut dyn Write) -> Done {
    let mut asked = connected(options)?;
    let mut line = "journal".to_string();
    for (word, value) in filter {
        line += &match value.is_empty() {
            true => format!(" {word}"),
            false => format!(" {word} {}", crate::names::quoted(value.as_bytes())),
        };
    }
    let failed = failed(options);
    writeln!(&asked.stream, "{}", sent(&line, options.json)).map_err(&failed)?;
    for row in asked.replies.by_ref().lines() {
        let row = row.map_err(&failed)?;
        if came(&row) == Came::Not {
            report(format!("{}: {row}", options.shown()));
            return Ok(WRONG);
        }
        if !is_row(&row, true) {
            return Ok(WELL);
        }
        writeln!(out, "{row}")?;
    }
    wrong(format!("{}: {ENDED}", options.shown()))
}

#[cfg(test)]
mod tests {
    use super::*;

    #[test]
    fn replies_are_told_apart() {
        assert!(came("17 0 GRANTED, order 7") == Came::Granted);
        assert!(came("17 15 SEPARATION, rule 1") == Came::Refused);
        assert!(came("wrong: line 1") == Came::Not && came("barred: x") == Came::Not);
        assert!(came("subject 4 of fritz") == Came::Answer);
        assert!(came("{\"number\":3,\"reply\":5}") == Came::Refused);
        assert!(came("{\"number\":3,\"reply\":0}") == Came::Granted);
        assert!(came("{\"barred\":\"x\"}") == Came::Not);
        assert!(came("{\"number\":3,\"reply\":5,\"time\":\"x\"}") == Came::Answer);
        assert!(is_row("      1  2026-11-16", true) && !is_row("3 rows of the journal", true));
        assert!(!is_row("{\"answer\":\"3 rows of the journal\"}", true));
        assert_eq!(status(WELL, Came::Refused, false), WELL);
        assert_eq!(status(WELL, Came::Refused, true), REFUSED);
        assert_eq!(status(REFUSED, Came::Not, true), WRONG);
        assert_eq!(status(WRONG, Came::Refused, true), WRONG);
    }
}
