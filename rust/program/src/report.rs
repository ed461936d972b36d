//! What is told to whoever runs the program, on standard error: a line a fact, as people read it, as pairs or as objects. Nobody may be
//! there to read it, or read it slowly: what only reports neither ends anything nor holds it up.

use crate::journal::time;
use serde_json::{json, Map, Value};
use std::fmt::Display;
use std::io::{stderr, Write};
use std::sync::atomic::{AtomicUsize, Ordering};
use std::sync::mpsc::{sync_channel, Receiver, SyncSender};
use std::sync::OnceLock;
use std::thread;
use std::time::{Duration, Instant, SystemTime, UNIX_EPOCH};

/// Lines that wait for the thread that writes them; what does not fit is left out, and how many were is reported.
const MOST: usize = 256;

static QUEUE: OnceLock<SyncSender<String>> = OnceLock::new();
static WAITING: AtomicUsize = AtomicUsize::new(0);
static LEFT_OUT: AtomicUsize = AtomicUsize::new(0);
static HOW: OnceLock<How> = OnceLock::new();

/// How grave a fact is, the gravest first.
#[derive(Clone, Copy, PartialEq, Eq, PartialOrd, Ord, Debug)]
pub enum Level {
    Error,
    Warn,
    Info,
    Debug,
}

impl Level {
    pub const NAMES: [&'static str; 4] = ["error", "warn", "info", "debug"];

    pub fn of_name(name: &str) -> Option<Level> {
        let at = Level::NAMES.iter().position(|of| *of == name)?;
        Some([Level::Error, Level::Warn, Level::Info, Level::Debug][at])
    }

    fn name(self) -> &'static str {
        Level::NAMES[self as usize]
    }
}

/// How a line is written.
#[derive(Clone, Copy, PartialEq, Eq, Debug)]
pub enum Form {
    /// For people: `mishantral: ..`.
    Text,
    /// `time=.. level=warn event=..`.
    Pairs,
    /// An object a line.
    Json,
}

impl Form {
    pub const NAMES: [&'static str; 3] = ["text", "pairs", "json"];

    pub fn of_name(name: &str) -> Option<Form> {
        let at = Form::NAMES.iter().position(|of| *of == name)?;
        Some([Form::Text, Form::Pairs, Form::Json][at])
    }
}

/// What is written, and how.
#[derive(Clone, Copy, Debug)]
pub struct How {
    pub level: Level,
    pub form: Form,
}

fn how() -> How {
    let usual = How {
        level: Level::Warn,
        form: Form::Text,
    };
    HOW.get().copied().unwrap_or(usual)
}

/// From now on facts down to this level are written in this form.
pub fn written(wanted: How) {
    let _ = HOW.set(wanted);
}

fn now() -> String {
    let since = SystemTime::now().duration_since(UNIX_EPOCH);
    let at = since.map_or(0, |since| since.as_micros() as i64);
    time(at).replacen(' ', "T", 1) + "Z"
}

/// A value of a pair: in quotes where a blank, a quote, an equals sign or nothing would make it another.
fn pair((name, value): (&str, &Value)) -> String {
    let text = match value {
        Value::String(text) => text.clone(),
        other => other.to_string(),
    };
    let plain = |c: char| !c.is_whitespace() && !c.is_control() && c != '"' && c != '=';
    match !text.is_empty() && text.chars().all(plain) {
        true => format!("{name}={text}"),
        false => format!("{name}={}", json!(text)),
    }
}

fn line(form: Form, level: Level, event: &str, fields: &[(&str, Value)]) -> String {
    let pairs = || fields.iter().map(|(name, value)| pair((name, value)));
    match form {
        Form::Text => {
            let words: Vec<String> = pairs().collect();
            let blank = if words.is_empty() { "" } else { " " };
            format!("mishantral: {event}{blank}{}", words.join(" "))
        }
        Form::Pairs => {
            let head = [
                ("time", json!(now())),
                ("level", json!(level.name())),
                ("event", json!(event)),
            ];
            let head = head.iter().map(|(name, value)| pair((name, value)));
            head.chain(pairs()).collect::<Vec<String>>().join(" ")
        }
        Form::Json => {
            let mut object = Map::new();
            object.insert("time".to_string(), json!(now()));
            object.insert("level".to_string(), json!(level.name()));
            object.insert("event".to_string(), json!(event));
            for (name, value) in fields {
                object.insert(name.to_string(), value.clone());
            }
            Value::Object(object).to_string()
        }
    }
}

/// Whether facts of this level are written.
pub fn is_written(level: Level) -> bool {
    level <= how().level
}

/// Tells a fact with its fields.
pub fn log(level: Level, event: &str, fields: &[(&str, Value)]) {
    if !is_written(level) {
        return;
    }
    let line = line(how().form, level, event, fields);
    let Some(queue) = QUEUE.get() else {
        return write(&line);
    };
    WAITING.fetch_add(1, Ordering::SeqCst);
    if queue.try_send(line).is_err() {
        WAITING.fetch_sub(1, Ordering::SeqCst);
        LEFT_OUT.fetch_add(1, Ordering::SeqCst);
    }
}

/// Tells what somebody should look at.
pub fn report(what: impl Display) {
    log(Level::Warn, &what.to_string(), &[]);
}

/// Tells what failed.
pub fn failed(what: impl Display) {
    log(Level::Error, &what.to_string(), &[]);
}

fn write(line: &str) {
    let _ = writeln!(stderr().lock(), "{line}");
}

/// From now on a thread of its own writes what is reported.
pub fn in_background() -> std::io::Result<()> {
    let (to, from): (_, Receiver<String>) = sync_channel(MOST);
    let work = move || {
        for one in from {
            write(&one);
            let left = LEFT_OUT.swap(0, Ordering::SeqCst);
            if left > 0 {
                let told = "lines were left out, since nobody read them in time";
                write(&line(
                    how().form,
                    Level::Warn,
                    told,
                    &[("count", json!(left))],
                ));
            }
            WAITING.fetch_sub(1, Ordering::SeqCst);
        }
    };
    thread::Builder::new().spawn(work)?;
    let _ = QUEUE.set(to);
    Ok(())
}

/// Waits a little until what was reported is written.
pub fn drained() {
    let began = Instant::now();
    while WAITING.load(Ordering::SeqCst) > 0 && began.elapsed() < Duration::from_millis(500) {
        thread::sleep(Duration::from_millis(1));
    }
}

#[cfg(test)]
mod tests {
    use super::*;

    #[test]
    fn a_fact_is_a_line_in_each_form() {
        let fields = [
            ("account", json!("anna b")),
            ("status", json!(403)),
            ("path", json!("/x?a=1")),
            ("id", json!(null)),
        ];
        let said = |form| line(form, Level::Info, "barred", &fields);
        assert_eq!(
            said(Form::Text),
            "mishantral: barred account=\"anna b\" status=403 path=\"/x?a=1\" id=null"
        );
        let pairs = said(Form::Pairs);
        assert!(
            pairs.starts_with("time=20")
                && pairs.contains("Z level=info event=barred account=\"anna b\" status=403 "),
            "{pairs}"
        );
        let object: Value = serde_json::from_str(&said(Form::Json)).unwrap();
        assert_eq!(
            (&object["event"], &object["level"], &object["status"]),
            (&json!("barred"), &json!("info"), &json!(403))
        );
        assert_eq!(
            line(Form::Text, Level::Warn, "the disk is full", &[]),
            "mishantral: the disk is full"
        );
        let two = line(Form::Pairs, Level::Warn, "two\nlines", &[]);
        assert_eq!(two.lines().count(), 1, "{two}");
        assert!(Level::Error < Level::Debug && Level::of_name("info") == Some(Level::Info));
    }
}
