//! Requests that are sent again, with their keys, when a connection is lost.

use super::{again, came, failed, is_blank, is_question, is_row, sent, status};
use super::{Asked, Lines, Options, ENDED};
use crate::report::report;
use crate::stop::{Done, Stop, WELL, WRONG};
use serde_json::{json, Value};
use std::collections::VecDeque;
use std::fs::File;
use std::io::{self, BufRead, Read, Write};
use std::net::Shutdown;
use std::os::unix::net::UnixStream;
use std::sync::{Arc, Condvar, Mutex, MutexGuard, PoisonError};
use std::thread;

/// Keys of this run: a random word and a number.
pub struct Keys {
    word: String,
    count: u64,
}

impl Keys {
    pub fn new() -> io::Result<Keys> {
        let mut random = [0; 12];
        File::open("/dev/urandom")?.read_exact(&mut random)?;
        let word = random.iter().map(|byte| format!("{byte:02x}")).collect();
        Ok(Keys { word, count: 0 })
    }

    /// A line as it is sent, with a key where it is a request that has none.
    pub fn keyed(&mut self, line: &str, json: bool) -> String {
        let line = line.trim_start_matches('\u{feff}');
        let sent = sent(line, json);
        if !sent.trim_start().starts_with('{') {
            let own = is_question(line) || line.trim_start().starts_with("key=");
            return match own {
                true => sent,
                false => format!("key={} {}", self.next(), sent.trim_start()),
            };
        }
        let Ok(mut object) = serde_json::from_str::<Value>(&sent) else {
            return sent;
        };
        let question = object["request"].as_str().is_some_and(is_question);
        if question || !object.is_object() || object.get("key").is_some() {
            return sent;
        }
        object["key"] = json!(self.next());
        object.to_string()
    }

    fn next(&mut self) -> String {
        self.count += 1;
        format!("{}-{}", self.word, self.count)
    }
}

/// A line without the key that it begins with.
pub fn without_key(line: &str) -> &str {
    match line.trim_start().strip_prefix("key=") {
        Some(rest) => rest
            .split_once(char::is_whitespace)
            .map_or("", |(_, rest)| rest.trim_start()),
        None => line,
    }
}

/// Whether a line asks for rows of the journal, of which there may be many.
pub fn is_listing(line: &str) -> bool {
    let said = match serde_json::from_str::<Value>(line) {
        Ok(object) => object["request"].as_str().unwrap_or_default().to_string(),
        Err(_) => line.to_string(),
    };
    said.split_whitespace().next() == Some("journal")
}

/// Whether a server says by this line that the desk has ended, or is elsewhere now: it answers nothing more.
pub fn is_end(line: &str) -> bool {
    let Some(why) = line.strip_prefix("wrong: ") else {
        return false;
    };
    let of_one = why
        .strip_prefix("desk ")
        .and_then(|rest| rest.split_once(' '));
    why.starts_with("the desk has ended")
        || of_one
            .is_some_and(|(_, rest)| rest.starts_with("has ended") || rest.starts_with("is served"))
}

/// So many lines may be on their way.
const WINDOW: usize = 1024;

/// What is on its way.
struct Way {
    stream: Arc<UnixStream>,
    unanswered: VecDeque<String>,
    /// No further line comes.
    over: bool,
}

#[derive(Clone)]
struct Shared(Arc<(Mutex<Way>, Condvar)>);

impl Shared {
    fn way(&self) -> MutexGuard<'_, Way> {
        self.0 .0.lock().unwrap_or_else(PoisonError::into_inner)
    }

    /// Sends every line. What cannot be sent is sent again by whoever notices that the server is gone.
    fn send(&self, lines: Lines, mut keys: Keys, json: bool) -> io::Result<()> {
        for line in lines {
            let line = line?;
            if is_blank(&line) {
                continue;
            }
            let line = keys.keyed(&line, json);
            let mut way = self.way();
            while way.unanswered.len() >= WINDOW {
                way = self.0 .1.wait(way).unwrap_or_else(PoisonError::into_inner);
            }
            way.unanswered.push_back(line.clone());
            let stream = way.stream.clone();
            drop(way);
            let _ = (&*stream).write_all(format!("{line}\n").as_bytes());
        }
        let mut way = self.way();
        way.over = true;
        let _ = way.stream.shutdown(Shutdown::Write);
        Ok(())
    }

    /// A line is answered.
    fn answered(&self) {
        self.way().unanswered.pop_front();
        self.0 .1.notify_one();
    }

    /// Whether the next reply is to a question for rows of the journal.
    fn is_listing(&self) -> bool {
        let way = self.way();
        way.unanswered.front().is_some_and(|line| is_listing(line))
    }

    /// Sends what was not answered by a new connection.
    fn resend(&self, asked: &Asked) -> io::Result<()> {
        let mut way = self.way();
        let stream = Arc::new(asked.stream.try_clone()?);
        let all: String = way.unanswered.iter().flat_map(|l| [l, "\n"]).collect();
        (&*stream).write_all(all.as_bytes())?;
        if way.over {
            stream.shutdown(Shutdown::Write)?;
        }
        way.stream = stream;
        Ok(())
    }
}

/// Replies are read while requests are sent, so that neither side waits for the other to read.
pub fn at_once(
    options: &Options,
    mut asked: Asked,
    keys: Keys,
    lines: Lines,
    out: &mut dyn Write,
) -> Done {
    let failed = failed(options);
    let stream = Arc::new(asked.stream.try_clone().map_err(&failed)?);
    let way = Way {
        stream,
        unanswered: VecDeque::new(),
        over: false,
    };
    let shared = Shared(Arc::new((Mutex::new(way), Condvar::new())));
    let (sending, json) = (shared.clone(), options.json);
    let sender = thread::spawn(move || sending.send(lines, keys, json));
    let (mut worst, mut rows) = (WELL, false);
    loop {
        let mut reply = String::new();
        let read = asked.replies.read_line(&mut reply);
        let reply = reply.trim_end();
        if read.is_ok_and(|read| read > 0) && !is_end(reply) {
            rows = is_row(reply, shared.is_listing());
            if !rows {
                shared.answered();
            }
            worst = status(worst, came(reply), options.strict);
            writeln!(out, "{reply}")?;
            out.flush()?;
            continue;
        }
        let way = shared.way();
        let done = way.over && way.unanswered.is_empty();
        drop(way);
        if done {
            break;
        }
        // Rows that were shown are not shown again.
        let came = if rows {
            Err(Stop::Wrong(vec![format!("{}: {ENDED}", options.shown())]))
        } else {
            again(options)
        };
        match came {
            Ok(new) => {
                asked = new;
                // Where that is lost too, the next reply says so.
                let _ = shared.resend(&asked);
            }
            Err(why) => return lost(reply, why, &shared),
        }
    }
    match sender.join() {
        Ok(Ok(())) => Ok(worst),
        Ok(Err(why)) => Err(Stop::Wrong(vec![format!("standard input: {why}")])),
        Err(_) => Err(Stop::Wrong(vec![
            "standard input could not be sent".to_string()
        ])),
    }
}

/// Tells what was not answered, with the keys by which it may be sent again.
fn lost(said: &str, why: Stop, shared: &Shared) -> Done {
    if !said.is_empty() {
        report(said);
    }
    if let Stop::Wrong(lines) = why {
        lines.iter().for_each(report);
    }
    for line in &shared.way().unanswered {
        report(format!("not answered, and may be sent again: {line}"));
    }
    Ok(WRONG)
}

#[cfg(test)]
mod tests {
    use super::*;

    #[test]
    fn requests_get_keys_and_questions_none() {
        let mut keys = Keys {
            word: "w".to_string(),
            count: 0,
        };
        assert_eq!(
            keys.keyed("claim 1 7 sign", false),
            "key=w-1 claim 1 7 sign"
        );
        assert_eq!(
            keys.keyed("key=own claim 1 7 sign", false),
            "key=own claim 1 7 sign"
        );
        assert_eq!(keys.keyed("who mill sign", false), "who mill sign");
        let object: Value = serde_json::from_str(&keys.keyed("end order 7", true)).unwrap();
        assert_eq!(object, json!({"request": "end order 7", "key": "w-2"}));
        let question = "{\"request\":\"finish all\"}";
        assert_eq!(keys.keyed(question, true), question);
        assert_eq!(keys.keyed("{nothing", false), "{nothing");
        assert_eq!(without_key("key=3 claim 1 7 sign"), "claim 1 7 sign");
        assert!(Keys::new().unwrap().word != Keys::new().unwrap().word);
    }

    #[test]
    fn an_ended_desk_is_no_reply() {
        assert!(is_end(
            "wrong: the desk has ended, since its journal failed"
        ));
        assert!(is_end("wrong: desk mill has ended") && is_end("wrong: desk mill is served by b"));
        assert!(!is_end("wrong: desk mill is a name") && !is_end("1 0 GRANTED"));
        assert!(!is_end("not done: the desk is ending"));
    }
}
