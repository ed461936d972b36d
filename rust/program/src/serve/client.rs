//! One client: what it sends is read, asked in batches and answered in order. What it does wrong is told to it alone.

use super::accept::House;
use super::account::Who;
use super::door::{Door, Entered};
use super::form::{self, Item, Shown};
use super::greeting::{greeted, Form, Greeted};
use super::group::{Asked, Back, Batch, Waiting};
use super::input::{Cut, Input, Keyed};
use super::keys;
use super::question::{self, Asks, Unanswered};
use crate::journal::{self, Barred, Bytes};
use nix::unistd::Uid;
use std::io::{self, Read, Write};
use std::os::unix::net::UnixStream;
use std::sync::mpsc::{sync_channel, Receiver};
use std::sync::Arc;
use std::time::Duration;

/// How many requests of a client go into one batch at most.
const MOST: usize = 1024;

/// A connection, of which there is one descriptor.
#[derive(Clone)]
pub struct Stream(pub Arc<UnixStream>);

impl Read for Stream {
    fn read(&mut self, room: &mut [u8]) -> io::Result<usize> {
        (&*self.0).read(room)
    }
}

impl Write for Stream {
    fn write(&mut self, bytes: &[u8]) -> io::Result<usize> {
        (&*self.0).write(bytes)
    }

    fn flush(&mut self) -> io::Result<()> {
        Ok(())
    }
}

/// A client's connection to its desk.
struct Client<'a> {
    number: i64,
    who: Arc<Who>,
    house: &'a House,
    door: Arc<Door>,
    _entered: Entered,
    input: Input<Stream>,
    out: Stream,
    /// The lines so far.
    lines: u64,
    items: Vec<Item>,
    asked: Vec<Asked>,
    /// A batch comes back by this channel; its other end goes with it.
    back: (Option<Back>, Receiver<Batch>),
}

/// Serves a client until it ends, or its desk does.
pub fn serve(stream: &Arc<UnixStream>, number: i64, uid: Uid, house: &House) -> io::Result<()> {
    stream.set_write_timeout(Some(house.patience))?;
    let who = house.gate.who(uid);
    let mut out = Stream(stream.clone());
    let input = Input::new(out.clone());
    let Some(greeted) = greeted(input, &mut out, house, who, number)? else {
        return Ok(());
    };
    let Greeted {
        who,
        door,
        input,
        form,
        lines,
    } = greeted;
    let entered = match door.enter(number, stream) {
        Ok(entered) => entered,
        Err(why) => return writeln!(out, "wrong: {why}"),
    };
    let (to, from) = sync_channel(1);
    let client = Client {
        number,
        who: Arc::new(who),
        house,
        door,
        _entered: entered,
        input,
        out,
        lines,
        items: Vec::new(),
        asked: Vec::new(),
        back: (Some(Back::Thread(to)), from),
    };
    match form {
        Form::Lines => client.lines(),
        Form::Records => client.records(),
        Form::Keyed => client.keyed(),
    }
}

/// A desk that has ended answers nothing more.
fn ended() -> io::Error {
    io::Error::other("the desk has ended")
}

impl Client<'_> {
    fn records(mut self) -> io::Result<()> {
        loop {
            while self.asked.len() < MOST {
                let Some(record) = self.input.record() else {
                    break;
                };
                self.ask(Asked::of(&record, Vec::new()), Shown::Record);
            }
            if !self.answered()? && !self.next()? {
                return Ok(());
            }
        }
    }

    /// Records, each with its key behind it.
    fn keyed(mut self) -> io::Result<()> {
        loop {
            while self.asked.len() < MOST {
                let Some(Keyed { record, key }) = self.input.keyed() else {
                    break;
                };
                let mut asked = Asked::of(&record, Vec::new());
                match key
                    .filter(|key| !key.is_empty())
                    .map(|key| keys::key_of(&key))
                {
                    None => {}
                    Some(Ok(key)) => asked.key = Some(key),
                    Some(Err(why)) => asked.unread = Some(why),
                }
                self.ask(asked, Shown::Record);
            }
            if !self.answered()? && !self.next()? {
                return Ok(());
            }
        }
    }

    fn lines(mut self) -> io::Result<()> {
        let served = self.each_line();
        // Whoever has not gone is told why there is no more.
        let broken = served
            .as_ref()
            .is_err_and(|why| why.kind() == io::ErrorKind::Other);
        if let Some(why) = self.why_ended(broken) {
            let _ = writeln!(self.out, "wrong: {why}");
        }
        served
    }

    /// Why the desk has ended, if it has. One that broke off in the middle says so in a moment.
    fn why_ended(&self, broken: bool) -> Option<String> {
        for _ in 0..50 {
            let why = self.door.ended();
            if why.is_some() || !broken {
                return why;
            }
            std::thread::sleep(Duration::from_millis(10));
        }
        Some(ended().to_string())
    }

    fn each_line(&mut self) -> io::Result<()> {
        loop {
            while self.asked.len() < MOST {
                let Some(line) = self.input.line() else {
                    break;
                };
                // What follows a line that gives names, or asks a question, is read when that is answered.
                if self.line(line)? {
                    break;
                }
            }
            if !self.answered()? && !self.next()? {
                return Ok(());
            }
        }
    }

    /// Waits for more where there is nothing to answer; whether to go on.
    fn next(&mut self) -> io::Result<bool> {
        if self.input.ended() {
            return Ok(false);
        }
        self.input.fill()?;
        Ok(true)
    }

    /// Takes one line; whether the next one waits until this is answered.
    fn line(&mut self, line: Cut) -> io::Result<bool> {
        self.lines += 1;
        let Cut::Line(line) = line else {
            self.wrong("it is longer than 65536 bytes", Shown::Line);
            return Ok(false);
        };
        let line = line.strip_suffix(b"\r").unwrap_or(&line);
        let line = match self.lines {
            1 => line.strip_prefix(b"\xef\xbb\xbf").unwrap_or(line),
            _ => line,
        };
        if line.first() == Some(&b'{') {
            return self.object(line);
        }
        match keys::of_line(line) {
            Ok((key, line)) => self.said(line, key, Shown::Line),
            Err(why) => {
                self.wrong(&why, Shown::Line);
                Ok(false)
            }
        }
    }

    fn object(&mut self, line: &[u8]) -> io::Result<bool> {
        match form::of_object(line) {
            (Ok((form::Said::Line(text), key)), id) => {
                self.said(text.as_bytes(), key, Shown::Object(id))
            }
            (Ok((form::Said::Record(bytes), key)), id) => {
                let mut asked = Asked::of(&bytes, Vec::new());
                asked.key = key;
                Ok(self.ask(asked, Shown::Object(id)))
            }
            (Err(why), id) => {
                self.wrong(&why, Shown::Object(id));
                Ok(false)
            }
        }
    }

    /// Takes what a line says: a question, or a request.
    fn said(&mut self, line: &[u8], key: form::Key, shown: Shown) -> io::Result<bool> {
        match question::of_line(line) {
            None => {}
            Some(Err(how)) => {
                self.wrong(&format!("column 1: a question is asked so: {how}"), shown);
                return Ok(false);
            }
            Some(Ok(asks)) => {
                self.answered()?;
                self.questioned(asks, line, shown)?;
                return Ok(true);
            }
        }
        let read = form::of_line(line, &self.door.live());
        match read {
            Ok(None) if matches!(shown, Shown::Line) && key.is_none() => Ok(false),
            Ok(None) => {
                self.wrong("the request is empty", shown);
                Ok(false)
            }
            Ok(Some(mut asked)) => {
                asked.key = key;
                Ok(self.ask(asked, shown))
            }
            // Names may have ended since it was first sent: what is known under its key is answered all the same.
            Err(why) if key.is_some() => {
                let mut asked = Asked::of(&[], Vec::new());
                (asked.key, asked.choose) = (key, form::choice_of(line));
                asked.unread = Some(format!("line {}, {why}", self.lines));
                Ok(self.ask(asked, shown))
            }
            Err(why) => {
                self.wrong(&why, shown);
                Ok(false)
            }
        }
    }

    /// Puts a request into the batch; whether it gives names.
    fn ask(&mut self, asked: Asked, shown: Shown) -> bool {
        let gives = !asked.namings.is_empty();
        self.items.push(Item::Request(self.asked.len(), shown));
        self.asked.push(asked);
        gives
    }

    fn wrong(&mut self, why: &str, shown: Shown) {
        let why = format!("line {}, {why}", self.lines);
        self.items.push(Item::Wrong(why, shown));
    }

    /// Has the batch answered and its replies sent; whether there was anything to answer.
    fn answered(&mut self) -> io::Result<bool> {
        if self.items.is_empty() {
            return Ok(false);
        }
        let mut failed = None;
        if !self.asked.is_empty() {
            let asked = std::mem::take(&mut self.asked);
            let batch = self.asks(asked)?;
            (self.asked, failed) = (batch.asked, batch.failed);
            self.back.0 = Some(batch.back);
        }
        let mut replies = Vec::new();
        let live = self.door.live();
        for item in self.items.drain(..) {
            replies.extend(match item {
                Item::Request(at, shown) => {
                    form::reply(&self.asked[at], &shown, failed.as_deref(), &live)
                }
                Item::Wrong(why, shown) => form::wrong(&why, &shown),
                Item::Told(told) => told,
            });
        }
        drop(live);
        self.asked.clear();
        self.out.write_all(&replies)?;
        Ok(true)
    }

    /// Sends a batch to the desk and waits for it.
    fn asks(&mut self, asked: Vec<Asked>) -> io::Result<Batch> {
        let back = self.back.0.take().ok_or_else(ended)?;
        let batch = Batch {
            client: self.number,
            who: self.who.clone(),
            asked,
            failed: None,
            back,
        };
        let to = &self.door.to;
        to.send(Waiting::Requests(batch)).map_err(|_| ended())?;
        self.back.1.recv().map_err(|_| ended())
    }

    /// Answers a question, where the account may ask it.
    fn questioned(&mut self, asks: Asks, line: &[u8], shown: Shown) -> io::Result<()> {
        let may = match &asks {
            Asks::Journal(_) => self.who.may_read(),
            _ => self.who.may_question(),
        };
        if let Err(why) = may.and_then(|()| self.may_explain(&asks)) {
            let told = self.barred(line, None, why);
            self.items.push(Item::Told(form::told(&told, &shown)));
            return Ok(());
        }
        if let Asks::Journal(words) = asks {
            return self.listed(&words, shown);
        }
        let json = matches!(shown, Shown::Object(_));
        let pool = &self.house.pool;
        let answer = pool.ask(&self.who, &self.door, asks, json, &self.out.0);
        let told = match answer {
            Ok(answer) => form::answer(&answer, &shown),
            Err(Unanswered::Wrong(why)) => form::wrong(&why, &shown),
            Err(Unanswered::Gone) => return Err(io::ErrorKind::BrokenPipe.into()),
        };
        self.items.push(Item::Told(told));
        Ok(())
    }

    /// Why a request is refused is told to those who may make it.
    fn may_explain(&self, asks: &Asks) -> Result<(), String> {
        let Asks::Why(line) = asks else {
            return Ok(());
        };
        let live = self.door.live();
        let Ok(Some(asked)) = form::of_line(line.as_bytes(), &live) else {
            return Ok(());
        };
        drop(live);
        match asked.bytes.record() {
            Some(record) => self.door.may(&self.who, record),
            None => Ok(()),
        }
    }

    /// Keeps in the journal that an account may not ask something; what it is told.
    fn barred(&self, asked: &[u8], record: Option<Bytes>, why: String) -> form::Denied {
        let barred = Barred {
            at: 0,
            client: self.number,
            account: self.who.account.clone(),
            via: self.who.via.clone(),
            record,
            asked: String::from_utf8_lossy(asked).into_owned(),
            why: why.clone(),
        };
        match self.door.keep(barred) {
            true => form::Denied::Barred(why),
            false => form::Denied::NotDone("it could not be kept in the journal".to_string()),
        }
    }

    /// Writes rows of the journal as they are read, and a last line that says how many.
    fn listed(&mut self, words: &[String], shown: Shown) -> io::Result<()> {
        let told = |why: String| Item::Told(form::wrong(&why, &shown));
        let filter = match journal::Filter::of_words(words) {
            Ok(filter) => filter,
            Err(why) => {
                self.items.push(told(why));
                return Ok(());
            }
        };
        let Some(file) = self.door.journal.clone() else {
            let why = "this desk has no journal".to_string();
            self.items.push(told(why));
            return Ok(());
        };
        let filter = journal::Filter {
            json: matches!(shown, Shown::Object(_)),
            ..filter
        };
        let mut counted = Counted(io::BufWriter::with_capacity(1 << 16, self.out.clone()), 0);
        match journal::list(&file, &filter, &mut counted) {
            Ok(_) => {
                counted.0.flush()?;
                let rows = counted.1;
                let told = form::answer(&format!("{rows} rows of the journal"), &shown);
                self.items.push(Item::Told(told));
                Ok(())
            }
            Err(crate::stop::Stop::Quiet) => Err(io::ErrorKind::BrokenPipe.into()),
            Err(crate::stop::Stop::Wrong(why) | crate::stop::Stop::Refused(why)) => {
                counted.0.flush()?;
                self.items.push(told(why.join("; ")));
                Ok(())
            }
        }
    }
}

/// Lines on their way to a client, counted.
struct Counted(io::BufWriter<Stream>, u64);

impl Write for Counted {
    fn write(&mut self, bytes: &[u8]) -> io::Result<usize> {
        let written = self.0.write(bytes)?;
        self.1 += bytes[..written].iter().filter(|&&b| b == b'\n').count() as u64;
        Ok(written)
    }

    fn flush(&mut self) -> io::Result<()> {
        self.0.flush()
    }
}
