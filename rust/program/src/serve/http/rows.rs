//! Rows of the journal on their way to a client: objects a line, sent as they are read, with each rule in words.

use super::problem::Problem;
use crate::source::Policy;
use hyper::body::Sender;
use hyper::Body;
use records::Reply;
use serde_json::{json, Value};
use std::io::{self, Write};
use tokio::runtime::Handle;
use tokio::sync::oneshot;

/// So much is sent at once.
const ROOM: usize = 1 << 16;

type First = Result<Body, Problem>;

pub struct Rows {
    policy: Policy,
    /// Whole lines that wait to be sent, and the line that is being written.
    whole: Vec<u8>,
    line: Vec<u8>,
    first: Option<oneshot::Sender<First>>,
    to: Option<Sender>,
    runtime: Handle,
}

impl Rows {
    /// Rows, and what comes first: the body, or why there is none.
    pub fn new(policy: Policy) -> (Rows, oneshot::Receiver<First>) {
        let (first, from) = oneshot::channel();
        let rows = Rows {
            policy,
            whole: Vec::new(),
            line: Vec::new(),
            first: Some(first),
            to: None,
            runtime: Handle::current(),
        };
        (rows, from)
    }

    /// Sends what waits. The client that reads slowly is waited for; one that has gone ends the listing.
    fn send(&mut self) -> io::Result<()> {
        if let Some(first) = self.first.take() {
            let (to, body) = Body::channel();
            self.to = Some(to);
            first
                .send(Ok(body))
                .map_err(|_| io::ErrorKind::BrokenPipe)?;
        }
        let bytes = std::mem::take(&mut self.whole);
        let Some(to) = &mut self.to else {
            return Err(io::ErrorKind::BrokenPipe.into());
        };
        let sent = self.runtime.block_on(to.send_data(bytes.into()));
        sent.map_err(|_| io::ErrorKind::BrokenPipe.into())
    }

    /// The end: what is left is sent, or it is told why there is no more.
    pub fn end(mut self, how: Result<(), Problem>) {
        match (how, self.first.take()) {
            (Ok(()), Some(first)) => {
                drop(first.send(Ok(Body::from(std::mem::take(&mut self.whole)))))
            }
            (Err(problem), Some(first)) => drop(first.send(Err(problem))),
            (Ok(()), None) => drop(self.send()),
            // A body that breaks off is no whole answer, and the client sees that.
            (Err(_), None) => {
                if let Some(to) = self.to.take() {
                    to.abort();
                }
            }
        }
    }

    /// A row with its rule in words, where it has one.
    fn with_words(&self) -> Option<String> {
        let mut row: Value = serde_json::from_slice(&self.line).ok()?;
        let place = row["rule"].as_u64().filter(|place| *place != 0)?;
        let reply = Reply::from_number(row["reply"].as_u64()?)?;
        row["rule_words"] = json!(self.policy.rule(reply, place as usize)?);
        Some(row.to_string())
    }
}

impl Write for Rows {
    fn write(&mut self, bytes: &[u8]) -> io::Result<usize> {
        for part in bytes.split_inclusive(|&byte| byte == b'\n') {
            self.line.extend_from_slice(part);
            if !part.ends_with(b"\n") {
                continue;
            }
            match self.with_words() {
                Some(text) => {
                    self.whole.extend(text.as_bytes());
                    self.whole.push(b'\n');
                }
                None => self.whole.extend(&self.line),
            }
            self.line.clear();
        }
        if self.whole.len() >= ROOM {
            self.send()?;
        }
        Ok(bytes.len())
    }

    fn flush(&mut self) -> io::Result<()> {
        Ok(())
    }
}
