//! The desk program (docs/RULES.md) on the plain engine. It loads `policy.rec`, then reads requests from standard input and
//! answers each one at once.
//!
//! Exit status: 0 if the load was accepted, 1 if it was refused, 2 if a read or a write failed.

use plain::{Engine, Reply, RECORD};
use std::fs::File;
use std::io::{self, BufReader, BufWriter, Read, Write};
use std::process::ExitCode;

/// The longest policy file that the program accepts, in bytes.
const LONGEST: u64 = 65_536;

/// The bytes of the policy file; `None` if it is too long or cannot be read.
fn policy() -> Option<Vec<u8>> {
    let mut bytes = Vec::new();
    let file = File::open("policy.rec").ok()?;
    file.take(LONGEST + 1).read_to_end(&mut bytes).ok()?;
    (bytes.len() as u64 <= LONGEST).then_some(bytes)
}

/// Loads the policy and answers the requests; returns whether the load was accepted.
fn run() -> io::Result<bool> {
    let mut out = BufWriter::new(io::stdout().lock());
    let mut engine: Engine = Engine::new();
    let (reply, place) = policy().map_or((Reply::Room, 0), |bytes| engine.load(&bytes));
    writeln!(out, "load {} {place}", reply.number())?;
    if reply != Reply::Granted {
        return out.flush().map(|()| false);
    }
    let mut requests = BufReader::new(io::stdin().lock());
    for place in 1u64.. {
        // Write the answers so far before a read that may block.
        if requests.buffer().len() < RECORD {
            out.flush()?;
        }
        let mut record = Vec::with_capacity(RECORD);
        requests
            .by_ref()
            .take(RECORD as u64)
            .read_to_end(&mut record)?;
        if record.is_empty() {
            break;
        }
        let (reply, rule) = engine.request(&record);
        writeln!(out, "{place} {} {rule}", reply.number())?;
    }
    out.flush().map(|()| true)
}

fn main() -> ExitCode {
    match run() {
        Ok(true) => 0.into(),
        Ok(false) => 1.into(),
        Err(why) => {
            eprintln!("plain-desk: {why}");
            2.into()
        }
    }
}
